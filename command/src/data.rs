//! Data terms as text, with the brackets that they need.

use crate::stream::Term;

/// How tight a term binds: `\/`, `/\`, `==`, `!`, and all else.
fn tightness(term: &Term) -> u8 {
    match term {
        Term::Joined("\\/", _) => 0,
        Term::Joined("/\\", _) => 1,
        Term::Joined(..) => 2,
        Term::Not(_) => 3,
        _ => 4,
    }
}

/// A term, with these names for variables and functions; a number where there is no name.
pub fn shown(term: &Term, variables: &[String], functions: &[String]) -> String {
    let named = |names: &[String], number: usize| match names.get(number) {
        Some(name) => name.clone(),
        None => number.to_string(),
    };
    let operand = |term: &Term, least: u8| {
        let text = shown(term, variables, functions);
        match tightness(term) < least {
            true => format!("({text})"),
            false => text,
        }
    };
    match term {
        Term::Value(value) => value.to_string(),
        Term::Variable(number) => named(variables, *number),
        Term::Apply(number, data) => {
            let data = data.iter().map(|term| shown(term, variables, functions));
            applied(&named(functions, *number), &data.collect::<Vec<_>>())
        }
        Term::Not(inner) => format!("!{}", operand(inner, 3)),
        Term::Joined(mark, sides) => {
            let [left, right] = &**sides;
            let least = tightness(term);
            // `==` does not chain, and the others group to the left
            let left = operand(left, if *mark == "==" { 3 } else { least });
            format!("{left} {mark} {}", operand(right, least + 1))
        }
    }
}

/// A name with data behind it, where there are any.
pub fn applied(name: &str, data: &[String]) -> String {
    match data {
        [] => name.to_string(),
        _ => format!("{name}({})", data.join(",")),
    }
}

#[cfg(test)]
mod tests {
    use super::*;

    fn joined(mark: &'static str, left: Term, right: Term) -> Term {
        Term::Joined(mark, Box::new([left, right]))
    }

    #[test]
    fn brackets_only_where_they_are_needed() {
        let x = || Term::Variable(0);
        let names = ["x".to_string()];
        let and = || joined("/\\", x(), x());
        let equal = || joined("==", x(), x());
        for (term, wanted) in [
            (Term::Apply(0, vec![x(), Term::Value(3)]), "f(x,3)"),
            (joined("/\\", and(), x()), "x /\\ x /\\ x"),
            (joined("/\\", x(), and()), "x /\\ (x /\\ x)"),
            (joined("\\/", and(), and()), "x /\\ x \\/ x /\\ x"),
            (joined("==", equal(), equal()), "(x == x) == (x == x)"),
            (joined("==", Term::Not(Box::new(x())), x()), "!x == x"),
            (Term::Not(Box::new(equal())), "!(x == x)"),
            (Term::Not(Box::new(Term::Not(Box::new(x())))), "!!x"),
            (Term::Variable(7), "7"),
        ] {
            assert_eq!(shown(&term, &names, &["f".to_string()]), wanted);
        }
    }
}
