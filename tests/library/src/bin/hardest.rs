//! Looks for the conditions that a question takes longest to try: changes the dearest ones and keeps what is dearer.
//! `cargo run --release --offline --bin hardest [SECONDS [SEED]]` prints the dearest, and how long a whole table of them takes.

use std::time::{Duration, Instant};

use library::common::random::Random;
use library::questions::{tested, Question};
use library::stepping::{ask, Answer};
use library::timing::least;
use library::words::number;

/// So many of the dearest are kept.
const KEPT: usize = 12;

/// After so many tries they are priced anew.
const AGAIN: u32 = 1000;

/// The most nodes of a condition.
const NODES: usize = 31;

/// As many summands as a table holds.
const WHOLE: usize = 230;

/// A data term: a variable, or a function or an operator of others.
#[derive(Clone)]
struct Term {
    name: &'static str,
    parts: Vec<Term>,
}

type Priced = (Duration, Term);

impl Term {
    fn nodes(&self) -> usize {
        1 + self.parts.iter().map(Term::nodes).sum::<usize>()
    }

    fn is_test(&self) -> bool {
        !["p", "q", "r", "s", "f", "g"].contains(&self.name)
    }

    fn text(&self) -> String {
        let parts: Vec<String> = self.parts.iter().map(Term::text).collect();
        match self.name {
            "!" => format!("!{}", parts[0]),
            "/\\" | "==" => format!("({}{}{})", parts[0], self.name, parts[1]),
            name if parts.is_empty() => name.to_string(),
            name => format!("{name}({})", parts.join(",")),
        }
    }

    /// The same with another term of the same size in place of that at a place.
    fn changed(&self, random: &mut Random, at: usize) -> Term {
        if at == 0 {
            return term(random, self.is_test(), self.nodes());
        }
        let (mut parts, mut before) = (self.parts.clone(), 1);
        for part in &mut parts {
            if (before..before + part.nodes()).contains(&at) {
                *part = part.changed(random, at - before);
                break;
            }
            before += part.nodes();
        }
        Term {
            name: self.name,
            parts,
        }
    }
}

/// A term of so many nodes, a test or a value.
fn term(random: &mut Random, is_test: bool, nodes: usize) -> Term {
    let names: &[&str] = match (is_test, nodes) {
        (false, 1) => &["p", "q", "r", "s", "s"],
        (false, 2) => &["g"],
        (false, _) => &["f", "f", "g"],
        (true, ..=4) => &["t"],
        (true, ..=7) => &["t", "even", "!", "=="],
        (true, _) => &["t", "t", "even", "!", "/\\", "and", "=="],
    };
    let name = *random.pick(names);
    let parts = match name {
        "p" | "q" | "r" | "s" => vec![],
        "g" | "t" | "even" => vec![term(random, false, nodes - 1)],
        "!" => vec![term(random, true, nodes - 1)],
        joining => {
            let tests = ["/\\", "and"].contains(&joining);
            let least = if tests { 3 } else { 1 };
            let first = least + random.below(nodes - 2 * least);
            let rest = nodes - 1 - first;
            vec![term(random, tests, first), term(random, tests, rest)]
        }
    };
    Term { name, parts }
}

/// How long a question takes, by a few calls.
fn time(question: &Question, calls: u32) -> Duration {
    let mut call = || {
        let (mut frames, mut depth) = (question.frames.clone(), 1);
        let mut answer = Answer::plain(0);
        ask(
            &question.file,
            &mut frames,
            &mut depth,
            question.k,
            &mut answer,
        );
    };
    least(&mut call, calls)
}

/// Where there is no such table, nothing.
fn price(test: &Term, calls: u32) -> Duration {
    let question = tested(&test.text(), 1);
    question.map_or(Duration::ZERO, |question| time(&question, calls))
}

/// Keeps the dearest, each once.
fn keep(kept: &mut Vec<Priced>, one: Priced) {
    kept.push(one);
    kept.sort_by_key(|one| std::cmp::Reverse(one.0));
    kept.dedup_by_key(|one| one.1.text());
    kept.truncate(KEPT);
}

/// Of many prices some are too high by chance, and those would be kept: all are priced anew.
fn again(kept: &[Priced], calls: u32) -> Vec<Priced> {
    let mut anew = Vec::new();
    for (_, test) in kept {
        keep(&mut anew, (price(test, calls), test.clone()));
    }
    anew
}

fn main() {
    let (seconds, mut random) = (number(0, 60), Random::new(number(1, 1)));
    let mut kept = Vec::new();
    for _ in 0..10 * KEPT {
        let test = term(&mut random, true, NODES);
        keep(&mut kept, (price(&test, 2), test));
    }
    let (end, mut tried) = (Instant::now() + Duration::from_secs(seconds), 0u32);
    while Instant::now() < end {
        if tried % AGAIN == 0 {
            kept = again(&kept, 5);
        }
        let old = random.pick(&kept).1.clone();
        let place = random.below(NODES);
        let test = old.changed(&mut random, place);
        tried += 1;
        let fewest = kept[kept.len() - 1].0;
        if price(&test, 1) > fewest && price(&test, 3) > fewest {
            keep(&mut kept, (price(&test, 5), test));
        }
    }
    for (one, test) in again(&kept, 9) {
        let text = test.text();
        let whole = tested(&text, WHOLE).map(|question| time(&question, 2));
        println!("{one:?}, a whole table {whole:?}: {text}");
    }
    println!("{tried} tried");
}
