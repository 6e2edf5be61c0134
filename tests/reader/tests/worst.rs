//! Sheets, files and terms that would cost most, each answered at once on a stack of 1 MiB.

mod common;

use std::time::Duration;

use common::worst::{self, chain};
use common::{repeated, slow, table, within};
use reader::{all_steps, step, walk, Terms, Transitions};

const AT_ONCE: Duration = Duration::from_millis(500);

/// The verdict, 0 for accepted, within the time and on the small stack.
fn verdict(sheet: Vec<u8>) -> u8 {
    within(AT_ONCE, move || {
        let refusal = reader::make_table(&sheet).err();
        let walk = walk(&sheet);
        let refused = refusal.map(|number| format!("refused {number}\n"));
        assert!(refused.is_none_or(|text| text == walk));
        refusal.unwrap_or(0)
    })
}

#[test]
fn sheets_are_answered_at_once() {
    for case in [worst::sheets(), slow::sheets()].concat() {
        assert_eq!(verdict(case.sheet), case.wanted, "{}", case.what);
    }
}

#[test]
fn terms_without_heads_are_left_untried() {
    within(AT_ONCE, || {
        let open: String = (0..16).map(|i| format!("sum(v{i}:S,")).collect();
        let declared = "sort S 16;act a;";
        let body = format!("{open}delta{}", ")".repeat(16));
        let text = format!("{declared}proc X=a.Y;proc Y={body};init X;");
        let sheet = reader::check_sheet(text.as_bytes()).unwrap();
        let terms = Terms::of(&sheet);
        let steps = terms.steps(&terms.start());
        assert_eq!(steps.len(), 1);
        assert_eq!(terms.steps(&steps[0].1), []);
        let chained = chain("act a;", "", |next| repeated(next, 110, "+"), "delta") + "init A;";
        let sheet = reader::check_sheet(chained.as_bytes()).unwrap();
        let terms = Terms::of(&sheet);
        assert_eq!(terms.steps(&terms.start()), []);
    });
}

#[test]
fn a_term_of_two_thousand_parts() {
    within(AT_ONCE, || {
        let sheet = reader::check_sheet(b"act a;proc X=a;init X;").unwrap();
        let terms = Terms::of(&sheet);
        let mut term = terms.read(repeated("a", 2000, ".").as_bytes()).unwrap();
        for left in (1990..2000).rev() {
            let [(_, next)] = &terms.steps(&term)[..] else {
                panic!("one step");
            };
            term = next.clone();
            assert_eq!(term.parts.len(), left);
        }
    });
}

#[test]
fn values_of_open_variables_are_counted() {
    within(AT_ONCE, || {
        let names = ["p", "q", "r", "s"];
        let open: String = names.iter().map(|n| format!("sum({n}:S,")).collect();
        let text = format!(
            "sort S 16;act a:S#S;proc X={};init X;",
            repeated(&format!("{open}a(p,s)))))"), 50, "+")
        );
        let table = table(&text);
        let start = table.start_stack();
        let last = step(&table, &start, 50 * 65_536 - 1).unwrap().0;
        assert_eq!(last.to_string(), "a(15,15)");
        assert_eq!(step(&table, &start, 50 * 65_536), None);
        assert_eq!(step(&table, &start, u64::MAX), None);
    });
}

#[test]
fn guards_decide_before_later_variables_are_tried() {
    within(AT_ONCE, || {
        let text = format!(
            "sort S 16;func z:S->Bool={};act a;proc X={};init X;",
            repeated("0", 16, ","),
            repeated(
                "sum(p:S,sum(q:S,sum(r:S,sum(s:S,a))<|z(p)|>delta))",
                60,
                "+"
            )
        );
        let table = table(&text);
        assert_eq!(step(&table, &table.start_stack(), 0), None);
        assert_eq!(all_steps(&table, &table.start_stack()), []);
    });
}

#[test]
fn guards_on_the_last_variables_are_counted_once() {
    within(AT_ONCE, || {
        let values = |last: &str| repeated("0", 255, ",") + last;
        let sum = "sum(p:S,sum(q:S,sum(r:S,sum(s:S,a(q)<|h(r,s)|>delta))))";
        let text = |last: &str| {
            let declared = format!("sort S 16;func h:S#S->Bool={};act a:S", values(last));
            let calls = repeated("Y", 200, "+");
            format!("{declared};proc X={calls};proc Y={sum};init X;")
        };
        let none = table(&text(",0"));
        assert_eq!(step(&none, &none.start_stack(), 0), None);
        let one = table(&text(",1"));
        let label = |k| step(&one, &one.start_stack(), k).map(|(label, _)| label.to_string());
        assert_eq!(label(200 * 256 - 1).as_deref(), Some("a(15)"));
        assert_eq!(label(256 + 5).as_deref(), Some("a(5)"));
        assert_eq!(label(200 * 256), None);
    });
}
