//! `graph`: an example whole, limits and marks, and the stacks that the reader reaches.

use std::collections::HashSet;

use crate::common::{closed, example, fed, run, run_into, Folder, LOOP};

const CHARGER: &str = r#"// stacks 6, steps 10
digraph wizbratel {
  node [shape=box];
  s0 [label="Idle", style=bold];
  s1 [label="Charging(0)"];
  s2 [label="Charging(1)"];
  s3 [label="Charging(2)"];
  s4 [label="Charging(3)"];
  s5 [label="2:unplug . Idle"];
  s0 -> s1 [label="plug"];
  s1 -> s2 [label="charge(0)"];
  s1 -> s0 [label="unplug"];
  s2 -> s3 [label="charge(1)"];
  s2 -> s0 [label="unplug"];
  s3 -> s4 [label="charge(2)"];
  s3 -> s0 [label="unplug"];
  s4 -> s5 [label="ready"];
  s4 -> s0 [label="unplug"];
  s5 -> s0 [label="unplug"];
}
"#;

/// The same of a table, which has numbers for equations.
fn charger_table() -> String {
    let names = [("2:unplug", "2"), ("Idle", "0"), ("Charging", "1")];
    let replaced = |text: String, (from, to): (&str, &str)| text.replace(from, to);
    names.into_iter().fold(CHARGER.to_string(), replaced)
}

#[test]
fn the_charger() {
    let folder = Folder::new();
    let wanted = charger_table();
    run(&["graph", &example("charger.pcrl")]).prints(CHARGER);
    let sheet = std::fs::read(example("charger.pcrl")).unwrap();
    fed(&["graph", "-"], &sheet).prints(CHARGER);
    let made = reader::make_table(&sheet).unwrap();
    let table = folder.file("charger.table", made).display().to_string();
    run(&["graph", "--limit", "6", &table]).prints(&wanted);
    let with_sorts = wanted.replace("charge(", "charge(Level:");
    run(&["graph", "--sorts", &table]).prints(&with_sorts);
    let earlier = reader::read_table(&reader::make_table(&sheet).unwrap());
    let earlier = reader::encode_file(&earlier.unwrap().older());
    let table = folder.file("earlier.table", earlier).display().to_string();
    run(&["graph", &table]).prints(&wanted);
    run(&["graph", "--sorts", &table]).prints(&wanted.replace("charge(", "charge(s1:"));
}

/// How many stacks, and how many steps to them, the reader reaches.
fn counted(sheet: &[u8]) -> (usize, usize) {
    let file = reader::make_table(sheet).unwrap();
    let table = reader::read_table(&file).unwrap();
    let (mut queue, mut seen, mut steps) = (vec![table.start_stack()], HashSet::new(), 0);
    while let Some(stack) = queue.pop() {
        if seen.insert(stack.clone()) {
            let next = reader::all_steps(&table, &stack);
            steps += next.len();
            queue.extend(
                next.into_iter()
                    .map(|(_, stack)| stack)
                    .filter(|next| next.len() <= 64),
            );
        }
    }
    (seen.len(), steps)
}

#[test]
fn as_many_as_the_reader_reaches() {
    for name in ["calls", "charger", "coil", "processor", "sampler", "stuck"] {
        let sheet = example(&format!("{name}.pcrl"));
        let (stacks, steps) = counted(&std::fs::read(&sheet).unwrap());
        let ran = run(&["graph", &sheet, "--limit", "5000"]);
        let first = format!("// stacks {stacks}, steps {steps}\n");
        assert!(ran.text().starts_with(&first), "{name}: {}", ran.text());
        assert_eq!((ran.status, &ran.err[..]), (0, ""));
    }
}

#[test]
fn cut_at_a_limit() {
    let ran = run(&["graph", &example("calls.pcrl"), "--limit", "3"]);
    assert_eq!(ran.status, 0);
    assert!(
        ran.err.contains("stacks 3, steps 2, cut; --limit N"),
        "{}",
        ran.err
    );
    assert!(ran.text().starts_with("// stacks 3, steps 2, cut\n"));
    assert!(ran.text().contains("[label=\"cut\", shape=plaintext];"));
    let marked = "  s1 -> m3 [label=\"work\", style=dashed];\n";
    assert!(ran.text().contains(marked), "{}", ran.text());
    let many = "sort D 16;act a:D#D;proc X=sum(d:D,sum(e:D,a(d,e).X));init X;";
    let ran = fed(&["graph", "-", "--limit=2"], many.as_bytes());
    assert!(ran.text().starts_with("// stacks 1, steps 32, cut\n"));
    let all = fed(&["graph", "-", "--limit=16"], many.as_bytes());
    assert!(all.text().starts_with("// stacks 1, steps 256\n"));
}

#[test]
fn ended_stuck_and_too_deep() {
    let ended = fed(&["graph", "-"], b"act a;proc X=a+a.delta;init X;");
    assert!(ended
        .text()
        .contains("s1 [label=\"ended\", shape=doublecircle];"));
    let deep = fed(&["graph", "-"], b"act a;proc X=a.X.X;init X;");
    assert!(deep.text().starts_with("// stacks 64, steps 64\n"));
    assert!(deep
        .text()
        .contains("[label=\"refused 16\", shape=plaintext];"));
}

/// In the language of Graphviz a backslash marks what stands behind it.
#[test]
fn a_part_with_operators() {
    let sheet = "act a;proc X=a.(a<|1/\\0|>a);init X;";
    let ran = fed(&["graph", "-"], sheet.as_bytes());
    let label = "s1 [label=\"1:(a<|1/\\\\0|>a)\"];";
    assert!(ran.text().contains(label), "{}", ran.text());
}

#[test]
fn misuse_and_nobody_reads() {
    let charger = example("charger.pcrl");
    for limit in ["0", "x", "-1", ""] {
        run(&["graph", &charger, "--limit", limit]).fails(2, &["--limit"]);
    }
    run(&["graph"]).fails(2, &["missing"]);
    run(&["graph", &example("circle.pcrl")]).fails(1, &["question 9"]);
    let ran = run_into(&["graph", &charger], closed());
    assert_eq!((ran.status, &ran.err[..]), (0, ""));
    let full = std::fs::OpenOptions::new().write(true).open("/dev/full");
    run_into(&["graph", &charger], full.unwrap()).fails(2, &["standard output"]);
    let last = u64::MAX.to_string();
    assert_eq!(
        fed(&["graph", "-", "--limit", &last], LOOP.as_bytes()).status,
        0
    );
}
