//! `walk`: document 01's text for every vector and every example.

use crate::common::{closed, example, fed, run, run_into, vectors};

#[test]
fn walks_of_the_vectors() {
    for case in vectors::all("sheets") {
        if case.get("walk").is_none() {
            continue; // asked for its table only
        }
        let ran = fed(&["walk", "-"], &case.bytes("sheet"));
        let wanted = vectors::walk(&case);
        let refused = wanted.starts_with("refused");
        assert_eq!(ran.text(), wanted, "{}", case.text("name"));
        assert_eq!(ran.status, i32::from(refused));
        assert_eq!(ran.err.is_empty(), !refused);
    }
}

#[test]
fn walks_of_the_examples() {
    for name in [
        "calls",
        "charger",
        "circle",
        "coil",
        "processor",
        "sampler",
        "stuck",
    ] {
        let wanted = std::fs::read_to_string(example(&format!("{name}.walk"))).unwrap();
        let ran = run(&["walk", &example(&format!("{name}.pcrl"))]);
        assert_eq!(ran.text(), wanted);
    }
}

#[test]
fn nobody_reads() {
    let status = |name: &str| run_into(&["walk", &example(name)], closed()).status;
    assert_eq!((status("charger.pcrl"), status("circle.pcrl")), (0, 1));
}

#[test]
fn misuse() {
    run(&["walk"]).fails(2, &["SHEET is missing"]);
    run(&["walk", "a", "b"]).fails(2, &["only one SHEET"]);
    run(&["walk", "/"]).fails(2, &["directory"]);
}
