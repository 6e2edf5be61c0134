//! Every step question of the vectors: number, answer, depth and all frames.

use library::asked::{asked, meant, wanted, After};
use library::common::vectors;
use library::stepping::frames_of;

#[test]
fn questions_get_their_answers() {
    let mut seen = std::collections::BTreeMap::new();
    for case in vectors::all("asks") {
        let file = case.bytes("file");
        let before = frames_of(&vectors::frames(&case, "frames"));
        let (depth, k) = (case.number("depth") as usize, case.number("k"));
        let after: After = asked(&file, &before, depth, k);
        let name = case.text("name");
        let answer = vectors::answer(&case);
        assert_eq!(after, meant(&answer, &before, depth), "{name}");
        assert_eq!(after, wanted(&file, &before, depth, k), "{name}");
        *seen.entry(case.text("answer").to_string()).or_insert(0) += 1;
    }
    assert_eq!(seen.values().sum::<usize>(), 738 + 70 + 70);
    let kinds: Vec<&str> = seen.keys().map(String::as_str).collect();
    assert_eq!(
        kinds,
        [
            "ended",
            "none",
            "refused 13",
            "refused 14",
            "refused 15",
            "refused 16",
            "step"
        ]
    );
}
