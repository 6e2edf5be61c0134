//! The words of the questions are those of the C file beside the header.

/// The C strings between these two, joined where one goes on in the next line.
fn strings(text: &str) -> Vec<String> {
    let list = text.split_once("questions[] = {\n").unwrap().1;
    let list = list.split_once("\n};").unwrap().0;
    let lines = list
        .lines()
        .map(|line| line.trim().strip_prefix('"').expect("a string"));
    let text: String = lines.collect();
    let strings = text.split("\",").filter(|words| !words.is_empty());
    strings
        .map(|words| words.replace(" \"", " ").replace("\\\\", "\\"))
        .collect()
}

#[test]
fn the_words_are_those_of_c() {
    let words = strings(include_str!("../../../include/wizbratel_words.c"));
    let here: Vec<String> = (1..=u8::MAX)
        .map_while(wizbratel::question)
        .map(String::from)
        .collect();
    assert_eq!(words, here);
    assert_eq!(here.len(), 17);
}
