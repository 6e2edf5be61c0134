//! The name that was meant, perhaps.

/// `did you mean ..?`, where one of the names is near.
pub fn did_you_mean<'n>(wrong: &str, names: impl IntoIterator<Item = &'n str>) -> Option<String> {
    nearest(wrong, names).map(|name| format!("did you mean `{name}`?"))
}

/// The name nearest to a wrong one: the same in other letter cases, or with few letters wrong. A single letter is near
/// to nothing.
pub fn nearest<'n>(wrong: &str, names: impl IntoIterator<Item = &'n str>) -> Option<&'n str> {
    let most = (wrong.len().max(3) / 3).min(wrong.len().saturating_sub(1));
    let near = names.into_iter().filter_map(|name| {
        let distance = match wrong.eq_ignore_ascii_case(name) {
            true => 0,
            false => distance(wrong.as_bytes(), name.as_bytes()),
        };
        (name != wrong && (distance == 0 || distance <= most)).then_some((distance, name))
    });
    near.min_by_key(|(distance, _)| *distance)
        .map(|(_, name)| name)
}

/// How many letters are put in, left out, changed or exchanged with the next one.
fn distance(one: &[u8], other: &[u8]) -> usize {
    let mut rows = vec![(0..=other.len()).collect::<Vec<usize>>()];
    for i in 1..=one.len() {
        let mut row = vec![i];
        for j in 1..=other.len() {
            let changed = usize::from(one[i - 1] != other[j - 1]);
            let mut least = (rows[i - 1][j] + 1)
                .min(row[j - 1] + 1)
                .min(rows[i - 1][j - 1] + changed);
            if i > 1 && j > 1 && one[i - 1] == other[j - 2] && one[i - 2] == other[j - 1] {
                least = least.min(rows[i - 2][j - 2] + 1);
            }
            row.push(least);
        }
        rows.push(row);
    }
    rows[one.len()][other.len()]
}

#[cfg(test)]
mod tests {
    use super::*;

    #[test]
    fn near_and_far() {
        let names = ["Charging", "Idle", "plug", "a", "up"];
        let near = |wrong| nearest(wrong, names);
        assert_eq!(near("Chargin"), Some("Charging"));
        assert_eq!(near("Chagring"), Some("Charging"));
        assert_eq!(near("idle"), Some("Idle"));
        assert_eq!(near("A"), Some("a"));
        assert_eq!(near("b"), None);
        assert_eq!(near("unplug"), Some("plug"));
        assert_eq!(near("Charging"), None);
        assert_eq!(near("Discharging"), None);
        assert_eq!(near(""), None);
    }
}
