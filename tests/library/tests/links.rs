//! Every link of the README, of the list of changes and of docs leads to a file, and to a heading of it if it names one.

use std::collections::BTreeSet;
use std::path::{Path, PathBuf};

fn root() -> PathBuf {
    Path::new(env!("CARGO_MANIFEST_DIR")).join("../..")
}

fn text(path: &Path) -> String {
    std::fs::read_to_string(path).expect("a document")
}

fn documents() -> Vec<PathBuf> {
    let docs = std::fs::read_dir(root().join("docs")).expect("docs");
    let mut found: Vec<PathBuf> = docs.map(|entry| entry.expect("a file").path()).collect();
    found.retain(|path| path.extension().is_some_and(|end| end == "md"));
    found.extend(["README.md", "CHANGELOG.md"].map(|name| root().join(name)));
    found
}

/// The lines of a document that stand in no listing.
fn lines(document: &str) -> Vec<&str> {
    let mut inside = false;
    let mut outside = |line: &&str| {
        let fence = line.starts_with("```");
        inside ^= fence;
        !inside && !fence
    };
    document.lines().filter(|line| outside(line)).collect()
}

/// The names that headings get as places to link to: letters, digits and underscores, lower case; blanks become hyphens.
fn anchors(document: &str) -> BTreeSet<String> {
    let headings = lines(document);
    let headings = headings.iter().filter(|line| line.starts_with('#'));
    let kept = |c: &char| c.is_alphanumeric() || ['_', '-', ' '].contains(c);
    let named = headings.map(|line| line.trim_start_matches('#').trim().to_lowercase());
    named
        .map(|line| line.chars().filter(kept).collect::<String>())
        .map(|line| line.replace(' ', "-"))
        .collect()
}

/// What is wrong with the links of a document that stands at this path.
fn wrong_links(path: &Path, document: &str) -> Vec<String> {
    let mut wrong = Vec::new();
    for line in lines(document) {
        for link in line.split("](").skip(1) {
            let link = link.split(')').next().unwrap_or_default();
            let (file, heading) = link.split_once('#').unwrap_or((link, ""));
            let target = match file {
                "" => path.to_path_buf(),
                file => path.with_file_name(file),
            };
            let found = file.contains("://") || target.exists();
            let headed = heading.is_empty()
                || (found && anchors(&text(&target)).contains(heading))
                || file.contains("://");
            if !found || !headed {
                wrong.push(format!("{}: {link}", path.display()));
            }
        }
    }
    wrong
}

#[test]
fn every_link_leads_somewhere() {
    let wrong: Vec<String> = documents()
        .iter()
        .flat_map(|path| wrong_links(path, &text(path)))
        .collect();
    assert!(wrong.is_empty(), "{wrong:#?}");
}

#[test]
fn wrong_links_are_found() {
    let path = root().join("README.md");
    for right in [
        "[rules](docs/RULES.md) and [one](docs/RULES.md#question-1)",
        "[a folder](crates/pcrl/specs)",
        "```\n[shown](only)\n```",
    ] {
        assert!(wrong_links(&path, right).is_empty(), "{right}");
    }
    for wrong in [
        "[rules](docs/RULE.md)",
        "[rules](docs/RULES.md) and [none](docs/RULES.md#question-99)",
        "[here](#nowhere)",
    ] {
        assert_eq!(wrong_links(&path, wrong).len(), 1, "{wrong}");
    }
}
