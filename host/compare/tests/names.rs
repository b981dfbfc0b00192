//! What the documents name is there: each `crate/specs/File` with the definitions named behind it, each `crate::function`, each `crate/must-fail/edit`,
//! and each page and heading that a link leads to. The notes of the changes have one form.

use std::collections::BTreeMap;
use std::fs;
use std::path::{Path, PathBuf};

fn top() -> PathBuf {
    Path::new(env!("CARGO_MANIFEST_DIR")).join("../..")
}

/// Pages that name what stood before beside what stands now.
const PAST: [&str; 3] = ["docs/PORT.md", "docs/DESIGN-PASS.md", "docs/LOOK-BACK.md"];

/// The pages about the crates: README, those of docs and its notes, but for those of `PAST`.
fn documents() -> Vec<PathBuf> {
    let mut all = vec![top().join("README.md")];
    for folder in ["docs", "docs/changes"] {
        let entries = fs::read_dir(top().join(folder)).unwrap();
        all.extend(entries.map(|entry| entry.unwrap().path()).filter(|path| {
            path.extension().is_some_and(|e| e == "md") && !PAST.iter().any(|past| path.ends_with(past))
        }));
    }
    all.sort();
    all
}

/// The parts of a document that stand between two back quotes, each with what stands between it and the part before.
fn quoted(text: &str) -> Vec<(&str, &str)> {
    let parts: Vec<&str> = text.split('`').collect();
    parts.chunks(2).filter(|pair| pair.len() == 2).map(|pair| (pair[0], pair[1])).collect()
}

fn is_word(word: &str, other: impl Fn(char) -> bool) -> bool {
    word.starts_with(|c: char| c.is_ascii_lowercase())
        && word.chars().all(|c| c.is_ascii_lowercase() || c.is_ascii_digit() || other(c))
}

/// The table "Old names" of ARCHITECTURE: a crate's old name and its new one.
fn old_names() -> BTreeMap<String, String> {
    let text = fs::read_to_string(top().join("docs/ARCHITECTURE.md")).unwrap();
    let table = text.split("## Old names").nth(1).unwrap_or_default().split("\n## ").next().unwrap_or_default();
    let mut names = BTreeMap::new();
    for row in table.lines().filter(|line| line.starts_with("| `")) {
        let cells: Vec<Vec<&str>> = row
            .split('|')
            .skip(1)
            .take(2)
            .map(|cell| quoted(cell).into_iter().map(|(_, word)| word).collect())
            .collect();
        for (old, new) in cells[0].iter().zip(&cells[1]).filter(|(old, _)| is_word(old, |c| c == '_')) {
            names.insert(old.to_string(), new.to_string());
        }
    }
    names
}

/// All sources of a crate.
fn sources(folder: &Path, ending: &str, found: &mut String) {
    let Ok(entries) = fs::read_dir(folder) else { return };
    for path in entries.map(|entry| entry.unwrap().path()) {
        if path.is_dir() {
            sources(&path, ending, found);
        } else if path.extension().is_some_and(|end| end == ending) {
            *found += &fs::read_to_string(path).unwrap();
        }
    }
}

/// Whether a file of definitions has one of that name: a definition, a record, a data type, a field or a constructor.
fn defines(text: &str, name: &str) -> bool {
    text.lines().any(|line| {
        let words: Vec<&str> =
            line.split_whitespace().filter(|word| !["pub", "abbrev", "unfoldable"].contains(word)).collect();
        match words[..] {
            ["record" | "data", first, ..] => first == name,
            [first, ":", ..] => first == name,
            _ => false,
        }
    })
}

#[test]
fn documents_name_what_exists() {
    let old = old_names();
    let mut wrong = Vec::new();
    for document in documents() {
        let text = fs::read_to_string(&document).unwrap();
        let shown = document.strip_prefix(top()).unwrap().display().to_string();
        let renamed = |name: &str| match old.get(name) {
            Some(new) if shown.contains("changes") => new.clone(),
            _ => name.to_string(),
        };
        // A file of definitions that names stand behind: its folder, its name and its text.
        let mut file: Option<(PathBuf, String, String)> = None;
        for (line, row) in text.lines().enumerate() {
            // Inside the brackets right behind a file all that is quoted is a name in it.
            let mut open = false;
            for (between, part) in quoted(row) {
                let complaint = |what: &str| format!("{shown}:{}: `{part}` {what}", line + 1);
                if let [name, kind @ ("specs" | "proofs"), module] = part.split('/').collect::<Vec<_>>()[..] {
                    let folder = top().join(format!("crates/{}/{kind}", renamed(name)));
                    let text = fs::read_to_string(folder.join(format!("{module}.antt")));
                    file = text.ok().map(|text| (folder, part.to_string(), text));
                    if file.is_none() && module.starts_with(|c: char| c.is_ascii_uppercase()) {
                        wrong.push(complaint("is no file"));
                    }
                    continue;
                }
                if let [name, "must-fail", edit] = part.split('/').collect::<Vec<_>>()[..] {
                    if !top().join(format!("crates/{name}/must-fail/{edit}.edit")).is_file() {
                        wrong.push(complaint("is no edit"));
                    }
                    continue;
                }
                if let Some((name, function)) = part.split_once("::") {
                    let folder = top().join("crates").join(renamed(name)).join("src");
                    let function = function.rsplit("::").next().unwrap_or_default();
                    if is_word(name, |c| c == '_') && is_word(function, |c| c == '_') && name != "perch" {
                        let mut code = String::new();
                        sources(&folder, "rt", &mut code);
                        if !["(", "<"].iter().any(|behind| code.contains(&format!("fn {function}{behind}"))) {
                            wrong.push(complaint("is no function"));
                        }
                    }
                }
                // Names behind a file, as `crate/specs/File`: `one`, `two`; and other files of its folder.
                let joined = [": ", ", ", " ", " and ", " (", "), "].contains(&between)
                    || open && !between.contains([')', ';', '.']);
                open = joined && (open || between == " (") && !between.contains(')');
                if let Some((folder, of, text)) = file.take().filter(|_| joined) {
                    if let Ok(other) = fs::read_to_string(folder.join(format!("{part}.antt"))) {
                        file = Some((folder, part.to_string(), other));
                        continue;
                    }
                    if !part.contains([' ', '/', ':', '=']) && !defines(&text, part) {
                        wrong.push(complaint(&format!("is not in {of}")));
                    }
                    file = Some((folder, of, text));
                }
            }
            file = None;
        }
    }
    assert!(wrong.is_empty(), "{} names that are not there\n{}", wrong.len(), wrong.join("\n"));
}

/// A heading as a link names it: letters, digits, hyphens and underscores, small, with hyphens for spaces.
fn anchor(heading: &str) -> String {
    let kept = heading.trim().to_lowercase();
    kept.chars().filter(|&c| c.is_alphanumeric() || " -_".contains(c)).collect::<String>().replace(' ', "-")
}

/// The headings of a page.
fn headings(text: &str) -> Vec<&str> {
    text.lines()
        .filter_map(|line| line.trim_start_matches('#').strip_prefix(' ').filter(|_| line.starts_with('#')))
        .collect()
}

#[test]
fn links_lead_somewhere() {
    let mut wrong = Vec::new();
    let others = ["examples", "host", "host/compare"].map(|folder| top().join(folder).join("README.md"));
    for document in documents().into_iter().chain(others) {
        let text = fs::read_to_string(&document).unwrap();
        for link in text.split("](").skip(1).filter_map(|rest| rest.split(')').next()) {
            let (page, heading) = link.split_once('#').unwrap_or((link, ""));
            let target = if page.is_empty() { document.clone() } else { document.parent().unwrap().join(page) };
            let there = match fs::read_to_string(&target) {
                Ok(text) => heading.is_empty() || headings(&text).iter().any(|each| anchor(each) == heading),
                Err(_) => heading.is_empty() && target.exists(),
            };
            if !there && !link.contains("://") {
                wrong.push(format!("{}: {link}", document.strip_prefix(top()).unwrap().display()));
            }
        }
    }
    assert!(wrong.is_empty(), "{} links that lead nowhere\n{}", wrong.len(), wrong.join("\n"));
}

#[test]
fn notes_have_one_form() {
    const PARTS: [&str; 5] = ["## What moved", "## What stayed", "## Promises", "## Times", "## Tested"];
    for note in documents().iter().filter(|path| path.parent().unwrap().ends_with("changes")) {
        let text = fs::read_to_string(note).unwrap();
        let parts: Vec<&str> = text.lines().filter(|line| line.starts_with("## ")).collect();
        assert_eq!(parts, PARTS, "{}", note.display());
    }
}
