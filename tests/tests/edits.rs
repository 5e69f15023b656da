//! The table of must-fail edits in docs/TESTING.md has a row for each edit of the crates, with the edit's own words, and no other row.

use std::fs;
use std::path::{Path, PathBuf};

fn root() -> PathBuf {
    Path::new(env!("CARGO_MANIFEST_DIR")).join("..")
}

fn entries(folder: &Path) -> Vec<PathBuf> {
    fs::read_dir(folder).map_or(Vec::new(), |found| found.map(|entry| entry.unwrap().path()).collect())
}

/// `crate/name`, the rule or promise that the edit defends, and the wrong program: its first two lines, `# WRONG PROGRAM` and `# defends: RULE`.
fn row(edit: &Path) -> String {
    let text = fs::read_to_string(edit).unwrap();
    let mut lines = text.lines();
    let wrong = lines.next().unwrap().strip_prefix("# ").unwrap();
    let defends = lines.next().unwrap().strip_prefix("# defends: ").unwrap_or_else(|| panic!("{}: what does it defend?", edit.display()));
    let parts: Vec<_> = edit.iter().map(|part| part.to_str().unwrap()).collect();
    let [.., folder, _, file] = parts[..] else { panic!() };
    format!("| `{folder}/{}` | {defends} | {wrong} |", file.strip_suffix(".edit").unwrap())
}

#[test]
fn the_table_lists_every_edit() {
    let mut edits: Vec<String> = entries(&root().join("crates"))
        .iter()
        .flat_map(|folder| entries(&folder.join("must-fail")))
        .map(|edit| row(&edit))
        .collect();
    edits.sort();
    assert!(edits.len() > 40);
    let page = fs::read_to_string(root().join("docs/TESTING.md")).unwrap();
    let table = page.lines().skip_while(|line| !line.starts_with("| edit |")).skip(2).take_while(|line| line.starts_with('|'));
    assert_eq!(table.collect::<Vec<_>>(), edits);
}
