//! The repository's pages and stored examples, read by tests.

use std::fs;
use std::path::Path;

/// A file of the repository, by its path from the root.
pub fn stored(path: &str) -> Vec<u8> {
    let path = Path::new(env!("CARGO_MANIFEST_DIR")).join("../..").join(path);
    fs::read(&path).unwrap_or_else(|error| panic!("{}: {error}", path.display()))
}

/// The same as text.
pub fn text(path: &str) -> String {
    String::from_utf8(stored(path)).expect("text")
}

/// The part of a page under a heading of the second level.
pub fn section<'a>(page: &'a str, heading: &str) -> &'a str {
    let start = page.find(&format!("\n## {heading}\n")).unwrap_or_else(|| panic!("no section {heading}"));
    let rest = &page[start + 4..];
    &rest[..rest.find("\n## ").unwrap_or(rest.len())]
}

/// The first two cells of each line of a page's tables, rules between head and body left out.
pub fn cells(page: &str) -> impl Iterator<Item = (&str, &str)> {
    page.lines().filter(|line| !line.starts_with("|-")).filter_map(|line| {
        let mut cells = line.strip_prefix("| ")?.split(" | ");
        Some((cells.next()?, cells.next()?))
    })
}

/// A stored file's bytes as a page writes them, one line for each record.
pub fn hexadecimal(file: &[u8]) -> Vec<String> {
    file.chunks(16).map(hexadecimal_line).collect()
}

/// The same of one record.
pub fn hexadecimal_line(record: &[u8]) -> String {
    let digits: Vec<String> = record.iter().map(|byte| format!("{byte:02x}")).collect();
    format!("`{}`", digits.join(" "))
}

/// Text as an indented block of a page.
pub fn indented(text: &str) -> String {
    text.lines().map(|line| format!("    {line}\n")).collect()
}
