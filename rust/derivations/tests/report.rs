//! Pages for bookings: whole, escaped, and never too large.

mod checked;

use checked::{vectors, Checked};
use yestrwyn_derivations::{report, sha256, Booking, Names};

/// The page of a file.
fn page(checked: &Checked, names: &Names, file: &str) -> String {
    report(&checked.model(), names, &Booking { file, day: Some(checked.day), names: None })
}

/// Marks open and close in order, and no text holds one.
fn well_formed(name: &str, text: &str) {
    let text = text.strip_prefix("<!DOCTYPE html>\n").expect("a page");
    let mut open = Vec::new();
    for part in text.split('<').skip(1) {
        let (mark, _) = part.split_once('>').expect("a mark ends");
        let word = mark.split([' ', '/']).find(|word| !word.is_empty()).expect("a name");
        if mark.starts_with('/') {
            assert_eq!(open.pop(), Some(word), "{name}: {mark}");
        } else if !mark.ends_with('/') && word != "meta" {
            open.push(word);
        }
    }
    assert!(open.is_empty(), "{name}: {open:?}");
}

#[test]
fn every_stored_file_has_a_page() {
    let names = Names::none();
    for checked in vectors() {
        let page = page(checked, &names, &checked.name);
        well_formed(&checked.name, &page);
        let named = checked.file.len() > 65_536 || page.contains(&sha256(&checked.file));
        assert!(named, "{}", checked.name);
        assert!(page.contains(&format!(">{}</p>", checked.outcome.answer.verdict)), "{}", checked.name);
        assert!(page.len() < 4_000_000, "{} takes {} bytes", checked.name, page.len());
    }
}

#[test]
fn nothing_is_fetched_and_nothing_runs() {
    let checked = Checked::stored("curfew", 0);
    let page = page(&checked, &Names::none(), "curfew.proof");
    for mark in ["<script", "<link", "<img", "<iframe", "src=", "href=", "@import", "url(", "onload"] {
        assert!(!page.contains(mark), "{mark}");
    }
    assert!(page.contains("content=\"default-src 'none'; style-src 'unsafe-inline'\""));
    assert!(page.contains("<meta name=\"viewport\" content=\"width=device-width, initial-scale=1\">"));
    assert!(page.contains("@media print"));
    // The only address is the name of the language of the picture.
    assert_eq!(page.matches("http://").count() + page.matches("https://").count(), 1);
}

#[test]
fn what_comes_from_outside_is_escaped() {
    let checked = Checked::stored("curfew", 0);
    let file = "</title><script>alert(\"1\")</script>&'\u{202e}\u{1b}\n.proof";
    let names = "<b>names</b>";
    let booking = Booking { file, day: None, names: Some(names) };
    let page = report(&checked.model(), &Names::none(), &booking);
    well_formed("a name of marks", &page);
    assert!(!page.contains("<script>") && !page.contains("<b>names"));
    let safe = "&lt;/title&gt;&lt;script&gt;alert(&quot;1&quot;)&lt;/script&gt;&amp;&#39;\u{fffd}\u{fffd}\u{fffd}.proof";
    assert_eq!(page.matches(safe).count(), 2);
    assert!(page.contains("Names are from &lt;b&gt;names&lt;/b&gt;"));
}

#[test]
fn what_the_pages_say() {
    let says = |name: &str, day: u16, words: &[&str]| {
        let page = page(&Checked::stored(name, day), &Names::none(), name);
        for words in words {
            assert!(page.contains(words), "{name}: {words}");
        }
    };
    let rule = "<b>clause 1</b>, used twice, in force from day 20939 (2027-05-01) to day 21122 (2027-10-31) (record 13)";
    says(
        "declined",
        21_000,
        &["<h1>No lawful plan</h1>", "in force on day 21000 (2027-07-01)", rule, "<svg "],
    );
    says("season", 0, &["<h1>Nothing is shown</h1>", "Clause 6 has no literals, but uses rules"]);
    says("refused", 0, &["<h1>The file is faulty</h1>", "05 00 00 00 01 00 04 00 01 00"]);
}
