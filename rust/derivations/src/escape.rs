//! Text for pages and pictures: nothing in it is taken for a mark.

/// Text as it is written in HTML and XML, between marks and in quoted values. What steers a line or its direction, and what XML has no
/// place for, is shown as a box.
pub fn escaped(text: &str) -> String {
    let mut safe = String::with_capacity(text.len());
    for letter in text.chars() {
        match letter {
            '&' => safe.push_str("&amp;"),
            '<' => safe.push_str("&lt;"),
            '>' => safe.push_str("&gt;"),
            '"' => safe.push_str("&quot;"),
            '\'' => safe.push_str("&#39;"),
            _ if is_hidden(letter) => safe.push('\u{fffd}'),
            _ => safe.push(letter),
        }
    }
    safe
}

/// Does a character show nothing itself, or is it none of XML?
fn is_hidden(letter: char) -> bool {
    let directs =
        matches!(letter, '\u{200b}'..='\u{200f}' | '\u{2028}'..='\u{202e}' | '\u{2060}'..='\u{206f}');
    letter.is_control() || directs || matches!(letter, '\u{feff}' | '\u{fffe}' | '\u{ffff}')
}
