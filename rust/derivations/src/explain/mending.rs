//! How to mend a refused record: what the table of refusals in docs/FORMAT.md says, which is where it is written.

use yestrwyn_types::Reason;

/// The page that has the table.
const PAGE: &str = include_str!("../../../../docs/FORMAT.md");

/// What the page says about mending, without its marks, if it has a line for the reason.
pub fn mending(reason: Reason) -> Option<String> {
    let refusals = PAGE.split("\n## Refusals\n").nth(1)?;
    let begin = format!("| {} | ", reason.number());
    let line = refusals.lines().find(|line| line.starts_with(&begin))?;
    let cells: Vec<&str> = line.trim_matches('|').split(" | ").collect();
    cells.get(2).map(|cell| plain(cell.trim()))
}

/// Text without the marks of the page: links are their text, and what is leaned is upright.
fn plain(marked: &str) -> String {
    let (mut text, mut rest) = (String::new(), marked);
    while let Some(begin) = rest.find('[') {
        text.push_str(&rest[..begin]);
        let after = &rest[begin + 1..];
        let link = after.find("](").and_then(|middle| Some((middle, middle + after[middle..].find(')')?)));
        match link {
            Some((middle, end)) => {
                text.push_str(&after[..middle]);
                rest = &after[end + 1..];
            }
            None => {
                text.push('[');
                rest = after;
            }
        }
    }
    text.push_str(rest);
    text.replace(['*', '`'], "")
}
