//! The page of `yestrwyn report` in a browser: on a telephone, on a desk and on paper. It is Chromium, and where that is not installed
//! a line says that nothing was looked at.

mod common;

use std::env;
use std::fs;
use std::io::{self, Write};
use std::path::{Path, PathBuf};
use std::process::{Command, Output, Stdio};

use common::{command, Folder};

/// Where Chromium is, if it is installed; else a line says that a test does not run.
fn chromium(what: &str) -> Option<PathBuf> {
    let folders: Vec<PathBuf> = env::split_paths(&env::var_os("PATH")?).collect();
    let names = ["chromium", "chromium-browser", "google-chrome"];
    let places = names.iter().flat_map(|name| folders.iter().map(move |folder| folder.join(name)));
    let found = places.into_iter().find(|place| place.is_file());
    if found.is_none() {
        // The macros that print are silenced in a test that passes.
        let line = format!("not run: {what}, because Chromium is not installed\n");
        let _ = io::stderr().write_all(line.as_bytes());
    }
    found
}

/// Has Chromium do something with a page.
fn browse(chromium: &Path, folder: &Folder, words: &[&str], page: &Path) -> Output {
    let mut command = Command::new(chromium);
    command.args(["--headless", "--no-sandbox", "--disable-gpu", "--hide-scrollbars", "--no-first-run"]);
    command.args(["--allow-file-access-from-files", "--virtual-time-budget=4000"]);
    command.arg(format!("--user-data-dir={}", folder.at("profile").display())).args(words);
    command.arg(format!("file://{}", page.display())).stdin(Stdio::null());
    command.output().expect("Chromium runs")
}

/// Writes the page of an example into a folder.
fn page(folder: &Folder, words: &[&str], proof: &Path) -> PathBuf {
    let page = folder.at("page.html");
    let mut report = command(["report"]);
    let done = report.args(words).arg(proof).arg("-o").arg(&page).output().expect("it runs");
    assert!(done.stderr.is_empty(), "{done:?}");
    page
}

/// What a script of another page finds in the page, shown so many pixels wide.
fn found(chromium: &Path, folder: &Folder, width: u32, script: &str) -> String {
    let outer = folder.write(
        "outer.html",
        format!(
            "<!DOCTYPE html><iframe id=\"inner\" src=\"page.html\" style=\"width:{width}px;height:800px;border:0\"></iframe>\
             <p id=\"said\"></p><script>onload = () => {{ const page = inner.contentDocument; \
             said.textContent = '[' + ({script}) + ']'; }}</script>"
        ),
    );
    let output = browse(chromium, folder, &["--dump-dom"], &outer);
    let text = String::from_utf8_lossy(&output.stdout).into_owned();
    let said = text.split("<p id=\"said\">[").nth(1).and_then(|rest| rest.split("]</p>").next());
    said.unwrap_or_else(|| panic!("nothing is said: {text}\n{}", String::from_utf8_lossy(&output.stderr)))
        .to_string()
}

/// The width and the height of a picture in PNG.
fn size(picture: &Path) -> [u32; 2] {
    let bytes = fs::read(picture).expect("a picture");
    assert_eq!(&bytes[1..4], b"PNG");
    [16, 20].map(|at| u32::from_be_bytes([bytes[at], bytes[at + 1], bytes[at + 2], bytes[at + 3]]))
}

#[test]
fn no_page_is_wider_than_the_screen() {
    let Some(chromium) = chromium("the width of pages in a browser") else { return };
    for (words, name) in
        [(&["--names", "examples/duty.names"][..], "duty"), (&["--day=21000"], "declined"), (&[], "refused")]
    {
        let folder = Folder::new();
        page(&folder, words, Path::new(&format!("examples/{name}.proof")));
        let widths = "[320, 390, 768, 1200].map(width => { inner.style.width = width + 'px'; \
                      return page.documentElement.scrollWidth; })";
        assert_eq!(found(&chromium, &folder, 800, widths), "320,390,768,1200", "{name}");
        // Letters are large enough to be read on a telephone.
        let smallest = "Math.min(...Array.from(page.querySelectorAll('p, dd, li div, h1'), \
                        each => parseFloat(getComputedStyle(each).fontSize)))";
        let smallest: f64 = found(&chromium, &folder, 390, smallest).parse().expect("a number");
        assert!(smallest >= 12.0, "{name}: {smallest}");
    }
}

#[test]
fn pictures_and_paper() {
    let Some(chromium) = chromium("pictures of pages and their print") else { return };
    let folder = Folder::new();
    let page = page(&folder, &["--names", "examples/curfew.names"], Path::new("examples/curfew.proof"));
    for (width, height) in [(390, 844), (1280, 900)] {
        let picture = folder.at("picture.png");
        let words =
            [format!("--screenshot={}", picture.display()), format!("--window-size={width},{height}")];
        browse(&chromium, &folder, &[&words[0], &words[1]], &page);
        assert_eq!(size(&picture), [width, height]);
        // A page that shows nothing takes a few thousand bytes.
        assert!(fs::metadata(&picture).expect("a picture").len() > 20_000);
    }
    let paper = folder.at("page.pdf");
    let words = [format!("--print-to-pdf={}", paper.display()), "--no-pdf-header-footer".to_string()];
    browse(&chromium, &folder, &[&words[0], &words[1]], &page);
    let bytes = fs::read(&paper).expect("paper");
    let text = String::from_utf8_lossy(&bytes);
    let pages = text.matches("/Type /Page\n").count() + text.matches("/Type /Page/").count();
    assert!(text.starts_with("%PDF-") && (2..=4).contains(&pages), "{pages} pages");
}

#[test]
fn a_name_of_marks_is_shown_and_not_run() {
    let Some(chromium) = chromium("that names are not taken for marks in a browser") else { return };
    let folder = Folder::new();
    let name = "<img src=x onerror=alert(1)>&amp;.proof";
    let proof = folder.write(name, common::example("curfew.proof"));
    page(&folder, &[], &proof);
    let shown = "page.querySelector('dd').textContent.split('/').pop()";
    let shown = found(&chromium, &folder, 800, &format!("btoa({shown})"));
    // In base 64, since what is dumped is escaped anew.
    assert_eq!(shown, "PGltZyBzcmM9eCBvbmVycm9yPWFsZXJ0KDEpPiZhbXA7LnByb29m");
    let marks = found(&chromium, &folder, 800, "page.querySelectorAll('img, script, link, iframe').length");
    assert_eq!(marks, "0");
}
