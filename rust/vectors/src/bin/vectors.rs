//! Writes the stored vectors, and what the program `cases` must print for them.

use std::io::Write;
use std::{fs, io};

use yestrwyn_vectors::stored::{expected, groups, listing, listing_path, pack_path, results_path};
use yestrwyn_vectors::{boards, canonical, examples, forms, merges, trims};

fn main() -> io::Result<()> {
    let mut out = io::stdout().lock();
    let groups = groups();
    let mut total = 0;
    for group in &groups {
        let (files, text) = (group.pack(), expected(group));
        writeln!(
            out,
            "{}: {} files, {} and {} bytes",
            group.name,
            group.examples.len(),
            files.len(),
            text.len()
        )?;
        total += files.len() + text.len();
        fs::write(pack_path(group.name), files)?;
        fs::write(results_path(group.name), text)?;
    }
    total += write_merges(&mut out)?;
    total += write_boards(&mut out)?;
    total += write_canonical(&mut out)?;
    total += write_forms(&mut out)?;
    total += write_trims(&mut out)?;
    let text = listing(&groups);
    writeln!(out, "printed by cases: {} bytes", text.len())?;
    total += text.len();
    fs::write(listing_path(), text)?;
    writeln!(out, "{total} bytes in all")?;
    Ok(())
}

/// The merges, and how many bytes they are.
fn write_merges(out: &mut impl Write) -> io::Result<usize> {
    let pairs = merges::pairs();
    let text = merges::expected(&pairs);
    writeln!(out, "{}: {} pairs of files, {} bytes", merges::GROUP, pairs.len(), text.len())?;
    fs::write(results_path(merges::GROUP), &text)?;
    Ok(text.len())
}

/// The boards, and how many bytes they are.
fn write_boards(out: &mut impl Write) -> io::Result<usize> {
    let scripts = boards::scripts();
    let text = boards::expected(&scripts);
    writeln!(out, "{}: {} boards, {} bytes", boards::GROUP, scripts.len(), text.len())?;
    fs::write(results_path(boards::GROUP), &text)?;
    Ok(text.len())
}

/// The files for the second readout, and how many bytes they are.
fn write_canonical(out: &mut impl Write) -> io::Result<usize> {
    let files = examples::canonical::examples();
    let text = canonical::expected(&files);
    writeln!(out, "{}: {} files, {} bytes", canonical::GROUP, files.len(), text.len())?;
    fs::write(results_path(canonical::GROUP), &text)?;
    Ok(text.len())
}

/// The files of both forms, and how many bytes they are.
fn write_forms(out: &mut impl Write) -> io::Result<usize> {
    let files = forms::files();
    let text = forms::expected(&files);
    writeln!(out, "{}: {} files, {} bytes", forms::GROUP, files.len(), text.len())?;
    fs::write(results_path(forms::GROUP), &text)?;
    Ok(text.len())
}

/// The files that are trimmed, and how many bytes they are.
fn write_trims(out: &mut impl Write) -> io::Result<usize> {
    let files = trims::files();
    let text = trims::expected(&files);
    writeln!(out, "{}: {} files, {} bytes", trims::GROUP, files.len(), text.len())?;
    fs::write(results_path(trims::GROUP), &text)?;
    Ok(text.len())
}
