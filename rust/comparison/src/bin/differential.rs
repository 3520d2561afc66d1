//! Compares the proved check, plain, for services and of either form, the two proved readouts, which clause covers which, the proved
//! merge, conversions, trims and boards with the second implementation on files from a seed on, each on a day of its own:
//!
//! ```text
//! differential SEED COUNT
//! ```
//!
//! All files are checked for services with one workspace. Of each readout it takes two pieces: the first with
//! room for every line, and one from any clause with any room. Of the clauses of each file it compares two pairs. With each
//! file goes a pair of files that it merges, a file of either form that it checks and converts, a file that it trims, a board with a sequence of calls, and
//! a call on any contents of a board. Prints one line; at the first difference it prints the file, or what differs, in hexadecimal and ends with 1.

use std::process::ExitCode;

use yestrwyn::with_stack;
use yestrwyn_comparison::boards::{script_of, Any, BoardLengths, Boards};
use yestrwyn_comparison::compare::{day_and_file_of, lengths_of, Pair};
use yestrwyn_comparison::covers::{for_covering, Clauses, Coverings};
use yestrwyn_comparison::forms::{form_of, Forms};
use yestrwyn_comparison::merges::{pair_of, Merges};
use yestrwyn_comparison::outputs::OutputLengths;
use yestrwyn_comparison::pieces::{Second, READOUTS};
use yestrwyn_comparison::trims::{trim_of, Trims};
use yestrwyn_comparison::Difference;
use yestrwyn_vectors::examples::boards::Script;
use yestrwyn_vectors::examples::forms::Formed;
use yestrwyn_vectors::examples::Example;
use yestrwyn_vectors::random::SplitMix64;

/// Pairs of clauses that are compared of each file.
const PAIRS: usize = 2;

/// How many files gave each kind of answer, and how many had no room for one; and the same of the pairs of clauses, of the merges, of
/// the files of either form, of their conversions and of the trims.
#[derive(Default)]
struct Tally {
    kinds: [u64; 3],
    untouched: u64,
    coverings: [u64; 3],
    coverings_untouched: u64,
    merges: [u64; 3],
    merges_untouched: u64,
    forms: [u64; 3],
    forms_untouched: u64,
    conversions: [u64; 3],
    conversions_untouched: u64,
    trims: [u64; 3],
    trims_untouched: u64,
    bytes: u64,
}

fn main() -> ExitCode {
    let arguments: Vec<String> = std::env::args().skip(1).collect();
    let numbers: Option<Vec<u64>> = arguments.iter().map(|word| word.parse().ok()).collect();
    let Some(&[seed, count]) = numbers.as_deref() else {
        eprintln!("usage: differential SEED COUNT");
        return ExitCode::FAILURE;
    };
    with_stack(|| run(seed, count)).unwrap_or_else(|error| {
        eprintln!("{error}");
        ExitCode::FAILURE
    })
}

fn run(seed: u64, count: u64) -> ExitCode {
    let (mut both, mut tally) = (Both::default(), Tally::default());
    for place in 0..count {
        let own = seed.wrapping_add(place);
        let (day, file) = day_and_file_of(own);
        tally.bytes += file.len() as u64;
        if let Err(difference) = both.compare(day, &file, own, &mut tally) {
            println!("seed {own}: {difference}; {:?}; day {day}; file {}", lengths_of(own), hex(&file));
            return ExitCode::FAILURE;
        }
        let others = both.merge(own, &mut tally).and_then(|()| both.form(own, &mut tally));
        let others = others.and_then(|()| both.trim(own, &mut tally));
        if let Err(difference) = others.and_then(|()| both.board(own)) {
            println!("seed {own}: {difference}");
            return ExitCode::FAILURE;
        }
    }
    let Tally { kinds: [open, accepted, refused], untouched, bytes, .. } = tally;
    let Tally { coverings: [no, yes, nothing], coverings_untouched, .. } = tally;
    let Tally { merges: [written, _, not_written], merges_untouched, .. } = tally;
    let Tally { forms, forms_untouched, conversions: [converted, _, not_converted], .. } = tally;
    let Tally { trims: [trimmed, _, not_trimmed], trims_untouched, .. } = tally;
    let boards = both.boards.met;
    println!(
        "{count} files, {bytes} bytes, no difference: {open} open, {accepted} accepted, {refused} refused, \
         {untouched} with too short an answer; pairs of clauses: {yes} yes, {no} no, {nothing} refused, \
         {coverings_untouched} with too short an answer; merges: {written} written, {not_written} refused, \
         {merges_untouched} with too short an answer; of either form: {} open, {} accepted, {} refused, {forms_untouched} with \
         too short an answer; conversions: {converted} written, {not_converted} refused, {} with too short an answer; \
         trims: {trimmed} written, {not_trimmed} refused, {trims_untouched} with too short an answer; \
         openings and calls of boards: {} with a clause, {} with none, \
         {} refused, {} with too short an answer",
        forms[0],
        forms[1],
        forms[2],
        tally.conversions_untouched,
        boards.kinds[1],
        boards.kinds[0],
        boards.kinds[2],
        boards.untouched
    );
    ExitCode::SUCCESS
}

/// The cells of both implementations.
#[derive(Default)]
struct Both {
    pair: Pair,
    coverings: Coverings,
    merges: Merges,
    forms: Forms,
    trims: Trims,
    boards: Boards,
}

impl Both {
    /// Counts a file's answers if neither a check, nor a readout, nor which clause covers which differs.
    fn compare(&mut self, day: u16, file: &[u8], own: u64, tally: &mut Tally) -> Result<(), String> {
        let (lengths, mark, mut random) = (lengths_of(own), own as u16, SplitMix64::new(own));
        let kind =
            self.pair.compare(day, file, lengths, mark).map_err(|difference| difference.to_string())?;
        count(kind, &mut tally.kinds, &mut tally.untouched);
        for readout in READOUTS {
            Second::new(readout, day, file, lengths, mark).two(&mut random)?;
        }
        let clauses = Clauses::of(file);
        for _ in 0..PAIRS {
            let two = clauses.some_two(&mut random);
            let kind = self.coverings.compare(file, two, for_covering(lengths), mark);
            let kind = kind.map_err(|difference| format!("clauses {two:?}: {difference}"))?;
            count(kind, &mut tally.coverings, &mut tally.coverings_untouched);
        }
        Ok(())
    }

    /// Counts the answer for a pair of files if the merge does not differ; otherwise says where, with the pair.
    fn merge(&mut self, own: u64, tally: &mut Tally) -> Result<(), String> {
        let (pair, lengths) = (pair_of(own), OutputLengths::of(own));
        let kind = self.merges.compare([&pair.first, &pair.second], lengths, own as u16);
        let kind = kind.map_err(|difference| {
            format!("{difference}; {lengths:?}; first {}; second {}", hex(&pair.first), hex(&pair.second))
        })?;
        count(kind, &mut tally.merges, &mut tally.merges_untouched);
        Ok(())
    }

    /// Counts the answers for a file of either form if neither check nor conversion differs; otherwise says where, with the file.
    fn form(&mut self, own: u64, tally: &mut Tally) -> Result<(), String> {
        let (file, lengths, outputs) = (form_of(own), lengths_of(!own), OutputLengths::of(!own));
        let said = |difference: Difference| {
            let Formed { form, day, file, .. } = &file;
            format!("{difference}; {lengths:?}; {outputs:?}; {form:?} form, day {day}; file {}", hex(file))
        };
        let kind = self.forms.compare(&file, lengths, own as u16).map_err(said)?;
        count(kind, &mut tally.forms, &mut tally.forms_untouched);
        let kind = self.forms.convert(file.form, &file.file, outputs, own as u16).map_err(said)?;
        count(kind, &mut tally.conversions, &mut tally.conversions_untouched);
        Ok(())
    }

    /// Counts the answer for a file that is trimmed if it does not differ; otherwise says where, with the file.
    fn trim(&mut self, own: u64, tally: &mut Tally) -> Result<(), String> {
        let (Example { day, file, .. }, lengths) = (trim_of(own), OutputLengths::of(own.rotate_left(1)));
        let kind = self.trims.compare((day, &file), lengths, own as u16);
        let kind =
            kind.map_err(|difference| format!("{difference}; {lengths:?}; day {day}; file {}", hex(&file)))?;
        count(kind, &mut tally.trims, &mut tally.trims_untouched);
        Ok(())
    }

    /// A board with its calls, and a call on any contents; says where they differ, with the file and the calls.
    fn board(&mut self, own: u64) -> Result<(), String> {
        let (script, lengths) = (script_of(own), BoardLengths::of(own));
        self.boards.compare(&script, lengths, own as u16).map_err(|difference| {
            let Script { day, file, calls, .. } = &script;
            format!("board, {difference}; {lengths:?}; day {day}; calls {calls:?}; file {}", hex(file))
        })?;
        let any = Any::of(own);
        self.boards
            .compare_any(&any)
            .map_err(|difference| format!("any board, {difference}; {:?}; file {}", any.call, hex(&any.file)))
    }
}

/// A file in hexadecimal digits.
fn hex(file: &[u8]) -> String {
    file.iter().map(|byte| format!("{byte:02x}")).collect()
}

/// Counts an answer by its kind, or one for which there is no room.
fn count(kind: Option<impl Into<u32>>, kinds: &mut [u64; 3], untouched: &mut u64) {
    match kind.map(Into::into) {
        Some(kind) => kinds[kind.min(2) as usize] += 1,
        None => *untouched += 1,
    }
}
