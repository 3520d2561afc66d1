//! Ten thousand small files in a folder, checked side by side as the command `yestrwyn check` does it, by the proved check and by the
//! second implementation in its place; and the command itself, with its start and its output. A table in Markdown, by the wall clock. The
//! argument is a folder for the files, and the second, if there is one, the built command:
//!
//! ```text
//! files_per_second FOLDER [COMMAND]
//! ```

use std::env;
use std::error::Error;
use std::fmt::Write;
use std::fs;
use std::hint::black_box;
use std::io;
use std::ops::ControlFlow;
use std::path::Path;
use std::process::{Command, Stdio};
use std::time::{Duration, Instant};

use yestrwyn_comparison::rounds::{Rounds, ROUNDS};
use yestrwyn_desk::checking::{Checked, Checker, Engine, Proved, Terms};
use yestrwyn_desk::failure::Failure;
use yestrwyn_desk::input::{files_of, Source};
use yestrwyn_desk::pool::{in_order, processors, Taker};
use yestrwyn_types::{Answer, Cells, Form};
use yestrwyn_vectors::{random_file_of, several_file_of};

const FILES: u64 = 10_000;
const DAY: u16 = 21_000;

/// The second implementation in the place of the proved check.
#[derive(Default)]
struct Second {
    cells: Cells,
}

impl Engine for Second {
    fn check(&mut self, form: Form, day: u16, file: &[u8]) -> (Answer, &Cells) {
        let answer = yestrwyn_second::check_form_into(form, day, file, &mut self.cells.lend());
        (answer, &self.cells)
    }
}

/// A sort of files.
struct Sort {
    name: &'static str,
    file: fn(u64) -> Vec<u8>,
}

const SORTS: [Sort; 4] = [
    Sort { name: "`examples/sheets.proof`, again and again", file: |_| stored("sheets") },
    Sort { name: "`examples/curfew.proof`, again and again", file: |_| stored("curfew") },
    Sort { name: "random, of 20 to 60 records", file: |seed| random_file_of(seed, 20 + seed as usize % 41) },
    Sort {
        name: "random, of 200 records with steps on several literals",
        file: |seed| several_file_of(seed, 200),
    },
];

/// A stored example.
fn stored(name: &str) -> Vec<u8> {
    let path = Path::new(env!("CARGO_MANIFEST_DIR")).join("../../examples").join(format!("{name}.proof"));
    fs::read(&path).unwrap_or_else(|error| panic!("{}: {error}", path.display()))
}

fn main() -> Result<(), Box<dyn Error>> {
    let mut arguments = env::args_os().skip(1);
    let folder = arguments.next().ok_or("a folder for the files is wanted")?;
    let command = arguments.next();
    println!(
        "| {FILES} files in a folder, on {} processors | bytes | proved, files a second | second, files a second | ratio of times | over ten rounds | the command, files a second |",
        processors()
    );
    println!("|---|---|---|---|---|---|---|");
    for (number, sort) in SORTS.iter().enumerate() {
        let folder = Path::new(&folder).join(format!("files-{number}"));
        let bytes = written(sort, &folder)?;
        let rounds = Rounds::take(|| timed::<Proved>(&folder), || timed::<Second>(&folder));
        let whole = command.as_ref().map(|command| called(command.as_ref(), &folder)).transpose()?;
        let [proved, second] = rounds.least().map(a_second);
        // The first cell is their time, for which the files a second stand here.
        let beside = rounds.beside();
        let ratios = beside.split_once(" | ").map_or("", |(_, ratios)| ratios);
        let whole = whole.map_or_else(|| "not run".to_string(), a_second);
        println!("| {} | {bytes} | {proved} | {second} | {ratios} | {whole} |", sort.name);
        fs::remove_dir_all(&folder)?;
    }
    Ok(())
}

/// Writes the files of a sort, and gives how many bytes they have together.
fn written(sort: &Sort, folder: &Path) -> io::Result<usize> {
    fs::create_dir(folder)?;
    let mut bytes = 0;
    for seed in 0..FILES {
        let file = (sort.file)(seed);
        bytes += file.len();
        fs::write(folder.join(format!("{seed:05}.proof")), file)?;
    }
    Ok(bytes)
}

/// How many files a second a time for all of them is.
fn a_second(time: Duration) -> String {
    format!("{:.0}", FILES as f64 / time.as_secs_f64())
}

/// The time of a check of all files, with the lines that are printed of it.
fn timed<E: Engine + Default>(folder: &Path) -> Duration {
    let start = Instant::now();
    let found = files_of(Source::Path(folder.to_path_buf()));
    let files: Vec<Source> = found.into_iter().map(|found| found.source).collect();
    assert_eq!(files.len() as u64, FILES, "all files are found");
    let terms = Terms { form: Form::Old, day: Some(DAY) };
    let worker = || {
        let mut checker = Checker::new(E::default(), terms);
        move |source: &Source| checker.check(source)
    };
    let mut lines = Lines { files: &files, done: 0, text: String::new() };
    in_order(processors(), &files, worker, &mut lines).expect("a thread");
    assert_eq!(lines.done as u64, FILES, "all files are checked");
    black_box(lines.text);
    start.elapsed()
}

/// The lines of the verdicts.
struct Lines<'a> {
    files: &'a [Source],
    done: usize,
    text: String,
}

impl Taker<Result<Checked, Failure>> for Lines<'_> {
    fn take(&mut self, checked: Result<Checked, Failure>) -> ControlFlow<()> {
        let verdict = checked.expect("it is read").answer.verdict;
        let _ = writeln!(self.text, "{}: {verdict}", self.files[self.done]);
        self.done += 1;
        ControlFlow::Continue(())
    }

    fn tick(&mut self, _: usize) {}
}

/// The least time of the command itself.
fn called(command: &Path, folder: &Path) -> io::Result<Duration> {
    let mut least = Duration::MAX;
    for _ in 0..ROUNDS {
        let start = Instant::now();
        let mut run = Command::new(command);
        let run = run.args(["check", "--day", &DAY.to_string()]).arg(folder);
        let status = run.stdout(Stdio::null()).stderr(Stdio::null()).status()?;
        assert!(status.code().is_some_and(|status| status < 3), "all files are checked");
        least = least.min(start.elapsed());
    }
    Ok(least)
}
