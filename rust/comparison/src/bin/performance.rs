//! The proved check, plain and for services, which clause covers which, the proved merge, conversions, trims and calls of boards, beside the
//! second implementation on the same files in one run: tables in Markdown with the times and their ratio. Arguments name tables;
//! without any, all are made:
//!
//! ```text
//! performance [check] [services] [calls] [covers] [merge] [convert] [trim] [board]
//! ```

use std::env;
use std::fmt::Display;
use std::hint::black_box;
use std::io;
use std::time::{Duration, Instant};

use yestrwyn::{Board, BoardRefusal, Workspace};
use yestrwyn_comparison::clock::own_time;
use yestrwyn_comparison::files::{called, converted, measured, merged, ordinary, trimmed, Called};
use yestrwyn_comparison::questions::{questions, Question};
use yestrwyn_comparison::rounds::Rounds;
use yestrwyn_types::limits::{FILE_BYTES, RECORD_BYTES};
use yestrwyn_types::{Answer, Cells, Form};
use yestrwyn_vectors::boards::Lent;
use yestrwyn_vectors::examples::boards::{Call, Script};
use yestrwyn_vectors::examples::forms::Formed;
use yestrwyn_vectors::examples::merges::Merge;
use yestrwyn_vectors::examples::{cases, heavy, Example};
use yestrwyn_vectors::forms::convert_into;
use yestrwyn_vectors::stored::groups;

/// A measurement is repeated until it takes about so long.
const LONG_ENOUGH: Duration = Duration::from_millis(5);

/// A function that makes a table.
type Table = fn() -> io::Result<()>;

/// The tables by name.
const TABLES: [(&str, Table); 8] = [
    ("check", check_table),
    ("services", services_table),
    ("calls", calls_table),
    ("covers", covers_table),
    ("merge", merge_table),
    ("convert", convert_table),
    ("trim", trim_table),
    ("board", board_table),
];

fn main() -> io::Result<()> {
    let asked: Vec<String> = env::args().skip(1).collect();
    if asked.iter().any(|name| TABLES.iter().all(|(table, _)| table != name)) {
        return Err(io::Error::other(
            "the tables are check, services, calls, covers, merge, convert, trim and board",
        ));
    }
    let tables =
        TABLES.iter().filter(|(table, _)| asked.is_empty() || asked.iter().any(|name| name == table));
    for (place, (_, table)) in tables.enumerate() {
        if place > 0 {
            println!();
        }
        table()?;
    }
    Ok(())
}

/// The check.
fn check_table() -> io::Result<()> {
    println!("| file | proved | second | ratio | over ten rounds |");
    println!("|---|---|---|---|---|");
    yestrwyn::with_stack(on_lent_tables)
}

/// The check for services.
fn services_table() -> io::Result<()> {
    println!(
        "| file, workspace kept between files | for services | plain | ratio | over ten rounds | second | ratio | over ten rounds |"
    );
    println!("|---|---|---|---|---|---|---|---|");
    yestrwyn::with_stack(with_a_workspace)
}

/// The function for users of Rust.
fn calls_table() -> io::Result<()> {
    println!(
        "| file, one call with tables of its own | `yestrwyn::check` | second | ratio | over ten rounds |"
    );
    println!("|---|---|---|---|---|");
    whole_calls();
    Ok(())
}

/// Which clause covers which: the whole call, and the middle of what it takes more than a check of the same file.
fn covers_table() -> io::Result<()> {
    println!(
        "| file, two of its clauses compared | proved | second | ratio | over ten rounds | proved, less a check | second, less a check | ratio |"
    );
    println!("|---|---|---|---|---|---|---|---|");
    yestrwyn::with_stack(|| questions().iter().for_each(covers_line))
}

/// Two files merged: the whole call, and the middle of what it takes more than a check of both files.
fn merge_table() -> io::Result<()> {
    println!(
        "| two files merged | proved | second | ratio | over ten rounds | proved, less the checks | second, less the checks | ratio |"
    );
    println!("|---|---|---|---|---|---|---|---|");
    yestrwyn::with_stack(|| merged().iter().for_each(merge_line))
}

/// Files converted to the other form: the whole call, and the middle of what it takes more than a check of the file by its own form.
fn convert_table() -> io::Result<()> {
    println!(
        "| file that is converted | proved | second | ratio | over ten rounds | proved, less the check | second, less the check | ratio |"
    );
    println!("|---|---|---|---|---|---|---|---|");
    yestrwyn::with_stack(|| converted().iter().for_each(convert_line))
}

/// Files trimmed: bytes before and after, the whole call, and the middle of what it takes more than a check of the file.
fn trim_table() -> io::Result<()> {
    println!(
        "| file that is trimmed | bytes | trimmed | proved | second | ratio | over ten rounds | proved, less the check | second, less the check | ratio |"
    );
    println!("|---|---|---|---|---|---|---|---|---|---|");
    yestrwyn::with_stack(|| trimmed().iter().for_each(trim_line))
}

/// Calls of boards: the check of the file anew, for services, beside a call; and a call by the second implementation.
fn board_table() -> io::Result<()> {
    println!(
        "| a file of 4,000 clauses, and the clause that is withdrawn and returned | check anew | a call | ratio | over ten rounds | a call of the second | ratio of the calls | over ten rounds |"
    );
    println!("|---|---|---|---|---|---|---|---|");
    yestrwyn::with_stack(|| called().iter().for_each(board_lines))?;
    println!();
    println!("| a file of 4,000 clauses | input clauses called in turn | the slowest call about one of them, at its best of 15 |");
    println!("|---|---|---|");
    yestrwyn::with_stack(|| called().iter().for_each(slowest_line))
}

/// Both with tables that are lent to them again and again.
fn on_lent_tables() {
    for example in measured() {
        check_line(example.name, &[(0, &example.file)]);
    }
    for example in heavy::examples() {
        check_line(format!("`{}`", example.name), &[(0, &example.file)]);
    }
    for group in groups() {
        check_line(format!("stored vectors: `{}`", group.name), &on_their_days(&group.examples));
    }
    for example in cases::examples().iter().take(12) {
        check_line(format!("case {} alone", example.name), &[(0, &example.file)]);
    }
}

/// The check for services, with one workspace for all files, beside the plain one and beside the second implementation.
fn with_a_workspace() {
    let mut workspace = Workspace::new();
    for example in ordinary() {
        let name = format!("{}, {} records", example.name, example.file.len() / RECORD_BYTES);
        services_line(name, &[(0, &example.file)], &mut workspace);
    }
    for group in groups() {
        let files = on_their_days(&group.examples);
        services_line(format!("stored vectors: `{}`", group.name), &files, &mut workspace);
    }
}

/// A file and its day.
type Dated<'a> = (u16, &'a [u8]);

/// The files of a group, each with its day.
fn on_their_days(examples: &[Example]) -> Vec<Dated<'_>> {
    examples.iter().map(|example| (example.day, example.file.as_slice())).collect()
}

/// A line of the first table.
fn check_line(name: impl Display, files: &[Dated<'_>]) {
    let rounds = Rounds::take(|| time_all(files, plain), || time_all(files, second));
    println!("| {name} | {rounds} |");
}

/// A line of the second table.
fn services_line(name: impl Display, files: &[Dated<'_>], workspace: &mut Workspace) {
    let mut services =
        || time_all(files, |day, file, cells| workspace.check_into_here(day, file, &mut cells.lend()));
    let to_plain = Rounds::take(&mut services, || time_all(files, plain));
    let to_second = Rounds::take(&mut services, || time_all(files, second));
    println!("| {name} | {to_plain} | {} |", to_second.beside());
}

/// A line of the fourth table, both with tables that are lent to them again and again.
fn covers_line(question: &Question) {
    let Question { name, file, clauses: [c, d] } = question;
    let proved = |cells: &mut Cells| yestrwyn::covers_here(file, *c, *d, &mut cells.lend());
    let other = |cells: &mut Cells| yestrwyn_second::covers_into(file, *c, *d, &mut cells.lend());
    let [whole, less] = Rounds::take_parts(
        || and_less_the_checks(&[file], proved, plain),
        || and_less_the_checks(&[file], other, second),
    );
    println!("| {name} | {whole} | {} |", less.middles());
}

/// A line of the last table, both with tables and an output that are lent to them again and again.
fn merge_line(pair: &Merge) {
    let files = [pair.first.as_slice(), &pair.second];
    let mut outputs = [(); 2].map(|()| vec![0; FILE_BYTES]);
    let [ours, theirs] = &mut outputs;
    let mut proved = |cells: &mut Cells| yestrwyn::merge_here(files[0], files[1], &mut cells.lend(), ours);
    let mut other =
        |cells: &mut Cells| yestrwyn_second::merge_into(files[0], files[1], &mut cells.lend(), theirs);
    let [whole, less] = Rounds::take_parts(
        || and_less_the_checks(&files, &mut proved, plain),
        || and_less_the_checks(&files, &mut other, second),
    );
    println!("| {} | {whole} | {} |", pair.name, less.middles());
}

/// A line of the table of conversions, both with tables and an output that are lent to them again and again.
fn convert_line(Formed { name, form, file, .. }: &Formed) {
    let mut outputs = [(); 2].map(|()| vec![0; FILE_BYTES]);
    let [ours, theirs] = &mut outputs;
    let mut proved = |cells: &mut Cells| match form {
        Form::Old => yestrwyn::to_new_here(file, &mut cells.lend(), ours),
        Form::New => yestrwyn::to_old_here(file, &mut cells.lend(), ours),
    };
    let mut other = |cells: &mut Cells| convert_into(*form, file, &mut cells.lend(), theirs);
    let [plain, second]: [Check; 2] = match form {
        Form::Old => [plain, second],
        Form::New => [plain_new, second_new],
    };
    let [whole, less] = Rounds::take_parts(
        || and_less_the_checks(&[file], &mut proved, plain),
        || and_less_the_checks(&[file], &mut other, second),
    );
    println!("| {name} | {whole} | {} |", less.middles());
}

/// A line of the table of trims, both with tables and an output that are lent to them again and again.
fn trim_line(Example { name, day, file }: &Example) {
    let mut outputs = [(); 2].map(|()| vec![0; FILE_BYTES]);
    let length = yestrwyn_second::trim(*day, file).map(|trimmed| trimmed.len().to_string());
    let [ours, theirs] = &mut outputs;
    let mut proved = |cells: &mut Cells| yestrwyn::trim_here(*day, file, &mut cells.lend(), ours);
    let mut other = |cells: &mut Cells| yestrwyn_second::trim_into(*day, file, &mut cells.lend(), theirs);
    let [whole, less] = Rounds::take_parts(
        || and_less_the_checks(&[file], &mut proved, plain),
        || and_less_the_checks(&[file], &mut other, second),
    );
    let length = length.unwrap_or_else(|_| "none".to_string());
    println!("| {name} | {} | {length} | {whole} | {} |", file.len(), less.middles());
}

/// The lines of the last table for a file: each call is a withdrawal or a return, half of them either.
fn board_lines(called: &Called) {
    let Called { name, file, clauses } = called;
    let mut workspace = Workspace::new();
    let mut check =
        || time_all(&[(0, file)], |day, file, cells| workspace.check_into_here(day, file, &mut cells.lend()));
    for (which, clauses) in clauses {
        let mut board = Board::open_here(0, file.as_slice()).expect("the file stands");
        let script = Script::new(name, 0, file.clone(), &[]);
        let mut lent = Lent::new(&script);
        assert!(lent.open(&script).result().is_ok(), "the file stands");
        let mut proved = || {
            time_calls(clauses, |call| match call {
                Call::Withdraw(clause) => board.withdraw(clause),
                Call::Return(clause) => board.give_back(clause),
            })
        };
        let beside_the_check = Rounds::take(&mut check, &mut proved);
        let second = || time_calls(clauses, |call| lent.call(file, call).result());
        let beside_the_second = Rounds::take(&mut proved, second);
        println!("| {name}: {which} | {beside_the_check} | {} |", beside_the_second.beside());
    }
}

/// A line of the table of slowest calls: some 400 input clauses in turn, so that no call is about the clause of the one before.
fn slowest_line(called: &Called) {
    let mut board = Board::open_here(0, called.file.as_slice()).expect("the file stands");
    let inputs: Vec<u16> = (0..4096).filter(|&clause| board.is_present(clause)).collect();
    let clauses: Vec<u16> = inputs.iter().copied().step_by((inputs.len() / 400).max(1)).collect();
    let mut best = vec![Duration::MAX; clauses.len()];
    for _ in 0..15 {
        for (&clause, best) in clauses.iter().zip(&mut best) {
            let start = Instant::now();
            board.withdraw(clause).expect("it is present");
            let withdrawn = start.elapsed();
            board.give_back(clause).expect("it is withdrawn");
            *best = (*best).min(withdrawn.max(start.elapsed() - withdrawn));
        }
    }
    let slowest = best.iter().max().expect("an input clause");
    println!("| {} | {} | {:.1} µs |", called.name, clauses.len(), slowest.as_secs_f64() * 1e6);
}

/// How long a call takes, where each of some clauses is withdrawn and then returned.
fn time_calls(clauses: &[u16], mut run: impl FnMut(Call) -> Result<Option<u16>, BoardRefusal>) -> Duration {
    let calls = 2 * clauses.len() as u32;
    let all = time(|| {
        for &clause in clauses {
            for call in [Call::Withdraw(clause), Call::Return(clause)] {
                assert!(black_box(run(call)).is_ok(), "{call:?}");
            }
        }
    });
    all / calls
}

/// A check of a file on a day.
type Check = fn(u16, &[u8], &mut Cells) -> Answer;

/// The time of something that checks files first, and that less the time of the checks alone.
fn and_less_the_checks<T>(
    files: &[&[u8]],
    mut run: impl FnMut(&mut Cells) -> T,
    check: Check,
) -> [Duration; 2] {
    let mut cells = Cells::new();
    let whole = time(|| {
        black_box(run(&mut cells));
    });
    let dated: Vec<Dated<'_>> = files.iter().map(|&file| (0, file)).collect();
    [whole, whole.saturating_sub(time_all(&dated, check))]
}

/// The proved check with an array of its own.
fn plain(day: u16, file: &[u8], cells: &mut Cells) -> Answer {
    yestrwyn::check_here(day, file, &mut cells.lend())
}

/// The second implementation.
fn second(day: u16, file: &[u8], cells: &mut Cells) -> Answer {
    yestrwyn_second::check_into(day, file, &mut cells.lend())
}

/// The proved check of a file of the new form.
fn plain_new(day: u16, file: &[u8], cells: &mut Cells) -> Answer {
    yestrwyn::check_form_here(Form::New, day, file, &mut cells.lend())
}

/// The second implementation's.
fn second_new(day: u16, file: &[u8], cells: &mut Cells) -> Answer {
    yestrwyn_second::check_form_into(Form::New, day, file, &mut cells.lend())
}

/// How long a check takes for all files.
fn time_all(files: &[Dated<'_>], mut check: impl FnMut(u16, &[u8], &mut Cells) -> Answer) -> Duration {
    let mut cells = Cells::new();
    time(|| {
        for &(day, file) in files {
            black_box(check(day, file, &mut cells));
        }
    })
}

/// The function for users, with its own thread and tables, against the second implementation's.
fn whole_calls() {
    let examples = cases::examples();
    for example in examples.iter().filter(|example| ["A", "F", "K-12"].contains(&example.name.as_str())) {
        let rounds = Rounds::take(
            || time(|| assert!(black_box(yestrwyn::check(0, &example.file)).is_ok())),
            || {
                time(|| {
                    black_box(yestrwyn_second::check(0, &example.file));
                })
            },
        );
        println!("| case {} | {rounds} |", example.name);
    }
}

/// How long something takes, repeated until it has taken long enough to be measured.
fn time(mut run: impl FnMut()) -> Duration {
    let start = own_time();
    let mut repeats = 0;
    loop {
        run();
        repeats += 1;
        let taken = own_time().saturating_sub(start);
        if taken >= LONG_ENOUGH {
            return taken / repeats;
        }
    }
}
