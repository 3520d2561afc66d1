//! Bindings already held (document 02, Q-4): the count of bindings is the sum of the table's fifth cells after every record, a
//! refused one too, and a refused record adds nothing to it. For the proved check and for the second implementation.

use yestrwyn::{Answer, Cells, Verdict, Workspace};
use yestrwyn_types::limits::RECORD_BYTES;
use yestrwyn_vectors::stored::groups;
use yestrwyn_vectors::{clashing_file, damage, dated_file, random_file, several_file};

/// Both checks, each with tables of its own.
struct Checks {
    proved: Workspace,
    second: Cells,
}

impl Checks {
    fn new() -> Checks {
        Checks { proved: Workspace::new(), second: Cells::new() }
    }

    /// The count of bindings in the answers, after it was compared with the tables.
    fn held(&mut self, file: &[u8]) -> u16 {
        let proved = self.proved.check_here(0, file);
        let second = yestrwyn_second::check_into(0, file, &mut self.second.lend());
        assert_eq!(proved, second);
        assert_eq!(u32::from(proved.bindings), fifth_cells(proved, self.proved.cells()));
        assert_eq!(u32::from(second.bindings), fifth_cells(second, &self.second));
        proved.bindings
    }

    /// The same after each record of a file. The count never falls, and a refused record leaves it as it was.
    fn held_after_each(&mut self, file: &[u8]) {
        let mut before = 0;
        for end in (0..=file.len()).step_by(RECORD_BYTES) {
            let held = self.held(&file[..end]);
            let refused = matches!(yestrwyn_second::check(0, &file[..end]).verdict, Verdict::Refused { .. });
            assert!(if refused { held == before } else { held >= before });
            before = held;
        }
    }
}

/// The sum of the fifth cells of the clauses that stand.
fn fifth_cells(answer: Answer, cells: &Cells) -> u32 {
    cells.clauses.chunks_exact(5).take(usize::from(answer.clauses)).map(|clause| u32::from(clause[4])).sum()
}

/// Runs a test with stack enough for every file.
fn with_stack(test: impl FnOnce() + Send) {
    yestrwyn::with_stack(test).expect("a thread");
}

#[test]
fn every_stored_vector() {
    with_stack(|| {
        let mut checks = Checks::new();
        for example in groups().into_iter().flat_map(|group| group.examples) {
            if example.file.len() % RECORD_BYTES == 0 && example.file.len() <= 65_536 {
                checks.held(&example.file);
            }
        }
    });
}

#[test]
fn after_each_record_of_random_files() {
    with_stack(|| {
        let mut checks = Checks::new();
        for seed in 0..60 {
            for file in [random_file(seed), several_file(seed), clashing_file(seed), dated_file(seed).1] {
                checks.held_after_each(&file);
                checks.held_after_each(&damage(&file, seed));
            }
        }
    });
}

#[test]
fn a_refused_step_adds_nothing() {
    with_stack(|| {
        let mut checks = Checks::new();
        let mut steps = 0;
        for seed in 0..2000 {
            let file = damage(&several_file(seed), seed);
            let Verdict::Refused { record, .. } = yestrwyn_second::check(0, &file).verdict else { continue };
            let end = usize::from(record) * RECORD_BYTES;
            if matches!(file.get(end), Some(5..=7)) {
                assert_eq!(checks.held(&file), checks.held(&file[..end]));
                steps += 1;
            }
        }
        assert!(steps > 100, "{steps} refused steps");
    });
}
