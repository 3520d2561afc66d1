//! Files made to take long are checked to their end, and give what they were built to give.

use yestrwyn_second::check_counting;
use yestrwyn_types::{Cells, Verdict};
use yestrwyn_vectors::examples::heavy;

/// Of every heavy file the largest work of a step, the most literals of a clause and the largest maximum
/// index.
const BUILT: [(&str, u32, u16, u16); 12] = [
    ("heavy-count", 4086, 2, 4085),
    ("heavy-chains", 151, 2, 4096),
    ("heavy-chains-resolve", 151, 2, 4095),
    ("heavy-factored-tree", 1, 7, 4096),
    ("heavy-work-pairs", 16_384, 1, 2),
    ("heavy-work-occurrence", 16_384, 1, 2),
    ("heavy-literals", 1, 127, 4090),
    ("heavy-literals-left", 1, 127, 4090),
    ("heavy-readout", 1, 127, 4071),
    ("heavy-exponential", 2049, 2, 4001),
    ("heavy-slowest", 16_384, 127, 4096),
    ("heavy-several", 16_384, 4, 2),
];

#[test]
fn heavy_files_stand_to_their_last_record() {
    let examples = heavy::examples();
    let names: Vec<&str> = examples.iter().map(|example| example.name.as_str()).collect();
    assert_eq!(names, BUILT.map(|(name, ..)| name));
    for (example, (name, work, literals, index)) in examples.iter().zip(BUILT) {
        let (mut cells, mut works) = (Cells::new(), Vec::new());
        let answer = check_counting(0, &example.file, &mut cells.lend(), &mut works);
        assert!(!matches!(answer.verdict, Verdict::Refused { .. }), "{name}: {answer}");
        let records = usize::from(answer.symbols + answer.rows + answer.clauses);
        assert_eq!(records, example.file.len() / 16, "{name}");
        assert!(records > 4000, "{name} has {records} records");
        let most = |cell: usize| cells.clauses.chunks(5).map(|clause| clause[cell]).max();
        let largest = works.iter().map(|step| step.work).max();
        assert_eq!((largest, most(1), most(2)), (Some(work), Some(literals), Some(index)), "{name}");
    }
}
