//! Files that are measured beside the heavy ones: of some thousand records, ordinary ones of some dozens, pairs that are merged,
//! files that are converted, files that are trimmed, and files whose boards are called.

use std::fs;
use std::path::Path;

use yestrwyn_types::Form;
use yestrwyn_vectors::examples::forms::{self, Formed};
use yestrwyn_vectors::examples::merges::{self, Merge};
use yestrwyn_vectors::examples::{cases, deep, edges, repeats, trims, Example};
use yestrwyn_vectors::random::SplitMix64;
use yestrwyn_vectors::sketch::{app, neg, pos, var, Sketch};
use yestrwyn_vectors::widened;

/// The files by what they do.
pub fn measured() -> Vec<Example> {
    vec![
        Example::new("a count to 4,000, growing parent left", deep::derivation(4000)),
        Example::new("a count to 4,000, growing parent right", count_right()),
        Example::new("the chain of the rule with itself, 4,000 steps", chain()),
        Example::new("2,000 links whose oldest variable stands at 4,096 leaves, 2,000 uses", links()),
        Example::new("3,900 steps that unify two terms of 4,096 leaves", leaves(12)),
        Example::new("3,900 steps that compare 4,096 pairs of outlines", leaves(11)),
        Example::new("a count to 4,000 by steps on two right literals", count_by_two()),
        Example::new("3,900 steps on four right literals, each a term of 1,024 leaves", four_trees()),
        Example::new("4,095 rows", edges::many_rows(4095).finish()),
        Example::new("one row written 4,093 times", repeats::one_row(4093)),
        Example::new("4,094 rows, of which 3,794 have one hash", one_hash()),
        Example::new("1,364 rules with a window each, and 1,364 steps on them", dated_rules()),
    ]
}

/// The stored examples of proofs that a planner writes, and case A.
pub fn ordinary() -> Vec<Example> {
    let example = |name: &str| Example::new(&format!("`{name}`"), stored(name));
    let mut files = ["curfew.proof", "duty.proof", "permit.proof", "season.proof"].map(example).to_vec();
    files.push(Example::new("case A", cases::case_a()));
    files
}

/// A stored example.
fn stored(name: &str) -> Vec<u8> {
    let path = Path::new(env!("CARGO_MANIFEST_DIR")).join("../../examples").join(name);
    fs::read(path).unwrap_or_else(|error| panic!("{name}: {error}"))
}

/// Pairs that are merged: the stored examples, a long rulebook with them, and merged files as long as one can be.
pub fn merged() -> Vec<Merge> {
    let [rulebook, trip] = ["rulebook.proof", "trip.proof"].map(stored);
    let mut pairs = vec![
        Merge::new("`rulebook.proof` and `trip.proof`", rulebook.clone(), trip.clone()),
        Merge::new("a rulebook of 4,051 records and `trip.proof`", long_rulebook(&rulebook), trip.clone()),
        Merge::new("`trip.proof` and a rulebook of 4,051 records", trip, long_rulebook(&rulebook)),
    ];
    let named = [
        ("4096-records", "rows alone, 2,048 records twice"),
        ("4096-symbols-twice", "symbols alone, 4,096 records twice"),
        ("largest-row-number", "4,090 rows and a clause on the last"),
        ("18-file-2-before-19", "3,012 and 3,005 records, refused with 18"),
    ];
    pairs.extend(named.map(|(name, said)| {
        let found = merges::examples().into_iter().find(|pair| pair.name == name);
        let Merge { first, second, .. } = found.unwrap_or_else(|| panic!("no pair {name}"));
        Merge::new(said, first, second)
    }));
    pairs
}

/// Files that are converted, in either direction: a stored example, rules with days and steps on them, and files at the edge of what
/// the other form can take, with many days, with none, and refused.
pub fn converted() -> Vec<Formed> {
    let season = stored("season.proof");
    let (dated, count) = (dated_rules(), deep::derivation(3000));
    let mut files = vec![
        Formed::new(Form::New, "`season.proof` in the new form", widened(&season)),
        Formed::new(Form::Old, "`season.proof`", season),
        Formed::new(Form::New, "the same in the new form", widened(&dated)),
        Formed::new(Form::Old, "1,364 rules with a window each, and 1,364 steps on them", dated),
        Formed::new(Form::New, "the same in the new form", widened(&count)),
        Formed::new(Form::Old, "a count to 3,000", count),
    ];
    // Each in the old form first.
    files.chunks_mut(2).for_each(<[Formed]>::reverse);
    let named = [
        ("to-new-3276-records", "3,276 symbols"),
        ("to-new-3276-records-and-820-of-days", "3,276 records and 820 of days, all for one clause"),
        ("to-new-3-records-and-4093-of-days", "3 records and 4,093 of days, all for one clause"),
        ("22-to-new-4096-records", "4,096 symbols, refused with 22"),
        (
            "to-old-3276-records-of-which-820-have-days",
            "3,276 records in the new form, 820 clauses with days",
        ),
        ("to-old-3276-records-of-which-0-have-days", "3,276 records in the new form, no clause with days"),
        (
            "to-old-2049-records-of-which-2047-have-days",
            "2,049 records in the new form, 2,047 clauses with days",
        ),
        ("22-to-old-3276-records-of-which-3274-have-days", "3,276 records in the new form, refused with 22"),
    ];
    files.extend(named.map(|(name, said)| {
        let found = forms::examples().into_iter().find(|file| file.name == name);
        Formed { name: said.to_string(), ..found.unwrap_or_else(|| panic!("no file {name}")) }
    }));
    files
}

/// Files that are trimmed: a stored example, thousands of unused records of several kinds, files of which everything is kept, rows
/// that repeat, and a file that is not accepted on the day.
pub fn trimmed() -> Vec<Example> {
    let named = [
        ("thousands-of-unused-rules", "800 rules with days, eight of them used"),
        ("thousands-of-unused-symbols", "4,090 unused symbols"),
        ("thousands-of-superseded-days", "4,091 records of days for two clauses"),
        ("all-of-4096-records", "a count of 4,091 steps, all of them used"),
        ("one-rule-used-many-times", "a rule used forty times"),
        ("23-no-step", "four clauses, refused with 23"),
    ];
    let found = |(name, said): (&str, &str)| {
        let found = trims::examples().into_iter().find(|file| file.name == name);
        Example { name: said.to_string(), ..found.unwrap_or_else(|| panic!("no file {name}")) }
    };
    let declined = Example { day: 21_000, ..Example::new("`declined.proof`", stored("declined.proof")) };
    let mut files = vec![declined];
    files.extend(named.map(found));
    files.push(Example::new("one row written 4,090 times and refuted", repeated_row()));
    files
}

/// One row again and again, of which the clauses name the last.
fn repeated_row() -> Vec<u8> {
    let mut file = Sketch::new();
    let q = file.symbol(0);
    let row = (0..4090).fold(0, |_, _| file.fields(3, 0, &[q]));
    let [yes, no] = [true, false].map(|sign| file.clause_of_rows(&[(sign, row)]));
    file.resolve(yes, 1, no, 1);
    file.finish()
}

/// A file of some 4,000 clauses whose board is called, and the input clauses that are withdrawn and returned, by what they are.
pub struct Called {
    pub name: &'static str,
    pub file: Vec<u8>,
    pub clauses: Vec<(&'static str, Vec<u16>)>,
}

impl Called {
    /// A file with its first, middle and last input clause, and with some of them drawn at random.
    fn new(name: &'static str, file: Vec<u8>, inputs: &[u16]) -> Called {
        let mut random = SplitMix64::new(4000);
        let drawn = (0..64).map(|_| inputs[random.below(inputs.len())]).collect();
        let one = |place: usize| vec![inputs[place]];
        let clauses = vec![
            ("the first", one(0)),
            ("the middle one", one(inputs.len() / 2)),
            ("the last", one(inputs.len() - 1)),
            ("any, of 64 drawn", drawn),
        ];
        Called { name, file, clauses }
    }
}

/// Files of some 4,000 clauses: a chain of steps with a rule each, in turn; steps that all use the first clause; steps on two
/// clauses alone; input clauses alone; and rules and steps on any earlier clauses, in no order, of which a call alters some and
/// not others. The last clause of the first two is empty.
pub fn called() -> Vec<Called> {
    let in_turn: Vec<u16> = (0..=2001).map(|rule| (2 * rule as u16).saturating_sub(1)).collect();
    let all: Vec<u16> = (0..4000).collect();
    let (drawn, drawn_inputs) = drawn_steps(4000);
    vec![
        Called::new("a chain of 2,000 steps and their rules in turn", rules_in_turn(true), &in_turn),
        Called::new(
            "2,000 steps on the first clause and their rules in turn",
            rules_in_turn(false),
            &in_turn,
        ),
        Called::new("a count to 4,000 from two clauses", deep::derivation(4000), &[0, 1]),
        Called::new("4,000 input clauses", input_clauses(4000), &all),
        Called::new("4,000 rules and steps on drawn clauses", drawn, &drawn_inputs),
    ]
}

/// +q, then 2,000 times -q +q and a step that resolves it with the last result, or with +q; then -q, and the empty clause.
fn rules_in_turn(chain: bool) -> Vec<u8> {
    let mut file = Sketch::new();
    let q = file.symbol(0);
    let first = file.clause(&[pos(app(q, []))]);
    let mut known = first;
    for _ in 0..2000 {
        let rule = file.clause(&[neg(app(q, [])), pos(app(q, []))]);
        known = file.resolve(if chain { known } else { first }, 1, rule, 1);
    }
    let goal = file.clause(&[neg(app(q, []))]);
    file.resolve(known, 1, goal, 1);
    file.finish()
}

/// So many clauses -q +q, and which of them are input clauses: half of them are, and the others are resolved from two earlier
/// ones. Which ones is drawn.
fn drawn_steps(count: usize) -> (Vec<u8>, Vec<u16>) {
    let mut random = SplitMix64::new(4001);
    let (mut file, mut inputs) = (Sketch::new(), Vec::new());
    let q = file.symbol(0);
    for earlier in 0..count {
        if earlier == 0 || random.one_in(2) {
            inputs.push(file.clause(&[neg(app(q, [])), pos(app(q, []))]));
        } else {
            let [left, right] = [(); 2].map(|()| random.below(earlier) as u16);
            file.resolve(left, 2, right, 1);
        }
    }
    (file.finish(), inputs)
}

/// So many clauses +q.
fn input_clauses(count: usize) -> Vec<u8> {
    let mut file = Sketch::new();
    let q = file.symbol(0);
    for _ in 0..count {
        file.clause(&[pos(app(q, []))]);
    }
    file.finish()
}

/// The rulebook of 17 records and 2,017 rules more: each of a row of its own and a clause of three literals.
fn long_rulebook(rulebook: &[u8]) -> Vec<u8> {
    let mut file = Sketch::new();
    for row in 0..2017 {
        // A closed airfield, by the rulebook's row 4 or one of these, and night by its row 5.
        let row = file.fields(3, 2, &[1, if row == 0 { 4 } else { 7 + row }, 4]) + 8;
        file.fields(4, 3, &[2 * row + 1, 2 * 5, 2 * row]);
    }
    [rulebook, &file.finish()].concat()
}

/// A count upward: each step resolves the rule with the last result, as right parent.
fn count_right() -> Vec<u8> {
    let mut file = Sketch::new();
    let [q, f, a] = [1, 1, 0].map(|arity| file.symbol(arity));
    let mut known = file.clause(&[pos(app(q, [app(a, [])]))]);
    let rule = file.clause(&[neg(app(q, [var(0)])), pos(app(q, [app(f, [var(0)])]))]);
    for _ in 0..4000 {
        known = file.resolve(rule, 1, known, 1);
    }
    file.finish()
}

/// A count upward in which each step resolves the last result with both literals of the rule -q(x) -q(y) +q(f(x)).
fn count_by_two() -> Vec<u8> {
    let mut file = Sketch::new();
    let [q, f, a] = [1, 1, 0].map(|arity| file.symbol(arity));
    let mut known = file.clause(&[pos(app(q, [app(a, [])]))]);
    let [x, y] = [0, 1].map(|number| neg(app(q, [var(number)])));
    let rule = file.clause(&[x, y, pos(app(q, [app(f, [var(0)])]))]);
    for _ in 0..4000 {
        known = file.resolve_several(known, 1, rule, &[1, 2]);
    }
    file.finish()
}

/// The rule -q +q again and again, each time with a window on days 1 to 9 and resolved with the first of them.
fn dated_rules() -> Vec<u8> {
    let mut file = Sketch::new();
    let q = file.symbol(0);
    let first = file.clause(&[neg(app(q, [])), pos(app(q, []))]);
    for _ in 0..1364 {
        let rule = file.clause(&[neg(app(q, [])), pos(app(q, []))]);
        file.window(rule, 1, 9);
        file.resolve(first, 2, rule, 1);
    }
    file.finish()
}

/// The rule -q(x) +q(f(x)) resolved with itself, one step longer each time.
fn chain() -> Vec<u8> {
    let mut file = Sketch::new();
    let [q, f] = [1, 1].map(|arity| file.symbol(arity));
    let rule = file.clause(&[neg(app(q, [var(0)])), pos(app(q, [app(f, [var(0)])]))]);
    let mut known = rule;
    for _ in 0..4000 {
        known = file.resolve(known, 2, rule, 1);
    }
    file.finish()
}

/// Rows f(0,0,0,x,y,z), chosen so that the hash of the proved check (crate `distinct`) puts them into one bucket,
/// after 300 rows that they can name.
fn one_hash() -> Vec<u8> {
    let mut file = Sketch::new();
    let [f, g] = [6, 1].map(|arity| file.symbol(arity));
    for number in 0..64 {
        file.variable(number);
    }
    for row in 63..299 {
        file.application(g, &[row]);
    }
    let below = |end| 0u16..end;
    let rows = below(300).flat_map(|x| below(300).flat_map(move |y| below(300).map(move |z| [x, y, z])));
    for [x, y, z] in rows.filter(|&rows| bucket(rows) == 0).take(3794) {
        file.application(f, &[0, 0, 0, x, y, z]);
    }
    file.finish()
}

/// The bucket of such a row: its other cells are 8, for six arguments, and zeros.
fn bucket(rows: [u16; 3]) -> u32 {
    let weights = [3_153_260_809, 2_745_936_943, 4_180_041_711];
    let products = rows.iter().zip(weights).map(|(&row, weight)| u32::from(row).wrapping_mul(weight));
    products.fold(8u32.wrapping_mul(4_031_196_873), u32::wrapping_add) >> 20
}

/// A full tree of equal leaves: of depth 12 it has 4,096.
fn tree(file: &mut Sketch, g: u16, leaf: u16, depth: usize) -> u16 {
    (0..depth).fold(leaf, |row, _| file.application(g, &[row, row]))
}

/// A clause at the end of 2,000 links from variable to variable, the oldest of which stands at 4,096 leaves, used in 2,000 steps.
fn links() -> Vec<u8> {
    let mut file = Sketch::new();
    let [q, r, g, a] = [1, 1, 2, 0].map(|arity| file.symbol(arity));
    let (x, a) = (file.variable(0), file.application(a, &[]));
    let (open, full) = (tree(&mut file, g, x, 12), tree(&mut file, g, a, 12));
    let [link, old, goal] =
        [(q, x), (r, open), (r, full)].map(|(symbol, row)| file.application(symbol, &[row]));
    let mut known = file.clause_of_rows(&[(true, old), (true, link)]);
    let rule = file.clause_of_rows(&[(false, link), (true, link)]);
    let goal = file.clause_of_rows(&[(false, goal)]);
    for _ in 0..2000 {
        known = file.resolve(known, 2, rule, 1);
    }
    for _ in 0..2000 {
        file.resolve(known, 1, goal, 1);
    }
    file.finish()
}

/// 3,900 steps that each unify two full trees. Of depth 11, with the atoms around them, they are 4,096 pairs; all
/// their rows differ, so that the outlines are compared whole.
fn leaves(depth: usize) -> Vec<u8> {
    let mut file = Sketch::new();
    let [r, g, a] = [1, 2, 0].map(|arity| file.symbol(arity));
    let (x, a) = (file.variable(0), file.application(a, &[]));
    let (open, full) = (tree(&mut file, g, x, depth), tree(&mut file, g, a, depth));
    let [open, full] = [open, full].map(|row| file.application(r, &[row]));
    let left = file.clause_of_rows(&[(true, open)]);
    let right = file.clause_of_rows(&[(false, full)]);
    for _ in 0..3900 {
        file.resolve(left, 1, right, 1);
    }
    file.finish()
}

/// 3,900 steps that each unify a full tree over a variable with four over a constant, in which all rows differ from its
/// own, so that four outlines are compared too.
fn four_trees() -> Vec<u8> {
    let mut file = Sketch::new();
    let [r, g, a] = [1, 2, 0].map(|arity| file.symbol(arity));
    let (x, a) = (file.variable(0), file.application(a, &[]));
    let (open, full) = (tree(&mut file, g, x, 10), tree(&mut file, g, a, 10));
    let [open, full] = [open, full].map(|row| file.application(r, &[row]));
    let left = file.clause_of_rows(&[(true, open)]);
    let right = file.clause_of_rows(&[(false, full); 4]);
    for _ in 0..3900 {
        file.resolve_several(left, 1, right, &[1, 2, 3, 4]);
    }
    file.finish()
}
