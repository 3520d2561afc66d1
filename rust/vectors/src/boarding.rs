//! Random boards: files of few symbols with many steps, so that several clauses are empty and input clauses are used by some of
//! them and not by others; and calls about their clauses, most of which go through.

use yestrwyn_second::board::Afresh;
use yestrwyn_second::checker::Checker;
use yestrwyn_second::clause::{all_literals, Literal, Origin};
use yestrwyn_types::limits::RIGHT_LITERALS;
use yestrwyn_types::record::{kind, Record};

use crate::dated::dated_file;
use crate::examples::boards::{Call, Script};
use crate::random::{damage, SplitMix64};
use crate::sketch::Sketch;

/// Steps that are tried before one with a short result is taken.
const TRIES: usize = 6;

/// The random script of a seed: mostly a file made for it, at times one with windows and larger terms, or a damaged one.
pub fn board_script(seed: u64) -> Script {
    let mut random = SplitMix64::new(seed ^ 0xb0a2_d000_0000_0000);
    let own = random.next_u64();
    let (day, file) = match random.below(16) {
        0 | 1 => dated_file(own),
        2 => {
            let (day, file) = boarding_file(own);
            (day, damage(&file, random.next_u64()))
        }
        _ => boarding_file(own),
    };
    let calls = random.between(1, 30);
    let calls = random_calls(&mut random, day, &file, calls);
    Script::new(&format!("boarding-{seed}"), day, file, &calls)
}

/// Calls about the clauses of a file: two of three alter the board. A file that is refused has no board, and no calls.
pub fn random_calls(random: &mut SplitMix64, day: u16, file: &[u8], count: usize) -> Vec<Call> {
    let Ok(opened) = Afresh::open(day, file) else { return Vec::new() };
    let clauses = opened.len();
    let inputs: Vec<u16> = (0..clauses as u16).filter(|&number| opened.is_input(number)).collect();
    let mut withdrawn = vec![false; clauses];
    let mut calls = Vec::with_capacity(count);
    // In some scripts most clauses are withdrawn at a time, in others few.
    let seldom = random.between(1, 5);
    while calls.len() < count {
        let drawn = match random.below(12) {
            0 => random.next_u64() as u16,
            1 => random.below(clauses + 2) as u16,
            _ => inputs.get(random.below(inputs.len())).copied().unwrap_or(0),
        };
        let is_withdrawn = withdrawn.get(usize::from(drawn)).copied().unwrap_or(false);
        // Where it is present, it is withdrawn, and the other way round, but for one call in eight.
        let back = is_withdrawn != random.one_in(8);
        if !back && !random.one_in(seldom) && inputs.len() > 2 {
            continue;
        }
        if let Some(place) = withdrawn.get_mut(usize::from(drawn)) {
            *place = !back;
        }
        calls.push(if back { Call::Return(drawn) } else { Call::Withdraw(drawn) });
    }
    calls
}

/// A day, and a file of 10 to 60 records on atoms without variables, with steps of every kind and windows around the day.
pub fn boarding_file(seed: u64) -> (u16, Vec<u8>) {
    let mut random = SplitMix64::new(seed ^ 0xb0a2_d1e5_0000_0000);
    let day = [0, 1, 7, 300, u16::MAX][random.below(5)];
    let records = random.between(10, 60);
    let mut maker = Maker { random, day, file: Sketch::new(), checker: Checker::new(), atoms: Vec::new() };
    maker.symbols();
    while usize::from(maker.file.records()) < records {
        maker.next();
    }
    (day, maker.file.finish())
}

/// A file under construction, with a checker that has read the same records.
struct Maker {
    random: SplitMix64,
    day: u16,
    file: Sketch,
    checker: Checker,
    atoms: Vec<u16>,
}

impl Maker {
    /// Writes a record, which stands.
    fn write(&mut self, kind: u8, count: u8, given: &[u16]) -> u16 {
        let record = Record::new(kind, count, given);
        let read = self.checker.record(&record.to_bytes());
        debug_assert!(read.is_ok(), "{record:?} is refused with {read:?}");
        self.file.raw(record)
    }

    /// One to four symbols without arguments, with a row each, and two clauses.
    fn symbols(&mut self) {
        for _ in 0..self.random.between(1, 4) {
            let symbol = self.write(kind::SYMBOL, 0, &[]);
            let atom = self.write(kind::APPLICATION, 0, &[symbol]);
            self.atoms.push(atom);
        }
        self.clause();
        self.clause();
    }

    /// Any record: a step more often than all others together.
    fn next(&mut self) {
        match self.random.below(20) {
            0..=4 => self.clause(),
            5 | 6 => self.window(),
            7 | 8 => self.factor(),
            9 | 10 => self.resolve(true),
            _ => self.resolve(false),
        }
    }

    /// An input clause of one to three literals, mostly of one; at times of none or of seven.
    fn clause(&mut self) {
        let count = match self.random.below(32) {
            0 => 0,
            1 => 7,
            2..=17 => 1,
            18..=26 => 2,
            _ => 3,
        };
        let codes: Vec<u16> = (0..count).map(|_| self.code()).collect();
        self.write(kind::INPUT, count, &codes);
    }

    /// A literal: some atom with some sign.
    fn code(&mut self) -> u16 {
        let drawn = self.random.below(self.atoms.len());
        2 * self.atoms[drawn] + self.random.below(2) as u16
    }

    /// Days of some input clause, with the day within them or beside them; few enough clauses that some get days again.
    fn window(&mut self) {
        let is_input =
            |number: &u16| matches!(self.checker.clauses()[usize::from(*number)].origin, Origin::Input(_));
        let inputs: Vec<u16> = (0..self.checker.clauses().len() as u16).filter(is_input).collect();
        let drawn = self.random.below(inputs.len());
        let day = self.day;
        let [first, last] = match self.random.below(6) {
            0 => [day.saturating_add(1), u16::MAX],
            1 => [0, day.saturating_sub(1)],
            2 => [0, u16::MAX],
            _ => [day, day],
        };
        self.write(kind::WINDOW, 0, &[inputs[drawn], first, last]);
    }

    /// The literals of some clause, with its number.
    fn some_clause(&mut self) -> (u16, Vec<Literal>) {
        let drawn = self.random.below(self.checker.clauses().len()) as u16;
        (drawn, all_literals(self.checker.clauses(), drawn))
    }

    /// A factor on two equal literals of some clause, if it has such.
    fn factor(&mut self) {
        let (clause, literals) = self.some_clause();
        let alike = |one: usize| {
            (0..literals.len()).filter(move |&other| other != one).map(move |other| (one, other))
        };
        let same = |&(one, other): &(usize, usize)| same_atom(&literals[one], &literals[other], true);
        let pairs: Vec<(usize, usize)> = (0..literals.len()).flat_map(alike).filter(same).collect();
        let drawn = self.random.below(pairs.len());
        if let Some(&(kept, deleted)) = pairs.get(drawn) {
            self.write(kind::FACTOR, 0, &[clause, kept as u16 + 1, deleted as u16 + 1]);
        }
    }

    /// A resolve of two clauses that have opposite literals: of some that are drawn the one with the shortest result. At times
    /// on several right literals.
    fn resolve(&mut self, several: bool) {
        let drawn: Vec<Step> = (0..TRIES).filter_map(|_| self.step()).collect();
        let Some(step) = drawn.into_iter().min_by_key(|step| step.literals) else { return };
        let Step { left, right, rights, .. } = step;
        let [clause, literal] = left;
        let most = if several { usize::from(RIGHT_LITERALS) } else { 1 };
        let rights = &rights[..rights.len().min(most)];
        let given = [&[clause, literal, right], rights].concat();
        match several {
            true => self.write(kind::RESOLVE_SEVERAL, rights.len() as u8, &given),
            false => self.write(kind::RESOLVE, 0, &given),
        };
    }

    /// A left literal, and all literals of some right clause that are its opposite; none if there are none, or if the result
    /// would be too long.
    fn step(&mut self) -> Option<Step> {
        let ((left, ours), (right, theirs)) = (self.some_clause(), self.some_clause());
        let drawn = self.random.below(ours.len());
        let chosen = ours.get(drawn)?;
        let opposite = (1..).zip(&theirs).filter(|(_, other)| same_atom(chosen, other, false));
        let rights: Vec<u16> = opposite.map(|(number, _)| number).collect();
        let literals = ours.len() + theirs.len();
        let fits = !rights.is_empty() && literals < 12 && self.index(left) + self.index(right) < 500;
        fits.then_some(Step { left: [left, drawn as u16 + 1], right, rights, literals })
    }

    /// The maximum index of a clause.
    fn index(&self, clause: u16) -> u16 {
        self.checker.clauses()[usize::from(clause)].max_index
    }
}

/// A step that stands.
struct Step {
    left: [u16; 2],
    right: u16,
    rights: Vec<u16>,
    /// The literals of both parents together.
    literals: usize,
}

/// Are two literals on one atom, with equal signs or opposite ones?
fn same_atom(one: &Literal, other: &Literal, equal: bool) -> bool {
    one.atom.row == other.atom.row && (one.positive == other.positive) == equal
}
