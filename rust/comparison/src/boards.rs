//! Boards by the proved functions, beside the second implementation: three numbers and every cell, after the opening and after
//! each call. What the file's own board has is worked out afresh; any other contents go by the reading over cells.

use yestrwyn::exported::{board_open_numbers, board_return_numbers, board_withdraw_numbers};
use yestrwyn_second::board::{cells, Afresh};
use yestrwyn_types::limits::{BOARD_CELLS, CLAUSE_CELLS, RECORD_BYTES};
use yestrwyn_types::record::kind;
use yestrwyn_types::{BoardAnswer, BOARD_ANSWER_CELLS, LENGTHS};
use yestrwyn_vectors::board_script;
use yestrwyn_vectors::boarding::random_calls;
use yestrwyn_vectors::examples::boards::{Call, Script};
use yestrwyn_vectors::random::SplitMix64;

use crate::compare::{day_and_file_of, differ, Difference, Lengths, Lent};

/// Cells of a clause in the table of clauses, the first of which is its record.
const CLAUSE: usize = 5;

/// The names of the parts where a difference is shown.
const NAMES: [&str; 5] =
    ["answer of board", "symbols of board", "rows of board", "clauses of board", "bindings of board"];

/// How many cells each table has, the board and the answer.
#[derive(Clone, Copy, PartialEq, Eq, Debug)]
pub struct BoardLengths {
    pub tables: [usize; 4],
    pub board: usize,
    pub answer: usize,
}

impl BoardLengths {
    /// Tables, board and answer that are longer than they need to be by some cells.
    pub fn longer(by: usize) -> BoardLengths {
        let tables = LENGTHS.map(|length| length + by);
        BoardLengths { tables, board: BOARD_CELLS + by, answer: BOARD_ANSWER_CELLS + by }
    }

    /// The lengths that go with a seed: mostly just long enough or longer, at times one part too short.
    pub fn of(seed: u64) -> BoardLengths {
        let mut random = SplitMix64::new(!seed ^ 0xb0a2_0000_0000_0000);
        let mut lengths = BoardLengths::longer(random.below(4));
        match random.below(40) {
            0 => lengths.board = BOARD_CELLS - 1,
            1 => lengths.board = random.below(BOARD_CELLS),
            2 => lengths.answer = random.below(BOARD_ANSWER_CELLS),
            3 => {
                let short = random.below(LENGTHS.len());
                lengths.tables[short] = random.below(LENGTHS[short]);
            }
            _ => {}
        }
        lengths
    }

    /// Is there room for an answer?
    fn answered(self) -> bool {
        self.answer >= BOARD_ANSWER_CELLS
    }
}

/// The cells that one of the two is lent, kept between files.
#[derive(Default)]
struct BoardLent {
    cells: Lent,
    board: Vec<u16>,
}

impl BoardLent {
    /// Cells that hold marks, so that one moved or cleared is seen.
    fn fill(&mut self, lengths: BoardLengths, mark: u16) {
        self.cells.fill(Lengths { tables: lengths.tables, answer: lengths.answer }, mark);
        self.board.clear();
        self.board.extend((0..lengths.board).map(|cell| mark.wrapping_add(7 * cell as u16)));
    }

    /// Where answer, tables or board are not the second implementation's.
    fn differ(&self, second: &BoardLent) -> Result<(), Difference> {
        self.cells.differ(&second.cells, NAMES)?;
        differ("board", &self.board, &second.board)
    }

    fn open_proved(&mut self, day: u16, file: &[u8]) {
        let (mut tables, answer) = self.cells.tables();
        board_open_numbers(day, file, &mut tables, &mut self.board, answer);
    }

    fn call_proved(&mut self, file: &[u8], call: Call) {
        let (tables, answer) = self.cells.tables();
        let run = proved(call);
        run(file, tables.clauses, &mut self.board, call.clause(), answer);
    }

    /// The answer of the second implementation, written as the header of the proved one says, if there is room for it.
    fn put(&mut self, answer: BoardAnswer) {
        if let Some(cells) = self.cells.answer.get_mut(..BOARD_ANSWER_CELLS) {
            cells.copy_from_slice(&answer.numbers());
        }
    }

    /// The opening by the second implementation over cells.
    fn open_cells(&mut self, day: u16, file: &[u8]) {
        let (mut tables, _) = self.cells.tables();
        let answer = cells::open(day, file, &mut tables, &mut self.board);
        self.put(answer);
    }

    /// A call by the second implementation over cells.
    fn call_cells(&mut self, file: &[u8], call: Call) {
        let (tables, _) = self.cells.tables();
        let run = over_cells(call);
        let answer = run(file, tables.clauses, &mut self.board, call.clause());
        self.put(answer);
    }

    /// What is worked out afresh, in place of the cells of the board.
    fn put_afresh(&mut self, afresh: &Afresh) {
        self.board[..BOARD_CELLS].copy_from_slice(&afresh.cells());
    }
}

/// A proved function that withdraws or returns a clause.
type Proved = fn(&[u8], &[u16], &mut [u16], u16, &mut [u16]);

/// The proved function of a call.
fn proved(call: Call) -> Proved {
    match call {
        Call::Withdraw(_) => board_withdraw_numbers,
        Call::Return(_) => board_return_numbers,
    }
}

/// A function of the second implementation that does, over cells.
type OverCells = fn(&[u8], &[u16], &mut [u16], u16) -> BoardAnswer;

/// The second implementation of a call, over cells.
fn over_cells(call: Call) -> OverCells {
    match call {
        Call::Withdraw(_) => cells::withdraw,
        Call::Return(_) => cells::give_back,
    }
}

/// How many calls gave each kind of answer (none, a clause, refused), openings among them, and how many had no room for one; and how
/// many calls on any contents altered more cells than that of the clause called.
#[derive(Default, Clone, Copy, PartialEq, Eq, Debug)]
pub struct Met {
    pub kinds: [u64; 3],
    pub untouched: u64,
    pub followed: u64,
}

impl Met {
    fn count(&mut self, answer: &[u16]) {
        match answer.get(..BOARD_ANSWER_CELLS) {
            Some(numbers) => self.kinds[usize::from(numbers[0].min(2))] += 1,
            None => self.untouched += 1,
        }
    }
}

/// What both are lent.
#[derive(Default)]
pub struct Boards {
    proved: BoardLent,
    second: BoardLent,
    pub met: Met,
}

impl Boards {
    /// Has both open the board of a script and run its calls, with tables, board and answer of some lengths; says at which call
    /// they differ. Where there is a board, it is compared with what is worked out afresh.
    pub fn compare(&mut self, script: &Script, lengths: BoardLengths, mark: u16) -> Result<(), String> {
        self.proved.fill(lengths, mark);
        self.second.fill(lengths, mark);
        let mut afresh = self.open(script, lengths)?;
        script.calls.iter().try_for_each(|&call| self.call(&script.file, call, lengths, &mut afresh))
    }

    /// Opens a board by both; gives the one without a board, if the file has one.
    fn open(&mut self, script: &Script, lengths: BoardLengths) -> Result<Option<Afresh>, String> {
        let Boards { proved, second, met } = self;
        let Script { day, file, .. } = script;
        proved.open_proved(*day, file);
        met.count(&proved.cells.answer);
        if lengths.answered() {
            second.open_cells(*day, file);
        }
        proved.differ(second).map_err(|difference| format!("opening: {difference}"))?;
        let opened = lengths.answered() && proved.cells.answer[0] != 2;
        let afresh = opened.then(|| Afresh::open(*day, file)).and_then(Result::ok);
        if let Some(afresh) = &afresh {
            second.put(BoardAnswer::Answered(afresh.answer()));
            second.put_afresh(afresh);
            proved.differ(second).map_err(|difference| format!("opening, afresh: {difference}"))?;
        }
        Ok(afresh)
    }

    /// A call by both: worked out afresh, or where the file has no board, on whatever the cells hold.
    fn call(
        &mut self,
        file: &[u8],
        call: Call,
        lengths: BoardLengths,
        afresh: &mut Option<Afresh>,
    ) -> Result<(), String> {
        let Boards { proved, second, met } = self;
        proved.call_proved(file, call);
        met.count(&proved.cells.answer);
        match afresh {
            Some(afresh) => {
                second.put(afresh_call(afresh, call));
                second.put_afresh(afresh);
            }
            None if lengths.answered() => second.call_cells(file, call),
            None => {}
        }
        proved.differ(second).map_err(|difference| format!("{call:?}: {difference}"))
    }

    /// A call on any contents, by both.
    pub fn compare_any(&mut self, any: &Any) -> Result<(), Difference> {
        let Boards { proved, second, met } = self;
        for lent in [&mut *proved, &mut *second] {
            lent.cells.answer.clear();
            lent.cells.answer.resize(any.answer, 0xbeef);
            lent.board.clear();
            lent.board.extend_from_slice(&any.board);
            lent.cells.tables[2].clear();
            lent.cells.tables[2].extend_from_slice(&any.clauses);
        }
        proved.call_proved(&any.file, any.call);
        if any.answer >= BOARD_ANSWER_CELLS {
            second.call_cells(&any.file, any.call);
        }
        met.count(&proved.cells.answer);
        let altered = proved.board.iter().zip(&any.board).filter(|(after, before)| after != before);
        met.followed += u64::from(altered.count() > 1);
        differ("answer of board", &proved.cells.answer, &second.cells.answer)?;
        differ("clauses of board", &proved.cells.tables[2], &second.cells.tables[2])?;
        differ("board", &proved.board, &second.board)
    }
}

/// A call worked out afresh.
fn afresh_call(afresh: &mut Afresh, call: Call) -> BoardAnswer {
    match call {
        Call::Withdraw(clause) => afresh.withdraw(clause),
        Call::Return(clause) => afresh.give_back(clause),
    }
}

/// The script of a number within a run: mostly made for boards, at times any file.
pub fn script_of(seed: u64) -> Script {
    let mut random = SplitMix64::new(seed ^ 0xb0a2_ed00_0000_0000);
    let own = random.next_u64();
    if random.below(8) > 0 {
        return board_script(own);
    }
    let (day, file) = day_and_file_of(own);
    let calls = random_calls(&mut random, day, &file, 12);
    Script::new("any", day, file, &calls)
}

/// Any contents for a call: board, file and table of clauses of any length, holding anything.
#[derive(Clone, Debug)]
pub struct Any {
    pub file: Vec<u8>,
    pub clauses: Vec<u16>,
    pub board: Vec<u16>,
    pub answer: usize,
    pub call: Call,
}

impl Any {
    /// The contents of a seed. Half of them are those of a script with some cells altered, the others are drawn.
    pub fn of(seed: u64) -> Any {
        let mut random = SplitMix64::new(seed ^ 0xb0a2_a117_0000_0000);
        let mut any = if random.one_in(2) { Any::altered(&mut random) } else { Any::drawn(&mut random) };
        any.call = any.drawn_call(&mut random);
        any.lengths(&mut random);
        any
    }

    /// A board in the middle of a script, with cells of it and of the table altered.
    fn altered(random: &mut SplitMix64) -> Any {
        let script = board_script(random.next_u64());
        let mut lent = BoardLent::default();
        lent.fill(BoardLengths::longer(0), 0x2000);
        lent.open_cells(script.day, &script.file);
        for &call in script.calls.iter().take(random.below(12)) {
            lent.call_cells(&script.file, call);
        }
        let mut clauses = std::mem::take(&mut lent.cells.tables[2]);
        let (mut board, mut file) = (lent.board, script.file);
        let clause_count = board.iter().take_while(|&&cell| cell >= 4).count().min(BOARD_CELLS - 1);
        // A board that was not opened, because its file is refused, has clauses throughout.
        let places = (clause_count + 2).min(BOARD_CELLS - 1);
        for _ in 0..random.below(5) {
            let place = random.below(places);
            match random.below(4) {
                0 => board[place] = number(random),
                1 => clauses[CLAUSE * place + random.below(2)] = number(random),
                2 => {
                    let drawn = random.below(file.len());
                    if let Some(byte) = file.get_mut(drawn) {
                        *byte = random.next_u64() as u8;
                    }
                }
                _ => board[BOARD_CELLS - 1] = number(random),
            }
        }
        Any { file, clauses, board, answer: BOARD_ANSWER_CELLS, call: Call::Withdraw(0) }
    }

    /// Everything drawn: small numbers, which meet each other, and any.
    fn drawn(random: &mut SplitMix64) -> Any {
        // At times every cell is that of a clause.
        let clause_count = if random.one_in(8) { BOARD_CELLS } else { random.below(40) };
        let records = random.below(50);
        let file = (0..records).flat_map(|_| any_record(random)).collect();
        let clauses = (0..CLAUSE_CELLS)
            .map(|cell| if cell < 300 { small(random, 50) } else { number(random) })
            .collect();
        let board = (0..BOARD_CELLS)
            .map(|cell| if cell < clause_count { any_cell(random, cell) } else { small(random, 9) })
            .collect();
        Any { file, clauses, board, answer: BOARD_ANSWER_CELLS, call: Call::Withdraw(0) }
    }

    /// A call that mostly goes through: about a clause that the cells call an input clause, in the other condition. At times about
    /// any clause.
    fn drawn_call(&self, random: &mut SplitMix64) -> Call {
        let kind = |number: usize| self.file.get(RECORD_BYTES * usize::from(self.clauses[CLAUSE * number]));
        let is_input = |number: &usize| self.board[*number] >= 4 && kind(*number) == Some(&kind::INPUT);
        let inputs: Vec<usize> = (0..BOARD_CELLS - 1).filter(is_input).collect();
        let drawn = inputs.get(random.below(inputs.len())).copied().unwrap_or(0);
        let clause = if random.one_in(8) { number(random) } else { drawn as u16 };
        let stands = self.board.get(usize::from(clause)).is_some_and(|cell| cell % 2 == 1);
        if stands == random.one_in(8) {
            Call::Return(clause)
        } else {
            Call::Withdraw(clause)
        }
    }

    /// Other lengths, one part at a time, at times.
    fn lengths(&mut self, random: &mut SplitMix64) {
        match random.below(12) {
            0 => self.clauses.truncate(random.below(60)),
            1 => self.clauses.truncate(random.below(CLAUSE_CELLS)),
            2 => self.file.truncate(random.below(self.file.len() + 1)),
            3 => self.file.extend((0..random.below(70_000)).map(|place| place as u8)),
            4 => self.board.truncate(random.below(BOARD_CELLS)),
            5 => self.board.extend((0..random.below(70_000)).map(|place| place as u16)),
            6 => self.clauses.extend((0..random.below(999)).map(|place| place as u16)),
            7 => self.answer = random.below(6),
            _ => {}
        }
    }
}

/// Sixteen bytes: mostly a step on small numbers, an input clause or a factor, at times any kind.
fn any_record(random: &mut SplitMix64) -> [u8; RECORD_BYTES] {
    let kind = match random.below(8) {
        0 => random.below(256) as u8,
        1..=3 => 4,
        4 => 6,
        5 => 7,
        _ => 5,
    };
    let mut record = [0; RECORD_BYTES];
    record[0] = kind;
    for field in record[2..].chunks_exact_mut(2) {
        field.copy_from_slice(&small(random, 45).to_le_bytes());
    }
    record
}

/// The cell of a clause: mostly with a last child that comes soon after it or is none, at times with any; at times a cell that no
/// clause has.
fn any_cell(random: &mut SplitMix64, clause: usize) -> u16 {
    let child = match random.below(8) {
        0 | 1 => 0,
        2 => small(random, 60),
        _ => small(random, 12).wrapping_add(clause as u16),
    };
    let state = if random.one_in(12) { random.below(8) } else { 4 + random.below(4) };
    child.wrapping_mul(8) + state as u16
}

/// A number below a bound, and at times any.
fn small(random: &mut SplitMix64, bound: usize) -> u16 {
    if random.one_in(20) {
        number(random)
    } else {
        random.below(bound) as u16
    }
}

/// Any number, the edges of the board and of 16 bits among them.
fn number(random: &mut SplitMix64) -> u16 {
    match random.below(8) {
        0 => u16::MAX,
        1 => 4095 + random.below(4) as u16,
        2 | 3 => random.below(16) as u16,
        _ => random.next_u64() as u16,
    }
}
