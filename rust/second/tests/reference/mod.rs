//! A slow check by the words of the format description, which shares no code with the library: every
//! variable is looked up by recursion through the parents, literals are listed by recursion, and so are
//! outlines compared. Rows are kept as the file has them; what each is taken as is found where it is used. It
//! can also check without outlines, for what these alter.
#![allow(dead_code)]

mod days;
mod outlines;
mod rows;

pub use days::Days;
pub use outlines::Outline;
pub use rows::Row;

/// Where a clause comes from; literals count from 1. A resolve has a list of right ones.
#[derive(Clone, Debug)]
pub enum From {
    Input(Vec<(bool, u16)>),
    Resolve(usize, usize, usize, Vec<usize>),
    Factor(usize, usize, usize),
}

/// A clause with the bindings of its own unification: row, index, row, index.
#[derive(Clone, Debug)]
pub struct Clause {
    pub record: u16,
    pub max: u16,
    pub from: From,
    pub own: Vec<[u16; 4]>,
}

/// All that stands, and the refusal if there is one.
#[derive(Clone, Debug, Default)]
pub struct Reference {
    /// Are steps unified at once, as if they had no outlines?
    only_unify: bool,
    pub symbols: Vec<(u16, u8)>,
    /// Rows as written, each with its record and the earliest row that equals it.
    pub rows: Vec<(u16, Row, u16)>,
    pub clauses: Vec<Clause>,
    /// Every record of kind 8, superseded ones too.
    pub days: Vec<Days>,
    pub refusal: Option<(u16, u16)>,
    pub works: Vec<(u16, u32)>,
}

/// An expression: row and index.
pub type Expr = (u16, u16);

/// The sixteen bytes taken apart.
fn field(bytes: &[u8], number: usize) -> u16 {
    u16::from(bytes[2 + 2 * number]) + 256 * u16::from(bytes[3 + 2 * number])
}

/// Are the fields from `used` on zero?
fn unused_zero(bytes: &[u8], used: usize) -> bool {
    (used..7).all(|number| field(bytes, number) == 0)
}

impl Reference {
    /// Reads a whole file, with tables that are long enough.
    pub fn check(file: &[u8]) -> Reference {
        Reference::default().read(file)
    }

    /// The same where no step has its outlines compared.
    pub fn check_without_outlines(file: &[u8]) -> Reference {
        Reference { only_unify: true, ..Reference::default() }.read(file)
    }

    /// Reads a whole file of the new form.
    pub fn check_new(file: &[u8]) -> Reference {
        Reference::default().read_records(file, 20, 65_520)
    }

    fn read(self, file: &[u8]) -> Reference {
        self.read_records(file, 16, 65_536)
    }

    fn read_records(self, file: &[u8], width: usize, most: usize) -> Reference {
        let mut state = self;
        if file.len() > most || !file.len().is_multiple_of(width) {
            state.refusal = Some((1, 0));
            return state;
        }
        for record in 0..file.len() / width {
            let bytes = &file[width * record..width * record + width];
            if let Err(reason) = state.record(record as u16, bytes) {
                state.refusal = Some((reason, record as u16));
                break;
            }
        }
        state
    }

    /// A record of 16 bytes, or of 20 with the days.
    fn record(&mut self, at: u16, bytes: &[u8]) -> Result<(), u16> {
        if bytes.len() == 20 {
            let filler = bytes[16..].iter().any(|&byte| byte != 0);
            match bytes[0] {
                4 => {}
                1..=7 if filler => return Err(4),
                1..=7 => {}
                _ => return Err(3),
            }
        }
        match bytes[0] {
            1 => self.symbol(at, bytes),
            2 | 3 => self.row(at, bytes),
            4 => self.input(at, bytes),
            5 | 7 => self.resolve(at, bytes),
            6 => self.factor(at, bytes),
            8 => self.days(bytes),
            _ => Err(3),
        }
    }

    fn symbol(&mut self, at: u16, bytes: &[u8]) -> Result<(), u16> {
        if bytes[1] > 6 || !unused_zero(bytes, 0) {
            return Err(4);
        }
        self.symbols.push((at, bytes[1]));
        Ok(())
    }

    fn row(&mut self, at: u16, bytes: &[u8]) -> Result<(), u16> {
        let count = usize::from(bytes[1]);
        let row = if bytes[0] == 2 {
            if count != 0 || field(bytes, 0) > 63 || !unused_zero(bytes, 1) {
                return Err(4);
            }
            Row::Variable(field(bytes, 0))
        } else {
            if count > 6 || !unused_zero(bytes, 1 + count) {
                return Err(4);
            }
            let symbol = field(bytes, 0);
            let arguments: Vec<u16> = (1..=count).map(|number| field(bytes, number)).collect();
            let exists = usize::from(symbol) < self.symbols.len()
                && arguments.iter().all(|&row| usize::from(row) < self.rows.len());
            if !exists || usize::from(self.symbols[usize::from(symbol)].1) != count {
                return Err(5);
            }
            Row::Application(symbol, arguments)
        };
        let earliest = self.earliest_equal(&row);
        self.rows.push((at, row, earliest));
        Ok(())
    }

    fn input(&mut self, at: u16, bytes: &[u8]) -> Result<(), u16> {
        let count = usize::from(bytes[1]);
        if count > 7 || !unused_zero(bytes, count) {
            return Err(4);
        }
        let literals: Vec<(bool, u16)> =
            (0..count).map(|number| (field(bytes, number) % 2 == 1, field(bytes, number) / 2)).collect();
        if literals.iter().any(|&(_, row)| usize::from(row) >= self.rows.len()) {
            return Err(5);
        }
        let days = self.days_beside(bytes)?;
        if literals.iter().any(|&(_, row)| matches!(self.rows[usize::from(row)].1, Row::Variable(_))) {
            return Err(7);
        }
        self.clauses.push(Clause { record: at, max: 1, from: From::Input(literals), own: Vec::new() });
        self.days.extend(days);
        Ok(())
    }

    fn resolve(&mut self, at: u16, bytes: &[u8]) -> Result<(), u16> {
        let (count, in_range) = match (bytes[0], bytes[1]) {
            (7, count) => (usize::from(count), (1..=4).contains(&count)),
            (_, count) => (1, count == 0),
        };
        if !in_range || !unused_zero(bytes, 3 + count) {
            return Err(4);
        }
        let [a, b, c] = [0, 1, 2].map(|number| usize::from(field(bytes, number)));
        let numbers: Vec<usize> = (3..3 + count).map(|number| usize::from(field(bytes, number))).collect();
        let left = self.literal(a, b).ok_or(5u16)?;
        let rights: Option<Vec<(bool, Expr)>> = numbers.iter().map(|&d| self.literal(c, d)).collect();
        let rights = rights.ok_or(5u16)?;
        if (1..count).any(|place| numbers[place] <= numbers[place - 1]) {
            return Err(14);
        }
        if rights.iter().any(|right| right.0 == left.0) {
            return Err(8);
        }
        let from = From::Resolve(a, b, c, numbers);
        let literals = self.literals(a).len() - 1 + self.literals(c).len() - count;
        if literals > 128 || self.max_of(&from) > 4096 {
            return Err(9);
        }
        let raise = self.max(a);
        let raised: Vec<Expr> = rights.iter().map(|&(_, (row, index))| (row, index + raise)).collect();
        self.step(at, from, left.1, &raised)
    }

    fn factor(&mut self, at: u16, bytes: &[u8]) -> Result<(), u16> {
        if bytes[1] != 0 || !unused_zero(bytes, 3) {
            return Err(4);
        }
        let [a, b, c] = [0, 1, 2].map(|number| usize::from(field(bytes, number)));
        let (kept, deleted) = (self.literal(a, b).ok_or(5u16)?, self.literal(a, c).ok_or(5u16)?);
        if b == c || kept.0 != deleted.0 {
            return Err(8);
        }
        self.step(at, From::Factor(a, b, c), kept.1, &[deleted.1])
    }

    /// Compares all outlines of a step, then unifies for it, one right side after another, and adds its clause.
    fn step(&mut self, at: u16, from: From, left: Expr, rights: &[Expr]) -> Result<(), u16> {
        let clashes = |right: &Expr| self.outline(left.0, right.0) == Outline::Clash;
        if !self.only_unify && rights.iter().any(clashes) {
            self.works.push((at, 0));
            return Err(10);
        }
        let mut walk = Walk {
            held: self.clauses.iter().map(|clause| clause.own.len()).sum(),
            clause: Clause { record: at, max: self.max_of(&from), from, own: Vec::new() },
            state: self,
            work: 0,
        };
        let result = rights.iter().try_for_each(|&right| walk.pair(left, right));
        let (work, clause) = (walk.work, walk.clause);
        self.works.push((at, work));
        result?;
        self.clauses.push(clause);
        Ok(())
    }

    /// Literals of a clause: sign and expression.
    pub fn literals(&self, clause: usize) -> Vec<(bool, Expr)> {
        match &self.clauses[clause].from {
            From::Input(literals) => {
                literals.iter().map(|&(sign, row)| (sign, (self.earliest(row), 1))).collect()
            }
            From::Factor(parent, _, deleted) => {
                let mut all = self.literals(*parent);
                all.remove(deleted - 1);
                all
            }
            From::Resolve(left, b, right, numbers) => {
                let mut all = self.literals(*left);
                all.remove(b - 1);
                let mut others = self.literals(*right);
                for d in numbers.iter().rev() {
                    others.remove(d - 1);
                }
                let raise = self.max(*left);
                all.extend(others.into_iter().map(|(sign, (row, index))| (sign, (row, index + raise))));
                all
            }
        }
    }

    /// Literal of a clause by number, if both exist.
    fn literal(&self, clause: usize, number: usize) -> Option<(bool, Expr)> {
        if clause >= self.clauses.len() || number == 0 {
            return None;
        }
        self.literals(clause).get(number - 1).copied()
    }

    /// Maximum index.
    pub fn max(&self, clause: usize) -> u16 {
        self.clauses[clause].max
    }

    fn max_of(&self, from: &From) -> u16 {
        match *from {
            From::Input(_) => 1,
            From::Factor(parent, _, _) => self.max(parent),
            From::Resolve(left, _, right, _) => self.max(left) + self.max(right),
        }
    }

    /// Looks a variable up in a clause: own bindings first, then the parents.
    pub fn lookup(&self, clause: &Clause, (row, index): Expr) -> Option<Expr> {
        if let Some(own) = clause.own.iter().find(|own| own[0] == row && own[1] == index) {
            return Some((own[2], own[3]));
        }
        match clause.from {
            From::Input(_) => None,
            From::Factor(parent, _, _) => self.lookup(&self.clauses[parent], (row, index)),
            From::Resolve(left, _, right, _) => {
                let raise = self.max(left);
                if index <= raise {
                    self.lookup(&self.clauses[left], (row, index))
                } else {
                    let (term, at) = self.lookup(&self.clauses[right], (row, index - raise))?;
                    Some((term, at + raise))
                }
            }
        }
    }

    /// Follows an expression to an application or an unbound variable.
    pub fn follow(&self, clause: &Clause, start: Expr) -> Expr {
        let mut at = start;
        while let Row::Variable(_) = self.rows[usize::from(at.0)].1 {
            match self.lookup(clause, at) {
                Some(next) => at = next,
                None => break,
            }
        }
        at
    }

    /// The uses of a clause: numbers of input clauses.
    pub fn uses(&self, clause: usize) -> Vec<usize> {
        match self.clauses[clause].from {
            From::Input(_) => vec![clause],
            From::Factor(parent, _, _) => self.uses(parent),
            From::Resolve(left, _, right, _) => [self.uses(left), self.uses(right)].concat(),
        }
    }

    /// The seven numbers of the answer on day 0.
    pub fn answer(&self) -> [u16; 7] {
        self.answer_on(0)
    }

    /// The seven numbers of the answer on a day.
    pub fn answer_on(&self, day: u16) -> [u16; 7] {
        let bindings: usize = self.clauses.iter().map(|clause| clause.own.len()).sum();
        let [kind, what, at] = match (self.refusal, self.accepted(day)) {
            (Some((reason, record)), _) => [2, reason, record],
            (None, Some(clause)) => [1, clause as u16, 0],
            (None, None) => [0, 0, 0],
        };
        let counts = [self.symbols.len(), self.rows.len(), self.clauses.len(), bindings];
        let [a, b, c, d] = counts.map(|count| count as u16);
        [kind, what, at, a, b, c, d]
    }

    /// The used cells of the four tables.
    pub fn tables(&self) -> [Vec<u16>; 4] {
        let mut clauses = Vec::new();
        let mut bindings: Vec<u16> = Vec::new();
        for (number, clause) in self.clauses.iter().enumerate() {
            let first = (bindings.len() / 4) as u16;
            let literals = self.literals(number).len() as u16;
            clauses.extend([clause.record, literals, self.max(number), first, clause.own.len() as u16]);
            bindings.extend(clause.own.iter().flatten());
        }
        let symbols = self.symbols.iter().map(|symbol| symbol.0).collect();
        let rows = self.rows.iter().map(|&(_, _, earliest)| self.rows[usize::from(earliest)].0).collect();
        [symbols, rows, clauses, bindings]
    }

    /// The readout, each literal written out first, up to many more occurrences than are shown.
    pub fn readout_on(&self, day: u16) -> String {
        let mut text = match (self.refusal, self.accepted(day)) {
            (Some((reason, record)), _) => format!("refused {reason} at {record}\n"),
            (None, Some(clause)) => format!("accepted {clause}\n"),
            (None, None) => "open\n".to_string(),
        };
        for number in 0..self.clauses.len() {
            text += &format!("{number} {}", self.max(number));
            for (sign, atom) in self.literals(number) {
                let mut count = 0;
                let value = self.write(&self.clauses[number], atom, &mut count);
                text += if sign { " +" } else { " -" };
                text += if count > 64 { "~" } else { &value };
            }
            text += "\n";
        }
        text
    }

    /// The value of an expression as text, with its occurrences counted.
    fn write(&self, clause: &Clause, at: Expr, count: &mut usize) -> String {
        *count += 1;
        if *count > 1000 {
            return String::new();
        }
        let (row, index) = self.follow(clause, at);
        match &self.taken(row) {
            Row::Variable(number) => format!("v{number}.{index}"),
            Row::Application(symbol, arguments) if arguments.is_empty() => format!("s{symbol}"),
            Row::Application(symbol, arguments) => {
                let inner: Vec<String> =
                    arguments.iter().map(|&row| self.write(clause, (row, index), count)).collect();
                format!("s{symbol}({})", inner.join(","))
            }
        }
    }
}

/// A unification under way, by plain recursion.
struct Walk<'a> {
    state: &'a Reference,
    clause: Clause,
    held: usize,
    work: u32,
}

impl Walk<'_> {
    fn begin(&mut self) -> Result<(), u16> {
        if self.work == 16_384 {
            return Err(12);
        }
        self.work += 1;
        Ok(())
    }

    fn pair(&mut self, left: Expr, right: Expr) -> Result<(), u16> {
        self.begin()?;
        let left = self.state.follow(&self.clause, left);
        let right = self.state.follow(&self.clause, right);
        if left == right {
            return Ok(());
        }
        match (&self.state.taken(left.0), &self.state.taken(right.0)) {
            (Row::Variable(_), _) => self.bind(left, right),
            (_, Row::Variable(_)) => self.bind(right, left),
            (Row::Application(f, ls), Row::Application(g, rs)) => {
                if f != g {
                    return Err(10);
                }
                for (&l, &r) in ls.iter().zip(rs) {
                    self.pair((l, left.1), (r, right.1))?;
                }
                Ok(())
            }
        }
    }

    fn bind(&mut self, variable: Expr, value: Expr) -> Result<(), u16> {
        if self.occurs(variable, value)? {
            return Err(11);
        }
        if self.held + self.clause.own.len() >= 8192 {
            return Err(13);
        }
        self.clause.own.push([variable.0, variable.1, value.0, value.1]);
        Ok(())
    }

    fn occurs(&mut self, variable: Expr, within: Expr) -> Result<bool, u16> {
        self.begin()?;
        let at = self.state.follow(&self.clause, within);
        match &self.state.taken(at.0) {
            Row::Variable(_) => Ok(at == variable),
            Row::Application(_, arguments) => {
                for &row in arguments {
                    if self.occurs(variable, (row, at.1))? {
                        return Ok(true);
                    }
                }
                Ok(false)
            }
        }
    }
}
