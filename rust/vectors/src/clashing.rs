//! Random files that end in a step on two atoms made of parts: parts that agree, parts that clash as written or
//! only by a binding, and parts at which unification is refused for another reason. So outlines clash with
//! that reason underneath, or not, also at the edge of the pairs that are compared.

use yestrwyn_types::limits::{OUTLINE_PAIRS, VARIABLES};

use crate::examples::outlines::Terms;
use crate::random::SplitMix64;

/// The file of a seed: of some dozens of records, or of some hundreds where nearly all bindings are held.
pub fn clashing_file(seed: u64) -> Vec<u8> {
    let mut atoms = Atoms::new(seed);
    atoms.steps();
    atoms.terms.file.finish()
}

/// The same with steps on the left atom and several right ones.
pub fn clashing_several_file(seed: u64) -> Vec<u8> {
    let mut atoms = Atoms::new(seed);
    atoms.several_steps();
    atoms.terms.file.finish()
}

/// The two atoms under construction.
struct Atoms {
    random: SplitMix64,
    terms: Terms,
    /// Their arguments.
    left: Vec<u16>,
    right: Vec<u16>,
    /// Pairs that the comparison of their outlines takes up so far, if nothing clashes.
    pairs: usize,
    /// Variables in use.
    variables: usize,
}

impl Atoms {
    /// Atoms of two to six arguments.
    fn new(seed: u64) -> Atoms {
        let mut random = SplitMix64::new(seed ^ 0x0071_1e5c_1a58_0000);
        let room = random.one_in(4).then(|| random.below(3));
        let (left, right, terms) = (Vec::new(), Vec::new(), Terms::new(room));
        let mut atoms = Atoms { random, terms, left, right, pairs: 1, variables: 0 };
        for left in (0..atoms.random.between(2, 6)).rev() {
            atoms.part(left == 0);
        }
        atoms
    }

    /// One more argument on each side. The last is mostly a clash, the others seldom are.
    fn part(&mut self, last: bool) {
        let (pairs, mut part) = match self.random.below(if last { 30 } else { 13 }) {
            0 => (1, self.same()),
            1..=4 => (1, self.open()),
            5..=7 => (3, self.knot()),
            8..=10 => self.filling(),
            11 => (3, self.two_values()),
            _ => self.clash(),
        };
        self.pairs += pairs;
        if self.random.one_in(2) {
            part.reverse();
        }
        self.left.push(part[0]);
        self.right.push(part[1]);
    }

    /// A variable: mostly a new one, at times one in use.
    fn variable(&mut self) -> u16 {
        let known = self.variables > 0 && self.random.one_in(5);
        let number = if known || self.variables == VARIABLES {
            self.random.below(self.variables)
        } else {
            self.variables += 1;
            self.variables - 1
        };
        self.terms.var(number as u16)
    }

    /// A size: mostly small, at times so large that to go through the term takes all work.
    fn size(&mut self) -> usize {
        match self.random.below(6) {
            0 | 1 => self.random.between(16_375, 16_390),
            2 => self.random.between(2000, 6000),
            _ => self.random.between(1, 9),
        }
    }

    /// One row on both sides.
    fn same(&mut self) -> [u16; 2] {
        let size = self.size();
        [self.terms.ground(size); 2]
    }

    /// A variable against a term, or against another.
    fn open(&mut self) -> [u16; 2] {
        let variable = self.variable();
        if self.random.one_in(4) {
            return [variable, self.variable()];
        }
        let size = self.size();
        [variable, self.terms.ground(size)]
    }

    /// g(x,x) against g(y,f(y)), which has no unifier.
    fn knot(&mut self) -> [u16; 2] {
        let (x, y) = (self.variable(), self.variable());
        let around = self.terms.f(y);
        [self.terms.g(x, x), self.terms.g(y, around)]
    }

    /// Terms over two variables: small ones, or as large as brings the next pair to the edge of what is compared.
    fn filling(&mut self) -> (usize, [u16; 2]) {
        let pairs = match self.random.below(3) {
            0 => self.random.between(1, 20),
            _ => (OUTLINE_PAIRS + 1).saturating_sub(self.pairs + self.random.below(5)).max(1),
        };
        let leaves = [self.variable(), self.variable()];
        (pairs, leaves.map(|leaf| self.terms.over(leaf, pairs)))
    }

    /// Different symbols, below some equal ones.
    fn clash(&mut self) -> (usize, [u16; 2]) {
        let [a, b] = [self.terms.a(), self.terms.b()];
        let tops = match self.random.below(4) {
            0 => [a, self.terms.f(a)],
            1 => [self.terms.f(a), self.terms.g(a, b)],
            _ => [a, b],
        };
        let depth = self.random.below(4);
        (1 + depth, tops.map(|top| self.terms.nested(depth, top)))
    }

    /// g(x,x) against terms that differ, or do so at a depth: a clash by a binding only.
    fn two_values(&mut self) -> [u16; 2] {
        let (x, depth) = (self.variable(), self.random.below(3));
        let values = [self.terms.a(), self.terms.b()].map(|value| self.terms.nested(depth, value));
        [self.terms.g(x, x), self.terms.g(values[0], values[1])]
    }

    /// Clauses of the two atoms, in one of three files with a variable bound by a parent's step, and the step:
    /// a factor or a resolution, either way round. A resolution the other way round comes after it.
    fn steps(&mut self) {
        let file = &mut self.terms.file;
        let [p, q] = [self.left.len() as u8, 1].map(|arity| file.symbol(arity));
        let [left, right] = [&self.left, &self.right].map(|arguments| file.application(p, arguments));
        let factor = self.random.one_in(3);
        let mut literals = vec![(true, left)];
        literals.extend(factor.then_some((true, right)));
        let mut clause = if self.random.one_in(3) { self.bound(q, literals) } else { self.clause(literals) };
        let other = self.clause(vec![(false, right)]);
        let exchanged = self.random.one_in(2);
        let file = &mut self.terms.file;
        if factor {
            clause = if exchanged { file.factor(clause, 2, 1) } else { file.factor(clause, 1, 2) };
        }
        for (first, second) in [(clause, other), (other, clause)] {
            let [first, second] = if exchanged { [second, first] } else { [first, second] };
            file.resolve(first, 1, second, 1);
        }
    }

    /// A clause of the left atom, one of two to four right atoms, among them the one made with it, and a step on all
    /// of these; then a step on the last two.
    fn several_steps(&mut self) {
        let count = self.random.between(2, 4);
        let made = self.random.below(count);
        let atoms: Vec<Vec<u16>> = (0..count)
            .map(|place| if place == made { self.right.clone() } else { self.other_right() })
            .collect();
        let file = &mut self.terms.file;
        let p = file.symbol(self.left.len() as u8);
        let left = file.application(p, &self.left);
        let rights: Vec<u16> = atoms.iter().map(|arguments| file.application(p, arguments)).collect();
        let positive = self.random.one_in(2);
        let left = self.clause(vec![(positive, left)]);
        let right = self.clause(rights.iter().map(|&row| (!positive, row)).collect());
        let numbers: Vec<u16> = (1..=count as u16).collect();
        let file = &mut self.terms.file;
        file.resolve_several(left, 1, right, &numbers);
        file.resolve_several(left, 1, right, &numbers[count - 2..]);
    }

    /// Arguments of another right atom: mostly those of either atom, or variables.
    fn other_right(&mut self) -> Vec<u16> {
        let places = 0..self.left.len();
        let argument = |place: usize| match self.random.below(16) {
            0..=5 => self.left[place],
            6..=8 => self.right[place],
            9 => self.terms.b(),
            _ => self.variable(),
        };
        places.map(argument).collect()
    }

    fn clause(&mut self, literals: Vec<(bool, u16)>) -> u16 {
        self.terms.file.clause_of_rows(&literals)
    }

    /// A clause in which a variable is bound to a small term: +q(x) is resolved away.
    fn bound(&mut self, q: u16, literals: Vec<(bool, u16)>) -> u16 {
        let number = self.random.below(self.variables.max(1)) as u16;
        let [x, value] = [self.terms.var(number), self.terms.ground(1 + self.random.below(2))];
        let file = &mut self.terms.file;
        let [open, closed] = [x, value].map(|row| file.application(q, &[row]));
        let parent = file.clause_of_rows(&[vec![(true, open)], literals].concat());
        let fact = file.clause_of_rows(&[(false, closed)]);
        file.resolve(parent, 1, fact, 1)
    }
}
