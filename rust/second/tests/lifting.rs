//! Nothing is lost by staying general: if the parents of a step have variable-free instances whose named atoms are
//! equal, the step is refused neither for symbols that differ nor for a variable that occurs in its value; and if it
//! stands, what is left of the instances is an instance of the clause made, by one substitution for all literals.

mod textbook;

use std::collections::BTreeMap;

use textbook::{mgu, replace, size, variables, Clause, Term};
use yestrwyn_second::checker::Checker;
use yestrwyn_second::clause::all_literals;
use yestrwyn_second::environment::Environment;
use yestrwyn_second::expression::{Expression, Node};
use yestrwyn_types::limits::RECORD_BYTES;
use yestrwyn_types::record::{kind, Record};
use yestrwyn_types::Reason;
use yestrwyn_vectors::random::SplitMix64;
use yestrwyn_vectors::sketch::{app, neg, pos, var, Sketch};
use yestrwyn_vectors::{clashing_file, clashing_several_file, random_file, repeating_file, several_file};

/// Parents with more occurrences than this are left out.
const LARGEST_PARENT: usize = 60;
/// So are instances with more than this.
const LARGEST: usize = 1000;
/// Symbols that no file has, with their arities.
const FOREIGN: [(u16, u8); 3] = [(60_000, 0), (60_001, 1), (60_002, 2)];

/// Terms put for variables.
type Values = BTreeMap<usize, Term>;

/// The literals of a clause as the second implementation has them, written out in so many occurrences at most.
fn written(checker: &mut Checker, clause: u16, room: usize) -> Option<Clause> {
    let literals = all_literals(checker.clauses(), clause);
    let (nodes, environment) = checker.load(clause);
    let mut room = room;
    let atom = |at| value(nodes, environment, at, &mut room);
    let (signs, atoms): (Vec<bool>, Vec<Expression>) =
        literals.iter().map(|literal| (literal.positive, literal.atom)).unzip();
    let atoms: Option<Vec<Term>> = atoms.into_iter().map(atom).collect();
    Some(signs.into_iter().zip(atoms?).collect())
}

/// The value of an expression; a variable is 4,097 × number + index.
fn value(nodes: &[Node], environment: &mut Environment, at: Expression, room: &mut usize) -> Option<Term> {
    *room = room.checked_sub(1)?;
    let Expression { row, index } = environment.follow(nodes, at).expression();
    match nodes[usize::from(row)] {
        Node::Variable(number) => Some(Term::Variable(usize::from(number) * 4097 + usize::from(index))),
        Node::Application { symbol, count, arguments } => {
            let rows = arguments.iter().take(usize::from(count));
            let inner = rows.map(|&row| value(nodes, environment, Expression { row, index }, room));
            Some(Term::Apply(symbol, inner.collect::<Option<Vec<Term>>>()?))
        }
    }
}

/// A step on parents that are written out, each with variables of its own.
struct Step {
    /// The left atom, or the one kept.
    one: Term,
    /// The right atoms, or the one deleted.
    others: Vec<Term>,
    /// What is left of the parents, in order.
    rest: Clause,
}

/// The step of a record, if its parents are small enough and the literals that it names exist and have fitting signs.
fn step(checker: &mut Checker, record: &Record) -> Option<Step> {
    let [a, b, c, ..] = record.fields;
    let left = apart(written(checker, a, LARGEST_PARENT)?, 0);
    let (right, numbers) = match record.kind {
        kind::FACTOR if b != c => (left.clone(), vec![c]),
        kind::RESOLVE | kind::RESOLVE_SEVERAL => {
            let count = usize::from(record.count.clamp(1, 4));
            (apart(written(checker, c, LARGEST_PARENT)?, 1), record.fields[3..3 + count].to_vec())
        }
        _ => return None,
    };
    let (sign, one) = named(&left, b)?;
    let others: Option<Clause> = numbers.iter().map(|&number| named(&right, number)).collect();
    let fitting = |other: &(bool, Term)| (other.0 == sign) == (record.kind == kind::FACTOR);
    let others = others.filter(|others| others.iter().all(fitting))?;
    let others = others.into_iter().map(|(_, atom)| atom).collect();
    let rest = match record.kind {
        kind::FACTOR => without(&left, &[c]),
        _ => [without(&left, &[b]), without(&right, &numbers)].concat(),
    };
    Some(Step { one, others, rest })
}

/// A clause whose variables are those of one of two sides.
fn apart(clause: Clause, side: usize) -> Clause {
    let by = |variable| Term::Variable(2 * variable + side);
    clause.iter().map(|(sign, atom)| (*sign, replace(atom, &by))).collect()
}

/// A literal by its number, from 1.
fn named(clause: &Clause, number: u16) -> Option<(bool, Term)> {
    clause.get(usize::from(number).checked_sub(1)?).cloned()
}

/// A clause without the literals of these numbers; others that equal them stay.
fn without(clause: &Clause, numbers: &[u16]) -> Clause {
    let kept = clause.iter().zip(1u16..).filter(|(_, number)| !numbers.contains(number));
    kept.map(|(literal, _)| literal.clone()).collect()
}

/// A term with values put for its variables.
fn put(term: &Term, values: &Values) -> Term {
    replace(term, &|variable| values.get(&variable).cloned().unwrap_or(Term::Variable(variable)))
}

impl Step {
    /// What is left of the instances with these values, if the named atoms become equal.
    fn instance(&self, values: &Values) -> Option<Clause> {
        let atom = put(&self.one, values);
        let equal = self.others.iter().all(|other| put(other, values) == atom);
        equal.then(|| self.rest.iter().map(|(sign, atom)| (*sign, put(atom, values))).collect())
    }

    /// The variables of the named atoms.
    fn named_variables(&self) -> Vec<usize> {
        let mut met = Vec::new();
        self.others.iter().chain([&self.one]).for_each(|atom| variables(atom, &mut met));
        met.sort();
        met.dedup();
        met
    }

    /// The same, then those of the other literals.
    fn variables(&self) -> Vec<usize> {
        let mut met = self.named_variables();
        self.rest.iter().for_each(|(_, atom)| variables(atom, &mut met));
        met
    }
}

/// Where values are drawn from: the symbols of a file, others, and a few terms that are taken again and again, so that
/// atoms become equal often.
struct Drawing<'a> {
    random: &'a mut SplitMix64,
    symbols: Vec<(u16, u8)>,
    few: Vec<Term>,
}

impl Drawing<'_> {
    /// A variable-free term of at most so many levels below its top.
    fn term(&mut self, levels: usize) -> Term {
        let constants = |&&(_, arity): &&(u16, u8)| levels > 0 || arity == 0;
        let symbols: Vec<(u16, u8)> = self.symbols.iter().filter(constants).copied().collect();
        let Some(&(symbol, arity)) = symbols.get(self.random.below(symbols.len() + 1)) else {
            return Term::Constant;
        };
        Term::Apply(symbol, (0..arity).map(|_| self.term(levels - 1)).collect())
    }

    /// Draws a few terms anew: some at random, and the named atoms' arguments with some value for all their variables.
    fn begin(&mut self, step: &Step) {
        self.few = (0..3).map(|levels| self.term(levels)).collect();
        for atom in step.others.iter().chain([&step.one]) {
            let Term::Apply(_, arguments) = atom else { continue };
            if let Some(argument) = arguments.get(self.random.below(arguments.len())) {
                let all = self.value();
                self.few.push(replace(argument, &|_| all.clone()));
            }
        }
    }

    /// One of the few terms, seldom another.
    fn value(&mut self) -> Term {
        let place = self.random.below(self.few.len());
        if self.random.one_in(8) {
            self.term(2)
        } else {
            self.few[place].clone()
        }
    }

    /// Draws values for those of the variables that have none yet.
    fn complete(&mut self, values: &mut Values, variables: &[usize]) {
        for &variable in variables {
            values.entry(variable).or_insert_with(|| self.value());
        }
    }
}

/// Ways to come by values: drawn for each variable; drawn for one side's named atoms, the other's matched with that,
/// both ways round; and drawn for what a most general unifier leaves open.
const WAYS: usize = 4;

/// Values for all variables of a step, by one of the ways. Whether the named atoms become equal is not looked at.
fn drawn_values(step: &Step, way: usize, drawing: &mut Drawing<'_>) -> Option<Values> {
    let mut values = Values::new();
    drawing.begin(step);
    match way {
        0 => {}
        1 => {
            let others: Vec<&Term> = step.others.iter().collect();
            matched(&mut values, &[&step.one], &others, drawing)
        }
        2 => matched(&mut values, &[&step.others[0]], &[&step.one], drawing),
        _ => {
            let equations = step.others.iter().map(|other| (step.one.clone(), other.clone()));
            let solved = mgu(equations.collect())?;
            let mut open = Vec::new();
            solved.iter().for_each(|(_, value)| variables(value, &mut open));
            drawing.complete(&mut values, &open);
            let closed: Values = solved.iter().map(|(variable, to)| (*variable, put(to, &values))).collect();
            values.extend(closed);
        }
    }
    drawing.complete(&mut values, &step.variables());
    Some(values)
}

/// Draws values for some atoms, which are then one variable-free atom each, and matches others with the first.
fn matched(values: &mut Values, first: &[&Term], others: &[&Term], drawing: &mut Drawing<'_>) {
    let mut met = Vec::new();
    first.iter().for_each(|atom| variables(atom, &mut met));
    drawing.complete(values, &met);
    let target = put(first[0], values);
    for other in others {
        matches(other, &target, values);
    }
}

/// Does a term become a variable-free one by the values so far and new ones, which are added?
fn matches(term: &Term, target: &Term, values: &mut Values) -> bool {
    match (term, target) {
        (Term::Variable(variable), _) => values.entry(*variable).or_insert_with(|| target.clone()) == target,
        (Term::Apply(f, inner), Term::Apply(g, targets)) => {
            let fitting = f == g && inner.len() == targets.len();
            fitting && inner.iter().zip(targets).all(|(term, target)| matches(term, target, values))
        }
        _ => term == target,
    }
}

/// Is a variable-free clause an instance of another, literal by literal in order, by one substitution?
fn is_instance(clause: &Clause, of: &Clause) -> bool {
    let mut values = Values::new();
    let mut pairs = of.iter().zip(clause);
    of.len() == clause.len()
        && pairs
            .all(|(general, literal)| general.0 == literal.0 && matches(&general.1, &literal.1, &mut values))
}

/// Total of the occurrences of a clause.
fn occurrences(clause: &Clause) -> usize {
    clause.iter().map(|(_, atom)| size(atom)).sum()
}

/// What has been met, so that no test passes by meeting nothing.
#[derive(Default, Debug)]
struct Met {
    /// Instances with equal named atoms, by the way in which they were found.
    ways: [usize; WAYS],
    /// The same, by the kind of the step, where it stands.
    kinds: [usize; 8],
    /// Those of steps on more than one right literal.
    several: usize,
    /// Those whose step is refused for another reason.
    otherwise: usize,
    /// Steps refused with 10 and with 11.
    clash: usize,
    occurs: usize,
}

/// Reads a step's record and compares it with variable-free instances of its parents.
fn lifts(met: &mut Met, name: &str, checker: &mut Checker, record: &Record, random: &mut SplitMix64) {
    let step = step(checker, record);
    let result = checker.record(&record.to_bytes());
    let Some(step) = step else { return };
    met.clash += usize::from(result == Err(Reason::Clash));
    met.occurs += usize::from(result == Err(Reason::Occurs));
    let last = checker.clauses().len() - 1;
    let made = if result.is_ok() { written(checker, last as u16, LARGEST) } else { None };
    let symbols = checker.symbols().iter().zip(0..).map(|(symbol, number)| (number, symbol.arity));
    let symbols = symbols.chain(FOREIGN).collect();
    let mut drawing = Drawing { random, symbols, few: Vec::new() };
    for way in [0, 0, 1, 1, 2, 2, 3] {
        let values = drawn_values(&step, way, &mut drawing);
        let Some(instance) = values.and_then(|values| step.instance(&values)) else { continue };
        if occurrences(&instance) > LARGEST {
            continue;
        }
        met.ways[way] += 1;
        agrees(met, name, record, &result, made.as_ref(), &instance);
    }
}

/// A step on parents with such instances is refused neither with 10 nor with 11, and makes a clause of which what is
/// left of the instances is one.
fn agrees(
    met: &mut Met,
    name: &str,
    record: &Record,
    result: &Result<(), Reason>,
    made: Option<&Clause>,
    instance: &Clause,
) {
    assert!(!matches!(result, Err(Reason::Clash | Reason::Occurs)), "{name}: {record:?} is {result:?}");
    if result.is_err() {
        met.otherwise += 1;
        return;
    }
    // A clause has no more occurrences than an instance of it, so there is room for it too.
    let made = made.expect(name);
    assert!(is_instance(instance, made), "{name}: {record:?} makes {made:?}, not {instance:?}");
    met.kinds[usize::from(record.kind)] += 1;
    met.several += usize::from(record.count > 1);
}

/// Reads a file up to its refused record, that one included, and compares each step; then steps that are drawn, each as
/// the record that comes next.
fn lifts_in(met: &mut Met, name: &str, file: &[u8], seed: u64) {
    let mut random = SplitMix64::new(seed ^ 0x11f7_0000_0000);
    let mut checker = Checker::new();
    for bytes in file.chunks_exact(RECORD_BYTES) {
        let record = Record::from_bytes(bytes.try_into().expect("sixteen bytes"));
        let before = checker.answer(0, None);
        match record.kind {
            kind::RESOLVE | kind::FACTOR | kind::RESOLVE_SEVERAL => {
                lifts(met, name, &mut checker, &record, &mut random);
                if checker.answer(0, None) == before {
                    break;
                }
            }
            _ if checker.record(&record.to_bytes()).is_err() => break,
            _ => {}
        }
    }
    for _ in 0..12 {
        if let Some(record) = drawn_step(&checker, &mut random) {
            lifts(met, name, &mut checker, &record, &mut random);
        }
    }
}

/// A step on clauses and literals drawn at random, if there are any.
fn drawn_step(checker: &Checker, random: &mut SplitMix64) -> Option<Record> {
    let count = checker.clauses().len();
    let [a, c] = [0; 2].map(|_| random.below(count) as u16);
    let [left, right] = [a, c].map(|clause| checker.clauses().get(usize::from(clause)));
    let (left, right) = (left?.literals, right?.literals);
    let literal = |random: &mut SplitMix64, of: u16| 1 + random.below(usize::from(of)) as u16;
    let b = literal(random, left);
    if random.one_in(3) {
        return Some(Record::new(kind::FACTOR, 0, &[a, b, literal(random, left)]));
    }
    let mut numbers: Vec<u16> = (0..random.between(1, 3)).map(|_| literal(random, right)).collect();
    numbers.sort();
    numbers.dedup();
    let given = [&[a, b, c], numbers.as_slice()].concat();
    Some(match numbers.len() {
        1 => Record::new(kind::RESOLVE, 0, &given),
        several => Record::new(kind::RESOLVE_SEVERAL, several as u8, &given),
    })
}

/// All files of some seeds, each with its name.
fn files(seeds: u64) -> impl Iterator<Item = (String, Vec<u8>, u64)> {
    (0..seeds).flat_map(|seed| {
        let mut all = vec![("random", random_file(seed)), ("several", several_file(seed))];
        if seed % 4 == 0 {
            all.push(("repeating", repeating_file(seed)));
            all.push(("clashing", clashing_file(seed)));
            all.push(("clashing several", clashing_several_file(seed)));
        }
        all.into_iter().map(move |(name, file)| (format!("{name} {seed}"), file, seed))
    })
}

#[test]
fn random_files() {
    let mut met = Met::default();
    for (name, file, seed) in files(600) {
        lifts_in(&mut met, &name, &file, seed);
    }
    // Enough of each that the comparison means something.
    assert!(met.ways.iter().all(|&found| found > 15_000), "{met:?}");
    let [.., resolved, factored, several] = met.kinds;
    assert!(resolved > 50_000 && factored > 8000 && several > 12_000 && met.several > 6000, "{met:?}");
    assert!(met.clash > 1500 && met.occurs > 150 && met.otherwise > 100, "{met:?}");
}

/// Small variable-free terms over the symbols of a file, and foreign ones.
fn small_terms(checker: &Checker) -> Vec<Term> {
    let symbols = checker.symbols().iter().zip(0..).map(|(symbol, number)| (number, symbol.arity));
    let symbols: Vec<(u16, u8)> = symbols.chain([FOREIGN[0]]).collect();
    let constants = symbols.iter().filter(|(_, arity)| *arity == 0);
    let mut terms: Vec<Term> = constants.map(|&(symbol, _)| Term::Apply(symbol, Vec::new())).collect();
    terms.push(Term::Constant);
    for level in 0..2 {
        let inner = terms[level].clone();
        for &(symbol, arity) in symbols.iter().filter(|(_, arity)| (1..3).contains(arity)) {
            terms.push(Term::Apply(symbol, vec![inner.clone(); usize::from(arity)]));
        }
    }
    terms
}

/// How many of all choices of values make the named atoms equal; none if there would be too many choices.
fn coincidences(step: &Step, terms: &[Term]) -> Option<usize> {
    let open = step.named_variables();
    let choices = terms.len().pow(open.len().min(9) as u32);
    if choices > 1500 {
        return None;
    }
    let values = |choice: usize| -> Values {
        let digit = |place: usize| choice / terms.len().pow(place as u32) % terms.len();
        open.iter().enumerate().map(|(place, &variable)| (variable, terms[digit(place)].clone())).collect()
    };
    Some((0..choices).filter(|&choice| step.instance(&values(choice)).is_some()).count())
}

#[test]
fn no_small_values_fit_a_refused_step() {
    let (mut refused, mut standing) = ([0; 2], [0; 2]);
    for (name, file, seed) in files(600) {
        let (mut checker, mut random) = (Checker::new(), SplitMix64::new(seed));
        let mut records = file.chunks_exact(RECORD_BYTES);
        while records.next().is_some_and(|bytes| checker.record(bytes.try_into().expect("whole")).is_ok()) {}
        let terms = small_terms(&checker);
        for _ in 0..8 {
            let Some(record) = drawn_step(&checker, &mut random) else { continue };
            let Some(step) = step(&mut checker, &record) else { continue };
            let result = checker.record(&record.to_bytes());
            let Some(found) = coincidences(&step, &terms) else { continue };
            match result {
                Err(Reason::Clash | Reason::Occurs) => {
                    assert_eq!(found, 0, "{name}: {record:?} is {result:?}");
                    refused[usize::from(result == Err(Reason::Occurs))] += 1;
                }
                _ => standing[usize::from(found > 0)] += 1,
            }
        }
    }
    assert!(refused[0] > 600 && refused[1] > 50, "{refused:?} steps refused with 10 and 11");
    // The same values do fit most steps that stand.
    assert!(
        standing[1] > 50 * standing[0] && standing[1] > 1000,
        "{standing:?} steps not fitted, and fitted"
    );
}

/// Reads a file whose last record is a step, and hands out the step, and the clause that it makes or its refusal.
fn last_step(file: Sketch) -> (Step, Result<Clause, Reason>) {
    let mut checker = Checker::new();
    let records: Vec<&[u8]> = file.bytes().chunks_exact(RECORD_BYTES).collect();
    let (last, before) = records.split_last().expect("a step");
    for bytes in before {
        checker.record((*bytes).try_into().expect("sixteen bytes")).expect("a record that stands");
    }
    let record = Record::from_bytes((*last).try_into().expect("sixteen bytes"));
    let step = step(&mut checker, &record).expect("a step on literals that exist");
    let made = checker.record(&record.to_bytes()).map(|()| {
        let clause = checker.clauses().len() - 1;
        written(&mut checker, clause as u16, LARGEST).expect("a small clause")
    });
    (step, made)
}

/// The symbol of these arguments, written out.
fn apply<const N: usize>(symbol: u16, arguments: [Term; N]) -> Term {
    Term::Apply(symbol, arguments.to_vec())
}

/// Values for variables at index 1 of both parents, by side and number.
fn values(given: &[(usize, usize, Term)]) -> Values {
    given.iter().map(|(side, number, term)| (2 * (4097 * number + 1) + side, term.clone())).collect()
}

#[test]
fn case_f_is_not_refused_for_occurrence() {
    let mut file = Sketch::new();
    let [p, a] = [2, 0].map(|arity| file.symbol(arity));
    let atoms = [app(p, [var(0), var(1)]), app(p, [var(1), var(0)])].map(pos);
    let parent = file.clause(&atoms);
    file.factor(parent, 1, 2);
    let (step, made) = last_step(file);
    let a = apply(a, []);
    let instance = step.instance(&values(&[(0, 0, a.clone()), (0, 1, a.clone())])).expect("equal atoms");
    assert_eq!(instance, [(true, apply(p, [a.clone(), a.clone()]))]);
    assert!(is_instance(&instance, &made.expect("a factor")));
    // With two values the atoms differ, and p(a,c) is no instance of what the factor makes.
    assert_eq!(step.instance(&values(&[(0, 0, a), (0, 1, Term::Constant)])), None);
}

#[test]
fn case_d_has_no_instances() {
    let mut file = Sketch::new();
    let [p, s] = [2, 1].map(|arity| file.symbol(arity));
    let left = file.clause(&[pos(app(p, [var(0), var(0)]))]);
    let right = file.clause(&[neg(app(p, [var(1), app(s, [var(1)])]))]);
    file.resolve(left, 1, right, 1);
    let (step, made) = last_step(file);
    assert_eq!(made, Err(Reason::Occurs));
    let mut terms = vec![Term::Constant];
    for _ in 0..30 {
        let next = apply(s, [terms[terms.len() - 1].clone()]);
        terms.push(next);
    }
    assert_eq!(coincidences(&step, &terms), Some(0));
}

#[test]
fn a_variable_agrees_with_any_outline() {
    let mut file = Sketch::new();
    let [p, q, f, g, a] = [3, 1, 1, 1, 0].map(|arity| file.symbol(arity));
    let deep = app(f, [app(f, [app(a, [])])]);
    // p(f(x),y,x) with p(z,g(a),f(f(a))), and q of each variable.
    let left = file.clause(&[pos(app(p, [app(f, [var(0)]), var(1), var(0)])), pos(app(q, [var(1)]))]);
    let right = file.clause(&[neg(app(p, [var(0), app(g, [app(a, [])]), deep])), neg(app(q, [var(0)]))]);
    file.resolve(left, 1, right, 1);
    let (step, made) = last_step(file);
    let a = apply(a, []);
    let [ga, ffa] = [apply(g, [a.clone()]), apply(f, [apply(f, [a])])];
    let around = apply(f, [ffa.clone()]);
    let fitting = values(&[(0, 0, ffa), (0, 1, ga.clone()), (1, 0, around.clone())]);
    let instance = step.instance(&fitting).expect("equal atoms");
    assert_eq!(instance, [(true, apply(q, [ga])), (false, apply(q, [around]))]);
    assert!(is_instance(&instance, &made.expect("a resolvent")));
}

/// -p(f(v0)) -p(f(v1)) +r(v0,v1,v2) with +p(v0) +q(v0), and a foreign constant.
fn two_right_literals() -> (Step, Result<Clause, Reason>, [u16; 4]) {
    let mut file = Sketch::new();
    let [p, q, r, f] = [1, 1, 3, 1].map(|arity| file.symbol(arity));
    let left = file.clause(&[pos(app(p, [var(0)])), pos(app(q, [var(0)]))]);
    let named = [0, 1].map(|number| neg(app(p, [app(f, [var(number)])])));
    let other = pos(app(r, [var(0), var(1), var(2)]));
    let right = file.clause(&[named.to_vec(), vec![other]].concat());
    file.resolve_several(left, 1, right, &[1, 2]);
    let (step, made) = last_step(file);
    (step, made, [p, q, r, f])
}

#[test]
fn two_right_literals_go_together() {
    let (step, made, [_, q, r, f]) = two_right_literals();
    let [b, c] = [apply(FOREIGN[0].0, []), Term::Constant];
    let around = apply(f, [b.clone()]);
    let given = [(0, 0, around.clone()), (1, 0, b.clone()), (1, 1, b.clone()), (1, 2, c.clone())];
    let instance = step.instance(&values(&given)).expect("equal atoms");
    assert_eq!(instance, [(true, apply(q, [around])), (true, apply(r, [b.clone(), b.clone(), c.clone()]))]);
    assert!(is_instance(&instance, &made.expect("a resolvent")));
    // One right atom alone is not enough.
    let given = [(0, 0, apply(f, [b.clone()])), (1, 0, b.clone()), (1, 1, c), (1, 2, b)];
    assert_eq!(step.instance(&values(&given)), None);
}

#[test]
fn equal_literals_that_are_not_named_stay() {
    let mut file = Sketch::new();
    let [p, a] = [1, 0].map(|arity| file.symbol(arity));
    let left = file.clause(&[pos(app(p, [var(0)])), pos(app(p, [var(1)]))]);
    let right = file.clause(&[neg(app(p, [app(a, [])])), neg(app(p, [var(0)]))]);
    file.resolve(left, 2, right, 1);
    let (step, made) = last_step(file);
    let a = apply(a, []);
    let given = [(0, 0, a.clone()), (0, 1, a.clone()), (1, 0, a.clone())];
    let instance = step.instance(&values(&given)).expect("equal atoms");
    let atom = apply(p, [a]);
    assert_eq!(instance, [(true, atom.clone()), (false, atom)]);
    assert!(is_instance(&instance, &made.expect("a resolvent")));
}

#[test]
fn wrong_resolvents_are_no_instances() {
    let (step, made, [_, q, r, f]) = two_right_literals();
    let made = made.expect("a resolvent");
    let [b, c] = [apply(FOREIGN[0].0, []), Term::Constant];
    let given = [(0, 0, apply(f, [b.clone()])), (1, 0, b.clone()), (1, 1, b.clone()), (1, 2, c.clone())];
    let right = step.instance(&values(&given)).expect("equal atoms");
    assert!(is_instance(&right, &made));
    // A literal dropped, from either end, and one added.
    assert!(!is_instance(&right[1..].to_vec(), &made));
    assert!(!is_instance(&right[..1].to_vec(), &made));
    assert!(!is_instance(&[right.clone(), right[..1].to_vec()].concat(), &made));
    // The other order, another sign, and another symbol.
    assert!(!is_instance(&vec![right[1].clone(), right[0].clone()], &made));
    assert!(!is_instance(&vec![(false, right[0].1.clone()), right[1].clone()], &made));
    assert!(!is_instance(&vec![(true, apply(r, [b.clone()])), right[1].clone()], &made));
    // Each literal by itself is an instance, but not by one substitution.
    let [fb, fc] = [&b, &c].map(|term| apply(f, [term.clone()]));
    let two = vec![(true, apply(q, [fc])), (true, apply(r, [b.clone(), b.clone(), c]))];
    assert!((0..2).all(|place| is_instance(&vec![two[place].clone()], &vec![made[place].clone()])));
    assert!(!is_instance(&two, &made));
    assert!(is_instance(&vec![(true, apply(q, [fb])), two[1].clone()], &made));
}
