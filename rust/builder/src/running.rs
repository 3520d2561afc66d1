//! A builder that runs each step as it is added.

mod existing;

use std::collections::HashMap;
use std::ops::RangeInclusive;

use yestrwyn_types::limits::{INDEX, LITERALS};
use yestrwyn_types::{Form, Reason};

use crate::days::{accepted, Windows};
use crate::derivation::{At, Derivation, Occurrence, Origin};
use crate::environment::Environment;
use crate::error::BuildError;
use crate::file::{right_clause, FileBuilder};
use crate::handles::{Clause, Literal, Row, Signed, Symbol};
use crate::outline::outlines_clash;
use crate::reading::Reading;
use crate::standing::{Derived, Expression, Standing, Value};
use crate::unification::unify;

/// A file under construction whose steps are run as they are added.
///
/// ```
/// use yestrwyn_builder::{neg, pos, BuildError, Reason, RunningBuilder};
///
/// let mut file = RunningBuilder::new();
/// let [closed, first, second] = [file.symbol(1)?, file.symbol(0)?, file.symbol(0)?];
/// let (first, second) = (file.constant(first)?, file.constant(second)?);
/// let (closed_first, closed_second) = (file.apply(closed, &[first])?, file.apply(closed, &[second])?);
/// let either = file.clause(&[pos(closed_first), pos(closed_second)])?;
/// let not_first = file.clause(&[neg(closed_first)])?;
///
/// let step = file.resolve(either.literal(1), not_first.literal(1))?;
/// assert_eq!(file.text(&step.literals[0]), "+s0(s2)");
///
/// let clash = file.resolve(step.literals[0].literal, not_first.literal(1));
/// assert_eq!(clash, Err(BuildError::Refused(Reason::Clash)));
/// # Ok::<(), BuildError>(())
/// ```
///
/// The rules are run here once more and are not proved; tests compare them with the check. Variables
/// are looked up through the parents of a clause, so a step takes longer the deeper they are bound.
#[derive(Clone, Default, Debug)]
pub struct RunningBuilder {
    file: FileBuilder,
    clauses: Vec<Derivation>,
    windows: Windows,
    bindings: usize,
}

impl RunningBuilder {
    /// An empty file of the old form.
    pub fn new() -> RunningBuilder {
        RunningBuilder::default()
    }

    /// An empty file of either form, as [`FileBuilder::with_form`] makes it.
    pub fn with_form(form: Form) -> RunningBuilder {
        RunningBuilder { file: FileBuilder::with_form(form), ..RunningBuilder::default() }
    }

    /// The form of the file.
    pub fn form(&self) -> Form {
        self.file.form()
    }

    /// The bytes of the file.
    pub fn finish(self) -> Vec<u8> {
        self.file.finish()
    }

    /// The bytes so far.
    pub fn bytes(&self) -> &[u8] {
        self.file.bytes()
    }

    /// A new symbol of an arity, 0 to 6.
    pub fn symbol(&mut self, arity: u8) -> Result<Symbol, BuildError> {
        self.file.symbol(arity)
    }

    /// A new symbol with a name: see [`FileBuilder::named`].
    pub fn named(&mut self, arity: u8, name: &str) -> Result<Symbol, BuildError> {
        self.file.named(arity, name)
    }

    /// Gives a symbol a name: see [`FileBuilder::name`].
    pub fn name(&mut self, symbol: Symbol, name: &str) -> Result<(), BuildError> {
        self.file.name(symbol, name)
    }

    /// The names as the text of a file of their own: see [`FileBuilder::names`].
    pub fn names(&self) -> String {
        self.file.names()
    }

    /// The variable of a number, 0 to 63.
    pub fn variable(&mut self, number: u16) -> Result<Row, BuildError> {
        self.file.variable(number)
    }

    /// A symbol without arguments.
    pub fn constant(&mut self, symbol: Symbol) -> Result<Row, BuildError> {
        self.file.constant(symbol)
    }

    /// A symbol applied to as many terms as its arity says.
    pub fn apply(&mut self, symbol: Symbol, arguments: &[Row]) -> Result<Row, BuildError> {
        self.file.apply(symbol, arguments)
    }

    /// An input clause of up to seven literals.
    pub fn clause(&mut self, literals: &[Signed]) -> Result<Clause, BuildError> {
        let clause = self.file.clause(literals)?;
        self.written_input(literals);
        Ok(clause)
    }

    /// A resolution step; refused, it leaves the file as it was.
    pub fn resolve(&mut self, left: Literal, right: Literal) -> Result<Derived, BuildError> {
        self.resolvent(left, &[right], |file| file.resolve(left, right))
    }

    /// A resolution step on a literal of the left clause and one to four of the right, whose numbers rise; refused, it
    /// leaves the file as it was.
    pub fn resolve_several(&mut self, left: Literal, rights: &[Literal]) -> Result<Derived, BuildError> {
        self.resolvent(left, rights, |file| file.resolve_several(left, rights))
    }

    /// A factoring step that keeps one literal of a clause and deletes another; refused, it leaves the
    /// file as it was.
    pub fn factor(&mut self, kept: Literal, deleted: Literal) -> Result<Derived, BuildError> {
        if kept.clause != deleted.clause {
            return Err(BuildError::TwoClauses);
        }
        let (first, second) = (self.occurrence(kept)?, self.occurrence(deleted)?);
        require(kept != deleted && first.positive == second.positive, Reason::Signs)?;
        let parent = self.derivation(kept.clause)?;
        let literals = without(&parent.literals, &[deleted]);
        let origin = Origin::Factor { parent: kept.clause.0 };
        let candidate = Derivation { origin, literals, maximum: parent.maximum, own: HashMap::new() };
        self.step(candidate, first.atom, &[second.atom], |file| file.factor(kept, deleted))
    }

    /// The days on which an input clause is in force, both ends included; a later call supersedes an earlier one.
    pub fn in_force(&mut self, clause: Clause, days: RangeInclusive<u16>) -> Result<(), BuildError> {
        self.file.in_force(clause, days.clone())?;
        self.windows.insert(clause.0, days);
        Ok(())
    }

    /// The clause with which the check would accept the file so far on a day: the first empty clause that is made of input
    /// clauses in force. None if it would be open.
    pub fn accepted(&self, day: u16) -> Option<Clause> {
        accepted(&self.clauses, &self.windows, day).map(Clause)
    }

    /// The literals of a clause, in order.
    pub fn literals(&self, clause: Clause) -> Result<Vec<Standing>, BuildError> {
        let literals = self.derivation(clause)?.literals.iter().zip(1..);
        let standing = |(occurrence, number): (&Occurrence, u16)| Standing {
            literal: clause.literal(number),
            positive: occurrence.positive,
            atom: Expression { clause, at: occurrence.atom },
        };
        Ok(literals.map(standing).collect())
    }

    /// What stands at the top of an expression.
    pub fn value(&self, expression: Expression) -> Value {
        Reading::new(&self.file, self.environment(expression.clause), expression.clause).top(expression.at)
    }

    /// A literal as the readout writes it: its sign, and its term or `~` if that has more than 64
    /// symbols and variables.
    pub fn text(&self, standing: &Standing) -> String {
        let Expression { clause, at } = standing.atom;
        let term = Reading::new(&self.file, self.environment(clause), clause).text(at);
        format!("{}{term}", if standing.positive { '+' } else { '-' })
    }

    /// Puts up the input clause of a record that was written, and gives its number.
    fn written_input(&mut self, literals: &[Signed]) -> u16 {
        let number = u16::try_from(self.clauses.len()).unwrap_or(u16::MAX);
        let first = |row: Row| At { row: row.number(), index: 1 };
        let occurrence = |signed: &Signed| Occurrence { positive: signed.positive, atom: first(signed.atom) };
        self.clauses.push(Derivation::input(literals.iter().map(occurrence).collect()));
        number
    }

    /// The bindings in a clause.
    fn environment(&self, clause: Clause) -> Environment<'_> {
        Environment::new(self.file.rows(), &self.clauses, clause.0)
    }

    /// A clause's derivation.
    fn derivation(&self, clause: Clause) -> Result<&Derivation, BuildError> {
        self.clauses.get(usize::from(clause.0)).ok_or(BuildError::Foreign)
    }

    /// Sign and atom of a literal that a step names.
    fn occurrence(&self, Literal { clause, number }: Literal) -> Result<Occurrence, BuildError> {
        let literals = &self.derivation(clause)?.literals;
        let place = usize::from(number).checked_sub(1);
        let found = place.and_then(|place| literals.get(place)).copied();
        let count = u16::try_from(literals.len()).unwrap_or(u16::MAX);
        found.ok_or(BuildError::NoLiteral { number, literals: count })
    }

    /// Runs a resolution step on a literal of the left clause and some of the right, of which none stays.
    fn resolvent(
        &mut self,
        left: Literal,
        rights: &[Literal],
        write: impl FnOnce(&mut FileBuilder) -> Result<Clause, BuildError>,
    ) -> Result<Derived, BuildError> {
        let (right, _) = right_clause(rights)?;
        let first = self.occurrence(left)?;
        let others = rights.iter().map(|&right| self.occurrence(right)).collect::<Result<Vec<_>, _>>()?;
        require(rights.windows(2).all(|pair| pair[0].number < pair[1].number), Reason::Order)?;
        require(others.iter().all(|other| other.positive != first.positive), Reason::Signs)?;
        let (l, r) = (self.derivation(left.clause)?, self.derivation(right)?);
        let raise = |at: At| At { row: at.row, index: at.index + l.maximum };
        let raised = |occurrence: Occurrence| Occurrence { atom: raise(occurrence.atom), ..occurrence };
        let mut literals = without(&l.literals, &[left]);
        literals.extend(without(&r.literals, rights).into_iter().map(raised));
        let maximum = l.maximum + r.maximum;
        require(literals.len() <= usize::from(LITERALS) && maximum <= INDEX, Reason::TooLarge)?;
        let atoms: Vec<At> = others.iter().map(|other| raise(other.atom)).collect();
        let origin = Origin::Resolve { left: left.clause.0, right: right.0 };
        let candidate = Derivation { origin, literals, maximum, own: HashMap::new() };
        self.step(candidate, first.atom, &atoms, write)
    }

    /// Runs a step: the candidate clause is put up, unified in, and written; or taken away again.
    fn step(
        &mut self,
        candidate: Derivation,
        left: At,
        rights: &[At],
        write: impl FnOnce(&mut FileBuilder) -> Result<Clause, BuildError>,
    ) -> Result<Derived, BuildError> {
        let number = u16::try_from(self.clauses.len()).map_err(|_| BuildError::Full)?;
        self.clauses.push(candidate);
        let outcome = self.unified(Clause(number), left, rights, write);
        if outcome.is_err() {
            self.clauses.truncate(usize::from(number));
        }
        let clause = outcome?;
        Ok(Derived { clause, literals: self.literals(clause)? })
    }

    /// Compares the outlines of all atoms, unifies them in turn in the last clause and writes its record.
    fn unified(
        &mut self,
        candidate: Clause,
        left: At,
        rights: &[At],
        write: impl FnOnce(&mut FileBuilder) -> Result<Clause, BuildError>,
    ) -> Result<Clause, BuildError> {
        for right in rights {
            require(!outlines_clash(self.file.rows(), left.row, right.row), Reason::Clash)?;
        }
        let mut environment = Environment::new(self.file.rows(), &self.clauses, candidate.0);
        let bound = unify(&mut environment, self.bindings, left, rights).map_err(BuildError::Refused)?;
        let clause = write(&mut self.file)?;
        self.bindings += bound.len();
        if let Some(last) = self.clauses.last_mut() {
            last.own = bound.into_iter().collect();
        }
        Ok(clause)
    }
}

/// Refused with this reason unless it holds.
fn require(holds: bool, otherwise: Reason) -> Result<(), BuildError> {
    holds.then_some(()).ok_or(BuildError::Refused(otherwise))
}

/// A clause's literals without those named.
fn without(literals: &[Occurrence], named: &[Literal]) -> Vec<Occurrence> {
    let stays = |number: u16| named.iter().all(|literal| literal.number != number);
    literals.iter().zip(1..).filter(|&(_, number)| stays(number)).map(|(literal, _)| *literal).collect()
}
