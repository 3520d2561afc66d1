//! The instances behind an accepted clause: each use of an input clause, with what its variables have become.

use yestrwyn_types::limits::VARIABLES;

use crate::model::{Expression, Literal, Model, Node};
use crate::terms::{Head, Term, Terms};
use crate::values::Values;

/// The instance of one use: a variable-free clause.
#[derive(Clone, PartialEq, Eq, Debug)]
pub struct Instance {
    /// The input clause.
    pub clause: u16,
    /// Its literals in order: is it positive, and its atom.
    pub literals: Vec<(bool, Term)>,
}

/// The instances of the uses of a clause, the k-th at index k, and the terms that they are made of.
///
/// Every variable is replaced by its value in the clause, and one without a value by the extra constant. Terms are shared: what is
/// equal is kept once, so that a term of any size takes as much room as it has different parts.
pub struct Instances {
    /// The terms.
    pub terms: Terms,
    /// The instances.
    pub list: Vec<Instance>,
}

impl Instances {
    /// The instances of a clause.
    pub fn of(model: &Model<'_>, clause: u16) -> Instances {
        let uses = model.uses(clause);
        let mut writing = Writing::new(model, Values::of_clause(model, clause), uses.len());
        let list = (1..).zip(&uses).map(|(index, &used)| writing.instance(used, index)).collect();
        Instances { terms: writing.terms, list }
    }
}

/// What the terms of instances are made with.
struct Writing<'a> {
    model: &'a Model<'a>,
    values: Values,
    terms: Terms,
    /// For each row the variables in it, a bit for each number.
    variables: Vec<u64>,
    /// For each variable number its earliest row.
    variable_rows: Vec<u16>,
    /// The values that are known, of each variable number at each index.
    known: Vec<Option<Term>>,
    /// The last term that was made of each row, with the index at which it was; 0 where the index plays no part.
    rows: Vec<Option<(u16, Term)>>,
}

/// What is to be found out, the last first.
enum Task {
    /// The value of a variable.
    Variable(Expression),
    /// The same of one that ends on this application, where all variables in it are known.
    Known(Expression, Expression),
}

impl<'a> Writing<'a> {
    /// Nothing is known yet.
    fn new(model: &'a Model<'a>, values: Values, uses: usize) -> Writing<'a> {
        let count = model.rows().len();
        let mut variables: Vec<u64> = Vec::with_capacity(count);
        let mut variable_rows = vec![0; VARIABLES];
        for row in model.rows() {
            variables.push(match &row.node {
                Node::Variable(number) => {
                    variable_rows[usize::from(*number)] = row.earliest;
                    1 << number
                }
                Node::Application { arguments, .. } => {
                    arguments.iter().fold(0, |all, &argument| all | variables[usize::from(argument)])
                }
            });
        }
        let (known, rows) = (vec![None; (uses + 1) * VARIABLES], vec![None; count]);
        Writing { model, values, terms: Terms::new(), variables, variable_rows, known, rows }
    }

    /// The instance of an input clause at an index.
    fn instance(&mut self, clause: u16, index: u16) -> Instance {
        let literals = self.model.clause(clause).map_or(&[][..], |clause| &clause.literals);
        let atom = |&Literal { positive, atom }: &Literal| {
            let atom = Expression { index, ..atom };
            self.find_variables(atom);
            (positive, self.term(atom))
        };
        Instance { clause, literals: literals.iter().map(atom).collect() }
    }

    /// Finds the values of all variables in an expression, those in their values first.
    fn find_variables(&mut self, start: Expression) {
        let mut open = Vec::new();
        self.push_variables(start, &mut open);
        while let Some(task) = open.pop() {
            match task {
                Task::Variable(variable) if self.value(variable).is_some() => {}
                Task::Variable(variable) => {
                    let end = self.values.follow(self.model, variable);
                    match self.model.node(end.row) {
                        Node::Variable(_) => {
                            let extra = self.terms.apply(Head::Extra, &[]);
                            self.know(variable, extra);
                        }
                        Node::Application { .. } => {
                            open.push(Task::Known(variable, end));
                            self.push_variables(end, &mut open);
                        }
                    }
                }
                Task::Known(variable, end) => {
                    let value = self.term(end);
                    self.know(variable, value);
                }
            }
        }
    }

    /// Adds the variables of an expression whose value is not known.
    fn push_variables(&self, start: Expression, open: &mut Vec<Task>) {
        let there = self.variables[usize::from(start.row)];
        let numbers = (0..VARIABLES).filter(|number| there >> number & 1 == 1);
        let variables = numbers.map(|number| Expression { row: self.variable_rows[number], ..start });
        open.extend(variables.filter(|&variable| self.value(variable).is_none()).map(Task::Variable));
    }

    /// The term of an expression, all of whose variables have a known value: those of its arguments are made first.
    fn term(&mut self, start: Expression) -> Term {
        let mut open = vec![start.row];
        while let Some(&row) = open.last() {
            let arguments = self.model.node(row).arguments().iter().copied();
            let before = open.len();
            open.extend(arguments.filter(|&row| self.made(Expression { row, ..start }).is_none()));
            if open.len() == before {
                self.make(Expression { row, ..start });
                open.pop();
            }
        }
        self.make(start)
    }

    /// Makes the term of an expression whose arguments are made. A variable without a known value is the extra constant.
    fn make(&mut self, at: Expression) -> Term {
        let made = self.made(at);
        let term = made.unwrap_or_else(|| match self.model.node(at.row) {
            Node::Variable(_) => self.value(at).unwrap_or_else(|| self.terms.apply(Head::Extra, &[])),
            Node::Application { symbol, arguments } => {
                let made = |&row: &u16| self.made(Expression { row, ..at });
                let arguments: Vec<Term> = arguments.iter().filter_map(made).collect();
                self.terms.apply(Head::Symbol(*symbol), &arguments)
            }
        });
        self.rows[usize::from(at.row)] = Some((self.index_of(at), term));
        term
    }

    /// The term of an expression, if it is the last that was made of its row.
    fn made(&self, at: Expression) -> Option<Term> {
        let (index, term) = self.rows[usize::from(at.row)]?;
        (index == self.index_of(at)).then_some(term)
    }

    /// The index of an expression; 0 if no variable is in it.
    fn index_of(&self, at: Expression) -> u16 {
        match self.variables[usize::from(at.row)] {
            0 => 0,
            _ => at.index,
        }
    }

    /// The known value of a variable.
    fn value(&self, variable: Expression) -> Option<Term> {
        Values::place(self.model, variable).and_then(|place| self.known.get(place).copied().flatten())
    }

    /// Notes the value of a variable.
    fn know(&mut self, variable: Expression, value: Term) {
        if let Some(known) = Values::place(self.model, variable).and_then(|place| self.known.get_mut(place)) {
            *known = Some(value);
        }
    }
}
