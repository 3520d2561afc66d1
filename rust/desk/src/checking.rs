//! Proof files read and checked, one or many.

use yestrwyn::{Answer, Cells, Form, Verdict, Workspace};
use yestrwyn_derivations::Model;

use crate::days_needed::depends_on_day;
use crate::failure::Failure;
use crate::input::Source;
use crate::status::Status;

/// Cells of a clause in the table of clauses, of which the third is its maximum index.
const CLAUSE: usize = 5;

/// A check of files, with what it keeps between them.
pub trait Engine {
    /// Checks a file on a day, and gives the answer and the tables.
    fn check(&mut self, form: Form, day: u16, file: &[u8]) -> (Answer, &Cells);
}

/// The proved check.
#[derive(Default)]
pub struct Proved {
    workspace: Workspace,
    /// The tables of files of the new form, for which there is no check that keeps a workspace.
    cells: Cells,
}

impl Engine for Proved {
    fn check(&mut self, form: Form, day: u16, file: &[u8]) -> (Answer, &Cells) {
        match form {
            Form::Old => (self.workspace.check_here(day, file), self.workspace.cells()),
            Form::New => (yestrwyn::check_form_here(form, day, file, &mut self.cells.lend()), &self.cells),
        }
    }
}

/// How files are to be checked.
#[derive(Clone, Copy, PartialEq, Eq, Debug)]
pub struct Terms {
    /// Their form.
    pub form: Form,
    /// The day. Without one a file is a failure whose verdict can depend on it.
    pub day: Option<u16>,
}

/// What the check of a file gave.
#[derive(Clone, Copy, PartialEq, Eq, Debug)]
pub struct Checked {
    /// The verdict and the counts.
    pub answer: Answer,
    /// The maximum index of the accepted clause.
    pub maximum_index: Option<u16>,
}

/// A worker that checks files by an engine of its own, with a buffer that it keeps. It needs the stack of a check.
pub struct Checker<E> {
    engine: E,
    terms: Terms,
    file: Vec<u8>,
}

impl<E: Engine> Checker<E> {
    /// A worker with an engine.
    pub fn new(engine: E, terms: Terms) -> Checker<E> {
        Checker { engine, terms, file: Vec::new() }
    }

    /// Reads and checks a file.
    pub fn check(&mut self, source: &Source) -> Result<Checked, Failure> {
        source.read_into(&mut self.file)?;
        let (answer, cells) = self.checked(source)?;
        let maximum_index = match answer.verdict {
            Verdict::Accepted(clause) => cells.clauses.get(CLAUSE * usize::from(clause) + 2).copied(),
            _ => None,
        };
        Ok(Checked { answer, maximum_index })
    }

    /// Checks the file that was read. Without a day it is checked on day 0, which stands for every day if the verdict cannot depend
    /// on it.
    fn checked(&mut self, source: &Source) -> Result<(Answer, &Cells), Failure> {
        let Terms { form, day } = self.terms;
        let (answer, cells) = self.engine.check(form, day.unwrap_or(0), &self.file);
        if day.is_none() && depends_on_day(form, &self.file, &answer, cells) {
            return Err(Failure::of(
                source,
                "a rule that it uses has days, and the verdict can depend on the day: give --day",
            ));
        }
        Ok((answer, cells))
    }
}

/// One file that was read and checked.
pub struct CheckedFile {
    /// Where it was read.
    pub source: Source,
    /// Its bytes.
    pub bytes: Vec<u8>,
    /// The day of the check; without one the verdict is the same on every day.
    pub day: Option<u16>,
    /// The verdict and the counts.
    pub answer: Answer,
    /// The tables as the check left them.
    pub cells: Cells,
}

impl CheckedFile {
    /// Reads a file of the old form and checks it, on a thread with stack enough. Without a day a file is a failure whose verdict can
    /// depend on it.
    pub fn read(source: Source, day: Option<u16>) -> Result<CheckedFile, Failure> {
        let terms = Terms { form: Form::Old, day };
        let mut checker = Checker::new(Proved::default(), terms);
        source.read_into(&mut checker.file)?;
        let checked = yestrwyn::with_stack(|| {
            let (answer, cells) = checker.checked(&source)?;
            Ok((answer, cells.clone()))
        });
        let (answer, cells) = checked.map_err(|error| Failure::of(&source, error))??;
        Ok(CheckedFile { source, bytes: checker.file, day, answer, cells })
    }

    /// What the file says, taken apart. It is of the old form.
    pub fn model(&self) -> Result<Model<'_>, Failure> {
        let model = Model::read(Form::Old, &self.bytes, &self.answer, &self.cells);
        model.ok_or_else(|| Failure::of(&self.source, "the tables of the check do not fit the file"))
    }

    /// The same if it stands; else its refusal.
    pub fn standing_model(&self) -> Result<Model<'_>, Failure> {
        match self.answer.verdict {
            Verdict::Refused { reason, record } => Err(Failure::refused(&self.source, reason, record)),
            Verdict::Accepted(_) | Verdict::Open => self.model(),
        }
    }

    /// The same with the accepted clause, if it is accepted; else why it is not.
    pub fn accepted_model(&self) -> Result<(Model<'_>, u16), Failure> {
        let model = self.standing_model()?;
        let open =
            || Failure::of(&self.source, "it is open, so that there is no proof in it").with(Status::Open);
        let clause = model.accepted().ok_or_else(open)?;
        Ok((model, clause))
    }

    /// A day to give to functions of the library: that of the check, or one that stands for every day.
    pub fn any_day(&self) -> u16 {
        self.day.unwrap_or(0)
    }
}
