//! `yestrwyn audit`: the instances behind an accepted clause, for a SAT solver.

use yestrwyn_derivations::dimacs;

use super::options::named_file;
use super::Command;
use crate::arguments::{Arguments, Takes};
use crate::failure::Failure;
use crate::output::Output;
use crate::solver::{solve, Answer};
use crate::status::Status;

pub const COMMAND: Command = Command {
    name: "audit",
    synopsis: "[--day D] [--names N] FILE [--solver CMD]",
    summary: "The instances of the rules used, which cannot all be true, as DIMACS with a legend.",
    text: "\
A clause for each use of an input clause, with every variable replaced by its value in the accepted clause.
That they cannot all be true is proved; a SAT solver finds it anew, without any of this.

    --day D        check on this day; asked for where the verdict can depend on it
    --names N      print names in the legend
    --solver CMD   have a solver, a program with its own words, read the problem from a file, and say whether it
                   agrees: it ends with status 20 where there is no model and with 10 where there is one, as
                   MiniSat and CaDiCaL do, or says so in a line, 's UNSATISFIABLE' or 's SATISFIABLE'
",
    proved: "that the file is accepted, and that the instances of its uses cannot all be true.",
    not_proved: "that the clauses printed are these instances, and what the solver says.",
    statuses: "0 printed, or the solver agrees; 1 the file is open; 2 refused, or the solver finds a model; 3 not\n\
               read or written, or the solver gives no answer.",
    takes: Takes { flags: &[], values: &["--day", "--names", "--solver"] },
    run,
};

fn run(arguments: &Arguments, output: &mut Output) -> Result<Status, Failure> {
    let (file, names) = named_file(arguments)?;
    let (model, clause) = file.accepted_model()?;
    let problem = dimacs(&model, &names, clause);
    let Some(solver) = arguments.value("--solver") else {
        output.print(problem)?;
        return Ok(Status::Accepted);
    };
    let (source, uses) = (&file.source, model.uses(clause).len());
    match solve(solver, &problem)? {
        Answer::None => {
            output.print(format!("{source}: the solver agrees: the {uses} instances have no model\n"))?;
            Ok(Status::Accepted)
        }
        Answer::Model => {
            let line = "the solver disagrees: it says that the instances have a model";
            Err(Failure::of(source, line).with(Status::Refused))
        }
    }
}
