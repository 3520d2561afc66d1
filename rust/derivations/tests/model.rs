//! The model of a checked file says what the check and the readout say.

mod checked;

use checked::{vectors, Checked};
use yestrwyn_derivations::{step_works, Model, Names, Printer};
use yestrwyn_types::{Cells, Form};
use yestrwyn_vectors::outcome::outcome;

/// The readout's lines, printed by the model without names.
fn lines(model: &Model<'_>) -> String {
    let names = Names::none();
    let printer = Printer::new(model, &names);
    let mut text = format!("{}\n", model.answer().verdict);
    for (number, clause) in (0..).zip(model.clauses()) {
        let literals: String = printer.literals(number).iter().map(|literal| format!(" {literal}")).collect();
        text += &format!("{number} {}{literals}\n", clause.max_index);
    }
    text
}

#[test]
fn clauses_print_as_the_readout_has_them() {
    for checked in vectors() {
        let readout = String::from_utf8_lossy(&checked.outcome.readout);
        assert!(lines(&checked.model()) == readout, "{}", checked.name);
    }
}

#[test]
fn steps_do_the_work_that_the_check_counts() {
    for checked in vectors() {
        let works: Vec<(u16, u32)> =
            step_works(&checked.model()).iter().map(|step| (step.record, step.work)).collect();
        let expected: Vec<(u16, u32)> =
            checked.outcome.works.iter().map(|step| (step.record, step.work)).collect();
        assert_eq!(works, expected, "{}", checked.name);
    }
}

#[test]
fn there_are_as_many_uses_as_the_maximum_index_says() {
    for checked in vectors() {
        let model = checked.model();
        let last = model.clauses().len().saturating_sub(40);
        for (number, clause) in (0..).zip(model.clauses()).skip(last) {
            let uses = model.uses(number);
            assert_eq!(uses.len(), usize::from(clause.max_index), "clause {number} of {}", checked.name);
            let counted: usize = model.use_counts(number).iter().map(|&(_, count)| count).sum();
            assert_eq!(counted, uses.len());
        }
    }
}

#[test]
fn tables_of_another_file_make_no_model() {
    let [curfew, duty] = ["curfew", "duty"].map(|name| Checked::stored(name, 0));
    assert!(Model::read(Form::Old, &duty.file, &curfew.outcome.answer, &curfew.outcome.cells).is_none());
    assert!(Model::read(Form::Old, &curfew.file, &curfew.outcome.answer, &Cells::new()).is_none());
    assert!(Model::read(Form::Old, &[], &curfew.outcome.answer, &curfew.outcome.cells).is_none());
    assert!(Model::read(Form::New, &curfew.file, &curfew.outcome.answer, &curfew.outcome.cells).is_none());
    let short = outcome(&[0; 15]);
    assert!(Model::read(Form::Old, &[0; 15], &short.answer, &short.cells).is_some());
}
