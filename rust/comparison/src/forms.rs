//! The proved check of either form and the proved conversions, beside the second implementation: every number, every cell and every
//! byte of the output.

use yestrwyn::exported::{check_form_numbers, to_new_numbers, to_old_numbers};
use yestrwyn_types::{Form, Tables, ANSWER_CELLS};
use yestrwyn_vectors::examples::forms::Formed;
use yestrwyn_vectors::forms::{convert_into, damaged_form, random_form};
use yestrwyn_vectors::random::SplitMix64;
use yestrwyn_vectors::widened;

use crate::compare::{day_and_file_of, Difference, Lengths, Lent};
use crate::outputs::{OutputLengths, OutputLent};

/// The names of the parts of a check where a difference is shown.
const CHECKED: [&str; 5] =
    ["answer of a form", "symbols of a form", "rows of a form", "clauses of a form", "bindings of a form"];

/// The same of a conversion.
const CONVERTED: [&str; 6] = [
    "answer of a conversion",
    "symbols of a conversion",
    "rows of a conversion",
    "clauses of a conversion",
    "bindings of a conversion",
    "output of a conversion",
];

/// The proved conversion from a form.
pub fn convert_numbers(form: Form) -> fn(&[u8], &mut Tables<'_>, &mut [u8], &mut [u32]) {
    match form {
        Form::Old => to_new_numbers,
        Form::New => to_old_numbers,
    }
}

/// What both are lent.
#[derive(Default)]
pub struct Forms {
    proved: Lent,
    second: Lent,
    proved_output: OutputLent,
    second_output: OutputLent,
}

impl Forms {
    /// Has both check a file by the number of a form, with tables and an answer of some lengths; gives the kind of answer (0
    /// open, 1 accepted, 2 refused), nothing if there is no such form or no room for an answer, or where they differ.
    pub fn compare_number(
        &mut self,
        number: u16,
        (day, file): (u16, &[u8]),
        lengths: Lengths,
        mark: u16,
    ) -> Result<Option<u16>, Difference> {
        let Forms { proved, second, .. } = self;
        proved.fill(lengths, mark);
        second.fill(lengths, mark);
        let (mut tables, answer) = proved.tables();
        check_form_numbers(number, day, file, &mut tables, answer);
        let form = Form::from_number(number).filter(|_| lengths.answer >= ANSWER_CELLS);
        if let Some(form) = form {
            let (mut tables, answer) = second.tables();
            let right = yestrwyn_second::check_form_into(form, day, file, &mut tables).numbers();
            answer[..ANSWER_CELLS].copy_from_slice(&right);
        }
        proved.differ(second, CHECKED)?;
        Ok(form.and(proved.answer.first().copied()))
    }

    /// The same for a file and its own form.
    pub fn compare(&mut self, file: &Formed, lengths: Lengths, mark: u16) -> Result<Option<u16>, Difference> {
        self.compare_number(file.form.number(), (file.day, &file.file), lengths, mark)
    }

    /// Has both convert a file, with tables, output and answer of some lengths; gives the kind of answer (0 written, 2 refused),
    /// nothing if there is no room for one, or where they differ.
    pub fn convert(
        &mut self,
        form: Form,
        file: &[u8],
        lengths: OutputLengths,
        mark: u16,
    ) -> Result<Option<u32>, Difference> {
        let Forms { proved_output: proved, second_output: second, .. } = self;
        proved.fill(lengths, mark);
        second.fill(lengths, mark);
        let (mut tables, _) = proved.cells.tables();
        convert_numbers(form)(file, &mut tables, &mut proved.output, &mut proved.answer);
        second.answered(|tables, output| convert_into(form, file, tables, output).numbers());
        proved.differ(second, CONVERTED)?;
        Ok(proved.kind())
    }
}

/// The file of a number within a run: mostly made for its form, whole or damaged; at times any file, in its own form or the
/// other, or one that is read by the wrong form.
pub fn form_of(seed: u64) -> Formed {
    let mut random = SplitMix64::new(seed ^ 0xf0e3_0000_0000_0000);
    let own = random.next_u64();
    let form = Form::ALL[random.below(2)];
    match random.below(16) {
        0..=7 => random_form(form, own),
        8..=11 => damaged_form(form, own),
        12 | 13 => {
            let (day, file) = day_and_file_of(own);
            let file = if form == Form::New { widened(&file) } else { file };
            Formed::on(form, day, "any", file)
        }
        14 => Formed { form: form.other(), ..random_form(form, own) },
        _ => {
            // Rows of the shorter form, as many whole ones as the other reads too.
            let Formed { name, day, mut file, .. } = random_form(form, own);
            file.truncate(file.len() / 80 * 80);
            Formed { name, form: form.other(), day, file }
        }
    }
}
