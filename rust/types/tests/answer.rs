//! Answers, verdicts and reasons as numbers and as text.

use std::error::Error;

use yestrwyn_types::{
    Answer, BoardAnswer, BoardRefusal, Cells, ClauseState, ConversionRefusal, Converted, Covering,
    MergeRefusal, Merged, Outcome, Reason, Tables, TrimRefusal, Trimmed, Verdict, LENGTHS,
};

#[test]
fn reasons_are_their_numbers() {
    for number in 0..100 {
        let reason = Reason::from_number(number);
        assert_eq!(reason.number(), number);
        assert_eq!(matches!(reason, Reason::Other(_)), !(1..=23).contains(&number), "{reason:?}");
    }
    assert_eq!(Reason::Clash.to_string(), "two different symbols meet");
    assert_eq!(Reason::Order.to_string(), "the right literals of the step do not strictly rise");
    let nothing = "the file does not stand, or a clause named is not an input clause of it";
    assert_eq!(Reason::NoComparison.to_string(), nothing);
    assert_eq!(Reason::Crossed.to_string(), "the first day is after the last");
    let merging = [Reason::MergedStep, Reason::MergedSymbols, Reason::MergedLength];
    assert_eq!(merging.map(Reason::number), [17, 18, 19]);
    assert_eq!(Reason::MergedStep.to_string(), "a file that is to be merged holds a step");
    assert_eq!(Reason::MergedLength.to_string(), "the merged file would have over 4,096 records");
    assert_eq!([Reason::NotAnInput, Reason::Already].map(Reason::number), [20, 21]);
    assert_eq!(Reason::NotAnInput.to_string(), "there is no input clause of that number");
    assert_eq!(Reason::Already.to_string(), "the clause is in that condition already");
    assert_eq!(Reason::ConvertedLength.number(), 22);
    let too_many = "the converted file would have too many records for its form";
    assert_eq!(Reason::ConvertedLength.to_string(), too_many);
    assert_eq!(Reason::NotAccepted.number(), 23);
    assert_eq!(Reason::NotAccepted.to_string(), "the file stands but is not accepted on that day");
    assert_eq!(Reason::Other(24).to_string(), "reason 24");
}

#[test]
fn answers_are_their_numbers() {
    for numbers in
        [[0, 0, 0, 1, 2, 3, 4], [1, 7, 0, 1, 2, 3, 4], [2, 11, 9, 1, 2, 3, 4], [2, 20, 0, 0, 0, 0, 0]]
    {
        assert_eq!(Answer::from_numbers(numbers).numbers(), numbers);
    }
    // Nothing that is not said to be open or accepted is taken for it.
    let odd = Answer::from_numbers([3, 1, 0, 0, 0, 0, 0]);
    assert!(matches!(odd.verdict, Verdict::Refused { .. }) && !odd.verdict.is_accepted());
}

#[test]
fn coverings_are_their_numbers() {
    assert_eq!(Covering::yes([2, 1, 2, 0, 0, 0, 0]).numbers(), [1, 0, 0, 2, 1, 2, 0, 0, 0, 0]);
    assert_eq!(Covering::no().numbers(), [0; 10]);
    assert_eq!(Covering::refused().numbers(), [2, 15, 0, 0, 0, 0, 0, 0, 0, 0]);
    for covering in [Covering::yes([7; 7]), Covering::yes([0; 7]), Covering::no(), Covering::refused()] {
        assert_eq!(Covering::from_numbers(covering.numbers()), covering);
    }
    // Nothing that is not said to be a yes is taken for it.
    let odd = Covering::from_numbers([3, 1, 0, 1, 0, 0, 0, 0, 0, 0]);
    assert!(matches!(odd.outcome, Outcome::Refused { .. }) && !odd.is_yes());
    assert!(Covering::yes([0; 7]).is_yes() && !Covering::no().is_yes());
}

#[test]
fn merges_are_their_numbers() {
    let symbols = MergeRefusal { reason: Reason::MergedSymbols, file: 2, record: 4095 };
    let short = MergeRefusal::of_neither(Reason::Table);
    let [refused, untouched] = [symbols, short].map(Merged::Refused);
    assert_eq!(Merged::Written { length: 65_536 }.numbers(), [0, 65_536, 0, 0]);
    assert_eq!(Merged::Written { length: 0 }.numbers(), [0; 4]);
    assert_eq!((refused.numbers(), untouched.numbers()), ([2, 18, 2, 4095], [2, 2, 0, 0]));
    for merged in [Merged::Written { length: 65_536 }, Merged::Written { length: 0 }, refused, untouched] {
        assert_eq!(Merged::from_numbers(merged.numbers()), merged);
    }
    assert_eq!([Merged::Written { length: 48 }, refused].map(Merged::length), [Some(48), None]);
    // Nothing that is not said to be written is taken for it, and no number is cut to another.
    let odd = MergeRefusal { reason: Reason::Other(65_535), file: 65_535, record: 65_535 };
    assert_eq!(Merged::from_numbers([1, 65_536 + 17, 65_537, 65_536]), Merged::Refused(odd));
    assert_eq!(
        [symbols, short].map(|refusal| refusal.to_string()),
        ["file 2: refused 18 at 4095", "refused 2"]
    );
}

#[test]
fn conversions_are_their_numbers() {
    let own = ConversionRefusal::of_the_file(Reason::Crossed, 3275);
    let [short, many] = [Reason::Table, Reason::ConvertedLength].map(ConversionRefusal::of_the_result);
    let conversions = [
        (Converted::Written { length: 65_520 }, [0, 65_520, 0, 0]),
        (Converted::Written { length: 0 }, [0; 4]),
        (Converted::Refused(own), [2, 16, 1, 3275]),
        (Converted::Refused(short), [2, 2, 0, 0]),
        (Converted::Refused(many), [2, 22, 0, 0]),
    ];
    for (converted, numbers) in conversions {
        assert_eq!((converted.numbers(), Converted::from_numbers(numbers)), (numbers, converted));
    }
    assert_eq!(
        [Converted::Written { length: 48 }, Converted::Refused(own)].map(Converted::length),
        [Some(48), None]
    );
    // Nothing that is not said to be written is taken for it, and no number is cut to another.
    let odd = ConversionRefusal { reason: Reason::Other(65_535), file: 65_535, record: 65_535 };
    assert_eq!(Converted::from_numbers([1, 65_536 + 22, 65_537, 65_536]), Converted::Refused(odd));
    assert_eq!([own, many].map(|refusal| refusal.to_string()), ["refused 16 at 3275", "refused 22"]);
    assert_eq!(many.source().map(ToString::to_string), Some(Reason::ConvertedLength.to_string()));
}

#[test]
fn trims_are_their_numbers() {
    let own = TrimRefusal::of_the_file(Reason::Clash, 4095);
    let [open, short] = [TrimRefusal::not_accepted(), TrimRefusal::of_the_output()];
    let trims = [
        (Trimmed::Written { length: 65_536 }, [0, 65_536, 0, 0]),
        (Trimmed::Written { length: 16 }, [0, 16, 0, 0]),
        (Trimmed::Refused(own), [2, 10, 1, 4095]),
        (Trimmed::Refused(open), [2, 23, 1, 0]),
        (Trimmed::Refused(short), [2, 2, 0, 0]),
    ];
    for (trimmed, numbers) in trims {
        assert_eq!((trimmed.numbers(), Trimmed::from_numbers(numbers)), (numbers, trimmed));
    }
    assert_eq!(
        [Trimmed::Written { length: 48 }, Trimmed::Refused(own)].map(Trimmed::length),
        [Some(48), None]
    );
    // Nothing that is not said to be written is taken for it, and no number is cut to another.
    let odd = TrimRefusal { reason: Reason::Other(65_535), file: 65_535, record: 65_535 };
    assert_eq!(Trimmed::from_numbers([1, 65_536 + 23, 65_537, 65_536]), Trimmed::Refused(odd));
    let texts = [own, open, short].map(|refusal| refusal.to_string());
    assert_eq!(texts, ["refused 10 at 4095", "refused 23 at 0", "refused 2"]);
    assert_eq!(open.source().map(ToString::to_string), Some(Reason::NotAccepted.to_string()));
}

#[test]
fn answers_of_a_board_are_their_numbers() {
    let call = BoardRefusal::of_the_call(Reason::NotAnInput);
    let opening = BoardRefusal { reason: Reason::Missing, record: 4095 };
    let answers = [
        (BoardAnswer::Answered(None), [0, 0, 0], "none"),
        (BoardAnswer::Answered(Some(0)), [1, 0, 0], "clause 0"),
        (BoardAnswer::Answered(Some(4095)), [1, 4095, 0], "clause 4095"),
        (BoardAnswer::Refused(call), [2, 20, 0], "refused 20 at 0"),
        (BoardAnswer::Refused(opening), [2, 5, 4095], "refused 5 at 4095"),
    ];
    for (answer, numbers, text) in answers {
        assert_eq!((answer.numbers(), answer.to_string()), (numbers, text.to_string()));
        assert_eq!(BoardAnswer::from_numbers(numbers), answer);
        assert_eq!(BoardAnswer::from(answer.result()), answer);
    }
    // Nothing that is not said to be answered is taken for it.
    let odd = BoardRefusal::of_the_call(Reason::Other(7_000));
    assert_eq!(BoardAnswer::from_numbers([3, 7_000, 0]), BoardAnswer::Refused(odd));
    assert_eq!(call.source().map(ToString::to_string), Some(Reason::NotAnInput.to_string()));
}

#[test]
fn states_of_clauses_are_their_cells() {
    let states = [(false, false), (false, true), (true, false), (true, true)];
    for (cell, (in_force, stands)) in (4..).zip(states) {
        let state = ClauseState { in_force, stands };
        for child in [0, 1, 2, 4095, 8191] {
            let cell = 8 * child + cell;
            assert_eq!((state.cell(child), ClauseState::from_cell(cell)), (cell, Some(state)));
            assert_eq!(ClauseState::last_child(cell), child);
        }
    }
    assert!((0..4).all(|cell| ClauseState::from_cell(cell).is_none()));
}

#[test]
fn verdicts_are_displayed_as_in_the_readout() {
    let refused = Verdict::Refused { reason: Reason::Signs, record: 22 };
    let texts = [Verdict::Accepted(11), Verdict::Open, refused].map(|verdict| verdict.to_string());
    assert_eq!(texts, ["accepted 11", "open", "refused 8 at 22"]);
    let answer = Answer { verdict: refused, symbols: 6, rows: 9, clauses: 7, bindings: 3 };
    assert_eq!(answer.to_string(), "refused 8 at 22: 6 symbols, 9 rows, 7 clauses, 3 bindings");
}

#[test]
fn tables_that_are_just_long_enough() {
    let mut cells = Cells::new();
    assert!(cells.lend().long_enough());
    for short in 0..LENGTHS.len() {
        let mut tables = LENGTHS.map(|length| vec![0; length]);
        tables[short].pop();
        let [symbols, rows, clauses, bindings] = &mut tables;
        assert!(!Tables { symbols, rows, clauses, bindings }.long_enough());
    }
}
