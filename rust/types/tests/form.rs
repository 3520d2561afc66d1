//! The two forms of a file: lengths, parts, and records with their days beside them.

use yestrwyn_types::record::{kind, Record};
use yestrwyn_types::{input_clauses_form, Answer, Cells, Dated, Form, Verdict};

#[test]
fn forms_are_their_numbers() {
    assert_eq!(Form::ALL.map(Form::number), [16, 20]);
    for number in 0..100 {
        let form = Form::from_number(number);
        assert_eq!(form.map(Form::number), [16, 20].contains(&number).then_some(number));
    }
    assert_eq!(Form::ALL.map(Form::record_bytes), [16, 20]);
    assert_eq!(Form::ALL.map(Form::records), [4096, 3276]);
    assert_eq!(Form::ALL.map(Form::file_bytes), [65_536, 65_520]);
    assert_eq!(Form::ALL.map(Form::other), [Form::New, Form::Old]);
}

#[test]
fn lengths_that_fit() {
    for (length, fits) in [
        (0, [true, true]),
        (16, [true, false]),
        (20, [false, true]),
        (40, [false, true]),
        (80, [true, true]),
        (65_520, [true, true]),
        (65_536, [true, false]),
        (65_540, [false, false]),
        (65_552, [false, false]),
        (65_600, [false, false]),
    ] {
        assert_eq!(Form::ALL.map(|form| form.fits(length)), fits, "{length} bytes");
    }
}

#[test]
fn records_with_their_days() {
    let clause = Record::new(kind::INPUT, 1, &[3]);
    let dated = Dated { record: clause, days: [0x1234, 0xfedc] };
    let bytes = dated.to_bytes();
    assert_eq!(bytes[..16], clause.to_bytes());
    assert_eq!(bytes[16..], [0x34, 0x12, 0xdc, 0xfe]);
    let file = [bytes, Dated::old(Record::new(kind::SYMBOL, 2, &[])).to_bytes()].concat();
    assert_eq!(Form::New.read(&file, 0), Some(dated));
    assert_eq!(Form::New.read(&file, 1).map(|dated| dated.days), Some([0, 0]));
    // A record that is not wholly inside is none, and its part is empty.
    assert_eq!((Form::New.read(&file, 2), Form::New.part(&file, 2)), (None, &[][..]));
    assert_eq!((Form::New.read(&file[..39], 1), Form::New.part(&file[..39], 1)), (None, &[][..]));
    assert_eq!(Form::New.part(&file, 1), &file[20..]);
    assert_eq!(Form::New.read(&file, u16::MAX), None);
    // In the old form an input clause is in force always, as far as its own record says, and nothing else has days.
    assert_eq!(Form::Old.read(&file, 0), Some(Dated { record: clause, days: [0, 65_535] }));
    for kind in (0..=255).filter(|&kind| kind != kind::INPUT) {
        let dated = Dated::old(Record::new(kind, 7, &[1, 2, 3]));
        assert!(dated.no_days() && dated.days != Dated::ALWAYS, "kind {kind}");
    }
}

/// The days of input clauses are those beside them.
#[test]
fn input_clauses_of_the_new_form() {
    let records =
        [(kind::INPUT, [5, 6]), (kind::SYMBOL, [0, 0]), (kind::INPUT, Dated::ALWAYS), (kind::INPUT, [0, 0])];
    let bytes = records.map(|(kind, days)| Dated { record: Record::new(kind, 0, &[]), days }.to_bytes());
    let file = bytes.concat();
    let mut cells = Cells::new();
    for (clause, record) in [0, 2, 3].into_iter().enumerate() {
        cells.clauses[5 * clause] = record;
    }
    let answer = Answer { verdict: Verdict::Open, symbols: 1, rows: 0, clauses: 3, bindings: 0 };
    let listed: Vec<_> = input_clauses_form(Form::New, &file, &answer, &cells).collect();
    assert_eq!(listed.iter().map(|clause| clause.record).collect::<Vec<_>>(), [0, 2, 3]);
    assert_eq!(
        listed.iter().map(|clause| clause.days.clone()).collect::<Vec<_>>(),
        [Some(5..=6), None, Some(0..=0)]
    );
}
