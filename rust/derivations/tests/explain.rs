//! Verdicts in words: what is found wrong with a refused record is what the check refused it for.

mod checked;

use checked::{vectors, Checked};
use yestrwyn_derivations::{explain, find_fault, Model, Names};
use yestrwyn_second::check_form_into;
use yestrwyn_types::{Cells, Verdict};
use yestrwyn_vectors::examples::Example;
use yestrwyn_vectors::forms;
use yestrwyn_vectors::{
    clashing_several_file, damage, dated_file, random_file, repeating_file, several_file,
};

#[test]
fn every_refusal_is_found_again_and_explained() {
    let names = Names::none();
    let mut reasons = std::collections::BTreeMap::new();
    for checked in vectors() {
        let model = checked.model();
        let text = explain(&model, &names, Some(checked.day));
        assert!(text.starts_with(&format!("{}\n", model.answer().verdict)), "{}", checked.name);
        let Verdict::Refused { reason, .. } = model.answer().verdict else { continue };
        let found = find_fault(&model).map(|fault| fault.reason());
        assert_eq!(found, Some(reason), "{}", checked.name);
        assert!(text.contains("\nhow to mend it:\n  "), "{}", checked.name);
        assert!(!text.contains("Nothing more"), "{}", checked.name);
        assert!(text.len() < 60_000, "{} takes {} bytes", checked.name, text.len());
        *reasons.entry(reason.number()).or_insert(0) += 1;
    }
    let all: Vec<u16> = reasons.into_keys().collect();
    assert_eq!(all, [1, 3, 4, 5, 7, 8, 9, 10, 11, 12, 13, 14, 16]);
}

/// The lines of an explanation of a stored example, with its names.
fn stored(name: &str, day: u16, symbols: &str) -> String {
    let names = Names::read(symbols).expect("names");
    let checked = Checked::stored(name, day);
    explain(&checked.model(), &names, Some(day))
}

#[test]
fn the_refused_example() {
    let symbols = "s0 flies\ns1 Amber\ns2 Blue\ns3 leg1\ns4 leg2\ns5 leg3";
    let text = stored("refused", 0, symbols);
    for line in [
        "refused 8 at 22",
        "record 22, bytes 352 to 367 of the file:",
        "  05 00 00 00 01 00 04 00 01 00 00 00 00 00 00 00",
        "  kind 5: a resolution step, which would make clause 5",
        "  a = 0: the left clause 0: +flies(Amber,v0.1) +flies(Blue,v0.1)",
        "  d = 1: a right literal: +flies(Blue,leg1)",
        "  In clause 4, literal 1 of clause 0 can be resolved with literal 2.",
    ] {
        assert!(text.lines().any(|known| known == line), "{line}\nis not in\n{text}");
    }
}

#[test]
fn files_that_stand() {
    assert!(stored("curfew", 0, "").contains("9 uses of 6 input clauses"));
    let season = stored("season", 0, "s3 Lakeside");
    assert!(season.contains("Clause 6 has no literals, but uses rules that are not in force"), "{season}");
    assert!(season.contains("  clause 2, in force from day 20939 (2027-05-01) to day 21122"), "{season}");
    assert!(stored("rulebook", 0, "").contains("The file has no step"));
}

#[test]
fn a_clash_and_an_occurrence_are_shown_with_their_places() {
    let names = Names::none();
    let text = |name: &str| {
        let checked = vectors().iter().find(|checked| checked.name == name).expect(name);
        explain(&checked.model(), &names, None)
    };
    let occurs =
        "At argument 2, the variable v1.2 would become s1(v1.2), in which it occurs itself, at argument 1:";
    assert!(text("D").contains(occurs));
    assert!(text("E").contains("argument 1 has s2 in the one and s3 in the\n  other"));
}

#[test]
fn files_of_both_forms() {
    let names = Names::none();
    let mut refused = 0;
    for formed in forms::files() {
        let mut cells = Cells::new();
        let answer = check_form_into(formed.form, formed.day, &formed.file, &mut cells.lend());
        let model = Model::read(formed.form, &formed.file, &answer, &cells).expect(&formed.name);
        let Verdict::Refused { reason, .. } = answer.verdict else { continue };
        let found = find_fault(&model).map(|fault| fault.reason());
        assert_eq!(found, Some(reason), "{}", formed.name);
        assert!(explain(&model, &names, Some(formed.day)).contains("how to mend it"), "{}", formed.name);
        refused += 1;
    }
    assert!(refused > 50, "{refused} are refused");
}

#[test]
fn random_files() {
    let mut refused = 0;
    for seed in 0..800 {
        let files =
            [random_file(seed), several_file(seed), clashing_several_file(seed), repeating_file(seed)];
        for file in files.into_iter().chain([dated_file(seed).1]) {
            for file in [damage(&file, seed), file] {
                let checked = Checked::new(&Example::new(&format!("random {seed}"), file));
                let model = checked.model();
                let Verdict::Refused { reason, .. } = model.answer().verdict else { continue };
                let found = find_fault(&model).map(|fault| fault.reason());
                assert_eq!(found, Some(reason), "{}", checked.name);
                refused += 1;
            }
        }
    }
    assert!(refused > 2000, "{refused} are refused");
}
