//! The second readout: by hand, against the first with its variables numbered anew, and what it promises of two clauses.

mod rewriting;

use std::collections::HashMap;

use rewriting::{rewritten, variable_and_rest};
use yestrwyn_second::write_canonical_readout;
use yestrwyn_second::{canonical_readout, check, check_into, readout};
use yestrwyn_types::{Cells, Verdict};
use yestrwyn_vectors::examples::canonical::{examples, IN_A_LINE, IN_A_LITERAL};
use yestrwyn_vectors::examples::{cases, heavy, Example};
use yestrwyn_vectors::random::SplitMix64;
use yestrwyn_vectors::renaming::{other_numbers, other_order};
use yestrwyn_vectors::repeating::rows_at_random;
use yestrwyn_vectors::sketch::{app, neg, pos, var, Sketch};
use yestrwyn_vectors::stored::groups;
use yestrwyn_vectors::{clashing_file, covering_file, damage, dated_file, hiding_file, random_file};
use yestrwyn_vectors::{random_file_of, repeating_file, several_file, several_file_of};

/// The second readout as text.
fn canonical(day: u16, file: &[u8]) -> String {
    String::from_utf8(canonical_readout(day, file)).expect("text")
}

/// The first readout as text.
fn first(day: u16, file: &[u8]) -> String {
    String::from_utf8(readout(day, file)).expect("text")
}

/// The second readout is the first one rewritten.
fn agree(day: u16, name: &str, file: &[u8]) {
    assert!(canonical(day, file) == rewritten(&first(day, file)), "{name} on day {day}");
}

/// The named file of a name.
fn named(name: &str) -> Example {
    examples().into_iter().find(|example| example.name == name).unwrap_or_else(|| panic!("no file {name}"))
}

/// The lines of a named file's second readout.
fn lines(name: &str) -> Vec<String> {
    let Example { day, file, .. } = named(name);
    canonical(day, &file).lines().map(str::to_string).collect()
}

/// The literals of each clause: a line without its two numbers.
fn literals(text: &str) -> Vec<&str> {
    text.lines().skip(1).map(|line| line.splitn(3, ' ').nth(2).unwrap_or("")).collect()
}

#[test]
fn case_a_by_hand() {
    let text = "accepted 4\n0 1 +s0(s2)\n1 1 -s0(v0) +s0(s1(v0))\n2 1 -s0(s1(s2))\n3 2 +s0(s1(s2))\n4 3\n";
    assert_eq!(canonical(0, &cases::case_a()), text);
    assert_eq!(canonical(0, &[]), "open\n");
    assert_eq!(canonical(0, &[0; 15]), "refused 1 at 0\n");
}

#[test]
fn a_rulebook_and_variables_that_stand_twice_by_hand() {
    let planners = [
        "open",
        "0 1 -s2(v0) +s0(v1,s3(v2),v0) -s1(v2,v1) +s1(v0,v2)",
        "1 1 +s2(s3(v0))",
        "2 1 +s1(v0,v0)",
        "3 1 -s1(s3(v0),v1)",
        "4 2 +s0(v0,s3(v1),s3(v2)) -s1(v1,v0) +s1(s3(v2),v1)",
        "5 3 +s0(v0,s3(v0),s3(v1)) +s1(s3(v1),v0)",
        "6 3 +s0(v0,s3(v1),s3(v2)) -s1(v1,v0)",
    ];
    assert_eq!(lines("planner"), planners);
    let twice = [
        "open",
        "0 1 +s0(v0,v1,v2) -s0(v2,v1,v0)",
        "1 1 +s0(v0,v1,v2) -s0(v2,v1,v0)",
        "2 1 +s0(v0,v0,v1) -s0(v1,v0,v0)",
        "3 1 +s0(v0,v0,v1) -s0(v1,v0,v0)",
        "4 1 +s0(v0,v1,v0) -s0(v0,v1,v0)",
        "5 1 +s0(v0,v1,v1) -s0(v1,v1,v0)",
        "6 1 +s0(v0,v1,v1) -s0(v1,v1,v0)",
        "7 1 +s0(v0,v0,v0) -s0(v0,v0,v0)",
    ];
    assert_eq!(lines("one-variable-twice"), twice);
}

#[test]
fn indices_values_and_first_lines_by_hand() {
    let indices = [
        "open",
        "0 1 -s0(v0) +s0(s1(v1)) +s2(v0,v1)",
        "1 2 -s0(v0) +s2(v0,v1) +s0(s1(v2)) +s2(s1(v1),v2)",
        "2 3 -s0(v0) +s2(v0,v1) +s2(s1(v1),v2) +s0(s1(v3)) +s2(s1(v2),v3)",
        "3 3 -s0(v0) +s2(v0,v1) +s2(s1(v1),v2) +s0(s1(v3)) +s2(s1(v2),v3)",
    ];
    assert_eq!(lines("one-number-at-three-indices"), indices);
    let values = [
        "open",
        "0 1 +s0(v0,v1) +s0(v1,v0)",
        "1 1 +s0(v0,v0)",
        "2 1 +s0(v0,v0) +s0(s1(v1),v0) -s0(v2,v0) -s0(v1,v2)",
        "3 1 +s0(s1(v0),s1(v0)) -s0(v1,s1(v0)) -s0(v0,v1)",
    ];
    assert_eq!(lines("a-variable-for-another"), values);
    assert_eq!(
        lines("refused-after-two-lines"),
        ["refused 5 at 8", "0 1 +s0(v0,v1)", "1 1 +s0(v0,v1) -s0(v0,v0)"]
    );
    let dated = ["accepted 2", "0 1 +s0(v0,v1)", "1 1 -s0(s1,v0)", "2 2"];
    assert_eq!(lines("on-a-day-on-21000"), dated);
}

#[test]
fn what_is_hidden_takes_no_number() {
    assert_eq!(lines("hidden-first")[1..], ["0 1 -~ +s0(v0,v1) +s0(v2,v1)", "1 1 +s0(v0,v1) +s0(v2,v1) -~"]);
    assert_eq!(
        lines("hidden-between")[1..],
        ["0 1 +s0(v0,v1) -~ +s0(v0,v2)", "1 1 +s0(v0,v1) -~ +s0(v0,v2)"]
    );
    assert_eq!(lines("hidden-last")[1..], ["0 1 +s0(v0,v1) +s0(v1,v2) -~", "1 1 -~ +s0(v0,v1) +s0(v2,v0)"]);
    assert_eq!(lines("all-hidden")[1..], ["0 1 -~ +~ +~", "1 1 +~ +~ -~"]);
    // Of 64 occurrences all are shown: x and y come first there.
    let shown = &lines("64-occurrences-first")[1];
    assert!(shown.starts_with("0 1 +s0(v0,s") && shown.ends_with(" +s0(v1,v2) +s0(v0,v2)"), "{shown}");
    assert_eq!(shown.matches(['v', 's']).count(), 64 + 3 + 3);
}

#[test]
fn variables_of_a_literal_that_turns_out_to_be_hidden() {
    let lines = lines("hidden-after-52-variables");
    let full = |start: &str| lines.iter().find(|line| line[2..].starts_with(start)).expect("a line").clone();
    // The last variable of the full literal is the first of the short one, and the first is the second.
    let [hidden_short, hidden_full] = [full("1 -~ +s4(v0,v1) -s0(s1(v1,"), full("1 -~ -s0(s1(v0,v1,")];
    assert!(hidden_short.contains("-s0(s1(v1,v2,v3,v4,v5,v6),s1(v7,") && hidden_short.ends_with(",v52,v0))"));
    assert!(hidden_full.ends_with(",v51,v52)) +s4(v52,v0)"), "{hidden_full}");
    let between = full("1 +s4(v0,v1) -~ -s0(s1(v1,v2,");
    assert_eq!(hidden_short[2..].replace("-~ ", ""), between[2..].replace("-~ ", ""));
    // 53 variables from 20 on; from 60 on, 9 to 19 are new.
    assert!(
        lines[7].contains(" -~ ") && lines[7].contains(&format!("v{}", IN_A_LITERAL + 10)),
        "{}",
        lines[7]
    );
    assert!(!lines[7].contains(&format!("v{}", IN_A_LITERAL + 11)), "{}", lines[7]);
}

#[test]
fn one_rulebook_by_several_planners() {
    let plain = named("planner").file;
    let [ours, theirs] = [first(0, &plain), canonical(0, &plain)];
    for name in ["planner-other-variables", "planner-other-rows", "planner-other-indices"] {
        let Example { file, .. } = named(name);
        assert_ne!(literals(&first(0, &file)), literals(&ours), "{name}");
        assert_eq!(canonical(0, &file), theirs, "{name}");
    }
}

#[test]
fn the_largest_numbers() {
    let last = &lines("the-last-variable-at-the-last-index");
    assert_eq!(last.last().expect("a line"), "24 4096 -s0 +s1(v0,v1,v0)");
    let Example { day, file, .. } = named("the-last-variable-at-the-last-index");
    assert!(first(day, &file).ends_with(" 4096 -s0 +s1(v63.4096,v0.4096,v63.4096)\n"));
    let lines = lines("most-variables-of-a-line");
    let most = lines.last().expect("a line");
    assert_eq!((most.matches('+').count(), most.matches('v').count()), (128, usize::from(IN_A_LINE)));
    // Each variable stands once, so they are numbered as they stand.
    let numbers =
        most.split('v').skip(1).map(|part| variable_and_rest(part).0.parse::<usize>().expect("a number"));
    assert!(numbers.eq(0..6784));
    // No line has more: with so many symbols in a literal there are so many variables at most.
    let variables = |symbols: u16| (64 - symbols).min(1 + 5 * symbols);
    assert_eq!((1..=64).map(variables).max(), Some(IN_A_LITERAL));
}

#[test]
fn all_named_and_stored_files_are_the_first_readout_rewritten() {
    let stored = groups().into_iter().flat_map(|group| group.examples);
    for Example { name, day, file } in stored.chain(examples()) {
        agree(day, &name, &file);
    }
}

/// Files of every sort from a seed, each with a day.
fn random_files(seed: u64) -> Vec<(u16, Vec<u8>)> {
    let (day, dated) = dated_file(seed);
    let plain = [random_file, clashing_file, repeating_file, several_file, covering_file, hiding_file];
    let mut files: Vec<(u16, Vec<u8>)> = plain.map(|file| (0, file(seed))).to_vec();
    files.push((day, dated));
    let damaged: Vec<_> = files.iter().map(|(day, file)| (*day, damage(file, seed))).collect();
    files.extend(damaged);
    files
}

#[test]
fn random_files_are_the_first_readout_rewritten() {
    for seed in 0..1000 {
        for (day, file) in random_files(seed) {
            agree(day, &format!("seed {seed}"), &file);
        }
    }
    for seed in 0..100 {
        agree(0, &format!("long, seed {seed}"), &random_file_of(seed, 300));
        agree(0, &format!("long, several, seed {seed}"), &several_file_of(seed, 300));
    }
}

/// Variables under other numbers change no byte; nor do rows in another order and repeated ones, in a file that stands.
#[test]
fn random_files_as_other_planners_write_them() {
    let (mut other, mut standing) = (0, 0);
    for seed in 0..1000 {
        for (day, file) in random_files(seed) {
            let text = canonical(day, &file);
            let renamed = other_numbers(&file, seed);
            assert_eq!(canonical(day, &renamed), text, "seed {seed}");
            other += usize::from(first(day, &renamed) != first(day, &file));
            if !matches!(check(day, &file).verdict, Verdict::Refused { .. }) {
                let ordered = rows_at_random(&other_order(&renamed, seed), seed).file;
                assert_eq!(canonical(day, &ordered), text, "seed {seed}");
                standing += 1;
            }
        }
    }
    assert!(other > 6000 && standing > 4000, "{other} with another first readout, {standing} that stand");
}

/// Does a one-to-one renaming of variables make the literals of one line of the first readout those of another? Both are gone
/// through side by side, and each variable is to have one partner.
fn renamed(one: &str, other: &str) -> bool {
    let (mut there, mut back) = (HashMap::new(), HashMap::new());
    let [mut ours, mut theirs] = [one, other].map(|line| line.split('v'));
    if ours.next() != theirs.next() {
        return false;
    }
    loop {
        let (own, their) = match (ours.next(), theirs.next()) {
            (Some(own), Some(their)) => (variable_and_rest(own), variable_and_rest(their)),
            (own, their) => return own == their,
        };
        let partners = [*there.entry(own.0).or_insert(their.0), *back.entry(their.0).or_insert(own.0)];
        if own.1 != their.1 || partners != [their.0, own.0] {
            return false;
        }
    }
}

/// Clauses that differ in their variables only, of which there are few.
fn one_shape(seed: u64) -> Vec<u8> {
    let (mut file, mut random) = (Sketch::new(), SplitMix64::new(seed));
    let [p, q] = [4, 2].map(|arity| file.symbol(arity));
    for _ in 0..12 {
        let mut any = |_| var(random.below(4) as u16);
        file.clause(&[pos(app(p, [(); 4].map(&mut any))), neg(app(q, [(); 2].map(&mut any)))]);
    }
    file.finish()
}

/// The literals of all clauses of some files that show variables and hide nothing, by both readouts.
fn both_literals(files: &[Vec<u8>]) -> Vec<[String; 2]> {
    let both = |file: &Vec<u8>| {
        let texts = [first(0, file), canonical(0, file)];
        let [plain, canonical] = texts.each_ref().map(|text| literals(text));
        let pairs = plain.into_iter().zip(canonical).map(|(one, other)| [one, other].map(str::to_string));
        pairs.collect::<Vec<_>>()
    };
    let shown = |[plain, _]: &[String; 2]| plain.contains('v') && !plain.contains('~');
    files.iter().flat_map(both).filter(shown).collect()
}

/// Two clauses print the same if and only if they are equal up to a renaming: of one file and of two.
#[test]
fn equal_lines_and_renamings() {
    let (mut other_names, mut in_variables, mut different) = (0, 0, 0);
    for seed in 0..600 {
        let file = random_file(seed);
        let lines = both_literals(&[
            other_numbers(&file, seed),
            file,
            several_file(seed),
            one_shape(seed),
            one_shape(!seed),
        ]);
        for (place, one) in lines.iter().enumerate() {
            for other in &lines[..place] {
                let related = renamed(&one[0], &other[0]);
                assert_eq!(one[1] == other[1], related, "{} and {}", one[0], other[0]);
                other_names += usize::from(related && one[0] != other[0]);
                in_variables += usize::from(!related && shape(&one[0]) == shape(&other[0]));
                different += usize::from(!related);
            }
        }
    }
    let met = format!(
        "{other_names} equal but for names, {different} different, {in_variables} of them in variables only"
    );
    assert!(other_names > 20_000 && in_variables > 100_000, "{met}");
}

/// The literals of a line of the first readout without the names of variables.
fn shape(line: &str) -> String {
    line.split('v').map(|part| variable_and_rest(part).1).collect::<Vec<_>>().join("v")
}

/// What is written line by line is the whole, with the answer and the tables of the check.
#[test]
fn line_by_line() {
    for (day, file) in (0..200).flat_map(random_files) {
        let [mut ours, mut theirs] = [Cells::new(), Cells::new()];
        let mut out = Vec::new();
        let written = write_canonical_readout(day, &file, &mut ours.lend(), &mut out);
        let answer = check_into(day, &file, &mut theirs.lend());
        assert_eq!(written.expect("a vector takes every byte"), answer);
        assert!(out == canonical_readout(day, &file) && ours == theirs, "{file:02x?} on day {day}");
    }
}

/// Of the files made to take long two with many literals and with values of 2 to the 40,000 leaves.
#[test]
fn heavy_files() {
    let names = ["heavy-literals", "heavy-exponential"];
    for Example { name, file, .. } in
        heavy::examples().into_iter().filter(|heavy| names.contains(&&*heavy.name))
    {
        agree(0, &name, &file);
    }
}
