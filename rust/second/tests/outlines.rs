//! Outlines: which rows clash, within how many pairs, and which answers they alter.

mod reference;

use std::collections::BTreeMap;

use reference::{Outline, Reference, Row};
use yestrwyn_second::expression::Node;
use yestrwyn_second::outline::Outlines;
use yestrwyn_vectors::examples::{cases, edges, outlines, published, refusals};
use yestrwyn_vectors::outcome::outcome;
use yestrwyn_vectors::several_file;
use yestrwyn_vectors::{
    clashing_file, clashing_several_file, damage, random_file, random_file_of, repeating_file,
};

/// Rows of a test, numbered as they are added.
#[derive(Default)]
struct Rows(Vec<Node>);

impl Rows {
    fn add(&mut self, node: Node) -> u16 {
        self.0.push(node);
        (self.0.len() - 1) as u16
    }

    fn var(&mut self, number: u16) -> u16 {
        self.add(Node::Variable(number))
    }

    fn app(&mut self, symbol: u16, arguments: &[u16]) -> u16 {
        self.add(Node::application(symbol, arguments))
    }

    /// Symbol 9 applied some number of times.
    fn nested(&mut self, times: usize, inner: u16) -> u16 {
        (0..times).fold(inner, |row, _| self.app(9, &[row]))
    }

    /// Do two rows clash, whichever is on the left?
    fn clash(&self, left: u16, right: u16) -> bool {
        let [one, other] =
            [(left, right), (right, left)].map(|(l, r)| Outlines::default().clash(&self.0, l, r));
        assert_eq!(one, other);
        one
    }
}

#[test]
fn different_symbols_clash_and_variables_agree() {
    let mut rows = Rows::default();
    let [a, b] = [0, 1].map(|symbol| rows.app(symbol, &[]));
    let x = rows.var(0);
    let [fa, fb, fx] = [a, b, x].map(|inner| rows.app(3, &[inner]));
    let [gax, gxb, gbb] = [[a, x], [x, b], [b, b]].map(|inner| rows.app(4, &inner));
    assert!(rows.clash(a, b) && rows.clash(fa, fb) && rows.clash(fa, a) && rows.clash(fa, gax));
    assert!(!rows.clash(a, a) && !rows.clash(fa, fx) && !rows.clash(fa, x) && !rows.clash(x, x));
    // At no place do both hold applications that differ, though no value of x makes these equal.
    assert!(!rows.clash(gax, gxb));
    assert!(rows.clash(gax, gbb) && !rows.clash(gxb, gbb));
}

#[test]
fn pair_4096_is_compared_and_pair_4097_is_not() {
    for (nested, found) in [(4092, true), (4093, true), (4094, false), (5000, false)] {
        let mut rows = Rows::default();
        let [a, b] = [0, 1].map(|symbol| rows.app(symbol, &[]));
        let [left, right] = [(0, a), (1, b)].map(|(number, last)| {
            let leaf = rows.var(number);
            let first = rows.nested(nested, leaf);
            rows.app(4, &[first, last])
        });
        // One pair of the tops, so many of nested ones, one of variables below them, and a against b.
        assert_eq!(rows.clash(left, right), found, "{nested} nested");
    }
}

#[test]
fn equal_rows_are_one_pair() {
    let mut rows = Rows::default();
    let [a, b] = [0, 1].map(|symbol| rows.app(symbol, &[]));
    let large = rows.nested(5000, a);
    for (nested, found) in [(4088, true), (4089, true), (4090, false)] {
        let [left, right] = [(0, a), (1, b)].map(|(number, last)| {
            let leaf = rows.var(number);
            let first = rows.nested(nested, leaf);
            rows.app(6, &[large, large, first, large, large, last])
        });
        assert_eq!(rows.clash(left, right), found, "{nested} nested");
    }
}

#[test]
fn first_arguments_come_first_however_deep() {
    let mut rows = Rows::default();
    let [a, b] = [0, 1].map(|symbol| rows.app(symbol, &[]));
    let deep = [a, b].map(|leaf| rows.nested(4000, leaf));
    let long = [0, 1].map(|number| {
        let leaf = rows.var(number);
        rows.nested(5000, leaf)
    });
    let pair = |rows: &mut Rows, [l, r]: [[u16; 2]; 2]| [rows.app(4, &l), rows.app(4, &r)];
    let [left, right] = pair(&mut rows, [[deep[0], long[0]], [deep[1], long[1]]]);
    assert!(rows.clash(left, right));
    let [left, right] = pair(&mut rows, [[long[0], deep[0]], [long[1], deep[1]]]);
    assert!(!rows.clash(left, right), "the comparison ends as a whole");
}

#[test]
fn what_a_comparison_leaves_is_not_seen_by_the_next() {
    let mut rows = Rows::default();
    let [a, b] = [0, 1].map(|symbol| rows.app(symbol, &[]));
    let spent = [0, 1].map(|number| {
        let leaf = rows.var(number);
        (0..60).fold(leaf, |row, _| rows.app(4, &[row, row]))
    });
    let [left, right] = [a, b].map(|first| rows.app(4, &[first, a]));
    let mut outlines = Outlines::default();
    for _ in 0..3 {
        assert!(!outlines.clash(&rows.0, spent[0], spent[1]));
        assert!(!outlines.clash(&rows.0, a, a));
        assert!(outlines.clash(&rows.0, left, right));
        assert!(!outlines.clash(&rows.0, a, a));
    }
}

/// A row of the reference as one of the library.
fn node(row: &Row) -> Node {
    match row {
        Row::Variable(number) => Node::Variable(*number),
        Row::Application(symbol, arguments) => Node::application(*symbol, arguments),
    }
}

/// All pairs of atoms of a file's input clauses: the library and the reference find the same, and what they find
/// is a place.
fn atoms_agree(name: &str, file: &[u8]) {
    let state = Reference::check(file);
    let mut atoms: Vec<u16> =
        (0..state.clauses.len()).flat_map(|clause| state.literals(clause)).map(|(_, (row, _))| row).collect();
    atoms.sort();
    atoms.dedup();
    let nodes: Vec<Node> = (0..state.rows.len() as u16).map(|row| node(&state.taken(row))).collect();
    let mut outlines = Outlines::default();
    for (&left, &right) in atoms.iter().flat_map(|left| atoms.iter().map(move |right| (left, right))) {
        let outline = state.outline(left, right);
        let clash = outlines.clash(&nodes, left, right);
        assert_eq!(clash, outline == Outline::Clash, "rows {left} and {right} of {name}");
        if outline != Outline::Spent {
            assert_eq!(clash, state.clashing_place(left, right), "rows {left} and {right} of {name}");
        }
    }
}

#[test]
fn all_atoms_of_random_files() {
    for seed in 0..1000 {
        atoms_agree(&format!("random {seed}"), &random_file(seed));
        atoms_agree(&format!("clashing {seed}"), &clashing_file(seed));
        atoms_agree(&format!("repeating {seed}"), &repeating_file(seed));
    }
    for seed in 0..20 {
        atoms_agree(&format!("long {seed}"), &random_file_of(seed, 200));
    }
}

/// What is altered by the outlines of a file: the reason that unification alone gives, and the one given now.
fn altered(name: &str, file: &[u8]) -> Option<(u16, u16)> {
    let (with, without) = (Reference::check(file), Reference::check_without_outlines(file));
    assert_eq!(with.tables(), without.tables(), "tables of {name}");
    let [mut now, mut before] = [with.answer(), without.answer()];
    assert_eq!(outcome(file).answer.numbers(), now, "answer of {name}");
    let clash =
        with.refused_atoms(file).iter().any(|&(left, right)| with.outline(left, right) == Outline::Clash);
    let steps = with.works.len() - usize::from(clash);
    assert_eq!(with.works[..steps], without.works[..steps], "works of {name}");
    if clash {
        assert_eq!(with.works[steps..], [(now[2], 0)], "work of {name}");
        assert!(now[1] == 10 && (10..=13).contains(&before[1]), "{name}: {before:?} and {now:?}");
        [now[1], before[1]] = [0, 0];
    }
    assert_eq!(now, before, "{name}");
    Some((without.refusal?.0, with.refusal?.0))
}

#[test]
fn only_11_12_and_13_become_10_in_random_files() {
    for seed in 0..3000 {
        altered(&format!("random {seed}"), &random_file(seed));
        altered(&format!("damaged {seed}"), &damage(&random_file(seed), seed));
        altered(&format!("repeating {seed}"), &repeating_file(seed));
        altered(&format!("several {seed}"), &several_file(seed));
        altered(&format!("clashing several {seed}"), &clashing_several_file(seed));
    }
    for seed in 0..100 {
        altered(&format!("long {seed}"), &random_file_of(seed, 150));
    }
    for example in cases::examples().into_iter().chain(published()).chain(edges::examples()) {
        altered(&example.name, &example.file);
    }
}

#[test]
fn the_clashing_files_have_everything_underneath() {
    let mut counts: BTreeMap<(u16, u16), usize> = BTreeMap::new();
    let mut hidden = 0;
    for seed in 0..2000 {
        let file = clashing_file(seed);
        let Some(reasons) = altered(&format!("clashing {seed}"), &file) else { continue };
        *counts.entry(reasons).or_default() += 1;
        let state = Reference::check(&file);
        let past_the_last = |&(left, right): &(u16, u16)| {
            state.outline(left, right) == Outline::Spent && state.clashing_place(left, right)
        };
        hidden += usize::from(reasons.1 != 10 && state.refused_atoms(&file).iter().any(past_the_last));
    }
    // Enough of each that the comparison means something.
    for (reasons, least) in
        [((11, 10), 200), ((12, 10), 80), ((13, 10), 50), ((11, 11), 150), ((12, 12), 80), ((13, 13), 60)]
    {
        assert!(counts.get(&reasons).is_some_and(|&count| count >= least), "{reasons:?} in {counts:?}");
    }
    assert!(hidden > 100, "{hidden} clashes past the last pair");
}

/// Names begin with the reason; where the outlines clash, `was` and what unification alone gives come next.
#[test]
fn named_refusals_say_what_they_were() {
    let mut was = BTreeMap::new();
    for example in outlines::refusals() {
        let words: Vec<&str> = example.name.split('-').collect();
        let now: u16 = words[0].parse().expect("a reason");
        let before = if words[1] == "was" { words[2].parse().expect("a reason") } else { now };
        assert_eq!(altered(&example.name, &example.file), Some((before, now)), "{}", example.name);
        *was.entry((before, now)).or_insert(0) += 1;
    }
    let all = [(10, 10), (11, 10), (11, 11), (12, 10), (12, 12), (13, 10), (13, 13)];
    assert!(was.keys().copied().eq(all), "{was:?}");
    let renamed = refusals::examples().into_iter().find(|example| example.name == "10-by-outlines-before-11");
    assert_eq!(altered("10-by-outlines-before-11", &renamed.expect("a file").file), Some((11, 10)));
}

/// What the same clash gives one pair further is what unification alone gives in both.
#[test]
fn named_edges_of_4096_pairs() {
    for example in outlines::edges() {
        let name = &example.name;
        let Some(rest) = name.strip_prefix("outline-409") else { continue };
        let state = Reference::check(&example.file);
        let before = match rest.split('-').nth(2) {
            Some("occurs") => 11,
            Some("work") => 12,
            Some("bindings") => 13,
            Some("clash") => 10,
            _ => {
                assert_eq!(state.refusal, None, "{name}");
                continue;
            }
        };
        let now = if rest.starts_with('6') { 10 } else { before };
        assert_eq!(altered(name, &example.file), Some((before, now)), "{name}");
        let [(left, right)] = state.refused_atoms(&example.file)[..] else { panic!("a refused step") };
        let ended = if rest.starts_with('6') { Outline::Clash } else { Outline::Spent };
        assert_eq!(state.outline(left, right), ended, "{name}");
        assert!(state.clashing_place(left, right), "{name}");
    }
}
