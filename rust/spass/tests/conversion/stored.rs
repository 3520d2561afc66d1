//! The stored proofs, converted: the file is accepted, its input clauses are those that SPASS prints, and its names are names.

use std::collections::{BTreeSet, HashMap};

use crate::running::{accepted, spass, spass_is_installed, stored};
use yestrwyn_types::test_name;

/// The names of a text of names, by symbol.
fn names(text: &str) -> HashMap<&str, &str> {
    text.lines().map(|line| line.split_once(' ').expect("a symbol and its name")).collect()
}

/// The lines of a proof in which an inference stands.
fn lines<'a>(text: &'a str, inference: &'a str) -> impl Iterator<Item = &'a str> {
    let proof = text.lines().skip_while(|line| !line.starts_with("Here is a proof")).skip(1);
    proof.filter(move |line| line.contains(&format!(":{inference}")))
}

/// Words of a text, replaced.
fn replaced(text: &str, replace: impl Fn(&str) -> String) -> String {
    let mut words = vec![String::new()];
    for letter in text.chars() {
        let belongs = letter.is_alphanumeric() || letter == '_';
        let last = words.last_mut().expect("a word");
        let continues =
            last.chars().next_back().is_some_and(|last| last.is_alphanumeric() || last == '_') == belongs;
        if continues && belongs {
            last.push(letter);
        } else {
            words.push(letter.to_string());
        }
    }
    words.into_iter().map(|word| replace(&word)).collect()
}

/// An input clause as the second readout prints its literals, from the line that SPASS prints, with its names.
fn printed(line: &str) -> String {
    let (_, clause) = line.split_once(']').expect("a heading");
    let (before, after) = clause.trim_end_matches('.').split_once("->").expect("an arrow");
    let signed = |sign: &'static str, text: &str| -> Vec<String> {
        let atoms = text.split_whitespace().filter(|word| *word != "||");
        atoms.map(|atom| format!("{sign}{}", atom.split(['*', '+']).next().expect("an atom"))).collect()
    };
    let literals = [signed("-", before), signed("+", after)].concat().join(" ");
    let variables = ["u", "v", "w", "x", "y", "z", "x1", "x2"];
    replaced(&literals, |word| match variables.iter().position(|variable| *variable == word) {
        Some(number) => format!("v{number}"),
        None => word.to_string(),
    })
}

#[test]
fn every_stored_proof_is_accepted() {
    let stored = stored();
    assert!(stored.len() >= 15, "{} stored proofs", stored.len());
    for (name, command, text) in &stored {
        assert!(command.starts_with("SPASS -DocProof "), "{name}: {command}");
        let converted = accepted(name, text);
        assert_eq!(converted.file.len(), 16 * converted.summary.records, "{name}");
        assert_eq!(converted.summary.inputs, lines(text, "Inp]").count(), "{name}");
    }
}

#[test]
fn all_inferences_without_equality_are_among_them() {
    let all: String = stored().into_iter().map(|(_, _, text)| text).collect();
    let wanted = "Inp Res Fac MRR UnC Obv Con EmS SoR SSi SHy OHy URR Ter NCh Spt";
    let missing: Vec<&str> = wanted
        .split(' ')
        .filter(|name| !all.contains(&format!("[0:{name}")) && !all.contains(&format!("[1:{name}")))
        .collect();
    assert!(missing.is_empty(), "{missing:?}");
}

#[test]
fn input_clauses_are_those_of_the_proof() {
    for (name, _, text) in stored() {
        let converted = accepted(&name, &text);
        let names = names(&converted.names);
        let readout =
            String::from_utf8(yestrwyn_second::canonical_readout(0, &converted.file)).expect("text");
        let readout = readout
            .lines()
            .skip(1)
            .take(converted.summary.inputs)
            .filter_map(|line| line.split_once(" 1 "))
            .map(|(_, literals)| literals);
        let named = readout.map(|literals| {
            replaced(literals, |word| names.get(word).map_or(word.to_string(), |name| name.to_string()))
        });
        let expected: Vec<String> = lines(&text, "Inp]").map(printed).collect();
        assert_eq!(named.collect::<Vec<_>>(), expected, "{name}");
    }
}

#[test]
fn names_are_names_and_each_symbol_has_one() {
    for (name, _, text) in stored() {
        let converted = accepted(&name, &text);
        let names = names(&converted.names);
        assert!(names.values().all(|name| test_name(name).is_ok()), "{name}");
        assert_eq!(names.values().collect::<BTreeSet<_>>().len(), names.len(), "{name}");
        let symbols = converted.file.chunks(16).filter(|record| record[0] == 1).count();
        assert_eq!(names.len(), symbols, "{name}");
    }
}

#[test]
fn the_text_before_and_after_a_proof_does_not_matter() {
    for (name, _, text) in stored() {
        let proof: String = text
            .lines()
            .skip_while(|line| !line.starts_with("Here is a proof"))
            .map(|line| format!("{line}\r\n"))
            .collect();
        assert_eq!(accepted(&name, &proof), accepted(&name, &text), "{name}");
    }
}

#[test]
fn what_spass_prints_now_is_accepted_too() {
    if !spass_is_installed() {
        return;
    }
    for (name, command, _) in stored() {
        let words: Vec<&str> = command.split_whitespace().skip(1).collect();
        accepted(&name, &spass(&words));
    }
}
