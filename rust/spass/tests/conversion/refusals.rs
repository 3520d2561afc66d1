//! What is not converted, and how it is said.

use crate::running::accepted;
use yestrwyn_builder::{BuildError, Reason};
use yestrwyn_spass::{proof_file, Fault};

/// Why a proof of these lines is not converted.
fn why(lines: &str) -> String {
    let text = format!("Here is a proof with depth 1, length 9 :\n{lines}");
    proof_file(&text).expect_err("an error").to_string()
}

#[test]
fn texts_without_a_proof() {
    for (text, why) in [
        ("", "no proof in this text: have SPASS print it with -DocProof"),
        ("SPASS beiseite: Completion found.\n", "no proof in this text: SPASS says \"Completion found.\""),
        ("SPASS beiseite: Ran out of time.\n", "no proof in this text: SPASS says \"Ran out of time.\""),
        ("SPASS beiseite: Proof found.\n", "no proof in this text: have SPASS print it with -DocProof"),
    ] {
        assert_eq!(proof_file(text).expect_err("an error").to_string(), why);
    }
    assert_eq!(why(""), "the proof has no empty clause");
    assert_eq!(why("1[0:Inp] ||  -> p.\n"), "the proof has no empty clause");
}

#[test]
fn lines_that_are_none_of_a_proof() {
    for (line, what) in [
        ("1", "line 2: [ after the number of a clause is expected"),
        ("1[", "line 2: the level of a clause is expected"),
        ("1[0:]", "line 2: the name of an inference is expected"),
        ("1[0:Inp", "line 2: ] after an inference is expected"),
        ("1[0:Res:a]", "line 2: the number of a parent is expected"),
        ("1[0:Res:1]", "line 2: . after the number of a parent is expected"),
        ("99999999999[0:Inp]", "line 2: the number of a clause is expected"),
        ("1[0:Inp] p", "line 2, step 1 (Inp): a literal or || is expected"),
        ("1[0:Inp] || p", "line 2, step 1 (Inp): a literal or -> is expected"),
        ("1[0:Inp] || -> p", "line 2, step 1 (Inp): a literal or a full stop is expected"),
        ("1[0:Inp] || -> p(. ", "line 2, step 1 (Inp): a term is expected"),
        ("1[0:Inp] || -> p(a. ", "line 2, step 1 (Inp): ) after arguments is expected"),
        ("1[0:Inp] || -> p. q", "line 2, step 1 (Inp): the end of the line is expected"),
        (
            "1[0:Inp] || -> p.\n1[0:Inp] || p -> .",
            "line 3, step 1 (Inp): a clause of this number stands before it",
        ),
        (
            "2[0:Obv:1.0] || p -> .",
            "line 2, step 2 (Obv): clause 1, which it names, does not stand before it",
        ),
        ("1[0:Inp] p(a) || p -> .", "line 2, step 1 (Inp): p has other numbers of arguments before it"),
    ] {
        assert_eq!(why(line), what, "{line}");
    }
}

#[test]
fn equality() {
    let said = "equality, which a proof file knows nothing of";
    assert_eq!(why("1[0:Inp] ||  -> equal(a,b)**."), format!("line 2, step 1 (Inp): {said}"));
    let rewritten = "1[0:Inp] ||  -> p(a).\n2[0:Rew:1.0,1.0] ||  -> p(b).";
    assert_eq!(why(rewritten), format!("line 3, step 2 (Rew): {said}"));
}

#[test]
fn a_constant_that_looks_like_a_variable() {
    let said = "w is a constant, and SPASS prints a variable in the same way: rename the constant";
    assert_eq!(why("1[0:Inp] ||  -> Wolf(w)*."), format!("line 2, step 1 (Inp): {said}"));
    let listed =
        " Precedence: f > p > w\nHere is a proof with depth 1, length 1 :\n1[0:Inp] ||  -> p(u,v,w)*.\n";
    assert_eq!(
        proof_file(listed).expect_err("an error").to_string(),
        format!("line 3, step 1 (Inp): {said}")
    );
}

#[test]
fn an_inference_that_is_none() {
    let proof = "1[0:Inp] ||  -> p(a).\n2[0:Inp] || q(a) -> .\n3[0:Res:1.0,2.0] ||  -> .";
    let said = "no resolution and factoring steps were found that give this clause";
    assert_eq!(why(proof), format!("line 4, step 3 (Res): {said}"));
    let split = "1[0:Inp] ||  -> p(u) q(u).\n2[1:Spt:1.0] ||  -> p(u).";
    let said = "a clause is split in a way that is not converted: run SPASS with -Splits=0 -IORe=1 -IOFc=1";
    assert_eq!(why(split), format!("line 3, step 2 (Spt): {said}"));
}

#[test]
fn limits_of_an_input_clause() {
    assert_eq!(
        why("1[0:Inp] ||  -> ."),
        "line 2, step 1 (Inp): an input clause without literals, which is not converted"
    );
    assert_eq!(
        why("1[0:Inp] || a b c d -> e f g h."),
        "line 2, step 1 (Inp): an input clause of 8 literals, over 7: give some of them a word of their own"
    );
    assert_eq!(why("1[0:Inp] ||  -> p(a,b,c,d,e,f,g)."), "line 2, step 1 (Inp): p has 7 arguments, over 6");
    let deep = format!("1[0:Inp] ||  -> p({}a{}).", "f(".repeat(600), ")".repeat(600));
    assert_eq!(why(&deep), "line 2, step 1 (Inp): a term of more than 500 levels");
    assert_eq!(
        why(&format!("1[0:Inp] ||  -> {}.", wide(65))),
        "line 2, step 1 (Inp): an input clause of 65 variables, over 64"
    );
    let proof =
        format!("1[0:Inp] ||  -> {}.\n2[0:Inp] || {} -> .\n3[0:UnC:1.0,2.0] ||  -> .\n", wide(64), wide(0));
    accepted("64 variables", &format!("Here is a proof with depth 1, length 3 :\n{proof}"));
}

/// A literal with so many variables, the rest constants.
fn wide(variables: usize) -> String {
    let name = |number: usize| match number {
        _ if number >= variables => "c".to_string(),
        0..6 => ["u", "v", "w", "x", "y", "z"][number].to_string(),
        _ => format!("x{}", number - 5),
    };
    let names: Vec<String> = (0..72).map(name).collect();
    let six = |names: &[String]| format!("f({})", names.join(","));
    let twelve: Vec<String> = names.chunks(6).map(six).collect();
    format!("p({},{})", six(&twelve[..6]), six(&twelve[6..]))
}

/// Why a proof as a whole is not converted, if it is not.
fn fault(proof: &str) -> Option<(usize, Fault)> {
    let text = format!("Here is a proof with depth 1, length 9 :\n{proof}");
    proof_file(&text).err().map(|error| (error.line.unwrap_or_default(), error.fault))
}

/// Clauses each of which is used twice by the next, and the refutation of the last.
fn doubled(last: usize) -> String {
    let mut proof = "1[0:Inp] ||  -> t0(u,v).\n".to_string();
    for number in 1..=last {
        let before = number - 1;
        proof += &format!("{}[0:Inp] || t{before}(u,a) t{before}(u,b) -> t{number}(u,v).\n", number + 1);
    }
    proof += &format!("{}[0:Inp] || t{last}(u,v) -> .\n", last + 2);
    for number in 1..=last {
        let before = if number == 1 { 1 } else { last + 1 + number };
        proof +=
            &format!("{}[0:MRR:{}.0,{before}.0] ||  -> t{number}(u,v).\n", last + 2 + number, number + 1);
    }
    proof + &format!("{}[0:UnC:{}.0,{}.0] ||  -> .\n", 2 * last + 3, 2 * last + 2, last + 2)
}

#[test]
fn uses_of_input_clauses() {
    assert_eq!(fault(&doubled(11)), None);
    assert_eq!(fault(&doubled(12)), Some((27, Fault::Uses(8191))));
}

/// A chain of rules without arguments.
fn chain(last: usize) -> String {
    let mut proof = "0[0:Inp] ||  -> p0.\n".to_string();
    proof.extend((1..=last).map(|number| format!("{number}[0:Inp] || p{} -> p{number}.\n", number - 1)));
    proof += &format!("{}[0:Inp] || p{last} -> .\n", last + 1);
    let before = |number: usize| if number == 1 { 0 } else { last + number };
    let step = |number: usize| {
        format!("{}[0:Res:{}.0,{number}.0] ||  -> p{number}.\n", last + 1 + number, before(number))
    };
    proof.extend((1..=last).map(step));
    proof + &format!("{}[0:UnC:{}.0,{}.0] ||  -> .\n", 2 * last + 2, 2 * last + 1, last + 1)
}

#[test]
fn records() {
    assert_eq!(fault(&chain(1022)), None);
    assert_eq!(fault(&chain(1023)), Some((2 * 1023 + 4, Fault::Build(BuildError::Full))));
}

/// A clause that gets five literals longer in each step, each of which is then resolved away.
fn widened(steps: usize) -> String {
    let atoms =
        |step: usize| (0..5).map(|place| format!("a{}", 5 * step + place)).collect::<Vec<_>>().join(" ");
    let mut lines = vec![format!("||  -> {} b0.", atoms(0))];
    lines.extend((1..=steps).map(|step| format!("|| b{} -> {} b{step}.", step - 1, atoms(step))));
    lines.push(format!("|| b{steps} -> ."));
    let all = 5 * (steps + 1);
    lines.extend((0..all).map(|atom| format!("|| a{atom} -> .")));
    let inputs = lines.len();
    let mut proof: Vec<String> =
        lines.iter().enumerate().map(|(number, line)| format!("{number}[0:Inp] {line}")).collect();
    for step in 1..=steps {
        let before = if step == 1 { 0 } else { inputs + step - 1 };
        let literals: Vec<String> = (0..=step).map(atoms).collect();
        proof.push(format!(
            "{}[0:Res:{before}.0,{step}.0] ||  -> {} b{step}.",
            inputs + step,
            literals.join(" ")
        ));
    }
    let mut last = inputs + steps;
    let mut cut = |parent: usize, left: Vec<String>| {
        proof.push(format!("{}[0:MRR:{last}.0,{parent}.0] ||  -> {}.", last + 1, left.join(" ")));
        last += 1;
    };
    let left = |from: usize| (from..all).map(|atom| format!("a{atom}")).collect::<Vec<_>>();
    cut(steps + 1, left(0));
    (0..all).for_each(|atom| cut(steps + 2 + atom, left(atom + 1)));
    proof.into_iter().map(|line| line + "\n").collect()
}

#[test]
fn literals_of_a_clause() {
    // With the last step but one it has 126 literals, with the last 131.
    assert_eq!(fault(&widened(24)), None);
    assert_eq!(
        fault(&widened(25)).map(|(_, fault)| fault),
        Some(Fault::Build(BuildError::Refused(Reason::TooLarge)))
    );
    assert_eq!(
        Fault::Build(BuildError::Refused(Reason::TooLarge)).to_string(),
        "a clause of over 128 literals"
    );
}

/// `g(a,g(b,g(c,..)))`.
fn listed(terms: impl DoubleEndedIterator<Item = String>) -> String {
    terms.rev().fold("nil".to_string(), |rest, term| format!("g({term},{rest})"))
}

/// A clause whose two arguments become equal only with a term of so many levels, each twice as large as the one below it.
fn exploding(levels: usize) -> String {
    let name = |number: usize| {
        ["u", "v", "w", "x", "y", "z"]
            .get(number)
            .map_or_else(|| format!("x{}", number - 5), ToString::to_string)
    };
    let left = listed((0..levels).map(|number| format!("f({},{})", name(number), name(number))));
    let right = listed((1..=levels).map(name));
    format!("1[0:Inp] ||  -> p({left},{right}).\n2[0:Inp] || p(u,u) -> .\n3[0:Res:1.0,2.0] ||  -> .\n")
}

#[test]
fn terms_that_grow_without_end_are_not_written_out() {
    assert_eq!(fault(&exploding(10)), None);
    assert_eq!(fault(&exploding(60)), Some((4, Fault::NotFound)));
}
