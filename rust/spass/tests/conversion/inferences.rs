//! Inferences one by one, in proofs written by hand: how many steps each becomes.

use crate::running::accepted;

/// The text of a proof of these lines.
fn text(lines: &str) -> String {
    format!("Here is a proof with depth 1, length 9 :\n{}", lines.trim_start())
}

/// The steps that a proof becomes.
fn steps(lines: &str) -> usize {
    accepted(lines, &text(lines)).summary.steps
}

#[test]
fn resolution_goes_by_the_clause_and_not_by_the_literals_named() {
    // SPASS has put the literals of clause 2 into another order since.
    let proof = "
        1[0:Inp] ||  -> p(a)*.
        2[0:Inp] q(u) || p(u)* -> r(u).
        3[0:Inp] ||  -> q(u).
        4[0:Inp] || r(u) -> .
        5[0:Res:1.0,2.0] q(a) ||  -> r(a)*.
        6[0:MRR:5.0,3.0] ||  -> r(a)*.
        7[0:UnC:6.0,4.0] ||  -> .
    ";
    assert_eq!(steps(proof), 3);
}

#[test]
fn a_factor_and_a_condensed_clause_are_factors() {
    let proof = "
        1[0:Inp] ||  -> p(u,a)* p(b,v)*.
        2[0:Inp] || p(u,v) -> .
        3[0:Fac:1.0,1.1] ||  -> p(b,a)*.
        4[0:UnC:3.0,2.0] ||  -> .
    ";
    assert_eq!(steps(proof), 2);
    assert_eq!(steps(&proof.replace("Fac:1.0,1.1", "Con:1.0")), 2);
}

#[test]
fn a_literal_that_stands_twice_is_factored() {
    let proof = "
        1[0:Inp] || p(u) p(u) -> .
        2[0:Obv:1.0] || p(u) -> .
        3[0:Inp] ||  -> p(a).
        4[0:UnC:2.0,3.0] ||  -> .
    ";
    assert_eq!(steps(proof), 2);
}

#[test]
fn a_replacement_resolves_and_leaves_no_literal_twice() {
    let proof = "
        1[0:Inp] ||  -> p(a)* q(a).
        2[0:Inp] || p(u)* -> q(u).
        3[0:MRR:1.0,2.0] ||  -> q(a)*.
        4[0:Inp] || q(a) -> .
        5[0:UnC:3.0,4.0] ||  -> .
    ";
    assert_eq!(steps(proof), 3);
}

#[test]
fn several_replacements_at_once() {
    let proof = "
        1[0:Inp] || p(u) q(u) -> r(u).
        2[0:Inp] ||  -> p(u).
        3[0:Inp] ||  -> q(a).
        4[0:Inp] || r(u) -> .
        5[0:MRR:1.0,1.1,1.2,2.0,3.0,4.0] ||  -> .
    ";
    assert_eq!(steps(proof), 3);
}

#[test]
fn sorts() {
    let sorts = "
        1[0:Inp] captain(u) ||  -> pilot(u)*.
        2[0:Inp] ||  -> captain(anna)*.
        3[0:Inp] pilot(u) captain(u) || flies(u) -> .
        4[0:Inp] pilot(u) ||  -> flies(v).
    ";
    // Simplified by what captains are, without captains by the one that there is, and resolved by sort.
    let simplified = "5[0:SSi:3.0,1.1] captain(u) || flies(u) -> .\n";
    let emptied = "6[0:EmS:4.0,2.0,1.0] ||  -> flies(u)*.\n";
    let end = "
        7[0:Res:6.0,5.1] captain(u) ||  -> .
        8[0:SoR:7.0,2.0] ||  -> .
    ";
    assert_eq!(steps(&[sorts, simplified, emptied, end].map(str::trim_start).concat()), 6);
}

#[test]
fn hyperresolution() {
    let proof = "
        1[0:Inp] || p(u) q(u,v) r(v) -> s(v).
        2[0:Inp] ||  -> p(a).
        3[0:Inp] ||  -> q(a,b) t.
        4[0:Inp] ||  -> r(b).
        5[0:Inp] || s(u) -> .
        6[0:Inp] || t -> .
        7[0:SHy:1.0,1.1,1.2,2.0,3.0,4.0] ||  -> t s(b).
        8[0:SHy:5.0,6.0,7.0,7.1] ||  -> .
    ";
    assert_eq!(steps(proof), 5);
}

#[test]
fn a_clause_that_says_more_is_taken_and_later_steps_become_fewer() {
    // Clause 4 keeps a literal that its parents do not need: the clause made in its place is that of step 5.
    let proof = "
        1[0:Inp] || p(u) -> q(u).
        2[0:Inp] ||  -> p(a).
        3[0:Inp] || q(a) -> .
        4[0:Res:1.0,2.0] ||  -> q(a) r.
        5[0:UnC:4.0,3.0] ||  -> r.
        6[0:Obv:5.0] ||  -> .
    ";
    assert_eq!(steps(proof), 2);
}

#[test]
fn one_inference_that_meets_a_literal_above_it() {
    // A literal below another meets it, so that a step resolves several right literals.
    let proof = "
        1[0:Inp] ||  -> p(u) p(v).
        2[0:Inp] || p(u) p(v) -> .
        3[0:Ter:1.0,2.0] ||  -> .
    ";
    assert_eq!(steps(proof), 2);
    let proof = "
        1[0:Inp] ||  -> p q.
        2[0:Inp] || p -> q.
        3[0:Inp] || q -> p.
        4[0:Inp] || p q -> .
        5[0:Ter:1.0,2.0,3.0,4.0] ||  -> .
    ";
    assert_eq!(steps(proof), 4);
}

#[test]
fn a_split_of_a_literal_without_variables() {
    let proof = "
        1[0:Inp] ||  -> p(a)* q(u)*.
        2[0:Inp] || p(u) -> r(u).
        3[0:Inp] || r(a) -> .
        4[0:Inp] || q(b) -> p(a).
        5[1:Spt:1.0] ||  -> p(a)*.
        6[1:MRR:2.0,5.0] ||  -> r(a)*.
        7[1:UnC:6.0,3.0] ||  -> .
        8[1:Spt:7.0,1.0,5.0] || p(a)* -> .
        9[1:Spt:7.0,1.1] ||  -> q(u)*.
        10[0:MRR:4.1,8.0] || q(b)* -> .
        11[1:UnC:9.0,10.0] ||  -> .
    ";
    assert_eq!(steps(proof), 4);
}

#[test]
fn a_split_with_variables_leaves_the_other_part_open() {
    let proof = "
        1[0:Inp] ||  -> q(u)* p(v)*.
        2[0:Inp] || p(f(u))* -> r(u).
        3[0:Inp] p(u) r(u) ||  -> .
        4[0:Inp] || q(f(u))* -> r(u).
        5[0:Inp] q(u) r(u) ||  -> .
        10[1:Spt:1.1] ||  -> p(u)*.
        11[1:MRR:3.0,10.0] r(u) ||  -> .
        12[1:MRR:2.0,10.0] ||  -> r(u)*.
        14[1:MRR:11.0,12.0] ||  -> .
        15[1:Spt:14.0,1.0] ||  -> q(u)*.
        16[1:MRR:4.0,15.0] ||  -> r(u)*.
        18[1:MRR:5.0,5.1,15.0,16.0] ||  -> .
    ";
    assert_eq!(steps(proof), 7);
}

#[test]
fn a_split_within_a_split() {
    let proof = "
        1[0:Inp] ||  -> p q.
        2[0:Inp] ||  -> r s.
        3[0:Inp] || p r -> .
        4[0:Inp] || p s -> .
        5[0:Inp] || q r -> .
        6[0:Inp] || q s -> .
        7[1:Spt:1.0] ||  -> p.
        8[1:MRR:3.0,7.0] || r -> .
        9[1:MRR:4.0,7.0] || s -> .
        10[2:Spt:2.0] ||  -> r.
        11[2:UnC:10.0,8.0] ||  -> .
        12[2:Spt:11.0,2.1] ||  -> s.
        13[2:UnC:12.0,9.0] ||  -> .
        14[1:Spt:13.0,1.1] ||  -> q.
        15[1:MRR:5.0,14.0] || r -> .
        16[1:MRR:6.0,14.0] || s -> .
        17[2:Spt:2.0] ||  -> r.
        18[2:UnC:17.0,15.0] ||  -> .
        19[2:Spt:18.0,2.1] ||  -> s.
        20[2:UnC:19.0,16.0] ||  -> .
    ";
    assert_eq!(steps(proof), 8);
}

#[test]
fn marks_after_literals_are_no_symbols() {
    let proof = "
        1[0:Inp] || T(a,b)*l+ -> .
        2[0:Inp] ||  -> T(u,v)*r.
        3[0:UnC:1.0,2.0] ||  -> .
    ";
    let converted = accepted("marks", &text(proof));
    assert_eq!(converted.names, "s0 a\ns1 b\ns2 T\n");
}

#[test]
fn a_name_that_a_readout_would_misread_gets_an_underscore() {
    let proof = "
        1[0:Inp] || s1(v1,s2_,s2) -> .
        2[0:Inp] ||  -> s1(u,v,w).
        3[0:UnC:1.0,2.0] ||  -> .
    ";
    let converted = accepted("names", &text(proof));
    assert_eq!(converted.names, "s0 v1_\ns1 s2_\ns2 s2__\ns3 s1_\n");
}
