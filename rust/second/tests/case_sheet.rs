//! The case sheet of the format description, A to K, with tables and works. Case L is in published.rs.

use yestrwyn_vectors::examples::cases::{case_a, case_f, case_g, case_h, case_i, case_j, case_k, examples};
use yestrwyn_vectors::outcome::{outcome, Outcome};
use yestrwyn_vectors::sketch::{app, neg, pos, Sketch};

/// The outcome of a case by its name.
fn case(name: &str) -> Outcome {
    let all = examples();
    let example = all.iter().find(|example| example.name == name).expect("a case of that name");
    outcome(&example.file)
}

fn works(outcome: &Outcome) -> Vec<u32> {
    outcome.works.iter().map(|step| step.work).collect()
}

fn text(outcome: &Outcome) -> &str {
    std::str::from_utf8(&outcome.readout).expect("a readout is ASCII")
}

#[test]
fn a_two_steps_to_the_empty_clause() {
    let a = outcome(&case_a());
    assert_eq!(a.answer.numbers(), [1, 4, 0, 3, 8, 5, 1]);
    let [symbols, rows, clauses, bindings] = a.used();
    assert_eq!(symbols, [0, 1, 2]);
    assert_eq!(rows, [3, 4, 5, 6, 7, 8, 9, 10]);
    assert_eq!(
        clauses,
        [[11, 1, 1, 0, 0], [12, 2, 1, 0, 0], [13, 1, 1, 0, 0], [14, 1, 2, 0, 1], [15, 0, 3, 1, 0],].concat()
    );
    // v0 at index 2, in the right parent, is bound to s2 at index 1.
    assert_eq!(bindings, [2, 2, 0, 1]);
    assert_eq!(works(&a), [3, 3]);
    let expected = "accepted 4\n\
        0 1 +s0(s2)\n\
        1 1 -s0(v0.1) +s0(s1(v0.1))\n\
        2 1 -s0(s1(s2))\n\
        3 2 +s0(s1(s2))\n\
        4 3\n";
    assert_eq!(text(&a), expected);
}

#[test]
fn a_cells_after_the_used_ones_are_zero() {
    let a = outcome(&case_a());
    for (table, used) in a.tables().into_iter().zip(a.used()) {
        assert!(table[used.len()..].iter().all(|&cell| cell == 0));
    }
}

#[test]
fn b_the_empty_file_is_open() {
    let b = outcome(&[]);
    assert_eq!(b.answer.numbers(), [0; 7]);
    assert_eq!(text(&b), "open\n");
}

#[test]
fn c_lengths() {
    assert_eq!(outcome(&[0; 15]).answer.numbers(), [2, 1, 0, 0, 0, 0, 0]);
    // 65,536 zero bytes pass the length test and fail at the first record's kind.
    assert_eq!(outcome(&[0; 65_536]).answer.numbers(), [2, 3, 0, 0, 0, 0, 0]);
    assert_eq!(outcome(&[0; 65_552]).answer.numbers(), [2, 1, 0, 0, 0, 0, 0]);
    assert_eq!(text(&outcome(&[0; 15])), "refused 1 at 0\n");
}

#[test]
fn d_a_variable_inside_its_own_value() {
    let d = case("D");
    assert_eq!(d.answer.numbers(), [2, 11, 11, 4, 5, 2, 0]);
    assert_eq!(works(&d), [6]);
    assert!(d.cells.bindings.iter().all(|&cell| cell == 0), "a refused step leaves no bindings");
    assert_eq!(text(&d), "refused 11 at 11\n0 1 +s0(v0.1,v0.1)\n1 1 -s0(v1.1,s1(v1.1))\n");
}

#[test]
fn e_two_constants() {
    let e = case("E");
    assert_eq!(e.answer.numbers(), [2, 10, 10, 4, 4, 2, 0]);
    assert_eq!(works(&e), [0], "the outlines clash, so there is no first pair");
}

#[test]
fn f_the_right_side_is_followed_before_the_occurrence_test() {
    let f = outcome(&case_f());
    assert_eq!(f.answer.numbers(), [0, 0, 0, 1, 4, 2, 1]);
    assert_eq!(works(&f), [4]);
    assert_eq!(f.used()[3], [0, 1, 1, 1]);
    assert_eq!(text(&f), "open\n0 1 +s0(v0.1,v1.1) +s0(v1.1,v0.1)\n1 1 +s0(v1.1,v1.1)\n");
}

#[test]
fn g_an_input_clause_without_literals() {
    let g = outcome(&case_g(false));
    assert_eq!(g.answer.numbers(), [1, 0, 0, 0, 0, 1, 0]);
    assert_eq!(g.used()[2], [0, 0, 1, 0, 0]);
    assert_eq!(text(&g), "accepted 0\n0 1\n");
    let bad = outcome(&case_g(true));
    assert_eq!(bad.answer.numbers(), [2, 3, 1, 0, 0, 1, 0]);
    assert_eq!(text(&bad), "refused 3 at 1\n0 1\n");
}

#[test]
fn h_literal_0_does_not_exist() {
    assert_eq!(outcome(&case_h()).answer.numbers(), [2, 5, 4, 1, 1, 2, 0]);
}

#[test]
fn i_a_literal_on_a_variable_row() {
    assert_eq!(outcome(&case_i()).answer.numbers(), [2, 7, 1, 0, 1, 0, 0]);
}

#[test]
fn j_one_variable_declared_twice() {
    let j = outcome(&case_j());
    assert_eq!(j.answer.numbers(), [0, 0, 0, 0, 2, 0, 0]);
    assert_eq!(j.used()[1], [0, 0], "both rows have the record of the first");
    assert_eq!(text(&j), "open\n");
}

#[test]
fn k_twelve_doublings_reach_index_4096() {
    let k = outcome(&case_k(12));
    assert_eq!(k.answer.numbers(), [0, 0, 0, 1, 1, 13, 0]);
    let indices: Vec<u16> = k.used()[2].chunks(5).map(|cells| cells[2]).collect();
    assert_eq!(indices, [1, 2, 4, 8, 16, 32, 64, 128, 256, 512, 1024, 2048, 4096]);
    assert_eq!(works(&k), [1; 12]);
    assert!(text(&k).ends_with("12 4096 -s0 +s0\n"));
    assert_eq!(outcome(&case_k(13)).answer.numbers(), [2, 9, 15, 1, 1, 13, 0]);
}

#[test]
fn traps_right_parents_raise_the_answer_again() {
    // +p(a) is derived in a right parent and looked up two right parents further up.
    let mut file = Sketch::new();
    let [p, q, r, a] = [1, 1, 1, 0].map(|arity| file.symbol(arity));
    let x = || yestrwyn_vectors::sketch::var(0);
    let pa = file.clause(&[pos(app(p, [app(a, [])]))]);
    let pq = file.clause(&[neg(app(p, [x()])), pos(app(q, [x()]))]);
    let qr = file.clause(&[pos(app(r, [x()])), neg(app(q, [x()]))]);
    let rr = file.clause(&[neg(app(r, [x()])), pos(app(r, [x()]))]);
    let q_a = file.resolve(pa, 1, pq, 1);
    let r_a = file.resolve(qr, 2, q_a, 1);
    file.resolve(rr, 1, r_a, 1);
    let outcome = outcome(&file.finish());
    assert!(text(&outcome).ends_with("4 2 +s1(s3)\n5 3 +s2(s3)\n6 4 +s2(s3)\n"), "{}", text(&outcome));
}
