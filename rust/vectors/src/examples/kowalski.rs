//! R. Kowalski, "Logic for Problem Solving". The book's clauses are given in its text; its figures
//! are lost in our copy, so the steps follow what the text says of them.

use super::Example;
use crate::sketch::{app, neg, pos, var, Sketch, Term};

/// Chapters 1, 3 and 7.
pub fn examples() -> Vec<Example> {
    vec![
        Example::new("kowalski-fallible-greek-top-down", fallible_greek(true)),
        Example::new("kowalski-fallible-greek-bottom-up", fallible_greek(false)),
        Example::new("kowalski-three-is-a-number-top-down", three_is_a_number(true)),
        Example::new("kowalski-three-is-a-number-bottom-up", three_is_a_number(false)),
        Example::new("kowalski-middle-out-ancestor", ancestor()),
        Example::new("kowalski-p-and-not-q-top-down", p_and_not_q_top_down()),
        Example::new("kowalski-p-and-not-q-bottom-up", p_and_not_q_bottom_up()),
        Example::new("kowalski-p-or-not-p", p_or_not_p()),
        Example::new("kowalski-two-cases", two_cases()),
        Example::new("kowalski-p-implies-p", p_implies_p()),
        Example::new("kowalski-implication-chain", implication_chain()),
        Example::new("kowalski-barber-paradox", barber()),
        Example::new("kowalski-s1-s2-without-factoring", s1_s2(false)),
        Example::new("kowalski-s1-s2-with-factoring", s1_s2(true)),
    ]
}

/// Chapter 1: some Greek is fallible; the answer is u = Socrates.
fn fallible_greek(top_down: bool) -> Vec<u8> {
    let mut file = Sketch::new();
    let [human, greek, fallible] = [1, 1, 1].map(|arity| file.symbol(arity));
    let [turing, socrates] = [0, 0].map(|arity| app(file.symbol(arity), []));
    file.clause(&[pos(app(human, [turing]))]);
    let g2 = file.clause(&[pos(app(human, [socrates.clone()]))]);
    let g3 = file.clause(&[pos(app(greek, [socrates]))]);
    let g4 = file.clause(&[pos(app(fallible, [var(0)])), neg(app(human, [var(0)]))]);
    let g5 = file.clause(&[neg(app(fallible, [var(1)])), neg(app(greek, [var(1)]))]);
    if top_down {
        let human_and_greek = file.resolve(g5, 1, g4, 1);
        let human_socrates = file.resolve(human_and_greek, 1, g3, 1);
        file.resolve(human_socrates, 1, g2, 1);
    } else {
        let fallible_socrates = file.resolve(g2, 1, g4, 2);
        let not_greek = file.resolve(fallible_socrates, 1, g5, 1);
        file.resolve(g3, 1, not_greek, 1);
    }
    file.finish()
}

/// Chapter 3: Horn clauses with a function symbol, solved from the goal or from the assertion.
fn three_is_a_number(top_down: bool) -> Vec<u8> {
    let mut file = Sketch::new();
    let [numb, s, zero] = [1, 1, 0].map(|arity| file.symbol(arity));
    let next = |t: Term| app(s, [t]);
    let start = file.clause(&[pos(app(numb, [app(zero, [])]))]);
    let rule = file.clause(&[pos(app(numb, [next(var(0))])), neg(app(numb, [var(0)]))]);
    let goal = file.clause(&[neg(app(numb, [next(next(next(app(zero, []))))]))]);
    if top_down {
        let mut left = goal;
        for _ in 0..3 {
            left = file.resolve(left, 1, rule, 1);
        }
        file.resolve(left, 1, start, 1);
    } else {
        let mut known = start;
        for _ in 0..3 {
            known = file.resolve(known, 1, rule, 2);
        }
        file.resolve(known, 1, goal, 1);
    }
    file.finish()
}

/// Chapter 7: the definition of ancestor resolved with a copy of itself.
fn ancestor() -> Vec<u8> {
    let mut file = Sketch::new();
    let a = file.symbol(2);
    let of = |x: u16, y: u16| app(a, [var(x), var(y)]);
    let rule = file.clause(&[pos(of(0, 1)), neg(of(0, 2)), neg(of(2, 1))]);
    file.resolve(rule, 2, rule, 1);
    file.finish()
}

/// The clauses T1 to T14 that define truth for propositions. Clause n is T(n + 1).
struct Truth {
    file: Sketch,
    truth: u16,
    and: u16,
    or: u16,
    implies: u16,
    not: u16,
}

/// Numbers of the clauses that the examples use.
const T1: u16 = 0;
const T2: u16 = 1;
const T3: u16 = 2;
const T4: u16 = 3;
const T5: u16 = 4;
const T6: u16 = 5;
const T7: u16 = 6;
const T8: u16 = 7;
const T9: u16 = 8;
const T13: u16 = 12;
const T14: u16 = 13;

impl Truth {
    /// A file with T1 to T14; in each the conclusions come first, then the conditions.
    fn new() -> Truth {
        let mut file = Sketch::new();
        let [truth, and, or, implies, equivalent, not] = [1, 2, 2, 2, 2, 1].map(|arity| file.symbol(arity));
        let (x, y) = (|| var(0), || var(1));
        let t = |proposition: Term| app(truth, [proposition]);
        let [xy_and, xy_or, xy_if, xy_iff] = [and, or, implies, equivalent].map(|f| app(f, [x(), y()]));
        let yx_if = app(implies, [y(), x()]);
        let clauses = [
            vec![pos(t(xy_and.clone())), neg(t(x())), neg(t(y()))],
            vec![pos(t(x())), neg(t(xy_and.clone()))],
            vec![pos(t(y())), neg(t(xy_and))],
            vec![pos(t(xy_or.clone())), neg(t(x()))],
            vec![pos(t(xy_or.clone())), neg(t(y()))],
            vec![pos(t(x())), pos(t(y())), neg(t(xy_or))],
            vec![pos(t(xy_if.clone())), pos(t(x()))],
            vec![pos(t(xy_if.clone())), neg(t(y()))],
            vec![pos(t(y())), neg(t(x())), neg(t(xy_if.clone()))],
            vec![pos(t(xy_iff.clone())), neg(t(xy_if.clone())), neg(t(yx_if.clone()))],
            vec![pos(t(xy_if)), neg(t(xy_iff.clone()))],
            vec![pos(t(yx_if)), neg(t(xy_iff))],
            vec![pos(t(app(not, [x()]))), pos(t(x()))],
            vec![neg(t(app(not, [x()]))), neg(t(x()))],
        ];
        for clause in &clauses {
            file.clause(clause);
        }
        Truth { file, truth, and, or, implies, not }
    }

    /// A propositional constant.
    fn constant(&mut self) -> Term {
        app(self.file.symbol(0), [])
    }

    /// The atom that a proposition is true.
    fn holds(&self, proposition: &Term) -> Term {
        app(self.truth, [proposition.clone()])
    }
}

/// p & ¬q is true if p is true (A1) and q is not (A2), from the goal down.
fn p_and_not_q_top_down() -> Vec<u8> {
    let mut t = Truth::new();
    let (p, q) = (t.constant(), t.constant());
    let both = app(t.and, [p.clone(), app(t.not, [q.clone()])]);
    let goal = [neg(t.holds(&both))];
    let (a1, a2) = ([pos(t.holds(&p))], [neg(t.holds(&q))]);
    let file = &mut t.file;
    let (goal, a1, a2) = (file.clause(&goal), file.clause(&a1), file.clause(&a2));
    let subgoals = file.resolve(goal, 1, T1, 1);
    let not_q = file.resolve(subgoals, 1, a1, 1);
    let q_holds = file.resolve(not_q, 1, T13, 1);
    file.resolve(q_holds, 1, a2, 1);
    t.file.finish()
}

/// p is true and q is not if p & ¬q is true, from the assumption up; the goal G is two literals.
fn p_and_not_q_bottom_up() -> Vec<u8> {
    let mut t = Truth::new();
    let (p, q) = (t.constant(), t.constant());
    let both = app(t.and, [p.clone(), app(t.not, [q.clone()])]);
    let assumption = [pos(t.holds(&both))];
    let g = [pos(t.holds(&q)), neg(t.holds(&p))];
    let file = &mut t.file;
    let (assumption, g) = (file.clause(&assumption), file.clause(&g));
    let p_holds = file.resolve(assumption, 1, T2, 2);
    let not_q_holds = file.resolve(assumption, 1, T3, 2);
    let q_fails = file.resolve(not_q_holds, 1, T14, 1);
    let q_holds = file.resolve(p_holds, 1, g, 2);
    file.resolve(q_holds, 1, q_fails, 1);
    t.file.finish()
}

/// p ∨ ¬p is true: T4 and T5 reduce it to the two cases of T13.
fn p_or_not_p() -> Vec<u8> {
    let mut t = Truth::new();
    let p = t.constant();
    let either = app(t.or, [p.clone(), app(t.not, [p])]);
    let goal = [neg(t.holds(&either))];
    let file = &mut t.file;
    let goal = file.clause(&goal);
    let p_fails = file.resolve(goal, 1, T4, 1);
    let not_p_fails = file.resolve(goal, 1, T5, 1);
    let p_holds = file.resolve(not_p_fails, 1, T13, 1);
    file.resolve(p_holds, 1, p_fails, 1);
    t.file.finish()
}

/// r is true if p ∨ q is, since r is true if p is and if q is: reasoning by cases with T6.
fn two_cases() -> Vec<u8> {
    let mut t = Truth::new();
    let (p, q, r) = (t.constant(), t.constant(), t.constant());
    let either = app(t.or, [p.clone(), q.clone()]);
    let [p, q, r, either] = [p, q, r, either].map(|proposition| t.holds(&proposition));
    let file = &mut t.file;
    let goal = file.clause(&[neg(r.clone())]);
    let assumption = file.clause(&[pos(either)]);
    let if_p = file.clause(&[pos(r.clone()), neg(p)]);
    let if_q = file.clause(&[pos(r), neg(q)]);
    let cases = file.resolve(assumption, 1, T6, 3);
    let first_case = file.resolve(cases, 1, if_p, 2);
    let second_left = file.resolve(first_case, 2, goal, 1);
    let second_case = file.resolve(second_left, 1, if_q, 2);
    file.resolve(second_case, 1, goal, 1);
    t.file.finish()
}

/// p ⊃ p is true: T7 gives the assertion p, T8 the subgoal p.
fn p_implies_p() -> Vec<u8> {
    let mut t = Truth::new();
    let p = t.constant();
    let implied = app(t.implies, [p.clone(), p]);
    let goal = [neg(t.holds(&implied))];
    let file = &mut t.file;
    let goal = file.clause(&goal);
    let assertion = file.resolve(goal, 1, T7, 1);
    let subgoal = file.resolve(goal, 1, T8, 1);
    file.resolve(assertion, 1, subgoal, 1);
    t.file.finish()
}

/// p ⊃ q is true if p ⊃ r and r ⊃ q are: forward from p, backward from q.
fn implication_chain() -> Vec<u8> {
    let mut t = Truth::new();
    let (p, q, r) = (t.constant(), t.constant(), t.constant());
    let implies = t.implies;
    let [goal, first, second] =
        [(&p, &q), (&p, &r), (&r, &q)].map(|(a, b)| t.holds(&app(implies, [a.clone(), b.clone()])));
    let file = &mut t.file;
    let goal = file.clause(&[neg(goal)]);
    let first = file.clause(&[pos(first)]);
    let second = file.clause(&[pos(second)]);
    let p_holds = file.resolve(goal, 1, T7, 1);
    let q_fails = file.resolve(goal, 1, T8, 1);
    let r_if_p = file.resolve(first, 1, T9, 3);
    let r_holds = file.resolve(p_holds, 1, r_if_p, 2);
    let q_if_r = file.resolve(second, 1, T9, 3);
    let r_fails = file.resolve(q_fails, 1, q_if_r, 1);
    file.resolve(r_holds, 1, r_fails, 1);
    t.file.finish()
}

/// Chapter 7: the barber paradox, which needs factoring.
fn barber() -> Vec<u8> {
    let mut file = Sketch::new();
    let [shave, barber, someone] = [2, 1, 0].map(|arity| file.symbol(arity));
    let xy = app(shave, [var(0), var(1)]);
    let yy = app(shave, [var(1), var(1)]);
    let bx = app(barber, [var(0)]);
    let b1 = file.clause(&[pos(xy.clone()), pos(yy.clone()), neg(bx.clone())]);
    let b2 = file.clause(&[neg(xy), neg(yy), neg(bx)]);
    let b3 = file.clause(&[pos(app(barber, [app(someone, [])]))]);
    let shaves = file.factor(b1, 1, 2);
    let shaves_not = file.factor(b2, 1, 2);
    let positive = file.resolve(shaves, 2, b3, 1);
    let negative = file.resolve(shaves_not, 2, b3, 1);
    file.resolve(positive, 1, negative, 1);
    file.finish()
}

/// Chapter 7: S1 and S2 are inconsistent, but resolution alone gives only clauses of two literals.
fn s1_s2(factoring: bool) -> Vec<u8> {
    let mut file = Sketch::new();
    let s = file.symbol(1);
    let s1 = file.clause(&[pos(app(s, [var(0)])), pos(app(s, [var(1)]))]);
    let s2 = file.clause(&[neg(app(s, [var(2)])), neg(app(s, [var(3)]))]);
    if factoring {
        let left = file.factor(s1, 1, 2);
        let right = file.factor(s2, 1, 2);
        file.resolve(left, 1, right, 1);
    } else {
        let mixed = file.resolve(s1, 1, s2, 1);
        file.resolve(mixed, 2, s1, 1);
        file.resolve(mixed, 1, s2, 1);
    }
    file.finish()
}
