//! Boards by what their files do: clauses used by one parent or both, once or more, by steps of every kind; several empty
//! clauses; and days.

use super::{all_of, each, Call, Script};
use crate::examples::refutations::{factored, opposites, refuted, several, with_itself};
use crate::examples::{cases, deep};
use crate::sketch::{app, neg, pos, var, Sketch};

/// All of them.
pub fn examples() -> Vec<Script> {
    let mut all = uses();
    all.extend(several_empty());
    all.extend(empty_inputs());
    all.extend(days());
    all.extend(long());
    all
}

/// Which clauses a derivation uses: an unused one, one used twice, one used by both parents, and by a step of every kind.
fn uses() -> Vec<Script> {
    let mut unused = opposites(1);
    let other = unused.clause(&[pos(app(0, [])), pos(app(0, []))]);
    unused.resolve(0, 1, 1, 1);
    vec![
        Script::new("two-parents", 0, refuted(1).finish(), &each(0..2)),
        Script::new("an-unused-clause", 0, unused.finish(), &each([other, 0, other])),
        Script::new("case-a", 0, cases::case_a(), &each(0..3)),
        Script::new("used-twice", 0, used_twice().finish(), &[each(0..3), all_of(&[2, 0, 1])].concat()),
        Script::new("used-by-both-parents", 0, both_parents().finish(), &each(0..4)),
        Script::new("with-itself", 0, with_itself().finish(), &each(0..3)),
        Script::new("factor", 0, factored().finish(), &[each(0..2), all_of(&[1, 0])].concat()),
        Script::new("factor-of-a-factor", 0, factored_twice().finish(), &each([0, 1, 0])),
        Script::new("kind-7", 0, several().finish(), &[each(0..2), all_of(&[0, 1])].concat()),
        Script::new("kind-7-and-a-factor", 0, every_kind().finish(), &each(0..4)),
        Script::new("inputs-between-steps", 0, between().finish(), &[each(0..3), each([4])].concat()),
        Script::new("no-step", 0, opposites(2).finish(), &[each(0..4), all_of(&[3, 1])].concat()),
    ]
}

/// -p -p +q with +p twice, then with -q: +p is used two times.
fn used_twice() -> Sketch {
    let mut file = Sketch::new();
    let [p, q] = [0, 0].map(|arity| app(file.symbol(arity), []));
    let fact = file.clause(&[pos(p.clone())]);
    let rule = file.clause(&[neg(p.clone()), neg(p), pos(q.clone())]);
    let goal = file.clause(&[neg(q)]);
    let once = file.resolve(fact, 1, rule, 1);
    let twice = file.resolve(fact, 1, once, 1);
    file.resolve(twice, 1, goal, 1);
    file
}

/// +p with -p +q and with -p -q, and what comes of them with each other: both parents of the empty clause use +p. Clause 3 is
/// in no derivation.
fn both_parents() -> Sketch {
    let mut file = Sketch::new();
    let [p, q] = [0, 0].map(|arity| app(file.symbol(arity), []));
    let fact = file.clause(&[pos(p.clone())]);
    let one = file.clause(&[neg(p.clone()), pos(q.clone())]);
    let other = file.clause(&[neg(p), neg(q.clone())]);
    file.clause(&[neg(q)]);
    let left = file.resolve(fact, 1, one, 1);
    let right = file.resolve(fact, 1, other, 1);
    file.resolve(left, 1, right, 1);
    file
}

/// +p three times, factored twice and refuted with -p.
fn factored_twice() -> Sketch {
    let mut file = Sketch::new();
    let p = app(file.symbol(0), []);
    let thrice = file.clause(&[pos(p.clone()), pos(p.clone()), pos(p.clone())]);
    let goal = file.clause(&[neg(p)]);
    let twice = file.factor(thrice, 1, 3);
    let once = file.factor(twice, 2, 1);
    file.resolve(once, 1, goal, 1);
    file
}

/// The same two ways beside each other: the factor of clause 1 with clause 0, and a step on both literals; and a step on four
/// literals of clause 3.
fn every_kind() -> Sketch {
    let mut file = several();
    let p = |number| neg(app(0, [var(number)]));
    let single = file.clause(&[pos(app(0, [var(5)]))]);
    let four = file.clause(&[p(0), p(1), p(2), p(3)]);
    let factor = file.factor(1, 1, 2);
    file.resolve(0, 1, factor, 1);
    file.resolve_several(single, 1, four, &[1, 2, 3, 4]);
    file
}

/// Input clauses after the steps that do not use them, and used by later ones.
fn between() -> Sketch {
    let mut file = opposites(1);
    let p = app(0, []);
    let early = file.clause(&[neg(p.clone()), neg(p.clone())]);
    let half = file.resolve(0, 1, early, 1);
    let late = file.clause(&[pos(p)]);
    file.resolve(late, 1, half, 1);
    file.resolve(0, 1, 1, 1);
    file
}

/// Several empty clauses: the lowest goes and a higher one stands, then it comes back; all withdrawn and all returned.
fn several_empty() -> Vec<Script> {
    let all: Vec<u16> = (0..6).collect();
    let backwards: Vec<u16> = (0..6).rev().collect();
    // The second empty clause is made as the first, of the same two clauses; the third of others.
    let mut alike = opposites(2);
    alike.resolve(0, 1, 1, 1);
    alike.resolve(1, 1, 0, 1);
    alike.resolve(2, 1, 3, 1);
    // Two empty clauses with one parent in common.
    let mut common = opposites(1);
    common.clause(&[neg(app(0, []))]);
    common.resolve(0, 1, 1, 1);
    common.resolve(0, 1, 2, 1);
    let lowest =
        [Call::Withdraw(0), Call::Withdraw(3), Call::Return(0), Call::Withdraw(4), Call::Withdraw(1)];
    let back = [Call::Return(3), Call::Return(1), Call::Return(4)];
    vec![
        Script::new("the-lowest-goes-and-comes-back", 0, refuted(2).finish(), &each([0, 1, 2, 3])),
        Script::new("one-after-another", 0, refuted(3).finish(), &[&lowest[..], &back].concat()),
        Script::new("all-withdrawn", 0, refuted(3).finish(), &all_of(&all)),
        Script::new("all-withdrawn-backwards", 0, refuted(3).finish(), &all_of(&backwards)),
        Script::new("two-of-the-same-clauses", 0, alike.finish(), &each([0, 1, 2])),
        Script::new("one-parent-in-common", 0, common.finish(), &[each([1, 2, 0]), all_of(&[1, 2])].concat()),
    ]
}

/// Input clauses without literals, which are empty clauses themselves.
fn empty_inputs() -> Vec<Script> {
    let mut file = Sketch::new();
    for _ in 0..3 {
        file.clause(&[]);
    }
    let mut mixed = refuted(1);
    let empty = mixed.clause(&[]);
    mixed.window(empty, 10, 20);
    let mixed = mixed.finish();
    vec![
        Script::new("empty-input-clauses", 0, file.finish(), &[each(0..3), all_of(&[0, 1, 2])].concat()),
        Script::new(
            "an-empty-input-clause-in-force",
            10,
            mixed.clone(),
            &[each([0, 3]), all_of(&[1, 3])].concat(),
        ),
        Script::new(
            "an-empty-input-clause-out-of-force",
            21,
            mixed,
            &[each([0, 3]), all_of(&[1, 3])].concat(),
        ),
    ]
}

/// Days: clauses that are present and out of force, windows that a later record supersedes, days at the ends of windows.
fn days() -> Vec<Script> {
    let mut one = refuted(2);
    one.window(0, 10, 20);
    let mut superseded = refuted(2);
    superseded.window(0, 10, 20);
    superseded.window(3, 30, 40);
    superseded.window(0, 30, 40);
    superseded.window(3, 10, 35);
    let mut always = refuted(1);
    always.window(1, 5, 5);
    always.window(1, 0, u16::MAX);
    let mut never = refuted(1);
    never.window(0, 1, 9);
    let on = |name: &str, day: u16, file: &Sketch, calls: &[Call]| {
        Script::new(&format!("{name}-on-{day}"), day, file.bytes().to_vec(), calls)
    };
    let both = [each([0, 2]), all_of(&[2, 0])].concat();
    let mut all = Vec::new();
    // The lower empty clause is out of force on days 9 and 21, and nothing that is returned makes it the answer.
    all.extend([9, 10, 20, 21].map(|day| on("present-and-out-of-force", day, &one, &both)));
    all.extend([15, 30, 35, 36, 40, 41].map(|day| on("superseded", day, &superseded, &both)));
    all.extend([0, 5, u16::MAX].map(|day| on("always-again", day, &always, &each(0..2))));
    all.extend(
        [0, u16::MAX].map(|day| on("out-of-force", day, &never, &[each(0..2), all_of(&[0, 1])].concat())),
    );
    all
}

/// Files with many clauses: a chain of steps, and as many clauses as there can be.
fn long() -> Vec<Script> {
    let last = 2u16;
    let chain = deep::derivation(300);
    let mut many = Sketch::new();
    for _ in 0..4096 {
        many.clause(&[]);
    }
    let ends = [each([0, 4095, 4094]), all_of(&[0, 1, 2]), vec![Call::Withdraw(4096)]].concat();
    let mut steps = opposites(1);
    for _ in 0..4091 {
        steps.resolve(0, 1, 1, 1);
    }
    vec![
        Script::new("three-hundred-steps", 0, chain, &each(0..last)),
        Script::new("4096-input-clauses", 7, many.finish(), &ends),
        Script::new("4091-steps", 0, steps.finish(), &[each([0, 1]), each([2, 4092, 4093])].concat()),
    ]
}
