//! Slow files of any shape stand to their last record, or meet a limit of the format.

use yestrwyn_second::check;
use yestrwyn_types::{Reason, Verdict};
use yestrwyn_vectors::random::SplitMix64;
use yestrwyn_vectors::shapes::{Ending, Shape};

/// As much of everything as fits together.
fn largest(ending: Ending) -> Shape {
    Shape {
        ground: 0,
        linked: 64,
        factors: 4,
        uses: 4069,
        wide: 25,
        occurrences: 64,
        variety: 64,
        work: 16_380,
        ending,
        leaf_left: false,
        worked_first: true,
        unused: 0,
    }
}

#[test]
fn the_largest_shapes_stand() {
    for ending in [Ending::Factor, Ending::Pairs, Ending::Occurrence] {
        for (leaf_left, worked_first) in [(false, false), (false, true), (true, false), (true, true)] {
            for ground in [0, 32, 64] {
                let largest = largest(ending);
                let shape = Shape { leaf_left, worked_first, ground, linked: 64 - ground, ..largest };
                let answer = check(0, &shape.shortened(2));
                assert_eq!(answer.verdict, Verdict::Open, "{shape:?}");
            }
        }
    }
}

#[test]
fn other_shapes_stand_or_meet_a_limit() {
    let mut random = SplitMix64::new(1);
    for _ in 0..60 {
        let shape = Shape::random(&mut random);
        match check(0, &shape.altered(&mut random).shortened(2)).verdict {
            Verdict::Refused { reason: Reason::TooLarge | Reason::Work | Reason::Bindings, .. } => {}
            Verdict::Refused { reason, record } => panic!("{reason} at {record}: {shape:?}"),
            _ => {}
        }
    }
}
