//! The programs `readout` and `canonical` at the edges of what they read: two bytes of day, then a file.

use std::io::Write;
use std::process::{Command, Stdio};

use yestrwyn_second::{canonical_readout, readout};
use yestrwyn_vectors::examples::{canonical, cases, days};

/// The two programs.
const READOUT: &str = env!("CARGO_BIN_EXE_readout");
const CANONICAL: &str = env!("CARGO_BIN_EXE_canonical");

/// What a program prints for some bytes.
fn printed(program: &str, input: &[u8]) -> String {
    let mut program = Command::new(program);
    let mut child = program.stdin(Stdio::piped()).stdout(Stdio::piped()).spawn().expect("it runs");
    // Of an input that is too long it leaves the rest unread.
    let _ = child.stdin.take().expect("an input").write_all(input);
    let output = child.wait_with_output().expect("it ends");
    assert!(output.status.success());
    String::from_utf8(output.stdout).expect("text")
}

/// A day of zero and so many bytes.
fn zeros(length: usize) -> Vec<u8> {
    vec![0; 2 + length]
}

#[test]
fn edges_of_the_input() {
    for program in [READOUT, CANONICAL] {
        let printed = |input: &[u8]| printed(program, input);
        assert_eq!(printed(&[]), "refused 1 at 0\n");
        assert_eq!(printed(&[7]), "refused 1 at 0\n");
        assert_eq!(printed(&[7, 255]), "open\n");
        assert_eq!(printed(&zeros(15)), "refused 1 at 0\n");
        assert_eq!(printed(&zeros(65_536)), "refused 3 at 0\n");
        assert_eq!(printed(&zeros(65_537)), "refused 1 at 0\n");
        assert_eq!(printed(&zeros(200_000)), "refused 1 at 0\n");
    }
}

#[test]
fn files_on_their_days() {
    let stored = cases::examples().into_iter().chain(days::examples()).step_by(7);
    for example in stored.chain(canonical::examples()) {
        let (day, file) = (example.day, &example.file);
        for (program, right) in [(READOUT, readout(day, file)), (CANONICAL, canonical_readout(day, file))] {
            let right = String::from_utf8(right).expect("text");
            assert!(printed(program, &example.input()) == right, "{} by {program}", example.name);
        }
    }
}
