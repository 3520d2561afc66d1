//! The two proved readouts give the second implementation's, in pieces of any room.
//!
//! Every test runs in a thread with a larger stack than a test's own 2 MiB: see `yestrwyn::with_stack`.

use std::io::{self, Write};

use yestrwyn::{canonical_readout_piece_here, readout_piece_here, Answer, Cells, Piece, Rest, Tables};
use yestrwyn::{ENOUGH, LENGTHS};
use yestrwyn_comparison::compare::{day_and_file_of, lengths_of, Lengths};
use yestrwyn_comparison::pieces::{Second, READOUTS};
use yestrwyn_vectors::examples::{canonical, cases, heavy, Example};
use yestrwyn_vectors::random::SplitMix64;
use yestrwyn_vectors::stored::groups;
use yestrwyn_vectors::{damage, hiding_file};

/// Runs a test with stack enough for every file.
fn with_stack(test: impl FnOnce() + Send) {
    yestrwyn::with_stack(test).expect("a thread");
}

/// Goes through a file's readouts on day 0 in pieces of any room.
fn same(file: &[u8], lengths: Lengths, seed: u64) {
    same_on(0, file, lengths, seed);
}

/// The same on a day.
fn same_on(day: u16, file: &[u8], lengths: Lengths, seed: u64) {
    for readout in READOUTS {
        let second = Second::new(readout, day, file, lengths, seed as u16);
        let outcome = second.walk(&mut SplitMix64::new(seed));
        assert_eq!(outcome, Ok(()), "seed {seed} on day {day} with {lengths:?} on {file:02x?}");
    }
}

/// All stored files, those for the second readout too.
fn stored() -> Vec<Example> {
    groups().into_iter().flat_map(|group| group.examples).chain(canonical::examples()).collect()
}

#[test]
fn all_stored_vectors_in_pieces() {
    with_stack(|| {
        for (example, seed) in stored().iter().zip(0..) {
            same_on(example.day, &example.file, Lengths::longer(seed as usize % 3), seed);
        }
    });
}

#[test]
fn all_stored_vectors_whole() {
    for example in stored() {
        let Example { name, day, file } = example;
        let text = yestrwyn::readout(day, &file).expect("a thread");
        assert!(text == yestrwyn_second::readout(day, &file), "{name}");
        let text = yestrwyn::canonical_readout(day, &file).expect("a thread");
        assert!(text == yestrwyn_second::canonical_readout(day, &file), "{name}");
    }
}

/// Case A, and files for the second readout with at most 24 records.
#[test]
fn pieces_of_every_length() {
    with_stack(|| {
        let short = canonical::examples().into_iter().filter(|example| example.file.len() <= 24 * 16);
        for Example { name, day, file } in short.chain([Example::new("A", cases::case_a())]) {
            for readout in READOUTS {
                let outcome = Second::new(readout, day, &file, Lengths::longer(0), 7).every();
                assert_eq!(outcome, Ok(()), "{name}");
            }
        }
    });
}

#[test]
fn stored_vectors_damaged() {
    with_stack(|| {
        for (example, seed) in stored().iter().zip(0..) {
            same_on(example.day, &damage(&example.file, seed), Lengths::longer(1), seed);
        }
    });
}

#[test]
fn random_and_damaged_files() {
    with_stack(|| {
        for seed in 0..2000 {
            let (day, file) = day_and_file_of(seed);
            same_on(day, &file, lengths_of(seed), seed);
        }
    });
}

#[test]
fn files_with_hidden_literals() {
    with_stack(|| {
        for seed in 0..400 {
            let file = hiding_file(seed);
            same(&file, lengths_of(seed), seed);
            same(&damage(&file, seed), Lengths::longer(1), seed);
        }
    });
}

#[test]
fn short_tables() {
    with_stack(|| {
        for (short, named) in LENGTHS.into_iter().enumerate() {
            for length in [0, named - 1] {
                let mut lengths = Lengths::longer(3);
                lengths.tables[short] = length;
                same(&cases::case_a(), lengths, length as u64);
                same(&[0; 15], lengths, length as u64);
            }
        }
    });
}

#[test]
fn short_progress_touches_nothing() {
    with_stack(|| {
        for (length, readout) in (0..3).flat_map(|length| READOUTS.map(|readout| (length, readout))) {
            let mut tables = LENGTHS.map(|cells| vec![7; cells]);
            let [symbols, rows, clauses, bindings] = &mut tables;
            let mut lent = Tables { symbols, rows, clauses, bindings };
            let (mut output, mut progress) = (vec![7; 1000], vec![7; length]);
            (readout.proved)(0, &cases::case_a(), &mut lent, 0, &mut output, &mut progress);
            assert!(tables.iter().flatten().all(|&cell| cell == 7));
            assert!(output.iter().all(|&byte| byte == 7));
            assert!(progress.iter().all(|&cell| cell == 7));
        }
    });
}

/// A piece of one of the readouts, by the wrapper.
type PieceOf = fn(u16, &[u8], &mut Tables<'_>, u16, &mut [u8]) -> Piece;

#[test]
fn case_a_by_its_pieces() {
    let text =
        "accepted 4\n0 1 +s0(s2)\n1 1 -s0(v0.1) +s0(s1(v0.1))\n2 1 -s0(s1(s2))\n3 2 +s0(s1(s2))\n4 3\n";
    assert_eq!(yestrwyn::readout(0, &cases::case_a()).expect("a thread"), text.as_bytes());
    by_pieces(text, readout_piece_here);
    let canonical = text.replace("v0.1", "v0");
    let whole = yestrwyn::canonical_readout(0, &cases::case_a()).expect("a thread");
    assert_eq!(whole, canonical.as_bytes());
    by_pieces(&canonical, canonical_readout_piece_here);
}

/// The pieces of case A, whose readout this is.
fn by_pieces(text: &str, piece_of: PieceOf) {
    with_stack(|| {
        let (file, mut cells) = (cases::case_a(), Cells::new());
        let mut piece = |clause, room| {
            let mut output = vec![0; room];
            let piece = piece_of(0, &file, &mut cells.lend(), clause, &mut output);
            (String::from_utf8_lossy(&output[..piece.written]).into_owned(), piece.rest)
        };
        assert_eq!(piece(0, 22), (String::new(), Rest::TooShort(0)));
        assert_eq!(piece(0, 23), (text[..23].to_string(), Rest::GoOn(1)));
        assert_eq!(piece(3, 19), ("3 2 +s0(s1(s2))\n".to_string(), Rest::GoOn(4)));
        assert_eq!(piece(3, 20), ("3 2 +s0(s1(s2))\n4 3\n".to_string(), Rest::Complete));
        assert_eq!(piece(4, 3), (String::new(), Rest::TooShort(4)));
        assert_eq!(piece(5, 0), (String::new(), Rest::Complete));
        assert_eq!(piece(u16::MAX, 9), (String::new(), Rest::Complete));
    });
}

/// FNV-1a with 64 bits, and how many bytes there were.
#[derive(PartialEq, Eq)]
struct Hash {
    value: u64,
    bytes: usize,
}

impl Hash {
    fn new() -> Hash {
        Hash { value: 0xcbf2_9ce4_8422_2325, bytes: 0 }
    }
}

impl Write for Hash {
    fn write(&mut self, bytes: &[u8]) -> io::Result<usize> {
        for &byte in bytes {
            self.value = (self.value ^ u64::from(byte)).wrapping_mul(0x0100_0000_01b3);
        }
        self.bytes += bytes.len();
        Ok(bytes.len())
    }

    fn flush(&mut self) -> io::Result<()> {
        Ok(())
    }
}

/// A readout of the second implementation, handed to a hash.
type Written = fn(u16, &[u8], &mut Tables<'_>, &mut Hash) -> io::Result<Answer>;

/// The hash of a readout by the second implementation, and the tables that it leaves.
fn second_hash(file: &[u8], write: Written) -> (Hash, Cells) {
    let (mut hash, mut cells) = (Hash::new(), Cells::new());
    write(0, file, &mut cells.lend(), &mut hash).expect("a hash takes every byte");
    (hash, cells)
}

/// The same by the proved readout, in pieces of some room.
fn proved_hash(file: &[u8], room: usize, piece_of: PieceOf) -> (Hash, Cells) {
    let (mut hash, mut cells) = (Hash::new(), Cells::new());
    let (mut output, mut clause) = (vec![0; room], 0);
    loop {
        let piece = piece_of(0, file, &mut cells.lend(), clause, &mut output);
        hash.write_all(&output[..piece.written]).expect("a hash takes every byte");
        match piece.rest {
            Rest::Complete => return (hash, cells),
            Rest::GoOn(next) => clause = next,
            Rest::TooShort(clause) => panic!("{room} bytes are too short for clause {clause}"),
        }
    }
}

/// Compares the hashes of a readout on all heavy files, and on one with over 6,000 variables in nearly every line.
fn same_hashes(written: Written, piece_of: PieceOf) {
    with_stack(|| {
        let wide = Example::new("wide-lines", canonical::wide_lines(4000));
        for example in heavy::examples().into_iter().chain([wide]) {
            let second = second_hash(&example.file, written);
            // Every piece checks the file anew: of a long readout some three are taken.
            let room = ENOUGH.max(second.0.bytes / 3);
            assert!(proved_hash(&example.file, room, piece_of) == second, "{}", example.name);
        }
    });
}

#[test]
fn heavy_files_by_their_hashes() {
    same_hashes(yestrwyn_second::write_readout, readout_piece_here);
}

#[test]
fn heavy_files_by_the_hashes_of_the_second_readout() {
    same_hashes(yestrwyn_second::write_canonical_readout, canonical_readout_piece_here);
}
