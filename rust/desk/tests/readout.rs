//! `yestrwyn readout`.

mod common;

use common::{example, example_text, run, run_with, Folder};

#[test]
fn the_stored_readouts() {
    for (name, status) in
        [("curfew", 0), ("duty", 0), ("permit", 0), ("sheets", 0), ("rulebook", 1), ("refused", 2)]
    {
        let run = run(["readout", &format!("examples/{name}.proof")]);
        assert_eq!((run.stdout, run.status), (example_text(&format!("{name}.txt")), status), "{name}");
        assert_eq!(run.stderr, "");
    }
    let season = run(["readout", "--day", "2027-07-01", "examples/season.proof"]);
    assert_eq!((season.stdout, season.status), (example_text("season-21000.txt"), 0));
    assert_eq!(run(["readout", "--day=0", "examples/season.proof"]).stdout, example_text("season.txt"));
    run(["readout", "examples/season.proof"]).fails(
        "examples/season.proof: a rule that it uses has days, and the verdict can depend on the day: give --day",
    );
}

#[test]
fn the_canonical_readout() {
    let run = run(["readout", "--canonical", "examples/curfew.proof"]);
    assert_eq!(run.stdout.as_bytes(), yestrwyn_second::canonical_readout(0, &example("curfew.proof")));
    assert!(run.stdout.contains("\n3 1 -s1(v0,v1) -s2(v0,v1)\n"));
}

/// What follows a readout in names.
const MARK: &str = "# Symbols are printed by the names in examples/curfew.names, which are not proved.\n";

#[test]
fn the_readout_in_names() {
    let run = run(["readout", "--names", "examples/curfew.names", "examples/curfew.proof"]);
    let lines: Vec<&str> = run.stdout.lines().collect();
    assert_eq!(
        lines[..3],
        [
            "accepted 11",
            "0 1 +departs(21:40) +departs(22:20)",
            "1 1 -departs(v0.1) +arrives(Lakeside,after(v0.1))"
        ]
    );
    assert!(run.stdout.ends_with(MARK));
    // Named back by number it is the readout.
    let names = example_text("curfew.names");
    let plain = names
        .lines()
        .filter_map(|line| line.split_once(' '))
        .fold(run.stdout.strip_suffix(MARK).expect("the mark").to_string(), |text, (symbol, name)| {
            text.replace(name, symbol)
        });
    assert_eq!(plain, example_text("curfew.txt"));
}

#[test]
fn symbols_without_a_name_keep_their_number() {
    let folder = Folder::new();
    let names = folder.write("names", "s4 after # the flight's time\n\n# the rest has none\n");
    let run = run([
        "readout".as_ref(),
        "--canonical".as_ref(),
        "--names".as_ref(),
        names.as_os_str(),
        "examples/curfew.proof".as_ref(),
    ]);
    assert!(run.stdout.contains("\n1 1 -s0(v0) +s1(s5,after(v0))\n"), "{}", run.stdout);
}

#[test]
fn faults_of_names_have_their_line() {
    let folder = Folder::new();
    for (text, why) in [
        (&b"s0 departs\ns0 arrives\n"[..], "line 2: s0 has a name in line 1 already"),
        (
            b"s0 a(b\n",
            "line 1: \"a(b\" is no name: a name has letters and digits of ASCII and _-.:/, not '('",
        ),
        (b"\n\nx0 a\n", "line 3: \"x0\" is no symbol: s0 to s4095"),
        (b"s0 a\ns1 \xff\n", "line 2: a byte that is not UTF-8"),
    ] {
        let names = folder.write("names", text);
        run(["readout".as_ref(), "--names".as_ref(), names.as_os_str(), "examples/curfew.proof".as_ref()])
            .fails(&format!("{}: {why}", names.display()));
    }
    let long = folder.write("names", vec![b'\n'; (1 << 20) + 1]);
    run(["readout".as_ref(), "--names".as_ref(), long.as_os_str(), "examples/curfew.proof".as_ref()])
        .fails(&format!("{}: it is longer than 1048576 bytes", long.display()));
    run(["readout", "--names", "missing", "examples/curfew.proof"]).fails("missing: there is no such file");
    run(["readout", "--names", "examples", "examples/curfew.proof"])
        .fails("examples: it is a folder, and a file is wanted");
}

#[test]
fn standard_input_and_folders() {
    assert_eq!(run_with(["readout", "-"], &example("curfew.proof")).stdout, example_text("curfew.txt"));
    run_with(["readout", "--names", "-", "-"], b"s0 departs\n")
        .fails("standard input is named twice, and can be read once: see 'yestrwyn help readout'");
    run(["readout", "examples"]).fails("examples: it is a folder, and a file is wanted");
    run(["readout"]).fails("one file is wanted, and 0 words are given: see 'yestrwyn help readout'");
    run(["readout", "a", "b"])
        .fails("one file is wanted, and 2 words are given: see 'yestrwyn help readout'");
}

#[test]
fn long_lines() {
    // A file with the longest lines that there can be comes out whole, whatever room its pieces have.
    for example in yestrwyn_vectors::examples::canonical::examples() {
        let run = run_with(["readout", "--day", "0", "-"], &example.file);
        assert_eq!(run.stdout.as_bytes(), yestrwyn_second::readout(0, &example.file), "{}", example.name);
    }
}
