//! `yestrwyn from-spass`.

mod common;

use std::fs;

use common::{run, run_with, Folder};

/// A proof as SPASS prints it.
const PROOF: &str = "Here is a proof with depth 1, length 5 :
1[0:Inp] ||  -> night(slot)*.
2[0:Inp] || night(u)* -> closed(lakeside,u)*.
3[0:Inp] || closed(u,slot)* -> .
4[0:Res:1.0,2.0] ||  -> closed(lakeside,slot)*.
5[0:UnC:4.0,3.0] ||  -> .
";

#[test]
fn a_proof_becomes_a_file_with_names() {
    let folder = Folder::new();
    let (proof, file, names) = (folder.write("proof", PROOF), folder.at("file"), folder.at("names"));
    let words = ["from-spass".as_ref(), proof.as_os_str(), "-o".as_ref(), file.as_os_str()];
    let written = run(words.into_iter().chain(["--names".as_ref(), names.as_os_str()]));
    assert_eq!((written.status, written.stderr.as_str()), (0, ""));
    assert!(
        written.stdout.starts_with(&format!("{}: accepted 4: 3 input clauses, ", file.display())),
        "{}",
        written.stdout
    );
    let readout = run(["readout".as_ref(), "--names".as_ref(), names.as_os_str(), file.as_os_str()]);
    assert!(readout.stdout.contains("\n0 1 +night(slot)\n"), "{}", readout.stdout);
    assert_eq!(fs::read_to_string(&names).expect("names"), "s0 slot\ns1 night\ns2 lakeside\ns3 closed\n");
    assert_eq!(folder.names(), ["file", "names", "proof"]);
}

#[test]
fn standard_input_and_output() {
    let folder = Folder::new();
    let mut command = common::command(["from-spass", "-", "-o", "-"]);
    let input = fs::File::open(folder.write("proof", PROOF)).expect("a file");
    let output = command.stdin(input).output().expect("it runs");
    assert_eq!(yestrwyn_second::check(0, &output.stdout).verdict.to_string(), "accepted 4");
}

#[test]
fn what_is_not_converted_is_named() {
    let folder = Folder::new();
    let out = folder.write("out", "as it was");
    let fails = |text: &[u8], line: &str| {
        let run = run_with(["from-spass".as_ref(), "-".as_ref(), "-o".as_ref(), out.as_os_str()], text);
        assert!(run.status == 3 && run.stdout.is_empty(), "{run:?}");
        assert!(run.stderr.starts_with(&format!("yestrwyn: standard input: {line}")), "{}", run.stderr);
        assert_eq!(
            (run.stderr.lines().count(), fs::read(&out).expect("a file").as_slice()),
            (1, &b"as it was"[..])
        );
    };
    fails(b"", "");
    fails(b"\xff", "it is no text in UTF-8");
    let wrong = PROOF.replace(
        "4[0:Res:1.0,2.0] ||  -> closed(lakeside,slot)*.",
        "4[0:Res:1.0,2.0] ||  -> closed(slot,slot)*.",
    );
    fails(wrong.as_bytes(), "line 5");
    run(["from-spass", "missing", "-o", "-"]).fails("missing: there is no such file");
    run(["from-spass", "a"])
        .fails("-o FILE says where to write, or -o - for standard output: see 'yestrwyn help from-spass'");
}
