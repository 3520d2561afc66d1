//! Symbols with names.

use yestrwyn_builder::{BuildError, FileBuilder, NameError, RunningBuilder};

#[test]
fn names_are_written_in_order() {
    let mut file = FileBuilder::new();
    let departs = file.named(1, "departs").expect("a symbol");
    let other = file.symbol(2).expect("a symbol");
    file.named(0, "21:40").expect("a symbol");
    assert_eq!(file.names(), "s0 departs\ns2 21:40\n");
    file.name(other, "arrives").expect("a name");
    file.name(departs, "leaves").expect("another name");
    assert_eq!(file.names(), "s0 leaves\ns1 arrives\ns2 21:40\n");
    assert_eq!(file.name(departs, "leaves"), Ok(()));
}

#[test]
fn names_are_no_part_of_the_file() {
    let (mut named, mut plain) = (FileBuilder::new(), FileBuilder::new());
    named.named(1, "departs").expect("a symbol");
    plain.symbol(1).expect("a symbol");
    assert_eq!(named.finish(), plain.finish());
    assert_eq!(FileBuilder::new().names(), "");
}

#[test]
fn what_is_refused_writes_nothing() {
    let mut file = FileBuilder::new();
    let departs = file.named(1, "departs").expect("a symbol");
    let bytes = file.bytes().to_vec();
    assert_eq!(file.named(0, "departs"), Err(BuildError::NameTaken(0)));
    assert_eq!(file.named(0, "s7"), Err(BuildError::Name(NameError::Numbered)));
    assert_eq!(file.named(7, "arrives"), Err(BuildError::Arity(7)));
    assert_eq!(file.name(departs, "two words"), Err(BuildError::Name(NameError::Character(' '))));
    assert_eq!((file.bytes(), file.names().as_str()), (bytes.as_slice(), "s0 departs\n"));
    let other = FileBuilder::new().symbol(0).expect("a symbol");
    assert_eq!(file.name(other, "arrives"), Err(BuildError::Foreign));
    assert_eq!(BuildError::NameTaken(0).to_string(), "the name is that of s0");
}

#[test]
fn a_file_that_was_read_is_named() {
    let mut written = FileBuilder::new();
    written.symbol(1).expect("a symbol");
    let mut file = RunningBuilder::from_bytes(&written.finish()).expect("a file");
    let departs = file.existing_symbol(0).expect("a symbol");
    file.name(departs, "departs").expect("a name");
    file.named(0, "Lakeside").expect("a symbol");
    assert_eq!(file.names(), "s0 departs\ns1 Lakeside\n");
}
