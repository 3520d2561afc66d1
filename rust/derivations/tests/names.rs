//! Names of symbols, read from a text.

use yestrwyn_derivations::{Names, NamesFault};
use yestrwyn_types::NameError;

#[test]
fn names_are_read() {
    let names = Names::read("\u{feff}# a trip\r\n\r\n  s0\tdeparts\r\ns4095 21:40# a slot\n").expect("names");
    assert_eq!((names.get(0), names.get(4095), names.get(1)), (Some("departs"), Some("21:40"), None));
    assert_eq!([names.symbol(0), names.symbol(1)], ["departs", "s1"]);
    assert!(!names.is_empty());
}

#[test]
fn no_names() {
    for text in ["", "\n\n", "# nothing\n", "   # nothing"] {
        assert_eq!(Names::read(text), Ok(Names::none()));
    }
    assert!(Names::none().is_empty());
    assert_eq!(Names::none().symbol(65_535), "s65535");
}

#[test]
fn faults_have_their_line() {
    for (text, line, fault) in [
        ("s0 a\n\nx b\n", 3, NamesFault::Symbol("x".into())),
        ("s01 a", 1, NamesFault::Symbol("s01".into())),
        ("s+1 a", 1, NamesFault::Symbol("s+1".into())),
        ("s a", 1, NamesFault::Symbol("s".into())),
        ("s4096 a", 1, NamesFault::Symbol("s4096".into())),
        ("s99999 a", 1, NamesFault::Symbol("s99999".into())),
        ("s7 # departs", 1, NamesFault::NoName(7)),
        ("s7 departs at", 1, NamesFault::Further("at".into())),
        ("s7 a(b", 1, NamesFault::Name("a(b".into(), NameError::Character('('))),
        ("s7 s8", 1, NamesFault::Name("s8".into(), NameError::Numbered)),
        ("s7 a\ns8 b\ns7 c", 3, NamesFault::SymbolTwice { symbol: 7, line: 1 }),
        ("# \ns7 a\ns8 a", 3, NamesFault::NameTwice { name: "a".into(), line: 2 }),
    ] {
        let error = Names::read(text).expect_err(text);
        assert_eq!((error.line, error.fault), (line, fault), "{text}");
    }
}

#[test]
fn faults_in_words() {
    let words = |text| Names::read(text).expect_err(text).to_string();
    assert_eq!(words("s0 a\ns0 b"), "line 2: s0 has a name in line 1 already");
    assert_eq!(words("s0 a\ns1 a"), "line 2: the name a is that of another symbol, in line 1");
    assert_eq!(words("departs s0"), "line 1: \"departs\" is no symbol: s0 to s4095");
    assert_eq!(words("s0 \u{1b}[2J"), "line 1: \"\\u{1b}[2J\" is no name: a name begins with a letter or a digit of ASCII, not with '\\u{1b}'");
}
