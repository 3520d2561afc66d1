//! What a name of a symbol is.

use yestrwyn_types::{test_name, NameError, NAME_CHARACTERS};

#[test]
fn names() {
    for name in [
        "departs",
        "21:40",
        "leg_1",
        "north-route",
        "A/B",
        "s",
        "v",
        "s3x",
        "v0.",
        "v0.1.2",
        "v.1",
        "sv0",
        "0",
    ] {
        assert_eq!(test_name(name), Ok(()), "{name}");
    }
    assert_eq!(test_name(&"a".repeat(NAME_CHARACTERS)), Ok(()));
}

#[test]
fn words_that_are_no_names() {
    for (word, why) in [
        ("", NameError::Empty),
        ("-departs", NameError::Beginning('-')),
        ("+departs", NameError::Beginning('+')),
        ("(", NameError::Beginning('(')),
        ("Zürich", NameError::Character('ü')),
        ("ärgern", NameError::Beginning('ä')),
        ("two words", NameError::Character(' ')),
        ("a,b", NameError::Character(',')),
        ("f(x)", NameError::Character('(')),
        ("a~", NameError::Character('~')),
        ("a\u{202e}b", NameError::Character('\u{202e}')),
        ("s3", NameError::Numbered),
        ("s03", NameError::Numbered),
        ("s99999", NameError::Numbered),
        ("v0", NameError::Numbered),
        ("v0.1", NameError::Numbered),
    ] {
        assert_eq!(test_name(word), Err(why), "{word}");
    }
    assert_eq!(test_name(&"a".repeat(NAME_CHARACTERS + 1)), Err(NameError::Long));
}

#[test]
fn faults_in_words() {
    let words = NameError::Character('\u{7}').to_string();
    assert_eq!(words, "a name has letters and digits of ASCII and _-.:/, not '\\u{7}'");
    assert!(NameError::Numbered.to_string().starts_with("a name is not what"));
}
