//! The SHA-256 of bytes, against the values of FIPS 180-4 and its test vectors.

use yestrwyn_derivations::sha256;

#[test]
fn published_values() {
    for (text, digest) in [
        ("", "e3b0c44298fc1c149afbf4c8996fb92427ae41e4649b934ca495991b7852b855"),
        ("abc", "ba7816bf8f01cfea414140de5dae2223b00361a396177a9cb410ff61f20015ad"),
        (
            "abcdbcdecdefdefgefghfghighijhijkijkljklmklmnlmnomnopnopq",
            "248d6a61d20638b8e5c026930c3e6039a33ce45964ff2167f6ecedd419db06c1",
        ),
        (
            "abcdefghbcdefghicdefghijdefghijkefghijklfghijklmghijklmnhijklmnoijklmnopjklmnopqklmnopqrlmnopqrsmnopqrstnopqrstu",
            "cf5b16a778af8380036ce59e7b0492370b249b11e8f07a51afac45037afee9d1",
        ),
    ] {
        assert_eq!(sha256(text.as_bytes()), digest);
    }
    let million = sha256(&vec![b'a'; 1_000_000]);
    assert_eq!(million, "cdc76e5c9914fb9281a1c7e284d73e67f1809a48a497200e046d39ccc7112cd0");
}

#[test]
fn every_length_around_a_block_is_a_value_of_its_own() {
    let values: std::collections::BTreeSet<String> =
        (0..200).map(|length| sha256(&vec![0; length])).collect();
    assert_eq!(values.len(), 200);
    assert!(values.iter().all(|value| value.len() == 64));
}
