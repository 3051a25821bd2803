//! The hash by its C entry: the examples that NIST publishes for FIPS 180-4's SHA-256, whole and in
//! two stretches. Other lengths are held against another library in `host/tests/hash`.

use uaf_token::hash;

const EMPTY: &str = "e3b0c44298fc1c149afbf4c8996fb92427ae41e4649b934ca495991b7852b855";
const ABC: &str = "ba7816bf8f01cfea414140de5dae2223b00361a396177a9cb410ff61f20015ad";
const TWO_BLOCKS: &str = "248d6a61d20638b8e5c026930c3e6039a33ce45964ff2167f6ecedd419db06c1";
const LONGER: &str = "cf5b16a778af8380036ce59e7b0492370b249b11e8f07a51afac45037afee9d1";
const MILLION: &str = "cdc76e5c9914fb9281a1c7e284d73e67f1809a48a497200e046d39ccc7112cd0";

fn hex(bytes: &[u8]) -> String {
    bytes.iter().map(|byte| format!("{:02x}", byte)).collect()
}

/// In one stretch, as the first and as the second, and parted at some places.
fn is_hash(message: &[u8], places: impl IntoIterator<Item = usize>, expected: &str) {
    assert_eq!(hex(&hash(message, &[])), expected);
    assert_eq!(hex(&hash(&[], message)), expected);
    for place in places {
        let (first, second) = message.split_at(place);
        assert_eq!(hex(&hash(first, second)), expected, "parted at {}", place);
    }
}

/// Parted everywhere.
fn is_hash_throughout(message: &[u8], expected: &str) {
    is_hash(message, 0..=message.len(), expected);
}

#[test]
fn nothing() {
    is_hash_throughout(b"", EMPTY);
}

#[test]
fn of_24_bits() {
    is_hash_throughout(b"abc", ABC);
}

#[test]
fn of_448_bits() {
    let message = b"abcdbcdecdefdefgefghfghighijhijkijkljklmklmnlmnomnopnopq";
    is_hash_throughout(message, TWO_BLOCKS);
}

#[test]
fn of_896_bits() {
    let message = b"abcdefghbcdefghicdefghijdefghijkefghijklfghijklmghijklmn\
                    hijklmnoijklmnopjklmnopqklmnopqrlmnopqrsmnopqrstnopqrstu";
    assert_eq!(message.len(), 112);
    is_hash_throughout(message, LONGER);
}

#[test]
fn of_a_million_letters() {
    let message = vec![b'a'; 1_000_000];
    is_hash(&message, [1, 63, 64, 65, 500_000, 999_999], MILLION);
}
