//! SHA-256 "checked against its published vectors". The other hashes here are Python's `hashlib`'s.

mod common;

use common::digest;
use uaf_peer::hash;

/// The hash of the bytes as one stretch, as another, and split between two at each of these places.
#[track_caller]
fn hashes(bytes: &[u8], splits: impl Iterator<Item = usize>, expected: &str) {
    let expected = digest(expected);
    assert_eq!(hash(bytes, &[]), expected);
    assert_eq!(hash(&[], bytes), expected);
    for place in splits {
        let (first, second) = bytes.split_at(place);
        assert_eq!(hash(first, second), expected, "split at {}", place);
    }
}

/// Messages of 24, 448, 896 and 0 bits.
#[test]
fn published() {
    let vectors: [(&str, &str); 4] = [
        (
            "abc",
            "ba7816bf8f01cfea414140de5dae2223b00361a396177a9cb410ff61f20015ad",
        ),
        (
            "abcdbcdecdefdefgefghfghighijhijkijkljklmklmnlmnomnopnopq",
            "248d6a61d20638b8e5c026930c3e6039a33ce45964ff2167f6ecedd419db06c1",
        ),
        (
            "abcdefghbcdefghicdefghijdefghijkefghijklfghijklm\
             ghijklmnhijklmnoijklmnopjklmnopqklmnopqrlmnopqrsmnopqrstnopqrstu",
            "cf5b16a778af8380036ce59e7b0492370b249b11e8f07a51afac45037afee9d1",
        ),
        (
            "",
            "e3b0c44298fc1c149afbf4c8996fb92427ae41e4649b934ca495991b7852b855",
        ),
    ];
    assert_eq!(vectors.map(|(text, _)| text.len() * 8), [24, 448, 896, 0]);
    for (text, expected) in vectors {
        hashes(text.as_bytes(), 0..=text.len(), expected);
    }
}

#[test]
fn a_million_letters() {
    let bytes = vec![b'a'; 1_000_000];
    hashes(
        &bytes,
        [1, 31, 32, 63, 64, 65, 500_000, 999_999].into_iter(),
        "cdc76e5c9914fb9281a1c7e284d73e67f1809a48a497200e046d39ccc7112cd0",
    );
}

/// About the ends of a block and of the room for a message's length, as `sha256sum` tells them too.
#[test]
fn about_a_block() {
    let bytes = [b'a'; 65];
    for (length, expected) in [
        (
            55,
            "9f4390f8d30c2dd92ec9f095b65e2b9ae9b0a925a5258e241c9f1e910f734318",
        ),
        (
            56,
            "b35439a4ac6f0948b6d6f9e3c6af0f5f590ce20f1bde7090ef7970686ec6738a",
        ),
        (
            63,
            "7d3e74a05d7db15bce4ad9ec0658ea98e3f06eeecf16b4c6fff2da457ddc2f34",
        ),
        (
            64,
            "ffe054fe7ae0cb6dc65c3af9b61d5209f439851db43d0ba5997337df154668eb",
        ),
        (
            65,
            "635361c48bb9eab14198e76ea8ab7f1a41685d6ad62aa9146d301d4f17eb0ae0",
        ),
    ] {
        hashes(&bytes[..length], 0..=length, expected);
    }
}

/// Byte n is 167 times n, and one more for each 256 before it.
fn uneven() -> Vec<u8> {
    (0..600).map(|n: usize| (n * 167 + n / 256) as u8).collect()
}

/// Every length below 600: the hashes of all beginnings of these bytes, one after another, have this
/// hash.
#[test]
fn every_length() {
    let bytes = uneven();
    let all: Vec<u8> = (0..600)
        .flat_map(|length| hash(&bytes[..length], &[]))
        .collect();
    hashes(
        &all,
        [1, 32, 64, 9_600, 19_199].into_iter(),
        "ec53e97053b4c7fe7fc23ddf14dc0d70e00b2070db7706347dc0f835295c57c6",
    );
}

/// Where the first stretch ends is not hashed: "token and AppID run together without a mark".
#[test]
fn every_split() {
    let bytes = uneven();
    for length in (0..200).chain([255, 256, 257, 544, 599]) {
        let whole = hash(&bytes[..length], &[]);
        for place in 0..=length {
            assert_eq!(hash(&bytes[..place], &bytes[place..length]), whole);
        }
    }
}
