//! SHA-256 of two stretches.

use crate::script::Trace;

/// The messages of the examples that NIST publishes for FIPS 180-4's SHA-256.
const TWO_BLOCKS: &[u8] = b"abcdbcdecdefdefgefghfghighijhijkijkljklmklmnlmnomnopnopq";
const LONGER: &[u8] = b"abcdefghbcdefghicdefghijdefghijkefghijklfghijklmghijklmn\
                        hijklmnoijklmnopjklmnopqklmnopqrlmnopqrsmnopqrstnopqrstu";

pub fn hashes(t: &mut Trace) {
    examples(t);
    lengths(t);
    parted(t);
}

fn examples(t: &mut Trace) {
    t.say("The hash: both stretches empty, then published examples");
    t.hash("hash, nothing", b"", b"");
    let messages = [
        ("of 24 bits", &b"abc"[..]),
        ("of 448 bits", TWO_BLOCKS),
        ("of 896 bits", LONGER),
    ];
    for (what, message) in messages {
        for place in [message.len(), 0, 1, message.len() - 1] {
            let (first, second) = message.split_at(place);
            t.hash(&format!("hash {what}, parted at {place}"), first, second);
        }
    }
    t.hash("hash, nothing, after something", b"", b"");
}

/// Bytes of which no two blocks are equal.
fn message(length: usize) -> Vec<u8> {
    (0..length).map(|i| (i * 7 % 251) as u8).collect()
}

fn lengths(t: &mut Trace) {
    t.say("The hash: lengths about the ends of blocks");
    for length in [
        1, 31, 32, 33, 54, 55, 56, 57, 62, 63, 64, 65, 118, 119, 120, 127, 128, 129, 183, 184, 191,
        192, 193, 511, 512, 513, 544, 8192,
    ] {
        t.hash(&format!("hash of {length}"), &message(length), b"");
    }
    for fill in [0x00, 0x80, 0xFF] {
        t.hash(&format!("hash of 64 times {fill:02X}"), &[fill; 64], b"");
    }
}

/// As a token and an AppID are, and at other places.
fn parted(t: &mut Trace) {
    t.say("The hash: two stretches");
    for (first, second) in [
        (32, 1),
        (32, 23),
        (32, 24),
        (32, 31),
        (32, 32),
        (32, 33),
        (32, 87),
        (32, 88),
        (32, 512),
        (0, 64),
        (1, 63),
        (55, 1),
        (56, 8),
        (63, 1),
        (63, 2),
        (64, 0),
        (64, 1),
        (64, 64),
        (65, 63),
        (100, 28),
        (119, 1),
        (127, 2),
        (512, 32),
    ] {
        let whole = message(first + second);
        let (one, other) = whole.split_at(first);
        t.hash(&format!("hash of {first} and {second}"), one, other);
    }
}
