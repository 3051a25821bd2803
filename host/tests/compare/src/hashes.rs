//! The hash of two stretches.

use crate::check::{fail, Checked, Checker};
use crate::properties;
use crate::rng::Rng;

const BLOCK: usize = 64;

/// A length: short, about the end of a block, of a token and an AppID, or of a content.
fn some_length(rng: &mut Rng) -> usize {
    match rng.below(8) {
        0 => rng.below(4),
        1..=3 => BLOCK * rng.between(1, 10) - 10 + rng.below(13),
        4 | 5 => 32 + rng.length(0, 512),
        6 => rng.below(2000),
        _ => rng.below(9000),
    }
}

fn some_place(rng: &mut Rng, length: usize) -> usize {
    match rng.below(8) {
        0 => 0,
        1 => length,
        2 => length.min(32),
        3 => length.min(BLOCK),
        _ => rng.below(length + 1),
    }
}

/// Some bytes, parted at two places; they stand at any distance from an aligned place.
pub fn parted(rng: &mut Rng, checker: &mut Checker) -> Checked<()> {
    let (length, distance) = (some_length(rng), rng.below(8));
    let bytes = rng.bytes(distance + length);
    let message = &bytes[distance..];
    let (one, other) = (some_place(rng, length), some_place(rng, length));
    let hash = checker.hash(&message[..one], &message[one..])?;
    let again = checker.hash(&message[..other], &message[other..])?;
    checker.counts.add_property(properties::PARTED);
    if hash == again {
        Ok(())
    } else {
        let call = format!("{} bytes parted at {} and at {}", length, one, other);
        fail(properties::PARTED.into(), call)
    }
}
