//! Holders: an access token with an AppID or without one. Few are made at a time, so that commands
//! meet records.

use crate::gen_table::near;
use crate::rng::Rng;
use uaf_peer::hash;

pub const MOST_APP_ID: usize = 512;

/// What a holder's commands give.
#[derive(Clone, PartialEq, Eq, Debug)]
pub struct Holder {
    pub token: [u8; 32],
    pub app_id: Option<Vec<u8>>,
}

impl Holder {
    /// The hash of both, by the peer; a missing AppID adds no bytes.
    pub fn mixed(&self) -> [u8; 32] {
        hash(&self.token, self.app_id.as_deref().unwrap_or_default())
    }
}

/// An AppID, now and then so long that token and AppID end about the end of a block.
fn app_id(rng: &mut Rng) -> Vec<u8> {
    let length = match rng.below(4) {
        0 => rng.pick(&[1, 23, 24, 31, 32, 33, 87, 88, 95, 96, 97]),
        1 => rng.length(1, MOST_APP_ID),
        _ => rng.between(1, 40),
    };
    rng.bytes(length)
}

/// A new holder, which shares nothing with another.
pub fn new(rng: &mut Rng) -> Holder {
    let app_id = rng.one_in(2).then(|| app_id(rng));
    Holder {
        token: rng.array(),
        app_id,
    }
}

/// A holder that differs only in its token, or only in its AppID.
pub fn beside(rng: &mut Rng, holder: &Holder) -> Holder {
    let mut other = holder.clone();
    match &mut other.app_id {
        None if rng.one_in(2) => other.app_id = Some(app_id(rng)),
        Some(_) if rng.one_in(4) => other.app_id = None,
        Some(bytes) if rng.one_in(2) => {
            let place = rng.below(bytes.len());
            match rng.below(3) {
                0 if bytes.len() > 1 => drop(bytes.remove(place)),
                1 if bytes.len() < MOST_APP_ID => bytes.insert(place, 0),
                _ => bytes[place] ^= 1 << rng.below(8),
            }
        }
        _ => other.token = near(rng, &holder.token),
    }
    other
}

/// So many different holders.
pub fn holders(rng: &mut Rng, number: usize) -> Vec<Holder> {
    let mut holders: Vec<Holder> = Vec::new();
    while holders.len() < number {
        let next = match holders.last() {
            Some(last) if rng.one_in(2) => beside(rng, last),
            _ => new(rng),
        };
        if !holders.contains(&next) {
            holders.push(next);
        }
    }
    holders
}

/// What nearly is the holder's mixed token: hashes of the same bytes in another order, or of some of
/// them, the hash with one bit changed, and the token itself.
pub fn nearly(holder: &Holder) -> Vec<[u8; 32]> {
    let mut changed = holder.mixed();
    changed[31] ^= 1;
    let mut nearly = vec![changed, holder.token, hash(&holder.token[..31], &[])];
    if let Some(app_id) = &holder.app_id {
        let (first, rest) = app_id.split_at(1);
        nearly.extend([
            hash(app_id, &holder.token),
            hash(&holder.token, &[]),
            hash(&holder.token, rest),
            hash(&[first, &holder.token].concat(), rest),
            hash(app_id, &[]),
        ]);
    }
    nearly.retain(|near| *near != holder.mixed());
    nearly
}
