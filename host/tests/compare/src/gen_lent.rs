//! Lent results, right and wrong.

use crate::calls::LentBytes;
use crate::rng::Rng;
use crate::tlv::Kind;

/// A lent result that can be wrong.
#[derive(Clone, Copy, PartialEq, Eq)]
pub enum Item {
    Aaid,
    Metadata,
    Version,
    SignatureAlgorithm,
    KeyAlgorithm,
    Verdict,
    Display,
    KeyId,
    PublicKey,
    Nonce,
}

const ITEMS: [Item; 10] = [
    Item::Aaid,
    Item::Metadata,
    Item::Version,
    Item::SignatureAlgorithm,
    Item::KeyAlgorithm,
    Item::Verdict,
    Item::Display,
    Item::KeyId,
    Item::PublicKey,
    Item::Nonce,
];

/// Document 01's list of what each command uses, as amended.
pub fn uses(kind: Kind, item: Item) -> bool {
    let profile = matches!(
        item,
        Item::Aaid | Item::Metadata | Item::Version | Item::SignatureAlgorithm | Item::KeyAlgorithm
    );
    match kind {
        Kind::GetInfo => profile,
        Kind::Register => profile || matches!(item, Item::Verdict | Item::KeyId | Item::PublicKey),
        Kind::Sign => profile || matches!(item, Item::Verdict | Item::Display | Item::Nonce),
        Kind::Deregister | Kind::OpenSettings => false,
    }
}

/// Right for every command.
pub fn right(rng: &mut Rng, key_id: &[u8; 32]) -> LentBytes {
    let public_key = rng.length(1, 512);
    let nonce = rng.length(8, 32);
    LentBytes {
        aaid: rng.bytes(9),
        version: rng.number16().into(),
        signature_algorithm: rng.number16().into(),
        key_algorithm: rng.number16().into(),
        metadata: rng.bytes(15),
        verdict: if rng.percent(75) {
            0
        } else {
            rng.between(1, 5) as u32
        },
        display: if rng.percent(50) {
            0
        } else {
            rng.between(1, 3) as u32
        },
        key_id: key_id.to_vec(),
        public_key: rng.bytes(public_key),
        nonce: rng.bytes(nonce),
    }
}

/// Over the greatest good number, often with low bits that are good: an entry that took only 8 or 16
/// bits of it would not see that it is wrong.
fn wrong_number(rng: &mut Rng, greatest: u32) -> u32 {
    let good = rng.below(greatest as usize + 1) as u32;
    let number = match rng.below(7) {
        0 => greatest + 1,
        1 => u32::MAX,
        2 => 0x100 | good,
        3 => 0x1_0000 | good,
        4 => 0x8000_0000 | good,
        5 => (rng.next() as u32) << 8 | good,
        _ => rng.next() as u32,
    };
    if number > greatest {
        number
    } else {
        0x1_0000 | number
    }
}

/// The names of a number that is wrong in its low 16 and 8 bits too, that is good in its low 8, and
/// that is good in its low 16.
pub type WrongNames = [&'static str; 3];

const VERDICT: WrongNames = [
    "lent: verdict over 5",
    "lent: verdict over 5, its low 8 bits good",
    "lent: verdict over 5, its low 16 bits good",
];
const DISPLAY: WrongNames = [
    "lent: display result over 3",
    "lent: display result over 3, its low 8 bits good",
    "lent: display result over 3, its low 16 bits good",
];
// Any 16 bits are good here.
const VERSION: WrongNames = ["lent: version over 65,535"; 3];
const SIGNATURE_ALGORITHM: WrongNames = ["lent: signature algorithm over 65,535"; 3];
const KEY_ALGORITHM: WrongNames = ["lent: key algorithm over 65,535"; 3];

pub fn spoil_number(
    rng: &mut Rng,
    number: &mut u32,
    greatest: u32,
    [plain, low_8, low_16]: WrongNames,
) -> &'static str {
    *number = wrong_number(rng, greatest);
    if *number & 0xFFFF <= greatest {
        low_16
    } else if *number & 0xFF <= greatest {
        low_8
    } else {
        plain
    }
}

fn spoil_stretch(
    rng: &mut Rng,
    bytes: &mut Vec<u8>,
    (least, greatest): (usize, usize),
    name: &'static str,
) -> &'static str {
    let length = rng.wrong_length(least, greatest);
    *bytes = rng.bytes(length);
    name
}

/// Makes an item wrong, and says how.
#[rustfmt::skip]
pub fn spoil(rng: &mut Rng, lent: &mut LentBytes, item: Item) -> &'static str {
    match item {
        Item::Aaid => spoil_stretch(rng, &mut lent.aaid, (9, 9), "lent: AAID's length"),
        Item::Metadata => spoil_stretch(rng, &mut lent.metadata, (15, 15), "lent: metadata's length"),
        Item::Version => spoil_number(rng, &mut lent.version, 0xFFFF, VERSION),
        Item::SignatureAlgorithm => spoil_number(rng, &mut lent.signature_algorithm, 0xFFFF, SIGNATURE_ALGORITHM),
        Item::KeyAlgorithm => spoil_number(rng, &mut lent.key_algorithm, 0xFFFF, KEY_ALGORITHM),
        Item::Verdict => spoil_number(rng, &mut lent.verdict, 5, VERDICT),
        Item::Display => spoil_number(rng, &mut lent.display, 3, DISPLAY),
        Item::KeyId => spoil_stretch(rng, &mut lent.key_id, (32, 32), "lent: KeyID's length"),
        Item::PublicKey => spoil_stretch(rng, &mut lent.public_key, (1, 512), "lent: public key's length"),
        Item::Nonce => spoil_stretch(rng, &mut lent.nonce, (8, 32), "lent: nonce's length"),
    }
}

/// Spoils one item that the command uses, if it uses any.
pub fn spoil_used(rng: &mut Rng, lent: &mut LentBytes, kind: Kind) -> Option<&'static str> {
    let used: Vec<Item> = ITEMS.into_iter().filter(|&i| uses(kind, i)).collect();
    if used.is_empty() {
        return None;
    }
    let item = rng.pick(&used);
    Some(spoil(rng, lent, item))
}

/// Spoils some or all of what the command does not use, which must change nothing.
pub fn spoil_unused(rng: &mut Rng, lent: &mut LentBytes, kind: Kind) {
    let all = rng.one_in(4);
    for item in ITEMS {
        if !uses(kind, item) && (all || rng.one_in(2)) {
            spoil(rng, lent, item);
        }
    }
}

/// Whether each item is wrong.
pub fn nothing_right(lent: &LentBytes) -> bool {
    let sizes = [
        (&lent.aaid, 9, 9),
        (&lent.metadata, 15, 15),
        (&lent.key_id, 32, 32),
        (&lent.public_key, 1, 512),
        (&lent.nonce, 8, 32),
    ];
    let numbers = [
        (lent.version, 0xFFFF),
        (lent.signature_algorithm, 0xFFFF),
        (lent.key_algorithm, 0xFFFF),
        (lent.verdict, 5),
        (lent.display, 3),
    ];
    sizes
        .iter()
        .all(|&(bytes, least, greatest)| bytes.len() < least || bytes.len() > greatest)
        && numbers.iter().all(|&(number, greatest)| number > greatest)
}
