//! Names: some that are well-formed UTF-8 by RFC 3629, and some that are certain not to be.

use crate::rng::Rng;

pub const MOST_NAME: usize = 128;

/// The first and last letter of each length, and those beside the surrogates.
pub const EDGES: [char; 10] = [
    '\0',
    '\u{7F}',
    '\u{80}',
    '\u{7FF}',
    '\u{800}',
    '\u{D7FF}',
    '\u{E000}',
    '\u{FFFF}',
    '\u{10000}',
    '\u{10FFFF}',
];

/// What a name is written in.
#[derive(Clone, Copy)]
enum Script {
    Ascii,
    Latin,
    Cyrillic,
    Chinese,
    Emoji,
    Edges,
    Any,
    Mixed,
}

const ALL: [Script; 8] = [
    Script::Ascii,
    Script::Latin,
    Script::Cyrillic,
    Script::Chinese,
    Script::Emoji,
    Script::Edges,
    Script::Any,
    Script::Mixed,
];

/// One from least to greatest that is no surrogate.
fn between(rng: &mut Rng, least: u32, greatest: u32) -> char {
    loop {
        let number = rng.between(least as usize, greatest as usize) as u32;
        if let Some(letter) = char::from_u32(number) {
            return letter;
        }
    }
}

fn letter(rng: &mut Rng, script: Script) -> char {
    match script {
        Script::Ascii => between(rng, 0x20, 0x7E),
        // Every other letter is accented.
        Script::Latin if rng.one_in(2) => between(rng, 0x61, 0x7A),
        Script::Latin => between(rng, 0xC0, 0x17F),
        Script::Cyrillic => between(rng, 0x410, 0x44F),
        Script::Chinese => between(rng, 0x4E00, 0x9FFF),
        Script::Emoji => between(rng, 0x1F600, 0x1F64F),
        Script::Edges => rng.pick(&EDGES),
        Script::Any => between(rng, 0, 0x0010_FFFF),
        Script::Mixed => {
            let script = rng.pick(&ALL[..7]);
            letter(rng, script)
        }
    }
}

/// A letter of so many bytes, 1 to 4.
fn letter_of(rng: &mut Rng, length: usize) -> char {
    match length {
        1 => between(rng, 0, 0x7F),
        2 => between(rng, 0x80, 0x07FF),
        3 => between(rng, 0x0800, 0xFFFF),
        _ => between(rng, 0x0001_0000, 0x0010_FFFF),
    }
}

/// Well-formed, of exactly so many bytes; the last letter is as long as there is room for, if the
/// next of the script does not fit.
pub fn of_length(rng: &mut Rng, length: usize) -> Vec<u8> {
    let script = rng.pick(&ALL);
    let mut name = String::new();
    while name.len() < length {
        let left = length - name.len();
        let next = letter(rng, script);
        name.push(if next.len_utf8() <= left {
            next
        } else {
            letter_of(rng, left)
        });
    }
    name.into_bytes()
}

/// A name that may stand in a record.
pub fn right(rng: &mut Rng) -> Vec<u8> {
    let length = if rng.percent(60) {
        rng.between(1, 12)
    } else {
        rng.length(1, MOST_NAME)
    };
    of_length(rng, length)
}

/// A letter of more than one byte without its last bytes.
fn cut_letter(rng: &mut Rng) -> Vec<u8> {
    let length = rng.between(2, 4);
    let mut letter = letter_of(rng, length).to_string().into_bytes();
    letter.truncate(rng.between(1, length - 1));
    letter
}

/// A number as so many bytes, 2 to 4, would hold it, whether or not they may.
fn held_by(number: u32, length: usize) -> Vec<u8> {
    let first = [0xC0, 0xE0, 0xF0][length - 2];
    let tail = |place: usize| (number >> (6 * place)) as u8;
    let mut bytes = vec![first | tail(length - 1)];
    bytes.extend((0..length - 1).rev().map(|place| 0x80 | tail(place) & 0x3F));
    bytes
}

/// Bytes that well-formed ones cannot have among them.
fn no_letter(rng: &mut Rng) -> Vec<u8> {
    match rng.below(6) {
        0 => cut_letter(rng),
        // A tail alone.
        1 => vec![rng.between(0x80, 0xBF) as u8],
        // Longer than the letter needs.
        2 => {
            let (length, greatest) = rng.pick(&[(2, 0x7F), (3, 0x07FF), (4, 0xFFFF)]);
            let number = rng.length(0, greatest);
            held_by(number as u32, length)
        }
        // A surrogate.
        3 => held_by(rng.length(0xD800, 0xDFFF) as u32, 3),
        // Past U+10FFFF, as far as four bytes go.
        4 => held_by(rng.length(0x0011_0000, 0x001F_FFFF) as u32, 4),
        _ => vec![rng.pick(&[0xC0, 0xC1, 0xF5, 0xF8, 0xFC, 0xFE, 0xFF])],
    }
}

/// 1 to 128 bytes that are not UTF-8: mostly at one place among letters, and now and then all over.
pub fn broken(rng: &mut Rng) -> Vec<u8> {
    let name = if rng.one_in(8) {
        let length = rng.length(1, MOST_NAME);
        let mut bytes = rng.bytes(length);
        bytes[rng.below(length)] = 0xFF;
        bytes
    } else {
        let wrong = no_letter(rng);
        let room = MOST_NAME - wrong.len();
        let most = rng.pick(&[0, room.min(8), room]);
        let others = rng.length(0, most);
        let before = rng.length(0, others);
        [
            of_length(rng, before),
            wrong,
            of_length(rng, others - before),
        ]
        .concat()
    };
    assert!(!is_right(&name), "{:02X?} is a name", name);
    name
}

/// Whether these bytes may be a name, by the language's own word on it.
pub fn is_right(name: &[u8]) -> bool {
    (1..=MOST_NAME).contains(&name.len()) && core::str::from_utf8(name).is_ok()
}
