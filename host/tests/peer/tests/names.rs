//! A username is "well-formed UTF-8 by RFC 3629, still 1 to 128 bytes", wherever one is read. The
//! bytes are those of the RFC: its table (section 3), its grammar (4), its examples (7) and what it
//! warns of (10).

mod common;

use common::*;
use uaf_peer::{command_by_value, load, read_fields, signed_part, store, Lent, Refusal};

/// The first and last letter of each length, and those beside the surrogates.
const LETTERS: [&str; 10] = [
    "00",          // U+0000
    "7F",          // U+007F
    "C2 80",       // U+0080
    "DF BF",       // U+07FF
    "E0 A0 80",    // U+0800
    "ED 9F BF",    // U+D7FF
    "EE 80 80",    // U+E000
    "EF BF BF",    // U+FFFF
    "F0 90 80 80", // U+10000
    "F4 8F BF BF", // U+10FFFF
];

/// Section 7: "A<NOT IDENTICAL TO><ALPHA>.", "hangugeo", "nihongo", and a letter after a BOM.
const EXAMPLES: [&str; 4] = [
    "41 E2 89 A2 CE 91 2E",
    "ED 95 9C EA B5 AD EC 96 B4",
    "E6 97 A5 E6 9C AC E8 AA 9E",
    "EF BB BF F0 A3 8E B4",
];

const BROKEN: [&str; 24] = [
    // Longer than the letter needs: U+0000, "/", U+007F, U+07FF, U+FFFF.
    "C0 80",
    "C0 AF",
    "C1 BF",
    "E0 80 80",
    "E0 9F BF",
    "F0 80 80 80",
    "F0 8F BF BF",
    // Section 10's "/../".
    "2F C0 AE 2E 2F",
    // The surrogates' first and last, and a pair that would be U+233B4.
    "ED A0 80",
    "ED BF BF",
    "ED A1 8C ED BE B4",
    // Past U+10FFFF, and "The octet values C0, C1, F5 to FF never appear."
    "F4 90 80 80",
    "F5 80 80 80",
    "F7 BF BF BF",
    "F8 88 80 80 80",
    "FC 84 80 80 80 80",
    "FE",
    "FF",
    // A tail alone, first and last.
    "80",
    "BF",
    // Cut letters, at the end and before another one.
    "C3",
    "E2 82",
    "F0 9F 98",
    "C3 41",
];

fn register(name: &[u8]) -> Vec<u8> {
    let mut children = mandatory(REGISTER);
    children[2] = tlv(0x2806, name);
    composite(REGISTER, &children)
}

/// Sign's list of Ann and this name.
fn list(name: &[u8]) -> Vec<u8> {
    let pair = |name: &[u8], key_id| composite(0x3802, &[tlv(0x2806, name), handle(key_id)]);
    composite(
        0x3603,
        &[tlv(0x2808, &[0, 0]), pair(b"Ann", 1), pair(name, 2)],
    )
}

/// The table of Ann and this name, whatever it is.
fn table(name: &[u8]) -> Vec<u8> {
    [record(1, OWN, b"Ann", 0), record(2, OWN, name, 0)].concat()
}

/// Register stores the name, a table that holds it is served by either form, and its list is read.
#[track_caller]
fn taken(name: &[u8]) {
    let stored = table(name);
    let (_, left) = gives_draft(&register(name), &lent(), &[]);
    assert_eq!(left, record(0xC0, OWN, name, 0));
    let listed = (Got::Response(list(name)), stored.clone());
    assert_eq!(run(&with(SIGN, &[]), &lent(), &stored), Ok(listed));
    let (value, mut out) = (load(&stored).unwrap(), [0; 6912]);
    assert_eq!(store(&value, &mut out), Ok(stored.len()));
    assert_eq!(out[..stored.len()], stored[..]);
    let read = read_fields(&list(name)).unwrap();
    assert_eq!((read.count, read.fields[3].length), (5, name.len()));
    assert_eq!(signed_part(&list(name)), Ok(0..0));
}

/// A table by value with this name, which no stored form gives.
fn by_value(name: &[u8]) -> uaf_peer::TableValue {
    let mut value = load(&table(b"Bo")).unwrap();
    value.records[1].name[..name.len()].copy_from_slice(name);
    value.records[1].name_length = name.len();
    value
}

/// 0x08 whatever the verdict, 2 of both forms of the table, and 5.
#[track_caller]
fn not_taken(name: &[u8]) {
    for verdict in 0..6 {
        let lent = Lent { verdict, ..lent() };
        gives_status(&register(name), &lent, &[], 0x08);
    }
    let stored = table(name);
    for command in [GETINFO, REGISTER, SIGN, DEREGISTER, OPEN_SETTINGS] {
        let got = run(&with(command, &[]), &lent(), &stored);
        assert_eq!(got, Err(Refusal::Table));
    }
    assert_eq!(load(&stored), Err(Refusal::Table));
    let (mut value, mut out) = (by_value(name), [0; 6912]);
    assert_eq!(store(&value, &mut out), Err(Refusal::Table));
    let got = command_by_value(&with(SIGN, &[]), &lent(), &mut value, &mut out);
    assert_eq!(got, Err(Refusal::Table));
    assert_eq!(read_fields(&list(name)), Err(Refusal::Bytes));
    assert_eq!(signed_part(&list(name)), Err(Refusal::Bytes));
}

#[test]
fn letters() {
    for letter in LETTERS {
        taken(&hex(letter));
    }
    taken(&hex(&LETTERS.join(" ")));
    for example in EXAMPLES {
        taken(&hex(example));
    }
}

#[test]
fn broken() {
    for bytes in BROKEN {
        let bytes = hex(bytes);
        not_taken(&bytes);
        let among: [[&[u8]; 3]; 3] = [
            [b"Jo", &bytes, b""],
            [b"", &bytes, b"se"],
            [b"Jo", &bytes, b"se"],
        ];
        for name in among {
            not_taken(&name.concat());
        }
    }
}

/// 128 bytes count, not letters; and a name cut to them inside a letter is none.
#[test]
fn of_128_bytes() {
    for letter in LETTERS {
        let letter = hex(letter);
        let fill = vec![b'n'; 128 - letter.len()];
        taken(&[&fill[..], &letter].concat());
        taken(&[&letter[..], &fill].concat());
        gives_status(
            &register(&[&fill[..], b"n", &letter].concat()),
            &lent(),
            &[],
            0x08,
        );
        if letter.len() > 1 {
            not_taken(&[&fill[..], b"n", &letter[..letter.len() - 1]].concat());
        }
    }
    taken("é".repeat(64).as_bytes());
    taken("😀".repeat(32).as_bytes());
    gives_status(&register("é".repeat(65).as_bytes()), &lent(), &[], 0x08);
}

/// What stands beyond a name's length by value is no part of it, a letter's tail neither.
#[test]
fn beyond_the_length() {
    let mut value = by_value("José".as_bytes());
    value.records[1].name[5..].fill(0xFF);
    let mut out = [0; 6912];
    let stored = table("José".as_bytes());
    assert_eq!(store(&value, &mut out), Ok(stored.len()));
    assert_eq!(out[..stored.len()], stored[..]);
    value.records[1].name_length = 4;
    assert_eq!(store(&value, &mut out), Err(Refusal::Table));
}

/// One alternative of section 4's UTF8-char: the least and greatest octet in each place.
type Alternative = &'static [(u8, u8)];

const TAIL: (u8, u8) = (0x80, 0xBF);
const GRAMMAR: [Alternative; 9] = [
    &[(0x00, 0x7F)],
    &[(0xC2, 0xDF), TAIL],
    &[(0xE0, 0xE0), (0xA0, 0xBF), TAIL],
    &[(0xE1, 0xEC), TAIL, TAIL],
    &[(0xED, 0xED), (0x80, 0x9F), TAIL],
    &[(0xEE, 0xEF), TAIL, TAIL],
    &[(0xF0, 0xF0), (0x90, 0xBF), TAIL, TAIL],
    &[(0xF1, 0xF3), TAIL, TAIL, TAIL],
    &[(0xF4, 0xF4), (0x80, 0x8F), TAIL, TAIL],
];

/// "UTF8-octets = *( UTF8-char )".
fn is_octets(bytes: &[u8]) -> bool {
    let is_char = |alternative: &Alternative| {
        let length = alternative.len();
        length <= bytes.len()
            && bytes
                .iter()
                .zip(*alternative)
                .all(|(byte, (least, greatest))| (least..=greatest).contains(&byte))
            && is_octets(&bytes[length..])
    };
    bytes.is_empty() || GRAMMAR.iter().any(is_char)
}

/// Every name of one byte, of two, and of more whose later bytes stand at an edge of the grammar.
#[test]
fn grammar() {
    let edges: Vec<u8> = hex("00 7F 80 8F 90 9F A0 BF C0 FF");
    let is_read = |name: &[u8]| read_fields(&list(name)).is_ok();
    let mut letters = 0;
    for first in 0..=255 {
        assert_eq!(is_read(&[first]), is_octets(&[first]));
        for second in 0..=255 {
            let two = [first, second];
            assert_eq!(is_read(&two), is_octets(&two), "{:02X?}", two);
            letters += usize::from(first > 0x7F && is_read(&two));
        }
        for &second in &edges {
            for &third in &edges {
                let three = [first, second, third];
                assert_eq!(is_read(&three), is_octets(&three), "{:02X?}", three);
                for &fourth in &edges {
                    let four = [first, second, third, fourth];
                    assert_eq!(is_read(&four), is_octets(&four), "{:02X?}", four);
                }
            }
        }
    }
    // U+0080 to U+07FF.
    assert_eq!(letters, 0x0780);
}
