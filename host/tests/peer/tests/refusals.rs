//! Refusals 1 to 4 of a command, and their order.

mod common;

use common::*;
use uaf_peer::{command, Lent, Profile, Refusal};

fn refused(bytes: &[u8], lent: &Lent, table: &[u8]) -> Option<Refusal> {
    run(bytes, lent, table).err()
}

#[test]
fn numbers() {
    let numbers = [
        Refusal::Output,
        Refusal::Table,
        Refusal::Command,
        Refusal::Lent,
        Refusal::Bytes,
        Refusal::Field,
        Refusal::Withdrawal,
    ];
    assert_eq!(numbers.map(|refusal| refusal as u32), [1, 2, 3, 4, 5, 6, 7]);
}

#[test]
fn order() {
    let bad_table = [0];
    let bad_lent = Lent {
        nonce: &[],
        ..lent()
    };
    let short = [(4095, 6912), (4096, 6911), (0, 0)];
    for (table, bytes) in [
        (&bad_table[..], &b"xy"[..]),
        (&[], b"xy"),
        (&[], &with(SIGN, &[])),
    ] {
        for sizes in short {
            let got = call(bytes, &bad_lent, table, 0xEE, sizes);
            assert_eq!(got, Err(Refusal::Output));
        }
    }
    for sizes in short {
        let got = call(&with(GETINFO, &[]), &lent(), &[], 0xEE, sizes);
        assert_eq!(got, Err(Refusal::Output));
    }
    assert_eq!(refused(b"xy", &bad_lent, &bad_table), Some(Refusal::Table));
    assert_eq!(refused(b"xy", &bad_lent, &[]), Some(Refusal::Command));
    assert_eq!(
        refused(&with(SIGN, &[]), &bad_lent, &bad_table),
        Some(Refusal::Table)
    );
    assert_eq!(
        refused(&with(SIGN, &[]), &bad_lent, &[]),
        Some(Refusal::Lent)
    );
    // 4 comes before any parsing: the outer tag alone names the command.
    for bytes in ["03 34 FF FF", "03 34 00 00 01", "03 34 01 00 00"] {
        assert_eq!(refused(&hex(bytes), &bad_lent, &[]), Some(Refusal::Lent));
        gives_status(&hex(bytes), &lent(), &[], 0x08);
    }
    assert_eq!(
        refused(&[0x03; 9000], &bad_lent, &[]),
        Some(Refusal::Command)
    );
}

#[test]
fn commands() {
    let known = [GETINFO, REGISTER, SIGN, DEREGISTER, OPEN_SETTINGS];
    let (mut response, mut table) = ([0; 4096], [0; 6912]);
    for tag in 0..=u16::MAX {
        let got = command(&tlv(tag, &[]), &lent(), &[], &mut response, &mut table);
        assert_eq!(got.is_ok(), known.contains(&tag));
        assert!(got.is_ok() || got == Err(Refusal::Command));
    }
    for length in 0..4 {
        let bytes = &tlv(GETINFO, &[])[..length];
        assert_eq!(refused(bytes, &lent(), &[]), Some(Refusal::Command));
    }
}

/// Lent results of a wrong length or number, each with the commands that use it. Deregister and Open
/// settings use none.
#[test]
fn lent_results() {
    let long = [0; 513];
    let good = lent();
    let profile = |aaid, metadata| Lent {
        profile: Profile {
            aaid,
            metadata,
            ..good.profile
        },
        ..good
    };
    let three: &[u16] = &[GETINFO, REGISTER, SIGN];
    let two: &[u16] = &[REGISTER, SIGN];
    let mut wrong: Vec<(Lent, &[u16])> = vec![];
    for length in [0, 8, 10] {
        wrong.push((profile(&long[..length], METADATA), three));
    }
    for length in [0, 14, 16] {
        wrong.push((profile(AAID, &long[..length]), three));
    }
    for verdict in [6, 7, 255, 256, u32::MAX] {
        wrong.push((Lent { verdict, ..good }, two));
    }
    for display in [4, 5, 255, 256, u32::MAX] {
        wrong.push((Lent { display, ..good }, &[SIGN]));
    }
    for length in [0, 31, 33] {
        wrong.push((
            Lent {
                key_id: &long[..length],
                ..good
            },
            &[REGISTER],
        ));
    }
    for length in [0, 513] {
        wrong.push((
            Lent {
                public_key: &long[..length],
                ..good
            },
            &[REGISTER],
        ));
    }
    for length in [0, 7, 33] {
        wrong.push((
            Lent {
                nonce: &long[..length],
                ..good
            },
            &[SIGN],
        ));
    }
    for (lent, users) in &wrong {
        for command in [GETINFO, REGISTER, SIGN, DEREGISTER, OPEN_SETTINGS] {
            let expected = if users.contains(&command) {
                Some(Refusal::Lent)
            } else {
                None
            };
            assert_eq!(refused(&with(command, &[]), lent, &[]), expected);
        }
    }
    // Whatever the verdict says, and with or without content.
    for (lent, users) in wrong.iter().filter(|(lent, _)| lent.verdict < 6) {
        let denied = Lent {
            verdict: 1,
            ..*lent
        };
        for command in [REGISTER, SIGN] {
            let expected = if users.contains(&command) {
                Some(Refusal::Lent)
            } else {
                None
            };
            assert_eq!(refused(&with(command, &[]), &denied, &[]), expected);
        }
    }
}

/// A lent number: its name, its last good value, the commands that use it, and how it is lent.
type Number = (
    &'static str,
    u32,
    &'static [u16],
    fn(&mut Lent<'static>, u32),
);

const NUMBERS: [Number; 5] = [
    ("version", 65_535, &[GETINFO, REGISTER, SIGN], |lent, n| {
        lent.profile.version = n;
    }),
    (
        "signature algorithm",
        65_535,
        &[GETINFO, REGISTER, SIGN],
        |lent, n| lent.profile.signature_algorithm = n,
    ),
    (
        "key algorithm",
        65_535,
        &[GETINFO, REGISTER, SIGN],
        |lent, n| {
            lent.profile.key_algorithm = n;
        },
    ),
    ("verdict", 5, &[REGISTER, SIGN], |lent, n| lent.verdict = n),
    ("display", 3, &[SIGN], |lent, n| lent.display = n),
];

/// Each lent number for each command, used or not, about its last good value and where 8 or 16 bits
/// would cut it off to a good one.
#[test]
fn lent_numbers() {
    let table = record(1, OWN, b"Ann", 0);
    for (name, last, users, put) in NUMBERS {
        for value in [
            last,
            last + 1,
            256,
            65_535,
            65_536,
            65_536 + last,
            1 << 31,
            u32::MAX,
        ] {
            let mut lent = lent();
            put(&mut lent, value);
            for command in [GETINFO, REGISTER, SIGN, DEREGISTER, OPEN_SETTINGS] {
                let wrong = value > last && users.contains(&command);
                let expected = if wrong { Some(Refusal::Lent) } else { None };
                for bytes in [with(command, &[]), tlv(command, &[0])] {
                    let got = refused(&bytes, &lent, &table);
                    assert_eq!(got, expected, "{} {} {:04X}", name, value, command);
                }
            }
        }
    }
}

/// The profile's last numbers are written as they are: nothing of them is lost.
#[test]
fn last_numbers() {
    let mut lent = lent();
    lent.profile.version = 65_535;
    lent.profile.signature_algorithm = 65_534;
    lent.profile.key_algorithm = 65_533;
    let (draft, _) = gives_draft(&with(REGISTER, &[]), &lent, &[]);
    assert_eq!(draft[17..28], hex("0E 2E 07 00 FF FF 01 FE FF FD FF"));
    let (draft, _) = gives_draft(&with(SIGN, &[]), &lent, &record(1, OWN, b"Ann", 0));
    assert_eq!(draft[17..26], hex("0E 2E 05 00 FF FF 01 FE FF"));
}

#[test]
fn lent_edges() {
    let long = [0x5A; 512];
    for length in [1, 512] {
        let lent = Lent {
            public_key: &long[..length],
            ..lent()
        };
        let (draft, _) = gives_draft(&with(REGISTER, &[]), &lent, &[]);
        assert_eq!(draft, krd(&lent, &[0xAA]));
        assert_eq!(draft.len(), 85 + length);
    }
    for length in [8, 32] {
        let lent = Lent {
            nonce: &long[..length],
            ..lent()
        };
        let (draft, _) = gives_draft(&with(SIGN, &[]), &lent, &record(1, OWN, b"Ann", 0));
        assert_eq!(draft, signed_data(&lent, 1, 1, false));
        assert_eq!(draft.len(), 83 + length);
    }
}

fn is_table(stored: &[u8]) -> bool {
    let refusal = refused(&with(OPEN_SETTINGS, &[]), &lent(), stored);
    assert!(refusal.is_none() || refusal == Some(Refusal::Table));
    if refusal.is_none() {
        gives_status(&with(OPEN_SETTINGS, &[]), &lent(), stored, 0x06);
    }
    refusal.is_none()
}

#[test]
fn stored_records() {
    let parts = |key_id: usize, mixed: usize, name: usize, counter: usize| {
        vec![
            tlv(0x2E09, &vec![1; key_id]),
            tlv(0x2805, &vec![2; mixed]),
            tlv(0x2806, &vec![3; name]),
            tlv(0x2E0D, &vec![4; counter]),
        ]
    };
    let stored = |parts: &[Vec<u8>]| is_table(&composite(0x3802, parts));
    assert!(is_table(&[]));
    assert!(stored(&parts(32, 32, 1, 4)));
    assert!(stored(&parts(32, 32, 128, 4)));
    for (key_id, mixed, name, counter) in [
        (31, 32, 1, 4),
        (33, 32, 1, 4),
        (0, 32, 1, 4),
        (32, 31, 1, 4),
        (32, 33, 1, 4),
        (32, 32, 0, 4),
        (32, 32, 129, 4),
        (32, 32, 1, 3),
        (32, 32, 1, 5),
        (32, 32, 1, 8),
        (32, 32, 1, 0),
    ] {
        assert!(!stored(&parts(key_id, mixed, name, counter)));
    }
    let good = parts(32, 32, 3, 4);
    for place in 0..4 {
        let mut fewer = good.clone();
        let part = fewer.remove(place);
        assert!(!stored(&fewer));
        let mut more = good.clone();
        more.insert(place, part);
        assert!(!stored(&more));
        // The stored form has no skipped children.
        let mut skipped = good.clone();
        skipped.insert(place, tlv(0x0FFF, &[]));
        assert!(!stored(&skipped));
    }
    for place in 0..3 {
        let mut other = good.clone();
        other.swap(place, place + 1);
        assert!(!stored(&other));
    }
    assert!(!stored(&[]));
    assert!(!is_table(&composite(0x3803, &good)));
    assert!(!is_table(&good.concat()));
}

#[test]
fn stored_bytes() {
    let table = [record(1, OWN, b"Ann", 3), record(2, OTHER, b"Bo", 9)].concat();
    assert!(is_table(&table));
    for length in 1..table.len() {
        // 91 bytes are Ann's record.
        assert_eq!(is_table(&table[..length]), length == 91);
    }
    assert!(!is_table(&[table.clone(), vec![0]].concat()));
    assert!(!is_table(&[table.clone(), tlv(0x0FFF, &[])].concat()));

    // Ann's tags and lengths: at 0, 4, 40, 76 and 83, with 4 bytes each.
    let headers = [0..8, 40..44, 76..80, 83..87];
    let name = 80..83;
    for place in 0..91 {
        let fixed = headers.iter().any(|header| header.contains(&place));
        for change in 1..=255 {
            let mut other = table.clone();
            other[place] ^= change;
            // No byte over 7F is a letter among ASCII.
            let spoilt = fixed || (name.contains(&place) && other[place] > 0x7F);
            assert_eq!(is_table(&other), !spoilt, "{} {}", place, change);
        }
    }
}

#[test]
fn table_rules() {
    let records = |first: u8, count: u8, holder: u8| -> Vec<u8> {
        (first..first + count)
            .flat_map(|key_id| record(key_id, holder, b"x", 1))
            .collect()
    };
    // At most 8 with one mixed token, wherever they stand.
    assert!(is_table(&records(1, 8, OWN)));
    assert!(!is_table(&records(1, 9, OWN)));
    let spread = |own| {
        [
            records(1, own, OWN),
            records(50, 8, OTHER),
            record(99, OWN, b"x", 1),
        ]
    };
    assert!(is_table(&spread(7).concat()));
    assert!(!is_table(&spread(8).concat()));

    // At most 32.
    let many = |count: u8| -> Vec<u8> { (0..count).flat_map(|n| record(n, n, b"x", 1)).collect() };
    assert!(is_table(&many(32)));
    assert!(!is_table(&many(33)));

    // No KeyID twice, also under two mixed tokens.
    for holder in [OWN, OTHER] {
        let middle = records(50, 8, 0xB7);
        let twice = [
            record(1, OWN, b"Ann", 3),
            middle,
            record(1, holder, b"Bo", 4),
        ];
        assert!(!is_table(&twice.concat()));
    }
}
