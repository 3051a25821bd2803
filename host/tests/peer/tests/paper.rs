//! The cases that the paper writes down: P1 to P9, the edges and the traps.

mod common;

use common::*;
use uaf_peer::{Lent, Refusal};

fn answers(command: &str, table: &[u8], expected: &[u8]) {
    let got = run(&hex(command), &lent(), table);
    assert_eq!(got, Ok((Got::Response(expected.to_vec()), table.to_vec())));
}

fn info() -> Vec<u8> {
    join(&[
        hex("01 36 5A 00 08 28 02 00 00 00").as_slice(),
        &hex("0E 28 01 00 01"),
        &hex("11 38 4B 00 0D 28 01 00 00"),
        &hex("0B 2E 09 00"),
        AAID,
        &hex("09 28 0F 00"),
        METADATA,
        &hex("0C 28 0A 00"),
        b"text/plain",
        &hex("0A 28 08 00"),
        b"UAFV1TLV",
        &hex("07 28 02 00 07 3E"),
        &hex("07 28 02 00 08 3E"),
    ])
}

#[test]
fn p1_p2_get_info() {
    assert_eq!(info().len(), 94);
    answers("01 34 00 00", &[], &info());
    answers("01 34 04 00 FF 0F 00 00", &[], &info());
    answers("01 34 00 00", &record(1, OTHER, b"Cy", 5), &info());
}

#[test]
fn p3_p4_params_invalid() {
    let invalid = hex("01 36 06 00 08 28 02 00 08 00");
    answers("01 34 04 00 FF 2F 00 00", &[], &invalid);
    answers("01 34 01 00 00", &[], &invalid);
}

#[test]
fn p5_no_command() {
    for bytes in ["05 34 00 00", "01 34 00", ""] {
        assert_eq!(run(&hex(bytes), &lent(), &[]), Err(Refusal::Command));
    }
}

#[test]
fn p6_open_settings() {
    let not_supported = hex("06 36 06 00 08 28 02 00 06 00");
    answers("06 34 05 00 0D 28 01 00 00", &[], &not_supported);
}

const P7: &str = "04 34 0E 00 0D 28 01 00 00 09 2E 00 00 05 28 01 00 AA";
const P8: &str = "03 34 0F 00 0D 28 01 00 00 0A 2E 01 00 AA 05 28 01 00 AA";

fn ann_and_bo() -> Vec<u8> {
    [record(1, OWN, b"Ann", 3), record(2, OWN, b"Bo", 9)].concat()
}

/// "P7, P8 and P9 become 0x08 cases": their access token has one byte.
#[test]
fn p7_p8_p9_params_invalid() {
    answers(P7, &[], &hex("04 36 06 00 08 28 02 00 08 00"));
    answers(P8, &[], &hex("03 36 06 00 08 28 02 00 08 00"));
    answers(P8, &ann_and_bo(), &hex("03 36 06 00 08 28 02 00 08 00"));
}

/// What these showed, with an access token of 32 bytes.
const P7_OF_32: &str = "04 34 2D 00 0D 28 01 00 00 09 2E 00 00 05 28 20 00 \
    A0 A0 A0 A0 A0 A0 A0 A0 A0 A0 A0 A0 A0 A0 A0 A0 \
    A0 A0 A0 A0 A0 A0 A0 A0 A0 A0 A0 A0 A0 A0 A0 A0";
const P8_OF_32: &str = "03 34 2E 00 0D 28 01 00 00 0A 2E 01 00 AA 05 28 20 00 \
    A0 A0 A0 A0 A0 A0 A0 A0 A0 A0 A0 A0 A0 A0 A0 A0 \
    A0 A0 A0 A0 A0 A0 A0 A0 A0 A0 A0 A0 A0 A0 A0 A0";

#[test]
fn deregister_none() {
    answers(P7_OF_32, &[], &hex("04 36 06 00 08 28 02 00 00 00"));
}

#[test]
fn sign_none() {
    answers(P8_OF_32, &[], &hex("03 36 06 00 08 28 02 00 02 00"));
}

#[test]
fn tie() {
    let pairs = join(&[
        hex("03 36 63 00 08 28 02 00 00 00").as_slice(),
        &hex("02 38 2B 00 06 28 03 00 41 6E 6E 01 28 20 00"),
        &[1; 32],
        &hex("02 38 2A 00 06 28 02 00 42 6F 01 28 20 00"),
        &[2; 32],
    ]);
    assert_eq!(pairs.len(), 103);
    answers(P8_OF_32, &ann_and_bo(), &pairs);
}

#[test]
fn register_draft_and_record() {
    let draft = join(&[
        hex("03 3E 54 00 0B 2E 09 00").as_slice(),
        AAID,
        &hex("0E 2E 07 00 11 12 01 13 14 15 16"),
        &hex("0A 2E 01 00 AA"),
        &hex("09 2E 20 00"),
        &[0xC0; 32],
        &hex("0D 2E 08 00 00 00 00 00 00 00 00 00"),
        &hex("0C 2E 03 00"),
        b"PUB",
    ]);
    let stored = join(&[
        hex("02 38 57 00 09 2E 20 00").as_slice(),
        &[0xC0; 32],
        &hex("05 28 20 00"),
        &mixed(OWN),
        &hex("06 28 03 00 41 6E 6E"),
        &hex("0D 2E 04 00 00 00 00 00"),
    ]);
    let got = gives_draft(&with(REGISTER, &[]), &lent(), &[]);
    assert_eq!(got, (draft.clone(), stored.clone()));

    let old = record(1, OTHER, b"Cy", 5);
    let got = gives_draft(&with(REGISTER, &[]), &lent(), &old);
    assert_eq!(got, (draft, [old, stored].concat()));
}

#[test]
fn sign_draft_and_counter() {
    let parts = |length: &str, info: &str, hash: &[u8]| {
        join(&[
            hex(length).as_slice(),
            &hex("0B 2E 09 00"),
            AAID,
            &hex(info),
            &hex("0F 2E 08 00"),
            b"noncenon",
            &hex("0A 2E 01 00 AA"),
            hash,
            &hex("09 2E 20 00"),
            &[2; 32],
            &hex("0D 2E 04 00 00 01 00 00"),
        ])
    };
    let table = |counter| {
        [
            record(1, OTHER, b"Cy", 7),
            record(2, OWN, b"Ann", counter),
            record(3, OTHER, b"Di", 255),
        ]
        .concat()
    };
    let plain = parts(
        "04 3E 57 00",
        "0E 2E 05 00 11 12 01 13 14",
        &hex("10 2E 00 00"),
    );
    let got = gives_draft(&with(SIGN, &[]), &lent(), &table(255));
    assert_eq!(got, (plain, table(256)));

    let hash = [hex("10 2E 20 00"), hash_of_pay().to_vec()].concat();
    let confirmed = parts("04 3E 77 00", "0E 2E 05 00 11 12 02 13 14", &hash);
    let got = gives_draft(&with(SIGN, &[content(b"pay")]), &lent(), &table(255));
    assert_eq!(got, (confirmed, table(256)));
}

#[test]
fn username_128_and_129() {
    let named = |length| {
        let mut children = mandatory(REGISTER);
        children[2] = tlv(0x2806, &vec![b'a'; length]);
        composite(REGISTER, &children)
    };
    let (_, left) = gives_draft(&named(128), &lent(), &[]);
    assert_eq!(left, record(0xC0, OWN, &[b'a'; 128], 0));
    assert_eq!(left.len(), 216);
    gives_status(&named(129), &lent(), &[], 0x08);
}

/// Composites one in another, the outermost at level 2, the innermost empty at `level`.
fn nested(level: usize, innermost: &[u8]) -> Vec<u8> {
    (2..level).fold(innermost.to_vec(), |held, _| tlv(0x1FFF, &held))
}

#[test]
fn level_8_and_9() {
    for innermost in ["FF 1F 00 00", "FF 0F 00 00", "FF 0F 02 00 01 02"] {
        let innermost = hex(innermost);
        let eight = nested(8, &innermost);
        assert_eq!(eight.len(), 24 + innermost.len());
        gives_status(&with(OPEN_SETTINGS, &[eight]), &lent(), &[], 0x06);
        gives_status(
            &with(OPEN_SETTINGS, &[nested(9, &innermost)]),
            &lent(),
            &[],
            0x08,
        );
    }
}

/// As many records of one holder, with KeyIDs from `first` on.
fn records(first: u8, count: u8, holder: u8) -> Vec<u8> {
    (first..first + count)
        .flat_map(|key_id| record(key_id, holder, b"x", 1))
        .collect()
}

#[test]
fn eighth_and_ninth_own_record() {
    let seven = [records(1, 7, OWN), records(100, 8, OTHER)].concat();
    let (_, left) = gives_draft(&with(REGISTER, &[]), &lent(), &seven);
    assert_eq!(left, [seven, record(0xC0, OWN, b"Ann", 0)].concat());
    let ninth = Lent {
        key_id: &[9; 32],
        ..lent()
    };
    gives_status(&with(REGISTER, &[]), &ninth, &left, 0x0F);
    // A stored KeyID is told first.
    gives_status(&with(REGISTER, &[]), &lent(), &left, 0x01);
}

#[test]
fn thirty_second_and_thirty_third_record() {
    let most = [
        records(10, 8, OTHER),
        records(20, 8, THIRD),
        records(30, 8, 0xB2),
        records(40, 7, 0xB3),
    ]
    .concat();
    let (_, left) = gives_draft(&with(REGISTER, &[]), &lent(), &most);
    assert_eq!(left, [most, record(0xC0, OWN, b"Ann", 0)].concat());
    let next = Lent {
        key_id: &[9; 32],
        ..lent()
    };
    gives_status(&with(REGISTER, &[]), &next, &left, 0x0F);
    // A stored KeyID gives 0x01 also where there is no place.
    gives_status(&with(REGISTER, &[]), &lent(), &left, 0x01);

    // "a freed place is used again"
    let (_, freed) = run(&by(THIRD, deregister(20)), &lent(), &left).unwrap();
    let (_, again) = gives_draft(&with(REGISTER, &[]), &next, &freed);
    assert_eq!(again, [freed, record(9, OWN, b"Ann", 0)].concat());
}

#[test]
fn longest_table() {
    let name = [b'n'; 128];
    let table: Vec<u8> = (0..31).flat_map(|n| record(n, n / 8, &name, 1)).collect();
    let mut children = mandatory(REGISTER);
    children[2] = tlv(0x2806, &name);
    let (_, left) = gives_draft(&composite(REGISTER, &children), &lent(), &table);
    assert_eq!(left.len(), 6912);
    assert_eq!(left, [table, record(0xC0, OWN, &name, 0)].concat());
}

#[test]
fn last_count() {
    let last = record(1, OWN, b"Ann", u32::MAX);
    let before = record(1, OWN, b"Ann", u32::MAX - 1);
    let (draft, left) = gives_draft(&with(SIGN, &[]), &lent(), &before);
    assert_eq!(draft, signed_data(&lent(), 1, u32::MAX, false));
    assert_eq!(left, last);
    gives_status(&with(SIGN, &[]), &lent(), &last, 0x01);
    // The display is asked first.
    for (display, code) in [(0, 0x01), (1, 0x05), (2, 0x04), (3, 0x0E)] {
        let lent = Lent { display, ..lent() };
        gives_status(&with(SIGN, &[content(b"pay")]), &lent, &last, code);
        gives_status(&with(SIGN, &[content(b"")]), &lent, &last, 0x01);
    }
}

#[test]
fn tie_with_content_asks_no_display() {
    // A tie is offered also where a counter could not rise.
    let table = [record(1, OWN, b"Ann", u32::MAX), record(2, OWN, b"Bo", 9)].concat();
    for display in 0..4 {
        let lent = Lent { display, ..lent() };
        let plain = run(&with(SIGN, &[]), &lent, &table).unwrap();
        let with_content = run(&with(SIGN, &[content(b"pay")]), &lent, &table).unwrap();
        assert_eq!(plain, with_content);
        assert_eq!(plain.1, table);
        assert!(matches!(plain.0, Got::Response(pairs) if pairs.len() == 103));
    }
}

#[test]
fn repeated_handle_is_no_tie() {
    let ann = record(1, OWN, b"Ann", 3);
    let bo = record(2, OWN, b"Bo", 9);
    let table = [ann.clone(), bo].concat();
    let left = [ann, record(2, OWN, b"Bo", 10)].concat();
    let expected = (signed_data(&lent(), 2, 10, false), left);
    for times in 1..=8 {
        let got = gives_draft(&with(SIGN, &vec![handle(2); times]), &lent(), &table);
        assert_eq!(got, expected);
    }
    // "at most 8 of them" counts children.
    gives_status(&with(SIGN, &vec![handle(2); 9]), &lent(), &table, 0x08);
}

#[test]
fn handles_choose() {
    let table = [
        record(1, OWN, b"Ann", 3),
        record(5, OTHER, b"Cy", 1),
        record(2, OWN, b"Bo", 9),
        record(3, OWN, b"Bo", 0),
    ]
    .concat();
    let pair = |name: &[u8], key_id| composite(0x3802, &[tlv(0x2806, name), handle(key_id)]);
    let offers = |handles: &[Vec<u8>], pairs: &[Vec<u8>]| {
        let ok = [vec![tlv(0x2808, &[0, 0])], pairs.to_vec()].concat();
        let expected = (Got::Response(composite(0x3603, &ok)), table.clone());
        assert_eq!(run(&with(SIGN, handles), &lent(), &table), Ok(expected));
    };
    // Table order, not the handles' order; names may be equal.
    offers(
        &[handle(3), handle(2), handle(3)],
        &[pair(b"Bo", 2), pair(b"Bo", 3)],
    );
    offers(&[], &[pair(b"Ann", 1), pair(b"Bo", 2), pair(b"Bo", 3)]);
    offers(
        &[handle(3), handle(5), handle(1)],
        &[pair(b"Ann", 1), pair(b"Bo", 3)],
    );

    // A stranger's handle adds nothing.
    let (draft, _) = gives_draft(
        &with(SIGN, &[handle(5), handle(3), handle(99)]),
        &lent(),
        &table,
    );
    assert_eq!(draft, signed_data(&lent(), 3, 1, false));
}

#[test]
fn most_offered() {
    let name = [b'n'; 128];
    let table: Vec<u8> = (0..8).flat_map(|n| record(n, OWN, &name, 1)).collect();
    match run(&with(SIGN, &[]), &lent(), &table) {
        Ok((Got::Response(pairs), left)) => {
            assert_eq!(pairs.len(), 10 + 8 * 172);
            assert_eq!(left, table);
        }
        other => panic!("no response: {:?}", other),
    }
}

#[test]
fn strangers_key_id_is_as_unknown() {
    let table = [record(1, OWN, b"Ann", 3), record(5, OTHER, b"Cy", 1)].concat();
    for key_id in [5, 99] {
        gives_status(&with(SIGN, &[handle(key_id)]), &lent(), &table, 0x02);
        gives_status(&deregister(key_id), &lent(), &table, 0x02);
    }
    // Register does tell a stored KeyID, whosever it is.
    for key_id in [&[1; 32], &[5; 32]] {
        gives_status(
            &with(REGISTER, &[]),
            &Lent { key_id, ..lent() },
            &table,
            0x01,
        );
    }
}

#[test]
fn removal_closes_the_gap() {
    let rows = [
        record(1, OWN, b"Ann", 3),
        record(2, OTHER, b"Cy", 1),
        record(3, OWN, b"Bo", 9),
        record(4, OTHER, b"Di", 2),
        record(5, OWN, b"Ed", 4),
    ];
    let table = rows.concat();
    let ok = Got::Response(status(DEREGISTER, 0));
    for (key_id, gone) in [(1, 0), (3, 2), (5, 4)] {
        let mut left = rows.to_vec();
        left.remove(gone);
        let expected = (ok.clone(), left.concat());
        assert_eq!(run(&deregister(key_id), &lent(), &table), Ok(expected));
    }
    let others = [rows[1].clone(), rows[3].clone()].concat();
    let all = with(DEREGISTER, &[]);
    assert_eq!(run(&all, &lent(), &table), Ok((ok.clone(), others.clone())));
    assert_eq!(run(&all, &lent(), &others), Ok((ok, others)));
}

#[test]
fn empty_content_is_none() {
    let table = record(1, OWN, b"Ann", 3);
    for display in 0..4 {
        let lent = Lent { display, ..lent() };
        let (draft, left) = gives_draft(&with(SIGN, &[content(b"")]), &lent, &table);
        assert_eq!(draft, signed_data(&lent, 1, 4, false));
        assert_eq!(left, record(1, OWN, b"Ann", 4));
    }
}

#[test]
fn display_results() {
    let table = record(1, OWN, b"Ann", 3);
    for (display, code) in [(1, 0x05), (2, 0x04), (3, 0x0E)] {
        let lent = Lent { display, ..lent() };
        gives_status(&with(SIGN, &[content(b"pay")]), &lent, &table, code);
        gives_status(&with(SIGN, &[content(b"pay")]), &lent, &[], 0x02);
    }
}

const VERDICTS: [(u32, u8); 5] = [(1, 0x02), (2, 0x03), (3, 0x05), (4, 0x0E), (5, 0x10)];

#[test]
fn verdicts() {
    let table = record(1, OWN, b"Ann", 3);
    for (verdict, code) in VERDICTS {
        let lent = Lent {
            verdict,
            display: 2,
            ..lent()
        };
        gives_status(&with(REGISTER, &[]), &lent, &table, code);
        gives_status(&with(SIGN, &[content(b"pay")]), &lent, &table, code);
        gives_status(&with(SIGN, &[]), &lent, &[], code);
        // 0x08 comes before the verdict.
        gives_status(&with(REGISTER, &[index()]), &lent, &table, 0x08);
        gives_status(&with(SIGN, &[index()]), &lent, &table, 0x08);
        // The others don't ask.
        gives_status(&with(OPEN_SETTINGS, &[]), &lent, &table, 0x06);
        gives_status(&deregister(7), &lent, &table, 0x02);
    }
}

#[test]
fn register_order() {
    let typed = |low, high| {
        let mut children = mandatory(REGISTER);
        children[3] = tlv(0x2807, &[low, high]);
        composite(REGISTER, &children)
    };
    let full = [records(1, 7, OWN), record(0xC0, OWN, b"Ann", 0)].concat();
    // 0x07 before 0x01 before 0x0F; the verdict before all of them.
    for (low, high) in [(0x09, 0x3E), (0x07, 0x3D), (0x3E, 0x07), (0, 0)] {
        gives_status(&typed(low, high), &lent(), &full, 0x07);
        gives_status(
            &typed(low, high),
            &Lent {
                verdict: 5,
                ..lent()
            },
            &full,
            0x10,
        );
    }
    gives_status(&typed(0x08, 0x3E), &lent(), &full, 0x01);
    gives_status(
        &typed(0x08, 0x3E),
        &Lent {
            key_id: &[8; 32],
            ..lent()
        },
        &full,
        0x0F,
    );
    // The type doesn't show in the draft.
    let table = record(1, OTHER, b"Cy", 5);
    assert_eq!(
        gives_draft(&typed(0x07, 0x3E), &lent(), &table),
        gives_draft(&typed(0x08, 0x3E), &lent(), &table)
    );
}
