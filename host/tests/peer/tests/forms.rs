//! The form of an accepted command.

mod common;

use common::{
    access, challenge, composite, content, handle, hex, index, join, lent, record, run, tlv, with,
    Got, DEREGISTER, GETINFO, OPEN_SETTINGS, OTHER, OWN, REGISTER, SIGN,
};
use uaf_peer::{form_of, write_deregister, write_register, write_sign};

#[track_caller]
fn form(command: &[u8]) -> Vec<u8> {
    let mut form = b"before".to_vec();
    assert!(form_of(command, &mut form));
    form
}

/// A skippable composite, with a critical tag inside it.
fn skipped() -> Vec<u8> {
    hex("FF 1F 04 00 FF 2F 00 00")
}

#[test]
fn skipped_children_are_left_away() {
    // P2's is P1's.
    let p1 = hex("01 34 00 00");
    assert_eq!(form(&hex("01 34 04 00 FF 0F 00 00")), p1);
    assert_eq!(form(&composite(GETINFO, &[skipped(), skipped()])), p1);
    // Without the critical bit it is another tag.
    let command = composite(OPEN_SETTINGS, &[tlv(0x080D, &[0]), index(), skipped()]);
    assert_eq!(form(&command), hex("06 34 05 00 0D 28 01 00 00"));
}

#[test]
fn register_in_the_tables_order() {
    let command = composite(
        REGISTER,
        &[
            hex("03 28 00 00"),
            skipped(),
            hex("07 28 02 00 08 3E"),
            access(),
            hex("06 28 01 00 42"),
            hex("0A 2E 01 00 CC"),
            hex("04 28 02 00 61 62"),
            skipped(),
            hex("0D 28 01 00 00"),
        ],
    );
    assert_eq!(
        form(&command),
        join(&[
            hex(
                "02 34 43 00 0D 28 01 00 00 04 28 02 00 61 62 0A 2E 01 00 CC 06 28 01 00 42 \
                 07 28 02 00 08 3E 05 28 20 00"
            ),
            vec![OWN; 32],
            hex("03 28 00 00"),
        ])
    );
}

#[test]
fn sign_in_the_tables_order() {
    let command = composite(
        SIGN,
        &[
            handle(9),
            access(),
            handle(2),
            hex("03 28 01 00 EE"),
            hex("0A 2E 01 00 CC"),
            skipped(),
            handle(9),
            hex("10 28 01 00 24"),
            hex("0D 28 01 00 00"),
            hex("04 28 01 00 61"),
        ],
    );
    // Handles in their own order, the repeated one too.
    let expected = join(&[
        hex("03 34 A9 00 0D 28 01 00 00 04 28 01 00 61 0A 2E 01 00 CC 10 28 01 00 24 05 28 20 00"),
        vec![OWN; 32],
        hex("03 28 01 00 EE"),
        handle(9),
        handle(2),
        handle(9),
    ]);
    assert_eq!(form(&command), expected);
}

#[test]
fn deregister_in_the_tables_order() {
    let command = composite(
        DEREGISTER,
        &[access(), tlv(0x2E09, &[]), tlv(0x2804, b"a"), index()],
    );
    assert_eq!(
        form(&command),
        join(&[
            hex("04 34 32 00 0D 28 01 00 00 04 28 01 00 61 09 2E 00 00 05 28 20 00"),
            vec![OWN; 32],
        ])
    );
}

/// An empty child is one, and stays.
#[test]
fn empty_children_stay() {
    let command = composite(SIGN, &[access(), content(b""), challenge(), index()]);
    assert_eq!(
        form(&command),
        join(&[
            hex("03 34 32 00 0D 28 01 00 00 0A 2E 01 00 AA 10 28 00 00 05 28 20 00"),
            vec![OWN; 32],
        ])
    );
}

#[test]
fn none_without_a_command() {
    let mut out = b"before".to_vec();
    let none: [Vec<u8>; 14] = [
        vec![],
        hex("01 34 00"),
        hex("05 34 00 00"),
        hex("01 36 00 00"),
        // P3 and P4.
        hex("01 34 04 00 FF 2F 00 00"),
        hex("01 34 01 00 00"),
        hex("06 34 00 00"),
        // P7 and P8: the access token has one byte.
        hex("04 34 0E 00 0D 28 01 00 00 09 2E 00 00 05 28 01 00 AA"),
        hex("03 34 0F 00 0D 28 01 00 00 0A 2E 01 00 AA 05 28 01 00 AA"),
        with(SIGN, &[tlv(0x2804, b"")]),
        with(SIGN, &[index()]),
        with(SIGN, &vec![handle(1); 9]),
        with(SIGN, &[content(&[0; 8_170])]),
        with(OPEN_SETTINGS, &[hex("FF 1F 01 00 00")]),
    ];
    for command in none {
        assert!(!form_of(&command, &mut out), "{:02X?}", command);
        assert_eq!(out, b"before");
    }
}

/// What a writer writes is a form already.
#[test]
fn what_is_written_is_its_own_form() {
    let mut command = [0; 8_192];
    let mut length = 0;
    let name = "é".as_bytes();
    let register = write_register(
        1,
        b"app",
        &[1; 32],
        name,
        0x3E08,
        &[2; 32],
        1,
        &[3; 40],
        &mut command,
        &mut length,
    );
    assert_eq!(register, 0);
    assert_eq!(form(&command[..length]), command[..length]);

    let handles = [[5; 32], [4; 32], [5; 32]].concat();
    let sign = write_sign(
        1,
        b"app",
        &[1; 32],
        1,
        b"$5",
        &[2; 32],
        1,
        b"",
        &handles,
        &[32; 3],
        &mut command,
        &mut length,
    );
    assert_eq!(sign, 0);
    assert_eq!(form(&command[..length]), command[..length]);

    let deregister = write_deregister(1, b"app", &[5; 32], &[2; 32], &mut command, &mut length);
    assert_eq!(deregister, 0);
    assert_eq!(form(&command[..length]), command[..length]);
}

/// "one such form with the same effect"
#[test]
fn a_form_has_the_same_effect() {
    let table = join(&[
        record(1, OWN, b"Ann", 4),
        record(2, OTHER, b"Bo", 5),
        record(3, OWN, b"Cy", 6),
    ]);
    let reversed = |tag: u16, mut children: Vec<Vec<u8>>| {
        children.push(skipped());
        children.reverse();
        composite(tag, &children)
    };
    let name = tlv(0x2806, b"Dee");
    let full = tlv(0x2807, &[0x07, 0x3E]);
    let registering = vec![index(), challenge(), name, full, access()];
    let one = vec![index(), challenge(), content(b"$5"), access(), handle(3)];
    let tie = vec![index(), challenge(), access(), handle(3), handle(1)];
    let removing = vec![index(), tlv(0x2E09, &[1; 32]), access()];
    let mut drafts = 0;
    for (tag, children) in [
        (GETINFO, vec![]),
        (REGISTER, registering),
        (SIGN, one),
        (SIGN, tie),
        (DEREGISTER, removing),
        (OPEN_SETTINGS, vec![index()]),
    ] {
        let command = reversed(tag, children);
        let form = form(&command);
        assert_ne!(form, command);
        let answer = run(&command, &lent(), &table).unwrap();
        drafts += usize::from(matches!(answer.0, Got::Draft(_)));
        assert_eq!(run(&form, &lent(), &table), Ok(answer));
    }
    assert_eq!(drafts, 2);
}
