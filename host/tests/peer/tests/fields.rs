//! The rules under "TLV bytes" and "Field lengths".

mod common;

use common::*;

const COMMANDS: [u16; 5] = [GETINFO, REGISTER, SIGN, DEREGISTER, OPEN_SETTINGS];

/// Whether the command is free of 0x08: else it goes on to what it gives on an empty table.
#[track_caller]
fn is_valid(bytes: &[u8]) -> bool {
    let tag = u16::from_le_bytes([bytes[0], bytes[1]]);
    let valid = match tag {
        SIGN => Got::Response(status(SIGN, 0x02)),
        DEREGISTER => Got::Response(status(DEREGISTER, 0x00)),
        OPEN_SETTINGS => Got::Response(status(OPEN_SETTINGS, 0x06)),
        _ => run(&with(tag, &[]), &lent(), &[]).unwrap().0,
    };
    let (got, _) = run(bytes, &lent(), &[]).unwrap();
    if got == Got::Response(status(tag, 0x08)) {
        return false;
    }
    match (tag, &got) {
        // The draft varies with the challenge.
        (REGISTER, Got::Draft(_)) => {}
        _ => assert_eq!(got, valid),
    }
    true
}

/// The command with its child of this tag replaced or, if it has none, added.
fn replaced(command: u16, tag: u16, value: &[u8]) -> Vec<u8> {
    let mut children = mandatory(command);
    children.retain(|child| child[..2] != tag.to_le_bytes());
    children.push(tlv(tag, value));
    composite(command, &children)
}

/// A tag, the commands that list it, the lengths it may have and some that it may not.
type Rule<'a> = (u16, &'a [u16], &'a [usize], &'a [usize]);

#[test]
fn lengths() {
    let all = [REGISTER, SIGN, DEREGISTER, OPEN_SETTINGS];
    let rules: [Rule; 9] = [
        (0x280D, &all, &[1], &[0, 2]),
        (0x2804, &all[..3], &[1, 512], &[0, 513]),
        (0x2E0A, &all[..2], &[1, 32], &[0, 33]),
        (0x2806, &all[..1], &[1, 128], &[0, 129]),
        (0x2805, &all[..3], &[32], &[0, 1, 31, 33]),
        (0x2803, &all[..2], &[0, 1, 4000], &[]),
        (0x2810, &all[1..2], &[0, 1, 4000], &[]),
        (0x2801, &all[1..2], &[32], &[0, 31, 33]),
        (0x2E09, &all[2..3], &[0], &[1, 31, 33]),
    ];
    for (tag, commands, good, bad) in rules {
        for &command in commands {
            for &length in good {
                assert!(
                    is_valid(&replaced(command, tag, &vec![0; length])),
                    "{:x} {}",
                    tag,
                    length
                );
            }
            for &length in bad {
                assert!(
                    !is_valid(&replaced(command, tag, &vec![0; length])),
                    "{:x} {}",
                    tag,
                    length
                );
            }
        }
    }
    for length in [0, 1, 3] {
        assert!(!is_valid(&replaced(REGISTER, 0x2807, &vec![7; length])));
    }
    // A KeyID of 32 bytes is asked for, and there is none.
    gives_status(&deregister(0), &lent(), &[], 0x02);
}

#[test]
fn index_is_zero() {
    for command in [REGISTER, SIGN, DEREGISTER, OPEN_SETTINGS] {
        assert!(is_valid(&replaced(command, 0x280D, &[0])));
        assert!(!is_valid(&replaced(command, 0x280D, &[1])));
        assert!(!is_valid(&replaced(command, 0x280D, &[255])));
    }
}

#[test]
fn mandatory_children() {
    for command in COMMANDS {
        let children = mandatory(command);
        for gone in 0..children.len() {
            let mut fewer = children.clone();
            fewer.remove(gone);
            assert!(!is_valid(&composite(command, &fewer)));
        }
    }
    for command in [REGISTER, SIGN, DEREGISTER, OPEN_SETTINGS] {
        assert!(!is_valid(&tlv(command, &[])));
    }
}

/// Every child that a command lists, with a value that it may have.
fn listed(command: u16) -> Vec<Vec<u8>> {
    let mut children = mandatory(command);
    if [REGISTER, SIGN, DEREGISTER].contains(&command) {
        children.push(tlv(0x2804, b"app"));
    }
    if [REGISTER, SIGN].contains(&command) {
        children.push(tlv(0x2803, b""));
    }
    if command == SIGN {
        children.push(content(b""));
    }
    children
}

#[test]
fn given_at_most_once() {
    for command in COMMANDS {
        let children = listed(command);
        assert!(is_valid(&composite(command, &children)));
        for twice in 0..children.len() {
            let mut more = children.clone();
            more.push(children[twice].clone());
            assert!(!is_valid(&composite(command, &more)));
        }
    }
    let handles: Vec<_> = (0..8).map(handle).collect();
    assert!(is_valid(&with(SIGN, &handles)));
    assert!(!is_valid(&with(SIGN, &[handles, vec![handle(8)]].concat())));
}

#[test]
fn any_order() {
    for command in COMMANDS {
        let mut children = listed(command);
        for _ in 0..children.len() {
            children.rotate_left(1);
            assert!(is_valid(&composite(command, &children)));
        }
        children.reverse();
        children.insert(children.len() / 2, tlv(0x0FFF, b"skip"));
        assert!(is_valid(&composite(command, &children)));
    }
}

#[test]
fn critical_or_skipped() {
    // Every tag that some command lists is critical, so each is refused where it isn't listed.
    let tags = [
        0x280D, 0x2804, 0x2E0A, 0x2806, 0x2807, 0x2805, 0x2803, 0x2810, 0x2801, 0x2E09,
    ];
    for command in COMMANDS {
        let listed: Vec<u16> = match command {
            GETINFO => vec![],
            REGISTER => vec![0x280D, 0x2804, 0x2E0A, 0x2806, 0x2807, 0x2805, 0x2803],
            SIGN => vec![0x280D, 0x2804, 0x2E0A, 0x2810, 0x2805, 0x2803, 0x2801],
            DEREGISTER => vec![0x280D, 0x2804, 0x2E09, 0x2805],
            _ => vec![0x280D],
        };
        for tag in tags.into_iter().filter(|tag| !listed.contains(tag)) {
            for length in [0, 1, 2, 32] {
                assert!(!is_valid(&with(command, &[tlv(tag, &vec![0; length])])));
            }
        }
        // Unknown tags, TRANSACTION_CONTENT_HASH, a command within a command.
        for tag in [
            0x2FFF, 0x2000, 0x3FFF, 0xAFFF, 0x6FFF, 0xFFFF, 0x2E10, 0x3401,
        ] {
            assert!(!is_valid(&with(command, &[tlv(tag, &[])])));
        }
        for tag in [0x0000, 0x0FFF, 0x1FFF, 0x8FFF, 0x4FFF, 0xDFFF] {
            let skipped = tlv(tag, &[]);
            assert!(is_valid(&with(command, &[skipped.clone(), skipped])));
        }
        // The listed tags without their critical bit are others.
        for tag in tags {
            assert!(is_valid(&with(command, &[tlv(tag & !0x2000, &[1])])));
        }
    }
}

#[test]
fn skipped_composites() {
    for command in COMMANDS {
        // Critical bits inside are ignored, also of composites, and repeats allowed.
        for held in [
            "FF 2F 00 00",
            "0D 28 00 00 0D 28 00 00",
            "FF 3F 04 00 FF 2F 00 00",
            "01 34 00 00",
            "FF 0F 01 00 AA",
        ] {
            assert!(is_valid(&with(command, &[tlv(0x1FFF, &hex(held))])));
        }
        for held in [
            "00",
            "FF 0F 00",
            "FF 0F 01 00",
            "FF 0F 00 00 00",
            "FF 0F 00 00 FF 0F 02 00 00",
            "FF 1F 01 00 00",
            "FF 3F 04 00 FF 2F 01 00",
        ] {
            assert!(
                !is_valid(&with(command, &[tlv(0x1FFF, &hex(held))])),
                "{}",
                held
            );
            // A primitive's value is no run.
            assert!(is_valid(&with(command, &[tlv(0x0FFF, &hex(held))])));
        }
    }
}

#[test]
fn outer_length() {
    for command in COMMANDS {
        let bytes = with(command, &[]);
        assert!(is_valid(&bytes));
        assert!(!is_valid(&[bytes.clone(), vec![0]].concat()));
        assert!(!is_valid(&[bytes.clone(), tlv(0x0FFF, &[])].concat()));
        for length in 4..bytes.len() {
            assert!(!is_valid(&bytes[..length]));
        }
        for byte in [2, 3] {
            let mut other = bytes.clone();
            other[byte] ^= 1;
            assert!(!is_valid(&other));
        }
        // A child's header or value goes beyond the command.
        for rest in ["FF", "FF 0F 00", "FF 0F 01 00"] {
            assert!(!is_valid(&with(command, &[hex(rest)])));
        }
    }
}

#[test]
fn longest_command() {
    for command in COMMANDS {
        let room = 8192 - with(command, &[]).len() - 4;
        let longest = with(command, &[tlv(0x0FFF, &vec![0; room])]);
        assert_eq!(longest.len(), 8192);
        assert!(is_valid(&longest));
        let longer = with(command, &[tlv(0x0FFF, &vec![0; room + 1])]);
        assert_eq!(longer.len(), 8193);
        assert!(!is_valid(&longer));
    }
}

#[test]
fn wide_and_deep() {
    // Six levels of composites around a run of many TLVs, all of them at level 8.
    let run = vec![hex("FF 1F 00 00"); 2000].concat();
    let skipped = (0..6).fold(run, |held, _| tlv(0x1FFF, &held));
    assert!(is_valid(&tlv(GETINFO, &skipped)));
    assert!(!is_valid(&tlv(GETINFO, &tlv(0x1FFF, &skipped))));
}
