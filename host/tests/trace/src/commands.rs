//! What each command answers.

use crate::bytes::*;
use crate::call::of;
use crate::make::*;
use crate::script::Trace;

pub fn examples(t: &mut Trace) {
    t.say("P1 to P9");
    t.give(&[]);
    let empty: [(&str, &[u8]); 8] = [
        ("P1", &[0x01, 0x34, 0, 0]),
        ("P2", &[0x01, 0x34, 4, 0, 0xFF, 0x0F, 0, 0]),
        ("P3", &[0x01, 0x34, 4, 0, 0xFF, 0x2F, 0, 0]),
        ("P4", &[0x01, 0x34, 1, 0, 0]),
        ("P5 tag", &[0x05, 0x34, 0, 0]),
        ("P5 length", &[0x01, 0x34, 0]),
        ("P6", &[0x06, 0x34, 5, 0, 0x0D, 0x28, 1, 0, 0]),
        (
            "P7",
            &[
                0x04, 0x34, 0x0E, 0, 0x0D, 0x28, 1, 0, 0, 0x09, 0x2E, 0, 0, 0x05, 0x28, 1, 0, 0xAA,
            ],
        ),
    ];
    for (name, command) in empty {
        t.run(name, of(command.to_vec()));
    }
    let p8 = [
        0x03, 0x34, 0x0F, 0, 0x0D, 0x28, 1, 0, 0, 0x0A, 0x2E, 1, 0, 0xAA, 0x05, 0x28, 1, 0, 0xAA,
    ];
    let invalid = [0x03, 0x36, 6, 0, 0x08, 0x28, 2, 0, 0x08, 0];
    assert_eq!(t.run("P8", of(p8.to_vec())), invalid);
    let anns_and_bos = [anns(1), record(2, &ANN, b"Bo", 0)];
    t.give(&anns_and_bos);
    assert_eq!(t.run("P9", of(p8.to_vec()).dumped()), invalid);
    t.say("What P7 to P9 showed, with a token of 32 bytes");
    t.give(&[]);
    t.run("P7 with a token of 32", of(deregister(&[])));
    t.run("P8 with a token of 32", of(sign(&[])));
    t.give(&anns_and_bos);
    let tie = t.run("P9 with a token of 32", of(sign(&[])).dumped());
    assert_eq!((tie.len(), &tie[18..21]), (103, &b"Ann"[..]));
}

pub fn information(t: &mut Trace) {
    t.say("GetInfo");
    t.give(&[anns(1)]);
    let skipped = [
        tlv(SKIPPED, b"x"),
        tlv(SKIPPED, b""),
        tlv(0x8000 | SKIPPED, b""),
    ];
    let plain = tlv(SKIPPED, b"x");
    for (name, children) in [
        ("skipped children repeat", skipped.concat()),
        ("index not listed", index()),
        ("bit 0x8000 with critical", tlv(0x8000 | CRITICAL, b"")),
        ("level 8", nested(8, b"")),
        ("level 9", nested(9, b"")),
        ("a plain TLV at level 8", nested(7, &plain)),
        ("a plain TLV at level 9", nested(8, &plain)),
        (
            "critical inside a skipped composite",
            tlv(SKIPPED_COMPOSITE, &tlv(CRITICAL, b"")),
        ),
        (
            "a skipped composite with bytes left over",
            tlv(SKIPPED_COMPOSITE, &[0]),
        ),
    ] {
        t.run(&format!("info, {name}"), of(tlv(GETINFO, &children)));
    }
    t.run("info, outer length one short", of(vec![1, 0x34, 0, 0, 0]));
    t.run("info, outer length one long", of(vec![1, 0x34, 1, 0]));
    for (size, filler) in [(8192, 8184), (8193, 8185)] {
        let command = tlv(GETINFO, &tlv(SKIPPED, &vec![0; filler]));
        t.run(&format!("info, {size} bytes"), of(command));
    }
}

pub fn removals(t: &mut Trace) {
    t.say("Deregister: the gap is closed, the order kept");
    t.give(&[
        record(1, &ANN, b"a", 0),
        record(2, &BO, b"b", 0),
        record(3, &ANN, b"c", 0),
        record(4, &BO, b"d", 0),
        record(5, &ANN, b"e", 0),
    ]);
    t.run("deregister, unknown KeyID", of(deregister(&key(7))));
    t.run("deregister, a stranger's KeyID", of(deregister(&key(2))));
    t.run("deregister, one", of(deregister(&key(3))).dumped());
    t.run("deregister, the same again", of(deregister(&key(3))));
    t.run(
        "deregister, all of a mixed token",
        of(deregister(&[])).dumped(),
    );
    t.run("deregister, all where there is none", of(deregister(&[])));
    for length in [31, 33] {
        let name = format!("deregister, KeyID of {length}");
        t.run(&name, of(deregister(&vec![0; length])));
    }
    let without = holding(DEREGISTER, &[index(), access_token()]);
    t.run("deregister, no KeyID", of(without));
    for length in [0, 1, 31, 33] {
        let given = [index(), tlv(KEYID, &key(2)), token(&vec![0xB0; length])];
        let name = format!("deregister, access token of {length}");
        t.run(&name, of(holding(DEREGISTER, &given)));
    }
    let denied = of(deregister(&key(2))).by(BO).verdict(1);
    t.run("deregister, the verdict is not asked", denied);
    let last = of(deregister(&key(4))).by(BO).dumped();
    t.run("deregister, the last of a mixed token", last);
}

pub fn open_settings(t: &mut Trace) {
    t.say("Open settings");
    t.run("settings", of(settings()));
    t.run("settings, no index", of(holding(OPEN_SETTINGS, &[])));
    let more = holding(OPEN_SETTINGS, &[index(), access_token()]);
    t.run("settings, an access token", of(more));
}
