//! "A holder's commands are now those, 0x08 aside, whose token and AppID give its hash", and the
//! hash of the content in signed data. The hashes are Python's `hashlib`'s.

mod common;

use common::*;
use uaf_peer::{command_by_value, load, Answer, Lent};

const TOTE: &[u8] = b"https://tote.example/pay-out";
const BETS: &[u8] = b"https://bets.example/";

fn app_id(bytes: &[u8]) -> Vec<u8> {
    tlv(0x2804, bytes)
}

/// A record with this mixed token.
fn record_of(key_id: u8, mixed: &str, name: &[u8], counter: u32) -> Vec<u8> {
    let mut record = record(key_id, 0, name, counter);
    record[44..76].copy_from_slice(&digest(mixed));
    record
}

/// The holder's access token followed by these AppIDs.
const MIXED: [(&[u8], &str); 5] = [
    (
        TOTE,
        "23486c9382e1a8360c331ceffce29897816060f5909983b71ac42c87dde801d4",
    ),
    (
        BETS,
        "28891f9392d5519ac44ca26e5b6531c60069d793fa62e0cf3dd979aed6948afd",
    ),
    (
        b"a",
        "9de9881d79a222fb707a465353f9a45413c84063cbff6cee36042d65e584908a",
    ),
    (
        &[b'a'; 512],
        "fd08c8a704d3e2850af2bfc77bef019c1cbf464e018daf65bd6516c2ab4a3486",
    ),
    // The access token once more.
    (
        &[OWN; 32],
        "84d1cead77b323bab28c9d21ddaa4e14add055c829242f729eaab53bd4324eb5",
    ),
];
/// A stranger's access token followed by TOTE.
const STRANGER_AT_TOTE: &str = "2fa1871bb76d50d24ae6f914bb70898ff4574fb19b70c042ee2fd69e1262cf06";

#[test]
fn of_token_and_app_id() {
    for (id, mixed) in MIXED {
        let stored = record_of(0xC0, mixed, b"Ann", 0);
        let register = with(REGISTER, &[app_id(id)]);
        let (draft, left) = gives_draft(&register, &lent(), &[]);
        assert_eq!((draft, &left), (krd(&lent(), &[0xAA]), &stored));

        let (draft, left) = gives_draft(&with(SIGN, &[app_id(id)]), &lent(), &left);
        assert_eq!(draft, signed_data(&lent(), 0xC0, 1, false));
        assert_eq!(left, record_of(0xC0, mixed, b"Ann", 1));

        let gone = Ok((Got::Response(status(DEREGISTER, 0)), vec![]));
        let one = composite(
            DEREGISTER,
            &[index(), app_id(id), tlv(0x2E09, &[0xC0; 32]), access()],
        );
        assert_eq!(run(&one, &lent(), &left), gone);
        assert_eq!(
            run(&with(DEREGISTER, &[app_id(id)]), &lent(), &left),
            gone.clone()
        );
    }
}

/// "A missing AppID adds no bytes." So the same token with and without one are two holders.
#[test]
fn without_app_id() {
    let (_, left) = gives_draft(&with(REGISTER, &[]), &lent(), &[]);
    assert_eq!(left, record(0xC0, OWN, b"Ann", 0));
    assert_eq!(left[44..76], mixed(OWN));
    let none = Got::Response(status(DEREGISTER, 0));
    for (id, mixed) in MIXED {
        gives_status(&with(SIGN, &[app_id(id)]), &lent(), &left, 0x02);
        let all = run(&with(DEREGISTER, &[app_id(id)]), &lent(), &left);
        assert_eq!(all, Ok((none.clone(), left.clone())));
        let with_id = record_of(1, mixed, b"Bo", 3);
        gives_status(&with(SIGN, &[]), &lent(), &with_id, 0x02);
        gives_status(&deregister(1), &lent(), &with_id, 0x02);
    }
    // One that is given is not empty.
    for command in [REGISTER, SIGN, DEREGISTER] {
        gives_status(&with(command, &[app_id(b"")]), &lent(), &left, 0x08);
    }
}

/// One token with two AppIDs, and two tokens with one AppID: three holders, each with its own.
#[test]
fn apart() {
    let [(_, at_tote), (_, at_bets), ..] = MIXED;
    let rows = |counters: [u32; 4]| {
        [
            record_of(1, at_tote, b"Ann", counters[0]),
            record_of(2, at_bets, b"Bo", counters[1]),
            record_of(3, STRANGER_AT_TOTE, b"Cy", counters[2]),
            record(4, OTHER, b"Di", counters[3]),
        ]
    };
    let table = rows([7; 4]).concat();
    let holders: [(u8, &[Vec<u8>]); 4] = [
        (OWN, &[app_id(TOTE)]),
        (OWN, &[app_id(BETS)]),
        (OTHER, &[app_id(TOTE)]),
        (OTHER, &[]),
    ];
    for (n, (holder, id)) in holders.into_iter().enumerate() {
        let mut counters = [7; 4];
        counters[n] = 8;
        let sign = by(holder, with(SIGN, id));
        let (draft, left) = gives_draft(&sign, &lent(), &table);
        assert_eq!(draft, signed_data(&lent(), n as u8 + 1, 8, false));
        assert_eq!(left, rows(counters).concat());

        let mut others = rows([7; 4]).to_vec();
        others.remove(n);
        let all = run(&by(holder, with(DEREGISTER, id)), &lent(), &table);
        let expected = (Got::Response(status(DEREGISTER, 0)), others.concat());
        assert_eq!(all, Ok(expected));

        // Another's handle chooses nothing.
        for key_id in 1..=4 {
            if usize::from(key_id) != n + 1 {
                let handles = [id, &[handle(key_id)]].concat();
                gives_status(&by(holder, with(SIGN, &handles)), &lent(), &table, 0x02);
            }
        }
    }
    // Eight records are one holder's most, not one token's.
    let most: Vec<u8> = (10..18)
        .flat_map(|key_id| record_of(key_id, at_tote, b"x", 1))
        .collect();
    gives_status(&with(REGISTER, &[app_id(TOTE)]), &lent(), &most, 0x0F);
    let (_, left) = gives_draft(&with(REGISTER, &[app_id(BETS)]), &lent(), &most);
    assert_eq!(left[most.len()..], record_of(0xC0, at_bets, b"Ann", 0));
}

/// Where the token ended could not be told from the hash, but it has 32 bytes.
#[test]
fn run_together() {
    let (_, mixed) = MIXED[0];
    let joined = [&[OWN; 32], TOTE].concat();
    assert_eq!(uaf_peer::hash(&joined, &[]), digest(mixed));
    let table = record_of(1, mixed, b"Ann", 3);
    for length in 1..joined.len() {
        let (token, id) = joined.split_at(length);
        let sign = composite(
            SIGN,
            &[index(), challenge(), tlv(0x2805, token), app_id(id)],
        );
        if length == 32 {
            let (draft, _) = gives_draft(&sign, &lent(), &table);
            assert_eq!(draft, signed_data(&lent(), 1, 4, false));
        } else {
            gives_status(&sign, &lent(), &table, 0x08);
        }
    }
}

/// The holder is the same in whatever order the children come and whatever else is given.
#[test]
fn of_nothing_else() {
    let [(_, mixed), ..] = MIXED;
    let table = [
        record_of(1, mixed, b"Ann", 3),
        record(2, OWN, b"Bo", 5),
        record(3, OTHER, b"Cy", 6),
    ]
    .concat();
    let mut children = vec![
        app_id(TOTE),
        index(),
        tlv(0x2803, &[OTHER; 32]),
        challenge(),
        tlv(0x0FFF, TOTE),
        content(b""),
        access(),
        tlv(0x1805, &tlv(0x2805, &[OTHER; 32])),
    ];
    for _ in 0..children.len() {
        children.rotate_left(1);
        let (draft, _) = gives_draft(&composite(SIGN, &children), &lent(), &table);
        assert_eq!(draft, signed_data(&lent(), 1, 4, false));
    }
}

/// "An access token must now be 32 bytes, else 0x08", before the verdict and on any table.
#[test]
fn token_of_another_length() {
    let table = [record(1, OWN, b"Ann", 3), record(2, OWN, b"Bo", 9)].concat();
    for length in [0, 1, 16, 31, 33, 64, 512] {
        for command in [REGISTER, SIGN, DEREGISTER] {
            let mut children = mandatory(command);
            let own = children.pop();
            assert_eq!(own, Some(access()));
            children.push(tlv(0x2805, &vec![OWN; length]));
            for id in [None, Some(app_id(TOTE))] {
                children.extend(id);
                let bytes = composite(command, &children);
                for verdict in 0..6 {
                    let lent = Lent { verdict, ..lent() };
                    gives_status(&bytes, &lent, &[], 0x08);
                    gives_status(&bytes, &lent, &table, 0x08);
                }
            }
        }
    }
}

/// The transaction hash is "that of the content".
#[test]
fn of_the_content() {
    let table = record(1, OWN, b"Ann", 3);
    let rows: [(&[u8], &str); 9] = [
        (
            b"pay",
            "9350872d712a127c494d7dc35e46b0bc9e62e288239708e581dfc3a1400154a4",
        ),
        // Published.
        (
            b"abc",
            "ba7816bf8f01cfea414140de5dae2223b00361a396177a9cb410ff61f20015ad",
        ),
        (
            "£5 on the third".as_bytes(),
            "500e7a760c3ae8a15dc9eed8457de4b6aef6257cc367e2f22d562566a3c5f784",
        ),
        (
            b"\0",
            "6e340b9cffb37a989ca544e6bb780a2c78901d3fb33738768511a30617afa01d",
        ),
        (
            &[b'a'; 55],
            "9f4390f8d30c2dd92ec9f095b65e2b9ae9b0a925a5258e241c9f1e910f734318",
        ),
        (
            &[b'a'; 56],
            "b35439a4ac6f0948b6d6f9e3c6af0f5f590ce20f1bde7090ef7970686ec6738a",
        ),
        (
            &[b'a'; 64],
            "ffe054fe7ae0cb6dc65c3af9b61d5209f439851db43d0ba5997337df154668eb",
        ),
        (
            &[b'a'; 4000],
            "82396ec9191a22922e88923ef14b5d225e26e7fc2d1571d0d6cd51920f83880b",
        ),
        // As much as a command has room for.
        (
            &[b'a'; 8138],
            "f12eed4f8720195a21e0ca5db1e0c0a2afb95bc5e29553947a38c275bea8d41f",
        ),
    ];
    for (bytes, expected) in rows {
        let mut parts = signed_parts(&lent(), 1, 4, true);
        parts[4] = tlv(0x2E10, &digest(expected));
        let sign = with(SIGN, &[content(bytes)]);
        let (draft, left) = gives_draft(&sign, &lent(), &table);
        assert_eq!(draft, composite(0x3E04, &parts));
        assert_eq!(left, record(1, OWN, b"Ann", 4));
        assert_eq!(uaf_peer::hash(bytes, &[]), digest(expected));
    }
    assert_eq!(with(SIGN, &[content(&[0; 8138])]).len(), 8192);

    // Without content, or with an empty one, the field has length 0 and not the hash of nothing.
    for more in [&[][..], &[content(b"")]] {
        let (draft, _) = gives_draft(&with(SIGN, more), &lent(), &table);
        assert_eq!(draft, signed_data(&lent(), 1, 4, false));
        assert_eq!(draft[43..47], hex("10 2E 00 00"));
    }
}

/// By value the token hashes too.
#[test]
fn by_value() {
    let [(_, mixed), ..] = MIXED;
    let mut table = load(&record(1, OWN, b"Ann", 3)).unwrap();
    let mut response = [0; 4096];
    let mut serve = |bytes: &[u8]| {
        let answer = command_by_value(bytes, &lent(), &mut table, &mut response).unwrap();
        let rows = table.records[..table.count].to_vec();
        match answer {
            Answer::Response(length) => (Got::Response(response[..length].to_vec()), rows),
            Answer::Draft(length) => (Got::Draft(response[..length].to_vec()), rows),
        }
    };
    let (_, rows) = serve(&with(REGISTER, &[app_id(TOTE)]));
    assert_eq!(
        rows.iter().map(|row| row.mixed).collect::<Vec<_>>(),
        [common::mixed(OWN), digest(mixed)]
    );
    let (draft, rows) = serve(&with(SIGN, &[app_id(TOTE), content(b"pay")]));
    let expected = signed_data(&lent(), 0xC0, 1, true);
    assert_eq!(draft, Got::Draft(expected));
    assert_eq!((rows[0].counter, rows[1].counter), (3, 1));
    let (gone, rows) = serve(&with(DEREGISTER, &[]));
    assert_eq!(gone, Got::Response(status(DEREGISTER, 0)));
    assert_eq!((rows.len(), rows[0].mixed), (1, digest(mixed)));
}
