//! The response reader, both calls.

mod common;

use common::*;
use uaf_peer::{read_fields, signed_part, Field, Lent, Refusal, MOST_FIELDS};

/// Whether this is a response; both calls agree on it.
fn is_response(bytes: &[u8]) -> bool {
    let fields = read_fields(bytes);
    let part = signed_part(bytes);
    assert_eq!(fields.is_ok(), part.is_ok());
    if fields.is_err() {
        assert_eq!(fields, Err(Refusal::Bytes));
        assert_eq!(part, Err(Refusal::Bytes));
    }
    fields.is_ok()
}

/// Reads back the tag, the status, the fields' (tag, place, length) and the signed part.
#[track_caller]
fn reads(
    bytes: &[u8],
    tag: u16,
    status: u16,
    rows: &[(u16, usize, usize)],
    signed: (usize, usize),
) {
    let read = read_fields(bytes).unwrap();
    assert_eq!(
        (read.tag, read.status, read.count),
        (tag, status, rows.len())
    );
    let expected: Vec<Field> = rows
        .iter()
        .map(|&(tag, place, length)| Field { tag, place, length })
        .collect();
    assert_eq!(read.fields[..read.count], expected[..]);
    assert!(read.fields[read.count..]
        .iter()
        .all(|row| *row == Field::default()));
    assert_eq!(signed_part(bytes), Ok(signed.0..signed.1));
}

fn info() -> Vec<u8> {
    match run(&with(GETINFO, &[]), &lent(), &[]) {
        Ok((Got::Response(bytes), _)) => bytes,
        other => panic!("{:?}", other),
    }
}

fn pair(name: &[u8], key_id: u8) -> Vec<u8> {
    composite(0x3802, &[tlv(0x2806, name), handle(key_id)])
}

fn list(pairs: &[Vec<u8>]) -> Vec<u8> {
    composite(
        0x3603,
        &[vec![tlv(0x2808, &[0, 0])], pairs.to_vec()].concat(),
    )
}

fn full() -> Vec<u8> {
    registered(&krd(&lent(), &[0xAA]), b"SIG", b"CR")
}

fn surrogate() -> Vec<u8> {
    registered(&krd(&lent(), &[0xAA]), b"SIG", b"")
}

fn plain() -> Vec<u8> {
    authenticated(&signed_data(&lent(), 1, 0x0102_0304, false), b"SIG")
}

fn confirmed() -> Vec<u8> {
    authenticated(&signed_data(&lent(), 1, 0x0102_0304, true), b"SIG")
}

#[test]
fn lone_statuses() {
    let allowed: [(u16, &[u8]); 5] = [
        (GETINFO, &[0x08]),
        (
            REGISTER,
            &[0x01, 0x02, 0x03, 0x05, 0x07, 0x08, 0x0E, 0x0F, 0x10],
        ),
        (SIGN, &[0x01, 0x02, 0x03, 0x04, 0x05, 0x08, 0x0E, 0x10]),
        (DEREGISTER, &[0x00, 0x02, 0x08]),
        (OPEN_SETTINGS, &[0x06, 0x08]),
    ];
    for (command, codes) in allowed {
        for code in 0..=255 {
            let bytes = status(command, code);
            assert_eq!(is_response(&bytes), codes.contains(&code));
            if codes.contains(&code) {
                reads(
                    &bytes,
                    command + 0x0200,
                    code.into(),
                    &[(0x2808, 8, 2)],
                    (0, 0),
                );
            }
            let wide = composite(command + 0x0200, &[tlv(0x2808, &[code, 1])]);
            assert!(!is_response(&wide));
        }
    }
    assert!(!is_response(&status(0x3405, 0x08)));
    assert!(!is_response(&status(0x3206, 0x08)));
    for length in [0, 1, 3] {
        assert!(!is_response(&composite(
            0x3601,
            &[tlv(0x2808, &vec![8; length])]
        )));
    }
    assert!(!is_response(&tlv(0x3601, &[])));
    assert!(!is_response(&composite(0x3601, &[tlv(0x2807, &[8, 0])])));
}

#[test]
fn get_info() {
    reads(
        &info(),
        0x3601,
        0,
        &[
            (0x2808, 8, 2),
            (0x280E, 14, 1),
            (0x280D, 23, 1),
            (0x2E0B, 28, 9),
            (0x2809, 41, 15),
            (0x280C, 60, 10),
            (0x280A, 74, 8),
            (0x2807, 86, 2),
            (0x2807, 92, 2),
        ],
        (0, 0),
    );
}

#[test]
fn offered_pairs() {
    let two = list(&[pair(b"Ann", 1), pair(b"Bo", 2)]);
    assert_eq!(two.len(), 103);
    reads(
        &two,
        0x3603,
        0,
        &[
            (0x2808, 8, 2),
            (0x2806, 18, 3),
            (0x2801, 25, 32),
            (0x2806, 65, 2),
            (0x2801, 71, 32),
        ],
        (0, 0),
    );
    let pairs: Vec<_> = (0..9).map(|n| pair(&[b'n'; 128], n)).collect();
    for count in 0..=9 {
        let bytes = list(&pairs[..count]);
        assert_eq!(is_response(&bytes), (2..=8).contains(&count));
    }
    assert_eq!(read_fields(&list(&pairs[..8])).unwrap().count, MOST_FIELDS);

    // Names may repeat, KeyIDs may not.
    assert!(is_response(&list(&[pair(b"Bo", 1), pair(b"Bo", 2)])));
    assert!(!is_response(&list(&[pair(b"Ann", 1), pair(b"Bo", 1)])));
    assert!(!is_response(&list(&[
        pair(b"a", 1),
        pair(b"b", 2),
        pair(b"c", 3),
        pair(b"d", 1)
    ])));
    for (length, good) in [(0, false), (1, true), (128, true), (129, false)] {
        let bytes = list(&[pair(&vec![b'n'; length], 1), pair(b"Bo", 2)]);
        assert_eq!(is_response(&bytes), good);
    }
    for length in [0, 31, 33] {
        let wrong = composite(
            0x3802,
            &[tlv(0x2806, b"Ann"), tlv(0x2801, &vec![1; length])],
        );
        assert!(!is_response(&list(&[wrong, pair(b"Bo", 2)])));
    }
    let swapped = composite(0x3802, &[handle(1), tlv(0x2806, b"Ann")]);
    assert!(!is_response(&list(&[swapped, pair(b"Bo", 2)])));
    assert!(!is_response(&list(&[
        pair(b"Ann", 1),
        pair(b"Bo", 2),
        tlv(0x0FFF, &[])
    ])));
    // Only Sign offers.
    let mut other = two;
    other[0] = 0x02;
    assert!(!is_response(&other));
}

#[test]
fn registrations() {
    let mut rows = vec![
        (0x2808, 8, 2),
        (0x2E0B, 26, 9),
        (0x2E0E, 39, 7),
        (0x2E0A, 50, 1),
        (0x2E09, 55, 32),
        (0x2E0D, 91, 8),
        (0x2E0C, 103, 3),
        (0x2E06, 114, 3),
    ];
    reads(&surrogate(), 0x3602, 0, &rows, (18, 106));
    rows.push((0x2E05, 121, 2));
    reads(&full(), 0x3602, 0, &rows, (18, 106));
    assert_eq!(full()[18..106], krd(&lent(), &[0xAA])[..]);

    let krd = krd(&lent(), &[0xAA]);
    let signature = |length| tlv(0x2E06, &vec![1; length]);
    let certificate = |length| tlv(0x2E05, &vec![1; length]);
    let attested = |tag, parts: &[Vec<u8>]| {
        is_response(&asserted(
            REGISTER,
            0x3E01,
            &[krd.clone(), composite(tag, parts)],
        ))
    };
    for (length, good) in [(0, false), (1, true), (512, true), (513, false)] {
        assert_eq!(attested(0x3E07, &[signature(length), certificate(1)]), good);
        assert_eq!(attested(0x3E08, &[signature(length)]), good);
    }
    for (length, good) in [(0, false), (1, true), (2048, true), (2049, false)] {
        assert_eq!(attested(0x3E07, &[signature(1), certificate(length)]), good);
        assert!(!attested(0x3E08, &[signature(1), certificate(length)]));
    }
    assert!(!attested(0x3E07, &[signature(1)]));
    assert!(!attested(0x3E07, &[certificate(1), signature(1)]));
    assert!(!attested(
        0x3E07,
        &[signature(1), certificate(1), certificate(1)]
    ));
    assert!(!attested(0x3E08, &[]));
    assert!(!attested(0x3E09, &[signature(1)]));
    assert!(!attested(0x3E09, &[signature(1), certificate(1)]));
    // The signature stands inside the attestation tag.
    assert!(!is_response(&asserted(
        REGISTER,
        0x3E01,
        &[krd.clone(), signature(1)]
    )));
    assert!(!is_response(&asserted(REGISTER, 0x3E01, &[&krd])));
    let attestation = tlv(0x3E08, &signature(1));
    assert!(!is_response(&asserted(
        REGISTER,
        0x3E02,
        &[krd.clone(), attestation.clone()]
    )));
    let twice = [krd.clone(), attestation.clone(), attestation.clone()];
    assert!(!is_response(&asserted(REGISTER, 0x3E01, &twice)));
    assert!(!is_response(&asserted(
        REGISTER,
        0x3E01,
        &[attestation.clone(), krd.clone()]
    )));
    assert!(!is_response(&asserted(SIGN, 0x3E01, &[krd, attestation])));
}

#[test]
fn authentications() {
    let rows = |hash: usize| {
        [
            (0x2808, 8, 2),
            (0x2E0B, 26, 9),
            (0x2E0E, 39, 5),
            (0x2E0F, 48, 8),
            (0x2E0A, 60, 1),
            (0x2E10, 65, hash),
            (0x2E09, 69 + hash, 32),
            (0x2E0D, 105 + hash, 4),
            (0x2E06, 113 + hash, 3),
        ]
    };
    reads(&plain(), 0x3603, 0, &rows(0), (18, 109));
    reads(&confirmed(), 0x3603, 0, &rows(32), (18, 141));
    assert_eq!(
        confirmed()[18..141],
        signed_data(&lent(), 1, 0x0102_0304, true)[..]
    );

    let signed = signed_data(&lent(), 1, 1, false);
    let signature = |length| tlv(0x2E06, &vec![1; length]);
    for (length, good) in [(0, false), (1, true), (512, true), (513, false)] {
        let bytes = asserted(SIGN, 0x3E02, &[signed.clone(), signature(length)]);
        assert_eq!(is_response(&bytes), good);
    }
    for parts in [
        vec![signed.clone()],
        vec![signature(1), signed.clone()],
        vec![signed.clone(), tlv(0x3E08, &signature(1))],
        vec![signed.clone(), signature(1), signature(1)],
        vec![signed.clone(), signature(1), tlv(0x2E05, b"C")],
    ] {
        assert!(!is_response(&asserted(SIGN, 0x3E02, &parts)));
    }
    let parts = [signed, signature(1)];
    assert!(is_response(&asserted(SIGN, 0x3E02, &parts)));
    assert!(!is_response(&asserted(SIGN, 0x3E01, &parts)));
    assert!(!is_response(&asserted(REGISTER, 0x3E02, &parts)));
    assert!(!is_response(&asserted(DEREGISTER, 0x3E02, &parts)));
    // The count is never 0.
    let zero = signed_data(&lent(), 1, 0, false);
    assert!(!is_response(&authenticated(&zero, b"SIG")));
}

#[test]
fn drafts_alone() {
    assert!(!is_response(&krd(&lent(), &[0xAA])));
    assert!(!is_response(&signed_data(&lent(), 1, 1, true)));
    assert!(!is_response(&[]));
}

/// A place and a length.
type Stretch = (usize, usize);

/// Ann's name and Bo's in the list of the two.
const NAMES: [Stretch; 2] = [(18, 3), (65, 2)];

fn is_in(stretches: &[Stretch], place: usize) -> bool {
    stretches
        .iter()
        .any(|&(at, length)| (at..at + length).contains(&place))
}

/// The responses, each with the stretches of its bytes that may be anything; of a name, any ASCII.
fn responses() -> Vec<(Vec<u8>, Vec<Stretch>)> {
    vec![
        (info(), vec![(28, 9), (41, 15)]),
        (
            list(&[pair(b"Ann", 1), pair(b"Bo", 2)]),
            vec![NAMES[0], (25, 32), NAMES[1], (71, 32)],
        ),
        (
            full(),
            vec![
                (26, 9),
                (39, 2),
                (42, 4),
                (50, 1),
                (55, 32),
                (103, 3),
                (114, 3),
                (121, 2),
            ],
        ),
        (
            surrogate(),
            vec![
                (26, 9),
                (39, 2),
                (42, 4),
                (50, 1),
                (55, 32),
                (103, 3),
                (114, 3),
            ],
        ),
        (
            plain(),
            vec![
                (26, 9),
                (39, 2),
                (42, 2),
                (48, 8),
                (60, 1),
                (69, 32),
                (105, 4),
                (113, 3),
            ],
        ),
        (
            confirmed(),
            vec![
                (26, 9),
                (39, 2),
                (42, 2),
                (48, 8),
                (60, 1),
                (65, 32),
                (101, 32),
                (137, 4),
                (145, 3),
            ],
        ),
    ]
}

#[test]
fn one_byte_damages() {
    for (bytes, free) in responses() {
        let whole = read_fields(&bytes).unwrap();
        let has_names = free.contains(&NAMES[0]);
        for place in 0..bytes.len() {
            let is_name = has_names && is_in(&NAMES, place);
            for change in 1..=255 {
                let mut other = bytes.clone();
                other[place] ^= change;
                // No byte over 7F is a letter among ASCII.
                let is_free = is_in(&free, place) && !(is_name && other[place] > 0x7F);
                assert_eq!(is_response(&other), is_free, "{} {}", place, change);
                if is_free {
                    assert_eq!(read_fields(&other).as_ref(), Ok(&whole));
                }
            }
        }
    }
}

#[test]
fn cut_or_longer() {
    for (bytes, _) in responses() {
        for length in 0..bytes.len() {
            assert!(!is_response(&bytes[..length]));
        }
        assert!(!is_response(&[bytes.clone(), vec![0]].concat()));
        assert!(!is_response(&[bytes.clone(), bytes].concat()));
    }
}

/// "Reading what is written gives the same fields again".
#[test]
fn written_and_read() {
    let long = [0x5A; 2048];
    let longest = Lent {
        public_key: &long[..512],
        nonce: &long[..32],
        ..lent()
    };
    for lent in [lent(), longest] {
        let (registration, table) = gives_draft(&with(REGISTER, &[]), &lent, &[]);
        let (signed, _) = gives_draft(&with(SIGN, &[content(b"pay")]), &lent, &table);
        let calls = [
            (0, &registration, 0x3E07, &long[..2048], 9),
            (0, &registration, 0x3E08, &[][..], 8),
            (1, &signed, 0, &[], 9),
        ];
        for (kind, draft, attestation, certificate, count) in calls {
            for signature in [&long[..1], &long[..512]] {
                let mut out = [0; 4096];
                let length =
                    uaf_peer::complete(kind, draft, attestation, signature, certificate, &mut out)
                        .unwrap();
                let response = &out[..length];
                assert_eq!(response[signed_part(response).unwrap()], draft[..]);
                let fields = read_fields(response).unwrap();
                assert_eq!((fields.tag, fields.status), (0x3602 + kind as u16, 0));
                assert_eq!(fields.count, count);
                let proof = fields.fields[..count]
                    .iter()
                    .find(|row| row.tag == 0x2E06)
                    .unwrap();
                assert_eq!(
                    response[proof.place..proof.place + proof.length],
                    *signature
                );
            }
        }
    }
}
