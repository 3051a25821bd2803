//! Complete, for both kinds and both types.

mod common;

use common::*;
use uaf_peer::{Lent, Refusal};

const FULL: u32 = 0x3E07;
const SURROGATE: u32 = 0x3E08;

/// Completes, and sees that nothing is changed by a refusal, nor beyond the length written.
fn complete(
    kind: u32,
    draft: &[u8],
    attestation: u32,
    signature: &[u8],
    certificate: &[u8],
) -> Result<Vec<u8>, Refusal> {
    let finish = |fill: u8, size: usize| {
        let mut out = vec![fill; size];
        let got = uaf_peer::complete(kind, draft, attestation, signature, certificate, &mut out);
        let length = got.unwrap_or(0);
        assert!(out[length..].iter().all(|&byte| byte == fill));
        got.map(|_| out[..length].to_vec())
    };
    assert_eq!(finish(0xEE, 4095), Err(Refusal::Output));
    let got = finish(0xEE, 4096);
    assert_eq!(got, finish(0x11, 5000));
    got
}

#[test]
fn registration_bytes() {
    let draft = krd(&lent(), &[0xAA]);
    assert_eq!(draft.len(), 88);
    let full = join(&[
        hex("02 36 77 00 08 28 02 00 00 00 0F 28 6D 00 01 3E 69 00").as_slice(),
        &draft,
        &hex("07 3E 0D 00 06 2E 03 00 53 49 47 05 2E 02 00 43 52"),
    ]);
    assert_eq!(complete(0, &draft, FULL, b"SIG", b"CR"), Ok(full));
    let surrogate = join(&[
        hex("02 36 71 00 08 28 02 00 00 00 0F 28 67 00 01 3E 63 00").as_slice(),
        &draft,
        &hex("08 3E 07 00 06 2E 03 00 53 49 47"),
    ]);
    assert_eq!(complete(0, &draft, SURROGATE, b"SIG", b""), Ok(surrogate));
}

#[test]
fn sign_bytes() {
    let draft = signed_data(&lent(), 1, 7, true);
    assert_eq!(draft.len(), 123);
    let response = join(&[
        hex("03 36 90 00 08 28 02 00 00 00 0F 28 86 00 02 3E 82 00").as_slice(),
        &draft,
        &hex("06 2E 03 00 53 49 47"),
    ]);
    // "Sign ignores type and certificate."
    for attestation in [0, 1, FULL, SURROGATE, u32::MAX] {
        for certificate in [&[][..], b"CR", &[0; 2049]] {
            let got = complete(1, &draft, attestation, b"SIG", certificate);
            assert_eq!(got.as_ref(), Ok(&response));
        }
    }
}

#[test]
fn limits() {
    let long = [0x5A; 2049];
    let draft = krd(&lent(), &[0xAA]);
    let signed = signed_data(&lent(), 1, 7, false);
    for length in [1, 512] {
        let signature = &long[..length];
        let expected = registered(&draft, signature, &long[..2048]);
        assert_eq!(
            complete(0, &draft, FULL, signature, &long[..2048]),
            Ok(expected)
        );
        let expected = registered(&draft, signature, b"");
        assert_eq!(complete(0, &draft, SURROGATE, signature, b""), Ok(expected));
        let expected = authenticated(&signed, signature);
        assert_eq!(complete(1, &signed, 0, signature, b""), Ok(expected));
    }
    for length in [0, 513] {
        let signature = &long[..length];
        assert_eq!(
            complete(0, &draft, FULL, signature, b"CR"),
            Err(Refusal::Lent)
        );
        assert_eq!(
            complete(0, &draft, SURROGATE, signature, b""),
            Err(Refusal::Lent)
        );
        assert_eq!(complete(1, &signed, 0, signature, b""), Err(Refusal::Lent));
    }
    for (attestation, certificate) in [
        (FULL, &[][..]),
        (FULL, &long),
        (SURROGATE, b"C"),
        (SURROGATE, &long),
        (0, b"C"),
        (0, b""),
        (0x3E09, b""),
        (0x3E09, b"C"),
        (0x1_3E07, b"C"),
        (0x1_3E08, b""),
    ] {
        let got = complete(0, &draft, attestation, b"SIG", certificate);
        assert_eq!(got, Err(Refusal::Lent));
    }
}

#[test]
fn longest() {
    let long = [0x5A; 2048];
    let longest = Lent {
        public_key: &long[..512],
        ..lent()
    };
    let draft = krd(&longest, &long[..32]);
    assert_eq!(draft.len(), 628);
    let response = complete(0, &draft, FULL, &long[..512], &long).unwrap();
    assert_eq!(response, registered(&draft, &long[..512], &long));
    assert_eq!(response.len(), 3218);
}

/// 5 comes before 4, so a draft is refused also with an empty signature.
#[track_caller]
fn is_draft(kind: u32, draft: &[u8]) -> bool {
    let got = complete(kind, draft, SURROGATE, b"SIG", b"");
    let unsigned = complete(kind, draft, 0, b"", b"C");
    match got {
        Ok(_) => assert_eq!(unsigned, Err(Refusal::Lent)),
        Err(_) => {
            assert_eq!(got, Err(Refusal::Bytes));
            assert_eq!(unsigned, Err(Refusal::Bytes));
        }
    }
    got.is_ok()
}

#[test]
fn kinds() {
    let registration = krd(&lent(), &[0xAA]);
    let signed = signed_data(&lent(), 1, 7, false);
    for kind in [0, 1, 2, 3, 0x100, u32::MAX] {
        assert_eq!(is_draft(kind, &registration), kind == 0);
        assert_eq!(is_draft(kind, &signed), kind == 1);
        assert!(!is_draft(kind, &[]));
        assert!(!is_draft(kind, &registered(&registration, b"SIG", b"")));
    }
}

/// A part by another: (its place, what it may be, what it may not be).
type Change<'a> = (usize, &'a [Vec<u8>], &'a [Vec<u8>]);

fn changes(kind: u32, tag: u16, parts: &[Vec<u8>], changes: &[Change]) {
    for (place, good, bad) in changes {
        for (parts_of, allowed) in [(good, true), (bad, false)] {
            for part in *parts_of {
                let mut other = parts.to_vec();
                other[*place] = part.clone();
                let draft = composite(tag, &other);
                assert_eq!(is_draft(kind, &draft), allowed, "{:x?}", part);
            }
        }
    }
}

/// Fields of one tag, with these lengths.
fn fields(tag: u16, lengths: &[usize]) -> Vec<Vec<u8>> {
    let value = |&length: &usize| tlv(tag, &vec![0x5A; length]);
    lengths.iter().map(value).collect()
}

#[test]
fn krd_drafts() {
    let parts = krd_parts(&lent(), &[0xAA]);
    let info = |mode| tlv(0x2E0E, &[0xFF, 0xFF, mode, 0xFF, 0xFF, 0xFF, 0xFF]);
    let counters = |place: usize| {
        let mut counters = [0; 8];
        counters[place] = 1;
        tlv(0x2E0D, &counters)
    };
    let wrong_info = [
        vec![info(0), info(2), info(3)],
        fields(0x2E0E, &[0, 5, 6, 8]),
    ]
    .concat();
    let wrong_counters = [
        (0..8).map(counters).collect(),
        vec![
            tlv(0x2E0D, &[0; 4]),
            tlv(0x2E0D, &[0; 7]),
            tlv(0x2E0D, &[0; 9]),
        ],
    ]
    .concat();
    changes(
        0,
        0x3E03,
        &parts,
        &[
            (0, &fields(0x2E0B, &[9]), &fields(0x2E0B, &[0, 8, 10])),
            (1, &[info(1)], &wrong_info),
            (2, &fields(0x2E0A, &[1, 32]), &fields(0x2E0A, &[0, 33])),
            (3, &fields(0x2E09, &[32]), &fields(0x2E09, &[0, 31, 33])),
            (4, &[tlv(0x2E0D, &[0; 8])], &wrong_counters),
            (5, &fields(0x2E0C, &[1, 512]), &fields(0x2E0C, &[0, 513])),
        ],
    );
    shapes(0, 0x3E03, &parts);
}

#[test]
fn signed_data_drafts() {
    let parts = signed_parts(&lent(), 1, 7, false);
    let with_content = signed_parts(&lent(), 1, 7, true);
    let info = |mode| tlv(0x2E0E, &[0xFF, 0xFF, mode, 0xFF, 0xFF]);
    let hash = |length| tlv(0x2E10, &vec![0x5A; length]);
    let wrong_info = |mode| {
        let modes: Vec<_> = [0, 1, 2, 3]
            .into_iter()
            .filter(|&m| m != mode)
            .map(info)
            .collect();
        [modes, fields(0x2E0E, &[0, 4, 6, 7])].concat()
    };
    let counts = [1, 0x100, 0x1_0000, 0x100_0000, u32::MAX];
    let counters: Vec<_> = counts
        .iter()
        .map(|n: &u32| tlv(0x2E0D, &n.to_le_bytes()))
        .collect();
    let wrong_counters = [vec![tlv(0x2E0D, &[0; 4])], fields(0x2E0D, &[0, 3, 5, 8])].concat();
    for (parts, mode, length) in [(parts, 1, 0), (with_content, 2, 32)] {
        let wrong_hash: Vec<_> = [0, 1, 31, 32, 33]
            .into_iter()
            .filter(|&l| l != length)
            .map(hash)
            .collect();
        changes(
            1,
            0x3E04,
            &parts,
            &[
                (0, &fields(0x2E0B, &[9]), &fields(0x2E0B, &[0, 8, 10])),
                (1, &[info(mode)], &wrong_info(mode)),
                (2, &fields(0x2E0F, &[8, 32]), &fields(0x2E0F, &[0, 7, 33])),
                (3, &fields(0x2E0A, &[1, 32]), &fields(0x2E0A, &[0, 33])),
                (4, &[hash(length)], &wrong_hash),
                (5, &fields(0x2E09, &[32]), &fields(0x2E09, &[0, 31, 33])),
                (6, &counters, &wrong_counters),
            ],
        );
        shapes(1, 0x3E04, &parts);
    }
}

/// Parts missing, repeated, added or in another order; the draft cut or longer.
fn shapes(kind: u32, tag: u16, parts: &[Vec<u8>]) {
    let draft = composite(tag, parts);
    assert!(is_draft(kind, &draft));
    for length in 0..draft.len() {
        assert!(!is_draft(kind, &draft[..length]));
    }
    assert!(!is_draft(kind, &[draft.clone(), vec![0]].concat()));
    assert!(!is_draft(kind, &[draft.clone(), draft].concat()));
    assert!(!is_draft(kind, &composite(tag ^ 1, parts)));
    for place in 0..parts.len() {
        let mut other = parts.to_vec();
        other.remove(place);
        assert!(!is_draft(kind, &composite(tag, &other)));
        other.push(parts[place].clone());
        assert_eq!(
            is_draft(kind, &composite(tag, &other)),
            place + 1 == parts.len()
        );
        other.push(parts[place].clone());
        assert!(!is_draft(kind, &composite(tag, &other)));
        let mut other = parts.to_vec();
        other.insert(place, tlv(0x0FFF, &[]));
        assert!(!is_draft(kind, &composite(tag, &other)));
        let mut other = parts.to_vec();
        other[place][0] ^= 0x40;
        assert!(!is_draft(kind, &composite(tag, &other)));
    }
}

#[test]
fn what_commands_write() {
    let (registration, table) = gives_draft(&with(REGISTER, &[]), &lent(), &[]);
    assert!(is_draft(0, &registration));
    for more in [&[][..], &[content(b"pay")]] {
        let (signed, _) = gives_draft(&with(SIGN, more), &lent(), &table);
        assert!(is_draft(1, &signed));
    }
}
