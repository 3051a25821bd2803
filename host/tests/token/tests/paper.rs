//! Document 01's examples P1 to P9 by the C entry, what P7 to P9 showed before a token had to be of 32
//! bytes, and one registration through all four entries. Hashes are those of `sha256sum`.

use uaf_peer::{Answer, Lent, Profile, Refusal};

/// The access token of the commands that are right.
const TOKEN: [u8; 32] = [0xAA; 32];

/// Its hash, without an AppID and with the AppID `a`.
#[rustfmt::skip]
const MIXED: [u8; 32] = [
    0xE0, 0xE7, 0x7A, 0x50, 0x74, 0x12, 0xB1, 0x20, 0xF6, 0xED, 0xE6, 0x1F, 0x62, 0x29, 0x5B, 0x1A,
    0x7B, 0x2F, 0xF1, 0x9D, 0x3D, 0xCC, 0x8F, 0x72, 0x53, 0xE5, 0x16, 0x63, 0x47, 0x0C, 0x88, 0x8E,
];
#[rustfmt::skip]
const MIXED_A: [u8; 32] = [
    0xC3, 0x07, 0x88, 0x20, 0x7A, 0x86, 0x98, 0x10, 0x7E, 0xBB, 0xE6, 0x24, 0x51, 0x38, 0x3F, 0xDE,
    0x61, 0x3A, 0x74, 0xE4, 0x26, 0xAA, 0xC7, 0x5C, 0xC0, 0x0D, 0xCB, 0x58, 0x1C, 0xFB, 0x08, 0xDD,
];

fn lent() -> Lent<'static> {
    Lent {
        profile: Profile {
            aaid: b"4A4F#0001",
            version: 0x0102,
            signature_algorithm: 0x0304,
            key_algorithm: 0x0506,
            metadata: b"0123456789:;<=>",
        },
        verdict: 0,
        display: 0,
        key_id: &[0x22; 32],
        public_key: &[0x33; 65],
        nonce: &[0x44; 8],
    }
}

/// What a command wrote: whether it is a draft, its bytes, and the table left.
struct Wrote {
    draft: bool,
    bytes: Vec<u8>,
    table: Vec<u8>,
}

fn run(command: &[u8], table: &[u8]) -> Result<Wrote, Refusal> {
    let mut response = [0; 4096];
    let mut table_out = [0; 6912];
    let served = uaf_token::command(command, &lent(), table, &mut response, &mut table_out)?;
    let (draft, length) = match served.answer {
        Answer::Response(length) => (false, length),
        Answer::Draft(length) => (true, length),
    };
    Ok(Wrote {
        draft,
        bytes: response[..length].to_vec(),
        table: table_out[..served.table_length].to_vec(),
    })
}

fn response(command: &[u8], table: &[u8]) -> Vec<u8> {
    let wrote = run(command, table).expect("a response");
    assert!(!wrote.draft);
    wrote.bytes
}

fn tlv(tag: u16, value: &[u8]) -> Vec<u8> {
    let length = value.len() as u16;
    [&tag.to_le_bytes(), &length.to_le_bytes(), value].concat()
}

fn record(key_id: u8, mixed: &[u8; 32], name: &str) -> Vec<u8> {
    let children = [
        tlv(0x2E09, &[key_id; 32]),
        tlv(0x2805, mixed),
        tlv(0x2806, name.as_bytes()),
        tlv(0x2E0D, &[0; 4]),
    ];
    tlv(0x3802, &children.concat())
}

const INVALID_INFO: [u8; 10] = [0x01, 0x36, 0x06, 0, 0x08, 0x28, 0x02, 0, 0x08, 0];
/// P8's command.
const SIGN: [u8; 19] = [
    0x03, 0x34, 0x0F, 0, 0x0D, 0x28, 1, 0, 0, 0x0A, 0x2E, 1, 0, 0xAA, 0x05, 0x28, 1, 0, 0xAA,
];

#[test]
fn p1_information() {
    let answer = response(&[0x01, 0x34, 0, 0], &[]);
    assert_eq!(answer.len(), 94);
    assert_eq!(
        answer[..10],
        [0x01, 0x36, 0x5A, 0, 0x08, 0x28, 0x02, 0, 0, 0]
    );
}

#[test]
fn p2_a_child_is_skipped() {
    let answer = response(&[0x01, 0x34, 4, 0, 0xFF, 0x0F, 0, 0], &[]);
    assert_eq!(answer, response(&[0x01, 0x34, 0, 0], &[]));
}

#[test]
fn p3_a_critical_child() {
    let answer = response(&[0x01, 0x34, 4, 0, 0xFF, 0x2F, 0, 0], &[]);
    assert_eq!(answer, INVALID_INFO);
}

#[test]
fn p4_a_stray_byte() {
    assert_eq!(response(&[0x01, 0x34, 1, 0, 0], &[]), INVALID_INFO);
}

#[test]
fn p5_no_command() {
    for bytes in [&[0x05, 0x34, 0, 0][..], &[0x01, 0x34, 0]] {
        assert_eq!(run(bytes, &[]).err(), Some(Refusal::Command));
    }
}

#[test]
fn p6_open_settings() {
    let answer = response(&[0x06, 0x34, 5, 0, 0x0D, 0x28, 1, 0, 0], &[]);
    assert_eq!(answer, [0x06, 0x36, 6, 0, 0x08, 0x28, 2, 0, 6, 0]);
}

fn status(tag: u8, status: u8) -> [u8; 10] {
    [tag, 0x36, 6, 0, 0x08, 0x28, 2, 0, status, 0]
}

/// Ann, then Bo, of one holder.
fn two_records() -> Vec<u8> {
    [record(1, &MIXED, "Ann"), record(2, &MIXED, "Bo")].concat()
}

#[test]
fn p7_a_token_of_one_byte() {
    let command = [
        0x04, 0x34, 0x0E, 0, 0x0D, 0x28, 1, 0, 0, 0x09, 0x2E, 0, 0, 0x05, 0x28, 1, 0, 0xAA,
    ];
    assert_eq!(response(&command, &[]), status(0x04, 0x08));
}

#[test]
fn p8_a_token_of_one_byte() {
    assert_eq!(response(&SIGN, &[]), status(0x03, 0x08));
}

#[test]
fn p9_a_token_of_one_byte() {
    assert_eq!(response(&SIGN, &two_records()), status(0x03, 0x08));
}

/// A Deregister of all records of a token.
fn deregister(token: &[u8]) -> Vec<u8> {
    let children = [tlv(0x280D, &[0]), tlv(0x2E09, &[]), tlv(0x2805, token)];
    tlv(0x3404, &children.concat())
}

/// A Sign with this token and some more children.
fn sign(token: &[u8], more: &[Vec<u8>]) -> Vec<u8> {
    let children = [tlv(0x280D, &[0]), tlv(0x2E0A, &[0xAA]), tlv(0x2805, token)];
    tlv(0x3403, &[&children[..], more].concat().concat())
}

#[test]
fn nothing_to_deregister() {
    assert_eq!(response(&deregister(&TOKEN), &[]), status(0x04, 0));
}

#[test]
fn no_key_to_sign_with() {
    assert_eq!(response(&sign(&TOKEN, &[]), &[]), status(0x03, 0x02));
}

#[test]
fn a_dead_heat() {
    let table = two_records();
    let wrote = run(&sign(&TOKEN, &[]), &table).expect("a list");
    assert_eq!((wrote.draft, wrote.bytes.len()), (false, 103));
    assert_eq!(wrote.bytes[14..21], [0x06, 0x28, 3, 0, b'A', b'n', b'n']);
    assert_eq!(wrote.table, table);
}

#[test]
fn tokens_of_other_lengths() {
    for length in [0, 1, 31, 33] {
        let token = vec![0xAA; length];
        assert_eq!(response(&deregister(&token), &[]), status(0x04, 0x08));
        assert_eq!(response(&sign(&token, &[]), &[]), status(0x03, 0x08));
    }
}

/// Each record is met by the commands that give its AppID, or none, and by no others.
#[test]
fn an_app_id_given_or_missing() {
    let table = [record(1, &MIXED, "Ann"), record(2, &MIXED_A, "Bo")].concat();
    for (more, key_id) in [(vec![], 1), (vec![tlv(0x2804, b"a")], 2)] {
        let wrote = run(&sign(&TOKEN, &more), &table).expect("a draft");
        assert!(wrote.draft);
        // The KeyID stands before the counter, which has 8 bytes with its header.
        let end = wrote.bytes.len() - 8;
        assert_eq!(wrote.bytes[end - 32..end], [key_id; 32]);
    }
    let other = sign(&TOKEN, &[tlv(0x2804, b"b")]);
    assert_eq!(response(&other, &table), status(0x03, 0x02));
}

/// The draft has the hash of the content, which is FIPS 180-4's first example, or an empty one.
#[test]
fn content_is_hashed() {
    #[rustfmt::skip]
    let abc = [
        0xBA, 0x78, 0x16, 0xBF, 0x8F, 0x01, 0xCF, 0xEA, 0x41, 0x41, 0x40, 0xDE, 0x5D, 0xAE, 0x22, 0x23,
        0xB0, 0x03, 0x61, 0xA3, 0x96, 0x17, 0x7A, 0x9C, 0xB4, 0x10, 0xFF, 0x61, 0xF2, 0x00, 0x15, 0xAD,
    ];
    let table = record(1, &MIXED, "Ann");
    for (content, mode, hash) in [(&b"abc"[..], 2, &abc[..]), (b"", 1, b"")] {
        let command = sign(&TOKEN, &[tlv(0x2810, content)]);
        let wrote = run(&command, &table).expect("a draft");
        assert!(wrote.draft);
        assert_eq!(wrote.bytes[23], mode);
        // After AAID (13 bytes), ASSERTION_INFO (9), the nonce (12) and the challenge (5).
        let field = tlv(0x2E10, hash);
        assert_eq!(wrote.bytes[43..43 + field.len()], field[..]);
    }
}

#[test]
fn a_registration_is_read_back() {
    let children = [
        tlv(0x280D, &[0]),
        tlv(0x2E0A, &[0xAA]),
        tlv(0x2806, b"Ann"),
        tlv(0x2807, &[0x08, 0x3E]),
        tlv(0x2805, &TOKEN),
    ];
    let wrote = run(&tlv(0x3402, &children.concat()), &[]).expect("a draft");
    assert!(wrote.draft);
    assert_eq!(wrote.table, record(0x22, &MIXED, "Ann"));
    assert_eq!(
        uaf_token::signed_part(&wrote.bytes).err(),
        Some(Refusal::Bytes)
    );

    let mut response = [0; 4096];
    let length = uaf_token::complete(0, &wrote.bytes, 0x3E08, &[0x66; 64], &[], &mut response)
        .expect("a completion");
    let response = &response[..length];
    let part = uaf_token::signed_part(response).expect("a response");
    assert_eq!((part.start, &response[part]), (18, &wrote.bytes[..]));

    let read = uaf_token::read_fields(response).expect("a response");
    assert_eq!((read.tag, read.status, read.count), (0x3602, 0, 8));
    let signature = read.fields[7];
    assert_eq!((signature.tag, signature.length), (0x2E06, 64));
    assert_eq!(signature.place + 64, length);
}
