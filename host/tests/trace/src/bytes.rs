//! Bytes of commands, records and responses, put together TLV by TLV, so that wrong ones can be
//! made as well as right ones.

use uaf_peer::hash;

pub const GETINFO: u16 = 0x3401;
pub const REGISTER: u16 = 0x3402;
pub const SIGN: u16 = 0x3403;
pub const DEREGISTER: u16 = 0x3404;
pub const OPEN_SETTINGS: u16 = 0x3406;

pub const KEYHANDLE: u16 = 0x2801;
pub const USERVERIFY_TOKEN: u16 = 0x2803;
pub const APPID: u16 = 0x2804;
pub const ACCESS_TOKEN: u16 = 0x2805;
pub const USERNAME: u16 = 0x2806;
pub const ATTESTATION_TYPE: u16 = 0x2807;
pub const STATUS_CODE: u16 = 0x2808;
pub const INDEX: u16 = 0x280D;
pub const AUTHENTICATOR_ASSERTION: u16 = 0x280F;
pub const TRANSACTION_CONTENT: u16 = 0x2810;
pub const USERNAME_AND_KEYHANDLE: u16 = 0x3802;

pub const REG_ASSERTION: u16 = 0x3E01;
pub const AUTH_ASSERTION: u16 = 0x3E02;
pub const KRD: u16 = 0x3E03;
pub const SIGNED_DATA: u16 = 0x3E04;
pub const CERT: u16 = 0x2E05;
pub const SIGNATURE: u16 = 0x2E06;
pub const BASIC_FULL: u16 = 0x3E07;
pub const BASIC_SURROGATE: u16 = 0x3E08;
pub const KEYID: u16 = 0x2E09;
pub const CHALLENGE: u16 = 0x2E0A;
pub const AAID: u16 = 0x2E0B;
pub const PUB_KEY: u16 = 0x2E0C;
pub const COUNTERS: u16 = 0x2E0D;
pub const ASSERTION_INFO: u16 = 0x2E0E;
pub const NONCE: u16 = 0x2E0F;
pub const CONTENT_HASH: u16 = 0x2E10;

/// Tags that no paper names: a TLV that is skipped, a composite that is, and a critical one.
pub const SKIPPED: u16 = 0x0FFF;
pub const SKIPPED_COMPOSITE: u16 = 0x1FFF;
pub const CRITICAL: u16 = 0x2FFF;

/// Access tokens of three holders, whose commands give no AppID.
pub const ANN: [u8; 32] = [0xA0; 32];
pub const BO: [u8; 32] = [0xB0; 32];
pub const CY: [u8; 32] = [0xC0; 32];

pub fn tlv(tag: u16, value: &[u8]) -> Vec<u8> {
    let length = u16::try_from(value.len()).expect("a length of 16 bits");
    [&tag.to_le_bytes(), &length.to_le_bytes(), value].concat()
}

/// A TLV whose value is these parts.
pub fn holding(tag: u16, parts: &[Vec<u8>]) -> Vec<u8> {
    tlv(tag, &parts.concat())
}

/// The KeyID with this number.
pub fn key(number: u8) -> Vec<u8> {
    [number, 0x11].repeat(16)
}

/// The stored form of a record of the holder with this access token and no AppID.
pub fn record(number: u8, token: &[u8; 32], name: &[u8], count: u32) -> Vec<u8> {
    stored(number, &hash(token, b""), name, count)
}

/// The stored form of a record, of whatever lengths.
pub fn stored(number: u8, mixed: &[u8], name: &[u8], count: u32) -> Vec<u8> {
    holding(
        USERNAME_AND_KEYHANDLE,
        &[
            tlv(KEYID, &key(number)),
            tlv(ACCESS_TOKEN, mixed),
            tlv(USERNAME, name),
            tlv(COUNTERS, &count.to_le_bytes()),
        ],
    )
}

/// Ann's record with this number.
pub fn anns(number: u8) -> Vec<u8> {
    record(number, &ANN, b"Ann", 0)
}

pub fn hex(bytes: &[u8]) -> String {
    bytes.iter().map(|byte| format!("{byte:02X}")).collect()
}

/// A TLV that was met: its tag, its value's place and its value's length.
pub struct Met {
    pub tag: u16,
    pub place: usize,
    pub length: usize,
}

/// Every TLV of well-formed bytes that start at a place, each followed by those in it.
pub fn walk(bytes: &[u8], start: usize) -> Vec<Met> {
    let (mut met, mut at) = (vec![], 0);
    while at < bytes.len() {
        let tag = u16::from_le_bytes([bytes[at], bytes[at + 1]]);
        let length = usize::from(u16::from_le_bytes([bytes[at + 2], bytes[at + 3]]));
        let value = &bytes[at + 4..at + 4 + length];
        let place = start + at + 4;
        met.push(Met { tag, place, length });
        if tag & 0x1000 != 0 || tag == AUTHENTICATOR_ASSERTION {
            met.extend(walk(value, place));
        }
        at += 4 + length;
    }
    met
}
