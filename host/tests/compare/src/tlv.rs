//! Document 01's tags and the writing of TLVs. Nothing is read here: what is read is what is tested.

pub const GET_INFO: u16 = 0x3401;
pub const REGISTER: u16 = 0x3402;
pub const SIGN: u16 = 0x3403;
pub const DEREGISTER: u16 = 0x3404;
pub const OPEN_SETTINGS: u16 = 0x3406;

pub const KEYHANDLE: u16 = 0x2801;
pub const USERVERIFY_TOKEN: u16 = 0x2803;
pub const APPID: u16 = 0x2804;
pub const ACCESS_TOKEN: u16 = 0x2805;
pub const USERNAME: u16 = 0x2806;
pub const ATTESTATION_TYPE: u16 = 0x2807;
pub const STATUS_CODE: u16 = 0x2808;
pub const METADATA: u16 = 0x2809;
pub const ASSERTION_SCHEME: u16 = 0x280A;
pub const CONTENT_TYPE: u16 = 0x280C;
pub const INDEX: u16 = 0x280D;
pub const API_VERSION: u16 = 0x280E;
pub const AUTHENTICATOR_ASSERTION: u16 = 0x280F;
pub const TRANSACTION_CONTENT: u16 = 0x2810;
pub const USERNAME_AND_KEYHANDLE: u16 = 0x3802;
pub const AUTHENTICATOR_INFO: u16 = 0x3811;

pub const REG_ASSERTION: u16 = 0x3E01;
pub const AUTH_ASSERTION: u16 = 0x3E02;
pub const KRD: u16 = 0x3E03;
pub const SIGNED_DATA: u16 = 0x3E04;
pub const CERT: u16 = 0x2E05;
pub const SIGNATURE: u16 = 0x2E06;
pub const BASIC_FULL: u16 = 0x3E07;
pub const BASIC_SURROGATE: u16 = 0x3E08;
pub const KEYID: u16 = 0x2E09;
pub const CHALLENGE_HASH: u16 = 0x2E0A;
pub const AAID: u16 = 0x2E0B;
pub const PUB_KEY: u16 = 0x2E0C;
pub const COUNTERS: u16 = 0x2E0D;
pub const ASSERTION_INFO: u16 = 0x2E0E;
pub const NONCE: u16 = 0x2E0F;
pub const CONTENT_HASH: u16 = 0x2E10;

pub const COMPOSITE: u16 = 0x1000;
pub const CRITICAL: u16 = 0x2000;

/// Every tag that document 01 names, the commands' and the responses' too.
#[rustfmt::skip]
pub const NAMED: [u16; 42] = [
    GET_INFO, REGISTER, SIGN, DEREGISTER, OPEN_SETTINGS, 0x3601, 0x3602, 0x3603, 0x3604, 0x3606,
    KEYHANDLE, USERVERIFY_TOKEN, APPID, ACCESS_TOKEN, USERNAME, ATTESTATION_TYPE, STATUS_CODE,
    METADATA, ASSERTION_SCHEME, CONTENT_TYPE, INDEX, API_VERSION, AUTHENTICATOR_ASSERTION,
    TRANSACTION_CONTENT, USERNAME_AND_KEYHANDLE, AUTHENTICATOR_INFO,
    REG_ASSERTION, AUTH_ASSERTION, KRD, SIGNED_DATA, CERT, SIGNATURE, BASIC_FULL, BASIC_SURROGATE,
    KEYID, CHALLENGE_HASH, AAID, PUB_KEY, COUNTERS, ASSERTION_INFO, NONCE, CONTENT_HASH,
];

/// One of the five commands.
#[derive(Clone, Copy, PartialEq, Eq, PartialOrd, Ord, Debug)]
pub enum Kind {
    GetInfo,
    Register,
    Sign,
    Deregister,
    OpenSettings,
}

impl Kind {
    pub const ALL: [Kind; 5] = [
        Kind::GetInfo,
        Kind::Register,
        Kind::Sign,
        Kind::Deregister,
        Kind::OpenSettings,
    ];

    pub fn tag(self) -> u16 {
        match self {
            Kind::GetInfo => GET_INFO,
            Kind::Register => REGISTER,
            Kind::Sign => SIGN,
            Kind::Deregister => DEREGISTER,
            Kind::OpenSettings => OPEN_SETTINGS,
        }
    }

    pub fn response_tag(self) -> u16 {
        self.tag() + 0x0200
    }

    /// The command that these bytes are by their outer tag.
    pub fn of(command: &[u8]) -> Option<Kind> {
        if command.len() < 4 {
            return None;
        }
        let tag = u16::from_le_bytes([command[0], command[1]]);
        Kind::ALL.iter().copied().find(|kind| kind.tag() == tag)
    }
}

/// A TLV with its value. Lengths of 65,536 and more wrap, which no TLV that is meant to be right has.
pub fn tlv(tag: u16, value: &[u8]) -> Vec<u8> {
    let mut bytes = Vec::with_capacity(4 + value.len());
    put(&mut bytes, tag, value);
    bytes
}

/// Appends a TLV.
pub fn put(bytes: &mut Vec<u8>, tag: u16, value: &[u8]) {
    bytes.extend_from_slice(&tag.to_le_bytes());
    bytes.extend_from_slice(&(value.len() as u16).to_le_bytes());
    bytes.extend_from_slice(value);
}

/// A TLV to be written, with its tag and value apart so that a generator can still change either.
#[derive(Clone, Debug)]
pub struct Child {
    pub tag: u16,
    pub value: Vec<u8>,
}

impl Child {
    pub fn new(tag: u16, value: impl Into<Vec<u8>>) -> Child {
        Child {
            tag,
            value: value.into(),
        }
    }
}

/// The children one after another.
pub fn run(children: &[Child]) -> Vec<u8> {
    let mut bytes = Vec::new();
    for child in children {
        put(&mut bytes, child.tag, &child.value);
    }
    bytes
}

/// A TLV that holds the children.
pub fn holding(tag: u16, children: &[Child]) -> Vec<u8> {
    tlv(tag, &run(children))
}

/// Adds to the length field of the TLV that starts at `place`.
pub fn add_to_length(bytes: &mut [u8], place: usize, amount: i32) {
    let length = i32::from(u16::from_le_bytes([bytes[place + 2], bytes[place + 3]]));
    bytes[place + 2..place + 4].copy_from_slice(&((length + amount) as u16).to_le_bytes());
}
