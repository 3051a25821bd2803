//! The paper's numbers: tags, statuses, lengths, and the five commands.

use crate::tlv::Limit;

/// Tags of fields and signed parts.
pub(crate) mod tag {
    pub const KEYHANDLE: u16 = 0x2801;
    pub const USERVERIFY_TOKEN: u16 = 0x2803;
    pub const APPID: u16 = 0x2804;
    pub const KEYHANDLE_ACCESS_TOKEN: u16 = 0x2805;
    pub const USERNAME: u16 = 0x2806;
    pub const ATTESTATION_TYPE: u16 = 0x2807;
    pub const STATUS_CODE: u16 = 0x2808;
    pub const METADATA: u16 = 0x2809;
    pub const ASSERTION_SCHEME: u16 = 0x280A;
    pub const TC_DISPLAY_CONTENT_TYPE: u16 = 0x280C;
    pub const AUTHENTICATOR_INDEX: u16 = 0x280D;
    pub const API_VERSION: u16 = 0x280E;
    pub const AUTHENTICATOR_ASSERTION: u16 = 0x280F;
    pub const TRANSACTION_CONTENT: u16 = 0x2810;
    pub const USERNAME_AND_KEYHANDLE: u16 = 0x3802;
    pub const AUTHENTICATOR_INFO: u16 = 0x3811;
    pub const REG_ASSERTION: u16 = 0x3E01;
    pub const AUTH_ASSERTION: u16 = 0x3E02;
    pub const KRD: u16 = 0x3E03;
    pub const SIGNED_DATA: u16 = 0x3E04;
    pub const CERT: u16 = 0x2E05;
    pub const SIGNATURE: u16 = 0x2E06;
    pub const BASIC_FULL: u16 = 0x3E07;
    pub const BASIC_SURROGATE: u16 = 0x3E08;
    pub const KEYID: u16 = 0x2E09;
    pub const FINAL_CHALLENGE_HASH: u16 = 0x2E0A;
    pub const AAID: u16 = 0x2E0B;
    pub const PUB_KEY: u16 = 0x2E0C;
    pub const COUNTERS: u16 = 0x2E0D;
    pub const ASSERTION_INFO: u16 = 0x2E0E;
    pub const NONCE: u16 = 0x2E0F;
    pub const TRANSACTION_CONTENT_HASH: u16 = 0x2E10;
}

/// Limits of values that stand in more than one place.
pub(crate) mod limit {
    use super::Limit;

    pub(crate) const AAID: Limit = Limit::Exactly(super::AAID);
    pub(crate) const METADATA: Limit = Limit::Exactly(super::METADATA);
    pub(crate) const KEY_ID: Limit = Limit::Exactly(32);
    pub(crate) const MIXED: Limit = Limit::Exactly(32);
    /// "A username must now be well-formed UTF-8 by RFC 3629, still 1 to 128 bytes."
    pub(crate) const USERNAME: Limit = Limit::Text(1, super::MOST_NAME);
    pub(crate) const CHALLENGE: Limit = Limit::Between(1, 32);
    pub(crate) const APP_ID: Limit = Limit::Between(1, 512);
    /// "An access token must now be 32 bytes, else 0x08, because token and AppID run together without
    /// a mark".
    pub(crate) const ACCESS_TOKEN: Limit = Limit::Exactly(32);
    /// "KeyID in Deregister 0 or 32".
    pub(crate) const KEY_ID_OR_ALL: Limit = Limit::EmptyOr(32);
    pub(crate) const NONCE: Limit = Limit::Between(8, 32);
    pub(crate) const PUBLIC_KEY: Limit = Limit::Between(1, 512);
    pub(crate) const SIGNATURE: Limit = Limit::Between(1, 512);
    pub(crate) const CERTIFICATE: Limit = Limit::Between(1, 2048);
}

/// The length of an AAID.
pub(crate) const AAID: usize = 9;
/// The length of metadata.
pub(crate) const METADATA: usize = 15;

/// A KeyID, a mixed token, or a transaction hash.
pub(crate) type Bytes32 = [u8; 32];

/// "response output shorter than 4,096"; the longest response, a full registration, has 3,218.
pub(crate) const LEAST_RESPONSE: usize = 4096;
/// The stored form is "6,912 bytes at most": 32 records of 216.
pub(crate) const LEAST_TABLE: usize = 6912;
/// "A command is at most 8,192 bytes", its header included.
pub(crate) const MOST_COMMAND: usize = 8192;
/// "The table has at most 32 records".
pub(crate) const MOST_RECORDS: usize = 32;
/// "a username of 1 to 128 bytes".
pub(crate) const MOST_NAME: usize = 128;
/// "at most 8 with one mixed token".
pub(crate) const MOST_OWN: usize = 8;
/// "key handle 32 (here it carries a KeyID), at most 8 of them": as many as records of a holder, so
/// that one kind of list holds either.
pub(crate) const MOST_HANDLES: usize = MOST_OWN;

/// The index of the only authenticator.
pub(crate) const INDEX: [u8; 1] = [0];
/// The version that GetInfo tells.
pub(crate) const API: [u8; 1] = [1];
/// What the display can show.
pub(crate) const CONTENT_TYPE: &[u8; 10] = b"text/plain";
/// "the eight letters UAFV1TLV".
pub(crate) const SCHEME: &[u8; 8] = b"UAFV1TLV";
/// Mode: the user was verified.
pub(crate) const VERIFIED: u8 = 0x01;
/// Mode: the user was verified and the content was shown.
pub(crate) const CONFIRMED: u8 = 0x02;

/// The statuses that the token gives.
#[derive(Clone, Copy, PartialEq, Eq, Debug)]
#[repr(u16)]
pub(crate) enum Status {
    Ok = 0x00,
    ErrUnknown = 0x01,
    AccessDenied = 0x02,
    UserNotEnrolled = 0x03,
    CannotRender = 0x04,
    UserCancelled = 0x05,
    CmdNotSupported = 0x06,
    AttestationNotSupported = 0x07,
    ParamsInvalid = 0x08,
    UserNotResponsive = 0x0E,
    InsufficientResources = 0x0F,
    UserLockout = 0x10,
}

impl Status {
    pub(crate) fn bytes(self) -> [u8; 2] {
        (self as u16).to_le_bytes()
    }
}

/// The five commands.
#[derive(Clone, Copy, PartialEq, Eq, Debug)]
pub(crate) enum Kind {
    GetInfo,
    Register,
    Sign,
    Deregister,
    OpenSettings,
}

impl Kind {
    const ALL: [Kind; 5] = [
        Kind::GetInfo,
        Kind::Register,
        Kind::Sign,
        Kind::Deregister,
        Kind::OpenSettings,
    ];

    /// The tags of the command and of its response.
    fn tags(self) -> (u16, u16) {
        match self {
            Kind::GetInfo => (0x3401, 0x3601),
            Kind::Register => (0x3402, 0x3602),
            Kind::Sign => (0x3403, 0x3603),
            Kind::Deregister => (0x3404, 0x3604),
            Kind::OpenSettings => (0x3406, 0x3606),
        }
    }

    pub(crate) fn command_tag(self) -> u16 {
        self.tags().0
    }

    pub(crate) fn response_tag(self) -> u16 {
        self.tags().1
    }

    /// Refusal 3 is for "fewer than 4 bytes or an outer tag that is none of the five".
    pub(crate) fn of_command(command: &[u8]) -> Option<Kind> {
        match *command {
            [low, high, _, _, ..] => {
                let tag = u16::from_le_bytes([low, high]);
                Kind::ALL.into_iter().find(|kind| kind.command_tag() == tag)
            }
            _ => None,
        }
    }

    pub(crate) fn of_response(tag: u16) -> Option<Kind> {
        Kind::ALL
            .into_iter()
            .find(|kind| kind.response_tag() == tag)
    }

    /// The statuses that can stand in a response with nothing after them.
    pub(crate) fn lone_statuses(self) -> &'static [Status] {
        match self {
            Kind::GetInfo => &[Status::ParamsInvalid],
            Kind::Register => &[
                Status::ParamsInvalid,
                Status::AccessDenied,
                Status::UserNotEnrolled,
                Status::UserCancelled,
                Status::UserNotResponsive,
                Status::UserLockout,
                Status::AttestationNotSupported,
                Status::ErrUnknown,
                Status::InsufficientResources,
            ],
            Kind::Sign => &[
                Status::ParamsInvalid,
                Status::AccessDenied,
                Status::UserNotEnrolled,
                Status::UserCancelled,
                Status::UserNotResponsive,
                Status::UserLockout,
                Status::CannotRender,
                Status::ErrUnknown,
            ],
            Kind::Deregister => &[Status::ParamsInvalid, Status::AccessDenied, Status::Ok],
            Kind::OpenSettings => &[Status::ParamsInvalid, Status::CmdNotSupported],
        }
    }
}

/// The two attestation types.
#[derive(Clone, Copy, PartialEq, Eq, Debug)]
pub(crate) enum Attestation {
    Full,
    Surrogate,
}

impl Attestation {
    pub(crate) fn of(number: u32) -> Option<Attestation> {
        [Attestation::Full, Attestation::Surrogate]
            .into_iter()
            .find(|attestation| u32::from(attestation.tag()) == number)
    }

    pub(crate) fn tag(self) -> u16 {
        match self {
            Attestation::Full => tag::BASIC_FULL,
            Attestation::Surrogate => tag::BASIC_SURROGATE,
        }
    }
}
