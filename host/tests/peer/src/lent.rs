//! The lent results that each command uses, and refusal 4: "a lent result that this command uses
//! has a wrong length or number". What a command doesn't use is never looked at. "The token works
//! out the mixed token and the transaction hash", so they are not among these.

use crate::numbers::{limit, Bytes32, Kind, Status, AAID, METADATA};
use crate::{Lent, Profile};

/// What the fingerprint or the display said: go on, or the status to answer with.
pub(crate) type Said = Result<(), Status>;

/// A profile whose lengths and numbers are right: "AAID of 9 bytes, authenticator version,
/// signature and public-key algorithm (16 bits each), metadata of 15 bytes".
pub(crate) struct RightProfile<'a> {
    pub aaid: &'a [u8; AAID],
    pub version: u16,
    pub signature_algorithm: u16,
    pub key_algorithm: u16,
    pub metadata: &'a [u8; METADATA],
}

/// A command with the lent results it uses.
pub(crate) enum Call<'a> {
    GetInfo(RightProfile<'a>),
    Register(Registering<'a>),
    Sign(Signing<'a>),
    Deregister,
    OpenSettings,
}

/// "Register profile, verdict, [...] KeyID, public key".
pub(crate) struct Registering<'a> {
    pub profile: RightProfile<'a>,
    pub verdict: Said,
    pub key_id: &'a Bytes32,
    pub public_key: &'a [u8],
}

/// "Sign profile, verdict, display result, [...] nonce".
pub(crate) struct Signing<'a> {
    pub profile: RightProfile<'a>,
    pub verdict: Said,
    pub display: Said,
    pub nonce: &'a [u8],
}

impl<'a> Call<'a> {
    /// Nothing, if a lent result that the command uses is wrong.
    pub(crate) fn of(kind: Kind, lent: &Lent<'a>) -> Option<Self> {
        Some(match kind {
            Kind::GetInfo => Call::GetInfo(profile(lent)?),
            Kind::Register => Call::Register(Registering {
                profile: profile(lent)?,
                verdict: verdict(lent.verdict)?,
                key_id: lent.key_id.try_into().ok()?,
                public_key: Some(lent.public_key).filter(|key| limit::PUBLIC_KEY.allows(key))?,
            }),
            Kind::Sign => Call::Sign(Signing {
                profile: profile(lent)?,
                verdict: verdict(lent.verdict)?,
                display: display(lent.display)?,
                nonce: Some(lent.nonce).filter(|nonce| limit::NONCE.allows(nonce))?,
            }),
            Kind::Deregister => Call::Deregister,
            Kind::OpenSettings => Call::OpenSettings,
        })
    }

    pub(crate) fn kind(&self) -> Kind {
        match self {
            Call::GetInfo(_) => Kind::GetInfo,
            Call::Register(_) => Kind::Register,
            Call::Sign(_) => Kind::Sign,
            Call::Deregister => Kind::Deregister,
            Call::OpenSettings => Kind::OpenSettings,
        }
    }
}

/// The profile is used as a whole: a number that this command doesn't write is looked at too.
fn profile<'a>(lent: &Lent<'a>) -> Option<RightProfile<'a>> {
    let Profile {
        aaid,
        version,
        signature_algorithm,
        key_algorithm,
        metadata,
    } = lent.profile;
    Some(RightProfile {
        aaid: aaid.try_into().ok()?,
        version: version.try_into().ok()?,
        signature_algorithm: signature_algorithm.try_into().ok()?,
        key_algorithm: key_algorithm.try_into().ok()?,
        metadata: metadata.try_into().ok()?,
    })
}

/// "0 verified, 1 denied, 2 not enrolled, 3 cancelled, 4 no reply, 5 locked out".
fn verdict(number: u32) -> Option<Said> {
    Some(match number {
        0 => Ok(()),
        1 => Err(Status::AccessDenied),
        2 => Err(Status::UserNotEnrolled),
        3 => Err(Status::UserCancelled),
        4 => Err(Status::UserNotResponsive),
        5 => Err(Status::UserLockout),
        _ => return None,
    })
}

/// "0 confirmed, 1 cancelled, 2 cannot render, 3 no reply".
fn display(number: u32) -> Option<Said> {
    Some(match number {
        0 => Ok(()),
        1 => Err(Status::UserCancelled),
        2 => Err(Status::CannotRender),
        3 => Err(Status::UserNotResponsive),
        _ => return None,
    })
}
