//! The two structures that are signed, KRD and SIGNED_DATA: written as drafts, and read for
//! Complete and the reader.

use crate::lent::{Registering, Signing};
use crate::numbers::{limit, tag, Bytes32, CONFIRMED, VERIFIED};
use crate::sha256::hash;
use crate::tlv::{Limit, Row, Run, Sink, Writer};

const KRD: [Row; 6] = [
    Row(tag::AAID, limit::AAID),
    Row(tag::ASSERTION_INFO, Limit::Exactly(7)),
    Row(tag::FINAL_CHALLENGE_HASH, limit::CHALLENGE),
    Row(tag::KEYID, limit::KEY_ID),
    Row(tag::COUNTERS, Limit::Exactly(8)),
    Row(tag::PUB_KEY, limit::PUBLIC_KEY),
];

const SIGNED_DATA: [Row; 7] = [
    Row(tag::AAID, limit::AAID),
    Row(tag::ASSERTION_INFO, Limit::Exactly(5)),
    Row(tag::NONCE, limit::NONCE),
    Row(tag::FINAL_CHALLENGE_HASH, limit::CHALLENGE),
    Row(tag::TRANSACTION_CONTENT_HASH, Limit::EmptyOr(32)),
    Row(tag::KEYID, limit::KEY_ID),
    Row(tag::COUNTERS, Limit::Exactly(4)),
];

/// "SignCounter 0, RegCounter 0; 4 bytes each".
const NEW_COUNTERS: [u8; 8] = [0; 8];

pub(crate) fn write_krd(lent: &Registering, challenge: &[u8], out: &mut Writer) {
    out.wrap(tag::KRD, |out| {
        out.tlv(tag::AAID, lent.profile.aaid);
        out.wrap(tag::ASSERTION_INFO, |out| {
            out.u16(lent.profile.version);
            out.put(&[VERIFIED]);
            out.u16(lent.profile.signature_algorithm);
            out.u16(lent.profile.key_algorithm);
        });
        out.tlv(tag::FINAL_CHALLENGE_HASH, challenge);
        out.tlv(tag::KEYID, lent.key_id);
        out.tlv(tag::COUNTERS, &NEW_COUNTERS);
        out.tlv(tag::PUB_KEY, lent.public_key);
    });
}

/// "Mode is 0x02 with content, else 0x01 and a hash of length 0." The transaction hash is "that of
/// the content"; content that is empty is none and isn't hashed.
pub(crate) fn write_signed_data(
    lent: &Signing,
    challenge: &[u8],
    content: &[u8],
    key_id: &Bytes32,
    counter: u32,
    out: &mut Writer,
) {
    let of_content;
    let (mode, transaction_hash) = if content.is_empty() {
        (VERIFIED, [].as_slice())
    } else {
        of_content = hash(content, &[]);
        (CONFIRMED, of_content.as_slice())
    };
    out.wrap(tag::SIGNED_DATA, |out| {
        out.tlv(tag::AAID, lent.profile.aaid);
        out.wrap(tag::ASSERTION_INFO, |out| {
            out.u16(lent.profile.version);
            out.put(&[mode]);
            out.u16(lent.profile.signature_algorithm);
        });
        out.tlv(tag::NONCE, lent.nonce);
        out.tlv(tag::FINAL_CHALLENGE_HASH, challenge);
        out.tlv(tag::TRANSACTION_CONTENT_HASH, transaction_hash);
        out.tlv(tag::KEYID, key_id);
        out.tlv(tag::COUNTERS, &counter.to_le_bytes());
    });
}

/// Whether a Register can write a KRD that holds this run.
pub(crate) fn is_krd(run: Run, sink: &mut impl Sink) -> bool {
    match run.leaves(&KRD, sink) {
        Some([_, info, _, _, counters, _]) => {
            mode(info) == Some(VERIFIED) && counters == NEW_COUNTERS
        }
        None => false,
    }
}

/// Whether a Sign can write a SIGNED_DATA that holds this run. The count has risen, so it isn't 0.
/// "Nobody can look back through a hash, so [...] any 32 bytes count as a transaction hash".
pub(crate) fn is_signed_data(run: Run, sink: &mut impl Sink) -> bool {
    match run.leaves(&SIGNED_DATA, sink) {
        Some([_, info, _, _, hash, _, counter]) => {
            let expected = if hash.is_empty() { VERIFIED } else { CONFIRMED };
            mode(info) == Some(expected) && counter != [0; 4]
        }
        None => false,
    }
}

/// The mode stands after the version of 2 bytes.
fn mode(info: &[u8]) -> Option<u8> {
    info.get(2).copied()
}
