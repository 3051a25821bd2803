//! What a firmware does next with an answer: it completes a draft and reads the response.

use crate::calls::{CompleteCall, Expect, LEAST_RESPONSE};
use crate::check::{fail, Checked, Checker, Read, Wrote};
use crate::gen_draft::{REGISTRATION, SIGN};
use crate::outcome::number_at;
use crate::properties;
use crate::rng::Rng;
use crate::tlv;

/// A completion that is refused for nothing but perhaps its draft.
pub fn completion(rng: &mut Rng, kind: u32, draft: Vec<u8>) -> CompleteCall {
    let attestation = rng.pick(&[tlv::BASIC_FULL, tlv::BASIC_SURROGATE]);
    let signature = rng.length(1, 512);
    let certificate = match (kind, attestation) {
        (REGISTRATION, tlv::BASIC_FULL) => rng.length(1, 2048),
        (REGISTRATION, _) => 0,
        // A sign ignores type and certificate.
        _ => rng.pick(&[0, 1, 2048, 2049, 3000]),
    };
    CompleteCall {
        kind,
        draft,
        attestation: match kind {
            REGISTRATION => attestation.into(),
            _ => rng.next() as u32,
        },
        signature: rng.bytes(signature),
        certificate: rng.bytes(certificate),
        response_size: LEAST_RESPONSE + rng.pick(&[0, 0, 1, 500]),
    }
}

/// Completes the draft and reads it back from the response.
fn follow_draft(rng: &mut Rng, checker: &mut Checker, draft: &[u8]) -> Checked<Option<Read>> {
    checker.read(draft, Expect::Refusal(5))?;
    checker.counts.add_property(properties::DRAFT_ALONE);
    let kind = match number_at(draft, 0) {
        tlv::KRD => REGISTRATION,
        _ => SIGN,
    };
    let call = completion(rng, kind, draft.to_vec());
    match checker.complete(&call, Expect::Served)? {
        None => Ok(None),
        Some(response) => read_back(checker, &call, &response),
    }
}

/// Reads a completed response, whose signed stretch must be the draft.
pub fn read_back(
    checker: &mut Checker,
    call: &CompleteCall,
    response: &[u8],
) -> Checked<Option<Read>> {
    let read = checker.read(response, Expect::Served)?;
    checker.counts.add_property(properties::READ_BACK);
    match read {
        Some(read) if response[read.part.clone()] == call.draft[..] => Ok(Some(read)),
        _ => fail(properties::READ_BACK.into(), call.to_string()),
    }
}

/// What comes after a command that was not refused.
pub fn follow(rng: &mut Rng, checker: &mut Checker, wrote: &Wrote) -> Checked<Option<Read>> {
    if wrote.draft {
        return follow_draft(rng, checker, &wrote.response);
    }
    let read = checker.read(&wrote.response, Expect::Served)?;
    checker.counts.add_property(properties::READ);
    Ok(read)
}
