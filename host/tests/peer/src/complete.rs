//! Complete: the response of a draft and its signature.

use crate::command::write_response;
use crate::draft::{is_krd, is_signed_data};
use crate::numbers::{limit, tag, Attestation, Kind, Status, LEAST_RESPONSE};
use crate::tlv::{Run, Writer};
use crate::Refusal;

/// Writes the response of a draft and its signature; `kind` is 0 for a registration, 1 for a sign.
/// Gives its length.
///
/// # Errors
///
/// The first that applies of [`Refusal::Output`], [`Refusal::Bytes`] and [`Refusal::Lent`].
pub fn complete(
    kind: u32,
    draft: &[u8],
    attestation: u32,
    signature: &[u8],
    certificate: &[u8],
    response: &mut [u8],
) -> Result<usize, Refusal> {
    if response.len() < LEAST_RESPONSE {
        return Err(Refusal::Output);
    }
    let kind = kind_of(kind, draft).ok_or(Refusal::Bytes)?;
    if !limit::SIGNATURE.allows(signature) {
        return Err(Refusal::Lent);
    }
    let mut out = Writer::new(response);
    match kind {
        Completion::Registration => {
            let attestation = attested(attestation, certificate).ok_or(Refusal::Lent)?;
            let proof = |out: &mut Writer| {
                out.wrap(attestation.tag(), |out| {
                    out.tlv(tag::SIGNATURE, signature);
                    if attestation == Attestation::Full {
                        out.tlv(tag::CERT, certificate);
                    }
                });
            };
            write_assertion(Kind::Register, tag::REG_ASSERTION, draft, proof, &mut out);
        }
        Completion::Sign => {
            let proof = |out: &mut Writer| out.tlv(tag::SIGNATURE, signature);
            write_assertion(Kind::Sign, tag::AUTH_ASSERTION, draft, proof, &mut out);
        }
    }
    Ok(out.length())
}

enum Completion {
    Registration,
    Sign,
}

/// Nothing, "if the kind is neither 0 registration nor 1 sign, or the lent draft is none that a
/// command can write for that kind".
fn kind_of(number: u32, draft: &[u8]) -> Option<Completion> {
    let run = Run::new(draft);
    match number {
        0 => is_krd(run.sole(tag::KRD)?, &mut ()).then_some(Completion::Registration),
        1 => is_signed_data(run.sole(tag::SIGNED_DATA)?, &mut ()).then_some(Completion::Sign),
        _ => None,
    }
}

/// "one certificate of 1 to 2,048 bytes for full and an empty one for surrogate".
fn attested(number: u32, certificate: &[u8]) -> Option<Attestation> {
    Attestation::of(number).filter(|attestation| match attestation {
        Attestation::Full => limit::CERTIFICATE.allows(certificate),
        Attestation::Surrogate => certificate.is_empty(),
    })
}

/// "response, status OK, AUTHENTICATOR_ASSERTION, the assertion, the draft, then" what proves it.
fn write_assertion(
    kind: Kind,
    assertion: u16,
    draft: &[u8],
    proof: impl FnOnce(&mut Writer),
    out: &mut Writer,
) {
    let body = |out: &mut Writer| {
        out.wrap(tag::AUTHENTICATOR_ASSERTION, |out| {
            out.wrap(assertion, |out| {
                out.put(draft);
                proof(out);
            });
        });
    };
    write_response(kind, Status::Ok, body, out);
}
