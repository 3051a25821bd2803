//! Complete.

use crate::bytes::*;
use crate::call::Completion;
use crate::drafts::*;
use crate::script::Trace;

pub fn completions(t: &mut Trace) {
    t.say("Complete");
    for (what, usual) in [
        ("full", registration()),
        ("surrogate", surrogate()),
        ("sign", signing()),
        ("content", signing_content()),
    ] {
        let response = t.complete(&format!("complete {what}"), &usual);
        t.read_this(&format!("read {what}"), &response);
        lengths(t, what, &usual);
        numbers(t, what, &usual);
    }
    limits(t);
    for (kind, what, draft) in bad_drafts() {
        let name = format!("refusal 5, kind {kind}, {what}");
        assert!(t.complete(&name, &of_kind(kind, draft)).is_empty());
    }
    order(t);
}

fn lengths(t: &mut Trace, what: &str, usual: &Completion) {
    for length in [0, 1, 512, 513] {
        let completion = Completion {
            signature: vec![0x5B; length],
            ..usual.clone()
        };
        t.complete(&format!("{what}, signature of {length}"), &completion);
    }
    for length in [0, 1, 2048, 2049] {
        let completion = Completion {
            certificate: vec![0x31; length],
            ..usual.clone()
        };
        t.complete(&format!("{what}, certificate of {length}"), &completion);
    }
}

fn numbers(t: &mut Trace, what: &str, usual: &Completion) {
    for attestation in [BASIC_FULL, BASIC_SURROGATE, 0x3E09, 0x0007, 0] {
        let completion = Completion {
            attestation: attestation.into(),
            ..usual.clone()
        };
        t.complete(&format!("{what}, type {attestation:04X}"), &completion);
    }
    for kind in [0, 1, 2, 256] {
        let completion = Completion {
            kind,
            ..usual.clone()
        };
        t.complete(&format!("{what} as kind {kind}"), &completion);
    }
    for response_size in [4095, 8000] {
        let completion = Completion {
            response_size,
            ..usual.clone()
        };
        t.complete(&format!("{what}, output of {response_size}"), &completion);
    }
}

fn limits(t: &mut Trace) {
    let longest = Completion {
        draft: krd(&[(CHALLENGE, &[0; 32]), (PUB_KEY, &[0; 512])]),
        signature: vec![0; 512],
        certificate: vec![0; 2048],
        ..registration()
    };
    let last = of_kind(1, signed_data(&[(COUNTERS, &[0xFF; 4])]));
    for (what, completion) in [("the longest response", longest), ("the last count", last)] {
        let response = t.complete(what, &completion);
        t.read_this(&format!("read {what}"), &response);
    }
    for (what, kind, draft) in [
        ("a public key of 1", 0, krd(&[(PUB_KEY, &[4])])),
        ("a challenge of 1", 0, krd(&[(CHALLENGE, &[0xAA])])),
        ("a nonce of 32", 1, signed_data(&[(NONCE, &[0; 32])])),
        (
            "a challenge of 32",
            1,
            signed_data(&[(CHALLENGE, &[0; 32])]),
        ),
    ] {
        assert!(!t.complete(what, &of_kind(kind, draft)).is_empty());
    }
}

fn order(t: &mut Trace) {
    let no_draft = Completion {
        draft: vec![],
        response_size: 0,
        ..signing()
    };
    let no_signature = Completion {
        signature: vec![],
        response_size: 0,
        ..signing()
    };
    let no_kind = Completion {
        kind: 2,
        signature: vec![],
        ..signing()
    };
    t.complete("refusals 1 and 5: 1", &no_draft);
    t.complete("refusals 1 and 4: 1", &no_signature);
    t.complete("refusals 4 and 5: 5", &no_kind);
}
