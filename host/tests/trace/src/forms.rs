//! The table by value, the two forms mixed, and a chain of calls from the command to the reading.

use crate::bytes::*;
use crate::call::{of, Call, Completion, SPOILT, TAIL_FIRST};
use crate::make::*;
use crate::registrations::registrations;
use crate::script::Trace;
use crate::signatures::signatures;
use crate::Section;

pub fn chain(t: &mut Trace) {
    t.say(
        "A registration and a sign-in with content, completed and read: \
         the drafts are those that the commands wrote",
    );
    t.give(&[]);
    let drafts = [
        t.run("chain, register", of(register()).key(1)),
        t.run("chain, sign", of(sign(&[content(b"Pay 5")]))),
    ];
    for (kind, draft) in (0..).zip(drafts) {
        let completion = Completion {
            kind,
            draft,
            attestation: BASIC_FULL.into(),
            signature: vec![0x5C; 70],
            certificate: vec![0x30; 9],
            response_size: 4096,
        };
        let response = t.complete(&format!("chain, complete {kind}"), &completion);
        assert!(t.read_this(&format!("chain, read {kind}"), &response));
    }
}

/// Every command once more, so that both forms answer for the same words of document 01.
pub fn by_value(t: &mut Trace, commands: &[Section]) {
    t.change_form(1, "");
    t.say(
        "By value: the table output is no output of the call, \
         and what is said of it is said by the store",
    );
    for section in commands {
        section(t);
    }
}

/// What no stored form can show: values that break a rule, handed back as they came, so that
/// storing them is refused too.
pub fn spoilt(t: &mut Trace) {
    t.say("By value: tables that break a rule");
    for (count, of_one) in [(9, 5), (32, 8)] {
        let record = |number| record(number, &[number / of_one; 32], b"Ann", 0);
        t.give(&(0..count).map(record).collect::<Vec<_>>());
        for (number, what) in (1..).zip(SPOILT) {
            spoilt_by(t, number, &format!("{count} records, {what}"));
        }
        let name = format!("{count} records, their stored form is as it was");
        t.run(&name, of(get_info()).dumped());
    }
    t.give(&[anns(1)]);
    for (what, command) in [("info", get_info()), ("sign", sign(&[]))] {
        let call = Call {
            spoilt: TAIL_FIRST,
            ..of(command)
        };
        t.run(
            &format!("one record, a tail first in its name, {what}"),
            call,
        );
    }
}

fn spoilt_by(t: &mut Trace, spoilt: u32, name: &str) {
    let usual = |command| Call {
        spoilt,
        ..of(command)
    };
    let short = Call {
        response_size: 4095,
        ..usual(get_info())
    };
    let unlent = Call {
        aaid: vec![],
        ..usual(get_info())
    };
    let unstored = Call {
        table_out_size: 6911,
        ..usual(get_info())
    };
    for (what, call) in [
        ("info", usual(get_info())),
        ("sign", usual(sign(&[])).by([0; 32])),
        ("refusals 1 and 2: 1", short),
        ("refusals 2 and 3: 2", usual(vec![])),
        ("refusals 2 and 4: 2", unlent),
        ("storing refused by 1 before 2", unstored),
    ] {
        t.run(&format!("{name}, {what}"), call);
    }
}

/// One list of calls in both forms: each is handed the table that the last one left.
pub fn mixed(t: &mut Trace) {
    t.change_form(3, ", mixed");
    t.say("Each third call by value, on the table that the last one left, whichever its form");
    registrations(t);
    signatures(t);
}
