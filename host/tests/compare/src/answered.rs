//! What the answer to a command must be, by the command's fields and the two tables. The holder is known
//! by the peer's form of a command and the peer's hash, all else needs no second implementation.

use crate::calls::{CommandCall, Expect, WriteCall, GIVEN};
use crate::check::Wrote;
use crate::form;
use crate::gen_holder::{self, Holder};
use crate::gen_lent;
use crate::gen_table::{decode, Record};
use crate::outcome::{self, status_of};
use crate::properties::*;
use crate::report::{Counts, Outcome};
use crate::tlv::{self, Kind};
use uaf_peer::hash;

/// A call that was answered, with what it is by its bytes.
struct Answered<'a> {
    call: &'a CommandCall,
    wrote: &'a Wrote,
    /// Of a command that breaks no rule.
    fields: Option<WriteCall>,
    holder: Option<Holder>,
    mixed: Option<[u8; 32]>,
    before: Vec<Record>,
    after: Vec<Record>,
}

impl Answered<'_> {
    fn new<'a>(call: &'a CommandCall, wrote: &'a Wrote) -> Answered<'a> {
        let fields = form::fields(&call.command);
        let holder = fields.as_ref().and_then(form::holder_of);
        Answered {
            call,
            wrote,
            mixed: holder.as_ref().map(Holder::mixed),
            fields,
            holder,
            before: decode(&call.table),
            after: decode(&wrote.table),
        }
    }

    fn kind(&self) -> Option<Kind> {
        Kind::of(&self.call.command)
    }

    fn is_own(&self, record: &Record) -> bool {
        self.mixed == Some(record.mixed)
    }

    /// The table with one record of the caller's, lent KeyID and count 0 more.
    fn appended(&self) -> bool {
        match self.after.split_last() {
            Some((last, others)) => {
                others == self.before
                    && last.key_id[..] == self.call.lent.key_id[..]
                    && self.is_own(last)
                    && last.counter == 0
            }
            None => false,
        }
    }

    /// The table with the counter of one record of the caller's raised by 1.
    fn raised(&self) -> bool {
        if self.before.len() != self.after.len() {
            return false;
        }
        let pairs = self.before.iter().zip(&self.after);
        let mut changed = pairs.filter(|(old, new)| old != new);
        let one = changed.next().map_or(false, |(old, new)| {
            let risen = Record {
                counter: old.counter.wrapping_add(1),
                ..old.clone()
            };
            *new == risen && new.counter != 0 && self.is_own(old)
        });
        one && changed.next().is_none()
    }

    /// The table without all records of the caller's, or without one of them.
    fn removed(&self) -> bool {
        let others = |records: &[Record]| -> Vec<Record> {
            let others = records.iter().filter(|record| !self.is_own(record));
            others.cloned().collect()
        };
        let kept = self.after.iter().filter(|record| self.is_own(record));
        let mut rest = self.before.iter();
        let in_order = self.after.iter().all(|one| rest.any(|old| old == one));
        in_order
            && others(&self.before) == others(&self.after)
            && (kept.count() == 0 || self.before.len() == self.after.len() + 1)
    }

    /// The hash in a Sign's draft: that of the content, or none of no bytes.
    fn hashed(&self, counts: &mut Counts) -> Held {
        let content = self.fields.as_ref().map(|fields| &fields.content);
        let content = content.filter(|content| content.mark == GIVEN);
        let bytes = content.map_or(&[][..], |content| &content.bytes);
        let children = form::children_of(&self.wrote.response);
        let field = children.iter().find(|child| child.tag == tlv::CONTENT_HASH);
        let found = field.map(|child| &child.value[..]);
        if bytes.is_empty() {
            held(counts, NOT_HASHED, found == Some(&[]))
        } else {
            held(counts, HASHED, found == Some(&hash(bytes, &[])))
        }
    }

    /// A verified Sign without handles, which must go by how many records the holder has.
    fn own_alone(&self, counts: &mut Counts, outcome: Outcome) -> Held {
        let open = |fields: &WriteCall| fields.handle_sizes.is_empty();
        if self.call.lent.verdict != 0 || !self.fields.as_ref().map_or(false, open) {
            return Ok(());
        }
        let own = self.before.iter().filter(|r| self.is_own(r)).count();
        let right = match own {
            0 => outcome == Outcome::Status(0x02),
            1 => !matches!(outcome, Outcome::Status(0x02) | Outcome::List(_)),
            _ => outcome == Outcome::List(own),
        };
        held(counts, OWN_ALONE, right)?;
        if own == 0 && self.holder.as_ref().map_or(false, |h| self.is_near(h)) {
            counts.add_property(NEARLY);
        }
        Ok(())
    }

    fn is_near(&self, holder: &Holder) -> bool {
        let nearly = gen_holder::nearly(holder);
        self.before
            .iter()
            .any(|record| nearly.contains(&record.mixed))
    }

    /// Counts a record of the holder's that was met.
    fn met(&self, counts: &mut Counts) {
        let app_id = self.holder.as_ref().map(|holder| &holder.app_id);
        match app_id {
            Some(Some(_)) => counts.add_property(BY_BOTH),
            Some(None) => counts.add_property(BY_TOKEN),
            None => {}
        }
    }

    fn of_draft(&self, counts: &mut Counts) -> Held {
        match self.kind() {
            Some(Kind::Register) => held(counts, APPENDED, self.appended()),
            Some(Kind::Sign) => {
                held(counts, RAISED, self.raised())?;
                self.met(counts);
                self.hashed(counts)
            }
            _ => Err("a draft of neither Register nor Sign".into()),
        }
    }

    fn of_response(&self, counts: &mut Counts, expect: Expect) -> Held {
        let status = status_of(&self.wrote.response);
        let invalid = status == 0x08;
        if (expect == Expect::Invalid && !invalid) || (expect == Expect::Served && invalid) {
            return Err(format!(
                "status {:#04X}, the generator made {:?}",
                status, expect
            ));
        }
        if status == 0 && self.kind() == Some(Kind::Deregister) {
            if self.before.len() > self.after.len() {
                self.met(counts);
            }
            return held(counts, REMOVED, self.removed());
        }
        held(counts, KEPT, self.wrote.table == self.call.table)
    }
}

/// Deregister and Open settings use nothing that is lent.
fn of_refusal(counts: &mut Counts, call: &CommandCall, refusal: u32) -> Held {
    let kind = Kind::of(&call.command);
    if refusal == 4 && matches!(kind, Some(Kind::Deregister | Kind::OpenSettings)) {
        return Err("refusal 4 to a command that uses nothing".into());
    }
    held(counts, REFUSAL, true)
}

/// A command's answer, of which both implementations agree.
pub fn of_command(
    counts: &mut Counts,
    call: &CommandCall,
    answer: &Result<Wrote, u32>,
    expect: Expect,
) -> Held {
    let wrote = match answer {
        Err(refusal) => return of_refusal(counts, call, *refusal),
        Ok(wrote) => wrote,
    };
    let answered = Answered::new(call, wrote);
    match answered.kind() {
        Some(Kind::Sign) => answered.own_alone(counts, outcome::of_command(answer))?,
        Some(Kind::Deregister) if gen_lent::nothing_right(&call.lent) => {
            counts.add_property(NOTHING_LENT);
        }
        _ => {}
    }
    if !wrote.draft {
        return answered.of_response(counts, expect);
    }
    if expect == Expect::Invalid {
        return Err("a draft, the generator made it invalid".into());
    }
    answered.of_draft(counts)
}
