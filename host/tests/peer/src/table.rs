//! The key table, read in place from its stored form.

use crate::numbers::{limit, tag, Bytes32, MOST_OWN, MOST_RECORDS};
use crate::tlv::{Limit, Row, Run, Writer};

/// "per record one USERNAME_AND_KEYHANDLE holding KEYID, KEYHANDLE_ACCESS_TOKEN (the mixed token),
/// USERNAME, COUNTERS (4 bytes), in that order".
const RECORD: [Row; 4] = [
    Row(tag::KEYID, limit::KEY_ID),
    Row(tag::KEYHANDLE_ACCESS_TOKEN, limit::MIXED),
    Row(tag::USERNAME, limit::USERNAME),
    Row(tag::COUNTERS, Limit::Exactly(4)),
];

/// Where the username starts in a record's stored form: after the record's header, KeyID and mixed
/// token with theirs, and its own.
const USERNAME: usize = 4 + (4 + 32) + (4 + 32) + 4;
/// The length of a stored counter, which comes last, and that of its header.
const COUNTER: usize = 4;
const HEADER: usize = 4;

/// A record, with its own stored form and the place where that ends in the table's.
#[derive(Clone, Copy, Debug)]
pub(crate) struct Record<'a> {
    pub key_id: &'a Bytes32,
    pub mixed: &'a Bytes32,
    stored: &'a [u8],
    end: usize,
}

impl<'a> Record<'a> {
    pub(crate) fn username(&self) -> &'a [u8] {
        let end = self.stored.len().saturating_sub(HEADER + COUNTER);
        self.stored.get(USERNAME..end).unwrap_or_default()
    }

    pub(crate) fn counter(&self) -> u32 {
        match *self.stored {
            [.., c0, c1, c2, c3] => u32::from_le_bytes([c0, c1, c2, c3]),
            _ => 0,
        }
    }
}

/// A table that obeys the record rules, "oldest first". Of a record it keeps only what finds the
/// rest, as all of this room is set anew in every call.
pub(crate) struct Table<'a> {
    stored: &'a [u8],
    key_ids: [&'a Bytes32; MOST_RECORDS],
    mixed: [&'a Bytes32; MOST_RECORDS],
    /// Where each record ends in the stored form.
    ends: [u16; MOST_RECORDS],
    count: usize,
}

impl<'a> Table<'a> {
    /// The table without records. A stored one is read into it, so that it is never moved.
    pub(crate) fn new() -> Self {
        Table {
            stored: &[],
            key_ids: [&[0; 32]; MOST_RECORDS],
            mixed: [&[0; 32]; MOST_RECORDS],
            ends: [0; MOST_RECORDS],
            count: 0,
        }
    }

    /// Reads a stored form into an empty table; nothing, if a rule is broken.
    pub(crate) fn read(&mut self, stored: &'a [u8]) -> Option<()> {
        self.stored = stored;
        let mut run = Run::new(stored);
        while !run.is_empty() {
            let held = run.tagged(tag::USERNAME_AND_KEYHANDLE)?.inside();
            let [key_id, mixed, _, _] = held.leaves(&RECORD, &mut ())?;
            self.push(
                key_id.try_into().ok()?,
                mixed.try_into().ok()?,
                run.place().try_into().ok()?,
            )?;
        }
        Some(())
    }

    /// "at most 32 records, oldest first, at most 8 with one mixed token, and no KeyID twice".
    fn push(&mut self, key_id: &'a Bytes32, mixed: &'a Bytes32, end: u16) -> Option<()> {
        if self.has_key_id(key_id) || self.count_own(mixed) >= MOST_OWN {
            return None;
        }
        *self.key_ids.get_mut(self.count)? = key_id;
        *self.mixed.get_mut(self.count)? = mixed;
        *self.ends.get_mut(self.count)? = end;
        self.count += 1;
        Some(())
    }

    pub(crate) fn count(&self) -> usize {
        self.count
    }

    pub(crate) fn records(&self) -> impl Iterator<Item = Record<'a>> + Clone + '_ {
        let parts = self.key_ids.iter().zip(&self.mixed).zip(&self.ends);
        let mut start = 0;
        parts
            .take(self.count)
            .map(move |((&key_id, &mixed), &end)| {
                let end = usize::from(end);
                let stored = self.stored.get(start..end).unwrap_or_default();
                start = end;
                Record {
                    key_id,
                    mixed,
                    stored,
                    end,
                }
            })
    }

    /// The records with this mixed token.
    pub(crate) fn own<'s>(
        &'s self,
        mixed: &'s Bytes32,
    ) -> impl Iterator<Item = Record<'a>> + Clone + 's {
        self.records().filter(move |record| record.mixed == mixed)
    }

    /// "its holder's newest": of the records with this mixed token the last, looked for from the end.
    pub(crate) fn newest(&self, mixed: &Bytes32) -> Option<Record<'a>> {
        let stored = self.mixed.get(..self.count)?;
        let place = stored.iter().rposition(|&stored| stored == mixed)?;
        self.records().nth(place)
    }

    pub(crate) fn count_own(&self, mixed: &Bytes32) -> usize {
        let stored = self.mixed.get(..self.count).unwrap_or_default();
        stored.iter().filter(|&&stored| stored == mixed).count()
    }

    /// Whether the KeyID is stored, whosever it is.
    pub(crate) fn has_key_id(&self, key_id: &Bytes32) -> bool {
        let stored = self.key_ids.get(..self.count).unwrap_or_default();
        stored.contains(&key_id)
    }

    /// Writes the table as it came.
    pub(crate) fn write(&self, out: &mut Writer) {
        out.put(self.stored);
    }

    /// Writes the table with a record "appended with counter 0".
    pub(crate) fn write_with(
        &self,
        key_id: &Bytes32,
        mixed: &Bytes32,
        username: &[u8],
        out: &mut Writer,
    ) {
        self.write(out);
        write_record(key_id, mixed, username, 0, out);
    }

    /// Writes the table with another counter in one record, where it comes last.
    pub(crate) fn write_counted(&self, record: &Record, counter: u32, out: &mut Writer) {
        let counter = counter.to_le_bytes();
        self.write(out);
        out.patch(record.end.saturating_sub(counter.len()), &counter);
    }

    /// Writes the table without some of its records, which are given in their order: "Removal closes the
    /// gap", the rest keep theirs.
    pub(crate) fn write_without<'r>(
        &self,
        gone: impl Iterator<Item = Record<'r>>,
        out: &mut Writer,
    ) {
        // Neighbours that stay are written together; here the next of them start.
        let mut kept = 0;
        for record in gone {
            let start = record.end - record.stored.len();
            if kept < start {
                out.put(self.stored.get(kept..start).unwrap_or_default());
            }
            kept = record.end;
        }
        out.put(self.stored.get(kept..).unwrap_or_default());
    }
}

/// Writes the stored form of one record.
pub(crate) fn write_record(
    key_id: &Bytes32,
    mixed: &Bytes32,
    username: &[u8],
    counter: u32,
    out: &mut Writer,
) {
    out.wrap(tag::USERNAME_AND_KEYHANDLE, |out| {
        out.tlv(tag::KEYID, key_id);
        out.tlv(tag::KEYHANDLE_ACCESS_TOKEN, mixed);
        out.tlv(tag::USERNAME, username);
        out.tlv(tag::COUNTERS, &counter.to_le_bytes());
    });
}

/// Up to 8 KeyIDs, as a Sign gives or answers them.
pub(crate) struct KeyIds<'a> {
    list: [&'a Bytes32; MOST_OWN],
    count: usize,
}

impl<'a> KeyIds<'a> {
    pub(crate) fn new() -> Self {
        KeyIds {
            list: [&[0; 32]; MOST_OWN],
            count: 0,
        }
    }

    /// Nothing, if it is the ninth.
    pub(crate) fn push(&mut self, key_id: &'a Bytes32) -> Option<()> {
        *self.list.get_mut(self.count)? = key_id;
        self.count += 1;
        Some(())
    }

    pub(crate) fn count(&self) -> usize {
        self.count
    }

    pub(crate) fn contains(&self, key_id: &Bytes32) -> bool {
        let listed = self.list.get(..self.count).unwrap_or_default();
        listed.contains(&key_id)
    }
}
