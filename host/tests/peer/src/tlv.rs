//! TLV bytes: "a 16-bit tag, a 16-bit length of the value in bytes, then the value, little-endian".

/// "Bit 0x1000 marks a composite tag".
const COMPOSITE: u16 = 0x1000;
/// "Bit 0x2000 marks a critical tag."
const CRITICAL: u16 = 0x2000;
/// "level 8 is the deepest allowed".
const DEEPEST: usize = 8;

/// A TLV, and the place of its value in the bytes that the outermost run was read from.
#[derive(Clone, Copy, Debug)]
pub(crate) struct Tlv<'a> {
    pub tag: u16,
    pub place: usize,
    pub value: &'a [u8],
}

impl<'a> Tlv<'a> {
    pub(crate) fn is_critical(&self) -> bool {
        self.tag & CRITICAL != 0
    }

    /// "The value of a composite tag is walked as its own stretch".
    pub(crate) fn inside(&self) -> Run<'a> {
        Run {
            rest: self.value,
            place: self.place,
        }
    }

    /// Whether this TLV may stand at `level`, with all that it holds: "none may be at level 9", and
    /// the value of a composite "is exactly a run of TLVs".
    pub(crate) fn is_well_formed(&self, level: usize) -> bool {
        level <= DEEPEST
            && (self.tag & COMPOSITE == 0
                || self
                    .inside()
                    .all(|held| held.map_or(false, |held| held.is_well_formed(level + 1))))
    }
}

/// A header or a value that goes beyond its stretch.
#[derive(Clone, Copy, Debug)]
pub(crate) struct Malformed;

/// A run of TLVs being read: what is left of it, and where that starts.
#[derive(Clone, Debug)]
pub(crate) struct Run<'a> {
    rest: &'a [u8],
    place: usize,
}

/// What reads a TLV is always inlined: rows are constants, so where they are read in a row only the
/// tests of each are left.
impl<'a> Run<'a> {
    pub(crate) fn new(bytes: &'a [u8]) -> Self {
        Run {
            rest: bytes,
            place: 0,
        }
    }

    pub(crate) fn is_empty(&self) -> bool {
        self.rest.is_empty()
    }

    pub(crate) fn place(&self) -> usize {
        self.place
    }

    #[inline(always)]
    fn split(&mut self) -> Option<Tlv<'a>> {
        let (tag, length, rest) = match *self.rest {
            [t0, t1, l0, l1, ref rest @ ..] => (
                u16::from_le_bytes([t0, t1]),
                usize::from(u16::from_le_bytes([l0, l1])),
                rest,
            ),
            _ => return None,
        };
        let tlv = Tlv {
            tag,
            place: self.place + 4,
            value: rest.get(..length)?,
        };
        self.rest = rest.get(length..)?;
        self.place = tlv.place + length;
        Some(tlv)
    }

    /// The next TLV, which must have this tag.
    #[inline(always)]
    pub(crate) fn tagged(&mut self, tag: u16) -> Option<Tlv<'a>> {
        self.next()?.ok().filter(|tlv| tlv.tag == tag)
    }

    /// What the run's only TLV holds, which must have this tag.
    pub(crate) fn sole(mut self, tag: u16) -> Option<Run<'a>> {
        let held = self.tagged(tag)?.inside();
        self.is_empty().then_some(held)
    }

    /// The value of the next TLV, which must be as `row` says.
    #[inline(always)]
    pub(crate) fn leaf(&mut self, row: &Row, sink: &mut impl Sink) -> Option<&'a [u8]> {
        let Tlv { tag, place, value } = self.tagged(row.0)?;
        if !row.1.allows(value) {
            return None;
        }
        let length = value.len();
        sink.leaf(Field { tag, place, length });
        Some(value)
    }

    /// The values of a run that has exactly these rows in this order.
    #[inline(always)]
    pub(crate) fn leaves<const N: usize>(
        mut self,
        rows: &[Row; N],
        sink: &mut impl Sink,
    ) -> Option<[&'a [u8]; N]> {
        let mut values: [&[u8]; N] = [&[]; N];
        for (value, row) in values.iter_mut().zip(rows) {
            *value = self.leaf(row, sink)?;
        }
        self.is_empty().then_some(values)
    }
}

impl<'a> Iterator for Run<'a> {
    type Item = Result<Tlv<'a>, Malformed>;

    #[inline(always)]
    fn next(&mut self) -> Option<Self::Item> {
        if self.rest.is_empty() {
            return None;
        }
        let tlv = self.split();
        if tlv.is_none() {
            // Nothing after a malformed TLV has a meaning.
            self.rest = &[];
        }
        Some(tlv.ok_or(Malformed))
    }
}

/// How long a value may be and, of text, what it may hold.
#[derive(Clone, Copy, Debug)]
pub(crate) enum Limit {
    Any,
    Exactly(usize),
    Between(usize, usize),
    EmptyOr(usize),
    /// Well-formed UTF-8, of a length between these.
    Text(usize, usize),
}

impl Limit {
    /// Always inlined: of a limit that is known, a comparison or two are left.
    #[inline(always)]
    pub(crate) fn allows(self, value: &[u8]) -> bool {
        let length = value.len();
        match self {
            Limit::Any => true,
            Limit::Exactly(only) => length == only,
            Limit::Between(least, most) => least <= length && length <= most,
            Limit::EmptyOr(only) => length == 0 || length == only,
            Limit::Text(least, most) => least <= length && length <= most && is_utf8(value),
        }
    }
}

/// Whether this is well-formed UTF-8. Most names are ASCII, which is seen sooner than by
/// `from_utf8`. Never inlined, so that what reads fields stays small.
#[inline(never)]
fn is_utf8(value: &[u8]) -> bool {
    value.is_ascii() || core::str::from_utf8(value).is_ok()
}

/// The tag and limit of one field of a fixed structure.
pub(crate) struct Row(pub u16, pub Limit);

/// A TLV that holds no other: its tag, and its value's place and length.
#[derive(Clone, Copy, PartialEq, Eq, Debug, Default)]
pub struct Field {
    /// The tag.
    pub tag: u16,
    /// The value's place, counted from the first byte of the response.
    pub place: usize,
    /// The value's length.
    pub length: usize,
}

/// What becomes of the fields that are met while a structure is read.
pub(crate) trait Sink {
    fn leaf(&mut self, field: Field);
}

/// Only whether the structure is right is asked.
impl Sink for () {
    fn leaf(&mut self, _: Field) {}
}

/// Writes TLVs into an output from its start on.
///
/// An output is known to hold the longest answer before a writer is made, so `put` never finds it
/// full; if it did, it would leave the output alone and not panic.
pub(crate) struct Writer<'a> {
    out: &'a mut [u8],
    length: usize,
}

impl<'a> Writer<'a> {
    pub(crate) fn new(out: &'a mut [u8]) -> Self {
        Writer { out, length: 0 }
    }

    /// Forgets what was written.
    pub(crate) fn restart(&mut self) {
        self.length = 0;
    }

    /// How many bytes were written.
    pub(crate) fn length(&self) -> usize {
        self.length
    }

    pub(crate) fn put(&mut self, bytes: &[u8]) {
        let end = self.length + bytes.len();
        if let Some(place) = self.out.get_mut(self.length..end) {
            place.copy_from_slice(bytes);
            self.length = end;
        }
    }

    /// Writes over bytes that were written already.
    pub(crate) fn patch(&mut self, place: usize, bytes: &[u8]) {
        if let Some(place) = self.out.get_mut(place..place + bytes.len()) {
            place.copy_from_slice(bytes);
        }
    }

    pub(crate) fn u16(&mut self, number: u16) {
        self.put(&number.to_le_bytes());
    }

    pub(crate) fn tlv(&mut self, tag: u16, value: &[u8]) {
        self.header(tag, value.len());
        self.put(value);
    }

    /// A TLV whose value `body` writes; its length is filled in afterwards.
    pub(crate) fn wrap(&mut self, tag: u16, body: impl FnOnce(&mut Self)) {
        let header = self.length;
        self.header(tag, 0);
        let start = self.length;
        body(self);
        let length = (self.length - start) as u16;
        self.patch(header + 2, &length.to_le_bytes());
    }

    /// No value written is longer than an output's least size, so 16 bits hold its length.
    pub(crate) fn header(&mut self, tag: u16, length: usize) {
        let [t0, t1] = tag.to_le_bytes();
        let [l0, l1] = (length as u16).to_le_bytes();
        self.put(&[t0, t1, l0, l1]);
    }
}
