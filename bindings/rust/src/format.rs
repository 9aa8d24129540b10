//! What a section and a field are, and where a record's values stand; `layout` has the sections.
use crate::layout::{NO_BUFFER, SECTIONS_1, SECTIONS_2};

/// The version of a sheet, or of tables. The two differ in how wide a geometry's `first` is, and in a sheet's first byte.
#[derive(Clone, Copy, Debug, Default, PartialEq, Eq, PartialOrd, Ord, Hash)]
pub enum Version {
    /// a u32: a geometry has 44 bytes
    One,
    /// a u64: a geometry has 48 bytes; [`table`](crate::table) writes these
    #[default]
    Two,
}

impl Version {
    /// As a sheet has it.
    pub fn number(self) -> u8 {
        match self {
            Version::One => 1,
            Version::Two => 2,
        }
    }

    pub(crate) fn of(number: u64) -> Option<Version> {
        [Version::One, Version::Two].into_iter().find(|v| u64::from(v.number()) == number)
    }

    /// Its sections 1 to 9.
    pub fn sections(self) -> &'static [Section; 9] {
        match self {
            Version::One => &SECTIONS_1,
            Version::Two => &SECTIONS_2,
        }
    }

    /// Its section of this number, 1 to 9.
    pub fn section(self, number: usize) -> Option<&'static Section> {
        self.sections().get(number.checked_sub(1)?)
    }
}

/// A section of a sheet, or a table that stands for one.
#[derive(Clone, Copy, Debug, PartialEq, Eq)]
pub struct Section {
    /// 1 to 9
    pub number: usize,
    /// of the table
    pub name: &'static str,
    /// of one record
    pub one: &'static str,
    /// of its count
    pub counted: &'static str,
    /// how many records it may have
    pub most: usize,
    /// of one record
    pub bytes: usize,
    /// the section whose records draw this one's, or 0
    pub drawn_by: usize,
    /// the field that counts the records that one draws in turn, by its place in the list
    pub draws: Option<usize>,
    /// where a record's kind is
    pub kind: KindOf,
    /// in their order
    pub fields: &'static [Field],
}

/// Where a record's kind is, which says whether fields of triangles are used.
#[derive(Clone, Copy, Debug, PartialEq, Eq)]
pub enum KindOf {
    /// nowhere: no field goes by it
    Triangles,
    /// that of the Blas that its first field names
    Blas,
    /// that of the entry that draws it
    Entry,
}

/// A field of a record.
#[derive(Clone, Copy, Debug, PartialEq, Eq)]
pub struct Field {
    /// its word
    pub name: &'static str,
    /// its first byte in the record
    pub at: usize,
    /// in bytes
    pub width: usize,
    /// the values that it may have where it is used
    pub allowed: Allowed,
    /// when it is used: all of them together
    pub used: &'static [Used],
    /// the section whose records it names, or 0
    pub names: usize,
    /// whether 65535 names nothing
    pub none: bool,
}

/// The values that a used field may have.
#[derive(Clone, Copy, Debug, PartialEq, Eq)]
pub enum Allowed {
    /// every number of its width
    Any,
    /// these two and all between
    Range(u64, u64),
    /// this and all above
    AtLeast(u64),
    /// one of these
    OneOf(&'static [u64]),
    /// all but this
    Except(u64),
    /// below the number of records of that section
    Inside(usize),
}

/// When a field is used. Fields are named by their place in the record's list.
#[derive(Clone, Copy, Debug, PartialEq, Eq)]
pub enum Used {
    /// the record's kind is triangles
    Triangles,
    /// that buffer is not 65535
    Given(usize),
    /// that byte is not 0
    Present(usize),
    /// that field is not this
    Not(usize, u64),
}

pub(crate) const fn field(
    name: &'static str,
    at: usize,
    width: usize,
    allowed: Allowed,
    used: &'static [Used],
    names: usize,
    none: bool,
) -> Field {
    Field { name, at, width, allowed, used, names, none }
}

/// The little-endian number of these bytes, at most eight.
pub(crate) fn number(bytes: &[u8]) -> u64 {
    bytes.iter().rev().fold(0, |n, byte| n << 8 | u64::from(*byte))
}

impl Field {
    /// Its value in a record, if the record has it whole.
    pub fn value(&self, record: &[u8]) -> Option<u64> {
        Some(number(record.get(self.at..)?.get(..self.width)?))
    }

    /// What it is where nothing is said of it: none, or the least that it may be.
    pub(crate) fn least(&self) -> u64 {
        match self.allowed {
            _ if self.none => NO_BUFFER.into(),
            Allowed::Range(least, _) | Allowed::AtLeast(least) => least,
            Allowed::OneOf(values) => values.first().copied().unwrap_or(0),
            Allowed::Any | Allowed::Except(_) | Allowed::Inside(_) => 0,
        }
    }

    /// Whether it is used in a record of this kind.
    pub(crate) fn is_used(&self, fields: &[Field], record: &[u8], boxes: bool) -> bool {
        let value = |field: usize| fields.get(field).and_then(|f| f.value(record));
        self.used.iter().all(|rule| match *rule {
            Used::Triangles => !boxes,
            Used::Given(field) => value(field) != Some(NO_BUFFER.into()),
            Used::Present(field) => value(field) != Some(0),
            Used::Not(field, n) => value(field) != Some(n),
        })
    }
}

impl Section {
    /// How many whole records a table has.
    pub fn count(&self, table: &[u8]) -> usize {
        table.len().checked_div(self.bytes).unwrap_or(0)
    }

    /// A record of a table.
    pub fn record<'a>(&self, table: &'a [u8], i: usize) -> Option<&'a [u8]> {
        let start = i.checked_mul(self.bytes)?;
        table.get(start..)?.get(..self.bytes)
    }

    pub(crate) fn records<'a>(&self, table: &'a [u8]) -> impl Iterator<Item = &'a [u8]> + use<'a> {
        table.chunks_exact(self.bytes.max(1))
    }

    /// The value of the field of this name.
    pub(crate) fn value(&self, record: &[u8], name: &str) -> Option<u64> {
        self.fields.iter().find(|f| f.name == name)?.value(record)
    }
}
