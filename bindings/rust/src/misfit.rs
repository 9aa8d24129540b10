//! What doesn't fit where it stands, by name.
use crate::format::Section;
use std::fmt;

/// A value, a count or an id that doesn't fit where it stands.
#[derive(Clone, Copy, Debug, PartialEq, Eq)]
#[non_exhaustive]
pub enum Misfit {
    /// A value that its field may not have.
    #[non_exhaustive]
    Value {
        /// where it stands
        at: At,
        /// the field's name
        field: &'static str,
        /// what stands there
        value: u64,
        /// what may
        may: May,
    },
    /// A field of a sheet that isn't whole.
    #[non_exhaustive]
    NotWhole {
        /// where it stands
        at: At,
        /// the field's name
        field: &'static str,
        /// of the field
        width: usize,
        /// of these are there
        there: usize,
    },
    /// Bytes after a sheet.
    #[non_exhaustive]
    LeftOver {
        /// the first of them
        byte: u64,
        /// how many there are
        bytes: u64,
    },
    /// More than there may be.
    #[non_exhaustive]
    TooMany {
        /// where it stands
        at: At,
        /// of what
        what: &'static str,
        /// how many there are
        count: u64,
        /// how many there may be
        most: u64,
    },
    /// Records that are not as many as are drawn.
    #[non_exhaustive]
    Drawn {
        /// where it stands
        at: At,
        /// the table that is drawn from
        table: &'static str,
        /// how many records it has
        count: u64,
        /// the table that draws
        by: &'static str,
        /// how many records that draws
        drawn: u64,
    },
    /// Bytes at the end of a table that are no whole record.
    #[non_exhaustive]
    PartRecord {
        /// where it stands
        at: At,
        /// how many there are
        bytes: usize,
        /// how many a record has
        whole: usize,
    },
    /// Cells at the end of a submission's actions that are no whole action.
    #[non_exhaustive]
    PartAction {
        /// where it stands
        at: At,
        /// how many there are, of four
        cells: usize,
    },
    /// Lists of an action that go past what is lent.
    #[non_exhaustive]
    PastLists {
        /// where it stands
        at: At,
        /// the cell after them
        end: u64,
        /// how many are lent
        cells: u64,
    },
    /// An id outside its table.
    #[non_exhaustive]
    Id {
        /// where it stands
        at: At,
        /// the field's name
        field: &'static str,
        /// the id
        id: u64,
        /// its table
        of: &'static Section,
        /// how many records that has
        records: u64,
    },
    /// An address that is not that of one Blas with an id.
    #[non_exhaustive]
    Address {
        /// where it stands
        at: At,
        /// the address
        address: u64,
        /// the first Blas that has it
        first: Option<usize>,
        /// how many have it
        blases: usize,
    },
}

/// Where something stands.
#[derive(Clone, Copy, Debug, PartialEq, Eq)]
#[non_exhaustive]
pub enum At {
    /// among a call's own arguments
    Call,
    /// a byte of a sheet, and the record that it belongs to, by its section's name for one and its number
    Byte(u64, Option<(&'static str, usize)>),
    /// a lent table, by its section
    Section(usize),
    /// a record of a lent table, by section and number
    Record(usize, usize),
    /// an entry
    Entry(usize),
    /// an entry's geometry
    Geometry(usize, usize),
    /// a package
    Package(usize),
    /// a package's slot
    Slot(usize, usize),
    /// one of many appended instances
    Instance(usize),
    /// a record of instances that are read back
    InstanceRecord(usize),
    /// what a Tlas lists before a submission
    Start(usize),
    /// an action
    Action(usize),
    /// what an action lists for its n-th Tlas
    Listed(usize, usize),
}

/// What a field may have.
#[derive(Clone, Copy, Debug, PartialEq, Eq)]
#[non_exhaustive]
pub enum May {
    /// these two and all between
    Range(u64, u64),
    /// one of these
    OneOf(&'static [u64]),
    /// nothing: the table of that name has no record
    Nothing(&'static str),
}

/// A field's name as words.
fn words(name: &str) -> String {
    name.replace('_', " ")
}

/// So many bytes, and the verb after them.
struct Bytes(u64, &'static str, &'static str);

impl fmt::Display for Bytes {
    fn fmt(&self, f: &mut fmt::Formatter) -> fmt::Result {
        match self {
            Bytes(1, one, _) => write!(f, "1 byte{one}"),
            Bytes(n, _, several) => write!(f, "{n} bytes{several}"),
        }
    }
}

/// So many bytes, that are there.
fn are(bytes: u64) -> Bytes {
    Bytes(bytes, " is", " are")
}

impl fmt::Display for At {
    fn fmt(&self, f: &mut fmt::Formatter) -> fmt::Result {
        match *self {
            At::Call => Ok(()),
            At::Byte(place, None) => write!(f, "byte {place}: "),
            At::Byte(place, Some((one, record))) => write!(f, "byte {place}: {one} {record}, "),
            At::Section(section) => write!(f, "section {section}: "),
            At::Record(section, record) => write!(f, "section {section}, record {record}: "),
            At::Entry(entry) => write!(f, "entry {entry}: "),
            At::Geometry(entry, geometry) => write!(f, "entry {entry}, geometry {geometry}: "),
            At::Package(package) => write!(f, "package {package}: "),
            At::Slot(package, slot) => write!(f, "package {package}, slot {slot}: "),
            At::Instance(instance) => write!(f, "instance {instance}: "),
            At::InstanceRecord(record) => write!(f, "record {record}: "),
            At::Start(tlas) => write!(f, "starting list of tlas {tlas}: "),
            At::Action(action) => write!(f, "action {action}: "),
            At::Listed(action, tlas) => write!(f, "action {action}, list of its tlas {tlas}: "),
        }
    }
}

impl fmt::Display for May {
    fn fmt(&self, f: &mut fmt::Formatter) -> fmt::Result {
        match *self {
            May::Range(least, most) if least == most => write!(f, "{least} only"),
            May::Range(least, most) if most.checked_sub(least) == Some(1) => write!(f, "{least} or {most}"),
            May::Range(least, most) => write!(f, "{least} to {most}"),
            May::OneOf(values) => {
                values.iter().enumerate().try_for_each(|(i, v)| write!(f, "{}{v}", if i > 0 { " or " } else { "" }))
            }
            May::Nothing(table) => write!(f, "nothing, as there are no {table}"),
        }
    }
}

impl fmt::Display for Misfit {
    fn fmt(&self, f: &mut fmt::Formatter) -> fmt::Result {
        match *self {
            Misfit::Value { at, field, value, may } => write!(f, "{at}{} is {value}, may be {may}", words(field)),
            Misfit::NotWhole { at, field, width, there } => {
                write!(f, "{at}{} has {}, of which {} there", words(field), Bytes(wide(width), "", ""), are(wide(there)))
            }
            Misfit::LeftOver { byte, bytes } => write!(f, "byte {byte}: {} after the sheet's end", are(bytes)),
            Misfit::TooMany { at, what, count, most } => write!(f, "{at}count of {what} is {count}, may be 0 to {most}"),
            Misfit::Drawn { at, table, count, by, drawn } => write!(f, "{at}count of {table} is {count}, the {by} draw {drawn}"),
            Misfit::PartRecord { at, bytes, whole } => {
                write!(f, "{at}a record has {whole} bytes, of which {} there", are(wide(bytes)))
            }
            Misfit::PartAction { at, cells } => write!(f, "{at}an action has 4 cells, of which {cells} are there"),
            Misfit::PastLists { at, end, cells } => write!(f, "{at}its lists end before cell {end}, {cells} cells are lent"),
            Misfit::Id { at, field, id, of, records } => {
                write!(f, "{at}{} is {id}, ", words(field))?;
                match records {
                    0 => write!(f, "there are no {}", of.name),
                    1 => write!(f, "there is 1 {}", of.one),
                    n => write!(f, "there are {n} {}", of.name),
                }
            }
            Misfit::Address { at, address, first, blases } => {
                write!(f, "{at}address is {address:#x}, ")?;
                match (first, blases) {
                    (None, _) => write!(f, "no blas has it"),
                    (Some(first), 1) => write!(f, "only blas {first} has it, ids end at {}", u16::MAX),
                    (Some(first), n) => write!(f, "{n} blases have it, the first is blas {first}"),
                }
            }
        }
    }
}

impl std::error::Error for Misfit {}

/// A length as a number.
pub(crate) fn wide(n: usize) -> u64 {
    u64::try_from(n).unwrap_or(u64::MAX)
}
