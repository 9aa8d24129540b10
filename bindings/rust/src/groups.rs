//! Groups of slots.
use crate::layout::{MOST_SLOTS, SLOT_BYTES};
use crate::raw;
use crate::sheet::SheetError;
use crate::words::{self, Call};
use std::fmt;

/// How many groups there may be.
pub const MOST_GROUPS: usize = 64;

/// Why groups of slots are not opened; nothing was written.
#[derive(Clone, Copy, Debug, PartialEq, Eq)]
#[non_exhaustive]
pub enum OpenRefused {
    /// cut short, bytes left over, over 64 groups, another item byte: the sheet's 2 to 5
    Groups {
        /// why
        error: SheetError,
        /// the judged field's first byte
        place: u64,
    },
    /// 39: lent output too short
    OutputTooShort,
    /// 45: count 0, or a group that is not an earlier one
    InvalidGroup {
        /// from 0; 0 where there is none
        group: u64,
        /// from 0; 0 where there is none
        item: u64,
    },
    /// 46: more than 512 slots
    TooManySlots {
        /// where the first that is too many is written, from 0
        group: u64,
        /// its item there, from 0
        item: u64,
    },
}

impl OpenRefused {
    /// The paper's number.
    pub fn number(self) -> u64 {
        match self {
            OpenRefused::Groups { error, .. } => error.number(),
            OpenRefused::OutputTooShort => 39,
            OpenRefused::InvalidGroup { .. } => 45,
            OpenRefused::TooManySlots { .. } => 46,
        }
    }
}

impl fmt::Display for OpenRefused {
    fn fmt(&self, f: &mut fmt::Formatter) -> fmt::Result {
        let e = match *self {
            OpenRefused::Groups { place, .. } => [place, 0],
            OpenRefused::OutputTooShort => [0, 0],
            OpenRefused::InvalidGroup { group, item } | OpenRefused::TooManySlots { group, item } => [group, item],
        };
        words::write(f, Call::Groups, self.number(), e, [0, 0, 0])
    }
}

impl std::error::Error for OpenRefused {}

/// Opens groups of slots: a u16 group count, at most `MOST_GROUPS`, then for each group a u16 item count and its items, numbers
/// little-endian. An item is a byte 1 and a slot's fields after its present byte, which together are the record of a `Some` slot, or a
/// byte 2 and a u16, the number of an earlier group. Writes the slots that the last group opens to, in written order, as
/// `Tables::slots` takes them, and answers how many bytes they have, at most 28672.
pub fn open_groups(groups: &[u8], slots: &mut [u8]) -> Result<usize, OpenRefused> {
    let a = raw::open_groups(groups, slots);
    let (group, item) = (a.group, a.item);
    match a.number {
        0 => usize::try_from(a.written).map_err(|_| OpenRefused::OutputTooShort),
        39 => Err(OpenRefused::OutputTooShort),
        45 => Err(OpenRefused::InvalidGroup { group, item }),
        46 => Err(OpenRefused::TooManySlots { group, item }),
        number => Err(OpenRefused::Groups { error: SheetError::from_number(number), place: a.place }),
    }
}

/// The bytes that `open_groups` writes.
pub fn opened_slots(groups: &[u8]) -> Result<Vec<u8>, OpenRefused> {
    let mut slots = vec![0; MOST_SLOTS.saturating_mul(SLOT_BYTES)];
    let written = open_groups(groups, &mut slots)?;
    slots.truncate(written);
    Ok(slots)
}
