//! Sheets.
use crate::building::Tables;
use crate::format::Version;
use crate::misfit::Misfit;
use crate::naming::Walk;
use crate::raw;
use crate::words::{self, Call};
use std::fmt;

/// Why a sheet is refused.
#[derive(Clone, Copy, Debug, PartialEq, Eq)]
#[non_exhaustive]
pub enum SheetError {
    /// 1: version neither 1 nor 2
    UnknownVersion,
    /// 2: sheet ends early
    Truncated,
    /// 3: bytes after the sheet
    TrailingBytes,
    /// 4: count above its limit
    TooMany,
    /// 5: value outside its field
    InvalidValue,
    /// a number that this binding doesn't know
    Other(u64),
}

impl SheetError {
    /// The paper's number.
    pub fn number(self) -> u64 {
        match self {
            SheetError::UnknownVersion => 1,
            SheetError::Truncated => 2,
            SheetError::TrailingBytes => 3,
            SheetError::TooMany => 4,
            SheetError::InvalidValue => 5,
            SheetError::Other(number) => number,
        }
    }

    pub(crate) fn from_number(number: u64) -> SheetError {
        match number {
            1 => SheetError::UnknownVersion,
            2 => SheetError::Truncated,
            3 => SheetError::TrailingBytes,
            4 => SheetError::TooMany,
            5 => SheetError::InvalidValue,
            n => SheetError::Other(n),
        }
    }
}

/// A refused sheet.
#[derive(Clone, Debug, PartialEq, Eq)]
#[non_exhaustive]
pub struct SheetRefused {
    /// why
    pub error: SheetError,
    /// the judged field's first byte
    pub place: u64,
    /// the field
    pub misfit: Option<Box<Misfit>>,
}

/// The versions that are read.
const VERSIONS: &[u64] = &[1, 2];

impl SheetRefused {
    fn of(sheet: &[u8], number: u64, place: u64) -> SheetRefused {
        let misfit = usize::try_from(place).ok().and_then(|place| Walk::new(VERSIONS, sheet, place).misfit(number));
        SheetRefused { error: SheetError::from_number(number), place, misfit: misfit.map(Box::new) }
    }
}

impl fmt::Display for SheetRefused {
    fn fmt(&self, f: &mut fmt::Formatter) -> fmt::Result {
        words::write(f, Call::Sheet, self.error.number(), [self.place, 0], [0, 0, 0])?;
        self.misfit.as_ref().map_or(Ok(()), |misfit| write!(f, "; {misfit}"))
    }
}

impl std::error::Error for SheetRefused {}

/// An accepted sheet.
#[derive(Clone, Copy, Debug)]
pub struct Sheet<'a> {
    /// how wide a geometry's `first` is
    pub version: Version,
    /// of scratch sizes
    pub alignment: u32,
    /// the number that the next build takes
    pub counter: u64,
    tables: Tables<'a>,
}

impl<'a> Sheet<'a> {
    /// The records of section 1 to 9; `None` for another number.
    pub fn section(&self, number: usize) -> Option<&'a [u8]> {
        self.version.section(number).map(|s| self.tables.table(s.number))
    }

    /// Its tables, to be built, and its actions.
    pub fn tables(&self) -> Tables<'a> {
        self.tables
    }
}

/// Reads a sheet of either version.
pub fn read_sheet(sheet: &[u8]) -> Result<Sheet<'_>, SheetRefused> {
    let a = raw::read_sheet(sheet);
    let accepted = || {
        let (version, alignment) = (Version::of(a.version)?, u32::try_from(a.alignment).ok()?);
        let mut tables = Tables { version, ..Tables::default() };
        for (s, at) in version.sections().iter().zip(a.sections) {
            let (start, count) = (usize::try_from(at.start).ok()?, usize::try_from(at.count).ok()?);
            tables.put(s.number, sheet.get(start..)?.get(..count.checked_mul(s.bytes)?)?);
        }
        Some(Sheet { version, alignment, counter: a.counter, tables })
    };
    if a.number == 0 {
        // the sections of a sheet that is read lie in it
        return accepted().ok_or(SheetRefused { error: SheetError::Other(0), place: 0, misfit: None });
    }
    Err(SheetRefused::of(sheet, a.number, a.place))
}

/// Why a sheet is not written; nothing was.
#[derive(Clone, Debug, PartialEq, Eq)]
#[non_exhaustive]
pub enum WriteRefused {
    /// the sheet is not read
    Sheet(SheetRefused),
    /// 39: lent output too short
    OutputTooShort,
}

impl fmt::Display for WriteRefused {
    fn fmt(&self, f: &mut fmt::Formatter) -> fmt::Result {
        match self {
            WriteRefused::Sheet(refused) => refused.fmt(f),
            WriteRefused::OutputTooShort => words::write(f, Call::Write, 39, [0, 0], [0, 0, 0]),
        }
    }
}

impl std::error::Error for WriteRefused {
    fn source(&self) -> Option<&(dyn std::error::Error + 'static)> {
        match self {
            WriteRefused::Sheet(refused) => Some(refused),
            WriteRefused::OutputTooShort => None,
        }
    }
}

/// Writes a sheet anew, in its own version: unused fields zero, declared geometries by Blas number and those of one Blas in their
/// order. It has as many bytes as before, and that many are answered. Two sheets come to the same bytes exactly when they mean the same,
/// which two of different versions never do.
pub fn write_sheet(sheet: &[u8], out: &mut [u8]) -> Result<usize, WriteRefused> {
    let a = raw::write_sheet(sheet, out);
    match a.number {
        0 => usize::try_from(a.written).map_err(|_| WriteRefused::OutputTooShort),
        39 => Err(WriteRefused::OutputTooShort),
        number => Err(WriteRefused::Sheet(SheetRefused::of(sheet, number, a.place))),
    }
}

/// The bytes that `write_sheet` writes.
pub fn canonical_sheet(sheet: &[u8]) -> Result<Vec<u8>, WriteRefused> {
    let mut out = vec![0; sheet.len()];
    let written = write_sheet(sheet, &mut out)?;
    out.truncate(written);
    Ok(out)
}

/// The output is too short (39); nothing was written.
#[derive(Clone, Copy, Debug, PartialEq, Eq)]
pub struct OutputTooShort;

impl fmt::Display for OutputTooShort {
    fn fmt(&self, f: &mut fmt::Formatter) -> fmt::Result {
        words::write(f, Call::Build, 39, [0, 0], [0, 0, 0])
    }
}

impl std::error::Error for OutputTooShort {}

fn told(a: raw::Reported) -> Result<usize, OutputTooShort> {
    match a.number {
        0 => usize::try_from(a.written).map_err(|_| OutputTooShort),
        _ => Err(OutputTooShort),
    }
}

/// The lines that the sheet program prints: how many bytes of them there are.
pub fn report(sheet: &[u8], out: &mut [u8]) -> Result<usize, OutputTooShort> {
    told(raw::report(sheet, out))
}

/// The lines that the sheet program prints, and what they refuse in words: how many bytes of them there are, at most 6381.
pub fn explain(sheet: &[u8], out: &mut [u8]) -> Result<usize, OutputTooShort> {
    told(raw::explain(sheet, out))
}
