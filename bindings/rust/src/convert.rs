//! Sheets of one version written as the other.
use crate::format::Version;
use crate::layout::{GEOMETRY_BYTES, MOST_GEOMETRIES, WIDE_GEOMETRY_BYTES};
use crate::misfit::{May, Misfit};
use crate::naming::Walk;
use crate::raw;
use crate::sheet::SheetError;
use crate::words::{self, Call};
use std::fmt;

/// Why a sheet is not converted.
#[derive(Clone, Copy, Debug, PartialEq, Eq)]
#[non_exhaustive]
pub enum ConvertError {
    /// the sheet is not read; `UnknownVersion` also where it has the version that it is to have
    Sheet(SheetError),
    /// 39: lent output too short
    OutputTooShort,
    /// 47: first vertex or primitive offset above 2^32 - 1
    TooFar,
}

impl ConvertError {
    /// The paper's number.
    pub fn number(self) -> u64 {
        match self {
            ConvertError::Sheet(error) => error.number(),
            ConvertError::OutputTooShort => 39,
            ConvertError::TooFar => 47,
        }
    }
}

/// A sheet that is not converted; nothing was written.
#[derive(Clone, Debug, PartialEq, Eq)]
#[non_exhaustive]
pub struct ConvertRefused {
    /// the version that it was to have
    pub to: Version,
    /// why
    pub error: ConvertError,
    /// the judged field's first byte, in the sheet that is read; 0 where the output is too short
    pub place: u64,
    /// the field
    pub misfit: Option<Box<Misfit>>,
}

impl fmt::Display for ConvertRefused {
    fn fmt(&self, f: &mut fmt::Formatter) -> fmt::Result {
        let call = match self.to {
            Version::One => Call::ToVersion1,
            Version::Two => Call::ToVersion2,
        };
        words::write(f, call, self.error.number(), [self.place, 0], [0, 0, 0])?;
        self.misfit.as_ref().map_or(Ok(()), |misfit| write!(f, "; {misfit}"))
    }
}

impl std::error::Error for ConvertRefused {}

impl ConvertRefused {
    fn of(to: Version, from: &'static [u64], sheet: &[u8], number: u64, place: u64) -> Self {
        let named = || Walk::new(from, sheet, usize::try_from(place).ok()?).misfit(number);
        let (error, misfit) = match number {
            39 => (ConvertError::OutputTooShort, None),
            47 => (ConvertError::TooFar, named().map(narrow)),
            _ => match SheetError::from_number(number) {
                error @ SheetError::Other(_) => (ConvertError::Sheet(error), None),
                error => (ConvertError::Sheet(error), named()),
            },
        };
        ConvertRefused { to, error, place, misfit: misfit.map(Box::new) }
    }
}

/// The field may have its value, but not in version 1.
fn narrow(misfit: Misfit) -> Misfit {
    match misfit {
        Misfit::Value { at, field, value, .. } => Misfit::Value { at, field, value, may: May::Range(0, u32::MAX.into()) },
        other => other,
    }
}

fn converted(to: Version, sheet: &[u8], out: &mut [u8]) -> Result<usize, ConvertRefused> {
    let (a, from): (raw::Written, &'static [u64]) = match to {
        Version::One => (raw::to_version_1(sheet, out), &[2]),
        Version::Two => (raw::to_version_2(sheet, out), &[1]),
    };
    match a.number {
        0 => usize::try_from(a.written).map_err(|_| ConvertRefused::of(to, from, sheet, 39, 0)),
        number => Err(ConvertRefused::of(to, from, sheet, number, a.place)),
    }
}

/// Writes a sheet of version 1 as one of version 2, and answers how many bytes it has: four more for each geometry, at most 1024. Every
/// byte but the version's and the wider fields' is as it was, so that [`to_version_1`] gives the same sheet back.
pub fn to_version_2(sheet: &[u8], out: &mut [u8]) -> Result<usize, ConvertRefused> {
    converted(Version::Two, sheet, out)
}

/// Writes a sheet of version 2 as one of version 1, if every geometry's `first` fits, and answers how many bytes it has, never more than
/// before. [`to_version_2`] gives the same sheet back.
pub fn to_version_1(sheet: &[u8], out: &mut [u8]) -> Result<usize, ConvertRefused> {
    converted(Version::One, sheet, out)
}

fn written(to: Version, sheet: &[u8], room: usize) -> Result<Vec<u8>, ConvertRefused> {
    let mut out = vec![0; room];
    let written = converted(to, sheet, &mut out)?;
    out.truncate(written);
    Ok(out)
}

/// The bytes that `to_version_2` writes.
pub fn version_2_of(sheet: &[u8]) -> Result<Vec<u8>, ConvertRefused> {
    let more = MOST_GEOMETRIES.saturating_mul(WIDE_GEOMETRY_BYTES.saturating_sub(GEOMETRY_BYTES));
    written(Version::Two, sheet, sheet.len().saturating_add(more))
}

/// The bytes that `to_version_1` writes.
pub fn version_1_of(sheet: &[u8]) -> Result<Vec<u8>, ConvertRefused> {
    written(Version::One, sheet, sheet.len())
}

#[cfg(test)]
mod tests {
    use super::*;

    /// No library gives these, so they are tried here: what has no name is not guessed.
    #[test]
    fn numbers_without_a_name_are_handed_on() {
        for number in [0, 6, 38, 40, 46, 48, u64::MAX] {
            let refused = ConvertRefused::of(Version::One, &[2], &[2], number, 0);
            assert_eq!((refused.error, refused.error.number()), (ConvertError::Sheet(SheetError::Other(number)), number));
            assert_eq!(refused.misfit, None);
        }
    }
}
