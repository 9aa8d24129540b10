//! Instances read back from their bytes.
use crate::building::Tables;
use crate::misfit::{At, May, Misfit, wide};
use crate::raw;
use crate::records::TlasInstance;
use crate::words::{self, Call};
use std::fmt;

/// Why instances are not read back.
#[derive(Clone, Copy, Debug, PartialEq, Eq)]
#[non_exhaustive]
pub enum ReadInstancesError {
    /// 39: lent output too short
    OutputTooShort,
    /// 48: length not in 64s
    UnevenLength,
    /// 49: u32 at byte 52 not 0
    WordNotZero,
    /// 50: address of no Blas or of several
    NotOneBlas,
    /// a number that this binding doesn't know
    Other(u64),
}

impl ReadInstancesError {
    /// The paper's number.
    pub fn number(self) -> u64 {
        match self {
            ReadInstancesError::OutputTooShort => 39,
            ReadInstancesError::UnevenLength => 48,
            ReadInstancesError::WordNotZero => 49,
            ReadInstancesError::NotOneBlas => 50,
            ReadInstancesError::Other(number) => number,
        }
    }

    fn from_number(number: u64) -> Self {
        use ReadInstancesError as E;
        let named = [E::OutputTooShort, E::UnevenLength, E::WordNotZero, E::NotOneBlas];
        named.into_iter().find(|error| error.number() == number).unwrap_or(E::Other(number))
    }
}

/// Records of instances that are not read back; none is handed out.
#[derive(Clone, Debug, PartialEq, Eq)]
#[non_exhaustive]
pub struct ReadInstancesRefused {
    /// why
    pub error: ReadInstancesError,
    /// the refused record, from 0; none where it is the length
    pub record: Option<usize>,
    /// the part of a record, the u32, or the address and who has it
    pub misfit: Option<Box<Misfit>>,
}

impl fmt::Display for ReadInstancesRefused {
    fn fmt(&self, f: &mut fmt::Formatter) -> fmt::Result {
        words::write(f, Call::ReadInstances, self.error.number(), [self.record.map_or(0, wide), 0], [0, 0, 0])?;
        self.misfit.as_ref().map_or(Ok(()), |misfit| write!(f, "; {misfit}"))
    }
}

impl std::error::Error for ReadInstancesRefused {}

/// The u32 at byte 52 of a record, and its address.
fn ending(record: &[u8; 64]) -> (u32, u64) {
    let [.., w0, w1, w2, w3, a0, a1, a2, a3, a4, a5, a6, a7] = *record;
    (u32::from_le_bytes([w0, w1, w2, w3]), u64::from_le_bytes([a0, a1, a2, a3, a4, a5, a6, a7]))
}

impl ReadInstancesRefused {
    fn of(records: &[u8], blases: &[u8], number: u64, [record, _]: [u64; 2]) -> Self {
        use ReadInstancesError as E;
        let error = E::from_number(number);
        let (whole, part) = records.as_chunks::<64>();
        let record = match error {
            E::WordNotZero | E::NotOneBlas => usize::try_from(record).ok(),
            _ => None,
        };
        let refused = record.and_then(|k| Some((At::InstanceRecord(k), ending(whole.get(k)?))));
        let misfit = match (error, refused) {
            (E::UnevenLength, _) => Some(Misfit::PartRecord { at: At::InstanceRecord(whole.len()), bytes: part.len(), whole: 64 }),
            (E::WordNotZero, Some((at, (word, _)))) => {
                Some(Misfit::Value { at, field: "u32_at_byte_52", value: word.into(), may: May::Range(0, 0) })
            }
            (E::NotOneBlas, Some((at, (_, address)))) => {
                let (first, blases) = Tables { blases, ..Tables::default() }.with_address(address);
                Some(Misfit::Address { at, address, first, blases })
            }
            _ => None,
        };
        ReadInstancesRefused { error, record, misfit: misfit.map(Box::new) }
    }
}

impl Tables<'_> {
    /// The first Blas that has an address, and how many have it.
    fn with_address(&self, address: u64) -> (Option<usize>, usize) {
        let Some(s) = self.section(2) else { return (None, 0) };
        let mut have = s.records(self.blases).enumerate().filter(|(_, r)| s.value(r, "address") == Some(address)).map(|(i, _)| i);
        match have.next() {
            Some(first) => (Some(first), have.count().saturating_add(1)),
            None => (None, 0),
        }
    }
}

/// Reads instances back from the bytes that a build or [`append_instances`](crate::append_instances) wrote, 64 each, end to end:
/// the Blas of each is the one of the table that has its address, and its numbers are kept by their bits. Appended to any Tlas they
/// give the same bytes again, unless the Tlas returns vertices and a Blas does not (35); what was appended comes back as it was, if
/// the address of its Blas stands once in the table. [`raw::read_instances`] writes them as bytes to what it is lent.
pub fn read_instances(records: &[u8], blases: &[u8]) -> Result<Vec<TlasInstance>, ReadInstancesRefused> {
    let (whole, _) = records.as_chunks::<64>();
    let mut items = vec![[0; 55]; whole.len()];
    let a = raw::read_instances(records, blases, items.as_flattened_mut());
    match a.number {
        0 if a.written == wide(items.as_flattened().len()) => Ok(items.iter().map(TlasInstance::from_bytes).collect()),
        0 => Err(ReadInstancesRefused::of(records, blases, 39, [0, 0])),
        number => Err(ReadInstancesRefused::of(records, blases, number, a.e)),
    }
}

#[cfg(test)]
mod tests {
    use super::*;

    /// No library gives these, so they are tried here: what has no name is not guessed.
    #[test]
    fn numbers_without_a_name_are_handed_on() {
        for number in [0, 6, 35, 38, 40, 47, 51, u64::MAX] {
            let refused = ReadInstancesRefused::of(&[0; 64], &[], number, [0, 0]);
            assert_eq!((refused.error, refused.error.number()), (ReadInstancesError::Other(number), number));
            assert_eq!((refused.record, refused.misfit), (None, None));
        }
        // a record that is not there is not looked for
        let refused = ReadInstancesRefused::of(&[0; 64], &[], 50, [1, 0]);
        assert_eq!((refused.record, refused.misfit), (Some(1), None));
    }
}
