//! Building: tables in, the plan out.
use crate::format::{Section, Version};
use crate::layout::NO_BUFFER;
use crate::misfit::{At, Misfit, wide};
use crate::raw;
use crate::records::{BlasId, BufferId, TlasId, TlasInstance};
use crate::words::{self, Call};
use std::fmt;

/// A build's tables, sections 1 to 8, and a sheet's actions.
#[derive(Clone, Copy, Debug, Default)]
pub struct Tables<'a> {
    /// of the geometries: version 2 where they were made by [`table`](crate::table), that of the sheet where they were read from one
    pub version: Version,
    /// section 1, of [`Buffer`](crate::Buffer)
    pub buffers: &'a [u8],
    /// section 2, of [`Blas`](crate::Blas)
    pub blases: &'a [u8],
    /// section 3, of [`BlasGeometrySizeDescriptor`](crate::BlasGeometrySizeDescriptor)
    pub declared: &'a [u8],
    /// section 4, of [`Tlas`](crate::Tlas)
    pub tlases: &'a [u8],
    /// section 5, of [`BlasBuildEntry`](crate::BlasBuildEntry)
    pub entries: &'a [u8],
    /// section 6, of [`BlasGeometry`](crate::BlasGeometry)
    pub geometries: &'a [u8],
    /// section 7, of [`TlasPackage`](crate::TlasPackage)
    pub packages: &'a [u8],
    /// section 8, of [`Option<TlasInstance>`](crate::TlasInstance)
    pub slots: &'a [u8],
    /// section 9, of [`Action`](crate::Action): only in sheets, a build doesn't look at it
    pub actions: &'a [u8],
}

impl<'a> Tables<'a> {
    /// The table that stands for section 1 to 9; empty for another number.
    pub(crate) fn table(&self, number: usize) -> &'a [u8] {
        match number {
            1 => self.buffers,
            2 => self.blases,
            3 => self.declared,
            4 => self.tlases,
            5 => self.entries,
            6 => self.geometries,
            7 => self.packages,
            8 => self.slots,
            9 => self.actions,
            _ => &[],
        }
    }

    pub(crate) fn section(&self, number: usize) -> Option<&'static Section> {
        self.version.section(number)
    }

    /// How many whole records the table has that stands for a section.
    pub(crate) fn count(&self, number: usize) -> usize {
        self.section(number).map_or(0, |s| s.count(self.table(number)))
    }

    pub(crate) fn put(&mut self, number: usize, table: &'a [u8]) {
        match number {
            1 => self.buffers = table,
            2 => self.blases = table,
            3 => self.declared = table,
            4 => self.tlases = table,
            5 => self.entries = table,
            6 => self.geometries = table,
            7 => self.packages = table,
            8 => self.slots = table,
            9 => self.actions = table,
            _ => {}
        }
    }
}

/// A build's plan, or room for one. What is past the plan keeps its elements.
#[derive(Clone, Debug, Default, PartialEq, Eq)]
pub struct Outputs {
    /// one for each entry
    pub blas_offsets: Vec<u64>,
    /// one for each package
    pub tlas_offsets: Vec<u64>,
    /// start and end for each package
    pub staging_ranges: Vec<u64>,
    /// 64 bytes for each present slot
    pub instances: Vec<u8>,
    /// buffer, start, end for each range
    pub init_ranges: Vec<u64>,
    /// ids of Blases
    pub compactable: Vec<u16>,
    /// the recorded action's lists
    pub lists: Vec<u16>,
}

impl Outputs {
    /// Room for what a build of these tables writes, exactly so much if it is recorded.
    pub fn for_tables(tables: &Tables) -> Self {
        let n = Written::for_tables(tables);
        Outputs {
            blas_offsets: vec![0; n.blas_offsets],
            tlas_offsets: vec![0; n.tlas_offsets],
            staging_ranges: vec![0; n.staging_ranges],
            instances: vec![0; n.instances],
            init_ranges: vec![0; n.init_ranges],
            compactable: vec![0; n.compactable],
            lists: vec![0; n.lists],
        }
    }

    /// To be written by a build.
    pub fn lend(&mut self) -> LentOutputs<'_> {
        LentOutputs {
            blas_offsets: &mut self.blas_offsets,
            tlas_offsets: &mut self.tlas_offsets,
            staging_ranges: &mut self.staging_ranges,
            instances: &mut self.instances,
            init_ranges: &mut self.init_ranges,
            compactable: &mut self.compactable,
            lists: &mut self.lists,
        }
    }
}

/// Where a build's plan is written: [`Outputs`], lent.
#[derive(Debug, Default)]
pub struct LentOutputs<'a> {
    /// one for each entry
    pub blas_offsets: &'a mut [u64],
    /// one for each package
    pub tlas_offsets: &'a mut [u64],
    /// start and end for each package
    pub staging_ranges: &'a mut [u64],
    /// 64 bytes for each present slot
    pub instances: &'a mut [u8],
    /// buffer, start, end for each range
    pub init_ranges: &'a mut [u64],
    /// ids of Blases
    pub compactable: &'a mut [u16],
    /// the recorded action's lists
    pub lists: &'a mut [u16],
}

/// How many elements of each output a build writes.
#[derive(Clone, Copy, Debug, Default, PartialEq, Eq)]
pub struct Written {
    /// one for each entry
    pub blas_offsets: usize,
    /// one for each package
    pub tlas_offsets: usize,
    /// two for each package
    pub staging_ranges: usize,
    /// 64 for each present slot
    pub instances: usize,
    /// three for each range
    pub init_ranges: usize,
    /// one for each entry whose Blas may be compacted
    pub compactable: usize,
    /// one for each entry, two for each package, one for each present slot
    pub lists: usize,
}

impl Written {
    /// What a recorded build of these tables writes. If nothing is recorded, it writes the ranges alone; if it is refused, nothing.
    pub fn for_tables(tables: &Tables) -> Self {
        let (entries, packages) = (tables.count(5), tables.count(7));
        let present = tables
            .section(8)
            .map_or(0, |s| s.records(tables.slots).filter(|r| s.value(r, "present").is_some_and(|p| p != 0)).count());
        Written {
            blas_offsets: entries,
            tlas_offsets: packages,
            staging_ranges: packages.saturating_mul(2),
            instances: present.saturating_mul(64),
            init_ranges: tables.ranges().saturating_mul(3),
            compactable: tables.compactable(),
            lists: entries.saturating_add(packages.saturating_mul(2)).saturating_add(present),
        }
    }
}

impl Tables<'_> {
    /// A range for each buffer that a geometry names: its data, and of triangles also indices and transform.
    fn ranges(&self) -> usize {
        let (Some(by), Some(s)) = (self.section(5), self.section(6)) else { return 0 };
        let kinds = by.records(self.entries).map(|r| by.value(r, "kind"));
        let mut geometries = s.records(self.geometries);
        let given = |r: &[u8], field: &str| usize::from(s.value(r, field) != Some(NO_BUFFER.into()));
        kinds.zip(self.drawn(by)).fold(0, |ranges, (kind, n)| {
            let of_entry = geometries.by_ref().take(n).fold(0, |sum: usize, r| match kind {
                Some(0) => {
                    sum.saturating_add(1).saturating_add(given(r, "index_buffer")).saturating_add(given(r, "transform_buffer"))
                }
                _ => sum.saturating_add(1),
            });
            ranges.saturating_add(of_entry)
        })
    }

    /// Entries whose Blas has `ALLOW_COMPACTION`.
    fn compactable(&self) -> usize {
        let (Some(by), Some(s)) = (self.section(5), self.section(2)) else { return 0 };
        let flags = |entry: &[u8]| {
            let blas = usize::try_from(by.value(entry, "blas")?).ok()?;
            s.value(s.record(self.blases, blas)?, "flags")
        };
        by.records(self.entries).filter(|r| flags(r).is_some_and(|flags| flags & u64::from(crate::ALLOW_COMPACTION) != 0)).count()
    }
}

/// An accepted build.
#[derive(Clone, Copy, Debug, PartialEq, Eq)]
pub enum Built {
    /// the plan was written
    Recorded(Recorded),
    /// larger total 0: only initialisation ranges were written
    NothingRecorded {
        /// how many elements of them
        init_ranges: usize,
    },
}

/// A recorded build. [`Actions::recorded`](crate::Actions::recorded) makes it an action.
#[derive(Clone, Copy, Debug, PartialEq, Eq)]
pub struct Recorded {
    /// what Blases and Tlases share, in bytes
    pub scratch_size: u64,
    /// how many elements of each output were written
    pub written: Written,
}

impl Built {
    /// The recorded build, if there is one.
    pub fn recorded(&self) -> Option<Recorded> {
        match *self {
            Built::Recorded(recorded) => Some(recorded),
            Built::NothingRecorded { .. } => None,
        }
    }

    /// The scratch size, 0 where nothing is recorded.
    pub fn scratch_size(&self) -> u64 {
        self.recorded().map_or(0, |r| r.scratch_size)
    }
}

/// What a refusal names.
#[derive(Clone, Copy, Debug, PartialEq, Eq)]
pub enum Resource {
    /// a buffer
    Buffer(BufferId),
    /// a Blas
    Blas(BlasId),
    /// a Tlas
    Tlas(TlasId),
}

/// Whose running total of scratch reaches 2^64 - 1 or would pass it; [`BuildRefused::e`] has the first at which it does.
#[derive(Clone, Copy, Debug, PartialEq, Eq)]
pub enum RunningTotal {
    /// that of the entries' Blases: `e[0]` is an entry
    Entries,
    /// that of the packages' Tlases, where that of the entries stays below: `e[0]` is a package
    Packages,
}

/// Why a build is refused, with its figures.
#[derive(Clone, Copy, Debug, PartialEq, Eq)]
#[non_exhaustive]
pub enum BuildAccelerationStructureError {
    /// 4: count above its limit
    TooMany,
    /// 5: value outside its field
    InvalidValue,
    /// 6: id outside its table
    InvalidResource,
    /// 10: kind mismatch
    BlasGeometryKindMismatch,
    /// 11: more geometries than declared
    IncompatibleBlasBuildSizes,
    /// 12: flags differ
    IncompatibleBlasFlags {
        /// what the Blas declares
        declared: u8,
        /// what the geometry has
        given: u8,
    },
    /// 13: vertex count above declared
    IncompatibleBlasVertexCount {
        /// what the Blas declares
        declared: u32,
        /// what the geometry has
        given: u32,
    },
    /// 14: vertex format differs
    DifferentBlasVertexFormats {
        /// what the Blas declares
        declared: u8,
        /// what the geometry has
        given: u8,
    },
    /// 15: stride below least
    VertexStrideTooSmall {
        /// what the Blas declares
        needed: u64,
        /// what the geometry has
        given: u64,
    },
    /// 16: stride not a multiple
    VertexStrideUnaligned {
        /// what the Blas declares
        needed: u64,
        /// what the geometry has
        given: u64,
    },
    /// 17: index count on one side only
    BlasIndexCountProvidedMismatch,
    /// 18: index count above declared
    IncompatibleBlasIndexCount {
        /// what the Blas declares
        declared: u32,
        /// what the geometry has
        given: u32,
    },
    /// 19: index format differs
    DifferentBlasIndexFormats {
        /// what the Blas declares
        declared: u8,
        /// what the geometry has
        given: u8,
    },
    /// 20: index count declared, no index buffer
    MissingIndexBuffer,
    /// 21: destroyed
    DestroyedResource(Resource),
    /// 22: no `BLAS_INPUT`
    MissingBufferUsage(BufferId),
    /// 23: region overruns buffer
    InsufficientBufferSize {
        /// where it begins
        offset: u64,
        /// how long it is
        region: u64,
        /// how long the buffer is
        size: u64,
    },
    /// 24: first index, index count or transform offset absent
    MissingAssociatedData,
    /// 25: index format none
    MissingIndexFormat,
    /// 26: product or offset above 2^32 - 1
    OffsetLimitedTo4GB {
        /// the product, or the offset
        offset: u64,
        /// what is multiplied
        count: u64,
        /// by what
        stride: u64,
    },
    /// 27: index count not in threes
    InvalidIndexCount {
        /// how many there are
        count: u32,
    },
    /// 28: transform unflagged
    UseTransformMissing,
    /// 29: transform offset not in 16s
    UnalignedTransformBufferOffset,
    /// 30: transform flagged, absent
    TransformMissing,
    /// 31: box count above declared
    IncompatibleBlasAabbPrimitiveCount {
        /// what the Blas declares
        declared: u32,
        /// what the geometry has
        given: u32,
    },
    /// 32: box offset not in eights
    UnalignedAabbPrimitiveOffset,
    /// 33: box stride below 24 or not in eights
    InvalidAabbStride {
        /// from one to the next
        stride: u64,
    },
    /// 34: custom data from 2^24 on
    TlasInvalidCustomIndex,
    /// 35: Tlas returns vertices, Blas does not
    TlasDependentMissingVertexReturn,
    /// 36: too many present slots
    TlasInstanceCountExceeded {
        /// how many there are
        count: u32,
        /// how many there may be
        most: u32,
    },
    /// 37: scratch 2^64 - 1
    OutOfMemory(RunningTotal),
    /// 38: compacted Blas
    CompactedBlas,
    /// 39: lent output too short
    OutputTooShort,
    /// a number that this binding doesn't know, or figures that it has no name for
    Other {
        /// the number
        number: u64,
        /// its figures
        figures: [u64; 3],
    },
}

impl BuildAccelerationStructureError {
    fn from_numbers(number: u64, figures: [u64; 3]) -> Self {
        Self::known(number, figures).unwrap_or(Self::Other { number, figures })
    }

    fn known(number: u64, [f0, f1, f2]: [u64; 3]) -> Option<Self> {
        use BuildAccelerationStructureError as E;
        let id = || u16::try_from(f1).ok();
        let bytes = || Some((u8::try_from(f0).ok()?, u8::try_from(f1).ok()?));
        let counts = || Some((u32::try_from(f0).ok()?, u32::try_from(f1).ok()?));
        Some(match number {
            4 => E::TooMany,
            5 => E::InvalidValue,
            6 => E::InvalidResource,
            10 => E::BlasGeometryKindMismatch,
            11 => E::IncompatibleBlasBuildSizes,
            12 => bytes().map(|(declared, given)| E::IncompatibleBlasFlags { declared, given })?,
            13 => counts().map(|(declared, given)| E::IncompatibleBlasVertexCount { declared, given })?,
            14 => bytes().map(|(declared, given)| E::DifferentBlasVertexFormats { declared, given })?,
            15 => E::VertexStrideTooSmall { needed: f0, given: f1 },
            16 => E::VertexStrideUnaligned { needed: f0, given: f1 },
            17 => E::BlasIndexCountProvidedMismatch,
            18 => counts().map(|(declared, given)| E::IncompatibleBlasIndexCount { declared, given })?,
            19 => bytes().map(|(declared, given)| E::DifferentBlasIndexFormats { declared, given })?,
            20 => E::MissingIndexBuffer,
            21 => E::DestroyedResource(match f0 {
                1 => Resource::Buffer(BufferId(id()?)),
                2 => Resource::Blas(BlasId(id()?)),
                3 => Resource::Tlas(TlasId(id()?)),
                _ => return None,
            }),
            22 => E::MissingBufferUsage(BufferId(id()?)),
            23 => E::InsufficientBufferSize { offset: f0, region: f1, size: f2 },
            24 => E::MissingAssociatedData,
            25 => E::MissingIndexFormat,
            26 => E::OffsetLimitedTo4GB { offset: f0, count: f1, stride: f2 },
            27 => E::InvalidIndexCount { count: u32::try_from(f0).ok()? },
            28 => E::UseTransformMissing,
            29 => E::UnalignedTransformBufferOffset,
            30 => E::TransformMissing,
            31 => counts().map(|(declared, given)| E::IncompatibleBlasAabbPrimitiveCount { declared, given })?,
            32 => E::UnalignedAabbPrimitiveOffset,
            33 => E::InvalidAabbStride { stride: f0 },
            34 => E::TlasInvalidCustomIndex,
            35 => E::TlasDependentMissingVertexReturn,
            36 => counts().map(|(count, most)| E::TlasInstanceCountExceeded { count, most })?,
            37 => E::OutOfMemory(match f0 {
                1 => RunningTotal::Entries,
                2 => RunningTotal::Packages,
                _ => return None,
            }),
            38 => E::CompactedBlas,
            39 => E::OutputTooShort,
            _ => return None,
        })
    }
}

/// A refused build.
#[derive(Clone, Debug, PartialEq, Eq)]
#[non_exhaustive]
pub struct BuildRefused {
    /// the paper's number
    pub number: u64,
    /// the same, with its figures
    pub error: BuildAccelerationStructureError,
    /// entry and geometry, or package and slot, of `OutOfMemory` as its total says; for `TooMany` and `InvalidValue` section and
    /// record
    pub e: [u64; 2],
    /// as the library gives them
    pub figures: [u64; 3],
    /// for 4, 5 and 6: the field or the id
    pub misfit: Option<Box<Misfit>>,
}

impl fmt::Display for BuildRefused {
    fn fmt(&self, f: &mut fmt::Formatter) -> fmt::Result {
        words::write(f, Call::Build, self.number, self.e, self.figures)?;
        self.misfit.as_ref().map_or(Ok(()), |misfit| write!(f, "; {misfit}"))
    }
}

impl std::error::Error for BuildRefused {}

/// Judges a build and writes its plan. Tables of either version are answered the same, as long as they say the same.
pub fn build_acceleration_structures(alignment: u32, tables: &Tables, out: LentOutputs) -> Result<Built, BuildRefused> {
    let Tables { buffers, blases, declared, tlases, entries, geometries, packages, slots, .. } = *tables;
    let call = match tables.version {
        Version::One => raw::build,
        Version::Two => raw::build_wide,
    };
    let a = call(alignment, [buffers, blases, declared, tlases, entries, geometries, packages, slots], out);
    if a.number != 0 {
        let error = BuildAccelerationStructureError::from_numbers(a.number, a.figures);
        let misfit = match a.number {
            4 | 5 => tables.misfit(a.number, a.e),
            6 => tables.id_outside().filter(|(e, _)| *e == a.e).map(|(_, misfit)| misfit),
            _ => None,
        };
        return Err(BuildRefused { number: a.number, error, e: a.e, figures: a.figures, misfit: misfit.map(Box::new) });
    }
    let [blas_offsets, tlas_offsets, staging_ranges, instances, init_ranges, compactable, lists] =
        a.written.map(|n| usize::try_from(n).unwrap_or(usize::MAX));
    if a.recorded == 0 {
        return Ok(Built::NothingRecorded { init_ranges });
    }
    let written = Written { blas_offsets, tlas_offsets, staging_ranges, instances, init_ranges, compactable, lists };
    Ok(Built::Recorded(Recorded { scratch_size: a.scratch_size, written }))
}

/// A refused instance.
#[derive(Clone, Debug, PartialEq, Eq)]
#[non_exhaustive]
pub struct AppendRefused {
    /// the paper's number
    pub number: u64,
    /// the same, with its figures
    pub error: BuildAccelerationStructureError,
    /// as the library gives them
    pub figures: [u64; 3],
    /// for 6: the id
    pub misfit: Option<Box<Misfit>>,
    /// bytes in use, as before
    pub used: usize,
}

impl fmt::Display for AppendRefused {
    fn fmt(&self, f: &mut fmt::Formatter) -> fmt::Result {
        words::write(f, Call::Append, self.number, [0, 0], self.figures)?;
        self.misfit.as_ref().map_or(Ok(()), |misfit| write!(f, "; {misfit}"))
    }
}

impl std::error::Error for AppendRefused {}

/// Appends one instance's 64 bytes to those in use: how many are in use then. It doesn't judge how many a Tlas may have (36), a
/// build does.
pub fn append_instance(
    tlases: &[u8],
    blases: &[u8],
    tlas: TlasId,
    instance: &TlasInstance,
    instances: &mut [u8],
    used: usize,
) -> Result<usize, AppendRefused> {
    let a = raw::append_instance(tlases, blases, tlas.0, &instance.to_bytes(), instances, wide(used));
    if a.number == 0 {
        return Ok(usize::try_from(a.used).unwrap_or(usize::MAX));
    }
    let error = BuildAccelerationStructureError::from_numbers(a.number, a.figures);
    let tables = Tables { tlases, blases, ..Tables::default() };
    let outside = || {
        let tlas = tables.outside(At::Call, "tlas", tlas.0.into(), 4);
        tlas.or_else(|| tables.outside(At::Call, "blas", instance.blas.0.into(), 2))
    };
    let misfit = if a.number == 6 { outside() } else { None };
    Err(AppendRefused { number: a.number, error, figures: a.figures, misfit: misfit.map(Box::new), used })
}

/// Refused instances of one call; nothing was written.
#[derive(Clone, Debug, PartialEq, Eq)]
#[non_exhaustive]
pub struct AppendManyRefused {
    /// the paper's number
    pub number: u64,
    /// the same, with its figures
    pub error: BuildAccelerationStructureError,
    /// the refused instance, from 0; none where it is the Tlas or the room
    pub position: Option<usize>,
    /// as the library gives them
    pub figures: [u64; 3],
    /// for 6: the id
    pub misfit: Option<Box<Misfit>>,
    /// bytes in use, as before
    pub used: usize,
}

impl fmt::Display for AppendManyRefused {
    fn fmt(&self, f: &mut fmt::Formatter) -> fmt::Result {
        words::write(f, Call::AppendMany, self.number, [0, self.position.map_or(0, wide)], self.figures)?;
        self.misfit.as_ref().map_or(Ok(()), |misfit| write!(f, "; {misfit}"))
    }
}

impl std::error::Error for AppendManyRefused {}

/// Appends the 64 bytes of each instance to those in use: how many are in use then. All are judged first; what is written is what
/// [`append_instance`] writes for one after the other. Instances that are bytes already are lent to [`raw::append_instances`].
pub fn append_instances(
    tlases: &[u8],
    blases: &[u8],
    tlas: TlasId,
    items: &[TlasInstance],
    instances: &mut [u8],
    used: usize,
) -> Result<usize, AppendManyRefused> {
    let bytes: Vec<[u8; 55]> = items.iter().map(TlasInstance::to_bytes).collect();
    let a = raw::append_instances(tlases, blases, tlas.0, bytes.as_flattened(), instances, wide(used));
    if a.number == 0 {
        return Ok(usize::try_from(a.used).unwrap_or(usize::MAX));
    }
    let error = BuildAccelerationStructureError::from_numbers(a.number, a.figures);
    let tables = Tables { tlases, blases, ..Tables::default() };
    // it is judged first, and refused at 0, where the first instance is too
    let of_tlas = tables.outside(At::Call, "tlas", tlas.0.into(), 4);
    let [_, position] = a.e;
    let position = if of_tlas.is_some() || a.number == 39 { None } else { usize::try_from(position).ok() };
    let misfit = match position.and_then(|k| Some((k, items.get(k)?))) {
        Some((k, instance)) if a.number == 6 => tables.outside(At::Instance(k), "blas", instance.blas.0.into(), 2),
        _ => of_tlas,
    };
    Err(AppendManyRefused { number: a.number, error, position, figures: a.figures, misfit: misfit.map(Box::new), used })
}

#[cfg(test)]
mod tests {
    use super::*;

    /// No library gives these, so they are tried here: what a figure doesn't say is not guessed.
    #[test]
    fn figures_without_a_name_are_handed_on() {
        use BuildAccelerationStructureError as E;
        assert_eq!(E::from_numbers(37, [1, 0, 0]), E::OutOfMemory(RunningTotal::Entries));
        assert_eq!(E::from_numbers(37, [2, 0, 0]), E::OutOfMemory(RunningTotal::Packages));
        for f0 in [0, 3, 257, 258, u64::MAX] {
            assert_eq!(E::from_numbers(37, [f0, 1, 2]), E::Other { number: 37, figures: [f0, 1, 2] });
        }
        for f0 in [0, 4, u64::MAX] {
            assert_eq!(E::from_numbers(21, [f0, 1, 0]), E::Other { number: 21, figures: [f0, 1, 0] });
        }
    }
}
