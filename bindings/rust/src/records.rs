//! Ids and records, to tables and back.
use crate::building::Tables;
use crate::format::Version;
use crate::layout::NO_BUFFER;
use crate::misfit::{At, May, Misfit};

/// A buffer's number in its table.
#[derive(Clone, Copy, Debug, Default, PartialEq, Eq, PartialOrd, Ord, Hash)]
pub struct BufferId(pub u16);

/// A Blas's number in its table.
#[derive(Clone, Copy, Debug, Default, PartialEq, Eq, PartialOrd, Ord, Hash)]
pub struct BlasId(pub u16);

/// A Tlas's number in its table.
#[derive(Clone, Copy, Debug, Default, PartialEq, Eq, PartialOrd, Ord, Hash)]
pub struct TlasId(pub u16);

/// A record of a table.
pub trait Record: Sized {
    /// The section that its table stands for, 1 to 9.
    const SECTION: usize;

    /// Writes it at the table's end, as version 2 has it, or says what doesn't fit and leaves the table as it was.
    fn put(&self, table: &mut Vec<u8>) -> Result<(), Misfit>;

    /// Reads it from its bytes; `None` for a value that it can't have.
    fn get(reader: Reader) -> Option<Self>;
}

/// The table of these records, as version 2 has them.
pub fn table<R: Record>(records: &[R]) -> Result<Vec<u8>, Misfit> {
    let mut table = Vec::new();
    records.iter().try_for_each(|r| r.put(&mut table))?;
    Ok(table)
}

impl Tables<'_> {
    /// The records of one of these tables. Fields that are not used are read as those of a default record.
    pub fn records<R: Record>(&self) -> Result<Vec<R>, Misfit> {
        let Some(s) = self.section(R::SECTION) else { return Ok(Vec::new()) };
        let table = self.table(s.number);
        let whole = s.count(table);
        let left = table.len().saturating_sub(whole.saturating_mul(s.bytes));
        if left > 0 {
            return Err(Misfit::PartRecord { at: At::Record(s.number, whole), bytes: left, whole: s.bytes });
        }
        let read = |(i, record): (usize, &[u8])| {
            if let Some(misfit) = self.misfit_of_record(s, i) {
                return Err(misfit);
            }
            let mut used = record.to_vec();
            for f in s.fields.iter().filter(|f| !f.is_used(s.fields, record, self.is_boxes(s, i))) {
                used.iter_mut().skip(f.at).take(f.width).zip(f.least().to_le_bytes()).for_each(|(to, from)| *to = from);
            }
            R::get(Reader(&used, self.version)).ok_or(Misfit::PartRecord {
                at: At::Record(s.number, i),
                bytes: record.len(),
                whole: s.bytes,
            })
        };
        s.records(table).enumerate().map(read).collect()
    }
}

/// A record's bytes, read from the first on, and the version that has them so.
#[derive(Clone, Copy, Debug)]
pub struct Reader<'a>(&'a [u8], Version);

impl Reader<'_> {
    fn take<const N: usize>(&mut self) -> Option<[u8; N]> {
        let (taken, rest) = self.0.split_first_chunk()?;
        self.0 = rest;
        Some(*taken)
    }

    /// The next byte.
    pub fn u8(&mut self) -> Option<u8> {
        self.take().map(u8::from_le_bytes)
    }

    /// The next two bytes.
    pub fn u16(&mut self) -> Option<u16> {
        self.take().map(u16::from_le_bytes)
    }

    /// The next four bytes.
    pub fn u32(&mut self) -> Option<u32> {
        self.take().map(u32::from_le_bytes)
    }

    /// The next eight bytes.
    pub fn u64(&mut self) -> Option<u64> {
        self.take().map(u64::from_le_bytes)
    }

    /// The next four bytes, in version 2 the next eight.
    pub fn by_version(&mut self) -> Option<u64> {
        match self.1 {
            Version::One => self.u32().map(u64::from),
            Version::Two => self.u64(),
        }
    }

    /// The next byte, 0 or 1.
    pub fn bit(&mut self) -> Option<bool> {
        match self.u8()? {
            0 => Some(false),
            1 => Some(true),
            _ => None,
        }
    }

    /// The next buffer, or none.
    pub fn buffer(&mut self) -> Option<Option<BufferId>> {
        self.u16().map(|id| (id != NO_BUFFER).then_some(BufferId(id)))
    }
}

macro_rules! put {
    ($table:expr, $($value:expr),* $(,)?) => {{ $($table.extend_from_slice(&$value.to_le_bytes());)* }};
}

/// A buffer that a geometry's bytes lie in.
#[derive(Clone, Copy, Debug, Default, PartialEq, Eq)]
pub struct Buffer {
    /// in bytes
    pub size: u64,
    /// made with `BLAS_INPUT`
    pub blas_input: bool,
    /// its memory is gone
    pub destroyed: bool,
}

impl Record for Buffer {
    const SECTION: usize = 1;

    fn put(&self, table: &mut Vec<u8>) -> Result<(), Misfit> {
        put!(table, self.size, (u8::from(self.blas_input) | u8::from(self.destroyed) << 1));
        Ok(())
    }

    fn get(mut r: Reader) -> Option<Self> {
        let (size, marks) = (r.u64()?, r.u8()?);
        Some(Buffer { size, blas_input: marks & 1 != 0, destroyed: marks & 2 != 0 })
    }
}

/// What a Blas is made of.
#[derive(Clone, Copy, Debug, Default, PartialEq, Eq)]
pub enum Kind {
    /// triangles of vertices
    #[default]
    Triangles,
    /// axis-aligned boxes
    Boxes,
}

impl Kind {
    fn number(self) -> u8 {
        match self {
            Kind::Triangles => 0,
            Kind::Boxes => 1,
        }
    }

    fn of(number: u8) -> Option<Self> {
        [Kind::Triangles, Kind::Boxes].into_iter().find(|k| k.number() == number)
    }
}

/// How far the compaction of a Blas is.
#[derive(Clone, Copy, Debug, Default, PartialEq, Eq)]
pub enum BlasCompactState {
    /// not asked for
    #[default]
    Idle,
    /// asked for
    Waiting,
    /// its size is known
    Ready,
    /// done: it can't be built again
    Compacted,
}

impl BlasCompactState {
    fn number(self) -> u8 {
        match self {
            BlasCompactState::Idle => 0,
            BlasCompactState::Waiting => 1,
            BlasCompactState::Ready => 2,
            BlasCompactState::Compacted => 3,
        }
    }

    fn of(number: u8) -> Option<Self> {
        use BlasCompactState::*;
        [Idle, Waiting, Ready, Compacted].into_iter().find(|s| s.number() == number)
    }
}

/// Flag of a Blas: its geometries may have transforms.
pub const USE_TRANSFORM: u8 = 1;
/// Flag of a Blas and of a Tlas: hit triangles may be read back.
pub const ALLOW_RAY_HIT_VERTEX_RETURN: u8 = 2;
/// Flag of a Blas: it may be compacted.
pub const ALLOW_COMPACTION: u8 = 4;

/// A bottom level acceleration structure.
#[derive(Clone, Copy, Debug, Default, PartialEq, Eq)]
pub struct Blas {
    /// of its geometries
    pub kind: Kind,
    /// `USE_TRANSFORM`, `ALLOW_RAY_HIT_VERTEX_RETURN`, `ALLOW_COMPACTION`
    pub flags: u8,
    /// how far its compaction is
    pub compacted_state: BlasCompactState,
    /// its memory is gone
    pub destroyed: bool,
    /// what a build of it needs, in bytes
    pub build_scratch_size: u64,
    /// its address, as instances have it
    pub handle: u64,
    /// number of the build that last built it; 0 is none
    pub built_index: u64,
}

impl Record for Blas {
    const SECTION: usize = 2;

    fn put(&self, table: &mut Vec<u8>) -> Result<(), Misfit> {
        table.extend([self.kind.number(), self.flags, self.compacted_state.number(), self.destroyed.into()]);
        put!(table, self.build_scratch_size, self.handle, self.built_index);
        Ok(())
    }

    fn get(mut r: Reader) -> Option<Self> {
        Some(Blas {
            kind: Kind::of(r.u8()?)?,
            flags: r.u8()?,
            compacted_state: BlasCompactState::of(r.u8()?)?,
            destroyed: r.bit()?,
            build_scratch_size: r.u64()?,
            handle: r.u64()?,
            built_index: r.u64()?,
        })
    }
}

/// How wide an index is.
#[derive(Clone, Copy, Debug, Default, PartialEq, Eq)]
pub enum IndexFormat {
    /// there are none
    #[default]
    None,
    /// two bytes
    Uint16,
    /// four bytes
    Uint32,
}

impl IndexFormat {
    fn number(self) -> u8 {
        match self {
            IndexFormat::None => 0,
            IndexFormat::Uint16 => 1,
            IndexFormat::Uint32 => 2,
        }
    }

    fn of(number: u8) -> Option<Self> {
        [IndexFormat::None, IndexFormat::Uint16, IndexFormat::Uint32].into_iter().find(|f| f.number() == number)
    }
}

/// What a Blas declares of one of its geometries. Boxes use nothing after `count`.
#[derive(Clone, Copy, Debug, PartialEq, Eq)]
pub struct BlasGeometrySizeDescriptor {
    /// whose it is; a Blas's list is its records in order
    pub blas: BlasId,
    /// any byte; a geometry must have the same
    pub flags: u8,
    /// most vertices or boxes
    pub count: u32,
    /// any byte; a geometry must have the same
    pub vertex_format: u8,
    /// the least that the format asks
    pub min_vertex_stride: u16,
    /// what the format asks a stride to be a multiple of, 1 or more
    pub stride_alignment: u16,
    /// a geometry must have the same
    pub index_format: IndexFormat,
    /// most indices, if there are any
    pub index_count: Option<u32>,
}

/// All 0 and absent, but for the stride alignment, which may not be 0.
impl Default for BlasGeometrySizeDescriptor {
    fn default() -> Self {
        BlasGeometrySizeDescriptor {
            blas: BlasId(0),
            flags: 0,
            count: 0,
            vertex_format: 0,
            min_vertex_stride: 0,
            stride_alignment: 1,
            index_format: IndexFormat::None,
            index_count: None,
        }
    }
}

impl Record for BlasGeometrySizeDescriptor {
    const SECTION: usize = 3;

    fn put(&self, table: &mut Vec<u8>) -> Result<(), Misfit> {
        put!(table, self.blas.0, self.flags, self.count, self.vertex_format, self.min_vertex_stride, self.stride_alignment);
        table.extend([self.index_format.number(), self.index_count.is_some().into()]);
        put!(table, self.index_count.unwrap_or(0));
        Ok(())
    }

    fn get(mut r: Reader) -> Option<Self> {
        Some(BlasGeometrySizeDescriptor {
            blas: BlasId(r.u16()?),
            flags: r.u8()?,
            count: r.u32()?,
            vertex_format: r.u8()?,
            min_vertex_stride: r.u16()?,
            stride_alignment: r.u16()?,
            index_format: IndexFormat::of(r.u8()?)?,
            index_count: {
                let present = r.bit()?;
                present.then_some(r.u32()?)
            },
        })
    }
}

/// A top level acceleration structure.
#[derive(Clone, Copy, Debug, Default, PartialEq, Eq)]
pub struct Tlas {
    /// 0 or `ALLOW_RAY_HIT_VERTEX_RETURN`
    pub flags: u8,
    /// its memory is gone
    pub destroyed: bool,
    /// what a build of it needs, in bytes
    pub build_scratch_size: u64,
    /// the most present slots of a package
    pub max_instance_count: u32,
    /// number of the build that last built it; 0 is none
    pub built_index: u64,
}

impl Record for Tlas {
    const SECTION: usize = 4;

    fn put(&self, table: &mut Vec<u8>) -> Result<(), Misfit> {
        table.extend([self.flags, self.destroyed.into()]);
        put!(table, self.build_scratch_size, self.max_instance_count, self.built_index);
        Ok(())
    }

    fn get(mut r: Reader) -> Option<Self> {
        Some(Tlas {
            flags: r.u8()?,
            destroyed: r.bit()?,
            build_scratch_size: r.u64()?,
            max_instance_count: r.u32()?,
            built_index: r.u64()?,
        })
    }
}

/// A Blas to build. Draws its geometries in turn from theirs.
#[derive(Clone, Copy, Debug, Default, PartialEq, Eq)]
pub struct BlasBuildEntry {
    /// what is built
    pub blas: BlasId,
    /// of its geometries
    pub kind: Kind,
    /// how many it draws
    pub geometry_count: u16,
}

impl Record for BlasBuildEntry {
    const SECTION: usize = 5;

    fn put(&self, table: &mut Vec<u8>) -> Result<(), Misfit> {
        put!(table, self.blas.0, self.kind.number(), self.geometry_count);
        Ok(())
    }

    fn get(mut r: Reader) -> Option<Self> {
        Some(BlasBuildEntry { blas: BlasId(r.u16()?), kind: Kind::of(r.u8()?)?, geometry_count: r.u16()? })
    }
}

/// A geometry of either kind; boxes use nothing after `buffer`.
#[derive(Clone, Copy, Debug, Default, PartialEq, Eq)]
pub struct BlasGeometry {
    /// the declared ones
    pub flags: u8,
    /// of vertices or boxes
    pub count: u32,
    /// first vertex, or the boxes' offset in bytes
    pub first: u64,
    /// from one vertex or box to the next, in bytes
    pub stride: u64,
    /// of vertices or boxes
    pub buffer: BufferId,
    /// the declared one
    pub vertex_format: u8,
    /// the declared one
    pub index_format: IndexFormat,
    /// of indices
    pub index_buffer: Option<BufferId>,
    /// of indices, in threes
    pub index_count: Option<u32>,
    /// in indices
    pub first_index: Option<u32>,
    /// of one transform
    pub transform_buffer: Option<BufferId>,
    /// in bytes, in 16s
    pub transform_buffer_offset: Option<u64>,
}

/// A buffer that may be none, as its number: 65535 says none, so no buffer may have it.
fn buffer_or_none(field: &'static str, id: Option<BufferId>, record: usize) -> Result<u16, Misfit> {
    match id {
        None => Ok(NO_BUFFER),
        Some(BufferId(NO_BUFFER)) => Err(Misfit::Value {
            at: At::Record(BlasGeometry::SECTION, record),
            field,
            value: NO_BUFFER.into(),
            may: May::Range(0, u64::from(NO_BUFFER).saturating_sub(1)),
        }),
        Some(BufferId(id)) => Ok(id),
    }
}

impl Record for BlasGeometry {
    const SECTION: usize = 6;

    fn put(&self, table: &mut Vec<u8>) -> Result<(), Misfit> {
        let record = Version::Two.section(Self::SECTION).map_or(0, |s| s.count(table));
        let index_buffer = buffer_or_none("index_buffer", self.index_buffer, record)?;
        let transform_buffer = buffer_or_none("transform_buffer", self.transform_buffer, record)?;
        put!(table, self.flags, self.count, self.first, self.stride, self.buffer.0, self.vertex_format);
        put!(table, self.index_format.number(), index_buffer);
        put!(table, u8::from(self.index_count.is_some()), self.index_count.unwrap_or(0));
        put!(table, u8::from(self.first_index.is_some()), self.first_index.unwrap_or(0));
        put!(table, transform_buffer);
        put!(table, u8::from(self.transform_buffer_offset.is_some()), self.transform_buffer_offset.unwrap_or(0));
        Ok(())
    }

    fn get(mut r: Reader) -> Option<Self> {
        let (flags, count, first, stride) = (r.u8()?, r.u32()?, r.by_version()?, r.u64()?);
        let (buffer, vertex_format, index_format) = (BufferId(r.u16()?), r.u8()?, IndexFormat::of(r.u8()?)?);
        let index_buffer = r.buffer()?;
        let (present, index_count) = (r.bit()?, r.u32()?);
        let index_count = present.then_some(index_count);
        let (present, first_index) = (r.bit()?, r.u32()?);
        let first_index = present.then_some(first_index);
        let transform_buffer = r.buffer()?;
        let (present, offset) = (r.bit()?, r.u64()?);
        let transform_buffer_offset = present.then_some(offset);
        Some(BlasGeometry {
            flags,
            count,
            first,
            stride,
            buffer,
            vertex_format,
            index_format,
            index_buffer,
            index_count,
            first_index,
            transform_buffer,
            transform_buffer_offset,
        })
    }
}

/// A Tlas to build. Draws its slots in turn from theirs.
#[derive(Clone, Copy, Debug, Default, PartialEq, Eq)]
pub struct TlasPackage {
    /// what is built
    pub tlas: TlasId,
    /// how many it draws
    pub slot_count: u16,
}

impl Record for TlasPackage {
    const SECTION: usize = 7;

    fn put(&self, table: &mut Vec<u8>) -> Result<(), Misfit> {
        put!(table, self.tlas.0, self.slot_count);
        Ok(())
    }

    fn get(mut r: Reader) -> Option<Self> {
        Some(TlasPackage { tlas: TlasId(r.u16()?), slot_count: r.u16()? })
    }
}

/// The transform that leaves everything where it is: three lines of four, the last of each the translation.
pub const IDENTITY: [f32; 12] = [1.0, 0.0, 0.0, 0.0, 0.0, 1.0, 0.0, 0.0, 0.0, 0.0, 1.0, 0.0];

/// An instance; its numbers go through by their bits. The default is all 0: a mask that no ray meets, and no extent.
#[derive(Clone, Copy, Debug, Default)]
pub struct TlasInstance {
    /// what stands there
    pub blas: BlasId,
    /// below 2^24
    pub custom_data: u32,
    /// which rays meet it
    pub mask: u8,
    /// three lines of four, the last of each the translation
    pub transform: [f32; 12],
}

/// By the bits of its numbers.
impl PartialEq for TlasInstance {
    fn eq(&self, other: &Self) -> bool {
        let key = |i: &Self| (i.blas, i.custom_data, i.mask, i.transform.map(f32::to_bits));
        key(self) == key(other)
    }
}

impl Eq for TlasInstance {}

impl TlasInstance {
    /// A slot's fields after its present byte.
    pub fn to_bytes(&self) -> [u8; 55] {
        let mut bytes = [0; 55];
        let fields = self.blas.0.to_le_bytes().into_iter().chain(self.custom_data.to_le_bytes()).chain([self.mask]);
        let numbers = self.transform.iter().flat_map(|x| x.to_bits().to_le_bytes());
        bytes.iter_mut().zip(fields.chain(numbers)).for_each(|(to, from)| *to = from);
        bytes
    }

    /// The instance that has these bytes.
    pub fn from_bytes(bytes: &[u8; 55]) -> Self {
        let [b0, b1, c0, c1, c2, c3, mask, numbers @ ..] = *bytes;
        let mut transform = [0.0; 12];
        let (patterns, _) = numbers.as_chunks::<4>();
        transform.iter_mut().zip(patterns).for_each(|(x, pattern)| *x = f32::from_bits(u32::from_le_bytes(*pattern)));
        let (blas, custom_data) = (BlasId(u16::from_le_bytes([b0, b1])), u32::from_le_bytes([c0, c1, c2, c3]));
        TlasInstance { blas, custom_data, mask, transform }
    }
}

/// A slot, present or not.
impl Record for Option<TlasInstance> {
    const SECTION: usize = 8;

    fn put(&self, table: &mut Vec<u8>) -> Result<(), Misfit> {
        table.push(self.is_some().into());
        table.extend(self.map_or([0; 55], |i| i.to_bytes()));
        Ok(())
    }

    fn get(mut r: Reader) -> Option<Self> {
        let present = r.bit()?;
        let instance = TlasInstance::from_bytes(&r.take()?);
        Some(present.then_some(instance))
    }
}

/// An action of a sheet.
#[derive(Clone, Copy, Debug, PartialEq, Eq)]
pub enum Action {
    /// the recorded build
    Build,
    /// a use of a Tlas
    UseTlas(TlasId),
    /// a Blas marked as built
    MarkBlas(BlasId),
    /// a Tlas marked as built
    MarkTlas(TlasId),
}

impl Record for Action {
    const SECTION: usize = 9;

    fn put(&self, table: &mut Vec<u8>) -> Result<(), Misfit> {
        let (kind, operand): (u8, u16) = match *self {
            Action::Build => (1, 0),
            Action::UseTlas(tlas) => (2, tlas.0),
            Action::MarkBlas(blas) => (3, blas.0),
            Action::MarkTlas(tlas) => (4, tlas.0),
        };
        put!(table, kind, operand);
        Ok(())
    }

    fn get(mut r: Reader) -> Option<Self> {
        let (kind, operand) = (r.u8()?, r.u16()?);
        match kind {
            1 => Some(Action::Build),
            2 => Some(Action::UseTlas(TlasId(operand))),
            3 => Some(Action::MarkBlas(BlasId(operand))),
            4 => Some(Action::MarkTlas(TlasId(operand))),
            _ => None,
        }
    }
}
