//! Drives the unchanged Rust: tables of records in, the Rust's answers out, each marked by whose answer it is.
use crate::command::ray_tracing::build_acceleration_structures;
use crate::command::{ArcCommand, CommandBufferMutable, CommandEncoder, CommandEncoderError, CommandEncoderStatus};
use crate::device::{Device, DeviceError};
use crate::global::Global;
use crate::hub::{Encoders, Hub, Registry};
use crate::id::{BlasId, BufferId, CommandEncoderId, TlasId};
use crate::init_tracker::BufferInitTracker;
use crate::input::{self, Input};
use crate::lock::{rank, Mutex, RwLock};
use crate::ray_tracing::{
    AsAction, AsBuild, BlasAabbGeometry, BlasBuildEntry, BlasGeometries, BlasTriangleGeometry,
    BuildAccelerationStructureError as E, TlasBuild, TlasInstance, TlasPackage, ValidateAsActionsError,
};
use crate::rec::{self, Phase, Rec};
use crate::resource::{Blas, BlasCompactState, Buffer, Tlas};
use crate::snatch::Snatchable;
use crate::stand_ins::Raw;
use alloc::sync::Arc;
use std::cell::RefCell;
use std::num::NonZeroU64;
use std::panic::{catch_unwind, AssertUnwindSafe};

/// Whose answer it is. The test of a `Rust` answer stands in the unchanged text; that of a `StandIn` one in what the
/// unchanged text called; a `Paper` one was judged before or after the Rust ran, or where it panicked.
#[derive(Clone, Copy, Debug, PartialEq, Eq, PartialOrd, Ord)]
pub enum Mark {
    Rust,
    StandIn,
    Paper,
}

// ---- panics -----------------------------------------------------------------------------------------------------------
thread_local! {
    static LAST_PANIC: RefCell<(String, u32, String)> = const { RefCell::new((String::new(), 0, String::new())) };
}

/// Panics print nothing; `last_panic` tells the last one.
pub fn quiet_panics() {
    std::panic::set_hook(Box::new(|info| {
        let (file, line) = info.location().map(|l| (l.file().to_string(), l.line())).unwrap_or_default();
        let text = match (info.payload().downcast_ref::<&str>(), info.payload().downcast_ref::<String>()) {
            (Some(s), _) => s.to_string(),
            (_, Some(s)) => s.clone(),
            _ => String::new(),
        };
        LAST_PANIC.with(|p| *p.borrow_mut() = (file, line, text));
    }));
}

pub fn last_panic() -> (String, u32, String) {
    LAST_PANIC.with(|p| p.take())
}

// ---- the tables -------------------------------------------------------------------------------------------------------

/// The Rust's resources, made from the records.
pub struct World {
    device: Arc<Device>,
    global: Global,
}

fn index_format(b: u8) -> Option<wgt::IndexFormat> {
    match b {
        1 => Some(wgt::IndexFormat::Uint16),
        2 => Some(wgt::IndexFormat::Uint32),
        _ => None,
    }
}

fn index_byte(f: Option<wgt::IndexFormat>) -> u64 {
    match f {
        None => 0,
        Some(wgt::IndexFormat::Uint16) => 1,
        Some(wgt::IndexFormat::Uint32) => 2,
    }
}

fn state_of(b: u8) -> BlasCompactState {
    match b {
        0 => BlasCompactState::Idle,
        1 => BlasCompactState::Waiting,
        2 => BlasCompactState::Ready,
        _ => BlasCompactState::Compacted,
    }
}

fn state_byte(s: BlasCompactState) -> u8 {
    match s {
        BlasCompactState::Idle => 0,
        BlasCompactState::Waiting => 1,
        BlasCompactState::Ready => 2,
        BlasCompactState::Compacted => 3,
    }
}

fn structure(kind: &'static str, id: usize, destroyed: u8) -> Snatchable<Box<dyn hal::DynAccelerationStructure>> {
    match destroyed {
        0 => Snatchable::<Box<dyn hal::DynAccelerationStructure>>::new(Box::new(Raw(kind, id))),
        _ => Snatchable::empty(),
    }
}

fn buffer(id: usize, b: &input::Buffer) -> Buffer {
    let raw = match b.marks & 2 {
        0 => Snatchable::<Box<dyn hal::DynBuffer>>::new(Box::new(Raw("buffer", id))),
        _ => Snatchable::empty(),
    };
    let usage = match b.marks & 1 {
        0 => wgt::BufferUsages::empty(),
        _ => wgt::BufferUsages::BLAS_INPUT,
    };
    Buffer { id, raw, usage, size: b.size, initialization_status: RwLock::new(rank::ANY, BufferInitTracker) }
}

fn triangle_size(d: &input::Declared) -> wgt::BlasTriangleGeometrySizeDescriptor {
    wgt::BlasTriangleGeometrySizeDescriptor {
        vertex_format: wgt::VertexFormat {
            byte: d.vertex_format,
            least_stride: d.least_stride.into(),
            stride_alignment: d.stride_alignment.into(),
        },
        vertex_count: d.count,
        index_format: index_format(d.index_format),
        index_count: d.index_count,
        flags: wgt::AccelerationStructureGeometryFlags(d.flags),
    }
}

fn box_size(flags: u8, count: u32) -> wgt::BlasAABBGeometrySizeDescriptor {
    wgt::BlasAABBGeometrySizeDescriptor { primitive_count: count, flags: wgt::AccelerationStructureGeometryFlags(flags) }
}

fn blas(id: usize, b: &input::Blas, declared: &[&input::Declared]) -> Blas {
    let sizes = match b.kind {
        0 => wgt::BlasGeometrySizeDescriptors::Triangles {
            descriptors: wgt::Declared(declared.iter().map(|d| triangle_size(d)).collect()),
        },
        _ => wgt::BlasGeometrySizeDescriptors::AABBs {
            descriptors: wgt::Declared(declared.iter().map(|d| box_size(d.flags, d.count)).collect()),
        },
    };
    let compactable = b.flags & 4 != 0;
    Blas {
        id,
        raw: structure("blas", id, b.destroyed),
        size_info: hal::AccelerationStructureBuildSizes { build_scratch_size: b.scratch, ..Default::default() },
        sizes,
        flags: wgt::AccelerationStructureFlags(b.flags),
        update_mode: wgt::AccelerationStructureUpdateMode::Build,
        built_index: RwLock::new(rank::ANY, NonZeroU64::new(b.number)),
        handle: b.address,
        compaction_buffer: compactable.then(|| Box::new(Raw("compaction", id)) as Box<dyn hal::DynBuffer>),
        compacted_state: Mutex::new(rank::ANY, state_of(b.state)),
    }
}

fn tlas(id: usize, t: &input::Tlas) -> Tlas {
    Tlas {
        id,
        raw: structure("tlas", id, t.destroyed),
        size_info: hal::AccelerationStructureBuildSizes { build_scratch_size: t.scratch, ..Default::default() },
        max_instance_count: t.most,
        flags: wgt::AccelerationStructureFlags(t.flags),
        update_mode: wgt::AccelerationStructureUpdateMode::Build,
        built_index: RwLock::new(rank::ANY, NonZeroU64::new(t.number)),
        dependencies: RwLock::new(rank::ANY, Vec::new()),
        instance_buffer: Box::new(Raw("instances", id)),
    }
}

impl World {
    pub fn new(input: &Input) -> World {
        let device = Arc::new(Device::new(input.alignment, input.counter));
        let mut declared = vec![Vec::new(); input.blases.len()];
        for d in &input.declared {
            declared[d.blas as usize].push(d);
        }
        let buffers = input.buffers.iter().enumerate().map(|(i, b)| Arc::new(buffer(i, b))).collect();
        let blases = input.blases.iter().enumerate().map(|(i, b)| Arc::new(blas(i, b, &declared[i]))).collect();
        let tlases = input.tlases.iter().enumerate().map(|(i, t)| Arc::new(tlas(i, t))).collect();
        let status = CommandEncoderStatus { inner: CommandBufferMutable::new(), error: None };
        let encoder = CommandEncoder { device: device.clone(), data: Mutex::new(rank::ANY, status) };
        let hub = Hub {
            buffers: Registry { sort: 1, items: buffers },
            blas_s: Registry { sort: 2, items: blases },
            tlas_s: Registry { sort: 3, items: tlases },
            command_encoders: Encoders(Arc::new(encoder)),
        };
        World { device, global: Global { hub } }
    }

    fn blases(&self) -> &[Arc<Blas>] {
        &self.global.hub.blas_s.items
    }

    fn tlases(&self) -> &[Arc<Tlas>] {
        &self.global.hub.tlas_s.items
    }

    pub fn counter(&self) -> u64 {
        self.device.command_indices.read().next_acceleration_structure_build_command_index
    }

    /// A Blas's number and state.
    pub fn blas_now(&self, i: usize) -> (u64, u8) {
        let b = &self.blases()[i];
        let number = b.built_index.read().map_or(0, |n| n.get());
        (number, state_byte(*b.compacted_state.lock()))
    }

    /// A Tlas's number and the Blases that it lists.
    pub fn tlas_now(&self, i: usize) -> (u64, Vec<u16>) {
        let t = &self.tlases()[i];
        let number = t.built_index.read().map_or(0, |n| n.get());
        let list = t.dependencies.read().iter().map(|b| b.id as u16).collect();
        (number, list)
    }

    pub fn set_dependencies(&self, tlas: usize, list: &[u16]) {
        *self.tlases()[tlas].dependencies.write() = list.iter().map(|&i| self.blases()[i as usize].clone()).collect();
    }
}

// ---- building ---------------------------------------------------------------------------------------------------------

#[derive(Clone, Copy, Debug, PartialEq, Eq)]
pub struct Refused {
    pub number: u64,
    pub e: (u64, u64),
    pub f: [u64; 3],
    pub mark: Mark,
}

fn refused(number: u64, e: (usize, usize), f: [u64; 3]) -> Refused {
    let mark = match number {
        6 | 21 | 22 => Mark::StandIn,
        25 => Mark::Paper,
        _ => Mark::Rust,
    };
    Refused { number, e: (e.0 as u64, e.1 as u64), f, mark }
}

/// What the Rust planned and recorded.
#[derive(Clone, Debug, Default, PartialEq, Eq)]
pub struct Recorded {
    pub scratch_size: u64,
    /// a size was rounded, so that size and offsets rest on a stand-in
    pub rounded: bool,
    pub blases: Vec<(u16, u64)>,
    /// Tlas, offset, staging range
    pub tlases: Vec<(u16, u64, u64, u64)>,
    pub staging: Vec<u8>,
    pub compactable: Vec<u16>,
    /// the recorded action
    pub built_blases: Vec<u16>,
    pub built_tlases: Vec<(u16, Vec<u16>)>,
}

#[derive(Clone, Debug, PartialEq, Eq)]
pub struct Built {
    /// buffer, start, end
    pub init_ranges: Vec<(u16, u64, u64)>,
    pub recorded: Option<Recorded>,
}

/// The given geometries' sizes, which the Rust's entries borrow.
pub struct Sizes {
    triangles: Vec<Vec<wgt::BlasTriangleGeometrySizeDescriptor>>,
    boxes: Vec<Vec<wgt::BlasAABBGeometrySizeDescriptor>>,
}

impl Sizes {
    pub fn new(input: &Input) -> Sizes {
        let triangle = |g: &input::Geometry| wgt::BlasTriangleGeometrySizeDescriptor {
            // least stride and stride alignment come from the declared record only: these would be noticed
            vertex_format: wgt::VertexFormat { byte: g.vertex_format, least_stride: u64::MAX, stride_alignment: 0 },
            vertex_count: g.count,
            index_format: index_format(g.index_format),
            index_count: g.index_count,
            flags: wgt::AccelerationStructureGeometryFlags(g.flags),
        };
        let (mut triangles, mut boxes) = (Vec::new(), Vec::new());
        for e in &input.entries {
            triangles.push(if e.kind == 0 { e.geometries.iter().map(triangle).collect() } else { Vec::new() });
            boxes.push(if e.kind == 0 { Vec::new() } else { e.geometries.iter().map(|g| box_size(g.flags, g.count)).collect() });
        }
        Sizes { triangles, boxes }
    }
}

fn buffer_id(n: u16) -> BufferId {
    BufferId::zip(n.into(), 1)
}

fn blas_id(n: u16) -> BlasId {
    BlasId::zip(n.into(), 1)
}

fn tlas_id(n: u16) -> TlasId {
    TlasId::zip(n.into(), 1)
}

fn encoder_id() -> CommandEncoderId {
    CommandEncoderId::zip(0, 1)
}

/// The first vertex or the primitive offset, as the Rust has it.
fn offset(g: &input::Geometry) -> u32 {
    u32::try_from(g.first).expect("the Rust knows offsets below 2^32")
}

/// The ids, by the Rust's own function. The iterators lent to it note which entry, geometry, package and slot it has
/// drawn, so that E of a 6 is where the Rust stopped.
fn resolve(w: &World, input: &Input, sizes: &Sizes) -> Result<ArcCommand, CommandEncoderError> {
    let entries = input.entries.iter().enumerate().map(|(i, e)| {
        rec::with(|r| {
            r.phase = Phase::Entries;
            r.entry = i;
        });
        let geometries = if e.kind == 0 {
            BlasGeometries::TriangleGeometries(Box::new(e.geometries.iter().enumerate().map(move |(j, g)| {
                rec::with(|r| r.geometry = j);
                BlasTriangleGeometry {
                    size: &sizes.triangles[i][j],
                    vertex_buffer: buffer_id(g.buffer),
                    index_buffer: g.index_buffer.map(buffer_id),
                    transform_buffer: g.transform_buffer.map(buffer_id),
                    first_vertex: offset(g),
                    vertex_stride: g.stride,
                    first_index: g.first_index,
                    transform_buffer_offset: g.transform_offset,
                }
            })))
        } else {
            BlasGeometries::AabbGeometries(Box::new(e.geometries.iter().enumerate().map(move |(j, g)| {
                rec::with(|r| r.geometry = j);
                let (size, aabb_buffer) = (&sizes.boxes[i][j], buffer_id(g.buffer));
                BlasAabbGeometry { size, stride: g.stride, aabb_buffer, primitive_offset: offset(g) }
            })))
        };
        BlasBuildEntry { blas_id: blas_id(e.blas), geometries }
    });
    let packages = input.packages.iter().enumerate().map(|(i, p)| {
        rec::with(|r| {
            r.phase = Phase::Packages;
            r.package = i;
        });
        let instances = p.slots.iter().enumerate().map(|(j, s)| {
            rec::with(|r| r.slot = j);
            s.as_ref().map(|s| TlasInstance {
                blas_id: blas_id(s.blas),
                transform: &s.transform,
                custom_data: s.custom_data,
                mask: s.mask,
            })
        });
        TlasPackage { tlas_id: tlas_id(p.tlas), instances: Box::new(instances), lowest_unmodified: 0 }
    });
    let sent = w.global.command_encoder_build_acceleration_structures(encoder_id(), entries, packages);
    sent.expect("encoder states are not held");
    let mut data = w.global.hub.command_encoders.0.data.lock();
    match data.error.take() {
        None => Ok(data.inner.commands.pop().unwrap()),
        Some(e) => Err(e),
    }
}

fn outside(err: CommandEncoderError) -> Refused {
    let CommandEncoderError::BuildAccelerationStructure(E::InvalidResource(i)) = err else { panic!("unexpected {err:?}") };
    let r = rec::take();
    let e = match (i.0.sort, r.phase) {
        (1, _) => (r.entry, r.geometry),
        (2, Phase::Entries) => (r.entry, 0),
        (2, _) => (r.package, r.slot),
        _ => (r.package, 0),
    };
    refused(6, e, [0; 3])
}

/// The entry and the geometry that the Rust is checking.
fn here(r: &Rec) -> (usize, usize) {
    (r.entries_begun.saturating_sub(1), wgt::LEN_CALLS.with(|c| c.get()).saturating_sub(1))
}

/// The paper's number and figures for an error of the Rust; `r` says where the Rust was.
fn refusal_of(err: E, r: &Rec, input: &Input) -> Refused {
    let here = here(r);
    let package = r.packages_begun.saturating_sub(1);
    // the n-th present slot of the package, as its position among all slots
    let slot = |n: usize| {
        let mut present = input.packages[package].slots.iter().enumerate().filter(|(_, s)| s.is_some());
        present.nth(n).expect("present slot").0
    };
    match err {
        E::BlasGeometryKindMismatch(_) => refused(10, here, [0; 3]),
        E::IncompatibleBlasBuildSizes(_) => refused(11, here, [0; 3]),
        E::IncompatibleBlasFlags(_, d, g) => refused(12, here, [d.0.into(), g.0.into(), 0]),
        E::IncompatibleBlasVertexCount(_, d, g) => refused(13, here, [d.into(), g.into(), 0]),
        E::DifferentBlasVertexFormats(_, d, g) => refused(14, here, [d.byte.into(), g.byte.into(), 0]),
        E::VertexStrideTooSmall(_, n, g) => refused(15, here, [n, g, 0]),
        E::VertexStrideUnaligned(_, n, g) => refused(16, here, [n, g, 0]),
        E::BlasIndexCountProvidedMismatch(_) => refused(17, here, [0; 3]),
        E::IncompatibleBlasIndexCount(_, d, g) => refused(18, here, [d.into(), g.into(), 0]),
        E::DifferentBlasIndexFormats(_, d, g) => refused(19, here, [index_byte(d), index_byte(g), 0]),
        E::MissingIndexBuffer(_) => refused(20, here, [0; 3]),
        E::DestroyedResource(d) => {
            let e = match d.0.sort {
                1 => here,
                2 => (r.blas_raw_calls - 1, 0),
                _ => (r.tlas_raw_calls - 1, 0),
            };
            refused(21, e, [d.0.sort.into(), d.0.id as u64, 0])
        }
        E::MissingBufferUsage(m) => refused(22, here, [m.res.sort.into(), m.res.id as u64, 0]),
        E::InsufficientBufferSize { offset, region_size, buffer_size, .. } => refused(23, here, [offset, region_size, buffer_size]),
        E::MissingAssociatedData(_) => refused(24, here, [0; 3]),
        E::OffsetLimitedTo4GB { offset, count, stride, .. } => refused(26, here, [offset, count, stride]),
        E::InvalidIndexCount(_, n) => refused(27, here, [n.into(), 0, 0]),
        E::UseTransformMissing(_) => refused(28, here, [0; 3]),
        E::UnalignedTransformBufferOffset(_) => refused(29, here, [0; 3]),
        E::TransformMissing(_) => refused(30, here, [0; 3]),
        E::IncompatibleBlasAabbPrimitiveCount(_, d, g) => refused(31, here, [d.into(), g.into(), 0]),
        E::UnalignedAabbPrimitiveOffset(_) => refused(32, here, [0; 3]),
        E::InvalidAabbStride(_, s) => refused(33, here, [s, 0, 0]),
        // custom data is tested before the tracker is told of the slot's Blas, the flag after
        E::TlasInvalidCustomIndex(_) => refused(34, (package, slot(r.instances_begun)), [0; 3]),
        E::TlasDependentMissingVertexReturn(_, _) => refused(35, (package, slot(r.instances_begun - 1)), [0; 3]),
        E::TlasInstanceCountExceeded(_, n, most) => refused(36, (package, 0), [n.into(), most.into(), 0]),
        // the Rust has no figures here: the place is the paper's, and is not this file's to give
        E::Device(DeviceError::OutOfMemory) => refused(37, (0, 0), [0; 3]),
        E::CompactedBlas(_) => refused(38, (r.blas_raw_calls - 1, 0), [0; 3]),
        E::InvalidResource(_) | E::EncoderState(_) | E::MissingFeatures(_) | E::Device(_) | E::UnalignedIndexBufferOffset(_) => {
            panic!("unexpected {err:?}")
        }
    }
}

/// 25: the Rust panics where it takes the width of an index format that is none, having tested 24, 21 and 22 before; so
/// the place in its order is the Rust's. Any other panic is a fault of the harness and goes on.
fn panicked(r: &Rec) -> Refused {
    let (file, line, text) = last_panic();
    let at = crate::RT_TEXT.lines().nth((line as usize).wrapping_sub(1)).unwrap_or("");
    let unwraps = ["index_format", "unwrap", "byte_size"].iter().all(|word| at.contains(word));
    if !(file.ends_with("src/command/ray_tracing.rs") && unwraps) {
        panic!("unexpected panic at {file}:{line}: {text}");
    }
    refused(25, here(r), [0; 3])
}

/// What the Rust recorded and asked for, with what the stand-ins can tell being the same checked.
fn recorded(b: &AsBuild, mut r: Rec, input: &Input) -> Recorded {
    let ranges = r.package_ranges.iter().zip(&input.packages).filter(|((s, e), _)| s != e);
    let copies: Vec<_> = ranges.map(|((s, e), p)| (p.tlas as usize, *s as u64, 0, (e - s) as u64)).collect();
    assert_eq!(copies, r.copies);
    assert_eq!(r.scratch_sizes.len(), 1);
    let staging = r.staging.take().unwrap_or_default();
    assert_eq!(staging.len(), r.instance_bytes);
    let tlases = r.tlas_builds.iter().zip(&r.package_ranges).map(|(&(id, offset, n), &(s, e))| {
        assert_eq!(n as usize * 64, e - s);
        (id as u16, offset, s as u64, e as u64)
    });
    Recorded {
        scratch_size: r.scratch_sizes[0],
        rounded: wgt::ROUNDED.with(|c| c.get()),
        blases: r.blas_builds.iter().map(|&(id, offset)| (id as u16, offset)).collect(),
        tlases: tlases.collect(),
        staging,
        compactable: r.compact.iter().map(|&id| id as u16).collect(),
        built_blases: b.blas_s_built.iter().map(|b| b.id as u16).collect(),
        built_tlases: b
            .tlas_s_built
            .iter()
            .map(|t| (t.tlas.id as u16, t.dependencies.iter().map(|b| b.id as u16).collect()))
            .collect(),
    }
}

fn run(w: &World, cb: &mut CommandBufferMutable, command: ArcCommand) -> Result<(), E> {
    let ArcCommand::BuildAccelerationStructures { blas, tlas } = command else { panic!("other command") };
    let snatch_guard = w.device.snatchable_lock.read();
    let mut depth = 0u32;
    let mut state = crate::command::encoder::EncodingState {
        device: &w.device,
        raw_encoder: cb.encoder.raw.as_mut(),
        tracker: &mut cb.trackers,
        buffer_memory_init_actions: &mut cb.buffer_memory_init_actions,
        texture_memory_actions: &mut cb.texture_memory_actions,
        as_actions: &mut cb.as_actions,
        temp_resources: &mut cb.temp_resources,
        indirect_draw_validation_resources: &mut cb.indirect_draw_validation_resources,
        snatch_guard: &snatch_guard,
        debug_scope_depth: &mut depth,
        query_set_writes: &mut cb.query_set_writes,
        deferred_query_set_resolves: &mut cb.deferred_query_set_resolves,
    };
    build_acceleration_structures(&mut state, blas, tlas)
}

/// The build, by the Rust's own functions: ids, then all else.
pub fn build(w: &World, input: &Input) -> Result<Built, Refused> {
    rec::reset();
    let command = resolve(w, input, &Sizes::new(input)).map_err(outside)?;
    rec::reset();
    let mut cb = CommandBufferMutable::new();
    let answer = catch_unwind(AssertUnwindSafe(|| run(w, &mut cb, command)));
    let r = rec::take();
    match answer {
        Err(_) => return Err(panicked(&r)),
        Ok(Err(e)) => return Err(refusal_of(e, &r, input)),
        Ok(Ok(())) => {}
    }
    // what was told to the buffers' trackers is what the Rust keeps
    let kept: Vec<_> = cb.buffer_memory_init_actions.iter().map(|a| (a.buffer.id, a.range.start, a.range.end)).collect();
    assert_eq!(kept, r.inits);
    let init_ranges = r.inits.iter().map(|&(b, s, e)| (b as u16, s, e)).collect();
    let recorded = match cb.as_actions.as_slice() {
        [] => {
            let nothing = r.scratch_sizes.is_empty() && r.blas_builds.is_empty() && r.tlas_builds.is_empty();
            assert!(nothing && r.staging.is_none());
            None
        }
        [AsAction::Build(b)] => Some(recorded(b, r, input)),
        _ => panic!("more than one action"),
    };
    Ok(Built { init_ranges, recorded })
}

/// A command buffer that is built into again and again, to take times.
pub struct Buffered(CommandBufferMutable);

impl Buffered {
    pub fn new() -> Self {
        Buffered(CommandBufferMutable::new())
    }

    /// The build, with nothing of its answer taken apart.
    pub fn build(&mut self, w: &World, input: &Input, sizes: &Sizes) -> bool {
        match resolve(w, input, sizes) {
            Ok(command) => run(w, &mut self.0, command).is_ok(),
            Err(_) => false,
        }
    }

    /// The recorded action's lists, coded as a Build's cells.
    pub fn last_lists(&self) -> Vec<u16> {
        let mut cells = Vec::new();
        if let Some(AsAction::Build(b)) = self.0.as_actions.last() {
            cells.extend(b.blas_s_built.iter().map(|b| b.id as u16));
            for t in &b.tlas_s_built {
                cells.extend([t.tlas.id as u16, t.dependencies.len() as u16]);
                cells.extend(t.dependencies.iter().map(|b| b.id as u16));
            }
        }
        cells
    }

    pub fn clear(&mut self) {
        self.0.as_actions.clear();
        self.0.temp_resources.clear();
        self.0.buffer_memory_init_actions.clear();
    }
}

/// What the stand-in that makes instance bytes takes of n instances: how many bytes they are.
pub fn stand_in_instances(n: u32) -> usize {
    let device: &dyn hal::DynDevice = &crate::stand_ins::RawDevice;
    let mut staging = Vec::new();
    for custom_data in 0..n {
        staging.extend(device.tlas_instance_to_bytes(hal::TlasInstance {
            transform: [1.0; 12],
            custom_data,
            mask: 255,
            blas_address: u64::from(custom_data),
            pipeline_intersection_data_offset: 0,
        }));
    }
    staging.len()
}

// ---- submission -------------------------------------------------------------------------------------------------------

/// An action whose ids are in their tables, those of marks excepted: these the Rust looks up itself.
#[derive(Clone, Debug)]
pub enum Act {
    Build { blases: Vec<u16>, tlases: Vec<(u16, Vec<u16>)> },
    Use(u16),
    MarkBlas(u32),
    MarkTlas(u32),
}

/// An action as the Rust has it.
#[derive(Clone)]
pub struct Action(AsAction);

/// By the Rust's own mark, which looks its ids up too: None is an id outside its table.
fn mark(w: &World, blases: &[u32], tlases: &[u32]) -> Option<Action> {
    let b: Vec<BlasId> = blases.iter().map(|&i| BlasId::zip(i, 1)).collect();
    let t: Vec<TlasId> = tlases.iter().map(|&i| TlasId::zip(i, 1)).collect();
    let sent = w.global.command_encoder_mark_acceleration_structures_built(encoder_id(), &b, &t);
    sent.expect("encoder states are not held");
    let mut data = w.global.hub.command_encoders.0.data.lock();
    match data.error.take() {
        None => Some(Action(data.inner.as_actions.pop().unwrap())),
        Some(CommandEncoderError::BuildAccelerationStructure(E::InvalidResource(_))) => None,
        Some(e) => panic!("unexpected {e:?}"),
    }
}

/// A Build of ids that are in their tables.
fn build_of<'a>(w: &World, blases: &[u16], tlases: impl Iterator<Item = (u16, &'a [u16])>) -> Action {
    let get = |&b: &u16| w.blases()[b as usize].clone();
    let tlas_build =
        |(t, list): (u16, &[u16])| TlasBuild { tlas: w.tlases()[t as usize].clone(), dependencies: list.iter().map(get).collect() };
    Action(AsAction::Build(AsBuild {
        blas_s_built: blases.iter().map(get).collect(),
        tlas_s_built: tlases.map(tlas_build).collect(),
    }))
}

fn use_of(w: &World, tlas: u16) -> Action {
    Action(AsAction::UseTlas(w.tlases()[tlas as usize].clone()))
}

pub fn action(w: &World, a: &Act) -> Option<Action> {
    match a {
        Act::Use(t) => Some(use_of(w, *t)),
        Act::MarkBlas(b) => mark(w, &[*b], &[]),
        Act::MarkTlas(t) => mark(w, &[], &[*t]),
        Act::Build { blases, tlases } => Some(build_of(w, blases, tlases.iter().map(|(t, list)| (*t, &list[..])))),
    }
}

/// Actions that are known to be good, from their cells.
pub fn actions_of(w: &World, actions: &[u32], lists: &[u16]) -> Vec<Action> {
    let of = |c: &[u32]| match c[0] {
        1 => {
            let (blases, mut rest) = lists[c[1] as usize..].split_at(c[2] as usize);
            let packages = (0..c[3]).map(|_| {
                let (list, after) = rest[2..].split_at(rest[1] as usize);
                let package = (rest[0], list);
                rest = after;
                package
            });
            build_of(w, blases, packages)
        }
        2 => use_of(w, c[1] as u16),
        3 => mark(w, &[c[1]], &[]).expect("inside"),
        _ => mark(w, &[], &[c[1]]).expect("inside"),
    };
    actions.chunks_exact(4).map(of).collect()
}

/// Actions ready to be submitted.
pub struct Submission(CommandBufferMutable);

impl Submission {
    pub fn new(actions: Vec<Action>) -> Self {
        let mut cb = CommandBufferMutable::new();
        cb.as_actions = actions.into_iter().map(|a| a.0).collect();
        Submission(cb)
    }

    fn validate(&self, w: &World) -> Result<(), ValidateAsActionsError> {
        let guard = w.device.snatchable_lock.read();
        let mut indices = w.device.command_indices.write();
        let before = indices.active_submission_index;
        let answer = self.0.validate_acceleration_structure_actions(&guard, &mut indices);
        assert_eq!(before, indices.active_submission_index);
        answer
    }

    /// One call of the Rust: accepted, or number, figures and mark. It gives no position.
    pub fn submit(&self, w: &World) -> Result<(), (u64, [u64; 2], Mark)> {
        self.validate(w).map_err(|e| match e {
            // as the Rust gives them: Blas, Tlas in a Build and Tlas, Blas in a use
            ValidateAsActionsError::UsedUnbuiltBlas(a, b) => (42, [a.id as u64, b.id as u64], Mark::Rust),
            ValidateAsActionsError::UsedUnbuiltTlas(t) => (43, [t.id as u64, 0], Mark::Rust),
            ValidateAsActionsError::BlasNewerThenTlas(b, t) => (44, [b.id as u64, t.id as u64], Mark::Rust),
            ValidateAsActionsError::DestroyedResource(d) => {
                assert_eq!(d.0.sort, 2);
                (21, [d.0.id as u64, 0], Mark::StandIn)
            }
        })
    }

    /// The same, with nothing of the answer taken apart.
    pub fn accepted(&self, w: &World) -> bool {
        self.validate(w).is_ok()
    }
}
