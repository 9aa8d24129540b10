//! Stand-ins for the parts of wgpu-core that aren't among the published files at hand, or are not held: resources,
//! trackers, locks, device, hub. They record into `rec`.
use crate::rec;
use alloc::{boxed::Box, sync::Arc, vec::Vec};
use core::fmt;

pub(crate) fn hal_label<'a>(label: Option<&'a str>, _flags: u32) -> Option<&'a str> {
    label
}

// ---------------------------------------------------------------------------------------
pub mod lock {
    //! Locks are not held.  One thread, so a RefCell: a second conflicting borrow would panic
    //! where the Rust would deadlock.
    use core::cell::{Ref, RefCell, RefMut};
    use core::fmt;

    pub mod rank {
        #[derive(Clone, Copy, Debug)]
        pub struct LockRank;
        pub const ANY: LockRank = LockRank;
    }
    pub struct RankData;

    pub struct RwLock<T>(RefCell<T>);
    pub struct RwLockReadGuard<'a, T>(Ref<'a, T>);
    pub struct RwLockWriteGuard<'a, T>(RefMut<'a, T>);
    impl<T> RwLock<T> {
        pub fn new(_rank: rank::LockRank, value: T) -> Self {
            RwLock(RefCell::new(value))
        }
        pub fn read(&self) -> RwLockReadGuard<'_, T> {
            RwLockReadGuard(self.0.borrow())
        }
        pub fn write(&self) -> RwLockWriteGuard<'_, T> {
            RwLockWriteGuard(self.0.borrow_mut())
        }
        pub unsafe fn force_unlock_read(&self, _data: RankData) {
            unreachable!("stand-in")
        }
    }
    impl<'a, T> RwLockReadGuard<'a, T> {
        pub fn forget(_this: Self) -> RankData {
            unreachable!("stand-in")
        }
    }
    impl<T> core::ops::Deref for RwLockReadGuard<'_, T> {
        type Target = T;
        fn deref(&self) -> &T {
            &self.0
        }
    }
    impl<T> core::ops::Deref for RwLockWriteGuard<'_, T> {
        type Target = T;
        fn deref(&self) -> &T {
            &self.0
        }
    }
    impl<T> core::ops::DerefMut for RwLockWriteGuard<'_, T> {
        fn deref_mut(&mut self) -> &mut T {
            &mut self.0
        }
    }
    pub struct Mutex<T>(RefCell<T>);
    pub struct MutexGuard<'a, T>(RefMut<'a, T>);
    impl<T> Mutex<T> {
        pub fn new(_rank: rank::LockRank, value: T) -> Self {
            Mutex(RefCell::new(value))
        }
        pub fn lock(&self) -> MutexGuard<'_, T> {
            MutexGuard(self.0.borrow_mut())
        }
    }
    impl<T> core::ops::Deref for MutexGuard<'_, T> {
        type Target = T;
        fn deref(&self) -> &T {
            &self.0
        }
    }
    impl<T> core::ops::DerefMut for MutexGuard<'_, T> {
        fn deref_mut(&mut self) -> &mut T {
            &mut self.0
        }
    }
}

// ---------------------------------------------------------------------------------------
/// A raw buffer or acceleration structure: only a tag.
#[derive(Debug)]
pub struct Raw(pub &'static str, pub usize);
impl hal::DynResource for Raw {
    fn tag(&self) -> (&'static str, usize) {
        (self.0, self.1)
    }
}
impl hal::DynBuffer for Raw {}
impl hal::DynAccelerationStructure for Raw {}

#[derive(Debug)]
pub struct RawDevice;
impl hal::DynDevice for RawDevice {
    unsafe fn create_buffer(&self, desc: &hal::BufferDescriptor) -> Result<Box<dyn hal::DynBuffer>, hal::DeviceError> {
        assert_eq!(desc.usage, wgt::BufferUses::ACCELERATION_STRUCTURE_SCRATCH);
        rec::with(|r| r.scratch_sizes.push(desc.size));
        Ok(Box::new(Raw("scratch", 0)))
    }
    unsafe fn destroy_buffer(&self, _buffer: Box<dyn hal::DynBuffer>) {}
    /// The paper: "Its 64 bytes are those numbers by their bits, custom data in the low 24 bits with the mask above,
    /// a zero u32, the address u64." The text of wgpu-hal isn't at hand.
    fn tlas_instance_to_bytes(&self, i: hal::TlasInstance) -> Vec<u8> {
        let mut out = Vec::with_capacity(64);
        for f in i.transform {
            out.extend_from_slice(&f.to_bits().to_le_bytes());
        }
        let low = (i.custom_data & 0x00ff_ffff) | (u32::from(i.mask) << 24);
        out.extend_from_slice(&low.to_le_bytes());
        out.extend_from_slice(&0u32.to_le_bytes());
        out.extend_from_slice(&i.blas_address.to_le_bytes());
        rec::with(|r| {
            r.instance_bytes += out.len();
            r.package_ranges.last_mut().unwrap().1 = r.instance_bytes;
        });
        out
    }
}

#[derive(Debug)]
pub struct Encoder;
impl hal::DynCommandEncoder for Encoder {
    unsafe fn transition_buffers(&mut self, _barriers: &[hal::BufferBarrier<'_, dyn hal::DynBuffer>]) {}
    unsafe fn copy_buffer_to_buffer(&mut self, src: &dyn hal::DynBuffer, dst: &dyn hal::DynBuffer, regions: &[hal::BufferCopy]) {
        assert_eq!(src.tag().0, "staging");
        assert_eq!(dst.tag().0, "instances");
        for c in regions {
            rec::with(|r| r.copies.push((dst.tag().1, c.src_offset, c.dst_offset, c.size.get())));
        }
    }
    unsafe fn build_acceleration_structures<'a>(
        &mut self,
        descriptors: &'a [hal::BuildAccelerationStructureDescriptor<'a, dyn hal::DynBuffer, dyn hal::DynAccelerationStructure>],
    ) {
        for d in descriptors {
            let (kind, id) = d.destination_acceleration_structure.tag();
            assert_eq!(d.scratch_buffer.tag().0, "scratch");
            match d.entries {
                hal::AccelerationStructureEntries::Instances(i) => {
                    assert_eq!(kind, "tlas");
                    rec::with(|r| r.tlas_builds.push((id, d.scratch_buffer_offset, i.count)));
                }
                _ => {
                    assert_eq!(kind, "blas");
                    rec::with(|r| r.blas_builds.push((id, d.scratch_buffer_offset)));
                }
            }
        }
    }
    unsafe fn place_acceleration_structure_barrier(&mut self, _barrier: hal::AccelerationStructureBarrier) {}
    unsafe fn read_acceleration_structure_compact_size(
        &mut self,
        acceleration_structure: &dyn hal::DynAccelerationStructure,
        buf: &dyn hal::DynBuffer,
    ) {
        assert_eq!(acceleration_structure.tag().0, "blas");
        assert_eq!(buf.tag(), ("compaction", acceleration_structure.tag().1));
        rec::with(|r| r.compact.push(acceleration_structure.tag().1));
    }
    unsafe fn set_acceleration_structure_dependencies(
        &self,
        _command_buffers: &[Box<dyn hal::DynCommandBuffer>],
        _dependencies: &[&dyn hal::DynAccelerationStructure],
    ) {
    }
}

// ---------------------------------------------------------------------------------------
pub mod resource {
    use super::*;
    use crate::device::{Device, DeviceError};
    use crate::init_tracker::BufferInitTracker;
    use crate::lock::{Mutex, RwLock};
    use crate::snatch::{SnatchGuard, Snatchable};
    use core::num::NonZeroU64;
    use wgt::error::{ErrorType, WebGpuError};

    /// Stand-in: sort as in the paper (1 buffer, 2 Blas, 3 Tlas) and number in its table.
    #[derive(Clone, Copy, Debug, PartialEq, Eq)]
    pub struct ResourceErrorIdent {
        pub sort: u8,
        pub id: usize,
    }
    macro_rules! simple_error {
        ($($name:ident)*) => {$(
            impl fmt::Display for $name {
                fn fmt(&self, f: &mut fmt::Formatter<'_>) -> fmt::Result { fmt::Debug::fmt(self, f) }
            }
            impl core::error::Error for $name {}
            impl WebGpuError for $name {
                fn webgpu_error_type(&self) -> ErrorType { ErrorType::Validation }
            }
        )*};
    }
    #[derive(Clone, Debug)]
    pub struct DestroyedResourceError(pub ResourceErrorIdent);
    #[derive(Clone, Debug)]
    pub struct InvalidResourceError(pub ResourceErrorIdent);
    #[derive(Clone, Debug)]
    pub struct MissingBufferUsageError {
        pub res: ResourceErrorIdent,
        pub actual: wgt::BufferUsages,
        pub expected: wgt::BufferUsages,
    }
    simple_error!(DestroyedResourceError InvalidResourceError MissingBufferUsageError);

    /// named by snatch.rs
    pub enum DestructibleResourceState<T> {
        Valid(T),
        Invalid,
        Destroyed,
    }
    impl<T> DestructibleResourceState<T> {
        pub fn as_ref(&self) -> DestructibleResourceState<&T> {
            match self {
                Self::Valid(t) => DestructibleResourceState::Valid(t),
                Self::Invalid => DestructibleResourceState::Invalid,
                Self::Destroyed => DestructibleResourceState::Destroyed,
            }
        }
        pub fn take(&mut self) -> DestructibleResourceState<T> {
            core::mem::replace(self, Self::Destroyed)
        }
    }

    pub trait Labeled {
        fn error_ident(&self) -> ResourceErrorIdent;
    }
    pub trait RawResourceAccess: Labeled {
        type DynResource: hal::DynResource + ?Sized;
        fn raw<'a>(&'a self, guard: &'a SnatchGuard) -> Option<&'a Self::DynResource>;
        fn try_raw<'a>(&'a self, guard: &'a SnatchGuard) -> Result<&'a Self::DynResource, DestroyedResourceError> {
            self.raw(guard).ok_or_else(|| DestroyedResourceError(self.error_ident()))
        }
    }

    pub struct Buffer {
        pub(crate) id: usize,
        pub(crate) raw: Snatchable<Box<dyn hal::DynBuffer>>,
        pub(crate) usage: wgt::BufferUsages,
        pub(crate) size: wgt::BufferAddress,
        pub(crate) initialization_status: RwLock<BufferInitTracker>,
    }
    impl Buffer {
        pub(crate) fn check_usage(&self, expected: wgt::BufferUsages) -> Result<(), MissingBufferUsageError> {
            if self.usage.contains(expected) {
                Ok(())
            } else {
                Err(MissingBufferUsageError { res: self.error_ident(), actual: self.usage, expected })
            }
        }
    }
    impl Labeled for Buffer {
        fn error_ident(&self) -> ResourceErrorIdent {
            ResourceErrorIdent { sort: 1, id: self.id }
        }
    }
    impl RawResourceAccess for Buffer {
        type DynResource = dyn hal::DynBuffer;
        fn raw<'a>(&'a self, guard: &'a SnatchGuard) -> Option<&'a Self::DynResource> {
            self.raw.get(guard).map(|b| b.as_ref())
        }
    }

    #[derive(Debug, Clone, Copy, PartialEq, Eq)]
    pub enum BlasCompactState {
        Idle,
        Waiting,
        Ready,
        Compacted,
    }
    pub type BlasPrepareCompactResult = Result<(), ()>;
    pub type BlasCompactCallback = Box<dyn FnOnce(BlasPrepareCompactResult)>;

    pub struct Blas {
        pub(crate) id: usize,
        pub(crate) raw: Snatchable<Box<dyn hal::DynAccelerationStructure>>,
        pub(crate) size_info: hal::AccelerationStructureBuildSizes,
        pub(crate) sizes: wgt::BlasGeometrySizeDescriptors,
        pub(crate) flags: wgt::AccelerationStructureFlags,
        pub(crate) update_mode: wgt::AccelerationStructureUpdateMode,
        pub(crate) built_index: RwLock<Option<NonZeroU64>>,
        pub(crate) handle: u64,
        pub(crate) compaction_buffer: Option<Box<dyn hal::DynBuffer>>,
        pub(crate) compacted_state: Mutex<BlasCompactState>,
    }
    impl Labeled for Blas {
        fn error_ident(&self) -> ResourceErrorIdent {
            ResourceErrorIdent { sort: 2, id: self.id }
        }
    }
    impl RawResourceAccess for Blas {
        type DynResource = dyn hal::DynAccelerationStructure;
        fn raw<'a>(&'a self, guard: &'a SnatchGuard) -> Option<&'a Self::DynResource> {
            rec::with(|r| r.blas_raw_calls += 1);
            self.raw.get(guard).map(|b| b.as_ref())
        }
    }

    pub struct Tlas {
        pub(crate) id: usize,
        pub(crate) raw: Snatchable<Box<dyn hal::DynAccelerationStructure>>,
        pub(crate) size_info: hal::AccelerationStructureBuildSizes,
        pub(crate) max_instance_count: u32,
        pub(crate) flags: wgt::AccelerationStructureFlags,
        pub(crate) update_mode: wgt::AccelerationStructureUpdateMode,
        pub(crate) built_index: RwLock<Option<NonZeroU64>>,
        pub(crate) dependencies: RwLock<Vec<Arc<Blas>>>,
        pub(crate) instance_buffer: Box<dyn hal::DynBuffer>,
    }
    impl Labeled for Tlas {
        fn error_ident(&self) -> ResourceErrorIdent {
            ResourceErrorIdent { sort: 3, id: self.id }
        }
    }
    impl RawResourceAccess for Tlas {
        type DynResource = dyn hal::DynAccelerationStructure;
        fn raw<'a>(&'a self, guard: &'a SnatchGuard) -> Option<&'a Self::DynResource> {
            rec::with(|r| r.tlas_raw_calls += 1);
            self.raw.get(guard).map(|b| b.as_ref())
        }
    }
    macro_rules! dbg_id { ($($t:ident)*) => {$(
        impl fmt::Debug for $t {
            fn fmt(&self, f: &mut fmt::Formatter<'_>) -> fmt::Result { write!(f, concat!(stringify!($t), "({})"), self.id) }
        }
    )*}; }
    dbg_id!(Buffer Blas Tlas);

    #[derive(Debug)]
    pub struct StagingBuffer {
        size: u64,
        bytes: Vec<u8>,
    }
    #[derive(Debug)]
    pub struct FlushedStagingBuffer(Raw);
    impl StagingBuffer {
        pub(crate) fn new(_device: &Arc<Device>, size: wgt::BufferSize) -> Result<Self, DeviceError> {
            Ok(StagingBuffer { size: size.get(), bytes: Vec::with_capacity(size.get() as usize) })
        }
        pub(crate) fn write(&mut self, data: &[u8]) {
            assert_eq!(data.len() as u64, self.size);
            self.bytes.extend_from_slice(data);
        }
        pub(crate) fn flush(self) -> FlushedStagingBuffer {
            rec::with(|r| r.staging = Some(self.bytes));
            FlushedStagingBuffer(Raw("staging", 0))
        }
    }
    impl FlushedStagingBuffer {
        pub(crate) fn raw(&self) -> &dyn hal::DynBuffer {
            &self.0
        }
    }

    // named by encoder_command.rs only; never made
    #[derive(Debug)]
    pub struct Texture;
    #[derive(Debug)]
    pub struct TextureView;
    #[derive(Debug)]
    pub struct ExternalTexture;
    #[derive(Debug)]
    pub struct QuerySet;
}
pub mod instance {
    pub struct Surface;
}
pub mod binding_model {
    #[derive(Debug)]
    pub struct BindGroup;
}
pub mod pipeline {
    #[derive(Debug)]
    pub struct RenderPipeline;
    #[derive(Debug)]
    pub struct ComputePipeline;
}
pub mod indirect_validation {
    #[derive(Default)]
    pub struct DrawResources;
}

// ---------------------------------------------------------------------------------------
pub mod init_tracker {
    use super::*;
    use crate::resource::Buffer;
    use core::ops::Range;

    #[derive(Debug, Clone, Copy)]
    pub enum MemoryInitKind {
        ImplicitlyInitialized,
        NeedsInitializedMemory,
    }
    #[derive(Debug, Clone)]
    pub struct BufferInitTrackerAction {
        pub buffer: Arc<Buffer>,
        pub range: Range<wgt::BufferAddress>,
        pub kind: MemoryInitKind,
    }
    /// Keeps no ranges: what is held is each range as asked for.
    pub struct BufferInitTracker;
    impl BufferInitTracker {
        pub(crate) fn create_action(
            &self,
            buffer: &Arc<Buffer>,
            query_range: Range<wgt::BufferAddress>,
            kind: MemoryInitKind,
        ) -> Option<BufferInitTrackerAction> {
            assert!(matches!(kind, MemoryInitKind::NeedsInitializedMemory));
            rec::with(|r| r.inits.push((buffer.id, query_range.start, query_range.end)));
            Some(BufferInitTrackerAction { buffer: buffer.clone(), range: query_range, kind })
        }
    }
}

// ---------------------------------------------------------------------------------------
pub mod track {
    //! Trackers are not held; the stand-ins only mark where the Rust is.
    use super::*;
    use crate::rec::Phase;
    use crate::resource::{Blas, Buffer, RawResourceAccess, Tlas};
    use crate::snatch::SnatchGuard;

    #[derive(Default)]
    pub struct BufferTracker;
    #[derive(Default)]
    pub struct BlasTracker;
    #[derive(Default)]
    pub struct TlasTracker;
    #[derive(Default)]
    pub struct Tracker {
        pub buffers: BufferTracker,
        pub blas_s: BlasTracker,
        pub tlas_s: TlasTracker,
    }
    pub struct PendingTransition {
        usage: hal::StateTransition<wgt::BufferUses>,
    }
    impl PendingTransition {
        pub fn into_hal<'a>(self, buf: &'a Buffer, guard: &'a SnatchGuard<'a>) -> hal::BufferBarrier<'a, dyn hal::DynBuffer> {
            hal::BufferBarrier { buffer: buf.raw(guard).expect("Buffer is destroyed"), usage: self.usage }
        }
    }
    impl BufferTracker {
        pub fn set_single(&mut self, _buffer: &Arc<Buffer>, to: wgt::BufferUses) -> Option<PendingTransition> {
            Some(PendingTransition { usage: hal::StateTransition { from: wgt::BufferUses::empty(), to } })
        }
    }
    impl BlasTracker {
        /// The Rust calls this once at the start of each entry, and once per present slot
        /// directly after the custom data test.
        pub fn insert_single(&mut self, _blas: Arc<Blas>) {
            rec::with(|r| {
                if r.phase == Phase::Packages {
                    r.instances_begun += 1;
                } else {
                    r.phase = Phase::Entries;
                    r.entries_begun += 1;
                    wgt::LEN_CALLS.with(|c| c.set(0));
                }
            });
        }
    }
    impl TlasTracker {
        /// The Rust calls this once at the start of each package.
        pub fn insert_single(&mut self, _tlas: Arc<Tlas>) {
            rec::with(|r| {
                r.phase = Phase::Packages;
                r.packages_begun += 1;
                r.instances_begun = 0;
                r.package_ranges.push((r.instance_bytes, r.instance_bytes));
            });
        }
    }
}

// ---------------------------------------------------------------------------------------
pub mod device {
    use super::*;
    use crate::lock::{rank, RwLock};
    use crate::snatch::SnatchLock;
    use thiserror::Error;
    use wgt::error::{ErrorType, WebGpuError};

    #[derive(Clone, Debug, Error)]
    pub enum DeviceError {
        #[error("lost")]
        Lost,
        #[error("out of memory")]
        OutOfMemory,
    }
    impl WebGpuError for DeviceError {
        fn webgpu_error_type(&self) -> ErrorType {
            match self {
                Self::Lost => ErrorType::DeviceLost,
                Self::OutOfMemory => ErrorType::OutOfMemory,
            }
        }
    }
    impl DeviceError {
        pub fn from_hal(error: hal::DeviceError) -> Self {
            match error {
                hal::DeviceError::Lost | hal::DeviceError::Unexpected => Self::Lost,
                hal::DeviceError::OutOfMemory => Self::OutOfMemory,
            }
        }
    }
    #[derive(Clone, Debug)]
    pub struct MissingFeatures(pub wgt::Features);
    impl fmt::Display for MissingFeatures {
        fn fmt(&self, f: &mut fmt::Formatter<'_>) -> fmt::Result {
            fmt::Debug::fmt(self, f)
        }
    }
    impl core::error::Error for MissingFeatures {}
    impl WebGpuError for MissingFeatures {
        fn webgpu_error_type(&self) -> ErrorType {
            ErrorType::Validation
        }
    }

    /// the paper: "The device is valid and has EXPERIMENTAL_RAY_QUERY."
    pub struct Device {
        pub(crate) raw: Box<dyn hal::DynDevice>,
        pub(crate) alignments: hal::Alignments,
        pub(crate) instance_flags: u32,
        pub(crate) snatchable_lock: SnatchLock,
        pub(crate) command_indices: RwLock<resource::CommandIndices>,
    }
    impl fmt::Debug for Device {
        fn fmt(&self, f: &mut fmt::Formatter<'_>) -> fmt::Result {
            write!(f, "Device")
        }
    }
    impl Device {
        pub(crate) fn new(scratch_alignment: u32, counter: u64) -> Self {
            Device {
                raw: Box::new(RawDevice),
                alignments: hal::Alignments { ray_tracing_scratch_buffer_alignment: scratch_alignment },
                instance_flags: 0,
                snatchable_lock: unsafe { SnatchLock::new(rank::ANY) },
                command_indices: RwLock::new(
                    rank::ANY,
                    resource::CommandIndices {
                        active_submission_index: 0,
                        next_acceleration_structure_build_command_index: counter,
                    },
                ),
            }
        }
        pub(crate) fn raw(&self) -> &dyn hal::DynDevice {
            self.raw.as_ref()
        }
        pub(crate) fn check_is_valid(&self) -> Result<(), DeviceError> {
            Ok(())
        }
        pub(crate) fn require_features(&self, _f: wgt::Features) -> Result<(), MissingFeatures> {
            Ok(())
        }
    }
    pub mod resource {
        pub struct CommandIndices {
            pub active_submission_index: u64,
            pub next_acceleration_structure_build_command_index: u64,
        }
    }
    pub mod queue {
        use crate::resource::FlushedStagingBuffer;
        use crate::scratch::ScratchBuffer;
        #[derive(Debug)]
        pub enum TempResource {
            StagingBuffer(FlushedStagingBuffer),
            ScratchBuffer(ScratchBuffer),
        }
    }
}

// ---------------------------------------------------------------------------------------
pub mod hub {
    use super::*;
    use crate::command::CommandEncoder;
    use crate::id::{Id, Marker};
    use crate::resource::{Blas, Buffer, InvalidResourceError, ResourceErrorIdent, Tlas};

    pub enum Fallible<T> {
        Valid(Arc<T>),
        Invalid(ResourceErrorIdent),
    }
    impl<T> Fallible<T> {
        pub fn get(self) -> Result<Arc<T>, InvalidResourceError> {
            match self {
                Fallible::Valid(t) => Ok(t),
                Fallible::Invalid(i) => Err(InvalidResourceError(i)),
            }
        }
    }
    /// A table by number.  A number past its end is an invalid resource (refusal 6).
    pub struct Registry<T> {
        pub sort: u8,
        pub items: Vec<Arc<T>>,
    }
    impl<T> Registry<T> {
        pub fn get<M: Marker>(&self, id: Id<M>) -> Fallible<T> {
            let n = id.unzip().0 as usize;
            match self.items.get(n) {
                Some(t) => Fallible::Valid(t.clone()),
                None => Fallible::Invalid(ResourceErrorIdent { sort: self.sort, id: n }),
            }
        }
    }
    pub struct Encoders(pub Arc<CommandEncoder>);
    impl Encoders {
        pub fn get(&self, _id: crate::id::CommandEncoderId) -> Arc<CommandEncoder> {
            self.0.clone()
        }
    }
    pub struct Hub {
        pub buffers: Registry<Buffer>,
        pub blas_s: Registry<Blas>,
        pub tlas_s: Registry<Tlas>,
        pub command_encoders: Encoders,
    }
}
pub mod global {
    pub struct Global {
        pub hub: crate::hub::Hub,
    }
}
