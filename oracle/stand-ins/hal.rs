//! Stand-in for `wgpu-hal`: the traits and descriptors that the unchanged text names.
#![allow(dead_code)]
use std::fmt::Debug;
use wgt::{BufferAddress, BufferUses};

#[derive(Clone, Debug, PartialEq, Eq)]
pub enum DeviceError {
    OutOfMemory,
    Lost,
    Unexpected,
}

#[derive(Clone, Copy, Debug, PartialEq, Eq)]
pub struct MemoryFlags(pub u32);
impl MemoryFlags {
    pub const fn empty() -> Self {
        MemoryFlags(0)
    }
}

#[derive(Clone, Copy, Debug, PartialEq, Eq)]
pub struct AccelerationStructureUses(pub u32);
impl AccelerationStructureUses {
    pub const BUILD_INPUT: Self = Self(1);
    pub const BUILD_OUTPUT: Self = Self(2);
    pub const SHADER_INPUT: Self = Self(4);
    pub const COPY_SRC: Self = Self(8);
    pub const fn empty() -> Self {
        Self(0)
    }
}
impl std::ops::BitOrAssign for AccelerationStructureUses {
    fn bitor_assign(&mut self, o: Self) {
        self.0 |= o.0
    }
}

/// `tag` is the recorder's: which record this raw thing belongs to.
pub trait DynResource: Debug + 'static {
    fn tag(&self) -> (&'static str, usize);
}
pub trait DynBuffer: DynResource {}
pub trait DynAccelerationStructure: DynResource {}
pub trait DynCommandBuffer: DynResource {}

#[derive(Clone, Debug)]
pub struct BufferDescriptor<'a> {
    pub label: Option<&'a str>,
    pub size: BufferAddress,
    pub usage: BufferUses,
    pub memory_flags: MemoryFlags,
}

#[derive(Clone, Copy, Debug)]
pub struct StateTransition<T> {
    pub from: T,
    pub to: T,
}
#[derive(Debug)]
pub struct BufferBarrier<'a, B: DynBuffer + ?Sized> {
    pub buffer: &'a B,
    pub usage: StateTransition<BufferUses>,
}
#[derive(Debug)]
pub struct AccelerationStructureBarrier {
    pub usage: StateTransition<AccelerationStructureUses>,
}
#[derive(Clone, Copy, Debug)]
pub struct BufferCopy {
    pub src_offset: BufferAddress,
    pub dst_offset: BufferAddress,
    pub size: wgt::BufferSize,
}

#[derive(Clone, Copy, Debug)]
pub enum AccelerationStructureBuildMode {
    Build,
    Update,
}
#[derive(Debug)]
pub struct AccelerationStructureTriangleIndices<'a, B: DynBuffer + ?Sized> {
    pub format: wgt::IndexFormat,
    pub buffer: Option<&'a B>,
    pub offset: u32,
    pub count: u32,
}
#[derive(Debug)]
pub struct AccelerationStructureTriangleTransform<'a, B: DynBuffer + ?Sized> {
    pub buffer: &'a B,
    pub offset: u32,
}
#[derive(Debug)]
pub struct AccelerationStructureTriangles<'a, B: DynBuffer + ?Sized> {
    pub vertex_buffer: Option<&'a B>,
    pub vertex_format: wgt::VertexFormat,
    pub first_vertex: u32,
    pub vertex_count: u32,
    pub vertex_stride: BufferAddress,
    pub indices: Option<AccelerationStructureTriangleIndices<'a, B>>,
    pub transform: Option<AccelerationStructureTriangleTransform<'a, B>>,
    pub flags: wgt::AccelerationStructureGeometryFlags,
}
#[derive(Debug)]
pub struct AccelerationStructureAABBs<'a, B: DynBuffer + ?Sized> {
    pub buffer: Option<&'a B>,
    pub offset: u32,
    pub count: u32,
    pub stride: BufferAddress,
    pub flags: wgt::AccelerationStructureGeometryFlags,
}
#[derive(Debug)]
pub struct AccelerationStructureInstances<'a, B: DynBuffer + ?Sized> {
    pub buffer: Option<&'a B>,
    pub offset: u32,
    pub count: u32,
}
#[derive(Debug)]
pub enum AccelerationStructureEntries<'a, B: DynBuffer + ?Sized> {
    Instances(AccelerationStructureInstances<'a, B>),
    Triangles(Vec<AccelerationStructureTriangles<'a, B>>),
    AABBs(Vec<AccelerationStructureAABBs<'a, B>>),
}
#[derive(Debug)]
pub struct BuildAccelerationStructureDescriptor<'a, B: DynBuffer + ?Sized, A: DynAccelerationStructure + ?Sized> {
    pub entries: &'a AccelerationStructureEntries<'a, B>,
    pub mode: AccelerationStructureBuildMode,
    pub flags: wgt::AccelerationStructureFlags,
    pub source_acceleration_structure: Option<&'a A>,
    pub destination_acceleration_structure: &'a A,
    pub scratch_buffer: &'a B,
    pub scratch_buffer_offset: BufferAddress,
}

#[derive(Debug, Clone, Copy)]
pub struct TlasInstance {
    pub transform: [f32; 12],
    pub custom_data: u32,
    pub mask: u8,
    pub blas_address: u64,
    pub pipeline_intersection_data_offset: u32,
}

#[derive(Clone, Copy, Debug, Default)]
pub struct AccelerationStructureBuildSizes {
    pub acceleration_structure_size: BufferAddress,
    pub update_scratch_size: BufferAddress,
    pub build_scratch_size: BufferAddress,
}

#[derive(Clone, Debug)]
pub struct Alignments {
    pub ray_tracing_scratch_buffer_alignment: u32,
}

pub trait DynDevice: Debug {
    unsafe fn create_buffer(&self, desc: &BufferDescriptor) -> Result<Box<dyn DynBuffer>, DeviceError>;
    unsafe fn destroy_buffer(&self, buffer: Box<dyn DynBuffer>);
    fn tlas_instance_to_bytes(&self, instance: TlasInstance) -> Vec<u8>;
}

pub trait DynCommandEncoder: Debug {
    unsafe fn transition_buffers(&mut self, barriers: &[BufferBarrier<'_, dyn DynBuffer>]);
    unsafe fn copy_buffer_to_buffer(&mut self, src: &dyn DynBuffer, dst: &dyn DynBuffer, regions: &[BufferCopy]);
    unsafe fn build_acceleration_structures<'a>(
        &mut self,
        descriptors: &'a [BuildAccelerationStructureDescriptor<'a, dyn DynBuffer, dyn DynAccelerationStructure>],
    );
    unsafe fn place_acceleration_structure_barrier(&mut self, barrier: AccelerationStructureBarrier);
    unsafe fn read_acceleration_structure_compact_size(
        &mut self,
        acceleration_structure: &dyn DynAccelerationStructure,
        buf: &dyn DynBuffer,
    );
    unsafe fn set_acceleration_structure_dependencies(
        &self,
        command_buffers: &[Box<dyn DynCommandBuffer>],
        dependencies: &[&dyn DynAccelerationStructure],
    );
}
