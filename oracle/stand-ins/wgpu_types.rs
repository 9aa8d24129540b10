//! Stand-in for `wgpu-types` (`wgt`): only what the unchanged text names. With `--cfg quiet` nothing is counted.
#![allow(dead_code)]
use std::cell::Cell;
use std::fmt;
use std::ops::Index;

pub type BufferAddress = u64;
pub type BufferSize = std::num::NonZeroU64;
pub trait WasmNotSendSync {}
impl<T: ?Sized> WasmNotSendSync for T {}

thread_local! {
    /// Whether a size was rounded since this was last cleared: what rests on it is a stand-in's.
    pub static ROUNDED: Cell<bool> = const { Cell::new(false) };
}

pub mod math {
    /// Up to a multiple. The paper: "sums and rounding stop at 2^64 - 1"; the text of wgpu-types isn't at hand.
    pub fn align_to(value: u64, alignment: u64) -> u64 {
        let remainder = value % alignment;
        if remainder == 0 {
            return value;
        }
        #[cfg(not(quiet))]
        super::ROUNDED.with(|r| r.set(true));
        value.saturating_add(alignment - remainder)
    }
}

pub mod error {
    #[derive(Debug, Clone, Copy, PartialEq, Eq)]
    pub enum ErrorType {
        Internal,
        OutOfMemory,
        Validation,
        DeviceLost,
    }
    pub trait WebGpuError: std::error::Error + 'static {
        fn webgpu_error_type(&self) -> ErrorType;
    }
}

macro_rules! flags {
    ($name:ident: $ty:ty { $($c:ident = $v:expr,)* }) => {
        #[derive(Clone, Copy, PartialEq, Eq, Debug, Default, Hash)]
        pub struct $name(pub $ty);
        impl $name {
            $(pub const $c: Self = Self($v);)*
            pub const fn empty() -> Self { Self(0) }
            pub const fn bits(self) -> $ty { self.0 }
            pub const fn contains(self, o: Self) -> bool { self.0 & o.0 == o.0 }
        }
        impl std::ops::BitOr for $name { type Output = Self; fn bitor(self, o: Self) -> Self { Self(self.0 | o.0) } }
        impl std::ops::BitOrAssign for $name { fn bitor_assign(&mut self, o: Self) { self.0 |= o.0 } }
        impl std::ops::BitAnd for $name { type Output = Self; fn bitand(self, o: Self) -> Self { Self(self.0 & o.0) } }
    };
}

flags!(Features: u64 { EXPERIMENTAL_RAY_QUERY = 1, });
flags!(BufferUsages: u32 { MAP_READ = 1, MAP_WRITE = 2, COPY_SRC = 4, COPY_DST = 8, BLAS_INPUT = 16, TLAS_INPUT = 32, });
flags!(BufferUses: u32 {
    MAP_WRITE = 1,
    COPY_SRC = 2,
    COPY_DST = 4,
    ACCELERATION_STRUCTURE_SCRATCH = 8,
    BOTTOM_LEVEL_ACCELERATION_STRUCTURE_INPUT = 16,
    TOP_LEVEL_ACCELERATION_STRUCTURE_INPUT = 32,
    ACCELERATION_STRUCTURE_QUERY = 64,
});
// Values of the sheet: 1 USE_TRANSFORM, 2 ALLOW_RAY_HIT_VERTEX_RETURN, 4 ALLOW_COMPACTION.
flags!(AccelerationStructureFlags: u8 { USE_TRANSFORM = 1, ALLOW_RAY_HIT_VERTEX_RETURN = 2, ALLOW_COMPACTION = 4, });
// Any byte (the paper: "geometry flags and vertex formats are any byte").
flags!(AccelerationStructureGeometryFlags: u8 { OPAQUE = 1, });

#[derive(Clone, Copy, PartialEq, Eq, Debug)]
pub enum AccelerationStructureUpdateMode {
    Build,
    PreferUpdate,
}

// the paper: "offset not in 16s", "box stride below 24"
pub const TRANSFORM_BUFFER_ALIGNMENT: BufferAddress = 16;
pub const AABB_GEOMETRY_MIN_STRIDE: BufferAddress = 24;

#[derive(Clone, Copy, PartialEq, Eq, Debug)]
pub enum IndexFormat {
    Uint16,
    Uint32,
}
impl IndexFormat {
    pub fn byte_size(&self) -> u32 {
        match self {
            IndexFormat::Uint16 => 2,
            IndexFormat::Uint32 => 4,
        }
    }
}

/// A vertex format: the byte that is compared, and, beside it, least stride and stride
/// alignment "taken as given" (the paper).  `==` compares the byte only.
#[derive(Clone, Copy)]
pub struct VertexFormat {
    pub byte: u8,
    pub least_stride: u64,
    pub stride_alignment: u64,
}
impl PartialEq for VertexFormat {
    fn eq(&self, o: &Self) -> bool {
        self.byte == o.byte
    }
}
impl Eq for VertexFormat {}
impl fmt::Debug for VertexFormat {
    fn fmt(&self, f: &mut fmt::Formatter<'_>) -> fmt::Result {
        write!(f, "VertexFormat({})", self.byte)
    }
}
impl VertexFormat {
    pub fn min_acceleration_structure_vertex_stride(&self) -> u64 {
        self.least_stride
    }
    pub fn acceleration_structure_stride_alignment(&self) -> u64 {
        self.stride_alignment
    }
}

#[derive(Clone, Debug)]
pub struct BlasTriangleGeometrySizeDescriptor {
    pub vertex_format: VertexFormat,
    pub vertex_count: u32,
    pub index_format: Option<IndexFormat>,
    pub index_count: Option<u32>,
    pub flags: AccelerationStructureGeometryFlags,
}
#[derive(Clone, Debug)]
pub struct BlasAABBGeometrySizeDescriptor {
    pub primitive_count: u32,
    pub flags: AccelerationStructureGeometryFlags,
}

thread_local! {
    /// How often `len` of a declared list was asked for since the entry began.  The Rust
    /// asks once per geometry, so the current geometry is this number less one.
    pub static LEN_CALLS: Cell<usize> = const { Cell::new(0) };
}

/// Stand-in for the declared lists' `Vec`: the same `len` and `[]`, and it counts.
#[derive(Clone, Debug)]
pub struct Declared<T>(pub Vec<T>);
impl<T> Declared<T> {
    #[allow(clippy::len_without_is_empty)]
    pub fn len(&self) -> usize {
        #[cfg(not(quiet))]
        LEN_CALLS.with(|c| c.set(c.get() + 1));
        self.0.len()
    }
}
impl<T> Index<usize> for Declared<T> {
    type Output = T;
    fn index(&self, i: usize) -> &T {
        #[cfg(not(quiet))]
        assert_eq!(LEN_CALLS.with(|c| c.get()), i + 1, "geometry count of the recorder is off");
        &self.0[i]
    }
}

#[derive(Clone, Debug)]
pub enum BlasGeometrySizeDescriptors {
    Triangles { descriptors: Declared<BlasTriangleGeometrySizeDescriptor> },
    AABBs { descriptors: Declared<BlasAABBGeometrySizeDescriptor> },
}

// ---- named by src/command/encoder_command.rs only; never made --------------------------
#[derive(Clone, Debug)]
pub struct TexelCopyBufferInfo<B>(pub B);
#[derive(Clone, Debug)]
pub struct TexelCopyTextureInfo<T>(pub T);
#[derive(Clone, Debug)]
pub struct Extent3d;
#[derive(Clone, Debug)]
pub struct ImageSubresourceRange;
#[derive(Clone, Debug)]
pub struct BufferTransition<T>(pub T);
#[derive(Clone, Debug)]
pub struct TextureTransition<T>(pub T);
