//! What a build is driven with: the records of sections 1 to 8, judged before (the Rust's types exclude what isn't allowed).

#[derive(Clone, Debug)]
pub struct Buffer {
    pub size: u64,
    pub marks: u8,
}

#[derive(Clone, Debug)]
pub struct Blas {
    pub kind: u8,
    pub flags: u8,
    pub state: u8,
    pub destroyed: u8,
    pub scratch: u64,
    pub address: u64,
    pub number: u64,
}

#[derive(Clone, Debug)]
pub struct Declared {
    pub blas: u16,
    pub flags: u8,
    pub count: u32,
    pub vertex_format: u8,
    pub least_stride: u16,
    pub stride_alignment: u16,
    pub index_format: u8,
    pub index_count: Option<u32>,
}

#[derive(Clone, Debug)]
pub struct Tlas {
    pub flags: u8,
    pub destroyed: u8,
    pub scratch: u64,
    pub most: u32,
    pub number: u64,
}

#[derive(Clone, Debug)]
pub struct Geometry {
    pub flags: u8,
    pub count: u32,
    /// the Rust has a u32 here, and is driven with nothing above it
    pub first: u64,
    pub stride: u64,
    pub buffer: u16,
    pub vertex_format: u8,
    pub index_format: u8,
    pub index_buffer: Option<u16>,
    pub index_count: Option<u32>,
    pub first_index: Option<u32>,
    pub transform_buffer: Option<u16>,
    pub transform_offset: Option<u64>,
}

#[derive(Clone, Debug)]
pub struct Entry {
    pub blas: u16,
    pub kind: u8,
    pub geometries: Vec<Geometry>,
}

#[derive(Clone, Debug)]
pub struct Slot {
    pub blas: u16,
    pub custom_data: u32,
    pub mask: u8,
    pub transform: [f32; 12],
}

#[derive(Clone, Debug)]
pub struct Package {
    pub tlas: u16,
    pub slots: Vec<Option<Slot>>,
}

#[derive(Clone, Debug, Default)]
pub struct Input {
    pub alignment: u32,
    pub counter: u64,
    pub buffers: Vec<Buffer>,
    pub blases: Vec<Blas>,
    pub declared: Vec<Declared>,
    pub tlases: Vec<Tlas>,
    pub entries: Vec<Entry>,
    pub packages: Vec<Package>,
}
