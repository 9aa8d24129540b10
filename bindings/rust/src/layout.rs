//! Made by format/generate_bindings.py from format/layout.py.
//!
//! The sheet's sections as data: how many records a section may have, and where each field stands, when it is used and what
//! values it may have.
use crate::format::{Allowed::*, KindOf, Section, Used::*, field};

/// Bytes of a record of section 1, `buffers`.
pub const BUFFER_BYTES: usize = 9;
/// The most records of section 1, `buffers`.
pub const MOST_BUFFERS: usize = 256;
/// Bytes of a record of section 2, `blases`.
pub const BLAS_BYTES: usize = 28;
/// The most records of section 2, `blases`.
pub const MOST_BLASES: usize = 128;
/// Bytes of a record of section 3, `declared`.
pub const DECLARED_BYTES: usize = 18;
/// The most records of section 3, `declared`.
pub const MOST_DECLARED: usize = 512;
/// Bytes of a record of section 4, `tlases`.
pub const TLAS_BYTES: usize = 22;
/// The most records of section 4, `tlases`.
pub const MOST_TLASES: usize = 32;
/// Bytes of a record of section 5, `entries`.
pub const ENTRY_BYTES: usize = 5;
/// The most records of section 5, `entries`.
pub const MOST_ENTRIES: usize = 64;
/// Bytes of a record of section 6, `geometries`, of version 1.
pub const GEOMETRY_BYTES: usize = 44;
/// The most records of section 6, `geometries`.
pub const MOST_GEOMETRIES: usize = 256;
/// Bytes of a record of section 6, `geometries`, of version 2.
pub const WIDE_GEOMETRY_BYTES: usize = 48;
/// Bytes of a record of section 7, `packages`.
pub const PACKAGE_BYTES: usize = 4;
/// The most records of section 7, `packages`.
pub const MOST_PACKAGES: usize = 32;
/// Bytes of a record of section 8, `slots`.
pub const SLOT_BYTES: usize = 56;
/// The most records of section 8, `slots`.
pub const MOST_SLOTS: usize = 512;
/// Bytes of a record of section 9, `actions`.
pub const ACTION_BYTES: usize = 3;
/// The most records of section 9, `actions`.
pub const MOST_ACTIONS: usize = 64;
/// Bytes of the longest sheet of either version.
pub const LONGEST_SHEET: usize = 57439;
/// Bytes of the longest sheet of version 1.
pub const LONGEST_VERSION_1: usize = 56415;
/// In a field that may have it: no buffer.
pub const NO_BUFFER: u16 = 65535;

const BUFFERS: Section = Section {
    number: 1,
    name: "buffers",
    one: "buffer",
    counted: "count of buffers",
    most: MOST_BUFFERS,
    bytes: BUFFER_BYTES,
    drawn_by: 0,
    draws: None,
    kind: KindOf::Triangles,
    fields: &[field("size", 0, 8, Any, &[], 0, false), field("marks", 8, 1, Range(0, 3), &[], 0, false)],
};

const BLASES: Section = Section {
    number: 2,
    name: "blases",
    one: "blas",
    counted: "count of blases",
    most: MOST_BLASES,
    bytes: BLAS_BYTES,
    drawn_by: 0,
    draws: None,
    kind: KindOf::Triangles,
    fields: &[
        field("kind", 0, 1, Range(0, 1), &[], 0, false),
        field("flags", 1, 1, Range(0, 7), &[], 0, false),
        field("state", 2, 1, Range(0, 3), &[], 0, false),
        field("destroyed", 3, 1, Range(0, 1), &[], 0, false),
        field("scratch", 4, 8, Any, &[], 0, false),
        field("address", 12, 8, Any, &[], 0, false),
        field("number", 20, 8, Any, &[], 0, false),
    ],
};

const DECLARED: Section = Section {
    number: 3,
    name: "declared",
    one: "declared",
    counted: "count of declared",
    most: MOST_DECLARED,
    bytes: DECLARED_BYTES,
    drawn_by: 0,
    draws: None,
    kind: KindOf::Blas,
    fields: &[
        field("blas", 0, 2, Inside(2), &[], 2, false),
        field("flags", 2, 1, Any, &[], 0, false),
        field("count", 3, 4, Any, &[], 0, false),
        field("vertex_format", 7, 1, Any, &[Triangles], 0, false),
        field("least_stride", 8, 2, Any, &[Triangles], 0, false),
        field("stride_alignment", 10, 2, AtLeast(1), &[Triangles], 0, false),
        field("index_format", 12, 1, Range(0, 2), &[Triangles], 0, false),
        field("index_count_present", 13, 1, Range(0, 1), &[Triangles], 0, false),
        field("index_count", 14, 4, Any, &[Triangles, Present(7)], 0, false),
    ],
};

const TLASES: Section = Section {
    number: 4,
    name: "tlases",
    one: "tlas",
    counted: "count of tlases",
    most: MOST_TLASES,
    bytes: TLAS_BYTES,
    drawn_by: 0,
    draws: None,
    kind: KindOf::Triangles,
    fields: &[
        field("flags", 0, 1, OneOf(&[0, 2]), &[], 0, false),
        field("destroyed", 1, 1, Range(0, 1), &[], 0, false),
        field("scratch", 2, 8, Any, &[], 0, false),
        field("most_instances", 10, 4, Any, &[], 0, false),
        field("number", 14, 8, Any, &[], 0, false),
    ],
};

const ENTRIES: Section = Section {
    number: 5,
    name: "entries",
    one: "entry",
    counted: "count of entries",
    most: MOST_ENTRIES,
    bytes: ENTRY_BYTES,
    drawn_by: 0,
    draws: Some(2),
    kind: KindOf::Triangles,
    fields: &[
        field("blas", 0, 2, Any, &[], 2, false),
        field("kind", 2, 1, Range(0, 1), &[], 0, false),
        field("geometry_count", 3, 2, Any, &[], 0, false),
    ],
};

const GEOMETRIES: Section = Section {
    number: 6,
    name: "geometries",
    one: "geometry",
    counted: "count of geometries",
    most: MOST_GEOMETRIES,
    bytes: GEOMETRY_BYTES,
    drawn_by: 5,
    draws: None,
    kind: KindOf::Entry,
    fields: &[
        field("flags", 0, 1, Any, &[], 0, false),
        field("count", 1, 4, Any, &[], 0, false),
        field("first", 5, 4, Any, &[], 0, false),
        field("stride", 9, 8, Any, &[], 0, false),
        field("buffer", 17, 2, Except(65535), &[], 1, false),
        field("vertex_format", 19, 1, Any, &[Triangles], 0, false),
        field("index_format", 20, 1, Range(0, 2), &[Triangles], 0, false),
        field("index_buffer", 21, 2, Any, &[Triangles], 1, true),
        field("index_count_present", 23, 1, Range(0, 1), &[Triangles], 0, false),
        field("index_count", 24, 4, Any, &[Triangles, Present(8)], 0, false),
        field("first_index_present", 28, 1, Range(0, 1), &[Triangles, Given(7)], 0, false),
        field("first_index", 29, 4, Any, &[Triangles, Given(7), Present(10)], 0, false),
        field("transform_buffer", 33, 2, Any, &[Triangles], 1, true),
        field("transform_offset_present", 35, 1, Range(0, 1), &[Triangles, Given(12)], 0, false),
        field("transform_offset", 36, 8, Any, &[Triangles, Given(12), Present(13)], 0, false),
    ],
};

const WIDE_GEOMETRIES: Section = Section {
    number: 6,
    name: "geometries",
    one: "geometry",
    counted: "count of geometries",
    most: MOST_GEOMETRIES,
    bytes: WIDE_GEOMETRY_BYTES,
    drawn_by: 5,
    draws: None,
    kind: KindOf::Entry,
    fields: &[
        field("flags", 0, 1, Any, &[], 0, false),
        field("count", 1, 4, Any, &[], 0, false),
        field("first", 5, 8, Any, &[], 0, false),
        field("stride", 13, 8, Any, &[], 0, false),
        field("buffer", 21, 2, Except(65535), &[], 1, false),
        field("vertex_format", 23, 1, Any, &[Triangles], 0, false),
        field("index_format", 24, 1, Range(0, 2), &[Triangles], 0, false),
        field("index_buffer", 25, 2, Any, &[Triangles], 1, true),
        field("index_count_present", 27, 1, Range(0, 1), &[Triangles], 0, false),
        field("index_count", 28, 4, Any, &[Triangles, Present(8)], 0, false),
        field("first_index_present", 32, 1, Range(0, 1), &[Triangles, Given(7)], 0, false),
        field("first_index", 33, 4, Any, &[Triangles, Given(7), Present(10)], 0, false),
        field("transform_buffer", 37, 2, Any, &[Triangles], 1, true),
        field("transform_offset_present", 39, 1, Range(0, 1), &[Triangles, Given(12)], 0, false),
        field("transform_offset", 40, 8, Any, &[Triangles, Given(12), Present(13)], 0, false),
    ],
};

const PACKAGES: Section = Section {
    number: 7,
    name: "packages",
    one: "package",
    counted: "count of packages",
    most: MOST_PACKAGES,
    bytes: PACKAGE_BYTES,
    drawn_by: 0,
    draws: Some(1),
    kind: KindOf::Triangles,
    fields: &[field("tlas", 0, 2, Any, &[], 4, false), field("slot_count", 2, 2, Any, &[], 0, false)],
};

const SLOTS: Section = Section {
    number: 8,
    name: "slots",
    one: "slot",
    counted: "count of slots",
    most: MOST_SLOTS,
    bytes: SLOT_BYTES,
    drawn_by: 7,
    draws: None,
    kind: KindOf::Triangles,
    fields: &[
        field("present", 0, 1, Range(0, 1), &[], 0, false),
        field("blas", 1, 2, Any, &[Present(0)], 2, false),
        field("custom_data", 3, 4, Any, &[Present(0)], 0, false),
        field("mask", 7, 1, Any, &[Present(0)], 0, false),
        field("transform_0", 8, 4, Any, &[Present(0)], 0, false),
        field("transform_1", 12, 4, Any, &[Present(0)], 0, false),
        field("transform_2", 16, 4, Any, &[Present(0)], 0, false),
        field("transform_3", 20, 4, Any, &[Present(0)], 0, false),
        field("transform_4", 24, 4, Any, &[Present(0)], 0, false),
        field("transform_5", 28, 4, Any, &[Present(0)], 0, false),
        field("transform_6", 32, 4, Any, &[Present(0)], 0, false),
        field("transform_7", 36, 4, Any, &[Present(0)], 0, false),
        field("transform_8", 40, 4, Any, &[Present(0)], 0, false),
        field("transform_9", 44, 4, Any, &[Present(0)], 0, false),
        field("transform_10", 48, 4, Any, &[Present(0)], 0, false),
        field("transform_11", 52, 4, Any, &[Present(0)], 0, false),
    ],
};

const ACTIONS: Section = Section {
    number: 9,
    name: "actions",
    one: "action",
    counted: "count of actions",
    most: MOST_ACTIONS,
    bytes: ACTION_BYTES,
    drawn_by: 0,
    draws: None,
    kind: KindOf::Triangles,
    fields: &[field("kind", 0, 1, Range(1, 4), &[], 0, false), field("operand", 1, 2, Any, &[Not(0, 1)], 0, false)],
};

/// Sections 1 to 9 of version 1.
pub(crate) static SECTIONS_1: [Section; 9] = [BUFFERS, BLASES, DECLARED, TLASES, ENTRIES, GEOMETRIES, PACKAGES, SLOTS, ACTIONS];

/// Sections 1 to 9 of version 2.
pub(crate) static SECTIONS_2: [Section; 9] =
    [BUFFERS, BLASES, DECLARED, TLASES, ENTRIES, WIDE_GEOMETRIES, PACKAGES, SLOTS, ACTIONS];
