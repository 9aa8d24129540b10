//! Safe Rust over Zakvind's static library: checks, lays out and orders acceleration structure builds.
//!
//! Every call accepts all bytes and numbers, finishes, and refuses by a typed error what it won't have; none panics. A refused
//! call writes nothing lent, except that a refused submission leaves what its earlier actions did. Errors display in the library's
//! words; where one is about a field or an id, what names it follows.
//!
//! ```
//! use zakvind::*;
//! # fn main() -> Result<(), Box<dyn std::error::Error>> {
//! let buffers = table(&[Buffer { size: 36, blas_input: true, destroyed: false }])?;
//! let blases = table(&[Blas { build_scratch_size: 300, ..Default::default() }])?;
//! let declared = table(&[BlasGeometrySizeDescriptor { count: 3, min_vertex_stride: 12, ..Default::default() }])?;
//! let entries = table(&[BlasBuildEntry { geometry_count: 1, ..Default::default() }])?;
//! let geometries = table(&[BlasGeometry { count: 3, stride: 12, ..Default::default() }])?;
//! let tables = Tables {
//!     buffers: &buffers,
//!     blases: &blases,
//!     declared: &declared,
//!     entries: &entries,
//!     geometries: &geometries,
//!     ..Default::default()
//! };
//! let mut outputs = Outputs::for_tables(&tables);
//! let built = build_acceleration_structures(256, &tables, outputs.lend())?;
//! assert_eq!(built.scratch_size(), 512);
//! assert_eq!(outputs.blas_offsets, [0]);
//! # Ok(())
//! # }
//! ```
//!
//! A geometry may begin past 2^32: [`table`] writes it as version 2 of the sheet has it. Tables that are read from a sheet keep its
//! [`Version`], and those of either are built; [`to_version_2`] and [`to_version_1`] write a sheet of one as one of the other.
//!
//! The bytes that a build or an append wrote for instances are read back by [`read_instances`], each number by its bits.
//!
//! The package finds the static library in the folder `ZAKVIND_LIB_DIR`, beside itself, in the prefix that it is installed in, or
//! where the repository's `bindings/library` puts it.
#![deny(missing_docs)]
#![deny(clippy::as_conversions, clippy::indexing_slicing, clippy::panic, clippy::unwrap_used, clippy::expect_used)]
#![deny(clippy::unreachable, clippy::arithmetic_side_effects)]

mod building;
mod convert;
mod format;
mod groups;
mod instances;
mod layout;
mod misfit;
mod naming;
pub mod raw;
mod records;
mod sheet;
mod submission;
mod words;

pub use building::{
    AppendManyRefused, AppendRefused, BuildAccelerationStructureError, BuildRefused, Built, LentOutputs, Outputs, Recorded,
    Resource, RunningTotal, Tables, Written, append_instance, append_instances, build_acceleration_structures,
};
pub use convert::{ConvertError, ConvertRefused, to_version_1, to_version_2, version_1_of, version_2_of};
pub use format::{Allowed, Field, KindOf, Section, Used, Version};
pub use groups::{MOST_GROUPS, OpenRefused, open_groups, opened_slots};
pub use instances::{ReadInstancesError, ReadInstancesRefused, read_instances};
pub use layout::*;
pub use misfit::{At, May, Misfit};
pub use raw::CommandIndices;
pub use records::{
    ALLOW_COMPACTION, ALLOW_RAY_HIT_VERTEX_RETURN, Action, Blas, BlasBuildEntry, BlasCompactState, BlasGeometry,
    BlasGeometrySizeDescriptor, BlasId, Buffer, BufferId, IDENTITY, IndexFormat, Kind, Reader, Record, Tlas, TlasId, TlasInstance,
    TlasPackage, USE_TRANSFORM, table,
};
pub use sheet::{
    OutputTooShort, Sheet, SheetError, SheetRefused, WriteRefused, canonical_sheet, explain, read_sheet, report, write_sheet,
};
pub use submission::{
    Actions, DEPENDENCY_ROOM, Lent, SubmitRefused, ValidateAsActionsError, validate_acceleration_structure_actions,
};
