//! The calls with their answers as the library gives them, in numbers.

/// `zakvind_command_indices`.
#[repr(C)]
#[derive(Clone, Copy, Debug, Default, PartialEq, Eq)]
pub struct CommandIndices {
    /// never moved
    pub active_submission_index: u64,
    /// the counter
    pub next_acceleration_structure_build_command_index: u64,
}

/// `zakvind_section`: where a section is.
#[repr(C)]
#[derive(Clone, Copy, Debug, Default, PartialEq, Eq)]
pub struct Section {
    /// of the first record, in bytes of the sheet
    pub start: u64,
    /// of its records
    pub count: u64,
}

/// `zakvind_sheet`: what reading a sheet came to.
#[repr(C)]
#[derive(Clone, Copy, Debug, PartialEq, Eq)]
pub struct Sheet {
    /// 0, or why it is refused
    pub number: u64,
    /// of the refused byte
    pub place: u64,
    /// 1 or 2
    pub version: u64,
    /// of scratch sizes
    pub alignment: u64,
    /// the number that the next build takes
    pub counter: u64,
    /// sections 1 to 9
    pub sections: [Section; 9],
}

/// `zakvind_built`: what a build came to.
#[repr(C)]
#[derive(Clone, Copy, Debug, PartialEq, Eq)]
pub struct Built {
    /// 0, or why it is refused
    pub number: u64,
    /// entry and geometry, package and slot, of 37 as the first figure says; for 4 and 5 section and record
    pub e: [u64; 2],
    /// of the refusal
    pub figures: [u64; 3],
    /// 1, or 0: nothing recorded
    pub recorded: u64,
    /// of the recorded build
    pub scratch_size: u64,
    /// how many elements of each output were written
    pub written: [u64; 7],
}

/// `zakvind_submitted`: what a submission came to.
#[repr(C)]
#[derive(Clone, Copy, Debug, PartialEq, Eq)]
pub struct Submitted {
    /// 0, or why it is refused
    pub number: u64,
    /// the refused one, from 0; 0 for a refused start
    pub action: u64,
    /// of the refusal
    pub figures: [u64; 2],
}

/// `zakvind_appended`: what appending instances came to.
#[repr(C)]
#[derive(Clone, Copy, Debug, PartialEq, Eq)]
pub struct Appended {
    /// 0, or why it is refused
    pub number: u64,
    /// 0, 0; of many instances 0 and a position
    pub e: [u64; 2],
    /// of the refusal
    pub figures: [u64; 3],
    /// bytes in use now
    pub used: u64,
}

/// `zakvind_reported`: what writing a text came to.
#[repr(C)]
#[derive(Clone, Copy, Debug, PartialEq, Eq)]
pub struct Reported {
    /// 0 or 39
    pub number: u64,
    /// bytes of it
    pub written: u64,
}

/// `zakvind_written`: what writing or converting a sheet came to.
#[repr(C)]
#[derive(Clone, Copy, Debug, PartialEq, Eq)]
pub struct Written {
    /// 0, or why it is refused
    pub number: u64,
    /// of the refused byte; 0 for 39
    pub place: u64,
    /// bytes of it
    pub written: u64,
}

/// `zakvind_opened`: what opening groups of slots came to.
#[repr(C)]
#[derive(Clone, Copy, Debug, PartialEq, Eq)]
pub struct Opened {
    /// 0, or why they are refused
    pub number: u64,
    /// of the refused byte, of 2 to 5
    pub place: u64,
    /// as written, of 45 and 46
    pub group: u64,
    /// as written, of 45 and 46
    pub item: u64,
    /// bytes of slots
    pub written: u64,
}

/// `zakvind_instances_read`: what reading instances back came to.
#[repr(C)]
#[derive(Clone, Copy, Debug, PartialEq, Eq)]
pub struct InstancesRead {
    /// 0, or why they are refused
    pub number: u64,
    /// of 49 and 50 the record and 0
    pub e: [u64; 2],
    /// bytes of items
    pub written: u64,
}

mod ffi {
    use super::{Appended, Built, CommandIndices, InstancesRead, Opened, Reported, Sheet, Submitted, Written};

    /// A build takes the same with geometries of either width.
    macro_rules! builds {
        ($($name:ident)*) => {
            unsafe extern "C" {
                $(pub fn $name(
                    alignment: u32,
                    buffers: *const u8,
                    buffers_len: usize,
                    blases: *const u8,
                    blases_len: usize,
                    declared: *const u8,
                    declared_len: usize,
                    tlases: *const u8,
                    tlases_len: usize,
                    entries: *const u8,
                    entries_len: usize,
                    geometries: *const u8,
                    geometries_len: usize,
                    packages: *const u8,
                    packages_len: usize,
                    slots: *const u8,
                    slots_len: usize,
                    blas_offsets: *mut u64,
                    blas_offsets_len: usize,
                    tlas_offsets: *mut u64,
                    tlas_offsets_len: usize,
                    staging_ranges: *mut u64,
                    staging_ranges_len: usize,
                    instances: *mut u8,
                    instances_len: usize,
                    init_ranges: *mut u64,
                    init_ranges_len: usize,
                    compactable: *mut u16,
                    compactable_len: usize,
                    lists: *mut u16,
                    lists_len: usize,
                ) -> Built;)*
            }
        };
    }
    builds!(zakvind_build zakvind_build_wide);

    unsafe extern "C" {
        pub fn zakvind_read_sheet(sheet: *const u8, sheet_len: usize) -> Sheet;
        pub fn zakvind_write_sheet(sheet: *const u8, sheet_len: usize, out: *mut u8, out_len: usize) -> Written;
        pub fn zakvind_to_version_2(sheet: *const u8, sheet_len: usize, out: *mut u8, out_len: usize) -> Written;
        pub fn zakvind_to_version_1(sheet: *const u8, sheet_len: usize, out: *mut u8, out_len: usize) -> Written;
        pub fn zakvind_open_groups(groups: *const u8, groups_len: usize, slots: *mut u8, slots_len: usize) -> Opened;
        pub fn zakvind_submit(
            indices: *mut CommandIndices,
            blases: *mut u8,
            blases_len: usize,
            tlases: *mut u8,
            tlases_len: usize,
            dependency_counts: *mut u16,
            dependency_counts_len: usize,
            dependencies: *mut u16,
            dependencies_len: usize,
            actions: *const u32,
            actions_len: usize,
            lists: *const u16,
            lists_len: usize,
        ) -> Submitted;
        pub fn zakvind_append_instance(
            tlases: *const u8,
            tlases_len: usize,
            blases: *const u8,
            blases_len: usize,
            tlas: u16,
            instance: *const [u8; 55],
            instances: *mut u8,
            instances_len: usize,
            used: u64,
        ) -> Appended;
        pub fn zakvind_append_instances(
            tlases: *const u8,
            tlases_len: usize,
            blases: *const u8,
            blases_len: usize,
            tlas: u16,
            items: *const u8,
            items_len: usize,
            instances: *mut u8,
            instances_len: usize,
            used: u64,
        ) -> Appended;
        pub fn zakvind_read_instances(
            records: *const u8,
            records_len: usize,
            blases: *const u8,
            blases_len: usize,
            items: *mut u8,
            items_len: usize,
        ) -> InstancesRead;
        pub fn zakvind_report(sheet: *const u8, sheet_len: usize, out: *mut u8, out_len: usize) -> Reported;
        pub fn zakvind_explain(sheet: *const u8, sheet_len: usize, out: *mut u8, out_len: usize) -> Reported;
        pub fn zakvind_words(
            call: u64,
            number: u64,
            e0: u64,
            e1: u64,
            f0: u64,
            f1: u64,
            f2: u64,
            out: *mut u8,
            out_len: usize,
        ) -> Reported;
    }
}

// Safety, of every call: each pointer comes with the length of a live slice (or is a live reference), `&mut` excludes
// that what is written overlaps anything else lent, and the functions ask nothing more of their callers.

/// `zakvind_read_sheet`.
pub fn read_sheet(sheet: &[u8]) -> Sheet {
    unsafe { ffi::zakvind_read_sheet(sheet.as_ptr(), sheet.len()) }
}

/// `zakvind_write_sheet`.
pub fn write_sheet(sheet: &[u8], out: &mut [u8]) -> Written {
    unsafe { ffi::zakvind_write_sheet(sheet.as_ptr(), sheet.len(), out.as_mut_ptr(), out.len()) }
}

/// `zakvind_to_version_2`.
pub fn to_version_2(sheet: &[u8], out: &mut [u8]) -> Written {
    unsafe { ffi::zakvind_to_version_2(sheet.as_ptr(), sheet.len(), out.as_mut_ptr(), out.len()) }
}

/// `zakvind_to_version_1`.
pub fn to_version_1(sheet: &[u8], out: &mut [u8]) -> Written {
    unsafe { ffi::zakvind_to_version_1(sheet.as_ptr(), sheet.len(), out.as_mut_ptr(), out.len()) }
}

/// `zakvind_open_groups`.
pub fn open_groups(groups: &[u8], slots: &mut [u8]) -> Opened {
    unsafe { ffi::zakvind_open_groups(groups.as_ptr(), groups.len(), slots.as_mut_ptr(), slots.len()) }
}

macro_rules! build {
    ($call:path, $alignment:expr, $tables:expr, $out:expr) => {{
        let ([buffers, blases, declared, tlases, entries, geometries, packages, slots], out) = ($tables, $out);
        unsafe {
            $call(
                $alignment,
                buffers.as_ptr(),
                buffers.len(),
                blases.as_ptr(),
                blases.len(),
                declared.as_ptr(),
                declared.len(),
                tlases.as_ptr(),
                tlases.len(),
                entries.as_ptr(),
                entries.len(),
                geometries.as_ptr(),
                geometries.len(),
                packages.as_ptr(),
                packages.len(),
                slots.as_ptr(),
                slots.len(),
                out.blas_offsets.as_mut_ptr(),
                out.blas_offsets.len(),
                out.tlas_offsets.as_mut_ptr(),
                out.tlas_offsets.len(),
                out.staging_ranges.as_mut_ptr(),
                out.staging_ranges.len(),
                out.instances.as_mut_ptr(),
                out.instances.len(),
                out.init_ranges.as_mut_ptr(),
                out.init_ranges.len(),
                out.compactable.as_mut_ptr(),
                out.compactable.len(),
                out.lists.as_mut_ptr(),
                out.lists.len(),
            )
        }
    }};
}

/// `zakvind_build`; `tables` are sections 1 to 8, those of version 1.
pub fn build(alignment: u32, tables: [&[u8]; 8], out: crate::LentOutputs) -> Built {
    build!(ffi::zakvind_build, alignment, tables, out)
}

/// `zakvind_build_wide`; `tables` are sections 1 to 8, those of version 2.
pub fn build_wide(alignment: u32, tables: [&[u8]; 8], out: crate::LentOutputs) -> Built {
    build!(ffi::zakvind_build_wide, alignment, tables, out)
}

/// `zakvind_submit`.
pub fn submit(indices: &mut CommandIndices, lent: crate::Lent, actions: &[u32], lists: &[u16]) -> Submitted {
    unsafe {
        ffi::zakvind_submit(
            indices,
            lent.blases.as_mut_ptr(),
            lent.blases.len(),
            lent.tlases.as_mut_ptr(),
            lent.tlases.len(),
            lent.dependency_counts.as_mut_ptr(),
            lent.dependency_counts.len(),
            lent.dependencies.as_mut_ptr(),
            lent.dependencies.len(),
            actions.as_ptr(),
            actions.len(),
            lists.as_ptr(),
            lists.len(),
        )
    }
}

/// `zakvind_append_instance`.
pub fn append_instance(tlases: &[u8], blases: &[u8], tlas: u16, instance: &[u8; 55], instances: &mut [u8], used: u64) -> Appended {
    unsafe {
        ffi::zakvind_append_instance(
            tlases.as_ptr(),
            tlases.len(),
            blases.as_ptr(),
            blases.len(),
            tlas,
            instance,
            instances.as_mut_ptr(),
            instances.len(),
            used,
        )
    }
}

/// `zakvind_append_instances`; `items` are 55 bytes each, end to end.
pub fn append_instances(tlases: &[u8], blases: &[u8], tlas: u16, items: &[u8], instances: &mut [u8], used: u64) -> Appended {
    unsafe {
        ffi::zakvind_append_instances(
            tlases.as_ptr(),
            tlases.len(),
            blases.as_ptr(),
            blases.len(),
            tlas,
            items.as_ptr(),
            items.len(),
            instances.as_mut_ptr(),
            instances.len(),
            used,
        )
    }
}

/// `zakvind_read_instances`; `records` are 64 bytes each and `items` 55, end to end.
pub fn read_instances(records: &[u8], blases: &[u8], items: &mut [u8]) -> InstancesRead {
    unsafe {
        ffi::zakvind_read_instances(records.as_ptr(), records.len(), blases.as_ptr(), blases.len(), items.as_mut_ptr(), items.len())
    }
}

/// `zakvind_report`.
pub fn report(sheet: &[u8], out: &mut [u8]) -> Reported {
    unsafe { ffi::zakvind_report(sheet.as_ptr(), sheet.len(), out.as_mut_ptr(), out.len()) }
}

/// `zakvind_explain`.
pub fn explain(sheet: &[u8], out: &mut [u8]) -> Reported {
    unsafe { ffi::zakvind_explain(sheet.as_ptr(), sheet.len(), out.as_mut_ptr(), out.len()) }
}

/// `zakvind_words`.
pub fn words(call: u64, number: u64, e: [u64; 2], figures: [u64; 3], out: &mut [u8]) -> Reported {
    let ([e0, e1], [f0, f1, f2]) = (e, figures);
    unsafe { ffi::zakvind_words(call, number, e0, e1, f0, f1, f2, out.as_mut_ptr(), out.len()) }
}
