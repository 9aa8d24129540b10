//! A library with the exported functions, made of the second reading: to try the harness, the header and the bindings where
//! the static library isn't there. Nothing of it is proved, and it is not to be used for anything else.
#![allow(clippy::missing_safety_doc, clippy::too_many_arguments, dead_code)]

#[path = "src/canonical.rs"]
mod canonical;
#[path = "src/convert.rs"]
mod convert;
#[path = "src/groups.rs"]
mod groups;
#[path = "src/instances.rs"]
mod instances;
#[path = "src/layout.rs"]
mod layout;
#[path = "src/many.rs"]
mod many;
#[path = "src/reading.rs"]
mod reading;
#[path = "src/side.rs"]
mod side;
#[path = "src/words.rs"]
mod words;

use layout::Version;
use side::{Lent, Outputs, Side};
use std::slice::{from_raw_parts as lent, from_raw_parts_mut as lent_mut};

/// The fault that ORACLE_FAULT names.
fn reading() -> reading::Reading {
    let fault = std::env::var("ORACLE_FAULT").ok().and_then(|f| f.parse().ok()).unwrap_or(0);
    reading::Reading { fault }
}

#[repr(C)]
pub struct Numbers<const N: usize>([u64; N]);

#[no_mangle]
pub unsafe extern "C" fn zakvind_read_sheet(sheet: *const u8, n: usize) -> Numbers<23> {
    Numbers(reading().read_sheet(lent(sheet, n)))
}

/// A build takes the same with geometries of either width.
macro_rules! build {
    ($name:ident, $version:expr) => {
        #[no_mangle]
        pub unsafe extern "C" fn $name(
            alignment: u32,
            t0: *const u8,
            n0: usize,
            t1: *const u8,
            n1: usize,
            t2: *const u8,
            n2: usize,
            t3: *const u8,
            n3: usize,
            t4: *const u8,
            n4: usize,
            t5: *const u8,
            n5: usize,
            t6: *const u8,
            n6: usize,
            t7: *const u8,
            n7: usize,
            o0: *mut u64,
            m0: usize,
            o1: *mut u64,
            m1: usize,
            o2: *mut u64,
            m2: usize,
            o3: *mut u8,
            m3: usize,
            o4: *mut u64,
            m4: usize,
            o5: *mut u16,
            m5: usize,
            o6: *mut u16,
            m6: usize,
        ) -> Numbers<15> {
            let tables =
                [lent(t0, n0), lent(t1, n1), lent(t2, n2), lent(t3, n3), lent(t4, n4), lent(t5, n5), lent(t6, n6), lent(t7, n7)];
            let out = Outputs {
                blas_offsets: lent_mut(o0, m0),
                tlas_offsets: lent_mut(o1, m1),
                staging_ranges: lent_mut(o2, m2),
                instances: lent_mut(o3, m3),
                init_ranges: lent_mut(o4, m4),
                compactable: lent_mut(o5, m5),
                lists: lent_mut(o6, m6),
            };
            Numbers(reading().build($version, alignment, tables, out))
        }
    };
}

build!(zakvind_build, Version::One);
build!(zakvind_build_wide, Version::Two);

#[no_mangle]
pub unsafe extern "C" fn zakvind_submit(
    indices: *mut [u64; 2],
    blases: *mut u8,
    n0: usize,
    tlases: *mut u8,
    n1: usize,
    dependency_counts: *mut u16,
    n2: usize,
    dependencies: *mut u16,
    n3: usize,
    actions: *const u32,
    n4: usize,
    lists: *const u16,
    n5: usize,
) -> Numbers<4> {
    let changed = Lent {
        blases: lent_mut(blases, n0),
        tlases: lent_mut(tlases, n1),
        dependency_counts: lent_mut(dependency_counts, n2),
        dependencies: lent_mut(dependencies, n3),
    };
    Numbers(reading().submit(&mut *indices, changed, lent(actions, n4), lent(lists, n5)))
}

#[no_mangle]
pub unsafe extern "C" fn zakvind_append_instance(
    tlases: *const u8,
    n0: usize,
    blases: *const u8,
    n1: usize,
    tlas: u16,
    instance: *const [u8; 55],
    instances: *mut u8,
    n2: usize,
    used: u64,
) -> Numbers<7> {
    Numbers(reading().append(lent(tlases, n0), lent(blases, n1), tlas, &*instance, lent_mut(instances, n2), used))
}

#[no_mangle]
pub unsafe extern "C" fn zakvind_append_instances(
    tlases: *const u8,
    n0: usize,
    blases: *const u8,
    n1: usize,
    tlas: u16,
    items: *const u8,
    n2: usize,
    instances: *mut u8,
    n3: usize,
    used: u64,
) -> Numbers<7> {
    Numbers(reading().append_many(lent(tlases, n0), lent(blases, n1), tlas, lent(items, n2), lent_mut(instances, n3), used))
}

#[no_mangle]
pub unsafe extern "C" fn zakvind_report(sheet: *const u8, n: usize, out: *mut u8, m: usize) -> Numbers<2> {
    Numbers(reading().report(lent(sheet, n), lent_mut(out, m)))
}

/// Writes a text, or nothing where it doesn't fit.
fn written(text: &[u8], out: &mut [u8]) -> Numbers<2> {
    let Some(part) = out.get_mut(..text.len()) else { return Numbers([39, 0]) };
    part.copy_from_slice(text);
    Numbers([0, text.len() as u64])
}

#[no_mangle]
pub unsafe extern "C" fn zakvind_write_sheet(sheet: *const u8, n: usize, out: *mut u8, m: usize) -> Numbers<3> {
    Numbers(reading().write(lent(sheet, n), lent_mut(out, m)))
}

#[no_mangle]
pub unsafe extern "C" fn zakvind_to_version_2(sheet: *const u8, n: usize, out: *mut u8, m: usize) -> Numbers<3> {
    Numbers(reading().convert(Version::Two, lent(sheet, n), lent_mut(out, m)))
}

#[no_mangle]
pub unsafe extern "C" fn zakvind_to_version_1(sheet: *const u8, n: usize, out: *mut u8, m: usize) -> Numbers<3> {
    Numbers(reading().convert(Version::One, lent(sheet, n), lent_mut(out, m)))
}

#[no_mangle]
pub unsafe extern "C" fn zakvind_open_groups(groups: *const u8, n: usize, slots: *mut u8, m: usize) -> Numbers<5> {
    Numbers(reading().open(lent(groups, n), lent_mut(slots, m)))
}

#[no_mangle]
pub unsafe extern "C" fn zakvind_read_instances(
    records: *const u8,
    n0: usize,
    blases: *const u8,
    n1: usize,
    items: *mut u8,
    n2: usize,
) -> Numbers<4> {
    Numbers(reading().read_instances(lent(records, n0), lent(blases, n1), lent_mut(items, n2)))
}

#[no_mangle]
pub unsafe extern "C" fn zakvind_words(
    call: u64,
    number: u64,
    e0: u64,
    e1: u64,
    f0: u64,
    f1: u64,
    f2: u64,
    out: *mut u8,
    m: usize,
) -> Numbers<2> {
    written(words::words(call, number, [e0, e1], [f0, f1, f2]).as_bytes(), lent_mut(out, m))
}

/// The refusal that a report's lines tell, in words.
fn explanation(sheet: &[u8], lines: &str) -> String {
    let told = |word: &str| -> Option<Vec<u64>> {
        let line = lines.lines().find(|l| l.starts_with(word))?;
        line.split(' ').skip(1).map(|n| n.parse().ok()).collect()
    };
    if let Some(n) = told("sheet") {
        return words::words(1, n[0], [n[1], 0], [0; 3]);
    }
    match (told("build"), told("submit")) {
        (Some(n), _) if n[0] != 0 => words::words(2, n[0], [n[1], n[2]], [n[3], n[4], n[5]]),
        (_, Some(n)) if n[0] != 0 => {
            let actions = reading().read_sheet(sheet)[21] as usize;
            let kind = sheet[actions + 3 * n[1] as usize];
            words::words(3, n[0], [n[1], kind.into()], [n[2], n[3], 0])
        }
        _ => words::words(2, 0, [0; 2], [0; 3]),
    }
}

#[no_mangle]
pub unsafe extern "C" fn zakvind_explain(sheet: *const u8, n: usize, out: *mut u8, m: usize) -> Numbers<2> {
    let (sheet, mut text) = (lent(sheet, n), vec![0; 1 << 16]);
    let [_, length] = reading().report(sheet, &mut text);
    text.truncate(length as usize);
    let lines = String::from_utf8_lossy(&text).into_owned();
    let explained = lines.clone() + &explanation(sheet, &lines);
    written(explained.as_bytes(), lent_mut(out, m))
}
