//! The static library, through the Rust binding.
use crate::instances;
use crate::layout::Version;
use crate::side::{Lent, Outputs, Side};
use zakvind::raw;

pub struct Library;

/// "the bytes equal one call after another; otherwise it gives the refusal that the first bad one would give alone": held to what `one`
/// instance is answered, alone and in turn on `lent`, which is as it was before the call.
fn one_after_another(
    one: impl Fn(&[u8; 55], &mut [u8], u64) -> raw::Appended,
    items: &[u8],
    mut lent: Vec<u8>,
    used: u64,
    many: &raw::Appended,
    instances: &[u8],
) {
    let (whole, part) = items.as_chunks::<55>();
    let alone = whole.iter().map(|item| one(item, &mut [0; 64], 0));
    if let Some((k, bad)) = alone.enumerate().find(|(_, a)| a.number != 0) {
        let told = (many.number, many.e, many.figures);
        assert_eq!(told, (bad.number, [0, k as u64], bad.figures), "another refusal than the first bad one's alone");
        return;
    }
    // of no items, and of a part of one, there is no call to hold it to
    if whole.is_empty() || !part.is_empty() {
        return;
    }
    let mut end = used;
    let in_turn = |item| {
        let a = one(item, &mut lent, end);
        end = a.used;
        a.number
    };
    let number = whole.iter().map(in_turn).find(|&number| number != 0).unwrap_or(0);
    assert_eq!(many.number, number, "another number than of one call after another");
    if number == 0 {
        assert_eq!(many.used, end, "other bytes in use than after one call after another");
        assert!(instances == lent, "other bytes than of one call after another");
    }
}

fn convert(to: Version, sheet: &[u8], out: &mut [u8]) -> raw::Written {
    match to {
        Version::One => raw::to_version_1(sheet, out),
        Version::Two => raw::to_version_2(sheet, out),
    }
}

fn text(sheet: &[u8]) -> Vec<u8> {
    let mut out = vec![0; 1 << 13];
    let a = raw::report(sheet, &mut out);
    assert_eq!(a.number, 0, "8192 bytes have room for every text");
    out.truncate(a.written as usize);
    out
}

/// "Going there and back gives the same bytes", and a converted sheet says the same as before: it is read, with as many records in each
/// section, and its build and its submission answer the same lines.
fn there_and_back(to: Version, sheet: &[u8], converted: &[u8]) {
    let mut back = vec![0; sheet.len()];
    let a = convert(to.other(), converted, &mut back);
    assert_eq!((a.number, a.written), (0, sheet.len() as u64), "there and back");
    assert!(back == sheet, "other bytes there and back");
    let (before, after) = (raw::read_sheet(sheet), raw::read_sheet(converted));
    assert_eq!((after.number, after.version), (0, to.number()), "a converted sheet is read");
    assert_eq!((before.alignment, before.counter), (after.alignment, after.counter));
    assert_eq!(before.sections.map(|s| s.count), after.sections.map(|s| s.count));
    assert!(text(sheet) == text(converted), "another text of a converted sheet");
}

/// "What it accepts, the writer turns back into the same bytes, 35 aside": for Tlases of either sort.
fn written_again(records: &[u8], blases: &[u8], items: &[u8]) {
    let tlases = instances::tlases();
    let plain = items.as_chunks().0.iter().position(|item| !instances::returns(blases, item));
    for tlas in [0, 1] {
        let mut again = vec![0; records.len()];
        let a = raw::append_instances(&tlases, blases, tlas, items, &mut again, 0);
        let told = match plain {
            Some(k) if tlas == 1 => (35, [0, k as u64], 0),
            _ => (0, [0, 0], records.len() as u64),
        };
        assert_eq!((a.number, a.e, a.used), told, "what is accepted, appended to Tlas {tlas}");
        assert!(a.number != 0 || again == records, "other bytes of Tlas {tlas}");
    }
}

/// "an instance that the writer took and whose Blas address stands once in the table comes back as it was": items of the records'
/// numbers that name Blases about the table, all of them, and those alone whose addresses stand once.
fn appended_and_read(records: &[u8], blases: &[u8]) {
    let (n, tlases) = (blases.len() / 28, instances::tlases());
    let ids = n.min(1 << 16);
    if ids == 0 {
        return;
    }
    let item = |(k, record): (usize, &[u8; 64])| -> [u8; 55] {
        let id = u16::try_from((instances::address(record) as usize ^ k) % ids).expect("an id");
        let head = [&id.to_le_bytes()[..], &record[48..51], &[0], &record[51..52]].concat();
        [&head, &record[..48]].concat().try_into().expect("55 bytes")
    };
    let all: Vec<[u8; 55]> = records.as_chunks().0.iter().enumerate().map(item).collect();
    let once = |item: &[u8; 55]| instances::once(blases, item);
    let alone: Vec<[u8; 55]> = all.iter().copied().filter(once).collect();
    for items in [&all, &alone] {
        let (mut written, mut back) = (vec![0; 64 * items.len()], vec![[0; 55]; items.len()]);
        let a = raw::append_instances(&tlases, blases, 0, items.as_flattened(), &mut written, 0);
        assert_eq!((a.number, a.used), (0, written.len() as u64), "items that name Blases are taken");
        let a = raw::read_instances(&written, blases, back.as_flattened_mut());
        match items.iter().position(|item| !once(item)) {
            Some(k) => assert_eq!((a.number, a.e, a.written), (50, [k as u64, 0], 0), "an address that stands not once"),
            None => assert!(a.number == 0 && back == *items, "what was written, read back"),
        }
    }
}

impl Side for Library {
    fn read_sheet(&mut self, sheet: &[u8]) -> [u64; 23] {
        let a = raw::read_sheet(sheet);
        let mut answer = [0; 23];
        answer[..5].copy_from_slice(&[a.number, a.place, a.version, a.alignment, a.counter]);
        for (k, s) in a.sections.iter().enumerate() {
            (answer[5 + 2 * k], answer[6 + 2 * k]) = (s.start, s.count);
        }
        answer
    }

    fn build(&mut self, version: Version, alignment: u32, tables: [&[u8]; 8], out: Outputs) -> [u64; 15] {
        let out = zakvind::LentOutputs {
            blas_offsets: out.blas_offsets,
            tlas_offsets: out.tlas_offsets,
            staging_ranges: out.staging_ranges,
            instances: out.instances,
            init_ranges: out.init_ranges,
            compactable: out.compactable,
            lists: out.lists,
        };
        let a = match version {
            Version::One => raw::build(alignment, tables, out),
            Version::Two => raw::build_wide(alignment, tables, out),
        };
        let mut answer = [0; 15];
        answer[..8].copy_from_slice(&[
            a.number,
            a.e[0],
            a.e[1],
            a.figures[0],
            a.figures[1],
            a.figures[2],
            a.recorded,
            a.scratch_size,
        ]);
        answer[8..].copy_from_slice(&a.written);
        answer
    }

    fn submit(&mut self, indices: &mut [u64; 2], lent: Lent, actions: &[u32], lists: &[u16]) -> [u64; 4] {
        let mut i = raw::CommandIndices {
            active_submission_index: indices[0],
            next_acceleration_structure_build_command_index: indices[1],
        };
        let lent = zakvind::Lent {
            blases: lent.blases,
            tlases: lent.tlases,
            dependency_counts: lent.dependency_counts,
            dependencies: lent.dependencies,
        };
        let a = raw::submit(&mut i, lent, actions, lists);
        *indices = [i.active_submission_index, i.next_acceleration_structure_build_command_index];
        [a.number, a.action, a.figures[0], a.figures[1]]
    }

    fn append(
        &mut self,
        tlases: &[u8],
        blases: &[u8],
        tlas: u16,
        instance: &[u8; 55],
        instances: &mut [u8],
        used: u64,
    ) -> [u64; 7] {
        let a = raw::append_instance(tlases, blases, tlas, instance, instances, used);
        [a.number, a.e[0], a.e[1], a.figures[0], a.figures[1], a.figures[2], a.used]
    }

    fn append_many(&mut self, tlases: &[u8], blases: &[u8], tlas: u16, items: &[u8], instances: &mut [u8], used: u64) -> [u64; 7] {
        let before = instances.to_vec();
        let a = raw::append_instances(tlases, blases, tlas, items, instances, used);
        let one = |item: &[u8; 55], out: &mut [u8], used| raw::append_instance(tlases, blases, tlas, item, out, used);
        one_after_another(one, items, before, used, &a, instances);
        [a.number, a.e[0], a.e[1], a.figures[0], a.figures[1], a.figures[2], a.used]
    }

    fn report(&mut self, sheet: &[u8], out: &mut [u8]) -> [u64; 2] {
        let a = raw::report(sheet, out);
        [a.number, a.written]
    }

    fn write(&mut self, sheet: &[u8], out: &mut [u8]) -> [u64; 3] {
        let a = raw::write_sheet(sheet, out);
        [a.number, a.place, a.written]
    }

    fn convert(&mut self, to: Version, sheet: &[u8], out: &mut [u8]) -> [u64; 3] {
        let a = convert(to, sheet, out);
        if a.number == 0 {
            there_and_back(to, sheet, &out[..a.written as usize]);
        }
        [a.number, a.place, a.written]
    }

    fn open(&mut self, groups: &[u8], slots: &mut [u8]) -> [u64; 5] {
        let a = raw::open_groups(groups, slots);
        [a.number, a.place, a.group, a.item, a.written]
    }

    fn read_instances(&mut self, records: &[u8], blases: &[u8], items: &mut [u8]) -> [u64; 4] {
        let a = raw::read_instances(records, blases, items);
        if a.number == 0 {
            written_again(records, blases, &items[..a.written as usize]);
        }
        appended_and_read(records, blases);
        [a.number, a.e[0], a.e[1], a.written]
    }
}
