//! The canonical bytes of a sheet that is read, from the request's words: a second reading of them.
use crate::layout::*;

/// Whether a field is used, by its record's numbers and whether its kind is boxes.
fn used(section: usize, field: usize, r: &[u64], boxes: bool) -> bool {
    match section {
        DECLARED => match field {
            declared::BLAS | declared::FLAGS | declared::COUNT => true,
            declared::INDEX_COUNT => !boxes && r[declared::INDEX_PRESENT] != 0,
            _ => !boxes,
        },
        GEOMETRIES => {
            let (indexed, transformed) = (r[geometry::INDEX_BUFFER] != NONE, r[geometry::TRANSFORM_BUFFER] != NONE);
            match field {
                0..=geometry::BUFFER => true,
                _ if boxes => false,
                geometry::INDEX_COUNT => r[geometry::INDEX_PRESENT] != 0,
                geometry::FIRST_PRESENT => indexed,
                geometry::FIRST_INDEX => indexed && r[geometry::FIRST_PRESENT] != 0,
                geometry::TRANSFORM_PRESENT => transformed,
                geometry::TRANSFORM_OFFSET => transformed && r[geometry::TRANSFORM_PRESENT] != 0,
                _ => true,
            }
        }
        SLOTS => field == slot::PRESENT || r[slot::PRESENT] != 0,
        // the operand of the recorded build
        ACTIONS => field == 0 || r[0] != 1,
        _ => true,
    }
}

/// "unused fields zero, declared geometries by Blas number and, within a Blas, in their old order".
pub fn canonical(sheet: &[u8]) -> Vec<u8> {
    let mut raw = Raw::from_sheet(sheet).expect("a sheet that is read is whole");
    let boxes_of: Vec<bool> = (0..raw.count(BLASES)).map(|b| raw.get(BLASES, b, blas::KIND) == 1).collect();
    let drawn: Vec<bool> = (0..raw.count(ENTRIES))
        .flat_map(|i| vec![raw.get(ENTRIES, i, entry::KIND) == 1; raw.get(ENTRIES, i, entry::COUNT) as usize])
        .collect();
    for section in 0..9 {
        let mut records: Vec<Vec<u64>> = (0..raw.count(section)).map(|i| raw.record(section, i).to_vec()).collect();
        if section == DECLARED {
            records.sort_by_key(|r| r[declared::BLAS]); // stable
        }
        for (i, r) in records.iter_mut().enumerate() {
            let boxes = match section {
                DECLARED => boxes_of[r[declared::BLAS] as usize],
                GEOMETRIES => drawn[i],
                _ => false,
            };
            let old = r.clone();
            for (field, value) in r.iter_mut().enumerate() {
                if !used(section, field, &old, boxes) {
                    *value = 0;
                }
            }
        }
        raw.sections[section] = records.concat();
    }
    raw.sheet()
}
