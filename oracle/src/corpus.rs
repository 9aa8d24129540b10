//! Cases in the bytes that robust.c takes apart.
use crate::layout::{Version, BLASES, SIZES};
use crate::side::Case;

fn put<T: Into<u64> + Copy>(out: &mut Vec<u8>, values: &[T], width: usize) {
    for &v in values {
        out.extend_from_slice(&v.into().to_le_bytes()[..width]);
    }
}

/// None where a length doesn't fit.
pub fn bytes(case: &Case, text: usize) -> Option<Vec<u8>> {
    let fits = |lens: &[usize]| lens.iter().all(|&n| n < 65536);
    let lens = |lens: &[usize]| lens.iter().map(|&n| n as u16).collect::<Vec<u16>>();
    let mut out = Vec::new();
    match case {
        Case::Sheet { bytes, room } => {
            out.push(0);
            put(&mut out, &[(text as i64 + room).clamp(0, 65535) as u16], 2);
            out.extend_from_slice(bytes);
        }
        Case::Build { version, alignment, tables, rooms } => {
            let n: Vec<usize> = tables.iter().map(|t| t.len()).collect();
            if !fits(&n) || !fits(rooms) {
                return None;
            }
            out.push(if *version == Version::One { 1 } else { 6 });
            put(&mut out, &[*alignment], 4);
            put(&mut out, &lens(&n), 2);
            put(&mut out, &lens(rooms), 2);
            tables.iter().for_each(|t| out.extend_from_slice(t));
        }
        Case::Submit { indices, blases, tlases, dependency_counts, dependencies, pieces } => {
            let (actions, lists) = pieces.first()?;
            let n = [blases.len(), tlases.len(), dependency_counts.len(), dependencies.len(), actions.len(), lists.len()];
            if !fits(&n) {
                return None;
            }
            out.push(2);
            put(&mut out, indices, 8);
            put(&mut out, &lens(&n), 2);
            out.extend_from_slice(blases);
            out.extend_from_slice(tlases);
            put(&mut out, actions, 4);
            put(&mut out, lists, 2);
            put(&mut out, dependency_counts, 2);
            put(&mut out, dependencies, 2);
        }
        Case::Append { tlases, blases, tlas, instance, room, used } => {
            out.push(3);
            put(&mut out, &lens(&[tlases.len(), blases.len()]), 2);
            put(&mut out, &[*tlas, *room as u16], 2);
            put(&mut out, &[*used], 8);
            out.extend_from_slice(instance);
            out.extend_from_slice(tlases);
            out.extend_from_slice(blases);
        }
        Case::Many { tlases, blases, tlas, items, room, used } => {
            let n = [tlases.len(), blases.len(), items.len(), *room];
            if !fits(&n) {
                return None;
            }
            out.push(5);
            put(&mut out, &lens(&n), 2);
            put(&mut out, &[*tlas], 2);
            put(&mut out, &[*used], 8);
            out.extend_from_slice(tlases);
            out.extend_from_slice(blases);
            out.extend_from_slice(items);
        }
        Case::Groups { bytes, room } => {
            out.push(4);
            put(&mut out, &[*room as u16], 2);
            out.extend_from_slice(bytes);
        }
        Case::Instances { blases, records, room } => {
            let n = [blases.len(), records.len(), *room];
            if !fits(&n) {
                return None;
            }
            // 255: with 65,535 others before them; of some cases, since it takes long
            let before = if (2..=4).contains(&(blases.len() / SIZES[BLASES])) { 255 } else { 0 };
            out.extend([7, before]);
            put(&mut out, &lens(&n), 2);
            out.extend_from_slice(blases);
            out.extend_from_slice(records);
        }
    }
    Some(out)
}
