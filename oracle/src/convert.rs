//! A sheet of one version as a sheet of the other, from the request's words: a second reading of them, by the sheet's numbers and not by
//! its bytes. With `fault` k it gets one thing wrong.
use crate::layout::*;

/// How many things `convert` can get wrong, from 1 on.
pub const FAULTS: u32 = 20;

const LIMIT: u64 = 1 << 32;

/// How long a sheet is in the other version; of one that isn't whole as long as it is.
pub fn length(sheet: &[u8]) -> usize {
    let Some(raw) = Raw::from_sheet(sheet) else { return sheet.len() };
    let (version, n) = (raw.laid_out(), raw.count(GEOMETRIES));
    sheet.len() + n * version.other().size(GEOMETRIES) - n * version.size(GEOMETRIES)
}

/// Whether a geometry is one of an entry of boxes.
fn boxes(raw: &Raw, geometry: usize) -> bool {
    let mut drawn = 0;
    let mut entries = 0..raw.count(ENTRIES);
    let entry = entries.find(|&e| {
        drawn += raw.get(ENTRIES, e, entry::COUNT) as usize;
        geometry < drawn
    });
    entry.is_some_and(|e| raw.get(ENTRIES, e, entry::KIND) == 1)
}

/// "the byte place of the first that doesn't fit", in the sheet that is read.
fn too_far(raw: &Raw, fault: u32) -> Option<u64> {
    let fits = |g: usize| {
        let first = raw.get(GEOMETRIES, g, geometry::FIRST);
        match fault {
            1 => first <= LIMIT,
            2 => first < LIMIT - 1,
            3 => first < LIMIT || !boxes(raw, g),
            4 => first < LIMIT || boxes(raw, g),
            _ => first < LIMIT,
        }
    };
    let mut far = (0..raw.count(GEOMETRIES)).filter(|&g| !fits(g));
    let g = match fault {
        5 => far.next_back(),
        6 => far.next().map(|_| 0),
        7 => far.next().map(|g| g + 1),
        _ => far.next(),
    }?;
    let version = if fault == 8 { Version::One } else { Version::Two };
    let field: usize = version.widths(GEOMETRIES)[..geometry::FIRST].iter().sum();
    let place = raw.place(GEOMETRIES) + 2 + g * version.size(GEOMETRIES) + field;
    Some(place as u64 + u64::from(fault == 9))
}

/// The sheet's numbers as those of a sheet of the other version.
fn converted(mut raw: Raw, to: Version, fault: u32) -> Vec<u8> {
    raw.version = to.number();
    for g in 0..raw.count(GEOMETRIES) {
        let first = raw.get(GEOMETRIES, g, geometry::FIRST);
        // a sign that was carried on; a leftover that was cleared
        if fault == 10 && to == Version::Two && first >> 31 == 1 {
            raw.set(GEOMETRIES, g, geometry::FIRST, first | u64::MAX << 32);
        }
        if fault == 11 && raw.get(GEOMETRIES, g, geometry::INDEX_BUFFER) == NONE {
            raw.set(GEOMETRIES, g, geometry::FIRST_INDEX, 0);
        }
    }
    let mut bytes = raw.sheet();
    if fault == 12 {
        bytes[0] = to.other().number() as u8;
    }
    bytes
}

/// number, place, bytes written; `read` is what the reader says of the sheet, its number and place.
pub fn convert(to: Version, sheet: &[u8], out: &mut [u8], read: (u64, u64), fault: u32) -> [u64; 3] {
    // "the converter gives the reader's first, 1 also for the other way's version"; of an empty sheet the reader's is 2
    let other = sheet.first().map_or(fault == 13, |&version| u64::from(version) != to.other().number());
    let (reader, other) = ((read.0 != 0).then_some([read.0, read.1, 0]), other.then_some([1, 0, 0]));
    let refusal = match fault {
        14 => reader.or(other),
        15 if reader.is_none() && other.is_some() => {
            // a sheet that is of that version already
            let Some(part) = out.get_mut(..sheet.len()) else { return [39, 0, 0] };
            part.copy_from_slice(sheet);
            return [0, 0, sheet.len() as u64];
        }
        16 if out.len() < length(sheet) => Some([39, 0, 0]),
        _ => other.or(reader),
    };
    if let Some(refusal) = refusal {
        return refusal;
    }
    let raw = Raw::from_sheet(sheet).expect("a sheet that is read is whole");
    // "then 47 at the byte place of the first that doesn't fit; then 39"
    let far = (to == Version::One && fault != 17).then(|| too_far(&raw, fault)).flatten().map(|place| [47, place, 0]);
    let bytes = converted(raw, to, fault);
    let short = (out.len() < bytes.len() + usize::from(fault == 18)).then_some([39, 0, 0]);
    let refusal = if fault == 19 { short.or(far) } else { far.or(short) };
    if let Some(refusal) = refusal {
        if fault == 20 && !out.is_empty() {
            out[0] = bytes[0];
        }
        return refusal;
    }
    out[..bytes.len()].copy_from_slice(&bytes);
    [0, 0, bytes.len() as u64]
}
