//! Builds with first vertices and primitive offsets from 2^32 on, which the Rust can't be given: "above, the same checks are read over
//! whole numbers". It is driven with lower ones that the same checks pass and refuse, so that the order of the checks and all that has
//! nothing to do with them stay the Rust's; what such an offset comes to (whether its region overruns, the figures of 23, the initialisation
//! range) is read here, and the whole answer is marked as the paper's.
use published::drive::{Built, Mark, Refused};
use published::input::{Buffer, Entry, Geometry, Input};

const LIMIT: u64 = 1 << 32;
/// An id outside every table.
const OUTSIDE: u16 = 65534;

fn boxes(e: &Entry) -> bool {
    e.kind == 1
}

/// Where a geometry's data begin, and how long they are: "first vertex plus count, times stride", or from the primitive offset on.
fn region(e: &Entry, g: &Geometry) -> (u128, u128) {
    let (first, stride) = (u128::from(g.first), u128::from(g.stride));
    (if boxes(e) { first } else { first * stride }, u128::from(g.count) * stride)
}

fn overruns(e: &Entry, g: &Geometry, size: u64) -> bool {
    let (start, length) = region(e, g);
    // past a u128 it is past every buffer
    start.checked_add(length).is_none_or(|end| end > size.into())
}

/// "Products in figures stop at 2^64 - 1."
fn stopped(n: u128) -> u64 {
    n.min(u64::MAX.into()) as u64
}

/// Whether there is an offset from 2^32 on.
pub fn any(input: &Input) -> bool {
    input.entries.iter().any(|e| e.geometries.iter().any(|g| g.first >= LIMIT))
}

/// The tables with lower offsets. An offset keeps what is left of it in eights, and its region fits as it did, or overruns a copy of its
/// buffer that has no bytes.
pub fn lowered(input: &Input) -> Input {
    let mut low = input.clone();
    let there = input.buffers.len();
    let kept = |id: u16| if usize::from(id) < there { id } else { OUTSIDE };
    for (e, old) in low.entries.iter_mut().zip(&input.entries) {
        for g in &mut e.geometries {
            let buffer = input.buffers.get(usize::from(g.buffer));
            let overrun = buffer.filter(|b| g.first >= LIMIT && overruns(old, g, b.size));
            g.buffer = kept(g.buffer);
            g.index_buffer = g.index_buffer.map(kept);
            g.transform_buffer = g.transform_buffer.map(kept);
            if g.first >= LIMIT {
                g.first = 8 + g.first % 8;
            }
            if let Some(b) = overrun {
                g.buffer = low.buffers.len() as u16;
                low.buffers.push(Buffer { size: 0, marks: b.marks });
            }
        }
    }
    low
}

/// The refusal with the offsets as they are: the buffer's own number, and the figures of a region that overruns.
fn refused(input: &Input, mut r: Refused) -> Refused {
    r.mark = Mark::Paper;
    let of_a_buffer = matches!(r.number, 21 | 22) && r.f[0] == 1;
    if of_a_buffer || r.number == 23 {
        let e = &input.entries[r.e.0 as usize];
        let g = &e.geometries[r.e.1 as usize];
        // 6 comes before
        let size = input.buffers[usize::from(g.buffer)].size;
        if of_a_buffer && r.f[1] >= input.buffers.len() as u64 {
            r.f[1] = g.buffer.into();
        }
        // the data's 23 comes before those of indices and transform
        if r.number == 23 && g.first >= LIMIT && overruns(e, g, size) {
            let (start, length) = region(e, g);
            r.f = [stopped(start), stopped(length), size];
        }
    }
    r
}

/// The initialisation ranges with the offsets as they are: of each geometry its data, then its indices and its transform.
fn ranges(input: &Input, ranges: &mut [(u16, u64, u64)]) {
    let mut at = 0;
    for e in &input.entries {
        for g in &e.geometries {
            if g.first >= LIMIT {
                let (start, length) = region(e, g);
                ranges[at] = (g.buffer, stopped(start), stopped(start + length));
            }
            let given = usize::from(g.index_buffer.is_some()) + usize::from(g.transform_buffer.is_some());
            at += if boxes(e) { 1 } else { 1 + given };
        }
    }
    assert_eq!(at, ranges.len(), "a range for each buffer that is named");
}

/// The answer to the tables from the Rust's answer to the lowered ones.
pub fn raised(input: &Input, answer: Result<Built, Refused>) -> Result<Built, Refused> {
    let mut built = answer.map_err(|r| refused(input, r))?;
    ranges(input, &mut built.init_ranges);
    Ok(built)
}
