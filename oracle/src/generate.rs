//! Random cases: tables that a build accepts, with values at their boundaries; then faults, none, one or several at once;
//! then faults of form. Every refusal has a fault that is made for it.
use crate::layout::*;
use crate::rng::Rng;
use crate::side::Case;

const TOP: u64 = u64::MAX;
const TOP32: u64 = u32::MAX as u64;

/// The tables that a build would accept, what each buffer needs, and which declared record each geometry is held against.
/// With `focus` all faults fall on the same record of each table, so that their order shows.
struct Made {
    raw: Raw,
    needs: Vec<u64>,
    held: Vec<usize>,
    focus: Option<usize>,
    /// which of a geometry's buffers a fault is about
    buffer: usize,
}

fn scratch(r: &mut Rng) -> u64 {
    let any = r.from(1, 100_000);
    r.pick(&[0, 1, 10, 255, 256, 257, 300, 1000, 4096, any, 1 << 32])
}

fn built_number(r: &mut Rng) -> u64 {
    let any = r.u64();
    r.pick(&[0, 0, 1, 3, 5, any, TOP])
}

fn blas_record(r: &mut Rng, zero: bool) -> [u64; 7] {
    let (kind, flags) = (u64::from(r.chance(35)), r.below(8));
    let state = r.pick(&[0, 0, 0, 1, 2]);
    [kind, flags, state, 0, if zero { 0 } else { scratch(r) }, r.u64(), built_number(r)]
}

fn declared_record(r: &mut Rng, id: usize, boxes: bool) -> [u64; 9] {
    let any = r.u32();
    if boxes {
        let count = r.pick(&[0, 1, 10, 1000, TOP32, 178_956_970, 178_956_971, any]);
        // the rest is unused
        let index_format = r.pick(&[0, 1, 2, 3, 200]);
        let present = r.pick(&[0, 1, 2, 255]);
        return [
            id as u64,
            r.pick(&[0, 1, 2, 3, 255]),
            count,
            r.byte(),
            r.below(65536),
            r.pick(&[0, 1, 7]),
            index_format,
            present,
            any,
        ];
    }
    let count = r.pick(&[0, 1, 3, 36, 1000, TOP32, any]);
    let format = if r.chance(80) { r.below(4) } else { r.byte() };
    let least = r.pick(&[0, 1, 6, 8, 12, 12, 16, 65535]);
    let alignment = r.pick(&[1, 2, 4, 4, 8, 12, 65535, 3]);
    let present = u64::from(r.chance(65));
    let index_format = if present == 1 { r.pick(&[1, 2]) } else { r.pick(&[0, 0, 1, 2]) };
    let any = r.u32();
    let index_count = r.pick(&[0, 3, 6, 300, TOP32 / 3 * 3, TOP32 / 2 / 3 * 3, TOP32 / 4 / 3 * 3, any]);
    [id as u64, r.pick(&[0, 1, 2, 3, 255]), count, format, least, alignment, index_format, present, index_count]
}

fn tlas_record(r: &mut Rng, zero: bool) -> [u64; 5] {
    let most = r.pick(&[1, 2, 3, 5, 16, 512, TOP32]);
    [r.pick(&[0, 0, 2]), 0, if zero { 0 } else { scratch(r) }, most, built_number(r)]
}

/// A triangle geometry within its declared one, and the end of what it needs of each of its buffers.
fn triangles(r: &mut Rng, d: &[u64], flags: u64, buffers: usize) -> ([u64; 15], Vec<(u64, u64)>) {
    let mut g = [0; 15];
    let declared_count = d[declared::COUNT];
    let less = r.from(0, declared_count);
    g[geometry::FLAGS] = d[declared::FLAGS];
    g[geometry::COUNT] = r.pick(&[declared_count, declared_count.min(3), less]);
    g[geometry::VERTEX_FORMAT] = d[declared::VERTEX_FORMAT];
    let (least, alignment) = (d[declared::LEAST_STRIDE], d[declared::STRIDE_ALIGNMENT]);
    let extra = r.pick(&[0, 0, 0, 1, 5]);
    g[geometry::STRIDE] = least.div_ceil(alignment) * alignment + alignment * extra;
    if r.chance(2) {
        g[geometry::STRIDE] = r.pick(&[1 << 32, 1 << 33, (1 << 31) - 1, 1 << 24]) / alignment * alignment;
        g[geometry::STRIDE] = g[geometry::STRIDE].max(least.div_ceil(alignment) * alignment);
    }
    let any = r.u32();
    g[geometry::FIRST] = r.pick(&[0, 0, 0, 1, 10, TOP32, any]);
    let id = r.index(buffers) as u64;
    g[geometry::BUFFER] = id;
    // what passes 2^64 - 1 can't be had: then the first geometries alone
    if (g[geometry::FIRST] + g[geometry::COUNT]).checked_mul(g[geometry::STRIDE]).is_none() {
        (g[geometry::FIRST], g[geometry::COUNT]) = (0, g[geometry::COUNT].min(3));
    }
    let mut needs = vec![(id, (g[geometry::FIRST] + g[geometry::COUNT]).saturating_mul(g[geometry::STRIDE]))];
    g[geometry::INDEX_FORMAT] = d[declared::INDEX_FORMAT];
    g[geometry::INDEX_PRESENT] = d[declared::INDEX_PRESENT];
    g[geometry::INDEX_BUFFER] = NONE;
    g[geometry::FIRST_PRESENT] = r.pick(&[0, 1, 2, 255]);
    g[geometry::FIRST_INDEX] = r.u32();
    g[geometry::INDEX_COUNT] = r.u32();
    if d[declared::INDEX_PRESENT] == 1 {
        let width = 2 * d[declared::INDEX_FORMAT];
        let most = d[declared::INDEX_COUNT].min(TOP32 / width) / 3 * 3;
        g[geometry::INDEX_COUNT] = r.pick(&[most, 0, most.min(3), most.min(6)]);
        let id = r.index(buffers) as u64;
        g[geometry::INDEX_BUFFER] = id;
        g[geometry::FIRST_PRESENT] = 1;
        g[geometry::FIRST_INDEX] = r.pick(&[0, 0, 0, 1, 7, TOP32 / width]);
        needs.push((id, (g[geometry::FIRST_INDEX] + g[geometry::INDEX_COUNT]) * width));
    }
    g[geometry::TRANSFORM_BUFFER] = NONE;
    g[geometry::TRANSFORM_PRESENT] = r.pick(&[0, 1, 2, 255]);
    g[geometry::TRANSFORM_OFFSET] = r.u64();
    if flags & 1 == 1 {
        let id = r.index(buffers) as u64;
        g[geometry::TRANSFORM_BUFFER] = id;
        g[geometry::TRANSFORM_PRESENT] = 1;
        g[geometry::TRANSFORM_OFFSET] = r.pick(&[0, 0, 16, 48, 4096, (1 << 32) - 16]);
        needs.push((id, g[geometry::TRANSFORM_OFFSET] + 48));
    }
    (g, needs)
}

fn boxes(r: &mut Rng, d: &[u64], buffers: usize) -> ([u64; 15], Vec<(u64, u64)>) {
    let mut g: [u64; 15] = std::array::from_fn(|_| r.byte());
    g[geometry::FLAGS] = d[declared::FLAGS];
    g[geometry::STRIDE] = r.pick(&[24, 24, 24, 32, 4096, 1 << 31, (1 << 32) - 8]);
    let most = d[declared::COUNT].min(TOP32 / g[geometry::STRIDE]);
    g[geometry::COUNT] = r.pick(&[most, most.min(1), most.min(10)]);
    g[geometry::FIRST] = r.pick(&[0, 0, 8, 16, 800, (1 << 32) - 8]);
    g[geometry::BUFFER] = r.index(buffers) as u64;
    g[geometry::INDEX_BUFFER] = r.pick(&[NONE, 0, 9999]);
    g[geometry::TRANSFORM_BUFFER] = r.pick(&[NONE, 0, 9999]);
    g[geometry::TRANSFORM_OFFSET] = r.u64();
    (g, vec![(g[geometry::BUFFER], g[geometry::FIRST] + g[geometry::COUNT] * g[geometry::STRIDE])])
}

/// Bit patterns of an f32: quiet and signalling NaNs of either sign, infinities, zeros, the least and the greatest.
fn pattern(r: &mut Rng) -> u64 {
    let any = r.u32();
    let payload = r.from(1, 0x3f_ffff);
    let sign = r.below(2) << 31;
    let odd = [0x7fc0_0000, 0x7f80_0001, 0x7f80_0000, 0, 1, 0x7f7f_ffff, 0x0080_0000, 0x7fc0_0000 | payload, 0x7f80_0000 | payload];
    let odd = r.pick(&odd) | sign;
    r.pick(&[0, 0x3f80_0000, any, odd, odd])
}

fn slot_record(r: &mut Rng, present: bool, id: u64) -> [u64; 16] {
    let mut s: [u64; 16] = std::array::from_fn(|_| pattern(r));
    let any = r.below(1 << 24);
    s[slot::PRESENT] = present.into();
    s[slot::BLAS] = if present { id } else { r.below(65536) };
    s[slot::CUSTOM_DATA] = if present { r.pick(&[0, 1, (1 << 24) - 1, any]) } else { r.u32() };
    s[slot::MASK] = r.byte();
    s
}

/// Any power of two and the numbers beside it, and some others.
fn alignment(r: &mut Rng) -> u64 {
    let power = 1 << r.below(32);
    r.pick(&[1, 2, 3, 6, 7, 16, 128, 256, 256, 256, 4096, 1 << 31, TOP32, power, power, (power - 1).max(1), power + 1])
}

fn make(r: &mut Rng) -> Made {
    let large = r.chance(2);
    let any = r.u64();
    let mut raw =
        Raw { version: 1, alignment: alignment(r), counter: r.pick(&[1, 1, 2, 5, 100, any, TOP, TOP - 1]), ..Raw::default() };
    let size =
        |r: &mut Rng, most: u64, limit: u64| if large { r.pick(&[most, limit - 1, limit]) } else { r.from(1, most) } as usize;
    let (buffers, blases, tlases) = (size(r, 5, 256), size(r, 5, 128), size(r, 3, 32));
    let zero = r.chance(6);
    for _ in 0..blases {
        let b = blas_record(r, zero);
        raw.push(BLASES, &b);
    }
    let declared = if large { r.pick(&[9usize, 511, 512]) } else { r.pick(&[0, blases, blases, 2 * blases, 2 * blases + 3]) };
    for i in 0..declared {
        let id = if i < blases.min(6) { i } else { r.index(blases.min(6)) };
        let d = declared_record(r, id, raw.get(BLASES, id, blas::KIND) == 1);
        raw.push(DECLARED, &d);
    }
    for _ in 0..tlases {
        let t = tlas_record(r, zero);
        raw.push(TLASES, &t);
    }
    let mut needs = vec![0; buffers];
    let mut held = Vec::new();
    let entries = if large { r.pick(&[3, 63, 64]) } else { r.pick(&[0, 1, 1, 2, 2, 3, 4]) };
    for _ in 0..entries {
        let id = r.index(blases.min(6));
        let list: Vec<usize> = (0..raw.count(DECLARED)).filter(|&d| raw.get(DECLARED, d, declared::BLAS) == id as u64).collect();
        let most = list.len().min(LIMITS[GEOMETRIES] - held.len());
        let n = if large { r.index(most.min(5) + 1) } else { r.pick(&[0, most, most, most, most, most.min(1)]).min(most) };
        let kind = raw.get(BLASES, id, blas::KIND);
        // an empty list of the other kind passes
        let kind = if n == 0 { r.below(2) } else { kind };
        for &d in &list[..n] {
            let record = raw.record(DECLARED, d).to_vec();
            let (g, ends) = match kind {
                0 => triangles(r, &record, raw.get(BLASES, id, blas::FLAGS), buffers),
                _ => boxes(r, &record, buffers),
            };
            raw.push(GEOMETRIES, &g);
            held.push(d);
            for (b, end) in ends {
                needs[b as usize] = end.max(needs[b as usize]);
            }
        }
        raw.push(ENTRIES, &[id as u64, kind, n as u64]);
    }
    for &need in &needs {
        let more = r.pick(&[0, 0, 0, 1, 1000, 1 << 40]);
        raw.push(BUFFERS, &[need.saturating_add(more), 1]);
    }
    let packages = if large { r.pick(&[2, 31, 32]) } else { r.pick(&[0, 1, 1, 1, 2, 3]) };
    for _ in 0..packages {
        let t = r.index(tlases);
        let returns = raw.get(TLASES, t, tlas::FLAGS) == 2;
        let may: Vec<u64> = (0..blases as u64).filter(|&b| !returns || raw.get(BLASES, b as usize, blas::FLAGS) & 2 != 0).collect();
        let left = (LIMITS[SLOTS] - raw.count(SLOTS)) as u64;
        let wanted = r.pick(&[0, 1, 2, 4, 16]);
        let most = raw.get(TLASES, t, tlas::MOST);
        let present = if may.is_empty() { 0 } else { r.pick(&[wanted, most.min(17)]).min(most).min(left) };
        let absent = r.pick(&[0, 0, 0, 1, 2]).min(left - present);
        let mut here: Vec<bool> = (0..present + absent).map(|i| i < present).collect();
        for i in (1..here.len()).rev() {
            let j = r.index(i + 1);
            here.swap(i, j);
        }
        for present in here {
            let id = if may.is_empty() { 0 } else { r.pick(&may) };
            let s = slot_record(r, present, id);
            raw.push(SLOTS, &s);
        }
        raw.push(PACKAGES, &[t as u64, present + absent]);
    }
    let actions = if large { r.pick(&[5, 63, 64]) } else { r.pick(&[0, 1, 2, 3, 5, 8]) };
    for i in 0..actions {
        let kind = if i == 0 && r.chance(50) { 1 } else { r.pick(&[1, 1, 2, 2, 3, 4]) };
        let operand = match kind {
            1 => r.below(65536),
            3 => r.index(blases) as u64,
            _ => r.index(tlases) as u64,
        };
        raw.push(ACTIONS, &[kind, operand]);
    }
    let focus = r.chance(50).then(|| r.index(1000));
    Made { raw, needs, held, focus, buffer: geometry::BUFFER }
}

/// The entry that draws a geometry.
fn entry_of(raw: &Raw, geometry: usize) -> usize {
    let mut drawn = 0;
    (0..raw.count(ENTRIES))
        .find(|&e| {
            drawn += raw.get(ENTRIES, e, entry::COUNT) as usize;
            geometry < drawn
        })
        .unwrap_or(0)
}

/// The geometry for a fault: one for which it is made, if there is one; with a focus the same for all faults, half of the
/// time one with a transform.
fn geometry_for(r: &mut Rng, m: &Made, kind: usize) -> usize {
    let raw = &m.raw;
    let all: Vec<usize> = (0..m.held.len()).collect();
    let given = |g: usize, f: usize| raw.get(GEOMETRIES, g, f) != NONE;
    let boxes = |g: usize| raw.get(ENTRIES, entry_of(raw, g), entry::KIND) == 1;
    let transformed = |g: usize| !boxes(g) && given(g, geometry::TRANSFORM_BUFFER);
    let apt = |&g: &usize| match (m.focus, kind) {
        (Some(focus), _) => focus % 2 == 0 || transformed(g),
        (_, 5..=8) => !boxes(g),
        (_, 10..=14 | 18 | 21..=24) => !boxes(g) && given(g, geometry::INDEX_BUFFER),
        (_, 15 | 19 | 26) => transformed(g),
        (_, 9 | 27 | 28) => boxes(g),
        _ => true,
    };
    let may: Vec<usize> = all.iter().copied().filter(apt).collect();
    let may = if may.is_empty() { all } else { may };
    may[m.focus.unwrap_or_else(|| r.index(1 << 20)) / 2 % may.len()]
}

/// How many kinds of fault there are.
const FAULTS: usize = 53;

/// One fault, where its place can be found; for each refusal of a build at least one kind of them.
fn fault(r: &mut Rng, m: &mut Made, kind: usize) {
    let raw = &mut m.raw;
    if kind >= 33 {
        return table_fault(r, raw, kind, m.focus);
    }
    if m.held.is_empty() || raw.count(GEOMETRIES) != m.held.len() {
        return;
    }
    let g = geometry_for(r, m, kind);
    let raw = &mut m.raw;
    let (d, e) = (m.held[g], entry_of(raw, g));
    let b = raw.get(ENTRIES, e, entry::BLAS) as usize;
    if b >= raw.count(BLASES) {
        return;
    }
    let is_box = raw.get(ENTRIES, e, entry::KIND) == 1;
    let get = |raw: &Raw, f: usize| raw.get(GEOMETRIES, g, f);
    let field = if is_box { geometry::BUFFER } else { m.buffer };
    let buffer_id = get(raw, field) as usize;
    match kind {
        0 => raw.set(ENTRIES, e, entry::KIND, u64::from(!is_box)),
        1 => {
            let copy = raw.record(GEOMETRIES, g).to_vec();
            let drawn = (0..=e).map(|i| raw.get(ENTRIES, i, entry::COUNT) as usize).sum::<usize>();
            let last = drawn.min(m.held.len());
            raw.insert(GEOMETRIES, last, &copy);
            raw.set(ENTRIES, e, entry::COUNT, raw.get(ENTRIES, e, entry::COUNT) + 1);
            m.held.insert(last, d);
        }
        2 => {
            let flags = get(raw, geometry::FLAGS) ^ 1 << r.below(8);
            raw.set(GEOMETRIES, g, geometry::FLAGS, flags);
        }
        3 => raw.set(GEOMETRIES, g, geometry::COUNT, (raw.get(DECLARED, d, declared::COUNT) + 1).min(TOP32)),
        4 => raw.set(DECLARED, d, declared::COUNT, get(raw, geometry::COUNT).saturating_sub(1)),
        5 => raw.set(GEOMETRIES, g, geometry::VERTEX_FORMAT, get(raw, geometry::VERTEX_FORMAT) ^ 1),
        6 => raw.set(GEOMETRIES, g, geometry::STRIDE, raw.get(DECLARED, d, declared::LEAST_STRIDE).saturating_sub(1)),
        7 => raw.set(DECLARED, d, declared::LEAST_STRIDE, (get(raw, geometry::STRIDE) + r.below(2)).min(65535)),
        8 => {
            let delta = r.pick(&[1, 2, 4]);
            raw.set(GEOMETRIES, g, geometry::STRIDE, get(raw, geometry::STRIDE).wrapping_add(delta));
        }
        9 => {
            let stride = r.pick(&[0, 8, 16, 23, 24, 25, 28, 32, TOP32 - 7, 1 << 32, (1 << 32) + 8, 1 << 63, TOP - 7, TOP]);
            raw.set(GEOMETRIES, g, geometry::STRIDE, stride);
        }
        10 => raw.set(GEOMETRIES, g, geometry::INDEX_PRESENT, get(raw, geometry::INDEX_PRESENT) ^ 1),
        11 => raw.set(DECLARED, d, declared::INDEX_PRESENT, raw.get(DECLARED, d, declared::INDEX_PRESENT) ^ 1),
        12 => {
            let more = r.pick(&[1, 3]);
            raw.set(GEOMETRIES, g, geometry::INDEX_COUNT, (raw.get(DECLARED, d, declared::INDEX_COUNT) + more).min(TOP32));
        }
        13 => {
            let format = r.below(3);
            raw.set(GEOMETRIES, g, geometry::INDEX_FORMAT, format);
        }
        14 => raw.set(GEOMETRIES, g, geometry::INDEX_BUFFER, NONE),
        15 => raw.set(GEOMETRIES, g, geometry::TRANSFORM_BUFFER, NONE),
        16 if buffer_id < raw.count(BUFFERS) => {
            let marks = r.pick(&[0, 2, 3]);
            if r.chance(50) && raw.count(BUFFERS) < LIMITS[BUFFERS] {
                // a copy that nothing else uses, or the check of another use would come first
                let mut copy = raw.record(BUFFERS, buffer_id).to_vec();
                copy[buffer::MARKS] = marks;
                raw.set(GEOMETRIES, g, field, raw.count(BUFFERS) as u64);
                raw.push(BUFFERS, &copy);
            } else {
                raw.set(BUFFERS, buffer_id, buffer::MARKS, marks);
            }
        }
        17 if buffer_id < raw.count(BUFFERS) => {
            let less = r.pick(&[1, 1, 2, 47, 48, 1000]);
            raw.set(BUFFERS, buffer_id, buffer::SIZE, m.needs[buffer_id.min(m.needs.len() - 1)].saturating_sub(less));
        }
        18 => raw.set(GEOMETRIES, g, geometry::FIRST_PRESENT, 0),
        19 => raw.set(GEOMETRIES, g, geometry::TRANSFORM_PRESENT, 0),
        20 => {
            raw.set(GEOMETRIES, g, geometry::INDEX_PRESENT, 0);
            raw.set(DECLARED, d, declared::INDEX_PRESENT, 0);
            raw.set(GEOMETRIES, g, geometry::INDEX_BUFFER, get(raw, geometry::BUFFER));
            raw.set(GEOMETRIES, g, geometry::FIRST_PRESENT, r.below(2));
        }
        21 => {
            raw.set(GEOMETRIES, g, geometry::INDEX_FORMAT, 0);
            raw.set(DECLARED, d, declared::INDEX_FORMAT, 0);
        }
        22 => {
            let width = (2 * get(raw, geometry::INDEX_FORMAT)).max(1);
            let index = r.pick(&[TOP32 / width, TOP32 / width + 1, 1 << 31, 1 << 30, TOP32]);
            raw.set(GEOMETRIES, g, geometry::FIRST_INDEX, index);
        }
        23 => {
            let width = (2 * get(raw, geometry::INDEX_FORMAT)).max(1);
            let n = r.pick(&[TOP32 / width, TOP32 / width + 1, TOP32, (TOP32 / width).saturating_sub(1)]);
            raw.set(GEOMETRIES, g, geometry::INDEX_COUNT, n);
            raw.set(DECLARED, d, declared::INDEX_COUNT, TOP32);
        }
        24 => {
            let n = get(raw, geometry::INDEX_COUNT);
            let n = r.pick(&[n.saturating_sub(1), n.saturating_sub(2), 1, 2, 4]);
            raw.set(GEOMETRIES, g, geometry::INDEX_COUNT, n);
        }
        25 => raw.set(BLASES, b, blas::FLAGS, raw.get(BLASES, b, blas::FLAGS) ^ 1),
        26 => {
            let offset = r.pick(&[1, 8, 8, 15, 17, 24, 32, TOP32, 1 << 32, (1 << 32) + 16, TOP, 0]);
            raw.set(GEOMETRIES, g, geometry::TRANSFORM_OFFSET, offset);
        }
        27 => {
            let first = r.pick(&[1, 4, 7, 12, TOP32, TOP32 - 3]);
            raw.set(GEOMETRIES, g, geometry::FIRST, first);
        }
        28 => {
            let stride = get(raw, geometry::STRIDE).max(1);
            let n =
                r.pick(&[178_956_970, 178_956_971, TOP32, TOP32 / stride, (1 << 32) / stride, (1 << 32) / stride + 1]).min(TOP32);
            raw.set(GEOMETRIES, g, geometry::COUNT, n);
            raw.set(DECLARED, d, declared::COUNT, TOP32);
        }
        29 => {
            let id = r.pick(&[raw.count(BUFFERS) as u64, raw.count(BUFFERS) as u64 + 1, 65534, 65535]);
            raw.set(GEOMETRIES, g, field, id);
        }
        // sizes at the boundary of the vertices' region
        30 => {
            raw.set(GEOMETRIES, g, geometry::COUNT, r.pick(&[0, 1, TOP32]));
            raw.set(GEOMETRIES, g, geometry::FIRST, r.pick(&[0, 1, TOP32]));
        }
        31 => {
            let garbage = r.byte();
            raw.set(GEOMETRIES, g, r.index(15), garbage);
        }
        32 => {
            let garbage = r.byte();
            raw.set(DECLARED, d, r.index(9), garbage);
        }
        _ => {}
    }
}

/// The first values that a judged field may not have, and its last that it may: section, field.
const JUDGED: [(usize, usize); 19] = [
    (BUFFERS, buffer::MARKS),
    (BLASES, blas::KIND),
    (BLASES, blas::FLAGS),
    (BLASES, blas::STATE),
    (BLASES, blas::DESTROYED),
    (DECLARED, declared::BLAS),
    (DECLARED, declared::STRIDE_ALIGNMENT),
    (DECLARED, declared::INDEX_FORMAT),
    (DECLARED, declared::INDEX_PRESENT),
    (TLASES, tlas::FLAGS),
    (TLASES, tlas::DESTROYED),
    (ENTRIES, entry::KIND),
    (GEOMETRIES, geometry::BUFFER),
    (GEOMETRIES, geometry::INDEX_FORMAT),
    (GEOMETRIES, geometry::INDEX_PRESENT),
    (GEOMETRIES, geometry::FIRST_PRESENT),
    (GEOMETRIES, geometry::TRANSFORM_PRESENT),
    (SLOTS, slot::PRESENT),
    (ACTIONS, 0),
];

/// A field of some record, if there is one.
fn set_any(at: usize, raw: &mut Raw, section: usize, field: usize, value: u64) {
    if raw.count(section) > 0 {
        raw.set(section, at % raw.count(section), field, value);
    }
}

fn table_fault(r: &mut Rng, raw: &mut Raw, kind: usize, focus: Option<usize>) {
    let at = focus.unwrap_or_else(|| r.index(1 << 20));
    match kind {
        33 => {
            let v = r.pick(&[1 << 24, (1 << 24) + 1, TOP32, (1 << 24) - 1]);
            set_any(at, raw, SLOTS, slot::CUSTOM_DATA, v);
        }
        34 => set_any(at, raw, TLASES, tlas::FLAGS, 2),
        35 => {
            let v = r.below(8);
            set_any(at, raw, BLASES, blas::FLAGS, v);
        }
        36 => {
            let v = r.below(4);
            set_any(at, raw, TLASES, tlas::MOST, v);
        }
        37 | 38 => {
            let a = raw.alignment;
            let big = [TOP, TOP - 1, TOP - 255, TOP - 256, 1 << 63, (1 << 63) - 1, TOP - a + 1, TOP - a, TOP - 2, r.u64()];
            let v = r.pick(&big);
            let (section, field) = r.pick(&[(BLASES, blas::SCRATCH), (TLASES, tlas::SCRATCH)]);
            set_any(at, raw, section, field, v);
        }
        39 => set_any(at, raw, BLASES, blas::STATE, 3),
        40 => set_any(at, raw, BLASES, blas::DESTROYED, 1),
        41 => set_any(at, raw, TLASES, tlas::DESTROYED, 1),
        42 => {
            let n = raw.count(BLASES) as u64;
            let v = r.pick(&[n, n + 1, 65535]);
            let section = r.pick(&[ENTRIES, SLOTS]);
            let field = if section == ENTRIES { entry::BLAS } else { slot::BLAS };
            set_any(at, raw, section, field, v);
        }
        43 => {
            let n = raw.count(TLASES) as u64;
            let v = r.pick(&[n, n + 1, 65535]);
            set_any(at, raw, PACKAGES, package::TLAS, v);
        }
        44 => {
            let n = raw.count(BLASES).max(raw.count(TLASES)) as u64;
            let v = r.pick(&[n, 65535, n.saturating_sub(1)]);
            set_any(at, raw, ACTIONS, 1, v);
        }
        45 | 46 => {
            let (section, field) = r.pick(&JUDGED);
            let v = r.pick(&[0, 1, 2, 3, 4, 5, 7, 8, 255, 65534, 65535]);
            set_any(at, raw, section, field, v);
        }
        // what is drawn doesn't add up
        47 => {
            let v = r.pick(&[0, 1, 2, 3, 65535]);
            set_any(at, raw, ENTRIES, entry::COUNT, v);
        }
        48 => {
            let v = r.pick(&[0, 1, 2, 3, 65535]);
            set_any(at, raw, PACKAGES, package::COUNT, v);
        }
        49 => {
            let (section, field) = r.pick(&[(ENTRIES, entry::COUNT), (PACKAGES, package::COUNT)]);
            if raw.count(section) >= 2 {
                // 65536 too many
                let sum: u64 = (2..raw.count(section)).map(|i| raw.get(section, i, field)).sum();
                let drawn = raw.count(section + 1) as u64;
                raw.set(section, 0, field, 65535);
                raw.set(section, 1, field, (drawn + 1).saturating_sub(sum));
            }
        }
        // all scratch 0, or none
        50 => {
            for i in 0..raw.count(BLASES) {
                raw.set(BLASES, i, blas::SCRATCH, 0);
            }
            for i in 0..raw.count(TLASES) {
                raw.set(TLASES, i, tlas::SCRATCH, 0);
            }
        }
        51 => {
            raw.alignment = r.pick(&[0, 1, 7, TOP32]);
            raw.counter = r.pick(&[0, 0, TOP]);
        }
        _ => totals(r, raw),
    }
}

/// The entries or the packages, whose sizes are added up: the section with the sizes and the sizes' field, and what the list draws.
struct Summed {
    list: usize,
    sized: usize,
    size: usize,
    drawn: usize,
}

const SUMMED: [Summed; 2] = [
    Summed { list: ENTRIES, sized: BLASES, size: blas::SCRATCH, drawn: GEOMETRIES },
    Summed { list: PACKAGES, sized: TLASES, size: tlas::SCRATCH, drawn: SLOTS },
];

/// A total of 2^64 - 2, 2^64 - 1 or 2^64: of the entries, of the packages, or of both. Mostly at an alignment that divides it, since totals
/// are multiples of the alignment.
fn totals(r: &mut Rng, raw: &mut Raw) {
    let (below, top) = (u128::from(TOP) - 1, u128::from(TOP));
    let any = |r: &mut Rng| Some(r.pick(&[below, top, top + 1]));
    let ends = match r.below(4) {
        0 => [any(r), None],
        1 => [None, any(r)],
        // a package's, though the entries' are as near as they can be
        2 => [Some(below), any(r)],
        _ => [any(r), any(r)],
    };
    if r.chance(80) {
        let divided = ends[r.index(2)].or(ends[0]).unwrap_or(top);
        let power = 1 << r.below(32);
        raw.alignment = match divided {
            d if d < top => r.pick(&[1, 1, 2, 7, 14, 49, 73, 127, 337, 92737]),
            d if d == top => r.pick(&[1, 1, 3, 5, 15, 17, 255, 257, 65535, 65537, TOP32]),
            _ => r.pick(&[1, 2, 256, power, power]),
        };
    }
    for (s, end) in SUMMED.iter().zip(ends) {
        if let Some(end) = end {
            total(r, raw, s, end);
        }
    }
}

/// Lengthens a list, or makes it anew, so that its running total comes to `end`, or as near as it can, at one that is picked: the first,
/// a middle or the last one of those that are new. Each has a record of its own, so that its size is free.
fn total(r: &mut Rng, raw: &mut Raw, s: &Summed, end: u128) {
    if r.chance(60) {
        raw.sections[s.list].clear();
        raw.sections[s.drawn].clear();
    }
    let left = |raw: &Raw, section: usize| LIMITS[section].saturating_sub(raw.count(section));
    let n = r.pick(&[1, 2, 3, 3, 4, 6]).min(left(raw, s.list)).min(left(raw, s.sized));
    if n == 0 {
        return;
    }
    let add = |r: &mut Rng, raw: &mut Raw, size: u64| {
        let id = raw.count(s.sized) as u64;
        let mut record = if s.sized == BLASES { blas_record(r, true).to_vec() } else { tlas_record(r, true).to_vec() };
        record[s.size] = size;
        raw.push(s.sized, &record);
        let listed = if s.list == ENTRIES { vec![id, r.below(2), 0] } else { vec![id, 0] };
        raw.push(s.list, &listed);
    };
    if r.chance(20) {
        // one size, as often as it is listed
        add(r, raw, (end / n as u128).min(TOP.into()) as u64);
        for _ in 1..n {
            let again = raw.record(s.list, raw.count(s.list) - 1).to_vec();
            raw.push(s.list, &again);
        }
        return;
    }
    let alignment = u128::from(raw.alignment.max(1));
    let (reached, zeros) = (r.pick(&[0, n / 2, n - 1]), r.chance(30));
    for i in 0..n {
        let ids: Vec<usize> = (0..raw.count(s.list)).map(|k| raw.get(s.list, k, 0) as usize).collect();
        let sizes = ids.iter().filter(|&&id| id < raw.count(s.sized)).map(|&id| raw.get(s.sized, id, s.size));
        let left = end.saturating_sub(sizes.map(|size| u128::from(size).next_multiple_of(alignment)).sum());
        let size = if i == reached {
            let multiple = if r.chance(50) { left / alignment * alignment } else { left.next_multiple_of(alignment) };
            // rounded to it
            multiple.saturating_sub(r.pick(&[0, 0, 1, alignment - 1]).min(alignment - 1))
        } else if i > reached {
            r.pick(&[0, 0, 1, 300, TOP.into()])
        } else if zeros {
            0
        } else {
            let any = u128::from(r.u64()).min(left);
            r.pick(&[0, 1, alignment, left / 2, left / 2, any])
        };
        add(r, raw, size.min(TOP.into()) as u64);
    }
}

/// Kinds of fault in the order in which a build would find them. Those of a buffer stand three times, for the data, the
/// index and the transform buffer.
const IN_ORDER: [usize; 49] = [
    51, 45, 47, 48, 46, 29, 42, 43, 0, 1, 2, 3, 4, 5, 6, 7, 8, 10, 11, 12, 13, 14, 16, 17, 20, 18, 16, 21, 22, 23, 24, 17, 25, 19,
    16, 26, 17, 15, 27, 9, 28, 33, 34, 36, 37, 52, 41, 40, 39,
];

/// Faults that stand next to each other in that order, on the same records.
fn neighbours(r: &mut Rng, m: &mut Made) {
    m.focus = Some(r.index(1000));
    let mut i = r.index(IN_ORDER.len());
    for _ in 0..r.pick(&[2, 2, 3]) {
        m.buffer = match i {
            0..24 => geometry::BUFFER,
            24..32 => geometry::INDEX_BUFFER,
            32..38 => geometry::TRANSFORM_BUFFER,
            _ => geometry::BUFFER,
        };
        fault(r, m, IN_ORDER[i]);
        i = (i + 1 + r.index(3)).min(IN_ORDER.len() - 1);
    }
}

/// Tables, mostly ones that are accepted or refused for one thing.
fn tables(r: &mut Rng) -> Raw {
    let mut m = make(r);
    if r.chance(25) {
        neighbours(r, &mut m);
        return m.raw;
    }
    let n = r.pick(&[0, 0, 0, 1, 1, 1, 1, 1, 2, 6]);
    for _ in 0..n {
        // those of a geometry twice as often
        let kind = r.index(FAULTS + 33) % FAULTS;
        m.buffer = r.pick(&[geometry::BUFFER, geometry::INDEX_BUFFER, geometry::TRANSFORM_BUFFER]);
        fault(r, &mut m, kind);
    }
    m.raw
}

/// Tables of which one has as many records as it may, or one more.
fn at_the_limit(r: &mut Rng) -> Raw {
    let mut raw = tables(r);
    let section = r.index(9);
    let n = LIMITS[section] + r.index(2);
    let mut record = match raw.count(section) {
        0 => vec![0; WIDTHS[section].len()],
        k => raw.record(section, r.index(k)).to_vec(),
    };
    match section {
        ENTRIES => record[entry::COUNT] = 0,
        PACKAGES => record[package::COUNT] = 0,
        ACTIONS if record[0] == 0 => record[0] = 1,
        DECLARED => record[declared::STRIDE_ALIGNMENT] = record[declared::STRIDE_ALIGNMENT].max(1),
        _ => {}
    }
    let more = n.saturating_sub(raw.count(section));
    let last = match section {
        GEOMETRIES => raw.count(ENTRIES).checked_sub(1).map(|e| (ENTRIES, e, entry::COUNT)),
        SLOTS => raw.count(PACKAGES).checked_sub(1).map(|p| (PACKAGES, p, package::COUNT)),
        _ => None,
    };
    if let Some((s, i, f)) = last {
        raw.set(s, i, f, raw.get(s, i, f) + more as u64);
    }
    for _ in 0..more {
        raw.push(section, &record);
    }
    raw
}

/// Bytes of a sheet with a fault of form.
fn spoil(r: &mut Rng, raw: &Raw) -> Vec<u8> {
    let mut bytes = raw.sheet();
    match r.below(6) {
        0 => bytes.truncate(r.index(bytes.len() + 1)),
        1 => {
            for _ in 0..r.pick(&[1, 1, 2, 9]) {
                bytes.push(r.byte() as u8);
            }
        }
        2 => {
            let i = r.index(bytes.len());
            bytes[i] = r.byte() as u8;
        }
        3 => {
            let i = r.index(bytes.len());
            bytes[i] ^= 1 << r.below(8);
        }
        // a count
        4 => {
            let s = r.index(9);
            let at = raw.place(s);
            let n = raw.count(s) as u64;
            let n = r.pick(&[0, 1, n + 1, n.saturating_sub(1), LIMITS[s] as u64, LIMITS[s] as u64 + 1, 65535]);
            bytes[at..at + 2].copy_from_slice(&(n as u16).to_le_bytes());
        }
        _ => {
            for _ in 0..r.pick(&[1, 3, 8]) {
                let i = r.index(bytes.len());
                bytes[i] = {
                    let any = r.byte() as u8;
                    r.pick(&[0, 1, 2, 255, any])
                };
            }
            if r.chance(30) {
                bytes.truncate(r.index(bytes.len() + 1));
            }
        }
    }
    if r.chance(2) && !bytes.is_empty() {
        bytes[0] = r.byte() as u8;
    }
    bytes
}

/// Where a geometry's data end; and the last offset with which they end at 2^64 - 1 or before, of boxes in eights.
fn end_and_last(raw: &Raw, g: usize) -> (u128, u64) {
    let get = |field: usize| u128::from(raw.get(GEOMETRIES, g, field));
    let (first, count, stride) = (get(geometry::FIRST), get(geometry::COUNT), get(geometry::STRIDE));
    let top = u128::from(TOP);
    if boxes_at(raw, g) {
        (first + count * stride, top.saturating_sub(count * stride) as u64 & !7)
    } else {
        ((first + count).saturating_mul(stride), (top / stride.max(1)).saturating_sub(count) as u64)
    }
}

fn boxes_at(raw: &Raw, g: usize) -> bool {
    raw.count(ENTRIES) > 0 && raw.get(ENTRIES, entry_of(raw, g), entry::KIND) == 1
}

/// An offset from 2^32 on or just below it, and a buffer that mostly has what it needs, to the byte.
fn lift(r: &mut Rng, raw: &mut Raw, g: usize) {
    let (old, any, (_, last)) = (raw.get(GEOMETRIES, g, geometry::FIRST), r.u64(), end_and_last(raw, g));
    let near = [1 << 32, 1 << 32, (1 << 32) + 8, TOP32, old.wrapping_add(1 << 32), old | 1 << 32];
    let far = [1 << 33, 1 << 40, 1 << 63, any, any >> 20, TOP, TOP - 7, last, last, last.saturating_add(1), last.saturating_add(8)];
    let first = if r.chance(50) { r.pick(&near) } else { r.pick(&far) };
    let first = if boxes_at(raw, g) && r.chance(85) { first & !7 } else { first };
    let cut = {
        raw.set(GEOMETRIES, g, geometry::FIRST, first & TOP32);
        end_and_last(raw, g).0
    };
    raw.set(GEOMETRIES, g, geometry::FIRST, first);
    let id = raw.get(GEOMETRIES, g, geometry::BUFFER) as usize;
    if id >= raw.count(BUFFERS) {
        return;
    }
    let (size, need) = (u128::from(raw.get(BUFFERS, id, buffer::SIZE)), end_and_last(raw, g).0);
    let size = match r.below(20) {
        0..13 => size.max(need),
        13..15 => need.saturating_sub(1),
        15 => u128::from(TOP),
        // what an offset that is cut to 32 bits would need
        16..18 => cut,
        _ => size,
    };
    raw.set(BUFFERS, id, buffer::SIZE, size.min(TOP.into()) as u64);
}

/// The same as version 2; in half of them one geometry or all have offsets from 2^32 on.
fn widened(r: &mut Rng, mut raw: Raw) -> Raw {
    raw.version = 2;
    let n = raw.count(GEOMETRIES);
    if n > 0 && r.chance(50) {
        let (one, all) = (r.index(n), r.chance(30));
        (0..n).filter(|&g| all || g == one).for_each(|g| lift(r, &mut raw, g));
    }
    raw
}

fn sheet_of(r: &mut Rng, raw: &Raw) -> Case {
    let bytes = if r.chance(20) { spoil(r, raw) } else { raw.sheet() };
    Case::Sheet { bytes, room: r.pick(&[0, 0, 0, 1, 7, 100, -1, -1, -3, -1000]) }
}

/// In version 1 and, drawn after it, in version 2, there with another version byte or none too.
fn sheet(r: &mut Rng) -> Vec<Case> {
    let raw = if r.chance(3) { at_the_limit(r) } else { tables(r) };
    let narrow = sheet_of(r, &raw);
    let wide = widened(r, raw);
    let mut wide = sheet_of(r, &wide);
    if let Case::Sheet { bytes, .. } = &mut wide {
        let any = r.byte() as u8;
        match bytes.first_mut() {
            Some(version) if r.chance(3) => *version = r.pick(&[0, 1, 1, 3, 3, 4, 255, any]),
            Some(_) if r.below(500) == 0 => bytes.clear(),
            _ => {}
        }
    }
    vec![narrow, wide]
}

/// How many elements of each output tables like these need, if they are accepted.
pub fn rooms(raw: &Raw) -> [usize; 7] {
    let count = |s: usize, ok: &dyn Fn(usize) -> bool| (0..raw.count(s)).filter(|&i| ok(i)).count();
    let present = count(SLOTS, &|s| raw.get(SLOTS, s, slot::PRESENT) == 1);
    let compactable = count(ENTRIES, &|e| {
        let b = raw.get(ENTRIES, e, entry::BLAS) as usize;
        b < raw.count(BLASES) && raw.get(BLASES, b, blas::FLAGS) & 4 != 0
    });
    let mut ranges = 0;
    for g in 0..raw.count(GEOMETRIES) {
        let boxes = boxes_at(raw, g);
        let given = |f: usize| usize::from(!boxes && raw.get(GEOMETRIES, g, f) != NONE);
        ranges += 1 + given(geometry::INDEX_BUFFER) + given(geometry::TRANSFORM_BUFFER);
    }
    let (entries, packages) = (raw.count(ENTRIES), raw.count(PACKAGES));
    [entries, packages, 2 * packages, 64 * present, 3 * ranges, compactable, entries + 2 * packages + present]
}

/// With geometries of version 1 and, drawn after it, of version 2.
fn build(r: &mut Rng) -> Vec<Case> {
    let raw = if r.chance(3) { at_the_limit(r) } else { tables(r) };
    let narrow = build_of(r, &raw);
    let wide = widened(r, raw);
    vec![narrow, build_of(r, &wide)]
}

fn build_of(r: &mut Rng, raw: &Raw) -> Case {
    let version = raw.laid_out();
    let mut rooms = rooms(raw);
    match r.below(10) {
        0 | 1 => {
            let k = r.index(7);
            let less = r.pick(&[1, 1, 2, rooms[k]]);
            rooms[k] = rooms[k].saturating_sub(less);
        }
        2 => rooms.iter_mut().for_each(|n| *n += r.index(5)),
        3 => rooms[..4].fill(0),
        _ => {}
    }
    let mut tables = raw.tables();
    if r.chance(3) {
        // a part record
        let s = r.index(8);
        let n = r.from(1, version.size(s) as u64 - 1);
        for _ in 0..n {
            tables[s].push(r.byte() as u8);
        }
    }
    if r.chance(5) {
        let s = r.index(8);
        if !tables[s].is_empty() {
            let i = r.index(tables[s].len());
            tables[s][i] = r.byte() as u8;
        }
    }
    if r.chance(1) {
        let s = r.index(8);
        let n = r.index(tables[s].len() + 1);
        tables[s].truncate(n);
    }
    Case::Build { version, alignment: raw.alignment as u32, tables, rooms }
}

// ---- submissions ------------------------------------------------------------------------------------------------------

fn id(r: &mut Rng, n: usize) -> u16 {
    if n == 0 || r.below(400) == 0 {
        return r.pick(&[n as u16, 65535]);
    }
    r.index(n) as u16
}

fn ids(r: &mut Rng, blases: usize, n: u64) -> Vec<u16> {
    (0..n).map(|_| id(r, blases)).collect()
}

/// An action's four cells; a Build's lists are added to the piece's.
fn action(r: &mut Rng, blases: usize, tlases: usize, lists: &mut Vec<u16>) -> [u32; 4] {
    let unread = [r.u32() as u32, r.u32() as u32];
    match r.below(100) {
        0..36 => {
            // between lists cells that no action reads
            for _ in 0..r.pick(&[0, 0, 0, 1, 3]) {
                lists.push(r.below(65536) as u16);
            }
            let at = lists.len();
            let one = id(r, blases);
            let mut built = {
                let n = r.pick(&[0, 1, 1, 2, 3]);
                ids(r, blases, n)
            };
            if r.chance(1) {
                built = vec![one; r.pick(&[63, 64, 65])];
            }
            lists.extend_from_slice(&built);
            let mut n = r.pick(&[0, 1, 1, 2]);
            let t = id(r, tlases);
            let many = r.chance(1);
            if many {
                n = r.pick(&[31, 32, 33]);
            }
            for _ in 0..n {
                let mut list = {
                    let n = r.pick(&[0, 1, 2, 3]);
                    ids(r, blases, n)
                };
                if r.chance(1) && !many {
                    list = vec![one; r.pick(&[511, 512, 513])];
                }
                lists.extend([if many { t } else { id(r, tlases) }, list.len() as u16]);
                lists.extend_from_slice(&list);
            }
            [1, at as u32, built.len() as u32, n as u32]
        }
        36..70 => [2, id(r, tlases).into(), unread[0], unread[1]],
        70..84 => [3, id(r, blases).into(), unread[0], unread[1]],
        84..98 => [4, id(r, tlases).into(), unread[0], unread[1]],
        98 => [r.pick(&[0, 5, 6, 255, 256, 257, 258, 259, 260, 65537, u32::MAX]), id(r, tlases).into(), 0, 0],
        _ => [r.pick(&[2, 3, 4]), 65536 + u32::from(id(r, tlases.min(blases))), 0, 0],
    }
}

fn piece(r: &mut Rng, blases: usize, tlases: usize) -> (Vec<u32>, Vec<u16>) {
    let (mut actions, mut lists) = (Vec::new(), Vec::new());
    let n = if r.chance(1) { 300 } else { r.pick(&[0, 1, 2, 3, 5, 9, 40]) };
    for _ in 0..n {
        let cells = action(r, blases, tlases, &mut lists);
        actions.extend(cells);
    }
    match r.below(40) {
        // a list cut
        0 => {
            let n = lists.len().saturating_sub(r.pick(&[1, 1, 2, 5]));
            lists.truncate(n);
        }
        // part of an action
        1 => {
            let n = actions.len().saturating_sub(r.pick(&[1, 2, 3]));
            actions.truncate(n);
        }
        // another cell
        2 if !actions.is_empty() => {
            let i = r.index(actions.len());
            let near = actions[i].wrapping_add(1);
            let end = lists.len() as u32;
            actions[i] = r.pick(&[0, 1, 2, near, end, end + 1, 65536, u32::MAX]);
        }
        3 if !lists.is_empty() => {
            let i = r.index(lists.len());
            let near = lists[i].wrapping_add(1);
            lists[i] = r.pick(&[0, 1, near, 512, 513, 65535]);
        }
        // an empty Build at the end of the lists, and one past it
        4 => actions.extend([1, lists.len() as u32 + r.below(2) as u32, 0, 0]),
        _ => {}
    }
    (actions, lists)
}

fn submission(r: &mut Rng) -> Case {
    let blases = if r.chance(2) { r.pick(&[127, 128, 129]) } else { r.pick(&[0, 1, 2, 2, 3, 3, 4, 4, 6, 6]) };
    let tlases = if r.chance(2) { r.pick(&[31, 32, 33]) } else { r.pick(&[0, 1, 1, 1, 2, 2, 2, 3, 3, 3]) };
    let any = r.u64();
    let counter = r.pick(&[0, 1, 1, 1, 1, 5, 5, 5, 5, 5, 7, 7, 7, 10, 10, 10, TOP, TOP - 1, TOP - 2, any]);
    let mut raw = Raw::default();
    let number = |r: &mut Rng| {
        let any = r.u64();
        r.pick(&[0, 0, 0, 1, 2, 4, 5, 6, TOP, any])
    };
    for _ in 0..blases {
        let (state, destroyed) = (if r.chance(8) { r.pick(&[1, 2, 3]) } else { 0 }, u64::from(r.chance(8)));
        let b = [r.below(2), r.below(8), state, destroyed, r.u64(), r.u64(), number(r)];
        raw.push(BLASES, &b);
    }
    for _ in 0..tlases {
        let t = [r.pick(&[0, 2]), u64::from(r.chance(20)), r.u64(), r.u32(), number(r)];
        raw.push(TLASES, &t);
    }
    if r.chance(3) {
        let (section, field) = r.pick(&JUDGED[1..5]);
        if raw.count(section) > 0 {
            let i = r.index(raw.count(section));
            let v = r.pick(&[2, 4, 8, 255]);
            raw.set(section, i, field, v);
        }
    }
    if r.chance(3) && raw.count(TLASES) > 0 {
        let i = r.index(raw.count(TLASES));
        let (field, v) = (r.index(2), r.pick(&[1, 3, 255]));
        raw.set(TLASES, i, field, v);
    }
    let mut dependency_counts: Vec<u16> = (0..tlases).map(|_| if blases == 0 { 0 } else { r.pick(&[0, 0, 1, 2, 3]) }).collect();
    // cells past a list hold anything
    let mut dependencies: Vec<u16> = (0..512 * tlases).map(|_| r.below(65536) as u16).collect();
    for t in 0..tlases {
        for k in 0..usize::from(dependency_counts[t]) {
            dependencies[512 * t + k] = id(r, blases);
        }
    }
    if r.chance(3) && tlases > 0 {
        let (t, one) = (r.index(tlases), id(r, blases));
        dependency_counts[t] = r.pick(&[511, 512, 513]);
        dependencies[512 * t..512 * t + 512].fill(one);
    }
    match r.below(30) {
        0 => {
            dependencies.truncate((512 * tlases).saturating_sub(r.pick(&[1, 512])));
        }
        1 => {
            dependency_counts.truncate(tlases.saturating_sub(1));
        }
        2 => dependencies.extend([1, 2, 3]),
        3 => dependency_counts.push(9),
        _ => {}
    }
    let (mut blas_table, mut tlas_table) = (raw.table(BLASES), raw.table(TLASES));
    match r.below(60) {
        0 => blas_table.push(1),
        1 => tlas_table.push(1),
        _ => {}
    }
    let mut pieces: Vec<_> = (0..r.pick(&[1, 1, 2, 3, 4])).map(|_| piece(r, blases, tlases)).collect();
    let any = r.u64();
    let indices = [r.pick(&[0, 7, any]), counter];
    // last, so that the rest stays as it was: of the Builds some as marks that name each Tlas's Blases
    for kind in pieces.iter_mut().flat_map(|(actions, _)| actions.iter_mut().step_by(4)) {
        if *kind == 1 && r.chance(40) {
            *kind = 5;
        }
    }
    Case::Submit { indices, blases: blas_table, tlases: tlas_table, dependency_counts, dependencies, pieces }
}

fn append(r: &mut Rng) -> Case {
    let (blases, tlases) = (r.from(0, 3), r.from(0, 2));
    let mut raw = Raw::default();
    for _ in 0..blases {
        // the tables' other fields are not judged
        let b: [u64; 7] = std::array::from_fn(|_| r.u64());
        raw.push(BLASES, &b);
    }
    for _ in 0..tlases {
        let t: [u64; 5] = std::array::from_fn(|_| r.u64());
        raw.push(TLASES, &t);
    }
    let b = id(r, blases as usize);
    let mut s = slot_record(r, true, b.into());
    if r.chance(15) {
        s[slot::CUSTOM_DATA] = r.pick(&[1 << 24, (1 << 24) + 1, TOP32]);
    }
    let mut one = Raw::default();
    one.push(SLOTS, &s);
    let instance = one.table(SLOTS)[1..].try_into().unwrap();
    let used = r.pick(&[0, 0, 64, 128, 1, 63]);
    let room = (used + r.pick(&[64, 64, 65, 100, 63, 0])) as usize;
    let used = if r.chance(4) { r.pick(&[TOP, TOP - 63, TOP - 64, 1 << 63, room as u64 + 1]) } else { used };
    let (mut blas_table, mut tlas_table) = (raw.table(BLASES), raw.table(TLASES));
    if r.chance(5) {
        let n = blas_table.len().saturating_sub(1);
        blas_table.truncate(n);
    }
    if r.chance(5) {
        let n = tlas_table.len().saturating_sub(1);
        tlas_table.truncate(n);
    }
    Case::Append { tlases: tlas_table, blases: blas_table, tlas: id(r, tlases as usize), instance, room, used }
}

/// An instance to append, good for the Tlas where one of the Blases is.
fn instance(r: &mut Rng, good: &[u64]) -> [u64; 16] {
    let id = if good.is_empty() { 0 } else { r.pick(good) };
    slot_record(r, true, id)
}

/// One or two of an instance's refusals; `bad` are the Blases that don't return vertices where the Tlas does.
fn spoil_instance(r: &mut Rng, s: &mut [u64; 16], blases: u64, bad: &[u64]) {
    let (outside, custom) = (r.pick(&[blases, blases + 1, 65535]), r.pick(&[1 << 24, (1 << 24) + 1, 1 << 31, TOP32]));
    let other = if bad.is_empty() { s[slot::BLAS] } else { r.pick(bad) };
    match r.below(8) {
        0..2 => s[slot::BLAS] = outside,
        2..4 => s[slot::CUSTOM_DATA] = custom,
        4..6 => s[slot::BLAS] = other,
        6 => (s[slot::BLAS], s[slot::CUSTOM_DATA]) = (outside, custom),
        _ => (s[slot::BLAS], s[slot::CUSTOM_DATA]) = (other, custom),
    }
}

fn many(r: &mut Rng) -> Case {
    let any = r.from(100, 300);
    let blases = if r.chance(3) { 0 } else { r.pick(&[1, 2, 2, 3, 3, 4, 4, any]) };
    let tlases = if r.chance(3) { 0 } else { r.from(1, 3) };
    let mut raw = Raw::default();
    for _ in 0..blases {
        // the tables' other fields are not judged; more Blases return vertices than not
        let mut b: [u64; 7] = std::array::from_fn(|_| r.u64());
        b[blas::FLAGS] |= r.pick(&[0, 2]);
        raw.push(BLASES, &b);
    }
    for _ in 0..tlases {
        let t: [u64; 5] = std::array::from_fn(|_| r.u64());
        raw.push(TLASES, &t);
    }
    let tlas = if tlases == 0 || r.chance(5) { r.pick(&[tlases, tlases + 1, 65535]) } else { r.below(tlases) };
    let returns = tlas < tlases && raw.get(TLASES, tlas as usize, tlas::FLAGS) & 2 != 0;
    let (good, bad): (Vec<u64>, Vec<u64>) =
        (0..blases).partition(|&b| !returns || raw.get(BLASES, b as usize, blas::FLAGS) & 2 != 0);
    let (few, more) = (r.from(1, 12), r.from(13, 600));
    let n = if r.chance(3) { r.pick(&[more, more, 512, 600]) } else { r.pick(&[0, 0, 1, 2, few, few, few, few, few, few]) };
    let mut slots: Vec<[u64; 16]> = (0..n).map(|_| instance(r, &good)).collect();
    if n > 0 && r.chance(35) {
        for _ in 0..r.pick(&[1, 1, 2, 3]) {
            // the last is a boundary
            let k = if r.chance(20) { slots.len() - 1 } else { r.index(slots.len()) };
            spoil_instance(r, &mut slots[k], blases, &bad);
        }
    }
    let mut all = Raw::default();
    slots.iter().for_each(|s| all.push(SLOTS, s));
    // without their present bytes
    let mut items: Vec<u8> = all.table(SLOTS).chunks_exact(SIZES[SLOTS]).flat_map(|s| s[1..].to_vec()).collect();
    if r.chance(10) {
        let part = r.from(1, 54);
        let part = r.pick(&[1, 54, part, part]);
        items.extend((0..part).map(|_| r.byte() as u8).collect::<Vec<u8>>());
    }
    let needed = 64 * n;
    let used = r.pick(&[0, 0, 64, 128, 1, 63, 1000]);
    let lent = r.pick(&[needed, needed, needed, needed, needed, needed + 1, needed + 64, needed + 100]);
    let less = r.pick(&[1, 1, 63, 64, 65, needed / 2, needed]);
    let room = used + if r.chance(15) { lent.min(needed).saturating_sub(less) } else { lent };
    // past the room; and ends about 2^64, which are in the room where they wrap
    let wrapped = needed.wrapping_neg();
    let far = [room + 1, room + 64, TOP, TOP - 63, 1 << 63, wrapped, wrapped.wrapping_sub(1), wrapped.wrapping_add(room)];
    let used = if r.chance(8) { r.pick(&far) } else { used };
    let (mut blas_table, mut tlas_table) = (raw.table(BLASES), raw.table(TLASES));
    if r.chance(4) {
        blas_table.pop();
    }
    if r.chance(4) {
        tlas_table.pop();
    }
    Case::Many { tlases: tlas_table, blases: blas_table, tlas: tlas as u16, items, room: room as usize, used }
}

/// An item of a group: the bytes of a slot, or the number of a group.
enum Item {
    Slot([u8; 55]),
    Named(u64),
}

fn slot_item(r: &mut Rng) -> Item {
    let mut one = Raw::default();
    let id = r.below(65536);
    one.push(SLOTS, &slot_record(r, true, id));
    Item::Slot(one.table(SLOTS)[1..].try_into().unwrap())
}

/// How many slots a group opens to, `counts` being those of the groups before it; no more than 2^32 are told.
fn opened(items: &[Item], counts: &[u64]) -> u64 {
    items.iter().map(|i| if let Item::Named(g) = i { counts.get(*g as usize).copied().unwrap_or(0) } else { 1 }).sum::<u64>().min(1 << 32)
}

/// A group in turn: slots and groups before it.
fn group(r: &mut Rng, earlier: u64) -> Vec<Item> {
    let many = r.from(5, 40);
    let n = r.pick(&[1, 1, 2, 2, 3, 4, many]);
    (0..n).map(|_| if earlier > 0 && r.chance(60) { Item::Named(r.below(earlier)) } else { slot_item(r) }).collect()
}

/// A last group that opens to about as many slots as there may be.
fn filled(r: &mut Rng, counts: &[u64]) -> Vec<Item> {
    let (mut items, mut left) = (Vec::new(), r.pick(&[511, 512, 512, 513, 513, 514, 1000]));
    while left > 0 && items.len() < 300 {
        let fits: Vec<usize> = (0..counts.len()).filter(|&g| counts[g] <= left).collect();
        let most = fits.iter().copied().max_by_key(|&g| counts[g]);
        match most {
            Some(g) if counts[g] > 1 || r.chance(50) => {
                let g = if r.chance(80) { g } else { r.pick(&fits) };
                left -= counts[g];
                items.push(Item::Named(g as u64));
            }
            _ => {
                left -= 1;
                items.push(slot_item(r));
            }
        }
    }
    for i in (1..items.len()).rev() {
        items.swap(i, r.index(i + 1));
    }
    items
}

fn group_bytes(items: &[Item], count: u64, out: &mut Vec<u8>) {
    put_number(out, count, 2);
    for item in items {
        match item {
            Item::Slot(fields) => out.extend([&[1], &fields[..]].concat()),
            Item::Named(g) => {
                out.push(2);
                put_number(out, *g, 2);
            }
        }
    }
}

fn groups(r: &mut Rng) -> Case {
    let few = r.from(1, 6);
    let n = r.pick(&[few, few, few, few, 63, 64]);
    let (mut all, mut counts): (Vec<Vec<Item>>, Vec<u64>) = (Vec::new(), Vec::new());
    let doubled = r.chance(10);
    for g in 0..n {
        let items = match g {
            1.. if doubled => vec![Item::Named(g - 1), Item::Named(g - 1)],
            1.. if g == n - 1 && r.chance(40) => filled(r, &counts),
            _ => group(r, g),
        };
        let items = if items.is_empty() { vec![slot_item(r)] } else { items };
        counts.push(opened(&items, &counts));
        all.push(items);
    }
    let (mut count, mut item_counts) = (n, all.iter().map(|items| items.len() as u64).collect::<Vec<u64>>());
    // a name or a count that is another
    if r.chance(15) {
        let (g, named) = (r.index(all.len()), r.pick(&[0, 1, n - 1, n, 63, 64, 255, 65535]));
        let named = if r.chance(50) { g as u64 } else { named };
        let i = r.index(all[g].len());
        all[g][i] = Item::Named(named);
    }
    if r.chance(4) {
        count = r.pick(&[0, 1, n + 1, 64, 65, 256, 65535]);
    }
    if r.chance(4) {
        let g = r.index(all.len());
        item_counts[g] = r.pick(&[0, 1, item_counts[g] + 1, 256, 65535]);
    }
    let mut bytes = Vec::new();
    put_number(&mut bytes, count, 2);
    for (items, n) in all.iter().zip(&item_counts) {
        group_bytes(items, *n, &mut bytes);
    }
    match r.below(100) {
        0..6 => bytes.truncate(r.index(bytes.len())),
        6..9 => bytes.extend((0..r.from(1, 4)).map(|_| r.byte() as u8).collect::<Vec<u8>>()),
        9..16 => {
            let i = r.index(bytes.len());
            let any = r.byte() as u8;
            bytes[i] = r.pick(&[0, 1, 2, 3, 255, any]);
        }
        _ => {}
    }
    let needed = counts.last().map_or(0, |n| n * SIZES[SLOTS] as u64);
    let less = needed.saturating_sub(1);
    let room = r.pick(&[needed, needed, needed, needed + 1, needed + 300, less, needed / 2, 0]);
    Case::Groups { bytes, room: room.min(40_000) as usize }
}

/// Bit patterns of an f32 of every class and either sign: zeros, subnormal and normal ones, infinities, quiet and signalling NaNs.
fn number_bits(r: &mut Rng) -> u64 {
    let (part, any) = (r.from(1, 0x3f_ffff), r.u32());
    let subnormal = r.pick(&[1, 0x3f_ffff, 0x40_0000, 0x7f_ffff, part]);
    let normal = r.pick(&[0x80_0000, 0x3f80_0000, 0x7f7f_ffff, any]);
    let signalling = 0x7f80_0000 | r.pick(&[1, 0x3f_ffff, part, part]);
    let quiet = 0x7fc0_0000 | r.pick(&[0, 0x3f_ffff, part, part]);
    r.pick(&[0, subnormal, normal, 0x7f80_0000, signalling, quiet]) | r.below(2) << 31
}

/// An index of a table, about the places at which ids or an index of the table may end, or any.
fn about(r: &mut Rng, n: usize) -> usize {
    let (place, any) = (r.pick(&[0, 127, 128, 255, 256, 65535, 65536, 65536, n]).min(n - 1), r.index(n));
    r.pick(&[place, place, place, any, any])
}

/// Addresses, mostly all different: at random, or such that an index or a part of their bytes may take one for another.
fn addresses(r: &mut Rng, n: usize) -> Vec<u64> {
    let (any, odd) = (r.u64(), r.u64() | 1);
    let near = [1, 8, 127, 128, 129, 255, 256, 257, 257, 4096, 65535, 65536, 65537, 256 * 257];
    let step = if r.chance(60) { r.pick(&near) } else { r.pick(&[TOP32, 1 << 32, (1 << 32) + 1, 1 << 40, 1 << 56, odd]) };
    let base = r.pick(&[0, 1, TOP, any, any & !0xff]);
    let mut all: Vec<u64> = match r.below(10) {
        0..3 => (0..n).map(|_| r.u64()).collect(),
        // the halves of all come to the same
        3 => (0..n as u64).map(|k| (k ^ any >> 32) << 32 | k).collect(),
        _ => (0..n as u64).map(|k| base.wrapping_add(step.wrapping_mul(k))).collect(),
    };
    if r.chance(50) {
        for i in (1..n).rev() {
            let j = r.index(i + 1);
            all.swap(i, j);
        }
    }
    for edge in [0, TOP] {
        if n > 0 && r.chance(20) {
            let i = about(r, n);
            all[i] = edge;
        }
    }
    // one twice or more: side by side, or about
    if n > 1 && r.chance(40) {
        for _ in 0..r.pick(&[1, 1, 2, 3]) {
            let (i, j) = (about(r, n), about(r, n));
            let j = if r.chance(30) { (i + 1) % n } else { j };
            let third = about(r, n);
            all[j] = all[i];
            if r.chance(40) {
                all[third] = all[i];
            }
        }
    }
    all
}

/// A Blas with an address; nothing else of it is judged.
fn blas_with(r: &mut Rng, address: u64) -> [u64; 7] {
    let mut b: [u64; 7] = std::array::from_fn(|_| r.u64());
    if r.chance(60) {
        (b[blas::KIND], b[blas::STATE], b[blas::DESTROYED]) = (r.below(2), r.below(4), r.below(2));
    }
    // numbers that a Blas may be taken by as well
    if r.chance(10) {
        (b[blas::SCRATCH], b[blas::NUMBER]) = (address.wrapping_add(1), address.wrapping_add(2));
    }
    b[blas::ADDRESS] = address;
    b
}

/// What a record holds: twelve numbers, custom data with the mask, the u32 that is 0, and an address.
struct Held {
    numbers: [u64; 12],
    packed: u64,
    word: u64,
    address: u64,
}

impl Held {
    fn bytes(&self) -> Vec<u8> {
        let mut out = Vec::new();
        self.numbers.iter().chain([&self.packed, &self.word]).for_each(|v| put_number(&mut out, *v, 4));
        put_number(&mut out, self.address, 8);
        out
    }
}

fn held(r: &mut Rng, address: u64) -> Held {
    let numbers = std::array::from_fn(|_| number_bits(r));
    let (any, mask) = (r.u32(), r.byte());
    let packed = r.pick(&[0, (1 << 24) - 1, 1 << 24, TOP32, 1 << 31, mask << 24 | 1 << 23, any, any, any]);
    Held { numbers, packed, word: 0, address }
}

/// A word that is not 0, an address of no Blas or of several, or both; `left` is the address of a part record.
fn spoil_held(r: &mut Rng, h: &mut Held, all: &[u64], several: &[u64], left: u64) {
    let (bit, any, mine) = (r.below(32), r.u64(), h.address);
    let word = r.pick(&[1, 255, 256, 1 << 23, 1 << 24, 1 << 31, TOP32, 1 << bit]);
    let (high, low) = (r.from(1, TOP32) << 32, r.from(1, TOP32));
    let near = [mine ^ high, mine ^ low, mine ^ 1 << bit, mine.wrapping_add(1), mine.wrapping_add(2), mine.swap_bytes()];
    let none = [any, 0, TOP, left, left, r.pick(&near), r.pick(&near), r.pick(&near)];
    let address = match several {
        [_, ..] if r.chance(50) => r.pick(several),
        // from where no Blas has an id
        _ if all.len() > 1 << 16 && r.chance(70) => r.pick(&all[1 << 16..]),
        _ => r.pick(&none),
    };
    match r.below(10) {
        0..3 if all.len() < 1 << 16 => h.word = word,
        0..8 => h.address = address,
        _ => (h.word, h.address) = (word, address),
    }
}

/// Records of instances and the Blases to find theirs among; rarely more of them than have an id.
fn instances(r: &mut Rng) -> Case {
    let (few, some, more) = (r.from(1, 12), r.from(13, 126), r.from(130, 400));
    let far = r.below(80) == 0;
    let n = match r.below(100) {
        _ if far => r.pick(&[65536, 65537, 65537, 65538, 65600]),
        0..4 => 0,
        4..60 => few,
        60..80 => some,
        80..92 => r.pick(&[127, 128, 128, 129]),
        _ => r.pick(&[255, 256, 257, more, more]),
    } as usize;
    let mut all = addresses(r, n);
    // one below and one above
    if n > 1 << 16 && r.chance(50) {
        let (i, j) = (about(r, 1 << 16), (1 << 16) + r.index(n - (1 << 16)));
        all[j] = all[i];
    }
    let mut blases = Raw::default();
    for &address in &all {
        let b = blas_with(r, address);
        blases.push(BLASES, &b);
    }
    let mut table = blases.table(BLASES);
    // a part record, mostly with the whole of an address
    let any = r.u64();
    let left = if n > 0 && r.chance(50) { all[r.index(n)] } else { any };
    if r.chance(15) {
        let (mut part, b) = (Raw::default(), blas_with(r, left));
        part.push(BLASES, &b);
        let some = r.index(28);
        table.extend_from_slice(&part.table(BLASES)[..r.pick(&[1, 19, 20, 20, 27, 27, some])]);
    }
    let mut sorted: Vec<(u64, usize)> = all.iter().copied().zip(0..).collect();
    sorted.sort_unstable();
    let groups: Vec<&[(u64, usize)]> = sorted.chunk_by(|a, b| a.0 == b.0).collect();
    let once: Vec<u64> = groups.iter().filter(|g| g.len() == 1 && g[0].1 < 1 << 16).map(|g| g[0].0).collect();
    let several: Vec<u64> = groups.iter().filter(|g| g.len() > 1).map(|g| g[0].0).collect();
    let (little, much) = (r.from(1, 12), r.from(13, 600));
    let count = match r.below(100) {
        0..5 => 0,
        5..20 => 1,
        96.. if !far => r.pick(&[much, much, 512]),
        _ => little,
    };
    let mut records: Vec<Held> = (0..count)
        .map(|_| {
            // one that stands once, if there is one, about the same places
            let place = if n > 0 { all[about(r, n)] } else { 0 };
            let address = if once.is_empty() || once.binary_search(&place).is_ok() { place } else { r.pick(&once) };
            held(r, address)
        })
        .collect();
    if !records.is_empty() && r.chance(if far { 75 } else { 40 }) {
        for _ in 0..r.pick(&[1, 1, 2, 3]) {
            // the last is a boundary
            let k = if r.chance(20) { records.len() - 1 } else { r.index(records.len()) };
            spoil_held(r, &mut records[k], &all, &several, left);
        }
    }
    let mut records: Vec<u8> = records.iter().flat_map(Held::bytes).collect();
    if r.chance(10) {
        let some = r.from(1, 63);
        let part = r.pick(&[1, 32, 55, 56, 63, some]);
        records.extend((0..part).map(|_| r.byte() as u8).collect::<Vec<u8>>());
    }
    let needed = records.len() / 64 * 55;
    let less = r.pick(&[1, 1, 54, 55, 56, needed / 2, needed]);
    let room = if r.chance(20) { needed.saturating_sub(less) } else { needed + r.pick(&[0, 0, 0, 0, 1, 54, 55, 300]) };
    Case::Instances { blases: table, records, room }
}

/// Case `index` of a seed; a sheet or a build is followed by the same in version 2, and appended instances and groups, drawn after
/// them, by records of instances.
pub fn cases(seed: u64, index: u64) -> Vec<Case> {
    let r = &mut Rng::new(seed, index);
    match r.below(100) {
        0..40 => sheet(r),
        40..68 => build(r),
        68..70 => vec![many(r), instances(r)],
        70..95 => vec![submission(r)],
        95..98 => vec![append(r), instances(r)],
        _ => vec![groups(r), instances(r)],
    }
}

/// The first of them: a sheet or a build of version 1.
pub fn case(seed: u64, index: u64) -> Case {
    cases(seed, index).swap_remove(0)
}
