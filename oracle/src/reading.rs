//! A second reading of the paper, apart from the Rust and from the harness's own judging: by a table of fields, over plain
//! numbers. It is no oracle; it finds places where paper and Rust differ, and tries the comparison itself: with `fault` k it
//! has one thing wrong, which a comparison must find.
use crate::layout::{blas, buffer, declared, entry, geometry, number_at, package, slot, tlas, Raw, Version, LIMITS, NONE, SIZES};
use crate::side::{Lent, Outputs, Side};

#[derive(Default)]
pub struct Reading {
    pub fault: u32,
}

/// How many faults there are, from 1 on; those of opened groups follow, then those of many appended instances, then those of converted
/// sheets.
pub const FAULTS: u32 = 87;

const TOP: u64 = u64::MAX;
const TOP32: u64 = u32::MAX as u64;

/// A record's fields.
struct Fields<'a> {
    widths: &'static [usize],
    bytes: &'a [u8],
}

impl Fields<'_> {
    fn get(&self, field: usize) -> u64 {
        let at: usize = self.widths[..field].iter().sum();
        number_at(self.bytes, at, self.widths[field])
    }
}

fn record_of(version: Version, section: usize, table: &[u8], i: u64) -> Fields<'_> {
    let size = version.size(section);
    let at = i as usize * size;
    Fields { widths: version.widths(section), bytes: &table[at..at + size] }
}

fn count_of(version: Version, section: usize, table: &[u8]) -> u64 {
    (table.len() / version.size(section)) as u64
}

/// Of a section that is the same in either version: all but section 6.
fn record(section: usize, table: &[u8], i: u64) -> Fields<'_> {
    assert_ne!(section, 5);
    record_of(Version::One, section, table, i)
}

fn count(section: usize, table: &[u8]) -> u64 {
    assert_ne!(section, 5);
    count_of(Version::One, section, table)
}

/// What is known of a record before a field: the Blases before it, whether its kind is boxes, the fields read so far.
struct Seen<'a> {
    blases: &'a [u8],
    boxes: bool,
    read: Vec<u64>,
}

impl Reading {
    fn is(&self, fault: u32) -> bool {
        self.fault == fault
    }

    /// Whether a field may have its value: not used, or allowed.
    fn fits(&self, section: usize, field: usize, value: u64, seen: &Seen) -> bool {
        let triangles = !seen.boxes;
        let most = |n: u64| value <= n;
        match (section + 1, field) {
            (1, buffer::MARKS) => most(if self.is(1) { 2 } else { 3 }),
            (2, blas::KIND) => most(1),
            (2, blas::FLAGS) => most(7),
            (2, blas::STATE) => most(if self.is(2) { 2 } else { 3 }),
            (2, blas::DESTROYED) => most(1),
            (3, declared::BLAS) => value < count(1, seen.blases),
            (3, _) if !triangles && !self.is(3) => true,
            (3, declared::STRIDE_ALIGNMENT) => value > 0,
            (3, declared::INDEX_FORMAT) => most(2),
            (3, declared::INDEX_PRESENT) => most(1),
            (4, tlas::FLAGS) => value == 0 || value == 2 || self.is(4) && value == 1,
            (4, tlas::DESTROYED) => most(1),
            (5, entry::KIND) => most(1),
            (6, geometry::BUFFER) => value != NONE || self.is(5),
            (6, _) if !triangles => true,
            (6, geometry::INDEX_FORMAT) => most(2),
            (6, geometry::INDEX_PRESENT) => most(1),
            (6, geometry::FIRST_PRESENT) => most(1) || seen.read[geometry::INDEX_BUFFER] == NONE && !self.is(6),
            (6, geometry::TRANSFORM_PRESENT) => most(1) || seen.read[geometry::TRANSFORM_BUFFER] == NONE,
            (8, slot::PRESENT) => most(1),
            (9, 0) => (1..=4).contains(&value) || self.is(85) && value == 5,
            _ => true,
        }
    }

    /// The fields of a record from `at` on, until one isn't whole (2) or doesn't fit (5): number and place.
    fn judge_record(
        &self,
        version: Version,
        section: usize,
        bytes: &[u8],
        mut at: usize,
        blases: &[u8],
        boxes: bool,
    ) -> Result<(), (u64, u64)> {
        let mut seen = Seen { blases, boxes, read: Vec::new() };
        for (field, &width) in version.widths(section).iter().enumerate() {
            if bytes.len() < at + width {
                return Err((2, at as u64));
            }
            let value = number_at(bytes, at, width);
            if !self.fits(section, field, value, &seen) {
                return Err((5, at as u64));
            }
            if section == 2 && field == declared::BLAS {
                seen.boxes = record(1, blases, value).get(blas::KIND) == 1;
            }
            seen.read.push(value);
            at += width;
        }
        Ok(())
    }

    /// How many records are drawn, and by what kind each.
    fn drawn(&self, section: usize, before: &[u8]) -> Vec<bool> {
        let mut kinds = Vec::new();
        for i in 0..count(section - 1, before) {
            let r = record(section - 1, before, i);
            let (n, boxes) = match section {
                5 => (r.get(entry::COUNT), r.get(entry::KIND) == 1),
                _ => (r.get(package::COUNT), false),
            };
            kinds.extend(std::iter::repeat_n(boxes, n as usize));
        }
        if self.is(7) {
            kinds.truncate(kinds.len() % 65536);
        }
        kinds
    }

    fn read(&self, sheet: &[u8]) -> Result<[u64; 23], (u64, u64)> {
        let whole =
            |at: usize, width: usize| if sheet.len() < at + width { Err((2, at as u64)) } else { Ok(number_at(sheet, at, width)) };
        let mut answer = [0; 23];
        answer[2] = whole(0, 1)?;
        let version = match answer[2] {
            1 => Version::One,
            2 if !self.is(73) => Version::Two,
            3 if self.is(72) => Version::One,
            _ => return Err((1, 0)),
        };
        if self.is(81) {
            answer[2] = 1;
        }
        answer[3] = whole(1, 4)?;
        if answer[3] == 0 {
            return Err((5, 1));
        }
        answer[4] = whole(5, 8)?;
        let mut at = 13;
        let mut tables: Vec<&[u8]> = Vec::new();
        for s in 0..9 {
            let n = whole(at, 2)? as usize;
            if n > LIMITS[s] + usize::from(self.is(8) && s == 5) {
                return Err((4, at as u64));
            }
            let kinds = if s == 5 || s == 7 { self.drawn(s, tables[s - 1]) } else { vec![false; n] };
            if kinds.len() != n {
                return Err((5, at as u64));
            }
            at += 2;
            (answer[5 + 2 * s], answer[6 + 2 * s]) = (at as u64, n as u64);
            let start = at;
            for boxes in kinds {
                self.judge_record(version, s, sheet, at, if s == 2 { tables[1] } else { &[] }, boxes)?;
                at += version.size(s);
            }
            tables.push(&sheet[start..at]);
        }
        if sheet.len() > at {
            return Err((3, at as u64 + u64::from(self.is(9))));
        }
        Ok(answer)
    }

    fn judge_table(&self, version: Version, section: usize, before: &[u8], table: &[u8]) -> Result<(), (u64, u64)> {
        let n = count_of(version, section, table);
        if n > LIMITS[section] as u64 {
            return Err((4, if self.is(10) { n } else { 0 }));
        }
        let kinds = if section == 5 || section == 7 { self.drawn(section, before) } else { vec![false; n as usize] };
        if kinds.len() as u64 != n {
            return Err((5, 0));
        }
        for (i, boxes) in kinds.into_iter().enumerate() {
            let bytes = record_of(version, section, table, i as u64).bytes;
            self.judge_record(version, section, bytes, 0, before, boxes).map_err(|_| (5, i as u64))?;
        }
        if !table.len().is_multiple_of(version.size(section)) && !(self.is(11) && section == 7) {
            return Err((5, n));
        }
        Ok(())
    }
}

// ---- building ---------------------------------------------------------------------------------------------------------

/// Number, E, figures.
type No = (u64, [u64; 2], [u64; 3]);

#[derive(Default)]
struct Plan {
    scratch_size: u64,
    blas_offsets: Vec<u64>,
    tlas_offsets: Vec<u64>,
    staging_ranges: Vec<u64>,
    instances: Vec<u8>,
    init_ranges: Vec<u64>,
    compactable: Vec<u16>,
    lists: Vec<u16>,
}

fn times(a: u64, b: u64) -> u64 {
    a.saturating_mul(b)
}

/// Both totals as one, which no answer is by; two faults are.
fn together(a: Option<u64>, b: Option<u64>) -> Option<u64> {
    a?.checked_add(b?)
}

struct Tables<'a> {
    version: Version,
    alignment: u64,
    t: [&'a [u8]; 8],
}

impl<'a> Tables<'a> {
    fn record(&self, section: usize, i: u64) -> Fields<'a> {
        record_of(self.version, section, self.t[section], i)
    }

    fn count(&self, section: usize) -> u64 {
        count_of(self.version, section, self.t[section])
    }

    /// The j-th declared geometry of a Blas.
    fn declared(&self, id: u64, j: u64) -> Option<Fields<'a>> {
        (0..self.count(2)).map(|i| self.record(2, i)).filter(|d| d.get(declared::BLAS) == id).nth(j as usize)
    }

    /// An index or transform buffer, a number behind a present byte.
    fn some(r: &Fields, present: usize) -> Option<u64> {
        (r.get(present) == 1).then(|| r.get(present + 1))
    }
}

impl Reading {
    /// By division, whatever the alignment, None where it passes 2^64 - 1; the faults are those of a mask, and of a stop one too early.
    fn rounded(&self, size: u64, alignment: u64) -> Option<u64> {
        let mask = alignment - 1;
        let power = alignment.is_power_of_two();
        if self.is(61) || self.is(62) && alignment.count_ones() == 2 {
            return Some(size.saturating_add(mask) & !mask);
        }
        if self.is(63) && power {
            return Some(size.saturating_add(mask) & !(mask >> 1));
        }
        if self.is(64) && power {
            return Some(size.wrapping_add(mask) & !mask);
        }
        let up = size.div_ceil(alignment).checked_mul(alignment);
        if self.is(12) {
            return Some(up.unwrap_or(TOP).min(TOP - 1));
        }
        up
    }

    /// A total and one size more; None from where it has passed 2^64 - 1 on.
    fn added(&self, total: Option<u64>, size: u64, alignment: u64) -> Option<u64> {
        total?.checked_add(self.rounded(size, alignment)?)
    }

    /// "reaches 2^64 - 1 or would pass it"
    fn over(&self, total: Option<u64>) -> bool {
        total.is_none() || total == Some(TOP) && !self.is(68)
    }

    /// 37, of the entries and the packages at which their total is over.
    fn broken(&self, entries: &[u64], packages: &[u64]) -> No {
        let one = |over: &[u64], last: bool| if last { over.last().copied() } else { over.first().copied() };
        let (entry, package) = (one(entries, self.is(65)), one(packages, self.is(70)));
        let (at, figure) = match (entry, package) {
            (Some(_), Some(p)) if self.is(66) => (p, 2),
            (Some(i), _) => (i, 1),
            (None, Some(p)) => (p, if self.is(67) { 1 } else { 2 }),
            // only by fault 32, whose size is neither total
            (None, None) => (0, 0),
        };
        (37, [if self.is(69) { 0 } else { at }, 0], [figure, 0, 0])
    }

    fn ids(&self, x: &Tables) -> Result<(), No> {
        let (mut g, mut s) = (0, 0);
        for i in 0..x.count(4) {
            let e = x.record(4, i);
            for j in 0..e.get(entry::COUNT) {
                let r = x.record(5, g + j);
                let outside = |field: usize, none: bool| {
                    let id = r.get(field);
                    id >= x.count(0) && !(none && id == NONE)
                };
                let optional = e.get(entry::KIND) == 0 || self.is(13);
                if outside(geometry::BUFFER, false)
                    || optional && (outside(geometry::INDEX_BUFFER, true) || outside(geometry::TRANSFORM_BUFFER, true))
                {
                    return Err((6, [i, j], [0; 3]));
                }
            }
            g += e.get(entry::COUNT);
            if e.get(entry::BLAS) >= x.count(1) {
                return Err((6, [i, 0], [0; 3]));
            }
        }
        for p in 0..x.count(6) {
            let r = x.record(6, p);
            for j in 0..r.get(package::COUNT) {
                let slot = x.record(7, s + j);
                if slot.get(slot::PRESENT) == 1 && slot.get(slot::BLAS) >= x.count(1) {
                    return Err((6, [p, j], [0; 3]));
                }
            }
            s += r.get(package::COUNT);
            if r.get(package::TLAS) >= x.count(3) {
                return Err((6, [p, 0], [0; 3]));
            }
        }
        Ok(())
    }

    /// A geometry's checks; its ranges are added to `init`.
    fn check(&self, x: &Tables, e: &Fields, j: u64, g: &Fields, init: &mut Vec<u64>) -> Result<(), (u64, [u64; 3])> {
        let no = |n: u64, f: &[u64]| {
            let mut figures = [0; 3];
            figures[..f.len()].copy_from_slice(f);
            Err((n, figures))
        };
        let b = x.record(1, e.get(entry::BLAS));
        let usable = |id: u64| {
            let marks = x.record(0, id).get(buffer::MARKS);
            if marks & 2 != 0 && !(self.is(14) && marks == 2) {
                return no(21, &[1, id]);
            }
            if marks & 1 == 0 {
                return no(22, &[1, id]);
            }
            Ok(())
        };
        let mut region = |id: u64, offset: u64, length: u64| {
            let size = x.record(0, id).get(buffer::SIZE);
            let end = if self.is(79) { offset.wrapping_add(length).into() } else { offset as u128 + length as u128 };
            if end > size as u128 {
                return no(23, &[offset, length, size]);
            }
            init.extend([id, offset, end as u64]);
            Ok(())
        };
        let given = |field: usize| g.get(field);
        if b.get(blas::KIND) != e.get(entry::KIND) {
            return no(10, &[]);
        }
        let Some(d) = x.declared(e.get(entry::BLAS), j) else { return no(11, &[]) };
        let both = |number: u64, d: u64, g: u64| if self.is(15) { no(number, &[g, d]) } else { no(number, &[d, g]) };
        if d.get(declared::FLAGS) != given(geometry::FLAGS) {
            return both(12, d.get(declared::FLAGS), given(geometry::FLAGS));
        }
        let (n, stride, first, id) =
            (given(geometry::COUNT), given(geometry::STRIDE), given(geometry::FIRST), given(geometry::BUFFER));
        let first = if self.is(74) { first & TOP32 } else { first };
        let more = n > d.get(declared::COUNT) || self.is(16) && n == d.get(declared::COUNT) && n == TOP32;
        if b.get(blas::KIND) == 1 {
            if more {
                return both(31, d.get(declared::COUNT), n);
            }
            if first % if self.is(17) { 4 } else { 8 } != 0 {
                return no(32, &[]);
            }
            if stride < if self.is(18) { 16 } else { 24 } || stride % 8 != 0 {
                return no(33, &[stride]);
            }
            usable(id)?;
            let far = self.is(80) && first > TOP32;
            if stride > TOP32 || times(n, stride) > TOP32 + u64::from(self.is(19)) || far {
                return no(26, &[times(n, stride), n, stride]);
            }
            return region(id, first, n * stride);
        }
        if more {
            return both(13, d.get(declared::COUNT), n);
        }
        if d.get(declared::VERTEX_FORMAT) != given(geometry::VERTEX_FORMAT) {
            return both(14, d.get(declared::VERTEX_FORMAT), given(geometry::VERTEX_FORMAT));
        }
        if stride < d.get(declared::LEAST_STRIDE) + u64::from(self.is(20)) {
            return no(15, &[d.get(declared::LEAST_STRIDE), stride]);
        }
        if stride % d.get(declared::STRIDE_ALIGNMENT) != 0 {
            return no(16, &[d.get(declared::STRIDE_ALIGNMENT), stride]);
        }
        let (had, has) = (Tables::some(&d, declared::INDEX_PRESENT), Tables::some(g, geometry::INDEX_PRESENT));
        if had.is_some() != has.is_some() && !(self.is(21) && had.is_none()) {
            return no(17, &[]);
        }
        if let (Some(had), Some(has)) = (had, has) {
            if has > had && !(self.is(22) && has == had + 1) {
                return both(18, had, has);
            }
        }
        let format = given(geometry::INDEX_FORMAT);
        if d.get(declared::INDEX_FORMAT) != format && !self.is(23) {
            return both(19, d.get(declared::INDEX_FORMAT), format);
        }
        if had.is_some() && given(geometry::INDEX_BUFFER) == NONE {
            return no(20, &[]);
        }
        usable(id)?;
        if self.is(82) && first > TOP32 {
            return no(26, &[times(first, stride), first, stride]);
        }
        let last = if self.is(77) { first.wrapping_add(n).into() } else { first as u128 + n as u128 };
        // past a u128 it is past every buffer
        if last.checked_mul(stride as u128).is_none_or(|end| end > x.record(0, id).get(buffer::SIZE).into()) {
            let offset = if self.is(78) { first.wrapping_mul(stride) } else { times(first, stride) };
            return no(23, &[offset, times(n, stride), x.record(0, id).get(buffer::SIZE)]);
        }
        region(id, first * stride, n * stride)?;
        let id = given(geometry::INDEX_BUFFER);
        if id != NONE {
            let from = Tables::some(g, geometry::FIRST_PRESENT);
            let (Some(from), Some(n)) = (from, has) else { return no(24, &[]) };
            usable(id)?;
            if format == 0 {
                return no(25, &[]);
            }
            let width = 2 * format;
            if from * width > TOP32 && !self.is(24) {
                return no(26, &[from * width, from, width]);
            }
            if n * width > TOP32 {
                return no(26, &[n * width, n, width]);
            }
            if !n.is_multiple_of(3) && !(self.is(25) && n == 1) {
                return no(27, &[n]);
            }
            region(id, from * width, n * width)?;
        }
        let id = given(geometry::TRANSFORM_BUFFER);
        let flagged = b.get(blas::FLAGS) & 1 == 1;
        if id == NONE {
            return if flagged && !self.is(26) { no(30, &[]) } else { Ok(()) };
        }
        if !flagged {
            return no(28, &[]);
        }
        let Some(offset) = Tables::some(g, geometry::TRANSFORM_PRESENT) else { return no(24, &[]) };
        if !self.is(27) {
            usable(id)?;
        }
        if offset > TOP32 {
            return no(26, &[offset, offset, 1]);
        }
        if offset % if self.is(28) { 8 } else { 16 } != 0 {
            return no(29, &[]);
        }
        if self.is(27) {
            usable(id)?;
        }
        region(id, offset, if self.is(29) { 47 } else { 48 })
    }

    /// The plan; `false` where nothing is recorded.
    fn plan(&self, x: &Tables) -> Result<(Plan, bool), No> {
        let mut plan = Plan::default();
        let (mut g, mut s, mut total, mut tlas_total) = (0, 0, Some(0), Some(0));
        let (mut entries_over, mut packages_over) = (Vec::new(), Vec::new());
        for i in 0..x.count(4) {
            let e = x.record(4, i);
            for j in 0..e.get(entry::COUNT) {
                self.check(x, &e, j, &x.record(5, g + j), &mut plan.init_ranges).map_err(|(n, f)| (n, [i, j], f))?;
            }
            g += e.get(entry::COUNT);
            plan.blas_offsets.push(total.unwrap_or(TOP));
            total = self.added(total, x.record(1, e.get(entry::BLAS)).get(blas::SCRATCH), x.alignment);
            if self.over(total) {
                entries_over.push(i);
            }
            plan.lists.push(e.get(entry::BLAS) as u16);
        }
        for p in 0..x.count(6) {
            let r = x.record(6, p);
            let t = x.record(3, r.get(package::TLAS));
            plan.tlas_offsets.push(tlas_total.unwrap_or(TOP));
            tlas_total = self.added(tlas_total, t.get(tlas::SCRATCH), x.alignment);
            if self.over(if self.is(71) { together(total, tlas_total) } else { tlas_total }) {
                packages_over.push(p);
            }
            let start = plan.instances.len() as u64;
            let mut list = Vec::new();
            for j in 0..r.get(package::COUNT) {
                let slot = x.record(7, s + j);
                if slot.get(slot::PRESENT) == 0 {
                    continue;
                }
                let b = x.record(1, slot.get(slot::BLAS));
                let at = if self.is(30) { list.len() as u64 } else { j };
                if let Some(n) = self.instance(&t, &b, slot.get(slot::CUSTOM_DATA)) {
                    return Err((n, [p, at], [0; 3]));
                }
                plan.instances.extend_from_slice(&self.instance_bytes(&slot.bytes[1..], b.get(blas::ADDRESS)));
                list.push(slot.get(slot::BLAS) as u16);
            }
            s += r.get(package::COUNT);
            if list.len() as u64 > t.get(tlas::MOST) && !(self.is(31) && t.get(tlas::MOST) == 0) {
                return Err((36, [p, 0], [list.len() as u64, t.get(tlas::MOST), 0]));
            }
            plan.staging_ranges.extend([start, plan.instances.len() as u64]);
            plan.lists.extend([r.get(package::TLAS) as u16, list.len() as u16]);
            plan.lists.extend(list);
        }
        let larger = total.zip(tlas_total).map(|(b, t)| b.max(t));
        let size = if self.is(32) { together(total, tlas_total) } else { larger };
        if size == Some(0) && !self.is(33) {
            return Ok((plan, false));
        }
        if self.over(size) {
            return Err(self.broken(&entries_over, &packages_over));
        }
        plan.scratch_size = size.unwrap_or(TOP);
        for p in 0..x.count(6) {
            let t = x.record(6, p).get(package::TLAS);
            if x.record(3, t).get(tlas::DESTROYED) == 1 {
                return Err((21, [p, 0], [3, t, 0]));
            }
        }
        for i in 0..x.count(4) {
            let id = x.record(4, i).get(entry::BLAS);
            let b = x.record(1, id);
            if b.get(blas::STATE) == 3 && self.is(34) {
                return Err((38, [i, 0], [0; 3]));
            }
            if b.get(blas::DESTROYED) == 1 {
                return Err((21, [i, 0], [2, id, 0]));
            }
            if b.get(blas::STATE) == 3 {
                return Err((38, [i, 0], [0; 3]));
            }
            if b.get(blas::FLAGS) & 4 != 0 && !(self.is(35) && plan.compactable.contains(&(id as u16))) {
                plan.compactable.push(id as u16);
            }
        }
        Ok((plan, true))
    }

    fn instance(&self, t: &Fields, b: &Fields, custom: u64) -> Option<u64> {
        if custom >= 1 << 24 && !(self.is(36) && custom == 1 << 24) {
            return Some(34);
        }
        (t.get(tlas::FLAGS) & 2 != 0 && b.get(blas::FLAGS) & 2 == 0).then_some(35)
    }

    /// `fields` are a slot's after its present byte.
    fn instance_bytes(&self, fields: &[u8], address: u64) -> [u8; 64] {
        let mut out = [0; 64];
        out[..48].copy_from_slice(&fields[7..55]);
        if self.is(37) {
            // a quiet NaN for a signalling one
            for k in 0..12 {
                let bits = number_at(&out, 4 * k, 4) as u32;
                if bits & 0x7f80_0000 == 0x7f80_0000 && bits & 0x7f_ffff != 0 {
                    out[4 * k..4 * k + 4].copy_from_slice(&(bits | 0x40_0000).to_le_bytes());
                }
            }
        }
        out[48..51].copy_from_slice(&fields[2..5]);
        out[51] = fields[6];
        out[56..].copy_from_slice(&address.to_le_bytes());
        out
    }

    fn build_or_refuse(&self, version: Version, alignment: u32, t: [&[u8]; 8], out: Outputs) -> Result<[u64; 15], No> {
        if alignment == 0 {
            return Err((5, [0; 2], [0; 3]));
        }
        for s in 0..8 {
            let before = if s == 0 { &[][..] } else { t[s - 1] };
            self.judge_table(version, s, before, t[s]).map_err(|(n, r)| (n, [s as u64 + 1, r], [0; 3]))?;
        }
        let x = Tables { version, alignment: alignment.into(), t };
        if self.is(38) && x.count(4) == 2 {
            self.plan(&x).err().filter(|no| no.0 == 10).map_or(Ok(()), Err)?;
        }
        self.ids(&x)?;
        let (plan, recorded) = self.plan(&x)?;
        let needs = [
            plan.blas_offsets.len(),
            plan.tlas_offsets.len(),
            plan.staging_ranges.len(),
            plan.instances.len(),
            plan.init_ranges.len(),
            plan.compactable.len(),
            plan.lists.len(),
        ];
        let lens = [
            out.blas_offsets.len(),
            out.tlas_offsets.len(),
            out.staging_ranges.len(),
            out.instances.len(),
            out.init_ranges.len(),
            out.compactable.len(),
            out.lists.len(),
        ];
        let mut answer = [0; 15];
        if !recorded {
            if needs[4] > lens[4] || self.is(39) && needs[0] > lens[0] {
                return Err((39, [0; 2], [0; 3]));
            }
            out.init_ranges[..needs[4]].copy_from_slice(&plan.init_ranges);
            answer[12] = needs[4] as u64;
            return Ok(answer);
        }
        if (0..7).any(|k| needs[k] > lens[k] && !(self.is(40) && k == 5 && lens[5] == 0)) {
            return Err((39, [0; 2], [0; 3]));
        }
        let compactable = needs[5].min(lens[5]);
        out.blas_offsets[..needs[0]].copy_from_slice(&plan.blas_offsets);
        out.tlas_offsets[..needs[1]].copy_from_slice(&plan.tlas_offsets);
        out.staging_ranges[..needs[2]].copy_from_slice(&plan.staging_ranges);
        out.instances[..needs[3]].copy_from_slice(&plan.instances);
        out.init_ranges[..needs[4]].copy_from_slice(&plan.init_ranges);
        out.compactable[..compactable].copy_from_slice(&plan.compactable[..compactable]);
        out.lists[..needs[6]].copy_from_slice(&plan.lists);
        if self.is(41) {
            // one element more than is said
            if let Some(past) = out.lists.get_mut(needs[6]) {
                *past = 0;
            }
        }
        (answer[6], answer[7]) = (1, plan.scratch_size);
        for k in 0..7 {
            answer[8 + k] = needs[k] as u64;
        }
        Ok(answer)
    }
}

// ---- submission -------------------------------------------------------------------------------------------------------

/// Number and figures.
type Cause = (u64, [u64; 2]);

/// A Build's Blases, and its Tlases with what they list.
type Lists = (Vec<u64>, Vec<(u64, Vec<u64>)>);

struct State<'a> {
    counter: u64,
    lent: Lent<'a>,
}

impl State<'_> {
    fn blases(&self) -> u64 {
        count(1, self.lent.blases)
    }

    fn tlases(&self) -> u64 {
        count(3, self.lent.tlases)
    }

    fn blas(&self, b: u64) -> Fields<'_> {
        record(1, self.lent.blases, b)
    }

    fn tlas(&self, t: u64) -> Fields<'_> {
        record(3, self.lent.tlases, t)
    }

    fn list(&self, t: u64) -> Vec<u64> {
        let n = self.lent.dependency_counts[t as usize] as usize;
        self.lent.dependencies[512 * t as usize..][..n].iter().map(|&b| b.into()).collect()
    }
}

impl Reading {
    fn judge_start(&self, s: &State) -> Result<(), Cause> {
        let bare = |n: u64| Err((n, [0; 2]));
        if let Err((n, _)) = self.judge_table(Version::One, 1, &[], s.lent.blases) {
            return bare(n);
        }
        if let Err((n, _)) = self.judge_table(Version::One, 3, &[], s.lent.tlases) {
            return bare(n);
        }
        let room = if self.is(42) { 511 } else { 512 };
        if (s.lent.dependency_counts.len() as u64) < s.tlases() || (s.lent.dependencies.len() as u64) < room * s.tlases() {
            return bare(39);
        }
        for t in 0..s.tlases() {
            let n = s.lent.dependency_counts[t as usize] as usize;
            if n > 512 {
                return bare(4);
            }
            let cells = s.lent.dependencies.get(512 * t as usize..512 * t as usize + n).unwrap_or(&[]);
            if cells.iter().any(|&b| u64::from(b) >= s.blases()) && !self.is(43) {
                return bare(6);
            }
        }
        Ok(())
    }

    /// A Build's lists, where they are all lent.
    fn lists(&self, cells: &[u16], at: u64, blases: u64, tlases: u64) -> Option<Lists> {
        let part = |at: u64, n: u64| -> Option<Vec<u64>> {
            (at + n <= cells.len() as u64).then(|| cells[at as usize..(at + n) as usize].iter().map(|&c| c.into()).collect())
        };
        let ids = part(at, blases)?;
        let mut at = at + blases;
        let mut packages = Vec::new();
        for _ in 0..tlases {
            let head = part(at, 2)?;
            packages.push((head[0], part(at + 2, head[1])?));
            at += 2 + head[1];
        }
        Some((ids, packages))
    }

    fn build_action(&self, s: &mut State, ids: &[u64], packages: &[(u64, Vec<u64>)]) -> Result<(), Cause> {
        let bare = |n: u64| Err((n, [0; 2]));
        if ids.len() > 64 || packages.len() > 32 || packages.iter().any(|p| p.1.len() > if self.is(44) { 511 } else { 512 }) {
            return bare(4);
        }
        if ids.iter().any(|&b| b >= s.blases())
            || packages.iter().any(|p| p.0 >= s.tlases() || p.1.iter().any(|&b| b >= s.blases()))
        {
            return bare(6);
        }
        let number = s.counter;
        if number == 0 && !self.is(45) {
            return bare(40);
        }
        if let Some(&b) = ids.iter().find(|&&b| s.blas(b).get(blas::STATE) == 3) {
            return Err((41, [b, 0]));
        }
        s.counter = if self.is(46) { number.saturating_add(1) } else { number.wrapping_add(1) };
        let mark = |s: &mut State| {
            for &b in ids {
                let at = b as usize * SIZES[1];
                if !self.is(47) {
                    s.lent.blases[at + 2] = 0;
                }
                s.lent.blases[at + 20..at + 28].copy_from_slice(&number.to_le_bytes());
            }
        };
        if !self.is(48) {
            mark(s);
        }
        for (t, list) in packages {
            if let Some(&b) = list.iter().find(|&&b| s.blas(b).get(blas::NUMBER) == 0) {
                let figures = if self.is(49) { [*t, b] } else { [b, *t] };
                return Err((42, figures));
            }
            let at = *t as usize * SIZES[3];
            s.lent.tlases[at + 14..at + 22].copy_from_slice(&number.to_le_bytes());
            s.lent.dependency_counts[*t as usize] = list.len() as u16;
            for (k, &b) in list.iter().enumerate() {
                s.lent.dependencies[512 * *t as usize + k] = b as u16;
            }
            if self.is(50) && list.len() < 512 {
                s.lent.dependencies[512 * *t as usize + list.len()] = 0;
            }
        }
        if self.is(48) {
            mark(s);
        }
        Ok(())
    }

    fn use_tlas(&self, s: &State, t: u64) -> Result<(), Cause> {
        if t >= s.tlases() {
            return Err((6, [0; 2]));
        }
        let number = s.tlas(t).get(tlas::NUMBER);
        if number == 0 {
            return Err((43, [t, 0]));
        }
        for b in s.list(t) {
            let r = s.blas(b);
            if r.get(blas::DESTROYED) == 1 && self.is(51) {
                return Err((21, [b, 0]));
            }
            if r.get(blas::NUMBER) == 0 {
                return Err((42, [t, b]));
            }
            if r.get(blas::NUMBER) > number || self.is(52) && r.get(blas::NUMBER) == number {
                return Err((44, [b, t]));
            }
            if r.get(blas::DESTROYED) == 1 {
                return Err((21, [b, 0]));
            }
        }
        if self.is(53) && s.tlas(t).get(tlas::DESTROYED) == 1 {
            return Err((21, [t, 0]));
        }
        Ok(())
    }

    fn act(&self, s: &mut State, cells: &[u32], lists: &[u16]) -> Result<(), Cause> {
        let &[kind, operand, blases, tlases] = cells else {
            return if self.is(54) { Ok(()) } else { Err((5, [0; 2])) };
        };
        let kind = if self.is(55) { kind & 255 } else { kind };
        let operand = if self.is(56) && kind != 1 { operand & 65535 } else { operand };
        let kind = if self.is(86) && kind == 6 { 5 } else { kind };
        match kind {
            // "a mark that names each Tlas's Blases: kind 5": "a Build of those lists"
            5 if self.is(87) => Err((5, [0; 2])),
            1 | 5 => match self.lists(lists, operand.into(), blases.into(), tlases.into()) {
                Some((mut ids, mut packages)) => {
                    if kind == 5 && self.is(83) {
                        packages.iter_mut().for_each(|p| p.1.clear());
                    }
                    if kind == 5 && self.is(84) {
                        ids.clear();
                    }
                    self.build_action(s, &ids, &packages)
                }
                None => Err((5, [0; 2])),
            },
            2 => self.use_tlas(s, operand.into()),
            3 => self.build_action(s, &[operand.into()], &[]),
            4 => self.build_action(s, &[], &[(operand.into(), Vec::new())]),
            _ => Err((5, [0; 2])),
        }
    }

    fn submit_all(&self, s: &mut State, actions: &[u32], lists: &[u16]) -> [u64; 4] {
        if let Err((n, f)) = self.judge_start(s) {
            return [n, 0, f[0], f[1]];
        }
        for (i, cells) in actions.chunks(4).enumerate() {
            if let Err((n, f)) = self.act(s, cells, lists) {
                return [n, i as u64, f[0], f[1]];
            }
        }
        [0; 4]
    }

    // ---- the text -----------------------------------------------------------------------------------------------------

    fn text(&self, sheet: &[u8]) -> String {
        let line = |word: &str, numbers: &[u64]| {
            let numbers: Vec<String> = numbers.iter().map(|n| n.to_string()).collect();
            format!("{word} {}\n", numbers.join(" "))
        };
        let read = match self.read(sheet) {
            Ok(read) => read,
            Err((number, place)) => return line("sheet", &[number, place]),
        };
        let version = if sheet[0] == 2 { Version::Two } else { Version::One };
        let section = |s: usize| &sheet[read[5 + 2 * s] as usize..][..read[6 + 2 * s] as usize * version.size(s)];
        let x = Tables { version, alignment: read[3], t: std::array::from_fn(section) };
        let (plan, recorded) = match self.ids(&x).and_then(|()| self.plan(&x)) {
            Ok(plan) => plan,
            Err((n, e, f)) => return line("build", &[n, e[0], e[1], f[0], f[1], f[2]]),
        };
        let mut out = line("build", &[0; 6]);
        if recorded {
            out += &line("scratch", &[plan.scratch_size]);
            for (i, offset) in plan.blas_offsets.iter().enumerate() {
                out += &line("blas", &[x.record(4, i as u64).get(entry::BLAS), *offset]);
            }
            for (p, offset) in plan.tlas_offsets.iter().enumerate() {
                let id = x.record(6, p as u64).get(package::TLAS);
                out += &line("tlas", &[id, *offset, plan.staging_ranges[2 * p], plan.staging_ranges[2 * p + 1]]);
            }
        }
        let (mut blases, mut tlases) = (x.t[1].to_vec(), x.t[3].to_vec());
        let (mut counts, mut cells) = (vec![0; x.count(3) as usize], vec![0; 512 * x.count(3) as usize]);
        let lent = Lent { blases: &mut blases, tlases: &mut tlases, dependency_counts: &mut counts, dependencies: &mut cells };
        let mut s = State { counter: read[4], lent };
        let mut answer = [0; 4];
        for (i, r) in section(8).chunks_exact(SIZES[8]).enumerate() {
            let (kind, operand) = (u32::from(r[0]), number_at(r, 1, 2) as u32);
            let cells = match kind {
                1 if !recorded && !self.is(57) => continue,
                1 => [1, 0, x.count(4) as u32, x.count(6) as u32],
                _ => [kind, operand, 0, 0],
            };
            if let Err((n, f)) = self.act(&mut s, &cells, &plan.lists) {
                answer = [n, i as u64, f[0], f[1]];
                break;
            }
        }
        out += &line("submit", &answer);
        out + &line("next", &[s.counter])
    }
}

impl Side for Reading {
    fn read_sheet(&mut self, sheet: &[u8]) -> [u64; 23] {
        self.read(sheet).unwrap_or_else(|(number, place)| std::array::from_fn(|k| [number, place].get(k).copied().unwrap_or(0)))
    }

    fn build(&mut self, version: Version, alignment: u32, tables: [&[u8]; 8], out: Outputs) -> [u64; 15] {
        self.build_or_refuse(version, alignment, tables, out).unwrap_or_else(|(n, e, f)| {
            let refusal = [n, e[0], e[1], f[0], f[1], f[2]];
            std::array::from_fn(|k| refusal.get(k).copied().unwrap_or(0))
        })
    }

    fn submit(&mut self, indices: &mut [u64; 2], lent: Lent, actions: &[u32], lists: &[u16]) -> [u64; 4] {
        let mut s = State { counter: indices[1], lent };
        let answer = self.submit_all(&mut s, actions, lists);
        indices[1] = s.counter;
        if self.is(58) {
            indices[0] += 1;
        }
        answer
    }

    fn append(&mut self, tlases: &[u8], blases: &[u8], t: u16, instance: &[u8; 55], instances: &mut [u8], used: u64) -> [u64; 7] {
        let no = |n: u64| [n, 0, 0, 0, 0, 0, used];
        let id = number_at(instance, 0, 2);
        if u64::from(t) >= count(3, tlases) || id >= count(1, blases) {
            return no(6);
        }
        let b = record(1, blases, id);
        if let Some(n) = self.instance(&record(3, tlases, t.into()), &b, number_at(instance, 2, 4)) {
            return no(n);
        }
        if used as u128 + 64 > instances.len() as u128 {
            return no(if self.is(59) { 34 } else { 39 });
        }
        let at = used as usize;
        instances[at..at + 64].copy_from_slice(&self.instance_bytes(instance, b.get(blas::ADDRESS)));
        [0, 0, 0, 0, 0, 0, used + 64]
    }

    fn append_many(&mut self, tlases: &[u8], blases: &[u8], t: u16, items: &[u8], instances: &mut [u8], used: u64) -> [u64; 7] {
        let fault = self.fault.saturating_sub(FAULTS + crate::groups::FAULTS);
        let call = crate::many::Call { tlas_there: u64::from(t) < count(3, tlases), items, used };
        let mut alone = |item: &[u8; 55]| {
            let mut bytes = [0; 64];
            (self.append(tlases, blases, t, item, &mut bytes, 0)[0], bytes)
        };
        crate::many::append(&call, &mut alone, instances, fault)
    }

    fn report(&mut self, sheet: &[u8], out: &mut [u8]) -> [u64; 2] {
        let text = self.text(sheet);
        if out.len() < text.len() + usize::from(self.is(60)) {
            return [39, 0];
        }
        out[..text.len()].copy_from_slice(text.as_bytes());
        [0, text.len() as u64]
    }

    fn canonical(&self, sheet: &[u8]) -> Vec<u8> {
        let mut bytes = crate::canonical::canonical(sheet);
        if self.is(75) {
            let raw = Raw::from_sheet(&bytes).expect("a sheet that is written is whole");
            bytes = Raw { version: 1, ..raw }.sheet();
        }
        if self.is(76) {
            bytes[0] = 1;
        }
        bytes
    }

    fn convert(&mut self, to: Version, sheet: &[u8], out: &mut [u8]) -> [u64; 3] {
        let fault = self.fault.saturating_sub(FAULTS + crate::groups::FAULTS + crate::many::FAULTS);
        let [number, place, ..] = self.read_sheet(sheet);
        crate::convert::convert(to, sheet, out, (number, place), fault)
    }

    fn open(&mut self, groups: &[u8], slots: &mut [u8]) -> [u64; 5] {
        crate::groups::open(groups, slots, self.fault.saturating_sub(FAULTS))
    }

    fn read_instances(&mut self, records: &[u8], blases: &[u8], items: &mut [u8]) -> [u64; 4] {
        let before = FAULTS + crate::groups::FAULTS + crate::many::FAULTS + crate::convert::FAULTS;
        crate::instances::read(records, blases, items, self.fault.saturating_sub(before))
    }
}
