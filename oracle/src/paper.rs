//! What the paper judges and the Rust has not: the sheet (1 to 5), and a library call's tables. Field by field, with no
//! allocation, so that it is also the Rust reader that times are taken of. At the end the place of a 37, by its request.
use published::input::{Blas, Buffer, Declared, Entry, Geometry, Input, Package, Slot, Tlas};

use crate::layout::{Version, GEOMETRIES, LIMITS, SIZES};

#[derive(Clone, Copy, Debug, PartialEq, Eq)]
pub struct Refused {
    pub number: u64,
    pub place: usize,
}

type Judged<T> = Result<T, Refused>;

struct Reader<'a> {
    version: Version,
    bytes: &'a [u8],
    at: usize,
}

impl Reader<'_> {
    /// A field's bytes; 2 where it isn't whole.
    fn field<const N: usize>(&mut self) -> Judged<[u8; N]> {
        match self.bytes[self.at..].first_chunk() {
            Some(&field) => {
                self.at += N;
                Ok(field)
            }
            None => Err(Refused { number: 2, place: self.at }),
        }
    }

    fn u8(&mut self) -> Judged<u8> {
        Ok(self.field::<1>()?[0])
    }

    fn u16(&mut self) -> Judged<u16> {
        Ok(u16::from_le_bytes(self.field()?))
    }

    fn u32(&mut self) -> Judged<u32> {
        Ok(u32::from_le_bytes(self.field()?))
    }

    fn u64(&mut self) -> Judged<u64> {
        Ok(u64::from_le_bytes(self.field()?))
    }

    /// 5 at the field of `width` bytes that was just read, unless it is good.
    fn good(&self, good: bool, width: usize) -> Judged<()> {
        if good {
            Ok(())
        } else {
            Err(Refused { number: 5, place: self.at - width })
        }
    }

    /// A byte that is at most `most`, where it is used.
    fn byte(&mut self, most: u8, used: bool) -> Judged<u8> {
        let v = self.u8()?;
        self.good(!used || v <= most, 1)?;
        Ok(v)
    }

    /// A section's count: 4 above its limit, then 5 where what was drawn doesn't add up to it.
    fn count(&mut self, section: usize, drawn: Option<usize>) -> Judged<usize> {
        let n = self.u16()? as usize;
        if n > LIMITS[section] {
            return Err(Refused { number: 4, place: self.at - 2 });
        }
        self.good(drawn.is_none_or(|sum| sum == n), 2)?;
        Ok(n)
    }

    fn buffer(&mut self) -> Judged<()> {
        self.u64()?;
        self.byte(3, true)?;
        Ok(())
    }

    fn blas(&mut self) -> Judged<()> {
        self.byte(1, true)?;
        self.byte(7, true)?;
        self.byte(3, true)?;
        self.byte(1, true)?;
        self.u64()?;
        self.u64()?;
        self.u64()?;
        Ok(())
    }

    /// `blases` are the records of section 2: a box Blas leaves the vertex and index fields unused.
    fn declared(&mut self, blases: &[u8]) -> Judged<()> {
        let blas = self.u16()? as usize;
        self.good(blas < blases.len() / SIZES[1], 2)?;
        let triangles = blases[blas * SIZES[1]] == 0;
        self.u8()?;
        self.u32()?;
        self.u8()?;
        self.u16()?;
        let alignment = self.u16()?;
        self.good(!triangles || alignment != 0, 2)?;
        self.byte(2, triangles)?;
        self.byte(1, triangles)?;
        self.u32()?;
        Ok(())
    }

    fn tlas(&mut self) -> Judged<()> {
        let flags = self.u8()?;
        self.good(flags == 0 || flags == 2, 1)?;
        self.byte(1, true)?;
        self.u64()?;
        self.u32()?;
        self.u64()?;
        Ok(())
    }

    /// Hands back how many geometries it draws.
    fn entry(&mut self) -> Judged<usize> {
        self.u16()?;
        self.byte(1, true)?;
        Ok(self.u16()?.into())
    }

    /// Without an index buffer the first index is unused, its present byte with it; likewise the transform offset.
    fn geometry(&mut self, triangles: bool) -> Judged<()> {
        self.u8()?;
        self.u32()?;
        match self.version {
            Version::One => self.u32().map(u64::from),
            Version::Two => self.u64(),
        }?;
        self.u64()?;
        let buffer = self.u16()?;
        self.good(buffer != 65535, 2)?;
        self.u8()?;
        self.byte(2, triangles)?;
        let index = self.u16()? != 65535;
        self.byte(1, triangles)?;
        self.u32()?;
        self.byte(1, triangles && index)?;
        self.u32()?;
        let transform = self.u16()? != 65535;
        self.byte(1, triangles && transform)?;
        self.u64()?;
        Ok(())
    }

    /// Hands back how many slots it draws.
    fn package(&mut self) -> Judged<usize> {
        self.u16()?;
        Ok(self.u16()?.into())
    }

    fn slot(&mut self) -> Judged<()> {
        self.byte(1, true)?;
        self.u16()?;
        self.u32()?;
        self.u8()?;
        for _ in 0..12 {
            self.u32()?;
        }
        Ok(())
    }

    fn action(&mut self) -> Judged<()> {
        let kind = self.u8()?;
        self.good((1..=4).contains(&kind), 1)?;
        self.u16()?;
        Ok(())
    }
}

/// An accepted sheet: the first record's place and the number of records of each section.
#[derive(Clone, Copy, Debug)]
pub struct Places {
    pub version: Version,
    pub alignment: u32,
    pub counter: u64,
    pub sections: [(usize, usize); 9],
}

impl Places {
    pub fn section<'a>(&self, sheet: &'a [u8], section: usize) -> &'a [u8] {
        let (start, count) = self.sections[section];
        &sheet[start..start + count * self.version.size(section)]
    }

    pub fn tables<'a>(&self, sheet: &'a [u8]) -> [&'a [u8]; 8] {
        std::array::from_fn(|s| self.section(sheet, s))
    }
}

/// An entry's kind and how many geometries it draws.
fn entry_at(entries: &[u8], i: usize) -> (bool, usize) {
    let e = &entries[i * 5..i * 5 + 5];
    (e[2] == 0, u16::from_le_bytes([e[3], e[4]]).into())
}

pub fn read_sheet(bytes: &[u8]) -> Judged<Places> {
    let r = &mut Reader { version: Version::One, bytes, at: 0 };
    let version = Version::of(r.u8()?.into()).ok_or(Refused { number: 1, place: 0 })?;
    r.version = version;
    let alignment = r.u32()?;
    r.good(alignment != 0, 4)?;
    let counter = r.u64()?;
    let mut p = Places { version, alignment, counter, sections: [(0, 0); 9] };
    let mut drawn = None;
    for s in 0..9 {
        let n = r.count(s, drawn.take())?;
        p.sections[s] = (r.at, n);
        let mut sum = 0;
        match s {
            0 => (0..n).try_for_each(|_| r.buffer())?,
            1 => (0..n).try_for_each(|_| r.blas())?,
            2 => (0..n).try_for_each(|_| r.declared(p.section(bytes, 1)))?,
            3 => (0..n).try_for_each(|_| r.tlas())?,
            4 => (0..n).try_for_each(|_| r.entry().map(|k| sum += k))?,
            5 => {
                for i in 0..p.sections[4].1 {
                    let (triangles, k) = entry_at(p.section(bytes, 4), i);
                    (0..k).try_for_each(|_| r.geometry(triangles))?;
                }
            }
            6 => (0..n).try_for_each(|_| r.package().map(|k| sum += k))?,
            7 => (0..n).try_for_each(|_| r.slot())?,
            _ => (0..n).try_for_each(|_| r.action())?,
        }
        if s == 4 || s == 6 {
            drawn = Some(sum);
        }
    }
    if r.at < bytes.len() {
        return Err(Refused { number: 3, place: r.at });
    }
    Ok(p)
}

/// How many records the section before draws from this one, all told.
fn drawn_by(section: usize, before: &[u8]) -> usize {
    let size = SIZES[section - 1];
    before.chunks_exact(size).map(|r| usize::from(u16::from_le_bytes([r[size - 2], r[size - 1]]))).sum()
}

/// A lent table, after the table of the section before: number and record of its first refusal.
pub fn judge_table(version: Version, section: usize, before: &[u8], table: &[u8]) -> Result<(), (u64, u64)> {
    let size = version.size(section);
    let n = table.len() / size;
    if n > LIMITS[section] {
        return Err((4, 0));
    }
    if (section == 5 || section == 7) && drawn_by(section, before) != n {
        return Err((5, 0));
    }
    let mut kinds = (0..before.len() / 5).flat_map(|i| {
        let (triangles, k) = if section == 5 { entry_at(before, i) } else { (true, 0) };
        std::iter::repeat_n(triangles, k)
    });
    for (i, bytes) in table.chunks_exact(size).enumerate() {
        let r = &mut Reader { version, bytes, at: 0 };
        let judged = match section {
            0 => r.buffer(),
            1 => r.blas(),
            2 => r.declared(before),
            3 => r.tlas(),
            4 => r.entry().map(|_| ()),
            5 => r.geometry(kinds.next().unwrap()),
            6 => r.package().map(|_| ()),
            _ => r.slot(),
        };
        if judged.is_err() {
            return Err((5, i as u64));
        }
    }
    // bytes of a part record are a value of no field
    if table.len() % size != 0 {
        return Err((5, n as u64));
    }
    Ok(())
}

/// A library build's tables: number, section and record of the first refusal.
pub fn judge_tables(version: Version, alignment: u32, tables: [&[u8]; 8]) -> Result<(), (u64, (u64, u64))> {
    if alignment == 0 {
        return Err((5, (0, 0)));
    }
    for s in 0..8 {
        let before = if s == 0 { &[][..] } else { tables[s - 1] };
        judge_table(version, s, before, tables[s]).map_err(|(number, record)| (number, (s as u64 + 1, record)))?;
    }
    Ok(())
}

// ---- the records of judged tables --------------------------------------------------------------------------------------

fn u16_at(r: &[u8], at: usize) -> u16 {
    u16::from_le_bytes([r[at], r[at + 1]])
}

fn u32_at(r: &[u8], at: usize) -> u32 {
    u32::from_le_bytes(r[at..at + 4].try_into().unwrap())
}

fn u64_at(r: &[u8], at: usize) -> u64 {
    u64::from_le_bytes(r[at..at + 8].try_into().unwrap())
}

fn id_or_none(n: u16) -> Option<u16> {
    (n != 65535).then_some(n)
}

pub fn blas_of(r: &[u8]) -> Blas {
    Blas {
        kind: r[0],
        flags: r[1],
        state: r[2],
        destroyed: r[3],
        scratch: u64_at(r, 4),
        address: u64_at(r, 12),
        number: u64_at(r, 20),
    }
}

pub fn tlas_of(r: &[u8]) -> Tlas {
    Tlas { flags: r[0], destroyed: r[1], scratch: u64_at(r, 2), most: u32_at(r, 10), number: u64_at(r, 14) }
}

fn declared_of(r: &[u8]) -> Declared {
    Declared {
        blas: u16_at(r, 0),
        flags: r[2],
        count: u32_at(r, 3),
        vertex_format: r[7],
        least_stride: u16_at(r, 8),
        stride_alignment: u16_at(r, 10),
        index_format: r[12],
        index_count: (r[13] == 1).then_some(u32_at(r, 14)),
    }
}

fn geometry_of(version: Version, r: &[u8]) -> Geometry {
    let (first, rest) = match version {
        Version::One => (u32_at(r, 5).into(), &r[9..]),
        Version::Two => (u64_at(r, 5), &r[13..]),
    };
    Geometry {
        flags: r[0],
        count: u32_at(r, 1),
        first,
        stride: u64_at(rest, 0),
        buffer: u16_at(rest, 8),
        vertex_format: rest[10],
        index_format: rest[11],
        index_buffer: id_or_none(u16_at(rest, 12)),
        index_count: (rest[14] == 1).then_some(u32_at(rest, 15)),
        first_index: (rest[19] == 1).then_some(u32_at(rest, 20)),
        transform_buffer: id_or_none(u16_at(rest, 24)),
        transform_offset: (rest[26] == 1).then_some(u64_at(rest, 27)),
    }
}

/// A slot's fields after its present byte.
pub fn slot_of(r: &[u8]) -> Slot {
    Slot {
        blas: u16_at(r, 0),
        custom_data: u32_at(r, 2),
        mask: r[6],
        transform: std::array::from_fn(|k| f32::from_bits(u32_at(r, 7 + 4 * k))),
    }
}

/// The entries with their geometries, and the packages with their slots.
pub fn drawn(version: Version, entries: &[u8], geometries: &[u8], packages: &[u8], slots: &[u8]) -> (Vec<Entry>, Vec<Package>) {
    let mut given = geometries.chunks_exact(version.size(GEOMETRIES)).map(|r| geometry_of(version, r));
    let mut placed = slots.chunks_exact(SIZES[7]).map(|r| (r[0] == 1).then(|| slot_of(&r[1..])));
    let entry = |r: &[u8]| Entry { blas: u16_at(r, 0), kind: r[2], geometries: given.by_ref().take(u16_at(r, 3).into()).collect() };
    let package = |r: &[u8]| Package { tlas: u16_at(r, 0), slots: placed.by_ref().take(u16_at(r, 2).into()).collect() };
    (entries.chunks_exact(SIZES[4]).map(entry).collect(), packages.chunks_exact(SIZES[6]).map(package).collect())
}

pub fn input(version: Version, alignment: u32, counter: u64, tables: [&[u8]; 8]) -> Input {
    let [buffers, blases, declared, tlases, entries, geometries, packages, slots] = tables;
    let (entries, packages) = drawn(version, entries, geometries, packages, slots);
    Input {
        alignment,
        counter,
        buffers: buffers.chunks_exact(SIZES[0]).map(|r| Buffer { size: u64_at(r, 0), marks: r[8] }).collect(),
        blases: blases.chunks_exact(SIZES[1]).map(blas_of).collect(),
        declared: declared.chunks_exact(SIZES[2]).map(declared_of).collect(),
        tlases: tlases.chunks_exact(SIZES[3]).map(tlas_of).collect(),
        entries,
        packages,
    }
}

// ---- the place of a 37 -------------------------------------------------------------------------------------------------

/// 37's E and figures.
pub type ScratchPlace = ((u64, u64), [u64; 3]);

/// The first of the sizes at which the running total, each size rounded up to the alignment, "reaches 2^64 - 1 or would pass it".
fn first_over(alignment: u32, sizes: impl Iterator<Item = u64>) -> Option<u64> {
    // whole numbers, not the Rust's totals, which stop at 2^64 - 1: at most 64 sizes are far from the end of a u128
    let (alignment, mut total) = (u128::from(alignment), 0u128);
    for (i, size) in (0..).zip(sizes) {
        total += u128::from(size).div_ceil(alignment) * alignment;
        if total >= u128::from(u64::MAX) {
            return Some(i);
        }
    }
    None
}

/// Where the scratch total breaks. The Rust has no figures there: it gives a bare 37, so its number is the Rust's and its place is
/// read here, from the request's words alone: "the first entry at which the running Blas total reaches 2^64 - 1 or would pass it; if
/// the Blas total stays below, the first such package", "with the entry or package, 0, and a first figure of 1 for an entry or 2 for a
/// package". None where both totals stay below. Ids must be inside their tables.
pub fn scratch_place(input: &Input) -> Option<ScratchPlace> {
    let blas_sizes = input.entries.iter().map(|e| input.blases[usize::from(e.blas)].scratch);
    let tlas_sizes = input.packages.iter().map(|p| input.tlases[usize::from(p.tlas)].scratch);
    if let Some(entry) = first_over(input.alignment, blas_sizes) {
        return Some(((entry, 0), [1, 0, 0]));
    }
    first_over(input.alignment, tlas_sizes).map(|package| ((package, 0), [2, 0, 0]))
}
