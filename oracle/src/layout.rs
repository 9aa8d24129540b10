//! The sheet's sections as lists of fields, and a sheet or a build's tables as plain numbers in those fields.

/// Of a sheet, or of a build's tables.
#[derive(Clone, Copy, Debug, PartialEq, Eq)]
pub enum Version {
    One,
    Two,
}

impl Version {
    /// None: "neither 1 nor 2".
    pub fn of(byte: u64) -> Option<Version> {
        match byte {
            1 => Some(Version::One),
            2 => Some(Version::Two),
            _ => None,
        }
    }

    pub fn number(self) -> u64 {
        match self {
            Version::One => 1,
            Version::Two => 2,
        }
    }

    pub fn other(self) -> Version {
        match self {
            Version::One => Version::Two,
            Version::Two => Version::One,
        }
    }

    /// "version 2 of the sheet has the primitive offset as u64, all else the same, and the shared geometry record widens with it".
    pub fn widths(self, section: usize) -> &'static [usize] {
        match (self, section) {
            (Version::Two, GEOMETRIES) => &[1, 4, 8, 8, 2, 1, 1, 2, 1, 4, 1, 4, 2, 1, 8],
            _ => WIDTHS[section],
        }
    }

    pub fn size(self, section: usize) -> usize {
        match (self, section) {
            (Version::Two, GEOMETRIES) => 48,
            _ => SIZES[section],
        }
    }
}

pub const SECTIONS: [&str; 9] = ["buffer", "blas", "declared", "tlas", "entry", "geometry", "package", "slot", "action"];
pub const LIMITS: [usize; 9] = [256, 128, 512, 32, 64, 256, 32, 512, 64];
/// Sizes and widths of version 1, and but for a geometry's of version 2.
pub const SIZES: [usize; 9] = [9, 28, 18, 22, 5, 44, 4, 56, 3];
pub const WIDTHS: [&[usize]; 9] = [
    &[8, 1],
    &[1, 1, 1, 1, 8, 8, 8],
    &[2, 1, 4, 1, 2, 2, 1, 1, 4],
    &[1, 1, 8, 4, 8],
    &[2, 1, 2],
    &[1, 4, 4, 8, 2, 1, 1, 2, 1, 4, 1, 4, 2, 1, 8],
    &[2, 2],
    &[1, 2, 4, 1, 4, 4, 4, 4, 4, 4, 4, 4, 4, 4, 4, 4],
    &[1, 2],
];
pub const NONE: u64 = 65535;

pub const BUFFERS: usize = 0;
pub const BLASES: usize = 1;
pub const DECLARED: usize = 2;
pub const TLASES: usize = 3;
pub const ENTRIES: usize = 4;
pub const GEOMETRIES: usize = 5;
pub const PACKAGES: usize = 6;
pub const SLOTS: usize = 7;
pub const ACTIONS: usize = 8;

/// Fields by their place in the record.
pub mod buffer {
    pub const SIZE: usize = 0;
    pub const MARKS: usize = 1;
}
pub mod blas {
    pub const KIND: usize = 0;
    pub const FLAGS: usize = 1;
    pub const STATE: usize = 2;
    pub const DESTROYED: usize = 3;
    pub const SCRATCH: usize = 4;
    pub const ADDRESS: usize = 5;
    pub const NUMBER: usize = 6;
}
pub mod declared {
    pub const BLAS: usize = 0;
    pub const FLAGS: usize = 1;
    pub const COUNT: usize = 2;
    pub const VERTEX_FORMAT: usize = 3;
    pub const LEAST_STRIDE: usize = 4;
    pub const STRIDE_ALIGNMENT: usize = 5;
    pub const INDEX_FORMAT: usize = 6;
    pub const INDEX_PRESENT: usize = 7;
    pub const INDEX_COUNT: usize = 8;
}
pub mod tlas {
    pub const FLAGS: usize = 0;
    pub const DESTROYED: usize = 1;
    pub const SCRATCH: usize = 2;
    pub const MOST: usize = 3;
    pub const NUMBER: usize = 4;
}
pub mod entry {
    pub const BLAS: usize = 0;
    pub const KIND: usize = 1;
    pub const COUNT: usize = 2;
}
pub mod geometry {
    pub const FLAGS: usize = 0;
    pub const COUNT: usize = 1;
    pub const FIRST: usize = 2;
    pub const STRIDE: usize = 3;
    pub const BUFFER: usize = 4;
    pub const VERTEX_FORMAT: usize = 5;
    pub const INDEX_FORMAT: usize = 6;
    pub const INDEX_BUFFER: usize = 7;
    pub const INDEX_PRESENT: usize = 8;
    pub const INDEX_COUNT: usize = 9;
    pub const FIRST_PRESENT: usize = 10;
    pub const FIRST_INDEX: usize = 11;
    pub const TRANSFORM_BUFFER: usize = 12;
    pub const TRANSFORM_PRESENT: usize = 13;
    pub const TRANSFORM_OFFSET: usize = 14;
}
pub mod package {
    pub const TLAS: usize = 0;
    pub const COUNT: usize = 1;
}
pub mod slot {
    pub const PRESENT: usize = 0;
    pub const BLAS: usize = 1;
    pub const CUSTOM_DATA: usize = 2;
    pub const MASK: usize = 3;
}

/// A number of `width` bytes.
pub fn number_at(s: &[u8], at: usize, width: usize) -> u64 {
    s[at..at + width].iter().rev().fold(0, |n, &b| n << 8 | u64::from(b))
}

pub fn put_number(out: &mut Vec<u8>, value: u64, width: usize) {
    out.extend_from_slice(&value.to_le_bytes()[..width]);
}

/// A sheet's fields as numbers, section by section, record after record. Numbers wider than their field are cut when
/// written.
#[derive(Clone, Debug, Default, PartialEq, Eq)]
pub struct Raw {
    pub version: u64,
    pub alignment: u64,
    pub counter: u64,
    pub sections: [Vec<u64>; 9],
}

impl Raw {
    /// What is of neither version, and so refused at its first byte, is laid out as version 1.
    pub fn laid_out(&self) -> Version {
        Version::of(self.version).unwrap_or(Version::One)
    }

    pub fn count(&self, section: usize) -> usize {
        self.sections[section].len() / WIDTHS[section].len()
    }

    pub fn get(&self, section: usize, record: usize, field: usize) -> u64 {
        self.sections[section][record * WIDTHS[section].len() + field]
    }

    pub fn set(&mut self, section: usize, record: usize, field: usize, value: u64) {
        self.sections[section][record * WIDTHS[section].len() + field] = value;
    }

    pub fn record(&self, section: usize, record: usize) -> &[u64] {
        let n = WIDTHS[section].len();
        &self.sections[section][record * n..record * n + n]
    }

    pub fn push(&mut self, section: usize, record: &[u64]) {
        assert_eq!(record.len(), WIDTHS[section].len());
        self.sections[section].extend_from_slice(record);
    }

    pub fn insert(&mut self, section: usize, at: usize, record: &[u64]) {
        let at = at * WIDTHS[section].len();
        self.sections[section].splice(at..at, record.iter().copied());
    }

    pub fn remove(&mut self, section: usize, at: usize, records: usize) {
        let n = WIDTHS[section].len();
        self.sections[section].drain(at * n..(at + records) * n);
    }

    /// The section's records as bytes.
    pub fn table(&self, section: usize) -> Vec<u8> {
        let (widths, size) = (self.laid_out().widths(section), self.laid_out().size(section));
        let mut out = Vec::with_capacity(self.count(section) * size);
        for (i, &v) in self.sections[section].iter().enumerate() {
            put_number(&mut out, v, widths[i % widths.len()]);
        }
        out
    }

    pub fn tables(&self) -> [Vec<u8>; 8] {
        std::array::from_fn(|s| self.table(s))
    }

    /// Where a section's count stands in its sheet.
    pub fn place(&self, section: usize) -> usize {
        13 + (0..section).map(|s| 2 + self.count(s) * self.laid_out().size(s)).sum::<usize>()
    }

    pub fn sheet(&self) -> Vec<u8> {
        let mut out = Vec::new();
        put_number(&mut out, self.version, 1);
        put_number(&mut out, self.alignment, 4);
        put_number(&mut out, self.counter, 8);
        for s in 0..9 {
            put_number(&mut out, self.count(s) as u64, 2);
            out.extend_from_slice(&self.table(s));
        }
        out
    }

    /// The whole records of a table, laid out as this version.
    pub fn take_table(&mut self, section: usize, table: &[u8]) {
        let version = self.laid_out();
        self.sections[section].clear();
        for r in table.chunks_exact(version.size(section)) {
            let mut at = 0;
            for &w in version.widths(section) {
                self.sections[section].push(number_at(r, at, w));
                at += w;
            }
        }
    }

    /// The fields of a sheet that is whole, whatever their values are; None where its counts and its length don't agree.
    pub fn from_sheet(sheet: &[u8]) -> Option<Raw> {
        if sheet.len() < 13 {
            return None;
        }
        let mut raw =
            Raw { version: sheet[0].into(), alignment: number_at(sheet, 1, 4), counter: number_at(sheet, 5, 8), ..Raw::default() };
        let mut at = 13;
        for s in 0..9 {
            let n = number_at(sheet.get(at..at + 2)?, 0, 2) as usize;
            at += 2;
            let size = raw.laid_out().size(s);
            raw.take_table(s, sheet.get(at..at + n * size)?);
            at += n * size;
        }
        (at == sheet.len()).then_some(raw)
    }
}
