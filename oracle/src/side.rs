//! What is compared: calls in the exact bytes and cells that the static library takes, and all that each leaves.
use crate::instances;
use crate::layout::Version;

/// A build's lent outputs, in the order of the exported function.
pub struct Outputs<'a> {
    pub blas_offsets: &'a mut [u64],
    pub tlas_offsets: &'a mut [u64],
    pub staging_ranges: &'a mut [u64],
    pub instances: &'a mut [u8],
    pub init_ranges: &'a mut [u64],
    pub compactable: &'a mut [u16],
    pub lists: &'a mut [u16],
}

/// What a submission changes.
pub struct Lent<'a> {
    pub blases: &'a mut [u8],
    pub tlases: &'a mut [u8],
    pub dependency_counts: &'a mut [u16],
    pub dependencies: &'a mut [u16],
}

/// The exported functions, words aside; each answer is its fields in order.
pub trait Side {
    /// number, place, version, alignment, counter, then start and count of sections 1 to 9
    fn read_sheet(&mut self, sheet: &[u8]) -> [u64; 23];
    /// number, E, three figures, recorded, scratch size, how many elements of each output were written; the tables' version says which of
    /// the two functions it is
    fn build(&mut self, version: Version, alignment: u32, tables: [&[u8]; 8], out: Outputs) -> [u64; 15];
    /// number, action, two figures; `indices` is the submission index and the counter
    fn submit(&mut self, indices: &mut [u64; 2], lent: Lent, actions: &[u32], lists: &[u16]) -> [u64; 4];
    /// number, E, three figures, bytes in use
    fn append(&mut self, tlases: &[u8], blases: &[u8], tlas: u16, instance: &[u8; 55], instances: &mut [u8], used: u64)
        -> [u64; 7];
    /// as of `append`; `items` are 55 bytes each, end to end
    fn append_many(&mut self, tlases: &[u8], blases: &[u8], tlas: u16, items: &[u8], instances: &mut [u8], used: u64) -> [u64; 7];
    /// number, bytes written
    fn report(&mut self, sheet: &[u8], out: &mut [u8]) -> [u64; 2];
    /// number, place, bytes written; of a side that has no sheet to write by a second reading of the request
    fn write(&mut self, sheet: &[u8], out: &mut [u8]) -> [u64; 3] {
        let [number, place, ..] = self.read_sheet(sheet);
        if number != 0 {
            return [number, place, 0];
        }
        let bytes = self.canonical(sheet);
        let Some(part) = out.get_mut(..bytes.len()) else { return [39, 0, 0] };
        part.copy_from_slice(&bytes);
        [0, 0, bytes.len() as u64]
    }
    /// The sheet that is written.
    fn canonical(&self, sheet: &[u8]) -> Vec<u8> {
        crate::canonical::canonical(sheet)
    }
    /// number, place, bytes written
    fn convert(&mut self, to: Version, sheet: &[u8], out: &mut [u8]) -> [u64; 3];
    /// number, place, group, item, bytes written
    fn open(&mut self, groups: &[u8], slots: &mut [u8]) -> [u64; 5];
    /// number, E, bytes written; `records` are 64 bytes each and `items` 55, end to end
    fn read_instances(&mut self, records: &[u8], blases: &[u8], items: &mut [u8]) -> [u64; 4];
}

/// Elements past what is lent, which no call may touch.
const GUARD: usize = 4;

/// What stands in a lent output before a call.
fn pattern(i: usize) -> u64 {
    (i as u64 + 1).wrapping_mul(0x9e37_79b9_7f4a_7c15) >> 7
}

fn pattern_u8(n: usize) -> Vec<u8> {
    (0..n + GUARD).map(|i| pattern(i) as u8).collect()
}

fn pattern_u16(n: usize) -> Vec<u16> {
    (0..n + GUARD).map(|i| pattern(i) as u16).collect()
}

fn pattern_u64(n: usize) -> Vec<u64> {
    (0..n + GUARD).map(pattern).collect()
}

#[derive(Clone, Debug, PartialEq, Eq)]
pub enum Case {
    /// `room` is how much longer than the text (or shorter) the output of the text is, and than the sheet where it is written anew or in
    /// the other version
    Sheet {
        bytes: Vec<u8>,
        room: i64,
    },
    /// `rooms` are the outputs' lengths
    Build {
        version: Version,
        alignment: u32,
        tables: [Vec<u8>; 8],
        rooms: [usize; 7],
    },
    /// each piece, actions and lists, on what the one before left
    Submit {
        indices: [u64; 2],
        blases: Vec<u8>,
        tlases: Vec<u8>,
        dependency_counts: Vec<u16>,
        dependencies: Vec<u16>,
        pieces: Vec<(Vec<u32>, Vec<u16>)>,
    },
    Append {
        tlases: Vec<u8>,
        blases: Vec<u8>,
        tlas: u16,
        instance: [u8; 55],
        room: usize,
        used: u64,
    },
    Many {
        tlases: Vec<u8>,
        blases: Vec<u8>,
        tlas: u16,
        items: Vec<u8>,
        room: usize,
        used: u64,
    },
    Groups {
        bytes: Vec<u8>,
        room: usize,
    },
    Instances {
        blases: Vec<u8>,
        records: Vec<u8>,
        room: usize,
    },
}

/// Every answer and every lent element after a call, by name.
#[derive(Clone, Debug, PartialEq, Eq)]
pub struct Part {
    pub name: &'static str,
    pub values: Vec<u64>,
}

fn part<T: Copy + Into<u64>>(name: &'static str, values: &[T]) -> Part {
    Part { name, values: values.iter().map(|&v| v.into()).collect() }
}

/// "an instance that the writer took and whose Blas address stands once in the table comes back as it was": what an append that was
/// accepted wrote, read.
fn read_back(side: &mut dyn Side, append: &[u64; 7], instances: &[u8], used: u64, blases: &[u8], items: &[u8]) -> Vec<Part> {
    if append[0] != 0 {
        return Vec::new();
    }
    let n = items.len();
    let mut back = pattern_u8(n);
    let answer = side.read_instances(&instances[used as usize..append[6] as usize], blases, &mut back[..n]);
    let once = |item: &[u8; 55]| instances::once(blases, item);
    let told = match items.as_chunks().0.iter().position(|item| !once(item)) {
        None => [0, 0, 0, n as u64],
        Some(k) => [50, k as u64, 0, 0],
    };
    assert_eq!(answer, told, "what was written, read back");
    assert!(answer[0] != 0 || back[..n] == *items, "other items than were written");
    vec![part("back", &answer), part("items", &back)]
}

impl Case {
    pub fn kind(&self) -> &'static str {
        match self {
            Case::Sheet { bytes, .. } if bytes.first() == Some(&2) => "wide sheet",
            Case::Sheet { .. } => "sheet",
            Case::Build { version: Version::One, .. } => "build",
            Case::Build { version: Version::Two, .. } => "wide build",
            Case::Submit { .. } => "submission",
            Case::Append { .. } => "append",
            Case::Many { .. } => "many",
            Case::Groups { .. } => "groups",
            Case::Instances { .. } => "instances",
        }
    }

    /// Runs the case; `text` is how long a sheet's text is. Inputs must be as they were, which is part of the outcome.
    pub fn run(&self, side: &mut dyn Side, text: usize) -> Vec<Part> {
        match self {
            Case::Sheet { bytes, room } => {
                let lent = bytes.clone();
                let read = side.read_sheet(&lent);
                let n = (text as i64 + room).max(0) as usize;
                let mut out = pattern_u8(n);
                let report = side.report(&lent, &mut out[..n]);
                let n = (bytes.len() as i64 + room).max(0) as usize;
                let mut anew = pattern_u8(n);
                let write = side.write(&lent, &mut anew[..n]);
                let n = (crate::convert::length(bytes) as i64 + room).max(0) as usize;
                let (mut in_2, mut in_1) = (pattern_u8(n), pattern_u8(n));
                let to_2 = side.convert(Version::Two, &lent, &mut in_2[..n]);
                let to_1 = side.convert(Version::One, &lent, &mut in_1[..n]);
                vec![
                    part("read", &read),
                    part("report", &report),
                    part("text", &out),
                    part("write", &write),
                    part("anew", &anew),
                    part("to_2", &to_2),
                    part("in version 2", &in_2),
                    part("to_1", &to_1),
                    part("in version 1", &in_1),
                    part("inputs kept", &[u64::from(lent == *bytes)]),
                ]
            }
            Case::Build { version, alignment, tables, rooms } => {
                let lent = tables.clone();
                let (mut blas_offsets, mut tlas_offsets) = (pattern_u64(rooms[0]), pattern_u64(rooms[1]));
                let (mut staging_ranges, mut instances) = (pattern_u64(rooms[2]), pattern_u8(rooms[3]));
                let (mut init_ranges, mut compactable) = (pattern_u64(rooms[4]), pattern_u16(rooms[5]));
                let mut lists = pattern_u16(rooms[6]);
                let out = Outputs {
                    blas_offsets: &mut blas_offsets[..rooms[0]],
                    tlas_offsets: &mut tlas_offsets[..rooms[1]],
                    staging_ranges: &mut staging_ranges[..rooms[2]],
                    instances: &mut instances[..rooms[3]],
                    init_ranges: &mut init_ranges[..rooms[4]],
                    compactable: &mut compactable[..rooms[5]],
                    lists: &mut lists[..rooms[6]],
                };
                let answer = side.build(*version, *alignment, std::array::from_fn(|s| &lent[s][..]), out);
                vec![
                    part("build", &answer),
                    part("blas_offsets", &blas_offsets),
                    part("tlas_offsets", &tlas_offsets),
                    part("staging_ranges", &staging_ranges),
                    part("instances", &instances),
                    part("init_ranges", &init_ranges),
                    part("compactable", &compactable),
                    part("lists", &lists),
                    part("inputs kept", &[u64::from(lent == *tables)]),
                ]
            }
            Case::Submit { indices, blases, tlases, dependency_counts, dependencies, pieces } => {
                let (mut indices, mut blases, mut tlases) = (*indices, blases.clone(), tlases.clone());
                let (mut dependency_counts, mut dependencies) = (dependency_counts.clone(), dependencies.clone());
                let (b, t, c, d) = (blases.len(), tlases.len(), dependency_counts.len(), dependencies.len());
                blases.extend_from_slice(&pattern_u8(0));
                tlases.extend_from_slice(&pattern_u8(0));
                dependency_counts.extend_from_slice(&pattern_u16(0));
                dependencies.extend_from_slice(&pattern_u16(0));
                let mut parts = Vec::new();
                for (actions, lists) in pieces {
                    let given = (actions.clone(), lists.clone());
                    let lent = Lent {
                        blases: &mut blases[..b],
                        tlases: &mut tlases[..t],
                        dependency_counts: &mut dependency_counts[..c],
                        dependencies: &mut dependencies[..d],
                    };
                    let answer = side.submit(&mut indices, lent, &given.0, &given.1);
                    parts.extend([
                        part("submit", &answer),
                        part("indices", &indices),
                        part("blases", &blases),
                        part("tlases", &tlases),
                        part("dependency_counts", &dependency_counts),
                        part("dependencies", &dependencies),
                        part("inputs kept", &[u64::from(given.0 == *actions && given.1 == *lists)]),
                    ]);
                }
                parts
            }
            Case::Append { tlases, blases, tlas, instance, room, used } => {
                let given = (tlases.clone(), blases.clone(), *instance);
                let mut instances = pattern_u8(*room);
                let answer = side.append(&given.0, &given.1, *tlas, &given.2, &mut instances[..*room], *used);
                let kept = given.0 == *tlases && given.1 == *blases && given.2 == *instance;
                let parts = vec![part("append", &answer), part("instances", &instances), part("inputs kept", &[u64::from(kept)])];
                [parts, read_back(side, &answer, &instances, *used, blases, instance)].concat()
            }
            Case::Many { tlases, blases, tlas, items, room, used } => {
                let given = (tlases.clone(), blases.clone(), items.clone());
                let mut instances = pattern_u8(*room);
                let answer = side.append_many(&given.0, &given.1, *tlas, &given.2, &mut instances[..*room], *used);
                let kept = given.0 == *tlases && given.1 == *blases && given.2 == *items;
                let parts = vec![part("many", &answer), part("instances", &instances), part("inputs kept", &[u64::from(kept)])];
                [parts, read_back(side, &answer, &instances, *used, blases, items)].concat()
            }
            Case::Groups { bytes, room } => {
                let given = bytes.clone();
                let mut slots = pattern_u8(*room);
                let answer = side.open(&given, &mut slots[..*room]);
                vec![part("open", &answer), part("slots", &slots), part("inputs kept", &[u64::from(given == *bytes)])]
            }
            Case::Instances { blases, records, room } => {
                let given = (blases.clone(), records.clone());
                let mut items = pattern_u8(*room);
                let answer = side.read_instances(&given.1, &given.0, &mut items[..*room]);
                let kept = given.0 == *blases && given.1 == *records;
                vec![part("back", &answer), part("items", &items), part("inputs kept", &[u64::from(kept)])]
            }
        }
    }
}
