//! Takes times of the published Rust and of the static library, same driver, same inputs, both built for release, and writes
//! them to standard output and as docs/SPEED.md. See `bench/run`.
#![allow(dead_code)]

#[path = "../oracle/src/layout.rs"]
mod layout;
#[path = "../oracle/src/paper.rs"]
mod paper;

use std::fmt::Write as _;
use std::hint::black_box;
use std::time::Instant;

use layout::*;
use published::drive::{self, Act, Buffered, Sizes, Submission, World};
use published::input::Input;

// ---- inputs -----------------------------------------------------------------------------------------------------------

/// Tables with this many records, all accepted. A geometry has an index buffer and a transform where `rich`.
struct Shape {
    buffers: usize,
    blases: usize,
    declared: usize,
    tlases: usize,
    entries: usize,
    geometries: usize,
    packages: usize,
    slots: usize,
    actions: usize,
    rich: bool,
}

/// n spread over `over`, the i-th part.
fn part(n: usize, over: usize, i: usize) -> usize {
    n * (i + 1) / over - n * i / over
}

fn tables(s: &Shape) -> Raw {
    let mut raw = Raw { version: 1, alignment: 256, counter: 1, ..Raw::default() };
    for _ in 0..s.buffers {
        raw.push(BUFFERS, &[1 << 20, 1]);
    }
    for i in 0..s.blases {
        raw.push(BLASES, &[0, if s.rich { 5 } else { 0 }, 0, 0, 300 + i as u64, 0x1000 * i as u64, 1]);
    }
    for i in 0..s.declared {
        let (format, present, count) = if s.rich { (1, 1, 36) } else { (0, 0, 0) };
        raw.push(DECLARED, &[(i % s.blases) as u64, 1, 24, 1, 12, 4, format, present, count]);
    }
    for i in 0..s.tlases {
        raw.push(TLASES, &[0, 0, 1000 + i as u64, 512, 1]);
    }
    for i in 0..s.entries {
        let n = part(s.geometries, s.entries, i);
        raw.push(ENTRIES, &[(i % s.blases) as u64, 0, n as u64]);
        for j in 0..n {
            let b = ((i + j) % s.buffers) as u64;
            let mut g = [1, 24, 0, 12, b, 1, 0, NONE, 0, 0, 0, 0, NONE, 0, 0];
            if s.rich {
                g = [1, 24, 2, 12, b, 1, 1, b, 1, 36, 1, 3, b, 1, 48];
            }
            raw.push(GEOMETRIES, &g);
        }
    }
    for i in 0..s.packages {
        let n = part(s.slots, s.packages, i);
        raw.push(PACKAGES, &[(i % s.tlases) as u64, n as u64]);
        for j in 0..n {
            let mut slot = [0x3f80_0000; 16];
            slot[slot::PRESENT] = 1;
            slot[slot::BLAS] = ((i + j) % s.blases) as u64;
            slot[slot::CUSTOM_DATA] = j as u64;
            slot[slot::MASK] = 255;
            raw.push(SLOTS, &slot);
        }
    }
    for i in 0..s.actions {
        raw.push(ACTIONS, &[[1, 2][i % 2], 0]);
    }
    raw
}

const SMALL: Shape = Shape {
    buffers: 1,
    blases: 1,
    declared: 1,
    tlases: 1,
    entries: 1,
    geometries: 1,
    packages: 1,
    slots: 1,
    actions: 2,
    rich: false,
};
const TYPICAL: Shape = Shape {
    buffers: 8,
    blases: 16,
    declared: 16,
    tlases: 2,
    entries: 8,
    geometries: 8,
    packages: 2,
    slots: 80,
    actions: 4,
    rich: true,
};
const FULL: Shape = Shape {
    buffers: 256,
    blases: 128,
    declared: 512,
    tlases: 32,
    entries: 64,
    geometries: 256,
    packages: 32,
    slots: 512,
    actions: 64,
    rich: true,
};

fn only_slots(n: usize) -> Shape {
    Shape {
        buffers: 1,
        blases: 16,
        declared: 16,
        tlases: 1,
        entries: 0,
        geometries: 0,
        packages: 1,
        slots: n,
        actions: 0,
        rich: false,
    }
}

fn only_entries(n: usize) -> Shape {
    Shape {
        buffers: 8,
        blases: 64,
        declared: 256,
        tlases: 1,
        entries: n,
        geometries: 4 * n,
        packages: 0,
        slots: 0,
        actions: 0,
        rich: true,
    }
}

/// Ten actions that pass on what they left, again and again: two Builds of two Blases with a Tlas over four, two marks, six
/// uses.
fn ten(k: usize) -> Act {
    match k % 10 {
        0 => Act::Build { blases: vec![0, 1], tlases: vec![(0, vec![0, 1, 6, 7])] },
        4 => Act::Build { blases: vec![2, 3], tlases: vec![(1, vec![2, 3, 4, 5])] },
        3 => Act::MarkBlas(8),
        7 => Act::MarkTlas(2),
        8 => Act::Use(2),
        1 | 2 | 6 => Act::Use(0),
        _ => Act::Use(1),
    }
}

fn cells(acts: &[Act]) -> (Vec<u32>, Vec<u16>) {
    let (mut actions, mut lists) = (Vec::new(), Vec::new());
    for a in acts {
        match a {
            Act::Build { blases, tlases } => {
                actions.extend([1, lists.len() as u32, blases.len() as u32, tlases.len() as u32]);
                lists.extend_from_slice(blases);
                for (t, list) in tlases {
                    lists.extend([*t, list.len() as u16]);
                    lists.extend_from_slice(list);
                }
            }
            Act::Use(t) => actions.extend([2, (*t).into(), 0, 0]),
            Act::MarkBlas(b) => actions.extend([3, *b, 0, 0]),
            Act::MarkTlas(t) => actions.extend([4, *t, 0, 0]),
        }
    }
    (actions, lists)
}

// ---- times ------------------------------------------------------------------------------------------------------------

/// Samples for each side, in turn; the least counts.
const SAMPLES: usize = 40;

/// How often it is done in one sample, so that a sample takes some 200 us.
fn often(once: &mut dyn FnMut()) -> usize {
    once();
    let start = Instant::now();
    once();
    let ns = start.elapsed().as_nanos().max(20) as usize;
    (200_000 / ns).clamp(1, 4000)
}

fn sample(n: usize, once: &mut dyn FnMut()) -> f64 {
    let start = Instant::now();
    for _ in 0..n {
        once();
    }
    start.elapsed().as_nanos() as f64 / n as f64
}

/// The least nanoseconds of each, taken in turn; `after` runs after each sample, untimed.
fn times<const N: usize>(mut of: [&mut dyn FnMut(); N], after: &mut dyn FnMut()) -> [f64; N] {
    let n = of.each_mut().map(|once| often(*once));
    after();
    let mut least = [f64::MAX; N];
    for _ in 0..SAMPLES {
        for k in 0..N {
            least[k] = least[k].min(sample(n[k], of[k]));
            after();
        }
    }
    least
}

/// Nanoseconds: of the Rust from the same bytes and cells; of the Rust on its own types, made beforehand; ours.
struct Row {
    name: String,
    what: String,
    rust: f64,
    made: f64,
    ours: f64,
}

/// What the library writes a build into: room for all, filled once and never cleared.
struct Out {
    blas_offsets: Vec<u64>,
    tlas_offsets: Vec<u64>,
    staging_ranges: Vec<u64>,
    instances: Vec<u8>,
    init_ranges: Vec<u64>,
    compactable: Vec<u16>,
    lists: Vec<u16>,
}

impl Out {
    fn new() -> Out {
        Out {
            blas_offsets: vec![1; 64],
            tlas_offsets: vec![1; 32],
            staging_ranges: vec![1; 64],
            instances: vec![1; 64 * 512],
            init_ranges: vec![1; 9 * 256],
            compactable: vec![1; 64],
            lists: vec![1; 64 + 2 * 32 + 512],
        }
    }

    fn lend(&mut self) -> zakvind::LentOutputs<'_> {
        zakvind::LentOutputs {
            blas_offsets: &mut self.blas_offsets,
            tlas_offsets: &mut self.tlas_offsets,
            staging_ranges: &mut self.staging_ranges,
            instances: &mut self.instances,
            init_ranges: &mut self.init_ranges,
            compactable: &mut self.compactable,
            lists: &mut self.lists,
        }
    }
}

fn read_row() -> Row {
    let sheet = tables(&FULL).sheet();
    assert_eq!(sheet.len(), 56_415);
    let ours = zakvind::raw::read_sheet(&sheet);
    let theirs = paper::read_sheet(&sheet).unwrap();
    assert_eq!((ours.number, ours.sections[8].start as usize), (0, theirs.sections[8].0));
    let [rust, ours] = times(
        [
            &mut || {
                let _ = black_box(paper::read_sheet(black_box(&sheet)));
            },
            &mut || {
                black_box(zakvind::raw::read_sheet(black_box(&sheet)));
            },
        ],
        &mut || {},
    );
    Row { name: "read-full".into(), what: "reading a full sheet, 56,415 bytes".into(), rust, made: rust, ours }
}

/// Nanoseconds of a sheet written anew, of reading it alone, and of a plain memory copy of its bytes.
struct Anew {
    name: String,
    what: String,
    ours: f64,
    read: f64,
    copy: f64,
}

/// A full sheet with as much unused as there can be: boxes, and absent slots.
fn unused() -> Raw {
    let mut raw = tables(&FULL);
    for (section, field, value) in [(BLASES, blas::KIND, 1), (ENTRIES, entry::KIND, 1), (SLOTS, slot::PRESENT, 0)] {
        for i in 0..raw.count(section) {
            raw.set(section, i, field, value);
        }
    }
    raw
}

fn written_anew(name: &str, what: &str, raw: &Raw) -> Anew {
    let sheet = raw.sheet();
    let mut out = vec![1u8; sheet.len()];
    let mut target = out.clone();
    assert_eq!(zakvind::raw::write_sheet(&sheet, &mut out).written as usize, 56_415);
    let [ours, read, copy] = times(
        [
            &mut || {
                black_box(zakvind::raw::write_sheet(black_box(&sheet), black_box(&mut out)));
            },
            &mut || {
                black_box(zakvind::raw::read_sheet(black_box(&sheet)));
            },
            &mut || black_box(&mut target).copy_from_slice(black_box(&sheet)),
        ],
        &mut || {},
    );
    Anew { name: name.into(), what: what.into(), ours, read, copy }
}

/// Nanoseconds of a sheet converted; of the same in plain Rust, judged by the oracle's reader and then record by record in a loop; of that
/// loop alone; and of a plain memory copy of the sheet's bytes.
struct Converted {
    name: String,
    what: String,
    ours: f64,
    rust: f64,
    looped: f64,
    copy: f64,
}

/// A sheet whose geometries are known to begin at a byte, in version 2, record by record and unjudged: what a caller would write.
fn widen(sheet: &[u8], (start, count): (usize, usize), out: &mut [u8]) -> bool {
    let (old, new) = (SIZES[GEOMETRIES], Version::Two.size(GEOMETRIES));
    let (end, after) = (start + count * old, start + count * new);
    out[..start].copy_from_slice(&sheet[..start]);
    for (r, o) in sheet[start..end].chunks_exact(old).zip(out[start..after].chunks_exact_mut(new)) {
        o[..9].copy_from_slice(&r[..9]);
        o[9..13].fill(0);
        o[13..].copy_from_slice(&r[9..]);
    }
    out[after..].copy_from_slice(&sheet[end..]);
    out[0] = 2;
    true
}

/// The way back; `false` where an offset doesn't fit.
fn narrow(sheet: &[u8], (start, count): (usize, usize), out: &mut [u8]) -> bool {
    let (old, new) = (Version::Two.size(GEOMETRIES), SIZES[GEOMETRIES]);
    let (end, after) = (start + count * old, start + count * new);
    out[..start].copy_from_slice(&sheet[..start]);
    for (r, o) in sheet[start..end].chunks_exact(old).zip(out[start..after].chunks_exact_mut(new)) {
        if r[9..13] != [0; 4] {
            return false;
        }
        o[..9].copy_from_slice(&r[..9]);
        o[9..].copy_from_slice(&r[13..]);
    }
    out[after..].copy_from_slice(&sheet[end..]);
    out[0] = 1;
    true
}

fn converted_row(to: Version) -> Converted {
    let raw = tables(&FULL);
    let (one, two) = (raw.sheet(), Raw { version: 2, ..raw }.sheet());
    assert_eq!((one.len(), two.len()), (56_415, 57_439));
    let (name, what, sheet, expected) = match to {
        Version::Two => ("to-2", "a full sheet of 56,415 bytes to version 2", one, two),
        Version::One => ("to-1", "and back, from 57,439 bytes", two, one),
    };
    let convert = |sheet: &[u8], out: &mut [u8]| match to {
        Version::Two => zakvind::raw::to_version_2(sheet, out),
        Version::One => zakvind::raw::to_version_1(sheet, out),
    };
    let by_loop = |sheet: &[u8], place: (usize, usize), out: &mut [u8]| match to {
        Version::Two => widen(sheet, place, out),
        Version::One => narrow(sheet, place, out),
    };
    let judged = |sheet: &[u8], out: &mut [u8]| paper::read_sheet(sheet).is_ok_and(|p| by_loop(sheet, p.sections[GEOMETRIES], out));
    let place = paper::read_sheet(&sheet).unwrap().sections[GEOMETRIES];
    let (mut out, mut by_rust, mut target) = (vec![1u8; expected.len()], vec![2u8; expected.len()], vec![3u8; sheet.len()]);
    let mut looped = by_rust.clone();
    assert_eq!(convert(&sheet, &mut out).written as usize, expected.len(), "{name}");
    assert!(judged(&sheet, &mut by_rust) && out == expected && by_rust == expected, "{name}");
    let [ours, rust, looped, copy] = times(
        [
            &mut || {
                black_box(convert(black_box(&sheet), black_box(&mut out)));
            },
            &mut || {
                black_box(judged(black_box(&sheet), black_box(&mut by_rust)));
            },
            &mut || {
                black_box(by_loop(black_box(&sheet), black_box(place), black_box(&mut looped)));
            },
            &mut || black_box(&mut target).copy_from_slice(black_box(&sheet)),
        ],
        &mut || {},
    );
    Converted { name: name.into(), what: what.into(), ours, rust, looped, copy }
}

/// Nanoseconds of a build with geometries of version 1, and of the same with those of version 2.
struct Wide {
    name: String,
    what: String,
    narrow: f64,
    wide: f64,
}

fn wide_row(name: &str, what: &str, shape: &Shape) -> Wide {
    let raw = tables(shape);
    let tables = [raw.tables(), Raw { version: 2, ..raw }.tables()];
    let [one, two]: [[&[u8]; 8]; 2] = std::array::from_fn(|v| std::array::from_fn(|s| &tables[v][s][..]));
    let (mut first, mut second) = (Out::new(), Out::new());
    let (a, b) = (zakvind::raw::build(256, one, first.lend()), zakvind::raw::build_wide(256, two, second.lend()));
    assert_eq!((a.number, a.recorded), (0, 1), "{name}");
    assert_eq!(a, b, "{name}");
    let [narrow, wide] = times(
        [
            &mut || {
                black_box(zakvind::raw::build(256, black_box(one), first.lend()));
            },
            &mut || {
                black_box(zakvind::raw::build_wide(256, black_box(two), second.lend()));
            },
        ],
        &mut || {},
    );
    Wide { name: name.into(), what: what.into(), narrow, wide }
}

/// Nanoseconds of groups opened, and of a plain memory copy of the same slots.
struct Groups {
    name: String,
    what: String,
    bytes: usize,
    ours: f64,
    copy: f64,
}

/// A group's items as bytes: slots, and the numbers of groups.
fn group(slots: &[u8], named: &[u16]) -> Vec<u8> {
    let n = (slots.len() / SIZES[SLOTS] + named.len()) as u16;
    let names = named.iter().map(|g| [&[2], &g.to_le_bytes()[..]].concat()).collect::<Vec<Vec<u8>>>().concat();
    [&n.to_le_bytes()[..], slots, &names].concat()
}

fn all_groups(groups: &[Vec<u8>]) -> Vec<u8> {
    [&(groups.len() as u16).to_le_bytes()[..], &groups.concat()].concat()
}

/// The same 512 slots of groups inside of groups, and written out; and groups that name 2^63 slots, which are refused at the 513th.
fn groups_rows() -> (Vec<Groups>, f64) {
    let slots = tables(&only_slots(16)).table(SLOTS);
    let all = slots.repeat(32);
    let nested = all_groups(&[group(&slots, &[]), group(&[], &[0; 8]), group(&[], &[1; 4])]);
    let doubled = |n: u16| {
        let groups = (0..n).map(|g| if g == 0 { group(&slots[..56], &[]) } else { group(&[], &[g - 1; 2]) });
        all_groups(&groups.collect::<Vec<Vec<u8>>>())
    };
    let one = slots[..56].repeat(512);
    let of = |name: &str, what: &str, bytes: &[u8], slots: &[u8]| {
        let mut out = vec![1u8; slots.len()];
        let mut target = out.clone();
        assert_eq!(zakvind::raw::open_groups(bytes, &mut out).written as usize, slots.len(), "{name}");
        assert!(out == slots, "{name}");
        let [ours, copy] = times(
            [
                &mut || {
                    black_box(zakvind::raw::open_groups(black_box(bytes), black_box(&mut out)));
                },
                &mut || black_box(&mut target).copy_from_slice(black_box(slots)),
            ],
            &mut || {},
        );
        Groups { name: name.into(), what: what.into(), bytes: bytes.len(), ours, copy }
    };
    let rows = vec![
        of("open-nested", "four times a group of eight times a group of 16 slots", &nested, &all),
        of("open-doubled", "ten groups, each but the first twice the one before", &doubled(10), &one),
        of("open-written", "one group of the 512 slots written out", &all_groups(&[group(&all, &[])]), &all),
    ];
    let most = doubled(64);
    let mut out = vec![1u8; all.len()];
    assert_eq!(zakvind::raw::open_groups(&most, &mut out).number, 46);
    let [refused] = times(
        [&mut || {
            black_box(zakvind::raw::open_groups(black_box(&most), black_box(&mut out)));
        }],
        &mut || {},
    );
    (rows, refused)
}

/// Nanoseconds of a build whose scratch sizes are rounded to 256, by a mask, and to 255, by division; and how many are rounded, each for
/// the total and for its offset.
struct Rounding {
    name: String,
    what: String,
    roundings: usize,
    mask: f64,
    division: f64,
}

/// 64 entries without geometries and 32 packages without slots: little but their scratch sizes, each more by so much.
fn bare(more: u64) -> Raw {
    let mut raw = tables(&Shape { geometries: 0, slots: 0, ..FULL });
    for (section, field) in [(BLASES, blas::SCRATCH), (TLASES, tlas::SCRATCH)] {
        for i in 0..raw.count(section) {
            raw.set(section, i, field, 1000 + i as u64 + more);
        }
    }
    raw
}

fn rounding_row(name: &str, what: &str, raw: &Raw) -> Rounding {
    let t = raw.tables();
    let lent: [&[u8]; 8] = std::array::from_fn(|s| &t[s][..]);
    let out = std::cell::RefCell::new(Out::new());
    let build = |alignment| zakvind::raw::build(black_box(alignment), black_box(lent), out.borrow_mut().lend());
    for alignment in [256, 255] {
        let a = build(alignment);
        assert_eq!((a.number, a.recorded), (0, 1), "{name}");
        assert_eq!(a.scratch_size % u64::from(alignment), 0, "{name}");
    }
    let [mask, division] = times(
        [
            &mut || {
                black_box(build(256));
            },
            &mut || {
                black_box(build(255));
            },
        ],
        &mut || {},
    );
    Rounding { name: name.into(), what: what.into(), roundings: 2 * (raw.count(ENTRIES) + raw.count(PACKAGES)), mask, division }
}

/// Nanoseconds of a build that is refused by 37 and names the entry, and of a hunt for that entry without its name.
struct Hunt {
    name: String,
    what: String,
    builds: usize,
    ours: f64,
    hunt: f64,
}

/// 64 entries of 2^58 bytes each: none stands out, and with the last the running total would be 2^64.
fn hunted() -> [Hunt; 2] {
    let shape = only_entries(64);
    let mut raw = tables(&shape);
    for i in 0..shape.blases {
        raw.set(BLASES, i, blas::SCRATCH, 1 << 58);
    }
    let t = raw.tables();
    let lent: [&[u8]; 8] = std::array::from_fn(|s| &t[s][..]);
    let out = std::cell::RefCell::new(Out::new());
    let build = |lent| zakvind::raw::build(256, black_box(lent), out.borrow_mut().lend());
    let first = |n: usize| {
        let mut lent = lent;
        lent[ENTRIES] = &lent[ENTRIES][..n * SIZES[ENTRIES]];
        lent[GEOMETRIES] = &lent[GEOMETRIES][..n * shape.geometries / shape.entries * SIZES[GEOMETRIES]];
        lent
    };
    let builds = std::cell::Cell::new(0);
    let refused = |n| {
        builds.set(builds.get() + 1);
        build(first(n)).number == 37
    };
    let one_by_one = || (1..=shape.entries).find(|&n| refused(n));
    let by_halves = || {
        let (mut accepted, mut over) = (0, shape.entries);
        while accepted + 1 < over {
            let n = (accepted + over) / 2;
            if refused(n) { over = n } else { accepted = n }
        }
        Some(over)
    };
    let a = build(lent);
    assert_eq!((a.number, a.e, a.figures), (37, [63, 0], [1, 0, 0]));
    let count = |hunt: &dyn Fn() -> Option<usize>| {
        builds.set(0);
        assert_eq!(hunt(), Some(64));
        builds.get()
    };
    let counts = [count(&one_by_one), count(&by_halves)];
    let [ours, line, halves] = times(
        [
            &mut || {
                black_box(build(lent));
            },
            &mut || {
                black_box(one_by_one());
            },
            &mut || {
                black_box(by_halves());
            },
        ],
        &mut || {},
    );
    let hunt = |name: &str, what: &str, builds, hunt| Hunt { name: name.into(), what: what.into(), builds, ours, hunt };
    [
        hunt("scratch-64", "a refused build of 64 entries that names the entry (37), against one more entry at a time", counts[0], line),
        hunt("scratch-64-halves", "against halves, once that build is refused", counts[1], halves),
    ]
}

fn build_row(name: &str, what: &str, shape: &Shape) -> Row {
    let raw = tables(shape);
    let t = raw.tables();
    let lent: [&[u8]; 8] = std::array::from_fn(|s| &t[s][..]);
    paper::judge_tables(Version::One, 256, lent).unwrap();
    let input = paper::input(Version::One, 256, 1, lent);
    let (world, sizes) = (World::new(&input), Sizes::new(&input));
    let buffered = std::cell::RefCell::new(Buffered::new());
    let mut out = Out::new();
    // both accept it and record the same
    assert!(buffered.borrow_mut().build(&world, &input, &sizes), "{name}");
    let a = zakvind::raw::build(256, lent, out.lend());
    assert_eq!((a.number, a.recorded), (0, 1), "{name}");
    assert_eq!(out.lists[..a.written[6] as usize], buffered.borrow().last_lists()[..], "{name}");
    let [rust, made, ours] = times(
        [
            &mut || {
                let (entries, packages) = paper::drawn(Version::One, black_box(lent[4]), lent[5], lent[6], lent[7]);
                let drawn = Input { entries, packages, ..Input::default() };
                black_box(buffered.borrow_mut().build(black_box(&world), &drawn, &Sizes::new(&drawn)));
            },
            &mut || {
                black_box(buffered.borrow_mut().build(black_box(&world), black_box(&input), black_box(&sizes)));
            },
            &mut || {
                black_box(zakvind::raw::build(256, black_box(lent), out.lend()));
            },
        ],
        &mut || buffered.borrow_mut().clear(),
    );
    Row { name: name.into(), what: what.into(), rust, made, ours }
}

/// The slots' fields after their present byte.
fn lent_instances(slots: &[u8]) -> Vec<[u8; 55]> {
    slots.chunks_exact(56).map(|r| r[1..].try_into().unwrap()).collect()
}

/// Appended one by one: how many bytes are in use then.
fn append_each(t: &[Vec<u8>], instances: &[[u8; 55]], out: &mut [u8]) -> u64 {
    let mut used = 0;
    for i in instances {
        used = zakvind::raw::append_instance(&t[TLASES], &t[BLASES], 0, i, out, used).used;
    }
    used
}

/// The same slots appended one by one, and as plain memory copies of 64 bytes each.
fn append_rows() -> (Row, f64) {
    let t = tables(&only_slots(512)).tables();
    let instances = lent_instances(&t[SLOTS]);
    let mut out = vec![1u8; 64 * 512];
    let append = |out: &mut [u8]| append_each(&t, &instances, out);
    assert_eq!(append(&mut out), 64 * 512);
    let source = out.clone();
    let mut target = vec![1u8; 64 * 512];
    let [rust, ours, copy] = times(
        [
            &mut || {
                black_box(drive::stand_in_instances(black_box(512)));
            },
            &mut || {
                black_box(append(black_box(&mut out)));
            },
            &mut || black_box(&mut target).copy_from_slice(black_box(&source)),
        ],
        &mut || {},
    );
    (Row { name: "append-512".into(), what: "512 instances appended one by one".into(), rust, made: rust, ours }, copy)
}

/// Nanoseconds of many instances appended by one call, of the same by one call each, and of a plain memory copy of their bytes.
struct Many {
    name: String,
    what: String,
    bytes: usize,
    ours: f64,
    each: f64,
    copy: f64,
}

fn many_row(n: usize) -> Many {
    let t = tables(&only_slots(n)).tables();
    let instances = lent_instances(&t[SLOTS]);
    let items = instances.concat();
    let bytes = 64 * n;
    let (mut out, mut singly) = (vec![1u8; bytes], vec![2u8; bytes]);
    let all = |out: &mut [u8]| zakvind::raw::append_instances(&t[TLASES], &t[BLASES], 0, black_box(&items), out, 0).used;
    assert_eq!((all(&mut out) as usize, append_each(&t, &instances, &mut singly) as usize), (bytes, bytes));
    assert!(out == singly, "{n}");
    let source = out.clone();
    let mut target = vec![1u8; bytes];
    let [ours, each, copy] = times(
        [
            &mut || {
                black_box(all(black_box(&mut out)));
            },
            &mut || {
                black_box(append_each(&t, black_box(&instances), black_box(&mut singly)));
            },
            &mut || black_box(&mut target).copy_from_slice(black_box(&source)),
        ],
        &mut || {},
    );
    Many { name: format!("many-{n}"), what: format!("one call for {n} instances"), bytes, ours, each, copy }
}

/// Nanoseconds of instances read back from their records; of the same in plain Rust, each Blas by a scan of the table, by a search
/// of its addresses, sorted before, and by a map of them; and of a plain memory copy of the records.
struct Back {
    name: String,
    what: String,
    ours: f64,
    scan: f64,
    sorted: f64,
    map: f64,
    copy: f64,
}

/// The number and the record of a refusal.
type NotRead = (u64, usize);

/// What there is instead, given how a Blas is found: all records judged, with what was found kept, and then their items written.
fn read_by(find: impl Fn(u64) -> Option<u16>, records: &[u8], items: &mut [u8]) -> Result<usize, NotRead> {
    let (records, part) = records.as_chunks::<64>();
    if !part.is_empty() {
        return Err((48, 0));
    }
    let mut ids = Vec::with_capacity(records.len());
    for (k, record) in records.iter().enumerate() {
        if record[52..56] != [0; 4] {
            return Err((49, k));
        }
        ids.push(find(u64_at(record, 56)).ok_or((50, k))?);
    }
    let out = items.get_mut(..55 * records.len()).ok_or((39, 0))?;
    for ((record, id), item) in records.iter().zip(ids).zip(out.as_chunks_mut::<55>().0) {
        item[..2].copy_from_slice(&id.to_le_bytes());
        item[2..5].copy_from_slice(&record[48..51]);
        (item[5], item[6]) = (0, record[51]);
        item[7..].copy_from_slice(&record[..48]);
    }
    Ok(out.len())
}

fn u64_at(bytes: &[u8], at: usize) -> u64 {
    u64::from_le_bytes(bytes[at..at + 8].try_into().expect("eight bytes"))
}

/// The address stands at byte 12 of a Blas.
fn by_scan(records: &[u8], blases: &[u8], items: &mut [u8]) -> Result<usize, NotRead> {
    let blases = blases.as_chunks::<28>().0;
    let find = |address| {
        let (mut times, mut found) = (0, 0);
        for (k, blas) in blases.iter().enumerate() {
            if u64_at(blas, 12) == address {
                times += 1;
                found = k;
            }
        }
        match times {
            1 => u16::try_from(found).ok(),
            _ => None,
        }
    };
    read_by(find, records, items)
}

fn by_sorted(records: &[u8], blases: &[u8], items: &mut [u8]) -> Result<usize, NotRead> {
    let blases = blases.as_chunks::<28>().0.iter().enumerate();
    let mut addresses: Vec<(u64, usize)> = blases.map(|(k, blas)| (u64_at(blas, 12), k)).collect();
    addresses.sort_unstable();
    let find = |address| {
        let from = addresses.partition_point(|a| a.0 < address);
        match addresses[from..] {
            [a, b, ..] if a.0 == address && b.0 == address => None,
            [a, ..] if a.0 == address => u16::try_from(a.1).ok(),
            _ => None,
        }
    };
    read_by(find, records, items)
}

/// With none for an address of several.
fn by_map(records: &[u8], blases: &[u8], items: &mut [u8]) -> Result<usize, NotRead> {
    let blases = blases.as_chunks::<28>().0;
    let mut map = std::collections::HashMap::with_capacity(blases.len());
    for (k, blas) in blases.iter().enumerate() {
        map.entry(u64_at(blas, 12)).and_modify(|one| *one = None).or_insert(u16::try_from(k).ok());
    }
    read_by(|address| map.get(&address).copied().flatten(), records, items)
}

fn by_zakvind(records: &[u8], blases: &[u8], items: &mut [u8]) -> Result<usize, NotRead> {
    let a = zakvind::raw::read_instances(records, blases, items);
    match a.number {
        0 => Ok(a.written as usize),
        number => Err((number, a.e[0] as usize)),
    }
}

type ReadBack = fn(&[u8], &[u8], &mut [u8]) -> Result<usize, NotRead>;
const BACK: [ReadBack; 4] = [by_zakvind, by_scan, by_sorted, by_map];

/// All four answer the same, and leave the same.
fn alike(records: &[u8], blases: &[u8], room: usize, expected: Result<usize, NotRead>) {
    let all = BACK.map(|read| {
        let mut items = vec![7u8; room];
        (read(records, blases, &mut items), items)
    });
    assert!(all.iter().all(|one| one.0 == expected && one.1 == all[0].1), "{expected:?}");
}

/// Blases as far apart as an allocator may put them: by multiples of 256, or all by one.
fn blases_at(n: usize, step: Option<u64>) -> Vec<u8> {
    let mut raw = tables(&Shape { blases: n, declared: 0, ..SMALL });
    let (mut address, mut state) = (0x7f12_3400_0000, 1u64);
    for i in 0..n {
        raw.set(BLASES, i, blas::ADDRESS, address);
        state = state.wrapping_mul(6_364_136_223_846_793_005).wrapping_add(1_442_695_040_888_963_407);
        address += step.unwrap_or(256 * (16 + (state >> 33) % 4096));
    }
    raw.table(BLASES)
}

/// n records of instances whose Blases stand about the table in no order.
fn records_of(n: usize, blases: &[u8]) -> (Vec<u8>, Vec<u8>) {
    let mut t = tables(&only_slots(n));
    let mut state = 2u64;
    for i in 0..n {
        state = state.wrapping_mul(6_364_136_223_846_793_005).wrapping_add(1_442_695_040_888_963_407);
        t.set(SLOTS, i, slot::BLAS, (state >> 33) % (blases.len() / 28) as u64);
    }
    let (tlases, items) = (t.table(TLASES), lent_instances(&t.table(SLOTS)).concat());
    let mut records = vec![0; 64 * n];
    assert_eq!(zakvind::raw::append_instances(&tlases, blases, 0, &items, &mut records, 0).used as usize, records.len());
    (records, items)
}

fn back_row(name: &str, what: &str, n: usize, blases: &[u8]) -> Back {
    let (records, expected) = records_of(n, blases);
    let room = expected.len();
    // the same also where it is refused
    alike(&records, blases, room, Ok(room));
    alike(&records, blases, room - 1, Err((39, 0)));
    alike(&records[..64 * n - 1], blases, room, Err((48, 0)));
    for (at, byte, number) in [(52, 1, 49), (55, 128, 49), (63, 255, 50)] {
        let mut other = records.clone();
        other[64 * (n - 1) + at] = byte;
        alike(&other, blases, room, Err((number, n - 1)));
    }
    let first = (0..n).find(|k| records[64 * k + 56..64 * k + 64] == blases[12..20]);
    let twice = [blases, &blases[..28]].concat();
    alike(&records, &twice, room, first.map_or(Ok(room), |k| Err((50, k))));
    let mut out = BACK.map(|_| vec![1u8; room]);
    let mut target = vec![1u8; records.len()];
    let run = |k: usize, items: &mut [u8]| BACK[k](black_box(&records), black_box(blases), black_box(items));
    let [o0, o1, o2, o3] = &mut out;
    let [ours, scan, sorted, map, copy] = times(
        [
            &mut || {
                let _ = black_box(run(0, o0));
            },
            &mut || {
                let _ = black_box(run(1, o1));
            },
            &mut || {
                let _ = black_box(run(2, o2));
            },
            &mut || {
                let _ = black_box(run(3, o3));
            },
            &mut || black_box(&mut target).copy_from_slice(black_box(&records)),
        ],
        &mut || {},
    );
    assert!(out.iter().all(|items| *items == expected), "{name}");
    Back { name: name.into(), what: what.into(), ours, scan, sorted, map, copy }
}

/// Instances read back; and the call with no records, which is the index alone.
fn back_rows() -> (Vec<Back>, f64) {
    let (few, most) = (blases_at(12, None), blases_at(128, None));
    let rows = vec![
        back_row("back-40", "40 records, 12 Blases", 40, &few),
        back_row("back-512", "512 records, 128 Blases", 512, &most),
        back_row("back-512-one", "the same, the addresses in steps of 257 times 256", 512, &blases_at(128, Some(256 * 257))),
        back_row("back-512-256", "512 records, 256 Blases", 512, &blases_at(256, None)),
    ];
    assert_eq!(zakvind::raw::read_instances(&[], &most, &mut []).number, 0);
    let [index] = times(
        [&mut || {
            black_box(zakvind::raw::read_instances(black_box(&[]), black_box(&most), black_box(&mut [])));
        }],
        &mut || {},
    );
    (rows, index)
}

/// What lasts from one submission to the next: 16 Blases, and 4 Tlases with their lists.
struct Lasting {
    blases: Vec<u8>,
    tlases: Vec<u8>,
    counts: [u16; 4],
    dependencies: Vec<u16>,
    indices: zakvind::CommandIndices,
}

impl Lasting {
    fn new() -> Lasting {
        let mut raw = Raw { alignment: 1, ..Raw::default() };
        for i in 0..16 {
            raw.push(BLASES, &[0, 0, 0, 0, 0, i, 1]);
        }
        for _ in 0..4 {
            raw.push(TLASES, &[0, 0, 0, 512, 1]);
        }
        Lasting {
            blases: raw.table(BLASES),
            tlases: raw.table(TLASES),
            counts: [0; 4],
            dependencies: vec![0; 512 * 4],
            indices: zakvind::CommandIndices { active_submission_index: 0, next_acceleration_structure_build_command_index: 5 },
        }
    }

    /// The number that it is answered by.
    fn submit(&mut self, actions: &[u32], lists: &[u16]) -> u64 {
        let lent = zakvind::Lent {
            blases: &mut self.blases,
            tlases: &mut self.tlases,
            dependency_counts: &mut self.counts,
            dependencies: &mut self.dependencies,
        };
        zakvind::raw::submit(&mut self.indices, lent, black_box(actions), black_box(lists)).number
    }

    /// By hand, what a use of Tlas t over these Blases is judged by.
    fn usable(&self, t: usize, list: &[u16]) -> bool {
        let number = |table: &[u8], at: usize| number_at(table, at, 8);
        let own = number(&self.tlases, t * SIZES[TLASES] + 14);
        own != 0
            && list.iter().all(|&b| {
                let at = usize::from(b) * SIZES[BLASES];
                let n = number(&self.blases, at + 20);
                n != 0 && n <= own && self.blases[at + 3] == 0
            })
    }
}

/// Nanoseconds of a submission whose Builds are marks that name each Tlas's Blases, of the same as Builds, and of what there is without
/// that mark: the old marks, one submission up to each use, and lists that the caller keeps and compares before it.
struct Marked {
    name: String,
    what: String,
    ours: f64,
    build: f64,
    by_hand: f64,
}

fn mark_by_hand(lasting: &mut Lasting, acts: &[Act]) -> bool {
    let mut lists: [&[u16]; 4] = [&[]; 4];
    let mut waiting: Vec<u32> = Vec::new();
    for a in acts {
        match a {
            Act::Build { blases, tlases } => {
                blases.iter().for_each(|&b| waiting.extend([3, b.into(), 0, 0]));
                for (t, list) in tlases {
                    waiting.extend([4, (*t).into(), 0, 0]);
                    lists[usize::from(*t)] = list;
                }
            }
            Act::MarkBlas(b) => waiting.extend([3, *b, 0, 0]),
            Act::MarkTlas(t) => {
                waiting.extend([4, *t, 0, 0]);
                lists[*t as usize] = &[];
            }
            Act::Use(t) => {
                if lasting.submit(&waiting, &[]) != 0 || !lasting.usable((*t).into(), lists[usize::from(*t)]) {
                    return false;
                }
                waiting.clear();
                waiting.extend([2, (*t).into(), 0, 0]);
            }
        }
    }
    lasting.submit(&waiting, &[]) == 0
}

fn marked_row(n: usize) -> Marked {
    let acts: Vec<Act> = (0..n).map(ten).collect();
    let (builds, lists) = cells(&acts);
    let mut marks = builds.clone();
    marks.iter_mut().step_by(4).filter(|kind| **kind == 1).for_each(|kind| *kind = 5);
    let [mut of_marks, mut of_builds, mut of_hand] = [(); 3].map(|()| Lasting::new());
    assert_eq!((of_marks.submit(&marks, &lists), of_builds.submit(&builds, &lists)), (0, 0));
    assert!(of_marks.blases == of_builds.blases && of_marks.tlases == of_builds.tlases && mark_by_hand(&mut of_hand, &acts));
    let [ours, build, by_hand] = times(
        [
            &mut || {
                black_box(of_marks.submit(&marks, &lists));
            },
            &mut || {
                black_box(of_builds.submit(&builds, &lists));
            },
            &mut || {
                black_box(mark_by_hand(&mut of_hand, black_box(&acts)));
            },
        ],
        &mut || {},
    );
    Marked { name: format!("mark-{n}"), what: format!("submission of {n} actions"), ours, build, by_hand }
}

fn submit_row(n: usize) -> Row {
    let acts: Vec<Act> = (0..n).map(ten).collect();
    let mut lasting = Lasting::new();
    let input = paper::input(Version::One, 1, 5, [&[], &lasting.blases, &[], &lasting.tlases, &[], &[], &[], &[]]);
    let world = World::new(&input);
    let submission = Submission::new(acts.iter().map(|a| drive::action(&world, a).unwrap()).collect());
    let (actions, lists) = cells(&acts);
    assert!(submission.accepted(&world));
    assert_eq!(lasting.submit(&actions, &lists), 0);
    let [rust, made, ours] = times(
        [
            &mut || {
                let sent = Submission::new(drive::actions_of(black_box(&world), black_box(&actions), black_box(&lists)));
                black_box(sent.accepted(&world));
            },
            &mut || {
                black_box(black_box(&submission).accepted(black_box(&world)));
            },
            &mut || {
                black_box(lasting.submit(&actions, &lists));
            },
        ],
        &mut || {},
    );
    Row { name: format!("submit-{n}"), what: format!("submission of {n} actions"), rust, made, ours }
}

// ---- the paper --------------------------------------------------------------------------------------------------------

fn micro(ns: f64) -> String {
    format!("{:.2} us", ns / 1000.0)
}

/// The least time of the program on a full sheet, from its start to its end, if it is built.
fn program() -> String {
    let sheet = tables(&FULL).sheet();
    let path = "oracle/target/full.sheet";
    if !std::path::Path::new("target/bin/zakvind").exists() || std::fs::write(path, &sheet).is_err() {
        return "not built".into();
    }
    let least = (0..200)
        .map(|_| {
            let begin = Instant::now();
            let input = std::fs::File::open(path).expect("the sheet was written");
            let output = std::process::Command::new("target/bin/zakvind").stdin(input).output();
            assert!(output.is_ok_and(|o| o.stdout.starts_with(b"build 0 ")));
            begin.elapsed().as_secs_f64() * 1e9
        })
        .fold(f64::MAX, f64::min);
    micro(least)
}

fn line_of(file: &str, word: &str) -> String {
    let text = std::fs::read_to_string(file).unwrap_or_default();
    text.lines().find(|l| l.starts_with(word)).and_then(|l| l.split(':').nth(1)).unwrap_or("not known").trim().to_string()
}

fn main() {
    let rustc = std::env::var("RUSTC_VERSION").unwrap_or_default();
    let rows = vec![
        read_row(),
        build_row("build-small", "build of small tables: 1 entry, 1 geometry, 1 slot", &SMALL),
        build_row(
            "build-typical",
            "build of typical tables: 8 entries with indices and transforms, 2 packages, 80 slots",
            &TYPICAL,
        ),
        build_row("build-full", "build of full tables: 64 entries, 256 geometries, 32 packages, 512 slots", &FULL),
        build_row("instances-512", "build of one package of 512 slots: instance bytes", &only_slots(512)),
        submit_row(10),
        submit_row(1000),
        submit_row(100_000),
    ];
    let marks = [10, 1000].map(marked_row);
    let (append, copy) = append_rows();
    let many = [40, 512].map(many_row);
    let (backs, index) = back_rows();
    let anew = [
        written_anew("write-full", "a full sheet, nearly all of it used", &tables(&FULL)),
        written_anew("write-unused", "a full sheet of boxes and absent slots", &unused()),
    ];
    let converted = [Version::Two, Version::One].map(converted_row);
    let wides = [
        wide_row("wide-small", "build of small tables", &SMALL),
        wide_row("wide-typical", "build of typical tables", &TYPICAL),
        wide_row("wide-full", "build of full tables: 256 geometries", &FULL),
    ];
    let (groups, refused) = groups_rows();
    let roundings = [
        rounding_row("round-full", "build of full tables: 64 entries, 32 packages", &tables(&FULL)),
        rounding_row("round-bare", "the same without geometries and slots", &bare(0)),
        rounding_row("round-bare-large", "and with sizes above 2^33", &bare(1 << 33)),
    ];
    let hunts = hunted();
    let growth: Vec<Row> = [1, 4, 16, 64]
        .map(|n| build_row(&format!("entries-{n}"), &format!("{n} entries, {} geometries", 4 * n), &only_entries(n)))
        .into_iter()
        .chain([1, 8, 64, 512].map(|n| build_row(&format!("slots-{n}"), &format!("{n} slots"), &only_slots(n))))
        .chain([10, 100, 1000, 10_000, 100_000].map(|n| {
            let r = submit_row(n);
            Row { what: format!("{n} actions"), ..r }
        }))
        .collect();

    let mut marking = String::new();
    for r in &marks {
        let times = [r.ours, r.build, r.by_hand].map(micro).join(" | ");
        let _ = writeln!(marking, "| {} | {times} | {:.2} | {:.2} |", r.what, r.build / r.ours, r.by_hand / r.ours);
    }
    let mut at_once = String::new();
    for r in &many {
        let times = [r.ours, r.each, r.copy].map(micro).join(" | ");
        let _ = writeln!(at_once, "| {} | {} | {times} | {:.2} | {:.2} |", r.what, r.bytes, r.ours / r.copy, r.each / r.ours);
    }
    let mut reading_back = String::new();
    for r in &backs {
        let times = [r.ours, r.scan, r.sorted, r.map, r.copy].map(micro).join(" | ");
        let ratios = [r.scan / r.ours, r.sorted / r.ours, r.map / r.ours, r.ours / r.copy].map(|x| format!("{x:.2}")).join(" | ");
        let _ = writeln!(reading_back, "| {} | {times} | {ratios} |", r.what);
    }
    let mut writing = String::new();
    for r in &anew {
        let times = [r.ours, r.read, r.copy].map(micro).join(" | ");
        let _ = writeln!(writing, "| {} | {times} | {:.2} | {:.2} |", r.what, r.ours / r.read, r.ours / r.copy);
    }
    let mut converting = String::new();
    for r in &converted {
        let times = [r.ours, r.rust, r.looped, r.copy].map(micro).join(" | ");
        let ratios = [r.rust / r.ours, r.ours / r.looped, r.ours / r.copy].map(|x| format!("{x:.2}")).join(" | ");
        let _ = writeln!(converting, "| {} | {times} | {ratios} |", r.what);
    }
    let mut wide = String::new();
    for r in &wides {
        let times = [r.narrow, r.wide].map(micro).join(" | ");
        let _ = writeln!(wide, "| {} | {times} | {:.2} |", r.what, r.wide / r.narrow);
    }
    let mut opening = String::new();
    let typed = groups.last().map_or(0.0, |r| r.ours);
    for r in &groups {
        let times = [r.ours, r.copy].map(micro).join(" | ");
        let _ = writeln!(opening, "| {} | {} | {times} | {:.2} | {:.2} |", r.what, r.bytes, r.ours / r.copy, r.ours / typed);
    }
    let mut rounding = String::new();
    for r in &roundings {
        let times = [r.mask, r.division].map(micro).join(" | ");
        let each = (r.division - r.mask) / r.roundings as f64;
        let _ = writeln!(rounding, "| {} | {} | {times} | {:.2} | {each:.1} ns |", r.what, r.roundings, r.division / r.mask);
    }
    let mut hunting = String::new();
    for r in &hunts {
        let times = [r.ours, r.hunt].map(micro).join(" | ");
        let _ = writeln!(hunting, "| {} | {times} | {} | {:.2} |", r.what, r.builds, r.hunt / r.ours);
    }
    let instances = rows.iter().find(|r| r.name == "instances-512").unwrap();
    let table = |rows: &[Row]| {
        let mut text = String::new();
        for r in rows {
            let (rust, made) = (r.rust / r.ours, r.made / r.ours);
            let times = [r.rust, r.made, r.ours].map(micro).join(" | ");
            let _ = writeln!(text, "| {} | {times} | {rust:.2} | {made:.2} |", r.what);
        }
        text
    };
    let paper = format!(
        "# Speed\n\n\
         Written by `bench/run`: one run, {cpu}, {rustc}. The same driver calls both sides with the same inputs, both built for \
         release (the Rust with opt-level 3; the library as `bindings/library` makes it, for x86-64-v2, no inlining into the caller). The \
         least of {SAMPLES} samples of some 200 us each counts, the sides in turn.\n\n\
         Rust: from the same bytes and cells. Rust, made: on the Rust's own types, all made beforehand. A ratio is the Rust's time / \
         Zakvind's.\n\n\
         | What | Rust | Rust, made | Zakvind | ratio | made |\n|---|---|---|---|---|---|\n{rows}\n\
         What keeps the small build about three times as fast and no more: whatever the tables hold, ours judges eight of them, a call each, and \
         sets up its index of declared geometries, before the one entry.\n\n\
         A submission whose Builds are marks that name each Tlas's Blases, against the same as Builds, and against what there is without \
         that mark: the old marks, a submission up to each use, and in plain Rust the lists that the caller keeps and compares before it. The \
         ratios are Builds / ours and by hand / ours.\n\n\
         | What | marks | Builds | by hand | to Builds | to by hand |\n|---|---|---|---|---|---|\n{marking}\n\
         Instance bytes against a plain memory copy of the same 32,768 bytes ({copied}): the build of one package of 512 slots, all \
         its judging included, takes {a:.2} times as long; 512 instances appended by one call each {b:.2} times ({appended}).\n\n\
         What keeps these from twice a copy: a refused build leaves every byte, so all is judged before anything is written, and each slot is \
         looked at five times before its bytes are (its present byte, its id, its custom data and flags, and twice where present ones are \
         counted) and once more for the recorded list; the bytes themselves take one pass. In either way an instance's twelve numbers go \
         through `f32`, with the patterns of NaNs beside them; an appended one is a call of its own with an answer of seven numbers.\n\n\
         Many instances of one Tlas appended by one call, against one call each for the same, and a plain memory copy of the bytes that they \
         come to. The ratios are ours / copy and one call each / ours; all are judged, and then written in one pass, each one's twelve numbers \
         through `f32` as above, by what writes a build's instance bytes too.\n\n\
         | What | bytes | one call | one call each | copy | to a copy | each to one |\n|---|---|---|---|---|---|---|\n{at_once}\n\
         Instances read back from their records, against the same in plain Rust, which judges all and then writes: each record's \
         Blas by a scan of the table that counts those with its address, by a search of the addresses, sorted before, and by std's \
         `HashMap` of them; and against a plain memory copy of the records. The ratios are the Rust's / ours and ours / copy. \
         Up to 128 Blases are indexed, by what an address leaves when divided by 257; where all leave the same, and in a longer \
         table, they are looked through one by one. The index of 128 Blases alone, by a call with no records, takes {index}.\n\n\
         | What | ours | scan | sorted | map | copy | scan to ours | sorted to ours | map to ours | to a copy |\n\
         |---|---|---|---|---|---|---|---|---|---|\n{reading_back}\n\
         What keeps a row below 1: ours looks each record's Blas up twice, to judge all before anything is written, and to write, where \
         the Rust keeps what it found, in a vector of its own; and ours makes an instance of each record, its twelve numbers through \
         `f32`, where the Rust copies their bytes. Blases of one remainder are a chain, in which each step waits for the one \
         before.\n\n\
         A sheet written anew, against reading it alone and a plain memory copy of its 56,415 bytes, which is what a caller has who cannot \
         tell whether two sheets agree. The ratios are ours / reading and ours / copy; it judges the sheet as reading does, and then writes it \
         section by section.\n\n\
         | What | writing | reading | copy | to reading | to a copy |\n|---|---|---|---|---|---|\n{writing}\n\
         A sheet in the other version, against the same in plain Rust (judged by the reader below, then widened or narrowed record by record), \
         against that loop alone, which judges nothing, and a plain memory copy of the sheet's bytes. The ratios are judged / ours, ours / loop \
         and ours / copy; ours judges the sheet as reading does, and then writes it.\n\n\
         | What | ours | Rust, judged | loop alone | copy | ratio | to the loop | to a copy |\n|---|---|---|---|---|---|---|---|\n{converting}\n\
         Builds with the geometries of version 2, 48 bytes each, beside the same with those of version 1; the ratio is wide / narrow.\n\n\
         | What | narrow | wide | ratio |\n|---|---|---|---|\n{wide}\n\
         512 slots opened from groups, against a plain memory copy of the same 28,672 bytes, which is what a caller has who keeps them written \
         out, and against opening one group that has them so. The ratios are ours / copy and ours / written out; all groups are judged, then \
         the places of the slots are found, then the slots are copied.\n\n\
         | What | bytes | opening | copy | to a copy | to written out |\n|---|---|---|---|---|---|\n{opening}\n\
         64 groups, each of which but the first names the one before twice, name 2^63 slots in {most} bytes; they are refused by 46 at the \
         513th, in {refused}.\n\n\
         Scratch sizes are rounded to the alignment by a mask where that is a power of two, and else by division, which is what there is \
         instead. The same builds to 256 and to 255; the ratio is division / mask, and the last column what a division costs more, by the \
         difference of the two.\n\n\
         | What | roundings | to 256 | to 255 | ratio | more, each |\n|---|---|---|---|---|---|\n{rounding}\n\
         The entry at which scratch reaches 2^64 - 1, here the last: named by the one refused build, against the hunt that there is without \
         its name, by builds of the first entries alone with their geometries: one, two, and so on until one is refused by 37, or by halves. The \
         ratio is hunt / ours.\n\n\
         | What | one build | hunt | its builds | ratio |\n|---|---|---|---|---|\n{hunting}\n\
         The program `zakvind` on a full sheet, from its start to its end: {program}.\n\n\
         ## How it grows\n\n\
         | Work | Rust | Rust, made | Zakvind | ratio | made |\n|---|---|---|---|---|---|\n{growth}\n\
         ## What is timed\n\n\
         - Reading: the Rust has no sheet. Beside ours stands a reader written for the oracle in plain Rust (`oracle/src/paper.rs`), which \
         judges the same and allocates nothing.\n\
         - Building: of the Rust `command_encoder_build_acceleration_structures` (ids) and `build_acceleration_structures`, on buffers, Blases \
         and Tlases made beforehand. Entries, geometries, packages and slots are taken from the bytes within the time, or made beforehand; \
         what it records is dropped outside the time. Ours judges every field of all eight tables first, which the Rust's types spare \
         it, and writes into buffers that were filled once and are not cleared in between.\n\
         - Submission: of the Rust `validate_acceleration_structure_actions`, on actions that are made of the cells within the time (marks by \
         the Rust's own function) and dropped in it, or made beforehand. Ours judges the start and decodes the cells. In ten actions there \
         are two Builds, two marks and six uses; 16 Blases, 4 Tlases.\n\
         - The stand-ins record nothing here. Locks are `RefCell`s, trackers and the encoder do nothing, the registry is a vector: cheaper \
         than what they stand for, so the Rust is faster here than where it is used. What they cost and the Rust can't do without: making \
         the 64 bytes of an instance, in a vector of its own as its signature has it ({stand_in} for 512), and one copy into the staging \
         buffer.\n",
        cpu = line_of("/proc/cpuinfo", "model name"),
        rows = table(&rows),
        growth = table(&growth),
        copied = micro(copy),
        a = instances.ours / copy,
        b = append.ours / copy,
        appended = micro(append.ours),
        stand_in = micro(append.rust),
        program = program(),
        most = 2 + 2 + 56 + 63 * 8,
        refused = micro(refused),
        index = micro(index),
    );
    for r in rows.iter().chain(&growth) {
        println!(
            "{:<16} Rust {:>12}   made beforehand {:>12}   Zakvind {:>12}",
            r.name,
            micro(r.rust),
            micro(r.made),
            micro(r.ours)
        );
    }
    println!(
        "{:<16} stand-in {:>8}   Zakvind {:>12}   memory copy {}",
        append.name,
        micro(append.rust),
        micro(append.ours),
        micro(copy)
    );
    for r in &rows {
        println!("ratio {} {:.2}", r.name, r.rust / r.ours);
    }
    for r in &rows {
        println!("beforehand {} {:.2}", r.name, r.made / r.ours);
    }
    for r in &marks {
        println!("mark {} {:.2}", r.name, r.build / r.ours);
        println!("hand {} {:.2}", r.name, r.by_hand / r.ours);
    }
    for r in &anew {
        println!("write {} {:.2}", r.name, r.ours / r.read);
        println!("copy {} {:.2}", r.name, r.ours / r.copy);
    }
    for r in &converted {
        println!("convert {} {:.2}", r.name, r.rust / r.ours);
        println!("loop {} {:.2}", r.name, r.ours / r.looped);
        println!("copy {} {:.2}", r.name, r.ours / r.copy);
    }
    for r in &wides {
        println!("wide {} {:.2}", r.name, r.wide / r.narrow);
    }
    for r in &groups {
        println!("copy {} {:.2}", r.name, r.ours / r.copy);
        println!("open {} {:.2}", r.name, r.ours / typed);
    }
    println!("refused open-most {}", micro(refused));
    println!("copy instances-512 {:.2}", instances.ours / copy);
    println!("copy append-512 {:.2}", append.ours / copy);
    for r in &many {
        println!("copy {} {:.2}", r.name, r.ours / r.copy);
        println!("many {} {:.2}", r.name, r.each / r.ours);
    }
    for r in &backs {
        println!("scan {} {:.2}", r.name, r.scan / r.ours);
        println!("sorted {} {:.2}", r.name, r.sorted / r.ours);
        println!("map {} {:.2}", r.name, r.map / r.ours);
        println!("copy {} {:.2}", r.name, r.ours / r.copy);
    }
    println!("index back-128 {}", micro(index));
    for r in &roundings {
        println!("round {} {:.2}", r.name, r.division / r.mask);
    }
    for r in &hunts {
        println!("hunt {} {:.2}", r.name, r.hunt / r.ours);
    }
    if let Some(file) = std::env::args().nth(1) {
        std::fs::write(&file, paper).unwrap_or_else(|e| panic!("{file}: {e}"));
    }
}
