//! The paper's worked sheet and its eight examples, with some more of its sentences: what is expected is written here, and
//! the Rust and what is compared with it must both answer so.
use crate::layout::*;
use crate::rust_side::RustSide;
use crate::side::{Case, Side};

const TOP: u64 = u64::MAX;

fn worked() -> Raw {
    let mut raw = Raw { version: 1, alignment: 256, counter: 1, ..Raw::default() };
    raw.push(BUFFERS, &[36, 1]);
    raw.push(BLASES, &[0, 0, 0, 0, 300, 0, 0]);
    raw.push(DECLARED, &[0, 0, 3, 1, 12, 4, 0, 0, 0]);
    raw.push(TLASES, &[0, 0, 100, 1, 0]);
    raw.push(ENTRIES, &[0, 0, 1]);
    raw.push(GEOMETRIES, &[0, 3, 0, 12, 0, 1, 0, NONE, 0, 0, 0, 0, NONE, 0, 0]);
    raw.push(PACKAGES, &[0, 1]);
    raw.push(SLOTS, &{
        let mut slot = [0; 16];
        slot[slot::PRESENT] = 1;
        slot
    });
    raw.push(ACTIONS, &[1, 0]);
    raw.push(ACTIONS, &[2, 0]);
    raw
}

fn with(change: impl FnOnce(&mut Raw)) -> Vec<u8> {
    let mut raw = worked();
    change(&mut raw);
    raw.sheet()
}

/// The transform's buffer has `size` bytes.
fn transformed(size: u64) -> Vec<u8> {
    with(|r| {
        r.push(BUFFERS, &[size, 1]);
        r.set(BLASES, 0, blas::FLAGS, 1);
        r.set(GEOMETRIES, 0, geometry::TRANSFORM_BUFFER, 1);
        r.set(GEOMETRIES, 0, geometry::TRANSFORM_PRESENT, 1);
    })
}

/// An index buffer of 2^40 bytes, with this format and first index.
fn indexed(format: u64, first: u64) -> Vec<u8> {
    with(|r| {
        r.push(BUFFERS, &[1 << 40, 1]);
        r.sections[DECLARED] = vec![0, 0, 3, 1, 12, 4, format, 1, 3];
        r.sections[GEOMETRIES] = vec![0, 3, 0, 12, 0, 1, format, 1, 1, 3, 1, first, NONE, 0, 0];
    })
}

fn boxes(count: u64) -> Vec<u8> {
    with(|r| {
        r.set(BUFFERS, 0, buffer::SIZE, 1 << 40);
        r.set(BLASES, 0, blas::KIND, 1);
        r.set(DECLARED, 0, declared::COUNT, u32::MAX.into());
        r.set(ENTRIES, 0, entry::KIND, 1);
        r.sections[GEOMETRIES] = vec![0, count, 0, 24, 0, 0, 0, NONE, 0, 0, 0, 0, NONE, 0, 0];
    })
}

/// Blas scratch 300 and 10, Tlas scratch 1,000, no geometries; with the package or without.
fn totals(packages: bool) -> Vec<u8> {
    with(|r| {
        r.push(BLASES, &[0, 0, 0, 0, 10, 0, 0]);
        r.set(TLASES, 0, tlas::SCRATCH, 1000);
        r.sections[ENTRIES] = vec![0, 0, 0, 1, 0, 0];
        r.sections[GEOMETRIES].clear();
        r.sections[ACTIONS].clear();
        if !packages {
            r.sections[PACKAGES].clear();
            r.sections[SLOTS].clear();
        }
    })
}

/// Two entries and two packages with these scratch sizes.
fn broken(blases: [u64; 2], tlases: [u64; 2]) -> Vec<u8> {
    with(|r| {
        r.push(BLASES, &[0, 0, 0, 0, blases[1], 0, 0]);
        r.set(BLASES, 0, blas::SCRATCH, blases[0]);
        r.push(ENTRIES, &[1, 0, 0]);
        r.push(TLASES, &[0, 0, tlases[1], 1, 0]);
        r.set(TLASES, 0, tlas::SCRATCH, tlases[0]);
        r.push(PACKAGES, &[1, 0]);
    })
}

/// A scratch size at alignment 1.
fn unrounded(size: u64) -> Vec<u8> {
    with(|r| {
        r.alignment = 1;
        r.set(BLASES, 0, blas::SCRATCH, size);
    })
}

pub fn sheets() -> Vec<(&'static str, Vec<u8>, &'static str)> {
    let passes = "build 0 0 0 0 0 0\n";
    let set = |section, field, value| with(|r| r.set(section, 0, field, value));
    vec![
        ("worked sheet", worked().sheet(), "build 0 0 0 0 0 0\nscratch 512\nblas 0 0\ntlas 0 0 0 64\nsubmit 0 0 0 0\nnext 2\n"),
        ("1: custom data 16,777,215", set(SLOTS, slot::CUSTOM_DATA, 16_777_215), passes),
        ("1: custom data 16,777,216", set(SLOTS, slot::CUSTOM_DATA, 16_777_216), "build 34 0 0 0 0 0\n"),
        ("2: transform of 48 bytes", transformed(48), passes),
        ("2: of 47", transformed(47), "build 23 0 0 0 48 47\n"),
        ("3: two-byte first index 2,147,483,648", indexed(1, 1 << 31), "build 26 0 0 4294967296 2147483648 2\n"),
        ("4: 178,956,971 boxes of 24", boxes(178_956_971), "build 26 0 0 4294967304 178956971 24\n"),
        ("4: one fewer", boxes(178_956_970), passes),
        (
            "5: an empty list of the other kind",
            with(|r| {
                r.sections[ENTRIES] = vec![0, 1, 0];
                r.sections[GEOMETRIES].clear();
            }),
            passes,
        ),
        ("5: not empty", set(ENTRIES, entry::KIND, 1), "build 10 0 0 0 0 0\n"),
        (
            "6: offsets 0, 512; size 1,024",
            totals(true),
            "build 0 0 0 0 0 0\nscratch 1024\nblas 0 0\nblas 1 512\ntlas 0 0 0 64\nsubmit 0 0 0 0\nnext 1\n",
        ),
        ("6: Blases alone", totals(false), "build 0 0 0 0 0 0\nscratch 768\nblas 0 0\nblas 1 512\nsubmit 0 0 0 0\nnext 1\n"),
        ("37 by rounding", set(BLASES, blas::SCRATCH, TOP), "build 37 0 0 1 0 0\n"),
        ("37 of a later entry, by the sum", broken([1 << 63, 1 << 63], [100, 100]), "build 37 1 0 1 0 0\n"),
        ("37 of a package", broken([300, 300], [100, TOP - 255]), "build 37 1 0 2 0 0\n"),
        ("37 of an entry before that of a package", broken([300, TOP], [TOP, TOP]), "build 37 1 0 1 0 0\n"),
        ("37 where 2^64 - 1 is reached", unrounded(TOP), "build 37 0 0 1 0 0\n"),
        ("one less passes", unrounded(TOP - 1), "build 0 0 0 0 0 0\nscratch 18446744073709551614\n"),
        (
            "zero scratch returns first",
            with(|r| {
                r.sections[BLASES] = vec![0, 0, 3, 1, 0, 0, 0];
                r.sections[TLASES] = vec![0, 1, 0, 1, 0];
                r.set(ACTIONS, 0, 1, 7);
            }),
            "build 0 0 0 0 0 0\nsubmit 43 1 0 0\nnext 1\n",
        ),
        ("38", set(BLASES, blas::STATE, 3), "build 38 0 0 0 0 0\n"),
        ("25: index format none", indexed(0, 0), "build 25 0 0 0 0 0\n"),
        (
            "35 counts absent slots",
            with(|r| {
                r.sections[TLASES] = vec![2, 0, 1, 5, 0];
                r.set(PACKAGES, 0, package::COUNT, 3);
                r.insert(SLOTS, 0, &[0; 16]);
                r.insert(SLOTS, 0, &[0; 16]);
            }),
            "build 35 0 2 0 0 0\n",
        ),
        ("a cut sheet", worked().sheet()[..24].to_vec(), "sheet 2 24\n"),
        ("a byte more", [worked().sheet(), vec![0]].concat(), "sheet 3 223\n"),
        ("another version", vec![3], "sheet 1 0\n"),
        ("a data buffer 65535", set(GEOMETRIES, geometry::BUFFER, NONE), "sheet 5 124\n"),
    ]
}

/// The worked sheet in version 2, changed.
fn wide(change: impl FnOnce(&mut Raw)) -> Vec<u8> {
    with(|r| {
        r.version = 2;
        change(r);
    })
}

/// Three vertices of 12 bytes from `first` on, in a buffer of `size` bytes.
fn vertices(first: u64, size: u64) -> Vec<u8> {
    wide(|r| {
        r.set(GEOMETRIES, 0, geometry::FIRST, first);
        r.set(BUFFERS, 0, buffer::SIZE, size);
    })
}

/// `count` boxes of 24 bytes at `first`, in a buffer of `size` bytes.
fn far_boxes(count: u64, first: u64, size: u64) -> Vec<u8> {
    wide(|r| {
        let boxes = Raw::from_sheet(&boxes(count)).expect("a whole sheet");
        r.sections = boxes.sections;
        r.set(GEOMETRIES, 0, geometry::FIRST, first);
        r.set(BUFFERS, 0, buffer::SIZE, size);
    })
}

/// What request 6 says of sheets; these are not recorded, since of an offset from 2^32 on the Rust says nothing.
fn wide_sheets() -> Vec<(&'static str, Vec<u8>, &'static str)> {
    let (passes, far) = ("build 0 0 0 0 0 0\n", 1 << 32);
    vec![
        (
            "worked sheet in version 2",
            wide(|_| {}),
            "build 0 0 0 0 0 0\nscratch 512\nblas 0 0\ntlas 0 0 0 64\nsubmit 0 0 0 0\nnext 2\n",
        ),
        ("version 0", with(|r| r.version = 0), "sheet 1 0\n"),
        ("version 3", with(|r| r.version = 3), "sheet 1 0\n"),
        ("nothing but version 2", vec![2], "sheet 2 1\n"),
        ("a byte more in version 2", [wide(|_| {}), vec![0]].concat(), "sheet 3 227\n"),
        ("a data buffer 65535 in version 2", wide(|r| r.set(GEOMETRIES, 0, geometry::BUFFER, NONE)), "sheet 5 128\n"),
        ("vertices from 2^32 on that fit", vertices(far, (far + 3) * 12), passes),
        ("a byte less", vertices(far, (far + 3) * 12 - 1), "build 23 0 0 51539607552 36 51539607587\n"),
        ("vertices from 2^64 - 1 on", vertices(TOP, TOP), "build 23 0 0 18446744073709551615 36 18446744073709551615\n"),
        ("a box at 2^32 that fits", far_boxes(1, far, far + 24), passes),
        ("a byte less of boxes", far_boxes(1, far, far + 23), "build 23 0 0 4294967296 24 4294967319\n"),
        ("a box at 2^32 + 4", far_boxes(1, far + 4, TOP), "build 32 0 0 0 0 0\n"),
        ("a box whose end is 2^64", far_boxes(1, TOP - 23, TOP), "build 23 0 0 18446744073709551592 24 18446744073709551615\n"),
        ("eight bytes before it", far_boxes(1, TOP - 31, TOP), passes),
        ("178,956,971 boxes of 24 at 2^32", far_boxes(178_956_971, far, TOP), "build 26 0 0 4294967304 178956971 24\n"),
    ]
}

/// What request 6 says of converters: to which version, the sheet, number and place, and the sheet that is written.
type Conversion = (&'static str, Version, Vec<u8>, [u64; 2], Vec<u8>);

fn conversions() -> Vec<Conversion> {
    use Version::{One, Two};
    let far = |firsts: &'static [u64]| {
        wide(|r| {
            r.sections[GEOMETRIES] = firsts.iter().flat_map(|&f| [0, 3, f, 12, 0, 1, 0, NONE, 0, 0, 0, 0, NONE, 0, 0]).collect();
            r.set(ENTRIES, 0, entry::COUNT, firsts.len() as u64);
        })
    };
    let cut = |sheet: Vec<u8>| sheet[..24].to_vec();
    let (one, two, nothing) = (worked().sheet(), wide(|_| {}), Vec::new);
    vec![
        ("1 to 2", Two, one.clone(), [0, 0], two.clone()),
        ("2 to 1", One, two.clone(), [0, 0], one.clone()),
        ("the other way's version: 2 to 2", Two, two.clone(), [1, 0], nothing()),
        ("the other way's version: 1 to 1", One, one.clone(), [1, 0], nothing()),
        ("the other way's version, cut", One, cut(one.clone()), [1, 0], nothing()),
        ("neither version", One, vec![3], [1, 0], nothing()),
        ("nothing", Two, nothing(), [2, 0], nothing()),
        ("the reader's", Two, cut(one.clone()), [2, 24], nothing()),
        ("2^32 - 1 fits", One, far(&[4_294_967_295]), [0, 0], with(|r| r.set(GEOMETRIES, 0, geometry::FIRST, 4_294_967_295))),
        ("2^32 doesn't", One, far(&[4_294_967_296]), [47, 112], nothing()),
        ("the second doesn't", One, far(&[7, 4_294_967_296, TOP]), [47, 160], nothing()),
    ]
}

/// What request 7 says of records: the Blases' addresses, the records, room, number and record, and the items that are written.
type Reading = (&'static str, Vec<u64>, Vec<u8>, usize, [u64; 2], Vec<u8>);

/// Patterns of an f32 without its sign: zero, subnormal and normal ones, infinity, signalling and quiet NaNs with their payloads.
const PATTERNS: [u32; 12] = [
    0,
    1,
    0x40_0000,
    0x7f_ffff,
    0x80_0000,
    0x7f7f_ffff,
    0x7f80_0000,
    0x7f80_0001,
    0x7fbf_ffff,
    0x7fc0_0000,
    0x7fd5_5555,
    0x7fff_ffff,
];

fn words(numbers: &[u32]) -> Vec<u8> {
    numbers.iter().flat_map(|n| n.to_le_bytes()).collect()
}

/// Of these numbers, with custom data and mask in one u32.
fn record_of(numbers: [u32; 12], packed: u32, word: u32, address: u64) -> Vec<u8> {
    [words(&numbers), words(&[packed, word]), address.to_le_bytes().to_vec()].concat()
}

fn item_of(blas: u16, custom_data: u32, mask: u8, numbers: [u32; 12]) -> Vec<u8> {
    [&blas.to_le_bytes()[..], &custom_data.to_le_bytes(), &[mask], &words(&numbers)].concat()
}

fn readings() -> Vec<Reading> {
    let numbers = [0x3f80_0000; 12];
    let (plain, item) = (|address| record_of(numbers, 0, 0, address), |blas| item_of(blas, 0, 0, numbers));
    let odd = |word, address| record_of(numbers, 0, word, address);
    let packed = |packed| record_of(numbers, packed, 0, 5);
    // each in each of the twelve places, of either sign
    let signed: Vec<[u32; 12]> =
        (0..12).flat_map(|k| [0, 1 << 31].map(|sign| std::array::from_fn(|i| PATTERNS[(i + k) % 12] | sign))).collect();
    let (records, items): (Vec<_>, Vec<_>) = signed.iter().map(|n| (record_of(*n, 0, 0, 7), item_of(0, 0, 0, *n))).unzip();
    let nothing = Vec::new;
    vec![
        ("no records", vec![1], nothing(), 0, [0, 0], nothing()),
        ("the second of three", vec![4, 5, 6], plain(5), 55, [0, 0], item(1)),
        ("every class of number", vec![7], records.concat(), 24 * 55, [0, 0], items.concat()),
        ("address 0", vec![5, 0], plain(0), 55, [0, 0], item(1)),
        ("address 2^64 - 1", vec![5, 0, TOP], plain(TOP), 55, [0, 0], item(2)),
        ("an address in its high half", vec![5, 5 | 1 << 32], plain(5 | 1 << 32), 55, [0, 0], item(1)),
        ("custom data 2^24 - 1, mask 1", vec![5], packed(0x1ff_ffff), 55, [0, 0], item_of(0, 0xff_ffff, 1, numbers)),
        ("custom data 2^23, mask 128", vec![5], packed(0x8080_0000), 55, [0, 0], item_of(0, 1 << 23, 128, numbers)),
        ("no Blas", vec![], plain(5), 55, [50, 0], nothing()),
        ("no Blas has it", vec![4, 6], [plain(6), plain(5)].concat(), 110, [50, 1], nothing()),
        ("two have it", vec![5, 4, 5], [plain(4), plain(5)].concat(), 110, [50, 1], nothing()),
        ("two have another", vec![4, 5, 4], plain(5), 55, [0, 0], item(1)),
        ("a part of a length of 64", vec![5], plain(5)[..63].to_vec(), 55, [48, 0], nothing()),
        ("48 before all", vec![5], [odd(1, 6), vec![0]].concat(), 0, [48, 0], nothing()),
        ("49", vec![5], [plain(5), odd(1, 5)].concat(), 110, [49, 1], nothing()),
        ("49 by its last bit", vec![5], odd(1 << 31, 5), 55, [49, 0], nothing()),
        ("49 before 50 of a record", vec![5], odd(1, 6), 55, [49, 0], nothing()),
        ("50 of the first before 49 of the second", vec![5], [plain(6), odd(1, 5)].concat(), 110, [50, 0], nothing()),
        ("39", vec![5], plain(5), 54, [39, 0], nothing()),
        ("39 after 50", vec![5], [plain(5), plain(6)].concat(), 55, [50, 1], nothing()),
        ("39 after 49", vec![5], odd(1, 5), 0, [49, 0], nothing()),
    ]
}

/// Answers and counters of submissions on what the one before left.
pub type Answers = Vec<([u64; 4], u64)>;

pub fn submissions() -> Vec<(&'static str, Case, Answers)> {
    let start = |counter: u64, tlases: usize, pieces: Vec<(Vec<u32>, Vec<u16>)>| Case::Submit {
        indices: [0, counter],
        blases: vec![0; 28],
        tlases: vec![0; 22 * tlases],
        dependency_counts: vec![0; tlases],
        dependencies: vec![0; 512 * tlases],
        pieces,
    };
    let build = (vec![1, 0, 1, 0], vec![0]);
    vec![
        (
            "7",
            start(5, 1, vec![(vec![1, 0, 1, 1, 2, 0, 0, 0], vec![0, 0, 1, 0]), (vec![3, 0, 0, 0, 2, 0, 0, 0], vec![])]),
            vec![([0; 4], 6), ([44, 1, 0, 0], 7)],
        ),
        (
            "7 with a mark of B0 and of T0 over B0 in place of the first Build",
            start(5, 1, vec![(vec![5, 0, 1, 1, 2, 0, 0, 0], vec![0, 0, 1, 0]), (vec![3, 0, 0, 0, 2, 0, 0, 0], vec![])]),
            vec![([0; 4], 6), ([44, 1, 0, 0], 7)],
        ),
        ("8", start(TOP, 0, vec![build.clone(), build.clone()]), vec![([0; 4], 0), ([40, 0, 0, 0], 0)]),
        ("8 in one", start(TOP, 0, vec![(vec![1, 0, 1, 0, 1, 0, 1, 0], vec![0])]), vec![([40, 1, 0, 0], 0)]),
    ]
}

/// Says which answers are not as expected; `true` where all are.
pub fn run(other: Option<(&mut dyn Side, &str)>) -> bool {
    let mut rust = RustSide::checked();
    let mut sides: Vec<(&mut dyn Side, &str)> = vec![(&mut rust, "the Rust")];
    sides.extend(other);
    let mut bad = 0;
    let mut count = 0;
    for (side, name) in sides {
        for (what, sheet, expected) in sheets().into_iter().chain(wide_sheets()) {
            let mut out = vec![0; 1 << 16];
            let answer = side.report(&sheet, &mut out);
            let text = String::from_utf8_lossy(&out[..answer[1] as usize]).into_owned();
            count += 1;
            if !text.starts_with(expected) {
                bad += 1;
                println!("{name}: {what}: expected\n{expected}got\n{text}");
            }
        }
        for (what, to, sheet, expected, written) in conversions() {
            let mut out = vec![7; 1 << 10];
            let [number, place, n] = side.convert(to, &sheet, &mut out);
            let whole = [&written[..], &vec![7; out.len() - written.len()]].concat();
            count += 1;
            if ([number, place], n as usize) != (expected, written.len()) || out != whole {
                bad += 1;
                println!("{name}: {what}: expected {expected:?} and {} bytes, got {number}, {place} and {n}", written.len());
            }
        }
        for (what, addresses, records, room, expected, items) in readings() {
            let mut raw = Raw::default();
            addresses.iter().for_each(|&address| raw.push(BLASES, &[1, 2, 3, 1, 0, address, 0]));
            let mut out = vec![7; room + 9];
            let answer = side.read_instances(&records, &raw.table(BLASES), &mut out[..room]);
            let whole = [&items[..], &vec![7; out.len() - items.len()]].concat();
            count += 1;
            if answer != [expected[0], expected[1], 0, items.len() as u64] || out != whole {
                bad += 1;
                println!("{name}: {what}: expected {expected:?} and {} bytes, got {answer:?}", items.len());
            }
        }
        for (what, case, expected) in submissions() {
            let parts = case.run(side, 0);
            let answers: Answers = parts.chunks(7).map(|p| (p[0].values.clone().try_into().unwrap(), p[1].values[1])).collect();
            count += 1;
            if answers != expected {
                bad += 1;
                println!("{name}: example {what}: expected {expected:?}, got {answers:?}");
            }
        }
    }
    println!("examples: {count} answers, {bad} not as expected");
    bad == 0
}
