//! `record`: a fixed list of sheets and library submissions (`record_submissions.rs`) with the answers of the Rust, for the
//! program that replays them. The list is chosen so that every number that a sheet or a submission can draw, each boundary of
//! each field and each kind of action is in it, and stays small. It is the same on every run.
use std::collections::BTreeSet;

use crate::generate;
use crate::layout::*;
use crate::reading::Reading;
use crate::record_submissions::{submission_bytes, submission_text, submissions};
use crate::rust_side::{guarded, RustSide};
use crate::side::{Case, Side};

pub const TOP: u64 = u64::MAX;

/// A sheet that uses every section and passes: triangles with indices and a transform, boxes, two Tlases, an absent slot.
fn rich() -> Raw {
    let mut raw = Raw { version: 1, alignment: 256, counter: 5, ..Raw::default() };
    for size in [60, 98, 64, 248] {
        raw.push(BUFFERS, &[size, 1]);
    }
    raw.push(BLASES, &[0, 7, 0, 0, 300, 1 << 40, 0]);
    raw.push(BLASES, &[1, 4, 1, 0, 10, 77, 3]);
    raw.push(DECLARED, &[0, 1, 3, 1, 12, 4, 1, 1, 6]);
    raw.push(DECLARED, &[1, 2, 10, 0, 0, 0, 9, 9, 9]);
    raw.push(TLASES, &[2, 0, 100, 2, 0]);
    raw.push(TLASES, &[0, 0, 1, 1, 2]);
    raw.push(ENTRIES, &[0, 0, 1]);
    raw.push(ENTRIES, &[1, 1, 1]);
    raw.push(GEOMETRIES, &[1, 3, 2, 12, 0, 1, 1, 1, 1, 6, 1, 43, 2, 1, 16]);
    raw.push(GEOMETRIES, &[2, 10, 8, 24, 3, 0, 9, 9, 9, 9, 9, 9, 9, 9, 9]);
    raw.push(PACKAGES, &[0, 2]);
    raw.push(PACKAGES, &[1, 1]);
    let mut slot = [0x3f80_0000; 16];
    slot[..4].copy_from_slice(&[1, 0, 5, 255]);
    raw.push(SLOTS, &slot);
    raw.push(SLOTS, &[0; 16]);
    slot[..4].copy_from_slice(&[1, 1, (1 << 24) - 1, 1]);
    slot[15] = 0x7fa0_0001;
    raw.push(SLOTS, &slot);
    for action in [[1, 0], [2, 0], [3, 1], [4, 1], [2, 1], [2, 0]] {
        raw.push(ACTIONS, &action);
    }
    raw
}

/// Values about which a field may turn; first those next to its own.
pub fn boundaries(width: usize, v: u64) -> Vec<u64> {
    let top = TOP >> (64 - 8 * width);
    let mut all = vec![v.wrapping_sub(1) & top, v.wrapping_add(1) & top, 0, 1, top];
    let turns = [
        2,
        3,
        4,
        5,
        7,
        8,
        15,
        16,
        23,
        24,
        25,
        255,
        256,
        65534,
        65535,
        (1 << 24) - 1,
        1 << 24,
        1 << 30,
        1 << 31,
        TOP >> 32,
        1 << 32,
    ];
    all.extend(turns.into_iter().filter(|&t| t < top));
    if width == 8 {
        all.extend([TOP - 255, TOP - 256, 1 << 63]);
    }
    all
}

struct List {
    seen: BTreeSet<Vec<u8>>,
    sheets: Vec<Vec<u8>>,
}

impl List {
    fn take(&mut self, sheet: Vec<u8>) {
        if self.seen.insert(sheet.clone()) {
            self.sheets.push(sheet);
        }
    }
}

/// Each field of a sheet, set to the values about which it may turn: always to those next to its own, to the others where
/// the answer is one that the field didn't draw before.
fn field_by_field(list: &mut List, rust: &mut RustSide, base: &Raw) {
    for s in 0..9 {
        for i in 0..base.sections[s].len() {
            let field = i % WIDTHS[s].len();
            let mut drawn = BTreeSet::new();
            for (k, v) in boundaries(WIDTHS[s][field], base.sections[s][i]).into_iter().enumerate() {
                let mut raw = base.clone();
                raw.sections[s][i] = v;
                let sheet = raw.sheet();
                let numbers: Vec<String> =
                    rust.text(&sheet).lines().map(|l| l.split(' ').take(2).collect::<Vec<_>>().join(" ")).collect();
                if drawn.insert(numbers) || k < 2 {
                    list.take(sheet);
                }
            }
        }
    }
}

/// Two faults at once, which the order of the checks tells apart: of each field one change for each number that it draws from
/// the build, in the order in which the Rust answers them, and each with the three that follow it.
fn pairs(list: &mut List, rust: &mut RustSide, base: &Raw) {
    let with = |changes: &[(usize, usize, u64)]| {
        let mut raw = base.clone();
        changes.iter().for_each(|&(s, i, v)| raw.sections[s][i] = v);
        raw.sheet()
    };
    let mut answer = |sheet: &[u8]| rust.text(sheet).lines().next().unwrap_or("").to_string();
    let mut changes = Vec::new();
    for s in 0..8 {
        for i in 0..base.sections[s].len() {
            let mut drawn = BTreeSet::new();
            for v in boundaries(WIDTHS[s][i % WIDTHS[s].len()], base.sections[s][i]) {
                let line = answer(&with(&[(s, i, v)]));
                let number = line.split(' ').take(2).collect::<Vec<_>>().join(" ");
                if number.starts_with("build") && number != "build 0" && drawn.insert(number) {
                    changes.push(((s, i, v), line));
                }
            }
        }
    }
    // answered first is what is answered beside most others
    let mut order: Vec<(usize, usize)> = (0..changes.len())
        .map(|k| (changes.iter().filter(|(other, _)| answer(&with(&[changes[k].0, *other])) != changes[k].1).count(), k))
        .collect();
    order.sort();
    for at in 0..order.len() {
        for later in order[at + 1..].iter().take(3) {
            list.take(with(&[changes[order[at].1].0, changes[later.1].0]));
        }
    }
}

/// A small sheet whose build has one Blas, and a Tlas over it and another.
fn small() -> Raw {
    let mut base = Raw { version: 1, alignment: 256, ..Raw::default() };
    base.push(BLASES, &[0, 7, 0, 0, 300, 1 << 40, 0]);
    base.push(BLASES, &[1, 4, 1, 0, 10, 77, 3]);
    base.push(TLASES, &[0, 0, 100, 2, 0]);
    base.push(TLASES, &[2, 0, 1, 1, 2]);
    base.push(ENTRIES, &[0, 0, 0]);
    base.push(PACKAGES, &[0, 2]);
    for blas in [0, 1] {
        let mut slot = [0; 16];
        (slot[slot::PRESENT], slot[slot::BLAS]) = (1, blas);
        base.push(SLOTS, &slot);
    }
    base
}

/// Every list of up to three actions on the small sheet, at four counters; of up to two after the build where the second Blas
/// is destroyed or compacted; and the sheet's fields one by one.
fn actions(list: &mut List, rust: &mut RustSide) {
    let base = small();
    let kinds = [[1, 0], [2, 0], [3, 0], [4, 0], [2, 1], [3, 1]];
    let starts = [(1, 3, 0, 0), (5, 3, 0, 0), (TOP, 3, 0, 0), (0, 3, 0, 0), (5, 2, 0, 1), (5, 2, 3, 0)];
    for (counter, most, state, destroyed) in starts {
        for n in 0..=most {
            for k in 0..kinds.len().pow(n) {
                let mut raw = base.clone();
                raw.counter = counter;
                raw.set(BLASES, 1, blas::STATE, state);
                raw.set(BLASES, 1, blas::DESTROYED, destroyed);
                // at the outer counters only what ends with a Build or a mark
                let last = kinds[k % kinds.len()][0];
                if n == 3 && (counter == 0 || counter == TOP) && last == 2 {
                    continue;
                }
                if most == 2 {
                    raw.push(ACTIONS, &kinds[0]);
                }
                let mut k = k;
                for _ in 0..n {
                    raw.push(ACTIONS, &kinds[k % kinds.len()]);
                    k /= kinds.len();
                }
                list.take(raw.sheet());
            }
        }
    }
    let mut raw = Raw { counter: 5, ..base };
    for action in [[1, 0], [2, 0], [3, 1], [2, 1], [2, 0]] {
        raw.push(ACTIONS, &action);
    }
    field_by_field(list, rust, &raw);
}

/// Sections as long as they may be, and one longer: a count above its limit is refused before its records are read, so the
/// sheet may end there.
fn limits(list: &mut List) {
    let base = rich();
    for s in 0..9 {
        let at = base.place(s);
        for n in [LIMITS[s], LIMITS[s] + 1, 65535] {
            let mut sheet = base.sheet()[..at].to_vec();
            sheet.extend((n as u16).to_le_bytes());
            list.take(sheet);
        }
    }
    let mut full = Raw { version: 1, alignment: 256, counter: 1, ..Raw::default() };
    (0..256).for_each(|_| full.push(BUFFERS, &[36, 1]));
    (0..128).for_each(|i| full.push(BLASES, &[0, i % 8 & 6, 0, 0, 300, i, 1]));
    (0..512).for_each(|i| full.push(DECLARED, &[i % 128, 0, 3, 1, 12, 4, 0, 0, 0]));
    (0..32).for_each(|_| full.push(TLASES, &[0, 0, 100, 16, 0]));
    (0..64).for_each(|i| full.push(ENTRIES, &[i, 0, 4]));
    (0..256).for_each(|i| full.push(GEOMETRIES, &[0, 3, 0, 12, i, 1, 0, NONE, 0, 0, 0, 0, NONE, 0, 0]));
    (0..32).for_each(|i| full.push(PACKAGES, &[i, 16]));
    let mut slot = [0; 16];
    slot[slot::PRESENT] = 1;
    (0..512).for_each(|i| {
        slot[slot::BLAS] = i % 128;
        full.push(SLOTS, &slot);
    });
    (0..64).for_each(|i| full.push(ACTIONS, &[1 + i % 2, i % 32]));
    list.take(full.sheet());
    // a longer one than any that is accepted
    list.take([full.sheet(), vec![0]].concat());
    // drawn counts whose sum is a u16's only modulo 2^16
    for (drawing, drawn, count) in [(ENTRIES, GEOMETRIES, entry::COUNT), (PACKAGES, SLOTS, package::COUNT)] {
        for (first, second) in [(65535, 1), (65535, 2), (65534, 3)] {
            let mut raw = small();
            raw.push(drawing, &vec![0; WIDTHS[drawing].len()]);
            raw.set(drawing, 0, count, first);
            raw.set(drawing, 1, count, second);
            let n = (first + second) as usize % 65536;
            raw.sections[drawn] = vec![0; n * WIDTHS[drawn].len()];
            list.take(raw.sheet());
        }
    }
}

/// Entries and packages with these scratch sizes, and with nothing else.
fn sized(alignment: u64, blases: &[u64], tlases: &[u64]) -> Raw {
    let mut raw = Raw { version: 1, alignment, counter: 1, ..Raw::default() };
    for (id, &size) in (0..).zip(blases) {
        raw.push(BLASES, &[0, 0, 0, 0, size, 0, 0]);
        raw.push(ENTRIES, &[id, 0, 0]);
    }
    for (id, &size) in (0..).zip(tlases) {
        raw.push(TLASES, &[0, 0, size, 1, 0]);
        raw.push(PACKAGES, &[id, 0]);
    }
    raw
}

/// Scratch totals of 2^64 - 2, 2^64 - 1 and 2^64, of three entries, three packages or both, at the first, the second or the last: after
/// zeros, by a sum, and by a rounding at an alignment that divides the total; then at the last of as many as there may be.
fn totals(list: &mut List) {
    let (below, top) = (u128::from(TOP) - 1, u128::from(TOP));
    let comes_to = |end: u128, alignment: u64, before: u64, at: usize| -> [u64; 3] {
        let rest = end - at as u128 * u128::from(before.next_multiple_of(alignment)) - u128::from(alignment - 1);
        let size = rest.min(top) as u64;
        std::array::from_fn(|i| match i {
            _ if i < at => before,
            _ if i == at => size,
            _ => 1,
        })
    };
    for (end, divisor) in [(below, 2), (top, 3), (top + 1, 256)] {
        for (alignment, before) in [(1, 0), (1, 1), (divisor, 1)] {
            for at in 0..3 {
                let sizes = comes_to(end, alignment, before, at);
                let others = comes_to(end, alignment, before, (at + 1) % 3);
                // entries whose whole total stays below by as little as it can
                let unit = u128::from(alignment);
                let near = comes_to(below / unit * unit - 2 * unit, alignment, before, 0);
                for (blases, tlases) in [(sizes, [1; 3]), ([1; 3], sizes), (sizes, others), (near, sizes)] {
                    list.take(sized(alignment, &blases, &tlases).sheet());
                }
            }
        }
    }
    // a power of two as often as there may be comes to 2^64; the last may be less
    for less in [0, 1, 2] {
        let mut entries = sized(1, &[1 << 58, (1 << 58) - less], &[]);
        (2..LIMITS[ENTRIES]).for_each(|_| entries.insert(ENTRIES, 0, &[0, 0, 0]));
        list.take(entries.sheet());
        let mut packages = sized(1, &[], &[1 << 59, (1 << 59) - less]);
        (2..LIMITS[PACKAGES]).for_each(|_| packages.insert(PACKAGES, 0, &[0, 0]));
        list.take(packages.sheet());
    }
}

/// What a text says, without its larger numbers.
pub fn shape(text: &str) -> Vec<String> {
    let kept = |l: &&str| l.starts_with("sheet") || l.starts_with("build") || l.starts_with("submit");
    let word = |w: &str| if w.len() > 2 && w.bytes().all(|b| b.is_ascii_digit()) { "*".to_string() } else { w.to_string() };
    text.lines().filter(kept).map(|l| l.split(' ').map(word).collect::<Vec<_>>().join(" ")).collect()
}

fn sheets(rust: &mut RustSide) -> Vec<Vec<u8>> {
    let mut list = List { seen: BTreeSet::new(), sheets: Vec::new() };
    let base = rich();
    list.take(base.sheet());
    for (_, sheet, _) in crate::examples::sheets() {
        list.take(sheet);
    }
    // cut after each byte, and with a byte more
    let bytes = base.sheet();
    (0..bytes.len()).for_each(|n| list.take(bytes[..n].to_vec()));
    list.take([bytes, vec![0]].concat());
    field_by_field(&mut list, rust, &base);
    for (field, width, v) in [(0, 1, 1), (1, 4, 256), (2, 8, 5)] {
        for value in boundaries(width, v) {
            let mut raw = base.clone();
            *[&mut raw.version, &mut raw.alignment, &mut raw.counter][field] = value;
            list.take(raw.sheet());
        }
    }
    pairs(&mut list, rust, &base);
    actions(&mut list, rust);
    limits(&mut list);
    totals(&mut list);
    // random ones that answer in a way that isn't there yet, short ones only
    let mut seen: BTreeSet<Vec<String>> = list.sheets.iter().map(|s| shape(rust.text(s))).collect();
    for index in 0..60_000 {
        if let Case::Sheet { bytes, .. } = generate::case(9, index) {
            if bytes.len() < 700 && seen.insert(shape(rust.text(&bytes))) {
                list.take(bytes);
            }
        }
    }
    list.sheets
}

/// What is recorded, what is answered, and how many of each there are.
pub struct Recorded {
    pub stdin: Vec<u8>,
    pub stdout: String,
    pub sheets: usize,
    pub submissions: usize,
}

pub fn lists(rust: &mut RustSide) -> (Vec<Vec<u8>>, Vec<Case>) {
    (sheets(rust), submissions(rust))
}

/// The sheets, each after 1 and its length as u32, then the submissions; and the lines of each in turn.
pub fn record() -> Recorded {
    let mut rust = RustSide::checked();
    let (sheets, submissions) = lists(&mut rust);
    let (mut stdin, mut stdout) = (Vec::new(), String::new());
    for sheet in &sheets {
        stdin.extend(1u32.to_le_bytes());
        stdin.extend((sheet.len() as u32).to_le_bytes());
        stdin.extend_from_slice(sheet);
        stdout.push_str(rust.text(sheet));
    }
    for case in &submissions {
        stdin.extend(submission_bytes(case));
        stdout.push_str(&submission_text(case, &mut rust));
    }
    Recorded { stdin, stdout, sheets: sheets.len(), submissions: submissions.len() }
}

/// Whether the list shows a fault of the second reading; a panic shows it too.
pub fn shows(recorded: &(Vec<Vec<u8>>, Vec<Case>), fault: u32) -> bool {
    let (mut rust, mut other) = (RustSide::default(), Reading { fault });
    let mut text = |sheet: &[u8]| {
        let mut out = vec![0; 1 << 16];
        let answer = other.report(sheet, &mut out);
        String::from_utf8_lossy(&out[..answer[1] as usize]).into_owned()
    };
    let sheet_shows = |sheet: &Vec<u8>| guarded(|| text(sheet)).as_deref() != Ok(rust.text(sheet));
    recorded.0.iter().any(sheet_shows)
        || recorded.1.iter().any(|case| case.run(&mut RustSide::default(), 0) != case.run(&mut Reading { fault }, 0))
}
