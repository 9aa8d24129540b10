//! The library submissions of `record`.
use std::collections::BTreeSet;

use crate::generate;
use crate::layout::*;
use crate::record::{boundaries, shape, TOP};
use crate::rust_side::RustSide;
use crate::side::Case;

/// What stands in a cell that no list has. It isn't recorded.
const UNUSED: u16 = 0xa5a5;

/// How much of each lent table and list the replaying program has room for.
const ROOM: [usize; 6] = [4096, 1024, 64, 17408, 2048, 17408];

type Piece = (Vec<u32>, Vec<u16>);

/// A submission's start and its pieces, each on what the one before left.
#[derive(Clone, PartialEq, Eq, PartialOrd, Ord)]
struct Submission {
    counter: u64,
    blases: Vec<u8>,
    tlases: Vec<u8>,
    counts: Vec<u16>,
    cells: Vec<u16>,
    pieces: Vec<Piece>,
}

impl Submission {
    fn case(&self) -> Case {
        Case::Submit {
            indices: [7, self.counter],
            blases: self.blases.clone(),
            tlases: self.tlases.clone(),
            dependency_counts: self.counts.clone(),
            dependencies: self.cells.clone(),
            pieces: self.pieces.clone(),
        }
    }

    /// What is recorded of it: cells that no list has are not.
    fn of(case: Case) -> Option<Submission> {
        let Case::Submit { indices, blases, tlases, dependency_counts: counts, dependencies, pieces } = case else { return None };
        let mut cells = vec![UNUSED; dependencies.len()];
        for (start, end) in listed(&counts, &cells) {
            cells[start..end].copy_from_slice(&dependencies[start..end]);
        }
        Some(Submission { counter: indices[1], blases, tlases, counts, cells, pieces })
    }

    /// The tables as numbers.
    fn raw(&self) -> Raw {
        let mut raw = Raw::default();
        raw.take_table(BLASES, &self.blases);
        raw.take_table(TLASES, &self.tlases);
        raw
    }

    fn with_tables(&self, raw: &Raw) -> Submission {
        Submission { blases: raw.table(BLASES), tlases: raw.table(TLASES), ..self.clone() }
    }

    fn with_pieces(&self, pieces: Vec<Piece>) -> Submission {
        Submission { pieces, ..self.clone() }
    }

    /// Each list in its room of 512.
    fn with_lists(&self, lists: &[&[u16]]) -> Submission {
        let counts = lists.iter().map(|l| l.len() as u16).collect();
        let cells = lists.iter().flat_map(|l| (0..512).map(|i| l.get(i).copied().unwrap_or(UNUSED))).collect();
        Submission { counts, cells, ..self.clone() }
    }
}

/// Where the cells of lists stand that are recorded: of each count in turn that is no more than 512, if they are lent.
fn listed(counts: &[u16], cells: &[u16]) -> Vec<(usize, usize)> {
    let places = counts.iter().enumerate().map(|(i, &n)| (512 * i, 512 * i + usize::from(n)));
    places.filter(|&(start, end)| end - start <= 512 && end <= cells.len()).collect()
}

/// A submission in bytes, numbers as u32: 2, how many pieces, the counter as u64; the Blases and the Tlases, each after how many
/// bytes they are; the counts as u16 after how many they are; how many cells of lists are lent, and of each list that is no
/// longer than 512 its cells as u16, if they are lent (all others hold 0xa5a5); then of each piece the actions as u32 after how
/// many cells they are, and the lists as u16 after how many.
pub fn submission_bytes(case: &Case) -> Vec<u8> {
    let Case::Submit { indices, blases, tlases, dependency_counts, dependencies, pieces } = case else { unreachable!() };
    let mut out = Vec::new();
    let number = |out: &mut Vec<u8>, n: usize| out.extend((n as u32).to_le_bytes());
    let cells = |out: &mut Vec<u8>, of: &[u16]| of.iter().for_each(|c| out.extend(c.to_le_bytes()));
    number(&mut out, 2);
    number(&mut out, pieces.len());
    out.extend(indices[1].to_le_bytes());
    for table in [blases, tlases] {
        number(&mut out, table.len());
        out.extend_from_slice(table);
    }
    number(&mut out, dependency_counts.len());
    cells(&mut out, dependency_counts);
    number(&mut out, dependencies.len());
    for (start, end) in listed(dependency_counts, dependencies) {
        cells(&mut out, &dependencies[start..end]);
    }
    for (actions, lists) in pieces {
        number(&mut out, actions.len());
        actions.iter().for_each(|c| out.extend(c.to_le_bytes()));
        number(&mut out, lists.len());
        cells(&mut out, lists);
    }
    out
}

fn hash(values: &[u64]) -> u64 {
    values.iter().fold(0, |h, v| (31 * h + v + 7) % 4294967291)
}

/// Of each piece the paper's `submit` and `next`, then `left` and a hash of the Blases, the Tlases, the counts and the lists.
pub fn submission_text(case: &Case, rust: &mut RustSide) -> String {
    let Case::Submit { blases, tlases, dependency_counts, dependencies, .. } = case else { unreachable!() };
    let lent = [blases.len(), tlases.len(), dependency_counts.len(), dependencies.len()];
    let mut text = String::new();
    for parts in case.run(rust, 0).chunks(7) {
        let (answer, counter) = (&parts[0].values, parts[1].values[1]);
        let hashes: Vec<u64> = (0..4).map(|i| hash(&parts[2 + i].values[..lent[i]])).collect();
        text += &format!("submit {} {} {} {}\nnext {counter}\n", answer[0], answer[1], answer[2], answer[3]);
        text += &format!("left {} {} {} {}\n", hashes[0], hashes[1], hashes[2], hashes[3]);
    }
    text
}

// ---- the list ---------------------------------------------------------------------------------------------------------

struct List {
    seen: BTreeSet<Submission>,
    all: Vec<Case>,
}

impl List {
    fn take(&mut self, s: Submission) {
        let s = Submission::of(s.case()).unwrap();
        let lent = [s.blases.len(), s.tlases.len(), s.counts.len(), s.cells.len()];
        let lent_fits = lent.iter().zip(ROOM).all(|(&n, room)| n <= room);
        assert!(lent_fits && s.pieces.iter().all(|p| p.0.len() <= ROOM[4] && p.1.len() <= ROOM[5]));
        if self.seen.insert(s.clone()) {
            self.all.push(s.case());
        }
    }

    /// Each change: always the first two, the others where the answer is one that no change of this place drew before.
    fn take_new(&mut self, rust: &mut RustSide, changes: impl Iterator<Item = Submission>) {
        let mut drawn = BTreeSet::new();
        for (k, s) in changes.enumerate() {
            if drawn.insert(shape(&submission_text(&s.case(), rust))) || k < 2 {
                self.take(s);
            }
        }
    }
}

/// Three Blases, the first without number, the last destroyed; two Tlases, the first without number, the second with a list.
fn small() -> Submission {
    let mut raw = Raw::default();
    raw.push(BLASES, &[0, 7, 1, 0, 300, 1 << 40, 0]);
    raw.push(BLASES, &[1, 4, 2, 0, 10, 77, 3]);
    raw.push(BLASES, &[0, 0, 0, 1, 0, TOP, 4]);
    raw.push(TLASES, &[2, 0, 100, 2, 0]);
    raw.push(TLASES, &[0, 1, 1, 1, 4]);
    let tables = Submission { counter: 5, blases: vec![], tlases: vec![], counts: vec![], cells: vec![], pieces: vec![] };
    tables.with_tables(&raw).with_lists(&[&[], &[1]])
}

/// The kinds of a Build, and of a mark that names each Tlas's Blases.
const LISTED: [u32; 2] = [1, 5];

/// The four cells of an action of one of these kinds; its lists are added.
fn listing(kind: u32, lists: &mut Vec<u16>, blases: &[u16], tlases: &[(u16, &[u16])]) -> [u32; 4] {
    let at = lists.len();
    lists.extend_from_slice(blases);
    for (tlas, list) in tlases {
        lists.extend([*tlas, list.len() as u16]);
        lists.extend_from_slice(list);
    }
    [kind, at as u32, blases.len() as u32, tlases.len() as u32]
}

/// One such action alone.
fn alone(kind: u32, blases: &[u16], tlases: &[(u16, &[u16])]) -> Vec<Piece> {
    let mut lists = Vec::new();
    vec![(listing(kind, &mut lists, blases, tlases).to_vec(), lists)]
}

const KINDS: usize = 9;

/// An action of each kind on `small`, its lists added. What a use or a mark doesn't read is not 0.
fn action(kind: usize, lists: &mut Vec<u16>) -> [u32; 4] {
    match kind {
        0 => listing(1, lists, &[0], &[(0, &[0])]),
        1 => listing(1, lists, &[], &[(1, &[0, 1])]),
        2 => [2, 0, 9, 9],
        3 => [2, 1, 0, 0],
        4 => [3, 0, 1, 1],
        5 => [3, 1, 0, 0],
        6 => [4, 0, u32::MAX, 2],
        7 => [4, 1, 0, 0],
        _ => listing(5, lists, &[1], &[(0, &[1]), (1, &[0])]),
    }
}

fn piece(kinds: &[usize]) -> Piece {
    let (mut actions, mut lists) = (Vec::new(), Vec::new());
    for &kind in kinds {
        actions.extend(action(kind, &mut lists));
    }
    (actions, lists)
}

/// Every list of up to three actions, of up to two at the counters 0, 1 and 2^64 - 1; kinds that there are not; and lists of six, one
/// of all kinds, cut at every choice of places.
fn actions(list: &mut List) {
    for (counter, most) in [(5, 3), (1, 2), (TOP, 2), (0, 2)] {
        for n in 0..=most {
            for k in 0..KINDS.pow(n) {
                let kinds: Vec<usize> = (0..n).map(|i| k / KINDS.pow(i) % KINDS).collect();
                list.take(Submission { counter, ..small() }.with_pieces(vec![piece(&kinds)]));
            }
        }
    }
    // kinds that there are not, with lists
    for kind in [0, 6, 7, 255, 261, 65541, u32::MAX] {
        list.take(small().with_pieces(alone(kind, &[0], &[(0, &[0])])));
    }
    for (counter, six) in [(5, [0, 2, 5, 1, 4, 3]), (TOP - 1, [0, 7, 3, 2, 6, 2]), (5, [0, 8, 2, 6, 4, 2])] {
        for cuts in 0..32 {
            let mut pieces = vec![vec![]];
            for (i, &kind) in six.iter().enumerate() {
                pieces.last_mut().unwrap().push(kind);
                if i < 5 && cuts >> i & 1 == 1 {
                    pieces.push(vec![]);
                }
            }
            list.take(Submission { counter, ..small() }.with_pieces(pieces.iter().map(|p| piece(p)).collect()));
        }
    }
}

/// Each field of the tables, each count and listed cell, each cell of actions and lists, set to values about which it may
/// turn; tables, room, actions and lists cut or longer by one.
fn place_by_place(list: &mut List, rust: &mut RustSide) {
    let one_of_each = vec![piece(&[3, 0, 2, 1, 3, 4, 7, 6, 8])];
    let base = small().with_lists(&[&[1], &[1, 2]]).with_pieces(one_of_each);
    list.take(base.clone());
    let raw = base.raw();
    for section in [BLASES, TLASES] {
        for i in 0..raw.sections[section].len() {
            let values = boundaries(WIDTHS[section][i % WIDTHS[section].len()], raw.sections[section][i]);
            list.take_new(
                rust,
                values.into_iter().map(|v| {
                    let mut changed = raw.clone();
                    changed.sections[section][i] = v;
                    base.with_tables(&changed)
                }),
            );
        }
    }
    let cell = |v: u16| boundaries(2, v.into()).into_iter().chain([511, 512, 513]).map(|v| v as u16);
    for i in 0..base.counts.len() {
        list.take_new(
            rust,
            cell(base.counts[i]).map(|v| {
                let mut s = base.clone();
                s.counts[i] = v;
                // the cells of a longer list are Blas 0
                (base.counts[i]..v.min(512)).for_each(|k| s.cells[512 * i + usize::from(k)] = 0);
                s
            }),
        );
    }
    for (start, end) in listed(&base.counts, &base.cells) {
        for at in start..end {
            list.take_new(
                rust,
                cell(base.cells[at]).map(|v| {
                    let mut s = base.clone();
                    s.cells[at] = v;
                    s
                }),
            );
        }
    }
    let (actions, lists) = &base.pieces[0];
    for i in 0..actions.len() {
        let near = boundaries(4, actions[i].into()).into_iter().map(|v| v as u32);
        list.take_new(
            rust,
            near.chain([6, lists.len() as u32, lists.len() as u32 + 1, 65536 + actions[i]]).map(|v| {
                let mut changed = actions.clone();
                changed[i] = v;
                base.with_pieces(vec![(changed, lists.clone())])
            }),
        );
        list.take(base.with_pieces(vec![(actions[..i].to_vec(), lists.clone())]));
    }
    for i in 0..lists.len() {
        list.take_new(
            rust,
            cell(lists[i]).map(|v| {
                let mut changed = lists.clone();
                changed[i] = v;
                base.with_pieces(vec![(actions.clone(), changed)])
            }),
        );
        list.take(base.with_pieces(vec![(actions.clone(), lists[..i].to_vec())]));
    }
    for less in [1, 21, 22, 27, 28, 512] {
        let cut = |n: usize| n.saturating_sub(less);
        list.take(Submission { blases: base.blases[..cut(base.blases.len())].to_vec(), ..base.clone() });
        list.take(Submission { tlases: base.tlases[..cut(base.tlases.len())].to_vec(), ..base.clone() });
        list.take(Submission { counts: base.counts[..cut(base.counts.len())].to_vec(), ..base.clone() });
        list.take(Submission { cells: base.cells[..cut(base.cells.len())].to_vec(), ..base.clone() });
    }
    list.take(Submission { blases: [&base.blases[..], &[0]].concat(), ..base.clone() });
    list.take(Submission { tlases: [&base.tlases[..], &[0]].concat(), ..base.clone() });
    list.take(Submission { counts: [&base.counts[..], &[600]].concat(), ..base.clone() });
    list.take(Submission { cells: [&base.cells[..], &[UNUSED]].concat(), ..base.clone() });
}

/// Tables and lists as long as they may be, and one longer.
fn limits(list: &mut List) {
    let tables = |blases: u64, tlases: u64| {
        let mut raw = Raw::default();
        (0..blases).for_each(|i| raw.push(BLASES, &[0, i % 8, i % 3, 0, i, i, i + 1]));
        (0..tlases).for_each(|i| raw.push(TLASES, &[i % 2 * 2, 0, i, 1, 0]));
        small().with_tables(&raw).with_lists(&vec![&[][..]; tlases as usize])
    };
    for (blases, tlases) in [(128, 32), (129, 32), (128, 33), (0, 0), (1, 0), (0, 1)] {
        list.take(tables(blases, tlases).with_pieces(alone(1, &[], &[])));
    }
    let full = tables(128, 32);
    let ids = |n: usize| (0..n).map(|i| (i * 5 % 128) as u16).collect::<Vec<u16>>();
    for kind in LISTED {
        for n in [64, 65] {
            list.take(full.with_pieces(alone(kind, &ids(n), &[])));
        }
        for n in [32, 33] {
            let tlases: Vec<(u16, &[u16])> = (0..n).map(|t| (t % 32, &[3, 4][..])).collect();
            list.take(full.with_pieces(alone(kind, &[7], &tlases)));
        }
        for n in [511, 512, 513] {
            list.take(full.with_pieces(alone(kind, &[7], &[(2, &[9]), (31, &ids(n))])));
        }
    }
    let all: Vec<u16> = ids(512);
    let tlases: Vec<(u16, &[u16])> = (0..32).map(|t| (t, &all[..])).collect();
    let mut fullest = alone(1, &ids(64), &tlases);
    fullest[0].0.extend([2, 31, 0, 0, 3, 127, 0, 0, 2, 0, 0, 0]);
    list.take(full.with_pieces(fullest));
}

/// Random ones of which a piece answers in a way that isn't there yet, short ones only; accepted ones more often.
fn random(list: &mut List, rust: &mut RustSide) {
    let mut seen: BTreeSet<String> = BTreeSet::new();
    for case in &list.all {
        seen.extend(shape(&submission_text(case, rust)));
    }
    let mut accepted = 0;
    for index in 0..60_000 {
        let Some(s) = Submission::of(generate::case(11, index)) else { continue };
        if submission_bytes(&s.case()).len() < 700 && !list.seen.contains(&s) {
            let answers = shape(&submission_text(&s.case(), rust));
            let fine = answers.iter().all(|l| l == "submit 0 0 0 0") && accepted < 100;
            accepted += usize::from(fine);
            if fine || answers.iter().any(|a| !seen.contains(a)) {
                seen.extend(answers);
                list.take(s);
            }
        }
    }
}

pub fn submissions(rust: &mut RustSide) -> Vec<Case> {
    let mut list = List { seen: BTreeSet::new(), all: Vec::new() };
    for (_, case, _) in crate::examples::submissions() {
        list.take(Submission::of(case).unwrap());
    }
    actions(&mut list);
    place_by_place(&mut list, rust);
    limits(&mut list);
    random(&mut list, rust);
    list.all
}
