//! Makes a failing case smaller while it still fails: records and actions are dropped, ids moved down, numbers lowered.
use crate::instances;
use crate::layout::*;
use crate::side::Case;

/// How long it may take.
const SECONDS: u64 = 20;

/// Hands a smaller case to `take`, and ends where it is taken.
macro_rules! offer {
    ($take:expr, $case:expr) => {
        if $take($case) {
            return true;
        }
    };
}

/// Smaller numbers to try.
fn lower(v: u64) -> Vec<u64> {
    let mut all = vec![0, 1, 2, v / 2, v - v / 8];
    if v < 100 {
        all.push(v.saturating_sub(1));
    }
    all.retain(|&x| x < v);
    all.dedup();
    all
}

fn drop_drawn(raw: &Raw, drawing: usize, count: usize, take: &mut dyn FnMut(Raw) -> bool) -> bool {
    let mut at = 0;
    for i in 0..raw.count(drawing) {
        let n = (raw.get(drawing, i, count) as usize).min(raw.count(drawing + 1).saturating_sub(at));
        let mut without = raw.clone();
        without.remove(drawing + 1, at, n);
        without.remove(drawing, i, 1);
        offer!(take, without);
        for j in 0..n {
            let mut without = raw.clone();
            without.remove(drawing + 1, at + j, 1);
            without.set(drawing, i, count, raw.get(drawing, i, count) - 1);
            offer!(take, without);
        }
        at += n;
    }
    false
}

/// Without record `id` of a table; ids above it, in the named fields, move down.
fn drop_named(raw: &Raw, section: usize, id: usize, fields: &[(usize, usize)]) -> Raw {
    let mut without = raw.clone();
    without.remove(section, id, 1);
    for &(s, f) in fields {
        for i in 0..raw.count(s) {
            let v = raw.get(s, i, f);
            let action = s != ACTIONS
                || match raw.get(s, i, 0) {
                    3 => section == BLASES,
                    2 | 4 => section == TLASES,
                    _ => false,
                };
            if v > id as u64 && v < 65534 && action {
                without.set(s, i, f, v - 1);
            }
        }
    }
    without
}

fn smaller_raw(raw: &Raw, take: &mut dyn FnMut(Raw) -> bool) -> bool {
    if drop_drawn(raw, ENTRIES, entry::COUNT, take) || drop_drawn(raw, PACKAGES, package::COUNT, take) {
        return true;
    }
    for section in [ACTIONS, DECLARED] {
        for i in 0..raw.count(section) {
            let mut without = raw.clone();
            without.remove(section, i, 1);
            offer!(take, without);
        }
    }
    let geometry_buffers =
        [(GEOMETRIES, geometry::BUFFER), (GEOMETRIES, geometry::INDEX_BUFFER), (GEOMETRIES, geometry::TRANSFORM_BUFFER)];
    let blases = [(DECLARED, declared::BLAS), (ENTRIES, entry::BLAS), (SLOTS, slot::BLAS), (ACTIONS, 1)];
    let tlases = [(PACKAGES, package::TLAS), (ACTIONS, 1)];
    for (section, fields) in [(BUFFERS, &geometry_buffers[..]), (BLASES, &blases[..]), (TLASES, &tlases[..])] {
        for i in 0..raw.count(section) {
            offer!(take, drop_named(raw, section, i, fields));
        }
    }
    for (field, value) in [(0, raw.alignment), (1, raw.counter)] {
        for v in lower(value) {
            let mut less = raw.clone();
            *(if field == 0 { &mut less.alignment } else { &mut less.counter }) = v;
            offer!(take, less);
        }
    }
    // a number wherever it stands: what two fields agree on stays so
    let mut values: Vec<u64> = raw.sections.iter().flatten().copied().filter(|&v| v > 1).collect();
    values.sort_unstable();
    values.dedup();
    for &value in values.iter().rev().take(200) {
        for v in lower(value) {
            let mut less = raw.clone();
            less.sections.iter_mut().flatten().filter(|x| **x == value).for_each(|x| *x = v);
            offer!(take, less);
        }
    }
    for s in 0..9 {
        for i in 0..raw.sections[s].len() {
            for v in lower(raw.sections[s][i]) {
                let mut less = raw.clone();
                less.sections[s][i] = v;
                offer!(take, less);
            }
        }
    }
    false
}

fn smaller_bytes(bytes: &[u8]) -> Vec<Vec<u8>> {
    let mut all: Vec<Vec<u8>> = Vec::new();
    let mut n = bytes.len();
    while n > 0 {
        n /= 2;
        all.push(bytes[..n].to_vec());
        all.push(bytes[..bytes.len() - n.max(1)].to_vec());
    }
    for i in (0..bytes.len()).filter(|&i| bytes[i] != 0) {
        let mut less = bytes.to_vec();
        less[i] = 0;
        all.push(less);
    }
    all
}

/// Without some of the units of `unit` elements: halves, quarters, and so on to single ones; each is made when it is asked for.
fn without_units<T: Clone>(values: &[T], unit: usize) -> impl Iterator<Item = Vec<T>> + '_ {
    let n = values.len().div_ceil(unit);
    let sizes = std::iter::successors(Some(n), |size| Some(size / 2)).take_while(|&size| size > 0);
    let places = sizes.flat_map(move |size| (0..n).step_by(size).map(move |at| (at, at + size)));
    places.map(move |(from, to)| [&values[..from * unit], &values[(to * unit).min(values.len())..]].concat())
}

fn smaller_submission(case: &Case, take: &mut dyn FnMut(Case) -> bool) -> bool {
    let Case::Submit { indices, blases, tlases, dependency_counts, dependencies, pieces } = case else { return false };
    macro_rules! with {
        ($($field:ident: $value:expr),*) => {{
            let mut c = case.clone();
            if let Case::Submit { $($field,)* .. } = &mut c { $(*$field = $value;)* }
            offer!(take, c);
        }};
    }
    for i in 0..pieces.len() {
        let mut less = pieces.clone();
        less.remove(i);
        with!(pieces: less);
    }
    for (i, (actions, lists)) in pieces.iter().enumerate() {
        for actions in without_units(actions, 4) {
            let mut less = pieces.clone();
            less[i].0 = actions;
            with!(pieces: less);
        }
        // a list's cell less: first cells after it move down
        for at in 0..lists.len() {
            let mut less = pieces.clone();
            less[i].1.remove(at);
            for cells in less[i].0.chunks_exact_mut(4).filter(|c| c[0] == 1 && c[1] as usize > at) {
                cells[1] -= 1;
            }
            with!(pieces: less.clone());
            for k in 0..less[i].0.len() / 4 {
                for count in [2, 3] {
                    let mut fewer = less.clone();
                    fewer[i].0[4 * k + count] = fewer[i].0[4 * k + count].saturating_sub(1);
                    with!(pieces: fewer);
                }
            }
        }
        for k in 0..actions.len() {
            for v in lower(actions[k].into()) {
                let mut less = pieces.clone();
                less[i].0[k] = v as u32;
                with!(pieces: less);
            }
        }
        for k in 0..lists.len() {
            for v in lower(lists[k].into()) {
                let mut less = pieces.clone();
                less[i].1[k] = v as u16;
                with!(pieces: less);
            }
        }
    }
    for less in without_units(blases, SIZES[BLASES]) {
        with!(blases: less);
    }
    for t in (0..tlases.len() / SIZES[TLASES]).rev() {
        let (mut a, mut b, mut c) = (tlases.clone(), dependency_counts.clone(), dependencies.clone());
        a.drain(t * SIZES[TLASES]..(t + 1) * SIZES[TLASES]);
        if t < b.len() {
            b.remove(t);
        }
        c.drain((512 * t).min(c.len())..(512 * t + 512).min(dependencies.len()));
        with!(tlases: a, dependency_counts: b, dependencies: c);
    }
    for (i, v) in indices.iter().enumerate() {
        for v in lower(*v) {
            let mut less = *indices;
            less[i] = v;
            with!(indices: less);
        }
    }
    for i in 0..dependency_counts.len() {
        for v in lower(dependency_counts[i].into()) {
            let mut less = dependency_counts.clone();
            less[i] = v as u16;
            with!(dependency_counts: less);
        }
    }
    if dependencies.iter().any(|&c| c != 0) {
        with!(dependencies: vec![0; dependencies.len()]);
        let mut n = dependencies.len();
        while n > 0 {
            for at in (0..dependencies.len()).step_by(n) {
                let mut less = dependencies.clone();
                let end = (at + n).min(less.len());
                if less[at..end].iter().any(|&c| c != 0) {
                    less[at..end].fill(0);
                    with!(dependencies: less);
                }
            }
            n /= 2;
        }
    }
    for (section, table) in [(BLASES, blases), (TLASES, tlases)] {
        for i in (0..table.len()).filter(|&i| table[i] != 0) {
            let mut less = table.clone();
            less[i] = 0;
            if section == BLASES {
                with!(blases: less);
            } else {
                with!(tlases: less);
            }
        }
    }
    false
}

/// The tables of a build with fewer records or lower numbers; also with as many elements of output as these need, less as
/// many as were missing before.
fn smaller_build(case: &Case, take: &mut dyn FnMut(Case) -> bool) -> bool {
    let Case::Build { version, alignment, tables, rooms } = case else { return false };
    let version = *version;
    let mut raw = Raw { version: version.number(), alignment: (*alignment).into(), counter: 0, ..Raw::default() };
    (0..8).for_each(|s| raw.take_table(s, &tables[s]));
    let part = |s: usize| &tables[s][tables[s].len() / version.size(s) * version.size(s)..];
    let needed = crate::generate::rooms(&raw);
    let mut taken = |less: Raw| {
        let mut tables = less.tables();
        (0..8).for_each(|s| tables[s].extend_from_slice(part(s)));
        let alignment = less.alignment as u32;
        let needs = crate::generate::rooms(&less);
        let fitted = std::array::from_fn(|k| needs[k].saturating_sub(needed[k].saturating_sub(rooms[k])));
        take(Case::Build { version, alignment, tables: tables.clone(), rooms: fitted })
            || take(Case::Build { version, alignment, tables, rooms: *rooms })
    };
    if smaller_raw(&raw, &mut taken) {
        return true;
    }
    for s in (0..8).filter(|&s| !part(s).is_empty()) {
        let mut whole = tables.clone();
        whole[s].pop();
        offer!(take, Case::Build { version, alignment: *alignment, tables: whole, rooms: *rooms });
    }
    for k in 0..7 {
        for v in lower(rooms[k] as u64) {
            let mut less = *rooms;
            less[k] = v as usize;
            offer!(take, Case::Build { version, alignment: *alignment, tables: tables.clone(), rooms: less });
        }
    }
    false
}

/// Each byte that is not 0 made so.
fn zeroed(bytes: &[u8]) -> impl Iterator<Item = Vec<u8>> + '_ {
    (0..bytes.len()).filter(|&i| bytes[i] != 0).map(|i| {
        let mut less = bytes.to_vec();
        less[i] = 0;
        less
    })
}

/// The case with other values of some fields.
macro_rules! with {
    ($take:ident, $case:ident, $variant:ident, $($field:ident: $value:expr),*) => {{
        let mut c = $case.clone();
        if let Case::$variant { $($field,)* .. } = &mut c {
            $(*$field = $value;)*
        }
        offer!($take, c);
    }};
}

/// What one appended instance and many are lent beside themselves, smaller.
macro_rules! smaller_lent {
    ($take:ident, $case:ident, $variant:ident) => {
        if let Case::$variant { tlases, blases, tlas, room, used, .. } = $case {
            for less in without_units(tlases, SIZES[TLASES]).chain(zeroed(tlases)) {
                with!($take, $case, $variant, tlases: less);
            }
            for less in without_units(blases, SIZES[BLASES]).chain(zeroed(blases)) {
                with!($take, $case, $variant, blases: less);
            }
            for v in lower(*used) {
                with!($take, $case, $variant, used: v);
            }
            for v in lower(*room as u64) {
                with!($take, $case, $variant, room: v as usize);
            }
            for v in lower((*tlas).into()) {
                with!($take, $case, $variant, tlas: v as u16);
            }
        }
    };
}

fn smaller_append(case: &Case, take: &mut dyn FnMut(Case) -> bool) -> bool {
    let Case::Append { instance, .. } = case else { return false };
    smaller_lent!(take, case, Append);
    for less in zeroed(instance) {
        with!(take, case, Append, instance: less.try_into().unwrap());
    }
    false
}

/// Fewer items, with as much less room too; then as of one.
fn smaller_many(case: &Case, take: &mut dyn FnMut(Case) -> bool) -> bool {
    let Case::Many { items, .. } = case else { return false };
    for less in without_units(items, 55) {
        let fewer = 64 * (items.len() / 55 - less.len() / 55);
        with!(take, case, Many, items: less.clone(), room: room.saturating_sub(fewer));
        with!(take, case, Many, items: less);
    }
    if items.len() % 55 != 0 {
        with!(take, case, Many, items: items[..items.len() - 1].to_vec());
    }
    smaller_lent!(take, case, Many);
    for less in zeroed(items) {
        with!(take, case, Many, items: less);
    }
    false
}

fn smaller_sheet(case: &Case, take: &mut dyn FnMut(Case) -> bool) -> bool {
    let Case::Sheet { bytes, room } = case else { return false };
    if *room != 0 {
        offer!(take, Case::Sheet { bytes: bytes.clone(), room: 0 });
    }
    match Raw::from_sheet(bytes) {
        Some(raw) => smaller_raw(&raw, &mut |less| take(Case::Sheet { bytes: less.sheet(), room: *room })),
        None => smaller_bytes(bytes).into_iter().any(|bytes| take(Case::Sheet { bytes, room: *room })),
    }
}

/// Shorter bytes and lower ones; and without some of its bytes.
fn smaller_groups(case: &Case, take: &mut dyn FnMut(Case) -> bool) -> bool {
    let Case::Groups { bytes, room } = case else { return false };
    for less in lower(*room as u64) {
        offer!(take, Case::Groups { bytes: bytes.clone(), room: less as usize });
    }
    for unit in [SIZES[SLOTS], 3, 1] {
        for less in without_units(bytes, unit) {
            offer!(take, Case::Groups { bytes: less, room: *room });
        }
    }
    smaller_bytes(bytes).into_iter().any(|bytes| take(Case::Groups { bytes, room: *room }))
}

/// Fewer records, with as much less room too; then fewer Blases, and lower bytes of both.
fn smaller_instances(case: &Case, take: &mut dyn FnMut(Case) -> bool) -> bool {
    let Case::Instances { blases, records, room } = case else { return false };
    for less in without_units(records, 64) {
        let fewer = 55 * (records.len() / 64 - less.len() / 64);
        with!(take, case, Instances, records: less.clone(), room: room.saturating_sub(fewer));
        with!(take, case, Instances, records: less);
    }
    if records.len() % 64 != 0 {
        with!(take, case, Instances, records: records[..records.len() - 1].to_vec());
    }
    for less in without_units(blases, SIZES[BLASES]) {
        with!(take, case, Instances, blases: less);
    }
    for v in lower(*room as u64) {
        with!(take, case, Instances, room: v as usize);
    }
    // an address wherever it stands
    let addresses: std::collections::BTreeSet<u64> = records.as_chunks().0.iter().map(instances::address).collect();
    for (old, new) in addresses.iter().zip(1u64..).filter(|(old, new)| **old > *new) {
        let lowered = |bytes: &[u8], at: usize, size: usize| -> Vec<u8> {
            let mut bytes = bytes.to_vec();
            for unit in bytes.chunks_exact_mut(size).filter(|unit| unit[at..at + 8] == old.to_le_bytes()) {
                unit[at..at + 8].copy_from_slice(&new.to_le_bytes());
            }
            bytes
        };
        with!(take, case, Instances, records: lowered(records, 56, 64), blases: lowered(blases, 12, SIZES[BLASES]));
    }
    for less in zeroed(records) {
        with!(take, case, Instances, records: less);
    }
    for less in zeroed(blases) {
        with!(take, case, Instances, blases: less);
    }
    false
}

/// The smallest case that is found and still fails. After a smaller case was taken the search goes on where it was.
pub fn shrink(mut case: Case, fails: &mut dyn FnMut(&Case) -> bool) -> Case {
    let start = std::time::Instant::now();
    let late = || start.elapsed().as_secs() >= SECONDS;
    let (mut from, mut better) = (0, false);
    loop {
        let (mut found, mut at) = (None, 0);
        let mut take = |c: Case| {
            at += 1;
            if at <= from {
                return false;
            }
            if late() {
                return true;
            }
            if fails(&c) {
                found = Some(c);
            }
            found.is_some()
        };
        match &case {
            Case::Sheet { .. } => smaller_sheet(&case, &mut take),
            Case::Build { .. } => smaller_build(&case, &mut take),
            Case::Submit { .. } => smaller_submission(&case, &mut take),
            Case::Append { .. } => smaller_append(&case, &mut take),
            Case::Many { .. } => smaller_many(&case, &mut take),
            Case::Groups { .. } => smaller_groups(&case, &mut take),
            Case::Instances { .. } => smaller_instances(&case, &mut take),
        };
        match found {
            Some(c) => (case, from, better) = (c, at - 1, true),
            None if better && !late() => (from, better) = (0, false),
            None => return case,
        }
    }
}
