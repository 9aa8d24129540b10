//! The Rust behind the calls of the static library: the paper's judging before and after, all else by the unchanged text.
use std::fmt::Write as _;
use std::panic::{catch_unwind, AssertUnwindSafe};

use published::drive::{self, Act, Built, Mark, Recorded, Refused, Submission, World};
use published::input::{Input, Package};

use crate::layout::{Version, SIZES};
use crate::side::{Lent, Outputs, Side};
use crate::{above, convert, instances, paper};

/// Numbers given, by call and mark; and how much else was compared, by what it is and mark.
#[derive(Default, Clone)]
pub struct Tally {
    pub answers: std::collections::BTreeMap<(&'static str, u64, Mark), u64>,
    pub parts: std::collections::BTreeMap<(&'static str, Mark), u64>,
}

impl Tally {
    fn answer(&mut self, call: &'static str, number: u64, mark: Mark) {
        *self.answers.entry((call, number, mark)).or_default() += 1;
    }

    fn part(&mut self, what: &'static str, mark: Mark, n: usize) {
        *self.parts.entry((what, mark)).or_default() += n as u64;
    }
}

/// A refused submission's number, action, figures and mark.
type Refusal = (u64, usize, [u64; 2], Mark);

#[derive(Default)]
pub struct RustSide {
    pub tally: Tally,
    once_more: bool,
    last: Option<(Vec<u8>, String)>,
}

// ---- actions ----------------------------------------------------------------------------------------------------------

/// The kind of a mark that names each Tlas's Blases.
const MARK_BUILT: u32 = 5;

/// An action, or what the paper refuses it for before the Rust sees it.
enum Decoded {
    Act(Act),
    Refused(u64),
    /// the recorded build where nothing was recorded
    PassedOver,
}

/// The Build's lists from `at` on: None where one of them runs past what is lent.
fn lists_at(lists: &[u16], at: usize, blases: usize, tlases: usize) -> Option<(&[u16], Vec<(u16, &[u16])>)> {
    let mut rest = lists.get(at..)?;
    let mut take = |n: usize| -> Option<&[u16]> {
        let (taken, after) = rest.split_at_checked(n)?;
        rest = after;
        Some(taken)
    };
    let ids = take(blases)?;
    let mut packages = Vec::new();
    for _ in 0..tlases {
        let &[tlas, n] = take(2)? else { unreachable!() };
        packages.push((tlas, take(n.into())?));
    }
    Some((ids, packages))
}

/// "Before an action acts: 5, 4, 6"
fn decode(cells: &[u32], lists: &[u16], blas_count: usize, tlas_count: usize) -> Decoded {
    let &[kind, operand, blases, tlases] = cells else { return Decoded::Refused(5) };
    match kind {
        // the Rust has no mark that names Blases: "Every rule takes it for a Build of those lists", and as that it is handed over
        1 | MARK_BUILT => {
            let Some((ids, packages)) = lists_at(lists, operand as usize, blases as usize, tlases as usize) else {
                return Decoded::Refused(5);
            };
            if ids.len() > 64 || packages.len() > 32 || packages.iter().any(|p| p.1.len() > 512) {
                return Decoded::Refused(4);
            }
            let inside = |b: &u16| (*b as usize) < blas_count;
            let package_inside = |p: &(u16, &[u16])| (p.0 as usize) < tlas_count && p.1.iter().all(inside);
            if !ids.iter().all(inside) || !packages.iter().all(package_inside) {
                return Decoded::Refused(6);
            }
            let tlases = packages.into_iter().map(|(t, list)| (t, list.to_vec())).collect();
            Decoded::Act(Act::Build { blases: ids.to_vec(), tlases })
        }
        2 if operand as usize >= tlas_count => Decoded::Refused(6),
        2 => Decoded::Act(Act::Use(operand as u16)),
        3 => Decoded::Act(Act::MarkBlas(operand)),
        4 => Decoded::Act(Act::MarkTlas(operand)),
        _ => Decoded::Refused(5),
    }
}

fn blases_of(act: &Act) -> Vec<u16> {
    match act {
        Act::Build { blases, .. } => blases.clone(),
        Act::MarkBlas(b) => vec![*b as u16],
        _ => Vec::new(),
    }
}

fn tlases_of(act: &Act) -> Vec<(u16, Vec<u16>)> {
    match act {
        Act::Build { tlases, .. } => tlases.clone(),
        Act::MarkTlas(t) => vec![(*t as u16, Vec::new())],
        _ => Vec::new(),
    }
}

/// One action: the paper's judging, then the Rust. `true` where it was handed to the Rust.
fn act(w: &World, act: &Act) -> Result<(), (bool, u64, [u64; 2], Mark)> {
    let Some(action) = drive::action(w, act) else { return Err((false, 6, [0, 0], Mark::StandIn)) };
    if !matches!(act, Act::Use(_)) {
        if w.counter() == 0 {
            return Err((false, 40, [0, 0], Mark::Paper));
        }
        for b in blases_of(act) {
            if w.blas_now(b.into()).1 == 3 {
                return Err((false, 41, [b.into(), 0], Mark::Paper));
            }
        }
    }
    Submission::new(vec![action]).submit(w).map_err(|(number, f, mark)| (true, number, f, mark))
}

/// The actions in turn; after each that acted, `acted`. Also which were handed to the Rust.
fn act_in_turn(w: &World, acts: impl Iterator<Item = Decoded>, mut acted: impl FnMut(&World, &Act)) -> (Option<Refusal>, Vec<Act>) {
    let mut handed = Vec::new();
    for (i, decoded) in acts.enumerate() {
        let a = match decoded {
            Decoded::PassedOver => continue,
            Decoded::Refused(number) => return (Some((number, i, [0, 0], Mark::Paper)), handed),
            Decoded::Act(a) => a,
        };
        match act(w, &a) {
            Ok(()) => {
                acted(w, &a);
                handed.push(a);
            }
            Err((to_the_rust, number, f, mark)) => {
                if to_the_rust {
                    acted(w, &a);
                    handed.push(a);
                }
                return (Some((number, i, f, mark)), handed);
            }
        }
    }
    (None, handed)
}

/// The same on fresh tables, all that was handed to the Rust in ONE call: the answer, the counter and the tables must come
/// out as from one action for each call.
fn once_more(fresh: &World, handed: &[Act], refusal: Option<Refusal>, first: &World, blases: usize, tlases: usize) {
    let actions = handed.iter().map(|a| drive::action(fresh, a).expect("was inside")).collect();
    let answer = Submission::new(actions).submit(fresh);
    let expected = match refusal {
        Some((number, _, f, mark)) if matches!(number, 21 | 42 | 43 | 44) => Err((number, f, mark)),
        _ => Ok(()),
    };
    assert_eq!(answer, expected, "one call and one call for each action differ");
    assert_eq!(fresh.counter(), first.counter());
    assert!((0..blases).all(|b| fresh.blas_now(b) == first.blas_now(b)));
    assert!((0..tlases).all(|t| fresh.tlas_now(t) == first.tlas_now(t)));
}

// ---- submission -------------------------------------------------------------------------------------------------------

/// The start, judged before all actions.
fn judge_start(lent: &Lent) -> u64 {
    if let Err((number, _)) = paper::judge_table(Version::One, 1, &[], lent.blases) {
        return number;
    }
    if let Err((number, _)) = paper::judge_table(Version::One, 3, &[], lent.tlases) {
        return number;
    }
    let (blases, tlases) = (lent.blases.len() / SIZES[1], lent.tlases.len() / SIZES[3]);
    if lent.dependency_counts.len() < tlases || lent.dependencies.len() < 512 * tlases {
        return 39;
    }
    for t in 0..tlases {
        let n = lent.dependency_counts[t] as usize;
        if n > 512 {
            return 4;
        }
        if lent.dependencies[512 * t..512 * t + n].iter().any(|&b| b as usize >= blases) {
            return 6;
        }
    }
    0
}

fn world_of(counter: u64, lent: &Lent) -> World {
    let input = Input {
        alignment: 1,
        counter,
        blases: lent.blases.chunks_exact(SIZES[1]).map(paper::blas_of).collect(),
        tlases: lent.tlases.chunks_exact(SIZES[3]).map(paper::tlas_of).collect(),
        ..Input::default()
    };
    let w = World::new(&input);
    for t in 0..input.tlases.len() {
        let n = lent.dependency_counts[t] as usize;
        w.set_dependencies(t, &lent.dependencies[512 * t..512 * t + n]);
    }
    w
}

/// The lent bytes after an action that the Rust was handed: numbers and states as the Rust has them. Which Tlases it built
/// is by the paper (short of the first that lists a Blas without number), so that cells past a list can be told; that the
/// lists are the Rust's is asserted at the end.
fn write_back(w: &World, a: &Act, number: u64, lent: &mut Lent) {
    for b in blases_of(a) {
        let (number, state) = w.blas_now(b.into());
        let at = b as usize * SIZES[1];
        lent.blases[at + 2] = state;
        lent.blases[at + 20..at + 28].copy_from_slice(&number.to_le_bytes());
    }
    for (t, list) in tlases_of(a) {
        if list.iter().any(|&b| w.blas_now(b.into()).0 == 0) {
            return;
        }
        let (at, cells) = (t as usize * SIZES[3], t as usize * 512);
        lent.tlases[at + 14..at + 22].copy_from_slice(&number.to_le_bytes());
        lent.dependency_counts[t as usize] = list.len() as u16;
        lent.dependencies[cells..cells + list.len()].copy_from_slice(&list);
    }
}

fn assert_as_in_the_rust(w: &World, lent: &Lent) {
    for (i, r) in lent.blases.chunks_exact(SIZES[1]).enumerate() {
        let b = paper::blas_of(r);
        assert_eq!((b.number, b.state), w.blas_now(i));
    }
    for (i, r) in lent.tlases.chunks_exact(SIZES[3]).enumerate() {
        let n = lent.dependency_counts[i] as usize;
        assert_eq!((paper::tlas_of(r).number, lent.dependencies[512 * i..512 * i + n].to_vec()), w.tlas_now(i));
    }
}

// ---- building ---------------------------------------------------------------------------------------------------------

/// Whether the Rust came to its test of the scratch size: it accepted, or gave 37 or what stands after it, 38 and destroyed Blases
/// and Tlases.
fn scratch_tested(answer: &Result<Built, Refused>) -> bool {
    match answer {
        Ok(_) => true,
        Err(r) => matches!(r.number, 37 | 38) || r.number == 21 && r.f[0] != 1,
    }
}

/// A build by the Rust, and what it was driven on. That it is a 37 the Rust decides; its E and first figure, which the Rust has not, are the
/// paper's. Both must say whether there is one: where only one does, it stops here and is told as a difference, and no place is made up.
fn build(input: &Input) -> (World, Result<Built, Refused>) {
    let low = above::any(input).then(|| above::lowered(input));
    let driven = low.as_ref().unwrap_or(input);
    let w = World::new(driven);
    let mut answer = drive::build(&w, driven);
    if scratch_tested(&answer) {
        let by_the_rust = matches!(&answer, Err(r) if r.number == 37);
        let place = paper::scratch_place(input);
        assert_eq!(by_the_rust, place.is_some(), "whether it is a 37: the Rust, and the reading of its place, {place:?}");
        if let (Err(r), Some(place)) = (&mut answer, place) {
            (r.e, r.f) = place;
        }
    }
    if low.is_some() {
        answer = above::raised(input, answer);
    }
    (w, answer)
}

/// The name that a build is counted by: of version 1, of version 2, or of version 2 with an offset from 2^32 on, which the Rust has not.
fn call(version: Version, input: &Input) -> &'static str {
    match version {
        Version::One => "build",
        Version::Two if above::any(input) => "above",
        Version::Two => "wide",
    }
}

// ---- instances --------------------------------------------------------------------------------------------------------

/// The 64 bytes of an instance, whatever the room.
fn instance_alone(tlases: &[u8], blases: &[u8], tlas: u16, instance: &[u8; 55]) -> Result<Vec<u8>, (u64, Mark)> {
    let outside = (6, Mark::Paper);
    let t = tlases.chunks_exact(SIZES[3]).nth(tlas.into()).ok_or(outside)?;
    let mut slot = paper::slot_of(instance);
    let b = blases.chunks_exact(SIZES[1]).nth(slot.blas.into()).ok_or(outside)?;
    // a build of this one slot, on tables that draw nothing else; a flag is its bit, whatever the other bits
    let (mut t, mut b) = (paper::tlas_of(t), paper::blas_of(b));
    (t.flags, t.destroyed, t.scratch, t.most) = (t.flags & 2, 0, 1, u32::MAX);
    (b.kind, b.flags, b.state, b.destroyed) = (0, b.flags & 2, 0, 0);
    slot.blas = 0;
    let packages = vec![Package { tlas: 0, slots: vec![Some(slot)] }];
    let input = Input { alignment: 1, counter: 1, blases: vec![b], tlases: vec![t], packages, ..Input::default() };
    let built = build(&input).1.map_err(|r| (r.number, r.mark))?;
    Ok(built.recorded.expect("scratch 1").staging)
}

// ---- the text ---------------------------------------------------------------------------------------------------------

fn sheet_act(record: &[u8], recorded: Option<&Recorded>, tlas_count: usize) -> Decoded {
    let operand = u16::from_le_bytes([record[1], record[2]]);
    match (record[0], recorded) {
        (1, None) => Decoded::PassedOver,
        (1, Some(r)) => Decoded::Act(Act::Build { blases: r.built_blases.clone(), tlases: r.built_tlases.clone() }),
        (2, _) if operand as usize >= tlas_count => Decoded::Refused(6),
        (2, _) => Decoded::Act(Act::Use(operand)),
        (3, _) => Decoded::Act(Act::MarkBlas(operand.into())),
        _ => Decoded::Act(Act::MarkTlas(operand.into())),
    }
}

/// Whose an accepted build is.
fn accepted(call: &str) -> Mark {
    if call == "above" {
        Mark::Paper
    } else {
        Mark::Rust
    }
}

impl RustSide {
    /// Each submission is sent again as one call, and the two compared.
    pub fn checked() -> RustSide {
        RustSide { once_more: true, ..RustSide::default() }
    }

    /// The lines of the paper's sheet program.
    pub fn text(&mut self, sheet: &[u8]) -> &str {
        if !matches!(&self.last, Some((s, _)) if s == sheet) {
            let text = self.text_of(sheet);
            self.last = Some((sheet.to_vec(), text));
        }
        &self.last.as_ref().unwrap().1
    }

    fn text_of(&mut self, sheet: &[u8]) -> String {
        let mut out = String::new();
        let name = if sheet.first() == Some(&2) { "sheet_2" } else { "sheet" };
        let p = match paper::read_sheet(sheet) {
            Ok(p) => p,
            Err(r) => {
                self.tally.answer(name, r.number, Mark::Paper);
                let _ = writeln!(out, "sheet {} {}", r.number, r.place);
                return out;
            }
        };
        self.tally.answer(name, 0, Mark::Paper);
        let input = paper::input(p.version, p.alignment, p.counter, p.tables(sheet));
        let call = call(p.version, &input);
        let (w, built) = build(&input);
        let built = match built {
            Ok(b) => b,
            Err(r) => {
                self.tally_refused(call, r.number, r.mark);
                let _ = writeln!(out, "build {} {} {} {} {} {}", r.number, r.e.0, r.e.1, r.f[0], r.f[1], r.f[2]);
                return out;
            }
        };
        self.tally.answer(call, 0, accepted(call));
        out.push_str("build 0 0 0 0 0 0\n");
        if let Some(r) = &built.recorded {
            let _ = writeln!(out, "scratch {}", r.scratch_size);
            for (id, offset) in &r.blases {
                let _ = writeln!(out, "blas {id} {offset}");
            }
            for (id, offset, start, end) in &r.tlases {
                let _ = writeln!(out, "tlas {id} {offset} {start} {end}");
            }
            self.tally_plan(call, &built);
        }
        let records = p.section(sheet, 8).chunks_exact(SIZES[8]);
        let acts = records.map(|r| sheet_act(r, built.recorded.as_ref(), input.tlases.len()));
        let (refusal, handed) = act_in_turn(&w, acts, |_, _| {});
        if self.once_more {
            once_more(&World::new(&input), &handed, refusal, &w, input.blases.len(), input.tlases.len());
        }
        let (number, action, f, mark) = refusal.unwrap_or((0, 0, [0, 0], Mark::Rust));
        self.tally.answer("submit", number, mark);
        let _ = writeln!(out, "submit {number} {action} {} {}\nnext {}", f[0], f[1], w.counter());
        out
    }

    /// A refused build; of a 37 the place is counted apart, since it isn't the Rust's.
    fn tally_refused(&mut self, call: &'static str, number: u64, mark: Mark) {
        self.tally.answer(call, number, mark);
        if number == 37 {
            self.tally.part("37: entry or package", Mark::Paper, 1);
        }
    }

    fn tally_plan(&mut self, call: &'static str, built: &Built) {
        self.tally.part("initialisation ranges, as asked for", accepted(call), built.init_ranges.len());
        let Some(r) = &built.recorded else { return };
        let summed = if r.rounded { Mark::StandIn } else { Mark::Rust };
        self.tally.part("scratch sizes and offsets", summed, 1 + r.blases.len() + r.tlases.len());
        let empty = r.tlases.iter().filter(|t| t.2 == t.3).count();
        self.tally.part("staging ranges", Mark::Rust, r.tlases.len() - empty);
        self.tally.part("staging ranges", Mark::StandIn, empty);
        self.tally.part("instance bytes, in the Rust's order", Mark::StandIn, r.staging.len());
        self.tally.part("compactable Blases", Mark::Rust, r.compactable.len());
        self.tally.part("ids of recorded actions", Mark::Rust, r.built_blases.len());
        self.tally.part("ids of recorded actions", Mark::Rust, r.built_tlases.iter().map(|t| 1 + t.1.len()).sum());
    }

    fn build_inner(
        &mut self,
        call: &'static str,
        input: &Input,
        out: Outputs,
    ) -> Result<[u64; 15], (u64, (u64, u64), [u64; 3], Mark)> {
        let built = build(input).1.map_err(|r| (r.number, r.e, r.f, r.mark))?;
        let init: Vec<u64> = built.init_ranges.iter().flat_map(|&(b, s, e)| [b.into(), s, e]).collect();
        let short = (39, (0, 0), [0; 3], Mark::Paper);
        let mut answer = [0; 15];
        answer[12] = init.len() as u64;
        let Some(r) = &built.recorded else {
            out.init_ranges.get_mut(..init.len()).ok_or(short)?.copy_from_slice(&init);
            self.tally_plan(call, &built);
            return Ok(answer);
        };
        let blas_offsets: Vec<u64> = r.blases.iter().map(|b| b.1).collect();
        let tlas_offsets: Vec<u64> = r.tlases.iter().map(|t| t.1).collect();
        let staging_ranges: Vec<u64> = r.tlases.iter().flat_map(|t| [t.2, t.3]).collect();
        let mut lists = r.built_blases.clone();
        for (t, list) in &r.built_tlases {
            lists.extend([*t, list.len() as u16]);
            lists.extend_from_slice(list);
        }
        let needs = [
            blas_offsets.len() <= out.blas_offsets.len(),
            tlas_offsets.len() <= out.tlas_offsets.len(),
            staging_ranges.len() <= out.staging_ranges.len(),
            r.staging.len() <= out.instances.len(),
            init.len() <= out.init_ranges.len(),
            r.compactable.len() <= out.compactable.len(),
            lists.len() <= out.lists.len(),
        ];
        if needs.contains(&false) {
            for (name, _) in SHORT.into_iter().zip(needs).filter(|(_, fits)| !fits) {
                self.tally.part(name, Mark::Paper, 1);
            }
            return Err(short);
        }
        out.blas_offsets[..blas_offsets.len()].copy_from_slice(&blas_offsets);
        out.tlas_offsets[..tlas_offsets.len()].copy_from_slice(&tlas_offsets);
        out.staging_ranges[..staging_ranges.len()].copy_from_slice(&staging_ranges);
        out.instances[..r.staging.len()].copy_from_slice(&r.staging);
        out.init_ranges[..init.len()].copy_from_slice(&init);
        out.compactable[..r.compactable.len()].copy_from_slice(&r.compactable);
        out.lists[..lists.len()].copy_from_slice(&lists);
        answer[6] = 1;
        answer[7] = r.scratch_size;
        let written = [
            blas_offsets.len(),
            tlas_offsets.len(),
            staging_ranges.len(),
            r.staging.len(),
            init.len(),
            r.compactable.len(),
            lists.len(),
        ];
        for (k, n) in written.into_iter().enumerate() {
            answer[8 + k] = n as u64;
        }
        self.tally_plan(call, &built);
        Ok(answer)
    }

    fn append_inner(
        &mut self,
        tlases: &[u8],
        blases: &[u8],
        tlas: u16,
        instance: &[u8; 55],
        instances: &mut [u8],
        used: u64,
    ) -> Result<u64, (u64, Mark)> {
        let staging = instance_alone(tlases, blases, tlas, instance)?;
        let end = used.checked_add(64).filter(|&end| end <= instances.len() as u64).ok_or((39, Mark::Paper))?;
        instances[used as usize..end as usize].copy_from_slice(&staging);
        self.tally.part("instance bytes, in the Rust's order", Mark::StandIn, 64);
        Ok(end)
    }

    /// Each instance is a build of the Rust by itself, one after another; that they make one call is by the request. A refusal is its
    /// number, its position and its mark.
    fn append_many_inner(
        &mut self,
        tlases: &[u8],
        blases: &[u8],
        tlas: u16,
        items: &[u8],
        instances: &mut [u8],
        used: u64,
    ) -> Result<(u64, Mark), (u64, u64, Mark)> {
        if usize::from(tlas) >= tlases.len() / SIZES[3] {
            return Err((6, 0, Mark::Paper));
        }
        let mut staging = Vec::new();
        for (k, item) in (0..).zip(items.chunks(55)) {
            let item = item.try_into().map_err(|_| (5, k, Mark::Paper))?;
            staging.extend(instance_alone(tlases, blases, tlas, item).map_err(|(number, mark)| (number, k, mark))?);
        }
        let end = used.checked_add(staging.len() as u64).filter(|&end| end <= instances.len() as u64);
        let end = end.ok_or((39, 0, Mark::Paper))?;
        instances[used as usize..end as usize].copy_from_slice(&staging);
        self.tally.part("instance bytes, in the Rust's order", Mark::StandIn, staging.len());
        // of no instances the Rust was asked nothing
        Ok((end, if staging.is_empty() { Mark::Paper } else { Mark::Rust }))
    }
}

const SHORT: [&str; 7] = [
    "39: blas_offsets short",
    "39: tlas_offsets short",
    "39: staging_ranges short",
    "39: instances short",
    "39: init_ranges short",
    "39: compactable short",
    "39: lists short",
];

impl Side for RustSide {
    fn read_sheet(&mut self, sheet: &[u8]) -> [u64; 23] {
        let mut answer = [0; 23];
        match paper::read_sheet(sheet) {
            Err(r) => (answer[0], answer[1]) = (r.number, r.place as u64),
            Ok(p) => {
                (answer[2], answer[3], answer[4]) = (p.version.number(), p.alignment.into(), p.counter);
                for (s, (start, count)) in p.sections.into_iter().enumerate() {
                    (answer[5 + 2 * s], answer[6 + 2 * s]) = (start as u64, count as u64);
                }
            }
        }
        answer
    }

    fn build(&mut self, version: Version, alignment: u32, tables: [&[u8]; 8], out: Outputs) -> [u64; 15] {
        let refused = |number, e: (u64, u64), f: [u64; 3]| {
            let mut answer = [0; 15];
            answer[..6].copy_from_slice(&[number, e.0, e.1, f[0], f[1], f[2]]);
            answer
        };
        if let Err((number, e)) = paper::judge_tables(version, alignment, tables) {
            self.tally_refused(if version == Version::One { "build" } else { "wide" }, number, Mark::Paper);
            return refused(number, e, [0; 3]);
        }
        let input = paper::input(version, alignment, 1, tables);
        let call = call(version, &input);
        match self.build_inner(call, &input, out) {
            Ok(answer) => {
                self.tally.answer(call, 0, accepted(call));
                answer
            }
            Err((number, e, f, mark)) => {
                self.tally_refused(call, number, mark);
                refused(number, e, f)
            }
        }
    }

    fn submit(&mut self, indices: &mut [u64; 2], mut lent: Lent, actions: &[u32], lists: &[u16]) -> [u64; 4] {
        let number = judge_start(&lent);
        if number != 0 {
            self.tally.answer("submit", number, Mark::Paper);
            return [number, 0, 0, 0];
        }
        let w = world_of(indices[1], &lent);
        let fresh = self.once_more.then(|| world_of(indices[1], &lent));
        let (blases, tlases) = (lent.blases.len() / SIZES[1], lent.tlases.len() / SIZES[3]);
        let acts = actions.chunks(4).map(|cells| decode(cells, lists, blases, tlases));
        let mut number = indices[1];
        let (refusal, handed) = act_in_turn(&w, acts, |w, a| {
            write_back(w, a, number, &mut lent);
            number = w.counter();
        });
        assert_as_in_the_rust(&w, &lent);
        if let Some(fresh) = fresh {
            once_more(&fresh, &handed, refusal, &w, blases, tlases);
        }
        indices[1] = w.counter();
        self.tally.part("actions handed to the Rust", Mark::Rust, handed.len());
        self.tally.part("records after a submission", Mark::Rust, blases + tlases);
        let is_mark = |cells: &&[u32]| cells.len() == 4 && cells[0] == MARK_BUILT;
        let passed = refusal.map_or(actions.len() / 4, |r| r.1);
        for _ in actions.chunks(4).take(passed).filter(is_mark) {
            self.tally.answer("mark_5", 0, Mark::Rust);
        }
        let (number, action, f, mark) = refusal.unwrap_or((0, 0, [0, 0], Mark::Rust));
        if number != 0 && actions.chunks(4).nth(action).is_some_and(|cells| is_mark(&cells)) {
            self.tally.answer("mark_5", number, mark);
        }
        self.tally.answer("submit", number, mark);
        [number, action as u64, f[0], f[1]]
    }

    fn append(
        &mut self,
        tlases: &[u8],
        blases: &[u8],
        tlas: u16,
        instance: &[u8; 55],
        instances: &mut [u8],
        used: u64,
    ) -> [u64; 7] {
        match self.append_inner(tlases, blases, tlas, instance, instances, used) {
            Ok(end) => {
                self.tally.answer("append", 0, Mark::Rust);
                [0, 0, 0, 0, 0, 0, end]
            }
            Err((number, mark)) => {
                self.tally.answer("append", number, mark);
                [number, 0, 0, 0, 0, 0, used]
            }
        }
    }

    fn append_many(&mut self, tlases: &[u8], blases: &[u8], tlas: u16, items: &[u8], instances: &mut [u8], used: u64) -> [u64; 7] {
        match self.append_many_inner(tlases, blases, tlas, items, instances, used) {
            Ok((end, mark)) => {
                self.tally.answer("many", 0, mark);
                [0, 0, 0, 0, 0, 0, end]
            }
            Err((number, position, mark)) => {
                self.tally.answer("many", number, mark);
                [number, 0, position, 0, 0, 0, used]
            }
        }
    }

    fn report(&mut self, sheet: &[u8], out: &mut [u8]) -> [u64; 2] {
        let text = self.text(sheet).as_bytes();
        match out.get_mut(..text.len()) {
            Some(out) => {
                out.copy_from_slice(text);
                [0, text.len() as u64]
            }
            None => [39, 0],
        }
    }

    /// By a second reading of the request: the Rust has no sheet.
    fn convert(&mut self, to: Version, sheet: &[u8], out: &mut [u8]) -> [u64; 3] {
        let [number, place, ..] = self.read_sheet(sheet);
        let answer = convert::convert(to, sheet, out, (number, place), 0);
        self.tally.answer(if to == Version::Two { "to_2" } else { "to_1" }, answer[0], Mark::Paper);
        answer
    }

    /// By a second reading of the request: the Rust has no groups.
    fn open(&mut self, groups: &[u8], slots: &mut [u8]) -> [u64; 5] {
        let answer = crate::groups::open(groups, slots, 0);
        self.tally.answer("open", answer[0], Mark::Paper);
        answer
    }

    /// By a second reading of the request: the Rust reads no instances. What is accepted it is given, each alone, for Tlases of
    /// either sort, and writes the same bytes, 35 aside.
    fn read_instances(&mut self, records: &[u8], blases: &[u8], items: &mut [u8]) -> [u64; 4] {
        let answer = instances::read(records, blases, items, 0);
        self.tally.answer("back", answer[0], Mark::Paper);
        let (records, tlases) = (records.as_chunks().0, instances::tlases());
        let standing = |record| instances::standing(blases, instances::address(record));
        match answer[0] {
            0 => {
                for (record, item) in records.iter().zip(items.as_chunks().0) {
                    assert_eq!(standing(record), (1, 0), "the address of one Blas");
                    assert!(instance_alone(&tlases, blases, 0, item).is_ok_and(|bytes| bytes == record), "other bytes of the Rust");
                    match instance_alone(&tlases, blases, 1, item) {
                        Ok(bytes) => assert!(instances::returns(blases, item) && bytes == record, "other bytes of the Rust"),
                        Err((number, _)) => assert_eq!((number, instances::returns(blases, item)), (35, false)),
                    }
                }
                self.tally.part("instances read, as the Rust writes them", Mark::StandIn, records.len());
            }
            50 => {
                let why = instances::not_one(standing(&records[answer[1] as usize]));
                self.tally.part(why, Mark::Paper, 1);
            }
            _ => {}
        }
        answer
    }
}

/// Runs `f`; a panic would be a fault of the harness and is told.
pub fn guarded<T>(f: impl FnOnce() -> T) -> Result<T, String> {
    catch_unwind(AssertUnwindSafe(f)).map_err(|_| {
        let (file, line, text) = drive::last_panic();
        format!("panic at {file}:{line}: {text}")
    })
}
