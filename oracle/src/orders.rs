//! `orders`: "Does it matter which desk submits first?" Two senders' lists, each as one submission, in either order, by the library and by the
//! Rust. Where the request's premises are met, each list's answer and every "newer" among its sender's own must be the same in both; where
//! one of them fails alone, it is counted how often they are not.
use std::collections::BTreeMap;
use std::time::Instant;

use crate::case_file;
use crate::layout::{blas, number_at, tlas, Raw, BLASES, SIZES, TLASES};
use crate::rng::Rng;
use crate::rust_side::RustSide;
use crate::side::{Case, Lent, Side};

const TOP: u64 = u64::MAX;
/// Where a record's number stands in it.
const BLAS_NUMBER: usize = 20;
const TLAS_NUMBER: usize = 14;

/// The premises, as the request has them; that the start draws no 4, 5 or 6 is not asked.
#[derive(Clone, Copy, PartialEq)]
enum Premise {
    BlasesApart,
    TlasesApart,
    OwnMentions,
    StartingLists,
    BlasNumbers,
    TlasNumbers,
    No40,
}

use Premise::*;

const PREMISES: [(Premise, &str); 7] = [
    (BlasesApart, "no Blas is shared"),
    (TlasesApart, "no Tlas is shared"),
    (OwnMentions, "a list mentions its own"),
    (StartingLists, "starting lists stay within"),
    (BlasNumbers, "numbers of Blases are below"),
    (TlasNumbers, "numbers of Tlases are below"),
    (No40, "neither order meets 40"),
];
/// What a list's answer can be where all are met; 40 is not one.
const REACHED: [u64; 10] = [0, 4, 5, 6, 21, 39, 41, 42, 43, 44];

/// What lasts from one submission to the next.
#[derive(Clone, PartialEq)]
struct World {
    indices: [u64; 2],
    blases: Vec<u8>,
    tlases: Vec<u8>,
    counts: Vec<u16>,
    cells: Vec<u16>,
}

impl World {
    fn submit(&mut self, side: &mut dyn Side, list: &[Act]) -> [u64; 4] {
        let (actions, lists) = cells(list);
        let lent = Lent {
            blases: &mut self.blases,
            tlases: &mut self.tlases,
            dependency_counts: &mut self.counts,
            dependencies: &mut self.cells,
        };
        side.submit(&mut self.indices, lent, &actions, &lists)
    }

    fn blas_number(&self, b: usize) -> u64 {
        number_at(&self.blases, b * SIZES[BLASES] + BLAS_NUMBER, 8)
    }

    fn tlas_number(&self, t: usize) -> u64 {
        number_at(&self.tlases, t * SIZES[TLASES] + TLAS_NUMBER, 8)
    }

    fn starting_list(&self, t: usize) -> &[u16] {
        let from = (512 * t).min(self.cells.len());
        let n = self.counts.get(t).copied().unwrap_or(0);
        &self.cells[from..(from + usize::from(n)).min(self.cells.len())]
    }
}

/// An action with its lists; what is of no kind mentions nothing.
#[derive(Clone, Debug)]
enum Act {
    /// kind 1 or 5
    Build(u32, Vec<u16>, Vec<(u16, Vec<u16>)>),
    Use(u16),
    MarkBlas(u16),
    MarkTlas(u16),
    NoKind(u32),
}

fn cells(list: &[Act]) -> (Vec<u32>, Vec<u16>) {
    let (mut actions, mut lists) = (Vec::new(), Vec::new());
    for act in list {
        actions.extend(match act {
            Act::Build(kind, blases, tlases) => {
                let at = lists.len() as u32;
                lists.extend_from_slice(blases);
                for (t, listed) in tlases {
                    lists.extend([*t, listed.len() as u16]);
                    lists.extend_from_slice(listed);
                }
                [*kind, at, blases.len() as u32, tlases.len() as u32]
            }
            Act::Use(t) => [2, u32::from(*t), 0, 0],
            Act::MarkBlas(b) => [3, u32::from(*b), 0, 0],
            Act::MarkTlas(t) => [4, u32::from(*t), 0, 0],
            Act::NoKind(kind) => [*kind, 0, 0, 0],
        });
    }
    (actions, lists)
}

/// Whose each id is: bit 0 the first sender's, bit 1 the second's. Past its table every other id is the one's.
struct Owners(Vec<u8>);

impl Owners {
    fn has(&self, sender: usize, id: u16) -> bool {
        let past = || 1 << ((usize::from(id) - self.0.len()) % 2);
        self.0.get(usize::from(id)).copied().unwrap_or_else(past) >> sender & 1 == 1
    }

    fn all(&self, sender: usize, ids: &[u16]) -> bool {
        ids.iter().all(|&id| self.has(sender, id))
    }

    /// One of the sender's, or now and then one of another's or past the table.
    fn draw(&self, r: &mut Rng, sender: usize, foreign: u64) -> Option<u16> {
        let n = self.0.len();
        if r.below(200) == 0 {
            return Some((n + sender + 2 * r.index(3)) as u16);
        }
        let other = r.chance(foreign);
        let ids: Vec<u16> = (0..n as u16).filter(|&id| self.has(sender, id) != other).collect();
        (!ids.is_empty()).then(|| r.pick(&ids))
    }
}

struct Pair {
    start: World,
    blases: Owners,
    tlases: Owners,
    lists: [Vec<Act>; 2],
}

/// Which premise a drawn pair is to fail; whether it does, and alone, is looked at after.
fn aim(r: &mut Rng) -> Option<Premise> {
    r.chance(45).then(|| r.pick(&PREMISES).0)
}

/// The first sender's, the second's or neither's each; or one of both.
fn owners(r: &mut Rng, n: usize, shared: bool) -> Owners {
    let mut all: Vec<u8> = (0..n).map(|_| r.pick(&[1, 1, 2, 2, 0])).collect();
    if shared {
        let i = r.index(n);
        all[i] = 3;
    }
    Owners(all)
}

fn start(r: &mut Rng, aim: Option<Premise>, blases: &Owners, tlases: &Owners) -> World {
    let any = r.u64();
    let counter = match aim {
        Some(No40) => r.pick(&[TOP, TOP - 1, TOP - 2, TOP - 4, 0]),
        _ => r.pick(&[1, 2, 5, 5, 10, 10, 1000, TOP - 60, any.max(1)]),
    };
    let number = |r: &mut Rng| if r.chance(40) { 0 } else { r.below(counter.min(12)) };
    let past = |r: &mut Rng| counter.saturating_add(r.pick(&[0, 0, 1, 2, 5]));
    let mut raw = Raw::default();
    for _ in &blases.0 {
        let state = if r.chance(6) { r.pick(&[1, 2, 3]) } else { 0 };
        let b = [r.below(2), r.below(8), state, u64::from(r.chance(6)), r.u64(), r.u64(), number(r)];
        raw.push(BLASES, &b);
    }
    for _ in &tlases.0 {
        let t = [r.pick(&[0, 2]), 0, r.u64(), r.u32(), number(r)];
        raw.push(TLASES, &t);
    }
    match aim {
        Some(BlasNumbers) => raw.set(BLASES, r.index(blases.0.len()), blas::NUMBER, past(r)),
        Some(TlasNumbers) => raw.set(TLASES, r.index(tlases.0.len()), tlas::NUMBER, past(r)),
        _ => {}
    }
    let (mut counts, mut all) = (Vec::new(), vec![0xdddd; 512 * tlases.0.len()]);
    let strays = if aim == Some(StartingLists) { 40 } else { 0 };
    for (t, &owner) in tlases.0.iter().enumerate() {
        let within: Vec<u16> = (0..blases.0.len() as u16).filter(|&b| blases.0[usize::from(b)] & owner == owner).collect();
        let mut list: Vec<u16> = (0..r.below(4)).filter_map(|_| (!within.is_empty()).then(|| r.pick(&within))).collect();
        if r.chance(strays) {
            list.push(r.index(blases.0.len()) as u16);
        }
        all[512 * t..512 * t + list.len()].copy_from_slice(&list);
        counts.push(list.len() as u16);
    }
    let mut world = World { indices: [7, counter], blases: raw.table(BLASES), tlases: raw.table(TLASES), counts, cells: all };
    if r.chance(3) {
        refuse(r, &mut world, blases, tlases);
    }
    world
}

/// A start that draws 5, 4, 6 or 39: both lists are refused by it.
fn refuse(r: &mut Rng, world: &mut World, blases: &Owners, tlases: &Owners) {
    let t = r.index(tlases.0.len());
    let sender = usize::from(tlases.0[t] == 2);
    let past = (blases.0.len() + sender) as u16;
    match r.below(4) {
        0 => world.blases.push(1),
        1 => {
            let owned: Vec<u16> = (0..blases.0.len() as u16).filter(|&b| blases.has(sender, b)).collect();
            world.counts[t] = 513;
            world.cells.fill(if owned.is_empty() { past } else { r.pick(&owned) });
        }
        2 => {
            world.counts[t] = 1;
            world.cells[512 * t] = past;
        }
        _ => world.cells.truncate(512 * tlases.0.len() - 1),
    }
}

fn act(r: &mut Rng, sender: usize, foreign: u64, blases: &Owners, tlases: &Owners) -> Option<Act> {
    Some(match r.below(100) {
        0..45 => {
            let n = r.pick(&[0, 1, 1, 2, 3]);
            let mut built: Vec<u16> = (0..n).filter_map(|_| blases.draw(r, sender, foreign)).collect();
            let n = r.pick(&[0, 1, 1, 2]);
            let list = |r: &mut Rng| (0..r.below(4)).filter_map(|_| blases.draw(r, sender, foreign)).collect();
            let packages = (0..n).filter_map(|_| Some((tlases.draw(r, sender, foreign)?, list(r)))).collect();
            if r.below(200) == 0 {
                built = vec![blases.draw(r, sender, foreign)?; 65];
            }
            Act::Build(r.pick(&[1, 5]), built, packages)
        }
        45..80 => Act::Use(tlases.draw(r, sender, foreign)?),
        80..90 => Act::MarkBlas(blases.draw(r, sender, foreign)?),
        90..99 => Act::MarkTlas(tlases.draw(r, sender, foreign)?),
        _ => Act::NoKind(r.pick(&[0, 6, 257])),
    })
}

/// Up to ten actions, mostly such as pass alone on the start.
fn list(r: &mut Rng, side: &mut dyn Side, sender: usize, foreign: u64, pair: &Pair) -> Vec<Act> {
    let (mut list, mut world, n) = (Vec::new(), pair.start.clone(), r.from(1, 10));
    for _ in 0..30 {
        let Some(act) = act(r, sender, foreign, &pair.blases, &pair.tlases) else { continue };
        let mut tried = world.clone();
        let passes = tried.submit(side, std::slice::from_ref(&act))[0] == 0;
        if passes || r.chance(15) {
            list.push(act);
            world = tried;
        }
        if list.len() as u64 == n {
            break;
        }
    }
    list
}

impl Pair {
    fn draw(r: &mut Rng, side: &mut dyn Side) -> Pair {
        let aim = aim(r);
        let (n, m) = (r.from(2, 6) as usize, r.from(1, 4) as usize);
        let (blases, tlases) = (owners(r, n, aim == Some(BlasesApart)), owners(r, m, aim == Some(TlasesApart)));
        let start = start(r, aim, &blases, &tlases);
        let mut pair = Pair { start, blases, tlases, lists: [Vec::new(), Vec::new()] };
        let foreign = if aim == Some(OwnMentions) { 15 } else { 0 };
        pair.lists = [0, 1].map(|s| list(r, side, s, foreign, &pair));
        pair
    }

    fn own(&self, sender: usize, act: &Act) -> bool {
        let (b, t) = (&self.blases, &self.tlases);
        match act {
            Act::Build(_, built, packages) => {
                b.all(sender, built) && packages.iter().all(|(tlas, listed)| t.has(sender, *tlas) && b.all(sender, listed))
            }
            Act::Use(id) | Act::MarkTlas(id) => t.has(sender, *id),
            Act::MarkBlas(id) => b.has(sender, *id),
            Act::NoKind(_) => true,
        }
    }

    /// The premises that fail; 40 is looked for in the answer to the sender's list where it came second.
    fn failed(&self, second: [u64; 4]) -> Vec<Premise> {
        let counter = self.start.indices[1];
        let below = |n: u64| n == 0 || n < counter;
        let within = |s: usize, t: usize| !self.tlases.has(s, t as u16) || self.blases.all(s, self.start.starting_list(t));
        let holds = |premise| match premise {
            BlasesApart => !self.blases.0.contains(&3),
            TlasesApart => !self.tlases.0.contains(&3),
            OwnMentions => (0..2).all(|s| self.lists[s].iter().all(|act| self.own(s, act))),
            StartingLists => (0..2).all(|s| (0..self.tlases.0.len()).all(|t| within(s, t))),
            BlasNumbers => (0..self.blases.0.len()).all(|b| below(self.start.blas_number(b))),
            TlasNumbers => (0..self.tlases.0.len()).all(|t| below(self.start.tlas_number(t))),
            No40 => second[0] != 40,
        };
        PREMISES.into_iter().map(|(premise, _)| premise).filter(|&premise| !holds(premise)).collect()
    }

    /// How the sender's own Blases and Tlases stand by their numbers, nothing at 0: "newer" of any two goes by it.
    fn standing(&self, sender: usize, world: &World) -> Vec<usize> {
        let own = |owners: &Owners| (0..owners.0.len()).filter(|&id| owners.has(sender, id as u16)).collect::<Vec<_>>();
        let mut numbers = vec![0];
        numbers.extend(own(&self.blases).into_iter().map(|b| world.blas_number(b)));
        numbers.extend(own(&self.tlases).into_iter().map(|t| world.tlas_number(t)));
        let mut sorted = numbers.clone();
        sorted.sort_unstable();
        sorted.dedup();
        numbers.iter().map(|n| sorted.partition_point(|m| m < n)).collect()
    }

    /// The first sender's list first, or the second's: both answers by sender, and what each call left.
    fn in_order(&self, side: &mut dyn Side, first: usize) -> Order {
        let mut world = self.start.clone();
        let mut answers = [[0; 4]; 2];
        answers[first] = world.submit(side, &self.lists[first]);
        let between = world.clone();
        answers[1 - first] = world.submit(side, &self.lists[1 - first]);
        Order { answers, between, end: world }
    }

    /// "newer" of the sender's own at each action of its list, on the start and on what the other's left, and after both.
    fn newer_same(&self, side: &mut dyn Side, sender: usize, orders: &[Order; 2]) -> bool {
        let mut met = |from: &World, i: usize| {
            let mut world = from.clone();
            world.submit(side, &self.lists[sender][..i]);
            self.standing(sender, &world)
        };
        let other = &orders[1 - sender].between;
        (0..=self.lists[sender].len()).all(|i| met(&self.start, i) == met(other, i))
            && self.standing(sender, &orders[0].end) == self.standing(sender, &orders[1].end)
    }

    fn show(&self) {
        let (w, pieces) = (&self.start, self.lists.iter().map(|list| cells(list)).collect());
        let case = Case::Submit {
            indices: w.indices,
            blases: w.blases.clone(),
            tlases: w.tlases.clone(),
            dependency_counts: w.counts.clone(),
            dependencies: w.cells.clone(),
            pieces,
        };
        println!("{}", case_file::write(&case));
        println!("Blases {:?}, Tlases {:?}: 1 the first sender's, 2 the second's, 3 of both", self.blases.0, self.tlases.0);
        println!("{:?}\n{:?}", self.lists[0], self.lists[1]);
    }
}

#[derive(PartialEq)]
struct Order {
    answers: [[u64; 4]; 2],
    between: World,
    end: World,
}

/// Of lists whose premises are met, by number: how many, and how many of them midway; of lists of which one premise fails: how many, whose
/// answers differ, and whose "newer" alone.
#[derive(Default)]
struct Tally {
    met: BTreeMap<u64, [u64; 2]>,
    failed: [[u64; 3]; PREMISES.len()],
    several: u64,
}

impl Tally {
    fn print(&self) {
        println!("lists with every premise met, by number: all, and refused after their first action");
        self.met.iter().for_each(|(n, [all, midway])| println!("  {n:>2} {all:>10} {midway:>10}"));
        println!("lists with one premise failed: all, those whose answers differ, and those whose 'newer' alone does");
        for ((_, premise), [all, answers, newer]) in PREMISES.iter().zip(&self.failed) {
            println!("  {premise:<28} {all:>10} {answers:>10} {newer:>10}");
        }
        println!("lists with several failed: {}", self.several);
    }

    fn missing(&self) -> Vec<String> {
        let numbers = REACHED.iter().filter(|n| !self.met.contains_key(n)).map(|n| n.to_string());
        let premises = PREMISES
            .iter()
            .zip(&self.failed)
            .filter(|(_, f)| f[1] + f[2] == 0)
            .map(|((_, p), _)| format!("no difference without '{p}'"));
        numbers.chain(premises).collect()
    }
}

/// Says what was found; `true` where every list with its premises met is the same in either order, and the Rust's answers are the same too.
pub fn run(other: &mut dyn Side, name: &str, count: u64, seed: u64) -> bool {
    let began = Instant::now();
    let mut rust = RustSide::checked();
    let (mut tally, mut broken, mut differences) = (Tally::default(), 0, 0);
    for index in 0..count {
        let pair = Pair::draw(&mut Rng::new(seed, index), other);
        let orders = [0, 1].map(|first| pair.in_order(other, first));
        if orders != [0, 1].map(|first| pair.in_order(&mut rust, first)) {
            differences += 1;
            println!("pair {index} of seed {seed}: the Rust's answers are others");
            pair.show();
        }
        for sender in 0..2 {
            let answers = [0, 1].map(|o| orders[o].answers[sender]);
            let (same, newer) = (answers[0] == answers[1], pair.newer_same(other, sender, &orders));
            match pair.failed(answers[1 - sender])[..] {
                [] => {
                    let [number, action, ..] = answers[sender];
                    let row = tally.met.entry(number).or_default();
                    row[0] += 1;
                    row[1] += u64::from(action > 0);
                    if !same || !newer {
                        broken += 1;
                        println!("pair {index} of seed {seed}, sender {sender}: the order matters, answers {answers:?}");
                        pair.show();
                    }
                }
                [premise] => {
                    let row = &mut tally.failed[premise as usize];
                    row[0] += 1;
                    row[1] += u64::from(!same);
                    row[2] += u64::from(same && !newer);
                }
                _ => tally.several += 1,
            }
        }
        if broken + differences >= 3 {
            break;
        }
    }
    let missing = tally.missing();
    if std::env::var_os("ORACLE_SHORT").is_none() {
        tally.print();
    }
    println!("not reached: {}", if missing.is_empty() { "none".into() } else { missing.join(", ") });
    let seconds = began.elapsed().as_secs_f64();
    println!(
        "{name}: {count} pairs of lists in either order, seed {seed}, {seconds:.1} s: {broken} lists with their premises met for which the \
         order matters, {differences} pairs with other answers than the Rust's"
    );
    broken == 0 && differences == 0 && (missing.is_empty() || count < 20_000)
}
