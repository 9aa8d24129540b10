//! Submissions.
use crate::building::{Recorded, Tables};
use crate::misfit::{At, May, Misfit, wide};
use crate::raw::{self, CommandIndices};
use crate::records::{BlasId, TlasId};
use crate::words::{self, Call};
use std::fmt;

/// What a submission changes: the tables, and for each Tlas how many Blases it lists and 512 cells for them.
#[derive(Debug, Default)]
pub struct Lent<'a> {
    /// of [`Blas`](crate::Blas)
    pub blases: &'a mut [u8],
    /// of [`Tlas`](crate::Tlas)
    pub tlases: &'a mut [u8],
    /// one for each Tlas
    pub dependency_counts: &'a mut [u16],
    /// `DEPENDENCY_ROOM` for each Tlas
    pub dependencies: &'a mut [u16],
}

/// Cells of `dependencies` for each Tlas.
pub const DEPENDENCY_ROOM: usize = 512;

/// The most Blases and the most Tlases that a Build lists.
const MOST_LISTED: [u64; 2] = [64, 32];

const BUILD: u32 = 1;
const USE_TLAS: u32 = 2;
const MARK_BLAS: u32 = 3;
const MARK_TLAS: u32 = 4;
const MARK_BUILT: u32 = 5;

/// Actions with their lists, in the library's cells.
#[derive(Clone, Debug, Default, PartialEq, Eq)]
pub struct Actions {
    /// four cells each: kind, operand, Blas count, Tlas count
    pub actions: Vec<u32>,
    /// what Builds and marks as built list
    pub lists: Vec<u16>,
}

/// A length as a cell, or what doesn't fit.
fn cell<T: TryFrom<usize>>(what: &'static str, n: usize, most: u64, at: At) -> Result<T, Misfit> {
    T::try_from(n).map_err(|_| Misfit::TooMany { at, what, count: wide(n), most })
}

impl Actions {
    /// How many there are.
    pub fn count(&self) -> usize {
        self.actions.len().div_ceil(4)
    }

    /// A Build of these Blases, then of each Tlas over the Blases beside it. What has no room in its cell is said, and then nothing
    /// is added.
    pub fn build(&mut self, blases: &[BlasId], tlases: &[(TlasId, &[BlasId])]) -> Result<(), Misfit> {
        self.named(BUILD, blases, tlases)
    }

    /// A mark of what another tool built: these Blases, then each Tlas over the Blases beside it. It is judged, and a later use of such a
    /// Tlas too, as if it were a [`build`](Actions::build) of the same. What has no room in its cell is said, and then nothing is added.
    pub fn mark_built(&mut self, blases: &[BlasId], tlases: &[(TlasId, &[BlasId])]) -> Result<(), Misfit> {
        self.named(MARK_BUILT, blases, tlases)
    }

    fn named(&mut self, kind: u32, blases: &[BlasId], tlases: &[(TlasId, &[BlasId])]) -> Result<(), Misfit> {
        let mut lists: Vec<u16> = blases.iter().map(|b| b.0).collect();
        for (n, (tlas, dependencies)) in tlases.iter().enumerate() {
            let at = At::Listed(self.count(), n);
            lists.extend([tlas.0, cell("blases", dependencies.len(), u16::MAX.into(), at)?]);
            lists.extend(dependencies.iter().map(|b| b.0));
        }
        self.listed(kind, blases.len(), tlases.len(), &lists)
    }

    /// What a build recorded, of the `lists` that it wrote.
    pub fn recorded(&mut self, recorded: &Recorded, lists: &[u16]) -> Result<(), Misfit> {
        let w = recorded.written;
        let written = lists.get(..w.lists).ok_or(Misfit::Value {
            at: At::Action(self.count()),
            field: "lists",
            value: wide(lists.len()),
            may: May::Range(wide(w.lists), u64::MAX),
        })?;
        self.listed(BUILD, w.blas_offsets, w.tlas_offsets, written)
    }

    fn listed(&mut self, kind: u32, blases: usize, tlases: usize, lists: &[u16]) -> Result<(), Misfit> {
        let at = At::Action(self.count());
        let start = cell("cells of lists", self.lists.len(), u32::MAX.into(), at)?;
        let blases = cell("blases", blases, u32::MAX.into(), at)?;
        let tlases = cell("tlases", tlases, u32::MAX.into(), at)?;
        self.actions.extend([kind, start, blases, tlases]);
        self.lists.extend_from_slice(lists);
        Ok(())
    }

    /// A use of a Tlas.
    pub fn use_tlas(&mut self, tlas: TlasId) {
        self.actions.extend([USE_TLAS, tlas.0.into(), 0, 0]);
    }

    /// A mark of a Blas as built.
    pub fn mark_blas(&mut self, blas: BlasId) {
        self.actions.extend([MARK_BLAS, blas.0.into(), 0, 0]);
    }

    /// A mark of a Tlas as built, over nothing: it is used whatever is built after it. One that names its Blases is
    /// [`mark_built`](Actions::mark_built).
    pub fn mark_tlas(&mut self, tlas: TlasId) {
        self.actions.extend([MARK_TLAS, tlas.0.into(), 0, 0]);
    }
}

/// Why a submission is refused, with its figures.
#[derive(Clone, Copy, Debug, PartialEq, Eq)]
#[non_exhaustive]
pub enum ValidateAsActionsError {
    /// 4: count above its limit
    TooMany,
    /// 5: value outside its field
    InvalidValue,
    /// 6: id outside its table
    InvalidResource,
    /// 21: destroyed
    DestroyedResource(BlasId),
    /// 39: lent output too short
    OutputTooShort,
    /// 40: counter 0
    CounterExhausted,
    /// 41: Blas to build is compacted
    CompactedBlas(BlasId),
    /// 42 in a Build: Blas without number
    UsedUnbuiltBlas(BlasId, TlasId),
    /// 42 in a use: Blas without number
    UsedTlasOfUnbuiltBlas(TlasId, BlasId),
    /// 43: Tlas without number
    UsedUnbuiltTlas(TlasId),
    /// 44: Blas newer than Tlas
    BlasNewerThenTlas(BlasId, TlasId),
    /// a number that this binding doesn't know
    Other {
        /// the number
        number: u64,
        /// its figures
        figures: [u64; 2],
    },
}

impl ValidateAsActionsError {
    fn known(number: u64, [x, y]: [u64; 2], kind: u32) -> Option<Self> {
        use ValidateAsActionsError as E;
        let id = |f: u64| u16::try_from(f).ok();
        Some(match number {
            4 => E::TooMany,
            5 => E::InvalidValue,
            6 => E::InvalidResource,
            21 => E::DestroyedResource(BlasId(id(x)?)),
            39 => E::OutputTooShort,
            40 => E::CounterExhausted,
            41 => E::CompactedBlas(BlasId(id(x)?)),
            42 if kind == USE_TLAS => E::UsedTlasOfUnbuiltBlas(TlasId(id(x)?), BlasId(id(y)?)),
            42 => E::UsedUnbuiltBlas(BlasId(id(x)?), TlasId(id(y)?)),
            43 => E::UsedUnbuiltTlas(TlasId(id(x)?)),
            44 => E::BlasNewerThenTlas(BlasId(id(x)?), TlasId(id(y)?)),
            _ => return None,
        })
    }
}

/// A refused submission.
#[derive(Clone, Debug, PartialEq, Eq)]
#[non_exhaustive]
pub struct SubmitRefused {
    /// the paper's number
    pub number: u64,
    /// the same, with its figures
    pub error: ValidateAsActionsError,
    /// the first refused action, from 0; 0 for a refused start
    pub action: u64,
    /// of that action, 0 for a refused start
    pub kind: u32,
    /// as the library gives them
    pub figures: [u64; 2],
    /// for 4, 5 and 6: the field or the id
    pub misfit: Option<Box<Misfit>>,
}

impl fmt::Display for SubmitRefused {
    fn fmt(&self, f: &mut fmt::Formatter) -> fmt::Result {
        let [f0, f1] = self.figures;
        words::write(f, Call::Submission, self.number, [self.action, self.kind.into()], [f0, f1, 0])?;
        self.misfit.as_ref().map_or(Ok(()), |misfit| write!(f, "; {misfit}"))
    }
}

impl std::error::Error for SubmitRefused {}

/// Submits actions on the lent tables.
pub fn validate_acceleration_structure_actions(
    indices: &mut CommandIndices,
    lent: Lent,
    actions: &Actions,
) -> Result<(), SubmitRefused> {
    let again = Lent {
        blases: &mut *lent.blases,
        tlases: &mut *lent.tlases,
        dependency_counts: &mut *lent.dependency_counts,
        dependencies: &mut *lent.dependencies,
    };
    let a = raw::submit(indices, again, &actions.actions, &actions.lists);
    if a.number == 0 {
        return Ok(());
    }
    let judged = Judged { lent: &lent, actions, number: a.number };
    // a start that is refused is as it was; one that isn't has no such fault
    let start = if a.action == 0 { judged.start() } else { None };
    let room = a.number == 39;
    let kind = if room || start.is_some() { 0 } else { judged.cell(a.action, 0).unwrap_or(0) };
    let misfit = start.or_else(|| if room { None } else { judged.action(usize::try_from(a.action).ok()?) });
    let error = ValidateAsActionsError::known(a.number, a.figures, kind)
        .unwrap_or(ValidateAsActionsError::Other { number: a.number, figures: a.figures });
    Err(SubmitRefused { number: a.number, error, action: a.action, kind, figures: a.figures, misfit: misfit.map(Box::new) })
}

/// What a refusal by 4, 5 or 6 is looked for in.
struct Judged<'a> {
    lent: &'a Lent<'a>,
    actions: &'a Actions,
    number: u64,
}

impl Judged<'_> {
    fn tables(&self) -> Tables<'_> {
        Tables { blases: &*self.lent.blases, tlases: &*self.lent.tlases, ..Tables::default() }
    }

    /// A cell of an action.
    fn cell(&self, action: u64, k: usize) -> Option<u32> {
        let first = usize::try_from(action).ok()?.checked_mul(4)?;
        self.actions.actions.get(first.checked_add(k)?).copied()
    }

    /// What is refused of the start: a table, or what a Tlas lists.
    fn start(&self) -> Option<Misfit> {
        let tables = self.tables();
        [2, 4].into_iter().find_map(|k| self.table(&tables, k)).or_else(|| self.lists(&tables))
    }

    fn table(&self, tables: &Tables, k: usize) -> Option<Misfit> {
        let (s, number) = (tables.section(k)?, wide(k));
        let (table, count) = (tables.table(k), s.count(tables.table(k)));
        match self.number {
            4 if count > s.most => tables.misfit(4, [number, 0]),
            5 => (0..count).find_map(|i| tables.misfit_of_record(s, i)).or_else(|| {
                let part = count.saturating_mul(s.bytes) < table.len();
                if part { tables.misfit(5, [number, wide(count)]) } else { None }
            }),
            _ => None,
        }
    }

    fn lists(&self, tables: &Tables) -> Option<Misfit> {
        let rooms = self.lent.dependencies.chunks_exact(DEPENDENCY_ROOM);
        self.lent.dependency_counts.iter().zip(rooms).take(tables.count(4)).enumerate().find_map(|(t, (count, room))| {
            let (at, most) = (At::Start(t), wide(DEPENDENCY_ROOM));
            match self.number {
                4 if u64::from(*count) > most => Some(Misfit::TooMany { at, what: "blases", count: (*count).into(), most }),
                6 => room.iter().take((*count).into()).find_map(|b| tables.outside(at, "blas", (*b).into(), 2)),
                _ => None,
            }
        })
    }

    /// What is refused of an action before it acts.
    fn action(&self, action: usize) -> Option<Misfit> {
        let (at, tables) = (At::Action(action), self.tables());
        let first = action.checked_mul(4)?;
        let cells = self.actions.actions.get(first..)?;
        let Some([kind, operand, blases, tlases]) = cells.first_chunk().copied() else {
            return (self.number == 5).then_some(Misfit::PartAction { at, cells: cells.len() });
        };
        match (self.number, kind) {
            (5, BUILD | MARK_BUILT) => self.past(at, operand, blases, tlases),
            (5, _) => {
                Some(Misfit::Value { at, field: "kind", value: kind.into(), may: May::Range(BUILD.into(), MARK_BUILT.into()) })
            }
            (6, USE_TLAS | MARK_TLAS) => tables.outside(at, "its tlas", operand.into(), 4),
            (6, MARK_BLAS) => tables.outside(at, "its blas", operand.into(), 2),
            (4 | 6, BUILD | MARK_BUILT) => self.build(action, operand, blases, tlases),
            _ => None,
        }
    }

    /// A Build's own lists, or a mark's, past what is lent.
    fn past(&self, at: At, operand: u32, blases: u32, tlases: u32) -> Option<Misfit> {
        let most = wide(self.actions.lists.len());
        let mut past = u64::from(operand).saturating_add(blases.into());
        for _ in 0..tlases {
            if past > most {
                break;
            }
            let count = past.checked_add(1).and_then(|i| self.actions.lists.get(usize::try_from(i).ok()?)).copied();
            past = past.saturating_add(2).saturating_add(count.unwrap_or(0).into());
        }
        (past > most).then_some(Misfit::PastLists { at, end: past, cells: most })
    }

    /// A Build's lists, or a mark's: too long, or an id outside its table.
    fn build(&self, action: usize, operand: u32, blases: u32, tlases: u32) -> Option<Misfit> {
        let (at, tables) = (At::Action(action), self.tables());
        if self.number == 4 {
            let [most_blases, most_tlases] = MOST_LISTED;
            for (what, count, most) in [("blases", blases, most_blases), ("tlases", tlases, most_tlases)] {
                if u64::from(count) > most {
                    return Some(Misfit::TooMany { at, what, count: count.into(), most });
                }
            }
        }
        let mut cells = self.actions.lists.iter().skip(usize::try_from(operand).ok()?).copied();
        let mut own = cells.by_ref().take(usize::try_from(blases).ok()?);
        let of_blases = own.find_map(|b| tables.outside(at, "blas", b.into(), 2)).filter(|_| self.number == 6);
        if of_blases.is_some() {
            return of_blases;
        }
        own.for_each(drop);
        (0..usize::try_from(tlases).ok()?).find_map(|n| {
            let (tlas, count) = (cells.next()?, cells.next()?);
            let (listed, most) = (At::Listed(action, n), wide(DEPENDENCY_ROOM));
            if self.number == 4 {
                cells.by_ref().take(count.into()).for_each(drop);
                let above = u64::from(count) > most;
                return above.then_some(Misfit::TooMany { at: listed, what: "blases", count: count.into(), most });
            }
            let mut dependencies = cells.by_ref().take(count.into());
            let found = tables
                .outside(at, "tlas", tlas.into(), 4)
                .or_else(|| dependencies.find_map(|b| tables.outside(listed, "blas", b.into(), 2)));
            dependencies.for_each(drop);
            found
        })
    }
}
