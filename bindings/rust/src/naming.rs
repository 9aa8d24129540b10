//! Finds what a refusal by 1 to 6 is about: the field in a lent table or a sheet, or the id.
use crate::building::Tables;
use crate::format::{Allowed, Field, KindOf, Section, Version, number};
use crate::layout::NO_BUFFER;
use crate::misfit::{At, May, Misfit, wide};

/// What the fields of a record are judged by: its kind, and how many records a section has.
struct Seen<'a> {
    boxes: bool,
    tables: &'a Tables<'a>,
}

impl Seen<'_> {
    /// What a value of the field may be, if this one may not.
    fn refuses(&self, field: &Field, value: u64) -> Option<May> {
        let fits = match field.allowed {
            Allowed::Any => true,
            Allowed::Range(least, most) => (least..=most).contains(&value),
            Allowed::AtLeast(least) => value >= least,
            Allowed::OneOf(values) => values.contains(&value),
            Allowed::Except(n) => value != n,
            Allowed::Inside(k) => value < wide(self.tables.count(k)),
        };
        (!fits).then(|| self.may(field))
    }

    /// What a value of the field may be.
    fn may(&self, field: &Field) -> May {
        let top = (0..field.width).fold(0, |top: u64, _| top << 8 | 255);
        match field.allowed {
            Allowed::Any => May::Range(0, top),
            Allowed::Range(least, most) => May::Range(least, most),
            Allowed::AtLeast(least) => May::Range(least, top),
            Allowed::OneOf(values) => May::OneOf(values),
            Allowed::Except(n) => May::Range(0, n.saturating_sub(1)),
            Allowed::Inside(k) => match self.tables.count(k).checked_sub(1) {
                Some(last) => May::Range(0, wide(last)),
                None => May::Nothing(self.tables.section(k).map_or("", |s| s.name)),
            },
        }
    }

    /// The first field of a record that is used and has a value that it may not have.
    fn first_refused(&self, s: &Section, record: &[u8], at: At) -> Option<Misfit> {
        s.fields.iter().filter(|f| f.is_used(s.fields, record, self.boxes)).find_map(|f| {
            let value = f.value(record)?;
            self.refuses(f, value).map(|may| Misfit::Value { at, field: f.name, value, may })
        })
    }
}

impl Tables<'_> {
    /// Whether a record's kind is boxes.
    pub(crate) fn is_boxes(&self, s: &Section, i: usize) -> bool {
        let kind = |number: usize, record: usize| {
            let of = self.section(number)?;
            of.value(of.record(self.table(number), record)?, "kind")
        };
        let found = match s.kind {
            KindOf::Triangles => None,
            KindOf::Blas => s
                .record(self.table(s.number), i)
                .and_then(|r| s.value(r, "blas"))
                .and_then(|blas| kind(2, usize::try_from(blas).ok()?)),
            KindOf::Entry => self.drawer(s, i).and_then(|(entry, _)| kind(s.drawn_by, entry)),
        };
        found == Some(1)
    }

    /// How many records each record of a section draws.
    pub(crate) fn drawn(&self, by: &'static Section) -> impl Iterator<Item = usize> + '_ {
        let count = by.draws.and_then(|field| by.fields.get(field));
        by.records(self.table(by.number)).map(move |r| {
            let drawn = count.and_then(|f| f.value(r)).unwrap_or(0);
            usize::try_from(drawn).unwrap_or(usize::MAX)
        })
    }

    /// The record that draws record i of a drawn section, and i's number among those that it draws.
    fn drawer(&self, s: &Section, i: usize) -> Option<(usize, usize)> {
        let mut left = i;
        self.drawn(self.section(s.drawn_by)?).enumerate().find_map(|(drawer, n)| {
            let found = (left < n).then_some((drawer, left));
            left = left.saturating_sub(n);
            found
        })
    }

    /// The field of record i of a section that has a value that it may not have.
    pub(crate) fn misfit_of_record(&self, s: &Section, i: usize) -> Option<Misfit> {
        let seen = Seen { boxes: self.is_boxes(s, i), tables: self };
        seen.first_refused(s, s.record(self.table(s.number), i)?, At::Record(s.number, i))
    }

    /// What is refused of a table by 4 or 5 with this section and record as E.
    pub(crate) fn misfit(&self, refused: u64, [number, record]: [u64; 2]) -> Option<Misfit> {
        let (number, record) = (usize::try_from(number).ok()?, usize::try_from(record).ok()?);
        if number == 0 && refused == 5 {
            let may = May::Range(1, u32::MAX.into());
            return Some(Misfit::Value { at: At::Call, field: "alignment", value: 0, may });
        }
        let s = self.section(number)?;
        let (at, count) = (At::Section(number), s.count(self.table(number)));
        if refused == 4 {
            return Some(Misfit::TooMany { at, what: s.name, count: wide(count), most: wide(s.most) });
        }
        if let Some(by) = self.section(s.drawn_by) {
            let drawn = self.drawn(by).fold(0, usize::saturating_add);
            if drawn != count {
                return Some(Misfit::Drawn { at, table: s.name, count: wide(count), by: by.name, drawn: wide(drawn) });
            }
        }
        if record == count {
            let bytes = self.table(number).len().saturating_sub(count.saturating_mul(s.bytes));
            return Some(Misfit::PartRecord { at: At::Record(number, record), bytes, whole: s.bytes });
        }
        self.misfit_of_record(s, record)
    }

    /// The first id outside its table, in the order in which a build judges ids, with its E.
    pub(crate) fn id_outside(&self) -> Option<([u64; 2], Misfit)> {
        // per entry: each geometry's buffers, then the Blas; per package: each present slot's Blas, then the Tlas
        [(5, 6), (7, 8)].into_iter().find_map(|(drawing, drawn)| {
            let (by, s) = (self.section(drawing)?, self.section(drawn)?);
            let mut next: usize = 0;
            self.drawn(by).enumerate().find_map(|(i, n)| {
                let of_drawn = (0..n).find_map(|j| {
                    let g = next.saturating_add(j);
                    let at = if drawn == 6 { At::Geometry(i, j) } else { At::Slot(i, j) };
                    let misfit = self.id_of_record(s, g, at)?;
                    Some(([wide(i), wide(j)], misfit))
                });
                next = next.saturating_add(n);
                of_drawn.or_else(|| {
                    let at = if drawing == 5 { At::Entry(i) } else { At::Package(i) };
                    self.id_of_record(by, i, at).map(|misfit| ([wide(i), 0], misfit))
                })
            })
        })
    }

    /// The first id of a record that is outside its table.
    fn id_of_record(&self, s: &Section, i: usize, at: At) -> Option<Misfit> {
        let record = s.record(self.table(s.number), i)?;
        let boxes = self.is_boxes(s, i);
        s.fields.iter().filter(|f| f.names > 0 && f.is_used(s.fields, record, boxes)).find_map(|f| {
            let id = f.value(record)?;
            if f.none && id == u64::from(NO_BUFFER) {
                return None;
            }
            self.outside(at, f.name, id, f.names)
        })
    }

    /// An id that names a record of a section, if it is outside.
    pub(crate) fn outside(&self, at: At, field: &'static str, id: u64, names: usize) -> Option<Misfit> {
        let of = self.section(names)?;
        let records = wide(self.count(names));
        (id >= records).then_some(Misfit::Id { at, field, id, of, records })
    }
}

/// A sheet walked from its start on, up to the refused byte.
pub(crate) struct Walk<'a> {
    /// that it may have
    versions: &'static [u64],
    sheet: &'a [u8],
    place: usize,
    at: usize,
    tables: Tables<'a>,
}

impl<'a> Walk<'a> {
    pub(crate) fn new(versions: &'static [u64], sheet: &'a [u8], place: usize) -> Self {
        Walk { versions, sheet, place, at: 0, tables: Tables::default() }
    }

    fn bytes(&self, at: usize, width: usize) -> Option<&'a [u8]> {
        self.sheet.get(at..)?.get(..width)
    }

    /// What is refused by 1 to 5, or by 47.
    pub(crate) fn misfit(mut self, refused: u64) -> Option<Misfit> {
        if refused == 3 {
            let bytes = self.sheet.len().saturating_sub(self.place);
            return Some(Misfit::LeftOver { byte: wide(self.place), bytes: wide(bytes) });
        }
        let (version, alignment) = (May::OneOf(self.versions), May::Range(1, u32::MAX.into()));
        for (field, width, may) in [("version", 1, version), ("alignment", 4, alignment), ("counter", 8, May::Range(0, u64::MAX))] {
            if let Some(misfit) = self.field(field, width, None, may) {
                return Some(misfit);
            }
        }
        self.tables.version = self.sheet.first().and_then(|byte| Version::of((*byte).into()))?;
        self.tables.version.sections().iter().find_map(|s| self.section(s))
    }

    /// The field that begins here, if it begins at the refused byte; else it is gone over.
    fn field(&mut self, name: &'static str, width: usize, of: Option<(&'static str, usize)>, may: May) -> Option<Misfit> {
        let (start, at) = (self.at, At::Byte(wide(self.at), of));
        self.at = self.at.saturating_add(width);
        if start != self.place {
            return None;
        }
        Some(match self.bytes(start, width) {
            None => Misfit::NotWhole { at, field: name, width, there: self.sheet.len().saturating_sub(start) },
            Some(bytes) => Misfit::Value { at, field: name, value: number(bytes), may },
        })
    }

    /// A section's count and its records.
    fn section(&mut self, s: &'static Section) -> Option<Misfit> {
        let start = self.at;
        let found = self.field(s.counted, 2, None, May::Range(0, wide(s.most)));
        let count = usize::try_from(number(self.bytes(start, 2).unwrap_or(&[]))).unwrap_or(usize::MAX);
        if let (Some(Misfit::Value { at, .. }), Some(by)) = (&found, self.tables.section(s.drawn_by))
            && count <= s.most
        {
            let drawn = self.tables.drawn(by).fold(0, usize::saturating_add);
            return Some(Misfit::Drawn { at: *at, table: s.name, count: wide(count), by: by.name, drawn: wide(drawn) });
        }
        if found.is_some() {
            return found;
        }
        let from = self.at;
        let past = from.saturating_add(count.saturating_mul(s.bytes));
        let table = self.sheet.get(from..past.min(self.sheet.len())).unwrap_or(&[]);
        self.tables.put(s.number, table);
        self.at = past;
        if self.place >= past {
            return None;
        }
        // the record that has the refused byte, and its field
        let record = self.place.saturating_sub(from).checked_div(s.bytes)?;
        self.at = from.saturating_add(record.saturating_mul(s.bytes));
        let known = self.tables;
        let seen = Seen { boxes: known.is_boxes(s, record), tables: &known };
        s.fields.iter().find_map(|f| self.field(f.name, f.width, Some((s.one, record)), seen.may(f)))
    }
}
