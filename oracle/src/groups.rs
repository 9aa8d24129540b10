//! Groups of slots judged and opened, from the request's words: a second reading of them. With `fault` k it gets one thing wrong.
use crate::layout::{SIZES, SLOTS, WIDTHS};

const MOST_GROUPS: usize = 64;
const MOST_SLOTS: usize = 512;

/// number, place, group, item
type Refusal = [u64; 4];

enum Item<'a> {
    /// the fields' bytes
    Slot(&'a [u8]),
    Group(usize),
}

struct Left<'a> {
    bytes: &'a [u8],
    at: usize,
}

impl<'a> Left<'a> {
    /// "Card cut short": 2, at the field that is not whole.
    fn field(&mut self, width: usize) -> Result<&'a [u8], Refusal> {
        let field = self.bytes.get(self.at..self.at + width).ok_or([2, self.at as u64, 0, 0])?;
        self.at += width;
        Ok(field)
    }

    fn number(&mut self, width: usize) -> Result<usize, Refusal> {
        Ok(self.field(width)?.iter().rev().fold(0, |n, &b| n << 8 | usize::from(b)))
    }

    fn item(&mut self, group: usize, item: usize, fault: u32) -> Result<Item<'a>, Refusal> {
        let start = self.at;
        match self.number(1)? {
            1 => {
                for width in &WIDTHS[SLOTS][1..] {
                    self.field(*width)?;
                }
                Ok(Item::Slot(&self.bytes[start + 1..self.at]))
            }
            2 => match self.number(2)? {
                named if named < group + usize::from(fault == 1) => Ok(Item::Group(named)),
                _ => Err([45, 0, group as u64, item as u64]),
            },
            _ => Err([5, start as u64, 0, 0]),
        }
    }

    fn group(&mut self, group: usize, fault: u32) -> Result<Vec<Item<'a>>, Refusal> {
        match self.number(2)? {
            0 => Err([45, 0, group as u64, 0]),
            count => (0..count).map(|item| self.item(group, item, fault)).collect(),
        }
    }
}

/// "the whole card is judged first, from the start on, 45 included".
fn judged(bytes: &[u8], fault: u32) -> Result<Vec<Vec<Item<'_>>>, Refusal> {
    let mut left = Left { bytes, at: 0 };
    let count = left.number(2)?;
    if count > MOST_GROUPS {
        return Err([4, 0, 0, 0]);
    }
    if count == 0 {
        return Err([45, 0, 0, 0]);
    }
    let groups = (0..count).map(|group| left.group(group, fault)).collect::<Result<_, _>>()?;
    match bytes.len() - left.at {
        0 => Ok(groups),
        _ => Err([3, left.at as u64, 0, 0]),
    }
}

/// The first slots of the last group, up to the 513th, each with its group and item: what is left to open stands on a stack.
fn slots<'a>(groups: &[Vec<Item<'a>>], fault: u32) -> Vec<(usize, usize, &'a [u8])> {
    let first = if fault == 2 { 0 } else { groups.len() - 1 };
    let (mut found, mut stack) = (Vec::new(), vec![(first, 0)]);
    while let Some((group, item)) = stack.pop() {
        let Some(next) = groups[group].get(item) else { continue };
        stack.push((group, item + 1));
        match next {
            Item::Slot(fields) => found.push((group, item, *fields)),
            Item::Group(named) => stack.push((*named, 0)),
        }
        if found.len() > MOST_SLOTS || stack.len() > MOST_GROUPS + 1 {
            break;
        }
    }
    found
}

/// How many things `open` can get wrong, from 1 on.
pub const FAULTS: u32 = 6;

/// number, place, group, item, bytes written.
pub fn open(bytes: &[u8], out: &mut [u8], fault: u32) -> [u64; 5] {
    let refused = |[number, place, group, item]: Refusal| [number, place, group, item, 0];
    let groups = match judged(bytes, fault) {
        Ok(groups) => groups,
        Err(why) => return refused(why),
    };
    let found = slots(&groups, fault);
    if let Some((group, item, _)) = found.get(if fault == 3 { MOST_SLOTS - 1 } else { MOST_SLOTS }) {
        let item = if fault == 4 { item + 1 } else { *item };
        return refused([46, 0, *group as u64, item as u64]);
    }
    let records: Vec<u8> = found.iter().flat_map(|(_, _, fields)| [&[u8::from(fault != 5)], *fields].concat()).collect();
    assert_eq!(records.len(), found.len() * SIZES[SLOTS]);
    if out.len() < records.len() + usize::from(fault == 6) {
        return refused([39, 0, 0, 0]);
    }
    out[..records.len()].copy_from_slice(&records);
    [0, 0, 0, 0, records.len() as u64]
}
