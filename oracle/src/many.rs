//! Many instances of one Tlas appended in one call, from the request's words: a second reading of them, over what one instance comes to
//! alone. With `fault` k it gets one thing wrong.

const ITEM: usize = 55;
const BYTES: usize = 64;

pub struct Call<'a> {
    /// whether the Tlas is in its table
    pub tlas_there: bool,
    /// end to end
    pub items: &'a [u8],
    pub used: u64,
}

/// An instance alone, with room for it: its number, and its bytes where that is 0.
pub type Alone<'a> = &'a mut dyn FnMut(&[u8; ITEM]) -> (u64, [u8; BYTES]);

/// How many things `append` can get wrong, from 1 on.
pub const FAULTS: u32 = 11;

/// "With room for all": as a whole number, which does not wrap.
fn fits(used: u64, items: usize, room: usize, fault: u32) -> bool {
    let end = match fault {
        1 => used.wrapping_add((BYTES * items) as u64).into(),
        2 if items == 0 => 0,
        _ => u128::from(used) + (BYTES * items) as u128,
    };
    end + u128::from(fault == 3) <= room as u128
}

/// number, E, three figures, bytes in use.
pub fn append(call: &Call, alone: Alone, instances: &mut [u8], fault: u32) -> [u64; 7] {
    // "E being 0 and its position"
    let refused = |number: u64, position: usize| [number, 0, position as u64, 0, 0, 0, call.used];
    // "6 for the Tlas, with 0, 0"
    if !call.tlas_there && !(fault == 4 && call.items.is_empty()) {
        return refused(6, 0);
    }
    let (whole, part) = call.items.as_chunks::<ITEM>();
    let part = (!part.is_empty() && fault != 5).then(|| refused(5, whole.len()));
    // "39 last"
    let short =
        (!fits(call.used, whole.len(), instances.len(), fault)).then(|| refused(39, if fault == 6 { whole.len() } else { 0 }));
    let early = match fault {
        7 => short,
        8 => part,
        _ => None,
    };
    // "then per instance 6, 34, 35": of the first bad one
    let all: Vec<(u64, [u8; BYTES])> = whole.iter().map(alone).collect();
    let bad = |one: &(u64, [u8; BYTES])| one.0 != 0;
    let first = if fault == 9 { all.iter().rposition(bad) } else { all.iter().position(bad) };
    let refusal = early.or(first.map(|k| refused(all[k].0, k + usize::from(fault == 10)))).or(part).or(short);
    // "writes nothing"
    let written = match (refusal, first) {
        (None, _) => all.len(),
        (_, Some(k)) if fault == 11 && short.is_none() => k,
        _ => 0,
    };
    let (at, bytes) = (call.used as usize, all[..written].iter().flat_map(|one| one.1).collect::<Vec<u8>>());
    if let Some(part) = instances.get_mut(at..).and_then(|rest| rest.get_mut(..bytes.len())) {
        part.copy_from_slice(&bytes);
    }
    refusal.unwrap_or([0, 0, 0, 0, 0, 0, call.used + bytes.len() as u64])
}
