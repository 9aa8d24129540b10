//! Instances read back from their 64-byte records, from the request's words: a second reading of them, over the addresses in order.
//! With `fault` k it gets one thing wrong.
use crate::layout::{self, blas, number_at, put_number, Raw, BLASES, SIZES, WIDTHS};

pub const RECORD: usize = 64;
pub const ITEM: usize = 55;
/// An id is a u16: a Blas from this index on has none.
const IDS: usize = 1 << 16;

/// How many things `read` can get wrong, from 1 on.
pub const FAULTS: u32 = 47;

/// A field of a whole Blas record.
fn field(record: &[u8], field: usize) -> u64 {
    let widths = WIDTHS[BLASES];
    number_at(record, widths[..field].iter().sum(), widths[field])
}

/// What addresses are told apart by: all of them.
fn key(address: u64, fault: u32) -> u64 {
    match fault {
        1 => address & u64::from(u32::MAX),
        2 => address >> 32,
        3 => address % 256,
        4 => address % 257,
        5 => address & !(255 << 56),
        6 => (address ^ address >> 32) & u64::from(u32::MAX),
        _ => address,
    }
}

/// The addresses of the table with their indices, in order. Whole records alone are Blases, and nothing else of one is judged.
fn addresses(blases: &[u8], fault: u32) -> Vec<(u64, usize)> {
    let mut whole = blases.to_vec();
    if fault == 7 {
        whole.resize(blases.len().next_multiple_of(SIZES[BLASES]), 0);
    }
    let counted = |b: &[u8]| match fault {
        8 => field(b, blas::DESTROYED) != 1,
        9 => field(b, blas::STATE) != 3,
        10 => field(b, blas::ADDRESS) != 0,
        11 => field(b, blas::ADDRESS) != u64::MAX,
        12 => field(b, blas::KIND) < 2,
        _ => true,
    };
    let from = match fault {
        13 => blas::NUMBER,
        14 => blas::SCRATCH,
        _ => blas::ADDRESS,
    };
    let most = match fault {
        15 => 128,
        16 => 256,
        17 => IDS,
        _ => usize::MAX,
    };
    let records = whole.chunks_exact(SIZES[BLASES]).enumerate().take(most);
    let mut all: Vec<_> = records.filter(|(_, b)| counted(b)).map(|(i, b)| (key(field(b, from), fault), i)).collect();
    all.sort_unstable();
    all
}

/// The id of the one Blas with an address; None: "an address of no Blas or of several".
fn the_one(addresses: &[(u64, usize)], address: u64, fault: u32) -> Option<u16> {
    let key = key(address, fault);
    let (from, to) = (addresses.partition_point(|a| a.0 < key), addresses.partition_point(|a| a.0 <= key));
    let index = match (&addresses[from..to], fault) {
        ([first, ..], 18) => first.1,
        ([.., last], 19) => last.1,
        ([first, _, _, ..], 20) => first.1,
        ([], 21) => 0,
        ([one], _) => one.1,
        _ => return None,
    };
    match fault {
        22 => u16::try_from(index % IDS).ok(),
        23 => u16::try_from(index.min(IDS - 1)).ok(),
        24 => u16::try_from(index % 256).ok(),
        _ => u16::try_from(index).ok(),
    }
}

/// "down to the bits of each number".
fn bits(number: u64, fault: u32) -> u64 {
    let (sign, size) = (number >> 31 << 31, number & 0x7fff_ffff);
    match fault {
        25 if size > 0x7f80_0000 => number | 0x40_0000,
        26 if size > 0x7f80_0000 => 0x7fc0_0000,
        27 if size > 0x7f80_0000 => size,
        28 if size == 0 => 0,
        29 if size < 0x80_0000 => sign,
        30 if size == 0x7f80_0000 => number - 1,
        _ => number,
    }
}

/// The item of a record, or "49 where the u32 that the writer leaves zero holds something else; 50 for an address of no Blas or of
/// several".
fn item(record: &[u8; RECORD], addresses: &[(u64, usize)], fault: u32) -> Result<[u8; ITEM], u64> {
    let word = number_at(record, 52, 4);
    let word = match fault {
        31 => 0,
        32 => word & 0xff_ffff,
        33 => word >> 24,
        _ => word,
    };
    let one = the_one(addresses, address(record), fault);
    if word != 0 && !(fault == 34 && one.is_none()) {
        return Err(49);
    }
    let one = one.ok_or(50u64)?;
    let packed = number_at(record, 48, 4);
    let (custom_data, mask) = match fault {
        35 => (packed & 0x1ff_ffff, packed >> 24),
        36 => (packed & 0xff_ffff, packed & 255),
        37 => (packed >> 8, packed & 255),
        _ => (packed & 0xff_ffff, packed >> 24),
    };
    let mut out = Vec::new();
    put_number(&mut out, one.into(), 2);
    put_number(&mut out, custom_data, 4);
    put_number(&mut out, mask, 1);
    for k in 0..12 {
        put_number(&mut out, bits(number_at(record, 4 * k, 4), fault), 4);
    }
    Ok(out.try_into().expect("55 bytes"))
}

/// number, E, bytes written.
pub fn read(records: &[u8], blases: &[u8], items: &mut [u8], fault: u32) -> [u64; 4] {
    let (whole, part) = records.as_chunks::<RECORD>();
    let uneven = (!part.is_empty()).then_some([48, 0, 0, 0]);
    let addresses = addresses(blases, fault);
    let all: Vec<Result<[u8; ITEM], u64>> = whole.iter().map(|record| item(record, &addresses, fault)).collect();
    let first = match fault {
        // 49 of all records before 50 of any
        38 => all.iter().position(|one| *one == Err(49)).or(all.iter().position(|one| one.is_err())),
        _ => all.iter().position(|one| one.is_err()),
    };
    // "both with the record"
    let at = |k: usize| match fault {
        39 => [k as u64 + 1, 0],
        40 => [0, k as u64],
        _ => [k as u64, 0],
    };
    let bad = first.and_then(|k| all[k].err().map(|number| [number, at(k)[0], at(k)[1], 0]));
    let needed = ITEM * whole.len();
    let short = (items.len() < needed + usize::from(fault == 41)).then_some([39, 0, 0, 0]);
    // "48 for a length not in 64s, before all; then per record ...; 39 last"
    let refusal = match fault {
        42 => bad.or(uneven).or(short),
        43 => uneven.or(short).or(bad),
        44 => bad.or(short),
        _ => uneven.or(bad).or(short),
    };
    // "nothing handed out"
    let written = match refusal {
        None => all.len(),
        Some(_) if fault == 45 => first.unwrap_or(all.len()).min(items.len() / ITEM),
        Some(_) => 0,
    };
    for (out, one) in items.chunks_exact_mut(ITEM).zip(all[..written].iter().flatten()) {
        out.copy_from_slice(one);
    }
    if fault == 46 && refusal.is_none() {
        items[needed..].fill(0);
    }
    refusal.unwrap_or([0, 0, 0, if fault == 47 { whole.len() } else { needed } as u64])
}

/// How many Blases have an address, below the first index that has no id and from there on: one by one.
pub fn standing(blases: &[u8], address: u64) -> (usize, usize) {
    let with = |(_, b): &(usize, &[u8])| field(b, blas::ADDRESS) == address;
    let (below, above): (Vec<_>, Vec<_>) = blases.chunks_exact(SIZES[BLASES]).enumerate().filter(with).partition(|(i, _)| *i < IDS);
    (below.len(), above.len())
}

/// What 50 is given for.
pub const NOT_ONE: [&str; 4] =
    ["50: of no Blas", "50: of several", "50: of several, from index 65,536 on too", "50: from index 65,536 on"];

/// Why an address that stands so often is not of one Blas.
pub fn not_one(standing: (usize, usize)) -> &'static str {
    match standing {
        (0, 0) => NOT_ONE[0],
        (0, 1) => NOT_ONE[3],
        (1, 0) => panic!("the address of one Blas"),
        (_, 0) => NOT_ONE[1],
        _ => NOT_ONE[2],
    }
}

/// The address of a record.
pub fn address(record: &[u8; RECORD]) -> u64 {
    number_at(record, 56, 8)
}

/// The Blas that an item names.
fn named<'a>(blases: &'a [u8], item: &[u8; ITEM]) -> Option<&'a [u8]> {
    blases.chunks_exact(SIZES[BLASES]).nth(u16::from_le_bytes([item[0], item[1]]).into())
}

/// Whether its address stands once.
pub fn once(blases: &[u8], item: &[u8; ITEM]) -> bool {
    named(blases, item).is_some_and(|b| standing(blases, field(b, blas::ADDRESS)) == (1, 0))
}

/// Whether it returns vertices: else 35 is what a Tlas that does is refused by.
pub fn returns(blases: &[u8], item: &[u8; ITEM]) -> bool {
    named(blases, item).is_some_and(|b| field(b, blas::FLAGS) & 2 != 0)
}

/// Tlases to append to: the first does not return vertices, whatever else its flags are, and the second does.
pub fn tlases() -> Vec<u8> {
    let mut raw = Raw::default();
    raw.push(layout::TLASES, &[0xfd, 1, 9, 8, 7]);
    raw.push(layout::TLASES, &[2, 0, 0, 0, 0]);
    raw.table(layout::TLASES)
}
