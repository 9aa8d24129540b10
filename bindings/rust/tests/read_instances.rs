//! Instances read back from their bytes: bit for bit, both ways round with `append_instances`, the Blas by its address in tables of
//! any length, each refusal in its turn and by name. Calls are held against the request read plainly, with every byte they leave.
use std::collections::BTreeMap;
use std::path::Path;
use zakvind::*;

/// A number of Marsaglia's xorshift.
fn next(state: &mut u64) -> u64 {
    *state ^= *state << 13;
    *state ^= *state >> 7;
    *state ^= *state << 17;
    *state
}

fn next_u32(state: &mut u64) -> u32 {
    (next(state) >> 32).try_into().unwrap()
}

/// A number below another.
fn below(state: &mut u64, n: usize) -> usize {
    (next(state) % u64::try_from(n).unwrap()).try_into().unwrap()
}

/// A table of Blases with these addresses. All else of them is any bytes, since nothing of it is judged.
fn with_addresses(addresses: &[u64]) -> Vec<u8> {
    let mut state = 0x5eed;
    let mut blases: Vec<u8> = (0..28 * addresses.len()).map(|_| next(&mut state).to_le_bytes()[3]).collect();
    addresses.iter().enumerate().for_each(|(i, address)| put_address(&mut blases, i, *address));
    blases
}

fn put_address(blases: &mut [u8], i: usize, address: u64) {
    blases[28 * i + 12..28 * i + 20].copy_from_slice(&address.to_le_bytes());
}

/// Twelve numbers by their bits; custom data and mask; the u32 that is to be 0; the address.
fn record(numbers: [u32; 12], data: u32, word: u32, address: u64) -> [u8; 64] {
    let mut bytes = [0; 64];
    bytes[..48].copy_from_slice(numbers.map(u32::to_le_bytes).as_flattened());
    bytes[48..52].copy_from_slice(&data.to_le_bytes());
    bytes[52..56].copy_from_slice(&word.to_le_bytes());
    bytes[56..].copy_from_slice(&address.to_le_bytes());
    bytes
}

/// A record with this address and word, all else of any bits.
fn any_record(state: &mut u64, word: u32, address: u64) -> [u8; 64] {
    let numbers = std::array::from_fn(|_| next_u32(state));
    record(numbers, next_u32(state), word, address)
}

/// The request read plainly, the whole table looked through for each record: the items, or the number and the record.
fn plainly(records: &[u8], blases: &[u8], room: usize) -> Result<Vec<u8>, (u64, usize)> {
    let (whole, part) = records.as_chunks::<64>();
    if !part.is_empty() {
        return Err((48, 0));
    }
    let mut items = Vec::new();
    for (k, r) in whole.iter().enumerate() {
        if r[52..56] != [0; 4] {
            return Err((49, k));
        }
        let have = blases.chunks_exact(28).enumerate().filter(|(_, b)| b[12..20] == r[56..64]);
        let [one] = have.map(|(i, _)| i).collect::<Vec<_>>()[..] else { return Err((50, k)) };
        let Ok(id) = u16::try_from(one) else { return Err((50, k)) };
        items.extend(id.to_le_bytes());
        items.extend([r[48], r[49], r[50], 0, r[51]]);
        items.extend(&r[..48]);
    }
    if items.len() > room { Err((39, 0)) } else { Ok(items) }
}

/// What the library answers with so much room, and what it leaves of it, are as the request has it; the number.
fn lent(records: &[u8], blases: &[u8], room: usize) -> u64 {
    let mut out = vec![7; room];
    let a = raw::read_instances(records, blases, &mut out);
    match plainly(records, blases, room) {
        Ok(mut due) => {
            assert_eq!((a.number, a.e, a.written), (0, [0, 0], due.len().try_into().unwrap()));
            due.resize(room, 7);
            assert!(out == due, "what is written, and what is past it");
        }
        Err((number, record)) => {
            assert_eq!((a.number, a.e, a.written), (number, [record.try_into().unwrap(), 0], 0));
            assert!(out.iter().all(|byte| *byte == 7), "{number} writes nothing");
        }
    }
    a.number
}

/// The same with the room that it needs, a byte less and more, and none; and of the call that makes its own.
fn as_requested(records: &[u8], blases: &[u8]) -> Result<Vec<TlasInstance>, ReadInstancesRefused> {
    let room = records.len() / 64 * 55;
    let number = lent(records, blases, room);
    for other in [0, room.saturating_sub(1), room + 1, room + 55] {
        let short = number == 0 && other < room;
        assert_eq!(lent(records, blases, other), if short { 39 } else { number });
    }
    let answer = read_instances(records, blases);
    match (&answer, plainly(records, blases, room)) {
        (Ok(instances), Ok(due)) => assert!(instances.iter().flat_map(TlasInstance::to_bytes).eq(due)),
        (Err(refused), Err((number, record))) => {
            assert_eq!((refused.error.number(), refused.record), (number, (number != 48).then_some(record)));
            assert!(refused.misfit.is_some(), "{refused}");
        }
        (answer, due) => panic!("{answer:?}, and it must be {due:?}"),
    }
    answer
}

/// Two Tlases, of which the second returns vertices.
fn tlases() -> Vec<u8> {
    table(&[Tlas::default(), Tlas { flags: ALLOW_RAY_HIT_VERTEX_RETURN, ..Default::default() }]).unwrap()
}

/// What appending these to a Tlas writes.
fn appended(blases: &[u8], tlas: u16, instances: &[TlasInstance]) -> Result<Vec<u8>, AppendManyRefused> {
    let mut bytes = vec![7; 64 * instances.len()];
    let used = append_instances(&tlases(), blases, TlasId(tlas), instances, &mut bytes, 0)?;
    assert_eq!(used, bytes.len());
    Ok(bytes)
}

/// One of each class, but for the sign: zeros, subnormals, normals, infinities, NaNs signalling and quiet with payloads.
const CLASSES: [u32; 22] = [
    0,
    1,
    0x0000_0400,
    0x007f_ffff,
    0x0080_0000,
    0x3eaa_aaab,
    0x3f80_0000,
    0x4b80_0001,
    0x7f7f_ffff,
    0x7f80_0000,
    0x7f80_0001,
    0x7f80_0400,
    0x7f92_3456,
    0x7fa0_0000,
    0x7fbf_fffe,
    0x7fbf_ffff,
    0x7fc0_0000,
    0x7fc0_0001,
    0x7fd5_5555,
    0x7fe0_0000,
    0x7fff_fffe,
    0x7fff_ffff,
];

#[test]
fn every_class_of_number_comes_back_bit_for_bit() {
    let blases = with_addresses(&[1 << 40, 0xb1a5]);
    let both: Vec<u32> = CLASSES.iter().flat_map(|bits| [*bits, bits | 1 << 31]).collect();
    assert!(both.iter().any(|bits| f32::from_bits(*bits).is_subnormal()) && both.iter().any(|bits| f32::from_bits(*bits).is_nan()));
    let mut records = Vec::new();
    for (i, bits) in both.iter().enumerate() {
        // alone in each place, and beside each other
        for place in 0..12 {
            let mut numbers = IDENTITY.map(f32::to_bits);
            numbers[place] = *bits;
            records.push(record(numbers, 0xff00_0007, 0, 0xb1a5));
        }
        records.push(record(std::array::from_fn(|k| both[(i + k) % both.len()]), 0, 0, 1 << 40));
        records.push(record([*bits; 12], 0, 0, 1 << 40));
    }
    let bytes = records.as_flattened();
    let instances = as_requested(bytes, &blases).unwrap();
    for (r, instance) in records.iter().zip(&instances) {
        let bits = instance.transform.map(f32::to_bits);
        assert_eq!(bits.map(u32::to_le_bytes).as_flattened(), &r[..48]);
    }
    assert_eq!(appended(&blases, 0, &instances).unwrap(), bytes);
    assert_eq!(read_instances(&appended(&blases, 0, &instances).unwrap(), &blases).unwrap(), instances);
}

#[test]
fn custom_data_are_24_bits_and_the_mask_8() {
    let blases = with_addresses(&[5]);
    let words = (0..32).map(|k| 1 << k).chain([0, u32::MAX, 0x00ff_ffff, 0xff00_0000, 0x0100_0000, 0x80ff_fffe, 0x017f_ffff]);
    for data in words {
        let instances = as_requested(&record([0; 12], data, 0, 5), &blases).unwrap();
        let due =
            TlasInstance { blas: BlasId(0), custom_data: data % (1 << 24), mask: data.to_le_bytes()[3], transform: [0.0; 12] };
        assert_eq!(instances, [due]);
        assert_eq!(appended(&blases, 0, &instances).unwrap(), record([0; 12], data, 0, 5));
    }
}

#[test]
fn an_instance_is_its_bytes() {
    let mut state = 3;
    for _ in 0..1000 {
        let bytes = std::array::from_fn(|_| next(&mut state).to_le_bytes()[3]);
        assert_eq!(TlasInstance::from_bytes(&bytes).to_bytes(), bytes);
    }
}

/// What is found of an address: the Blas, or 50.
fn found(blases: &[u8], address: u64) -> Option<u16> {
    match as_requested(&record([0; 12], 0, 0, address), blases) {
        Ok(instances) => Some(instances[0].blas.0),
        Err(refused) => {
            assert_eq!((refused.error, refused.record), (ReadInstancesError::NotOneBlas, Some(0)));
            None
        }
    }
}

#[test]
fn addresses_stand_once_twice_or_never() {
    // beside each address those that differ in one bit, or in one half
    for address in [0, 1, u64::MAX, u64::MAX - 1, 1 << 63, 1 << 32, u64::from(u32::MAX), 0xb1a5, 0x1234_5678_9abc_def0] {
        let mut near: Vec<u64> = (0..64).map(|k| address ^ 1 << k).collect();
        near.extend([!address, address.swap_bytes(), address.rotate_left(32)].into_iter().filter(|other| *other != address));
        near.sort_unstable();
        near.dedup();
        let blases = with_addresses(&near);
        assert_eq!(found(&blases, address), None, "never");
        for i in [0, 1, near.len() / 2, near.len() - 1] {
            let mut blases = blases.clone();
            put_address(&mut blases, i, address);
            assert_eq!(found(&blases, address).map(usize::from), Some(i), "once");
            assert_eq!(found(&blases, near[i]), None, "it is no longer there");
            let other = (i + 1) % near.len();
            put_address(&mut blases, other, address);
            assert_eq!(found(&blases, address), None, "twice");
            let third = (i + 2) % near.len();
            assert_eq!(found(&blases, near[third]).map(usize::from), Some(third), "another one is found beside it");
            put_address(&mut blases, third, address);
            assert_eq!(found(&blases, address), None, "three times");
        }
        assert_eq!(found(&[], address), None, "no Blases");
    }
    // 0 and 2^64 - 1 are addresses as others are
    let blases = with_addresses(&[0, u64::MAX]);
    assert_eq!((found(&blases, 0), found(&blases, u64::MAX), found(&blases, 1)), (Some(0), Some(1), None));
    let blases = with_addresses(&[u64::MAX, 0, 7, 0, u64::MAX]);
    assert_eq!((found(&blases, 0), found(&blases, u64::MAX), found(&blases, 7)), (None, None, Some(2)));
    // all alike
    for n in [2, 127, 128, 129, 500] {
        for address in [0, 9, u64::MAX] {
            let blases = with_addresses(&vec![address; n]);
            assert_eq!((found(&blases, address), found(&blases, address ^ 1)), (None, None));
        }
    }
}

/// Addresses as they may lie: close together, far apart, in steps, alike in low or in high bits, upwards, downwards and mixed.
const SPREADS: [fn(u64) -> u64; 16] = [
    |i| i,
    |i| i + 1,
    |i| u64::MAX - i,
    |i| i * 64,
    |i| i * 127,
    |i| i * 255,
    |i| i * 257,
    |i| u64::MAX - i * 65_521,
    |i| i * 256 + 0x7f12_3400_0000,
    |i| i << 32,
    |i| i << 48,
    |i| (i << 32) + (1 << 31),
    u64::reverse_bits,
    |i| (i % 2 * 1000 + i) * 4096,
    |i| if i % 2 == 0 { i } else { u64::MAX - i },
    |i| i.wrapping_mul(0x9e37_79b9_7f4a_7c15),
];

fn addresses(n: usize, spread: fn(u64) -> u64) -> Vec<u64> {
    (0..n).map(|i| spread(i.try_into().unwrap())).collect()
}

#[test]
fn tables_of_any_length_are_searched_alike() {
    let mut state = 11;
    for n in [1, 2, 3, 64, 127, 128, 129, 257] {
        for spread in SPREADS {
            let all = addresses(n, spread);
            let blases = with_addresses(&all);
            let records: Vec<[u8; 64]> = all.iter().rev().map(|address| any_record(&mut state, 0, *address)).collect();
            let instances = as_requested(records.as_flattened(), &blases).unwrap();
            assert!(instances.iter().rev().map(|instance| usize::from(instance.blas.0)).eq(0..n));
            let absent = spread(n.try_into().unwrap());
            assert_eq!(found(&blases, absent), None);
            // a part of a record at the end is no Blas, neither the only one with an address nor a second one
            for part in [1, 12, 19, 20, 27] {
                assert_eq!(found(&blases[..28 * (n - 1) + part], all[n - 1]), None);
                let and_part = [&blases[..], &blases[28 * (n - 1)..][..part]].concat();
                assert_eq!(found(&and_part, all[n - 1]).map(usize::from), Some(n - 1));
            }
        }
    }
}

#[test]
fn two_with_one_address_are_none_wherever_they_stand() {
    for n in [127, 128, 129] {
        for (number, spread) in SPREADS.into_iter().enumerate() {
            let all = addresses(n, spread);
            let mut blases = with_addresses(&all);
            for i in 0..n {
                // each pair with the first spread, some with the others
                for j in (i + 1..n).filter(|j| number == 0 || (i + j) % 32 == number) {
                    put_address(&mut blases, j, all[i]);
                    let other = (0..n).find(|k| *k != i && *k != j).unwrap();
                    let of = |k: usize| record([0; 12], 0, 0, all[k]);
                    for (records, due) in [([other, i], 1), ([i, other], 0), ([other, j], 1)] {
                        let mut out = [7; 110];
                        let a = raw::read_instances(records.map(of).as_flattened(), &blases, &mut out);
                        assert_eq!((a.number, a.e, a.written, out), (50, [due, 0], 0, [7; 110]), "{i} and {j} of {n}");
                    }
                    assert_eq!(read_instances(&of(other), &blases).unwrap()[0].blas, BlasId(other.try_into().unwrap()));
                    put_address(&mut blases, j, all[j]);
                }
            }
        }
    }
}

#[test]
fn only_the_first_65536_have_an_id() {
    let mut all = addresses(65_541, |i| 0x10_0000 + 64 * i);
    let at = |i: u64| 0x10_0000 + 64 * i;
    let blases = with_addresses(&all);
    for i in [0, 1, 5, 127, 128, 65_534, 65_535] {
        assert_eq!(found(&blases, at(i)).map(u64::from), Some(i));
    }
    for i in 65_536..=65_541 {
        assert_eq!(found(&blases, at(i)), None, "{i} has no id, or is not there");
    }
    let refused = read_instances(&record([0; 12], 0, 0, at(65_536)), &blases).unwrap_err();
    assert_eq!(refused.misfit.unwrap().to_string(), "record 0: address is 0x500000, only blas 65536 has it, ids end at 65535");
    // of several, whether they have an id or not
    for [first, second] in [[5, 65_540], [65_535, 65_536], [65_536, 65_537], [0, 65_535]] {
        let was = std::mem::replace(&mut all[second], at(first.try_into().unwrap()));
        let blases = with_addresses(&all);
        assert_eq!(found(&blases, at(first.try_into().unwrap())), None, "{first} and {second}");
        assert_eq!(found(&blases, was), None);
        assert_eq!(found(&blases, at(6)), Some(6));
        all[second] = was;
    }
}

#[test]
fn what_is_accepted_is_appended_as_the_same_bytes() {
    let (mut state, mut same, mut refused) = (0xfeed, 0, 0);
    for n in [1, 2, 40, 127, 128, 129, 300] {
        let all = addresses(n, |i| i.wrapping_mul(0x9e37_79b9_7f4a_7c15));
        let mut blases = with_addresses(&all);
        for few in [false, true] {
            // all of them return vertices, or some do not
            blases.chunks_exact_mut(28).enumerate().for_each(|(i, b)| b[1] = if few && i % 50 == 0 { 5 } else { 6 });
            for count in [0, 1, 2, 40, 512] {
                let one = |_| {
                    let address = all[below(&mut state, n)];
                    any_record(&mut state, 0, address)
                };
                let records: Vec<[u8; 64]> = (0..count).map(one).collect();
                let bytes = records.as_flattened();
                let instances = as_requested(bytes, &blases).unwrap();
                assert_eq!(appended(&blases, 0, &instances).unwrap(), bytes);
                // unless 35
                let silent =
                    instances.iter().position(|i| blases[28 * usize::from(i.blas.0) + 1] & ALLOW_RAY_HIT_VERTEX_RETURN == 0);
                match (appended(&blases, 1, &instances), silent) {
                    (Ok(again), None) => assert!(again == bytes),
                    (Err(of), Some(first)) => assert_eq!((of.number, of.position), (35, Some(first))),
                    (answer, _) => panic!("{answer:?}"),
                }
                (same, refused) = (same + usize::from(silent.is_none()), refused + usize::from(silent.is_some()));
            }
        }
    }
    assert!(same > 20 && refused > 10, "{same} the same, {refused} refused");
}

#[test]
fn what_was_appended_comes_back_as_it_was() {
    let (mut state, mut back, mut several) = (0xbeef, 0, 0);
    for n in [1, 2, 40, 127, 128, 129, 300] {
        for twice in [false, true] {
            let mut all = addresses(n, |i| (i << 20) + 0x7f00_0000_0000);
            if twice {
                (1..n).step_by(4).for_each(|i| all[i] = all[i - 1]);
            }
            let blases = with_addresses(&all);
            for count in [0, 1, 2, 40, 512] {
                let one = |_| TlasInstance {
                    blas: BlasId(below(&mut state, n).try_into().unwrap()),
                    custom_data: next_u32(&mut state) >> 8,
                    mask: next_u32(&mut state).to_le_bytes()[0],
                    transform: std::array::from_fn(|_| f32::from_bits(next_u32(&mut state))),
                };
                let instances: Vec<TlasInstance> = (0..count).map(one).collect();
                let bytes = appended(&blases, 0, &instances).unwrap();
                let stands = |i: &TlasInstance| all.iter().filter(|address| **address == all[usize::from(i.blas.0)]).count();
                match (as_requested(&bytes, &blases), instances.iter().position(|i| stands(i) > 1)) {
                    (Ok(again), None) => assert!(again == instances),
                    (Err(refused), Some(first)) => {
                        assert_eq!((refused.error, refused.record), (ReadInstancesError::NotOneBlas, Some(first)));
                        several += 1;
                        continue;
                    }
                    (answer, first) => panic!("{answer:?}, {first:?}"),
                }
                back += 1;
            }
        }
    }
    assert!(back > 30 && several > 10, "{back} back, {several} not");
}

/// 48 before all, then record by record 49 and 50, then the room.
#[test]
fn each_refusal_has_its_turn() {
    let blases = with_addresses(&[3, 4, 4]);
    let (fine, word, address) = (record([1; 12], 2, 0, 3), record([1; 12], 2, 1, 3), record([1; 12], 2, 0, 4));
    let both = record([1; 12], 2, 1 << 31, 9);
    let kinds = [(fine, 0), (word, 49), (address, 50), (both, 49)];
    for (first, of_first) in kinds {
        for (second, of_second) in kinds {
            for (third, of_third) in kinds {
                let bytes = [first, second, third].concat();
                let numbers = [of_first, of_second, of_third];
                let bad = numbers.iter().position(|number| *number != 0);
                for room in [0, 54, 55, 164, 165, 166] {
                    let number = bad.map_or(if room < 165 { 39 } else { 0 }, |k| numbers[k]);
                    assert_eq!(lent(&bytes, &blases, room), number);
                    for part in [1, 8, 63] {
                        assert_eq!(lent(&bytes[..128 + part], &blases, room), 48);
                        assert_eq!(lent(&[&bytes[..], &bytes[..part]].concat(), &blases, room), 48);
                    }
                }
                let answer = as_requested(&bytes, &blases);
                assert_eq!(
                    answer.err().map(|refused| (refused.record, refused.error.number())),
                    bad.map(|k| (Some(k), numbers[k]))
                );
            }
        }
    }
    // each bit of a record: of the u32, of the address, and of what may have any
    for k in 0..512 {
        let mut one = fine;
        one[k / 8] ^= 1 << (k % 8);
        let number = match k / 8 {
            52..56 => 49,
            56.. => 50,
            _ => 0,
        };
        assert_eq!(lent(&one, &blases, 55), number);
    }
}

#[test]
fn lengths_are_in_64s() {
    let blases = with_addresses(&[3]);
    let bytes = [record([1; 12], 2, 0, 3); 3].concat();
    for n in 0..=bytes.len() {
        for blases in [&blases[..], &[]] {
            let number = match (n % 64, n) {
                (0, 0) => 0,
                (0, _) if blases.is_empty() => 50,
                (0, _) => 0,
                _ => 48,
            };
            let answer = as_requested(&bytes[..n], blases);
            assert_eq!(answer.map_or_else(|refused| refused.error.number(), |_| 0), number);
        }
    }
    assert_eq!(read_instances(&[], &[]), Ok(vec![]));
}

#[test]
fn records_of_any_kind_are_as_the_request_has_it() {
    let (mut state, mut seen) = (0xace, BTreeMap::new());
    let pool: Vec<u64> = (0..400).map(|i| [i, u64::MAX - i, i << 40, next(&mut state)][below(&mut state, 4)]).collect();
    for round in 0..6000 {
        let n = [0, 1, 3, 20, 127, 128, 129, 300][round % 8];
        let start = below(&mut state, pool.len());
        let mut all: Vec<u64> = (0..n).map(|i| pool[(start + i) % pool.len()]).collect();
        for _ in 0..below(&mut state, 3).min(n) {
            let (i, j) = (below(&mut state, n), below(&mut state, n));
            all[i] = all[j];
        }
        let mut blases = with_addresses(&all);
        blases.extend(vec![0; [0, 0, 1, 20, 27][below(&mut state, 5)]]);
        let mut records = Vec::new();
        for _ in 0..below(&mut state, 12) {
            let word = if below(&mut state, 40) == 0 { next_u32(&mut state) } else { 0 };
            let address = match below(&mut state, 30) {
                0 => next(&mut state),
                1 => pool[below(&mut state, pool.len())],
                _ if n > 0 => all[below(&mut state, n)],
                _ => 0,
            };
            records.push(any_record(&mut state, word, address));
        }
        let mut bytes = records.concat();
        if below(&mut state, 12) == 0 {
            bytes.extend(vec![0; 1 + below(&mut state, 63)]);
        }
        let room = match below(&mut state, 6) {
            0 => below(&mut state, 1 + 55 * records.len()),
            1 => 55 * records.len() + below(&mut state, 100),
            _ => 55 * records.len(),
        };
        *seen.entry(lent(&bytes, &blases, room)).or_insert(0) += 1;
    }
    assert!(seen.keys().copied().eq([0, 39, 48, 49, 50]) && seen.values().all(|n| *n > 150), "{seen:?}");
}

/// The next u32 of the recorded cases, and so many bytes after one.
fn recorded_number(rest: &mut &[u8]) -> Option<usize> {
    let (number, after) = rest.split_first_chunk()?;
    *rest = after;
    Some(u32::from_le_bytes(*number).try_into().unwrap())
}

fn recorded_bytes<'a>(rest: &mut &'a [u8]) -> Option<&'a [u8]> {
    let n = recorded_number(rest)?;
    rest.split_off(..n)
}

/// The cases of crates/cases_instances: records are read, with the room that each says too; items are appended, and then read.
#[test]
fn recorded_cases_are_as_the_request_has_it() {
    let path = Path::new(env!("CARGO_MANIFEST_DIR")).join("../../crates/cases_instances/stdin");
    let data = std::fs::read(path).unwrap();
    let (mut rest, mut seen, mut back) = (&data[..], BTreeMap::new(), 0);
    while !rest.is_empty() {
        let (tlases, blases) = (recorded_bytes(&mut rest).unwrap(), recorded_bytes(&mut rest).unwrap());
        for _ in 0..recorded_number(&mut rest).unwrap() {
            let [kind, tlas, room] = [0; 3].map(|_| recorded_number(&mut rest).unwrap());
            let bytes = recorded_bytes(&mut rest).unwrap();
            if kind == 1 {
                *seen.entry(lent(bytes, blases, room)).or_insert(0) += 1;
                let _ = as_requested(bytes, blases);
                continue;
            }
            let mut staged = vec![7; room];
            let a = raw::append_instances(tlases, blases, tlas.try_into().unwrap(), bytes, &mut staged, 0);
            if a.number == 0 {
                let used: usize = a.used.try_into().unwrap();
                if let Ok(again) = as_requested(&staged[..used], blases) {
                    assert!(again.iter().flat_map(TlasInstance::to_bytes).eq(bytes.iter().copied()));
                    back += 1;
                }
            }
        }
    }
    assert!(seen.keys().copied().eq([0, 39, 48, 49, 50]) && seen.values().all(|n| *n > 20) && back > 20, "{seen:?}, {back} back");
}

#[test]
fn refusals_speak_the_librarys_words() {
    fn is_error<E: std::error::Error + Send + Sync + 'static>(_: &E) {}
    let blases = with_addresses(&[0x10_0000, 7, 0x20_0000, 7, 7]);
    let said = |records: &[u8]| {
        let refused = as_requested(records, &blases).unwrap_err();
        is_error(&refused);
        refused.to_string()
    };
    let fine = record([0; 12], 0, 0, 0x20_0000);
    let with = |word, address| [fine, fine, record([0; 12], 0, word, address)].concat();
    assert_eq!(
        said(&with(0, 7)[..135]),
        "refused 48: length not in 64s; record 2: a record has 64 bytes, of which 7 bytes are there"
    );
    assert_eq!(said(&fine[..1]), "refused 48: length not in 64s; record 0: a record has 64 bytes, of which 1 byte is there");
    let word = "refused 49: u32 at byte 52 not 0, record 2; record 2: u32 at byte 52 is ";
    assert_eq!(said(&with(1, 7)), format!("{word}1, may be 0 only"));
    assert_eq!(said(&with(u32::MAX, 0x10_0000)), format!("{word}4294967295, may be 0 only"));
    let address = "refused 50: address of no Blas or of several, record 2; record 2: address is ";
    assert_eq!(said(&with(0, 0x10_0001)), format!("{address}0x100001, no blas has it"));
    assert_eq!(said(&with(0, u64::MAX)), format!("{address}0xffffffffffffffff, no blas has it"));
    assert_eq!(said(&with(0, 7)), format!("{address}0x7, 3 blases have it, the first is blas 1"));
    // as the library gives them to a caller of its own
    let mut out = [0; 100];
    let mut words = |number, record| {
        let told = raw::words(10, number, [record, 0], [0, 0, 0], &mut out);
        let n: usize = told.written.try_into().unwrap();
        std::str::from_utf8(&out[..n]).unwrap().to_owned()
    };
    assert_eq!(words(0, 3), "nothing is refused\n");
    assert_eq!(words(39, 3), "refused 39: lent output too short\n");
    assert_eq!(words(48, 3), "refused 48: length not in 64s\n");
    assert_eq!(words(49, 0), "refused 49: u32 at byte 52 not 0, record 0\n");
    assert_eq!(words(50, u64::MAX), "refused 50: address of no Blas or of several, record 18446744073709551615\n");
    for number in [1, 5, 6, 34, 35, 38, 40, 47, 51] {
        assert_eq!(words(number, 3), format!("refused {number}: no such cause\n"));
    }
}
