//! Groups of slots opened: the library against a second reading of the request, over the recorded groups.
#![allow(dead_code)]

#[path = "../../../oracle/src/groups.rs"]
mod groups;
#[path = "../../../oracle/src/layout.rs"]
mod layout;

use std::path::Path;
use zakvind::*;

/// The groups of crates/cases_groups, each after its length and a room.
fn recorded() -> Vec<(Vec<u8>, usize)> {
    let path = Path::new(env!("CARGO_MANIFEST_DIR")).join("../../crates/cases_groups/stdin");
    let data = std::fs::read(path).unwrap();
    let (mut all, mut rest) = (Vec::new(), data.as_slice());
    let number = |bytes: &[u8]| u32::from_le_bytes(bytes.try_into().unwrap()).try_into().unwrap();
    while let Some((head, after)) = rest.split_first_chunk::<8>() {
        let n: usize = number(&head[..4]);
        all.push((after[..n].to_vec(), number(&head[4..])));
        rest = &after[n..];
    }
    all
}

fn expected(bytes: &[u8], out: &mut [u8]) -> Result<usize, OpenRefused> {
    let [number, place, group, item, written] = groups::open(bytes, out, 0);
    match number {
        0 => Ok(written.try_into().unwrap()),
        39 => Err(OpenRefused::OutputTooShort),
        45 => Err(OpenRefused::InvalidGroup { group, item }),
        46 => Err(OpenRefused::TooManySlots { group, item }),
        2 => Err(OpenRefused::Groups { error: SheetError::Truncated, place }),
        3 => Err(OpenRefused::Groups { error: SheetError::TrailingBytes, place }),
        4 => Err(OpenRefused::Groups { error: SheetError::TooMany, place }),
        5 => Err(OpenRefused::Groups { error: SheetError::InvalidValue, place }),
        _ => panic!("refused by {number}"),
    }
}

#[test]
fn opened_groups_are_those_of_the_request() {
    let mut seen = std::collections::BTreeMap::new();
    for (bytes, room) in recorded() {
        let (mut out, mut due) = (vec![7; room], vec![7; room]);
        let answer = open_groups(&bytes, &mut out);
        assert_eq!(answer, expected(&bytes, &mut due));
        assert_eq!(out, due);
        *seen.entry(answer.map_or_else(OpenRefused::number, |_| 0)).or_insert(0) += 1;
        // what needs no room says the same
        let mut all = vec![0; MOST_SLOTS * SLOT_BYTES];
        let whole = expected(&bytes, &mut all).map(|n| all[..n].to_vec());
        assert_eq!(opened_slots(&bytes), whole);
    }
    assert!(seen.keys().copied().eq([0, 2, 3, 4, 5, 39, 45, 46]) && seen.values().all(|n| *n > 20), "{seen:?}");
}

fn item(group: u16) -> Vec<u8> {
    [&[2], &group.to_le_bytes()[..]].concat()
}

fn group(items: &[Vec<u8>]) -> Vec<u8> {
    let n: u16 = items.len().try_into().unwrap();
    [&n.to_le_bytes()[..], &items.concat()].concat()
}

fn all(groups: &[Vec<u8>]) -> Vec<u8> {
    group(groups)
}

#[test]
fn slots_are_as_a_build_takes_them() {
    let at =
        |x| TlasInstance { blas: BlasId(3), custom_data: 7, mask: 255, transform: [1., 0., 0., x, 0., 1., 0., 0., 0., 0., 1., 0.] };
    let slot = |x| table(&[Some(at(x))]).unwrap();
    let bytes = all(&[group(&[slot(1.), slot(2.)]), group(&[item(0), slot(3.), item(0)])]);
    let opened = opened_slots(&bytes).unwrap();
    assert_eq!(opened, table(&[1., 2., 3., 1., 2.].map(|x| Some(at(x)))).unwrap());
    let tables = Tables { slots: &opened, ..Default::default() };
    assert_eq!(tables.records::<Option<TlasInstance>>().unwrap()[2], Some(at(3.)));
}

#[test]
fn refusals_speak_the_librarys_words() {
    let said = |bytes: &[u8]| opened_slots(bytes).unwrap_err().to_string();
    assert_eq!(said(&[]), "refused 2: sheet ends early, byte 0");
    assert_eq!(said(&[65, 0]), "refused 4: count above its limit, byte 0");
    assert_eq!(said(&[1, 0, 1, 0, 3]), "refused 5: value outside its field, byte 4");
    assert_eq!(said(&[0, 0]), "refused 45: count 0, or a group that is not an earlier one, group 0, item 0");
    let slot = table(&[Some(TlasInstance { blas: BlasId(0), custom_data: 0, mask: 0, transform: IDENTITY })]).unwrap();
    let own = all(&[group(std::slice::from_ref(&slot)), group(&[slot.clone(), item(0), item(1)])]);
    assert_eq!(said(&own), "refused 45: count 0, or a group that is not an earlier one, group 1, item 2");
    let mut one = all(&[group(std::slice::from_ref(&slot))]);
    assert_eq!(open_groups(&one, &mut [0; 55]).unwrap_err().to_string(), "refused 39: lent output too short");
    assert_eq!(opened_slots(&one), Ok(slot.clone()));
    one.push(0);
    assert_eq!(said(&one), "refused 3: bytes after the sheet, byte 60");
    let doubled: Vec<Vec<u8>> = (0..MOST_GROUPS)
        .map(|g| if g == 0 { group(std::slice::from_ref(&slot)) } else { group(&vec![item((g - 1).try_into().unwrap()); 2]) })
        .collect();
    assert_eq!(said(&all(&doubled)), "refused 46: more than 512 slots, group 0, item 0");
}
