//! Sheets of one version written as the other: the library against a second reading of the request over the recorded sheets, and each
//! refusal at its place.
#![allow(dead_code)]

#[path = "../../../oracle/src/convert.rs"]
mod convert;
#[path = "../../../oracle/src/layout.rs"]
mod layout;

use std::path::Path;
use zakvind::*;

fn beside(path: &str) -> Vec<u8> {
    std::fs::read(Path::new(env!("CARGO_MANIFEST_DIR")).join("../..").join(path)).unwrap()
}

/// The sheets of crates/cases_convert, each after its length and a room.
fn recorded() -> Vec<(Vec<u8>, usize)> {
    let data = beside("crates/cases_convert/stdin");
    let (mut all, mut rest) = (Vec::new(), data.as_slice());
    let number = |bytes: &[u8]| u32::from_le_bytes(bytes.try_into().unwrap()).try_into().unwrap();
    while let Some((head, after)) = rest.split_first_chunk::<8>() {
        let n: usize = number(&head[..4]);
        all.push((after[..n].to_vec(), number(&head[4..])));
        rest = &after[n..];
    }
    all
}

type Call = fn(&[u8], &mut [u8]) -> Result<usize, ConvertRefused>;
const BOTH: [(Version, Call); 2] = [(Version::One, to_version_1), (Version::Two, to_version_2)];

fn number_of(answer: &Result<usize, ConvertRefused>) -> u64 {
    answer.as_ref().map_or_else(|refused| refused.error.number(), |_| 0)
}

/// What a converter says of a sheet with so much room, and what it leaves, are what the request says.
fn as_requested(to: Version, call: Call, sheet: &[u8], room: usize) -> Result<usize, ConvertRefused> {
    let read = raw::read_sheet(sheet);
    let of = layout::Version::of(to.number().into()).unwrap();
    let (mut out, mut due) = (vec![7; room], vec![7; room]);
    let [number, place, written] = convert::convert(of, sheet, &mut due, (read.number, read.place), 0);
    let answer = call(sheet, &mut out);
    match &answer {
        Ok(n) => assert_eq!((number, written), (0, (*n).try_into().unwrap())),
        Err(refused) => assert_eq!((refused.to, refused.error.number(), refused.place), (to, number, place)),
    }
    assert!(out == due, "to {to:?}, {number} at {place}");
    answer
}

#[test]
fn converted_sheets_are_those_of_the_request() {
    let mut seen = std::collections::BTreeMap::new();
    for (sheet, room) in recorded() {
        for (to, call) in BOTH {
            let whole = as_requested(to, call, &sheet, sheet.len() + 1024);
            let length = *whole.as_ref().unwrap_or(&sheet.len());
            for room in [0, length.saturating_sub(1), length, room] {
                let answer = as_requested(to, call, &sheet, room);
                *seen.entry((to, number_of(&answer))).or_insert(0) += 1;
            }
        }
    }
    let of = |to: Version| -> Vec<u64> { seen.keys().filter(|(t, _)| *t == to).map(|(_, number)| *number).collect() };
    assert_eq!((of(Version::Two), of(Version::One)), (vec![0, 1, 2, 3, 4, 5, 39], vec![0, 1, 2, 3, 4, 5, 39, 47]), "{seen:?}");
}

#[test]
fn there_and_back_gives_the_same_bytes() {
    let (mut there, mut back) = (0, 0);
    for (sheet, _) in recorded() {
        let (one, two) = (version_1_of(&sheet), version_2_of(&sheet));
        if let Ok(wide) = &two {
            let (read, again) = (read_sheet(&sheet).unwrap(), read_sheet(wide).unwrap());
            assert_eq!((read.version, again.version), (Version::One, Version::Two));
            assert_eq!(wide.len(), sheet.len() + 4 * (read.section(6).unwrap().len() / 44));
            assert_eq!(version_1_of(wide).as_ref(), Ok(&sheet));
            let (before, after) = (read.tables(), again.tables());
            assert_eq!(before.records::<BlasGeometry>(), after.records::<BlasGeometry>());
            for number in (1..=9).filter(|number| *number != 6) {
                assert_eq!(read.section(number), again.section(number));
            }
            // written anew each keeps its version, and either way round it comes to the same
            let anew = canonical_sheet(&sheet).unwrap();
            assert_eq!(version_2_of(&anew), Ok(canonical_sheet(wide).unwrap()));
            assert_ne!(anew, canonical_sheet(wide).unwrap(), "of different versions they never mean the same");
            there += 1;
        }
        if let Ok(narrow) = &one {
            assert_eq!(version_2_of(narrow).as_ref(), Ok(&sheet));
            back += 1;
        }
        assert!(one.is_err() || two.is_err());
    }
    assert!(there > 100 && back > 100, "{there} there, {back} back");
}

/// Builds of either version's tables come to the same plan.
#[test]
fn a_converted_sheet_is_built_the_same() {
    for name in ["collection", "usable", "rebuilt", "nothing-recorded", "refused-build"] {
        let sheet = beside(&format!("sheets/{name}.sheet"));
        let wide = version_2_of(&sheet).unwrap();
        let built = [&sheet, &wide].map(|sheet| {
            let read = read_sheet(sheet).unwrap();
            let tables = read.tables();
            assert_eq!(tables.version, read.version);
            let mut outputs = Outputs::for_tables(&tables);
            let answer = build_acceleration_structures(read.alignment, &tables, outputs.lend());
            (answer, outputs)
        });
        assert_eq!(built[0], built[1], "{name}");
    }
}

/// The shipped sheet of boxes past four gigabytes is built, and has no other version.
#[test]
fn far_boxes_are_built_and_stay_in_version_2() {
    let sheet = beside("sheets/far-boxes.sheet");
    let read = read_sheet(&sheet).unwrap();
    let tables = read.tables();
    assert!(tables.records::<BlasGeometry>().unwrap().iter().any(|g| g.first > u32::MAX.into()));
    assert!(build_acceleration_structures(read.alignment, &tables, Outputs::for_tables(&tables).lend()).is_ok());
    assert_eq!(version_1_of(&sheet).unwrap_err().error, ConvertError::TooFar);
}

/// A sheet of version 2 with geometries of triangles and of boxes, and where the first geometry stands.
fn with_firsts(firsts: [u64; 4]) -> (Vec<u8>, usize) {
    let blases = table(&[Blas::default(), Blas { kind: Kind::Boxes, ..Default::default() }]).unwrap();
    let entries = table(&[
        BlasBuildEntry { geometry_count: 2, ..Default::default() },
        BlasBuildEntry { blas: BlasId(1), kind: Kind::Boxes, geometry_count: 2 },
    ])
    .unwrap();
    let geometries = table(&firsts.map(|first| BlasGeometry { first, count: u32::MAX, ..Default::default() })).unwrap();
    let mut sheet = vec![2, 1, 0, 0, 0, 9, 0, 0, 0, 0, 0, 0, 0, 0, 0, 2, 0];
    sheet.extend(&blases);
    sheet.extend([0, 0, 0, 0, 2, 0]);
    sheet.extend(&entries);
    sheet.extend([4, 0]);
    let start = sheet.len();
    sheet.extend(&geometries);
    sheet.extend([0; 6]);
    assert!(read_sheet(&sheet).is_ok());
    (sheet, start)
}

#[test]
fn the_first_that_does_not_fit_is_said() {
    const LAST: u64 = u32::MAX as u64;
    let (fits, _) = with_firsts([LAST; 4]);
    let narrow = version_1_of(&fits).unwrap();
    assert_eq!((narrow[0], narrow.len()), (1, fits.len() - 16));
    assert!(read_sheet(&narrow).unwrap().tables().records::<BlasGeometry>().unwrap().iter().all(|g| g.first == LAST));
    for at in 0..4 {
        for far in [LAST + 1, 1 << 63, u64::MAX] {
            let mut firsts = [LAST; 4];
            firsts[at..].fill(far);
            let (sheet, start) = with_firsts(firsts);
            let place = start + 48 * at + 5;
            let mut out = vec![7; sheet.len()];
            // before the room, and nothing is written
            for room in [0, narrow.len() - 1, narrow.len(), sheet.len()] {
                let refused = to_version_1(&sheet, &mut out[..room]).unwrap_err();
                assert_eq!((refused.error, refused.place), (ConvertError::TooFar, place.try_into().unwrap()));
                let said = format!(
                    "refused 47: first vertex or primitive offset above 2^32 - 1, byte {place}; byte {place}: geometry {at}, first is \
                     {far}, may be 0 to 4294967295"
                );
                assert_eq!(refused.to_string(), said);
            }
            assert!(out.iter().all(|byte| *byte == 7));
            // after what the reader refuses
            let refused = version_1_of(&[&sheet[..], &[0]].concat()).unwrap_err();
            assert_eq!(refused.error, ConvertError::Sheet(SheetError::TrailingBytes));
        }
    }
}

#[test]
fn refusals_speak_the_librarys_words() {
    let said = |answer: Result<Vec<u8>, ConvertRefused>| answer.unwrap_err().to_string();
    assert_eq!(said(version_2_of(&[2])), "refused 1: version not 1, byte 0; byte 0: version is 2, may be 1");
    assert_eq!(said(version_1_of(&[1])), "refused 1: version not 2, byte 0; byte 0: version is 1, may be 2");
    assert_eq!(said(version_1_of(&[0])), "refused 1: version not 2, byte 0; byte 0: version is 0, may be 2");
    assert_eq!(said(version_2_of(&[255, 0, 0, 0, 0])), "refused 1: version not 1, byte 0; byte 0: version is 255, may be 1");
    for none in [version_2_of(&[]), version_1_of(&[])] {
        assert_eq!(said(none), "refused 2: sheet ends early, byte 0; byte 0: version has 1 byte, of which 0 bytes are there");
    }
    let (sheet, start) = with_firsts([0; 4]);
    let cut = start + 48 + 5;
    assert_eq!(
        said(version_1_of(&sheet[..cut + 7])),
        format!("refused 2: sheet ends early, byte {cut}; byte {cut}: geometry 1, first has 8 bytes, of which 7 bytes are there")
    );
    assert_eq!(to_version_1(&sheet, &mut []).unwrap_err().to_string(), "refused 39: lent output too short");
    fn is_error<E: std::error::Error + Send + Sync + 'static>(_: &E) {}
    is_error(&to_version_2(&sheet, &mut []).unwrap_err());
}
