//! Sheets written anew: the library against a second reading of the request, over the recorded pairs of sheets.
#![allow(dead_code)]

#[path = "../../../oracle/src/canonical.rs"]
mod canonical;
#[path = "../../../oracle/src/layout.rs"]
mod layout;

use std::path::Path;
use zakvind::*;

/// The sheets of crates/cases_write, each after its length and a room.
fn recorded() -> Vec<Vec<u8>> {
    let path = Path::new(env!("CARGO_MANIFEST_DIR")).join("../../crates/cases_write/stdin");
    let data = std::fs::read(path).unwrap();
    let (mut sheets, mut rest) = (Vec::new(), data.as_slice());
    while let Some((head, after)) = rest.split_first_chunk::<8>() {
        let n = u32::from_le_bytes(head[..4].try_into().unwrap()).try_into().unwrap();
        sheets.push(after[..n].to_vec());
        rest = &after[n..];
    }
    sheets
}

#[test]
fn written_sheets_are_those_of_the_request() {
    let (mut written, mut refused) = (0, 0);
    for sheet in recorded() {
        let mut out = vec![7; sheet.len() + 3];
        let answer = write_sheet(&sheet, &mut out);
        match read_sheet(&sheet) {
            Err(why) => {
                assert_eq!(answer, Err(WriteRefused::Sheet(why.clone())));
                assert_eq!(write_sheet(&sheet, &mut []), Err(WriteRefused::Sheet(why)), "the reader's refusal comes first");
                assert!(out.iter().all(|byte| *byte == 7), "nothing is written of a refused sheet");
                refused += 1;
            }
            Ok(_) => {
                let expected = canonical::canonical(&sheet);
                assert_eq!(answer, Ok(sheet.len()));
                assert_eq!(out, [expected.as_slice(), &[7; 3]].concat());
                assert_eq!(canonical_sheet(&sheet), Ok(expected.clone()));
                assert_eq!(canonical_sheet(&expected), Ok(expected), "written once more it is the same");
                let mut short = vec![7; sheet.len() - 1];
                assert_eq!(write_sheet(&sheet, &mut short), Err(WriteRefused::OutputTooShort));
                assert!(short.iter().all(|byte| *byte == 7), "nothing is written without room");
                written += 1;
            }
        }
    }
    assert!(written > 1000 && refused > 50, "{written} written, {refused} refused");
}

#[test]
fn refusals_speak_the_librarys_words() {
    let said = |sheet: &[u8]| canonical_sheet(sheet).unwrap_err().to_string();
    assert_eq!(said(&[3]), "refused 1: version neither 1 nor 2, byte 0; byte 0: version is 3, may be 1 or 2");
    assert_eq!(said(&[]), "refused 2: sheet ends early, byte 0; byte 0: version has 1 byte, of which 0 bytes are there");
    let mut none = vec![0; 31];
    (none[0], none[1]) = (1, 1);
    assert_eq!(canonical_sheet(&none).as_deref(), Ok(none.as_slice()), "a sheet of nothing");
    assert_eq!(write_sheet(&none, &mut []).unwrap_err().to_string(), "refused 39: lent output too short");
    none.push(0);
    let refused = canonical_sheet(&none).unwrap_err();
    assert!(std::error::Error::source(&refused).is_some_and(|e| e.to_string() == refused.to_string()));
}
