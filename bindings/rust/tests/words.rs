//! The library's words against a second reading of the paper's table.

#[path = "../../../oracle/src/words.rs"]
mod words;

use zakvind::raw;

#[test]
fn words_are_those_of_the_table() {
    let values = [0, 1, 2, 3, 4, 5, 6, 9, 10, 65_535, u64::from(u32::MAX), u64::MAX];
    let mut out = [0; 300];
    for call in (0..12).chain([u64::MAX]) {
        for number in (0..60).chain([u64::MAX]) {
            for (i, value) in values.iter().enumerate() {
                let other = |k: usize| values[(i + k) % values.len()];
                let (e, figures) = ([other(3), *value], [*value, other(5), other(7)]);
                let expected = words::words(call, number, e, figures);
                let told = raw::words(call, number, e, figures, &mut out);
                assert_eq!((told.number, told.written), (0, expected.len().try_into().unwrap()));
                assert_eq!(std::str::from_utf8(&out[..expected.len()]).unwrap(), expected);
                // one byte less is refused, and nothing is written
                let mut short = vec![7; expected.len() - 1];
                let told = raw::words(call, number, e, figures, &mut short);
                assert_eq!((told.number, told.written), (39, 0));
                assert!(short.iter().all(|byte| *byte == 7));
            }
        }
    }
}
