//! A refusal in the library's words.
use std::fmt;

/// The calls as `zakvind_words` numbers them.
#[derive(Clone, Copy)]
pub(crate) enum Call {
    Sheet,
    Build,
    Submission,
    Append,
    Write,
    Groups,
    AppendMany,
    ToVersion2,
    ToVersion1,
    ReadInstances,
}

impl Call {
    fn number(self) -> u64 {
        match self {
            Call::Sheet => 1,
            Call::Build => 2,
            Call::Submission => 3,
            Call::Append => 4,
            Call::Write => 5,
            Call::Groups => 6,
            Call::AppendMany => 7,
            Call::ToVersion2 => 8,
            Call::ToVersion1 => 9,
            Call::ReadInstances => 10,
        }
    }
}

/// Bytes of the longest line of words.
const LONGEST: usize = 247;

/// The words of a refusal, without the line's end.
pub(crate) fn write(f: &mut fmt::Formatter, call: Call, number: u64, e: [u64; 2], figures: [u64; 3]) -> fmt::Result {
    let mut out = [0; LONGEST];
    let told = crate::raw::words(call.number(), number, e, figures, &mut out);
    let text = usize::try_from(told.written).ok().and_then(|n| out.get(..n)).and_then(|text| std::str::from_utf8(text).ok());
    match text {
        Some(text) if told.number == 0 => f.write_str(text.trim_end_matches('\n')),
        _ => write!(f, "refused {number}"),
    }
}
