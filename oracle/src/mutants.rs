//! Shows that the answers come from the text of the Rust: a copy of it with one place changed must answer otherwise. A place
//! is named by words of its line.

/// The file whose copy is changed.
pub const FILE: &str = "src/command/ray_tracing.rs";

/// Words that one line alone has, what of it is replaced, and by what.
const PLACES: [(&[&str], &str, &str); 14] = [
    (&["primitive_offset", "% 8"], "% 8", "% 4"),
    (&["custom_data", ">="], ">=", ">"),
    (&["transform_buffer", "- 48 <"], "<", "<="),
    (&["BufferSize", "max("], "max(", "core::cmp::min("),
    (&["blas_build_index", "> tlas_build_index"], ">", ">="),
    (&["_ =>", "Idle,"], "Idle", "Waiting"),
    (&["instance_count >"], ">", ">="),
    (&["index_count", "% 3"], "% 3", "% 6"),
    (&["scratch_size", "== u64::MAX"], "== u64::MAX", ">= u64::MAX - 255"),
    (&["index_count.is_some()", "&& mesh"], "&&", "||"),
    (&["vertex_count <"], "<", "<="),
    (&["build_command_index", "+= 1"], "+= 1", "+= 2"),
    (&["end", "is_none_or", "size <"], "<", "<="),
    (&["aabb", "stride <"], "<", "<="),
];

/// The text with place k changed; None past the last.
pub fn mutant(text: &str, k: usize) -> Option<String> {
    let (words, old, new) = PLACES.get(k)?;
    let mut places = 0;
    let lines: Vec<String> = text
        .lines()
        .map(|line| {
            if !words.iter().all(|w| line.contains(w)) {
                return line.to_string();
            }
            places += 1;
            line.replacen(old, new, 1)
        })
        .collect();
    assert_eq!(places, 1, "{words:?} are to be words of one line");
    Some(lines.join("\n") + "\n")
}

/// What place k changes, in words.
pub fn name(k: usize) -> String {
    let (words, old, new) = PLACES[k];
    format!("{}: `{old}` to `{new}`", words[0])
}
