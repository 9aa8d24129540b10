//! A refusal in words, from the paper's table "Causes and what they cost" and the requests' causes: a second reading of it.

/// The column "Cause", and the figures that are told.
const CAUSES: [(u64, &str, &[&str]); 47] = [
    (1, "version neither 1 nor 2", &[]),
    (2, "sheet ends early", &[]),
    (3, "bytes after the sheet", &[]),
    (4, "count above its limit", &[]),
    (5, "value outside its field", &[]),
    (6, "id outside its table", &[]),
    (10, "kind mismatch", &[]),
    (11, "more geometries than declared", &[]),
    (12, "flags differ", &["declared", "given"]),
    (13, "vertex count above declared", &["declared", "given"]),
    (14, "vertex format differs", &["declared", "given"]),
    (15, "stride below least", &["needed", "given"]),
    (16, "stride not a multiple", &["needed", "given"]),
    (17, "index count on one side only", &[]),
    (18, "index count above declared", &["declared", "given"]),
    (19, "index format differs", &["declared", "given"]),
    (20, "index count declared, no index buffer", &[]),
    (21, "destroyed", &[]),
    (22, "no BLAS_INPUT", &[]),
    (23, "region overruns buffer", &["offset", "region", "size"]),
    (24, "first index, index count or transform offset absent", &[]),
    (25, "index format none", &[]),
    (26, "product or offset above 2^32 - 1", &["offset", "count", "stride"]),
    (27, "index count not in threes", &["count"]),
    (28, "transform unflagged", &[]),
    (29, "transform offset not in 16s", &[]),
    (30, "transform flagged, absent", &[]),
    (31, "box count above declared", &["declared", "given"]),
    (32, "box offset not in eights", &[]),
    (33, "box stride below 24 or not in eights", &["stride"]),
    (34, "custom data from 2^24 on", &[]),
    (35, "Tlas returns vertices, Blas does not", &[]),
    (36, "too many present slots", &["count", "most"]),
    (37, "scratch 2^64 - 1", &[]),
    (38, "compacted Blas", &[]),
    (39, "lent output too short", &[]),
    (40, "counter 0", &[]),
    (41, "Blas to build is compacted", &["Blas"]),
    (42, "Blas without number", &["Blas", "Tlas"]),
    (43, "Tlas without number", &["Tlas"]),
    (44, "Blas newer than Tlas", &["Blas", "Tlas"]),
    (45, "count 0, or a group that is not an earlier one", &[]),
    (46, "more than 512 slots", &[]),
    (47, "first vertex or primitive offset above 2^32 - 1", &[]),
    (48, "length not in 64s", &[]),
    (49, "u32 at byte 52 not 0", &[]),
    (50, "address of no Blas or of several", &[]),
];

fn item((word, value): (&&str, &u64)) -> String {
    format!(", {word} {value}")
}

/// What a build's E is; `sort` is the first figure, which of 21 and 37 says what E counts.
fn place(number: u64, sort: u64) -> &'static [&'static str] {
    match (number, sort) {
        (39, _) => &[],
        (37, 1) => &["entry"],
        (37, 2) => &["package"],
        (37, _) => &["entry or package"],
        (4 | 5, _) => &["section", "record"],
        (6, _) => &["entry or package", "geometry or slot"],
        (34 | 35, _) => &["package", "slot"],
        (36, _) | (21, 3) => &["package"],
        (38, _) | (21, 2) => &["entry"],
        _ => &["entry", "geometry"],
    }
}

/// Whether a call can refuse with a number: 1 reads a sheet, 2 builds, 3 submits, 4 appends an instance, 5 writes a sheet, 6 opens groups,
/// 7 appends many instances, 8 and 9 convert a sheet to version 2 and to version 1, 10 reads instances back.
fn refuses_with(call: u64, number: u64) -> bool {
    match call {
        1 => (1..=5).contains(&number),
        2 => matches!(number, 4..=6 | 10..=39),
        3 => matches!(number, 4..=6 | 21 | 39..=44),
        4 => matches!(number, 6 | 34 | 35 | 39),
        5 => matches!(number, 1..=5 | 39),
        6 => matches!(number, 2..=5 | 39 | 45 | 46),
        7 => matches!(number, 5 | 6 | 34 | 35 | 39),
        8 => matches!(number, 1..=5 | 39),
        9 => matches!(number, 1..=5 | 39 | 47),
        10 => matches!(number, 39 | 48..=50),
        _ => false,
    }
}

/// A refusal of a call. E of a sheet, read, written or converted, is its place, of a submission the action and its kind, of groups the place, or the
/// group and the item, of many instances 0, which is not told, and the position, of instances read back the record.
pub fn words(call: u64, number: u64, e: [u64; 2], f: [u64; 3]) -> String {
    if number == 0 {
        return "nothing is refused\n".into();
    }
    let cause = CAUSES.iter().copied().find(|c| c.0 == number && refuses_with(call, number));
    let Some((_, cause, figures)) = cause else { return format!("refused {number}: no such cause\n") };
    // a converter takes one version alone
    let cause = match (call, number) {
        (8, 1) => "version not 1",
        (9, 1) => "version not 2",
        _ => cause,
    };
    let mut line = format!("refused {number}: {cause}");
    match call {
        1 => line += &format!(", byte {}", e[0]),
        6 if number > 44 => line.extend(["group", "item"].iter().zip(&e).map(item)),
        // at position 0 it may be the Tlas
        7 if number == 6 && e[1] == 0 => line += ", Tlas or instance 0",
        7 if number != 39 => line += &format!(", instance {}", e[1]),
        5 | 6 | 8 | 9 if number != 39 => line += &format!(", byte {}", e[0]),
        10 if number > 48 => line += &format!(", record {}", e[0]),
        2 => {
            line.extend(place(number, f[0]).iter().zip(&e).map(item));
            let sort = match (number, f[0]) {
                (22, _) | (21, 1) => "buffer",
                (21, 2) => "Blas",
                (21, 3) => "Tlas",
                _ => "resource",
            };
            match number {
                21 | 22 => line += &format!(", {sort} {}", f[1]),
                _ => line.extend(figures.iter().zip(&f).map(item)),
            }
        }
        3 => {
            let kind =
                ["", "recorded build at ", "use of a Tlas at ", "mark of a Blas at ", "mark of a Tlas at ", "mark as built at "];
            let kind = usize::try_from(e[1]).ok().and_then(|k| kind.get(k)).unwrap_or(&"");
            line += &format!(", {kind}action {}", e[0]);
            let figures: &[&str] = match (number, e[1]) {
                (21, _) => &["Blas"],
                (42, 1 | 5) => &["Blas", "Tlas"],
                (42, 2) => &["Tlas", "Blas"],
                (42, _) => &["Blas or Tlas", "Tlas or Blas"],
                _ => figures,
            };
            line.extend(figures.iter().zip(&f).map(item));
        }
        _ => {}
    }
    line + "\n"
}
