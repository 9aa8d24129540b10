//! A case as text: one line for each record, action and list, with its numbers; to be read by people and run again.
use std::fmt::Write as _;

use crate::layout::{put_number, Raw, Version, BLASES, SECTIONS, TLASES, WIDTHS};
use crate::side::{Case, Part};

const ROOMS: [&str; 7] = ["blas_offsets", "tlas_offsets", "staging_ranges", "instances", "init_ranges", "compactable", "lists"];

/// The parts of an outcome that are answers.
const ANSWERS: [&str; 11] = ["read", "report", "write", "to_2", "to_1", "build", "submit", "append", "many", "open", "back"];

fn hex(bytes: &[u8]) -> String {
    bytes.iter().map(|b| format!("{b:02x}")).collect()
}

fn unhex(text: &str) -> Option<Vec<u8>> {
    (0..text.len() / 2).map(|i| u8::from_str_radix(text.get(2 * i..2 * i + 2)?, 16).ok()).collect()
}

fn numbers<T: std::fmt::Display>(values: &[T]) -> String {
    values.iter().map(|v| format!(" {v}")).collect()
}

/// The whole records of a table line by line, and what is left of it as bytes.
fn write_table(out: &mut String, version: Version, section: usize, table: &[u8]) {
    let mut raw = Raw { version: version.number(), ..Raw::default() };
    raw.take_table(section, table);
    for i in 0..raw.count(section) {
        let _ = writeln!(out, "{}{}", SECTIONS[section], numbers(raw.record(section, i)));
    }
    let size = version.size(section);
    let left = &table[table.len() / size * size..];
    if !left.is_empty() {
        let _ = writeln!(out, "part {} {}", SECTIONS[section], hex(left));
    }
}

pub fn write(case: &Case) -> String {
    let mut out = format!("{}\n", case.kind());
    match case {
        Case::Sheet { bytes, room } => {
            let _ = writeln!(out, "room {room}");
            match Raw::from_sheet(bytes) {
                Some(raw) => {
                    let _ = writeln!(out, "head {} {} {}", raw.version, raw.alignment, raw.counter);
                    for s in 0..9 {
                        write_table(&mut out, raw.laid_out(), s, &raw.table(s));
                    }
                }
                None => {
                    let _ = writeln!(out, "bytes {}", hex(bytes));
                }
            }
        }
        Case::Build { version, alignment, tables, rooms } => {
            let _ = writeln!(out, "alignment {alignment}");
            for (s, table) in tables.iter().enumerate() {
                write_table(&mut out, *version, s, table);
            }
            for (name, room) in ROOMS.iter().zip(rooms) {
                let _ = writeln!(out, "room {name} {room}");
            }
        }
        Case::Submit { indices, blases, tlases, dependency_counts, dependencies, pieces } => {
            let _ = writeln!(out, "indices {} {}", indices[0], indices[1]);
            write_table(&mut out, Version::One, BLASES, blases);
            write_table(&mut out, Version::One, TLASES, tlases);
            let _ = writeln!(out, "dependency_counts{}", numbers(dependency_counts));
            for cells in dependencies.chunks(512) {
                let n = cells.len();
                let zeros = cells.iter().rev().take_while(|&&c| c == 0).count();
                let _ = writeln!(out, "dependencies {n}{}", numbers(&cells[..n - zeros]));
            }
            for (actions, lists) in pieces {
                for cells in actions.chunks(4) {
                    let _ = writeln!(out, "action{}", numbers(cells));
                }
                let _ = writeln!(out, "submit{}", numbers(lists));
            }
        }
        Case::Append { tlases, blases, tlas, instance, room, used } => {
            write_table(&mut out, Version::One, BLASES, blases);
            write_table(&mut out, Version::One, TLASES, tlases);
            let _ = writeln!(out, "instance {tlas} {}\nroom {room} {used}", hex(instance));
        }
        Case::Many { tlases, blases, tlas, items, room, used } => {
            write_table(&mut out, Version::One, BLASES, blases);
            write_table(&mut out, Version::One, TLASES, tlases);
            let _ = writeln!(out, "into {tlas}\nroom {room} {used}");
            for item in items.chunks(55) {
                let _ = writeln!(out, "item {}", hex(item));
            }
        }
        Case::Groups { bytes, room } => {
            let _ = writeln!(out, "room {room}\nbytes {}", hex(bytes));
        }
        Case::Instances { blases, records, room } => {
            let _ = writeln!(out, "room {room}");
            for record in records.chunks(64) {
                let _ = writeln!(out, "record {}", hex(record));
            }
            write_table(&mut out, Version::One, BLASES, blases);
        }
    }
    out
}

/// What `write` wrote, or a message.
pub fn read(text: &str) -> Result<Case, String> {
    let mut lines = text.lines().map(|l| l.split('#').next().unwrap().trim()).filter(|l| !l.is_empty());
    let kind = lines.next().ok_or("nothing there")?;
    let build = if kind == "wide build" { Version::Two } else { Version::One };
    let mut tables: [Vec<u8>; 9] = Default::default();
    let (mut head, mut alignment, mut indices, mut rooms, mut sheet_room) = ([1, 256, 1], 256, [0, 1], [0; 7], 0);
    let (mut bytes, mut counts, mut cells, mut actions, mut pieces) = (None, Vec::new(), Vec::new(), Vec::new(), Vec::new());
    let (mut tlas, mut instance, mut items, mut records, mut room, mut used) = (0, [0; 55], Vec::new(), Vec::new(), 0, 0);
    for line in lines {
        let bad = || format!("not understood: {line}");
        let words: Vec<&str> = line.split_whitespace().collect();
        let number = |i: usize| words.get(i).and_then(|w| w.parse::<u64>().ok()).ok_or_else(bad);
        let rest = |i: usize| words[i..].iter().map(|w| w.parse::<u64>().map_err(|_| bad())).collect::<Result<Vec<u64>, String>>();
        if let Some(s) = SECTIONS.iter().position(|n| *n == words[0]).filter(|_| !(kind == "submission" && words[0] == "action")) {
            let values = rest(1)?;
            if values.len() != WIDTHS[s].len() {
                return Err(bad());
            }
            // a sheet's head stands before its tables
            let version = if kind.ends_with("sheet") { Raw { version: head[0], ..Raw::default() }.laid_out() } else { build };
            for (v, w) in values.iter().zip(version.widths(s)) {
                put_number(&mut tables[s], *v, *w);
            }
            continue;
        }
        match (words[0], kind) {
            ("part", _) => {
                let s = SECTIONS.iter().position(|n| Some(n) == words.get(1)).ok_or_else(bad)?;
                tables[s].extend(unhex(words.get(2).ok_or_else(bad)?).ok_or_else(bad)?);
            }
            ("head", _) => head = rest(1)?.try_into().map_err(|_| bad())?,
            ("bytes", _) => bytes = Some(unhex(words.get(1).unwrap_or(&"")).ok_or_else(bad)?),
            ("alignment", _) => alignment = number(1)?,
            ("indices", _) => indices = rest(1)?.try_into().map_err(|_| bad())?,
            ("room", "sheet" | "wide sheet") => sheet_room = words.get(1).and_then(|w| w.parse().ok()).ok_or_else(bad)?,
            ("room", "append" | "many") => (room, used) = (number(1)?, number(2)?),
            ("room", "groups" | "instances") => room = number(1)?,
            ("room", _) => {
                let k = ROOMS.iter().position(|n| Some(n) == words.get(1)).ok_or_else(bad)?;
                rooms[k] = number(2)? as usize;
            }
            ("dependency_counts", _) => counts = rest(1)?.iter().map(|&c| c as u16).collect(),
            ("dependencies", _) => {
                let given = rest(2)?;
                let n = number(1)? as usize;
                cells.extend((0..n).map(|i| given.get(i).copied().unwrap_or(0) as u16));
            }
            ("action", _) => actions.extend(rest(1)?.iter().map(|&c| c as u32)),
            ("submit", _) => {
                let lists = rest(1)?.iter().map(|&c| c as u16).collect();
                pieces.push((std::mem::take(&mut actions), lists));
            }
            ("instance", _) => {
                tlas = number(1)? as u16;
                let fields = unhex(words.get(2).ok_or_else(bad)?).ok_or_else(bad)?;
                instance = fields.try_into().map_err(|_| bad())?;
            }
            ("into", _) => tlas = number(1)? as u16,
            ("item", _) => items.extend(unhex(words.get(1).ok_or_else(bad)?).ok_or_else(bad)?),
            ("record", _) => records.extend(unhex(words.get(1).ok_or_else(bad)?).ok_or_else(bad)?),
            _ => return Err(bad()),
        }
    }
    let sheet_of = |tables: &[Vec<u8>; 9]| {
        let mut raw = Raw { version: head[0], alignment: head[1], counter: head[2], ..Raw::default() };
        (0..9).for_each(|s| raw.take_table(s, &tables[s]));
        raw.sheet()
    };
    let [blases, tlases] = [tables[BLASES].clone(), tables[TLASES].clone()];
    match kind {
        "sheet" | "wide sheet" => Ok(Case::Sheet { bytes: bytes.unwrap_or_else(|| sheet_of(&tables)), room: sheet_room }),
        "build" | "wide build" => {
            let [a, b, c, d, e, f, g, h, _] = tables;
            Ok(Case::Build { version: build, alignment: alignment as u32, tables: [a, b, c, d, e, f, g, h], rooms })
        }
        "submission" => Ok(Case::Submit { indices, blases, tlases, dependency_counts: counts, dependencies: cells, pieces }),
        "append" => Ok(Case::Append { tlases, blases, tlas, instance, room: room as usize, used }),
        "many" => Ok(Case::Many { tlases, blases, tlas, items, room: room as usize, used }),
        "groups" => Ok(Case::Groups { bytes: bytes.unwrap_or_default(), room: room as usize }),
        "instances" => Ok(Case::Instances { blases, records, room: room as usize }),
        _ => Err(format!("no such kind of case: {kind}")),
    }
}

/// A call's answer, and what it left where the two sides differ.
pub fn difference(rust: &[Part], other: &[Part]) -> String {
    let mut out = String::new();
    for (a, b) in rust.iter().zip(other) {
        let answer = ANSWERS.contains(&a.name);
        if answer || a != b {
            let mark = if a == b { " " } else { "*" };
            if answer || a.values.len() <= 8 {
                let _ = writeln!(out, "{mark} {:<18} expected{}", a.name, numbers(&a.values));
                if a != b {
                    let _ = writeln!(out, "  {:<18} got     {}", "", numbers(&b.values));
                }
            } else {
                let i = a.values.iter().zip(&b.values).position(|(x, y)| x != y).unwrap_or(0);
                let n = a.values.iter().zip(&b.values).filter(|(x, y)| x != y).count();
                let (x, y) = (a.values.get(i), b.values.get(i));
                let _ = writeln!(out, "{mark} {:<18} {n} elements differ, the first at {i}: expected {x:?}, got {y:?}", a.name);
            }
        }
        if a.name == "text" && a != b {
            // up to its last line; past it stands what was there before
            let text = |p: &Part| {
                let bytes: Vec<u8> = p.values.iter().map(|&v| v as u8).collect();
                let lines = bytes.iter().rposition(|&b| b == b'\n').map_or(0, |end| end + 1);
                String::from_utf8_lossy(&bytes[..lines]).into_owned()
            };
            let _ = write!(out, "expected text:\n{}got:\n{}", text(a), text(b));
        }
    }
    out
}
