//! Compares Zakvind with the published Rust. See README.md.
mod above;
mod canonical;
mod case_file;
mod compare;
mod convert;
mod corpus;
mod examples;
mod generate;
mod groups;
mod instances;
mod layout;
#[cfg(library)]
mod library;
mod many;
mod mutants;
mod orders;
mod paper;
mod reading;
mod record;
mod record_submissions;
mod rng;
mod rust_side;
mod shrink;
mod side;
mod watch;

use std::io::{Read, Write};
use std::process::exit;

use rust_side::RustSide;
use side::Side;

fn usage() -> ! {
    eprintln!("usage: oracle sheet < SHEET | batch FILE | compare N [SEED] [reading [FAULT]] | case FILE [reading]");
    eprintln!("       oracle orders N [SEED] [reading [FAULT]]");
    eprintln!("       oracle examples [reading] | faults N | recorded-faults | texts N | mutant K SRC DST | record FOLDER | corpus N FOLDER");
    exit(2)
}

fn read_file(path: &str) -> Vec<u8> {
    let mut bytes = Vec::new();
    let read = match path {
        "-" => std::io::stdin().lock().read_to_end(&mut bytes).map(|_| ()),
        _ => std::fs::read(path).map(|b| bytes = b),
    };
    if let Err(e) = read {
        eprintln!("{path}: {e}");
        exit(2);
    }
    bytes
}

/// Sheets, each after its length as a u32.
fn sheets(bytes: &[u8]) -> Vec<&[u8]> {
    let (mut rest, mut all) = (bytes, Vec::new());
    while let Some((length, after)) = rest.split_first_chunk::<4>() {
        let n = u32::from_le_bytes(*length) as usize;
        if after.len() < n {
            eprintln!("cut short");
            exit(2);
        }
        all.push(&after[..n]);
        rest = &after[n..];
    }
    all
}

/// The side that is compared with the Rust: the static library, or the second reading.
fn other_side(words: &[String]) -> (Box<dyn Side>, String) {
    let number = |i: usize| words.get(i).and_then(|w| w.parse().ok()).unwrap_or(0);
    match words.first().map(|w| w.as_str()) {
        Some("reading") => {
            let fault = number(1);
            let name = if fault == 0 { "the second reading".into() } else { format!("the second reading with fault {fault}") };
            (Box::new(reading::Reading { fault }), name)
        }
        #[cfg(library)]
        None => {
            let name = std::env::var("ORACLE_LIBRARY").unwrap_or_else(|_| "the static library".into());
            (Box::new(library::Library), name)
        }
        _ => usage(),
    }
}

fn main() {
    published::drive::quiet_panics();
    if let Err(e) = rust_side::guarded(run) {
        eprintln!("{e}");
        exit(101);
    }
}

fn run() {
    let args: Vec<String> = std::env::args().skip(1).collect();
    let word = |i: usize| args.get(i).map(|s| s.as_str());
    let out = std::env::var("ORACLE_OUT").unwrap_or_else(|_| ".".into());
    let mut rust = RustSide::checked();
    match word(0) {
        Some("sheet") => print!("{}", rust.text(&read_file("-"))),
        Some("batch") => {
            let bytes = read_file(word(1).unwrap_or("-"));
            let mut o = std::io::BufWriter::new(std::io::stdout().lock());
            for (i, s) in sheets(&bytes).into_iter().enumerate() {
                let text = rust_side::guarded(|| rust.text(s).to_string()).unwrap_or_else(|e| format!("PANIC {e}\n"));
                let _ = write!(o, "# {i}\n{text}");
            }
        }
        Some("compare") => {
            let Some(count) = word(1).and_then(|w| w.parse().ok()) else { usage() };
            let seed = word(2).and_then(|w| w.parse().ok());
            let (mut other, name) = other_side(&args[if seed.is_some() { 3 } else { 2 }.min(args.len())..]);
            // with ORACLE_QUIET it ends at the first difference and shows nothing of it
            let quiet = std::env::var_os("ORACLE_QUIET").is_some();
            let fine = quiet || examples::run(Some((other.as_mut(), &name)));
            let most = if quiet { 1 } else { 3 };
            if !compare::run(other.as_mut(), &name, count, seed.unwrap_or(1), most, quiet, &out) || !fine {
                exit(1);
            }
        }
        Some("orders") => {
            let Some(count) = word(1).and_then(|w| w.parse().ok()) else { usage() };
            let seed = word(2).and_then(|w| w.parse().ok());
            let (mut other, name) = other_side(&args[if seed.is_some() { 3 } else { 2 }.min(args.len())..]);
            if !orders::run(other.as_mut(), &name, count, seed.unwrap_or(1)) {
                exit(1);
            }
        }
        // each fault of the second reading must be found
        Some("faults") => {
            let Some(count) = word(1).and_then(|w| w.parse().ok()) else { usage() };
            let all = reading::FAULTS + groups::FAULTS + many::FAULTS + convert::FAULTS + instances::FAULTS;
            let missed: Vec<u32> = (1..=all)
                .filter(|&fault| {
                    let name = format!("fault {fault}");
                    compare::run(&mut reading::Reading { fault }, &name, count, 1, 1, true, &out)
                })
                .collect();
            println!("{} of {all} faults found; not found: {missed:?}", all as usize - missed.len());
            if !missed.is_empty() {
                exit(1);
            }
        }
        // how many of them the recorded list shows
        Some("recorded-faults") => {
            let lists = record::lists(&mut rust);
            let missed: Vec<u32> = (1..=reading::FAULTS).filter(|&fault| !record::shows(&lists, fault)).collect();
            println!(
                "the recorded list shows {} of {} faults; not: {missed:?}",
                reading::FAULTS as usize - missed.len(),
                reading::FAULTS
            );
        }
        // inputs of robust.c: those of N cases in one file, each after its length, and the first short ones as files
        Some("corpus") => {
            let (Some(count), Some(folder)) = (word(1).and_then(|w| w.parse::<u64>().ok()), word(2)) else { usage() };
            let (mut all, mut files) = (Vec::new(), 0);
            for case in (0..count).flat_map(|index| generate::cases(21, index)) {
                let text = match &case {
                    side::Case::Sheet { bytes, .. } => rust.text(bytes).len(),
                    _ => 0,
                };
                let Some(bytes) = corpus::bytes(&case, text) else { continue };
                all.extend((bytes.len() as u32).to_le_bytes());
                all.extend_from_slice(&bytes);
                if bytes.len() < 4096 && files < 2000 {
                    files += 1;
                    let _ = std::fs::write(format!("{folder}/inputs/{files}"), &bytes);
                }
            }
            if let Err(e) = std::fs::write(format!("{folder}/all"), all) {
                eprintln!("{folder}/all: {e}");
                exit(2);
            }
        }
        Some("record") => {
            let Some(folder) = word(1) else { usage() };
            let all = record::record();
            for (file, content) in [("stdin", &all.stdin[..]), ("stdout", all.stdout.as_bytes())] {
                if let Err(e) = std::fs::write(format!("{folder}/{file}"), content) {
                    eprintln!("{folder}/{file}: {e}");
                    exit(2);
                }
            }
            println!("{folder}: {} sheets and {} submissions in {} bytes", all.sheets, all.submissions, all.stdin.len());
        }
        Some("examples") => {
            let (mut other, name) = other_side(&args[1..]);
            if !examples::run(Some((other.as_mut(), &name))) {
                exit(1);
            }
        }
        // writes the text of SRC with place K changed to DST; status 3 past the last place
        Some("mutant") => {
            let (Some(k), Some(src), Some(dst)) = (word(1).and_then(|w| w.parse().ok()), word(2), word(3)) else { usage() };
            let text = String::from_utf8_lossy(&read_file(&format!("{src}/{}", mutants::FILE))).into_owned();
            let Some(changed) = mutants::mutant(&text, k) else { exit(3) };
            if let Err(e) = std::fs::write(format!("{dst}/{}", mutants::FILE), changed) {
                eprintln!("{dst}: {e}");
                exit(2);
            }
            println!("{}", mutants::name(k));
        }
        // a case's text must be read as that case
        Some("texts") => {
            let Some(count) = word(1).and_then(|w| w.parse().ok()) else { usage() };
            for index in 0..count {
                for case in generate::cases(1, index) {
                    assert_eq!(case_file::read(&case_file::write(&case)).as_ref(), Ok(&case), "case {index}");
                }
            }
            println!("texts: {count} cases read as they were written");
        }
        Some("case") => {
            let Some(path) = word(1) else { usage() };
            let case = case_file::read(&String::from_utf8_lossy(&read_file(path))).unwrap_or_else(|e| {
                eprintln!("{path}: {e}");
                exit(2)
            });
            let (mut other, _) = other_side(&args[2..]);
            compare::show(&mut rust, other.as_mut(), &case);
        }
        _ => usage(),
    }
}
