//! `compare`: random cases through both sides; every answer and every lent element compared. A case that differs is made
//! smaller, written to a file and shown with both answers.
use std::time::Instant;

use published::drive::Mark;

use crate::rust_side::{guarded, RustSide, Tally};
use crate::side::{Case, Part, Side};
use crate::{case_file, generate, instances, shrink, watch};

/// Numbers that the Rust, its stand-ins or the paper can give, by call.
const CAN_GIVE: [(&str, &[u64]); 10] = [
    ("sheet", &[0, 1, 2, 3, 4, 5]),
    ("to_2", &[0, 1, 2, 3, 4, 5, 39]),
    ("to_1", &[0, 1, 2, 3, 4, 5, 39, 47]),
    (
        "build",
        &[
            0, 4, 5, 6, 10, 11, 12, 13, 14, 15, 16, 17, 18, 19, 20, 21, 22, 23, 24, 25, 26, 27, 28, 29, 30, 31, 32, 33, 34, 35, 36,
            37, 38, 39,
        ],
    ),
    (
        "wide",
        &[
            0, 4, 5, 6, 10, 11, 12, 13, 14, 15, 16, 17, 18, 19, 20, 21, 22, 23, 24, 25, 26, 27, 28, 29, 30, 31, 32, 33, 34, 35, 36,
            37, 38, 39,
        ],
    ),
    ("submit", &[0, 4, 5, 6, 21, 39, 40, 41, 42, 43, 44]),
    ("append", &[0, 6, 34, 35, 39]),
    ("many", &[0, 5, 6, 34, 35, 39]),
    ("open", &[0, 2, 3, 4, 5, 39, 45, 46]),
    ("back", &[0, 39, 48, 49, 50]),
];

/// Of these calls counted apart: sheets of version 2; marks that name each Tlas's Blases, each that is reached; and builds of version 2 with
/// an offset from 2^32 on, of which the Rust says nothing.
const APART: [(&str, &[u64]); 3] = [
    ("sheet_2", &[0, 2, 3, 4, 5]),
    ("mark_5", &[0, 4, 5, 6, 40, 41, 42]),
    (
        "above",
        &[
            0, 6, 10, 11, 12, 13, 14, 15, 16, 17, 18, 19, 20, 21, 22, 23, 24, 25, 26, 27, 28, 29, 30, 31, 32, 33, 34, 35, 36, 37,
            38, 39,
        ],
    ),
];

fn can_give() -> impl Iterator<Item = (&'static str, &'static [u64])> {
    CAN_GIVE.into_iter().chain(APART)
}

/// How many lines of a case are shown: rarely its Blases are more than 65,536.
const LINES: usize = 200;

/// What both sides make of a case; an error is a panic, of either.
pub fn both(rust: &mut RustSide, other: &mut dyn Side, case: &Case) -> (Result<Vec<Part>, String>, Result<Vec<Part>, String>) {
    let text = match case {
        Case::Sheet { bytes, .. } => guarded(|| rust.text(bytes).len()).unwrap_or(0),
        _ => 0,
    };
    (guarded(|| case.run(rust, text)), guarded(|| case.run(other, text)))
}

pub fn show(rust: &mut RustSide, other: &mut dyn Side, case: &Case) {
    match both(rust, other, case) {
        (Ok(a), Ok(b)) => print!("{}", case_file::difference(&a, &b)),
        (a, b) => {
            println!("expected {}", a.map_or_else(|e| e, |_| "an answer".into()));
            println!("got      {}", b.map_or_else(|e| e, |_| "an answer".into()));
        }
    }
}

fn differs(rust: &mut RustSide, other: &mut dyn Side, case: &Case) -> bool {
    let (a, b) = both(rust, other, case);
    a.is_err() || a != b
}

fn print_tally(tally: &Tally) {
    let of = |call: &'static str, number: u64, mark: Mark| tally.answers.get(&(call, number, mark)).copied().unwrap_or(0);
    println!("answers compared, by call and number: the Rust's own, a stand-in's, the paper's");
    for (call, numbers) in can_give() {
        for &n in numbers {
            let marks = [Mark::Rust, Mark::StandIn, Mark::Paper].map(|m| of(call, n, m));
            println!("  {call:<7} {n:>2} {:>10} {:>10} {:>10}", marks[0], marks[1], marks[2]);
        }
    }
    println!("and of accepted ones, of 37, of 39 and of 50, by part: the Rust's own, a stand-in's, the paper's");
    let mut names: Vec<&str> = tally.parts.keys().map(|k| k.0).collect();
    names.dedup();
    for name in names {
        let marks = [Mark::Rust, Mark::StandIn, Mark::Paper].map(|m| tally.parts.get(&(name, m)).copied().unwrap_or(0));
        println!("  {name:<36} {:>12} {:>12} {:>12}", marks[0], marks[1], marks[2]);
    }
}

fn missing(tally: &Tally) -> Vec<String> {
    let mut missing = Vec::new();
    for (call, numbers) in can_give() {
        for &n in numbers {
            if !tally.answers.keys().any(|k| k.0 == call && k.1 == n) {
                missing.push(format!("{call} {n}"));
            }
        }
    }
    missing.extend(instances::NOT_ONE.into_iter().filter(|why| !tally.parts.keys().any(|k| k.0 == *why)).map(String::from));
    missing
}

/// Says what was found; `true` where nothing differs.
pub fn run(other: &mut dyn Side, name: &str, count: u64, seed: u64, most: usize, quiet: bool, out: &str) -> bool {
    let start = Instant::now();
    let mut rust = RustSide::checked();
    let mut spare = RustSide::default();
    let (mut kinds, mut run, mut differences) = (std::collections::BTreeMap::new(), 0, 0);
    watch::start(seed);
    for index in 0..count {
        watch::at(index);
        let cases = generate::cases(seed, index);
        run += 1;
        for case in &cases {
            *kinds.entry(case.kind()).or_insert(0u64) += 1;
        }
        let Some(case) = cases.into_iter().find(|case| differs(&mut rust, other, case)) else { continue };
        differences += 1;
        if !quiet {
            println!("difference at case {index} of seed {seed}");
            let small = shrink::shrink(case, &mut |c| differs(&mut spare, other, c));
            let file = format!("{out}/difference-{seed}-{index}");
            let _ = std::fs::create_dir_all(out);
            let text = case_file::write(&small);
            let _ = std::fs::write(format!("{file}.case"), &text);
            if let Case::Sheet { bytes, .. } = &small {
                let _ = std::fs::write(format!("{file}.sheet"), bytes);
            }
            text.lines().take(LINES).for_each(|line| println!("{line}"));
            let left = text.lines().skip(LINES).count();
            println!("{}", if left == 0 { String::new() } else { format!("and {left} lines more") });
            show(&mut spare, other, &small);
            println!("written to {file}.case");
        }
        if differences == most {
            println!("stopped after case {index}");
            break;
        }
    }
    let missing = missing(&rust.tally);
    if !quiet {
        if std::env::var_os("ORACLE_SHORT").is_none() {
            print_tally(&rust.tally);
        }
        println!("not reached: {}", if missing.is_empty() { "none".into() } else { missing.join(", ") });
    }
    let counts: Vec<String> = kinds.iter().map(|(k, n)| format!("{n} {k}")).collect();
    let seconds = start.elapsed().as_secs_f64();
    println!(
        "{name}: {run} cases, with sheets and builds once more in version 2 and records of instances ({}), seed {seed}, \
         {seconds:.1} s: {differences} differences",
        counts.join(", ")
    );
    // so many cases reach every number, or the cases are not what they were
    differences == 0 && (missing.is_empty() || count < 50_000)
}
