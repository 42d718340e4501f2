// Feeds random inputs, valid and damaged, to the proved functions through their Rust wrapper and to the reference, and compares the answers and
// everything lent. Options: --count N (inputs of each kind), --seed N, --only files|numbers|lookups, --case N (this input alone), --program PATH
// (feed each file to this program too and compare its print).

extern crate fothwen;

mod calls;
mod files;
mod lookups;
mod numbers;
mod plans;
#[path = "../tests/proved.rs"]
mod proved;
mod random;
#[path = "../tests/reference.rs"]
mod reference;

use calls::Counts;
use random::Random;
use std::process::exit;

/// A kind of input, its comparison, and the outcomes that so many inputs have to reach: a run that lacks one shows nothing of it.
struct Kind { name: &'static str, compare: fn(&mut Random, &mut Counts) -> Result<(), String>, reached: &'static [&'static str] }

const ENOUGH: u64 = 5_000;

const KINDS: [Kind; 3] = [
    Kind {
        name: "files", compare: files::compare,
        reached: &["fixed found", "fixed none", "fixed stopped", "shortest found", "shortest none", "shortest stopped", "print just fits",
            "found with spans", "none with spans", "stopped with spans", "an engine quiet throughout", "eight spans", "spans that touch",
            "shortest before a span", "shortest inside a span", "shortest just behind a span",
            "refused 1", "refused 2", "refused 3", "refused 4", "refused 5", "refused 6", "refused 7", "refused 8", "refused 9", "refused 10",
            "refused 11"],
    },
    Kind {
        name: "numbers", compare: numbers::compare,
        reached: &["fixed found", "fixed none", "fixed stopped", "shortest found", "shortest none", "shortest stopped",
            "found with spans", "none with spans", "stopped with spans", "an engine quiet throughout", "eight spans", "spans that touch",
            "shortest before a span", "shortest inside a span", "shortest just behind a span",
            "refused 3", "refused 6", "refused 7", "refused 8", "refused 9", "refused 10", "refused 11", "no mode, refused 6",
            "no mode, refused by another"],
    },
    Kind { name: "lookups", compare: lookups::compare, reached: &["named", "none", "refused 6", "refused 7", "refused 8"] },
];

#[derive(Default)]
struct Options { count: Option<u64>, seed: Option<u64>, case: Option<u64>, only: Option<String>, program: Option<String> }

fn options() -> Options {
    let mut options = Options::default();
    let mut arguments = std::env::args().skip(1);
    while let Some(name) = arguments.next() {
        let value = arguments.next().unwrap_or_else(|| end(&format!("{name}: a value is missing")));
        let number = || Some(value.parse().unwrap_or_else(|_| end(&format!("{name}: {value} is no number"))));
        match name.as_str() {
            "--count" => options.count = number(),
            "--seed" => options.seed = number(),
            "--case" => options.case = number(),
            "--only" if KINDS.iter().any(|kind| kind.name == value) => options.only = Some(value),
            "--program" => options.program = Some(value),
            _ => end(&format!("{name} {value}: no such option")),
        }
    }
    options
}

fn end(words: &str) -> ! {
    println!("{words}");
    exit(1)
}

fn run(kind: &Kind, seed: u64, cases: std::ops::Range<u64>, program: Option<&str>) {
    let mut counts = Counts::default();
    let count = cases.end - cases.start;
    for case in cases {
        let random = || Random(Random(seed).next().wrapping_add(case));
        let printed = program.map_or(Ok(()), |program| files::compare_print(&mut random(), program));
        if let Err(account) = (kind.compare)(&mut random(), &mut counts).and(printed) {
            end(&format!("{}, seed {seed}, case {case}: a difference\n{account}", kind.name));
        }
    }
    println!("{count} {}, seed {seed}: no difference", kind.name);
    counts.print();
    if let Some(missed) = kind.reached.iter().find(|outcome| count >= ENOUGH && counts.of(outcome) == 0) {
        end(&format!("{}: none of them ended in: {missed}", kind.name));
    }
}

fn main() {
    // Cargo runs it in the package's folder; a program is named from the repository's.
    std::env::set_current_dir(concat!(env!("CARGO_MANIFEST_DIR"), "/..")).expect("the repository's folder");
    let Options { count, seed, case, only, program } = options();
    let (count, seed) = (count.unwrap_or(20_000), seed.unwrap_or(1));
    let cases = case.map_or(0..count, |case| case..case + 1);
    for kind in KINDS.iter().filter(|kind| only.as_deref().map_or(true, |only| only == kind.name)) {
        run(kind, seed, cases.clone(), program.as_deref().filter(|_| kind.name == "files"));
    }
}
