// Time per call with a file, read, planned and printed, of the proved planner beside the plain reference, in one process and in turns. What
// is lent is not cleared before a call.

#[path = "../interface/fothwen.rs"]
#[allow(dead_code)]
mod fothwen;
#[path = "../tests/reference.rs"]
mod reference;
#[path = "../tests/proved.rs"]
mod proved;

use reference::{Answer, PRINT_BYTES, SPARE_NUMBERS, TABLE_NUMBERS};
use std::hint::black_box;
use std::time::Instant;

const FILE_BYTES: usize = 32_768;

type Call = fn(&[u8], &mut [u64], &mut [u64], &mut [u8]) -> Answer;

#[derive(Clone, PartialEq)]
struct Lent { table: Vec<u64>, spare: Vec<u64>, output: Vec<u8> }

struct Case { name: &'static str, file: Vec<u8> }

fn example() -> Vec<u8> {
    let records = "plan,fixed,60,100\r\nengine,E1,3000,1000000000\r\nengine,E2,5000,1000000000\r\n\
        delivery,D1,5000,2\r\ndelivery,D2,3000,2\r\n";
    records.into()
}

/// 12 engines and 37 deliveries; each delivery is below the smallest engine, so straight fill answers without a try.
fn full() -> Vec<u8> {
    let mut file = String::from("plan,fixed,60,1000\r\n");
    for i in 0..12 {
        file += &format!("engine,Engine {},{},{}\r\n", i + 1, 250_000 + 1_700 * i, 1_500_000 + 25_000 * i);
    }
    for p in 0..37 {
        file += &format!("delivery,Customer {:03},{},{}\r\n", p + 1, 55_000 + 700 * p, 2 + p % 3);
    }
    file.into()
}

/// The same with eight spans of a minute for each engine at its end; straight fill still answers.
fn quiet() -> Vec<u8> {
    let mut file = String::from_utf8(full()).unwrap();
    for k in 0..96 {
        file += &format!("quiet,Engine {},{},{}\r\n", k % 12 + 1, 7 * (k / 12), 7 * (k / 12) + 1);
    }
    file.into()
}

/// A beginning and then bytes of one kind, up to the longest file.
fn longest(beginning: &[u8], byte: u8) -> Vec<u8> {
    let mut file = beginning.to_vec();
    file.resize(FILE_BYTES, byte);
    file
}

/// One quoted field to the end of the longest file, closed there.
fn closed() -> Vec<u8> {
    let mut file = longest(b"plan,fixed,60,9\r\nengine,\"", b'a');
    file[FILE_BYTES - 1] = b'"';
    file
}

/// A beginning and then a part again and again, up to the longest file.
fn repeated(beginning: &[u8], part: &[u8]) -> Vec<u8> {
    beginning.iter().chain(part.iter().cycle()).take(FILE_BYTES).cloned().collect()
}

fn cases() -> Vec<Case> {
    vec![
        Case { name: "12 engines, 37 deliveries", file: full() },
        Case { name: "the same with 96 spans", file: quiet() },
        Case { name: "quote open to the end", file: longest(b"plan,fixed,60,9\r\nengine,\"", b'a') },
        Case { name: "quoted to the end", file: closed() },
        Case { name: "unquoted to the end", file: longest(b"plan,fixed,60,9\r\nengine,", b'a') },
        Case { name: "a field for every byte", file: longest(b"plan,fixed,60,9", b',') },
        Case { name: "50 records, then none", file: repeated(&full(), b"delivery,D,5,") },
        Case { name: "text, commas, some quotes", file: repeated(b"plan,fixed,60,9\r\nengine,\"", b"abc def,ghi \r\n\"\"jklmno,") },
        Case { name: "doubled quotes alone", file: longest(b"plan,fixed,60,9\r\nengine,", b'"') },
        Case { name: "a fault at its beginning", file: longest(b"plan,fixed,60,9\r\nengine,\r", b'a') },
        Case { name: "the page's example", file: example() },
    ]
}

fn call(plan_file: Call, file: &[u8], lent: &mut Lent) -> Answer {
    plan_file(black_box(file), &mut lent.table, &mut lent.spare, &mut lent.output)
}

fn nanoseconds(plan_file: Call, file: &[u8], lent: &mut Lent, calls: u32) -> f64 {
    let start = Instant::now();
    for _ in 0..calls {
        black_box(call(plan_file, file, lent));
    }
    start.elapsed().as_nanos() as f64 / calls as f64
}

fn outcome(answer: Answer) -> String {
    match answer {
        Answer::Answered { word, tries, .. } => format!("{}, {tries} tries", ["found", "none", "stopped"][word as usize]),
        Answer::Refused { number, record } => format!("refused {number}, record {record}"),
    }
}

fn main() {
    println!("{:26} {:>6} {:21} {:>10} {:>10} {:>6}", "file", "bytes", "answer", "proved", "plain", "ratio");
    for Case { name, file } in cases() {
        let mut ours = Lent { table: vec![7; TABLE_NUMBERS], spare: vec![8; SPARE_NUMBERS], output: vec![9; PRINT_BYTES] };
        let mut theirs = ours.clone();
        let answer = call(proved::plan_file, &file, &mut ours);
        assert_eq!(answer, call(reference::plan_file, &file, &mut theirs), "{}", name);
        assert!(ours == theirs, "{}", name);
        // A run of about 4 ms by the length of the file, so that an interruption spoils one run and not the best.
        let calls = 4_000_000 / (1_000 + file.len() as u32);
        let (mut proved, mut plain) = (f64::MAX, f64::MAX);
        for _ in 0..40 {
            proved = proved.min(nanoseconds(proved::plan_file, &file, &mut ours, calls));
            plain = plain.min(nanoseconds(reference::plan_file, &file, &mut theirs, calls));
        }
        println!("{:26} {:>6} {:21} {:>10.0} {:>10.0} {:>6.2}", name, file.len(), outcome(answer), proved, plain, proved / plain);
    }
    println!("ns per call, the best of 40 runs in turns; tables and output are not cleared before a call");
}
