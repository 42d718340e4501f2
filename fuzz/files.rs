// Random files, valid and damaged, to the call with a file; with a program each file goes to that as well, and what it prints is compared.

use super::calls::{Counts, Lengths, Lent};
use super::plans::{damaged_span, heading, many_spans, shape, Shape};
use super::proved;
use super::random::Random;
use super::reference::{self, Answer, PRINT_BYTES, SPARE_NUMBERS, TABLE_NUMBERS};
use std::io::{ErrorKind, Write};
use std::process::{Command, Stdio};

const FILE_BYTES: usize = 32_768;

/// A record by the values of its fields; they are quoted as the file is written.
type Record = Vec<Vec<u8>>;

fn record(kind: &str, name: Vec<u8>, first: u64, second: u64) -> Record {
    vec![kind.into(), name, first.to_string().into(), second.to_string().into()]
}

fn mode(shortest: bool) -> Vec<u8> {
    if shortest { "shortest".into() } else { "fixed".into() }
}

fn plan_record(random: &mut Random) -> Record {
    let (shortest, minutes, allowance) = heading(random);
    record("plan", mode(shortest), minutes, allowance)
}

/// A name that none of `used` is: short and plain, or of any bytes a name may have, quotes and commas among them often.
fn fresh_name(random: &mut Random, used: &mut Vec<Vec<u8>>) -> Vec<u8> {
    loop {
        let length = random.pick(&[1, 2, 3, 8, 15, 16, 16]);
        let name: Vec<u8> = match random.below(5) {
            0 | 1 => format!("{}{}", random.pick(&["E", "D", "Hall ", "x"]), random.below(1_000)).into(),
            2 => (0..length).map(|_| random.pick(&[b'"', b',', b' ', b'a'])).collect(),
            _ => (0..length).map(|_| random.between(0x20, 0x7E) as u8).collect(),
        };
        if !used.contains(&name) {
            used.push(name.clone());
            return name;
        }
    }
}

/// A file that is accepted: a plan, then engines, deliveries and quiet spans in any mixture, each span behind its engine.
fn valid_records(random: &mut Random) -> Vec<Record> {
    let Shape { shortest, minutes, allowance, engines, demands } = shape(random);
    let mut quiet = Vec::new();
    let (mut engine_names, mut delivery_names) = (Vec::new(), Vec::new());
    let mut records = vec![record("plan", mode(shortest), minutes, allowance)];
    for engine in engines {
        let name = fresh_name(random, &mut engine_names);
        quiet.extend(engine.spans.iter().map(|(from, to)| record("quiet", name.clone(), *from, *to)));
        records.push(record("engine", name, engine.watts, engine.fuel));
    }
    for (energy, limit) in demands {
        records.push(record("delivery", fresh_name(random, &mut delivery_names), energy, limit));
    }
    if random.percent(50) {
        random.shuffle(&mut records[1..]);
    }
    let anywhere = random.percent(70);
    for record in quiet {
        let engine = records.iter().position(|other| other[0] == b"engine" && other[1] == record[1]).unwrap();
        let place = if anywhere { random.between(engine as u64 + 1, records.len() as u64) as usize } else { engine + 1 };
        records.insert(place, record);
    }
    records
}

/// The bytes of the records, quoted where that is needed and often where it is not, with or without the last CR LF.
fn written(random: &mut Random, records: &[Record]) -> Vec<u8> {
    let share = random.pick(&[0, 0, 10, 50, 100]);
    let mut file = Vec::new();
    for record in records {
        for (place, value) in record.iter().enumerate() {
            if place > 0 {
                file.push(b',');
            }
            if random.percent(share) || value.iter().any(|byte| b"\",\r\n".contains(byte)) {
                file.push(b'"');
                value.iter().for_each(|byte| if *byte == b'"' { file.extend(b"\"\"") } else { file.push(*byte) });
                file.push(b'"');
            } else {
                file.extend(value);
            }
        }
        file.extend(b"\r\n");
    }
    if random.percent(50) {
        file.truncate(file.len().saturating_sub(2));
    }
    file
}

// Damage

/// The records whose first field is `kind`; a plan may be among several, and damage may have left none.
fn places(records: &[Record], kind: &[u8]) -> Vec<usize> {
    (0..records.len()).filter(|place| records[*place].first().map_or(false, |first| first == kind)).collect()
}

fn insert(random: &mut Random, records: &mut Vec<Record>, record: Record) {
    let place = random.place(records.len() + 1);
    records.insert(place, record);
}

/// Adds engines or deliveries up to this count, with names of their own.
fn crowd(random: &mut Random, records: &mut Vec<Record>, kind: &str, count: usize) {
    for number in places(records, kind.as_bytes()).len()..count {
        let place = random.between(1, records.len().max(1) as u64) as usize;
        let name = format!("~{number}");
        records.insert(place.min(records.len()), record(kind, name.into(), random.between(1, 9), 1));
    }
}

/// A name used before, too long, empty or with a byte that no name has.
fn damage_name(random: &mut Random, records: &mut [Record]) {
    let kind = random.pick(&[&b"engine"[..], b"delivery", b"quiet"]);
    let places = places(records, kind);
    if places.is_empty() {
        return;
    }
    let (from, to) = (random.pick(&places), random.pick(&places));
    let name = match random.below(6) {
        0 | 1 => records[from].get(1).cloned().unwrap_or_default(),
        2 => vec![random.pick(b"a\", "); 17],
        3 => vec![b'a'; random.between(18, 300) as usize],
        4 => Vec::new(),
        _ => {
            let mut name = b"name".to_vec();
            name[random.place(4)] = random.pick(b"\r\n\0\x1F\x7F\x80\xFF");
            name
        }
    };
    if let Some(place) = records[to].get_mut(1) {
        *place = name;
    }
}

/// A number at the bound of some range, above all of them, or against the form. Large allowances only go to files with few records, so that
/// no search is long.
fn damage_number(random: &mut Random, records: &mut [Record]) {
    let at = if random.percent(30) { 0 } else { random.place(records.len()) };
    let field = random.between(2, 3) as usize;
    let value = match random.below(3) {
        0 => random.pick(&["", "00", "01", "+1", "-1", " 1", "1 ", "1.0", "1e3", "0x1", "1,0", "1\"", "/", ":", "\r\n1"]).to_string(),
        1 => random.pick(&["1000000001", "4294967297", "10000000000", "18446744073709551617", "99999999999999999999999"]).to_string(),
        _ if at == 0 && field == 3 && records.len() > 7 => random.pick(&["0", "1", "2999"]).to_string(),
        _ => random.pick(&["0", "1", "12", "13", "10080", "10081", "5000000", "5000001", "999999999", "1000000000"]).to_string(),
    };
    let value = if random.percent(3) { "1".repeat(random.between(20, 5_000) as usize) } else { value };
    if let Some(place) = records[at].get_mut(field) {
        *place = value.into();
    }
}

/// Another word in the first field or in the plan's mode.
fn damage_word(random: &mut Random, records: &mut [Record]) {
    let (at, field) = if random.percent(30) { (0, 1) } else { (random.place(records.len()), 0) };
    let words = ["", "plan", "engine", "delivery", "quiet", "fixed", "shortest", "Plan", "engines", " engine", "delivery ", "Quiet", "quiets",
        "Fixed", "\"fixed\""];
    let word = random.pick(&words);
    if let Some(place) = records[at].get_mut(field) {
        *place = word.into();
    }
}

/// FROM and TO of a quiet record, where they are numbers.
fn span(record: &Record) -> (u64, u64) {
    let number = |field: usize| record.get(field).and_then(|value| String::from_utf8_lossy(value).parse().ok()).unwrap_or(0);
    (number(2), number(3))
}

/// A name that no engine has, or none before this place.
fn damage_engine(random: &mut Random, records: &[Record], at: usize) -> Vec<u8> {
    let mut name = records[at].get(1).cloned().unwrap_or_default();
    let later: Vec<usize> = places(records, b"engine").into_iter().filter(|place| *place > at).collect();
    let others = places(records, random.pick(&[&b"engine"[..], b"delivery", b"plan"]));
    match random.below(9) {
        0 | 1 if !later.is_empty() => return records[random.pick(&later)].get(1).cloned().unwrap_or_default(),
        2 if !others.is_empty() => return records[random.pick(&others)].get(1).cloned().unwrap_or_default(),
        3 => name.clear(),
        4 => name.push(b' '),
        5 => { name.pop(); }
        6 => name = vec![random.pick(b"a\","); random.pick(&[16, 17, 300])],
        7 => name.extend(b"\r\n"),
        _ => name = if name.is_ascii() && name.to_ascii_uppercase() != name { name.to_ascii_uppercase() } else { name.to_ascii_lowercase() },
    }
    name
}

/// A quiet record that names no engine before it, or whose span is none; both, or with a number against its form; or a span more. Files without
/// quiet records stay as they are.
fn damage_quiet(random: &mut Random, records: &mut Vec<Record>) {
    let quiet = places(records, b"quiet");
    if quiet.is_empty() {
        return;
    }
    let at = random.pick(&quiet);
    let name = records[at].get(1).cloned().unwrap_or_default();
    let (from, to) = damaged_span(random, span(&records[at]));
    let mut copy = record("quiet", name.clone(), from, to);
    match random.below(10) {
        0 | 1 => records[at] = copy,
        2..=4 => {
            let place = random.between(at as u64 + 1, records.len() as u64) as usize;
            records.insert(place, copy);
        }
        5 => {
            records.retain(|other| other.first().map_or(true, |kind| kind != b"quiet") || other.get(1) != Some(&name));
            for (from, to) in many_spans(random) {
                records.push(record("quiet", name.clone(), from, to));
            }
        }
        6 => {
            // Before its engine, or before all of them.
            let moved = records.remove(at);
            let place = random.between(1, at as u64) as usize;
            records.insert(place, moved);
        }
        7 => records[at][1] = damage_engine(random, records, at),
        8 => {
            copy[1] = damage_engine(random, records, at);
            records[at] = copy;
        }
        _ => {
            copy[random.between(2, 3) as usize] = random.pick(&["", "00", "x", "-1", "10081", "18446744073709551617"]).into();
            if random.percent(50) {
                copy[1] = damage_engine(random, records, at);
            }
            records[at] = copy;
        }
    }
}

fn damage_records(random: &mut Random, records: &mut Vec<Record>) {
    let (at, other) = (random.place(records.len()), random.place(records.len()));
    match random.below(19) {
        0 => { let copy = records[at].clone(); insert(random, records, copy) }
        1 => records.swap(at, other),
        2 | 3 => { let count = random.pick(&[12, 13, 13, 14]); crowd(random, records, "engine", count) }
        4 | 5 => { let count = random.pick(&[37, 37, 38, 38, 39, 64]); crowd(random, records, "delivery", count) }
        6..=8 => damage_name(random, records),
        9..=11 => damage_number(random, records),
        12 => damage_word(random, records),
        13 => { let plan = plan_record(random); insert(random, records, plan) }
        14 => { records[at].pop(); }
        15 => records[at].push(b"5".to_vec()),
        16 | 17 => records.retain(|record| record.first().map_or(true, |kind| kind != b"engine")),
        _ => insert(random, records, vec![Vec::new()]),
    }
    if records.is_empty() {
        records.push(vec![Vec::new()]);
    }
}

fn damage_bytes(random: &mut Random, file: &mut Vec<u8>) {
    if file.is_empty() {
        return;
    }
    let at = random.place(file.len());
    match random.below(8) {
        0 => file[at] ^= 1 << random.below(8),
        1 => file[at] = random.next() as u8,
        2 => { file.remove(at); }
        3 | 4 => file.insert(at, random.pick(b"\"\",,\r\n \0\x1F\x7F\x80\xA0\xFF0a")),
        5 => file.truncate(at),
        6 => {
            // A record's end loses or doubles one of its bytes, where the file has one.
            if let Some(end) = (at..file.len()).find(|end| file[*end] == b'\r') {
                match random.below(4) {
                    0 => { file.remove(end); }
                    1 => { file.remove((end + 1).min(file.len() - 1)); }
                    2 => file.insert(end, b'\r'),
                    _ => { file.splice(end..end, *b"\r\n"); }
                }
            }
        }
        _ => {
            let end = (at + random.between(1, 40) as usize).min(file.len());
            file.drain(at..end);
        }
    }
}

/// Lengthens the file to 32,768 bytes, or one more or less, by bytes of one kind somewhere in it.
fn lengthen(random: &mut Random, file: &mut Vec<u8>) {
    let length = random.pick(&[FILE_BYTES - 1, FILE_BYTES, FILE_BYTES, FILE_BYTES + 1, FILE_BYTES + 1, 40_000]);
    let filler = random.pick(&[&b"a"[..], b",", b"\"", b"\"\"", b"1", b"\r\n", b"\n", b"x,"]);
    let at = if random.percent(50) { file.len() } else { random.place(file.len() + 1) };
    let missing = length.saturating_sub(file.len());
    let open = if random.percent(30) { &b"\""[..] } else { b"" };
    let more: Vec<u8> = open.iter().chain(filler.iter().cycle()).take(missing).cloned().collect();
    file.splice(at..at, more);
}

fn random_file(random: &mut Random) -> Vec<u8> {
    let mut records = valid_records(random);
    let kind = random.below(100);
    if (40..60).contains(&kind) {
        for _ in 0..random.pick(&[1, 1, 1, 2]) {
            damage_quiet(random, &mut records);
        }
    }
    if (55..80).contains(&kind) {
        for _ in 0..random.pick(&[1, 1, 1, 2, 3]) {
            damage_records(random, &mut records);
        }
    }
    let mut file = written(random, &records);
    match kind {
        75..=93 => for _ in 0..random.pick(&[1, 1, 1, 2, 5]) { damage_bytes(random, &mut file) },
        94..=97 => lengthen(random, &mut file),
        98 => file.clear(),
        _ => {}
    }
    file
}

// Calls

/// Lengths to lend for a file with this answer: mostly right, often just enough output or one byte less.
fn lengths(random: &mut Random, answer: Answer) -> Lengths {
    let length = match answer {
        Answer::Answered { length, .. } => length,
        Answer::Refused { .. } => random.place(40),
    };
    let mut lengths = Lengths { table: TABLE_NUMBERS, spare: SPARE_NUMBERS, output: length + random.place(50) };
    match random.below(50) {
        0..=9 => lengths.output = length,
        10..=12 => lengths.output = length.saturating_sub(1),
        13 => lengths.output = random.place(length + 1),
        14 => lengths.output = PRINT_BYTES,
        15 => lengths.table = random.pick(&[0, 1, 12, 37, 443, 445, 456, 768]),
        16 => lengths.spare = random.pick(&[0, 1, 11, 13, 37, 444]),
        _ => {}
    }
    lengths
}

/// One file to both; an account of the difference where there is one.
pub fn compare(random: &mut Random, counts: &mut Counts) -> Result<(), String> {
    let file = random_file(random);
    let run = |lent: &mut Lent, plan_file: fn(&[u8], &mut [u64], &mut [u64], &mut [u8]) -> Answer| {
        let (table, spare, output) = lent.parts();
        plan_file(&file, table, spare, output)
    };
    let enough = Lengths { table: TABLE_NUMBERS, spare: SPARE_NUMBERS, output: PRINT_BYTES };
    let answer = run(&mut Lent::new(&enough, 0), reference::plan_file);
    let lengths = lengths(random, answer);
    let mut ours = Lent::new(&lengths, random.next());
    let mut theirs = ours.clone();
    let proved = run(&mut ours, proved::plan_file);
    let expected = run(&mut theirs, reference::plan_file);
    if proved == expected && ours == theirs {
        // The first 16 bytes of an accepted file are of its plan record.
        let shortest = file.windows(8).take(9).any(|part| part == b"shortest");
        counts.add_answer(expected, shortest);
        counts.add_spans(expected, shortest, &reference::spans_of(&file));
        if matches!(expected, Answer::Answered { length, .. } if length == lengths.output) {
            counts.add("print just fits".into());
        }
        return Ok(());
    }
    let Lengths { table, spare, output } = lengths;
    Err(format!("file of {} bytes: {}\nlent: table {table}, spare {spare}, output {output}\nproved:    {proved:?}\nreference: {expected:?}\n{}",
        file.len(), file.escape_ascii(), ours.differences(&theirs)))
}

/// One file through a pipe to the program, whose print is judged alone; what it does not read of a long file is not written.
pub fn compare_print(random: &mut Random, program: &str) -> Result<(), String> {
    let file = random_file(random);
    let mut command = Command::new(program);
    let started = command.stdin(Stdio::piped()).stdout(Stdio::piped()).stderr(Stdio::piped()).spawn();
    let mut child = started.map_err(|error| format!("{program} does not start: {error}\n"))?;
    match child.stdin.take().unwrap().write_all(&file) {
        Err(error) if error.kind() == ErrorKind::BrokenPipe && file.len() > FILE_BYTES => {}
        written => written.expect("a pipe to the program"),
    }
    let printed = child.wait_with_output().expect("the program's print");
    let expected = reference::program_print(&file);
    if printed.stdout == expected && printed.stderr.is_empty() && printed.status.success() {
        return Ok(());
    }
    Err(format!("the program prints otherwise\nfile of {} bytes: {}\nprogram:   {}, {}\nreference: {}\n",
        file.len(), file.escape_ascii(), printed.status, printed.stdout.escape_ascii(), expected.escape_ascii()))
}
