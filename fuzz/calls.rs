// What calls are lent, with a margin around it that nobody may touch, and how they ended.

use super::reference::{Answer, Span};
use std::collections::BTreeMap;
use std::fmt::Debug;

const MARGIN: usize = 16;

pub struct Lengths { pub table: usize, pub spare: usize, pub output: usize }

/// What is lent, inside a margin on both sides; each number and byte holds a value of its own, another in each case.
#[derive(Clone, PartialEq)]
pub struct Lent { table: Vec<u64>, spare: Vec<u64>, output: Vec<u8> }

impl Lent {
    pub fn new(lengths: &Lengths, salt: u64) -> Lent {
        let numbers = |length: usize| (0..(length + 2 * MARGIN) as u64).map(|k| salt.rotate_left(k as u32 % 64) ^ k).collect();
        let bytes = (0..lengths.output + 2 * MARGIN).map(|k| (salt >> (k % 57)) as u8 ^ k as u8).collect();
        Lent { table: numbers(lengths.table), spare: numbers(lengths.spare), output: bytes }
    }

    /// The table, the spare list and the output, without their margins.
    pub fn parts(&mut self) -> (&mut [u64], &mut [u64], &mut [u8]) {
        fn inner<T>(list: &mut [T]) -> &mut [T] {
            let end = list.len() - MARGIN;
            &mut list[MARGIN..end]
        }
        (inner(&mut self.table), inner(&mut self.spare), inner(&mut self.output))
    }

    /// Where the lent numbers and bytes first differ from the reference's, as places in what was lent; a negative place is in the margin before it.
    pub fn differences(&self, reference: &Lent) -> String {
        fn first<T: PartialEq + Debug>(what: &str, ours: &[T], theirs: &[T]) -> String {
            match (0..ours.len()).find(|k| ours[*k] != theirs[*k]) {
                Some(k) => format!("{what} at {}: proved {:?}, reference {:?}\n", k as i64 - MARGIN as i64, ours[k], theirs[k]),
                None => format!("{what}: equal\n"),
            }
        }
        first("table", &self.table, &reference.table) + &first("spare", &self.spare, &reference.spare)
            + &first("output", &self.output, &reference.output)
    }
}

/// How often each kind of outcome came up.
#[derive(Default)]
pub struct Counts(BTreeMap<String, u64>);

impl Counts {
    pub fn add(&mut self, outcome: String) { *self.0.entry(outcome).or_default() += 1 }

    pub fn add_answer(&mut self, answer: Answer, shortest: bool) {
        self.add(match answer {
            Answer::Refused { number, .. } => format!("refused {number}"),
            Answer::Answered { word, .. } => {
                let mode = if shortest { "shortest" } else { "fixed" };
                format!("{mode} {}", ["found", "none", "stopped"][word as usize])
            }
        });
    }

    /// Where an answer under spans stands to them: the minute before the answered ones is the last that counts.
    pub fn add_spans(&mut self, answer: Answer, shortest: bool, spans: &[Span]) {
        let (word, minutes) = match answer {
            Answer::Answered { word, minutes, .. } if !spans.is_empty() => (word, minutes),
            _ => return,
        };
        self.add(format!("{} with spans", ["found", "none", "stopped"][word as usize]));
        let still = |engine: u64| {
            let own = spans.iter().filter(|span| span.engine == engine);
            own.map(|span| span.to.min(minutes) - span.from.min(minutes)).sum::<u64>()
        };
        if (0..12).any(|engine| still(engine) == minutes) {
            self.add("an engine quiet throughout".into());
        }
        if (0..12).any(|engine| spans.iter().filter(|span| span.engine == engine).count() == 8) {
            self.add("eight spans".into());
        }
        if spans.iter().any(|one| spans.iter().any(|other| one.engine == other.engine && one.to == other.from)) {
            self.add("spans that touch".into());
        }
        if shortest && word == 0 {
            let mut add = |name: &str, is: &dyn Fn(&Span) -> bool| if spans.iter().any(is) { self.add(format!("shortest {name} a span")) };
            add("before", &|span| minutes <= span.from);
            add("inside", &|span| span.from < minutes && minutes <= span.to);
            add("just behind", &|span| minutes == span.to + 1);
        }
    }

    pub fn of(&self, outcome: &str) -> u64 { self.0.get(outcome).copied().unwrap_or(0) }

    pub fn print(&self) {
        let all: Vec<String> = self.0.iter().map(|(outcome, count)| format!("{outcome}: {count}")).collect();
        println!("  {}", all.join(", "));
    }
}
