// Random calls on numbers, accepted and damaged: lists, tables and spare lists of other lengths, numbers out of range, numbers that are no mode,
// spans of no engine and spans that are none.

use super::calls::{Counts, Lengths, Lent};
use super::plans::{damaged_span, many_spans, shape, Shape, WEEK};
use super::proved;
use super::random::Random;
use super::reference::{self, Answer, Numbers, Span};

#[derive(Debug)]
struct Call {
    mode: u64, minutes: u64, allowance: u64,
    watts: Vec<u64>, fuels: Vec<u64>, energies: Vec<u64>, limits: Vec<u64>, quiet: Vec<u64>,
    table: usize, spare: usize,
}

fn accepted(random: &mut Random) -> Call {
    let Shape { shortest, minutes, allowance, engines, demands } = shape(random);
    let (watts, fuels): (Vec<u64>, Vec<u64>) = engines.iter().map(|engine| (engine.watts, engine.fuel)).unzip();
    let numbered = (1..).zip(&engines);
    let mut spans: Vec<[u64; 3]> = numbered.flat_map(|(i, engine)| engine.spans.iter().map(move |(from, to)| [i, *from, *to])).collect();
    if random.percent(50) {
        random.shuffle(&mut spans);
    }
    let (energies, limits): (Vec<u64>, Vec<u64>) = demands.into_iter().unzip();
    let (table, spare) = (energies.len() * watts.len(), watts.len());
    Call { mode: u64::from(shortest), minutes, allowance, watts, fuels, energies, limits, quiet: spans.concat(), table, spare }
}

impl Call {
    fn fit_what_is_lent(&mut self) {
        self.table = self.energies.len() * self.watts.len();
        self.spare = self.watts.len();
    }

    fn list(&mut self, which: u64) -> &mut Vec<u64> {
        [&mut self.watts, &mut self.fuels, &mut self.energies, &mut self.limits].into_iter().nth(which as usize).unwrap()
    }

    /// Another number of mode, minutes or allowance. A large allowance only goes to few engines and deliveries, so that no search is long.
    fn damage_heading(&mut self, random: &mut Random) {
        match random.below(4) {
            0 | 1 => self.mode = random.pick(&[2, 3, 4, 255, 256, 1 << 32, u64::MAX]),
            2 => self.minutes = random.pick(&[0, 1, 10_080, 10_081, 1 << 32, u64::MAX]),
            _ if random.percent(50) && self.watts.len() + self.energies.len() < 7 => self.allowance = 1_000_000_000,
            _ => self.allowance = random.pick(&[0, 1, 1_000_000_001, 1 << 32, u64::MAX]),
        }
    }

    /// A number at the bound of some range, or above all of them, in one of the four lists.
    fn damage_value(&mut self, random: &mut Random) {
        let value = random.pick(&[0, 1, 12, 13, 5_000_000, 5_000_001, 999_999_999, 1_000_000_000, 1_000_000_001, 1 << 32, u64::MAX]);
        let list = self.list(random.below(4));
        if !list.is_empty() {
            let place = random.place(list.len());
            list[place] = value;
        }
    }

    /// One list shorter or longer than its pair.
    fn damage_pair(&mut self, random: &mut Random) {
        let list = self.list(random.below(4));
        match random.below(4) {
            0 => list.clear(),
            1 => { list.pop(); }
            _ => list.push(random.between(1, 12)),
        }
    }

    /// Other counts of engines or deliveries, mostly with what is lent made to fit.
    fn damage_counts(&mut self, random: &mut Random) {
        if random.percent(50) {
            let count = random.pick(&[0, 0, 1, 12, 13, 13, 14, 100]);
            self.watts.resize(count, 60);
            self.fuels.resize(count, 60);
        } else {
            let count = random.pick(&[0, 1, 37, 38, 38, 39, 64, 300]);
            self.energies.resize(count, 1);
            self.limits.resize(count, 1);
        }
        if random.percent(80) {
            self.fit_what_is_lent();
        }
    }

    fn damage_lent(&mut self, random: &mut Random) {
        if random.percent(50) {
            self.table = random.pick(&[0, 1, self.table.saturating_sub(1), self.table + 1, self.table + self.spare, 444, 768]);
        } else {
            self.spare = random.pick(&[0, self.spare.saturating_sub(1), self.spare + 1, 12, 13, 444]);
        }
    }

    /// Another number in a span, or a span more, at any place; or a number too few or too many in the list. A list without spans mostly stays so.
    fn damage_quiet(&mut self, random: &mut Random) {
        let spans = self.quiet.len() / 3;
        if spans == 0 && random.percent(90) {
            return;
        }
        let at = 3 * random.place(spans.max(1));
        let mut span = match self.quiet.get(at..at + 3) {
            Some(three) => [three[0], three[1], three[2]],
            None => [1, 0, 1],
        };
        if random.percent(70) {
            let (from, to) = damaged_span(random, (span[1], span[2]));
            span = [span[0], from, to];
        }
        if random.percent(35) {
            let engines = self.watts.len() as u64;
            span[0] = random.pick(&[0, 0, engines, engines + 1, engines + 1, 13, 1 << 32, (1 << 32) + 1, u64::MAX]);
        }
        if random.percent(15) {
            span[random.between(1, 2) as usize] = random.pick(&[WEEK, WEEK + 1, 1 << 32, (1 << 32) + 1, u64::MAX - 1, u64::MAX]);
        }
        match random.below(10) {
            0..=3 if spans > 0 => self.quiet[at..at + 3].copy_from_slice(&span),
            0..=6 => { let place = 3 * random.place(spans + 1); self.quiet.splice(place..place, span); }
            7 | 8 => {
                let engine = if random.percent(90) { random.between(1, self.watts.len().max(1) as u64) } else { span[0] };
                self.quiet = self.quiet.chunks(3).filter(|three| three[0] != engine).flatten().cloned().collect();
                self.quiet.extend(many_spans(random).into_iter().flat_map(|(from, to)| [engine, from, to]));
            }
            _ if random.percent(50) => { self.quiet.pop(); }
            _ => self.quiet.extend_from_slice(&span[..random.between(1, 2) as usize]),
        }
    }

    fn damage(&mut self, random: &mut Random) {
        match random.below(10) {
            0 | 1 => self.damage_heading(random),
            2..=4 => self.damage_value(random),
            5 => self.damage_pair(random),
            6 | 7 => self.damage_counts(random),
            _ => self.damage_lent(random),
        }
    }

    fn numbers(&self) -> Numbers<'_> {
        let Call { mode, minutes, allowance, .. } = *self;
        let Call { watts, fuels, energies, limits, quiet, .. } = self;
        Numbers { mode, minutes, allowance, watts, fuels, energies, limits, quiet }
    }

    /// The spans of a call that is accepted.
    fn spans(&self) -> Vec<Span> {
        self.quiet.chunks(3).map(|three| Span { engine: three[0] - 1, from: three[1], to: three[2] }).collect()
    }
}

/// One call to both; an account of the difference where there is one.
pub fn compare(random: &mut Random, counts: &mut Counts) -> Result<(), String> {
    let mut call = accepted(random);
    let kind = random.below(100);
    if kind < 25 {
        for _ in 0..random.pick(&[1, 1, 1, 2]) {
            call.damage_quiet(random);
        }
    }
    if (20..60).contains(&kind) {
        for _ in 0..random.pick(&[1, 1, 1, 2, 3]) {
            call.damage(random);
        }
    }
    let mut ours = Lent::new(&Lengths { table: call.table, spare: call.spare, output: 0 }, random.next());
    let mut theirs = ours.clone();
    let run = |lent: &mut Lent, allocate: fn(&Numbers, &mut [u64], &mut [u64]) -> Answer| {
        let (table, spare, _) = lent.parts();
        allocate(&call.numbers(), table, spare)
    };
    let proved = run(&mut ours, proved::allocate);
    let expected = run(&mut theirs, reference::allocate);
    if proved == expected && ours == theirs {
        counts.add_answer(expected, call.mode == 1);
        if let Answer::Answered { .. } = expected {
            counts.add_spans(expected, call.mode == 1, &call.spans());
        }
        if call.mode > 1 {
            counts.add(match expected {
                Answer::Refused { number: 6, .. } => "no mode, refused 6".into(),
                _ => "no mode, refused by another".into(),
            });
        }
        return Ok(());
    }
    Err(format!("{call:?}\nproved:    {proved:?}\nreference: {expected:?}\n{}", ours.differences(&theirs)))
}
