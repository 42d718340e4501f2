// Time per try of the proved allocation beside a plain Rust program with the same answers, in one process. The plain program's state is
// handed on by value, holds 37 rests and limits, and its choice is a scan. Then time per call of the proved allocation for the shortest time,
// without quiet spans and with as many as there may be.
mod plans;

use plans::{capacity, plan, plans, proved, Answer, Plan};
use std::hint::black_box;
use std::time::Instant;

mod plain {
    use super::{capacity, Answer, Plan};

    #[derive(Clone, Copy)]
    struct State { remaining: [u32; 12], rest: [u32; 37], limit: [u8; 37] }

    enum Ended { Found(u32), None(u32), Stopped(u32) }

    struct Search { engines: usize, deliveries: usize, allowance: u32 }

    impl State {
        fn lay(mut self, p: usize, i: usize) -> State {
            self.remaining[i] -= self.rest[p];
            self.rest[p] = 0;
            self
        }

        fn cut(mut self, p: usize, i: usize) -> State {
            self.rest[p] -= self.remaining[i];
            self.limit[p] -= 1;
            self.remaining[i] = 0;
            self
        }

        fn bulkier(&self, p: usize, q: usize) -> bool {
            let (rp, lp, rq, lq) = (self.rest[p] as u64, self.limit[p] as u64, self.rest[q] as u64, self.limit[q] as u64);
            match (lp == 1, lq == 1) {
                (true, true) => rp > rq,
                (true, false) => true,
                (false, true) => false,
                (false, false) => rp * (lq - 1) > rq * (lp - 1),
            }
        }

        fn bulkiest(&self, n: usize) -> Option<usize> {
            let mut best = None;
            for p in 0..n {
                if self.rest[p] > 0 && best.map_or(true, |q| self.bulkier(p, q)) {
                    best = Some(p);
                }
            }
            best
        }
    }

    impl Search {
        fn fill(&self, s: &State, table: &mut [u64]) {
            let mut remaining = s.remaining;
            for p in 0..self.deliveries {
                let mut rest = s.rest[p];
                for i in 0..self.engines {
                    let piece = rest.min(remaining[i]);
                    table[p * self.engines + i] = piece as u64;
                    rest -= piece;
                    remaining[i] -= piece;
                }
            }
        }

        fn run(&self, s: State, mut made: u32, table: &mut [u64]) -> Ended {
            let p = match s.bulkiest(self.deliveries) {
                None => { table.fill(0); return Ended::Found(made); }
                Some(p) => p,
            };
            let one = s.limit[p] == 1;
            if !one {
                let smallest = (0..self.engines).map(|i| s.remaining[i]).filter(|c| *c > 0).min().unwrap_or(0);
                if s.rest[p] as u64 <= (s.limit[p] as u64 - 1) * smallest as u64 {
                    self.fill(&s, table);
                    return Ended::Found(made);
                }
            }
            for i in 0..self.engines {
                let c = s.remaining[i];
                let eligible = if one { c >= s.rest[p] } else { c > 0 && c < s.rest[p] };
                if eligible {
                    if made == self.allowance { return Ended::Stopped(made); }
                    let (next, piece) = if one { (s.lay(p, i), s.rest[p]) } else { (s.cut(p, i), c) };
                    match self.run(next, made + 1, table) {
                        Ended::Found(t) => { table[p * self.engines + i] = piece as u64; return Ended::Found(t); }
                        Ended::Stopped(t) => return Ended::Stopped(t),
                        Ended::None(t) => made = t,
                    }
                }
            }
            Ended::None(made)
        }
    }

    pub fn allocate(p: &Plan) -> Answer {
        let mut s = State { remaining: [0; 12], rest: [0; 37], limit: [0; 37] };
        for i in 0..p.watts.len() { s.remaining[i] = capacity(p, i) as u32; }
        for d in 0..p.energies.len() { s.rest[d] = p.energies[d] as u32; s.limit[d] = p.limits[d] as u8; }
        let mut table = vec![7u64; p.watts.len() * p.energies.len()];
        let search = Search { engines: p.watts.len(), deliveries: p.energies.len(), allowance: p.allowance as u32 };
        let enough = p.energies.iter().sum::<u64>() <= s.remaining.iter().map(|c| *c as u64).sum();
        let ended = if enough { search.run(s, 0, &mut table) } else { Ended::None(0) };
        let (word, tries) = match ended { Ended::Found(t) => (0, t), Ended::None(t) => (1, t), Ended::Stopped(t) => (2, t) };
        Answer { word, minutes: p.minutes, tries: tries as u64, table }
    }
}

fn nanoseconds(run: impl Fn() -> Answer) -> (f64, Answer) {
    let mut best = f64::MAX;
    let mut answer = run();
    for _ in 0..5 {
        let start = Instant::now();
        answer = run();
        best = best.min(start.elapsed().as_nanos() as f64);
    }
    (best / answer.tries.max(1) as f64, answer)
}

// The deepest found search: 36 deliveries laid, 11 engines cut for the last one, and its rest laid.
fn deepest() -> Plan {
    let capacities = (0..12).map(|i| if i == 0 { 136 } else { 100 }).collect();
    plan("deepest", capacities, (0..37).map(|p| if p < 36 { (1, 1) } else { (1200, 12) }).collect())
}

// 37 deliveries that straight fill serves, or the sum of capacities rules out, without a try. Both shortest times in a week take 15 searches, most
// of whose work is to compute capacities. Of each engine eight spans of an hour lie before that time and behind it.
fn shortest(spans: bool) -> Plan {
    let mut p = plan("shortest", (0..12).map(|i| 6_000 + 60 * i).collect(), vec![(148_000, 4); 37]);
    p.minutes = 10_080;
    for i in 0..if spans { 12 } else { 0 } {
        for k in 0..8 {
            p.quiet.extend_from_slice(&[i + 1, 1_200 * k + 10 * i, 1_200 * k + 10 * i + 60]);
        }
    }
    p
}

// Microseconds per call under `shortest`, the best of 40 runs of 100 calls. The plain program serves the plan in the time that is answered, and
// not in a minute less.
fn shortest_microseconds(spans: bool) -> (f64, u64) {
    let p = shortest(spans);
    let answer = proved(1, &p);
    let at = |minutes: u64| plain::allocate(&Plan { minutes, ..shortest(spans) });
    assert_eq!((answer.word, at(answer.minutes - 1).word), (0, 1));
    assert_eq!(answer, at(answer.minutes));
    let mut best = f64::MAX;
    for _ in 0..40 {
        let start = Instant::now();
        for _ in 0..100 {
            black_box(proved(1, black_box(&p)));
        }
        best = best.min(start.elapsed().as_nanos() as f64 / 100_000.0);
    }
    (best, answer.minutes)
}

// Runs the deepest search on a stack of so many KiB, in both modes; a stack too small ends the process.
fn on_stack(kib: usize) {
    let run = || {
        let p = deepest();
        let fixed = proved(0, &p);
        assert_eq!((fixed.word, fixed.tries), (0, 48));
        assert_eq!(proved(1, &p), fixed);
    };
    std::thread::Builder::new().stack_size(kib * 1024).spawn(run).unwrap().join().unwrap();
}

fn main() {
    if let Some(kib) = std::env::args().nth(1) {
        return on_stack(kib.parse().unwrap());
    }
    let mut product = 1.0;
    let mut count = 0;
    println!("{:28} {:>9} {:>8} {:>8} {:>6}", "plan", "tries", "proved", "plain", "ratio");
    for p in plans() {
        let (ours, a) = nanoseconds(|| proved(0, &p));
        let (theirs, b) = nanoseconds(|| plain::allocate(&p));
        assert_eq!(a, b, "{}", p.name);
        println!("{:28} {:>9} {:>8.1} {:>8.1} {:>6.2}", p.name, a.tries, ours, theirs, ours / theirs);
        if a.tries >= 1000 { product *= ours / theirs; count += 1; }
    }
    println!("geometric mean of the ratio over the {} plans of 1,000 tries or more: {:.2}", count, f64::powf(product, 1.0 / count as f64));
    for (name, spans) in [("no span", false), ("96 spans", true)] {
        let (microseconds, minutes) = shortest_microseconds(spans);
        println!("shortest in 10,080 minutes on 12 engines, {name}: found at {minutes}, {microseconds:.2} microseconds per call");
    }
}
