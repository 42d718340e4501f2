// Plans that are accepted, mostly tight ones.

use super::random::Random;
use super::reference::DELIVERIES;

/// The last minute that FROM and TO may name.
pub const WEEK: u64 = 10_080;

/// A plan by its engines and its deliveries as energy and limit.
pub struct Shape { pub shortest: bool, pub minutes: u64, pub allowance: u64, pub engines: Vec<Engine>, pub demands: Vec<(u64, u64)> }

/// An engine with its quiet spans as FROM and TO, in any order.
pub struct Engine { pub watts: u64, pub fuel: u64, pub spans: Vec<(u64, u64)> }

/// Whether the mode is shortest, the minutes and the allowance.
pub fn heading(random: &mut Random) -> (bool, u64, u64) {
    let shortest = random.percent(30);
    let minutes = match random.below(10) {
        0 => 1,
        1 => random.between(2, 59),
        2 => 10_080,
        3 | 4 => random.between(61, 10_080),
        _ => 60,
    };
    let allowance = match random.below(4) {
        0 => random.below(3),
        1 => random.below(40),
        2 => random.below(400),
        _ => random.below(3_000),
    };
    (shortest, minutes, allowance)
}

pub fn shape(random: &mut Random) -> Shape {
    let (shortest, minutes, allowance) = heading(random);
    let count = random.between(1, 12);
    let deliveries = if random.percent(70) { random.below(9) } else { random.between(0, DELIVERIES as u64) };
    let spans = quiet_hours(random, count, minutes);
    let running: Vec<u64> = spans.iter().map(|spans| running(spans, minutes)).collect();
    let mut capacities = capacities(random, count);
    capacities.iter_mut().zip(&running).filter(|(_, running)| **running == 0).for_each(|(capacity, _)| *capacity = 0);
    let demands = match random.below(3) {
        0 => tight_demands(random, &capacities),
        _ => demands(random, deliveries, capacities.iter().sum()),
    };
    let engines = capacities.iter().zip(running).zip(spans).map(|((capacity, running), spans)| {
        let (watts, fuel) = engine_numbers(random, *capacity, running);
        Engine { watts, fuel, spans }
    }).collect();
    Shape { shortest, minutes, allowance, engines, demands }
}

/// Watts and fuel that give about this capacity, by either bound, and exactly it where the minutes in which the engine runs are 60; an engine
/// that never runs has both.
fn engine_numbers(random: &mut Random, capacity: u64, minutes: u64) -> (u64, u64) {
    if minutes == 0 {
        return (random.between(1, 5_000_000), random.between(1, 1_000_000_000));
    }
    let watts = ((capacity * 60 + minutes - 1) / minutes).min(5_000_000);
    match random.below(4) {
        0 => ((watts + random.below(500)).min(5_000_000), capacity),
        1 => (watts, capacity + random.below(3)),
        _ => (watts, 1_000_000_000),
    }
}

/// Quiet spans for every engine, often the same for all, in half of the plans for none.
fn quiet_hours(random: &mut Random, engines: u64, minutes: u64) -> Vec<Vec<(u64, u64)>> {
    let share = random.pick(&[0, 0, 0, 30, 70, 100]);
    let same = match random.below(4) {
        0 => Some(single_minutes(random, minutes)),
        1 => Some(quiet_spans(random, minutes)),
        _ => None,
    };
    (0..engines).map(|_| match &same {
        _ if !random.percent(share) => Vec::new(),
        Some(spans) => spans.clone(),
        None => quiet_spans(random, minutes),
    }).collect()
}

/// Eight spans with a minute between them in which the engine runs, often up to the plan's minutes: the shortest time is then just behind one.
fn single_minutes(random: &mut Random, minutes: u64) -> Vec<(u64, u64)> {
    let (first, widest) = (random.below(2), minutes / 8 + 2);
    let step = if random.percent(70) { widest } else { random.between(2, widest) };
    (0..8).map(|k| (first + k * step, first + (k + 1) * step - 1)).take_while(|(_, to)| *to <= WEEK).collect()
}

/// Up to eight spans of an engine, in any order: between neighbours among some minutes, so that many touch; before the plan's minutes, up to
/// them, across and behind them. Some leave the engine no minute of the plan.
fn quiet_spans(random: &mut Random, minutes: u64) -> Vec<(u64, u64)> {
    if random.percent(15) {
        return single_minutes(random, minutes);
    }
    let horizon = random.pick(&[minutes, minutes + 2, 2 * minutes, WEEK]).min(WEEK);
    let mut ends: Vec<u64> = (0..random.between(1, 12)).map(|_| match random.below(8) {
        0 => random.pick(&[0, minutes - 1, minutes, minutes + 1, WEEK]).min(WEEK),
        _ => random.between(0, horizon),
    }).collect();
    let throughout = random.percent(15);
    if throughout {
        ends.truncate(7);
        ends.extend([0, random.pick(&[minutes, horizon.max(minutes), WEEK])]);
    }
    ends.sort_unstable();
    ends.dedup();
    let mut spans: Vec<(u64, u64)> = ends.windows(2).map(|two| (two[0], two[1])).filter(|_| throughout || random.percent(70)).collect();
    random.shuffle(&mut spans);
    spans.truncate(8);
    spans
}

/// The minutes of the plan in which an engine with these spans runs.
fn running(spans: &[(u64, u64)], minutes: u64) -> u64 {
    minutes - spans.iter().map(|(from, to)| minutes.min(*to) - minutes.min(*from)).sum::<u64>()
}

/// Eight or nine spans that do not overlap.
pub fn many_spans(random: &mut Random) -> Vec<(u64, u64)> {
    let (first, step) = (random.below(30), random.between(1, 40));
    (0..random.pick(&[8, 9, 9])).map(|k| (first + k * step, first + k * step + random.between(1, step))).collect()
}

/// A span that is none, or that is likely to overlap with this one or to touch it.
pub fn damaged_span(random: &mut Random, (from, to): (u64, u64)) -> (u64, u64) {
    // Another damage may have made them larger.
    let (from, to) = (from.min(WEEK), to.min(WEEK));
    match random.below(8) {
        0 => (from, from),
        1 => (to, from),
        2 => (from, to),
        3 => (from.saturating_sub(random.below(3)), to + random.below(3)),
        4 => (from + random.below(2), to.saturating_sub(random.below(2))),
        5 => (to.saturating_sub(random.below(2)), to + random.between(1, 50)),
        6 => (from.saturating_sub(random.between(1, 50)), from + random.below(2)),
        _ => random.pick(&[(0, WEEK), (from, WEEK), (from, WEEK + 1), (WEEK, WEEK), (WEEK, WEEK + 1), (WEEK + 1, to), (0, 0), (0, 1)]),
    }
}

/// Capacities of one scale, often equal to each other and sometimes 0, so that ties and exact fits are common.
fn capacities(random: &mut Random, count: u64) -> Vec<u64> {
    let scale = random.pick(&[3, 10, 10, 100, 5_000, 4_000_000]);
    let even = random.percent(40);
    let same = random.between(1, scale);
    let zeros = random.pick(&[0, 0, 10, 30]);
    (0..count).map(|_| if random.percent(zeros) { 0 } else if even { same } else { random.between(1, scale) }).collect()
}

/// Energies whose sum is about a random share of the capacities' sum, with limits of one kind or mixed.
fn demands(random: &mut Random, count: u64, total: u64) -> Vec<(u64, u64)> {
    let share = random.pick(&[40, 70, 85, 95, 100, 105]);
    let most = (total * share / 50 / count.max(1)).clamp(1, 1_000_000_000);
    let even = random.percent(30);
    let highest = random.pick(&[1, 2, 2, 3, 4, 12]);
    (0..count).map(|_| {
        let energy = if even { (most / 2).max(1) } else { random.between(1, most) };
        (energy, random.between(1, highest))
    }).collect()
}

/// Energies cut out of the capacities themselves, as many as a plan may have: a tight plan that serves, and that a search seldom finds at once.
fn tight_demands(random: &mut Random, capacities: &[u64]) -> Vec<(u64, u64)> {
    let mut demands: Vec<(u64, u64)> = Vec::new();
    for capacity in capacities {
        let mut left = *capacity;
        let parts = random.between(1, 4);
        for part in (0..parts).rev() {
            let piece = if part == 0 { left } else { random.below(left + 1) };
            left -= piece;
            match demands.last_mut() {
                // The first piece of an engine may go to a delivery of the engine before it.
                Some(last) if part + 1 == parts && piece > 0 && random.percent(30) => *last = (last.0 + piece, last.1 + 1),
                _ if piece > 0 => demands.push((piece, 1)),
                _ => {}
            }
        }
    }
    random.shuffle(&mut demands);
    demands.truncate(DELIVERIES);
    demands
}
