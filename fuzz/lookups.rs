// Random spare lookups: lists of 0 to 14 numbers and some long ones, amounts at the bounds of their range and about the list's own numbers.

use super::calls::Counts;
use super::proved;
use super::random::Random;
use super::reference::{permits, Lookup};

fn amount(random: &mut Random, spare: &[u64]) -> u64 {
    match random.below(3) {
        0 => random.pick(&[0, 1, 2, 999_999_999, 1_000_000_000, 1_000_000_001, 1 << 32, u64::MAX]),
        1 if !spare.is_empty() => random.pick(spare).wrapping_add(random.below(3)).wrapping_sub(1),
        _ => random.between(1, 12),
    }
}

/// One lookup, judged by the reference; an account of it where it is not permitted.
pub fn compare(random: &mut Random, counts: &mut Counts) -> Result<(), String> {
    let count = if random.percent(95) { random.below(15) } else { random.between(15, 1_000) };
    let scale = random.pick(&[1, 10, 10, 1_000, 1_000_000_000]);
    let large = random.pick(&[0, 0, 0, 20]);
    let spare: Vec<u64> = (0..count).map(|_| if random.percent(large) { u64::MAX } else { random.below(scale + 1) }).collect();
    let amount = amount(random, &spare);
    let kept = spare.clone();
    let answer = proved::spare_lookup(&spare, amount);
    if !permits(&spare, amount, answer) || kept != spare {
        return Err(format!("spare {kept:?}, amount {amount}\nproved: {answer:?}\nspare afterwards {spare:?}\n"));
    }
    counts.add(match answer {
        Lookup::Engine(_) => "named".into(),
        Lookup::Nowhere => "none".into(),
        Lookup::Refused { number, .. } => format!("refused {number}"),
    });
    Ok(())
}
