// The proved calls, by the wrapper in interface/fothwen.rs, in the form of the reference. With `--cfg fault="NAME"` a fault is planted between
// them, so that a driver can show that it notices.

use super::fothwen::{self, Answer as Planned, Outcome, Plan, Refusal};
use super::reference::{Answer, Lookup, Numbers};

fn answer(result: Result<(Planned, usize), Refusal>) -> Answer {
    match result {
        Err(Refusal { number, place }) => Answer::Refused { number, record: place },
        Ok((Planned { outcome, minutes, tries }, length)) => {
            let word = match outcome {
                Outcome::Found => 0,
                Outcome::None => 1,
                Outcome::Stopped => 2,
            };
            let tries = if cfg!(fault = "tries") && tries == 7 { 8 } else { tries };
            Answer::Answered { word, minutes, tries, length }
        }
    }
}

pub fn plan_file(file: &[u8], table: &mut [u64], spare: &mut [u64], output: &mut [u8]) -> Answer {
    let answer = answer(fothwen::plan_file(file, table, spare, output));
    if let (true, Answer::Answered { length, .. }) = (cfg!(fault = "behind the print"), answer) {
        output[length..].fill(0);
    }
    answer
}

#[allow(dead_code)]
pub fn allocate(numbers: &Numbers, table: &mut [u64], spare: &mut [u64]) -> Answer {
    let Numbers { mode, minutes, allowance, watts, fuels, energies, limits, quiet } = *numbers;
    let mode = if cfg!(fault = "third mode") { mode.min(1) } else { mode };
    let (energies, limits) = if cfg!(fault = "exchanged") { (limits, energies) } else { (energies, limits) };
    let quiet = if cfg!(fault = "no quiet hours") { &[] } else { quiet };
    let plan = Plan { mode, minutes, allowance, watts, fuels, energies, limits, quiet };
    let answer = answer(fothwen::allocate(&plan, table, spare).map(|answer| (answer, 0)));
    if let (true, Answer::Refused { .. }) = (cfg!(fault = "written when refused"), answer) {
        spare.fill(0);
    }
    answer
}

#[allow(dead_code)]
pub fn spare_lookup(spare: &[u64], amount: u64) -> Lookup {
    match fothwen::spare_lookup(spare, amount) {
        Err(Refusal { number, place }) => Lookup::Refused { number, record: place },
        Ok(Some(_)) if cfg!(fault = "engine") => Lookup::Engine(0),
        Ok(Some(_)) if cfg!(fault = "none") && spare.len() == 12 => Lookup::Nowhere,
        Ok(Some(engine)) => Lookup::Engine(engine),
        Ok(None) => Lookup::Nowhere,
    }
}
