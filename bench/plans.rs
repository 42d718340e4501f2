// The plans that are timed, and the proved allocation on them.
#[path = "../interface/fothwen.rs"]
#[allow(dead_code)]
mod fothwen;

pub struct Plan {
    pub name: &'static str, pub minutes: u64, pub allowance: u64,
    pub watts: Vec<u64>, pub fuels: Vec<u64>, pub energies: Vec<u64>, pub limits: Vec<u64>,
    /// Engine counted from 1, FROM and TO of one quiet span after the other.
    pub quiet: Vec<u64>,
}

/// What an engine, counted from 0, gives in the plan's minutes.
pub fn capacity(p: &Plan, i: usize) -> u64 {
    let own = p.quiet.chunks(3).filter(|span| span[0] == i as u64 + 1);
    let still: u64 = own.map(|span| span[2].min(p.minutes) - span[1].min(p.minutes)).sum();
    p.fuels[i].min(p.watts[i] * (p.minutes - still) / 60)
}

#[derive(PartialEq, Debug, Clone)]
pub struct Answer { pub word: u64, pub minutes: u64, pub tries: u64, pub table: Vec<u64> }

pub fn proved(mode: u64, p: &Plan) -> Answer {
    let mut table = vec![7u64; p.watts.len() * p.energies.len()];
    let mut spare = vec![8u64; p.watts.len()];
    let plan = fothwen::Plan {
        mode, minutes: p.minutes, allowance: p.allowance, watts: &p.watts, fuels: &p.fuels, energies: &p.energies, limits: &p.limits,
        quiet: &p.quiet,
    };
    let answer = fothwen::allocate(&plan, &mut table, &mut spare).expect("an accepted plan");
    Answer { word: answer.outcome as u64, minutes: answer.minutes, tries: answer.tries, table }
}

pub fn plan(name: &'static str, capacities: Vec<u64>, deliveries: Vec<(u64, u64)>) -> Plan {
    Plan {
        name, minutes: 60, allowance: 1_000_000, fuels: vec![1_000_000_000; capacities.len()], watts: capacities,
        energies: deliveries.iter().map(|d| d.0).collect(), limits: deliveries.iter().map(|d| d.1).collect(),
        quiet: Vec::new(),
    }
}

pub fn plans() -> Vec<Plan> {
    let even = |c: u64| vec![c; 12];
    let steps: Vec<u64> = (0..12).map(|i| 900 + 17 * i).collect();
    vec![
        plan("13 of limit 1 on 12 engines", even(1000), vec![(900, 1); 13]),
        plan("24 of limit 1, uneven", steps.clone(), (0..24).map(|p| (400 + 5 * p, 1)).collect()),
        plan("30 of limit 1", even(1000), vec![(390, 1); 30]),
        plan("37 of limit 1, tight", even(1000), vec![(324, 1); 37]),
        plan("7 of limit 2", even(1000), vec![(1600, 2); 7]),
        plan("limits 1 and 2 mixed", even(1000), (0..14).map(|p| if p % 2 == 0 { (700, 1) } else { (990, 2) }).collect()),
        plan("limits 1, 2 and 3 mixed", steps.clone(), (0..15).map(|p| (760 + 2 * p, 1 + p % 3)).collect()),
        plan("5 of limit 3, cut over", steps, vec![(2290, 3); 5]),
    ]
}
