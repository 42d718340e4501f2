// Whole plans decided by the proved allocation and by an exact solver for mixed integer programs, `glpsol` or `cbc` where one is installed. A
// solver is given the definition of a cutting and nothing else: pieces in whole watt-hours, a switch for each piece that may be above 0.
#[allow(dead_code)]
mod plans;

use plans::{capacity, plan, plans, proved, Plan};
use std::fmt::Write;
use std::process::Command;
use std::time::Instant;

const SECONDS: &str = "10";

// A sum of the cells of a row or a column, and what it is held to.
fn constraint(text: &mut String, letter: char, cells: impl Iterator<Item = (usize, usize)>, held: &str, bound: u64) {
    let terms: Vec<String> = cells.map(|(d, i)| format!("{letter}{d}_{i}")).collect();
    writeln!(text, " {} {held} {bound}", terms.join(" + ")).unwrap();
}

// The plan as a program in CPLEX's LP format.
fn program(p: &Plan) -> String {
    let (engines, deliveries) = (p.watts.len(), p.energies.len());
    let cells: Vec<(usize, usize)> = (0..deliveries).flat_map(|d| (0..engines).map(move |i| (d, i))).collect();
    let mut text = String::from("Minimize\n nothing: 0 x0_0\nSubject To\n");
    for d in 0..deliveries {
        constraint(&mut text, 'x', (0..engines).map(|i| (d, i)), "=", p.energies[d]);
        constraint(&mut text, 'y', (0..engines).map(|i| (d, i)), "<=", p.limits[d]);
    }
    for i in 0..engines {
        constraint(&mut text, 'x', (0..deliveries).map(|d| (d, i)), "<=", capacity(p, i));
    }
    for (d, i) in &cells {
        writeln!(text, " x{d}_{i} - {} y{d}_{i} <= 0", capacity(p, *i).min(p.energies[*d])).unwrap();
    }
    let names = |letter: char| cells.iter().map(|(d, i)| format!(" {letter}{d}_{i}\n")).collect::<String>();
    write!(text, "General\n{}Binary\n{}End\n", names('x'), names('y')).unwrap();
    text
}

// What a solver's output says: a cutting, that there is none, or nothing in the time it had.
fn verdict(output: &str) -> &'static str {
    let has = |words: &[&str]| words.iter().any(|w| output.contains(w));
    if has(&["NO INTEGER FEASIBLE", "NO PRIMAL FEASIBLE", "NO FEASIBLE", "infeasible", "Infeasible"]) {
        "none"
    } else if has(&["INTEGER OPTIMAL SOLUTION FOUND", "Optimal solution found"]) {
        "found"
    } else {
        "no answer"
    }
}

fn solve(solver: &str, file: &str) -> (f64, &'static str) {
    let words = match solver {
        "glpsol" => vec!["--lp", file, "--tmlim", SECONDS],
        _ => vec![file, "-sec", SECONDS, "-solve"],
    };
    let start = Instant::now();
    let output = Command::new(solver).args(words).output().unwrap();
    (start.elapsed().as_secs_f64(), verdict(&String::from_utf8_lossy(&output.stdout)))
}

fn all() -> Vec<Plan> {
    let mut all = vec![
        plan("document 01's example", vec![3000, 5000], vec![(5000, 2), (3000, 2)]),
        plan("none after 4 tries", vec![4000, 4000], vec![(3000, 1), (3000, 1), (2000, 1)]),
        plan("12 engines, 37 of limit 2", vec![1000; 12], vec![(324, 2); 37]),
    ];
    all.extend(plans());
    all
}

fn main() {
    let installed: Vec<&str> = ["glpsol", "cbc"].iter().copied().filter(|s| Command::new(s).arg("--version").output().is_ok()).collect();
    if installed.is_empty() {
        return println!("no exact solver installed (glpsol or cbc): none compared");
    }
    let file = std::env::temp_dir().join(format!("fothwen-{}.lp", std::process::id()));
    let file = file.to_str().unwrap();
    println!("{:28} {:>9} {:>8} {:>12}  solvers, s (the whole process, at most {SECONDS} s)", "plan", "answer", "tries", "proved, ms");
    for p in all() {
        let start = Instant::now();
        let answer = proved(0, &p);
        let ours = start.elapsed().as_secs_f64() * 1000.0;
        let word = ["found", "none", "stopped"][answer.word as usize];
        print!("{:28} {:>9} {:>8} {:>12.3} ", p.name, word, answer.tries, ours);
        std::fs::write(file, program(&p)).unwrap();
        for solver in &installed {
            let (seconds, said) = solve(solver, file);
            assert!(word == "stopped" || said == "no answer" || said == word, "{}: {solver} says {said}", p.name);
            print!(" {solver}: {said} {seconds:.3}");
        }
        println!();
    }
    std::fs::remove_file(file).unwrap();
}
