// The benchmark: each case on both sides in turns, on the same inputs. It prints nanoseconds, or, asked
// for instructions, what callgrind counts in the two functions.

mod cases;
mod inputs;
#[path = "../random.rs"]
mod random;

use cases::{Case, Work};
use std::process::{exit, Command};
use std::time::Instant;

const ROUNDS: usize = 1001;

fn main() {
    let words: Vec<String> = std::env::args().skip(1).collect();
    let mut cases = cases::all();
    match words.iter().map(String::as_str).collect::<Vec<_>>()[..] {
        [] => print(&mut cases, "ns", |_, case| times(&mut *case.work)),
        ["--instructions"] => print(&mut cases, "instructions", instructions),
        ["batch", place, side] => {
            let work = &mut cases[number(place)].work;
            work.reset(number(side));
            work.batch(number(side));
        }
        _ => fail("usage: bench [--instructions]"),
    }
}

fn fail(why: &str) -> ! {
    eprintln!("{why}");
    exit(2)
}

fn number(word: &str) -> usize {
    word.parse().unwrap_or_else(|_| fail(&format!("no number: {word}")))
}

/// Rust, port and ratio of each case.
fn print(cases: &mut [Case], unit: &str, measure: impl Fn(usize, &mut Case) -> [f64; 3]) {
    println!("{:<32}{:>8}{:>8}{:>8}  goal", unit, "Rust", "port", "ratio");
    for (place, case) in cases.iter_mut().enumerate() {
        case.work.compare();
        let [rust, port, ratio] = measure(place, case);
        println!("{:<32}{rust:>8.2}{port:>8.2}{ratio:>8.2}  {}", case.name, case.goal);
    }
}

/// Nanoseconds of a call: the median round of each side, and the median of the rounds' ratios.
fn times(work: &mut dyn Work) -> [f64; 3] {
    let calls = work.calls() as f64;
    let mut rounds = [const { Vec::new() }; 3];
    for round in 0..ROUNDS {
        let mut ns = [0.0; 2];
        for turn in 0..2 {
            let side = (round + turn) % 2;
            work.reset(side);
            let start = Instant::now();
            work.batch(side);
            ns[side] = start.elapsed().as_nanos() as f64 / calls;
        }
        let [rust, port] = ns;
        rounds.iter_mut().zip([rust, port, port / rust]).for_each(|(all, one)| all.push(one));
    }
    rounds.map(median)
}

fn median(mut values: Vec<f64>) -> f64 {
    values.sort_by(f64::total_cmp);
    values[values.len() / 2]
}

/// Instructions of a call, its own and those of what it calls; what lies around it is not counted.
fn instructions(place: usize, case: &mut Case) -> [f64; 3] {
    let [rust, port] = [("rust", 0), ("knx", 1)].map(|(prefix, side)| {
        collected(place, side, &format!("{prefix}_{}", case.function)) / case.work.calls() as f64
    });
    [rust, port, port / rust]
}

fn collected(place: usize, side: usize, symbol: &str) -> f64 {
    let program = std::env::current_exe().unwrap_or_else(|error| fail(&error.to_string()));
    let output = Command::new("valgrind")
        .args(["--tool=callgrind", "--callgrind-out-file=/dev/null"])
        .arg(format!("--toggle-collect={symbol}"))
        .arg(program)
        .args(["batch", &place.to_string(), &side.to_string()])
        .output();
    let output = output.unwrap_or_else(|error| fail(&format!("valgrind: {error}")));
    let said = String::from_utf8_lossy(&output.stderr);
    let count = said.lines().find_map(|line| line.split("Collected : ").nth(1)?.parse().ok());
    count.unwrap_or_else(|| fail(&said))
}
