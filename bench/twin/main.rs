//! A plain Rust twin of the planner, to compare and to measure with: `twin round|board [--no-look-ahead] [--two-rounds] [--trial] [--brute] [--count]`.
mod board;
mod brute;
mod clauses;
mod marks;
mod planner;
mod problem;
mod search;
mod sheet;

use planner::{Planner, Ranking};
use search::{Outcome, Policy};
use std::io::{Read, Write};

fn round(planner: &mut Planner, bytes: &[u8]) -> String {
    let (problem, length) = match sheet::read(bytes) {
        Ok(job) => job,
        Err(fault) => return fault.text(),
    };
    planner.open(problem::reach_filter(problem));
    planner.ask(length, Ranking::Forward).unwrap();
    for _ in 0..1000 {
        if planner.run(1_000_000).unwrap() != Outcome::NotYet {
            break;
        }
    }
    planner.report().unwrap()
}

fn main() {
    let arguments: Vec<String> = std::env::args().skip(1).collect();
    let has = |word: &str| arguments.iter().any(|a| a == word);
    let rounds = if has("--no-look-ahead") {
        0
    } else if has("--two-rounds") {
        2
    } else {
        usize::MAX
    };
    let mut planner = Planner::new(Policy { rounds, trial: has("--trial") }, has("--brute"));
    let mut input = Vec::new();
    std::io::stdin().read_to_end(&mut input).unwrap();
    let mut out = String::new();
    if has("board") {
        let text = String::from_utf8_lossy(&input).into_owned();
        for line in text.strip_suffix('\n').unwrap_or(&text).split('\n') {
            if !text.is_empty() {
                out.push_str(&board::answer(&mut planner, line).unwrap_or_else(|| "?\n".into()));
            }
        }
    } else {
        out = round(&mut planner, &input);
    }
    std::io::stdout().write_all(out.as_bytes()).unwrap();
    if has("--count") {
        let search = &planner.search;
        eprintln!("choices {} tries {} marks {}", search.choices, search.tries, search.marks.put_on);
    }
}
