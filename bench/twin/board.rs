//! The commands of the program `board`: one a line, one answer each.
use crate::brute;
use crate::planner::{Forced, Planner, Ranking};
use crate::problem::{Problem, reach_filter, water_line};
use crate::search::Outcome;
use crate::sheet;

/// A number of one or more digits; one too large is as good as the largest.
fn number(text: &str) -> Option<u32> {
    if text.is_empty() || !text.bytes().all(|b| b.is_ascii_digit()) {
        return None;
    }
    Some(text.bytes().fold(0u32, |n, b| n.saturating_mul(10).saturating_add(u32::from(b - b'0'))))
}

fn ok(result: Result<(), u32>) -> String {
    match result {
        Ok(()) => "ok\n".into(),
        Err(n) => format!("declined {n}\n"),
    }
}

fn source(words: &[&str]) -> Option<Result<Problem, String>> {
    match words {
        ["sheet", _, ..] => {
            let bytes = std::fs::read(words[1..].join(" ")).ok()?;
            Some(sheet::read(&bytes).map(|(problem, _)| problem).map_err(|fault| fault.text()))
        }
        ["water", k] => {
            let k = number(k)? as usize;
            Some(if (1..=8).contains(&k) { Ok(water_line(k)) } else { Err("declined 31\n".into()) })
        }
        _ => None,
    }
}

fn open(planner: &mut Planner, words: &[&str]) -> Option<String> {
    let (filtered, words) = if words.first() == Some(&"reach") { (true, &words[1..]) } else { (false, words) };
    Some(match source(words)? {
        Ok(problem) => {
            planner.open(if filtered { reach_filter(problem) } else { problem });
            "ok\n".into()
        }
        Err(text) => text,
    })
}

fn kept(planner: &Planner, a: usize, b: usize) -> String {
    match planner.rows() {
        None => "declined 21\n".into(),
        Some((problem, _)) if a >= 2 * problem.facts || b >= 2 * problem.facts => "declined 24\n".into(),
        Some((_, rows)) => if rows[a].has(b) { "kept\n" } else { "not kept\n" }.into(),
    }
}

/// Only the twin has this: whether no such plan lies left of a path, given as `TIME STEP taken|out` for each entry.
fn judge(planner: &Planner, words: &[&str]) -> Option<String> {
    let mut path = Vec::new();
    for entry in words.chunks(3) {
        let [time, step, side] = entry else { return None };
        path.push((number(time)? as usize, number(step)? as usize, *side == "taken"));
    }
    let good = brute::none_left(planner.problem.as_ref()?, planner.length().ok()?, &planner.pins, &path);
    Some(if good { "none left of it\n" } else { "a plan lies left\n" }.into())
}

pub fn answer(planner: &mut Planner, line: &str) -> Option<String> {
    let words: Vec<&str> = line.split(' ').collect();
    Some(match words[..] {
        ["open", ..] => open(planner, &words[1..])?,
        ["ask", length, ranking] => {
            let ranking = match ranking {
                "forward" => Ranking::Forward,
                "by-step" => Ranking::ByStep,
                _ => return None,
            };
            ok(planner.ask(number(length)? as usize, ranking))
        }
        ["pin", time, step, side] => {
            let taken = match side {
                "taken" => true,
                "out" => false,
                _ => return None,
            };
            ok(planner.pin(number(time)? as usize, number(step)? as usize, taken))
        }
        ["unpin", time, step] => ok(planner.unpin(number(time)? as usize, number(step)? as usize)),
        ["run", choices] => match planner.run(number(choices)?) {
            Ok(Outcome::NotYet) => "not yet\n".into(),
            Ok(Outcome::Plan) => "plan\n".into(),
            Ok(Outcome::NoPlan) => "none\n".into(),
            Err(n) => format!("declined {n}\n"),
        },
        ["forced", time, step] => match planner.forced(number(time)? as usize, number(step)? as usize) {
            Ok(Forced::Undecided) => "undecided\n".into(),
            Ok(Forced::Taken) => "taken\n".into(),
            Ok(Forced::LeftOut) => "left out\n".into(),
            Ok(Forced::Contradiction) => "contradiction\n".into(),
            Err(n) => format!("declined {n}\n"),
        },
        ["path", place] => match planner.path(number(place)? as usize) {
            Ok(Some(e)) => format!("{} {} {}\n", e.time, e.step, if e.taken { "taken" } else { "left out" }),
            Ok(None) => "no entry\n".into(),
            Err(n) => format!("declined {n}\n"),
        },
        ["report"] => planner.report().unwrap_or_else(|n| format!("declined {n}\n")),
        ["kept", a, b] => kept(planner, number(a)? as usize, number(b)? as usize),
        ["judge", ..] => judge(planner, &words[1..])?,
        _ => return None,
    })
}
