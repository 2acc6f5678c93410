//! Answers by definition, for small problems: plans by going through states, marks and kept clauses by naive sweeps.
use crate::clauses::Rows;
use crate::planner::Forced;
use crate::problem::{Literals, Problem};
use std::collections::HashMap;

pub type Pins = [[Option<bool>; 256]];

/// Whether there is a plan that keeps the pins: every set of steps at every time, from each state once.
pub struct Plans<'a> {
    problem: &'a Problem,
    length: usize,
    pins: &'a Pins,
    known: HashMap<(usize, u64), bool>,
}

impl Plans<'_> {
    pub fn some(problem: &Problem, length: usize, pins: &Pins) -> bool {
        Plans { problem, length, pins, known: HashMap::new() }.from(0, problem.start)
    }

    fn from(&mut self, time: usize, state: u64) -> bool {
        if time == self.length {
            let goal = self.problem.goal;
            return goal.truths & !state == 0 && goal.falsities & state == 0;
        }
        if let Some(answer) = self.known.get(&(time, state)) {
            return *answer;
        }
        let answer = self.steps(time, state, 0, &mut Vec::new());
        self.known.insert((time, state), answer);
        answer
    }

    /// With these steps taken at the time so far, and those from `next` on still to be settled.
    fn steps(&mut self, time: usize, state: u64, next: usize, taken: &mut Vec<usize>) -> bool {
        if next == self.problem.steps.len() {
            let after = taken.iter().fold(state, |s, o| {
                let makes = self.problem.steps[*o].makes;
                (s | makes.truths) & !makes.falsities
            });
            return self.from(time + 1, after);
        }
        let pin = self.pins[time][next];
        if pin != Some(true) && self.steps(time, state, next + 1, taken) {
            return true;
        }
        let step = &self.problem.steps[next];
        let ready = step.open && step.needs.truths & !state == 0 && step.needs.falsities & state == 0;
        if pin != Some(false) && ready && taken.iter().all(|o| !self.problem.interfere(*o, next)) {
            taken.push(next);
            let answer = self.steps(time, state, next + 1, taken);
            taken.pop();
            return answer;
        }
        false
    }
}

/// The plan that an order of the cells puts first: each cell in turn is left out where some plan still does so.
pub fn first_plan(problem: &Problem, length: usize, order: &[(u8, u8)], pins: &Pins) -> Option<Vec<(usize, usize)>> {
    if !Plans::some(problem, length, pins) {
        return None;
    }
    let mut fixed = pins.to_vec();
    let mut plan = Vec::new();
    for (time, step) in order.iter().map(|c| (c.0 as usize, c.1 as usize)) {
        if fixed[time][step].is_none() {
            fixed[time][step] = Some(false);
            if !Plans::some(problem, length, &fixed) {
                fixed[time][step] = Some(true);
            }
        }
        if fixed[time][step] == Some(true) {
            plan.push((time, step));
        }
    }
    plan.sort();
    Some(plan)
}

/// Whether no plan that keeps the pins lies left of the path.
pub fn none_left(problem: &Problem, length: usize, pins: &Pins, path: &[(usize, usize, bool)]) -> bool {
    let mut fixed = pins.to_vec();
    for (time, step, taken) in path {
        if *taken {
            fixed[*time][*step] = Some(false);
            if Plans::some(problem, length, &fixed) {
                return false;
            }
        }
        fixed[*time][*step] = Some(*taken);
    }
    true
}

/// The least set closed under the six rules, by sweeps over all of them until nothing is new.
struct Sweeps<'a> {
    problem: &'a Problem,
    rows: &'a Rows,
    length: usize,
    /// `facts[t][l]`: literal l is true at t.
    facts: Vec<[bool; 128]>,
    taken: Vec<Vec<bool>>,
    left: Vec<Vec<bool>>,
    grew: bool,
}

impl Sweeps<'_> {
    fn is_true(&mut self, time: usize, literal: usize) {
        self.grew |= !self.facts[time][literal];
        self.facts[time][literal] = true;
    }

    fn take(&mut self, time: usize, step: usize) {
        self.grew |= !self.taken[time][step];
        self.taken[time][step] = true;
    }

    fn leave(&mut self, time: usize, step: usize) {
        self.grew |= !self.left[time][step];
        self.left[time][step] = true;
    }

    fn given(&mut self, pins: &Pins) {
        for l in self.problem.true_at_start().each() {
            self.is_true(0, l);
        }
        for l in self.problem.goal.each() {
            self.is_true(self.length, l);
        }
        for time in 0..self.length {
            for step in 0..self.problem.steps.len() {
                if !self.problem.steps[step].open || pins[time][step] == Some(false) {
                    self.leave(time, step);
                }
                if pins[time][step] == Some(true) {
                    self.take(time, step);
                }
            }
        }
    }

    fn of_step(&mut self, time: usize, step: usize) {
        let (needs, makes) = (self.problem.steps[step].needs, self.problem.steps[step].makes);
        if self.taken[time][step] {
            needs.each().for_each(|l| self.is_true(time, l));
            makes.each().for_each(|l| self.is_true(time + 1, l));
            for other in 0..self.problem.steps.len() {
                if self.problem.interfere(step, other) {
                    self.leave(time, other);
                }
            }
        }
        if needs.each().any(|l| self.facts[time][l ^ 1]) || makes.each().any(|l| self.facts[time + 1][l ^ 1]) {
            self.leave(time, step);
        }
    }

    fn of_literal(&mut self, time: usize, literal: usize) {
        let makers: Vec<usize> = (0..self.problem.steps.len()).filter(|o| self.problem.steps[*o].makes.has(literal)).collect();
        let possible: Vec<usize> = makers.iter().copied().filter(|o| !self.left[time][*o]).collect();
        if possible.is_empty() {
            if self.facts[time][literal ^ 1] {
                self.is_true(time + 1, literal ^ 1);
            }
            if self.facts[time + 1][literal] {
                self.is_true(time, literal);
            }
        }
        if self.facts[time][literal ^ 1] && self.facts[time + 1][literal] {
            // "every step that makes it, except one, is left out": with none left any of them is such a one
            for one in makers.iter() {
                if makers.iter().all(|o| o == one || self.left[time][*o]) {
                    self.take(time, *one);
                }
            }
        }
    }

    fn of_clauses(&mut self, time: usize) {
        for a in 0..2 * self.problem.facts {
            for b in 0..2 * self.problem.facts {
                if self.facts[time][a ^ 1] && self.rows[a].has(b) {
                    self.is_true(time, b);
                }
            }
        }
    }

    fn close(&mut self) {
        while self.grew {
            self.grew = false;
            for time in 0..=self.length {
                self.of_clauses(time);
            }
            for time in 0..self.length {
                for step in 0..self.problem.steps.len() {
                    self.of_step(time, step);
                }
                for literal in 0..2 * self.problem.facts {
                    self.of_literal(time, literal);
                }
            }
        }
    }

    fn contradict(&self) -> bool {
        self.facts.iter().any(|row| (0..64).any(|f| row[2 * f] && row[2 * f + 1])) || self.taken.iter().zip(&self.left).any(|(t, l)| t.iter().zip(l).any(|(a, b)| *a && *b))
    }
}

pub fn forced(problem: &Problem, rows: &Rows, length: usize, pins: &Pins, time: usize, step: usize) -> Forced {
    let cells = vec![vec![false; problem.steps.len()]; length];
    let mut sweeps = Sweeps { problem, rows, length, facts: vec![[false; 128]; length + 1], taken: cells.clone(), left: cells, grew: true };
    sweeps.given(pins);
    sweeps.close();
    if sweeps.contradict() {
        Forced::Contradiction
    } else if sweeps.taken[time][step] {
        Forced::Taken
    } else if sweeps.left[time][step] {
        Forced::LeftOut
    } else {
        Forced::Undecided
    }
}

/// The largest kept set: from all pairs true at the start, strike what is spoiled until nothing is.
pub fn kept(problem: &Problem) -> Box<Rows> {
    let literals = 2 * problem.facts;
    let start = problem.true_at_start();
    let mut set = vec![vec![false; literals]; literals];
    for a in 0..literals {
        for b in 0..literals {
            set[a][b] = start.has(a) || start.has(b);
        }
    }
    loop {
        let mut struck = Vec::new();
        for a in 0..literals {
            for b in 0..literals {
                if set[a][b] && problem.steps.iter().any(|s| s.open && !barred(s.needs, &set) && (spoils(s, &set, a, b) || spoils(s, &set, b, a))) {
                    struck.push((a, b));
                }
            }
        }
        if struck.is_empty() {
            break;
        }
        struck.iter().for_each(|(a, b)| set[*a][*b] = false);
    }
    let mut rows = [Literals::NONE; 128];
    for a in 0..literals {
        for b in 0..literals {
            if set[a][b] {
                rows[a] = rows[a].with(b);
            }
        }
    }
    Box::new(rows)
}

fn barred(needs: Literals, set: &[Vec<bool>]) -> bool {
    needs.each().any(|p| needs.each().any(|q| set[p ^ 1][q ^ 1]))
}

fn spoils(step: &crate::problem::Step, set: &[Vec<bool>], a: usize, b: usize) -> bool {
    let known = set[b][b] || step.needs.has(b) || step.needs.each().any(|p| set[p ^ 1][b]);
    step.makes.has(a ^ 1) && !step.makes.has(b) && (!known || step.makes.has(b ^ 1))
}
