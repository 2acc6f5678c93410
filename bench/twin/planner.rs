//! The planner's calls, with their refusals, written from docs/PLANNING.md.
use crate::brute;
use crate::clauses::{self, Rows};
use crate::marks::{Cells, Index, Marks};
use crate::problem::Problem;
use crate::search::{Entry, Outcome, Policy, Search};

#[derive(Clone, Copy, PartialEq, Eq)]
pub enum Ranking {
    Forward,
    ByStep,
}

impl Ranking {
    pub fn cell(self, length: usize, steps: usize, place: usize) -> (usize, usize) {
        match self {
            Ranking::Forward => (place / steps, place % steps),
            Ranking::ByStep => (place % length, place / length),
        }
    }
}

pub enum Forced {
    Undecided,
    Taken,
    LeftOut,
    Contradiction,
}

pub struct Planner {
    pub problem: Option<Problem>,
    index: Option<Index>,
    pub asked: Option<(usize, Ranking)>,
    pub pins: Vec<[Option<bool>; 256]>,
    root: Cells,
    pub search: Search,
    outcome: Outcome,
    plan: Vec<(usize, usize)>,
    /// Answer by definition in place of by search.
    by_definition: bool,
}

impl Planner {
    pub fn new(policy: Policy, by_definition: bool) -> Planner {
        Planner {
            problem: None,
            index: None,
            asked: None,
            pins: Vec::new(),
            root: Marks::none().cells(),
            search: Search::new(policy),
            outcome: Outcome::NotYet,
            plan: Vec::new(),
            by_definition,
        }
    }

    pub fn open(&mut self, problem: Problem) {
        let rows = if self.by_definition { brute::kept(&problem) } else { clauses::kept(&problem) };
        self.index = Some(Index::new(&problem, rows));
        self.problem = Some(problem);
        self.asked = None;
    }

    pub fn rows(&self) -> Option<(&Problem, &Rows)> {
        Some((self.problem.as_ref()?, &self.index.as_ref()?.rows))
    }

    fn begin(&mut self) {
        let (length, _) = self.asked.unwrap();
        let index = self.index.as_ref().unwrap();
        let steps = index.steps;
        let given = self.pins.iter().enumerate().flat_map(|(time, row)| row[..steps].iter().enumerate().filter_map(move |(step, pin)| pin.map(|taken| (time, step, taken))));
        self.search.begin(index, length, given);
        self.root = self.search.marks.cells();
        self.outcome = Outcome::NotYet;
    }

    pub fn ask(&mut self, length: usize, ranking: Ranking) -> Result<(), u32> {
        let index = self.index.as_ref().ok_or(21u32)?;
        if length > 32 {
            return Err(23);
        }
        let steps = index.steps;
        self.asked = Some((length, ranking));
        self.pins = vec![[None; 256]; length];
        self.search.order.clear();
        for place in 0..length * steps {
            let (time, step) = ranking.cell(length, steps, place);
            self.search.order.push((time as u8, step as u8));
        }
        self.begin();
        Ok(())
    }

    pub fn length(&self) -> Result<usize, u32> {
        self.index.as_ref().ok_or(21u32)?;
        Ok(self.asked.ok_or(22u32)?.0)
    }

    fn in_range(&self, time: usize, step: usize) -> Result<(), u32> {
        if time >= self.length()? || step >= self.index.as_ref().unwrap().steps {
            return Err(24);
        }
        Ok(())
    }

    pub fn pin(&mut self, time: usize, step: usize, taken: bool) -> Result<(), u32> {
        self.in_range(time, step)?;
        if self.pins[time][step].is_some() {
            return Err(25);
        }
        self.pins[time][step] = Some(taken);
        self.begin();
        Ok(())
    }

    pub fn unpin(&mut self, time: usize, step: usize) -> Result<(), u32> {
        self.in_range(time, step)?;
        if self.pins[time][step].is_none() {
            return Err(26);
        }
        self.pins[time][step] = None;
        self.begin();
        Ok(())
    }

    pub fn run(&mut self, choices: u32) -> Result<Outcome, u32> {
        let length = self.length()?;
        if choices == 0 || choices > 1_000_000 {
            return Err(27);
        }
        if self.outcome != Outcome::NotYet {
            return Ok(self.outcome);
        }
        if self.by_definition {
            let problem = self.problem.as_ref().unwrap();
            let first = brute::first_plan(problem, length, &self.search.order, &self.pins);
            self.outcome = if first.is_some() { Outcome::Plan } else { Outcome::NoPlan };
            self.plan = first.unwrap_or_default();
            return Ok(self.outcome);
        }
        self.outcome = self.search.run(self.index.as_ref().unwrap(), choices);
        if self.outcome == Outcome::Plan {
            let steps = self.index.as_ref().unwrap().steps;
            self.plan.clear();
            for time in 0..length {
                for step in 0..steps {
                    if self.search.marks.is_taken(time, step) {
                        self.plan.push((time, step));
                    }
                }
            }
        }
        if self.outcome != Outcome::NotYet {
            self.search.path.clear();
        }
        Ok(self.outcome)
    }

    pub fn forced(&self, time: usize, step: usize) -> Result<Forced, u32> {
        self.in_range(time, step)?;
        if self.by_definition {
            let (length, _) = self.asked.unwrap();
            let (problem, rows) = self.rows().unwrap();
            return Ok(brute::forced(problem, rows, length, &self.pins, time, step));
        }
        Ok(if self.root.conflict {
            Forced::Contradiction
        } else if self.root.is_taken(time, step) {
            Forced::Taken
        } else if self.root.is_left(time, step) {
            Forced::LeftOut
        } else {
            Forced::Undecided
        })
    }

    pub fn path(&self, place: usize) -> Result<Option<Entry>, u32> {
        self.length()?;
        Ok(self.search.path.get(place).copied())
    }

    pub fn report(&self) -> Result<String, u32> {
        let length = self.length()?;
        let mut card = String::new();
        match self.outcome {
            Outcome::NotYet => card.push_str("not yet\n"),
            Outcome::NoPlan => card.push_str("none\n"),
            Outcome::Plan => {
                for time in 0..length {
                    card.push_str(&format!("{time}:"));
                    for (_, step) in self.plan.iter().filter(|(at, _)| *at == time) {
                        card.push_str(&format!(" {step}"));
                    }
                    card.push('\n');
                }
            }
        }
        Ok(card)
    }
}
