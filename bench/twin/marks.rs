//! Marks by the six rules: propagation driven by each new mark, with a trail to take marks back.
use crate::clauses::Rows;
use crate::problem::{Literals, Problem};

pub type Steps = [u64; 4];

fn union(a: &Steps, b: &Steps) -> Steps {
    [a[0] | b[0], a[1] | b[1], a[2] | b[2], a[3] | b[3]]
}

fn minus(a: &Steps, b: &Steps) -> Steps {
    [a[0] & !b[0], a[1] & !b[1], a[2] & !b[2], a[3] & !b[3]]
}

fn is_in(set: &Steps, step: usize) -> bool {
    set[step >> 6] >> (step & 63) & 1 == 1
}

fn put(set: &mut Steps, step: usize) {
    set[step >> 6] |= 1 << (step & 63);
}

fn take_out(set: &mut Steps, step: usize) {
    set[step >> 6] &= !(1 << (step & 63));
}

/// Of a problem: for each literal its makers, its needers and its row of kept clauses; for each step those that interfere.
pub struct Index {
    pub steps: usize,
    pub needs: Vec<Literals>,
    pub makes: Vec<Literals>,
    pub rivals: Vec<Steps>,
    pub makers: [Steps; 128],
    pub needers: [Steps; 128],
    pub rows: Box<Rows>,
    pub closed: Steps,
    pub start: Literals,
    pub goal: Literals,
}

impl Index {
    pub fn new(problem: &Problem, rows: Box<Rows>) -> Index {
        let mut index = Index {
            steps: problem.steps.len(),
            needs: problem.steps.iter().map(|s| s.needs).collect(),
            makes: problem.steps.iter().map(|s| s.makes).collect(),
            rivals: Vec::new(),
            makers: [[0; 4]; 128],
            needers: [[0; 4]; 128],
            rows,
            closed: [0; 4],
            start: problem.true_at_start(),
            goal: problem.goal,
        };
        for (number, step) in problem.steps.iter().enumerate() {
            step.makes.each().for_each(|l| put(&mut index.makers[l], number));
            step.needs.each().for_each(|l| put(&mut index.needers[l], number));
            if !step.open {
                put(&mut index.closed, number);
            }
        }
        for (number, step) in problem.steps.iter().enumerate() {
            let mut rivals = [0; 4];
            for l in step.makes.opposites().each() {
                rivals = union(&rivals, &union(&index.makers[l], &index.needers[l]));
            }
            for l in step.needs.opposites().each() {
                rivals = union(&rivals, &index.makers[l]);
            }
            take_out(&mut rivals, number);
            index.rivals.push(rivals);
        }
        index
    }
}

#[derive(Clone, Copy)]
pub enum Mark {
    /// A literal is true at a time.
    True(u8, u8),
    /// A cell is taken.
    Taken(u8, u8),
    /// A cell is left out.
    Left(u8, u8),
}

/// What is marked of the cells.
pub struct Cells {
    pub conflict: bool,
    taken: [Steps; 32],
    left: [Steps; 32],
}

impl Cells {
    pub fn is_taken(&self, time: usize, step: usize) -> bool {
        is_in(&self.taken[time], step)
    }

    pub fn is_left(&self, time: usize, step: usize) -> bool {
        is_in(&self.left[time], step)
    }
}

pub struct Marks {
    pub length: usize,
    pub conflict: bool,
    facts: [Literals; 33],
    taken: [Steps; 32],
    left: [Steps; 32],
    trail: Vec<Mark>,
    head: usize,
    /// How many marks were ever put on, for measurements.
    pub put_on: u64,
}

impl Marks {
    pub fn none() -> Marks {
        Marks {
            length: 0,
            conflict: false,
            facts: [Literals::NONE; 33],
            taken: [[0; 4]; 32],
            left: [[0; 4]; 32],
            trail: Vec::with_capacity(10304),
            head: 0,
            put_on: 0,
        }
    }

    pub fn count(&self) -> usize {
        self.trail.len()
    }

    pub fn is_taken(&self, time: usize, step: usize) -> bool {
        is_in(&self.taken[time], step)
    }

    pub fn is_undecided(&self, time: usize, step: usize) -> bool {
        let word = step >> 6;
        (self.taken[time][word] | self.left[time][word]) >> (step & 63) & 1 == 0
    }

    /// The cells' marks as they are now, to answer from later.
    pub fn cells(&self) -> Cells {
        Cells { conflict: self.conflict, taken: self.taken, left: self.left }
    }

    fn push(&mut self, mark: Mark) {
        self.trail.push(mark);
        self.put_on += 1;
    }

    fn add_true(&mut self, time: usize, literals: Literals) {
        let there = self.facts[time];
        let new = literals.minus(there);
        if new.is_empty() {
            return;
        }
        if !new.and(there.opposites()).is_empty() || new.truths & new.falsities != 0 {
            self.conflict = true;
            return;
        }
        self.facts[time] = there.or(new);
        for l in new.each() {
            self.push(Mark::True(time as u8, l as u8));
        }
    }

    fn add_left(&mut self, time: usize, steps: &Steps) {
        for word in 0..4 {
            let mut new = steps[word] & !self.left[time][word];
            if new == 0 {
                continue;
            }
            if new & self.taken[time][word] != 0 {
                self.conflict = true;
                return;
            }
            self.left[time][word] |= new;
            while new != 0 {
                let step = word * 64 + new.trailing_zeros() as usize;
                new &= new - 1;
                self.push(Mark::Left(time as u8, step as u8));
            }
        }
    }

    fn add_taken(&mut self, time: usize, step: usize) {
        if is_in(&self.left[time], step) {
            self.conflict = true;
        } else if !is_in(&self.taken[time], step) {
            put(&mut self.taken[time], step);
            self.push(Mark::Taken(time as u8, step as u8));
        }
    }

    /// Rules 3 and 5 for one literal between a time and the next.
    fn check(&mut self, index: &Index, time: usize, literal: usize) {
        let left = minus(&index.makers[literal], &self.left[time]);
        let some = left[0] | left[1] | left[2] | left[3];
        if some == 0 {
            if self.facts[time].has(literal ^ 1) {
                self.add_true(time + 1, Literals::NONE.with(literal ^ 1));
            }
            if self.facts[time + 1].has(literal) {
                self.add_true(time, Literals::NONE.with(literal));
            }
        } else if some & (some - 1) == 0 && self.facts[time].has(literal ^ 1) && self.facts[time + 1].has(literal) {
            let mut only = None;
            for (word, bits) in left.iter().enumerate() {
                if *bits != 0 {
                    if only.is_some() {
                        return;
                    }
                    only = Some(word * 64 + bits.trailing_zeros() as usize);
                }
            }
            self.add_taken(time, only.unwrap());
        }
    }

    fn follow(&mut self, index: &Index, mark: Mark) {
        match mark {
            Mark::Taken(time, step) => {
                let (time, step) = (time as usize, step as usize);
                self.add_true(time, index.needs[step]);
                self.add_true(time + 1, index.makes[step]);
                self.add_left(time, &index.rivals[step]);
            }
            Mark::Left(time, step) => {
                for l in index.makes[step as usize].each() {
                    self.check(index, time as usize, l);
                }
            }
            Mark::True(time, literal) => {
                let (time, literal) = (time as usize, literal as usize);
                let false_one = literal ^ 1;
                self.add_true(time, index.rows[false_one]);
                if time < self.length {
                    self.add_left(time, &index.needers[false_one]);
                    self.check(index, time, false_one);
                }
                if time > 0 {
                    self.add_left(time - 1, &index.makers[false_one]);
                    self.check(index, time - 1, literal);
                }
            }
        }
    }

    pub fn propagate(&mut self, index: &Index) {
        while !self.conflict && self.head < self.trail.len() {
            let mark = self.trail[self.head];
            self.head += 1;
            self.follow(index, mark);
        }
    }

    /// The marks of what is given and the pins: rule 1, and all that follows.
    pub fn begin(&mut self, index: &Index, length: usize, pins: impl Iterator<Item = (usize, usize, bool)>) {
        self.length = length;
        self.conflict = false;
        self.facts = [Literals::NONE; 33];
        self.taken = [[0; 4]; 32];
        self.left = [[0; 4]; 32];
        self.trail.clear();
        self.head = 0;
        self.add_true(0, index.start);
        self.add_true(length, index.goal);
        for time in 0..length {
            self.add_left(time, &index.closed);
        }
        for (time, step, taken) in pins {
            self.mark(time, step, taken);
        }
        self.propagate(index);
    }

    fn mark(&mut self, time: usize, step: usize, taken: bool) {
        if taken {
            self.add_taken(time, step);
        } else {
            let mut one = [0; 4];
            put(&mut one, step);
            self.add_left(time, &one);
        }
    }

    pub fn decide(&mut self, index: &Index, time: usize, step: usize, taken: bool) {
        self.mark(time, step, taken);
        self.propagate(index);
    }

    /// Back to the marks of an earlier count.
    pub fn retreat(&mut self, count: usize) {
        while self.trail.len() > count {
            match self.trail.pop().unwrap() {
                Mark::True(time, literal) => self.facts[time as usize] = self.facts[time as usize].without(literal as usize),
                Mark::Taken(time, step) => take_out(&mut self.taken[time as usize], step as usize),
                Mark::Left(time, step) => take_out(&mut self.left[time as usize], step as usize),
            }
        }
        self.head = count;
        self.conflict = false;
    }
}
