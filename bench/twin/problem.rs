//! Problems, the water line and the reach filter, written from docs/PLANNING.md.

/// A set of literals: the facts that it has true, and those that it has false.
#[derive(Clone, Copy, PartialEq, Eq)]
pub struct Literals {
    pub truths: u64,
    pub falsities: u64,
}

impl Literals {
    pub const NONE: Literals = Literals { truths: 0, falsities: 0 };

    pub fn has(self, literal: usize) -> bool {
        let side = if literal & 1 == 0 { self.truths } else { self.falsities };
        side >> (literal >> 1) & 1 == 1
    }

    pub fn with(self, literal: usize) -> Literals {
        let bit = 1u64 << (literal >> 1);
        if literal & 1 == 0 {
            Literals { truths: self.truths | bit, ..self }
        } else {
            Literals { falsities: self.falsities | bit, ..self }
        }
    }

    pub fn without(self, literal: usize) -> Literals {
        let bit = 1u64 << (literal >> 1);
        if literal & 1 == 0 {
            Literals { truths: self.truths & !bit, ..self }
        } else {
            Literals { falsities: self.falsities & !bit, ..self }
        }
    }

    pub fn and(self, other: Literals) -> Literals {
        Literals { truths: self.truths & other.truths, falsities: self.falsities & other.falsities }
    }

    pub fn or(self, other: Literals) -> Literals {
        Literals { truths: self.truths | other.truths, falsities: self.falsities | other.falsities }
    }

    pub fn minus(self, other: Literals) -> Literals {
        Literals { truths: self.truths & !other.truths, falsities: self.falsities & !other.falsities }
    }

    pub fn opposites(self) -> Literals {
        Literals { truths: self.falsities, falsities: self.truths }
    }

    pub fn is_empty(self) -> bool {
        self.truths | self.falsities == 0
    }

    pub fn within(self, other: Literals) -> bool {
        self.minus(other).is_empty()
    }

    pub fn each(self) -> EachLiteral {
        EachLiteral { left: self }
    }
}

pub struct EachLiteral {
    left: Literals,
}

impl Iterator for EachLiteral {
    type Item = usize;

    fn next(&mut self) -> Option<usize> {
        if self.left.truths != 0 {
            let fact = self.left.truths.trailing_zeros() as usize;
            self.left.truths &= self.left.truths - 1;
            Some(2 * fact)
        } else if self.left.falsities != 0 {
            let fact = self.left.falsities.trailing_zeros() as usize;
            self.left.falsities &= self.left.falsities - 1;
            Some(2 * fact + 1)
        } else {
            None
        }
    }
}

#[derive(Clone, Copy)]
pub struct Step {
    pub open: bool,
    pub needs: Literals,
    pub makes: Literals,
}

#[derive(Clone)]
pub struct Problem {
    pub facts: usize,
    pub start: u64,
    pub goal: Literals,
    pub steps: Vec<Step>,
}

impl Problem {
    pub fn empty() -> Problem {
        Problem { facts: 1, start: 0, goal: Literals::NONE, steps: Vec::new() }
    }

    pub fn all_facts(&self) -> u64 {
        if self.facts == 64 { u64::MAX } else { (1 << self.facts) - 1 }
    }

    pub fn true_at_start(&self) -> Literals {
        Literals { truths: self.start, falsities: self.all_facts() & !self.start }
    }

    /// One makes the opposite of a literal that the other needs or makes.
    pub fn interfere(&self, a: usize, b: usize) -> bool {
        let (x, y) = (&self.steps[a], &self.steps[b]);
        a != b && (!x.makes.opposites().and(y.needs.or(y.makes)).is_empty() || !y.makes.opposites().and(x.needs.or(x.makes)).is_empty())
    }
}

pub fn water_line(meters: usize) -> Problem {
    let is = |fact: usize| 2 * fact;
    let not = |fact: usize| 2 * fact + 1;
    let set = |literals: &[usize]| literals.iter().fold(Literals::NONE, |s, l| s.with(*l));
    let step = |needs: &[usize], makes: &[usize]| Step { open: true, needs: set(needs), makes: set(makes) };
    let fact = |j: usize, place: usize| 1 + 7 * j + place;
    let mut closing = vec![not(0)];
    closing.extend((0..meters).map(|j| not(fact(j, 1))));
    let mut problem = Problem { facts: 1 + 7 * meters, start: 1, goal: set(&[is(0)]), steps: Vec::new() };
    problem.steps.push(step(&[is(0)], &[not(0)]));
    problem.steps.push(step(&closing, &[is(0)]));
    for j in 0..meters {
        let [old, gap, new, noted, sealed, radio, paired] = [0, 1, 2, 3, 4, 5, 6].map(|place| fact(j, place));
        problem.start |= 1 << old | 1 << sealed;
        problem.goal = problem.goal.with(is(paired)).with(is(sealed));
        problem.steps.push(step(&[is(old)], &[is(noted)]));
        problem.steps.push(step(&[is(sealed), is(noted)], &[not(sealed)]));
        problem.steps.push(step(&[is(old), not(sealed), not(0)], &[not(old), is(gap)]));
        problem.steps.push(step(&[is(gap), not(0)], &[not(gap), is(new)]));
        problem.steps.push(step(&[is(new)], &[is(radio)]));
        problem.steps.push(step(&[is(radio), is(0)], &[is(paired)]));
        problem.steps.push(step(&[is(new), is(0)], &[is(sealed)]));
    }
    problem
}

/// Closes each step with a need outside the reach set.
pub fn reach_filter(mut problem: Problem) -> Problem {
    let mut reach = problem.true_at_start();
    loop {
        let mut wide = reach;
        for step in &problem.steps {
            if step.open && step.needs.within(wide) {
                wide = wide.or(step.makes);
            }
        }
        if wide == reach {
            break;
        }
        reach = wide;
    }
    for step in &mut problem.steps {
        step.open = step.open && step.needs.within(reach);
    }
    problem
}
