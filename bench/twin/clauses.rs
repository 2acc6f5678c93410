//! The kept clauses: the largest set of pairs of literals that holds at the start and that no open step spoils.
use crate::problem::{Literals, Problem};

/// `rows[a]` has b exactly when {a, b} is kept.
pub type Rows = [Literals; 128];

struct Making<'a> {
    problem: &'a Problem,
    rows: Rows,
    /// The literals b with {b, b} in the set.
    sure: Literals,
    /// The needs whose opposite stands in a pair that was struck since, and whether some {b, b} was.
    touched: Literals,
    all: bool,
}

impl Making<'_> {
    fn strike(&mut self, a: usize, b: usize) {
        self.rows[a] = self.rows[a].without(b);
        self.rows[b] = self.rows[b].without(a);
        self.touched = self.touched.with(a ^ 1).with(b ^ 1);
        if a == b {
            self.sure = self.sure.without(a);
            self.all = true;
        }
    }

    /// Strikes all that one step spoils.
    fn look(&mut self, number: usize) {
        let step = self.problem.steps[number];
        if !step.open {
            return;
        }
        let mut known = step.needs.or(self.sure);
        let unneeded = step.needs.opposites();
        for q in unneeded.each() {
            if !self.rows[q].and(unneeded).is_empty() {
                return;
            }
            known = known.or(self.rows[q]);
        }
        let unmade = step.makes.opposites();
        for a in unmade.each() {
            let lost = self.rows[a].minus(step.makes);
            for b in lost.minus(known.minus(unmade)).each() {
                self.strike(a, b);
            }
        }
    }
}

#[inline(never)]
pub fn kept(problem: &Problem) -> Box<Rows> {
    let start = problem.true_at_start();
    let every = Literals { truths: problem.all_facts(), falsities: problem.all_facts() };
    let mut making = Making { problem, rows: [Literals::NONE; 128], sure: start, touched: Literals::NONE, all: true };
    for a in every.each() {
        making.rows[a] = if start.has(a) { every } else { start };
    }
    // What a step bars or knows can change only by a pair with the opposite of one of its needs, or by {b, b}.
    while making.all || !making.touched.is_empty() {
        let (touched, all) = (making.touched, making.all);
        making.touched = Literals::NONE;
        making.all = false;
        for number in 0..problem.steps.len() {
            if all || !problem.steps[number].needs.and(touched).is_empty() {
                making.look(number);
            }
        }
    }
    Box::new(making.rows)
}
