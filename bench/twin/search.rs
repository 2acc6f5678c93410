//! The search for the first plan in a ranking: look-ahead at the root, then choices along a path.
use crate::marks::{Index, Marks};

#[derive(Clone, Copy, PartialEq, Eq)]
pub enum Outcome {
    NotYet,
    Plan,
    NoPlan,
}

#[derive(Clone, Copy)]
pub struct Entry {
    pub time: usize,
    pub step: usize,
    pub taken: bool,
    /// The cell's place, and how many marks there were before the choice.
    place: usize,
    before: usize,
}

/// How a search prepares: at most so many rounds of look-ahead, after a trial of plain search or at once.
#[derive(Clone, Copy)]
pub struct Policy {
    pub rounds: usize,
    pub trial: bool,
}

pub struct Search {
    pub order: Vec<(u8, u8)>,
    pub marks: Marks,
    pub path: Vec<Entry>,
    /// All cells placed lower are decided.
    place: usize,
    looked: bool,
    policy: Policy,
    pub choices: u64,
    pub tries: u64,
}

impl Search {
    pub fn new(policy: Policy) -> Search {
        Search { order: Vec::new(), marks: Marks::none(), path: Vec::new(), place: 0, looked: false, policy, choices: 0, tries: 0 }
    }

    pub fn begin(&mut self, index: &Index, length: usize, pins: impl Iterator<Item = (usize, usize, bool)>) {
        self.marks.begin(index, length, pins);
        self.path.clear();
        self.place = 0;
        self.looked = false;
    }

    /// Tries one side of an undecided cell; whether that contradicts. The marks are then as before.
    fn fails(&mut self, index: &Index, cell: (u8, u8), taken: bool) -> bool {
        let before = self.marks.count();
        self.marks.decide(index, cell.0 as usize, cell.1 as usize, taken);
        let conflict = self.marks.conflict;
        self.marks.retreat(before);
        self.tries += 1;
        conflict
    }

    /// Tries each undecided cell both ways, until nothing more is learned or the rounds are used up.
    #[inline(never)]
    fn look_ahead(&mut self, index: &Index) {
        let mut learned = true;
        let mut rounds = 0;
        while learned && !self.marks.conflict && rounds < self.policy.rounds {
            learned = false;
            rounds += 1;
            for place in 0..self.order.len() {
                let (time, step) = self.order[place];
                for taken in [true, false] {
                    if self.marks.conflict || !self.marks.is_undecided(time as usize, step as usize) {
                        break;
                    }
                    if self.fails(index, (time, step), taken) {
                        self.marks.decide(index, time as usize, step as usize, !taken);
                        learned = true;
                    }
                }
            }
        }
    }

    /// Drops taken entries, and turns the last left-out one; whether there was one.
    fn turn(&mut self, index: &Index) -> bool {
        while let Some(entry) = self.path.pop() {
            if !entry.taken {
                self.marks.retreat(entry.before);
                self.path.push(Entry { taken: true, ..entry });
                self.place = entry.place + 1;
                self.marks.decide(index, entry.time, entry.step, true);
                return true;
            }
        }
        false
    }

    fn add(&mut self, index: &Index) {
        let (time, step) = (self.order[self.place].0 as usize, self.order[self.place].1 as usize);
        self.path.push(Entry { time, step, taken: false, place: self.place, before: self.marks.count() });
        self.place += 1;
        self.marks.decide(index, time, step, false);
    }

    fn advance(&mut self, index: &Index, choices: u32) -> Outcome {
        for _ in 0..choices {
            if self.marks.conflict {
                if !self.turn(index) {
                    return Outcome::NoPlan;
                }
            } else {
                while self.place < self.order.len() {
                    let (time, step) = self.order[self.place];
                    if self.marks.is_undecided(time as usize, step as usize) {
                        break;
                    }
                    self.place += 1;
                }
                if self.place == self.order.len() {
                    return Outcome::Plan;
                }
                self.add(index);
            }
            self.choices += 1;
        }
        Outcome::NotYet
    }

    /// Once for each ask and change of pins: a trial of plain search, which is taken back where it comes to no end, and look-ahead.
    fn prepare(&mut self, index: &Index, choices: u32) -> Outcome {
        self.looked = true;
        if self.policy.trial {
            let tried = choices.min(self.order.len() as u32);
            let outcome = self.advance(index, tried);
            if outcome != Outcome::NotYet {
                return outcome;
            }
            if let Some(first) = self.path.first() {
                let before = first.before;
                self.marks.retreat(before);
            }
            self.path.clear();
            self.place = 0;
        }
        self.look_ahead(index);
        Outcome::NotYet
    }

    pub fn run(&mut self, index: &Index, choices: u32) -> Outcome {
        if self.policy.rounds > 0 && !self.looked {
            let outcome = self.prepare(index, choices);
            if outcome != Outcome::NotYet {
                return outcome;
            }
        }
        self.advance(index, choices)
    }
}
