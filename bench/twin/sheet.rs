//! The sheet reader, written from docs/SHEETS.md: bytes to a problem and a length, or the first fault and its place.
use crate::problem::{Literals, Problem, Step};

pub struct Fault {
    pub number: u32,
    pub line: u32,
    pub byte: u32,
}

impl Fault {
    pub fn text(&self) -> String {
        format!("sheet fault {} line {} byte {}\n", self.number, self.line, self.byte)
    }
}

/// What a sheet's lines have stated so far.
struct Job {
    length: usize,
    problem: Problem,
    fact_names: Vec<Vec<u8>>,
    step_names: Vec<Vec<u8>>,
    started: u64,
}

fn belongs_in_a_sheet(byte: u8) -> bool {
    byte.is_ascii_lowercase() || byte.is_ascii_uppercase() || byte.is_ascii_digit() || byte == b'-' || byte == b' ' || byte == b'\n'
}

fn is_name(text: &[u8]) -> bool {
    (1..=15).contains(&text.len()) && text[0].is_ascii_lowercase() && text.iter().all(|b| b.is_ascii_lowercase() || b.is_ascii_digit())
}

fn number(text: &[u8]) -> Option<u32> {
    if text.is_empty() || text.len() > 5 || !text.iter().all(u8::is_ascii_digit) || (text[0] == b'0' && text.len() > 1) {
        return None;
    }
    let value = text.iter().fold(0u32, |n, b| n * 10 + u32::from(b - b'0'));
    (value <= 65535).then_some(value)
}

/// The kind as one letter (`M` for the version) and the field, where the line is of the form.
fn of_the_form(line: &[u8]) -> Option<(u8, &[u8])> {
    let (kind, field) = match line.strip_prefix(b"MXP ") {
        Some(field) => (b'M', field),
        None if line.len() >= 2 && line[1] == b' ' => (line[0], &line[2..]),
        None => return None,
    };
    let good = match kind {
        b'M' if line.starts_with(b"MXP ") => number(field).is_some(),
        b'l' => number(field).is_some(),
        b'f' | b't' | b's' => is_name(field),
        b'w' | b'n' | b'm' => is_name(field.strip_prefix(b"-").unwrap_or(field)),
        _ => false,
    };
    good.then_some((kind, field))
}

fn may_follow(before: u8, kind: u8) -> bool {
    let allowed: &[u8] = match before {
        0 => b"M",
        b'M' => b"l",
        b'l' => b"f",
        b'f' => b"ftws",
        b't' => b"tws",
        b'w' => b"ws",
        b's' | b'n' => b"nms",
        _ => b"ms",
    };
    allowed.contains(&kind)
}

fn named(names: &[Vec<u8>], name: &[u8]) -> Option<usize> {
    names.iter().position(|n| n == name)
}

/// Puts a literal into a list in which each fact stands at most once; the number of the fault otherwise.
fn put(names: &[Vec<u8>], list: &mut Literals, field: &[u8]) -> Result<(), u32> {
    let negative = field[0] == b'-';
    let fact = named(names, &field[usize::from(negative)..]).ok_or(7u32)?;
    let bit = 1u64 << fact;
    if (list.truths | list.falsities) & bit != 0 {
        return Err(8);
    }
    if negative {
        list.falsities |= bit;
    } else {
        list.truths |= bit;
    }
    Ok(())
}

impl Job {
    /// The checks of the field's value, in their order, and what the line adds.
    fn add(&mut self, kind: u8, field: &[u8]) -> Result<(), u32> {
        match kind {
            b'M' => {
                if number(field) != Some(1) {
                    return Err(5);
                }
            }
            b'l' => {
                let length = number(field).unwrap() as usize;
                if length > 32 {
                    return Err(11);
                }
                self.length = length;
            }
            b'f' => {
                if named(&self.fact_names, field).is_some() {
                    return Err(8);
                }
                if self.fact_names.len() == 64 {
                    return Err(9);
                }
                self.fact_names.push(field.to_vec());
                self.problem.facts = self.fact_names.len();
            }
            b't' => {
                let fact = named(&self.fact_names, field).ok_or(7u32)?;
                if self.started >> fact & 1 == 1 {
                    return Err(8);
                }
                self.started |= 1 << fact;
                self.problem.start = self.started;
            }
            b'w' => put(&self.fact_names, &mut self.problem.goal, field)?,
            b's' => {
                if named(&self.step_names, field).is_some() {
                    return Err(8);
                }
                if self.step_names.len() == 256 {
                    return Err(9);
                }
                self.step_names.push(field.to_vec());
                self.problem.steps.push(Step { open: true, needs: Literals::NONE, makes: Literals::NONE });
            }
            b'n' => put(&self.fact_names, &mut self.problem.steps.last_mut().unwrap().needs, field)?,
            _ => put(&self.fact_names, &mut self.problem.steps.last_mut().unwrap().makes, field)?,
        }
        Ok(())
    }
}

pub fn read(sheet: &[u8]) -> Result<(Problem, usize), Fault> {
    if sheet.len() > 65535 {
        return Err(Fault { number: 1, line: 0, byte: 0 });
    }
    let mut job = Job { length: 0, problem: Problem::empty(), fact_names: Vec::new(), step_names: Vec::new(), started: 0 };
    let mut rest = sheet;
    let mut before = 0u8;
    let mut line = 1;
    while line == 1 || !rest.is_empty() {
        let end = rest.iter().position(|b| *b == b'\n');
        let text = &rest[..end.unwrap_or(rest.len())];
        let fault = |number, byte| Err(Fault { number, line, byte });
        if let Some(other) = text.iter().position(|b| !belongs_in_a_sheet(*b)) {
            return fault(2, other as u32 + 1);
        }
        if end.is_none() {
            return fault(3, text.len() as u32 + 1);
        }
        let Some((kind, field)) = of_the_form(text) else { return fault(4, 1) };
        if !may_follow(before, kind) {
            return fault(6, 1);
        }
        if let Err(number) = job.add(kind, field) {
            return fault(number, if kind == b'M' { 5 } else { 3 });
        }
        before = kind;
        rest = &rest[text.len() + 1..];
        line += 1;
    }
    if job.fact_names.is_empty() {
        return Err(Fault { number: 10, line, byte: 1 });
    }
    Ok((job.problem, job.length))
}
