//! The replay of the lines of an event file.

use crate::answer::Answer;
use crate::faults::{Fault, Kind};
use crate::machine::{Event, Machine, Outcome};
use crate::plan::Plan;
use std::io::Write;

const MOST_BYTES: usize = 1_048_576;
const MOST_NUMBER: usize = 1_000_000_000;

enum Line {
    Happens(Event),
    Stuck(Vec<usize>),
}

/// Parses all lines, and then replays their events up to the first event that is not possible.
pub fn replay(plan: &Plan, text: &[u8]) -> Result<Answer, Fault> {
    if text.len() > MOST_BYTES {
        return Err(Kind::InputTooLong.into());
    }
    let lines = read_lines(plan, text)?;
    let mut machine = Machine::new(plan);
    let mut answer = Answer::default();
    for (number, line) in (1..).zip(lines) {
        answer.push_number(number);
        match line {
            Line::Stuck(members) if machine.is_stuck(&members) => answer.push_no(": stuck yes\n"),
            Line::Stuck(_) => answer.push(": stuck no\n"),
            Line::Happens(event) => match machine.step(event) {
                Some(outcome) => tell(&mut answer, plan, outcome),
                None => {
                    answer.push_no(": not possible\n");
                    break;
                }
            },
        }
    }
    write!(answer.text, "refusals {}", machine.refusals()).unwrap();
    if plan.pools.iter().any(|pool| pool.may_reject) {
        write!(answer.text, ", rejected {}", machine.rejected()).unwrap();
    }
    writeln!(answer.text, ", unfinished {}", machine.unfinished()).unwrap();
    Ok(answer)
}

/// Appends the outcome of the event of a line.
fn tell(answer: &mut Answer, plan: &Plan, outcome: Outcome) {
    match outcome {
        Outcome::Started(job) => push_numbered(answer, ": started job ", job as u64),
        Outcome::Queued(job) => push_numbered(answer, ": queued job ", job as u64),
        Outcome::Refused(pool) => {
            answer.push_no(": refused by ");
            answer.push(&plan.pools[pool].name);
            answer.push("\n");
        }
        Outcome::Rejected(pool, job) => {
            answer.push(": rejected by ");
            answer.push(&plan.pools[pool].name);
            push_numbered(answer, " as job ", job as u64);
        }
        Outcome::Worked(units) => push_numbered(answer, ": worked ", u64::from(units)),
        Outcome::Got(job) => push_numbered(answer, ": got job ", job as u64),
        Outcome::Looped => answer.push(": looped\n"),
        Outcome::Finished(job) => push_numbered(answer, ": finished job ", job as u64),
        Outcome::Took(job) => push_numbered(answer, ": took job ", job as u64),
        Outcome::Retired => answer.push(": retired\n"),
    }
}

fn push_numbered(answer: &mut Answer, words: &str, number: u64) {
    answer.push(words);
    answer.push_number(number);
    answer.push("\n");
}

fn read_lines(plan: &Plan, text: &[u8]) -> Result<Vec<Line>, Fault> {
    if text.is_empty() {
        return Ok(Vec::new());
    }
    let text = text.strip_suffix(b"\n").unwrap_or(text);
    let lines = (1..).zip(text.split(|byte| *byte == b'\n'));
    lines.map(|(number, line)| read_line(plan, line).ok_or_else(|| Kind::BadEvent.at_line(number))).collect()
}

fn read_line(plan: &Plan, line: &[u8]) -> Option<Line> {
    if let Some(job) = line.strip_prefix(b"job ") {
        Some(Line::Happens(Event::Job(number(job)?)))
    } else if let Some(client) = line.strip_prefix(b"client ") {
        Some(Line::Happens(Event::Client(number(client)?)))
    } else if let Some(pool) = line.strip_prefix(b"take ") {
        Some(Line::Happens(Event::Take(pool_named(plan, pool)?)))
    } else if let Some(pool) = line.strip_prefix(b"retire ") {
        Some(Line::Happens(Event::Retire(pool_named(plan, pool)?)))
    } else {
        let members = line.strip_prefix(b"stuck ")?;
        members.split(|byte| *byte == b' ').map(number).collect::<Option<_>>().map(Line::Stuck)
    }
}

fn number(text: &[u8]) -> Option<usize> {
    if text.is_empty() || (text.len() > 1 && text[0] == b'0') {
        return None;
    }
    let mut number = 0;
    for byte in text {
        if !byte.is_ascii_digit() {
            return None;
        }
        number = number * 10 + usize::from(byte - b'0');
        if number > MOST_NUMBER {
            return None;
        }
    }
    Some(number)
}

fn pool_named(plan: &Plan, name: &[u8]) -> Option<usize> {
    plan.pools.iter().position(|pool| pool.name.as_bytes() == name)
}
