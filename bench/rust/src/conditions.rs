//! The conditions of a certificate, and the answers of `check` and `explain`.

use crate::answer::Answer;
use crate::certificate::{Bound, Certificate, Ranks, Vector};
use crate::plan::{Action, Body, Plan, Pool};
use std::fmt::{self, Write};
use std::ops::ControlFlow;

/// The word for a queue without a bound.
const UNBOUNDED: &str = "unbounded";

#[derive(Clone, Copy, Debug)]
enum Rule {
    K1,
    K2,
    K3,
    V2,
    V3,
    V4,
    V5,
    V6,
    V7,
    S1,
    S2,
    L1,
    L2,
    L3,
    L5,
    B1,
    B2,
}

/// The place of a condition in a plan, with the names of its pool, class or client kind.
#[derive(Clone, Copy)]
enum Place<'a> {
    Workers(&'a str),
    Class(&'a str),
    ClassAction(&'a str, usize),
    Client(&'a str),
    ClientAction(&'a str, usize),
    Total,
}

/// A condition: a rule at its place in a section of the certificate. It holds if the left number is at most the right
/// number.
#[derive(Clone, Copy)]
struct Condition<'a> {
    section: &'a str,
    place: Place<'a>,
    rule: Rule,
    left: u64,
    right: u64,
}

impl Condition<'_> {
    fn fails(&self) -> bool {
        self.left > self.right
    }

    fn write_line(&self, text: &mut String) -> fmt::Result {
        let Condition { section, place, rule, left, right } = self;
        match place {
            Place::Workers(pool) => writeln!(text, "{section}, workers {pool}: {rule:?} {left} above {right}"),
            Place::Class(name) => writeln!(text, "{section}, class {name}: {rule:?} {left} above {right}"),
            Place::ClassAction(name, position) => {
                writeln!(text, "{section}, class {name} action {position}: {rule:?} {left} above {right}")
            }
            Place::Client(name) => writeln!(text, "{section}, client {name}: {rule:?} {left} above {right}"),
            Place::ClientAction(name, position) => {
                writeln!(text, "{section}, client {name} action {position}: {rule:?} {left} above {right}")
            }
            Place::Total => writeln!(text, "{section}, total: {rule:?} {left} above {right}"),
        }
    }
}

pub fn check(plan: &Plan, certificate: &Certificate) -> Answer {
    let is_accepted = accepts(plan, certificate);
    let mut text = String::from(if is_accepted { "yes\n" } else { "no\n" });
    for (pool, of_pool) in plan.pools.iter().zip(&certificate.pools) {
        let blocked = total(plan, &of_pool.blocked);
        let bound = match &of_pool.bound {
            Some(Bound::Standing(vector)) => format!("standing {} of {}", total(plan, vector), limit(pool, pool.queue)),
            Some(Bound::Lifetime(vector)) => {
                format!("lifetime {} of {}", total(plan, vector), limit(pool, pool.most_jobs()))
            }
            None if pool.unbounded => UNBOUNDED.into(),
            None => "may reject".into(),
        };
        let (name, limit) = (&pool.name, pool.least_threads() - 1);
        writeln!(text, "pool {name}: {bound}, blocked {blocked} of {limit}").unwrap();
    }
    Answer { text: text.into_bytes(), is_no: !is_accepted }
}

/// Returns the limit of the total of a bound.
fn limit(pool: &Pool, number: u64) -> String {
    match pool.unbounded {
        true => UNBOUNDED.into(),
        false => number.to_string(),
    }
}

pub fn explain(plan: &Plan, certificate: &Certificate) -> Answer {
    let mut text = String::new();
    let mut failing = 0;
    let _ = each_condition(plan, certificate, &mut |condition| {
        if condition.fails() {
            condition.write_line(&mut text).unwrap();
            failing += 1;
        }
        ControlFlow::Continue(())
    });
    writeln!(text, "failing {failing}").unwrap();
    Answer { text: text.into_bytes(), is_no: failing > 0 }
}

/// Returns whether each condition of the certificate holds.
pub fn accepts(plan: &Plan, certificate: &Certificate) -> bool {
    let looked = each_condition(plan, certificate, &mut |condition| match condition.fails() {
        true => ControlFlow::Break(()),
        false => ControlFlow::Continue(()),
    });
    looked.is_continue()
}

/// Returns the weight of the start: that of each client at its first position, and of the maximum number of workers of
/// each pool.
fn total(plan: &Plan, vector: &Vector) -> u64 {
    let clients: u64 = plan.clients.iter().zip(&vector.clients).map(|(client, row)| client.count * row[0]).sum();
    let workers: u64 = plan.pools.iter().zip(&vector.workers).map(|(pool, weight)| pool.max * weight).sum();
    clients + workers
}

/// Visits each condition in order, until the visitor returns `Break`.
fn each_condition(
    plan: &Plan,
    certificate: &Certificate,
    visit: &mut impl FnMut(Condition) -> ControlFlow<()>,
) -> ControlFlow<()> {
    each_of_ranks(plan, &certificate.ranks, visit)?;
    for (number, of_pool) in certificate.pools.iter().enumerate() {
        match &of_pool.bound {
            Some(Bound::Standing(vector)) => each_of_standing(plan, number, vector, visit)?,
            Some(Bound::Lifetime(vector)) => each_of_lifetime(plan, number, vector, visit)?,
            None => {}
        }
        each_of_blocked(plan, number, &of_pool.blocked, &certificate.ranks, visit)?;
    }
    ControlFlow::Continue(())
}

fn each_of_ranks(plan: &Plan, ranks: &Ranks, visit: &mut impl FnMut(Condition) -> ControlFlow<()>) -> ControlFlow<()> {
    let mut rule = |place, rule, left, right| visit(Condition { section: "ranks", place, rule, left, right });
    for (number, class) in plan.classes.iter().enumerate() {
        rule(Place::Class(&class.name), Rule::K1, ranks.pools[class.pool], ranks.reach[number])?;
        for (position, action) in class.body.actions.iter().enumerate() {
            let place = Place::ClassAction(&class.name, position);
            match *action {
                Action::Work(_) => {}
                Action::Submit { class, .. } => {
                    rule(place, Rule::K3, ranks.levels[class] + 1, ranks.levels[number])?;
                }
                Action::Get { class, .. } => rule(place, Rule::K2, ranks.reach[class], ranks.reach[number])?,
            }
        }
    }
    ControlFlow::Continue(())
}

fn each_of_standing(
    plan: &Plan,
    number: usize,
    vector: &Vector,
    visit: &mut impl FnMut(Condition) -> ControlFlow<()>,
) -> ControlFlow<()> {
    let pool = &plan.pools[number];
    let section = &format!("pool {} standing", pool.name);
    each_of_vector(plan, section, vector, true, visit)?;
    if pool.unbounded {
        return ControlFlow::Continue(());
    }
    for (class, row) in plan.classes.iter().zip(&vector.classes).filter(|(class, _)| class.pool == number) {
        let place = Place::Class(&class.name);
        visit(Condition { section, place, rule: Rule::S1, left: 1, right: row[0] })?;
    }
    visit(Condition { section, place: Place::Total, rule: Rule::S2, left: total(plan, vector), right: pool.queue })
}

fn each_of_lifetime(
    plan: &Plan,
    number: usize,
    vector: &Vector,
    visit: &mut impl FnMut(Condition) -> ControlFlow<()>,
) -> ControlFlow<()> {
    let pool = &plan.pools[number];
    let section = &format!("pool {} lifetime", pool.name);
    for (pool, weight) in plan.pools.iter().zip(&vector.workers) {
        let place = Place::Workers(&pool.name);
        visit(Condition { section, place, rule: Rule::L1, left: *weight, right: 0 })?;
    }
    each_of_vector(plan, section, vector, false, visit)?;
    if pool.unbounded {
        return ControlFlow::Continue(());
    }
    for (class, row) in plan.classes.iter().zip(&vector.classes).filter(|(class, _)| class.pool == number) {
        let place = Place::Class(&class.name);
        for weight in row {
            visit(Condition { section, place, rule: Rule::L2, left: 1, right: *weight })?;
        }
    }
    let right = pool.most_jobs();
    visit(Condition { section, place: Place::Total, rule: Rule::L3, left: total(plan, vector), right })
}

fn each_of_blocked(
    plan: &Plan,
    number: usize,
    vector: &Vector,
    ranks: &Ranks,
    visit: &mut impl FnMut(Condition) -> ControlFlow<()>,
) -> ControlFlow<()> {
    let pool = &plan.pools[number];
    let section = &format!("pool {} blocked", pool.name);
    each_of_vector(plan, section, vector, true, visit)?;
    for (class, row) in plan.classes.iter().zip(&vector.classes).filter(|(class, _)| class.pool == number) {
        for (position, action) in class.body.actions.iter().enumerate() {
            if matches!(*action, Action::Get { class, .. } if ranks.reach[class] >= ranks.pools[number]) {
                let place = Place::ClassAction(&class.name, position);
                visit(Condition { section, place, rule: Rule::B1, left: 1, right: row[position + 1] })?;
            }
        }
    }
    let (left, right) = (total(plan, vector), pool.least_threads() - 1);
    visit(Condition { section, place: Place::Total, rule: Rule::B2, left, right })
}

/// Visits the rows of a vector: V2 to V7, with L5 in place of V5 if a get returns no weight.
fn each_of_vector(
    plan: &Plan,
    section: &str,
    vector: &Vector,
    gives_back: bool,
    visit: &mut impl FnMut(Condition) -> ControlFlow<()>,
) -> ControlFlow<()> {
    for (class, row) in plan.classes.iter().zip(&vector.classes) {
        let name = class.name.as_str();
        let place = Place::Class(name);
        let worker = vector.workers[class.pool];
        let (queued, done, weights) = (row[0], row[row.len() - 1], &row[1..row.len() - 1]);
        visit(Condition { section, place, rule: Rule::V4, left: weights[0], right: queued + worker })?;
        for (position, (rule, left, right)) in body_rows(&class.body, vector, weights, gives_back) {
            visit(Condition { section, place: Place::ClassAction(name, position), rule, left, right })?;
        }
        visit(Condition { section, place, rule: Rule::V6, left: done + worker, right: weights[weights.len() - 1] })?;
    }
    for (client, row) in plan.clients.iter().zip(&vector.clients) {
        let name = client.name.as_str();
        for (position, (rule, left, right)) in body_rows(&client.body, vector, row, gives_back) {
            visit(Condition { section, place: Place::ClientAction(name, position), rule, left, right })?;
        }
        if client.repeat {
            let place = Place::Client(name);
            visit(Condition { section, place, rule: Rule::V7, left: row[0], right: row[row.len() - 1] })?;
        }
    }
    ControlFlow::Continue(())
}

/// Returns the rule and the two numbers of the condition for each action of a body, from the actor's weight at each
/// position.
fn body_rows<'a>(
    body: &'a Body,
    vector: &'a Vector,
    weights: &'a [u64],
    gives_back: bool,
) -> impl Iterator<Item = (usize, (Rule, u64, u64))> + 'a {
    let done = |class: usize| vector.classes[class][vector.classes[class].len() - 1];
    let rows = body.actions.iter().zip(weights.windows(2)).map(move |(action, pair)| {
        let (now, next) = (pair[0], pair[1]);
        match *action {
            Action::Work(_) => (Rule::V2, next, now),
            Action::Submit { class, .. } => (Rule::V3, next + vector.classes[class][0], now),
            Action::Get { class, .. } if gives_back => (Rule::V5, next, now + done(class)),
            Action::Get { .. } => (Rule::L5, next, now),
        }
    });
    rows.enumerate()
}
