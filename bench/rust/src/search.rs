//! The search for a certificate of a plan, and the answer of `certify`.

use crate::answer::Answer;
use crate::certificate::{Bound, Certificate, PoolCertificate, Ranks, Vector, MOST_BYTES};
use crate::conditions::accepts;
use crate::faults::Fault;
use crate::least_vector::{least_vector, Classes, Need, Target};
use crate::plan::{Action, Body, Plan};

pub fn certify(mut input: Vec<u8>) -> Result<Answer, Fault> {
    if input.last().map_or(false, |last| *last != b'\n') {
        input.push(b'\n');
    }
    let plan = Plan::read(&input)?;
    let certificate = match search(&plan) {
        Some(certificate) => certificate,
        None => return Ok(Answer::no("no certificate found\n")),
    };
    let certificate = serde_json::to_string(&certificate).expect("its keys are texts");
    if certificate.len() >= MOST_BYTES {
        return Ok(Answer::no("no certificate: text too long\n"));
    }
    let mut answer = Answer { text: input, is_no: false };
    answer.text.reserve_exact(certificate.len() + 4);
    answer.push("%%\n");
    answer.push(&certificate);
    answer.push("\n");
    Ok(answer)
}

/// Searches for a certificate that accepts the plan. If none is found, the plan may be safe or not.
fn search(plan: &Plan) -> Option<Certificate> {
    let levels = levels(plan)?;
    let mut order: Vec<usize> = (0..plan.classes.len()).collect();
    order.sort_by_key(|class| levels[*class]);
    let submitted = submitted(plan, &order);
    let classes = Classes { order, submitted };
    let bounds: Vec<_> = (0..plan.pools.len()).map(|pool| bound(plan, &classes, pool)).collect::<Option<_>>()?;
    let blocked = ranked(plan, &classes)?;
    let ranks: Vec<u64> = blocked.iter().map(|(rank, _)| *rank).collect();
    let reach = reach(plan, &classes.order, &ranks);
    let pools = bounds.into_iter().zip(blocked).map(|(bound, (_, blocked))| PoolCertificate { blocked, bound });
    let certificate = Certificate::new(pools.collect(), Ranks { levels, pools: ranks, reach });
    Some(certificate).filter(|certificate| accepts(plan, certificate))
}

/// Returns a standing vector of the pool or, if none is found, a lifetime vector. If that is not found either, a pool that
/// may reject jobs has no bound, and `None` is returned for any other pool. For an unbounded queue only a standing vector
/// is searched for, that with the least total. The pool has no bound if none is found.
fn bound(plan: &Plan, classes: &Classes, number: usize) -> Option<Option<Bound>> {
    let pool = &plan.pools[number];
    let limit = if pool.unbounded { None } else { Some(pool.queue) };
    let standing = Target { pool: number, need: Need::WhileQueued, limit };
    if let Some(vector) = least_vector(plan, classes, &standing) {
        return Some(Some(Bound::Standing(vector)));
    }
    if pool.unbounded {
        return Some(None);
    }
    let lifetime = Target { pool: number, need: Need::Everywhere, limit: Some(pool.most_jobs()) };
    match least_vector(plan, classes, &lifetime) {
        Some(vector) => Some(Some(Bound::Lifetime(vector))),
        None if pool.may_reject => Some(None),
        None => None,
    }
}

/// Returns the rank and the blocked vector of each pool. They are found in rounds. A pool whose vector is found in a
/// round gets the number of the round as its rank. In later rounds a get is not counted if it depends only on pools
/// with a rank.
fn ranked(plan: &Plan, classes: &Classes) -> Option<Vec<(u64, Vector)>> {
    let mut found: Vec<Option<(u64, Vector)>> = plan.pools.iter().map(|_| None).collect();
    for rank in 0..plan.pools.len() as u64 {
        let ranks: Vec<u64> = found.iter().map(|pool| pool.as_ref().map_or(rank, |(rank, _)| *rank)).collect();
        let reach = reach(plan, &classes.order, &ranks);
        let mut has_moved = false;
        for (number, pool) in found.iter_mut().enumerate().filter(|(_, pool)| pool.is_none()) {
            let need = Need::AtGets { reach: &reach, rank };
            let blocked = Target { pool: number, need, limit: Some(plan.pools[number].least_threads() - 1) };
            *pool = least_vector(plan, classes, &blocked).map(|vector| (rank, vector));
            has_moved |= pool.is_some();
        }
        if found.iter().all(Option::is_some) {
            break;
        }
        if !has_moved {
            return None;
        }
    }
    found.into_iter().collect()
}

/// Returns, for each class, whether clients submit it, directly or through the jobs of other classes.
fn submitted(plan: &Plan, order: &[usize]) -> Vec<bool> {
    let mut submitted = vec![false; plan.classes.len()];
    for client in &plan.clients {
        mark_submits(&client.body, &mut submitted);
    }
    // a class is submitted only by classes of higher levels
    for number in order.iter().rev() {
        if submitted[*number] {
            mark_submits(&plan.classes[*number].body, &mut submitted);
        }
    }
    submitted
}

/// Marks the classes that a body submits.
fn mark_submits(body: &Body, submitted: &mut [bool]) {
    for action in &body.actions {
        if let Action::Submit { class, .. } = *action {
            submitted[class] = true;
        }
    }
}

/// Returns the reach of each class: the highest rank among its own pool and the pools of the jobs for which its jobs
/// wait, directly or through other jobs.
fn reach(plan: &Plan, order: &[usize], ranks: &[u64]) -> Vec<u64> {
    let mut reach = vec![0; plan.classes.len()];
    for number in order {
        let class = &plan.classes[*number];
        reach[*number] = class.body.actions.iter().fold(ranks[class.pool], |highest, action| match *action {
            Action::Get { class, .. } => highest.max(reach[class]),
            _ => highest,
        });
    }
    reach
}

#[derive(Clone, Copy)]
enum Level {
    Unknown,
    /// The level is being computed. A class that submits this class now closes a cycle of submits.
    Open,
    Known(u64),
}

/// Returns the level of each class, which is above the levels of all classes that it submits. Returns `None` if there
/// is a cycle of submits.
fn levels(plan: &Plan) -> Option<Vec<u64>> {
    let mut levels = vec![Level::Unknown; plan.classes.len()];
    (0..plan.classes.len()).map(|class| level(plan, class, &mut levels)).collect()
}

fn level(plan: &Plan, class: usize, levels: &mut [Level]) -> Option<u64> {
    match levels[class] {
        Level::Known(level) => return Some(level),
        Level::Open => return None,
        Level::Unknown => levels[class] = Level::Open,
    }
    let mut highest = 0;
    for action in &plan.classes[class].body.actions {
        if let Action::Submit { class, .. } = *action {
            highest = highest.max(level(plan, class, levels)? + 1);
        }
    }
    levels[class] = Level::Known(highest);
    Some(highest)
}
