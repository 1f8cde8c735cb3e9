//! The least vector of a pool. It is computed backwards through each body, for the classes from the lowest level up.
//! Workers lend weight if that reduces the total.

use crate::certificate::{Vector, MOST_WEIGHT};
use crate::plan::{Action, Body, Class, Client, Plan};
use indexmap::IndexMap;

const MOST_LOANS: usize = 256;
const TOO_HEAVY: u64 = u64::MAX;

/// The classes of a plan in the order of their levels, and for each class whether clients submit it, directly or through
/// other jobs. A class that is never submitted never has a job.
pub struct Classes {
    pub order: Vec<usize>,
    pub submitted: Vec<bool>,
}

/// The points at which the jobs of the pool must weigh at least 1.
#[derive(Clone, Copy)]
pub enum Need<'a> {
    /// While the jobs are queued, as in a standing vector.
    WhileQueued,
    /// At each get of a job of a class whose reach is at least this rank, as in a blocked vector.
    AtGets { reach: &'a [u64], rank: u64 },
    /// At every point, as in a lifetime vector, in which a get returns no weight and all workers weigh 0.
    Everywhere,
}

/// The vector of a pool that is searched for.
#[derive(Clone, Copy)]
pub struct Target<'a> {
    pub pool: usize,
    pub need: Need<'a>,
    /// The limit of its total. Without a limit, the vector with the least total that is found is wanted.
    pub limit: Option<u64>,
}

impl Target<'_> {
    fn one_of(&self, class: &Class) -> u64 {
        u64::from(class.pool == self.pool)
    }

    fn need_queued(&self, class: &Class) -> u64 {
        match self.need {
            Need::WhileQueued | Need::Everywhere => self.one_of(class),
            Need::AtGets { .. } => 0,
        }
    }

    fn need_at(&self, class: &Class, action: Action) -> u64 {
        match (self.need, action) {
            (Need::Everywhere, _) => self.one_of(class),
            (Need::AtGets { reach, rank }, Action::Get { class: got, .. }) if reach[got] >= rank => self.one_of(class),
            _ => 0,
        }
    }

    fn need_at_end(&self, class: &Class) -> u64 {
        match self.need {
            Need::Everywhere => self.one_of(class),
            Need::WhileQueued | Need::AtGets { .. } => 0,
        }
    }

    fn gives_back(&self) -> bool {
        !matches!(self.need, Need::Everywhere)
    }

    /// Returns whether workers may have weight. With a limit of 0 they may not, since their weight alone would exceed
    /// it.
    fn may_lend(&self) -> bool {
        self.gives_back() && self.limit != Some(0)
    }

    /// Returns whether a vector with this total is as wanted, so that no loan is needed.
    fn is_met(&self, total: u64) -> bool {
        total <= self.limit.unwrap_or(0)
    }

    /// Returns whether the target has no vector if this is the least total.
    fn is_missed(&self, total: u64) -> bool {
        total == TOO_HEAVY || self.limit.map_or(false, |limit| total > limit)
    }
}

/// The least weight of an actor at a point of its body, and the amount by which the weight at the end may grow without
/// increasing it.
#[derive(Clone, Copy)]
struct Weight {
    number: u64,
    slack: u64,
}

impl Weight {
    fn at_end(number: u64) -> Weight {
        Weight { number, slack: 0 }
    }

    fn at_least(self, need: u64) -> Weight {
        let missing = need.saturating_sub(self.number);
        Weight { number: self.number.max(need), slack: self.slack.saturating_add(missing) }
    }

    fn plus(self, job: u64) -> Weight {
        Weight { number: self.number.saturating_add(job), slack: self.slack }
    }

    fn less(self, back: u64) -> Weight {
        let missing = back.saturating_sub(self.number);
        Weight { number: self.number.saturating_sub(back), slack: self.slack.saturating_add(missing) }
    }
}

/// The weights of a vector for some weights of the workers, without the weights inside bodies.
struct Sketch {
    queued: Vec<u64>,
    done: Vec<u64>,
    starts: Vec<u64>,
    /// The greatest weight of a job of each pool, without the classes that are never submitted.
    peaks: Vec<u64>,
    total: u64,
}

impl Sketch {
    fn new(plan: &Plan, classes: &Classes, target: &Target, workers: &[u64]) -> Sketch {
        let mut sketch = Sketch {
            queued: vec![0; plan.classes.len()],
            done: vec![0; plan.classes.len()],
            starts: Vec::with_capacity(plan.clients.len()),
            peaks: vec![0; plan.pools.len()],
            total: workers_weigh(plan, workers),
        };
        for &number in &classes.order {
            let peak = sketch.add_class(target, workers, number, &plan.classes[number]);
            if classes.submitted[number] {
                let highest = &mut sketch.peaks[plan.classes[number].pool];
                *highest = peak.max(*highest);
            }
        }
        for client in &plan.clients {
            sketch.add_client(target, client);
        }
        sketch
    }

    /// Adds the weights of a class, and returns the greatest weight of its jobs.
    fn add_class(&mut self, target: &Target, workers: &[u64], number: usize, class: &Class) -> u64 {
        let worker = workers[class.pool];
        let mut weight = Weight::at_end(worker).at_least(target.need_at_end(class));
        let mut peak = weight.number;
        for action in class.body.actions.iter().rev() {
            weight = self.before(target, *action, weight).at_least(target.need_at(class, *action));
            peak = peak.max(weight.number);
        }
        let queued = weight.less(worker).at_least(target.need_queued(class));
        self.queued[number] = queued.number;
        self.done[number] = queued.number.min(queued.slack);
        if peak > MOST_WEIGHT || queued.number > MOST_WEIGHT {
            self.total = TOO_HEAVY;
        }
        peak
    }

    fn add_client(&mut self, target: &Target, client: &Client) {
        let mut weight = Weight::at_end(0);
        let mut peak = 0;
        for action in client.body.actions.iter().rev() {
            weight = self.before(target, *action, weight);
            peak = peak.max(weight.number);
        }
        self.total = self.total.saturating_add(weight.number.saturating_mul(client.count));
        if peak > MOST_WEIGHT || (client.repeat && weight.slack < weight.number) {
            self.total = TOO_HEAVY;
        }
        self.starts.push(weight.number);
    }

    /// Returns the weight of an actor before an action, from its weight after the action.
    fn before(&self, target: &Target, action: Action, behind: Weight) -> Weight {
        match action {
            Action::Submit { class, .. } => behind.plus(self.queued[class]),
            Action::Get { class, .. } if target.gives_back() => behind.less(self.done[class]),
            Action::Work(_) | Action::Get { .. } => behind,
        }
    }

    /// Returns the vector with these weights of the workers, or `None` if a number is too large.
    fn vector(&self, plan: &Plan, target: &Target, workers: Vec<u64>) -> Option<Vector> {
        let classes = plan
            .classes
            .iter()
            .enumerate()
            .map(|(number, class)| self.class_row(target, class, self.done[number], workers[class.pool]));
        let clients = plan.clients.iter().zip(&self.starts).map(|(client, start)| {
            let end = Weight::at_end(if client.repeat { *start } else { 0 });
            let mut row = Vec::with_capacity(client.body.actions.len() + 1);
            self.push_body(target, &client.body, end, &mut row, |_| 0);
            row.reverse();
            row
        });
        let vector = Vector { classes: classes.collect(), clients: clients.collect(), workers };
        Some(vector).filter(Vector::is_light)
    }

    fn class_row(&self, target: &Target, class: &Class, done: u64, worker: u64) -> Vec<u64> {
        let mut row = Vec::with_capacity(class.body.actions.len() + 3);
        row.push(done);
        let end = Weight::at_end(done.saturating_add(worker)).at_least(target.need_at_end(class));
        let first = self.push_body(target, &class.body, end, &mut row, |action| target.need_at(class, action));
        row.push(first.less(worker).at_least(target.need_queued(class)).number);
        row.reverse();
        row
    }

    /// Appends the weight of an actor at each position of its body, from the end to the start, and returns the weight
    /// at the start.
    fn push_body(
        &self,
        target: &Target,
        body: &Body,
        end: Weight,
        row: &mut Vec<u64>,
        need: impl Fn(Action) -> u64,
    ) -> Weight {
        row.push(end.number);
        body.actions.iter().rev().fold(end, |behind, action| {
            let weight = self.before(target, *action, behind).at_least(need(*action));
            row.push(weight.number);
            weight
        })
    }
}

fn workers_weigh(plan: &Plan, workers: &[u64]) -> u64 {
    let weights = plan.pools.iter().zip(workers).map(|(pool, weight)| weight.saturating_mul(pool.max));
    weights.fold(0, u64::saturating_add)
}

/// A cache of the sketches for the weights of workers that were tried.
struct Tried<'a> {
    plan: &'a Plan,
    classes: &'a Classes,
    target: &'a Target<'a>,
    sketches: IndexMap<Vec<u64>, Sketch>,
}

impl Tried<'_> {
    /// Returns the index of the sketch for these weights of the workers.
    fn place(&mut self, workers: &[u64]) -> usize {
        if let Some(place) = self.sketches.get_index_of(workers) {
            return place;
        }
        let sketch = Sketch::new(self.plan, self.classes, self.target, workers);
        self.sketches.insert_full(workers.to_vec(), sketch).0
    }

    /// Returns the pool whose loan gives the least total, with the weight of its workers and the index of the sketch.
    /// Returns `None` if no loan lowers the total.
    fn best_loan(&mut self, workers: &mut [u64], place: usize) -> Option<(usize, u64, usize)> {
        let mut best = None;
        let mut least = self.sketches[place].total;
        for pool in 0..workers.len() {
            let before = workers[pool];
            let weight = self.peak(workers, pool, place);
            workers[pool] = weight;
            if weight != before && workers_weigh(self.plan, workers) < least {
                let place = self.place(workers);
                let total = self.sketches[place].total;
                if total < least {
                    least = total;
                    best = Some((pool, weight, place));
                }
            }
            workers[pool] = before;
        }
        best
    }

    /// Returns the greatest weight of a job of the pool if the pool's own workers weigh 0.
    fn peak(&mut self, workers: &mut [u64], pool: usize, place: usize) -> u64 {
        let before = workers[pool];
        if before == 0 {
            return self.sketches[place].peaks[pool];
        }
        workers[pool] = 0;
        let without = self.place(workers);
        workers[pool] = before;
        self.sketches[without].peaks[pool]
    }
}

/// Returns the least vector whose total is at most the target's limit, if one is found. While the total exceeds the
/// limit, the pool whose loan lowers the total most lends: its workers get the greatest weight of its jobs. Without a
/// limit, pools lend as long as that lowers the total.
pub fn least_vector(plan: &Plan, classes: &Classes, target: &Target) -> Option<Vector> {
    let mut workers = vec![0; plan.pools.len()];
    let mut tried = Tried { plan, classes, target, sketches: IndexMap::new() };
    let mut place = tried.place(&workers);
    let loans = if target.may_lend() { MOST_LOANS } else { 0 };
    for _ in 0..loans {
        if target.is_met(tried.sketches[place].total) {
            break;
        }
        let (pool, weight, next) = match tried.best_loan(&mut workers, place) {
            Some(loan) => loan,
            None => break,
        };
        workers[pool] = weight;
        place = next;
    }
    let sketch = &tried.sketches[place];
    if target.is_missed(sketch.total) {
        return None;
    }
    sketch.vector(plan, target, workers)
}
