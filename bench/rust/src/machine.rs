//! The machine of a plan: its pools, clients and jobs, and the effect of each event on them.

use crate::plan::{Action, Body, Plan};
use std::collections::{HashMap, VecDeque};
use std::mem;

pub enum Event {
    Client(usize),
    Job(usize),
    Take(usize),
    Retire(usize),
}

/// The outcome of an event. Jobs and pools are identified by their numbers.
pub enum Outcome {
    Started(usize),
    Queued(usize),
    Refused(usize),
    /// This pool rejected this job, as the plan allows. The job counts as done at once.
    Rejected(usize, usize),
    Worked(u32),
    Got(usize),
    Looped,
    Finished(usize),
    Took(usize),
    Retired,
}

pub struct Machine<'a> {
    plan: &'a Plan,
    /// The number of the first client of each client kind. The last entry is the number of all clients.
    first_clients: Vec<usize>,
    /// The clients that have moved, by their numbers.
    clients: HashMap<usize, Actor>,
    state: State,
}

/// The part of the machine that actors change: the pools, the jobs, and the numbers of refused submits and of rejected jobs.
struct State {
    pools: Vec<PoolState>,
    jobs: Vec<Job>,
    refusals: u64,
    rejected: u64,
    unfinished: u64,
}

struct PoolState {
    threads: u64,
    idle: u64,
    queue: VecDeque<usize>,
}

/// The position of a client or a job in its body, and the latest job that it created for each slot.
#[derive(Default)]
struct Actor {
    position: usize,
    made: Vec<usize>,
}

struct Job {
    class: usize,
    phase: Phase,
    actor: Actor,
}

#[derive(Clone, Copy, PartialEq, Eq)]
enum Phase {
    Queued,
    AtWork,
    Done,
    Claimed,
}

/// Returns the maximum number of queued jobs of a pool with this number of idle threads. A capacity of 0 is that of a
/// `SynchronousQueue`: each idle thread can have one job, which it has not taken yet.
fn queue_limit(capacity: u64, idle: u64) -> u64 {
    if capacity == 0 {
        idle
    } else {
        capacity
    }
}

impl Actor {
    fn new(body: &Body) -> Actor {
        Actor { position: 0, made: vec![0; body.slots] }
    }
}

impl<'a> Machine<'a> {
    pub fn new(plan: &'a Plan) -> Machine<'a> {
        let mut first_clients = vec![0];
        for client in &plan.clients {
            first_clients.push(first_clients[first_clients.len() - 1] + client.count as usize);
        }
        let pools = plan.pools.iter().map(|pool| {
            let threads = pool.first_threads();
            PoolState { threads, idle: threads, queue: VecDeque::new() }
        });
        Machine {
            plan,
            first_clients,
            clients: HashMap::new(),
            state: State { pools: pools.collect(), jobs: Vec::new(), refusals: 0, rejected: 0, unfinished: 0 },
        }
    }

    pub fn refusals(&self) -> u64 {
        self.state.refusals
    }

    pub fn rejected(&self) -> u64 {
        self.state.rejected
    }

    pub fn unfinished(&self) -> u64 {
        self.state.unfinished
    }

    /// Performs the event, and returns its outcome. Returns `None` and changes nothing if the event is not possible.
    pub fn step(&mut self, event: Event) -> Option<Outcome> {
        match event {
            Event::Client(number) => self.client(number),
            Event::Job(number) => self.job(number),
            Event::Take(pool) => self.take(pool),
            Event::Retire(pool) => self.retire(pool),
        }
    }

    fn client(&mut self, number: usize) -> Option<Outcome> {
        let kind = self.first_clients.partition_point(|first| *first <= number) - 1;
        let kind = self.plan.clients.get(kind)?;
        let client = self.clients.entry(number).or_insert_with(|| Actor::new(&kind.body));
        if let Some(action) = kind.body.actions.get(client.position) {
            return self.state.act(self.plan, client, *action);
        }
        if !kind.repeat {
            return None;
        }
        client.position = 0;
        Some(Outcome::Looped)
    }

    fn job(&mut self, number: usize) -> Option<Outcome> {
        let job = self.state.jobs.get_mut(number).filter(|job| job.phase == Phase::AtWork)?;
        let class = &self.plan.classes[job.class];
        if let Some(action) = class.body.actions.get(job.actor.position) {
            let mut actor = mem::take(&mut job.actor);
            let outcome = self.state.act(self.plan, &mut actor, *action);
            self.state.jobs[number].actor = actor;
            return outcome;
        }
        job.phase = Phase::Done;
        self.state.pools[class.pool].idle += 1;
        self.state.unfinished -= 1;
        Some(Outcome::Finished(number))
    }

    fn take(&mut self, pool: usize) -> Option<Outcome> {
        let pool = &mut self.state.pools[pool];
        if pool.idle == 0 {
            return None;
        }
        let number = pool.queue.pop_front()?;
        pool.idle -= 1;
        self.state.jobs[number].phase = Phase::AtWork;
        Some(Outcome::Took(number))
    }

    fn retire(&mut self, number: usize) -> Option<Outcome> {
        let sizes = &self.plan.pools[number];
        let pool = &mut self.state.pools[number];
        let is_spare = pool.threads > sizes.core || sizes.core_timeout && (pool.threads > 1 || pool.queue.is_empty());
        if pool.idle == 0 || !is_spare {
            return None;
        }
        if !sizes.unbounded && pool.queue.len() as u64 > queue_limit(sizes.queue, pool.idle - 1) {
            return None;
        }
        pool.idle -= 1;
        pool.threads -= 1;
        Some(Outcome::Retired)
    }

    /// Returns whether these jobs exist, and each of them is unfinished and waits only for others of them.
    pub fn is_stuck(&self, members: &[usize]) -> bool {
        let mut members = members.to_vec();
        members.sort_unstable();
        members.dedup();
        if members.last().map_or(true, |last| *last >= self.state.jobs.len()) {
            return false;
        }
        let mut at_work = vec![0; self.plan.pools.len()];
        for member in &members {
            let job = &self.state.jobs[*member];
            if job.phase == Phase::AtWork {
                at_work[self.plan.classes[job.class].pool] += 1;
            }
        }
        members.iter().all(|member| self.waits(&self.state.jobs[*member], &members, &at_work))
    }

    /// Returns whether the job waits only for these members. `at_work` is the number of members that run in each pool.
    fn waits(&self, job: &Job, members: &[usize], at_work: &[u64]) -> bool {
        let class = &self.plan.classes[job.class];
        match job.phase {
            Phase::Queued => {
                let pool = &self.state.pools[class.pool];
                pool.idle == 0 && pool.threads == at_work[class.pool]
            }
            Phase::AtWork => match class.body.actions.get(job.actor.position) {
                Some(Action::Get { slot, .. }) => members.binary_search(&job.actor.made[*slot]).is_ok(),
                _ => false,
            },
            Phase::Done | Phase::Claimed => false,
        }
    }
}

impl State {
    fn act(&mut self, plan: &Plan, actor: &mut Actor, action: Action) -> Option<Outcome> {
        let outcome = match action {
            Action::Work(units) => Outcome::Worked(units),
            Action::Submit { class, slot } => {
                let number = self.jobs.len();
                let outcome = self.submit(plan, class);
                if let Outcome::Refused(_) = outcome {
                    return Some(outcome);
                }
                if let Some(slot) = slot {
                    actor.made[slot] = number;
                }
                outcome
            }
            Action::Get { slot, .. } => {
                let number = actor.made[slot];
                let job = &mut self.jobs[number];
                if job.phase != Phase::Done {
                    return None;
                }
                job.phase = Phase::Claimed;
                Outcome::Got(number)
            }
        };
        actor.position += 1;
        Some(outcome)
    }

    fn submit(&mut self, plan: &Plan, class: usize) -> Outcome {
        let of_class = &plan.classes[class];
        let sizes = &plan.pools[of_class.pool];
        let pool = &mut self.pools[of_class.pool];
        let number = self.jobs.len();
        let phase = if pool.threads < sizes.core {
            pool.threads += 1;
            Phase::AtWork
        } else if sizes.unbounded || (pool.queue.len() as u64) < queue_limit(sizes.queue, pool.idle) {
            pool.queue.push_back(number);
            Phase::Queued
        } else if pool.threads < sizes.max {
            pool.threads += 1;
            Phase::AtWork
        } else if sizes.may_reject {
            Phase::Done
        } else {
            self.refusals += 1;
            return Outcome::Refused(of_class.pool);
        };
        self.jobs.push(Job { class, phase, actor: Actor::new(&of_class.body) });
        if phase == Phase::Done {
            self.rejected += 1;
            return Outcome::Rejected(of_class.pool, number);
        }
        self.unfinished += 1;
        match phase {
            Phase::Queued => Outcome::Queued(number),
            _ => Outcome::Started(number),
        }
    }
}
