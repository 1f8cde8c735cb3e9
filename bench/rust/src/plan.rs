//! Plans: pools, classes of jobs and client kinds, with numbers in place of names.

use crate::faults::{Entry, Fault, Kind};
use crate::object::Object;
use crate::plan_text::{self, ClassText, PlanText, PoolText, Size};
use indexmap::{IndexMap, IndexSet};
use std::ops::RangeInclusive;

pub const MOST_POOLS: usize = 64;
pub const MOST_CLASSES: usize = 256;
pub const MOST_CLIENTS: usize = 256;
pub const MOST_ACTIONS: usize = 256;
const MOST_NAME: usize = 32;
const MOST_SIZE: u64 = 1_000_000;
/// The maximum of a pool that has none: its core threads may time out, its queue is unbounded, and its text gives none.
const NO_MAXIMUM: u64 = 268_435_455;
const SIZES: RangeInclusive<u64> = 1..=MOST_SIZE;

pub struct Plan {
    pub pools: Vec<Pool>,
    pub classes: Vec<Class>,
    pub clients: Vec<Client>,
}

pub struct Pool {
    pub name: String,
    pub core: u64,
    /// The maximum number of threads. It is core if the queue is unbounded and core threads never time out: then no thread
    /// above core starts.
    pub max: u64,
    /// The capacity of the queue. Only a pool that may reject jobs can have 0, that of a `SynchronousQueue`. It has no
    /// effect if the queue is unbounded.
    pub queue: u64,
    pub prestart: bool,
    /// Whether core threads may time out.
    pub core_timeout: bool,
    pub may_reject: bool,
    pub unbounded: bool,
}

pub struct Class {
    pub name: String,
    pub pool: usize,
    pub body: Body,
}

pub struct Client {
    pub name: String,
    pub count: u64,
    pub repeat: bool,
    pub body: Body,
}

pub struct Body {
    pub actions: Vec<Action>,
    /// The number of different slots of the body.
    pub slots: usize,
}

#[derive(Clone, Copy)]
pub enum Action {
    Work(u32),
    Submit {
        class: usize,
        slot: Option<usize>,
    },
    /// A get of the job in this slot, which has this class.
    Get {
        slot: usize,
        class: usize,
    },
}

impl Pool {
    /// Returns the number of threads of the pool at the start.
    pub fn first_threads(&self) -> u64 {
        if self.prestart {
            self.core
        } else {
            0
        }
    }

    /// Returns the number of threads that the pool has at least while a job is queued.
    pub fn least_threads(&self) -> u64 {
        if self.core_timeout {
            1
        } else {
            self.core
        }
    }

    /// Returns whether a certificate needs no bound of the pool's queue.
    pub fn needs_no_bound(&self) -> bool {
        self.may_reject || self.unbounded
    }

    /// Returns the number of jobs that the pool may be given in all without ever being full. If core threads may time out,
    /// Java starts threads without a job, so only the queue counts.
    pub fn most_jobs(&self) -> u64 {
        if self.core_timeout {
            self.queue
        } else {
            self.queue + self.max - self.first_threads()
        }
    }
}

impl Plan {
    /// Parses a plan, or returns the first fault of the text.
    pub fn read(bytes: &[u8]) -> Result<Plan, Fault> {
        let PlanText { pools, classes, clients } = plan_text::read(bytes)?;
        let pool_names = check_pools(&pools)?;
        let class_names = check_classes(&pool_names, &classes)?;
        let mut client_names = IndexSet::new();
        for (index, Object(client)) in clients.iter().enumerate() {
            add_name(&mut client_names, Entry::Client(index), &client.name)?;
            if !is_size(client.count) {
                return Err(Kind::BadNumber.at(Entry::Client(index)));
            }
        }
        let mut read_classes = Vec::with_capacity(classes.len());
        for (index, Object(class)) in classes.iter().enumerate() {
            read_classes.push(Class {
                name: class.name.clone(),
                pool: pool_names.get_index_of(class.pool.as_str()).unwrap(),
                body: Body::read(&class_names, Entry::Class(index), &class.body)?,
            });
        }
        let mut read_clients = Vec::with_capacity(clients.len());
        for (index, Object(client)) in clients.iter().enumerate() {
            read_clients.push(Client {
                name: client.name.clone(),
                count: client.count as u64,
                repeat: client.repeat,
                body: Body::read(&class_names, Entry::Client(index), &client.body)?,
            });
        }
        Ok(Plan { pools: pools.into_iter().map(pool).collect(), classes: read_classes, clients: read_clients })
    }
}

fn check_pools(pools: &[Object<PoolText>]) -> Result<IndexSet<&str>, Fault> {
    let mut names = IndexSet::new();
    for (index, Object(pool)) in pools.iter().enumerate() {
        add_name(&mut names, Entry::Pool(index), &pool.name)?;
        let is_queue = match pool.queue {
            Size::Number(queue) => is_size(queue) || queue == 0 && pool.may_reject,
            Size::Unbounded => true,
        };
        let is_max = match pool.max {
            Size::Number(max) => is_size(max) && max >= pool.core,
            Size::Unbounded => matches!(pool.queue, Size::Unbounded),
        };
        if !is_size(pool.core) || !is_max || !is_queue {
            return Err(Kind::BadNumber.at(Entry::Pool(index)));
        }
    }
    Ok(names)
}

fn check_classes<'a>(pools: &IndexSet<&str>, classes: &'a [Object<ClassText>]) -> Result<IndexSet<&'a str>, Fault> {
    let mut names = IndexSet::new();
    for (index, Object(class)) in classes.iter().enumerate() {
        add_name(&mut names, Entry::Class(index), &class.name)?;
        if !pools.contains(class.pool.as_str()) {
            return Err(Kind::NoSuchPool.at(Entry::Class(index)));
        }
    }
    Ok(names)
}

fn add_name<'a>(names: &mut IndexSet<&'a str>, entry: Entry, name: &'a str) -> Result<(), Fault> {
    if !is_name(name) {
        return Err(Kind::BadName.at(entry));
    }
    if !names.insert(name) {
        return Err(Kind::DoubleName.at(entry));
    }
    Ok(())
}

fn is_name(text: &str) -> bool {
    let bytes = text.as_bytes();
    bytes.len() <= MOST_NAME
        && bytes.first().map_or(false, u8::is_ascii_lowercase)
        && bytes.iter().all(|byte| matches!(byte, b'a'..=b'z' | b'0'..=b'9' | b'_'))
}

fn is_size(number: i64) -> bool {
    u64::try_from(number).map_or(false, |number| SIZES.contains(&number))
}

fn pool(Object(text): Object<PoolText>) -> Pool {
    let core = text.core as u64;
    let (max, queue, unbounded) = match (text.max, text.queue) {
        (Size::Number(max), Size::Number(queue)) => (max as u64, queue as u64, false),
        (Size::Number(max), Size::Unbounded) if text.core_timeout => (max as u64, MOST_SIZE, true),
        (Size::Unbounded, _) if text.core_timeout => (NO_MAXIMUM, MOST_SIZE, true),
        _ => (core, MOST_SIZE, true),
    };
    let PoolText { name, prestart, core_timeout, may_reject, .. } = text;
    Pool { name, core, max, queue, prestart, core_timeout, may_reject, unbounded }
}

/// A parsed action, with the names of its class and slot.
enum Words<'a> {
    Work(u32),
    Submit(&'a str),
    SubmitAs(&'a str, &'a str),
    Get(&'a str),
}

impl<'a> Words<'a> {
    fn read(text: &'a str) -> Option<Words<'a>> {
        let (verb, rest) = text.split_once(' ')?;
        match verb {
            "work" => units(rest).map(Words::Work),
            "get" => name(rest).map(Words::Get),
            "submit" => match rest.split_once(" as ") {
                None => name(rest).map(Words::Submit),
                Some((class, slot)) => Some(Words::SubmitAs(name(class)?, name(slot)?)),
            },
            _ => None,
        }
    }
}

fn name(text: &str) -> Option<&str> {
    Some(text).filter(|text| is_name(text))
}

fn units(text: &str) -> Option<u32> {
    if text.starts_with('0') || !text.bytes().all(|byte| byte.is_ascii_digit()) {
        return None;
    }
    text.parse().ok().filter(|units| SIZES.contains(&u64::from(*units)))
}

impl Body {
    fn read(classes: &IndexSet<&str>, entry: Entry, texts: &[String]) -> Result<Body, Fault> {
        // The names of the slots that were submitted to so far, each with the class of the job in the slot.
        let mut slots = IndexMap::new();
        let mut actions = Vec::with_capacity(texts.len());
        for (position, text) in texts.iter().enumerate() {
            let action = action(classes, &mut slots, text).map_err(|kind| kind.at_action(entry, position))?;
            actions.push(action);
        }
        Ok(Body { actions, slots: slots.len() })
    }
}

fn action<'a>(
    classes: &IndexSet<&str>,
    slots: &mut IndexMap<&'a str, Option<usize>>,
    text: &'a str,
) -> Result<Action, Kind> {
    let class_named = |name| classes.get_index_of(name).ok_or(Kind::NoSuchClass);
    match Words::read(text).ok_or(Kind::BadAction)? {
        Words::Work(units) => Ok(Action::Work(units)),
        Words::Submit(class) => Ok(Action::Submit { class: class_named(class)?, slot: None }),
        Words::SubmitAs(class, slot) => {
            let class = class_named(class)?;
            let entry = slots.entry(slot);
            let slot = entry.index();
            let held = entry.or_insert(None);
            if held.is_some() {
                return Err(Kind::SlotOpen);
            }
            *held = Some(class);
            Ok(Action::Submit { class, slot: Some(slot) })
        }
        Words::Get(slot) => match slots.get_full_mut(slot) {
            Some((slot, _, held)) => held.take().map(|class| Action::Get { slot, class }).ok_or(Kind::SlotEmpty),
            None => Err(Kind::SlotEmpty),
        },
    }
}
