//! Certificates: for each pool two vectors of weights, and one set of ranks. The text of a certificate is a JSON
//! object.

use crate::faults::{Fault, Kind};
use crate::object::{object, Object};
use crate::plan::{Body, Plan, Pool};
use serde::de::Error;
use serde::{Deserialize, Deserializer, Serialize};
use serde_json::Value;

pub const MOST_BYTES: usize = 1_048_576;
pub const MOST_WEIGHT: u64 = 1_000_000_000;
/// The number of weights in the row of a class beyond one for each action: one for a queued job, one for the position
/// at the end of the body, and one for a done job.
const CLASS_POINTS: usize = 3;
/// The number of weights in the row of a client kind beyond one for each action: one for the position at the end of the
/// body.
const CLIENT_POINTS: usize = 1;

// The fields of each struct are in the alphabetical order of their keys, which is the order in which they are written.

#[derive(Deserialize, Serialize)]
#[serde(deny_unknown_fields)]
pub struct Certificate {
    pub pools: Vec<PoolCertificate>,
    #[serde(deserialize_with = "object")]
    pub ranks: Ranks,
    version: u64,
}

#[derive(Serialize)]
pub struct PoolCertificate {
    pub blocked: Vector,
    /// `None` only for a pool that may reject jobs or has an unbounded queue.
    #[serde(flatten)]
    pub bound: Option<Bound>,
}

/// The vector that bounds a pool's queue, or the number of jobs that the pool is ever given.
#[derive(Serialize)]
#[serde(rename_all = "lowercase")]
pub enum Bound {
    Standing(Vector),
    Lifetime(Vector),
}

#[derive(Deserialize, Serialize)]
#[serde(deny_unknown_fields)]
pub struct Vector {
    pub classes: Vec<Vec<u64>>,
    pub clients: Vec<Vec<u64>>,
    pub workers: Vec<u64>,
}

#[derive(Deserialize, Serialize)]
#[serde(deny_unknown_fields)]
pub struct Ranks {
    pub levels: Vec<u64>,
    pub pools: Vec<u64>,
    pub reach: Vec<u64>,
}

impl Certificate {
    pub fn new(pools: Vec<PoolCertificate>, ranks: Ranks) -> Certificate {
        let version = if are_standing(&pools) { 1 } else { 2 };
        Certificate { pools, ranks, version }
    }

    /// Parses a certificate, or returns the first fault of the text.
    pub fn read(bytes: &[u8], plan: &Plan) -> Result<Certificate, Fault> {
        if bytes.len() > MOST_BYTES {
            return Err(Kind::CertTooLong.into());
        }
        let certificate = match serde_json::from_slice(bytes) {
            Ok(Object(certificate)) => certificate,
            Err(_) => read_slowly(bytes)?,
        };
        certificate.check(plan)?;
        Ok(certificate)
    }

    fn check(&self, plan: &Plan) -> Result<(), Kind> {
        check_version(self.version)?;
        if self.version == 1 && !are_standing(&self.pools) || !self.fits(plan) {
            return Err(Kind::WrongShape);
        }
        if !self.is_light() {
            return Err(Kind::WeightTooLarge);
        }
        Ok(())
    }

    /// Returns whether each list has the length that the plan requires.
    fn fits(&self, plan: &Plan) -> bool {
        let Ranks { levels, pools, reach } = &self.ranks;
        self.pools.len() == plan.pools.len()
            && self.pools.iter().zip(&plan.pools).all(|(part, pool)| part.fits(plan, pool))
            && pools.len() == plan.pools.len()
            && reach.len() == plan.classes.len()
            && levels.len() == plan.classes.len()
    }

    fn is_light(&self) -> bool {
        let Ranks { levels, pools, reach } = &self.ranks;
        self.pools.iter().flat_map(PoolCertificate::vectors).all(Vector::is_light)
            && [levels, pools, reach].iter().all(|numbers| are_light(numbers))
    }
}

/// Parses the certificate as a JSON value first, to find the first fault of its shape.
fn read_slowly(bytes: &[u8]) -> Result<Certificate, Kind> {
    let value: Value = serde_json::from_slice(bytes).map_err(|_| Kind::NotJson)?;
    check_version(value.get("version").and_then(Value::as_u64).ok_or(Kind::WrongShape)?)?;
    serde_json::from_value(value).map(|Object(certificate)| certificate).map_err(|_| Kind::WrongShape)
}

fn check_version(version: u64) -> Result<(), Kind> {
    match version {
        1 | 2 => Ok(()),
        _ => Err(Kind::Version),
    }
}

/// Returns whether each pool has a standing vector, which version 1 requires.
fn are_standing(pools: &[PoolCertificate]) -> bool {
    pools.iter().all(|pool| matches!(pool.bound, Some(Bound::Standing(_))))
}

impl PoolCertificate {
    fn fits(&self, plan: &Plan, pool: &Pool) -> bool {
        (self.bound.is_some() || pool.needs_no_bound()) && self.vectors().all(|vector| vector.fits(plan))
    }

    fn vectors(&self) -> impl Iterator<Item = &Vector> {
        self.bound.iter().map(Bound::vector).chain([&self.blocked])
    }
}

impl Bound {
    pub fn vector(&self) -> &Vector {
        match self {
            Bound::Standing(vector) | Bound::Lifetime(vector) => vector,
        }
    }
}

impl Vector {
    pub fn fits(&self, plan: &Plan) -> bool {
        self.workers.len() == plan.pools.len()
            && rows_fit(&self.classes, plan.classes.iter().map(|class| &class.body), CLASS_POINTS)
            && rows_fit(&self.clients, plan.clients.iter().map(|client| &client.body), CLIENT_POINTS)
    }

    pub fn is_light(&self) -> bool {
        are_light(&self.workers) && self.classes.iter().chain(&self.clients).all(|row| are_light(row))
    }
}

fn rows_fit<'a>(rows: &[Vec<u64>], bodies: impl ExactSizeIterator<Item = &'a Body>, points: usize) -> bool {
    rows.len() == bodies.len() && rows.iter().zip(bodies).all(|(row, body)| row.len() == body.actions.len() + points)
}

fn are_light(numbers: &[u64]) -> bool {
    numbers.iter().all(|number| *number <= MOST_WEIGHT)
}

impl<'de> Deserialize<'de> for PoolCertificate {
    fn deserialize<D: Deserializer<'de>>(from: D) -> Result<PoolCertificate, D::Error> {
        #[derive(Deserialize)]
        #[serde(deny_unknown_fields)]
        struct Text {
            #[serde(deserialize_with = "object")]
            blocked: Vector,
            // A plain `Option` would accept `null` as a missing vector.
            #[serde(default, deserialize_with = "some_object")]
            standing: Option<Vector>,
            #[serde(default, deserialize_with = "some_object")]
            lifetime: Option<Vector>,
        }

        let Text { blocked, standing, lifetime } = object(from)?;
        let bound = match (standing, lifetime) {
            (Some(vector), None) => Some(Bound::Standing(vector)),
            (None, Some(vector)) => Some(Bound::Lifetime(vector)),
            (None, None) => None,
            _ => return Err(D::Error::custom("at most one of `standing` and `lifetime` is wanted")),
        };
        Ok(PoolCertificate { blocked, bound })
    }
}

fn some_object<'de, T: Deserialize<'de>, D: Deserializer<'de>>(from: D) -> Result<Option<T>, D::Error> {
    object(from).map(Some)
}
