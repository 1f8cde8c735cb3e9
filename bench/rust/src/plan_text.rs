//! The text of a plan: a TOML document with tables of pools, classes and clients.

use crate::faults::{Entry, Fault, Kind};
use crate::object::Object;
use crate::plan::{MOST_ACTIONS, MOST_CLASSES, MOST_CLIENTS, MOST_POOLS};
use serde::de::{Error, Visitor};
use serde::{Deserialize, Deserializer};
use std::fmt;
use toml::value::Table;
use toml::Value;

const MOST_BYTES: usize = 1_048_576;
/// The text of a maximum or of a queue without a bound.
const UNBOUNDED: &str = "unbounded";

#[derive(Deserialize)]
#[serde(deny_unknown_fields)]
pub struct PlanText {
    #[serde(default, rename = "pool")]
    pub pools: Vec<Object<PoolText>>,
    #[serde(default, rename = "class")]
    pub classes: Vec<Object<ClassText>>,
    #[serde(default, rename = "client")]
    pub clients: Vec<Object<ClientText>>,
}

#[derive(Deserialize)]
#[serde(deny_unknown_fields)]
pub struct PoolText {
    pub name: String,
    pub core: i64,
    pub max: Size,
    pub queue: Size,
    #[serde(default)]
    pub prestart: bool,
    #[serde(default)]
    pub core_timeout: bool,
    #[serde(default)]
    pub may_reject: bool,
}

/// A maximum or a queue: a number, or the text `unbounded`.
#[derive(Clone, Copy)]
pub enum Size {
    Number(i64),
    Unbounded,
}

#[derive(Deserialize)]
#[serde(deny_unknown_fields)]
pub struct ClassText {
    pub name: String,
    pub pool: String,
    pub body: Vec<String>,
}

#[derive(Deserialize)]
#[serde(deny_unknown_fields)]
pub struct ClientText {
    pub name: String,
    pub count: i64,
    #[serde(default)]
    pub repeat: bool,
    pub body: Vec<String>,
}

impl<'de> Deserialize<'de> for Size {
    fn deserialize<D: Deserializer<'de>>(from: D) -> Result<Size, D::Error> {
        struct SizeVisitor;

        impl Visitor<'_> for SizeVisitor {
            type Value = Size;

            fn expecting(&self, f: &mut fmt::Formatter) -> fmt::Result {
                f.write_str("a number or the text `unbounded`")
            }

            fn visit_i64<E: Error>(self, number: i64) -> Result<Size, E> {
                Ok(Size::Number(number))
            }

            fn visit_str<E: Error>(self, text: &str) -> Result<Size, E> {
                match text {
                    UNBOUNDED => Ok(Size::Unbounded),
                    _ => Err(E::custom("this text is no size")),
                }
            }
        }

        from.deserialize_any(SizeVisitor)
    }
}

/// Parses the tables of a plan's text. Does not check the names, numbers and actions.
pub fn read(bytes: &[u8]) -> Result<PlanText, Fault> {
    if bytes.len() > MOST_BYTES {
        return Err(Kind::TooMany.into());
    }
    let text = std::str::from_utf8(bytes).map_err(|_| Kind::NotToml)?;
    let plan = match toml::from_str(text) {
        Ok(plan) => plan,
        Err(_) => read_slowly(text)?,
    };
    check_lengths(&plan)?;
    Ok(plan)
}

fn check_lengths(plan: &PlanText) -> Result<(), Fault> {
    let lists =
        [(plan.pools.len(), MOST_POOLS), (plan.classes.len(), MOST_CLASSES), (plan.clients.len(), MOST_CLIENTS)];
    if lists.iter().any(|(count, most)| count > most) {
        return Err(Kind::TooMany.into());
    }
    for (index, Object(class)) in plan.classes.iter().enumerate() {
        check_actions(Entry::Class(index), class.body.len())?;
    }
    for (index, Object(client)) in plan.clients.iter().enumerate() {
        check_actions(Entry::Client(index), client.body.len())?;
    }
    Ok(())
}

fn check_actions(entry: Entry, count: usize) -> Result<(), Fault> {
    if count > MOST_ACTIONS {
        return Err(Kind::TooMany.at(entry));
    }
    Ok(())
}

/// Parses the document as a TOML value first, to find the first fault of its shape.
fn read_slowly(text: &str) -> Result<PlanText, Fault> {
    let mut document: Table = toml::from_str(text).map_err(|_| Kind::NotToml)?;
    if document.keys().any(|key| !["pool", "class", "client"].contains(&key.as_str())) {
        return Err(Kind::UnknownKey.into());
    }
    let pools = list(&mut document, "pool", MOST_POOLS)?;
    let classes = list(&mut document, "class", MOST_CLASSES)?;
    let clients = list(&mut document, "client", MOST_CLIENTS)?;
    Ok(PlanText { pools: each(pools, pool)?, classes: each(classes, class)?, clients: each(clients, client)? })
}

fn list(document: &mut Table, key: &str, most: usize) -> Result<Vec<Value>, Fault> {
    match document.remove(key) {
        None => Ok(Vec::new()),
        Some(Value::Array(values)) if values.len() <= most => Ok(values),
        Some(Value::Array(_)) => Err(Kind::TooMany.into()),
        Some(_) => Err(Kind::WrongType.into()),
    }
}

fn each<T>(values: Vec<Value>, read: fn(usize, Value) -> Result<T, Fault>) -> Result<Vec<Object<T>>, Fault> {
    values.into_iter().enumerate().map(|(index, value)| read(index, value).map(Object)).collect()
}

fn pool(index: usize, value: Value) -> Result<PoolText, Fault> {
    let known = ["name", "core", "max", "queue", "prestart", "core_timeout", "may_reject"];
    let mut keys = Keys::of(value, Entry::Pool(index), &known)?;
    Ok(PoolText {
        name: keys.text("name")?,
        core: keys.number("core")?,
        max: keys.size("max")?,
        queue: keys.size("queue")?,
        prestart: keys.flag("prestart")?,
        core_timeout: keys.flag("core_timeout")?,
        may_reject: keys.flag("may_reject")?,
    })
}

fn class(index: usize, value: Value) -> Result<ClassText, Fault> {
    let mut keys = Keys::of(value, Entry::Class(index), &["name", "pool", "body"])?;
    Ok(ClassText { name: keys.text("name")?, pool: keys.text("pool")?, body: keys.texts("body")? })
}

fn client(index: usize, value: Value) -> Result<ClientText, Fault> {
    let mut keys = Keys::of(value, Entry::Client(index), &["name", "count", "repeat", "body"])?;
    Ok(ClientText {
        name: keys.text("name")?,
        count: keys.number("count")?,
        repeat: keys.flag("repeat")?,
        body: keys.texts("body")?,
    })
}

/// The keys of an entry that have not been read yet.
struct Keys {
    table: Table,
    entry: Entry,
}

impl Keys {
    fn of(value: Value, entry: Entry, known: &[&str]) -> Result<Keys, Fault> {
        match value {
            Value::Table(table) if table.keys().all(|key| known.contains(&key.as_str())) => Ok(Keys { table, entry }),
            Value::Table(_) => Err(Kind::UnknownKey.at(entry)),
            _ => Err(Kind::WrongType.at(entry)),
        }
    }

    fn value(&mut self, key: &str) -> Result<Value, Fault> {
        self.table.remove(key).ok_or_else(|| Kind::MissingKey.at(self.entry))
    }

    fn text(&mut self, key: &str) -> Result<String, Fault> {
        match self.value(key)? {
            Value::String(text) => Ok(text),
            _ => Err(Kind::WrongType.at(self.entry)),
        }
    }

    fn number(&mut self, key: &str) -> Result<i64, Fault> {
        self.value(key)?.as_integer().ok_or_else(|| Kind::WrongType.at(self.entry))
    }

    fn size(&mut self, key: &str) -> Result<Size, Fault> {
        match self.value(key)? {
            Value::Integer(number) => Ok(Size::Number(number)),
            Value::String(text) if text == UNBOUNDED => Ok(Size::Unbounded),
            _ => Err(Kind::WrongType.at(self.entry)),
        }
    }

    fn flag(&mut self, key: &str) -> Result<bool, Fault> {
        match self.table.remove(key) {
            None => Ok(false),
            Some(value) => value.as_bool().ok_or_else(|| Kind::WrongType.at(self.entry)),
        }
    }

    fn texts(&mut self, key: &str) -> Result<Vec<String>, Fault> {
        let entry = self.entry;
        let values = match self.value(key)? {
            Value::Array(values) => values,
            _ => return Err(Kind::WrongType.at(entry)),
        };
        check_actions(entry, values.len())?;
        let texts = values.into_iter().enumerate().map(|(action, value)| match value {
            Value::String(text) => Ok(text),
            _ => Err(Kind::WrongType.at_action(entry, action)),
        });
        texts.collect()
    }
}
