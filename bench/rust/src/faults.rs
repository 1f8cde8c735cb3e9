//! The faults of an input, with their places.

use std::fmt;

/// The kind of a fault, with its number.
#[derive(Clone, Copy, Debug)]
pub enum Kind {
    NotToml = 1,
    TooMany = 2,
    UnknownKey = 3,
    MissingKey = 4,
    WrongType = 5,
    BadName = 6,
    DoubleName = 7,
    BadNumber = 8,
    NoSuchPool = 9,
    NoSuchClass = 10,
    BadAction = 11,
    SlotOpen = 12,
    SlotEmpty = 13,
    NotJson = 30,
    WrongShape = 31,
    WeightTooLarge = 32,
    Version = 33,
    CertTooLong = 34,
    NoSeparator = 50,
    BadEvent = 51,
    InputTooLong = 52,
}

/// An entry of a plan: the list that has it, and its index in that list.
#[derive(Clone, Copy, Debug)]
pub enum Entry {
    Pool(usize),
    Class(usize),
    Client(usize),
}

#[derive(Clone, Copy, Debug)]
enum Place {
    Text,
    Entry(Entry),
    Action(Entry, usize),
    Line(usize),
}

/// The first fault of an input.
#[derive(Clone, Copy, Debug)]
pub struct Fault {
    kind: Kind,
    place: Place,
}

impl Kind {
    pub fn at(self, entry: Entry) -> Fault {
        Fault { kind: self, place: Place::Entry(entry) }
    }

    pub fn at_action(self, entry: Entry, action: usize) -> Fault {
        Fault { kind: self, place: Place::Action(entry, action) }
    }

    /// Returns a fault of this kind at a line, which is counted from 1.
    pub fn at_line(self, line: usize) -> Fault {
        Fault { kind: self, place: Place::Line(line) }
    }
}

impl From<Kind> for Fault {
    fn from(kind: Kind) -> Fault {
        Fault { kind, place: Place::Text }
    }
}

impl fmt::Display for Entry {
    fn fmt(&self, f: &mut fmt::Formatter) -> fmt::Result {
        match self {
            Entry::Pool(index) => write!(f, "pool {index}"),
            Entry::Class(index) => write!(f, "class {index}"),
            Entry::Client(index) => write!(f, "client {index}"),
        }
    }
}

impl fmt::Display for Fault {
    fn fmt(&self, f: &mut fmt::Formatter) -> fmt::Result {
        write!(f, "fault {} {:?}", self.kind as u8, self.kind)?;
        match self.place {
            Place::Text => Ok(()),
            Place::Entry(entry) => write!(f, " at {entry}"),
            Place::Action(entry, action) => write!(f, " at {entry} action {action}"),
            Place::Line(line) => write!(f, " at line {line}"),
        }
    }
}
