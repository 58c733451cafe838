//! One input of the comparison.

use crate::breaches::Breach;
use crate::objects::{pool_of, Object};
use crate::verdict::Effort;
use second::Record;

/// Where an input comes from; the report has a line for each.
#[derive(Clone, Copy, Debug, PartialEq, Eq)]
pub enum Class {
    Vectors,
    Worked,
    Limits,
    Marks,
    Edges,
    Cuts,
    Changes,
    Fields,
    Realistic,
    Extremes,
    Sound,
    Mutated,
    Hostile,
    Large,
    Accepted,
    Breached,
    Crowded,
}

impl Class {
    pub const ALL: [Class; 17] = [
        Class::Vectors,
        Class::Worked,
        Class::Limits,
        Class::Marks,
        Class::Edges,
        Class::Cuts,
        Class::Changes,
        Class::Fields,
        Class::Realistic,
        Class::Extremes,
        Class::Sound,
        Class::Mutated,
        Class::Hostile,
        Class::Large,
        Class::Accepted,
        Class::Breached,
        Class::Crowded,
    ];

    pub fn name(self) -> &'static str {
        match self {
            Class::Vectors => "vectors",
            Class::Worked => "worked lines",
            Class::Limits => "limits",
            Class::Marks => "marks",
            Class::Edges => "edges",
            Class::Cuts => "cuts",
            Class::Changes => "changed bytes",
            Class::Fields => "changed fields",
            Class::Realistic => "realistic",
            Class::Extremes => "extremes",
            Class::Sound => "seeded readable",
            Class::Mutated => "seeded mutated",
            Class::Hostile => "seeded hostile",
            Class::Large => "seeded large",
            Class::Accepted => "seeded accepted",
            Class::Breached => "seeded breached",
            Class::Crowded => "seeded crowded",
        }
    }
}

pub struct Input {
    pub class: Class,
    pub name: String,
    pub pool: Vec<u8>,
    /// The records that the pool was written from, if its faults are to be
    /// counted by their causes. They also tell which IDs its table and its
    /// faults have.
    pub objects: Vec<Object>,
    /// What is known beforehand; both sides are judged by it.
    pub known: Known,
    /// Whether the lister runs too: a process costs far more than a call.
    pub listed: bool,
    /// How many calls are made with the pool, if its length does not decide it.
    pub effort: Option<Effort>,
}

pub enum Known {
    Nothing,
    /// The pool was put together from these records.
    Records(Vec<Record>),
    /// The lister must give this output.
    Output(String),
    /// The pool has faults of exactly these breaches.
    Breaches(Vec<Breach>),
    /// The pool has a fault of this breach.
    Breach(Breach),
}

impl Input {
    pub fn new(class: Class, name: impl Into<String>, pool: Vec<u8>) -> Self {
        Input {
            class,
            name: name.into(),
            pool,
            objects: Vec::new(),
            known: Known::Nothing,
            listed: true,
            effort: None,
        }
    }

    pub fn of_objects(class: Class, name: impl Into<String>, objects: Vec<Object>) -> Self {
        let pool = pool_of(&objects);
        Input {
            objects,
            ..Input::new(class, name, pool)
        }
    }

    pub fn unlisted(self) -> Self {
        Input {
            listed: false,
            ..self
        }
    }

    pub fn with(self, effort: Effort) -> Self {
        Input {
            effort: Some(effort),
            ..self
        }
    }

    pub fn knowing(self, known: Known) -> Self {
        Input { known, ..self }
    }
}
