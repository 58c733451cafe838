//! Counts the faults of a run by rule and item, and by their causes. A rule
//! that the pools never breach is not compared.

mod classes;
mod sighting;

use crate::objects::Object;
use second::Fault;
use sighting::{Scene, Sighting};

const CLASSES_A_LINE: usize = 6;

/// Faults of one rule with something in common.
struct FaultClass {
    name: String,
    holds: Box<dyn Fn(&Sighting) -> bool>,
    count: u64,
}

#[derive(Default)]
pub struct Census {
    /// The rules are numbered from 1.
    by_rule: [Vec<FaultClass>; 13],
    /// Device elements whose chain is long and ends.
    long_chains: u64,
}

impl Census {
    pub fn new() -> Self {
        let mut census = Census::default();
        census.add_all();
        census
    }

    /// Adds a class of faults of this rule.
    fn add(
        &mut self,
        rule: u8,
        name: impl Into<String>,
        holds: impl Fn(&Sighting) -> bool + 'static,
    ) {
        self.by_rule[usize::from(rule)].push(FaultClass {
            name: name.into(),
            holds: Box::new(holds),
            count: 0,
        });
    }

    /// Counts the faults of the pool of these records.
    pub fn count(&mut self, objects: &[Object], faults: &[Fault]) {
        let scene = Scene::new(objects, faults);
        for (position, fault) in faults.iter().enumerate() {
            let sighting = scene.sighting(position);
            for class in &mut self.by_rule[usize::from(fault.rule)] {
                class.count += u64::from((class.holds)(&sighting));
            }
        }
        self.long_chains += scene.long_chains();
    }

    /// Prints the counts, several lines per rule.
    pub fn print(&self) {
        println!("faults by rule and item, and by what led to them");
        for (rule, classes) in self.by_rule.iter().enumerate().skip(1) {
            let counts = classes.iter();
            let counts: Vec<String> = counts
                .map(|class| format!("{}: {}", class.name, class.count))
                .collect();
            let mut head = format!("rule {rule}");
            for line in counts.chunks(CLASSES_A_LINE) {
                println!("{head:<8}{}", line.join("; "));
                head.clear();
            }
        }
        println!("chains of many steps that end: {}", self.long_chains);
    }

    /// What the pools should have had and did not.
    pub fn unseen(&self) -> Vec<String> {
        let mut names = Vec::new();
        for (rule, classes) in self.by_rule.iter().enumerate() {
            let unseen = classes.iter().filter(|class| class.count == 0);
            names.extend(unseen.map(|class| format!("a fault of rule {rule}, {}", class.name)));
        }
        if self.long_chains == 0 {
            names.push("a chain of many steps that ends".into());
        }
        names
    }
}
