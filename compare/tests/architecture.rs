//! The picture of the architecture shows the crates as crates.txt has them.

use std::collections::{BTreeMap, BTreeSet};
use std::fs;
use std::path::Path;

/// Crates with those they use.
type Uses = BTreeMap<String, BTreeSet<String>>;

fn text(name: &str) -> String {
    let file = Path::new(env!("CARGO_MANIFEST_DIR")).join("..").join(name);
    fs::read_to_string(&file).unwrap_or_else(|error| panic!("{}: {error}", file.display()))
}

/// What crates.txt says, without what the kit brings.
fn listed() -> Uses {
    let text = text("crates.txt");
    let lines = text.lines().filter_map(|line| line.split_once(':'));
    let mut uses: Uses = lines
        .map(|(name, used)| {
            let used = used.split_whitespace().map(str::to_owned);
            let name = name.split_whitespace().next().unwrap_or(name);
            (name.to_owned(), used.collect())
        })
        .collect();
    let own: BTreeSet<String> = uses.keys().cloned().collect();
    uses.values_mut()
        .for_each(|used| used.retain(|name| own.contains(name)));
    uses
}

/// The boxes and the arrows of the picture.
fn drawn() -> Uses {
    let text = text("docs/architecture.svg");
    let mut uses = Uses::new();
    for name in values(&text, "data-crate") {
        assert!(
            uses.insert(name.clone(), BTreeSet::new()).is_none(),
            "{name} twice"
        );
    }
    let arrows = values(&text, "data-from").into_iter();
    for (from, to) in arrows.zip(values(&text, "data-to")) {
        let used = uses
            .get_mut(&from)
            .unwrap_or_else(|| panic!("no box {from}"));
        assert!(used.insert(to.clone()), "{from} to {to} twice");
    }
    uses
}

/// All values of an attribute.
fn values(text: &str, name: &str) -> Vec<String> {
    let start = format!(" {name}=\"");
    let pieces = text.split(&start).skip(1);
    let value = |piece: &str| piece.split('"').next().map(str::to_owned);
    pieces.filter_map(value).collect()
}

/// Whether a path of arrows leads from one to the other.
fn reaches(uses: &Uses, from: &str, to: &str) -> bool {
    let reached = |next: &String| next == to || reaches(uses, next, to);
    uses[from].iter().any(reached)
}

#[test]
fn every_crate_and_no_other_has_a_box() {
    assert!(drawn().keys().eq(listed().keys()));
}

#[test]
fn every_arrow_is_a_dependency() {
    let (drawn, listed) = (drawn(), listed());
    for (from, to) in drawn
        .iter()
        .flat_map(|(from, used)| used.iter().map(move |to| (from, to)))
    {
        assert!(listed[from].contains(to), "{from} to {to}");
    }
}

#[test]
fn every_dependency_is_an_arrow_or_follows_from_arrows() {
    let drawn = drawn();
    for (from, used) in listed() {
        for to in used {
            assert!(reaches(&drawn, &from, &to), "{from} to {to}");
        }
    }
}

#[test]
fn no_arrow_follows_from_others() {
    let drawn = drawn();
    for (from, used) in &drawn {
        for to in used {
            let mut others = used.iter().filter(|&other| other != to);
            assert!(
                !others.any(|other| reaches(&drawn, other, to)),
                "{from} to {to}"
            );
        }
    }
}
