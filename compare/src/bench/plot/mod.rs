//! The figures of a run as a picture.

mod growth;
mod ratios;
mod scale;
mod svg;

use super::sound::Growth;
use super::table::Group;
use svg::Picture;

const WIDTH: f64 = 870.0;
const LEFT: f64 = 20.0;

const TITLE: &str = "Library against second implementation";
const RATIOS: &str = "Ratio of times, library/second; logarithmic. Left of 1 the library is \
                      faster. Dot: best of the rounds; stroke: their median.";
const GROWTH: &str = "Nanoseconds a byte of a sound pool; level is linear. Whole lines: best of \
                      the rounds; dashed: their median.";
/// The sides with their names, and where the names are drawn.
const KEY: [(&str, &str, f64); 2] = [
    ("library", "library", 600.0),
    ("second", "second implementation", 690.0),
];

/// The picture as an SVG file.
pub fn draw(groups: &[Group], growths: &[Growth]) -> String {
    let mut picture = Picture::default();
    picture.text((LEFT, 30.0), "title", TITLE);
    picture.text((LEFT, 50.0), "note", RATIOS);
    let top = ratios::draw(&mut picture, groups, 84.0) + 36.0;
    picture.text((LEFT, top), "title", "Time a byte");
    for (side, name, left) in KEY {
        let middle = top - 4.0;
        picture.curve(
            [(left, middle), (left + 20.0, middle)].into_iter(),
            &format!("{side} curve"),
        );
        picture.text((left + 26.0, top), "note", name);
    }
    picture.text((LEFT, top + 20.0), "note", GROWTH);
    let end = growth::draw(&mut picture, growths, top + 60.0);
    picture.finish(WIDTH, end, TITLE)
}

#[cfg(test)]
mod tests {
    use super::*;
    use crate::bench::sound::Size;
    use crate::bench::table::{Row, Unit};
    use crate::bench::times::{Rounds, Side};

    fn rounds(library: f64, second: f64) -> Rounds {
        let mut rounds = Rounds::default();
        for slower in [1.0, 1.2, 1.5] {
            rounds.push(|side| match side {
                Side::Library => slower * library,
                Side::Second => slower * second,
            });
        }
        rounds
    }

    fn drawn() -> String {
        let row = |name: &str, library| Row::new(name, rounds(library, 1.0).pair());
        let group = |name, rows| Group {
            name,
            of: "call".into(),
            unit: Unit::Microseconds,
            beside: "",
            rows,
        };
        let groups = [
            group("texts", vec![row("12 letters", 0.4), row("a < b & c", 1.0)]),
            group("hostile", vec![row("the last DDI again", 31.0)]),
        ];
        let size = |bytes| Size {
            bytes,
            records: 1,
            pair: rounds(2.0 * bytes as f64, bytes as f64).pair(),
        };
        let growth = |name| Growth {
            name,
            sizes: [968, 7_965, 31_968, 64_979].map(size).into(),
        };
        draw(&groups, &[growth("reading"), growth("checking")])
    }

    /// The texts between tags, if all elements are closed in order, all
    /// attributes quoted and all other text escaped.
    fn texts(svg: &str) -> Result<Vec<&str>, String> {
        let (mut open, mut texts) = (Vec::new(), Vec::new());
        for piece in svg.split('<').skip(1) {
            let (mark, text) = piece.split_once('>').ok_or(format!("no end: {piece}"))?;
            let name = mark
                .split([' ', '/'])
                .find(|it| !it.is_empty())
                .ok_or("no name")?;
            if mark.starts_with('/') {
                if open.pop() != Some(name) {
                    return Err(format!("{name} is not open"));
                }
            } else if !mark.ends_with('/') {
                open.push(name);
            }
            let outside: Vec<&str> = mark.split('"').step_by(2).collect();
            let (last, named) = outside.split_last().ok_or("no mark")?;
            if last.contains('=') || !named.iter().all(|it| it.ends_with('=')) {
                return Err(format!("attributes: {mark}"));
            }
            let entities = ["amp;", "lt;", "gt;"];
            let escaped = |it: &str| entities.iter().any(|entity| it.starts_with(entity));
            if text.contains('>') || !text.split('&').skip(1).all(escaped) {
                return Err(format!("text: {text}"));
            }
            texts.push(text);
        }
        if open.is_empty() {
            Ok(texts)
        } else {
            Err(format!("open: {open:?}"))
        }
    }

    #[test]
    fn the_picture_is_well_formed_and_names_all() {
        let drawn = drawn();
        let texts = texts(&drawn).unwrap();
        for name in [
            "texts",
            "12 letters",
            "a &lt; b &amp; c",
            "31.00",
            "reading",
            "8 KB",
        ] {
            assert!(texts.contains(&name), "{name}");
        }
    }

    #[test]
    fn what_is_not_well_formed_is_found() {
        for wrong in [
            "<a><b></a></b>",
            "<a>",
            "<a x=1/>",
            "<a>&b</a>",
            "<a>b>c</a>",
            "<a",
            "</a>",
        ] {
            assert!(texts(wrong).is_err(), "{wrong}");
        }
    }

    #[test]
    fn all_lies_within_the_ground() {
        let drawn = drawn();
        let height = drawn.split("height=\"").nth(1).unwrap();
        let height: f64 = height.split('"').next().unwrap().parse().unwrap();
        let limits = [("x", WIDTH), ("x1", WIDTH), ("x2", WIDTH), ("cx", WIDTH)];
        let downwards = [
            ("y", height),
            ("y1", height),
            ("y2", height),
            ("cy", height),
        ];
        for (name, limit) in limits.into_iter().chain(downwards) {
            for value in drawn.split(&format!(" {name}=\"")).skip(1) {
                let value: f64 = value.split('"').next().unwrap().parse().unwrap();
                assert!((0.0..=limit).contains(&value), "{name} {value}");
            }
        }
    }
}
