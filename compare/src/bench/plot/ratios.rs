//! The ratios of all rows.

use super::scale::Scale;
use super::svg::Picture;
use crate::bench::table::Group;
use crate::bench::times::Times;

/// Where in a row its name ends, its bar is drawn and its figures end.
const NAMES: f64 = 280.0;
const BARS: (f64, f64) = (300.0, 745.0);
const FIGURES: f64 = 850.0;
const ROW: f64 = 16.0;
/// The height of a group's name above its rows.
const HEAD: f64 = 24.0;
const BAR: f64 = 9.0;
/// From a line's middle down to the baseline of its text.
const BASELINE: f64 = 4.0;

/// Draws the chart from this height down, and gives the height where it ends.
pub fn draw(picture: &mut Picture, groups: &[Group], top: f64) -> f64 {
    let ratios = groups
        .iter()
        .flat_map(|group| &group.rows)
        .map(|row| row.pair.ratio);
    let values = ratios.flat_map(|ratio| [ratio.best, ratio.median]);
    let scale = Scale::logarithmic(values.chain([0.5, 2.0]), BARS);
    let rows: usize = groups.iter().map(|group| group.rows.len()).sum();
    let bottom = top + groups.len() as f64 * HEAD + rows as f64 * ROW + 6.0;
    draw_scale(picture, &scale, top, bottom);
    let mut y = top;
    for group in groups {
        y += HEAD;
        picture.text((20.0, y - ROW / 2.0 + BASELINE), "group", group.name);
        for row in &group.rows {
            let middle = y + ROW / 2.0;
            picture.text((NAMES, middle + BASELINE), "name", &row.name);
            draw_ratio(picture, &scale, row.pair.ratio, middle);
            y += ROW;
        }
    }
    bottom + 20.0
}

fn draw_scale(picture: &mut Picture, scale: &Scale, top: f64, bottom: f64) {
    for &tick in scale.ticks() {
        let x = scale.place(tick);
        let class = if tick == 1.0 { "even" } else { "grid" };
        picture.line((x, top), (x, bottom), class);
        picture.text((x, top - 6.0), "tick", &tick.to_string());
        picture.text((x, bottom + 14.0), "tick", &tick.to_string());
    }
    picture.text((FIGURES - 48.0, top - 6.0), "figure", "best");
    picture.text((FIGURES, top - 6.0), "figure", "median");
}

/// A bar from 1 to the best, and the range from there to the median.
fn draw_ratio(picture: &mut Picture, scale: &Scale, ratio: Times, y: f64) {
    let class = if ratio.best > 1.0 { "slower" } else { "faster" };
    let (even, best, median) = (1.0, ratio.best, ratio.median);
    let [even, at_best, at_median] = [even, best, median].map(|value| scale.place(value));
    picture.bar((even, y), at_best, BAR, &format!("{class} bar"));
    picture.line((at_best, y), (at_median, y), &format!("{class} range"));
    let (above, below) = (y - BAR / 2.0, y + BAR / 2.0);
    picture.line(
        (at_median, above),
        (at_median, below),
        &format!("{class} range"),
    );
    picture.dot((at_best, y), class);
    picture.text(
        (FIGURES - 48.0, y + BASELINE),
        "figure",
        &format!("{best:.2}"),
    );
    picture.text((FIGURES, y + BASELINE), "figure", &format!("{median:.2}"));
}
