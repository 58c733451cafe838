//! The time per byte against the size.

use super::scale::Scale;
use super::svg::Picture;
use crate::bench::sound::{Growth, Size};
use crate::bench::times::Times;

const WIDTH: f64 = 330.0;
const HEIGHT: f64 = 180.0;
/// The left ends of the charts.
const LEFTS: [f64; 2] = [70.0, 500.0];

/// Draws the charts side by side from this height down, and gives the height
/// where they end.
pub fn draw(picture: &mut Picture, growths: &[Growth], top: f64) -> f64 {
    for (growth, left) in growths.iter().zip(LEFTS) {
        draw_chart(picture, growth, left, top);
    }
    top + HEIGHT + 60.0
}

fn draw_chart(picture: &mut Picture, growth: &Growth, left: f64, top: f64) {
    let sizes = &growth.sizes;
    let bytes = sizes.iter().map(|size| size.bytes as f64);
    let sides = |size: &Size| [size.library(), size.second()];
    let times = sizes.iter().flat_map(sides);
    let values = times.flat_map(|times| [times.best, times.median]);
    let (right, bottom) = (left + WIDTH, top + HEIGHT);
    let across = Scale::logarithmic(bytes, (left, right));
    let up = Scale::linear(values, (bottom, top));
    picture.text((left, top - 10.0), "group", growth.name);
    for &tick in up.ticks() {
        let y = up.place(tick);
        picture.line((left, y), (right, y), "grid");
        picture.text((left - 8.0, y + 4.0), "name note", &short(tick));
    }
    for size in sizes {
        let x = across.place(size.bytes as f64);
        picture.line((x, top), (x, bottom), "grid");
        let kilobytes = size.bytes as f64 / 1e3;
        picture.text((x, bottom + 16.0), "tick", &format!("{kilobytes:.0} KB"));
    }
    let middle = (left + right) / 2.0;
    picture.text((middle, bottom + 34.0), "tick", "size of the pool");
    let mut draw_side = |side: &str, times: fn(&Size) -> Times| {
        let place = |size: &Size, time| (across.place(size.bytes as f64), up.place(time));
        let best = || sizes.iter().map(|size| place(size, times(size).best));
        let median = sizes.iter().map(|size| place(size, times(size).median));
        picture.curve(median, &format!("{side} curve dashed"));
        picture.curve(best(), &format!("{side} curve"));
        best().for_each(|at| picture.dot(at, side));
    };
    draw_side("library", Size::library);
    draw_side("second", Size::second);
}

/// A tick's name without rounding errors from multiplying.
fn short(tick: f64) -> String {
    let rounded = format!("{tick:.3}");
    let short = rounded.trim_end_matches('0').trim_end_matches('.');
    short.to_owned()
}

#[cfg(test)]
mod tests {
    use super::*;

    #[test]
    fn ticks_are_short() {
        let written = [0.0, 0.1 * 3.0, 2.0, 10.0, 0.025].map(short);
        assert_eq!(written, ["0", "0.3", "2", "10", "0.025"]);
    }
}
