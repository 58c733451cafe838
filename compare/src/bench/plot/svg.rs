//! Pictures in SVG.

use std::fmt::Write;

/// Light colours, or dark ones if the reader prefers these. The picture has its
/// own background, so that it can be read on any page. Rules that remove a
/// colour come last, after those of both schemes.
const STYLE: &str = "
  text { font-family: sans-serif; font-size: 12px; fill: #24292f; }
  .title { font-size: 15px; font-weight: bold; }
  .group { font-weight: bold; }
  .note { fill: #57606a; }
  .figure { font-family: monospace; font-size: 11px; }
  .name, .figure { text-anchor: end; }
  .tick { fill: #57606a; text-anchor: middle; }
  .ground { fill: #ffffff; stroke: #d0d7de; }
  .grid { stroke: #d8dee4; }
  .even { stroke: #24292f; stroke-width: 1.5; }
  .slower { fill: #d4740e; stroke: #d4740e; }
  .faster { fill: #1a7f64; stroke: #1a7f64; }
  .library { fill: #1f6feb; stroke: #1f6feb; }
  .second { fill: #8250df; stroke: #8250df; }
  @media (prefers-color-scheme: dark) {
    text { fill: #e6edf3; }
    .note, .tick { fill: #9aa4af; }
    .ground { fill: #0d1117; stroke: #3d444d; }
    .grid { stroke: #30363d; }
    .even { stroke: #e6edf3; }
    .slower { fill: #f0983f; stroke: #f0983f; }
    .faster { fill: #3fb992; stroke: #3fb992; }
    .library { fill: #58a6ff; stroke: #58a6ff; }
    .second { fill: #bc8cff; stroke: #bc8cff; }
  }
  .bar { stroke: none; fill-opacity: 0.3; }
  .range { stroke-width: 1.5; }
  .curve { fill: none; stroke-width: 2; }
  .dashed { stroke-dasharray: 5 4; }
";

/// A place: how far to the right, and how far down.
pub type Place = (f64, f64);

/// A picture as it is drawn, from back to front. Classes say how things look.
#[derive(Default)]
pub struct Picture {
    body: String,
}

impl Picture {
    pub fn text(&mut self, (x, y): Place, class: &str, text: &str) {
        let text = escaped(text);
        self.push(format!(
            "<text class=\"{class}\" x=\"{x:.1}\" y=\"{y:.1}\">{text}</text>"
        ));
    }

    pub fn line(&mut self, (x1, y1): Place, (x2, y2): Place, class: &str) {
        self.push(format!(
            "<line class=\"{class}\" x1=\"{x1:.1}\" y1=\"{y1:.1}\" x2=\"{x2:.1}\" y2=\"{y2:.1}\"/>"
        ));
    }

    pub fn dot(&mut self, (x, y): Place, class: &str) {
        self.push(format!(
            "<circle class=\"{class}\" cx=\"{x:.1}\" cy=\"{y:.1}\" r=\"3.5\"/>"
        ));
    }

    /// A horizontal bar of this thickness.
    pub fn bar(&mut self, (x1, y): Place, x2: f64, thick: f64, class: &str) {
        let (left, width, top) = (x1.min(x2), (x2 - x1).abs(), y - thick / 2.0);
        self.push(format!(
            "<rect class=\"{class}\" x=\"{left:.1}\" y=\"{top:.1}\" width=\"{width:.1}\" height=\"{thick:.1}\"/>"
        ));
    }

    pub fn curve(&mut self, places: impl Iterator<Item = Place>, class: &str) {
        let points: Vec<String> = places.map(|(x, y)| format!("{x:.1},{y:.1}")).collect();
        self.push(format!(
            "<polyline class=\"{class}\" points=\"{}\"/>",
            points.join(" ")
        ));
    }

    /// The whole file, on a background of this size.
    pub fn finish(self, width: f64, height: f64, title: &str) -> String {
        format!(
            "<svg xmlns=\"http://www.w3.org/2000/svg\" viewBox=\"0 0 {width:.0} {height:.0}\" \
             width=\"{width:.0}\" height=\"{height:.0}\">\n\
             <title>{}</title>\n\
             <style>{STYLE}</style>\n\
             <rect class=\"ground\" x=\"0.5\" y=\"0.5\" width=\"{:.0}\" height=\"{:.0}\" rx=\"6\"/>\n\
             {}</svg>\n",
            escaped(title),
            width - 1.0,
            height - 1.0,
            self.body
        )
    }

    fn push(&mut self, element: String) {
        writeln!(self.body, "{element}").expect("a string takes all");
    }
}

fn escaped(text: &str) -> String {
    text.replace('&', "&amp;")
        .replace('<', "&lt;")
        .replace('>', "&gt;")
}

#[cfg(test)]
mod tests {
    use super::*;

    #[test]
    fn text_cannot_end_its_element() {
        let mut picture = Picture::default();
        picture.text((0.0, 0.0), "name", "a < b & c</text>");
        let drawn = picture.finish(10.0, 10.0, "<");
        assert!(drawn.contains(">a &lt; b &amp; c&lt;/text&gt;</text>"));
        assert!(drawn.contains("<title>&lt;</title>"));
    }
}
