//! Maps values to places in a picture.

/// A scale whose ends are ticks.
pub struct Scale {
    kind: Kind,
    ticks: Vec<f64>,
    /// The places of the first and of the last tick.
    ends: (f64, f64),
}

#[derive(Clone, Copy)]
enum Kind {
    Linear,
    Logarithmic,
}

impl Scale {
    /// A logarithmic scale over these values, with ticks at 1, 2 and 5 of
    /// every power of ten.
    pub fn logarithmic(values: impl Iterator<Item = f64>, ends: (f64, f64)) -> Self {
        let (low, high) = bounds(values);
        let decades = low.log10().floor() as i32..=high.log10().ceil() as i32;
        let steps = decades.flat_map(|power| [1.0, 2.0, 5.0].map(|step| step * decade(power)));
        let all: Vec<f64> = steps.collect();
        // One tick on either side of the values.
        let first = all.iter().rposition(|&tick| tick <= low).unwrap_or(0);
        let last = all.iter().position(|&tick| tick >= high);
        let last = last.unwrap_or(all.len() - 1).max(first + 1);
        Scale {
            kind: Kind::Logarithmic,
            ticks: all[first..=last].to_vec(),
            ends,
        }
    }

    /// A scale from 0 over these values, with up to six ticks.
    pub fn linear(values: impl Iterator<Item = f64>, ends: (f64, f64)) -> Self {
        let (_, high) = bounds(values);
        let power = decade(high.log10().floor() as i32 - 1);
        let steps = [1.0, 2.0, 5.0, 10.0, 20.0].map(|step| step * power);
        let fits = |step: &f64| high <= 5.0 * step;
        let step = steps.into_iter().find(fits).unwrap_or(20.0 * power);
        let count = (high / step).ceil() as usize;
        Scale {
            kind: Kind::Linear,
            ticks: (0..=count).map(|index| index as f64 * step).collect(),
            ends,
        }
    }

    pub fn ticks(&self) -> &[f64] {
        &self.ticks
    }

    pub fn place(&self, value: f64) -> f64 {
        let (first, last) = (self.ticks[0], self.ticks[self.ticks.len() - 1]);
        let share = match self.kind {
            Kind::Linear => (value - first) / (last - first),
            Kind::Logarithmic => (value / first).ln() / (last / first).ln(),
        };
        self.ends.0 + share * (self.ends.1 - self.ends.0)
    }
}

/// The number nearest to a power of ten, so that a tick's name is exact.
fn decade(power: i32) -> f64 {
    format!("1e{power}").parse().expect("this is a number")
}

fn bounds(values: impl Iterator<Item = f64>) -> (f64, f64) {
    values.fold((f64::MAX, f64::MIN_POSITIVE), |(low, high), value| {
        (low.min(value), high.max(value))
    })
}

#[cfg(test)]
mod tests {
    use super::*;

    fn near(place: f64, expected: f64) -> bool {
        (place - expected).abs() < 1e-9
    }

    #[test]
    fn logarithmic_ticks_enclose_the_values() {
        let scale = Scale::logarithmic([0.44, 31.0].into_iter(), (0.0, 100.0));
        assert_eq!(scale.ticks(), [0.2, 0.5, 1.0, 2.0, 5.0, 10.0, 20.0, 50.0]);
        let scale = Scale::logarithmic([1.0].into_iter(), (0.0, 100.0));
        assert_eq!(scale.ticks(), [1.0, 2.0]);
    }

    #[test]
    fn equal_ratios_are_equally_far_apart() {
        let scale = Scale::logarithmic([0.1, 10.0].into_iter(), (100.0, 300.0));
        let places = [0.1, 1.0, 10.0].map(|value| scale.place(value));
        assert!(near(places[0], 100.0) && near(places[1], 200.0) && near(places[2], 300.0));
    }

    #[test]
    fn linear_ticks_begin_at_zero_and_enclose_the_values() {
        let scale = Scale::linear([0.5, 1.7].into_iter(), (0.0, 100.0));
        assert_eq!(scale.ticks(), [0.0, 0.5, 1.0, 1.5, 2.0]);
        let scale = Scale::linear([9.9].into_iter(), (0.0, 100.0));
        assert_eq!(scale.ticks(), [0.0, 2.0, 4.0, 6.0, 8.0, 10.0]);
    }

    #[test]
    fn a_scale_may_fall() {
        let scale = Scale::linear([2.0].into_iter(), (200.0, 100.0));
        assert!(near(scale.place(0.0), 200.0) && near(scale.place(1.0), 150.0));
    }
}
