//! Chains of parents that never end.

/// What is known of the chain that starts at a device element.
#[derive(Clone, Copy, PartialEq, Eq)]
enum Chain {
    Unknown,
    /// It belongs to the path that is being followed.
    OnPath,
    Ends,
    NeverEnds,
}

/// Follows each step from a device element to its parent once.
#[derive(Default)]
pub struct Chains {
    known: Vec<Chain>,
    path: Vec<usize>,
}

impl Chains {
    /// Forgets the chains known so far, for a pool of `records` records.
    pub fn start(&mut self, records: usize) {
        self.known.clear();
        self.known.resize(records, Chain::Unknown);
    }

    /// Whether the chain from the device element at index `start` never ends.
    /// `parent` gives the index of a device element's parent, if that is a
    /// device element.
    pub fn never_ends(&mut self, start: usize, parent: impl Fn(usize) -> Option<usize>) -> bool {
        let outcome = self.follow(start, parent);
        // All chains on the path have the same outcome.
        for index in self.path.drain(..) {
            self.known[index] = outcome;
        }
        outcome == Chain::NeverEnds
    }

    #[inline]
    fn follow(&mut self, start: usize, parent: impl Fn(usize) -> Option<usize>) -> Chain {
        let mut index = start;
        loop {
            match self.known[index] {
                Chain::Unknown => {}
                Chain::OnPath => return Chain::NeverEnds,
                outcome => return outcome,
            }
            self.known[index] = Chain::OnPath;
            self.path.push(index);
            match parent(index) {
                Some(next) => index = next,
                None => return Chain::Ends,
            }
        }
    }
}

#[cfg(test)]
mod tests {
    use super::*;
    use std::cell::Cell;

    /// Which chains never end, and how many steps were followed.
    fn never_ending(parents: &[Option<usize>]) -> (Vec<bool>, usize) {
        let steps = Cell::new(0);
        let mut chains = Chains::default();
        chains.start(parents.len());
        let outcomes = (0..parents.len())
            .map(|index| {
                chains.never_ends(index, |child| {
                    steps.set(steps.get() + 1);
                    parents[child]
                })
            })
            .collect();
        (outcomes, steps.get())
    }

    #[test]
    fn rings_and_their_tails_never_end() {
        let parents = [Some(1), Some(2), Some(3), Some(1), None, Some(4), Some(6)];
        let expected = [true, true, true, true, false, false, true];
        assert_eq!(never_ending(&parents).0, expected);
    }

    #[test]
    fn each_step_is_followed_once_in_either_direction() {
        let down: Vec<_> = (0..1_000_usize).map(|index| index.checked_sub(1)).collect();
        let up: Vec<_> = down.iter().rev().map(|it| it.map(|at| 999 - at)).collect();
        let ring: Vec<_> = (0..1_000).map(|index| Some((index + 1) % 1_000)).collect();
        assert_eq!(never_ending(&down), (vec![false; 1_000], 1_000));
        assert_eq!(never_ending(&up), (vec![false; 1_000], 1_000));
        assert_eq!(never_ending(&ring), (vec![true; 1_000], 1_000));
    }
}
