//! What was compared, counted by class.

use crate::input::Class;
use crate::library::FAULT_WORDS;
use crate::subjects::Subjects;
use crate::verdict::Verdict;

/// What calls answer: 0 or a refusal.
const NUMBERS: &[u32] = &[0, 1, 2, 3, 4, 5, 6, 7, 24, 28];
/// Can't occur: a pool holds at most 5,461 records.
const MANY_RECORDS: u32 = 6;

#[derive(Clone, Copy, Default)]
pub struct Tally {
    inputs: u64,
    accepted: u64,
    faulty: u64,
    pub listings: u64,
    /// Calls of the library by their number.
    numbers: [u64; NUMBERS.len()],
}

impl Tally {
    pub fn count_input(&mut self, verdict: &Verdict) {
        self.inputs += 1;
        self.accepted += u64::from(verdict.is_accepted());
        self.faulty += u64::from(!verdict.faults.is_empty());
    }

    pub fn count_call(&mut self, number: u32) {
        let place = NUMBERS.iter().position(|&it| it == number);
        self.numbers[place.expect("a number of the rules")] += 1;
    }

    fn add(&mut self, other: &Tally) {
        self.inputs += other.inputs;
        self.accepted += other.accepted;
        self.faulty += other.faulty;
        self.listings += other.listings;
        for (sum, count) in self.numbers.iter_mut().zip(other.numbers) {
            *sum += count;
        }
    }

    fn print(&self, name: &str) {
        let calls: u64 = self.numbers.iter().sum();
        print!("{name:<16}");
        let counts = [
            self.inputs,
            self.accepted,
            self.faulty,
            self.listings,
            calls,
        ];
        for count in counts.into_iter().chain(self.numbers) {
            print!("{count:>9}");
        }
        println!();
    }
}

pub struct Tallies {
    by_class: [Tally; Class::ALL.len()],
    /// Faults that were compared in a buffer.
    faults: Subjects,
    /// Checks of pools with more faults than the buffer had room for, by the
    /// words that were left over.
    cut_buffers: [u64; FAULT_WORDS],
}

impl Tallies {
    pub fn new() -> Self {
        Tallies {
            by_class: Default::default(),
            faults: Subjects::of_all("faults in buffers"),
            cut_buffers: [0; FAULT_WORDS],
        }
    }

    pub fn of(&mut self, class: Class) -> &mut Tally {
        &mut self.by_class[class as usize]
    }

    /// Counts a check with a buffer of `words` words.
    pub fn count_buffer(&mut self, verdict: &Verdict, words: usize) {
        if words / FAULT_WORDS < verdict.faults.len() {
            self.cut_buffers[words % FAULT_WORDS] += 1;
        }
    }

    /// Counts the first faults of a pool, as many as a buffer had room for.
    pub fn count_faults(&mut self, verdict: &Verdict, room: usize) -> Result<(), String> {
        let mut written = verdict.faults.iter().take(room);
        written.try_for_each(|fault| self.faults.count(fault, &verdict.records))
    }

    fn total(&self) -> Tally {
        let mut total = Tally::default();
        self.by_class.iter().for_each(|tally| total.add(tally));
        total
    }

    pub fn inputs(&self) -> u64 {
        self.total().inputs
    }

    pub fn print(&self) {
        print!("{:<16}", "class");
        for name in ["inputs", "accepted", "faulty", "listed", "calls"] {
            print!("{name:>9}");
        }
        for number in NUMBERS {
            print!("{:>9}", format!("gave {number}"));
        }
        println!();
        for class in Class::ALL {
            self.by_class[class as usize].print(class.name());
        }
        self.total().print("all");
        self.faults.print();
        print!("buffers too short, by words left over");
        for (words, count) in self.cut_buffers.iter().enumerate() {
            print!("; {words}: {count}");
        }
        println!();
    }

    /// Answers, faults and buffers that should have occurred and did not.
    pub fn unseen(&self) -> Vec<String> {
        let counts = NUMBERS.iter().copied().zip(self.total().numbers);
        let numbers = counts
            .filter(|&(number, count)| number != MANY_RECORDS && count == 0)
            .map(|(number, _)| format!("a call that gives {number}"));
        let cut = self.cut_buffers.iter().enumerate();
        let cut = cut
            .filter(|&(_, &count)| count == 0)
            .map(|(words, _)| format!("a buffer that ends after {words} words of a fault"));
        numbers.chain(self.faults.unseen()).chain(cut).collect()
    }
}
