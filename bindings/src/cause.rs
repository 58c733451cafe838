//! Why a call is refused.

use core::error::Error;
use core::fmt;

macro_rules! causes {
    ($($(#[$said:meta])* $name:ident = $number:literal, $text:literal;)*) => {
        /// Why a call is refused, by document 01's numbers.
        #[derive(Clone, Copy, Debug, PartialEq, Eq, Hash)]
        #[repr(u32)]
        #[non_exhaustive]
        pub enum Cause {
            $(#[doc = $text] $(#[$said])* $name = $number,)*
        }

        impl Cause {
            /// All causes, in ascending order of their numbers.
            pub const ALL: &'static [Cause] = &[$(Cause::$name,)*];

            /// The cause with this number.
            pub fn of(number: u32) -> Option<Cause> {
                match number {
                    $($number => Some(Cause::$name),)*
                    _ => None,
                }
            }

            fn text(self) -> &'static str {
                match self {
                    $(Cause::$name => $text,)*
                }
            }
        }
    };
}

causes! {
    EmptyPool = 1, "the pool has no byte";
    LongPool = 2, "the pool has over 65,535 bytes";
    NoMark = 3, "a record should begin here, and there is none of the five marks";
    CutRecord = 4, "the pool ends inside this record";
    LongText = 5, "a length byte is over its limit";
    /// Never given: even the shortest records are too long for that many.
    ManyRecords = 6, "the pool has over 8,192 records";
    ShortTable = 7, "the working table has fewer entries than the pool has records";
    BadSize = 20, "the size offered is 0 or over 65,535";
    NothingOffered = 21, "nothing is offered, and nothing kept that could be activated";
    BadPiece = 22, "the piece is empty or longer than what is still to come";
    StoppedEarly = 23, "fewer bytes arrived than were announced";
    Faulty = 24, "the pool has a fault";
    NotActive = 25, "nothing is active";
    ShortArea = 26, "an area is too short";
    ImpossibleSession = 27, "no calls lead to this session value";
    NoSuchId = 28, "no record has this ID";
    NotEightBytes = 30, "the message has not eight bytes";
    BadCommand = 31, "the command is none that is read or written here";
    BadElement = 32, "the element number is over 4,095 or the answered command over 15";
    NoRoomForMessage = 33, "fewer than eight bytes are lent";
    CutLogRecord = 40, "the bytes end inside the log record";
    BadTime = 41, "the time of day is over 86,399,999 ms";
    BadNorth = 42, "north is beyond 900,000,000 either way";
    BadEast = 43, "east is beyond 1,800,000,000 either way";
    BadStatus = 44, "the position status is not 0 to 8, 14 or 15";
    BadOrdinal = 45, "an ordinal is not below the header's count of log values";
    NoRoomForLogRecord = 46, "a list lent for ordinals or values, or the bytes lent, are too short";
    BadLayout = 47, "the layout has a bit above 8";
    ManyLogValues = 48, "the record is to have over 255 values, or more than a list has";
    BadPresentation = 50, "the scale or the decimals are out of range";
}

impl Cause {
    /// Document 01's number.
    pub fn number(self) -> u32 {
        self as u32
    }

    /// `Ok` for 0, otherwise the cause with this number. The library is proved
    /// to give no other number.
    pub(crate) fn check(number: u32) -> Result<(), Cause> {
        match number {
            0 => Ok(()),
            _ => Err(Cause::of(number).expect("a number of document 01")),
        }
    }
}

impl fmt::Display for Cause {
    fn fmt(&self, f: &mut fmt::Formatter) -> fmt::Result {
        write!(f, "{}: {}", self.number(), self.text())
    }
}

impl Error for Cause {}

#[cfg(test)]
mod tests {
    use super::*;
    use std::string::ToString;
    use std::vec::Vec;

    #[test]
    fn numbers_and_causes_agree() {
        let numbers: Vec<u32> = Cause::ALL.iter().map(|cause| cause.number()).collect();
        let known = (1..=7).chain(20..=28).chain(30..=33).chain(40..=48);
        assert_eq!(numbers, known.chain([50]).collect::<Vec<_>>());
        for number in 0..=100 {
            let cause = Cause::of(number);
            assert_eq!(cause.map(Cause::number), cause.map(|_| number));
            assert_eq!(cause.is_some(), numbers.contains(&number));
        }
    }

    #[test]
    fn a_cause_says_its_number_and_why() {
        let said = Cause::StoppedEarly.to_string();
        assert_eq!(said, "23: fewer bytes arrived than were announced");
    }
}
