//! Why a call is refused.

use std::fmt;

/// The enum, its list and its words, from one table.
macro_rules! refusals {
    ($($number:literal $name:ident $words:literal,)+) => {
        /// Why a call is refused: the first number of its answer. They stand in the order in which they are looked at; where several apply, the first is
        /// given. `as u8` gives the number, and it prints as its words.
        #[repr(u8)]
        #[derive(Clone, Copy, Debug, PartialEq, Eq, Hash)]
        pub enum Refusal {
            $(#[doc = $words] $name = $number,)+
        }

        impl Refusal {
            /// All of them, in that order.
            pub const ALL: &'static [Refusal] = &[$(Refusal::$name,)+];
        }

        impl fmt::Display for Refusal {
            fn fmt(&self, f: &mut fmt::Formatter<'_>) -> fmt::Result {
                f.write_str(match self {
                    $(Refusal::$name => $words,)+
                })
            }
        }
    };
}

refusals! {
    9 TablesBroken "the tables break the table rules",
    10 Not16Bytes "it is not 16 bytes",
    24 NoCode "there is no such code",
    11 NobodyRuns "a running task is needed and none is",
    25 CoreUnderRead "a request of the caller is queued or on the channel",
    12 NoModule "there is no such module",
    19 NoEvent "the event is undefined or above 63",
    22 NoDevice "the device is above 249",
    23 BadAmount "the byte count is 0 or above 65535, or SIGNAL's value is not 0 or 1",
    18 NotHeld "the caller does not hold that request block",
    13 BadKind "the kind is not one of this call, or an event is undefined",
    14 BadCount "the count is 0 or more than the events in the set",
    15 PastClockEnd "the clock plus the interval passes the clock's end",
    16 NoTaskBlock "all 24 task blocks are in use",
    17 NoRequestBlock "all 16 request blocks are in use",
    20 ChannelEmpty "nothing is on the channel",
    21 ClockAtEnd "the clock is at its end",
}

impl Refusal {
    /// The refusal of a call by its number; `None` for a number that refuses none, 0 among them.
    pub fn of(number: u8) -> Option<Refusal> {
        Refusal::ALL.iter().copied().find(|refusal| *refusal as u8 == number)
    }
}
