//! Where a task block is.

use std::fmt;

/// The enum, its list, its words and which of them wait, from one table.
macro_rules! places {
    ($($number:literal $name:ident $waits:literal $words:literal,)+) => {
        /// Where a task block is: the number `place` of it. `as u8` gives the number, and it prints as its words.
        #[repr(u8)]
        #[derive(Clone, Copy, Debug, PartialEq, Eq, Hash)]
        pub enum Place {
            $(#[doc = $words] $name = $number,)+
        }

        impl Place {
            /// All of them, by their numbers.
            pub const ALL: &'static [Place] = &[$(Place::$name,)+];

            /// Whether a task waits there: in a queue but the ready one, in LINK, in CHECK or as ending. Its block then has a reading, and
            /// [`Tables::waits_since`](crate::Tables::waits_since) gives it.
            pub fn waits(self) -> bool {
                match self {
                    $(Place::$name => $waits,)+
                }
            }
        }

        impl fmt::Display for Place {
            fn fmt(&self, f: &mut fmt::Formatter<'_>) -> fmt::Result {
                f.write_str(match self {
                    $(Place::$name => $words,)+
                })
            }
        }
    };
}

places! {
    0 Free false "free",
    1 Running false "running",
    2 Ready false "in the ready queue of its level",
    3 Core true "waits in the core queue of its level",
    4 Event true "waits in the event queue",
    5 Time true "waits in the time queue",
    6 Link true "waits in LINK, for its child",
    7 Check true "waits in CHECK, for a request of its own",
    8 Ending true "waits as ending, for its last request",
}

impl Place {
    /// The place of that number; `None` for a number that is none.
    pub fn of(number: u8) -> Option<Place> {
        Place::ALL.iter().copied().find(|place| *place as u8 == number)
    }
}
