//! Why a call did nothing: the one table of the refusals in Rust.

/// Makes [`number`] and [`Refusal`] of lines: number, name in the header, name
/// in Rust (with its place, if it has one), what is wrong.
macro_rules! refusals {
    ($($number:literal, $constant:ident, $name:ident $(($place:ident))?, $what:literal;)*) => {
        /// The numbers that a call returns, by their names in the header
        /// `rumbleog.h`, there with `RUMBLEOG_` before them.
        pub mod number {
            /// No refusal.
            pub const OK: u32 = 0;
            $(
                #[doc = $what]
                pub const $constant: u32 = $number;
            )*

            /// Every refusal: its number, its name here and its name in
            /// [`Refusal`](crate::Refusal).
            pub const NAMES: &[(u32, &str, &str)] =
                &[$(($number, stringify!($constant), stringify!($name)),)*];
        }

        /// Why a call did nothing, with the place where there is one: a row or an
        /// entry counted from 0, a line counted from 1. In
        /// [`list`](crate::list) the place of a row is its input line.
        #[derive(Clone, Copy, Debug, PartialEq, Eq)]
        #[non_exhaustive]
        pub enum Refusal {
            $(
                #[doc = concat!($number, ": ", $what)]
                $name $((refusals!(@type $place)))?,
            )*
            /// A number that this version does not know, and the place that came with it.
            Unknown(u32, u64),
        }

        impl Refusal {
            /// The refusal of a number and a place; none for [`number::OK`].
            pub fn of(number: u32, place: u64) -> Option<Refusal> {
                Some(match number {
                    number::OK => return None,
                    $(number::$constant => Refusal::$name $(({ let $place = place; $place }))?,)*
                    _ => Refusal::Unknown(number, place),
                })
            }

            /// Its number.
            pub fn number(self) -> u32 {
                match self {
                    $(Refusal::$name { .. } => number::$constant,)*
                    Refusal::Unknown(number, _) => number,
                }
            }

            /// Its place, if it has one. Of a number that is not known, 0 counts as none.
            pub fn place(self) -> Option<u64> {
                match self {
                    $($(Refusal::$name($place) => Some($place),)?)*
                    Refusal::Unknown(_, place) if place != 0 => Some(place),
                    _ => None,
                }
            }

            /// What is wrong, in words.
            pub fn what(self) -> &'static str {
                match self {
                    $(Refusal::$name { .. } => $what,)*
                    Refusal::Unknown(..) => "a refusal that this version does not know",
                }
            }
        }
    };
    (@type $place:ident) => { u64 };
}

#[rustfmt::skip]
refusals! {
     1, COLUMNS_DIFFER, ColumnsDiffer,      "the table's three columns differ in length";
     2, TOO_LARGE,      TooLarge,           "over 16,384 rows, or over 18,448 bytes of text";
     3, BAD_DAY,        BadDay(row),        "a day outside 1 to 1,024";
     4, BAD_ACCOUNTS,   BadAccounts(row),   "second account above 4,095, or first not below second";
     5, DAY_FALLS,      DayFalls(row),      "a day below the previous row's";
     6, BAD_K,          BadK,               "k outside 1 to 4,095";
     7, BAD_RANGE,      BadRange,           "days of the query out of order or outside 1 to 1,024";
     8, BAD_LENGTH,     BadLength,          "marks or columns of the wrong length";
     9, SCRATCH,        Scratch,            "scratch below 8,192 + 4 x rows numbers";
    10, NO_ROOM,        NoRoom,             "more entries, lines or bytes than the places lent";
    11, BAD_LINE,       BadLine(line),      "a line of the wrong number of bytes";
    12, BAD_FIELD,      BadField(line),     "a field that is no right-justified number";
    13, BAD_NUMBER,     BadNumber(line),    "a number above 65,535";
    14, BAD_ENTRY,      BadEntry(entry),    "a faulty entry in a minimal-window list";
    15, NOT_IN_RING,    NotInRing,          "the named account is not in the window's ring";
}

impl std::fmt::Display for Refusal {
    fn fmt(&self, f: &mut std::fmt::Formatter) -> std::fmt::Result {
        write!(f, "refused {}", self.number())?;
        if let Some(place) = self.place() {
            write!(f, " at {place}")?;
        }
        write!(f, ": {}", self.what())
    }
}

impl std::error::Error for Refusal {}
