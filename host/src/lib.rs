//! Temporal rings (temporal k-cores) of a dated payment table.
//!
//! Safe wrappers over the C interface of the proved archive: one function for
//! each call, slices in, a [`Refusal`] or the answer out. A wrapper adds
//! nothing: every check is made by the archive, in the order that the header
//! `rumbleog.h` gives, and every buffer holds at exit what it says there.
//!
//! ```
//! use rumbleog::{scratch_for, window_ring, Query, Table};
//!
//! let table = Table {
//!     days: &[1, 2, 2, 4, 5, 6],
//!     first: &[1, 2, 1, 1, 3, 2],
//!     second: &[2, 3, 3, 2, 4, 4],
//! };
//! let mut marks = [0; 6];
//! let mut scratch = vec![0; scratch_for(6)];
//! let rows = window_ring(table, Query { k: 2 }, 1..=4, &mut marks, &mut scratch)?;
//! assert_eq!(rows, 4);
//! assert_eq!(marks, [1, 1, 1, 1, 0, 0]);
//! # Ok::<(), rumbleog::Refusal>(())
//! ```

pub mod raw;
mod refusal;

pub use refusal::{number, Refusal};

/// Most rows of a table.
pub const MOST_ROWS: usize = 16_384;
/// The last day; days start at 1.
pub const LAST_DAY: u16 = 1_024;
/// Number of accounts: 0 to 4,095.
pub const ACCOUNTS: usize = 4_096;
/// A core time that is never.
pub const NEVER: u16 = 65_535;
/// The label of a row outside the ring.
pub const NO_GROUP: u16 = 65_535;
/// Most bytes that [`list`] takes.
pub const MOST_INPUT: usize = 18_448;
/// Most rings that [`list`] lists.
pub const MOST_LISTED: usize = 2_048;

/// Scratch, in 16-bit numbers, that a table of that many rows needs.
pub const fn scratch_for(rows: usize) -> usize {
    8_192 + 4 * rows
}

/// Bytes of listing text for that many rings.
pub const fn text_for(rings: usize) -> usize {
    22 * (1 + rings)
}

/// Bytes of table text for that many rows.
pub const fn table_text_for(rows: usize) -> usize {
    18 * rows
}

/// Three lent columns: days, first accounts, second accounts.
#[derive(Clone, Copy, Debug, PartialEq, Eq)]
pub struct Table<'a> {
    /// Days, 1 to 1,024, never falling.
    pub days: &'a [u16],
    /// First accounts, each below the second of its row.
    pub first: &'a [u16],
    /// Second accounts, up to 4,095.
    pub second: &'a [u16],
}

/// What makes a ring.
#[derive(Clone, Copy, Debug, PartialEq, Eq)]
pub struct Query {
    /// Each account of a ring deals with at least this many others: 1 to 4,095.
    pub k: u16,
}

/// The days of a window or of a range, as `1..=6`: first and last included.
pub type Days = std::ops::RangeInclusive<u16>;

/// What a listing found.
#[derive(Clone, Copy, Debug, PartialEq, Eq)]
pub struct Listed {
    /// Number of rings.
    pub count: u64,
    /// Sum of their numbers of rows.
    pub sum: u64,
    /// Number of windows of the range with no ring.
    pub empty: u64,
}

/// A minimal-window list: columns row, start, end.
#[derive(Clone, Copy, Debug, PartialEq, Eq)]
pub struct Windows<'a> {
    /// Rows, rising.
    pub row: &'a [u16],
    /// First days.
    pub start: &'a [u16],
    /// Last days.
    pub end: &'a [u16],
}

fn judged(number: u32, place: u64) -> Result<(), Refusal> {
    match Refusal::of(number, place) {
        None => Ok(()),
        Some(refusal) => Err(refusal),
    }
}

/// Lists the rings of a text (query line, then rows) as text; the number of
/// bytes written. Refuses 2, 11, 12, 13, 3, 4, 5, 6, 7, 10, with input lines
/// from 1 as places.
pub fn list(input: &[u8], output: &mut [u8]) -> Result<usize, Refusal> {
    let (mut line, mut length) = (0, 0);
    let number = raw::list(input, output, &mut line, &mut length);
    judged(number, line)?;
    Ok(length as usize)
}

/// Checks a table. Refuses 1, 2, 3, 4, 5.
pub fn check_table(table: Table) -> Result<(), Refusal> {
    let mut place = 0;
    let number = raw::check_table(table, &mut place);
    judged(number, place)
}

/// Marks the rows of the window's ring with 1, every other with 0; the number
/// of ones. Refuses 1 to 9.
pub fn window_ring(
    table: Table,
    query: Query,
    window: Days,
    marks: &mut [u8],
    scratch: &mut [u16],
) -> Result<u64, Refusal> {
    let (mut place, mut count) = (0, 0);
    let number = raw::window_ring(table, query, window, marks, scratch, &mut place, &mut count);
    judged(number, place)?;
    Ok(count)
}

/// Labels the rows of the window's ring, each with the smallest account of its
/// group, connected to it through rows of the ring; every other row with
/// [`NO_GROUP`]. The number of rows of the ring. Refuses 1 to 9.
pub fn label_groups(
    table: Table,
    query: Query,
    window: Days,
    labels: &mut [u16],
    scratch: &mut [u16],
) -> Result<u64, Refusal> {
    let (mut place, mut count) = (0, 0);
    let number = raw::label_groups(
        table, query, window, labels, scratch, &mut place, &mut count,
    );
    judged(number, place)?;
    Ok(count)
}

/// Marks the rows of one group of the window's ring, the one of an account,
/// with 1, every other with 0; the number of ones. Refuses 1 to 9, 15.
pub fn mark_group(
    table: Table,
    query: Query,
    window: Days,
    account: u16,
    marks: &mut [u8],
    scratch: &mut [u16],
) -> Result<u64, Refusal> {
    let (mut place, mut count) = (0, 0);
    let number = raw::mark_group(
        table, query, window, account, marks, scratch, &mut place, &mut count,
    );
    judged(number, place)?;
    Ok(count)
}

/// Core times of 4,096 accounts and of each row at a start in the range;
/// [`NEVER`] where there is none. Refuses 1 to 9.
pub fn core_times(
    table: Table,
    query: Query,
    range: Days,
    start: u16,
    accounts: &mut [u16],
    rows: &mut [u16],
    scratch: &mut [u16],
) -> Result<(), Refusal> {
    let mut place = 0;
    let number = raw::core_times(
        table, query, range, start, accounts, rows, scratch, &mut place,
    );
    judged(number, place)
}

/// Minimal windows of every row in the range by row, then start; the number of
/// entries. Refuses 1 to 10.
pub fn minimal_windows(
    table: Table,
    query: Query,
    range: Days,
    row: &mut [u16],
    start: &mut [u16],
    end: &mut [u16],
    scratch: &mut [u16],
) -> Result<u64, Refusal> {
    let (mut place, mut count) = (0, 0);
    let number = raw::minimal_windows(
        table, query, range, row, start, end, scratch, &mut place, &mut count,
    );
    judged(number, place)?;
    Ok(count)
}

/// Distinct rings of the range by start, then end, each with its first and last
/// row day, its number of rows and the number of windows of the range whose
/// ring it is. Refuses 1 to 10.
#[allow(clippy::too_many_arguments)]
pub fn listing(
    table: Table,
    query: Query,
    range: Days,
    start: &mut [u16],
    end: &mut [u16],
    rows: &mut [u16],
    windows: &mut [u32],
    scratch: &mut [u16],
) -> Result<Listed, Refusal> {
    let (mut place, mut count, mut sum, mut empty) = (0, 0, 0, 0);
    let number = raw::listing(
        table, query, range, start, end, rows, windows, scratch, &mut place, &mut count, &mut sum,
        &mut empty,
    );
    judged(number, place)?;
    Ok(Listed { count, sum, empty })
}

/// Marks the rows with a listed window inside the window asked for. Refuses 1
/// to 5, 8, 14, 7.
pub fn recall(
    table: Table,
    windows: Windows,
    window: Days,
    marks: &mut [u8],
) -> Result<(), Refusal> {
    let mut place = 0;
    let number = raw::recall(table, windows, window, marks, &mut place);
    judged(number, place)
}

/// The most rings that the days of a range can have. Refuses 7.
pub fn longest_list(range: Days) -> Result<u64, Refusal> {
    let (mut place, mut count) = (0, 0);
    let number = raw::longest_list(range, &mut place, &mut count);
    judged(number, place)?;
    Ok(count)
}

/// Reads rows from text into three columns; the number of rows. Refuses 11,
/// 12, 13, 10.
pub fn read_table(
    text: &[u8],
    days: &mut [u16],
    first: &mut [u16],
    second: &mut [u16],
) -> Result<usize, Refusal> {
    let (mut place, mut count) = (0, 0);
    let number = raw::read_table(text, days, first, second, &mut place, &mut count);
    judged(number, place)?;
    Ok(count as usize)
}

/// Writes any three columns of one length, be they a table or not, as text; the
/// number of bytes. Text that [`read_table`] accepts comes out again byte for
/// byte. Refuses 1, 10.
pub fn write_table(table: Table, text: &mut [u8]) -> Result<usize, Refusal> {
    let (mut place, mut length) = (0, 0);
    let number = raw::write_table(table, text, &mut place, &mut length);
    judged(number, place)?;
    Ok(length as usize)
}
