//! What the tests share: the brute-force version, a small generator, lent
//! buffers with canaries, raw calls, tables.
#![allow(dead_code)]

pub mod brute;

use brute::Answer;
use rumbleog::{raw, Days, Query, Table, Windows};

/// splitmix64.
pub struct Rng(pub u64);

impl Rng {
    pub fn next(&mut self) -> u64 {
        self.0 = self.0.wrapping_add(0x9e37_79b9_7f4a_7c15);
        let mut z = self.0;
        z = (z ^ (z >> 30)).wrapping_mul(0xbf58_476d_1ce4_e5b9);
        z = (z ^ (z >> 27)).wrapping_mul(0x94d0_49bb_1331_11eb);
        z ^ (z >> 31)
    }

    /// A number below n, n > 0.
    pub fn below(&mut self, n: usize) -> usize {
        (self.next() % n as u64) as usize
    }

    /// A number from a to b, both included.
    pub fn from(&mut self, a: usize, b: usize) -> usize {
        a + self.below(b - a + 1)
    }

    /// True once in n.
    pub fn once_in(&mut self, n: usize) -> bool {
        self.below(n) == 0
    }

    pub fn pick<T: Copy>(&mut self, from: &[T]) -> T {
        from[self.below(from.len())]
    }
}

pub trait Cell: Copy + PartialEq + std::fmt::Debug {
    fn pattern(rng: &mut Rng) -> Self;
}

impl Cell for u8 {
    fn pattern(rng: &mut Rng) -> u8 {
        rng.next() as u8
    }
}

impl Cell for u16 {
    fn pattern(rng: &mut Rng) -> u16 {
        rng.next() as u16
    }
}

impl Cell for u32 {
    fn pattern(rng: &mut Rng) -> u32 {
        rng.next() as u32
    }
}

const GUARD: usize = 24;

/// A buffer to lend, patterned inside and with canaries on both sides.
pub struct Lent<T> {
    all: Vec<T>,
    before: Vec<T>,
    length: usize,
}

impl<T: Cell> Lent<T> {
    pub fn new(rng: &mut Rng, length: usize) -> Lent<T> {
        let all: Vec<T> = (0..length + 2 * GUARD).map(|_| T::pattern(rng)).collect();
        Lent {
            before: all.clone(),
            all,
            length,
        }
    }

    /// An input: these contents, canaries about them.
    pub fn holding(rng: &mut Rng, contents: &[T]) -> Lent<T> {
        let mut lent = Lent::new(rng, contents.len());
        lent.all[GUARD..GUARD + contents.len()].copy_from_slice(contents);
        lent.before.copy_from_slice(&lent.all);
        lent
    }

    pub fn get(&self) -> &[T] {
        &self.all[GUARD..GUARD + self.length]
    }

    pub fn get_mut(&mut self) -> &mut [T] {
        &mut self.all[GUARD..GUARD + self.length]
    }

    /// The buffer now holds this, and its canaries live.
    pub fn holds(&self, expected: &[T], what: &str) {
        assert_eq!(self.get().len(), expected.len(), "{what}: length");
        for (i, (now, then)) in self.get().iter().zip(expected).enumerate() {
            assert!(now == then, "{what}[{i}] is {now:?}, not {then:?}");
        }
        let (low, high) = (GUARD, GUARD + self.length);
        assert!(
            self.all[..low] == self.before[..low],
            "{what}: canary before"
        );
        assert!(
            self.all[high..] == self.before[high..],
            "{what}: canary behind"
        );
    }

    pub fn kept(&self, what: &str) {
        self.holds(&self.before[GUARD..GUARD + self.length], what);
    }
}

/// A table with columns of its own.
#[derive(Clone, Debug, Default)]
pub struct Owned {
    pub days: Vec<u16>,
    pub first: Vec<u16>,
    pub second: Vec<u16>,
}

impl Owned {
    pub fn of(rows: &[(u16, u16, u16)]) -> Owned {
        let mut table = Owned::default();
        for &(day, a, b) in rows {
            table.push(day, a, b);
        }
        table
    }

    pub fn push(&mut self, day: u16, a: u16, b: u16) {
        self.days.push(day);
        self.first.push(a.min(b));
        self.second.push(a.max(b));
    }

    pub fn lend(&self) -> Table<'_> {
        Table {
            days: &self.days,
            first: &self.first,
            second: &self.second,
        }
    }

    pub fn rows(&self) -> usize {
        self.days.len()
    }

    /// Rows in day order, as they came inside a day.
    pub fn sorted(rows: &[(u16, u16, u16)]) -> Owned {
        let mut rows = rows.to_vec();
        rows.sort_by_key(|row| row.0);
        Owned::of(&rows)
    }

    pub fn text(&self) -> String {
        brute::table_text(self.lend())
    }
}

/// The columns of a table, lent between canaries.
pub struct LentTable {
    days: Lent<u16>,
    first: Lent<u16>,
    second: Lent<u16>,
}

impl LentTable {
    pub fn new(rng: &mut Rng, table: &Owned) -> LentTable {
        LentTable {
            days: Lent::holding(rng, &table.days),
            first: Lent::holding(rng, &table.first),
            second: Lent::holding(rng, &table.second),
        }
    }

    pub fn lend(&self) -> Table<'_> {
        Table {
            days: self.days.get(),
            first: self.first.get(),
            second: self.second.get(),
        }
    }

    pub fn kept(&self) {
        self.days.kept("days");
        self.first.kept("first");
        self.second.kept("second");
    }
}

/// 01's example.
pub fn season() -> Owned {
    Owned::of(&[
        (1, 1, 2),
        (2, 2, 3),
        (2, 1, 3),
        (4, 1, 2),
        (5, 3, 4),
        (6, 2, 4),
    ])
}

// ---- raw calls: out-numbers start as noise, so that one not written shows ----

const NOISE: u64 = 0xdead_beef_0bad_f00d;

pub fn check_table(table: Table) -> Answer {
    let mut place = NOISE;
    let number = raw::check_table(table, &mut place);
    Answer {
        number,
        place,
        ..Answer::default()
    }
}

pub fn window_ring(
    table: Table,
    query: Query,
    window: Days,
    marks: &mut [u8],
    scratch: &mut [u16],
) -> Answer {
    let (mut place, mut count) = (NOISE, NOISE);
    let number = raw::window_ring(table, query, window, marks, scratch, &mut place, &mut count);
    Answer {
        number,
        place,
        count,
        ..Answer::default()
    }
}

pub fn label_groups(
    table: Table,
    query: Query,
    window: Days,
    labels: &mut [u16],
    scratch: &mut [u16],
) -> Answer {
    let (mut place, mut count) = (NOISE, NOISE);
    let number = raw::label_groups(
        table, query, window, labels, scratch, &mut place, &mut count,
    );
    Answer {
        number,
        place,
        count,
        ..Answer::default()
    }
}

pub fn mark_group(
    table: Table,
    query: Query,
    window: Days,
    account: u16,
    marks: &mut [u8],
    scratch: &mut [u16],
) -> Answer {
    let (mut place, mut count) = (NOISE, NOISE);
    let number = raw::mark_group(
        table, query, window, account, marks, scratch, &mut place, &mut count,
    );
    Answer {
        number,
        place,
        count,
        ..Answer::default()
    }
}

pub fn core_times(
    table: Table,
    query: Query,
    range: Days,
    start: u16,
    accounts: &mut [u16],
    rows: &mut [u16],
    scratch: &mut [u16],
) -> Answer {
    let mut place = NOISE;
    let number = raw::core_times(
        table, query, range, start, accounts, rows, scratch, &mut place,
    );
    Answer {
        number,
        place,
        ..Answer::default()
    }
}

pub fn minimal_windows(
    table: Table,
    query: Query,
    range: Days,
    row: &mut [u16],
    start: &mut [u16],
    end: &mut [u16],
    scratch: &mut [u16],
) -> Answer {
    let (mut place, mut count) = (NOISE, NOISE);
    let number = raw::minimal_windows(
        table, query, range, row, start, end, scratch, &mut place, &mut count,
    );
    Answer {
        number,
        place,
        count,
        ..Answer::default()
    }
}

#[allow(clippy::too_many_arguments)]
pub fn listing(
    table: Table,
    query: Query,
    range: Days,
    start: &mut [u16],
    end: &mut [u16],
    rows: &mut [u16],
    windows: &mut [u32],
    scratch: &mut [u16],
) -> Answer {
    let (mut place, mut count, mut sum, mut empty) = (NOISE, NOISE, NOISE, NOISE);
    let number = raw::listing(
        table, query, range, start, end, rows, windows, scratch, &mut place, &mut count, &mut sum,
        &mut empty,
    );
    Answer {
        number,
        place,
        count,
        sum,
        empty,
    }
}

pub fn recall(table: Table, windows: Windows, window: Days, marks: &mut [u8]) -> Answer {
    let mut place = NOISE;
    let number = raw::recall(table, windows, window, marks, &mut place);
    Answer {
        number,
        place,
        ..Answer::default()
    }
}

pub fn longest_list(range: Days) -> Answer {
    let (mut place, mut count) = (NOISE, NOISE);
    let number = raw::longest_list(range, &mut place, &mut count);
    Answer {
        number,
        place,
        count,
        ..Answer::default()
    }
}

pub fn read_table(text: &[u8], days: &mut [u16], first: &mut [u16], second: &mut [u16]) -> Answer {
    let (mut place, mut count) = (NOISE, NOISE);
    let number = raw::read_table(text, days, first, second, &mut place, &mut count);
    Answer {
        number,
        place,
        count,
        ..Answer::default()
    }
}

pub fn write_table(table: Table, text: &mut [u8]) -> Answer {
    let (mut place, mut length) = (NOISE, NOISE);
    let number = raw::write_table(table, text, &mut place, &mut length);
    Answer {
        number,
        place,
        count: length,
        ..Answer::default()
    }
}

pub fn list(input: &[u8], output: &mut [u8]) -> Answer {
    let (mut line, mut length) = (NOISE, NOISE);
    let number = raw::list(input, output, &mut line, &mut length);
    Answer {
        number,
        place: line,
        count: length,
        ..Answer::default()
    }
}

// ---- tables ----

/// A small valid table: few days, few accounts, often rings.
pub fn small_table(rng: &mut Rng, most_rows: usize) -> Owned {
    let days = rng.from(1, 6);
    let from = rng.pick(&[1, 1, 1, 2, 500, 1_024 + 1 - days]);
    let names = rng.from(2, 6);
    let mut accounts: Vec<u16> = Vec::new();
    while accounts.len() < names {
        let account = match rng.below(8) {
            0 => 0,
            1 => 4_095,
            2 => rng.below(4_096) as u16,
            _ => rng.below(9) as u16,
        };
        if !accounts.contains(&account) {
            accounts.push(account);
        }
    }
    let rows = rng.from(0, most_rows);
    let mut table = Vec::new();
    while table.len() < rows {
        let a = rng.pick(&accounts);
        let b = rng.pick(&accounts);
        if a != b {
            table.push(((from + rng.below(days)) as u16, a.min(b), a.max(b)));
        }
    }
    Owned::sorted(&table)
}

/// A valid table whose rows lie on few days, with many days without rows
/// between them.
pub fn sparse_table(rng: &mut Rng, most_rows: usize) -> Owned {
    let span = rng.from(4, 12);
    let from = rng.pick(&[1, 2, 5, 500, 1_024 + 1 - span]);
    let days: Vec<usize> = (0..rng.from(1, 4))
        .map(|_| from + rng.below(span))
        .collect();
    let accounts = rng.from(3, 5);
    let mut table = Vec::new();
    for _ in 0..rng.from(0, most_rows) {
        let (a, b) = (rng.below(accounts) as u16, rng.below(accounts) as u16);
        if a != b {
            table.push((rng.pick(&days) as u16, a.min(b), a.max(b)));
        }
    }
    Owned::sorted(&table)
}

/// A valid table of some parties that mostly deal among themselves, their
/// accounts mixed: rings of several groups, and rows between these.
pub fn parted_table(rng: &mut Rng, most_rows: usize) -> Owned {
    let days = rng.from(1, 4);
    let mut accounts: Vec<u16> = (0..12).collect();
    accounts.extend([2_048, 4_094, 4_095]);
    for i in (1..accounts.len()).rev() {
        accounts.swap(i, rng.below(i + 1));
    }
    let size = rng.from(2, 5);
    let parties: Vec<&[u16]> = accounts.chunks(size).take(rng.from(2, 5)).collect();
    let between = rng.pick(&[3, 8, 30, 1_000]);
    let mut table = Vec::new();
    for _ in 0..rng.from(0, most_rows) {
        let party = rng.pick(&parties);
        let other = if rng.once_in(between) {
            rng.pick(&parties)
        } else {
            party
        };
        let (a, b) = (rng.pick(party), rng.pick(other));
        if a != b {
            table.push((rng.from(1, days) as u16, a, b));
        }
    }
    Owned::sorted(&table)
}

/// Plants a fault (or more than one) of the table check.
pub fn damage(rng: &mut Rng, table: &mut Owned) {
    for _ in 0..rng.from(1, 2) {
        let rows = table.rows();
        if rows == 0 || rng.once_in(6) {
            let column = match rng.below(3) {
                0 => &mut table.days,
                1 => &mut table.first,
                _ => &mut table.second,
            };
            if column.is_empty() || rng.once_in(2) {
                column.push(7);
            } else {
                column.pop();
            }
            return;
        }
        let row = rng.below(rows);
        match rng.below(7) {
            0 => table.days[row] = rng.pick(&[0, 1_025, 65_535]),
            1 => table.second[row] = rng.pick(&[4_096, 65_535]),
            2 => table.first[row] = table.second[row],
            3 => std::mem::swap(&mut table.first[row], &mut table.second[row]),
            4 => table.days[row] = table.days[row].saturating_sub(1),
            5 => table.days.swap(0, row),
            _ => {
                // two faults in one row: the first of 3, 4, 5 counts
                table.days[row] = rng.pick(&[0, 1, 1_025]);
                table.first[row] = 4_095;
            }
        }
    }
}

/// A query: k mostly where rings are, now and then at the edges.
pub fn some_query(rng: &mut Rng) -> Query {
    let k = match rng.below(20) {
        0 => 0,
        1 => rng.pick(&[4_095, 4_096, 65_535]),
        2 => rng.from(5, 9) as u16,
        3..=6 => 1,
        7 | 8 => 3,
        9 => 4,
        _ => 2,
    };
    Query { k }
}

/// Days about the table's days: mostly a right range, never a wide one.
pub fn some_range(rng: &mut Rng, table: &Owned) -> Days {
    let low = table.days.iter().copied().min().unwrap_or(1);
    let low = low.clamp(1, 1_024);
    let a = (low + rng.below(3) as u16).saturating_sub(1).max(1);
    let b = a + rng.below(7) as u16;
    match rng.below(24) {
        0 => 0..=b,
        1 => b + 1..=a,
        2 => a..=a - 1,
        3 => 1_020..=1_025,
        4 => a..=65_535,
        5 => 1_025..=1_025,
        6 => 1_019..=1_024,
        _ => a.min(1_024)..=b.min(1_024),
    }
}

/// A range that begins and ends some days about the table's first and last day,
/// so mostly where nothing is.
pub fn wide_range(rng: &mut Rng, table: &Owned) -> Days {
    let first = table.days.first().map_or(9, |&day| day.clamp(1, 1_024));
    let last = table.days.last().map_or(9, |&day| day.clamp(first, 1_024));
    let from = (first + rng.below(3) as u16).saturating_sub(rng.below(5) as u16);
    let to = (last + rng.below(5) as u16).saturating_sub(rng.below(3) as u16);
    // Never wide, also where a damaged table's days are far apart.
    let from = from.clamp(1, 1_024);
    from..=to.min(1_024).min(from + 19).max(from)
}

/// A length that should be `right`: mostly is.
pub fn some_length(rng: &mut Rng, right: usize) -> usize {
    match rng.below(14) {
        0 => right + 1,
        1 => right.saturating_sub(1),
        2 => 0,
        _ => right,
    }
}

/// Scratch: exact, longer, one short, none.
pub fn some_scratch(rng: &mut Rng, rows: usize) -> usize {
    let need = 8_192 + 4 * rows;
    match rng.below(12) {
        0 => need - 1,
        1 => need + 1,
        2 => need + rng.below(100),
        3 => rng.below(2) * 8_192,
        4 => need - 4 * rows.min(1),
        _ => need,
    }
}
