//! Seeded tables for the benchmark and the tests of full size: the shapes that
//! real payment and message data have, and shapes made to be hard.

use rumbleog::{Days, Query, Table};

/// splitmix64.
pub struct Rng(pub u64);

impl Rng {
    pub fn next(&mut self) -> u64 {
        self.0 = self.0.wrapping_add(0x9e37_79b9_7f4a_7c15);
        let mut z = self.0;
        z = (z ^ (z >> 30)).wrapping_mul(0xbf58_476d_1ce4_e5b9);
        z = (z ^ (z >> 27)).wrapping_mul(0x94d0_49bb_1331_11eb);
        z ^ (z >> 31)
    }

    /// A number below n, n > 0.
    pub fn below(&mut self, n: usize) -> usize {
        (self.next() % n as u64) as usize
    }
}

/// Three columns.
#[derive(Clone, Debug, Default, PartialEq)]
pub struct Columns {
    pub days: Vec<u16>,
    pub first: Vec<u16>,
    pub second: Vec<u16>,
}

impl Columns {
    pub fn lend(&self) -> Table<'_> {
        Table {
            days: &self.days,
            first: &self.first,
            second: &self.second,
        }
    }
}

/// Ordinary data, or made to be hard.
#[derive(Clone, Copy, Debug, PartialEq, Eq)]
pub enum Class {
    Ordinary,
    Adversary,
}

/// A table with the query that is put to it.
#[derive(Clone, Debug)]
pub struct Case {
    pub name: String,
    pub class: Class,
    pub table: Columns,
    pub k: u16,
    /// Days of the range: 1 to this.
    pub te: u16,
}

impl Case {
    pub fn lend(&self) -> Table<'_> {
        self.table.lend()
    }

    pub fn query(&self) -> Query {
        Query { k: self.k }
    }

    pub fn range(&self) -> Days {
        1..=self.te
    }
}

type Row = (usize, usize, usize);

/// Rows by day; inside a day as they came. Rows of one account are dropped.
fn columns(mut rows: Vec<Row>, most: usize) -> Columns {
    rows.retain(|&(_, a, b)| a != b);
    rows.truncate(most);
    rows.sort_by_key(|row| row.0);
    let mut table = Columns::default();
    for (day, a, b) in rows {
        table.days.push(day as u16);
        table.first.push(a.min(b) as u16);
        table.second.push(a.max(b) as u16);
    }
    table
}

fn uniform(rng: &mut Rng, rows: usize, days: usize, accounts: usize) -> Vec<Row> {
    let mut out = Vec::new();
    while out.len() < rows {
        let (a, b) = (rng.below(accounts), rng.below(accounts));
        if a != b {
            out.push((1 + rng.below(days), a, b));
        }
    }
    out
}

/// Accounts are met the more often, the more rows they have.
fn preferential(rng: &mut Rng, rows: usize, days: usize, accounts: usize) -> Vec<Row> {
    let mut out: Vec<Row> = Vec::new();
    while out.len() < rows {
        let mut end = || {
            if out.is_empty() || rng.below(3) == 0 {
                rng.below(accounts)
            } else {
                let (_, a, b) = out[rng.below(out.len())];
                [a, b][rng.below(2)]
            }
        };
        let (a, b) = (end(), end());
        if a != b {
            out.push((1 + rng.below(days), a, b));
        }
    }
    out
}

/// Half noise, half groups of a dozen that deal for a few days.
fn bursts(rng: &mut Rng, rows: usize, days: usize, accounts: usize) -> Vec<Row> {
    let mut out = uniform(rng, rows / 2, days, accounts);
    while out.len() < rows {
        let low = rng.below(accounts - 12);
        let day = rng.below(days - 6);
        for _ in 0..64 {
            let (a, b) = (low + rng.below(12), low + rng.below(12));
            if a != b {
                out.push((1 + day + rng.below(6), a, b));
            }
        }
    }
    out
}

/// Pairs that write to each other again and again, in spells.
fn messages(rng: &mut Rng, rows: usize, days: usize, accounts: usize) -> Vec<Row> {
    let pairs = preferential(rng, rows / 6, days, accounts);
    let mut out = Vec::new();
    while out.len() < rows {
        let (day, a, b) = pairs[rng.below(pairs.len())];
        let mut at = if rng.below(2) == 0 {
            day
        } else {
            1 + rng.below(days)
        };
        for _ in 0..1 + rng.below(6) {
            if at <= days {
                out.push((at, a, b));
            }
            at += rng.below(8);
        }
    }
    out
}

/// One account deals with all.
fn star(rng: &mut Rng, rows: usize, days: usize, accounts: usize) -> Vec<Row> {
    (0..rows)
        .map(|i| (1 + rng.below(days), 0, 1 + i % (accounts - 1)))
        .collect()
}

/// A hub, and a rim whose neighbours deal with each other.
fn wheel(rng: &mut Rng, rows: usize, days: usize, accounts: usize) -> Vec<Row> {
    let rim = (rows / 4).min(accounts - 1);
    (0..rows)
        .map(|i| {
            let at = (i / 2) % rim;
            let day = 1 + rng.below(days);
            if i % 2 == 0 {
                (day, 0, 1 + at)
            } else {
                (day, 1 + at, 1 + (at + 1) % rim)
            }
        })
        .collect()
}

fn clique(rng: &mut Rng, rows: usize, days: usize) -> Vec<Row> {
    let mut out = Vec::new();
    let mut n = 2;
    while (n + 1) * n / 2 <= rows {
        n += 1;
    }
    for b in 0..n {
        for a in 0..b {
            out.push((1 + rng.below(days), a, b));
        }
    }
    out
}

/// A circle of accounts, each dealing with the next `width`; each pair deals
/// every so many days, the pairs one after another: each day breaks the circle,
/// and all of it closes again a day later.
fn circle(rows: usize, from: usize, days: usize, width: usize, again: usize) -> Vec<Row> {
    let length = (rows / (width * again)).clamp(2, 4_096);
    let period = (days / again).max(1);
    let mut out = Vec::new();
    for turn in 0..again {
        for i in 0..length {
            let day = from + turn * period + i * period / length;
            for step in 1..=width {
                out.push((day, i, (i + step) % length));
            }
        }
    }
    out
}

fn case(name: &str, class: Class, k: u16, rows: Vec<Row>, most: usize, days: usize) -> Case {
    Case {
        name: format!("{name}, k {k}"),
        class,
        table: columns(rows, most),
        k,
        te: days as u16,
    }
}

/// All cases of that many rows.
pub fn cases(rows: usize) -> Vec<Case> {
    use Class::{Adversary, Ordinary};
    let rng = &mut Rng(rows as u64);
    let days = 1_024;
    let many = (rows / 6).clamp(64, 4_096);
    let mut out = Vec::new();

    let table = uniform(rng, rows, days, many);
    for k in [2, 4, 7] {
        out.push(case("uniform", Ordinary, k, table.clone(), rows, days));
    }
    let table = preferential(rng, rows, days, many);
    for k in [2, 6, 12] {
        out.push(case("preferential", Ordinary, k, table.clone(), rows, days));
    }
    let table = bursts(rng, rows, days, many);
    for k in [2, 4, 6] {
        out.push(case(
            "planted bursts",
            Ordinary,
            k,
            table.clone(),
            rows,
            days,
        ));
    }
    let table = messages(rng, rows, days, many);
    for k in [2, 4] {
        out.push(case("messages", Ordinary, k, table.clone(), rows, days));
    }
    let table = uniform(rng, rows, 30, many);
    for k in [2, 6] {
        out.push(case("few days", Ordinary, k, table.clone(), rows, 30));
    }

    let table = star(rng, rows, days, 4_096.min(rows / 2));
    out.push(case("star", Adversary, 1, table, rows, days));
    let table = wheel(rng, rows, days, 4_096);
    for k in [2, 3] {
        out.push(case("wheel", Adversary, k, table.clone(), rows, days));
    }
    let table = clique(rng, rows, days);
    let side = table.iter().map(|row| row.2).max().unwrap_or(0) as u16;
    for k in [side / 4, side / 2] {
        out.push(case("clique", Adversary, k, table.clone(), rows, days));
    }
    for again in [4, 16] {
        let table = circle(rows, 1, days, 1, again);
        let name = format!("cycle, each pair {again} times");
        out.push(case(&name, Adversary, 2, table, rows, days));
    }
    let table = circle(rows, 1, days, 4, 16);
    out.push(case("creeping band", Adversary, 8, table, rows, days));
    let mut table = circle(rows * 3 / 4, 512, 512, 4, 12);
    table.extend(uniform(rng, rows / 4, 511, many));
    out.push(case("late creeping band", Adversary, 8, table, rows, days));
    out
}

/// Rows that stand in a table as they stand here, over all days.
fn in_order(pairs: impl ExactSizeIterator<Item = (usize, usize)>, days: usize) -> Vec<Row> {
    let rows = pairs.len();
    let dated = pairs.enumerate();
    dated
        .map(|(i, (a, b))| (1 + i * days / rows, a, b))
        .collect()
}

/// Cases made for the groups of a ring: long ways to a smallest account, and
/// many groups.
pub fn group_cases() -> Vec<Case> {
    const DAYS: usize = 1_024;
    let rng = &mut Rng(4);
    let mut out = Vec::new();
    let mut add = |name: &str, k: u16, pairs: Vec<(usize, usize)>| {
        let rows = in_order(pairs.into_iter(), DAYS);
        let most = rows.len();
        out.push(case(name, Class::Adversary, k, rows, most, DAYS));
    };

    let mut path: Vec<_> = (0..4_095).map(|a| (a, a + 1)).collect();
    add("path, rising", 1, path.clone());
    add("path, falling", 1, path.iter().rev().copied().collect());
    for i in (1..path.len()).rev() {
        path.swap(i, rng.below(i + 1));
    }
    add("path, shuffled", 1, path);
    // Each row brings a smaller account than all before.
    let falling = (0..4_095).rev().map(|a| (a, 4_095)).collect();
    add("star of the last account, falling", 1, falling);
    let pairs = (0..2_048).map(|group| (2 * group, 2 * group + 1)).collect();
    add("pairs", 1, pairs);
    let triangle = |group: usize| {
        let low = 3 * group;
        [(low, low + 1), (low + 1, low + 2), (low, low + 2)]
    };
    add("triangles", 2, (0..1_365).flat_map(triangle).collect());
    // Sixteen rows a group, so that each day has the rows of one.
    const FOUR: [(usize, usize); 6] = [(0, 1), (2, 3), (1, 2), (0, 3), (0, 2), (1, 3)];
    let four = |i: usize| {
        let (group, (a, b)) = (i / 16, FOUR[i % 16 % 6]);
        (4 * group + a, 4 * group + b)
    };
    add("groups of four", 2, (0..16_384).map(four).collect());
    out
}

/// One plain case by itself, for the measure of memory.
pub fn plain_case(rows: usize) -> Case {
    let table = uniform(&mut Rng(5), rows, 1_024, (rows / 6).max(64));
    case("uniform", Class::Ordinary, 4, table, rows, 1_024)
}

/// A number of some number of digits: each is about as likely.
fn mixed(rng: &mut Rng) -> usize {
    let digits = rng.below(5);
    rng.below([10, 100, 1_000, 10_000, 65_536][digits])
}

/// Drawn columns for table text, by name. Its cost hangs on how many digits the
/// numbers have, and on whether the next one has as many; and any numbers of 16
/// bits are written, so these are no tables.
pub fn drawn_columns(rows: usize) -> [(&'static str, Columns); 5] {
    let rng = &mut Rng(18);
    let mut drawn = |number: fn(&mut Rng) -> usize| {
        let mut column = || (0..rows).map(|_| number(rng) as u16).collect();
        Columns {
            days: column(),
            first: column(),
            second: column(),
        }
    };
    [
        ("any number of 16 bits", drawn(|rng| rng.below(65_536))),
        ("one digit", drawn(|rng| rng.below(10))),
        ("two digits", drawn(|rng| 10 + rng.below(90))),
        ("one to five digits, mixed", drawn(mixed)),
        ("65,535", drawn(|_| 65_535)),
    ]
}

/// A table drawn from a wide family, for the search of a worst case.
pub fn drawn(seed: u64, rows: usize) -> Case {
    let rng = &mut Rng(seed);
    let days = [1_024, 1_024, 700, 256][rng.below(4)];
    let accounts = [6, 12, 24, 64, 150, 400, 1_000, 2_000, 4_096][rng.below(9)];
    let width = 1 + rng.below(8);
    let again = 1 << rng.below(7);
    let mut table = match rng.below(7) {
        0 => uniform(rng, rows, days, accounts),
        1 => preferential(rng, rows, days, accounts.max(20)),
        2 => bursts(rng, rows, days, accounts.max(40)),
        3 => messages(rng, rows, days, accounts.max(20)),
        4 => circle(rows, 1, days, width, again),
        5 => {
            let half = rng.below(rows / 2);
            let mut table = circle(rows - half, 1, days, width, again);
            table.extend(uniform(rng, half, days, accounts));
            table
        }
        _ => wheel(rng, rows, days, accounts.max(8)),
    };
    if rng.below(3) == 0 {
        // Days in waves: most rows of an account near each other.
        for row in &mut table {
            row.0 = 1 + (row.0 + row.1 * days / accounts.max(row.1 + 1)) % days;
        }
    }
    let k = match rng.below(3) {
        0 => 2,
        1 => 2 * width,
        _ => 1 + rng.below((2 * rows / accounts).clamp(1, 40)),
    };
    let name = format!("found by search (seed {seed})");
    case(&name, Class::Adversary, k.max(1) as u16, table, rows, days)
}
