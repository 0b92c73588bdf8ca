//! Tables of full size, where brute force cannot follow: the calls are held
//! against each other, the window ring against a plain peeling and its groups
//! against a plain flood.

mod common;

#[path = "../bench/src/tables.rs"]
#[allow(dead_code)]
mod tables;

use common::{brute, Owned, Rng};
use rumbleog::{self as lib, Days, Listed, Query, Refusal, Table, Windows, NEVER, NO_GROUP};
use tables::{cases, Case, Columns};

/// Entries of three columns, cut at their count.
struct List {
    a: Vec<u16>,
    b: Vec<u16>,
    c: Vec<u16>,
}

impl List {
    fn of(places: usize) -> List {
        List {
            a: vec![0xaaaa; places],
            b: vec![0xbbbb; places],
            c: vec![0xcccc; places],
        }
    }

    fn cut(&mut self, count: usize) {
        self.a.truncate(count);
        self.b.truncate(count);
        self.c.truncate(count);
    }

    fn kept_from(&self, place: usize) -> bool {
        let kept = |column: &[u16], contents: u16| column[place..].iter().all(|&n| n == contents);
        kept(&self.a, 0xaaaa) && kept(&self.b, 0xbbbb) && kept(&self.c, 0xcccc)
    }

    fn windows(&self) -> Windows<'_> {
        Windows {
            row: &self.a,
            start: &self.b,
            end: &self.c,
        }
    }
}

/// A lent list of rings: start, end and rows, and the windows behind each.
struct Rings {
    list: List,
    windows: Vec<u32>,
}

impl Rings {
    fn of(places: usize) -> Rings {
        Rings {
            list: List::of(places),
            windows: vec![0xdddd_dddd; places],
        }
    }

    /// Lists, and cuts at the count; what lies past it is kept. Every window of the range is
    /// behind one ring, or has none.
    fn fill(&mut self, table: Table, query: Query, range: Days, scratch: &mut [u16]) -> Listed {
        let days = range.clone().count() as u64;
        let listed = self.try_fill(table, query, range, scratch).unwrap();
        let count = listed.count as usize;
        assert!(self.list.kept_from(count) && self.kept_from(count));
        self.list.cut(count);
        self.windows.truncate(count);
        assert!(self.windows.iter().all(|&windows| windows > 0));
        let behind: u64 = self.windows.iter().map(|&windows| u64::from(windows)).sum();
        assert_eq!(behind + listed.empty, days * (days + 1) / 2);
        listed
    }

    fn try_fill(
        &mut self,
        table: Table,
        query: Query,
        range: Days,
        scratch: &mut [u16],
    ) -> Result<Listed, Refusal> {
        let List { a, b, c } = &mut self.list;
        lib::listing(table, query, range, a, b, c, &mut self.windows, scratch)
    }

    fn kept_from(&self, place: usize) -> bool {
        self.windows[place..].iter().all(|&n| n == 0xdddd_dddd)
    }
}

/// The number of windows of a range with the ring of [s, e], which is listed there with that many
/// rows. It lies in the ring of each window about [s, e], so the rows need only be counted.
fn windows_about(case: &Case, (s, e, rows): (u16, u16, u16), scratch: &mut [u16]) -> u32 {
    let mut marks = vec![0; case.table.days.len()];
    let mut same = |from: u16, to: u16| {
        let ones = lib::window_ring(case.lend(), case.query(), from..=to, &mut marks, scratch);
        ones == Ok(u64::from(rows))
    };
    let (mut from, mut to, mut found) = (s, e, 0);
    while to < case.te && same(s, to + 1) {
        to += 1;
    }
    // An earlier start never has more ends.
    loop {
        found += u32::from(to - e) + 1;
        from -= 1;
        if from == 0 {
            return found;
        }
        while !same(from, to) {
            if to == e {
                return found;
            }
            to -= 1;
        }
    }
}

/// Marks of the ring by plain peeling, with a set for each account.
fn plain_ring(table: Table, query: Query, window: Days) -> Vec<u8> {
    use std::collections::{BTreeMap, BTreeSet};
    let mut near: BTreeMap<u16, BTreeSet<u16>> = BTreeMap::new();
    let inside = |row: usize| window.contains(&table.days[row]);
    for row in (0..table.days.len()).filter(|&row| inside(row)) {
        let (a, b) = (table.first[row], table.second[row]);
        near.entry(a).or_default().insert(b);
        near.entry(b).or_default().insert(a);
    }
    loop {
        let short: Vec<u16> = near
            .iter()
            .filter(|(_, others)| others.len() < usize::from(query.k))
            .map(|(&account, _)| account)
            .collect();
        if short.is_empty() {
            break;
        }
        for account in short {
            for other in near.remove(&account).unwrap_or_default() {
                if let Some(others) = near.get_mut(&other) {
                    others.remove(&account);
                }
            }
        }
    }
    (0..table.days.len())
        .map(|row| {
            let met = near.contains_key(&table.first[row]) && near.contains_key(&table.second[row]);
            u8::from(inside(row) && met)
        })
        .collect()
}

/// Labels of the marked rows by a plain flood: from each account in rising order
/// that none has reached, to everyone that rows connect.
fn plain_labels(table: Table, marks: &[u8]) -> Vec<u16> {
    let marked = || (0..marks.len()).filter(|&row| marks[row] == 1);
    let mut near = vec![Vec::new(); 4_096];
    for row in marked() {
        let (a, b) = (table.first[row], table.second[row]);
        near[usize::from(a)].push(b);
        near[usize::from(b)].push(a);
    }
    let mut leader = vec![NO_GROUP; 4_096];
    for from in 0..4_096 {
        let mut open = vec![from];
        while let Some(account) = open.pop() {
            let reached = &mut leader[usize::from(account)];
            if *reached == NO_GROUP {
                *reached = from;
                open.extend(&near[usize::from(account)]);
            }
        }
    }
    let mut labels = vec![NO_GROUP; marks.len()];
    for row in marked() {
        labels[row] = leader[usize::from(table.first[row])];
    }
    labels
}

/// The groups of a window's ring against a plain flood, all labels and the marks
/// of some accounts. The labels found.
fn groups_agree(table: Table, query: Query, window: Days, seed: u64) -> Vec<u16> {
    let rng = &mut Rng(seed);
    let rows = table.days.len();
    let mut scratch = vec![0x5a5a; lib::scratch_for(rows) + rng.below(5)];
    let mut labels = vec![7; rows];
    let mut marks = vec![7; rows];
    let ring = plain_ring(table, query, window.clone());
    let expected = plain_labels(table, &ring);
    let ones = ring.iter().filter(|&&mark| mark == 1).count();
    let count = lib::label_groups(table, query, window.clone(), &mut labels, &mut scratch);
    assert_eq!(count, Ok(ones as u64), "{query:?} {window:?}");
    assert!(labels == expected, "{query:?} {window:?}");
    assert!(scratch.iter().all(|&number| number == 0));

    let mut found: Vec<u16> = labels.clone();
    found.sort();
    found.dedup();
    found.retain(|&label| label != NO_GROUP);
    let mut named: Vec<u16> = vec![0, 4_095, 4_096];
    named.extend(found.first());
    named.extend(found.last());
    for _ in 0..8.min(rows) {
        let row = rng.below(rows);
        named.extend([table.first[row], table.second[row]]);
    }
    for account in named {
        let has = |row: usize| [table.first[row], table.second[row]].contains(&account);
        let label = (0..rows).find(|&row| ring[row] == 1 && has(row));
        let label = label.map(|row| expected[row]);
        let same = |row: usize| Some(expected[row]) == label;
        let count = (0..rows).filter(|&row| same(row)).count();
        scratch.fill(0x5a5a);
        marks.fill(7);
        let got = lib::mark_group(
            table,
            query,
            window.clone(),
            account,
            &mut marks,
            &mut scratch,
        );
        assert!(scratch.iter().all(|&number| number == 0), "{account}");
        if label.is_none() {
            assert_eq!(got, Err(Refusal::NotInRing), "{account}");
            assert!(marks.iter().all(|&mark| mark == 7), "{account}");
        } else {
            assert_eq!(got, Ok(count as u64), "{account}");
            assert!((0..rows).all(|row| marks[row] == u8::from(same(row))));
        }
    }
    found
}

/// What one table says, and that its parts agree. The number of windows tried.
fn agrees(case: &Case, seed: u64) -> usize {
    let rng = &mut Rng(seed);
    let (table, query, te) = (case.lend(), case.query(), case.te);
    let rows = table.days.len();
    let name = &case.name;
    let mut scratch = vec![0x5a5a; lib::scratch_for(rows) + rng.below(5)];
    let mut tried = 0;

    // Listing: with room for any list, with exact room, with a place too few.
    let room = lib::longest_list(case.range()).unwrap() as usize;
    let mut all = Rings::of(room);
    let listed = all.fill(table, query, case.range(), &mut scratch);
    let count = listed.count as usize;
    assert!(scratch.iter().all(|&number| number == 0), "{name}");
    let rings = &all.list;
    let sum: u64 = rings.c.iter().map(|&rows| u64::from(rows)).sum();
    assert_eq!(sum, listed.sum, "{name}");
    for i in 1..count {
        let last = (rings.a[i - 1], rings.b[i - 1]);
        assert!(last < (rings.a[i], rings.b[i]), "{name}: order at {i}");
    }
    let mut exact = Rings::of(count);
    scratch.fill(0xffff);
    let again = exact.fill(table, query, case.range(), &mut scratch);
    assert_eq!(again, listed, "{name}");
    let same = (&exact.list.a, &exact.list.b, &exact.list.c) == (&rings.a, &rings.b, &rings.c);
    assert!(same && exact.windows == all.windows, "{name}: exact room");
    if count > 0 {
        let mut short = Rings::of(count - 1);
        let refused = short.try_fill(table, query, case.range(), &mut scratch);
        assert_eq!(refused, Err(Refusal::NoRoom), "{name}");
        assert!(short.list.kept_from(0) && short.kept_from(0), "{name}");
    }

    // Windows behind a ring, one by one: of some rings with not too many.
    let few: Vec<usize> = (0..count)
        .filter(|&i| (2..=150).contains(&all.windows[i]))
        .collect();
    for _ in 0..few.len().min(2) {
        let i = few[rng.below(few.len())];
        let ring = (rings.a[i], rings.b[i], rings.c[i]);
        let found = windows_about(case, ring, &mut scratch);
        assert_eq!(found, all.windows[i], "{name}: windows of {ring:?}");
    }

    // Minimal windows: a place too few tells nothing but 10.
    let mut places = 1 << 16;
    let mut windows;
    loop {
        windows = List::of(places);
        let List { a, b, c } = &mut windows;
        match lib::minimal_windows(table, query, case.range(), a, b, c, &mut scratch) {
            Ok(count) => {
                windows.cut(count as usize);
                break;
            }
            Err(refusal) => {
                assert_eq!(refusal, Refusal::NoRoom, "{name}");
                assert!(a.iter().all(|&number| number == 0xaaaa), "{name}");
                places *= 2;
            }
        }
    }
    assert!(scratch.iter().all(|&number| number == 0), "{name}");
    if !windows.a.is_empty() {
        let mut short = List::of(windows.a.len() - 1);
        let List { a, b, c } = &mut short;
        let refused = lib::minimal_windows(table, query, case.range(), a, b, c, &mut scratch);
        assert_eq!(refused, Err(Refusal::NoRoom), "{name}");
        assert!(scratch.iter().all(|&number| number == 0), "{name}");
    }

    // Core times at some starts, from the minimal windows: the least end among
    // a row's windows that start no earlier.
    let mut accounts = vec![0; 4_096];
    let mut times = vec![0; rows];
    let mut marks = vec![7; rows];
    let mut recalled = vec![7; rows];
    for _ in 0..12 {
        let s = 1 + rng.below(usize::from(te)) as u16;
        let range = case.range();
        lib::core_times(
            table,
            query,
            range,
            s,
            &mut accounts,
            &mut times,
            &mut scratch,
        )
        .unwrap();
        assert!(scratch.iter().all(|&number| number == 0), "{name}");
        let mut least = vec![NEVER; rows];
        for i in 0..windows.a.len() {
            let row = usize::from(windows.a[i]);
            if windows.b[i] >= s {
                least[row] = least[row].min(windows.c[i]);
            }
        }
        assert!(times == least, "{name}: core times at {s}");
        // and against window rings
        for _ in 0..4 {
            let e = s + rng.below(usize::from(te - s) + 1) as u16;
            lib::window_ring(table, query, s..=e, &mut marks, &mut scratch).unwrap();
            for row in 0..rows {
                assert_eq!(
                    marks[row] == 1,
                    times[row] <= e,
                    "{name}: row {row} [{s},{e}]"
                );
            }
            let mut met = vec![false; 4_096];
            for row in (0..rows).filter(|&row| marks[row] == 1) {
                met[usize::from(table.first[row])] = true;
                met[usize::from(table.second[row])] = true;
            }
            for account in 0..4_096 {
                assert_eq!(
                    met[account],
                    accounts[account] <= e,
                    "{name}: account {account} [{s},{e}]"
                );
            }
            tried += 1;
        }
    }

    // Windows: recall is the ring, and the ring's tightest window is listed.
    for turn in 0..60 {
        let s = 1 + rng.below(usize::from(te)) as u16;
        let e = s + rng.below(usize::from(te - s) + 1) as u16;
        let ones = lib::window_ring(table, query, s..=e, &mut marks, &mut scratch).unwrap();
        lib::recall(table, windows.windows(), s..=e, &mut recalled).unwrap();
        assert!(marks == recalled, "{name}: recall [{s},{e}]");
        if turn < 6 {
            assert!(
                marks == plain_ring(table, query, s..=e),
                "{name}: [{s},{e}]"
            );
        }
        let ring: Vec<usize> = (0..rows).filter(|&row| marks[row] == 1).collect();
        assert_eq!(ring.len() as u64, ones, "{name}");
        if let (Some(&first), Some(&last)) = (ring.first(), ring.last()) {
            let tight = (table.days[first], table.days[last]);
            let at = (0..count)
                .collect::<Vec<_>>()
                .binary_search_by_key(&tight, |&i| (rings.a[i], rings.b[i]));
            let at = at.unwrap_or_else(|_| panic!("{name}: {tight:?} is not listed"));
            assert_eq!(u64::from(rings.c[at]), ones, "{name}: {tight:?}");
        }
        tried += 1;
    }

    // Listed entries: each, or several hundred of a long list.
    let step = count / 500 + 1;
    for i in (rng.below(step)..count).step_by(step) {
        let (s, e) = (rings.a[i], rings.b[i]);
        let ones = lib::window_ring(table, query, s..=e, &mut marks, &mut scratch).unwrap();
        assert_eq!(ones, u64::from(rings.c[i]), "{name}: entry {i}");
        let first = marks.iter().position(|&mark| mark == 1).unwrap();
        let last = marks.iter().rposition(|&mark| mark == 1).unwrap();
        assert_eq!((table.days[first], table.days[last]), (s, e), "{name}");
        tried += 1;
    }
    println!(
        "{name}: {rows} rows, {count} rings, {} minimal windows, {tried} window rings",
        windows.a.len()
    );
    tried
}

#[test]
fn full_tables_agree() {
    let mut tried = 0;
    for case in cases(16_384) {
        assert!(case.table.days.len() > 16_000, "{}", case.name);
        tried += agrees(&case, 31);
    }
    println!("full tables: {tried} window rings compared");
}

#[test]
fn middle_tables_agree() {
    for case in cases(1_024).iter().chain(&cases(2_500)) {
        agrees(case, 32);
    }
}

/// Numbers 0 to n - 1 in some order.
fn shuffled(rng: &mut Rng, n: usize) -> Vec<usize> {
    let mut order: Vec<usize> = (0..n).collect();
    for i in (1..n).rev() {
        order.swap(i, rng.below(i + 1));
    }
    order
}

/// Payments in this order, 16 a day.
fn in_order(pairs: impl IntoIterator<Item = (u16, u16)>) -> Owned {
    let mut table = Owned::default();
    for (row, (a, b)) in pairs.into_iter().enumerate() {
        table.push(1 + (row / 16) as u16, a, b);
    }
    table
}

/// All accounts on one path, its payments in some orders and its accounts under
/// some names: one group. Half of its payments have no circle, so each joins two
/// parts: there are as many groups as accounts more than payments.
#[test]
fn groups_on_a_path() {
    let rng = &mut Rng(41);
    let plain: Vec<usize> = (0..4_096).collect();
    let names = [
        plain.clone(),
        plain.iter().rev().copied().collect(),
        // Low and high by turns.
        plain.iter().map(|i| i / 2 + i % 2 * 2_048).collect(),
        shuffled(rng, 4_096),
    ];
    let steps: Vec<usize> = (0..4_095).collect();
    // Pairs first, then pairs of pairs, and so on.
    let mut doubled = steps.clone();
    doubled.sort_by_key(|&step| (step + 1).trailing_zeros());
    let orders = [
        steps.clone(),
        steps.iter().rev().copied().collect(),
        shuffled(rng, 4_095),
        doubled,
    ];
    for names in &names {
        for order in &orders {
            let name = |i: usize| names[i] as u16;
            let table = in_order(order.iter().map(|&i| (name(i), name(i + 1))));
            let (table, query) = (table.lend(), Query { k: 1 });
            assert_eq!(groups_agree(table, query, 1..=1_024, 1), [0]);
            let half = [&table.first[..2_048], &table.second[..2_048]].concat();
            let met: std::collections::BTreeSet<u16> = half.into_iter().collect();
            let found = groups_agree(table, query, 1..=128, 2);
            assert_eq!(found.len(), met.len() - 2_048);
            groups_agree(table, query, 100..=200, 3);
            // A path has no ring for k = 2.
            assert_eq!(groups_agree(table, Query { k: 2 }, 1..=1_024, 4), []);
        }
    }
}

#[test]
fn groups_of_stars_and_pairs() {
    let rng = &mut Rng(42);
    let query = Query { k: 1 };
    for centre in [0, 2_048, 4_095] {
        let others = shuffled(rng, 4_096);
        let others = others.iter().map(|&other| other as u16);
        let rays = others.filter(|&other| other != centre);
        let table = in_order(rays.map(|other| (centre, other)));
        assert_eq!(groups_agree(table.lend(), query, 1..=1_024, 5), [0]);
        groups_agree(table.lend(), query, 100..=200, 6);
    }
    let names = shuffled(rng, 4_096);
    // Neighbours, the first with the last and so on, any two.
    let neighbours: Vec<usize> = (0..4_096).collect();
    let nested = (0..2_048).flat_map(|i| [i, 4_095 - i]).collect();
    for names in [neighbours, nested, names] {
        let pairs = names.chunks(2).map(|pair| (pair[0] as u16, pair[1] as u16));
        let table = in_order(pairs);
        let found = groups_agree(table.lend(), query, 1..=1_024, 7);
        assert_eq!(found.len(), 2_048);
        assert_eq!(groups_agree(table.lend(), query, 2..=3, 8).len(), 32);
    }
}

/// Full tables: drawn among all accounts, or in parties of one size that rarely
/// deal with others, and those of the benchmark.
#[test]
fn groups_of_full_tables() {
    let rng = &mut Rng(43);
    let mut most = 0;
    for size in [4_096, 1_024, 64, 16, 8, 6] {
        for between in [16_384, 400, 20] {
            let names = shuffled(rng, 4_096);
            let mut table = Owned::default();
            while table.rows() < 16_384 {
                let a = rng.below(4_096);
                let near = a / size * size + rng.below(size.min(4_096 - a / size * size));
                let b = match rng.once_in(between) {
                    true => rng.below(4_096),
                    false => near,
                };
                if a != b {
                    let day = 1 + (table.rows() / 16) as u16;
                    table.push(day, names[a] as u16, names[b] as u16);
                }
            }
            for k in 1..=6 {
                for window in [1..=1_024, 200..=900, 512..=767, 1_000..=1_024] {
                    let found = groups_agree(table.lend(), Query { k }, window, 9);
                    most = most.max(found.len());
                }
            }
        }
    }
    assert!(most > 600, "{most} groups only");
    for case in cases(16_384) {
        for window in [case.range(), 300..=700] {
            groups_agree(case.lend(), case.query(), window, 10);
        }
    }
    println!("groups of full tables: up to {most} of one ring");
}

/// Listing and minimal windows rebuilt from the window rings of ALL windows.
#[test]
fn lists_rebuilt_from_all_window_rings() {
    let mut tried = 0;
    for seed in 0..60 {
        let mut case = tables::drawn(seed, 400);
        // Fold the days so that all windows can be tried.
        let days = 36;
        for day in &mut case.table.days {
            *day = 1 + (*day - 1) * (days - 1) / 1_023;
        }
        let (table, query) = (case.lend(), case.query());
        let rows = table.days.len();
        let mut scratch = vec![0; lib::scratch_for(rows)];
        let mut marks = vec![0; rows];
        // a ring's tightest window and rows: the windows whose ring it is
        let mut expected_rings = std::collections::BTreeMap::new();
        let mut empty = 0;
        // times[row]: its core time at the start after this one
        let mut after = vec![NEVER; rows];
        let mut expected_windows = Vec::new();
        for s in (1..=days).rev() {
            let mut times = vec![NEVER; rows];
            for e in (s..=days).rev() {
                let ones = lib::window_ring(table, query, s..=e, &mut marks, &mut scratch).unwrap();
                for row in (0..rows).filter(|&row| marks[row] == 1) {
                    times[row] = e;
                }
                if ones > 0 {
                    let first = marks.iter().position(|&mark| mark == 1).unwrap();
                    let last = marks.iter().rposition(|&mark| mark == 1).unwrap();
                    let ring = (table.days[first], table.days[last], ones as u16);
                    *expected_rings.entry(ring).or_insert(0) += 1;
                } else {
                    empty += 1;
                }
                tried += 1;
            }
            for row in 0..rows {
                if times[row] != NEVER && times[row] != after[row] {
                    expected_windows.push((row as u16, s, times[row]));
                }
            }
            after = times;
        }
        expected_windows.sort();
        let mut list = List::of(expected_windows.len());
        let List { a, b, c } = &mut list;
        let count = lib::minimal_windows(table, query, 1..=days, a, b, c, &mut scratch);
        assert_eq!(count, Ok(expected_windows.len() as u64), "{}", case.name);
        let got: Vec<_> = (0..a.len()).map(|i| (a[i], b[i], c[i])).collect();
        assert!(got == expected_windows, "{}", case.name);
        let mut rings = Rings::of(expected_rings.len());
        let listed = rings.fill(table, query, 1..=days, &mut scratch);
        assert_eq!(listed.count as usize, expected_rings.len(), "{}", case.name);
        assert_eq!(listed.empty, empty, "{}", case.name);
        let (List { a, b, c }, d) = (&rings.list, &rings.windows);
        let got: Vec<_> = (0..a.len()).map(|i| ((a[i], b[i], c[i]), d[i])).collect();
        assert!(
            got == expected_rings.into_iter().collect::<Vec<_>>(),
            "{}",
            case.name
        );
    }
    println!("lists rebuilt from {tried} window rings");
}

/// A listing of the most rings there can be, and lists past 65,535 entries.
#[test]
fn the_longest_lists() {
    // A row a day: every window has a ring of its own for k = 1.
    let mut columns = Columns::default();
    for i in 0..16_384_u16 {
        columns.days.push(1 + i / 16);
        columns.first.push(i % 16);
        columns.second.push(16 + i % 7);
    }
    let table = Table {
        days: &columns.days,
        first: &columns.first,
        second: &columns.second,
    };
    let query = Query { k: 1 };
    let mut scratch = vec![1; lib::scratch_for(16_384)];
    let mut rings = Rings::of(524_800);
    let listed = rings.fill(table, query, 1..=1_024, &mut scratch);
    let List { a, b, c } = &rings.list;
    assert_eq!((listed.count, listed.empty), (524_800, 0));
    assert!(rings.windows.iter().all(|&windows| windows == 1));
    assert_eq!(lib::longest_list(1..=1_024), Ok(524_800));
    let mut at = 0;
    let mut sum = 0;
    for s in 1..=1_024 {
        for e in s..=1_024 {
            assert_eq!((a[at], b[at], c[at]), (s, e, 16 * (e - s + 1)));
            sum += u64::from(c[at]);
            at += 1;
        }
    }
    assert_eq!(listed.sum, sum);
    assert!(sum > 1 << 31);
    let mut short = Rings::of(524_799);
    let refused = short.try_fill(table, query, 1..=1_024, &mut scratch);
    assert_eq!(refused, Err(Refusal::NoRoom));

    // A cycle that breaks each day: every row has many minimal windows.
    let longest = cases(16_384)
        .into_iter()
        .filter(|case| case.name.starts_with("cycle"))
        .map(|case| {
            let (table, query) = (case.lend(), case.query());
            let mut list = List::of(20_000_000);
            let List { a, b, c } = &mut list;
            lib::minimal_windows(table, query, 1..=1_024, a, b, c, &mut scratch).unwrap()
        })
        .max()
        .unwrap_or(0);
    assert!(longest > 65_535, "{longest} entries only");
    println!("longest minimal-window list: {longest} entries");
}

/// As text and back, in exactly the text space that it takes; a byte less is a 10.
fn through_text(table: Table) {
    let rows = table.days.len();
    let mut text = vec![b'#'; lib::table_text_for(rows)];
    let short = &mut text[1..];
    assert_eq!(lib::write_table(table, short), Err(Refusal::NoRoom));
    assert!(text.iter().all(|&byte| byte == b'#'));
    assert_eq!(lib::write_table(table, &mut text), Ok(text.len()));
    assert!(text == brute::table_text(table).into_bytes());
    let mut read = List::of(rows);
    let List { a, b, c } = &mut read;
    assert_eq!(lib::read_table(&text, a, b, c), Ok(rows));
    assert!(read.a == table.days && read.b == table.first && read.c == table.second);
}

#[test]
fn tables_as_text() {
    for case in cases(16_384) {
        through_text(case.lend());
    }
    // More rows than a table has, and than 16 bits count: text has no limit.
    let column: Vec<u16> = (0..70_000).map(|row| row as u16).collect();
    through_text(Table {
        days: &column,
        first: &column,
        second: &column,
    });
}

/// Eight threads at once on one table: each call touches what it is lent.
#[test]
fn eight_threads() {
    type Answers = (
        Vec<u16>,
        Vec<u16>,
        Vec<u16>,
        Vec<u16>,
        Vec<u8>,
        Vec<u8>,
        Vec<u32>,
        Listed,
        Vec<u16>,
        Vec<u8>,
    );
    let case = &cases(4_096)[4];
    fn answers(case: &Case) -> Answers {
        let (table, query, range) = (case.lend(), case.query(), case.range());
        let rows = table.days.len();
        let mut scratch = vec![9; lib::scratch_for(rows)];
        let mut rings = Rings::of(524_800);
        let listed = rings.fill(table, query, range.clone(), &mut scratch);
        let mut windows = List::of(1 << 20);
        let List { a, b, c } = &mut windows;
        let count = lib::minimal_windows(table, query, range.clone(), a, b, c, &mut scratch);
        let count = count.unwrap();
        windows.cut(count as usize);
        let mut accounts = vec![0; 4_096];
        let mut times = vec![0; rows];
        lib::core_times(
            table,
            query,
            range,
            100,
            &mut accounts,
            &mut times,
            &mut scratch,
        )
        .unwrap();
        let mut marks = vec![0; rows];
        lib::window_ring(table, query, 90..=900, &mut marks, &mut scratch).unwrap();
        let mut recalled = vec![0; rows];
        lib::recall(table, windows.windows(), 90..=900, &mut recalled).unwrap();
        let mut labels = vec![0; rows];
        lib::label_groups(table, query, 90..=900, &mut labels, &mut scratch).unwrap();
        let mut group = vec![0; rows];
        let named = table.second[marks.iter().position(|&mark| mark == 1).unwrap()];
        lib::mark_group(table, query, 90..=900, named, &mut group, &mut scratch).unwrap();
        (
            rings.list.c,
            windows.c,
            accounts,
            times,
            marks,
            recalled,
            rings.windows,
            listed,
            labels,
            group,
        )
    }
    let alone = answers(case);
    assert_eq!(alone.4, alone.5);
    std::thread::scope(|scope| {
        for _ in 0..8 {
            scope.spawn(|| {
                for _ in 0..4 {
                    assert!(answers(case) == alone, "another answer in a thread");
                }
            });
        }
    });
}
