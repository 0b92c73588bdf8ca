//! Every call that checks a table against the brute-force version, on seeded
//! random small tables, valid and damaged.

mod common;

use common::brute::{self, Answer, RowSet};
use common::*;
use rumbleog::number::*;
use rumbleog::{Days, Query, Table, Windows, LAST_DAY};

/// A table for a case: one in five is damaged.
fn case_table(rng: &mut Rng, most_rows: usize) -> Owned {
    let mut table = small_table(rng, most_rows);
    if rng.once_in(5) {
        damage(rng, &mut table);
    }
    table
}

/// Is it a range of days, as every call asks for one?
fn is_range(range: &Days) -> bool {
    !range.is_empty() && *range.start() >= 1 && *range.end() <= LAST_DAY
}

/// The refusals of the table check, as a random table meets them.
const TABLE: [u32; 4] = [COLUMNS_DIFFER, BAD_DAY, BAD_ACCOUNTS, DAY_FALLS];

/// How often each refusal number came up: a test that never meets one is weak.
struct Seen([u64; 16]);

impl Seen {
    /// Success, the table check's refusals and these must have come up.
    fn report(&self, call: &str, cases: u64, all: &[u32]) {
        println!(
            "{call}: {cases} random cases; by refusal number {:?}",
            self.0
        );
        for &number in [OK].iter().chain(&TABLE).chain(all) {
            assert!(self.0[number as usize] > 0, "{call}: no case met {number}");
        }
    }
}

#[test]
fn table_check() {
    let mut rng = Rng(1);
    let mut seen = Seen([0; 16]);
    let cases = 100_000;
    for case in 0..cases {
        let mut table = small_table(&mut rng, 20);
        if !rng.once_in(4) {
            damage(&mut rng, &mut table);
        }
        let lent = LentTable::new(&mut rng, &table);
        let expected = brute::check_table(table.lend());
        assert_eq!(check_table(lent.lend()), expected, "case {case}: {table:?}");
        lent.kept();
        seen.0[expected.number as usize] += 1;
    }
    seen.report("check_table", cases, &[]);
}

#[test]
fn window_rings() {
    let mut rng = Rng(2);
    let mut seen = Seen([0; 16]);
    let cases = 60_000;
    for case in 0..cases {
        let table = case_table(&mut rng, 18);
        let query = some_query(&mut rng);
        let window = some_range(&mut rng, &table);
        let length = some_length(&mut rng, table.rows());
        let mut marks = Lent::<u8>::new(&mut rng, length);
        let length = some_scratch(&mut rng, table.rows());
        let mut scratch = Lent::<u16>::new(&mut rng, length);
        let lent = LentTable::new(&mut rng, &table);

        let mut want_marks = marks.get().to_vec();
        let mut want_scratch = scratch.get().to_vec();
        let expected = brute::window_ring(
            table.lend(),
            query,
            window.clone(),
            &mut want_marks,
            &mut want_scratch,
        );
        let got = window_ring(
            lent.lend(),
            query,
            window.clone(),
            marks.get_mut(),
            scratch.get_mut(),
        );
        assert_eq!(got, expected, "case {case}: {query:?} {window:?} {table:?}");
        marks.holds(&want_marks, "marks");
        scratch.holds(&want_scratch, "scratch");
        lent.kept();
        seen.0[expected.number as usize] += 1;
    }
    seen.report(
        "window_ring",
        cases,
        &[BAD_K, BAD_RANGE, BAD_LENGTH, SCRATCH],
    );
}

/// A table for the groups of its rings, and a window of it.
fn some_parts(rng: &mut Rng) -> (Owned, Days) {
    let mut table = match rng.once_in(3) {
        true => small_table(rng, 18),
        false => parted_table(rng, 40),
    };
    if rng.once_in(5) {
        damage(rng, &mut table);
    }
    let window = some_range(rng, &table);
    (table, window)
}

#[test]
fn group_labels() {
    let mut rng = Rng(11);
    let mut seen = Seen([0; 16]);
    let cases = 40_000;
    for case in 0..cases {
        let (table, window) = some_parts(&mut rng);
        let query = some_query(&mut rng);
        let length = some_length(&mut rng, table.rows());
        let mut labels = Lent::<u16>::new(&mut rng, length);
        let length = some_scratch(&mut rng, table.rows());
        let mut scratch = Lent::<u16>::new(&mut rng, length);
        let lent = LentTable::new(&mut rng, &table);

        let mut want_labels = labels.get().to_vec();
        let mut want_scratch = scratch.get().to_vec();
        let expected = brute::label_groups(
            table.lend(),
            query,
            window.clone(),
            &mut want_labels,
            &mut want_scratch,
        );
        let got = label_groups(
            lent.lend(),
            query,
            window.clone(),
            labels.get_mut(),
            scratch.get_mut(),
        );
        assert_eq!(got, expected, "case {case}: {query:?} {window:?} {table:?}");
        labels.holds(&want_labels, "labels");
        scratch.holds(&want_scratch, "scratch");
        lent.kept();
        seen.0[expected.number as usize] += 1;
    }
    seen.report(
        "label_groups",
        cases,
        &[BAD_K, BAD_RANGE, BAD_LENGTH, SCRATCH],
    );
}

#[test]
fn group_marks() {
    let mut rng = Rng(12);
    let mut seen = Seen([0; 16]);
    let cases = 60_000;
    for case in 0..cases {
        let (table, window) = some_parts(&mut rng);
        let query = some_query(&mut rng);
        let met = [&table.first[..], &table.second[..], &[1]].concat();
        let account = match rng.below(10) {
            0 => rng.pick(&[0, 4_095, 4_096, 4_097, 65_535]),
            1 => rng.below(12) as u16,
            _ => rng.pick(&met),
        };
        let length = some_length(&mut rng, table.rows());
        let mut marks = Lent::<u8>::new(&mut rng, length);
        let length = some_scratch(&mut rng, table.rows());
        let mut scratch = Lent::<u16>::new(&mut rng, length);
        let lent = LentTable::new(&mut rng, &table);

        let mut want_marks = marks.get().to_vec();
        let mut want_scratch = scratch.get().to_vec();
        let expected = brute::mark_group(
            table.lend(),
            query,
            window.clone(),
            account,
            &mut want_marks,
            &mut want_scratch,
        );
        let got = mark_group(
            lent.lend(),
            query,
            window.clone(),
            account,
            marks.get_mut(),
            scratch.get_mut(),
        );
        assert_eq!(
            got, expected,
            "case {case}: {query:?} {window:?} of {account} {table:?}"
        );
        marks.holds(&want_marks, "marks");
        scratch.holds(&want_scratch, "scratch");
        lent.kept();
        seen.0[expected.number as usize] += 1;
    }
    seen.report(
        "mark_group",
        cases,
        &[BAD_K, BAD_RANGE, BAD_LENGTH, SCRATCH, NOT_IN_RING],
    );
}

/// The rows of a table that a test keeps, as a table.
fn only(table: &Owned, keep: impl Fn(usize) -> bool) -> Owned {
    let rows: Vec<_> = (0..table.rows())
        .filter(|&row| keep(row))
        .map(|row| (table.days[row], table.first[row], table.second[row]))
        .collect();
    Owned::of(&rows)
}

/// Every window, every k and every account of a table: groups together are the
/// ring, each by itself is its own ring, and marks are the rows of one label.
#[test]
fn groups_agree() {
    let mut rng = Rng(13);
    let (mut rings, mut several) = (0, 0);
    for case in 0..600 {
        let table = parted_table(&mut rng, 48);
        let lent = table.lend();
        let rows = table.rows();
        let mut scratch = vec![7; 8_192 + 4 * rows];
        let (mut ring, mut marks, mut labels) = (vec![7; rows], vec![7; rows], vec![7; rows]);
        let mut want = vec![7; rows];
        for (s, e) in (1..=4).flat_map(|s| (s..=4).map(move |e| (s, e))) {
            for k in [0, 1, 2, 3, 4, 5, 4_095, 4_096] {
                let query = Query { k };
                let what = format!("case {case}: {query:?} [{s},{e}] {table:?}");
                let told = label_groups(lent, query, s..=e, &mut labels, &mut scratch);
                let expected = brute::label_groups(lent, query, s..=e, &mut want, &mut scratch);
                assert_eq!(told, expected, "{what}");
                assert_eq!(labels, want, "{what}");
                let number = window_ring(lent, query, s..=e, &mut ring, &mut scratch);
                assert_eq!(told, number, "{what}");
                if told.number != OK {
                    continue;
                }
                for row in 0..rows {
                    assert_eq!(labels[row] == 65_535, ring[row] == 0, "{what}");
                }
                let mut found: Vec<u16> = labels.clone();
                found.sort();
                found.dedup();
                found.retain(|&label| label != 65_535);
                rings += u64::from(!found.is_empty());
                several += u64::from(found.len() > 1);
                for label in found {
                    let group = only(&table, |row| labels[row] == label);
                    let mut own = vec![7; group.rows()];
                    window_ring(group.lend(), query, s..=e, &mut own, &mut scratch);
                    assert!(own.iter().all(|&mark| mark == 1), "{label} of {what}");
                }
                for account in (0..12).chain([2_048, 4_094, 4_095, 4_096, 4_100]) {
                    let has = |row: usize| [table.first[row], table.second[row]].contains(&account);
                    let met = (0..rows).find(|&row| ring[row] == 1 && has(row));
                    marks.fill(7);
                    let told = mark_group(lent, query, s..=e, account, &mut marks, &mut scratch);
                    let Some(met) = met else {
                        assert_eq!(told.number, NOT_IN_RING, "{account} of {what}");
                        assert!(marks.iter().all(|&mark| mark == 7));
                        continue;
                    };
                    assert_eq!(told.number, OK, "{account} of {what}");
                    for row in 0..rows {
                        let same = labels[row] == labels[met];
                        assert_eq!(marks[row], u8::from(same), "{account} of {what}");
                    }
                }
            }
        }
    }
    println!("groups: {rings} rings, {several} of several groups, with every account");
    assert!(several > 1_000, "{several} only");
}

/// The brute-force groups are those of the accounts that a walk along rows
/// reaches: from each account to each, by way of the accounts one by one.
#[test]
fn brute_groups_are_reached() {
    let mut rng = Rng(14);
    let cases = 2_000;
    for case in 0..cases {
        let table = parted_table(&mut rng, 24);
        let rows = brute::window_rows(table.lend(), 1..=2);
        let mut accounts: Vec<u16> = Vec::new();
        for &row in &rows {
            accounts.extend([table.first[row], table.second[row]]);
        }
        accounts.sort();
        accounts.dedup();
        let at = |account: u16| accounts.binary_search(&account).unwrap();
        let number = accounts.len();
        let mut reached = vec![vec![false; number]; number];
        for &row in &rows {
            let (a, b) = (at(table.first[row]), at(table.second[row]));
            reached[a][b] = true;
            reached[b][a] = true;
        }
        for by in 0..number {
            for from in 0..number {
                for to in 0..number {
                    reached[from][to] |= reached[from][by] && reached[by][to];
                }
            }
        }
        let expected: std::collections::BTreeSet<brute::Group> = (0..number)
            .map(|from| {
                let to = (0..number).filter(|&to| reached[from][to]);
                to.map(|to| accounts[to]).collect()
            })
            .collect();
        let groups = brute::groups(table.lend(), &rows);
        assert_eq!(groups, expected, "case {case}: {table:?}");
    }
    println!("brute groups against walks: {cases} random cases");
}

#[test]
fn core_time_columns() {
    let mut rng = Rng(3);
    let mut seen = Seen([0; 16]);
    let cases = 20_000;
    for case in 0..cases {
        let table = case_table(&mut rng, 18);
        let query = some_query(&mut rng);
        let range = some_range(&mut rng, &table);
        let (first, last) = (*range.start(), *range.end());
        let start = match rng.below(10) {
            0 => first.saturating_sub(1),
            1 => last.saturating_add(1),
            _ => first + rng.below(usize::from(last.saturating_sub(first)).min(10) + 1) as u16,
        };
        let length = some_length(&mut rng, 4_096);
        let mut accounts = Lent::<u16>::new(&mut rng, length);
        let length = some_length(&mut rng, table.rows());
        let mut rows = Lent::<u16>::new(&mut rng, length);
        let length = some_scratch(&mut rng, table.rows());
        let mut scratch = Lent::<u16>::new(&mut rng, length);
        let lent = LentTable::new(&mut rng, &table);

        let mut want_accounts = accounts.get().to_vec();
        let mut want_rows = rows.get().to_vec();
        let mut want_scratch = scratch.get().to_vec();
        let expected = brute::core_times(
            table.lend(),
            query,
            range.clone(),
            start,
            &mut want_accounts,
            &mut want_rows,
            &mut want_scratch,
        );
        let got = core_times(
            lent.lend(),
            query,
            range.clone(),
            start,
            accounts.get_mut(),
            rows.get_mut(),
            scratch.get_mut(),
        );
        assert_eq!(
            got, expected,
            "case {case}: {query:?} {range:?} from {start} {table:?}"
        );
        accounts.holds(&want_accounts, "accounts");
        rows.holds(&want_rows, "rows");
        scratch.holds(&want_scratch, "scratch");
        lent.kept();
        seen.0[expected.number as usize] += 1;
    }
    seen.report(
        "core_times",
        cases,
        &[BAD_K, BAD_RANGE, BAD_LENGTH, SCRATCH],
    );
}

/// Three columns out, a fourth, the scratch.
type Call =
    fn(Table, Query, Days, &mut [u16], &mut [u16], &mut [u16], &mut [u32], &mut [u16]) -> Answer;

/// Minimal windows and listing: columns out, with the same checks.
struct ColumnsCall {
    name: &'static str,
    archive: Call,
    brute: Call,
    /// Columns that it takes: of three, the fourth is lent to nobody.
    columns: usize,
    /// The entries alone, of a table and a query that pass the checks.
    entries: fn(Table, Query, Days) -> Vec<brute::Listed>,
}

const MINIMAL_WINDOWS: ColumnsCall = ColumnsCall {
    name: "minimal_windows",
    archive: |table, query, range, a, b, c, _, scratch| {
        minimal_windows(table, query, range, a, b, c, scratch)
    },
    brute: |table, query, range, a, b, c, _, scratch| {
        brute::minimal_windows(table, query, range, a, b, c, scratch)
    },
    columns: 3,
    entries: |table, query, range| {
        let list = brute::minimal_window_list(table, query, range);
        list.into_iter().map(|(a, b, c)| (a, b, c, 0)).collect()
    },
};

const LISTING: ColumnsCall = ColumnsCall {
    name: "listing",
    archive: listing,
    brute: brute::listing,
    columns: 4,
    entries: |table, query, range| brute::ring_list(table, query, range).0,
};

/// A table and a range of days about it.
type Draw = fn(&mut Rng) -> (Owned, Days);

fn dense(rng: &mut Rng) -> (Owned, Days) {
    let table = case_table(rng, 16);
    let range = some_range(rng, &table);
    (table, range)
}

/// Rows on few days, and a range that goes past them on both sides.
fn sparse(rng: &mut Rng) -> (Owned, Days) {
    let mut table = sparse_table(rng, 16);
    if rng.once_in(10) {
        damage(rng, &mut table);
    }
    let range = match rng.once_in(6) {
        true => some_range(rng, &table),
        false => wide_range(rng, &table),
    };
    (table, range)
}

fn column_cases(call: &ColumnsCall, seed: u64, cases: u64, draw: Draw) {
    let mut rng = Rng(seed);
    let mut seen = Seen([0; 16]);
    for case in 0..cases {
        let (table, range) = draw(&mut rng);
        let query = some_query(&mut rng);
        // Lent places: about the number of entries, or room for any listing.
        let mut entries = 0;
        let query_fits = (1..=4_095).contains(&query.k) && is_range(&range);
        if query_fits && brute::check_table(table.lend()).number == OK {
            entries = (call.entries)(table.lend(), query, range.clone()).len();
        }
        let most = usize::from(range.end().saturating_sub(*range.start())).min(20) + 1;
        let places = match rng.below(8) {
            0 | 1 => entries,
            2 | 3 => entries.saturating_sub(1),
            4 => entries + 1,
            5 => rng.below(entries + 1),
            6 => most * (most + 1) / 2,
            _ => entries + rng.below(40),
        };
        let mut columns = [places; 4];
        if rng.once_in(12) {
            let odd = rng.below(call.columns);
            columns[odd] = rng.pick(&[places + 1, places.saturating_sub(1), 0, places + 9]);
        }
        let [x, y, z, windows] = columns;
        let [mut a, mut b, mut c] = [x, y, z].map(|n| Lent::<u16>::new(&mut rng, n));
        let mut d = Lent::<u32>::new(&mut rng, windows);
        let length = some_scratch(&mut rng, table.rows());
        let mut scratch = Lent::<u16>::new(&mut rng, length);
        let lent = LentTable::new(&mut rng, &table);

        let mut want_a = a.get().to_vec();
        let mut want_b = b.get().to_vec();
        let mut want_c = c.get().to_vec();
        let mut want_d = d.get().to_vec();
        let mut want_scratch = scratch.get().to_vec();
        let expected = (call.brute)(
            table.lend(),
            query,
            range.clone(),
            &mut want_a,
            &mut want_b,
            &mut want_c,
            &mut want_d,
            &mut want_scratch,
        );
        let got = (call.archive)(
            lent.lend(),
            query,
            range.clone(),
            a.get_mut(),
            b.get_mut(),
            c.get_mut(),
            d.get_mut(),
            scratch.get_mut(),
        );
        let what = format!("case {case}: {query:?} {range:?} places {columns:?} {table:?}");
        assert_eq!(got, expected, "{what}");
        if call.columns == 4 && got.number == OK {
            let listed = &d.get()[..got.count as usize];
            let windows: u64 = listed.iter().map(|&windows| u64::from(windows)).sum();
            let days = range.clone().count() as u64;
            assert_eq!(windows + got.empty, days * (days + 1) / 2, "{what}");
        }
        a.holds(&want_a, "first column");
        b.holds(&want_b, "second column");
        c.holds(&want_c, "third column");
        d.holds(&want_d, "fourth column");
        scratch.holds(&want_scratch, "scratch");
        lent.kept();
        seen.0[expected.number as usize] += 1;
    }
    seen.report(
        call.name,
        cases,
        &[BAD_K, BAD_RANGE, BAD_LENGTH, SCRATCH, NO_ROOM],
    );
}

#[test]
fn minimal_window_columns() {
    column_cases(&MINIMAL_WINDOWS, 4, 30_000, dense);
}

#[test]
fn listing_columns() {
    column_cases(&LISTING, 5, 30_000, dense);
}

#[test]
fn listing_columns_of_days_without_rows() {
    column_cases(&LISTING, 9, 20_000, sparse);
}

/// One column a place short or a place long: 8, with every column kept. All four a place short:
/// 10, with every column kept.
#[test]
fn listing_columns_of_the_wrong_length() {
    let mut rng = Rng(10);
    let (table, query) = (season(), Query { k: 2 });
    let mut tried = Vec::new();
    for odd in 0..4 {
        for length in [4, 6, 0, 21] {
            let mut lengths = [5; 4];
            lengths[odd] = length;
            tried.push((lengths, BAD_LENGTH));
        }
    }
    tried.push(([4; 4], NO_ROOM));
    for (lengths, number) in tried {
        let [x, y, z, windows] = lengths;
        let [mut a, mut b, mut c] = [x, y, z].map(|n| Lent::<u16>::new(&mut rng, n));
        let mut d = Lent::<u32>::new(&mut rng, windows);
        let mut scratch = Lent::<u16>::new(&mut rng, 8_192 + 4 * 6);
        let got = listing(
            table.lend(),
            query,
            1..=6,
            a.get_mut(),
            b.get_mut(),
            c.get_mut(),
            d.get_mut(),
            scratch.get_mut(),
        );
        let expected = Answer {
            number,
            ..Answer::default()
        };
        assert_eq!(got, expected, "{lengths:?}");
        a.kept("start");
        b.kept("end");
        c.kept("rows");
        d.kept("windows");
    }
}

/// A list for recall: right, or with a fault of 14 in it.
fn some_windows(rng: &mut Rng, table: &Owned) -> [Vec<u16>; 3] {
    let mut list: Vec<(u16, u16, u16)> = Vec::new();
    let fine = brute::check_table(table.lend()).number == OK;
    if fine && rng.once_in(3) {
        let range = some_range(rng, table);
        if is_range(&range) {
            list = brute::minimal_window_list(table.lend(), Query { k: 2 }, range);
        }
    } else if fine {
        for row in 0..table.rows() {
            let day = table.days[row];
            let (mut start, mut end) = (0, day - 1);
            for _ in 0..rng.below(4) {
                start += 1 + rng.below(2) as u16;
                if rng.once_in(4) {
                    start = start.max(day);
                }
                end += 1 + rng.below(2) as u16;
                if start > day || end > 1_024 {
                    break;
                }
                list.push((row as u16, start, end));
            }
        }
    }
    if !list.is_empty() && rng.once_in(2) {
        let at = rng.below(list.len());
        let day = table.days[usize::from(list[at].0)];
        let entry = list[at];
        match rng.below(12) {
            0 => list[at].0 = table.rows() as u16,
            1 => list[at].0 = 65_535,
            2 => list[at].1 = 0,
            3 => list[at].1 = day + 1,
            4 => list[at].2 = day - 1,
            5 => list[at].2 = rng.pick(&[1_025, 65_535]),
            6 => list.insert(at, entry),
            7 => list.insert(at + 1, (entry.0, entry.1, (entry.2 + 1).min(1_024))),
            8 => list.insert(at + 1, (entry.0, (entry.1 + 1).min(day), entry.2)),
            9 => list.swap(0, at),
            10 => list[at].0 = list[at].0.saturating_sub(1),
            _ => {
                list[at].1 = list[at].1.saturating_sub(1);
                list[at].2 += 1;
            }
        }
    }
    let mut columns = [
        list.iter().map(|w| w.0).collect::<Vec<u16>>(),
        list.iter().map(|w| w.1).collect(),
        list.iter().map(|w| w.2).collect(),
    ];
    if rng.once_in(12) {
        let odd = rng.below(3);
        if columns[odd].is_empty() || rng.once_in(2) {
            columns[odd].push(1);
        } else {
            columns[odd].pop();
        }
    }
    columns
}

#[test]
fn recalled_marks() {
    let mut rng = Rng(6);
    let mut seen = Seen([0; 16]);
    let cases = 60_000;
    for case in 0..cases {
        let table = case_table(&mut rng, 14);
        let list = some_windows(&mut rng, &table);
        let window = some_range(&mut rng, &table);
        let length = some_length(&mut rng, table.rows());
        let mut marks = Lent::<u8>::new(&mut rng, length);
        let lent = LentTable::new(&mut rng, &table);
        let columns = [
            Lent::holding(&mut rng, &list[0]),
            Lent::holding(&mut rng, &list[1]),
            Lent::holding(&mut rng, &list[2]),
        ];
        let windows = Windows {
            row: columns[0].get(),
            start: columns[1].get(),
            end: columns[2].get(),
        };

        let mut want = marks.get().to_vec();
        let expected = brute::recall(table.lend(), windows, window.clone(), &mut want);
        let got = recall(lent.lend(), windows, window.clone(), marks.get_mut());
        assert_eq!(got, expected, "case {case}: {window:?} {table:?} {list:?}");
        marks.holds(&want, "marks");
        lent.kept();
        for column in &columns {
            column.kept("list");
        }
        seen.0[expected.number as usize] += 1;
    }
    seen.report("recall", cases, &[BAD_RANGE, BAD_LENGTH, BAD_ENTRY]);
}

#[test]
fn longest_lists() {
    let mut cases = 0;
    let edges = [0, 1, 2, 3, 511, 512, 1_023, 1_024, 1_025, 1_026, 65_535];
    for ts in edges {
        for te in 0..=1_100 {
            assert_eq!(longest_list(ts..=te), brute::longest_list(ts..=te));
            assert_eq!(longest_list(te..=ts), brute::longest_list(te..=ts));
            cases += 2;
        }
    }
    println!("longest_list: {cases} cases");
}

/// The brute-force ring is the greatest good set: the union of all good sets.
#[test]
fn brute_ring_is_the_union_of_all_good_sets() {
    let mut rng = Rng(7);
    let cases = 1_500;
    for case in 0..cases {
        let table = small_table(&mut rng, 9);
        let k = rng.from(1, 3) as u16;
        let query = Query { k };
        let window = some_range(&mut rng, &table);
        let rows: Vec<usize> = brute::window_rows(table.lend(), window.clone())
            .into_iter()
            .collect();
        let mut union = RowSet::new();
        for bits in 0..1_u32 << rows.len() {
            let set: RowSet = (0..rows.len())
                .filter(|i| bits >> i & 1 == 1)
                .map(|i| rows[i])
                .collect();
            if brute::is_good(table.lend(), query, &set) {
                union.extend(set);
            }
        }
        assert_eq!(
            brute::ring(table.lend(), query, window.clone()),
            union,
            "case {case}: {query:?} {window:?} {table:?}"
        );
    }
    println!("brute ring against all subsets: {cases} random cases");
}

/// Middle-sized tables, where times settle over many starts.
#[test]
fn middle_sized_tables() {
    let mut rng = Rng(8);
    let cases = 500;
    for case in 0..cases {
        let days = rng.from(5, 12);
        let accounts = rng.from(4, 14);
        let mut rows = Vec::new();
        for _ in 0..rng.from(20, 70) {
            let a = rng.below(accounts) as u16;
            let b = rng.below(accounts) as u16;
            if a != b {
                rows.push((rng.from(1, days) as u16, a, b));
            }
        }
        let table = Owned::sorted(&rows);
        let k = rng.from(1, 4) as u16;
        let query = Query { k };
        let range = rng.from(1, 2) as u16..=(days - rng.below(2)) as u16;
        let mut scratch = Lent::<u16>::new(&mut rng, 8_192 + 4 * table.rows());
        for call in [MINIMAL_WINDOWS, LISTING] {
            let list = (call.entries)(table.lend(), query, range.clone());
            let places = [list.len(), list.len() + 100][rng.below(2)];
            let mut columns = [vec![0; places], vec![0; places], vec![0; places]];
            let [a, b, c] = &mut columns;
            let mut d = vec![0; places];
            let scratch = scratch.get_mut();
            let got = (call.archive)(table.lend(), query, range.clone(), a, b, c, &mut d, scratch);
            assert_eq!(
                (got.number, got.count),
                (OK, list.len() as u64),
                "case {case}"
            );
            let written: Vec<_> = (0..list.len()).map(|i| (a[i], b[i], c[i], d[i])).collect();
            assert_eq!(written, list, "case {case}: {query:?} {range:?} {table:?}");
        }
    }
    println!("middle-sized tables: {cases} random cases");
}
