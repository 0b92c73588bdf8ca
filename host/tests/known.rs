//! Examples whose answers are printed elsewhere, and the edges of each limit.

mod common;

use common::*;
use rumbleog::number::*;
use rumbleog::{self as lib, Days, Query, Refusal, Table, Windows, NEVER, NO_GROUP};

/// Minimal windows through the wrapper, cut at their count.
fn windows(table: &Owned, k: u16, range: Days) -> Vec<(u16, u16, u16)> {
    let mut columns = [vec![0; 4_000], vec![0; 4_000], vec![0; 4_000]];
    let [a, b, c] = &mut columns;
    let mut scratch = vec![0xabcd; lib::scratch_for(table.rows())];
    let query = Query { k };
    let count = lib::minimal_windows(table.lend(), query, range, a, b, c, &mut scratch).unwrap();
    (0..count as usize).map(|i| (a[i], b[i], c[i])).collect()
}

/// The listing through the wrapper, cut at its count: every window is behind one
/// ring, or has none.
fn listed(table: &Owned, k: u16, range: Days) -> (Vec<brute::Listed>, lib::Listed) {
    let mut columns = [vec![0; 4_000], vec![0; 4_000], vec![0; 4_000]];
    let [a, b, c] = &mut columns;
    let mut d = vec![0; 4_000];
    let mut scratch = vec![0xabcd; lib::scratch_for(table.rows())];
    let (lent, query, days) = (table.lend(), Query { k }, range.clone());
    let told = lib::listing(lent, query, days, a, b, c, &mut d, &mut scratch).unwrap();
    let list: Vec<_> = (0..told.count as usize)
        .map(|i| (a[i], b[i], c[i], d[i]))
        .collect();
    let behind: u64 = list.iter().map(|ring| u64::from(ring.3)).sum();
    let days = range.count() as u64;
    assert_eq!(behind + told.empty, days * (days + 1) / 2);
    (list, told)
}

fn rings(table: &Owned, k: u16, range: Days) -> (Vec<(u16, u16, u16)>, u64) {
    let (list, told) = listed(table, k, range);
    let list = list.into_iter().map(|(s, e, rows, _)| (s, e, rows));
    (list.collect(), told.sum)
}

/// The windows behind each ring, and those with none.
fn windows_behind(table: &Owned, k: u16, range: Days) -> (Vec<u32>, u64) {
    let (list, told) = listed(table, k, range);
    (list.into_iter().map(|ring| ring.3).collect(), told.empty)
}

fn times(table: &Owned, k: u16, range: Days, start: u16) -> (Vec<u16>, Vec<u16>) {
    let mut accounts = vec![7; 4_096];
    let mut rows = vec![7; table.rows()];
    let mut scratch = vec![0xabcd; lib::scratch_for(table.rows())];
    lib::core_times(
        table.lend(),
        Query { k },
        range,
        start,
        &mut accounts,
        &mut rows,
        &mut scratch,
    )
    .unwrap();
    (accounts, rows)
}

/// Labels through the wrapper, into noise and with scratch to spare: it is all 0
/// after, and the count is that of the rows labelled.
fn labels(table: &Owned, k: u16, window: Days) -> Vec<u16> {
    let mut labels = vec![7; table.rows()];
    let mut scratch = vec![0xabcd; lib::scratch_for(table.rows()) + 9];
    let query = Query { k };
    let count = lib::label_groups(table.lend(), query, window, &mut labels, &mut scratch);
    let labelled = labels.iter().filter(|&&label| label != NO_GROUP).count();
    assert_eq!(count, Ok(labelled as u64));
    assert!(scratch.iter().all(|&number| number == 0));
    labels
}

/// One group's marks through the wrapper: their count is that of the ones. Where
/// the account is not in the ring they are kept. The scratch is all 0 after both.
fn group(table: &Owned, k: u16, window: Days, account: u16) -> Result<Vec<u8>, Refusal> {
    let mut marks = vec![7; table.rows()];
    let mut scratch = vec![0xabcd; lib::scratch_for(table.rows()) + 9];
    let query = Query { k };
    let count = lib::mark_group(
        table.lend(),
        query,
        window,
        account,
        &mut marks,
        &mut scratch,
    );
    assert!(scratch.iter().all(|&number| number == 0));
    match count {
        Ok(count) => {
            let ones = marks.iter().filter(|&&mark| mark == 1).count();
            assert_eq!(count, ones as u64);
            Ok(marks)
        }
        Err(refusal) => {
            assert!(marks.iter().all(|&mark| mark == 7));
            Err(refusal)
        }
    }
}

/// 01, "Rows to check by": start 1, 2 and 3.
#[test]
fn season_core_times() {
    let table = season();
    let (accounts, rows) = times(&table, 2, 1..=6, 1);
    assert_eq!(rows, [2, 2, 2, 4, 6, 6]);
    for (account, &time) in accounts.iter().enumerate() {
        let expected = match account {
            1..=3 => 2,
            4 => 6,
            _ => NEVER,
        };
        assert_eq!(time, expected, "account {account}");
    }
    let (_, rows) = times(&table, 2, 1..=6, 2);
    assert_eq!(rows, [NEVER, 4, 4, 4, 6, 6]);
    let (accounts, rows) = times(&table, 2, 1..=6, 3);
    assert!(accounts.iter().chain(&rows).all(|&time| time == NEVER));
}

#[test]
fn season_minimal_windows() {
    let table = season();
    let list = [
        (0, 1, 2),
        (1, 1, 2),
        (1, 2, 4),
        (2, 1, 2),
        (2, 2, 4),
        (3, 2, 4),
        (4, 2, 6),
        (5, 2, 6),
    ];
    assert_eq!(windows(&table, 2, 1..=6), list);
    // Seven places: 10, columns kept, scratch all 0.
    let mut columns = [[9; 7]; 3];
    let [a, b, c] = &mut columns;
    let mut scratch = vec![5; lib::scratch_for(6) + 3];
    assert_eq!(
        lib::minimal_windows(table.lend(), Query { k: 2 }, 1..=6, a, b, c, &mut scratch),
        Err(Refusal::NoRoom)
    );
    assert_eq!(columns, [[9; 7]; 3]);
    assert!(scratch.iter().all(|&number| number == 0));
}

#[test]
fn season_rings() {
    let table = season();
    let list = vec![(1, 2, 3), (1, 4, 4), (1, 6, 6), (2, 4, 3), (2, 6, 5)];
    assert_eq!(rings(&table, 2, 1..=6), (list, 21));
    assert_eq!(rings(&table, 3, 1..=6), (vec![], 0));
    assert_eq!(rings(&table, 1, 1..=6).0.len(), 15);
    let text = format!("    2    1    6\n{}", table.text());
    let mut out = vec![b'#'; 200];
    let length = lib::list(text.as_bytes(), &mut out).unwrap();
    let expected = "start  end span  rows\n\
                    \x20   1    2    2     3\n\
                    \x20   1    4    4     4\n\
                    \x20   1    6    6     6\n\
                    \x20   2    4    3     3\n\
                    \x20   2    6    5     5\n";
    assert_eq!(&out[..length], expected.as_bytes());
    assert!(out[length..].iter().all(|&byte| byte == b'#'));
}

/// Both days count: a ring of one day has a span of 1, one of all days has 1,024.
#[test]
fn spans() {
    let text = "    1    1 1024\n    1     1     2\n 1024     1     2\n";
    let expected = "start  end span  rows\n\
                    \x20   1    1    1     1\n\
                    \x20   1 1024 1024     2\n\
                    \x201024 1024    1     1\n";
    let mut out = vec![0; expected.len()];
    let length = lib::list(text.as_bytes(), &mut out).unwrap();
    assert_eq!(&out[..length], expected.as_bytes());
}

/// The season's columns as text are its file behind the query line.
#[test]
fn season_written() {
    let file = std::fs::read("../examples/season.txt").unwrap();
    let rows = &file[16..];
    assert_eq!(rows.len(), lib::table_text_for(6));
    let mut text = vec![b'#'; 200];
    let length = lib::write_table(season().lend(), &mut text).unwrap();
    assert_eq!(&text[..length], rows);
    assert!(text[length..].iter().all(|&byte| byte == b'#'));
}

/// 02, S-2: "any three columns of equal length", so rows that no table has, "days
/// up to 65,535 included", and no rows.
#[test]
fn any_columns_written() {
    let columns = Table {
        days: &[65_535, 0, 1_025],
        first: &[65_535, 0, 4_096],
        second: &[65_535, 0, 9],
    };
    let mut text = [b'#'; 55];
    assert_eq!(lib::write_table(columns, &mut text), Ok(54));
    let lines = b"65535 65535 65535\n    0     0     0\n 1025  4096     9\n#";
    assert_eq!(text, *lines);
    assert_eq!(lib::write_table(Owned::default().lend(), &mut text), Ok(0));
    assert_eq!(text, *lines);
}

/// The season's ring is one group, and account 4 is in it from day 6 on.
#[test]
fn season_groups() {
    let table = season();
    assert_eq!(labels(&table, 2, 1..=6), [1; 6]);
    assert_eq!(labels(&table, 2, 1..=4), [1, 1, 1, 1, NO_GROUP, NO_GROUP]);
    assert_eq!(labels(&table, 3, 1..=6), [NO_GROUP; 6]);
    for account in 1..=4 {
        assert_eq!(group(&table, 2, 1..=6, account), Ok(vec![1; 6]));
    }
    assert_eq!(group(&table, 2, 1..=4, 3), Ok(vec![1, 1, 1, 1, 0, 0]));
    for (k, e, account) in [(2, 6, 0), (2, 6, 5), (2, 4, 4), (3, 6, 1)] {
        let refused = Err(Refusal::NotInRing);
        assert_eq!(group(&table, k, 1..=e, account), refused);
    }
    // For k = 1 a payment is a ring: those of days 4 and 5 share no account.
    let n = NO_GROUP;
    assert_eq!(labels(&table, 1, 4..=5), [n, n, n, 1, 3, n]);
}

/// Two triangles on days 2 and 3, and payments between them on days 1 and 4: they
/// are one group only where the window has such a payment.
#[test]
fn groups_of_two_triangles() {
    let table = Owned::of(&[
        (1, 0, 9),
        (2, 7, 9),
        (2, 0, 5),
        (2, 8, 9),
        (3, 3, 5),
        (3, 7, 8),
        (3, 0, 3),
        (4, 3, 8),
    ]);
    let n = NO_GROUP;
    assert_eq!(labels(&table, 2, 2..=3), [n, 7, 0, 7, 0, 7, 0, n]);
    assert_eq!(labels(&table, 2, 1..=3), [0, 0, 0, 0, 0, 0, 0, n]);
    assert_eq!(labels(&table, 2, 2..=4), [n, 0, 0, 0, 0, 0, 0, 0]);
    for (account, marks) in [
        (0, [0, 0, 1, 0, 1, 0, 1, 0]),
        (3, [0, 0, 1, 0, 1, 0, 1, 0]),
        (5, [0, 0, 1, 0, 1, 0, 1, 0]),
        (7, [0, 1, 0, 1, 0, 1, 0, 0]),
        (8, [0, 1, 0, 1, 0, 1, 0, 0]),
        (9, [0, 1, 0, 1, 0, 1, 0, 0]),
    ] {
        assert_eq!(group(&table, 2, 2..=3, account), Ok(marks.to_vec()));
    }
    // For k = 1: on day 2 account 9 joins 7 and 8.
    assert_eq!(labels(&table, 1, 2..=2), [n, 7, 0, 7, n, n, n, n]);
    assert_eq!(labels(&table, 1, 4..=4), [n, n, n, n, n, n, n, 3]);
}

/// A payment between two accounts of a ring is in it. So rows outside the ring join
/// groups by way of an account outside, if at all: 9 deals with both foursomes.
#[test]
fn groups_not_joined_outside_the_ring() {
    let mut rows = Vec::new();
    for four in [[1, 4, 6, 7], [2, 3, 5, 8]] {
        for b in 1..4 {
            for a in 0..b {
                rows.push((1, four[a], four[b]));
            }
        }
    }
    rows.insert(6, (1, 7, 9));
    rows.insert(6, (1, 8, 9));
    let table = Owned::of(&rows);
    let n = NO_GROUP;
    let two = [1, 1, 1, 1, 1, 1, n, n, 2, 2, 2, 2, 2, 2];
    assert_eq!(labels(&table, 3, 1..=1), two);
    assert_eq!(labels(&table, 2, 1..=1), [1; 14]);
    let of_8 = [0, 0, 0, 0, 0, 0, 0, 0, 1, 1, 1, 1, 1, 1];
    assert_eq!(group(&table, 3, 1..=1, 8), Ok(of_8.to_vec()));
    assert_eq!(group(&table, 3, 1..=1, 9), Err(Refusal::NotInRing));
    assert_eq!(group(&table, 2, 1..=1, 9), Ok(vec![1; 14]));
}

/// The last accounts, and equal rows, which are of one group and count each.
#[test]
fn groups_at_the_edges() {
    let table = Owned::of(&[(1_024, 4_094, 4_095), (1_024, 0, 1), (1_024, 4_094, 4_095)]);
    assert_eq!(labels(&table, 1, 1..=1_024), [4_094, 0, 4_094]);
    assert_eq!(labels(&table, 2, 1..=1_024), [NO_GROUP; 3]);
    assert_eq!(group(&table, 1, 1_024..=1_024, 4_095), Ok(vec![1, 0, 1]));
    assert_eq!(group(&table, 1, 1..=1_024, 0), Ok(vec![0, 1, 0]));
    // Beyond the accounts; 4,096 and 4,097 are 0 and 1 in 12 bits.
    for account in [2, 4_093, 4_096, 4_097, 8_191, 65_535] {
        let refused = Err(Refusal::NotInRing);
        assert_eq!(group(&table, 1, 1..=1_024, account), refused, "{account}");
    }
    // No rows: no ring, and nobody is in it.
    let empty = Owned::default();
    for k in [1, 2, 4_095] {
        assert_eq!(labels(&empty, k, 1..=1_024), []);
        for account in [0, 4_095, 4_096, 65_535] {
            let refused = Err(Refusal::NotInRing);
            assert_eq!(group(&empty, k, 1..=1, account), refused);
        }
    }
}

/// Both calls on a table that breaks checks 1 to 9 by turns: the answers are these,
/// with every buffer kept, also for an account that is in no ring.
#[test]
fn groups_refused() {
    struct Asked {
        table: Owned,
        k: u16,
        window: Days,
        places: usize,
        scratch: usize,
    }
    let right = || Asked {
        table: season(),
        k: 2,
        window: 1..=6,
        places: 6,
        scratch: lib::scratch_for(6),
    };
    type Break = fn(&mut Asked);
    // From the last check to the first: each fault is added to those before.
    let breaks: [(u32, u64, Break); 9] = [
        (SCRATCH, 0, |asked| asked.scratch -= 1),
        (BAD_LENGTH, 0, |asked| asked.places = 5),
        (BAD_RANGE, 0, |asked| asked.window = Days::new(6, 5)),
        (BAD_K, 0, |asked| asked.k = 4_096),
        (DAY_FALLS, 5, |asked| asked.table.days[5] = 4),
        (BAD_ACCOUNTS, 5, |asked| asked.table.second[5] = 4_096),
        (BAD_DAY, 5, |asked| asked.table.days[5] = 1_025),
        (TOO_LARGE, 0, |asked| {
            asked.table = Owned::of(&vec![(1, 2, 3); 16_385]);
            asked.table.days[0] = 0;
        }),
        (COLUMNS_DIFFER, 0, |asked| {
            asked.table.days.pop();
        }),
    ];
    let refused = |asked: &Asked, number: u32, place: u64| {
        let rng = &mut Rng(u64::from(number));
        let query = Query { k: asked.k };
        let window = || asked.window.clone();
        let expected = brute::Answer {
            number,
            place,
            ..brute::Answer::default()
        };
        let table = LentTable::new(rng, &asked.table);
        let mut scratch = Lent::<u16>::new(rng, asked.scratch);
        let mut labels = Lent::<u16>::new(rng, asked.places);
        let (out, space) = (labels.get_mut(), scratch.get_mut());
        let got = label_groups(table.lend(), query, window(), out, space);
        assert_eq!(got, expected);
        labels.kept("labels");
        for account in [1, 5, 4_096, 65_535] {
            let mut marks = Lent::<u8>::new(rng, asked.places);
            let (out, space) = (marks.get_mut(), scratch.get_mut());
            let got = mark_group(table.lend(), query, window(), account, out, space);
            assert_eq!(got, expected, "{account}");
            marks.kept("marks");
        }
        scratch.kept("scratch");
        table.kept();
    };
    let mut all = right();
    for (number, place, break_it) in breaks {
        let mut alone = right();
        break_it(&mut alone);
        refused(&alone, number, place);
        break_it(&mut all);
        refused(&all, number, place);
    }
    // Labels and marks of every other length, far above any table's too.
    for places in [0, 1, 5, 7, 16_384, 16_385, 16_386, 65_536 + 6, 100_000] {
        let asked = Asked { places, ..right() };
        refused(&asked, BAD_LENGTH, 0);
    }
    let full = || Owned::of(&vec![(1, 2, 3); 16_384]);
    for places in [16_383, 16_385, 16_386, 2 * 16_384] {
        let asked = Asked {
            table: full(),
            places,
            scratch: lib::scratch_for(16_384),
            ..right()
        };
        refused(&asked, BAD_LENGTH, 0);
    }
    assert_eq!(labels(&full(), 1, 1..=1), [2; 16_384]);
    assert_eq!(group(&full(), 1, 1..=1, 3), Ok(vec![1; 16_384]));
}

/// 02, S-1: "In 01's example they are 2, 2, 1, 2, 1 and 13."
#[test]
fn season_windows_behind_rings() {
    let table = season();
    assert_eq!(windows_behind(&table, 2, 1..=6), (vec![2, 2, 1, 2, 1], 13));
    assert_eq!(windows_behind(&table, 3, 1..=6), (vec![], 21));
    // Nothing is dated 3: as a last day it counts for day 2, as a first day for day 4.
    let every_pair = vec![1, 2, 1, 1, 1, 2, 1, 1, 1, 2, 2, 2, 1, 1, 1];
    assert_eq!(windows_behind(&table, 1, 1..=6), (every_pair, 1));
    assert_eq!(windows_behind(&table, 2, 7..=1_024), (vec![], 518_671));
}

/// The ring of day 2 stays from start 2 on till day 4, but from start 1 on only
/// till day 2: a payment of day 1 joins on day 3. The next ring listed is day 5's.
#[test]
fn windows_up_to_the_next_core_time() {
    let table = Owned::of(&[
        (1, 4, 5),
        (2, 1, 2),
        (2, 1, 3),
        (2, 2, 3),
        (3, 4, 6),
        (3, 5, 6),
        (5, 7, 8),
        (5, 7, 9),
        (5, 8, 9),
    ]);
    let list = vec![
        (1, 3, 6, 2),
        (1, 5, 9, 1),
        (2, 2, 3, 4),
        (2, 5, 6, 1),
        (5, 5, 3, 3),
    ];
    let (got, told) = listed(&table, 2, 1..=5);
    assert_eq!(got, list);
    assert_eq!(told.empty, 4);
}

#[test]
fn windows_over_days_without_rows() {
    let on = |days: &[u16]| {
        let mut table = Owned::default();
        for &day in days {
            table.push(day, 1, 2);
            table.push(day, 1, 3);
            table.push(day, 2, 3);
        }
        table
    };
    // A triangle on days 1 and 4: [1,1] lasts to day 3, [4,4] from day 2 on.
    let twice = on(&[1, 4]);
    let list = vec![(1, 1, 3), (1, 4, 6), (4, 4, 3)];
    assert_eq!(rings(&twice, 2, 1..=6), (list, 12));
    assert_eq!(windows_behind(&twice, 2, 1..=6), (vec![3, 3, 9], 6));
    assert_eq!(windows_behind(&twice, 2, 1..=4), (vec![3, 1, 3], 3));
    assert_eq!(windows_behind(&twice, 2, 2..=6), (vec![9], 6));
    assert_eq!(windows_behind(&twice, 2, 1..=3), (vec![3], 3));
    assert_eq!(windows_behind(&twice, 2, 2..=3), (vec![], 3));
    assert_eq!(windows_behind(&twice, 2, 5..=1_024), (vec![], 520_710));
    // Days before the first payment and after the last one.
    let once = on(&[3]);
    assert_eq!(windows_behind(&once, 2, 1..=9), (vec![21], 24));
    assert_eq!(windows_behind(&once, 2, 1..=3), (vec![3], 3));
    assert_eq!(windows_behind(&once, 2, 3..=9), (vec![7], 21));
    // Rows that are in no ring leave between: they change no window.
    let mut idle = on(&[1]);
    idle.push(2, 7, 8);
    idle.push(3, 1, 2);
    for pair in [(1, 2), (1, 3), (2, 3)] {
        idle.push(5, pair.0, pair.1);
    }
    let list = vec![(1, 1, 3), (1, 3, 4), (1, 5, 7), (3, 5, 4), (5, 5, 3)];
    assert_eq!(rings(&idle, 2, 1..=6), (list, 21));
    assert_eq!(
        windows_behind(&idle, 2, 1..=6),
        (vec![2, 2, 2, 4, 4], 21 - 14)
    );
    // More windows than 16 bits count: days 1 to 512 by days 512 to 1,024.
    let middle = on(&[512]);
    assert_eq!(
        windows_behind(&middle, 2, 1..=1_024),
        (vec![262_656], 524_800 - 262_656)
    );
    let late = on(&[1_024]);
    assert_eq!(windows_behind(&late, 2, 1..=1_024), (vec![1_024], 523_776));
    let early = on(&[1]);
    assert_eq!(windows_behind(&early, 2, 1..=1_024), (vec![1_024], 523_776));
    assert_eq!(
        windows_behind(&Owned::default(), 1, 1..=1_024),
        (vec![], 524_800)
    );
}

#[test]
fn empty_tables_and_equal_rows() {
    let empty = Owned::default();
    assert_eq!(rings(&empty, 1, 1..=1_024), (vec![], 0));
    assert_eq!(windows(&empty, 4_095, 1..=1_024), []);
    assert!(times(&empty, 1, 1..=1_024, 5).0.iter().all(|&t| t == NEVER));
    let pair = Owned::of(&[(1, 1, 2), (2, 1, 2)]);
    assert_eq!(rings(&pair, 2, 1..=2), (vec![], 0));
    let list = vec![(1, 1, 1), (1, 2, 2), (2, 2, 1)];
    assert_eq!(rings(&pair, 1, 1..=2), (list, 4));
    let twice = Owned::of(&[(3, 1, 2), (3, 1, 2), (3, 1, 2)]);
    assert_eq!(rings(&twice, 1, 1..=9), (vec![(3, 3, 3)], 3));
    assert_eq!(rings(&twice, 2, 1..=9), (vec![], 0));
    let triangle = Owned::of(&[(3, 1, 2), (3, 1, 2), (3, 1, 3), (3, 2, 3)]);
    assert_eq!(rings(&triangle, 2, 3..=3), (vec![(3, 3, 4)], 4));
    assert_eq!(rings(&triangle, 3, 3..=3), (vec![], 0));
}

/// NULL for an empty slice, as C hosts may pass it.
#[test]
fn null_slices() {
    let (mut place, mut count) = (7, 7);
    let (none, mut scratch) = (std::ptr::null::<u16>(), vec![1; 8_192]);
    // SAFETY: NULL with length 0, and a live scratch.
    let number = unsafe {
        lib::raw::c::window_ring(
            none,
            0,
            none,
            0,
            none,
            0,
            1,
            1,
            1,
            std::ptr::null_mut(),
            0,
            scratch.as_mut_ptr(),
            scratch.len(),
            &mut place,
            &mut count,
        )
    };
    assert_eq!((number, place, count), (OK, 0, 0));
    assert!(scratch.iter().all(|&number| number == 0));
    (place, count) = (7, 7);
    scratch.fill(1);
    // SAFETY: NULL with length 0, and a live scratch.
    let number = unsafe {
        lib::raw::c::label_groups(
            none,
            0,
            none,
            0,
            none,
            0,
            1,
            1,
            1,
            std::ptr::null_mut(),
            0,
            scratch.as_mut_ptr(),
            scratch.len(),
            &mut place,
            &mut count,
        )
    };
    assert_eq!((number, place, count), (OK, 0, 0));
    assert!(scratch.iter().all(|&number| number == 0));
    (place, count) = (7, 7);
    scratch.fill(1);
    // SAFETY: NULL with length 0, and a live scratch.
    let number = unsafe {
        lib::raw::c::mark_group(
            none,
            0,
            none,
            0,
            none,
            0,
            1,
            1,
            1,
            0,
            std::ptr::null_mut(),
            0,
            scratch.as_mut_ptr(),
            scratch.len(),
            &mut place,
            &mut count,
        )
    };
    assert_eq!((number, place, count), (NOT_IN_RING, 0, 0));
    assert!(scratch.iter().all(|&number| number == 0));
    let (none8, mut length) = (std::ptr::null::<u8>(), 7);
    // SAFETY: NULL with length 0.
    let number =
        unsafe { lib::raw::c::list(none8, 0, std::ptr::null_mut(), 0, &mut place, &mut length) };
    assert_eq!((number, place, length), (BAD_LINE, 1, 0));
    // SAFETY: NULL with length 0.
    let number = unsafe {
        lib::raw::c::read_table(
            none8,
            0,
            std::ptr::null_mut(),
            0,
            std::ptr::null_mut(),
            0,
            std::ptr::null_mut(),
            0,
            &mut place,
            &mut count,
        )
    };
    assert_eq!((number, place, count), (OK, 0, 0));
    (place, length) = (7, 7);
    // SAFETY: NULL with length 0.
    let number = unsafe {
        lib::raw::c::write_table(
            none,
            0,
            none,
            0,
            none,
            0,
            std::ptr::null_mut(),
            0,
            &mut place,
            &mut length,
        )
    };
    assert_eq!((number, place, length), (OK, 0, 0));
}

#[test]
fn limits_pass_and_next_are_refused() {
    let check = |day: u16, a: u16, b: u16| {
        lib::check_table(Table {
            days: &[1, day],
            first: &[0, a],
            second: &[1, b],
        })
    };
    assert_eq!(check(1_024, 4_094, 4_095), Ok(()));
    assert_eq!(check(1_024, 0, 4_095), Ok(()));
    assert_eq!(check(0, 0, 1), Err(Refusal::BadDay(1)));
    assert_eq!(check(1_025, 0, 1), Err(Refusal::BadDay(1)));
    assert_eq!(check(1, 0, 4_096), Err(Refusal::BadAccounts(1)));
    assert_eq!(check(1, 4_096, 4_097), Err(Refusal::BadAccounts(1)));
    assert_eq!(check(1, 3, 3), Err(Refusal::BadAccounts(1)));
    assert_eq!(check(0, 3, 3), Err(Refusal::BadDay(1)));
    let late = Owned::of(&[
        (1_024, 4_093, 4_094),
        (1_024, 4_093, 4_095),
        (1_024, 4_094, 4_095),
    ]);
    assert_eq!(rings(&late, 2, 1..=1_024), (vec![(1_024, 1_024, 3)], 3));
    assert_eq!(rings(&late, 2, 1_024..=1_024).0.len(), 1);
    assert_eq!(
        windows(&late, 2, 1..=1_024),
        [(0, 1_024, 1_024), (1, 1_024, 1_024), (2, 1_024, 1_024)]
    );
    let (accounts, rows) = times(&late, 2, 1..=1_024, 1);
    assert_eq!(rows, [1_024; 3]);
    assert_eq!(accounts[4_092..], [NEVER, 1_024, 1_024, 1_024]);
    let (_, rows) = times(&late, 2, 1..=1_023, 1);
    assert_eq!(rows, [NEVER; 3]);

    // 16,384 rows pass, 16,385 are refused, after 1 and before any row.
    let column = vec![1_u16; 16_385];
    let second = vec![2_u16; 16_385];
    let table = |n: usize, m: usize| Table {
        days: &column[..n],
        first: &column[..n],
        second: &second[..m],
    };
    assert_eq!(lib::check_table(table(16_384, 16_384)), Ok(()));
    assert_eq!(
        lib::check_table(table(16_385, 16_385)),
        Err(Refusal::TooLarge)
    );
    assert_eq!(
        lib::check_table(table(16_385, 16_384)),
        Err(Refusal::ColumnsDiffer)
    );
    let zeros = vec![0_u16; 16_385];
    let bad = Table {
        days: &zeros,
        first: &zeros,
        second: &zeros,
    };
    assert_eq!(lib::check_table(bad), Err(Refusal::TooLarge));
}

#[test]
fn k_zero_and_beyond() {
    let table = season();
    for (k, expected) in [
        (0, BAD_K),
        (4_096, BAD_K),
        (65_535, BAD_K),
        (1, OK),
        (4_095, OK),
    ] {
        let mut marks = [3; 6];
        let mut scratch = vec![3; lib::scratch_for(6)];
        let got = window_ring(table.lend(), Query { k }, 1..=6, &mut marks, &mut scratch);
        assert_eq!(got.number, expected, "k {k}");
        assert_eq!(got.count, if k == 1 { 6 } else { 0 });
        if expected == BAD_K {
            assert_eq!(marks, [3; 6]);
            assert!(scratch.iter().all(|&number| number == 3));
        }
    }
    // No table has the rows for a ring of k = 4,095; the largest clique has 181.
    let mut rows = Vec::new();
    for b in 0..181 {
        for a in 0..b {
            rows.push((1, a, b));
        }
    }
    let clique = Owned::of(&rows);
    assert_eq!(rings(&clique, 180, 1..=1).0, [(1, 1, 16_290)]);
    assert_eq!(rings(&clique, 181, 1..=1).0, []);
    assert_eq!(rings(&clique, 4_095, 1..=1).0, []);
}

/// 001, Figure 1 and Table II: k = 2, range [1, 7]; v1 to v9 are accounts 1 to 9.
#[test]
fn the_papers_example() {
    let table = Owned::of(&[
        (1, 2, 9),
        (2, 1, 4),
        (2, 2, 3),
        (3, 1, 2),
        (3, 2, 4),
        (4, 3, 9),
        (4, 4, 8),
        (5, 1, 6),
        (5, 1, 7),
        (5, 2, 8),
        (5, 6, 7),
        (6, 1, 3),
        (6, 3, 5),
        (7, 1, 5),
    ]);
    let skyline = [
        (0, 1, 4),
        (1, 2, 3),
        (2, 1, 4),
        (2, 2, 6),
        (3, 2, 3),
        (3, 3, 5),
        (4, 2, 3),
        (4, 3, 5),
        (5, 1, 4),
        (6, 3, 5),
        (7, 5, 5),
        (8, 5, 5),
        (9, 3, 5),
        (10, 5, 5),
        (11, 2, 6),
        (11, 6, 7),
        (12, 6, 7),
        (13, 6, 7),
    ];
    assert_eq!(windows(&table, 2, 1..=7), skyline);
    assert_eq!(
        brute::minimal_window_list(table.lend(), Query { k: 2 }, 1..=7),
        skyline
    );
    // 001, Example 1: two temporal 2-cores in [1, 4].
    let list = vec![(1, 4, 6), (2, 3, 3)];
    assert_eq!(rings(&table, 2, 1..=4), (list, 9));
    // 001, Table I, but for v3 from 4, which Table II contradicts.
    let (accounts, _) = times(&table, 2, 1..=7, 1);
    assert_eq!(accounts[1..10], [3, 3, 4, 3, 7, 5, 5, 5, 4]);
    let (accounts, _) = times(&table, 2, 1..=7, 4);
    let n = NEVER;
    assert_eq!(accounts[1..10], [5, n, 7, n, 7, 5, 5, n, n]);
    let (accounts, _) = times(&table, 2, 1..=7, 6);
    assert_eq!(accounts[1..10], [7, n, 7, n, 7, n, n, n, n]);
    let (accounts, _) = times(&table, 2, 1..=7, 7);
    assert_eq!(accounts[1..10], [n; 9]);
}

/// Each wrapper turns each number into its refusal.
#[test]
fn wrappers_name_refusals() {
    let table = season();
    let mut marks = [0; 6];
    let mut scratch = vec![0; lib::scratch_for(6)];
    let short = lib::scratch_for(6) - 1;
    let t = table.lend();
    let query = Query { k: 2 };
    let fifth = Table {
        days: &t.days[..5],
        ..t
    };
    assert_eq!(
        lib::window_ring(fifth, query, 1..=6, &mut marks, &mut scratch),
        Err(Refusal::ColumnsDiffer)
    );
    assert_eq!(
        lib::window_ring(t, Query { k: 0 }, 1..=6, &mut marks, &mut scratch),
        Err(Refusal::BadK)
    );
    let backwards = Days::new(6, 1);
    assert_eq!(
        lib::window_ring(t, query, backwards.clone(), &mut marks, &mut scratch),
        Err(Refusal::BadRange)
    );
    assert_eq!(
        lib::window_ring(t, query, 1..=6, &mut marks[1..], &mut scratch),
        Err(Refusal::BadLength)
    );
    assert_eq!(
        lib::window_ring(t, query, 1..=6, &mut marks, &mut scratch[..short]),
        Err(Refusal::Scratch)
    );
    assert_eq!(
        lib::label_groups(t, query, 1..=6, &mut [0; 5], &mut scratch),
        Err(Refusal::BadLength)
    );
    assert_eq!(
        lib::mark_group(t, query, 1..=6, 5, &mut marks, &mut scratch[..short]),
        Err(Refusal::Scratch)
    );
    assert_eq!(
        lib::mark_group(t, query, 1..=6, 5, &mut marks, &mut scratch),
        Err(Refusal::NotInRing)
    );
    let list = Windows {
        row: &[0, 1, 1],
        start: &[1, 1, 1],
        end: &[2, 2, 4],
    };
    assert_eq!(
        lib::recall(t, list, 1..=6, &mut marks),
        Err(Refusal::BadEntry(2))
    );
    let mut days = [0; 2];
    let mut first = [0; 2];
    let mut second = [0; 2];
    let mut read =
        |text: &str| lib::read_table(text.as_bytes(), &mut days, &mut first, &mut second);
    assert_eq!(read("    1     1     2\n"), Ok(1));
    assert_eq!(read("    1     1    2\n"), Err(Refusal::BadLine(1)));
    assert_eq!(read("    1     1    02\n"), Err(Refusal::BadField(1)));
    assert_eq!(
        read("    1     1     2\n    1     1 65536\n"),
        Err(Refusal::BadNumber(2))
    );
    assert_eq!(read(&"    1     1     2\n".repeat(3)), Err(Refusal::NoRoom));
    let mut text = [b'#'; 108];
    // 1 before 10, and one byte of text space too few.
    let none = &mut text[..0];
    assert_eq!(lib::write_table(fifth, none), Err(Refusal::ColumnsDiffer));
    let short = &mut text[1..];
    assert_eq!(lib::write_table(t, short), Err(Refusal::NoRoom));
    assert_eq!(text, [b'#'; 108]);
    assert_eq!(lib::write_table(t, &mut text), Ok(108));
    assert_eq!(lib::longest_list(1..=1_024), Ok(524_800));
    assert_eq!(lib::longest_list(backwards), Err(Refusal::BadRange));
}

/// Numbers and places go into refusals and come out again, and into words.
#[test]
fn refusals_by_number() {
    assert_eq!(Refusal::of(OK, 3), None);
    for number in 1..=20 {
        let refusal = Refusal::of(number, 3).unwrap();
        assert_eq!(refusal.number(), number);
        let has_place = matches!(
            number,
            BAD_DAY | BAD_ACCOUNTS | DAY_FALLS | BAD_LINE | BAD_FIELD | BAD_NUMBER | BAD_ENTRY
        );
        let known = number <= NOT_IN_RING;
        assert_eq!(refusal == Refusal::Unknown(number, 3), !known);
        assert_eq!(refusal.place(), (has_place || !known).then_some(3));
    }
    let said = |number, place| Refusal::of(number, place).unwrap().to_string();
    assert_eq!(said(BAD_DAY, 0), "refused 3 at 0: a day outside 1 to 1,024");
    assert_eq!(said(BAD_K, 0), "refused 6: k outside 1 to 4,095");
    assert!(said(16, 0).starts_with("refused 16: "));
    assert!(said(16, 7).starts_with("refused 16 at 7: "));
}

/// One vocabulary: the header, the table of this crate and the README's table
/// have the same numbers and names, and no other.
#[test]
fn one_vocabulary() {
    let ours: Vec<(u32, &str, &str)> = NAMES.to_vec();
    for &(number, _, name) in &ours {
        let refusal = format!("{:?}", Refusal::of(number, 0).unwrap());
        assert_eq!(refusal.split('(').next(), Some(name));
    }
    let header = std::fs::read_to_string("../include/rumbleog.h").unwrap();
    let mut of_header = Vec::new();
    for line in header.lines() {
        let Some((name, rest)) = line
            .trim()
            .strip_prefix("RUMBLEOG_")
            .and_then(|line| line.split_once(" = "))
        else {
            continue;
        };
        let digits = rest.split(|c: char| !c.is_ascii_digit()).next();
        of_header.push((digits.unwrap().parse::<u32>().unwrap(), name));
    }
    let mut names = vec![(OK, "OK")];
    names.extend(ours.iter().map(|&(number, constant, _)| (number, constant)));
    assert_eq!(of_header, names);
    let readme = std::fs::read_to_string("../README.md").unwrap();
    let mut of_readme = Vec::new();
    for line in readme.lines() {
        let cells: Vec<&str> = line.split('|').map(str::trim).collect();
        if let ["", number, constant, name, ..] = cells[..] {
            if let Ok(number) = number.parse::<u32>() {
                of_readme.push((number, constant, name));
            }
        }
    }
    assert_eq!(of_readme, ours);
}

/// The variants of an enum of a Rattle source: the number that the comment
/// above each begins with, if it does, and the name.
fn variants(source: &str, name: &str) -> Vec<(Option<u32>, String)> {
    let head = format!("pub enum {name} {{\n");
    let (_, body) = source.split_once(&head).expect(name);
    let (body, _) = body.split_once("\n}").expect(name);
    let mut found = Vec::new();
    let mut number = None;
    for line in body.lines().map(str::trim) {
        if let Some(comment) = line.strip_prefix("// ") {
            let digits = comment.split(':').next().unwrap();
            number = number.or(digits.parse().ok());
        } else {
            let word = line.split(|c: char| !c.is_alphanumeric()).next();
            found.push((number.take(), word.unwrap().to_string()));
        }
    }
    found
}

/// The same vocabulary in Rattle: rings and text, each as its enums declare its
/// refusals and as its one function tells their numbers, have between them
/// every number, and none by another word.
#[test]
fn one_vocabulary_in_rattle() {
    let read = |path: &str| std::fs::read_to_string(path).expect(path);
    let refusal = read("../crates/rings/src/refusal.rt");
    let table = read("../crates/text/src/table.rt");
    let writer = read("../crates/text/src/writer.rt");
    let report = read("../crates/text/src/report.rt");
    let word = |line: &str, prefix: &str| {
        let (_, rest) = line.split_once(prefix)?;
        let word = rest.split(|c: char| !c.is_alphanumeric()).next()?;
        Some(word.to_string())
    };

    // As declared.
    let of_rings = variants(&refusal, "Refusal");
    let of_reader = variants(&table, "ReadError");
    let of_writer = variants(&writer, "WriteError");
    let of_text = of_reader.iter().chain(&of_writer);
    let mut declared = Vec::new();
    for (number, name) in of_rings.iter().chain(of_text) {
        let number = number.unwrap_or_else(|| panic!("{name} has no number above it"));
        declared.push((number, name.clone()));
    }

    // As told: in rings by `Refusal::NAME .. => NUMBER,`; in text by `const CONSTANT: u32 = NUMBER;`
    // and `Err(ReadError::NAME ..) => refused(CONSTANT, ..`.
    let mut told = Vec::new();
    for line in refusal.lines().map(str::trim) {
        let Some((arm, number)) = line.split_once(" => ") else {
            continue;
        };
        if let Ok(number) = number.trim_end_matches(',').parse::<u32>() {
            told.push((number, word(arm, "Refusal::").unwrap()));
        }
    }
    assert_eq!(told.len(), of_rings.len());
    for line in report.lines().map(str::trim) {
        let Some((arm, rest)) = line.split_once(" => refused(") else {
            continue;
        };
        let Some(name) = word(arm, "Error::") else {
            continue;
        };
        let constant = rest.split(',').next().unwrap();
        let said = format!("const {constant}: u32 = ");
        let number = report.lines().find_map(|line| line.strip_prefix(&said));
        let number = number.unwrap().trim_end_matches(';').parse().unwrap();
        assert!(
            NAMES.contains(&(number, constant, &name)),
            "{constant} for {name}"
        );
        told.push((number, name));
    }

    for mut of_rattle in [declared, told] {
        of_rattle.sort();
        of_rattle.dedup();
        let ours: Vec<(u32, String)> = NAMES
            .iter()
            .map(|&(number, _, name)| (number, name.to_string()))
            .collect();
        assert_eq!(of_rattle, ours);
    }
}

/// The C host's expected listings are those of the brute-force version.
#[test]
fn examples_listed() {
    for (name, number) in [
        ("season", OK),
        ("market", OK),
        ("broken-day", DAY_FALLS),
        ("broken-field", BAD_FIELD),
    ] {
        let text = std::fs::read(format!("../examples/{name}.txt")).unwrap();
        let expected = std::fs::read(format!("c/expected/{name}.txt")).unwrap();
        assert!(text.len() <= lib::MOST_INPUT);
        let mut output = vec![b'#'; lib::text_for(lib::MOST_LISTED)];
        let got = list(&text, &mut output);
        assert_eq!(got.number, number, "{name}");
        match brute::list_text(&text) {
            Ok(listing) => {
                assert!(listing == expected, "{name}");
                assert!(listing == output[..got.count as usize], "{name}");
            }
            Err(refusal) => {
                assert_eq!((got.number, got.place), (refusal.number, refusal.place));
                let line = format!("refused{:>5}{:>6}\n", got.number, got.place);
                assert_eq!(line.as_bytes(), expected, "{name}");
            }
        }
    }
}
