//! The README's worked examples. Each is quoted there, and the last test sees
//! to it that every block of code in the README stands in a file that runs.

use rumbleog::*;

/// Six payments: day, first account, second account.
const DAYS: [u16; 6] = [1, 2, 2, 4, 5, 6];
const FIRST: [u16; 6] = [1, 2, 1, 1, 3, 2];
const SECOND: [u16; 6] = [2, 3, 3, 2, 4, 4];
const SEASON: Table = Table {
    days: &DAYS,
    first: &FIRST,
    second: &SECOND,
};

#[test]
fn a_window_ring() -> Result<(), Refusal> {
    // Which payments of days 1 to 4 lie in a ring of at least 2 partners each?
    let mut marks = [0; 6];
    let mut scratch = vec![0; scratch_for(6)];
    let count = window_ring(SEASON, Query { k: 2 }, 1..=4, &mut marks, &mut scratch)?;
    assert_eq!(count, 4);
    assert_eq!(marks, [1, 1, 1, 1, 0, 0]);
    Ok(())
}

#[test]
fn one_gang_at_a_time() -> Result<(), Refusal> {
    // Two gangs of three, and a payment between them on day 3.
    let gangs = Table {
        days: &[1, 1, 1, 2, 2, 2, 3],
        first: &[1, 2, 1, 6, 5, 5, 3],
        second: &[2, 3, 3, 7, 6, 7, 5],
    };
    let mut labels = [0; 7];
    let mut scratch = vec![0; scratch_for(7)];
    // Days 1 to 2: each payment of the ring by the smallest account of its gang.
    let count = label_groups(gangs, Query { k: 2 }, 1..=2, &mut labels, &mut scratch)?;
    assert_eq!(count, 6);
    assert_eq!(labels, [1, 1, 1, 5, 5, 5, NO_GROUP]);
    // The case of account 6 alone.
    let mut marks = [0; 7];
    let count = mark_group(gangs, Query { k: 2 }, 1..=2, 6, &mut marks, &mut scratch)?;
    assert_eq!(count, 3);
    assert_eq!(marks, [0, 0, 0, 1, 1, 1, 0]);
    // An account that is in no ring of these days has no group.
    let outside = mark_group(gangs, Query { k: 2 }, 1..=2, 8, &mut marks, &mut scratch);
    assert_eq!(outside, Err(Refusal::NotInRing));
    // With day 3 the two are one gang.
    label_groups(gangs, Query { k: 2 }, 1..=3, &mut labels, &mut scratch)?;
    assert_eq!(labels, [1; 7]);
    Ok(())
}

#[test]
fn core_times_of_a_start() -> Result<(), Refusal> {
    // From day 1 on, on which day does each account and each payment join a ring?
    let mut accounts = vec![0; ACCOUNTS];
    let mut rows = [0; 6];
    let mut scratch = vec![0; scratch_for(6)];
    core_times(
        SEASON,
        Query { k: 2 },
        1..=6,
        1,
        &mut accounts,
        &mut rows,
        &mut scratch,
    )?;
    assert_eq!(accounts[..6], [NEVER, 2, 2, 2, 6, NEVER]);
    assert_eq!(rows, [2, 2, 2, 4, 6, 6]);
    Ok(())
}

#[test]
fn minimal_windows_and_recall() -> Result<(), Refusal> {
    // Kept once: the minimal windows of every payment in days 1 to 6.
    let (mut row, mut start, mut end) = ([0; 16], [0; 16], [0; 16]);
    let mut scratch = vec![0; scratch_for(6)];
    let count = minimal_windows(
        SEASON,
        Query { k: 2 },
        1..=6,
        &mut row,
        &mut start,
        &mut end,
        &mut scratch,
    )? as usize;
    assert_eq!(count, 8);
    assert_eq!(row[..count], [0, 1, 1, 2, 2, 3, 4, 5]);
    assert_eq!(start[..count], [1, 1, 2, 1, 2, 2, 2, 2]);
    assert_eq!(end[..count], [2, 2, 4, 2, 4, 4, 6, 6]);

    // Asked for years: the ring of any window in that range, with no search.
    let kept = Windows {
        row: &row[..count],
        start: &start[..count],
        end: &end[..count],
    };
    let mut marks = [0; 6];
    recall(SEASON, kept, 2..=4, &mut marks)?;
    assert_eq!(marks, [0, 1, 1, 1, 0, 0]);
    Ok(())
}

#[test]
fn table_text_in_and_out() -> Result<(), Refusal> {
    // Received as text: a line a payment.
    let received = b"    1     1     2\n    2     2     3\n    2     1     3\n";
    let (mut days, mut first, mut second) = ([0; 3], [0; 3], [0; 3]);
    let rows = read_table(received, &mut days, &mut first, &mut second)?;
    assert_eq!(rows, 3);
    assert_eq!((days, first, second), ([1, 2, 2], [1, 2, 1], [2, 3, 3]));

    // Sent on as text, byte for byte the same.
    let table = Table {
        days: &days,
        first: &first,
        second: &second,
    };
    let mut sent = vec![0; table_text_for(rows)];
    let length = write_table(table, &mut sent)?;
    assert_eq!(sent[..length], received[..]);
    Ok(())
}

#[test]
fn a_listing() -> Result<(), Refusal> {
    // Every ring of days 1 to 6 once, by its tightest window. There is always room.
    let places = longest_list(1..=6)? as usize;
    let (mut start, mut end, mut rows) = (vec![0; places], vec![0; places], vec![0; places]);
    let mut windows = vec![0; places];
    let mut scratch = vec![0; scratch_for(6)];
    let listed = listing(
        SEASON,
        Query { k: 2 },
        1..=6,
        &mut start,
        &mut end,
        &mut rows,
        &mut windows,
        &mut scratch,
    )?;
    assert_eq!((listed.count, listed.sum), (5, 21));
    assert_eq!(start[..5], [1, 1, 1, 2, 2]);
    assert_eq!(end[..5], [2, 4, 6, 4, 6]);
    assert_eq!(rows[..5], [3, 4, 6, 3, 5]);

    // How many choices of days show each ring, and how many show none: 21 in all.
    assert_eq!(windows[..5], [2, 2, 1, 2, 1]);
    assert_eq!(listed.empty, 13);
    Ok(())
}

/// The lines of a text without the blanks around them.
fn lines(text: &str) -> Vec<&str> {
    text.lines()
        .map(str::trim)
        .filter(|l| !l.is_empty())
        .collect()
}

#[test]
fn the_readme_quotes_what_runs() {
    let read = |name: &str| std::fs::read_to_string(name).unwrap();
    let readme = read("../README.md");
    let sources = [
        ("rust", read("tests/readme.rs")),
        ("c", read("c/host.c")),
        ("text", read("../examples/season.txt")),
        ("text", read("c/expected/season.txt")),
        ("text", read("c/expected/broken-day.txt")),
        ("text", read("c/expected/season-ring.txt")),
    ];
    let mut quoted = 0;
    let mut parts = readme.split("\n```");
    parts.next();
    while let (Some(block), Some(_)) = (parts.next(), parts.next()) {
        let (kind, body) = block.split_once('\n').unwrap();
        if kind.is_empty() || kind == "sh" {
            continue;
        }
        let body = lines(body);
        let runs = sources.iter().any(|(of, source)| {
            *of == kind && lines(source).windows(body.len()).any(|part| part == body)
        });
        assert!(runs, "in no file that runs: {body:?}");
        quoted += 1;
    }
    assert!(quoted >= 7, "{quoted} blocks");
}
