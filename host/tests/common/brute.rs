//! The brute-force version: every operation from its definition, with sets and
//! no cleverness. It is slow, and is meant to be believed on one reading; the
//! tests compare the archive with it.
//!
//! Each operation takes the same inputs and lent buffers as the call of the
//! same name, leaves in the buffers what the call must leave there, and returns
//! the numbers that the call must return.

use rumbleog::number::*;
use rumbleog::{
    Days, Query, Table, Windows, ACCOUNTS, LAST_DAY, MOST_INPUT, MOST_LISTED, MOST_ROWS, NEVER,
    NO_GROUP,
};
use std::collections::{BTreeMap, BTreeSet};

/// What a call returns: the number of the refusal, its place (line, for the
/// listing program), the count (length of text), the sum and the empty windows.
#[derive(Clone, Copy, Debug, Default, PartialEq, Eq)]
pub struct Answer {
    /// Number of the refusal, `OK` for none.
    pub number: u32,
    /// Row, entry or line of the refusal; 0 where there is none.
    pub place: u64,
    /// Count of ones, entries, rings, lines or bytes; 0 on a refusal.
    pub count: u64,
    /// Sum of rows of a listing; 0 on a refusal and for other calls.
    pub sum: u64,
    /// Windows with no ring, of a listing; 0 on a refusal and for other calls.
    pub empty: u64,
}

fn refused(number: u32, place: usize) -> Answer {
    Answer {
        number,
        place: place as u64,
        ..Answer::default()
    }
}

/// Success, with this count.
pub fn counted(count: usize) -> Answer {
    Answer {
        count: count as u64,
        ..Answer::default()
    }
}

// ---- definitions ----

/// A set of rows of a table.
pub type RowSet = BTreeSet<usize>;

/// The rows of a window: those dated on one of its days.
pub fn window_rows(table: Table, window: Days) -> RowSet {
    (0..table.days.len())
        .filter(|&row| window.contains(&table.days[row]))
        .collect()
}

/// The two accounts of a row.
fn accounts_of(table: Table, row: usize) -> [u16; 2] {
    [table.first[row], table.second[row]]
}

/// For each account that a set of rows meets, its distinct other accounts.
fn neighbours(table: Table, rows: &RowSet) -> BTreeMap<u16, BTreeSet<u16>> {
    let mut found: BTreeMap<u16, BTreeSet<u16>> = BTreeMap::new();
    for &row in rows {
        let [a, b] = accounts_of(table, row);
        found.entry(a).or_default().insert(b);
        found.entry(b).or_default().insert(a);
    }
    found
}

/// The accounts that a set of rows meets.
fn accounts_met(table: Table, rows: &RowSet) -> BTreeSet<u16> {
    rows.iter()
        .flat_map(|&row| accounts_of(table, row))
        .collect()
}

/// Does every account met have at least k distinct other accounts?
pub fn is_good(table: Table, query: Query, rows: &RowSet) -> bool {
    neighbours(table, rows)
        .values()
        .all(|others| others.len() >= usize::from(query.k))
}

/// The ring of a window: the greatest good set of its rows.
///
/// A row of an account with fewer than k neighbours is in no good subset, so
/// dropping it loses none; a set with no such row is good, and so the greatest.
pub fn ring(table: Table, query: Query, window: Days) -> RowSet {
    let mut rows = window_rows(table, window);
    while !is_good(table, query, &rows) {
        let near = neighbours(table, &rows);
        let enough = |account: &u16| near[account].len() >= usize::from(query.k);
        rows.retain(|&row| accounts_of(table, row).iter().all(enough));
    }
    rows
}

/// The rings of all windows inside a range, by first and last day.
pub fn all_rings(table: Table, query: Query, range: Days) -> BTreeMap<(u16, u16), RowSet> {
    let mut rings = BTreeMap::new();
    let last = *range.end();
    for s in range {
        for e in s..=last {
            rings.insert((s, e), ring(table, query, s..=e));
        }
    }
    rings
}

/// A group: the accounts that are connected with each other.
pub type Group = BTreeSet<u16>;

/// The groups of a set of rows: the two accounts of each row, then sets with an
/// account in common become one, until nothing changes.
pub fn groups(table: Table, rows: &RowSet) -> BTreeSet<Group> {
    let mut groups: BTreeSet<Group> = rows
        .iter()
        .map(|&row| Group::from(accounts_of(table, row)))
        .collect();
    loop {
        let merged: BTreeSet<Group> = groups.iter().map(|group| touched(&groups, group)).collect();
        if merged == groups {
            return groups;
        }
        groups = merged;
    }
}

/// All accounts of the sets that have one in common with this set.
fn touched(groups: &BTreeSet<Group>, with: &Group) -> Group {
    let touching = groups.iter().filter(|group| !group.is_disjoint(with));
    touching.flatten().copied().collect()
}

/// The group of an account, if a row of the set meets it.
pub fn group_of(table: Table, rows: &RowSet, account: u16) -> Option<Group> {
    groups(table, rows)
        .into_iter()
        .find(|group| group.contains(&account))
}

// ---- checks ----

fn columns_differ(table: Table) -> bool {
    let rows = table.days.len();
    table.first.len() != rows || table.second.len() != rows
}

fn table_refusal(table: Table) -> Option<Answer> {
    let rows = table.days.len();
    if columns_differ(table) {
        return Some(refused(COLUMNS_DIFFER, 0));
    }
    if rows > MOST_ROWS {
        return Some(refused(TOO_LARGE, 0));
    }
    for row in 0..rows {
        let [a, b] = accounts_of(table, row);
        if !(1..=LAST_DAY).contains(&table.days[row]) {
            return Some(refused(BAD_DAY, row));
        }
        if usize::from(b) >= ACCOUNTS || a >= b {
            return Some(refused(BAD_ACCOUNTS, row));
        }
        if row > 0 && table.days[row] < table.days[row - 1] {
            return Some(refused(DAY_FALLS, row));
        }
    }
    None
}

fn k_is_bad(query: Query) -> bool {
    !(1..=4_095).contains(&query.k)
}

fn range_is_bad(range: &Days) -> bool {
    let (first, last) = (*range.start(), *range.end());
    !(1 <= first && first <= last && last <= LAST_DAY)
}

fn scratch_is_short(table: Table, scratch: &[u16]) -> bool {
    scratch.len() < 8_192 + 4 * table.days.len()
}

/// The checks of Window ring, marks or labels having this many places.
fn window_refusal(
    table: Table,
    query: Query,
    window: &Days,
    places: usize,
    scratch: &[u16],
) -> Option<Answer> {
    if let Some(refusal) = table_refusal(table) {
        return Some(refusal);
    }
    if k_is_bad(query) {
        return Some(refused(BAD_K, 0));
    }
    if range_is_bad(window) {
        return Some(refused(BAD_RANGE, 0));
    }
    if places != table.days.len() {
        return Some(refused(BAD_LENGTH, 0));
    }
    if scratch_is_short(table, scratch) {
        return Some(refused(SCRATCH, 0));
    }
    None
}

// ---- operations ----

/// Table check.
pub fn check_table(table: Table) -> Answer {
    table_refusal(table).unwrap_or_default()
}

/// Window ring.
pub fn window_ring(
    table: Table,
    query: Query,
    window: Days,
    marks: &mut [u8],
    scratch: &mut [u16],
) -> Answer {
    if let Some(refusal) = window_refusal(table, query, &window, marks.len(), scratch) {
        return refusal;
    }
    let ring = ring(table, query, window);
    for (row, mark) in marks.iter_mut().enumerate() {
        *mark = u8::from(ring.contains(&row));
    }
    scratch.fill(0);
    counted(ring.len())
}

/// Label groups.
pub fn label_groups(
    table: Table,
    query: Query,
    window: Days,
    labels: &mut [u16],
    scratch: &mut [u16],
) -> Answer {
    if let Some(refusal) = window_refusal(table, query, &window, labels.len(), scratch) {
        return refusal;
    }
    let ring = ring(table, query, window);
    labels.fill(NO_GROUP);
    for group in groups(table, &ring) {
        for &row in &ring {
            if group.contains(&table.first[row]) {
                labels[row] = *group.iter().min().unwrap();
            }
        }
    }
    scratch.fill(0);
    counted(ring.len())
}

/// Mark group.
pub fn mark_group(
    table: Table,
    query: Query,
    window: Days,
    account: u16,
    marks: &mut [u8],
    scratch: &mut [u16],
) -> Answer {
    if let Some(refusal) = window_refusal(table, query, &window, marks.len(), scratch) {
        return refusal;
    }
    scratch.fill(0);
    let ring = ring(table, query, window);
    let Some(group) = group_of(table, &ring, account) else {
        return refused(NOT_IN_RING, 0);
    };
    for (row, mark) in marks.iter_mut().enumerate() {
        *mark = u8::from(ring.contains(&row) && group.contains(&table.first[row]));
    }
    counted(marks.iter().filter(|&&mark| mark == 1).count())
}

/// Core times.
pub fn core_times(
    table: Table,
    query: Query,
    range: Days,
    start: u16,
    accounts: &mut [u16],
    rows: &mut [u16],
    scratch: &mut [u16],
) -> Answer {
    if let Some(refusal) = table_refusal(table) {
        return refusal;
    }
    if k_is_bad(query) {
        return refused(BAD_K, 0);
    }
    if range_is_bad(&range) || !range.contains(&start) {
        return refused(BAD_RANGE, 0);
    }
    if accounts.len() != ACCOUNTS || rows.len() != table.days.len() {
        return refused(BAD_LENGTH, 0);
    }
    if scratch_is_short(table, scratch) {
        return refused(SCRATCH, 0);
    }
    // Try each end, the least first.
    accounts.fill(NEVER);
    rows.fill(NEVER);
    for e in start..=*range.end() {
        let ring = ring(table, query, start..=e);
        for account in accounts_met(table, &ring) {
            let time = &mut accounts[usize::from(account)];
            *time = e.min(*time);
        }
        for row in ring {
            rows[row] = e.min(rows[row]);
        }
    }
    scratch.fill(0);
    Answer::default()
}

/// The minimal windows of every row, by row, then start.
pub fn minimal_window_list(table: Table, query: Query, range: Days) -> Vec<(u16, u16, u16)> {
    let rings = all_rings(table, query, range);
    let mut list = Vec::new();
    for row in 0..table.days.len() {
        for (&(s, e), ring) in &rings {
            let smaller_has_it = rings.iter().any(|(&(s2, e2), smaller)| {
                s <= s2 && e2 <= e && (s2, e2) != (s, e) && smaller.contains(&row)
            });
            if ring.contains(&row) && !smaller_has_it {
                list.push((row as u16, s, e));
            }
        }
    }
    list
}

/// Minimal windows.
pub fn minimal_windows(
    table: Table,
    query: Query,
    range: Days,
    row: &mut [u16],
    start: &mut [u16],
    end: &mut [u16],
    scratch: &mut [u16],
) -> Answer {
    if let Some(refusal) = table_refusal(table) {
        return refusal;
    }
    if k_is_bad(query) {
        return refused(BAD_K, 0);
    }
    if range_is_bad(&range) {
        return refused(BAD_RANGE, 0);
    }
    if row.len() != start.len() || row.len() != end.len() {
        return refused(BAD_LENGTH, 0);
    }
    if scratch_is_short(table, scratch) {
        return refused(SCRATCH, 0);
    }
    scratch.fill(0);
    let list = minimal_window_list(table, query, range);
    if list.len() > row.len() {
        return refused(NO_ROOM, 0);
    }
    for (at, &entry) in list.iter().enumerate() {
        (row[at], start[at], end[at]) = entry;
    }
    counted(list.len())
}

/// A ring as it is listed: first row day, last row day, number of rows, number
/// of windows whose ring it is.
pub type Listed = (u16, u16, u16, u32);

/// The distinct nonempty rings by start, then end, and the number of windows
/// with no ring.
pub fn ring_list(table: Table, query: Query, range: Days) -> (Vec<Listed>, u64) {
    let mut windows: BTreeMap<RowSet, u32> = BTreeMap::new();
    for ring in all_rings(table, query, range).into_values() {
        *windows.entry(ring).or_default() += 1;
    }
    let (mut list, mut empty) = (Vec::new(), 0);
    for (ring, windows) in windows {
        let days = ring.iter().map(|&row| table.days[row]);
        match (days.clone().min(), days.max()) {
            (Some(first), Some(last)) => list.push((first, last, ring.len() as u16, windows)),
            _ => empty = u64::from(windows),
        }
    }
    list.sort();
    (list, empty)
}

/// Listing.
#[allow(clippy::too_many_arguments)]
pub fn listing(
    table: Table,
    query: Query,
    range: Days,
    start: &mut [u16],
    end: &mut [u16],
    rows: &mut [u16],
    windows: &mut [u32],
    scratch: &mut [u16],
) -> Answer {
    if let Some(refusal) = table_refusal(table) {
        return refusal;
    }
    if k_is_bad(query) {
        return refused(BAD_K, 0);
    }
    if range_is_bad(&range) {
        return refused(BAD_RANGE, 0);
    }
    let places = start.len();
    if end.len() != places || rows.len() != places || windows.len() != places {
        return refused(BAD_LENGTH, 0);
    }
    if scratch_is_short(table, scratch) {
        return refused(SCRATCH, 0);
    }
    scratch.fill(0);
    let (list, empty) = ring_list(table, query, range);
    if list.len() > places {
        return refused(NO_ROOM, 0);
    }
    for (at, &entry) in list.iter().enumerate() {
        (start[at], end[at], rows[at], windows[at]) = entry;
    }
    Answer {
        sum: list.iter().map(|&(_, _, rows, _)| u64::from(rows)).sum(),
        empty,
        ..counted(list.len())
    }
}

/// Recall.
pub fn recall(table: Table, windows: Windows, window: Days, marks: &mut [u8]) -> Answer {
    let Windows { row, start, end } = windows;
    if let Some(refusal) = table_refusal(table) {
        return refusal;
    }
    if row.len() != start.len() || row.len() != end.len() || marks.len() != table.days.len() {
        return refused(BAD_LENGTH, 0);
    }
    for i in 0..row.len() {
        let Some(&day) = table.days.get(usize::from(row[i])) else {
            return refused(BAD_ENTRY, i);
        };
        if !(1 <= start[i] && start[i] <= day && day <= end[i] && end[i] <= LAST_DAY) {
            return refused(BAD_ENTRY, i);
        }
        if i > 0 {
            let row_rises = row[i] > row[i - 1];
            let window_rises = start[i] > start[i - 1] && end[i] > end[i - 1];
            if !(row_rises || row[i] == row[i - 1] && window_rises) {
                return refused(BAD_ENTRY, i);
            }
        }
    }
    if range_is_bad(&window) {
        return refused(BAD_RANGE, 0);
    }
    let inside = |i: usize| *window.start() <= start[i] && end[i] <= *window.end();
    for (at, mark) in marks.iter_mut().enumerate() {
        let listed = (0..row.len()).any(|i| usize::from(row[i]) == at && inside(i));
        *mark = u8::from(listed);
    }
    Answer::default()
}

/// Longest list.
pub fn longest_list(range: Days) -> Answer {
    if range_is_bad(&range) {
        return refused(BAD_RANGE, 0);
    }
    let days = range.count();
    counted(days * (days + 1) / 2)
}

// ---- text ----

/// The number in a field: what printing it right-justified gives back.
fn field(bytes: &[u8]) -> Option<u64> {
    let text = std::str::from_utf8(bytes).ok()?;
    let number: u64 = text.trim_start_matches(' ').parse().ok()?;
    (text == format!("{number:>width$}", width = bytes.len())).then_some(number)
}

/// The three numbers of a line with fields of these widths, or the refusal.
fn line_numbers(line: &[u8], widths: [usize; 3]) -> Result<[u16; 3], u32> {
    let [a, b, c] = widths;
    if line.len() != a + b + c + 1 || line[a + b + c] != b'\n' {
        return Err(BAD_LINE);
    }
    let fields = [&line[..a], &line[a..a + b], &line[a + b..a + b + c]].map(field);
    let [Some(x), Some(y), Some(z)] = fields else {
        return Err(BAD_FIELD);
    };
    if [x, y, z].iter().any(|&number| number > 65_535) {
        return Err(BAD_NUMBER);
    }
    Ok([x as u16, y as u16, z as u16])
}

/// Reader.
pub fn read_table(text: &[u8], days: &mut [u16], first: &mut [u16], second: &mut [u16]) -> Answer {
    let mut rows = Vec::new();
    for (line, bytes) in text.split_inclusive(|&byte| byte == b'\n').enumerate() {
        match line_numbers(bytes, [5, 6, 6]) {
            Ok(row) => rows.push(row),
            Err(number) => return refused(number, line + 1),
        }
    }
    if rows.len() > days.len() || rows.len() > first.len() || rows.len() > second.len() {
        return refused(NO_ROOM, 0);
    }
    for (at, &row) in rows.iter().enumerate() {
        [days[at], first[at], second[at]] = row;
    }
    counted(rows.len())
}

/// Rows as text, a line a row.
pub fn table_text(table: Table) -> String {
    (0..table.days.len())
        .map(|row| {
            let [a, b] = accounts_of(table, row);
            format!("{:>5}{a:>6}{b:>6}\n", table.days[row])
        })
        .collect()
}

/// A text into the space lent for it, all of it or nothing.
pub fn put(text: &[u8], space: &mut [u8]) -> Answer {
    if text.len() > space.len() {
        return refused(NO_ROOM, 0);
    }
    space[..text.len()].copy_from_slice(text);
    counted(text.len())
}

/// Writer.
pub fn write_table(table: Table, text: &mut [u8]) -> Answer {
    if columns_differ(table) {
        return refused(COLUMNS_DIFFER, 0);
    }
    put(table_text(table).as_bytes(), text)
}

/// The listing program's text, or its refusal with the input line.
pub fn list_text(input: &[u8]) -> Result<Vec<u8>, Answer> {
    if input.len() > MOST_INPUT {
        return Err(refused(TOO_LARGE, 0));
    }
    let mut lines = input.split_inclusive(|&byte| byte == b'\n');
    let query = lines.next().unwrap_or(b"");
    let [k, ts, te] = line_numbers(query, [5, 5, 5]).map_err(|number| refused(number, 1))?;

    let mut columns = [[0; 1_024]; 3];
    let [days, first, second] = &mut columns;
    let read = read_table(&input[query.len()..], days, first, second);
    if read.number != OK {
        return Err(refused(read.number, read.place as usize + 1));
    }
    let rows = read.count as usize;
    let table = Table {
        days: &days[..rows],
        first: &first[..rows],
        second: &second[..rows],
    };
    let mut list = [[0; MOST_LISTED]; 3];
    let [start, end, size] = &mut list;
    let mut windows = [0; MOST_LISTED];
    let mut scratch = vec![0; 8_192 + 4 * rows];
    let listed = listing(
        table,
        Query { k },
        ts..=te,
        start,
        end,
        size,
        &mut windows,
        &mut scratch,
    );
    match listed.number {
        OK => {}
        BAD_DAY | BAD_ACCOUNTS | DAY_FALLS => {
            return Err(refused(listed.number, listed.place as usize + 2))
        }
        number => return Err(refused(number, 0)),
    }
    let mut text = String::from("start  end span  rows\n");
    for i in 0..listed.count as usize {
        // Both days count.
        let span = end[i] - start[i] + 1;
        text += &format!("{:>5}{:>5}{:>5}{:>6}\n", start[i], end[i], span, size[i]);
    }
    Ok(text.into_bytes())
}
