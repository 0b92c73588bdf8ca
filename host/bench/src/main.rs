//! The benchmark: the archive against its peers, as ratios. Same run, same
//! input, medians, runs taking turns. Every peer must first give the archive's
//! answer on each table.
//!
//!   bench FILE        runs all of it and writes the page FILE
//!   bench --only NAME measures the full tables whose name starts so, no page
//!   bench --text      measures table text and prints its part of the page
//!   bench --groups    the same of the groups of a ring
//!   bench --search N  tries N drawn tables and names the worst of them
//!   bench --against OLD.so NEW.so  two archives on the full tables, by turns

mod against;
mod groups;
mod peers;
mod report;
mod tables;
mod text;

/// The same calls of the C peer.
#[allow(dead_code)]
mod peer {
    rumbleog::foreign_calls!(linked "peer_");
}

/// The same calls of two archives that are loaded, for `--against`.
#[allow(dead_code)]
mod old {
    rumbleog::foreign_calls!(loaded);
}
#[allow(dead_code)]
mod new {
    rumbleog::foreign_calls!(loaded);
}

use peers::{List, Plain};
use rumbleog::{longest_list, number, raw, scratch_for, Days, Table, ACCOUNTS};
use tables::{Case, Class, Columns};

#[repr(C)]
struct Timespec {
    seconds: i64,
    nanoseconds: i64,
}

extern "C" {
    fn clock_gettime(clock: i32, time: *mut Timespec) -> i32;
}

/// Processor time of this thread, in seconds: what other work on the machine
/// takes is not counted.
fn now() -> f64 {
    const THREAD_CPUTIME: i32 = 3;
    let mut time = Timespec {
        seconds: 0,
        nanoseconds: 0,
    };
    // SAFETY: a live Timespec, laid out as C's.
    unsafe { clock_gettime(THREAD_CPUTIME, &mut time) };
    time.seconds as f64 + time.nanoseconds as f64 * 1e-9
}

/// Worst tables that `--search` found, kept as cases (16,384 rows).
const FOUND: [u64; 4] = [396, 632, 675, 163];

const SIZES: [usize; 3] = [1_024, 4_096, 16_384];

/// Whose calls are measured: the archive's, those of the C peer, or those of
/// one of two archives that are loaded.
#[derive(Clone, Copy, Debug)]
pub enum Engine {
    Archive,
    Peer,
    Old,
    New,
}

/// Columns lent for an answer of three columns.
#[derive(PartialEq)]
pub struct Three {
    a: Vec<u16>,
    b: Vec<u16>,
    c: Vec<u16>,
}

impl Three {
    /// Touched, so that no page is new to the call.
    pub fn new(places: usize) -> Three {
        Three {
            a: vec![1; places],
            b: vec![1; places],
            c: vec![1; places],
        }
    }

    fn same(&self, count: usize, list: &List) -> bool {
        self.a[..count] == list.a && self.b[..count] == list.b && self.c[..count] == list.c
    }
}

/// Columns lent for a listing: the fourth has the windows behind each ring.
pub struct Rings {
    three: Three,
    windows: Vec<u32>,
}

impl Rings {
    pub fn new(places: usize) -> Rings {
        Rings {
            three: Three::new(places),
            windows: vec![1; places],
        }
    }
}

/// What a listing tells.
#[derive(Clone, Copy, Debug, PartialEq, Eq)]
pub struct Found {
    count: usize,
    sum: u64,
    empty: u64,
}

impl Engine {
    /// The rings of a case, or none if refused.
    pub fn list(self, case: &Case, out: &mut Rings, scratch: &mut [u16]) -> Option<Found> {
        let listing = match self {
            Engine::Archive => raw::listing,
            Engine::Peer => peer::listing,
            Engine::Old => old::listing,
            Engine::New => new::listing,
        };
        let Three { a, b, c } = &mut out.three;
        let (mut place, mut count, mut sum, mut empty) = (0, 0, 0, 0);
        let number = listing(
            case.lend(),
            case.query(),
            case.range(),
            a,
            b,
            c,
            &mut out.windows,
            scratch,
            &mut place,
            &mut count,
            &mut sum,
            &mut empty,
        );
        let count = count as usize;
        (number == number::OK).then_some(Found { count, sum, empty })
    }

    /// Number of entries, or the refusal.
    pub fn windows(self, case: &Case, out: &mut Three, scratch: &mut [u16]) -> Result<usize, u32> {
        let minimal_windows = match self {
            Engine::Archive => raw::minimal_windows,
            Engine::Peer => peer::minimal_windows,
            Engine::Old => old::minimal_windows,
            Engine::New => new::minimal_windows,
        };
        let Three { a, b, c } = out;
        let (mut place, mut count) = (0, 0);
        let number = minimal_windows(
            case.lend(),
            case.query(),
            case.range(),
            a,
            b,
            c,
            scratch,
            &mut place,
            &mut count,
        );
        match number {
            number::OK => Ok(count as usize),
            _ => Err(number),
        }
    }

    pub fn ring(
        self,
        case: &Case,
        window: Days,
        marks: &mut [u8],
        scratch: &mut [u16],
    ) -> Option<usize> {
        let window_ring = match self {
            Engine::Archive => raw::window_ring,
            Engine::Peer => peer::window_ring,
            Engine::Old => old::window_ring,
            Engine::New => new::window_ring,
        };
        let (mut place, mut count) = (0, 0);
        let number = window_ring(
            case.lend(),
            case.query(),
            window,
            marks,
            scratch,
            &mut place,
            &mut count,
        );
        (number == number::OK).then_some(count as usize)
    }

    /// Rows of the ring, or none if refused. The C peer is not asked: its groups
    /// are those of a union-find behind the archive's ring (groups.rs).
    pub fn label(
        self,
        case: &Case,
        window: Days,
        labels: &mut [u16],
        scratch: &mut [u16],
    ) -> Option<usize> {
        let label_groups = match self {
            Engine::Archive => raw::label_groups,
            Engine::Peer => return None,
            Engine::Old => old::label_groups,
            Engine::New => new::label_groups,
        };
        let (mut place, mut count) = (0, 0);
        let number = label_groups(
            case.lend(),
            case.query(),
            window,
            labels,
            scratch,
            &mut place,
            &mut count,
        );
        (number == number::OK).then_some(count as usize)
    }

    /// Rows of the account's group, or none if refused; the C peer as above.
    pub fn mark(
        self,
        case: &Case,
        window: Days,
        account: u16,
        marks: &mut [u8],
        scratch: &mut [u16],
    ) -> Option<usize> {
        let mark_group = match self {
            Engine::Archive => raw::mark_group,
            Engine::Peer => return None,
            Engine::Old => old::mark_group,
            Engine::New => new::mark_group,
        };
        let (mut place, mut count) = (0, 0);
        let number = mark_group(
            case.lend(),
            case.query(),
            window,
            account,
            marks,
            scratch,
            &mut place,
            &mut count,
        );
        (number == number::OK).then_some(count as usize)
    }

    pub fn times(
        self,
        case: &Case,
        start: u16,
        accounts: &mut [u16],
        rows: &mut [u16],
        scratch: &mut [u16],
    ) -> Option<()> {
        let core_times = match self {
            Engine::Archive => raw::core_times,
            Engine::Peer => peer::core_times,
            Engine::Old => old::core_times,
            Engine::New => new::core_times,
        };
        let mut place = 0;
        let number = core_times(
            case.lend(),
            case.query(),
            case.range(),
            start,
            accounts,
            rows,
            scratch,
            &mut place,
        );
        (number == number::OK).then_some(())
    }

    /// Bytes written, or none if refused.
    pub fn write(self, table: Table, text: &mut [u8]) -> Option<usize> {
        let write_table = match self {
            Engine::Archive => raw::write_table,
            Engine::Peer => peer::write_table,
            Engine::Old => old::write_table,
            Engine::New => new::write_table,
        };
        let (mut place, mut length) = (0, 0);
        let number = write_table(table, text, &mut place, &mut length);
        (number == number::OK).then_some(length as usize)
    }

    /// Rows read, or none if refused.
    pub fn read(self, text: &[u8], out: &mut Columns) -> Option<usize> {
        let read_table = match self {
            Engine::Archive => raw::read_table,
            Engine::Peer => peer::read_table,
            Engine::Old => old::read_table,
            Engine::New => new::read_table,
        };
        let Columns {
            days,
            first,
            second,
        } = out;
        let (mut place, mut count) = (0, 0);
        let number = read_table(text, days, first, second, &mut place, &mut count);
        (number == number::OK).then_some(count as usize)
    }
}

/// What is timed, in the order of a result's times.
#[derive(Clone, Copy, Debug, PartialEq, Eq)]
pub enum Op {
    Listing,
    ListingExact,
    ListingC,
    Counting,
    Copying,
    Otcd,
    Afresh,
    Windows,
    WindowsC,
    Algorithm2,
    Ring,
    RingC,
    RingPlain,
    Times,
    TimesC,
    TimesPlain,
}

pub const OPS: [Op; 16] = [
    Op::Listing,
    Op::ListingExact,
    Op::ListingC,
    Op::Counting,
    Op::Copying,
    Op::Otcd,
    Op::Afresh,
    Op::Windows,
    Op::WindowsC,
    Op::Algorithm2,
    Op::Ring,
    Op::RingC,
    Op::RingPlain,
    Op::Times,
    Op::TimesC,
    Op::TimesPlain,
];

/// Medians of one table, in seconds.
pub struct Measured {
    pub name: String,
    pub class: Class,
    pub rows: usize,
    pub rings: usize,
    pub entries: usize,
    pub times: [f64; OPS.len()],
}

fn ring_windows(te: u16) -> [Days; 3] {
    [1..=te, 1 + te / 4..=te - te / 4, te / 2..=te / 2 + te / 8]
}

fn starts(te: u16) -> [u16; 2] {
    [1, 1 + te / 3]
}

fn fail(message: &str) -> ! {
    eprintln!("bench: {message}");
    std::process::exit(1);
}

fn must(fine: bool, case: &Case, what: &str) {
    if !fine {
        fail(&format!("{}: {what} gives another answer", case.name));
    }
}

/// Number of minimal windows: room is doubled until it is enough.
fn window_room(engine: Engine, case: &Case, scratch: &mut [u16]) -> Three {
    let mut room = 1 << 14;
    loop {
        let mut out = Three::new(room);
        match engine.windows(case, &mut out, scratch) {
            Ok(count) => return Three::new(count),
            Err(number::NO_ROOM) => room *= 4,
            Err(_) => must(false, case, "the archive refuses, or"),
        }
    }
}

/// Every peer gives the archive's answers.
fn check(case: &Case) -> (usize, usize) {
    let (table, k, te) = (&case.table, case.k, case.te);
    let rows = table.days.len();
    let mut scratch = vec![7; scratch_for(rows)];
    let room = longest_list(case.range()).unwrap_or(0) as usize;
    let mut rings = Rings::new(room);
    let Some(found) = Engine::Archive.list(case, &mut rings, &mut scratch) else {
        must(false, case, "the archive refuses, or");
        return (0, 0);
    };
    let count = found.count;
    let (list, behind) = (&rings.three, &rings.windows[..count]);
    must(
        found.sum == list.c[..count].iter().map(|&n| u64::from(n)).sum::<u64>(),
        case,
        "the sum",
    );
    let behind_or_none = found.empty + behind.iter().map(|&n| u64::from(n)).sum::<u64>();
    must(behind_or_none == room as u64, case, "the windows' sum");
    let mut other = Rings::new(room);
    let same = Engine::Peer.list(case, &mut other, &mut scratch) == Some(found);
    let same = same && other.windows[..count] == *behind;
    let other = other.three;
    let same = same && other.a[..count] == list.a[..count] && other.b[..count] == list.b[..count];
    must(
        same && other.c[..count] == list.c[..count],
        case,
        "C listing",
    );
    for copy in [false, true] {
        let found = peers::enumerate(table, k, 1, te, copy);
        must(list.same(count, &found), case, "Algorithm 2 + 5");
    }
    let found = peers::every_start_afresh(table, k, 1, te);
    must(list.same(count, &found), case, "peeling every start");
    let found = peers::otcd(table, k, 1, te);
    let mut order: Vec<usize> = (0..found.a.len()).collect();
    order.sort_unstable_by_key(|&i| (found.a[i], found.b[i]));
    let sorted = List {
        a: order.iter().map(|&i| found.a[i]).collect(),
        b: order.iter().map(|&i| found.b[i]).collect(),
        c: order.iter().map(|&i| found.c[i]).collect(),
    };
    must(list.same(count, &sorted), case, "OTCD");

    let mut windows = window_room(Engine::Archive, case, &mut scratch);
    let entries = windows.a.len();
    let found = Engine::Archive.windows(case, &mut windows, &mut scratch);
    must(found == Ok(entries), case, "the count");
    let found = peers::minimal_windows(table, k, 1, te);
    must(windows.same(entries, &found), case, "Algorithm 2");
    let mut other = Three::new(entries);
    let same = Engine::Peer.windows(case, &mut other, &mut scratch) == Ok(entries);
    let same = same && other.a == windows.a && other.b == windows.b && other.c == windows.c;
    must(same, case, "C minimal windows");

    let mut plain = Plain::new();
    let mut marks = [vec![7; rows], vec![7; rows], vec![7; rows]];
    for window in ring_windows(te) {
        let [a, b, c] = &mut marks;
        let ones = Engine::Archive.ring(case, window.clone(), a, &mut scratch);
        let same = ones == Engine::Peer.ring(case, window.clone(), b, &mut scratch) && a == b;
        must(same, case, "C window ring");
        let count = plain.window_ring(table, k, *window.start(), *window.end(), c);
        must(ones == Some(count) && a == c, case, "plain peeling");
    }
    for s in starts(te) {
        let mut accounts = [[7; ACCOUNTS]; 3];
        let mut times = [vec![7; rows], vec![7; rows], vec![7; rows]];
        let [a, b, c] = &mut times;
        Engine::Archive.times(case, s, &mut accounts[0], a, &mut scratch);
        Engine::Peer.times(case, s, &mut accounts[1], b, &mut scratch);
        plain.core_times(table, k, te, s, &mut accounts[2], c);
        let same = a == b && accounts[0] == accounts[1];
        must(same, case, "C core times");
        let same = a == c && accounts[0] == accounts[2];
        must(same, case, "peeling from the last day");
    }
    (count, entries)
}

/// Seconds of one run of an operation on a case. The buffers are the caller's.
pub struct Bench<'a> {
    case: &'a Case,
    room: Rings,
    exact: Rings,
    windows: Three,
    scratch: Vec<u16>,
    marks: Vec<u8>,
    accounts: Box<[u16; ACCOUNTS]>,
    rows: Vec<u16>,
    plain: Plain,
}

impl<'a> Bench<'a> {
    pub fn new(case: &'a Case, rings: usize, entries: usize) -> Bench<'a> {
        let rows = case.table.days.len();
        Bench {
            case,
            room: Rings::new(longest_list(case.range()).unwrap_or(0) as usize),
            exact: Rings::new(rings),
            windows: Three::new(entries),
            scratch: vec![1; scratch_for(rows)],
            marks: vec![1; rows],
            accounts: Box::new([1; ACCOUNTS]),
            rows: vec![1; rows],
            plain: Plain::new(),
        }
    }

    pub fn run(&mut self, op: Op) {
        let engine = match op {
            Op::ListingC | Op::WindowsC | Op::RingC | Op::TimesC => Engine::Peer,
            _ => Engine::Archive,
        };
        self.run_by(engine, op);
    }

    /// The same by another engine.
    pub fn run_by(&mut self, engine: Engine, op: Op) {
        let case = self.case;
        let (table, k, te) = (&case.table, case.k, case.te);
        let scratch = &mut self.scratch[..];
        match op {
            Op::Listing | Op::ListingC => drop(engine.list(case, &mut self.room, scratch)),
            Op::ListingExact => drop(engine.list(case, &mut self.exact, scratch)),
            Op::Counting => drop(peers::enumerate(table, k, 1, te, false)),
            Op::Copying => drop(peers::enumerate(table, k, 1, te, true)),
            Op::Otcd => drop(peers::otcd(table, k, 1, te)),
            Op::Afresh => drop(peers::every_start_afresh(table, k, 1, te)),
            Op::Windows | Op::WindowsC => drop(engine.windows(case, &mut self.windows, scratch)),
            Op::Algorithm2 => drop(peers::minimal_windows(table, k, 1, te)),
            Op::Ring | Op::RingC => {
                for window in ring_windows(te) {
                    engine.ring(case, window, &mut self.marks, scratch);
                }
            }
            Op::RingPlain => {
                for window in ring_windows(te) {
                    let (s, e) = (*window.start(), *window.end());
                    self.plain.window_ring(table, k, s, e, &mut self.marks);
                }
            }
            Op::Times | Op::TimesC => {
                for s in starts(te) {
                    let accounts = &mut self.accounts[..];
                    engine.times(case, s, accounts, &mut self.rows, scratch);
                }
            }
            Op::TimesPlain => {
                for s in starts(te) {
                    let (accounts, rows) = (&mut self.accounts, &mut self.rows);
                    self.plain.core_times(table, k, te, s, accounts, rows);
                }
            }
        }
        std::hint::black_box(&mut self.room);
        std::hint::black_box(&mut self.marks);
    }
}

fn median(samples: &mut [f64]) -> f64 {
    samples.sort_by(f64::total_cmp);
    samples[samples.len() / 2]
}

/// How often a run of that many seconds is repeated, to take a millisecond.
fn repeats(once: f64) -> usize {
    ((1e-3 / once.max(1e-7)).ceil() as usize).clamp(1, 1_000)
}

/// Medians of all operations on a case, in turns: nine runs each, fewer (three
/// at least) of what is slow; quick ones repeated to a millisecond.
fn measure(case: &Case) -> Measured {
    let (rings, entries) = check(case);
    let mut bench = Bench::new(case, rings, entries);
    let mut samples: Vec<Vec<f64>> = vec![Vec::new(); OPS.len()];
    let repeats = OPS.map(|op| {
        let before = now();
        bench.run(op);
        repeats(now() - before)
    });
    for round in 0..9 {
        for op in OPS {
            let (samples, repeats) = (&mut samples[op as usize], repeats[op as usize]);
            if round >= 3 && samples.iter().sum::<f64>() > 0.3 {
                continue;
            }
            let before = now();
            for _ in 0..repeats {
                bench.run(op);
            }
            samples.push((now() - before) / repeats as f64);
        }
    }
    let mut times = [0.0; OPS.len()];
    for (time, samples) in times.iter_mut().zip(&mut samples) {
        *time = median(samples);
    }
    Measured {
        name: case.name.clone(),
        class: case.class,
        rows: case.table.days.len(),
        rings,
        entries,
        times,
    }
}

/// Tries drawn tables; the slowest listings and minimal windows by seed.
fn search(number: u64) {
    let mut worst: Vec<(f64, f64, String)> = Vec::new();
    let mut scratch = vec![1; scratch_for(16_384)];
    let mut room = Rings::new(524_800);
    for seed in 0..number {
        let case = tables::drawn(seed, 16_384);
        let before = now();
        let found = Engine::Archive.list(&case, &mut room, &mut scratch);
        let listing = now() - before;
        let mut windows = window_room(Engine::Archive, &case, &mut scratch);
        let before = now();
        let _ = Engine::Archive.windows(&case, &mut windows, &mut scratch);
        let minimal = now() - before;
        let rings = found.map_or(0, |found| found.count);
        let name = format!("{}: {rings} rings", case.name);
        worst.push((listing, minimal, name));
        if seed % 50 == 49 {
            eprintln!("searched {} of {number}", seed + 1);
        }
    }
    worst.sort_by(|x, y| y.0.total_cmp(&x.0));
    for (listing, minimal, name) in worst.iter().take(8) {
        println!(
            "listing {:.1} ms, minimal windows {:.1} ms: {name}",
            listing * 1e3,
            minimal * 1e3
        );
    }
    worst.sort_by(|x, y| y.1.total_cmp(&x.1));
    println!("by minimal windows:");
    for (listing, minimal, name) in worst.iter().take(8) {
        println!(
            "listing {:.1} ms, minimal windows {:.1} ms: {name}",
            listing * 1e3,
            minimal * 1e3
        );
    }
}

/// The cases of full size: the shapes, and what the search found.
fn full_cases() -> Vec<Case> {
    let mut cases = tables::cases(16_384);
    cases.extend(FOUND.map(|seed| tables::drawn(seed, 16_384)));
    cases
}

/// The cases of any size.
fn sized_cases(size: usize) -> Vec<Case> {
    match size {
        16_384 => full_cases(),
        _ => tables::cases(size),
    }
}

fn main() {
    let arguments: Vec<String> = std::env::args().skip(1).collect();
    match arguments.iter().map(String::as_str).collect::<Vec<_>>()[..] {
        ["--only", name] => {
            let cases = full_cases();
            let those: Vec<&Case> = cases.iter().filter(|c| c.name.starts_with(name)).collect();
            for (i, case) in those.iter().enumerate() {
                report::progress(16_384, i + 1, those.len(), &measure(case));
            }
        }
        ["--text"] => print!("{}", report::text(&text::measure())),
        ["--groups"] => print!("{}", report::groups(&groups::measure())),
        ["--search", number] => search(number.parse().unwrap_or(100)),
        ["--against", old, new] => against::against(old, new),
        ["--memory", name] => report::memory_of(name),
        [file] => {
            let mut all = Vec::new();
            for size in SIZES {
                let cases = sized_cases(size);
                let number = cases.len();
                for (i, case) in cases.iter().enumerate() {
                    let measured = measure(case);
                    report::progress(size, i + 1, number, &measured);
                    all.push((size, measured));
                }
            }
            let page = report::page(&all, &groups::measure(), &text::measure());
            print!("{page}");
            if let Err(error) = std::fs::write(file, page) {
                fail(&format!("{file}: {error}"));
            }
        }
        _ => {
            eprintln!(
                "use: bench FILE, bench --only NAME, bench --text, bench --groups, bench --search \
                 N, or bench --against OLD NEW"
            );
            std::process::exit(2);
        }
    }
}
