//! The benchmark's page: ratios, growth, bounds, memory.

use crate::groups::{self, Asked, Work};
use crate::tables::{plain_case, Case, Class};
use crate::text;
use crate::{Bench, Engine, Measured, Op, Rings};
use std::fmt::Write;
use std::process::Command;

/// A ratio that the page shows: ours by theirs, and the most that is aimed at
/// (ordinary median, ordinary greatest, adversaries greatest).
struct Ratio {
    what: &'static str,
    against: &'static str,
    ours: Op,
    theirs: Op,
    aims: Option<[f64; 3]>,
}

const fn ratio(
    what: &'static str,
    against: &'static str,
    ours: Op,
    theirs: Op,
    aims: Option<[f64; 3]>,
) -> Ratio {
    Ratio {
        what,
        against,
        ours,
        theirs,
        aims,
    }
}

const SAME: &str = "the same algorithm in C (host/peer)";
const C_AIM: Option<[f64; 3]> = Some([1.2, 1.6, 1.6]);

#[rustfmt::skip]
const RATIOS: [Ratio; 12] = [
    ratio("listing, room", "001, Algorithms 2 + 5, counting", Op::Listing, Op::Counting, Some([0.35, 0.6, 1.0])),
    ratio("listing, room", "001, Algorithms 2 + 5, copying rows", Op::Listing, Op::Copying, Some([0.35, 0.8, 1.0])),
    ratio("listing, room", "OTCD (001, Algorithm 1)", Op::Listing, Op::Otcd, None),
    ratio("listing, room", "every start peeled afresh", Op::Listing, Op::Afresh, Some([0.8, 2.0, 3.0])),
    ratio("listing, exact room", "itself with room", Op::ListingExact, Op::Listing, Some([2.0, 2.3, 2.5])),
    ratio("minimal windows", "001, Algorithm 2", Op::Windows, Op::Algorithm2, Some([1.2, 3.0, 3.0])),
    ratio("window ring", "plain peeling, lists built", Op::Ring, Op::RingPlain, Some([1.5, 2.0, 2.0])),
    ratio("core times", "peeling from the last day", Op::Times, Op::TimesPlain, Some([1.5, 2.0, 2.0])),
    ratio("listing, room", SAME, Op::Listing, Op::ListingC, C_AIM),
    ratio("minimal windows", SAME, Op::Windows, Op::WindowsC, C_AIM),
    ratio("window ring", SAME, Op::Ring, Op::RingC, C_AIM),
    ratio("core times", SAME, Op::Times, Op::TimesC, C_AIM),
];

/// Groups: what is shown, in the order of a result's ratios, and the most that
/// is aimed at on every window of every table.
const GROUPS: [(&str, &str, f64); 3] = [
    ("label groups", "window ring itself", 2.0),
    ("mark group", "window ring itself", 2.0),
    (
        "label groups",
        "window ring, then a union-find in C (host/peer)",
        1.5,
    ),
];

/// What is run to see its memory.
enum Run {
    Op(Op),
    Groups(Work),
}

/// Operations whose memory is measured.
const MEMORY: [(Run, &str); 12] = [
    (Run::Op(Op::Listing), "listing, room"),
    (Run::Op(Op::ListingExact), "listing, exact room"),
    (Run::Op(Op::Windows), "minimal windows"),
    (Run::Op(Op::Ring), "window ring"),
    (Run::Groups(Work::Label(Engine::Archive)), "label groups"),
    (Run::Groups(Work::Mark(Engine::Archive)), "mark group"),
    (Run::Op(Op::Times), "core times"),
    (Run::Op(Op::Counting), "001, Algorithms 2 + 5, counting"),
    (Run::Op(Op::Copying), "001, Algorithms 2 + 5, copying rows"),
    (Run::Op(Op::Otcd), "OTCD"),
    (Run::Op(Op::Afresh), "every start peeled afresh"),
    (Run::Op(Op::Algorithm2), "001, Algorithm 2"),
];

fn of(measured: &Measured, ratio: &Ratio) -> f64 {
    measured.times[ratio.ours as usize] / measured.times[ratio.theirs as usize]
}

fn median(mut values: Vec<f64>) -> f64 {
    values.sort_by(f64::total_cmp);
    values.get(values.len() / 2).copied().unwrap_or(0.0)
}

fn greatest(values: Vec<f64>) -> f64 {
    values.into_iter().fold(0.0, f64::max)
}

/// A line while it runs. Times here, and here only: to see how it goes.
pub fn progress(size: usize, i: usize, number: usize, m: &Measured) {
    let ms = |op: Op| m.times[op as usize] * 1e3;
    eprintln!(
        "[{size} rows, {i}/{number}] {}: {} rings, {} entries; ms: listing {:.2} (exact {:.2}, C \
         {:.2}, 2+5 {:.1} / {:.1}, OTCD {:.1}, afresh {:.1}), windows {:.2} (C {:.2}, alg. 2 \
         {:.2}), 3 rings {:.3} (C {:.3}, plain {:.3}), 2 core times {:.3} (C {:.3}, plain {:.3})",
        m.name,
        m.rings,
        m.entries,
        ms(Op::Listing),
        ms(Op::ListingExact),
        ms(Op::ListingC),
        ms(Op::Counting),
        ms(Op::Copying),
        ms(Op::Otcd),
        ms(Op::Afresh),
        ms(Op::Windows),
        ms(Op::WindowsC),
        ms(Op::Algorithm2),
        ms(Op::Ring),
        ms(Op::RingC),
        ms(Op::RingPlain),
        ms(Op::Times),
        ms(Op::TimesC),
        ms(Op::TimesPlain),
    );
}

/// The same of table text, when all rounds are done.
pub fn text_progress(m: &text::Measured) {
    let [write, digits, pairs, read, c] = m.times.map(|seconds| seconds * 1e3);
    eprintln!(
        "[table text, {} rows] {}: ms: writing {write:.3} (digit loop {digits:.3}, two digits \
         {pairs:.3}), reading {read:.3} (C {c:.3})",
        m.size, m.name
    );
}

/// The same of groups, when all rounds are done.
pub fn groups_progress(m: &groups::Measured) {
    let [ring, label, mark, by_hand, union] = m.times.map(|seconds| seconds * 1e6);
    eprintln!(
        "[groups, {} rows] {}, days {} to {}: {} rows in {} groups; us: ring {ring:.1}, labels \
         {label:.1}, mark {mark:.1}, ring and union-find {by_hand:.1}, union-find {union:.1}",
        m.rows,
        m.name,
        m.window.start(),
        m.window.end(),
        m.ring,
        m.groups
    );
}

fn processor() -> (String, usize) {
    let text = std::fs::read_to_string("/proc/cpuinfo").unwrap_or_default();
    let model = text
        .lines()
        .find(|line| line.starts_with("model name"))
        .and_then(|line| line.split(':').nth(1))
        .map_or("unknown", str::trim);
    let cores = std::thread::available_parallelism().map_or(1, usize::from);
    (model.to_string(), cores)
}

/// The day as year-month-day, from the days since 1970.
fn today() -> String {
    let now = std::time::SystemTime::now();
    let seconds = now
        .duration_since(std::time::UNIX_EPOCH)
        .map_or(0, |since| since.as_secs());
    let mut left = seconds / 86_400;
    let mut year = 1970;
    let divides = |n: u64, year: u64| year / n * n == year;
    let leap = |year| divides(4, year) && (!divides(100, year) || divides(400, year));
    while left >= 365 + u64::from(leap(year)) {
        left -= 365 + u64::from(leap(year));
        year += 1;
    }
    let february = 28 + u64::from(leap(year));
    let months = [31, february, 31, 30, 31, 30, 31, 31, 30, 31, 30, 31];
    let mut month = 1;
    for days in months {
        if left < days {
            break;
        }
        left -= days;
        month += 1;
    }
    format!("{year}-{month:02}-{:02}", left + 1)
}

/// The most memory that this process has had, in KB.
fn peak() -> u64 {
    let text = std::fs::read_to_string("/proc/self/status").unwrap_or_default();
    text.lines()
        .find_map(|line| line.strip_prefix("VmHWM:"))
        .and_then(|line| line.trim().trim_end_matches(" kB").trim().parse().ok())
        .unwrap_or(0)
}

/// Bytes of stack that are painted below a frame, and how far below it.
const PAINTED: usize = 400 * 1_024;
const GAP: usize = 2 * 1_024;
const PAINT: u8 = 0xa5;

/// Bytes of stack that a run takes: the stack below this frame is painted, and
/// afterwards the deepest byte written over is looked for. It writes and reads
/// below the stack pointer, so it runs in a thread with room to spare, and it is
/// a measure and no more.
#[inline(never)]
fn stack_of(run: &mut dyn FnMut()) -> usize {
    let mark = std::hint::black_box(0_u8);
    let top = std::ptr::addr_of!(mark).cast_mut().wrapping_sub(GAP);
    for i in 0..PAINTED {
        // SAFETY: inside this thread's stack, below every frame in use.
        unsafe { top.wrapping_sub(i).write_volatile(PAINT) };
    }
    run();
    for i in (0..PAINTED).rev() {
        // SAFETY: as above.
        if unsafe { top.wrapping_sub(i).read_volatile() } != PAINT {
            return i + GAP;
        }
    }
    0
}

/// A child process: what one operation takes beyond what it is lent, as KB of
/// the process's peak and bytes of stack, on standard output.
pub fn memory_of(name: &str) {
    let case = plain_case(16_384);
    match MEMORY.iter().find(|(_, of)| *of == name) {
        None => {}
        Some((Run::Groups(work), _)) => {
            let mut asked = Asked::new(&case, case.range());
            print_memory(|| {
                asked.run(*work);
            });
        }
        Some((Run::Op(op), _)) => {
            let mut bench = memory_bench(&case);
            print_memory(|| bench.run(*op));
        }
    }
}

/// What is lent for a case, its columns exact where their length is known beforehand.
fn memory_bench(case: &Case) -> Bench<'_> {
    let mut scratch = vec![1; rumbleog::scratch_for(16_384)];
    let mut room = Rings::new(2_000_000);
    let entries = Engine::Archive
        .windows(case, &mut room.three, &mut scratch)
        .unwrap_or(0);
    let rings = Engine::Archive
        .list(case, &mut room, &mut scratch)
        .map_or(0, |found| found.count);
    drop((room, scratch));
    Bench::new(case, rings, entries)
}

fn print_memory(mut run: impl FnMut() + Send) {
    let before = peak();
    run();
    let kilobytes = peak() - before;
    let stack = std::thread::scope(|scope| {
        std::thread::Builder::new()
            .stack_size(4 << 20)
            .spawn_scoped(scope, || stack_of(&mut run))
            .map_or(0, |thread| thread.join().unwrap_or(0))
    });
    println!("{kilobytes} {stack}");
}

fn memory(name: &str) -> Option<(u64, u64)> {
    let me = std::env::current_exe().ok()?;
    let child = Command::new(me).args(["--memory", name]).output().ok()?;
    let text = String::from_utf8(child.stdout).ok()?;
    let mut numbers = text.split_whitespace().map(|word| word.parse().ok());
    Some((numbers.next()??, numbers.next()??))
}

fn verdict(fine: bool) -> &'static str {
    if fine {
        "met"
    } else {
        "**missed**"
    }
}

/// The last two cells of a row: the aim, and whether it is met.
fn aimed(aim: Option<(String, bool)>) -> String {
    match aim {
        None => " | |".to_string(),
        Some((aim, fine)) => format!(" {aim} | {} |", verdict(fine)),
    }
}

/// Ordinary: median and greatest; adversaries: greatest.
fn by_class(ratios: &[(Class, f64)]) -> [f64; 3] {
    let of = |class: Class| -> Vec<f64> {
        let those = ratios.iter().filter(|(of, _)| *of == class);
        those.map(|(_, ratio)| *ratio).collect()
    };
    [
        median(of(Class::Ordinary)),
        greatest(of(Class::Ordinary)),
        greatest(of(Class::Adversary)),
    ]
}

fn ratio_table(page: &mut String, all: &[&Measured], groups: &[&groups::Measured], aims: bool) {
    let aim = if aims { " aim | |" } else { "" };
    let rule = if aims { "---|---|" } else { "" };
    let _ = writeln!(
        page,
        "| operation | against | ordinary: median | greatest | adversaries: greatest |{aim}"
    );
    let _ = writeln!(page, "|---|---|---|---|---|{rule}");
    let mut row = |what: &str, against: &str, ratios: Vec<(Class, f64)>, most: Option<[f64; 3]>| {
        let got = by_class(&ratios);
        let _ = write!(
            page,
            "| {what} | {against} | {:.2} | {:.2} | {:.2} |",
            got[0], got[1], got[2]
        );
        if aims {
            page.push_str(&aimed(most.map(|most| {
                let fine = got.iter().zip(most).all(|(&got, most)| got <= most);
                let [a, b, c] = most;
                (format!("{a}, {b}; {c}"), fine)
            })));
        }
        page.push('\n');
    };
    for ratio in &RATIOS {
        let ratios = all.iter().map(|m| (m.class, of(m, ratio)));
        row(ratio.what, ratio.against, ratios.collect(), ratio.aims);
    }
    for (i, (what, against, aim)) in GROUPS.into_iter().enumerate() {
        let ratios = groups.iter().map(|m| (m.class, m.ratios()[i]));
        row(what, against, ratios.collect(), Some([aim; 3]));
    }
}

/// The page's part about groups.
pub fn groups(all: &[groups::Measured]) -> String {
    let mut part = String::from(
        "## Groups\n\n\
         `rumbleog_label_groups` and `rumbleog_mark_group` on the tables above, all sizes, and on \
         tables made for groups; each window by itself. Both find the window's ring first, so they \
         are held against `rumbleog_window_ring`. Labels are also held against what a host in C \
         would do: the archive's window ring, then a plain union-find over its marks (groups.c). \
         The account whose group is marked is the one that the ring's rows meet last; an empty ring \
         has none, and the refusal is timed.\n\n\
         | operation | against | greatest | on | aim | |\n\
         |---|---|---|---|---|---|\n",
    );
    for (i, (what, against, aim)) in GROUPS.into_iter().enumerate() {
        let worst = all
            .iter()
            .max_by(|x, y| x.ratios()[i].total_cmp(&y.ratios()[i]));
        let Some(m) = worst else { continue };
        let ratio = m.ratios()[i];
        let _ = writeln!(
            part,
            "| {what} | {against} | {ratio:.2} | {}, {} rows, days {} to {} |{}",
            m.name,
            m.rows,
            m.window.start(),
            m.window.end(),
            aimed(Some((aim.to_string(), ratio <= aim)))
        );
    }
    part.push_str(
        "\nThe aim is the most for every window of every table.\n\n\
         Table by table at 16,384 rows, then the tables made for groups: three figures are the three \
         windows. The last column is what labels take beyond the ring, a difference of two medians, \
         against the union-find alone, where the ring has rows.\n\n\
         | table | rows of the ring | groups | labels : ring | mark : ring | labels : ring and \
         union-find | labels less ring : union-find |\n\
         |---|---|---|---|---|---|---|\n",
    );
    for windows in all.chunks(3) {
        let m = &windows[0];
        let name = match m.size {
            Some(16_384) => m.name.clone(),
            Some(_) => continue,
            None => format!("{}, {} rows", m.name, m.rows),
        };
        let cell = |of: &dyn Fn(&groups::Measured) -> String| -> String {
            let three: Vec<String> = windows.iter().map(of).collect();
            three.join(", ")
        };
        let ratio = |i: usize| cell(&|m| format!("{:.2}", m.ratios()[i]));
        let _ = writeln!(
            part,
            "| {name} | {} | {} | {} | {} | {} | {} |",
            cell(&|m| m.ring.to_string()),
            cell(&|m| m.groups.to_string()),
            ratio(0),
            ratio(1),
            ratio(2),
            cell(&|m| m.alone().map_or("-".into(), |ratio| format!("{ratio:.2}"))),
        );
    }
    part
}

/// Table text: what is shown, in the order of a result's ratios, and the most
/// that is aimed at.
const TEXT: [(&str, &str, Option<f64>); 3] = [
    ("writing", "digit loop in C", Some(1.5)),
    ("writing", "two digits a division in C", None),
    ("reading", "C", None),
];

/// The page's part about table text.
pub fn text(all: &[text::Measured]) -> String {
    let mut part = String::from(
        "## Table text\n\n\
         `rumbleog_write_table` and `rumbleog_read_table` against C: a hand-written loop that \
         prints a digit a division (engine.c), the fastest writer of tables that we found, which \
         prints two (pairs.c), and a reader of two passes, as the archive's (engine.c). The tables \
         are those above, once where only k differs; drawn columns are no tables, since any \
         numbers of 16 bits are written.\n\n\
         | rows | operation | against | ordinary: median | greatest | adversaries: greatest | aim | |\n\
         |---|---|---|---|---|---|---|---|\n",
    );
    for size in [16_384, 4_096, 1_024] {
        let sized = || all.iter().filter(move |m| m.size == size);
        for (i, (what, against, aim)) in TEXT.into_iter().enumerate() {
            let those = sized().filter_map(|m| Some((m.class?, m.ratios()[i])));
            let [median, most, hard] = by_class(&those.collect::<Vec<_>>());
            let worst = greatest(sized().map(|m| m.ratios()[i]).collect());
            let aim = aim.filter(|_| size == 16_384);
            let aim = aimed(aim.map(|aim| (aim.to_string(), worst <= aim)));
            let _ = writeln!(
                part,
                "| {},{:03} | {what} | {against} | {median:.2} | {most:.2} | {hard:.2} |{aim}",
                size / 1_000,
                size % 1_000
            );
        }
    }
    part.push_str("\nThe aim is the most for every table and all drawn columns.\n\n");
    part.push_str("| drawn columns, 16,384 rows |");
    for (what, against, _) in TEXT {
        let _ = write!(part, " {what} : {against} |");
    }
    part.push_str("\n|---|---|---|---|\n");
    for m in all.iter().filter(|m| m.class.is_none()) {
        let [digits, pairs, read] = m.ratios();
        let _ = writeln!(
            part,
            "| {} | {digits:.2} | {pairs:.2} | {read:.2} |",
            m.name
        );
    }
    part
}

/// The page, as markdown.
pub fn page(
    all: &[(usize, Measured)],
    grouped: &[groups::Measured],
    texts: &[text::Measured],
) -> String {
    let (model, cores) = processor();
    let mut page = String::new();
    let sized = |size: usize| -> Vec<&Measured> {
        let those = all.iter().filter(|(rows, _)| *rows == size);
        those.map(|(_, m)| m).collect()
    };
    let grouped_of = |size: usize| -> Vec<&groups::Measured> {
        let those = grouped.iter().filter(|m| m.size == Some(size));
        those.collect()
    };
    let full = sized(16_384);
    let _ = writeln!(
        page,
        "# Benchmark\n\n\
         Made by `make bench` on {}. Processor: {model}, {cores} cores.\n\n\
         Every figure is a ratio of processor times: the archive's by the peer's, in one run, on \
         one input, medians of runs that took turns. Below 1 the archive is faster. Before timing, every \
         peer gave the archive's answer on every table. The peers are unverified Rust (release \
         build) but for those in C (host/peer, -O3); 001's Algorithm 2 takes its core times by \
         the method that 001 cites. Ranges are all days of a table; a window ring is timed over \
         three windows, core times over two starts, groups on each of the three windows. `room` \
         is n(n+1)/2 places.\n\n\
         ## 16,384 rows\n",
        today()
    );
    ratio_table(&mut page, &full, &grouped_of(16_384), true);
    let _ = writeln!(
        page,
        "\nAims are the most for ordinary median, ordinary greatest; adversaries greatest.\n"
    );

    let _ = writeln!(page, "## 16,384 rows, table by table\n");
    let _ = writeln!(
        page,
        "Listing with room against 001's 2 + 5 (counting, copying), OTCD, every start afresh, C; \
         with exact room against room; minimal windows against Algorithm 2, C; window ring \
         against plain peeling, C; core times against peeling from the last day, C.\n"
    );
    page.push_str(
        "| table | rings | minimal windows | 2 + 5 | copying | OTCD | afresh | C | exact | \
         windows: alg. 2 | C | ring: plain | C | times: plain | C |\n\
         |---|---|---|---|---|---|---|---|---|---|---|---|---|---|---|\n",
    );
    for m in &full {
        let r = |ours: Op, theirs: Op| m.times[ours as usize] / m.times[theirs as usize];
        let _ = writeln!(
            page,
            "| {} | {} | {} | {:.2} | {:.2} | {:.2} | {:.2} | {:.2} | {:.2} | {:.2} | {:.2} | \
             {:.2} | {:.2} | {:.2} | {:.2} |",
            m.name,
            m.rings,
            m.entries,
            r(Op::Listing, Op::Counting),
            r(Op::Listing, Op::Copying),
            r(Op::Listing, Op::Otcd),
            r(Op::Listing, Op::Afresh),
            r(Op::Listing, Op::ListingC),
            r(Op::ListingExact, Op::Listing),
            r(Op::Windows, Op::Algorithm2),
            r(Op::Windows, Op::WindowsC),
            r(Op::Ring, Op::RingPlain),
            r(Op::Ring, Op::RingC),
            r(Op::Times, Op::TimesPlain),
            r(Op::Times, Op::TimesC),
        );
    }

    for size in [4_096, 1_024] {
        let _ = writeln!(page, "\n## {},{:03} rows\n", size / 1_000, size % 1_000);
        ratio_table(&mut page, &sized(size), &grouped_of(size), false);
    }

    page.push('\n');
    page += &groups(grouped);
    page.push('\n');
    page += &text(texts);

    let _ = writeln!(
        page,
        "\n## Growth\n\nTime at 16,384 rows by time at 4,096 rows, same shape and k, days and \
         range the same.\n"
    );
    page.push_str("| operation | ordinary: median | greatest | adversaries: greatest |\n");
    page.push_str("|---|---|---|---|\n");
    let small = sized(4_096);
    let mut listing_growth = 0.0;
    for (op, name) in [
        (Op::Listing, "listing, room"),
        (Op::Windows, "minimal windows"),
        (Op::Ring, "window ring"),
        (Op::Times, "core times"),
    ] {
        let grown = |class: Class| -> Vec<f64> {
            let mut out = Vec::new();
            // Cliques have another k at another size: compared by place.
            for (m, s) in full.iter().zip(&small) {
                if m.class == class {
                    out.push(m.times[op as usize] / s.times[op as usize]);
                }
            }
            out
        };
        let ordinary = grown(Class::Ordinary);
        if op == Op::Listing {
            listing_growth = greatest(ordinary.clone());
        }
        let _ = writeln!(
            page,
            "| {name} | {:.1} | {:.1} | {:.1} |",
            median(ordinary.clone()),
            greatest(ordinary),
            greatest(grown(Class::Adversary)),
        );
    }

    let worst = |op: Op| greatest(all.iter().map(|(_, m)| m.times[op as usize]).collect());
    let _ = writeln!(
        page,
        "\n## Bounds\n\n\
         | bound | |\n|---|---|\n\
         | listing at 16,384 rows at most 12 times that at 4,096, ordinary | {} |\n\
         | listing with room never above 0.3 s, all tables | {} |\n\
         | minimal windows never above 0.6 s, all tables | {} |",
        verdict(listing_growth <= 12.0),
        verdict(worst(Op::Listing) <= 0.3),
        verdict(worst(Op::Windows) <= 0.6),
    );

    let _ = writeln!(
        page,
        "\n## Memory\n\nBeyond what is lent, at 16,384 rows (uniform, k 4): rise of the process's \
         peak, and stack.\n\n| operation | peak | stack |\n|---|---|---|"
    );
    for (_, name) in MEMORY {
        let Some((kilobytes, stack)) = memory(name) else {
            continue;
        };
        let stack = match stack {
            0 => "under 2 KB".to_string(),
            bytes => format!("{:.1} KB", bytes as f64 / 1_024.0),
        };
        let _ = writeln!(page, "| {name} | {kilobytes} KB | {stack} |");
    }
    page
}
