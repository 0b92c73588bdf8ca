//! Two archives in one process: what a change costs. Both are loaded as shared
//! objects and run by turns on every full table; of each the least time counts,
//! since other work on the machine can only add to it. Two runs on two days
//! differ by more than what a change is allowed, two archives in one run do not.

use crate::groups::{self, Asked};
use crate::tables::Case;
use crate::text::{sheets, Work};
use crate::{fail, full_cases, median, now, ring_windows, starts, window_room};
use crate::{new, old, Bench, Engine, Op, Rings, Three};
use rumbleog::{longest_list, scratch_for, ACCOUNTS};
use std::ffi::{c_char, c_int, c_void, CStr, CString};
use std::ptr::NonNull;

extern "C" {
    fn dlopen(file: *const c_char, flags: c_int) -> *mut c_void;
    fn dlsym(library: *mut c_void, name: *const c_char) -> *mut c_void;
    fn dlerror() -> *const c_char;
}

/// The calls measured: name, C name, and how it is run.
const CALLS: [(&str, &str, Op); 4] = [
    ("listing, room", "rumbleog_listing", Op::Listing),
    ("minimal windows", "rumbleog_minimal_windows", Op::Windows),
    ("window ring", "rumbleog_window_ring", Op::Ring),
    ("core times", "rumbleog_core_times", Op::Times),
];

/// Work that waits for its engine.
type WorkBy = fn(Engine) -> Work;

/// Those of table text: compared where both archives have the call.
const TEXT: [(&str, &str, WorkBy); 2] = [
    ("reading table text", "rumbleog_read_table", Work::Read),
    ("writing table text", "rumbleog_write_table", Work::Write),
];

/// The same of groups.
type GroupsBy = fn(Engine) -> groups::Work;

/// Those of the groups of a ring, over its three windows: where both have the call.
const GROUPS: [(&str, &str, GroupsBy); 2] = [
    ("label groups", "rumbleog_label_groups", groups::Work::Label),
    ("mark group", "rumbleog_mark_group", groups::Work::Mark),
];

/// A shared object, never closed again.
struct Library(NonNull<c_void>);

impl Library {
    fn open(file: &str) -> Library {
        const NOW: c_int = 2;
        // The whole path: a bare name would be looked for in the system's folders.
        let path =
            std::fs::canonicalize(file).map(|path| path.into_os_string().into_encoded_bytes());
        let path = path.unwrap_or_else(|error| fail(&format!("{file}: {error}")));
        let path = CString::new(path).unwrap_or_else(|error| fail(&format!("{file}: {error}")));
        // SAFETY: a C string; the object is an engine's, which runs nothing when it is loaded.
        let library = NonNull::new(unsafe { dlopen(path.as_ptr(), NOW) }).map(Library);
        // SAFETY: after a failed dlopen this is a C string, good until the next call.
        let library = library
            .unwrap_or_else(|| fail(&unsafe { CStr::from_ptr(dlerror()) }.to_string_lossy()));
        for (_, name, _) in CALLS {
            if library.find(name).is_none() {
                fail(&format!("{file} has no {name}"));
            }
        }
        library
    }

    fn find(&self, name: &str) -> Option<NonNull<c_void>> {
        let name = CString::new(name).ok()?;
        // SAFETY: an open library and a C string.
        NonNull::new(unsafe { dlsym(self.0.as_ptr(), name.as_ptr()) })
    }
}

/// What a call tells (a count, or none where it refuses) and all that it is lent, at exit.
#[derive(Default, PartialEq)]
struct Answer {
    told: Vec<Option<u64>>,
    three: Option<Three>,
    windows: Vec<u32>,
    columns: Vec<Vec<u16>>,
    marks: Vec<Vec<u8>>,
}

fn answer(engine: Engine, op: Op, case: &Case) -> Answer {
    let rows = case.table.days.len();
    let mut scratch = vec![7; scratch_for(rows)];
    let mut answer = Answer::default();
    match op {
        Op::Ring => {
            for window in ring_windows(case.te) {
                let mut marks = vec![7; rows];
                let count = engine.ring(case, window, &mut marks, &mut scratch);
                answer.told.push(count.map(|count| count as u64));
                answer.marks.push(marks);
            }
        }
        Op::Times => {
            for s in starts(case.te) {
                let (mut accounts, mut times) = (vec![7; ACCOUNTS], vec![7; rows]);
                let fine = engine.times(case, s, &mut accounts, &mut times, &mut scratch);
                answer.told.push(fine.map(|()| 0));
                answer.columns.extend([accounts, times]);
            }
        }
        Op::Windows => {
            let mut three = window_room(engine, case, &mut scratch);
            let count = engine.windows(case, &mut three, &mut scratch).ok();
            answer.told.push(count.map(|count| count as u64));
            answer.three = Some(three);
        }
        _ => {
            let mut rings = Rings::new(longest_list(case.range()).unwrap_or(0) as usize);
            let found = engine.list(case, &mut rings, &mut scratch);
            answer.told.extend([
                found.map(|found| found.count as u64),
                found.map(|found| found.sum),
                found.map(|found| found.empty),
            ]);
            answer.three = Some(rings.three);
            answer.windows = rings.windows;
        }
    }
    answer.columns.push(scratch);
    answer
}

/// Both archives give the same answers on a case, or the program ends. The number of minimal windows.
fn same_answers(case: &Case) -> usize {
    let mut entries = 0;
    for (what, _, op) in CALLS {
        let [old, new] = [Engine::Old, Engine::New].map(|engine| answer(engine, op, case));
        if old != new {
            fail(&format!(
                "{}: {what}: the two archives give different answers",
                case.name
            ));
        }
        if old.told.contains(&None) {
            fail(&format!("{}: {what}: both archives refuse", case.name));
        }
        if op == Op::Windows {
            entries = old.told.iter().flatten().sum::<u64>() as usize;
        }
    }
    entries
}

/// The least seconds of a run by the old archive and by the new one, in turns,
/// and the first of the two in turns too.
fn least(mut run: impl FnMut(Engine)) -> [f64; 2] {
    let mut time = |engine: Engine| {
        let before = now();
        run(engine);
        now() - before
    };
    let mut least = [time(Engine::Old), time(Engine::New)];
    let rounds = match least[0].max(least[1]) {
        slow if slow > 0.05 => 9,
        middling if middling > 0.002 => 21,
        _ => 101,
    };
    for round in 0..rounds {
        for turn in [round % 2, 1 - round % 2] {
            let engine = [Engine::Old, Engine::New][turn];
            least[turn] = least[turn].min(time(engine));
        }
    }
    least
}

/// Prints the least times of a call by what it ran on; its line of the summary.
fn print_times<'a>(what: &str, times: impl Iterator<Item = (&'a str, [f64; 2])>) -> String {
    println!(
        "\n{what:<38} {:>13} {:>13} {:>10}",
        "old", "new", "new : old"
    );
    let mut ratios = Vec::new();
    for (name, [old, new]) in times {
        let (old, new, ratio) = (old * 1e3, new * 1e3, new / old);
        println!("{name:<38} {old:>10.3} ms {new:>10.3} ms {ratio:>10.3}");
        ratios.push(ratio);
    }
    let median = median(&mut ratios);
    let greatest = ratios.last().copied().unwrap_or(0.0);
    format!("{what:<38} {median:>13.3} {greatest:>13.3}\n")
}

/// Compares two archives, given as shared objects; ends with 1 where an answer differs.
pub fn against(old_file: &str, new_file: &str) {
    let libraries = [old_file, new_file].map(Library::open);
    // SAFETY: shared objects of archives with the header's functions, never closed.
    unsafe {
        old::c::load(|name| libraries[0].find(name));
        new::c::load(|name| libraries[1].find(name));
    }
    let cases = full_cases();
    let entries: Vec<usize> = cases.iter().map(same_answers).collect();
    println!(
        "The answers of both are equal: {} tables, {} calls.",
        cases.len(),
        CALLS.len()
    );
    println!("Least times of runs that took turns.");
    let mut summary = String::new();
    for (what, _, op) in CALLS {
        let times = cases.iter().zip(&entries).map(|(case, &entries)| {
            let mut bench = Bench::new(case, 0, entries);
            let least = least(|engine| bench.run_by(engine, op));
            (case.name.as_str(), least)
        });
        summary += &print_times(what, times);
    }
    let both_have = |what: &str, name: &str| {
        let both = libraries.iter().all(|library| library.find(name).is_some());
        if !both {
            println!("\n{what}: not compared, one of the two has no {name}.");
        }
        both
    };
    for (what, name, work) in GROUPS {
        if !both_have(what, name) {
            continue;
        }
        let times = cases.iter().map(|case| {
            let mut windows = Asked::all(case);
            for asked in &mut windows {
                asked.check(work(Engine::Old));
                asked.check(work(Engine::New));
            }
            let least = least(|engine| {
                for asked in &mut windows {
                    asked.run(work(engine));
                }
            });
            (case.name.as_str(), least)
        });
        summary += &print_times(what, times);
    }
    let mut sheets = sheets();
    for (what, name, work) in TEXT {
        if !both_have(what, name) {
            continue;
        }
        let times = sheets.iter_mut().map(|sheet| {
            sheet.check(work(Engine::Old));
            sheet.check(work(Engine::New));
            let least = least(|engine| {
                sheet.run(work(engine));
            });
            (sheet.name.as_str(), least)
        });
        summary += &print_times(what, times);
    }
    print!(
        "\n{:<38} {:>13} {:>13}\n{summary}",
        "new : old", "median", "greatest"
    );
}
