//! Table text: columns written and read back, by the archive and in C.

use crate::tables::{drawn_columns, Class, Columns};
use crate::{fail, median, now, repeats, report, sized_cases, Engine};
use rumbleog::{number, table_text_for, Table};
use std::fmt::Write;

extern "C" {
    /// The second writer in C (host/peer/pairs.c).
    fn peer_write_pairs(
        days: *const u16,
        days_length: usize,
        first: *const u16,
        first_length: usize,
        second: *const u16,
        second_length: usize,
        text: *mut u8,
        text_length: usize,
        place: *mut u64,
        length: *mut u64,
    ) -> u32;
}

/// Bytes written by the second writer in C, or none if refused.
fn write_pairs(table: Table, text: &mut [u8]) -> Option<usize> {
    let (mut place, mut length) = (0, 0);
    // SAFETY: live slices, each with its own length; what is written is borrowed alone.
    let number = unsafe {
        peer_write_pairs(
            table.days.as_ptr(),
            table.days.len(),
            table.first.as_ptr(),
            table.first.len(),
            table.second.as_ptr(),
            table.second.len(),
            text.as_mut_ptr(),
            text.len(),
            &mut place,
            &mut length,
        )
    };
    (number == number::OK).then_some(length as usize)
}

/// What is timed: an engine's call, or the second writer in C.
#[derive(Clone, Copy, Debug)]
pub enum Work {
    Write(Engine),
    WritePairs,
    Read(Engine),
}

/// Those of the page, in the order of a result's times.
const WORKS: [Work; 5] = [
    Work::Write(Engine::Archive),
    Work::Write(Engine::Peer),
    Work::WritePairs,
    Work::Read(Engine::Archive),
    Work::Read(Engine::Peer),
];

/// What stands in a buffer that is lent.
const LENT: u8 = 7;

/// Columns with their text, and what is lent to write it and to read it: a row
/// more than they have.
pub struct Sheet {
    pub name: String,
    /// That of a table; drawn columns have none.
    class: Option<Class>,
    columns: Columns,
    text: Vec<u8>,
    written: Vec<u8>,
    read: Columns,
}

impl Sheet {
    /// The text is by Rust's own printing: no side of a ratio vouches for the other.
    fn new(name: &str, class: Option<Class>, columns: Columns) -> Sheet {
        let rows = columns.days.len();
        let mut text = String::new();
        for row in 0..rows {
            let (day, first) = (columns.days[row], columns.first[row]);
            let _ = writeln!(text, "{day:5}{first:6}{:6}", columns.second[row]);
        }
        let lent = || vec![u16::from(LENT); rows + 1];
        Sheet {
            name: name.to_string(),
            class,
            columns,
            text: text.into_bytes(),
            written: vec![LENT; table_text_for(rows + 1)],
            read: Columns {
                days: lent(),
                first: lent(),
                second: lent(),
            },
        }
    }

    /// One run: the bytes written or the rows read, or none if refused.
    pub fn run(&mut self, work: Work) -> Option<usize> {
        match work {
            Work::Write(engine) => engine.write(self.columns.lend(), &mut self.written),
            Work::WritePairs => write_pairs(self.columns.lend(), &mut self.written),
            Work::Read(engine) => engine.read(&self.text, &mut self.read),
        }
    }

    /// Ends the program where a work tells or leaves anything else than the
    /// text or the columns, and past them what was lent.
    pub fn check(&mut self, work: Work) {
        self.written.fill(LENT);
        let read = &mut self.read;
        for column in [&mut read.days, &mut read.first, &mut read.second] {
            column.fill(LENT.into());
        }
        let told = self.run(work);
        let (columns, read) = (&self.columns, &self.read);
        let fine = match work {
            Work::Write(_) | Work::WritePairs => {
                told == Some(self.text.len()) && holds(&self.written, &self.text)
            }
            Work::Read(_) => {
                told == Some(columns.days.len())
                    && holds(&read.days, &columns.days)
                    && holds(&read.first, &columns.first)
                    && holds(&read.second, &columns.second)
            }
        };
        if !fine {
            fail(&format!("{}: {work:?}: another answer", self.name));
        }
    }
}

/// The answer stands first in what was lent, and the rest was kept.
fn holds<T: PartialEq + From<u8>>(lent: &[T], answer: &[T]) -> bool {
    let rest = lent.strip_prefix(answer);
    rest.is_some_and(|rest| rest.iter().all(|kept| *kept == LENT.into()))
}

/// The tables of a size. Cases that differ in k have the same columns: each once.
fn tables(size: usize) -> Vec<Sheet> {
    let mut sheets: Vec<Sheet> = Vec::new();
    for case in sized_cases(size) {
        if sheets.iter().all(|sheet| sheet.columns != case.table) {
            let name = case.name.rsplit_once(", k ").map_or("", |(name, _)| name);
            sheets.push(Sheet::new(name, Some(case.class), case.table));
        }
    }
    sheets
}

/// Sheets of full size: the tables, and the drawn columns.
pub fn sheets() -> Vec<Sheet> {
    let mut sheets = tables(16_384);
    sheets.extend(drawn_columns(16_384).map(|(name, columns)| Sheet::new(name, None, columns)));
    sheets
}

/// Medians of one sheet, in seconds.
pub struct Measured {
    pub name: String,
    pub class: Option<Class>,
    pub size: usize,
    pub times: [f64; WORKS.len()],
}

impl Measured {
    /// Writing by the digit loop and by two digits a division, reading by C.
    pub fn ratios(&self) -> [f64; 3] {
        let [write, digits, pairs, read, c] = self.times;
        [write / digits, write / pairs, read / c]
    }
}

/// A sheet on which all works are timed.
struct Race {
    sheet: Sheet,
    size: usize,
    repeats: [usize; WORKS.len()],
    samples: [Vec<f64>; WORKS.len()],
}

impl Race {
    /// Each work gives the right answer, or the program ends.
    fn new(size: usize, sheet: Sheet) -> Race {
        let mut race = Race {
            sheet,
            size,
            repeats: [1; WORKS.len()],
            samples: Default::default(),
        };
        for (i, work) in WORKS.into_iter().enumerate() {
            race.sheet.check(work);
            race.repeats[i] = repeats(race.time(i));
        }
        race
    }

    /// Seconds of a run. One before it is not timed: the races between have
    /// taken this sheet out of the cache.
    fn time(&mut self, i: usize) -> f64 {
        self.sheet.run(WORKS[i]);
        let before = now();
        for _ in 0..self.repeats[i] {
            self.sheet.run(WORKS[i]);
        }
        (now() - before) / self.repeats[i] as f64
    }

    /// All works, the first of them by turns.
    fn turn(&mut self, round: usize) {
        for i in 0..WORKS.len() {
            let i = (round + i) % WORKS.len();
            let seconds = self.time(i);
            self.samples[i].push(seconds);
        }
    }

    fn measured(mut self) -> Measured {
        let measured = Measured {
            times: self.samples.each_mut().map(|samples| median(samples)),
            name: self.sheet.name,
            class: self.sheet.class,
            size: self.size,
        };
        report::text_progress(&measured);
        measured
    }
}

/// Tables of every size and drawn columns, written and read. All of them take
/// turns too: what else the machine does comes and goes in tenths of a second,
/// and a race alone would lie wholly inside or outside of it.
pub fn measure() -> Vec<Measured> {
    const ROUNDS: usize = 60;
    let small = [1_024, 4_096].map(|size| (size, tables(size)));
    let mut races = Vec::new();
    for (size, sheets) in small.into_iter().chain([(16_384, sheets())]) {
        races.extend(sheets.into_iter().map(|sheet| Race::new(size, sheet)));
    }
    for round in 0..ROUNDS {
        for race in &mut races {
            race.turn(round);
        }
        if round % 10 == 9 {
            let (done, number) = (round + 1, races.len());
            eprintln!("[table text] round {done}/{ROUNDS} of {number} races");
        }
    }
    races.into_iter().map(Race::measured).collect()
}
