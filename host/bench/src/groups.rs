//! Groups of a ring: its rows labelled and one group marked by the archive,
//! against the ring alone, and against the ring with a union-find in C behind it.

use crate::tables::{group_cases, Case, Class, Columns};
use crate::{median, must, now, repeats, report, ring_windows, sized_cases, Engine, SIZES};
use rumbleog::{scratch_for, Days, Table, ACCOUNTS};

extern "C" {
    /// The union-find in C (host/peer/groups.c).
    fn peer_label_marked(
        first: *const u16,
        second: *const u16,
        marks: *const u8,
        rows: usize,
        labels: *mut u16,
    );
}

/// The label of a row outside the ring.
const NONE: u16 = 65_535;

/// Labels of the rows that are marked, by the union-find in C.
fn label_marked(table: Table, marks: &[u8], labels: &mut [u16]) {
    let rows = labels.len();
    assert!(table.first.len() == rows && table.second.len() == rows && marks.len() == rows);
    // SAFETY: live slices, all of that length; what is written is borrowed alone.
    unsafe {
        peer_label_marked(
            table.first.as_ptr(),
            table.second.as_ptr(),
            marks.as_ptr(),
            rows,
            labels.as_mut_ptr(),
        );
    }
}

/// What is timed: an engine's call, or the union-find in C.
#[derive(Clone, Copy, Debug)]
pub enum Work {
    Ring,
    Label(Engine),
    Mark(Engine),
    /// The archive's ring, and the union-find over its marks: labels as a host
    /// in C would make them.
    RingAndUnion,
    /// The union-find alone, over marks that stand there.
    Union,
}

/// Those of the page, in the order of a result's times.
const WORKS: [Work; 5] = [
    Work::Ring,
    Work::Label(Engine::Archive),
    Work::Mark(Engine::Archive),
    Work::RingAndUnion,
    Work::Union,
];

/// What stands in a buffer that is lent.
const LENT: u8 = 7;

fn ones(marks: &[u8]) -> usize {
    marks.iter().filter(|&&mark| mark == 1).count()
}

/// A window of a case with its ring and its groups, and what is lent to find them.
pub struct Asked<'a> {
    case: &'a Case,
    window: Days,
    /// Marks of the ring, and labels by the union-find in C.
    ring: Vec<u8>,
    groups: Vec<u16>,
    /// The account that the rows of the ring meet last, so that it is looked for
    /// the longest. Of an empty ring 0, and then its group is refused.
    account: u16,
    marks: Vec<u8>,
    labels: Vec<u16>,
    scratch: Vec<u16>,
}

impl<'a> Asked<'a> {
    /// The ring is the archive's, and the C engine has the same, or the program ends.
    pub fn new(case: &'a Case, window: Days) -> Asked<'a> {
        let table = case.lend();
        let rows = table.days.len();
        let mut scratch = vec![LENT.into(); scratch_for(rows)];
        let (mut ring, mut other) = (vec![LENT; rows], vec![LENT; rows]);
        let told = Engine::Archive.ring(case, window.clone(), &mut ring, &mut scratch);
        let same = Engine::Peer.ring(case, window.clone(), &mut other, &mut scratch) == told;
        must(
            same && told == Some(ones(&ring)) && ring == other,
            case,
            "C window ring",
        );
        let mut groups = vec![LENT.into(); rows];
        label_marked(table, &ring, &mut groups);
        let (mut account, mut met) = (0, [false; ACCOUNTS]);
        for row in (0..rows).filter(|&row| ring[row] == 1) {
            for one in [table.first[row], table.second[row]] {
                if !met[usize::from(one)] {
                    met[usize::from(one)] = true;
                    account = one;
                }
            }
        }
        Asked {
            case,
            window,
            ring,
            groups,
            account,
            marks: vec![LENT; rows],
            labels: vec![LENT.into(); rows],
            scratch,
        }
    }

    /// The three windows of a case.
    pub fn all(case: &'a Case) -> [Asked<'a>; 3] {
        ring_windows(case.te).map(|window| Asked::new(case, window))
    }

    /// One run: the count that is told, or none if refused.
    pub fn run(&mut self, work: Work) -> Option<usize> {
        let (case, window) = (self.case, self.window.clone());
        let (marks, labels, scratch) = (&mut self.marks, &mut self.labels, &mut self.scratch);
        let told = match work {
            Work::Ring => Engine::Archive.ring(case, window, marks, scratch),
            Work::Label(engine) => engine.label(case, window, labels, scratch),
            Work::Mark(engine) => engine.mark(case, window, self.account, marks, scratch),
            Work::RingAndUnion => {
                let told = Engine::Archive.ring(case, window, marks, scratch);
                label_marked(case.lend(), marks, labels);
                told
            }
            Work::Union => {
                label_marked(case.lend(), &self.ring, labels);
                None
            }
        };
        std::hint::black_box((&mut self.marks, &mut self.labels));
        told
    }

    /// The rows with the label of the account, none where the ring has no row of it.
    fn group(&self) -> Option<Vec<u8>> {
        let Columns { first, second, .. } = &self.case.table;
        let has = |&row: &usize| [first[row], second[row]].contains(&self.account);
        let mut ring = (0..self.ring.len()).filter(|&row| self.ring[row] == 1);
        let label = self.groups[ring.find(has)?];
        let labels = self.groups.iter();
        Some(labels.map(|&one| u8::from(one == label)).collect())
    }

    /// Ends the program where a work tells or leaves anything else than the ring,
    /// the labels by the union-find in C, or the rows with the account's label.
    pub fn check(&mut self, work: Work) {
        self.marks.fill(LENT);
        self.labels.fill(LENT.into());
        self.scratch.fill(LENT.into());
        let told = self.run(work);
        let clear = self.scratch.iter().all(|&number| number == 0);
        let marked = |marks: &[u8]| told == Some(ones(marks)) && self.marks == marks && clear;
        let labelled = self.labels == self.groups;
        let fine = match work {
            Work::Ring => marked(&self.ring),
            Work::Label(_) => told == Some(ones(&self.ring)) && labelled && clear,
            Work::RingAndUnion => marked(&self.ring) && labelled,
            Work::Union => labelled,
            Work::Mark(_) => match self.group() {
                Some(group) => marked(&group),
                None => told.is_none() && self.marks.iter().all(|&kept| kept == LENT) && clear,
            },
        };
        must(fine, self.case, &format!("{work:?}"));
    }

    /// Number of groups.
    fn number(&self) -> usize {
        let mut labels = self.groups.clone();
        labels.retain(|&label| label != NONE);
        labels.sort_unstable();
        labels.dedup();
        labels.len()
    }
}

/// Medians of one window of a table, in seconds.
pub struct Measured {
    pub name: String,
    pub class: Class,
    pub window: Days,
    /// That of the benchmark's other tables; those made for groups have none.
    pub size: Option<usize>,
    /// Rows of the table, rows of the ring, its groups.
    pub rows: usize,
    pub ring: usize,
    pub groups: usize,
    pub times: [f64; WORKS.len()],
}

impl Measured {
    /// Labels by the ring, the mark by the ring, labels by the ring and the
    /// union-find in C.
    pub fn ratios(&self) -> [f64; 3] {
        let [ring, label, mark, by_hand, _] = self.times;
        [label / ring, mark / ring, label / by_hand]
    }

    /// What labels take beyond the ring, by the union-find alone; none where the
    /// ring is empty and there is nothing to join.
    pub fn alone(&self) -> Option<f64> {
        let [ring, label, _, _, union] = self.times;
        (self.ring > 0).then_some((label - ring) / union)
    }
}

/// A window on which all works are timed.
struct Race<'a> {
    asked: Asked<'a>,
    size: Option<usize>,
    repeats: [usize; WORKS.len()],
    samples: [Vec<f64>; WORKS.len()],
}

impl<'a> Race<'a> {
    /// Each work gives the right answer, or the program ends.
    fn new(size: Option<usize>, asked: Asked<'a>) -> Race<'a> {
        let mut race = Race {
            asked,
            size,
            repeats: [1; WORKS.len()],
            samples: Default::default(),
        };
        for (i, work) in WORKS.into_iter().enumerate() {
            race.asked.check(work);
            race.repeats[i] = repeats(race.time(i));
        }
        race
    }

    /// Seconds of a run. One before it is not timed: the races between have
    /// taken this table out of the cache.
    fn time(&mut self, i: usize) -> f64 {
        self.asked.run(WORKS[i]);
        let before = now();
        for _ in 0..self.repeats[i] {
            self.asked.run(WORKS[i]);
        }
        (now() - before) / self.repeats[i] as f64
    }

    /// All works, the first of them by turns.
    fn turn(&mut self, round: usize) {
        for i in 0..WORKS.len() {
            let i = (round + i) % WORKS.len();
            let seconds = self.time(i);
            self.samples[i].push(seconds);
        }
    }

    fn measured(mut self) -> Measured {
        let measured = Measured {
            times: self.samples.each_mut().map(|samples| median(samples)),
            name: self.asked.case.name.clone(),
            class: self.asked.case.class,
            size: self.size,
            rows: self.asked.ring.len(),
            ring: ones(&self.asked.ring),
            groups: self.asked.number(),
            window: self.asked.window,
        };
        report::groups_progress(&measured);
        measured
    }
}

/// Tables of every size and those made for groups, each window by itself: three
/// in a row are a table's. All of them take turns too, as those of table text.
pub fn measure() -> Vec<Measured> {
    const ROUNDS: usize = 30;
    let sized = SIZES.map(|size| (Some(size), sized_cases(size)));
    let all: Vec<_> = sized.into_iter().chain([(None, group_cases())]).collect();
    let mut races = Vec::new();
    for (size, cases) in &all {
        let asked = cases.iter().flat_map(Asked::all);
        races.extend(asked.map(|asked| Race::new(*size, asked)));
    }
    for round in 0..ROUNDS {
        for race in &mut races {
            race.turn(round);
        }
        if round % 10 == 9 {
            let (done, number) = (round + 1, races.len());
            eprintln!("[groups] round {done}/{ROUNDS} of {number} races");
        }
    }
    races.into_iter().map(Race::measured).collect()
}
