//! Counts of what came up in the lists of a comparison of reports, by this program's own reading.

use std::collections::BTreeSet;
use std::ffi::OsString;
use std::io::{self, Write};

use crate::both_numbers::BothNumbers;
use crate::cases::CaseCounts;
use crate::counts::{add, add_all, count, least, print_classes, Class, Counts, Never};
use crate::input::STANDARD_INPUT;
use crate::log::RELEASES;
use crate::report::{Onlooker, Report};
use crate::rules::{Action, Event, Refusal, Setup, FIXED_PRIORITY};
use crate::tally::{Booking, Commit, Tally, Wait, LAST_WAITS, MOST_TOTAL};
use crate::trouble::Trouble;

/// The numbers by which a log ends a report. 28 is for writers with a buffer of one size.
const BAD: [u8; 15] = [10, 11, 12, 13, 14, 20, 21, 22, 23, 24, 25, 26, 27, 29, 40];

/// The numbers by which the manager refuses an event.
const REFUSED: [u8; 7] = [1, 2, 3, 4, 5, 6, 7];

/// What must come up in lists that have a sheet, so that it can show there.
const ON_SHEETS: [&str; 35] = [
    "sheets over one log",
    "sheets over several logs",
    "sheets over a hundred logs or more",
    "sheets without a wait",
    "sheets with an even number of waits, below 4,096",
    "sheets with an odd number of waits, below 4,096",
    "sheets with 4,096 waits",
    "sheets with 4,097 waits or more",
    "sheets with the tasks not in order of number",
    "sheets with tasks of equal ticks",
    "sheets with a task whose waits have 0 ticks",
    "sheets with a total of exactly 4,294,967,295",
    "sheets in which 41 left out events",
    "sessions that end with waits open",
    "sessions after one that ended with waits open",
    "commits refused",
    "releases refused",
    "commits of a transaction that had waited",
    "commits of one that had not",
    "events that book a commit and several waits",
    "waits ended by a commit",
    "waits ended by a release",
    "waits ended by a finish",
    "waits of 0 ticks",
    "waits of more than 2,147,483,647 ticks",
    "waits with several clashes",
    "events left out",
    "events left out that commit",
    "events left out that release",
    "events left out that finish",
    "events left out of which one wait would fit",
    "events booked after one was left out",
    "waits booked that an event left out had opened",
    "commits of a transaction that one had admitted",
    "commits without a wait after one with a wait was left out",
];

/// What must come up there often.
const ON_MANY_SHEETS: [&str; 6] = [
    "sheets of mode 0 with a wait",
    "sheets of mode 1 with a wait",
    "sheets over setups of kind 1 and of kind 7",
    "sheets over releases of kind 3 alone",
    "sheets over releases of kind 8 alone",
    "sheets over releases of kind 3 and of kind 8",
];

#[derive(Default)]
pub struct SheetCounts {
    /// Lists that end with a bad log, by its number.
    bad: Counts<u8>,
    /// Lists by how they end.
    endings: Counts<&'static str>,
    /// Events refused in lists that have a sheet, by number.
    refused: Counts<u8>,
    /// What came up in lists that have a sheet.
    on_sheets: Counts<&'static str>,
    /// In lists that have a sheet, both numbers of the waits booked; of the rows; and what came up
    /// in the rows, once for each sheet.
    in_waits: CaseCounts<BothNumbers>,
    in_rows: CaseCounts<BothNumbers>,
    in_sheets: CaseCounts<BothNumbers>,
    /// Lists that have a sheet, by m and by n.
    processors: Counts<usize>,
    tasks: Counts<usize>,
    /// What came up in the present list.
    list: ListCounts,
}

/// What came up in one list so far.
#[derive(Default)]
struct ListCounts {
    refused: Counts<u8>,
    came_up: Counts<&'static str>,
    /// Both numbers of the waits booked.
    in_waits: CaseCounts<BothNumbers>,
    processors: usize,
    mode: u8,
    /// The kinds of the setups, and of the releases.
    kinds: BTreeSet<u16>,
    release_kinds: BTreeSet<u16>,
    /// Whether an event was left out.
    left_out: bool,
    /// Whether the session before ended with waits open.
    ended_open: bool,
    /// In the present session, the waiting tasks whose wait was opened by an event left out.
    opened_by_left_out: BTreeSet<u8>,
    /// In the present session, the executing tasks that an event left out admitted.
    admitted_by_left_out: BTreeSet<u8>,
    /// In the present session, the tasks whose last commit was left out and had waited.
    waited_and_left_out: BTreeSet<u8>,
}

/// How a list can end: with a sheet, with a bad log by its place, or in another way.
const ENDINGS: [&str; 9] = [
    "sheets over logs by name",
    "sheets over standard input",
    "sheets over standard input by its name",
    "bad, the only log",
    "bad, the first of several",
    "bad, between others",
    "bad, the last of several",
    "bad, from standard input",
    "lists with a log that cannot be read",
];

impl SheetCounts {
    /// Books how a list of these names ended. If it has no sheet, what came up in it does not
    /// count.
    pub fn book_list(&mut self, names: &[OsString], ended: &Result<String, Trouble>) {
        self.list = ListCounts::default();
        let what = match ended {
            Ok(_) if names.is_empty() => "sheets over standard input",
            Ok(_) if names.iter().any(|name| name == STANDARD_INPUT) => {
                "sheets over standard input by its name"
            }
            Ok(_) => "sheets over logs by name",
            Err(Trouble::Unreadable(..)) => "lists with a log that cannot be read",
            Err(Trouble::Bad(refusal, name)) => {
                add(&mut self.bad, refusal.number());
                match names.iter().position(|given| given == name) {
                    None => "bad, from standard input",
                    Some(0) if names.len() == 1 => "bad, the only log",
                    Some(0) => "bad, the first of several",
                    Some(place) if place + 1 < names.len() => "bad, between others",
                    Some(_) => "bad, the last of several",
                }
            }
        };
        add(&mut self.endings, what);
    }

    /// Books both numbers of each row of a sheet.
    fn book_rows(&mut self, tally: &Tally) {
        let mut in_sheet = CaseCounts::default();
        for figures in tally.tasks() {
            in_sheet.book(&BothNumbers {
                clashes: figures.clashes,
                retries: figures.retries,
            });
        }
        self.in_rows.book_all(&in_sheet);
        self.in_sheets.book_once(&in_sheet);
    }

    /// What must have come up.
    pub fn must_come_up(&self) -> Vec<Class> {
        let bad = BAD.map(|number| Class::once(format!("bad {number}"), count(&self.bad, number)));
        let endings = ENDINGS.map(|what| Class::once(what, count(&self.endings, what)));
        let refused = REFUSED.map(|number| {
            let what = format!("events refused with {number}");
            Class::once(what, count(&self.refused, number))
        });
        let on_sheets = ON_SHEETS.map(|what| Class::once(what, count(&self.on_sheets, what)));
        let on_many = ON_MANY_SHEETS.map(|what| Class::new(what, count(&self.on_sheets, what), 50));
        let (processors, tasks) = (least(&self.processors, 16), least(&self.tasks, 64));
        let sizes = [
            Class::once("sheets for each m from 1 to 16", processors),
            Class::once("sheets for each n from 1 to 64", tasks),
        ];
        let both_numbers = [
            self.in_waits.must_come_up("waits"),
            self.in_rows.must_come_up("rows"),
            self.in_sheets.must_come_up("sheets"),
        ];
        let lists = endings.into_iter().chain(bad);
        let on_sheets = on_sheets.into_iter().chain(on_many);
        let sheets = refused.into_iter().chain(on_sheets).chain(sizes);
        lists
            .chain(sheets)
            .chain(both_numbers.into_iter().flatten())
            .collect()
    }

    /// What the rules never let come up.
    pub fn must_not_come_up(&self) -> [Never; 2] {
        [
            self.in_waits.must_not_come_up("waits"),
            self.in_rows.must_not_come_up("rows"),
        ]
    }

    pub fn print(&self, report: &mut impl Write) -> io::Result<()> {
        writeln!(
            report,
            "What came up; below `bad`, in lists that have a sheet:"
        )?;
        print_classes(report, &self.must_come_up(), &self.must_not_come_up())?;
        writeln!(
            report,
            "  Refusal 41 came up by a task's ticks. The other totals rise by 1,000,000 in a"
        )?;
        writeln!(
            report,
            "  session at most; that one of them would pass is out of reach of a test."
        )
    }
}

impl Onlooker for SheetCounts {
    fn setup(&mut self, setup: &Setup, kind: u16) {
        let list = &mut self.list;
        list.processors = usize::from(setup.processors);
        list.mode = setup.mode;
        list.kinds.insert(kind);
        list.opened_by_left_out.clear();
        list.admitted_by_left_out.clear();
        list.waited_and_left_out.clear();
        if list.ended_open {
            list.add("sessions after one that ended with waits open");
        }
    }

    fn refused(&mut self, event: &Event, refusal: Refusal) {
        add(&mut self.list.refused, refusal.number());
        match event.action {
            Action::Commit => self.list.add("commits refused"),
            Action::Release(_) => self.list.add("releases refused"),
            Action::Arrive | Action::Finish => {}
        }
    }

    fn accepted(&mut self, event: &Event, booking: &Booking, booked: bool, tally: &Tally) {
        if booked {
            self.list.booked(event, booking);
        } else {
            self.list.left_out(event, booking, tally);
        }
    }

    fn end(&mut self, open_waits: usize, release_kind: Option<u16>) {
        self.list.release_kinds.extend(release_kind);
        self.list.ended_open = open_waits > 0;
        if open_waits > 0 {
            self.list.add("sessions that end with waits open");
        }
    }

    /// The list has a sheet: what came up in it counts.
    fn sheet(&mut self, report: &Report) {
        let mut list = std::mem::take(&mut self.list);
        if let Some(tally) = report.tally() {
            list.sheet(report, tally);
            self.book_rows(tally);
            add(&mut self.processors, list.processors);
            add(&mut self.tasks, tally.tasks().len());
        }
        add_all(&mut self.on_sheets, &list.came_up);
        add_all(&mut self.refused, &list.refused);
        self.in_waits.book_all(&list.in_waits);
    }
}

impl ListCounts {
    fn add(&mut self, what: &'static str) {
        debug_assert!(ON_SHEETS.contains(&what) || ON_MANY_SHEETS.contains(&what));
        add(&mut self.came_up, what);
    }

    fn booked(&mut self, event: &Event, booking: &Booking) {
        if self.left_out && *booking != Booking::default() {
            self.add("events booked after one was left out");
        }
        if booking.commit.is_some() && booking.waits.len() > 1 {
            self.add("events that book a commit and several waits");
        }
        if let Some(commit) = &booking.commit {
            self.commit(commit);
        }
        for wait in &booking.waits {
            self.wait(event, wait);
        }
    }

    fn commit(&mut self, commit: &Commit) {
        self.add(match commit.waited {
            true => "commits of a transaction that had waited",
            false => "commits of one that had not",
        });
        if self.admitted_by_left_out.remove(&commit.task) {
            self.add("commits of a transaction that one had admitted");
        }
        if self.waited_and_left_out.remove(&commit.task) && !commit.waited {
            self.add("commits without a wait after one with a wait was left out");
        }
    }

    fn wait(&mut self, event: &Event, wait: &Wait) {
        self.add(match event.action {
            Action::Release(_) => "waits ended by a release",
            Action::Finish => "waits ended by a finish",
            Action::Arrive | Action::Commit => "waits ended by a commit",
        });
        if wait.ticks == 0 {
            self.add("waits of 0 ticks");
        }
        if wait.ticks > MOST_TOTAL / 2 {
            self.add("waits of more than 2,147,483,647 ticks");
        }
        if wait.clashes > 1 {
            self.add("waits with several clashes");
        }
        self.in_waits.book(&BothNumbers {
            clashes: wait.clashes,
            retries: wait.retries,
        });
        if self.opened_by_left_out.remove(&wait.task) {
            self.add("waits booked that an event left out had opened");
        }
    }

    /// An event that 41 left out, and the tally that it left unchanged.
    fn left_out(&mut self, event: &Event, booking: &Booking, tally: &Tally) {
        self.left_out = true;
        self.add("events left out");
        if let Some(commit) = &booking.commit {
            self.add("events left out that commit");
            self.admitted_by_left_out.remove(&commit.task);
            if commit.waited {
                self.waited_and_left_out.insert(commit.task);
            }
        }
        let fits = |wait: &Wait| {
            let mut figures = tally.tasks()[usize::from(wait.task)].clone();
            figures.add_wait(wait);
            !figures.passes()
        };
        if booking.waits.iter().any(fits) {
            self.add("events left out of which one wait would fit");
        }
        for wait in &booking.waits {
            self.opened_by_left_out.remove(&wait.task);
            self.admitted_by_left_out.insert(wait.task);
        }
        match event.action {
            // A release that ends a wait waits itself.
            Action::Release(_) => {
                self.add("events left out that release");
                self.opened_by_left_out.insert(event.task);
            }
            Action::Finish => self.add("events left out that finish"),
            Action::Arrive | Action::Commit => {}
        }
    }

    fn sheet(&mut self, report: &Report, tally: &Tally) {
        self.add(match report.logs() {
            1 => "sheets over one log",
            _ => "sheets over several logs",
        });
        if report.logs() >= 100 {
            self.add("sheets over a hundred logs or more");
        }
        if report.left() > 0 {
            self.add("sheets in which 41 left out events");
        }
        if self.kinds.len() > 1 {
            self.add("sheets over setups of kind 1 and of kind 7");
        }
        let release_kinds = RELEASES.map(|kind| self.release_kinds.contains(&kind));
        match release_kinds {
            [true, false] => self.add("sheets over releases of kind 3 alone"),
            [false, true] => self.add("sheets over releases of kind 8 alone"),
            [true, true] => self.add("sheets over releases of kind 3 and of kind 8"),
            [false, false] => {}
        }
        if tally.waits() > 0 {
            self.add(match self.mode {
                FIXED_PRIORITY => "sheets of mode 0 with a wait",
                _ => "sheets of mode 1 with a wait",
            });
        }
        let most = LAST_WAITS as u64;
        self.add(match tally.waits() {
            0 => "sheets without a wait",
            waits if waits > most => "sheets with 4,097 waits or more",
            waits if waits == most => "sheets with 4,096 waits",
            waits if waits % 2 == 0 => "sheets with an even number of waits, below 4,096",
            _ => "sheets with an odd number of waits, below 4,096",
        });
        self.order(tally);
    }

    /// What the order of the tasks that wait most, and their ticks, bring up.
    fn order(&mut self, tally: &Tally) {
        let most = tally.most();
        let ticks: Vec<u64> = most.iter().map(|task| tally.tasks()[*task].ticks).collect();
        if !most.is_sorted() {
            self.add("sheets with the tasks not in order of number");
        }
        if ticks.windows(2).any(|pair| pair[0] == pair[1]) {
            self.add("sheets with tasks of equal ticks");
        }
        if ticks.last() == Some(&0) {
            self.add("sheets with a task whose waits have 0 ticks");
        }
        if ticks.first() == Some(&MOST_TOTAL) {
            self.add("sheets with a total of exactly 4,294,967,295");
        }
    }
}
