//! Compares another sum program with this one, setup by setup.

use std::ffi::{OsStr, OsString};
use std::fmt::Write as _;
use std::fs::{self, File};
use std::io::{self, Write};

use crate::damage::{say_mode, setup_bytes};
use crate::expected::{Expected, Given};
use crate::first_records::first_records;
use crate::folder::Folder;
use crate::input::STANDARD_INPUT;
use crate::log::{write_setup, HEAD, LIST_RELEASE, RELEASE};
use crate::other::{first_difference, Feeding};
use crate::random::{log_of_setup, mixed_setup, Behaviour, Random, Shape};
use crate::rules::{Refusal, Setup, MOST_TASKS};
use crate::score::Score;
use crate::sum::answer_of_log;
use crate::sum_counts::SumCounts;
use crate::sum_vectors::{BAD_LENGTHS, GOOD_LENGTHS, MOST_TASKS_LINE, MOST_TASKS_SUM, SUMS};
use crate::text::log_of_text;
use crate::trouble::Trouble;
use crate::vectors::{WHOLE_IN_MODE_1_TEXT, WHOLE_TEXT};

/// The ways in which a log is given to the other program.
const WAYS: [&str; 5] = [
    "a log by name",
    "standard input at once",
    "standard input in pieces",
    "standard input by its name",
    "standard input left open",
];

/// How one log is given.
#[derive(Clone, Copy)]
enum Way {
    /// By the name of a file, with something else on standard input.
    Name(&'static [u8]),
    /// On standard input, without a name.
    Input(Feeding),
    /// On standard input, by its name.
    InputByName,
}

impl Way {
    fn in_words(self) -> &'static str {
        match self {
            Way::Name(_) => WAYS[0],
            Way::Input(Feeding::AtOnce) => WAYS[1],
            Way::Input(Feeding::InPieces(_)) => WAYS[2],
            Way::InputByName => WAYS[3],
            Way::Input(Feeding::LeftOpen(_)) => WAYS[4],
        }
    }
}

/// The ways that most logs are given in, one after another.
const IN_TURN: [Way; 5] = [
    Way::Name(b"log"),
    Way::Input(Feeding::AtOnce),
    Way::Input(Feeding::InPieces(3)),
    Way::Name(b"a log with blanks"),
    Way::InputByName,
];

/// Compares on every setup, and prints what failed, the counts, and a last line of sums.
/// True if nothing failed.
pub fn sums(program: &[OsString], report: &mut impl Write) -> io::Result<bool> {
    let mut comparison = Comparison {
        program,
        folder: Folder::new("sums")?,
        score: Score::new(report),
        counts: SumCounts::default(),
        runs: 0,
        example: written(WHOLE_TEXT),
    };
    comparison.written_sums()?;
    comparison.bad_tasks()?;
    comparison.random_setups()?;
    comparison.first_records()?;
    comparison.cuts()?;
    comparison.names()?;
    comparison.left_open()?;
    comparison.unreadable()?;
    comparison.lengths()?;
    comparison.wrong_calls()?;
    comparison.end()
}

struct Comparison<'a, W> {
    program: &'a [OsString],
    folder: Folder,
    score: Score<W>,
    counts: SumCounts,
    runs: u64,
    /// The log of document 01's session.
    example: Vec<u8>,
}

/// The log of a text that was written down in this program.
fn written(text: &str) -> Vec<u8> {
    log_of_text(text.as_bytes()).expect("the texts written down are logs")
}

impl<W: Write> Comparison<'_, W> {
    /// The setups written down with their sums: this program is held to those sums first.
    fn written_sums(&mut self) -> io::Result<()> {
        for (sum, way) in SUMS.iter().zip(IN_TURN.into_iter().cycle()) {
            let log = written(sum.text);
            self.hold(sum.length, &log, sum.answer)?;
            self.log("a setup written down", sum.length, &log, way)?;
        }
        let mut answer = "length 4294967295\ntask sum\n".to_string();
        for task in 0..MOST_TASKS {
            // Writing into a string cannot fail.
            let _ = writeln!(answer, "{task} {MOST_TASKS_SUM}");
        }
        let tasks = MOST_TASKS_LINE.repeat(MOST_TASKS);
        let log = written(&format!("setup 16\n{tasks}end\n"));
        self.hold(u32::MAX, &log, &answer)?;
        self.log("the largest sums", u32::MAX, &log, IN_TURN[0])
    }

    /// Holds this program's own answer to one that was written down.
    fn hold(&mut self, length: u32, log: &[u8], wanted: &str) -> io::Result<()> {
        let answer = answer_of_log(length, log).unwrap_or_default();
        let difference = first_difference(answer.as_bytes(), wanted.as_bytes());
        let what = format!("length {length}: not what is written down\n{difference}");
        self.score.book(answer == wanted, &what)
    }

    /// A task that is not below n has no sum. No program prints one: this one is held to it alone.
    fn bad_tasks(&mut self) -> io::Result<()> {
        let shape = Shape::new(2, 3, 0);
        let setup = mixed_setup(&mut Random::new(0), shape);
        for task in [3, 255] {
            let refused = setup.sum(task, 4) == Err(Refusal::TaskNotBelowN);
            self.score
                .book(refused, &format!("the sum of task {task} of 3"))?;
        }
        Ok(())
    }

    /// Random setups for every n, and some more, with lengths of each sort and with each sort of
    /// bytes behind the setup. Of each four, two have mode 1, and one has kind 7 and mode 0.
    fn random_setups(&mut self) -> io::Result<()> {
        let more = (65..81u8).map(|seed| (seed, 2 + 4 * (seed - 65)));
        let sizes = (1..=64).map(|tasks| (tasks, tasks)).chain(more);
        for ((seed, tasks), way) in sizes.zip(IN_TURN.into_iter().cycle()) {
            let mut random = Random::new(9000 + u64::from(seed));
            let shape = Shape::new(1 + seed % 16, tasks, 0).in_mode(seed / 4 % 2);
            let setup = mixed_setup(&mut random, shape);
            let length = some_length(&mut random, &setup, seed % 6);
            let mut log = some_log(&mut random, &setup, seed % 4);
            if seed / 8 % 2 == 0 {
                say_mode(&mut log);
            }
            self.log(&format!("random setup {seed}"), length, &log, way)?;
        }
        Ok(())
    }

    /// First records that are no good setup; this program is held to their numbers first.
    fn first_records(&mut self) -> io::Result<()> {
        let ways = IN_TURN.into_iter().cycle();
        for ((length, record), way) in (0..).zip(first_records()).zip(ways) {
            let found = answer_of_log(length, &record.bytes[..]).err();
            let found = found.and_then(|fault| fault.refusal());
            self.score.book_bad(record.what, record.number, found)?;
            self.log(record.what, length, &record.bytes, way)?;
        }
        Ok(())
    }

    /// 01's setup in kind 1 and in kind 7, cut at each of its bytes.
    fn cuts(&mut self) -> io::Result<()> {
        let example = self.example.clone();
        let with_mode = written(WHOLE_IN_MODE_1_TEXT);
        for (log, kind) in [(example, 1), (with_mode, 7)] {
            let ways = IN_TURN.into_iter().cycle();
            for (length, way) in (0..=setup_bytes(&log)).zip(ways) {
                let what = format!("the first {length} bytes of 01's setup in kind {kind}");
                self.log(&what, 4, &log[..length], way)?;
            }
        }
        Ok(())
    }

    /// Names that are not plain words, for a good log and for a bad one.
    fn names(&mut self) -> io::Result<()> {
        let names: [&[u8]; 6] = [
            b" blanks  at both ends ",
            b"-",
            b"--help",
            b"4",
            b"tab\tnew\nline 'quote' \"$HOME\" *",
            b"no text \xff\xfe",
        ];
        let example = self.example.clone();
        for name in names {
            let shown = String::from_utf8_lossy(name);
            let what = format!("the name {shown:?}");
            self.log(&what, 4, &example, Way::Name(name))?;
            self.log(&what, 4, &example[1..], Way::Name(name))?;
        }
        Ok(())
    }

    /// Standard input that stays open behind the setup's last byte, or behind some bytes more, as
    /// long as the program runs.
    fn left_open(&mut self) -> io::Result<()> {
        let example = self.example.clone();
        let setup = setup_bytes(&example);
        let mut bad = example[..setup].to_vec();
        bad[HEAD] = 0;
        let tasks = MOST_TASKS_LINE.repeat(MOST_TASKS);
        let most = written(&format!("setup 1 mode 1\n{tasks}end\n"));
        let with_mode = written(WHOLE_IN_MODE_1_TEXT);
        let all = 4096;
        let logs = [
            (&example[..setup], all),
            (&example[..setup], 1),
            (&example[..setup + 1], all),
            (&example[..setup + 6], 7),
            (&with_mode[..setup_bytes(&with_mode)], all),
            (&most[..setup_bytes(&most)], 100),
            (&bad[..], all),
        ];
        for (log, bytes) in logs {
            let way = Way::Input(Feeding::LeftOpen(bytes));
            self.log("a setup", 4, log, way)?;
        }
        Ok(())
    }

    /// Logs that cannot be opened or read, with a good one on standard input.
    fn unreadable(&mut self) -> io::Result<()> {
        let example = self.example.clone();
        fs::write(self.folder.name(b"file"), &example)?;
        fs::create_dir(self.folder.name(b"folder"))?;
        for file in [&b"missing"[..], b"two words", b"folder", b"file/below"] {
            let name = self.folder.name(file);
            let what = format!("the name {name:?}");
            let words = ["4".into(), name.clone()];
            self.called(&what, &words, &Expected::unreadable(&name))?;
        }
        self.runs += 1;
        let expected = Expected::failed();
        let input = File::open(self.folder.path())?;
        let fault = expected.fault_of_input(self.program, &["4".into()], input)?;
        self.score.book_run("a folder as standard input", fault)
    }

    /// Words that are a length, and words that are none, with a log and without one.
    fn lengths(&mut self) -> io::Result<()> {
        for (word, length) in GOOD_LENGTHS {
            let answer = answer_of_log(length, &self.example[..]).unwrap_or_default();
            let expected = Expected::good(answer.into_bytes());
            self.called(&format!("the length {word:?}"), &[word.into()], &expected)?;
        }
        let name = self.folder.name(b"file");
        let missing = self.folder.name(b"missing");
        let names = [None, Some(name), Some(missing)];
        for (word, name) in BAD_LENGTHS.iter().zip(names.into_iter().cycle()) {
            let words: Vec<OsString> = [word.into()].into_iter().chain(name).collect();
            let what = format!("the length {word:?}");
            self.called(&what, &words, &Expected::called_wrongly())?;
        }
        Ok(())
    }

    /// No length at all, a word too many, and flags that nobody knows.
    fn wrong_calls(&mut self) -> io::Result<()> {
        let name = self.folder.name(b"file");
        let word = OsStr::new;
        let calls: [&[&OsStr]; 6] = [
            &[],
            &[&name],
            &[word("4"), &name, &name],
            &[word("4"), word("-"), &name],
            &[word("4"), word("--unknown")],
            &[word("-u"), word("4")],
        ];
        for words in calls {
            let words: Vec<OsString> = words.iter().map(|word| word.to_os_string()).collect();
            let what = format!("called with {words:?}");
            self.called(&what, &words, &Expected::called_wrongly())?;
        }
        Ok(())
    }

    /// Compares both programs on one log, given in one way.
    fn log(&mut self, what: &str, length: u32, log: &[u8], way: Way) -> io::Result<()> {
        self.counts.book(length, log, way.in_words());
        let mut words = vec![length.to_string().into()];
        let (input, feeding) = match way {
            Way::Name(file) => {
                let name = self.folder.name(file);
                fs::write(&name, log)?;
                words.push(name);
                (&b"not the log"[..], Feeding::AtOnce)
            }
            Way::Input(feeding) => (log, feeding),
            Way::InputByName => {
                words.push(STANDARD_INPUT.into());
                (log, Feeding::AtOnce)
            }
        };
        let name = words.get(1).cloned();
        let name = name.unwrap_or_else(|| STANDARD_INPUT.into());
        let ours = answer_of_log(length, log).map_err(|fault| Trouble::new(fault, name));
        let what = format!(
            "{what}, length {length}, {}{}",
            way.in_words(),
            feeding.in_words()
        );
        let given = Given {
            words: &words,
            input,
            feeding,
        };
        self.run(&what, &Expected::of_answer(&ours), &given)
    }

    /// A call with these words, and 01's log on standard input.
    fn called(&mut self, what: &str, words: &[OsString], expected: &Expected) -> io::Result<()> {
        let input = self.example.clone();
        let given = Given {
            words,
            input: &input,
            feeding: Feeding::AtOnce,
        };
        self.run(what, expected, &given)
    }

    fn run(&mut self, what: &str, expected: &Expected, given: &Given) -> io::Result<()> {
        self.runs += 1;
        let fault = expected.fault(self.program, given)?;
        self.score.book_run(what, fault)
    }

    /// Prints the counts, holds them to what must have come up, and prints the last line.
    fn end(mut self) -> io::Result<bool> {
        self.counts.print(&mut self.score.report, &WAYS)?;
        self.score.book_classes(&self.counts.must_come_up(&WAYS))?;
        writeln!(self.score.report, "{} runs compared", self.runs)?;
        self.score.last_line()
    }
}

/// A length of some sort: near a multiple of some task's period, at an end, or any.
fn some_length(random: &mut Random, setup: &Setup, sort: u8) -> u32 {
    let period = setup.tasks[random.below(setup.tasks.len())].period;
    let times = random.between(1, (u32::MAX / period).min(1000));
    let multiple = period * times;
    match sort {
        0 => 0,
        1 => multiple,
        2 => multiple - 1,
        3 => multiple.saturating_add(1),
        4 => u32::MAX,
        _ => random.between(0, u32::MAX),
    }
}

/// A log of a setup: with nothing behind it, with bytes that are no records, with an end that
/// counts wrongly, or with events.
fn some_log(random: &mut Random, setup: &Setup, sort: u8) -> Vec<u8> {
    let mut log = Vec::new();
    write_setup(&mut log, setup).expect("the setups made here are allowed");
    match sort {
        0 => {}
        1 => {
            let bytes = random.between(1, 5000);
            log.extend((0..bytes).map(|_| random.below(256) as u8));
        }
        2 => log.extend([4, 0, 6, 0, 9, 9, 9, 9]),
        _ => {
            let release_kind = random.pick(&[RELEASE, LIST_RELEASE]);
            log = log_of_setup(random, setup, 40, Behaviour::Mixed, release_kind);
        }
    }
    log
}
