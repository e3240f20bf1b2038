//! Compares another report program with this one, list by list.

use std::ffi::{OsStr, OsString};
use std::fs::{self, File};
use std::io::{self, Cursor, Read, Write};

use crate::damage::{damages, make};
use crate::expected::{Expected, Given};
use crate::first_records::{mode_records, second_setups};
use crate::folder::Folder;
use crate::input::{open, STANDARD_INPUT};
use crate::log::LIST_RELEASE;
use crate::other::{first_difference, Feeding};
use crate::random::{log_of_waits, Random, Shape};
use crate::release_records::release_records;
use crate::report::{sheet, Onlooker};
use crate::rules::{Refusal, DEADLINE, FIXED_PRIORITY};
use crate::score::Score;
use crate::seasons::{season, GOOD, OTHER_SETUPS};
use crate::sheet_counts::SheetCounts;
use crate::sheet_vectors::{Part, LISTS, TROUBLES};
use crate::text::log_of_text;
use crate::trouble::Trouble;
use crate::vectors::WHOLE_TEXT;

/// How many lists of each good kind, of each damage, and with each difference of a setup.
const GOOD_SEEDS: usize = 64;
const DAMAGED_SEEDS: usize = 5;
const OTHER_SETUP_SEEDS: usize = 10;

/// Compares on every list, and prints what failed, the counts, and a last line of sums.
/// True if nothing failed.
pub fn sheets(program: &[OsString], report: &mut impl Write) -> io::Result<bool> {
    let mut comparison = Comparison {
        program,
        folder: Folder::new("sheets")?,
        score: Score::new(report),
        counts: SheetCounts::default(),
        lists: 0,
        example: written(WHOLE_TEXT),
    };
    comparison.written_lists()?;
    comparison.written_troubles()?;
    comparison.bad_records()?;
    comparison.seasons()?;
    comparison.cuts()?;
    comparison.standard_input()?;
    comparison.names()?;
    comparison.input_by_name()?;
    comparison.unreadable()?;
    comparison.wrong_calls()?;
    comparison.rounds()?;
    comparison.large_lists()?;
    comparison.sums()
}

struct Comparison<'a, W> {
    program: &'a [OsString],
    folder: Folder,
    score: Score<W>,
    counts: SheetCounts,
    lists: u64,
    /// The log of document 01's session.
    example: Vec<u8>,
}

/// The log of a text that was written down in this program.
fn written(text: &str) -> Vec<u8> {
    log_of_text(text.as_bytes()).expect("the texts written down are logs")
}

/// The bytes of a log that a written list asks for.
fn first_bytes(part: &Part) -> Vec<u8> {
    let mut log = written(part.text);
    log.truncate(part.bytes);
    log
}

impl<W: Write> Comparison<'_, W> {
    /// The lists written down with their sheets: this program is held to those sheets first.
    fn written_lists(&mut self) -> io::Result<()> {
        for list in LISTS {
            let logs: Vec<Vec<u8>> = list.texts.iter().map(|text| written(text)).collect();
            let names = self.folder.put(&logs)?;
            self.hold(list.name, &names, list.sheet.as_bytes())?;
            self.list(list.name, &names)?;
        }
        let name = self.folder.put(&[&self.example])?.remove(0);
        let names = [name.clone(), name];
        self.hold("one name twice", &names, LISTS[0].sheet.as_bytes())?;
        self.list("one name twice", &names)
    }

    /// Lists without a sheet, each with the number and the name that it must end with.
    fn written_troubles(&mut self) -> io::Result<()> {
        for list in TROUBLES {
            let logs: Vec<Vec<u8>> = list.logs.iter().map(first_bytes).collect();
            let names = self.folder.put(&logs)?;
            let mut line = format!("bad {} ", list.number).into_bytes();
            line.extend(names[list.place].as_encoded_bytes());
            line.push(b'\n');
            self.hold(list.name, &names, &line)?;
            self.list(list.name, &names)?;
        }
        Ok(())
    }

    /// First records of kind 7 that are no good setup, second setups, and bad releases, each in the
    /// only log.
    fn bad_records(&mut self) -> io::Result<()> {
        let records = mode_records().into_iter().chain(second_setups());
        for record in records.chain(release_records()) {
            let names = self.folder.put(&[&record.bytes])?;
            let found = sheet(&names, open, &mut ()).err();
            let found = found.and_then(|trouble| trouble.refusal());
            self.score.book_bad(record.what, record.number, found)?;
            self.list(record.what, &names)?;
        }
        Ok(())
    }

    /// Random lists: good ones, ones with every kind of damage, and ones in which a setup differs
    /// in every way. Of these last ones, each must end with 40.
    fn seasons(&mut self) -> io::Result<()> {
        let good = GOOD.map(|(kind, _)| (kind, GOOD_SEEDS));
        let damaged = damages().map(|(kind, _)| (kind, DAMAGED_SEEDS));
        let kinds = good.into_iter().chain(damaged);
        for ((kind, seeds), first_seed) in kinds.zip((0..).step_by(1001)) {
            for seed in (first_seed..).take(seeds) {
                self.season(seed, kind)?;
            }
        }
        for ((kind, _), first_seed) in OTHER_SETUPS.iter().zip((50_000..).step_by(1001)) {
            for seed in (first_seed..).take(OTHER_SETUP_SEEDS) {
                let names = self.season(seed, kind)?;
                let found = sheet(&names, open, &mut ()).err();
                let found = found.and_then(|trouble| trouble.refusal());
                let number = Refusal::SetupsDiffer.number();
                self.score
                    .book_bad(&format!("season {seed} {kind}"), number, found)?;
            }
        }
        Ok(())
    }

    fn season(&mut self, seed: u64, kind: &str) -> io::Result<Vec<OsString>> {
        let logs = season(seed, kind).unwrap_or_default();
        let names = self.folder.put(&logs)?;
        self.list(&format!("season {seed} {kind}"), &names)?;
        Ok(names)
    }

    /// 01's session twice, the second one cut at every seventh byte.
    fn cuts(&mut self) -> io::Result<()> {
        for length in (0..self.example.len()).step_by(7) {
            let names = self
                .folder
                .put(&[&self.example[..], &self.example[..length]])?;
            self.list(&format!("a second log of {length} bytes"), &names)?;
        }
        Ok(())
    }

    /// No name at all: one log from standard input, good or bad, at once or through a slow pipe.
    fn standard_input(&mut self) -> io::Result<()> {
        let example = self.example.clone();
        self.input("01's session as input", &example, Feeding::AtOnce)?;
        self.input("01's session as input", &example, Feeding::InPieces(1))?;
        self.input("nothing as input", &[], Feeding::AtOnce)?;
        let kinds = [
            "good",
            "cut",
            "flock",
            "flip",
            "busy",
            "falling",
            "spare",
            "after-end",
        ];
        let feedings = [Feeding::AtOnce, Feeding::InPieces(73), Feeding::InPieces(5)];
        let ways = kinds.into_iter().cycle().zip(feedings.into_iter().cycle());
        for (seed, (kind, feeding)) in (7000..7042).zip(ways) {
            let shape = Shape {
                events: 60,
                ..Shape::of_seed(31 * seed)
            };
            let log = make(seed, kind, shape).unwrap_or_default();
            self.input(&format!("make {seed} {kind} as input"), &log, feeding)?;
        }
        Ok(())
    }

    /// Names that are not plain words, for a good log, for a bad one and for none.
    fn names(&mut self) -> io::Result<()> {
        let long = "n".repeat(250);
        let names: [&[u8]; 12] = [
            b"two words",
            b" space  at both ends ",
            b"-",
            b"-1",
            b"--help",
            b"tab\tand\nnew line",
            b"quote ' and \" and $HOME and * and \\",
            b"per cent %s %n",
            "Gewässer".as_bytes(),
            b"no text \xff\xfe",
            b".//./dots",
            long.as_bytes(),
        ];
        for name in names {
            let shown = String::from_utf8_lossy(name);
            let given = self.folder.name(name);
            fs::write(&given, &self.example)?;
            self.list(&format!("the name {shown:?}"), std::slice::from_ref(&given))?;
            fs::write(&given, &self.example[1..])?;
            let good = self.folder.put(&[&self.example])?.remove(0);
            self.list(
                &format!("a bad log {shown:?}"),
                &[good.clone(), given.clone()],
            )?;
            fs::remove_file(&given)?;
            self.list(&format!("no log {shown:?}"), &[good, given])?;
        }
        Ok(())
    }

    /// Standard input by its name, alone and among other names, at once or through a slow pipe.
    /// Where it is named twice, nothing is left of it for the second one.
    fn input_by_name(&mut self) -> io::Result<()> {
        let example = self.example.clone();
        let name = self.folder.put(&[&example])?.remove(0);
        let by_name = STANDARD_INPUT.into();
        let lists: [&[&OsString]; 6] = [
            &[&by_name],
            &[&by_name, &name],
            &[&name, &by_name],
            &[&name, &by_name, &name],
            &[&by_name, &by_name],
            &[&name, &by_name, &name, &by_name],
        ];
        for list in lists {
            let names: Vec<OsString> = list.iter().map(|name| (*name).clone()).collect();
            let what = format!("the names {names:?}");
            self.compare(&what, &names, &example, Feeding::AtOnce)?;
            self.compare(&what, &names, &example, Feeding::InPieces(5))?;
            let bad = format!("{what}, with a bad log as input");
            let feeding = Feeding::AtOnce;
            self.compare(&bad, &names, &example[..example.len() - 1], feeding)?;
        }
        Ok(())
    }

    /// Logs that cannot be opened or read, before and after good and bad ones.
    fn unreadable(&mut self) -> io::Result<()> {
        let names = self.folder.put(&[&self.example[..], &self.example[1..]])?;
        let (good, bad) = (&names[0], &names[1]);
        let (missing, folder) = (&self.folder.name(b"missing"), &self.folder.name(b"folder"));
        fs::create_dir(folder)?;
        let below_file = &self.folder.name(b"log 1/below");
        for none in [missing, folder, below_file] {
            let lists: [&[&OsString]; 7] = [
                &[none],
                &[none, good],
                &[good, none],
                &[good, none, good],
                &[none, bad],
                &[bad, none],
                &[none, missing],
            ];
            for list in lists {
                let names: Vec<OsString> = list.iter().map(|name| (*name).clone()).collect();
                self.list(&format!("the names {names:?}"), &names)?;
            }
        }
        Ok(())
    }

    /// A folder as standard input, and flags that nobody knows.
    fn wrong_calls(&mut self) -> io::Result<()> {
        let expected = Expected::failed();
        let folder = File::open(self.folder.path())?;
        let fault = expected.fault_of_input(self.program, &[], folder)?;
        self.score.book_run("a folder as standard input", fault)?;
        let name = self.folder.put(&[&self.example])?.remove(0);
        let calls: [&[&OsStr]; 3] = [
            &[OsStr::new("--unknown")],
            &[OsStr::new("-u"), &name],
            &[&name, OsStr::new("-u")],
        ];
        for words in calls {
            let words: Vec<OsString> = words.iter().map(|word| word.to_os_string()).collect();
            let given = Given {
                words: &words,
                input: &self.example,
                feeding: Feeding::AtOnce,
            };
            let fault = Expected::called_wrongly().fault(self.program, &given)?;
            self.score
                .book_run(&format!("called with {words:?}"), fault)?;
        }
        Ok(())
    }

    /// Lists with about as many waits as the middle and the nine tenths are taken over, in one
    /// log or in three; the first waits are the longer ones, or the last.
    fn rounds(&mut self) -> io::Result<()> {
        for (seed, waits) in (8000..).zip([4095, 4096, 4097, 4100, 8191, 8193]) {
            let release_kind = Shape::of_seed(seed).release_kind;
            let mut random = Random::new(seed);
            let lengths: Vec<u32> = (0..waits)
                .map(|wait| match (wait > waits / 2) == (seed % 2 == 0) {
                    true => random.between(0, 100),
                    false => random.between(80, 1000),
                })
                .collect();
            let mut log = |waits: &[u32]| log_of_waits(&mut random, waits, release_kind);
            let one = log(&lengths);
            let (first, rest) = lengths.split_at(waits / 3);
            let (second, third) = rest.split_at(rest.len() / 5);
            let three = [log(first), log(second), log(third)];
            let names = self.folder.put(&[one])?;
            self.list(&format!("{waits} waits in one log"), &names)?;
            let names = self.folder.put(&three)?;
            self.list(&format!("{waits} waits in three logs"), &names)?;
        }
        Ok(())
    }

    /// Large logs, the last of them with more events than a session accepts; and very many logs.
    fn large_lists(&mut self) -> io::Result<()> {
        for (processors, tasks, mode) in [(2, 4, FIXED_PRIORITY), (16, 64, DEADLINE)] {
            let shape = Shape::new(processors, tasks, 50_000).in_mode(mode);
            let log = make(3000, "busy", shape).unwrap_or_default();
            let names = self.folder.put(&[&log, &log])?;
            self.list(&format!("a large log twice, n {tasks}"), &names)?;
        }
        let shape = Shape::new(2, 4, 200).with_releases(LIST_RELEASE);
        let log = make(4000, "full", shape).unwrap_or_default();
        let names = self.folder.put(&[log])?;
        self.list("a full session", &names)?;
        let names = self.folder.put(&[&self.example; 365])?;
        self.list("365 logs", &names)
    }

    /// Holds this program's own output for a list to one that was written down.
    fn hold(&mut self, what: &str, names: &[OsString], wanted: &[u8]) -> io::Result<()> {
        let output = Expected::of_answer(&sheet(names, open, &mut ())).output;
        let difference = first_difference(&output, wanted);
        let what = format!("{what}: not what is written down\n{difference}");
        self.score.book(output == wanted, &what)
    }

    /// Compares both programs on a list of names. One that is given other names than that of
    /// standard input has no use for what stands there.
    fn list(&mut self, what: &str, names: &[OsString]) -> io::Result<()> {
        let input = self.example.clone();
        self.compare(what, names, &input, Feeding::AtOnce)
    }

    /// Compares both programs on one log as standard input, without a name.
    fn input(&mut self, what: &str, log: &[u8], feeding: Feeding) -> io::Result<()> {
        let what = format!("{what}{}", feeding.in_words());
        self.compare(&what, &[], log, feeding)
    }

    /// Compares what both programs print, and how they end.
    fn compare(
        &mut self,
        what: &str,
        words: &[OsString],
        input: &[u8],
        feeding: Feeding,
    ) -> io::Result<()> {
        self.lists += 1;
        let ours = sheet_with_input(words, input, &mut self.counts);
        self.counts.book_list(words, &ours);
        let given = Given {
            words,
            input,
            feeding,
        };
        let fault = Expected::of_answer(&ours).fault(self.program, &given)?;
        self.score.book_run(what, fault)
    }

    /// Prints the counts, holds them to what must have come up, and prints the last line.
    fn sums(mut self) -> io::Result<bool> {
        self.counts.print(&mut self.score.report)?;
        self.score.book_classes(&self.counts.must_come_up())?;
        self.score.book_nevers(&self.counts.must_not_come_up())?;
        writeln!(self.score.report, "{} lists compared", self.lists)?;
        self.score.last_line()
    }
}

/// This program's own answer to a list, with this standard input, which the first one that reads
/// it reads to its end.
fn sheet_with_input(
    names: &[OsString],
    input: &[u8],
    onlooker: &mut impl Onlooker,
) -> Result<String, Trouble> {
    let mut left = input.to_vec();
    let open_with_input = |name: &OsStr| -> io::Result<Box<dyn Read>> {
        match name == STANDARD_INPUT {
            true => Ok(Box::new(Cursor::new(std::mem::take(&mut left)))),
            false => open(name),
        }
    };
    let standard_input = [STANDARD_INPUT.into()];
    let names = match names {
        [] => &standard_input,
        _ => names,
    };
    sheet(names, open_with_input, onlooker)
}
