//! Compares the program tenticks with ten ticks over the published velocity call.
//!
//!     tenticks SEED FLEETS COMMAND ..
//!
//! draws so many fleet files, has COMMAND, the program tenticks, read each, and compares what it writes byte by byte:
//! the fleet after ten ticks by the near rule, or the line of the first refused call. The last line counts. The exit
//! status is 0 only where something was compared and nothing differs.
use std::process::ExitCode;
use std::{env, io};

use compare::file::{self, RECORD};
use compare::flights::{draw_file, KINDS};
use compare::piped::output;
use compare::published::catch_quietly;
use compare::record::WORDS;
use compare::simulated::{ten_ticks, Counts};

/// How many differences are shown.
const SHOWN: u64 = 4;

/// What was wanted for a file, and what was got.
struct Difference {
    wanted: Vec<u8>,
    got: Vec<u8>,
}

fn difference(command: &[String], file: &[u8], wanted: Vec<u8>) -> io::Result<Option<Difference>> {
    let got = output(command, file.to_vec())?;
    Ok((got != wanted).then_some(Difference { wanted, got }))
}

/// A file that differs, to be made small.
struct Differing<'a> {
    command: &'a [String],
    file: Vec<u8>,
    difference: Difference,
}

impl Differing<'_> {
    /// Takes the smaller file where it still differs.
    fn reduce(&mut self, less: Vec<u8>) -> io::Result<()> {
        let (wanted, _) = ten_ticks(&less);
        if let Some(difference) = difference(self.command, &less, wanted)? {
            self.file = less;
            self.difference = difference;
        }
        Ok(())
    }

    /// Leaves agents out, and makes words 0 where load then accepts the file as before.
    fn make_small(&mut self) -> io::Result<()> {
        for agent in (0..self.file.len() / RECORD).rev() {
            let mut less = self.file.clone();
            less.drain(RECORD * agent..RECORD * (agent + 1));
            self.reduce(less)?;
        }
        for word in 0..self.file.len() / 4 {
            let mut less = self.file.clone();
            less[4 * word..4 * (word + 1)].fill(0);
            if file::loaded(&less).is_ok() == file::loaded(&self.file).is_ok() {
                self.reduce(less)?;
            }
        }
        Ok(())
    }

    fn show(&self) {
        println!("  file, {} bytes", self.file.len());
        show_words(&self.file);
        for (name, bytes) in [
            ("wanted", &self.difference.wanted),
            ("got", &self.difference.got),
        ] {
            println!("  {name}, {} bytes", bytes.len());
            match bytes.strip_prefix(b"refused") {
                Some(rest) => print!("    refused{}", String::from_utf8_lossy(rest)),
                None => show_words(bytes),
            }
        }
    }
}

/// The words of a fleet file, a line for each record.
fn show_words(bytes: &[u8]) {
    for record in file::words(bytes).chunks(WORDS) {
        let words: String = record.iter().map(|word| format!(" {word:08x}")).collect();
        println!("   {words}");
    }
}

/// What was counted, of one kind of fleet or of all.
#[derive(Clone, Default)]
struct Tally {
    fleets: u64,
    counts: Counts,
    different: u64,
}

impl Tally {
    fn count(&mut self, counts: &Counts, differs: bool) {
        self.fleets += 1;
        for (what, often) in counts {
            *self.counts.entry(what.clone()).or_default() += often;
        }
        self.different += u64::from(differs);
    }

    fn line(&self) -> String {
        let counts: Vec<String> = self
            .counts
            .iter()
            .map(|(what, often)| format!("{what}: {often}"))
            .collect();
        format!(
            "{} fleets for ten ticks, {}; {} differences",
            self.fleets,
            counts.join(", "),
            self.different
        )
    }
}

fn compare(seed: u64, fleets: u64, command: &[String]) -> io::Result<Tally> {
    let mut all = Tally::default();
    let mut of_kind = KINDS.map(|_| Tally::default());
    for index in 0..fleets {
        let (kind, file) = draw_file(seed, index);
        let (wanted, counts) = ten_ticks(&file);
        let differs = difference(command, &file, wanted)?;
        all.count(&counts, differs.is_some());
        of_kind[kind as usize].count(&counts, differs.is_some());
        if let (Some(difference), true) = (differs, all.different <= SHOWN) {
            println!("seed {seed}, fleet {index}, {kind:?}, made small:");
            let mut differing = Differing {
                command,
                file,
                difference,
            };
            differing.make_small()?;
            differing.show();
        }
    }
    for kind in KINDS {
        println!("{kind:?}: {}", of_kind[kind as usize].line());
    }
    Ok(all)
}

fn main() -> ExitCode {
    let words: Vec<String> = env::args().skip(1).collect();
    let number = |at: usize| words.get(at).and_then(|word| word.parse::<u64>().ok());
    let (Some(seed), Some(fleets), true) = (number(0), number(1), words.len() > 2) else {
        eprintln!("usage: tenticks SEED FLEETS COMMAND ..");
        return ExitCode::from(2);
    };
    catch_quietly();
    match compare(seed, fleets, &words[2..]) {
        Ok(tally) => {
            if tally.fleets == 0 {
                println!("seed {seed}: NO FLEETS: nothing was compared");
                return ExitCode::FAILURE;
            }
            println!("seed {seed}: {}", tally.line());
            if tally.different == 0 {
                ExitCode::SUCCESS
            } else {
                ExitCode::FAILURE
            }
        }
        Err(error) => {
            eprintln!("tenticks: {error}");
            ExitCode::FAILURE
        }
    }
}
