//! Compares Guineacrumb's spacing report with the one in plain Rust, line by line.
//!
//!     spacing SEED FRAMES FOLDER COMMAND ..
//!
//! draws runs until so many frames were seen, and then those at the bounds; has COMMAND, the program spacing_report, make
//! them, over files that it writes to FOLDER; and compares every line. The last line counts. The exit status is 0 only
//! where nothing differs.
use std::collections::BTreeMap;
use std::process::ExitCode;
use std::{env, fs, io};

use compare::positions::{bounds, draw, Kind, Run, Way, KINDS};
use compare::spacing::{numbers, outcome, points, square, squared};
use compare::spacing::{Outcome, Refusal, Tally, BYTES, MOST_AGENTS, REACH};
use compare::spacing_report::Program;

/// How many runs that differ are shown.
const SHOWN: u64 = 4;
/// How many bytes the program may read until an input is made small. Its start counts for some.
const SPENT: usize = 1 << 28;
const START: usize = 1 << 19;
/// The most numbers of an input that are shown.
const SHOWN_NUMBERS: usize = 24;

/// What has to come of a run: of each input, or one refusal of them all.
enum Wanted {
    Outcomes(Vec<Outcome>),
    Refused(Refusal),
}

fn wanted(run: &Run) -> Wanted {
    match Tally::begin(run.agents, run.limit) {
        Err(refusal) => Wanted::Refused(refusal),
        Ok(tally) => {
            let of = |input: &Vec<u8>| outcome(&input[..], tally.clone()).expect("it is in memory");
            Wanted::Outcomes(run.inputs.iter().map(of).collect())
        }
    }
}

impl Wanted {
    fn parts(&self, program: &Program, run: &Run) -> Vec<Vec<String>> {
        let outcomes = match self {
            Wanted::Refused(refusal) => return vec![vec![refusal.line()]],
            Wanted::Outcomes(outcomes) => outcomes.iter().enumerate(),
        };
        let part = |(place, outcome): (usize, &Outcome)| {
            let named = format!("file {}", program.name(run, place));
            let named = (run.way != Way::Alone).then_some(named);
            named.into_iter().chain(outcome.lines()).collect()
        };
        outcomes.map(part).collect()
    }
}

/// An input that differs, by its place in the run.
struct Difference {
    place: usize,
    wanted: Vec<String>,
    got: Vec<String>,
}

fn differences(program: &Program, run: &Run, wanted: &Wanted) -> io::Result<Vec<Difference>> {
    let wanted = wanted.parts(program, run);
    let got = program.run(run)?;
    let part = |parts: &[Vec<String>], place: usize| parts.get(place).cloned().unwrap_or_default();
    let all = (0..wanted.len().max(got.len())).map(|place| Difference {
        place,
        wanted: part(&wanted, place),
        got: part(&got, place),
    });
    Ok(all.filter(|each| each.wanted != each.got).collect())
}

/// A run of one input that differs, to be made small.
struct Differing<'a> {
    program: &'a Program<'a>,
    run: Run,
    difference: Difference,
    left: usize,
}

impl Differing<'_> {
    /// None where it does not differ.
    fn of<'a>(program: &'a Program, run: Run) -> io::Result<Option<Differing<'a>>> {
        let found = differences(program, &run, &wanted(&run))?;
        Ok(found.into_iter().next().map(|difference| Differing {
            program,
            run,
            difference,
            left: SPENT,
        }))
    }

    fn bytes(&self) -> &[u8] {
        &self.run.inputs[0]
    }

    /// The bytes of a frame.
    fn frame(&self) -> usize {
        BYTES * self.run.agents.clamp(1, MOST_AGENTS as u64) as usize
    }

    /// Whether too little is left to try once more.
    fn is_spent(&self) -> bool {
        self.left < START + self.bytes().len()
    }

    /// Takes the smaller input where it still differs.
    fn reduce(&mut self, agents: u64, input: Vec<u8>) -> io::Result<()> {
        self.left -= START + input.len();
        let run = Run {
            agents,
            inputs: vec![input],
            ..self.run.clone()
        };
        let found = differences(self.program, &run, &wanted(&run))?;
        if let Some(difference) = found.into_iter().next() {
            self.run = run;
            self.difference = difference;
        }
        Ok(())
    }

    /// Leaves out as many frames as it can, many at once and then fewer.
    fn leave_out_frames(&mut self) -> io::Result<()> {
        let mut many = self.bytes().len().div_ceil(self.frame());
        while many > 0 {
            let mut end = self.bytes().len().div_ceil(self.frame());
            while end > 0 && !self.is_spent() {
                let start = end.saturating_sub(many);
                let (from, to) = (start * self.frame(), end * self.frame());
                let mut less = self.bytes().to_vec();
                less.drain(from..to.min(less.len()));
                self.reduce(self.run.agents, less)?;
                end = start;
            }
            many /= 2;
        }
        Ok(())
    }

    fn leave_out_agents(&mut self) -> io::Result<()> {
        for agent in (0..self.run.agents as usize).rev() {
            if self.is_spent() {
                break;
            }
            let own = BYTES * agent..BYTES * (agent + 1);
            let frames = self.bytes().chunks(self.frame());
            let others = |frame: &[u8]| {
                let others = frame.iter().enumerate().filter(|(at, _)| !own.contains(at));
                others.map(|(_, byte)| *byte).collect::<Vec<u8>>()
            };
            let less = frames.flat_map(others).collect();
            self.reduce(self.run.agents - 1, less)?;
        }
        Ok(())
    }

    fn make_zeros(&mut self) -> io::Result<()> {
        for at in (0..self.bytes().len() / 4).rev() {
            if self.is_spent() {
                break;
            }
            let mut less = self.bytes().to_vec();
            less[4 * at..4 * at + 4].fill(0);
            if less != self.bytes() {
                self.reduce(self.run.agents, less)?;
            }
        }
        Ok(())
    }

    fn make_small(&mut self) -> io::Result<()> {
        self.leave_out_frames()?;
        if self.run.agents <= MOST_AGENTS as u64 {
            self.leave_out_agents()?;
            self.leave_out_frames()?;
        }
        self.make_zeros()
    }

    fn show(&self, file: &str) {
        println!("  made small: {}", call(&self.run, 0, file));
        if self.bytes().len() <= 4 * SHOWN_NUMBERS {
            for frame in self.bytes().chunks(self.frame()) {
                let word = |four: &[u8]| {
                    four.iter()
                        .rev()
                        .map(|byte| format!("{byte:02x}"))
                        .collect()
                };
                let words: Vec<String> = frame.chunks(4).map(word).collect();
                println!("    {}", words.join(" "));
            }
        }
        show_lines(&self.difference);
    }
}

/// The program's call for the input at a place of the run.
fn call(run: &Run, place: usize, file: &str) -> String {
    let by = if run.is_piped(place) { "< " } else { "" };
    format!("spacing_report {} {} {by}{file}", run.agents, run.limit)
}

fn show_lines(difference: &Difference) {
    for (what, lines) in [("wanted", &difference.wanted), ("got", &difference.got)] {
        println!("  {what}");
        for line in lines {
            println!("    {line}");
        }
    }
}

/// What was counted, of one kind of input or of all.
#[derive(Clone, Default)]
struct Counts {
    runs: u64,
    inputs: u64,
    frames: u64,
    most_agents: u64,
    often: BTreeMap<String, u64>,
    different: u64,
}

impl Counts {
    fn add(&mut self, what: impl Into<String>, often: usize) {
        *self.often.entry(what.into()).or_default() += often as u64;
    }

    fn count(&mut self, run: &Run, wanted: &Wanted, different: usize) {
        self.runs += 1;
        self.inputs += run.inputs.len() as u64;
        self.different += different as u64;
        match wanted {
            Wanted::Refused(refusal) => self.add(format!("{} at once", refusal.line()), 1),
            Wanted::Outcomes(outcomes) => {
                self.most_agents = self.most_agents.max(run.agents);
                self.add("by standard input", usize::from(run.way != Way::Files));
                for (input, outcome) in run.inputs.iter().zip(outcomes) {
                    self.count_input(run, input, outcome);
                }
            }
        }
    }

    fn count_input(&mut self, run: &Run, input: &[u8], outcome: &Outcome) {
        let tally = &outcome.tally;
        self.frames += tally.frames;
        match outcome.refusal {
            Some(refusal) => self.add(format!("refused {}", refusal.number), 1),
            None if tally.smallest.is_none() => self.add("smallest none", 1),
            None => {}
        }
        let size = BYTES * run.agents as usize;
        for (at, bytes) in (0..tally.frames).zip(input.chunks(size.max(1))) {
            let frame: Vec<f32> = numbers(bytes).collect();
            self.count_components(&frame);
            if outcome.refusal.is_none() {
                self.count_pairs(run, tally, at, &frame);
            }
        }
    }

    fn count_components(&mut self, frame: &[f32]) {
        let often = |is: fn(f32) -> bool| frame.iter().filter(|x| is(**x)).count();
        let is_tie = |x: f32| (f64::from(x) * 1000.0).fract().abs() == 0.5;
        self.add("tie", often(is_tie));
        self.add("16384 either way", often(|x| x.abs() == REACH));
        self.add("subnormal", often(f32::is_subnormal));
        self.add("-0", often(|x| x == 0.0 && x.is_sign_negative()));
    }

    /// Pairs that a report has to tell apart: those at the limit, and those as near as the smallest, which is the first.
    fn count_pairs(&mut self, run: &Run, tally: &Tally, at: u64, frame: &[f32]) {
        let Some(smallest) = tally.smallest else {
            return;
        };
        let points: Vec<_> = points(frame).collect();
        let pairs = points
            .iter()
            .enumerate()
            .flat_map(|(first, a)| points[first + 1..].iter().map(move |b| squared(a, b)));
        let (mut equal, mut at_limit) = (0, 0);
        for squared in pairs {
            equal += usize::from(squared == smallest.squared);
            at_limit += usize::from(squared == square(run.limit));
        }
        self.add("pair at the limit", at_limit);
        if at == smallest.frame {
            self.add("smallest again in its frame", equal - 1);
        } else {
            self.add("smallest again in a later frame", equal);
        }
    }

    fn line(&self) -> String {
        let often = self.often.iter().filter(|(_, often)| **often > 0);
        let often: Vec<String> = often
            .map(|(what, often)| format!("{what}: {often}"))
            .collect();
        format!(
            "{} frames in {} inputs of {} runs with up to {} agents, {}; {} differences",
            self.frames,
            self.inputs,
            self.runs,
            self.most_agents,
            often.join(", "),
            self.different
        )
    }

    fn join(&mut self, other: &Counts) {
        self.runs += other.runs;
        self.inputs += other.inputs;
        self.frames += other.frames;
        self.most_agents = self.most_agents.max(other.most_agents);
        for (what, often) in &other.often {
            self.add(what.clone(), *often as usize);
        }
        self.different += other.different;
    }
}

/// Shows an input that differs, and what is left of it when it was made small. Both are kept in files.
fn show_small(
    program: &Program,
    title: &str,
    run: &Run,
    difference: &Difference,
) -> io::Result<()> {
    let name = title.replace(',', "").replace(' ', "-");
    let file = format!("{}/{name}", program.folder);
    println!("{title}, {:?}:", run.kind);
    println!("  {}", call(run, difference.place, &file));
    show_lines(difference);
    let Some(input) = run.inputs.get(difference.place) else {
        return Ok(());
    };
    fs::write(&file, input)?;
    match Differing::of(program, run.of_one(difference.place))? {
        None => println!("  not by itself, but among the inputs of its run"),
        Some(mut differing) => {
            differing.make_small()?;
            let small = format!("{file}-small");
            fs::write(&small, differing.bytes())?;
            differing.show(&small);
        }
    }
    Ok(())
}

fn compare(seed: u64, frames: u64, program: &Program) -> io::Result<Counts> {
    let mut of_kind = KINDS.map(|_| Counts::default());
    let mut shown = 0;
    let mut make = |index: u64, run: Run, counts: &mut Counts| -> io::Result<()> {
        let wanted = wanted(&run);
        let found = differences(program, &run, &wanted)?;
        counts.count(&run, &wanted, found.len());
        if let (Some(difference), true) = (found.first(), shown < SHOWN) {
            shown += 1;
            let title = format!("seed {seed}, run {index}, input {}", difference.place);
            show_small(program, &title, &run, difference)?;
        }
        Ok(())
    };
    let mut index = 0;
    while of_kind.iter().map(|counts| counts.frames).sum::<u64>() < frames {
        let run = draw(seed, index);
        let kind = run.kind as usize;
        make(index, run, &mut of_kind[kind])?;
        index += 1;
    }
    for run in bounds(seed) {
        make(index, run, &mut of_kind[Kind::Bounds as usize])?;
        index += 1;
    }
    let mut all = Counts::default();
    for kind in KINDS {
        println!("{kind:?}: {}", of_kind[kind as usize].line());
        all.join(&of_kind[kind as usize]);
    }
    Ok(all)
}

fn main() -> ExitCode {
    let words: Vec<String> = env::args().skip(1).collect();
    let number = |at: usize| words.get(at).and_then(|word| word.parse::<u64>().ok());
    let (Some(seed), Some(frames), true) = (number(0), number(1), words.len() > 3) else {
        eprintln!("usage: spacing SEED FRAMES FOLDER COMMAND ..");
        return ExitCode::from(2);
    };
    let program = Program {
        command: &words[3..],
        folder: &words[2],
    };
    let found = fs::create_dir_all(program.folder).and_then(|()| compare(seed, frames, &program));
    match found {
        Ok(counts) => {
            println!("seed {seed}: {}", counts.line());
            if counts.different == 0 {
                ExitCode::SUCCESS
            } else {
                ExitCode::FAILURE
            }
        }
        Err(error) => {
            eprintln!("spacing: spacing_report: {error}");
            ExitCode::FAILURE
        }
    }
}
