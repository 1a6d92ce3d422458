//! Calls on the fleet table and on the reader, and flights, which are made of them.
use std::mem;

use crate::case::{MOST_NEIGHBOURS, SCRATCH};
use crate::file::{self, RECORD};
use crate::record::{Record, WORDS};

/// Scratch for every plan.
pub const ENOUGH: usize = SCRATCH * MOST_NEIGHBOURS;

/// The words of a call: kind, index, scratch, arguments.
const CALL_WORDS: usize = 3 + WORDS;
/// The kinds, by their numbers, of the calls that a file follows.
const LOAD: u32 = 10;
const RECORD_OF: u32 = 12;

#[derive(Clone, Copy, PartialEq, Eq, Debug)]
pub enum Rule {
    Source,
    Near,
}

/// A fleet file that is lent to a call.
#[derive(Clone, Debug)]
pub enum File {
    Bytes(Vec<u8>),
    /// What a save of the same flight wrote, the first one's being 0. The bytes are not known until it was made.
    Saved(usize),
}

#[derive(Clone, Debug)]
pub enum Call {
    Remove(usize),
    Read(usize),
    Goal {
        agent: usize,
        to: [f32; 3],
    },
    Open {
        time_step: f32,
        rule: Rule,
    },
    /// on a scratch of that length
    Plan {
        agent: usize,
        scratch: usize,
        /// Where scratch is shown after the call, the bits of the first number that it holds before; each next one has
        /// one more.
        shown: Option<u32>,
    },
    Close,
    Drop,
    Load(File),
    /// into a buffer of so many bytes
    Save(usize),
    /// by the reader, which has nothing to do with the fleet
    Record {
        index: usize,
        file: File,
    },
}

impl Rule {
    pub fn name(self) -> &'static str {
        match self {
            Rule::Source => "source",
            Rule::Near => "near",
        }
    }
}

impl File {
    /// Those of a file in a flight that was made.
    pub fn bytes(&self) -> &[u8] {
        match self {
            File::Bytes(bytes) => bytes,
            File::Saved(_) => panic!("a file is lent before it was saved"),
        }
    }

    /// Without the record of an index, where it has that.
    fn without(&self, index: usize) -> File {
        let mut bytes = self.bytes().to_vec();
        if bytes.len() >= RECORD * (index + 1) {
            bytes.drain(RECORD * index..RECORD * (index + 1));
        }
        File::Bytes(bytes)
    }
}

impl Call {
    /// A plan with scratch for every one.
    pub fn plan(agent: usize) -> Call {
        Call::Plan {
            agent,
            scratch: ENOUGH,
            shown: None,
        }
    }

    pub fn name(&self) -> &'static str {
        match self {
            Call::Remove(_) => "remove",
            Call::Read(_) => "read",
            Call::Goal { .. } => "goal",
            Call::Open { .. } => "open",
            Call::Plan { .. } => "plan",
            Call::Close => "close",
            Call::Drop => "drop",
            Call::Load(_) => "load",
            Call::Save(_) => "save",
            Call::Record { .. } => "record",
        }
    }

    /// The index of an agent that it names.
    fn agent_mut(&mut self) -> Option<&mut usize> {
        match self {
            Call::Remove(agent) | Call::Read(agent) => Some(agent),
            Call::Goal { agent, .. } | Call::Plan { agent, .. } => Some(agent),
            _ => None,
        }
    }

    fn file(&self) -> Option<&File> {
        match self {
            Call::Load(file) | Call::Record { file, .. } => Some(file),
            _ => None,
        }
    }

    pub fn file_mut(&mut self) -> Option<&mut File> {
        match self {
            Call::Load(file) | Call::Record { file, .. } => Some(file),
            _ => None,
        }
    }

    /// The call in a flight that lacks the agent, where it does not name it.
    fn without_agent(mut self, gone: usize) -> Option<Call> {
        if let Some(agent) = self.agent_mut() {
            if *agent == gone {
                return None;
            }
            *agent -= usize::from(*agent > gone);
        }
        match &mut self {
            Call::Load(file) => *file = file.without(gone),
            Call::Record { index, file } if *index != gone => {
                *file = file.without(gone);
                *index -= usize::from(*index > gone);
            }
            // as much too short or too long as before
            Call::Save(length) => *length = length.saturating_sub(RECORD),
            Call::Plan {
                scratch,
                shown: Some(_),
                ..
            } => *scratch = scratch.saturating_sub(SCRATCH),
            _ => (),
        }
        Some(self)
    }

    /// As lines of crates/replay/scripts.txt.
    pub fn text(&self) -> String {
        let name = self.name();
        match self {
            Call::Remove(agent) | Call::Read(agent) => format!("{name} {agent}"),
            Call::Goal { agent, to } => {
                let bits = to.map(|x| format!("0x{:08x}", x.to_bits()));
                format!("{name} {agent} {}", bits.join(" "))
            }
            Call::Open { time_step, rule } => format!("{name} {time_step} {}", rule.name()),
            Call::Plan {
                agent,
                scratch,
                shown: None,
            } => format!("{name} {agent} {scratch}"),
            Call::Plan {
                agent,
                scratch,
                shown: Some(first),
            } => format!("scratch {agent} {scratch} 0x{first:08x}"),
            Call::Close | Call::Drop => name.into(),
            Call::Save(length) => format!("{name} {length}"),
            Call::Load(file) => lent_text(name, LOAD, None, file.bytes()),
            Call::Record { index, file } => lent_text(name, RECORD_OF, Some(*index), file.bytes()),
        }
    }

    /// The words by which the program replay takes it: kind, index, scratch, arguments.
    fn words(&self) -> Vec<u32> {
        let mut words = match *self {
            Call::Remove(agent) => vec![3, agent as u32],
            Call::Read(agent) => vec![4, agent as u32],
            Call::Goal { agent, to } => {
                let [x, y, z] = to.map(f32::to_bits);
                vec![5, agent as u32, 0, x, y, z]
            }
            Call::Open { time_step, rule } => vec![6, 0, 0, time_step.to_bits(), rule as u32],
            Call::Plan {
                agent,
                scratch,
                shown,
            } => match shown {
                None => vec![7, agent as u32, scratch as u32],
                Some(first) => vec![13, agent as u32, scratch as u32, first],
            },
            Call::Close => vec![8],
            Call::Drop => vec![9],
            Call::Load(ref file) => vec![LOAD, 0, 0, file.bytes().len() as u32],
            Call::Save(length) => vec![11, 0, 0, length as u32],
            Call::Record { index, ref file } => {
                vec![RECORD_OF, index as u32, 0, file.bytes().len() as u32]
            }
        };
        words.resize(CALL_WORDS, 0);
        words
    }

    /// The bytes by which replay takes it: the words, and after them the file that is lent.
    pub fn bytes(&self) -> Vec<u8> {
        let mut bytes = file::little_endian(&self.words());
        if let Some(file) = self.file() {
            bytes.extend(file.bytes());
        }
        bytes
    }
}

/// The lines for a call with a file, by their words: a script's own files are made of agents that have names, or of
/// zeros. Bytes that are no whole words are shown as zeros; nothing but their number is ever looked at.
fn lent_text(name: &str, kind: u32, index: Option<usize>, file: &[u8]) -> String {
    let length = file.len();
    if length % 4 != 0 || file.iter().all(|&byte| byte == 0) {
        let index = index.map_or(String::new(), |index| format!(" {index}"));
        return format!("{name}-bytes{index} {length}");
    }
    let index = index.unwrap_or(0);
    let rest = " 0".repeat(CALL_WORDS - 4);
    let mut text = format!("words {kind} {index} 0 {length}{rest} # {name}");
    for record in file::words(file).chunks(WORDS) {
        text += "\nwords";
        text.extend(record.iter().map(|word| format!(" 0x{word:08x}")));
    }
    text
}

/// A fleet, and the calls of each tick on it, with those that come between it and the next.
#[derive(Clone)]
pub struct Flight {
    pub records: Vec<Record>,
    pub ticks: Vec<Vec<Call>>,
}

impl Flight {
    /// The calls of each tick, and after them a read of every agent, of which there are then so many.
    pub fn with_reads(&self, agents: &[usize]) -> Vec<Vec<Call>> {
        let ticks = self.ticks.iter().cloned().zip(agents);
        ticks
            .map(|(calls, &agents)| {
                calls
                    .into_iter()
                    .chain((0..agents).map(Call::Read))
                    .collect()
            })
            .collect()
    }

    /// The most agents that it begins with, or that a file has.
    pub fn most_agents(&self) -> usize {
        let calls = self.ticks.iter().flatten();
        let in_files = calls.filter_map(|call| Some(call.file()?.bytes().len() / RECORD));
        in_files.chain([self.records.len()]).max().unwrap_or(0)
    }

    pub fn call_count(&self) -> usize {
        self.ticks.iter().map(Vec::len).sum()
    }

    pub fn without_tick(&self, tick: usize) -> Flight {
        let mut less = self.clone();
        less.ticks.remove(tick);
        less
    }

    pub fn without_call(&self, call: usize) -> Flight {
        let mut less = self.clone();
        let mut at = call;
        for calls in &mut less.ticks {
            if at < calls.len() {
                calls.remove(at);
                break;
            }
            at -= calls.len();
        }
        less
    }

    /// With a word of the records made 0.
    pub fn with_zero(&self, word: usize) -> Flight {
        let mut less = self.clone();
        less.records[word / WORDS].words[word % WORDS] = 0;
        less
    }

    /// Without an agent, in the files that are lent too, and without the calls that name it.
    pub fn without_agent(&self, agent: usize) -> Flight {
        let mut less = self.clone();
        if agent < less.records.len() {
            less.records.remove(agent);
        }
        for calls in &mut less.ticks {
            let all = mem::take(calls).into_iter();
            calls.extend(all.filter_map(|call| call.without_agent(agent)));
        }
        less
    }
}
