//! The program that makes the calls of Guineacrumb's archive, over its standard input and output;
//! velocity_server.c has the other end, and says what the words are.
use std::io::{self, BufReader, BufWriter, Read, Write};
use std::process::{Child, ChildStdin, ChildStdout, Command, Stdio};

use crate::case::{Case, Reply};
use crate::file::{little_endian, words};

const CALL: u32 = 1;
const TIME: u32 = 2;
const FLY: u32 = 3;
const TIME_FLIGHTS: u32 = 4;

pub struct Server {
    child: Child,
    to: Option<BufWriter<ChildStdin>>,
    from: BufReader<ChildStdout>,
}

impl Server {
    /// Starts it: `command` is its file, after an emulator where one is needed.
    pub fn start(command: &[String]) -> io::Result<Server> {
        let mut child = Command::new(&command[0])
            .args(&command[1..])
            .stdin(Stdio::piped())
            .stdout(Stdio::piped())
            .spawn()?;
        let to = child
            .stdin
            .take()
            .map(|pipe| BufWriter::with_capacity(1 << 20, pipe));
        let from = child.stdout.take().expect("it was piped");
        Ok(Server {
            child,
            to,
            from: BufReader::with_capacity(1 << 20, from),
        })
    }

    /// Sends calls. Their replies have to be received before more are sent.
    pub fn send(&mut self, cases: &[Case]) -> io::Result<()> {
        self.batch(CALL, 1, cases)
    }

    /// The replies to the cases that were sent.
    pub fn receive(&mut self, cases: &[Case]) -> io::Result<Vec<Reply>> {
        cases.iter().map(|case| self.reply(case)).collect()
    }

    /// The reply to one case.
    pub fn call(&mut self, case: &Case) -> io::Result<Reply> {
        self.send(std::slice::from_ref(case))?;
        self.reply(case)
    }

    /// Nanoseconds for so many passes over the cases, on one scratch that is not cleared.
    pub fn time(&mut self, cases: &[Case], passes: u32) -> io::Result<u64> {
        self.batch(TIME, passes, cases)?;
        self.long()
    }

    /// What so many ticks by the source rule make of each fleet file: the answer of the last tick, and the file after it.
    pub fn fly(&mut self, files: &[Vec<u8>], ticks: u32) -> io::Result<Vec<(u32, Vec<u8>)>> {
        self.flights(FLY, 1, files, ticks)?;
        files
            .iter()
            .map(|file| {
                let answer = self.word()?;
                Ok((answer, little_endian(&self.words(file.len() / 4)?)))
            })
            .collect()
    }

    /// Nanoseconds for so many passes over the fleet files, each flown from its start every time.
    pub fn time_flights(&mut self, files: &[Vec<u8>], ticks: u32, passes: u32) -> io::Result<u64> {
        self.flights(TIME_FLIGHTS, passes, files, ticks)?;
        self.long()
    }

    /// Ends it, and says whether it ended well.
    pub fn stop(mut self) -> io::Result<bool> {
        self.to = None;
        Ok(self.child.wait()?.success())
    }

    fn batch(&mut self, kind: u32, passes: u32, cases: &[Case]) -> io::Result<()> {
        let mut words = vec![kind, passes, cases.len() as u32];
        for case in cases {
            let Case {
                request,
                neighbours,
                scratch,
                velocity,
            } = case;
            let lengths = [
                request.len(),
                neighbours.len(),
                scratch.len(),
                velocity.len(),
            ];
            words.extend(lengths.map(|length| length as u32));
            words.extend(request.iter().chain(neighbours).map(|x| x.to_bits()));
            words.extend(scratch.iter().chain(velocity));
        }
        self.write(&words)
    }

    fn flights(&mut self, kind: u32, passes: u32, files: &[Vec<u8>], ticks: u32) -> io::Result<()> {
        let mut sent = vec![kind, passes, files.len() as u32];
        for file in files {
            sent.extend([ticks, (file.len() / 4) as u32]);
            sent.extend(words(file));
        }
        self.write(&sent)
    }

    fn write(&mut self, words: &[u32]) -> io::Result<()> {
        let to = self
            .to
            .as_mut()
            .expect("it stays until the server is stopped");
        to.write_all(&little_endian(words))?;
        to.flush()
    }

    fn reply(&mut self, case: &Case) -> io::Result<Reply> {
        let answer = self.word()?;
        let stray = self.word()? != 0;
        let place = self.long()?;
        let relaxed = self.long()?;
        let unseen = self.long()?;
        let scratch = self.words(case.scratch.len())?;
        let velocity = self.words(case.velocity.len())?;
        Ok(Reply {
            answer,
            place,
            relaxed,
            unseen,
            velocity,
            scratch,
            stray,
        })
    }

    fn word(&mut self) -> io::Result<u32> {
        let mut bytes = [0; 4];
        self.from.read_exact(&mut bytes)?;
        Ok(u32::from_le_bytes(bytes))
    }

    fn long(&mut self) -> io::Result<u64> {
        let low = self.word()?;
        Ok(u64::from(low) | u64::from(self.word()?) << 32)
    }

    fn words(&mut self, count: usize) -> io::Result<Vec<u32>> {
        let mut bytes = vec![0; 4 * count];
        self.from.read_exact(&mut bytes)?;
        Ok(words(&bytes))
    }
}
