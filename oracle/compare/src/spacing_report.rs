//! The program spacing_report, which reads frames from files and from standard input;
//! crates/spacing_report/src/main.rt says what it is called with.
use std::io::{self, Write};
use std::process::{Command, Stdio};
use std::{fs, thread};

use crate::positions::{Run, Way};

/// The program, and the folder for the files that it reads. `command` is its file, after an emulator where one is needed.
pub struct Program<'a> {
    pub command: &'a [String],
    pub folder: &'a str,
}

impl Program<'_> {
    /// The name of the input at a place, as the program is told it.
    pub fn name(&self, run: &Run, place: usize) -> String {
        match run.way {
            Way::Among(at) if at == place => "-".into(),
            _ => format!("{}/{place}", self.folder),
        }
    }

    /// The lines that the program prints for each input. Their files are removed after. Where the program does not end
    /// well that is one more line.
    pub fn run(&self, run: &Run) -> io::Result<Vec<Vec<String>>> {
        let mut words = vec![run.agents.to_string(), run.limit.to_string()];
        let mut files = vec![];
        let mut piped = vec![];
        for (place, input) in run.inputs.iter().enumerate() {
            let name = self.name(run, place);
            if run.is_piped(place) {
                piped = input.clone();
            } else {
                fs::write(&name, input)?;
                files.push(name.clone());
            }
            if run.way != Way::Alone {
                words.push(name);
            }
        }
        let text = output(self.command, &words, run, piped)?;
        for file in files {
            fs::remove_file(file)?;
        }
        Ok(parts(&text))
    }
}

/// A part for each input that is named: the line with its name begins it.
fn parts(text: &str) -> Vec<Vec<String>> {
    let mut parts: Vec<Vec<String>> = vec![];
    for line in text.lines() {
        match parts.last_mut() {
            Some(part) if !line.starts_with("file ") => part.push(line.into()),
            _ => parts.push(vec![line.into()]),
        }
    }
    parts
}

fn output(command: &[String], words: &[String], run: &Run, piped: Vec<u8>) -> io::Result<String> {
    let mut child = Command::new(&command[0])
        .args(&command[1..])
        .args(words)
        .stdin(Stdio::piped())
        .stdout(Stdio::piped())
        .spawn()?;
    let mut to = child.stdin.take().expect("it was piped");
    let (piece, pause) = (run.piece, run.pause);
    // Neither side waits for the other to be done.
    let writer = thread::spawn(move || {
        piped.chunks(piece).enumerate().try_for_each(|(at, part)| {
            if at > 0 && !pause.is_zero() {
                thread::sleep(pause);
            }
            to.write_all(part)
        })
    });
    let output = child.wait_with_output()?;
    match writer.join().expect("writing does not panic") {
        // after a refusal the program reads no more
        Err(error) if error.kind() != io::ErrorKind::BrokenPipe => return Err(error),
        _ => {}
    }
    let mut text = String::from_utf8_lossy(&output.stdout).into_owned();
    if !output.status.success() {
        text += &format!("it ended with {}\n", output.status);
    }
    Ok(text)
}
