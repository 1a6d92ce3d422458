//! A program by its standard input and output.
use std::io::{self, Write};
use std::process::{Command, Stdio};
use std::thread;

/// What the program writes for an input. `command` is its file, after an emulator where one is needed.
pub fn output(command: &[String], input: Vec<u8>) -> io::Result<Vec<u8>> {
    let mut child = Command::new(&command[0])
        .args(&command[1..])
        .stdin(Stdio::piped())
        .stdout(Stdio::piped())
        .spawn()?;
    let mut to = child.stdin.take().expect("it was piped");
    // Neither side waits for the other to be done.
    let writer = thread::spawn(move || to.write_all(&input));
    let output = child.wait_with_output()?;
    match writer.join().expect("writing does not panic") {
        // it need not read what it can't make anything of
        Err(error) if error.kind() != io::ErrorKind::BrokenPipe => return Err(error),
        _ => {}
    }
    if !output.status.success() {
        return Err(io::Error::other(format!("it ended with {}", output.status)));
    }
    Ok(output.stdout)
}
