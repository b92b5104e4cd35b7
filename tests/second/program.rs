//! Runs another program, and says where what it wrote differs.

use std::io::{self, Read, Write};
use std::path::PathBuf;
use std::process::{Child, Command, Stdio};
use std::thread;

/// What a program wrote on standard output and standard error, and its status; a program that was
/// ended by a signal has none.
pub struct Ran {
    pub output: Vec<u8>,
    pub errors: Vec<u8>,
    pub status: Option<i32>,
}

/// Runs the program with these arguments and these octets on its standard input.
pub fn run(program: &str, arguments: &[String], input: &[u8]) -> io::Result<Ran> {
    let mut child = Command::new(program)
        .args(arguments)
        .stdin(Stdio::piped())
        .stdout(Stdio::piped())
        .stderr(Stdio::piped())
        .spawn()
        .map_err(|error| io::Error::other(format!("{program}: {error}")))?;
    let (output, errors) = write_and_read(&mut child, input)?;
    let status = child.wait()?.code();
    Ok(Ran {
        output,
        errors,
        status,
    })
}

/// Writes and reads errors in threads while reading output here, so that no pipe can fill up and hold
/// both programs. A program may stop reading before the input's end: that breaks the pipe and is no
/// error here.
fn write_and_read(child: &mut Child, octets: &[u8]) -> io::Result<(Vec<u8>, Vec<u8>)> {
    let mut input = child.stdin.take().expect("the program's standard input");
    let output = child.stdout.take().expect("the program's standard output");
    let errors = child.stderr.take().expect("the program's standard error");
    thread::scope(|scope| {
        let writer = scope.spawn(move || input.write_all(octets));
        let reader = scope.spawn(move || all_of(errors));
        let written = all_of(output)?;
        let errors = reader.join().expect("the reading thread")?;
        match writer.join().expect("the writing thread") {
            Err(error) if error.kind() != io::ErrorKind::BrokenPipe => Err(error),
            _ => Ok((written, errors)),
        }
    })
}

fn all_of(mut pipe: impl Read) -> io::Result<Vec<u8>> {
    let mut octets = Vec::new();
    pipe.read_to_end(&mut octets)?;
    Ok(octets)
}

/// Keeps octets in a file of the temporary folder.
pub fn keep(name: &str, octets: &[u8]) -> io::Result<PathBuf> {
    let path = std::env::temp_dir().join(name);
    std::fs::write(&path, octets)?;
    Ok(path)
}

/// Prints both rows of octets from where they part; nothing if they are equal.
pub fn print_difference(what: &str, ours: &[u8], theirs: &[u8]) {
    if ours == theirs {
        return;
    }
    let alike = ours.iter().zip(theirs).take_while(|(a, b)| a == b).count();
    println!("{what} differs from octet {alike} on:");
    for (whose, row) in [("second", ours), ("compared", theirs)] {
        let end = row.len().min(alike + 60);
        let shown = row[alike..end].escape_ascii();
        println!("  {whose} program, length {}: \"{shown}\"", row.len());
    }
}

/// Prints how a program ended, if it was not by itself.
pub fn print_signal(status: Option<i32>) {
    if status.is_none() {
        println!("the compared program was ended by a signal");
    }
}
