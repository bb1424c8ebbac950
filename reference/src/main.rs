//! Runs a script, from the file that the one argument names or from standard input.

use std::ffi::OsStr;
use std::io::{self, BufWriter, Read, Write};
use std::os::unix::ffi::OsStrExt;

use reference::session::{AtEnd, Session};

fn script() -> io::Result<Vec<u8>> {
    match std::env::args_os().nth(1) {
        Some(file) => std::fs::read(file),
        None => {
            let mut bytes = Vec::new();
            io::stdin().read_to_end(&mut bytes)?;
            Ok(bytes)
        }
    }
}

fn run() -> io::Result<()> {
    let script = String::from_utf8(script()?).map_err(io::Error::other)?;
    let mut session = Session::new(|file| std::fs::read(OsStr::from_bytes(file)).ok());
    let mut out = BufWriter::new(io::stdout().lock());
    // A line ends with a line feed, or with a carriage return and a line feed.
    for line in script.lines() {
        out.write_all(&session.line(line.as_bytes()))?;
    }
    for last in session.end() {
        match last {
            AtEnd::Print(text) => out.write_all(&text)?,
            AtEnd::Save { file, bytes } => std::fs::write(OsStr::from_bytes(&file), bytes)?,
        }
    }
    out.flush()
}

fn main() {
    if let Err(error) = run() {
        eprintln!("reference: {error}");
        std::process::exit(1);
    }
}
