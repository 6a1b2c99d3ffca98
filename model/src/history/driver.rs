//! Runs a program on all histories, by file and through a pipe in pieces, and holds what it prints against the model: the line of the
//! program `report`, or the bytes of the program `widen` and then the line of what it widened.

use super::old::{report_old, widened};
use super::record::RECORD;
use super::run::report;
use super::vectors::History;
use std::fmt;
use std::fs::{self, File};
use std::io::{self, ErrorKind, Write};
use std::path::{Path, PathBuf};
use std::process::{ChildStdin, Command, Output, Stdio};
use std::sync::atomic::{AtomicUsize, Ordering};
use std::thread;

/// How a history is handed over on standard input.
#[derive(Clone, Copy, Debug)]
pub enum Way {
    File,
    /// Through a pipe, so many bytes at a time.
    Pieces(usize),
}

/// All ways for a history that isn't long; a long one takes too long in pieces of few bytes.
pub fn ways(history: &[u8]) -> Vec<Way> {
    let mut ways = vec![Way::File, Way::Pieces(65_535)];
    if history.len() <= LONG {
        ways.extend([1, 7, 8, RECORD].map(Way::Pieces));
    } else {
        ways.push(Way::Pieces(1_048_577));
    }
    ways
}

/// The length above which a history is long, in bytes.
const LONG: usize = 200_000;

impl fmt::Display for Way {
    fn fmt(&self, to: &mut fmt::Formatter) -> fmt::Result {
        match self {
            Way::File => write!(to, "by file"),
            Way::Pieces(length) => write!(to, "in pieces of {length}"),
        }
    }
}

/// What was run, and each difference, a line of text.
#[derive(Debug, Default)]
pub struct Checked {
    pub histories: usize,
    pub runs: usize,
    pub differences: Vec<String>,
}

impl Checked {
    /// The first differences, and in a last line how many there are.
    pub fn lines(&self) -> String {
        let first = self.differences.iter().take(20);
        let mut lines: String = first.map(|difference| format!("{difference}\n")).collect();
        lines += &format!(
            "{} histories, {} runs, {} of them different\n",
            self.histories,
            self.runs,
            self.differences.len()
        );
        lines
    }

    /// Runs a program on a history in each of the ways.
    fn run(&mut self, program: &[&str], name: &str, bytes: &[u8], due: &[u8]) -> io::Result<()> {
        let file = Scratch::new()?;
        fs::write(&file.0, bytes)?;
        for way in ways(bytes) {
            let output = run(program, &file.0, bytes, way)?;
            self.runs += 1;
            if let Some(difference) = difference(due, &output) {
                self.differences
                    .push(format!("{name}, {way}: {difference}"));
            }
        }
        Ok(())
    }
}

/// Runs a program, with its arguments, on each of the histories in each of the ways. An error is one of starting it.
pub fn check(program: &[&str], histories: &[History]) -> io::Result<Checked> {
    let mut checked = Checked::default();
    for History { name, bytes } in histories {
        checked.histories += 1;
        checked.run(program, name, bytes, report(bytes).as_bytes())?;
    }
    Ok(checked)
}

/// Runs a program that widens on each of the old histories in each of the ways. Then the program `report`, once on what was widened:
/// "the widened one must print the line the old form gives on a heap of that size"; and once on the old history as it is.
pub fn check_widening(
    widen: &[&str],
    report_program: &[&str],
    old: &[History],
) -> io::Result<Checked> {
    let mut checked = Checked::default();
    let file = Scratch::new()?;
    for History { name, bytes } in old {
        checked.histories += 1;
        let wide = widened(bytes);
        checked.run(widen, name, bytes, &wide)?;
        for (bytes, line) in [(&wide, report_old(bytes)), (bytes, report(bytes))] {
            fs::write(&file.0, bytes)?;
            let output = run(report_program, &file.0, bytes, Way::File)?;
            checked.runs += 1;
            if let Some(difference) = difference(line.as_bytes(), &output) {
                checked
                    .differences
                    .push(format!("{name}, its line: {difference}"));
            }
        }
    }
    Ok(checked)
}

/// A file that is removed in the end.
struct Scratch(PathBuf);

impl Scratch {
    fn new() -> io::Result<Scratch> {
        static NEXT: AtomicUsize = AtomicUsize::new(0);
        let next = NEXT.fetch_add(1, Ordering::Relaxed);
        let name = format!("history-{}-{next}", std::process::id());
        let path = std::env::temp_dir().join(name);
        File::create_new(&path)?;
        Ok(Scratch(path))
    }
}

impl Drop for Scratch {
    fn drop(&mut self) {
        let _ = fs::remove_file(&self.0);
    }
}

fn run(program: &[&str], file: &Path, bytes: &[u8], way: Way) -> io::Result<Output> {
    let mut command = Command::new(program[0]);
    command.args(&program[1..]).stdout(Stdio::piped());
    match way {
        Way::File => command.stdin(File::open(file)?).spawn()?.wait_with_output(),
        Way::Pieces(length) => {
            let mut child = command.stdin(Stdio::piped()).spawn()?;
            let stdin = child.stdin.take().expect("it is piped");
            // What it prints is read meanwhile.
            thread::scope(|scope| {
                let writing = scope.spawn(|| write_pieces(stdin, bytes, length));
                let output = child.wait_with_output();
                writing.join().expect("no panic")?;
                output
            })
        }
    }
}

/// Writes the bytes in pieces, and closes. A program that has refused need not read on.
fn write_pieces(mut stdin: ChildStdin, bytes: &[u8], length: usize) -> io::Result<()> {
    for piece in bytes.chunks(length) {
        match stdin.write_all(piece) {
            Err(error) if error.kind() == ErrorKind::BrokenPipe => break,
            written => written?,
        }
    }
    Ok(())
}

/// What is wrong with what was printed: all of a line, of more bytes those from the first difference on. The exit status is not looked
/// at, but that there is one.
fn difference(due: &[u8], output: &Output) -> Option<String> {
    if output.status.code().is_none() {
        return Some(format!("ended by {}", output.status));
    }
    let printed = &output.stdout;
    let both = printed.iter().zip(due);
    let place = both.take_while(|(one, other)| one == other).count();
    let from = if place < 100 { 0 } else { place };
    let some = |bytes: &[u8]| {
        let bytes = &bytes[from..bytes.len().min(from + 100)];
        String::from_utf8_lossy(bytes).to_string()
    };
    (printed != due).then(|| {
        let (found, due) = (some(printed), some(due));
        format!("printed {found:?}, due {due:?}, from byte {from} on")
    })
}
