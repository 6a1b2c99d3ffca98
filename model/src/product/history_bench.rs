//! Times of a program that runs a recorded history against the port in plain safe Rust, each a process of its own that
//! reads the same file; and the memory that the program takes. Linux only: both are read from /proc.

use crate::history::record::RECORD;
use std::fs::{self, File};
use std::io::{self, Read, Write};
use std::process::{Child, Command, Stdio};
use std::thread;
use std::time::Duration;

/// All figures, as text. The port is run as `model history port`, by this same program.
pub fn bench(file: &str, program: &[&str]) -> io::Result<String> {
    let history = fs::read(file)?;
    let model = std::env::current_exe()?;
    let port = [&*model.to_string_lossy(), "history", "port"];
    // The least of seven turns, after one that warms up.
    let (mut by_program, mut by_port) = (Duration::MAX, Duration::MAX);
    let mut line = String::new();
    for turn in 0..8 {
        let (printed, time) = run(program, file)?;
        let (due, port_time) = run(&port, file)?;
        if printed != due {
            let difference = format!("printed {printed:?}, the port {due:?}");
            return Err(io::Error::other(difference));
        }
        line = due;
        if turn > 0 {
            by_program = by_program.min(time);
            by_port = by_port.min(port_time);
        }
    }
    let records = history.len() / RECORD;
    let rate = records as f64 / by_program.as_secs_f64();
    let ratio = by_program.as_secs_f64() / by_port.as_secs_f64();
    let few = history.len().min(RECORD * 1000);
    let (little, all) = (peak(program, &history[..few])?, peak(program, &history)?);
    Ok(format!(
        "{records} records: {line}\
         program {by_program:.3?}   plain Rust {by_port:.3?}   ratio {ratio:.3}\n\
         {rate:.0} records a second by the program\n\
         most memory: {little} with {} records, {all} with {records}\n",
        few / RECORD,
    ))
}

/// What a program prints for a file, and the time that it had a processor.
fn run(program: &[&str], file: &str) -> io::Result<(String, Duration)> {
    let mut command = Command::new(program[0]);
    let mut child = command
        .args(&program[1..])
        .stdin(File::open(file)?)
        .stdout(Stdio::piped())
        .spawn()?;
    let mut printed = String::new();
    let stdout = child.stdout.as_mut().expect("it is piped");
    stdout.read_to_string(&mut printed)?;
    // It has ended, but is not waited for yet: its times are still there.
    until_state(&child, 'Z')?;
    let times = of(&child, "schedstat")?;
    let time = times.split_whitespace().next().and_then(|n| n.parse().ok());
    child.wait()?;
    match time {
        Some(nanoseconds) => Ok((printed, Duration::from_nanos(nanoseconds))),
        None => Err(io::Error::other("no times in /proc")),
    }
}

/// The largest resident size of a program once it has read a whole history and waits for more.
fn peak(program: &[&str], history: &[u8]) -> io::Result<String> {
    let mut command = Command::new(program[0]);
    let mut child = command
        .args(&program[1..])
        .stdin(Stdio::piped())
        .stdout(Stdio::null())
        .spawn()?;
    let mut stdin = child.stdin.take().expect("it is piped");
    stdin.write_all(history)?;
    while number(&of(&child, "io")?, "rchar:") < history.len() {
        thread::sleep(Duration::from_millis(1));
    }
    until_state(&child, 'S')?;
    let size = number(&of(&child, "status")?, "VmHWM:");
    drop(stdin);
    child.wait()?;
    Ok(format!("{size} kB"))
}

/// A file of /proc about a process.
fn of(child: &Child, file: &str) -> io::Result<String> {
    fs::read_to_string(format!("/proc/{}/{file}", child.id()))
}

/// The number behind a word; 0 where there is none.
fn number(text: &str, word: &str) -> usize {
    let line = text.lines().find_map(|line| line.strip_prefix(word));
    let number = line.and_then(|line| line.split_whitespace().next());
    number.and_then(|word| word.parse().ok()).unwrap_or(0)
}

/// Waits until a process is in a state: S is asleep, Z has ended.
fn until_state(child: &Child, state: char) -> io::Result<()> {
    let line = |status: &str| {
        status
            .lines()
            .find_map(|line| line.strip_prefix("State:"))
            .is_some_and(|rest| rest.trim_start().starts_with(state))
    };
    while !line(&of(child, "status")?) {
        thread::sleep(Duration::from_millis(1));
    }
    Ok(())
}
