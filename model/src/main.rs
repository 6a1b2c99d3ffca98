//! The commands. See README.md.

use model::history::driver::{self, Checked};
use model::history::old::{report_old, widened};
use model::history::vectors::{histories, mixed, old_histories, History};
use model::history::{garbage, report, text};
use model::lists::every_list::every_list_behind_all;
use model::lists::families::{generate, FAMILIES};
use model::lists::file::{MOST_BLOCKS, MOST_WIDTH};
use model::lists::vectors;
use model::product::{history_bench, port};
use model::rules::heap::MAX_BLOCKS;
use model::texts::expect::expect;
use model::texts::{assembly, show, trace};
use std::io::{Read, Write};
use std::process::exit;

const USAGE: &str = "usage:
  model generate FAMILY SEED COUNT   a list of COUNT entries in the file form, to standard output
  model vectors PATH [SEED]          the one large file, written to PATH
  model paper                        the cases P1 to P11 as a file, to standard output
  model assemble < TEXT              a list of calls in the file form from its text, to standard output
  model words < FILE                 the text of a list of calls
  model show < OUTPUT                what `calls` printed for the paper cases, beside the calls in words
  model expect < FILE                what the program `calls` must print for a file
  model count < FILE                 what a file meets: calls, replies by number, damage kinds
  model trace SEED COUNT N W         a random list as text, with replies and buffers
  model damaged SEED COUNT           damaged memories as text, with their kinds
  model steps SEED COUNT             single calls as text, each on a memory of its own
  model garbage SEED COUNT           memories as text, with their garbage by what holds it
  model every WIDTH DEPTH            every list of up to DEPTH calls on eight blocks, behind several heaps, with the claims of
                                     demand 3 and of U8
  model history assemble < TEXT      a recorded history from its text, to standard output
  model history words < FILE         the text of a recorded history
  model history run < FILE           the line that the program `report` must print for it
  model history garbage N W R < FILE the same on a heap of N blocks, count width W and R roots; and below it what no root
                                     reaches then, held by stuck counts alone | by cycles alone | by both, each
                                     `objects blocks`
  model history widen < OLD          an old history of eight-byte records, widened (U12)
  model history old < OLD            the line that the old form gives on the heap of the program `report`
  model history vectors FOLDER       some 580 histories, NAME.history and NAME.line each
  model history check PROGRAM ..     runs a program on all of these, by file and through a pipe
  model history check-widening WIDEN REPORT
                                     runs a program that widens on some 830 old histories, and `report` on what it widened
  model history mixed SEED COUNT     a mixed history of COUNT records, each accepted
  model history port < FILE          the line once more, by the product's algorithms in plain Rust
  model history bench FILE PROGRAM ..  times of a program on a history against these; its memory
with the product's library, `--features library`:
  model fuzz SECONDS SEED            all pairs of maps of 8 blocks, random lists, damaged memories, replays, lists of
                                     calls and runs of records on any heap, model against library
  model bench                        times of the library against plain Rust, of the searches for a chunk, of the check by
                                     bytes, with data, in small steps, and by sizes of heaps (build it with --release)
  model bench sizes                  the last of these alone: single calls of the library by the number of blocks, and how they
                                     grow to 65,536
  model bench pauses                 those in small steps alone
";

fn main() {
    let words: Vec<String> = std::env::args().skip(1).collect();
    let words: Vec<&str> = words.iter().map(String::as_str).collect();
    match words[..] {
        ["generate", family, seed, count] => {
            match generate(family, number(seed), number(count) as usize) {
                Some(desk) => print(&desk.file()),
                None => {
                    let names: Vec<&str> = FAMILIES.iter().map(|(name, _)| *name).collect();
                    stop(&format!("families: {}, mixed\n", names.join(", ")));
                }
            }
        }
        ["vectors", path] => write_file(path, &vectors::vectors(1)),
        ["vectors", path, seed] => write_file(path, &vectors::vectors(number(seed))),
        ["paper"] => print(&vectors::paper_file()),
        ["expect"] => print(expect(&input()).0.as_bytes()),
        ["count"] => print(format!("{:?}\n", expect(&input()).1).as_bytes()),
        ["trace", seed, count, blocks, width] => {
            let (blocks, width) = (number(blocks), number(width));
            if blocks > MOST_BLOCKS || width > MOST_WIDTH {
                stop(&format!(
                    "trace: N is at most {MOST_BLOCKS}, W at most {MOST_WIDTH}\n"
                ));
            }
            let count = number(count) as usize;
            print(trace::trace(number(seed), count, blocks as usize, width as usize).as_bytes());
        }
        ["damaged", seed, count] => {
            print(trace::damaged(number(seed), number(count) as usize).as_bytes());
        }
        ["steps", seed, count] => {
            print(trace::steps(number(seed), number(count) as usize).as_bytes());
        }
        ["garbage", seed, count] => {
            print(trace::garbage(number(seed), number(count) as usize).as_bytes());
        }
        ["every", width, depth] => every(number(width), number(depth)),
        ["assemble"] => print_assembled(assembly::assemble(&String::from_utf8_lossy(&input()))),
        ["words"] => print(assembly::words(&input()).as_bytes()),
        ["show"] => {
            let (text, same) = show::paper(&String::from_utf8_lossy(&input()));
            print(text.as_bytes());
            exit(if same { 0 } else { 1 });
        }
        ["history", ref words @ ..] => history(words),
        ["fuzz", seconds, seed] => fuzz(number(seconds), number(seed)),
        ["bench"] => bench("all"),
        ["bench", part @ ("sizes" | "pauses")] => bench(part),
        _ => stop(USAGE),
    }
}

fn every(width: u64, depth: u64) {
    if !(1..=4).contains(&width) || depth > 12 {
        stop("every: WIDTH is 1 to 4, DEPTH at most 12\n");
    }
    match every_list_behind_all(width as usize, depth as u32) {
        Ok(tried) => {
            print(tried.text(width as usize, depth as u32).as_bytes());
            print(format!("clauses met: {:?}\n", tried.clauses).as_bytes());
        }
        Err(broken) => {
            print(format!("a claim is broken: {broken}\n").as_bytes());
            exit(1);
        }
    }
}

fn history(words: &[&str]) {
    match words {
        ["assemble"] => print_assembled(text::assemble(&String::from_utf8_lossy(&input()))),
        ["words"] => print(text::words(&input()).as_bytes()),
        ["run"] => print(report(&input()).as_bytes()),
        ["garbage", blocks, width, roots] => {
            let shape = [blocks, width, roots].map(|word| number(word) as usize);
            match garbage::left(shape, &input()) {
                Some(text) => print(text.as_bytes()),
                None => stop(&format!(
                    "N is a power of two from 8 to {MAX_BLOCKS}, W 1 to 4, R 1 to 64\n"
                )),
            }
        }
        ["vectors", folder] => {
            for History { name, bytes } in histories() {
                let place = |ending: &str| format!("{folder}/{name}.{ending}");
                write_file(&place("history"), &bytes);
                write_file(&place("line"), report(&bytes).as_bytes());
            }
        }
        ["widen"] => print(&widened(&input())),
        ["old"] => print(report_old(&input()).as_bytes()),
        ["check", program @ ..] if !program.is_empty() => {
            tell_checked(program[0], driver::check(program, &histories()));
        }
        ["check-widening", widen, report] => {
            let checked = driver::check_widening(&[widen], &[report], &old_histories());
            tell_checked(widen, checked);
        }
        ["mixed", seed, count] => print(&mixed(number(seed), number(count) as usize)),
        ["port"] => match port::report(std::io::stdin().lock()) {
            Ok(line) => print(line.as_bytes()),
            Err(error) => stop(&format!("standard input: {error}\n")),
        },
        ["bench", file, program @ ..] if !program.is_empty() => {
            match history_bench::bench(file, program) {
                Ok(text) => print(text.as_bytes()),
                Err(error) => stop(&format!("{file}, {}: {error}\n", program[0])),
            }
        }
        _ => stop(USAGE),
    }
}

fn print_assembled(assembled: Result<Vec<u8>, String>) {
    match assembled {
        Ok(bytes) => print(&bytes),
        Err(message) => stop(&format!("{message}\n")),
    }
}

fn tell_checked(program: &str, checked: std::io::Result<Checked>) {
    match checked {
        Ok(checked) => {
            print(checked.lines().as_bytes());
            exit(if checked.differences.is_empty() { 0 } else { 1 });
        }
        Err(error) => stop(&format!("{program}: {error}\n")),
    }
}

#[cfg(feature = "library")]
fn fuzz(seconds: u64, seed: u64) {
    let (met, difference) =
        model::product::fuzz::fuzz(seconds, seed, model::product::library::LIBRARY);
    print(met.lines().as_bytes());
    if let Some(report) = difference {
        print(report.as_bytes());
        exit(1);
    }
    let unmet = met.unmet();
    if !unmet.is_empty() {
        print(format!("no difference, but not met: {}\n", unmet.join("; ")).as_bytes());
        exit(1);
    }
    print(b"no difference; every number of every call, replay and run and every damage kind was met, and every pair of maps of 8 blocks\n");
}

#[cfg(feature = "library")]
fn bench(part: &str) {
    use model::product::bench::{bench, pauses, sizes};
    let figures = match part {
        "sizes" => sizes(),
        "pauses" => pauses(),
        _ => bench(),
    };
    print(figures.as_bytes());
}

#[cfg(not(feature = "library"))]
fn fuzz(_seconds: u64, _seed: u64) {
    stop("built without the library: use --features library\n");
}

#[cfg(not(feature = "library"))]
fn bench(_part: &str) {
    stop("built without the library: use --features library\n");
}

fn number(word: &str) -> u64 {
    match word.parse() {
        Ok(number) => number,
        Err(_) => stop(&format!("not a number: {word}\n")),
    }
}

fn input() -> Vec<u8> {
    let mut bytes = Vec::new();
    if let Err(error) = std::io::stdin().read_to_end(&mut bytes) {
        stop(&format!("standard input: {error}\n"));
    }
    bytes
}

fn print(bytes: &[u8]) {
    if let Err(error) = std::io::stdout().write_all(bytes) {
        stop(&format!("standard output: {error}\n"));
    }
}

fn write_file(path: &str, bytes: &[u8]) {
    if let Err(error) = std::fs::write(path, bytes) {
        stop(&format!("{path}: {error}\n"));
    }
}

fn stop(message: &str) -> ! {
    eprint!("{message}");
    exit(2)
}
