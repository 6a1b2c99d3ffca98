//! Lists of calls as text, one entry a line. docs/FILES.md states the form.

use crate::lists::file::{bytes, BUFFERS, COPY, LENGTH, LOAD, NEW, REASON, SHAPE};
use crate::texts::expect::numbers;
use crate::texts::show::{buffer_name, entry_in_words};

/// The bytes of a text, or what is wrong with which line.
pub fn assemble(text: &str) -> Result<Vec<u8>, String> {
    let mut file = Vec::new();
    for (k, line) in text.lines().enumerate() {
        let wrong = |what: &str| format!("line {}: {what}", k + 1);
        let line = line.split('#').next().unwrap_or_default();
        let words = parted(line);
        if words.is_empty() {
            continue;
        }
        if let Some(cut_off) = cut_off(&words) {
            let room = if file.is_empty() { 24 } else { 32 };
            if !(is_whole(&file) && (1..room).contains(&cut_off.len())) {
                return Err(wrong(
                    "bytes are the end of a list, and fewer than are missing",
                ));
            }
            file.extend(cut_off);
        } else if !is_whole(&file) {
            return Err(wrong("behind an entry that is cut off"));
        } else if file.is_empty() {
            let header = header(&words).ok_or_else(|| {
                wrong("a list begins with its heap, as `heap: 8 blocks, width 2, 4 roots`")
            })?;
            file = bytes(header, &[]);
        } else {
            let entry =
                entry(&words).ok_or_else(|| wrong(&format!("no entry: {}", line.trim())))?;
            file.extend(entry.iter().flat_map(|word| word.to_le_bytes()));
        }
    }
    Ok(file)
}

/// The words of a line. Commas and colons part them as spaces do.
fn parted(line: &str) -> Vec<&str> {
    let words = line.split(|c: char| c.is_whitespace() || c == ',' || c == ':');
    words.filter(|word| !word.is_empty()).collect()
}

/// Whether a file ends behind its header or an entry, or is empty.
fn is_whole(file: &[u8]) -> bool {
    file.is_empty() || file.len() >= 24 && (file.len() - 24).is_multiple_of(32)
}

/// `bytes 1 2 3`: the end of a list that is cut off.
fn cut_off(words: &[&str]) -> Option<Vec<u8>> {
    match words {
        ["bytes", bytes @ ..] => bytes.iter().map(|byte| byte.parse().ok()).collect(),
        _ => None,
    }
}

/// `heap: 8 blocks, width 2, 4 roots`.
fn header(words: &[&str]) -> Option<[u64; 3]> {
    match words {
        ["heap", blocks, "blocks", "width", width, roots, "roots"] => {
            Some([number(blocks)?, number(width)?, number(roots)?])
        }
        _ => None,
    }
}

/// The four words of a line.
fn entry(words: &[&str]) -> Option<[u64; 4]> {
    let entry = match words {
        ["format"] => [0; 4],
        ["check"] => [1, 0, 0, 0],
        ["allocate", n, "into", "root", r] => [2, number(n)?, number(r)?, 0],
        ["store", v, "in", "root", r] => [3, number(r)?, number(v)?, 0],
        ["store", v, "in", "cell", j, "of", "the", "object", "at", a] => {
            [4, number(a)?, number(j)?, number(v)?]
        }
        ["collect"] => [5, 0, 0, 0],
        ["look", "at", a] => [6, number(a)?, 0, 0],
        ["free", "blocks"] => [7, 0, 0, 0],
        ["return", "no", "root"] => [8, 0, 0, 0],
        ["return", "roots", roots @ ..] if !roots.is_empty() => [8, chosen(roots)?, 0, 0],
        ["allocate", "data", n, "into", "root", r] => [9, number(n)?, number(r)?, 0],
        ["write", "number", v, "in", "cell", j, "of", "the", "data", "at", a] => {
            [10, number(a)?, number(j)?, number(v)?]
        }
        ["read", "number", "in", "cell", j, "of", "the", "data", "at", a] => {
            [11, number(a)?, number(j)?, 0]
        }
        ["open", "collection"] => [12, 0, 0, 0],
        ["step", "collection", budget] => [13, number(budget)?, 0, 0],
        ["reason", "of", a, "into", length, "bytes"] => [REASON, number(a)?, number(length)?, 0],
        ["shape", "into", length, "numbers"] => [SHAPE, number(length)?, 0, 0],
        ["copy", "into", heap @ ..] => {
            let [blocks, width, roots] = header(heap)?;
            [COPY, blocks, width, roots]
        }
        ["load", value, "at", index, "of", name @ ..] => {
            [LOAD, buffer(name)?, number(index)?, number(value)?]
        }
        ["lend", length, "of", name @ ..] => [LENGTH, buffer(name)?, number(length)?, 0],
        ["new", heap @ ..] => {
            let [blocks, width, roots] = header(heap)?;
            [NEW, blocks, width, roots]
        }
        ["words", kind, x, y, z] => [number(kind)?, number(x)?, number(y)?, number(z)?],
        _ => return None,
    };
    Some(entry)
}

fn number(word: &str) -> Option<u64> {
    word.parse().ok()
}

/// A set of roots, each below 64.
fn chosen(roots: &[&str]) -> Option<u64> {
    let mut chosen = 0;
    for root in roots {
        let root = number(root)?;
        if root >= 64 {
            return None;
        }
        chosen |= 1 << root;
    }
    Some(chosen)
}

/// A buffer by its name, or as `buffer 10`.
fn buffer(name: &[&str]) -> Option<u64> {
    match name {
        ["buffer", buffer] => number(buffer),
        [name] => (0..BUFFERS as u64).find(|buffer| buffer_name(*buffer) == *name),
        _ => None,
    }
}

/// The text of a file, which is assembled to that file again.
pub fn words(file: &[u8]) -> String {
    let Some((first, rest)) = file.split_first_chunk::<24>() else {
        return bytes_line(file);
    };
    let word = |bytes: &[u8]| u64::from_le_bytes(bytes.try_into().unwrap());
    let (blocks, width, roots) = (word(&first[..8]), word(&first[8..16]), word(&first[16..]));
    let mut out = format!("heap: {blocks} blocks, width {width}, {roots} roots\n");
    let entries = rest.chunks_exact(32);
    let tail = entries.remainder();
    for bytes in entries {
        let four = [0, 8, 16, 24].map(|place| word(&bytes[place..place + 8]));
        out += &line(four);
        out.push('\n');
    }
    out + &bytes_line(tail)
}

/// An entry in words; in numbers where words would not say all four.
fn line(four: [u64; 4]) -> String {
    let said = entry_in_words(four);
    if entry(&parted(&said)) == Some(four) {
        said
    } else {
        format!("words {}", numbers(&four))
    }
}

fn bytes_line(bytes: &[u8]) -> String {
    if bytes.is_empty() {
        return String::new();
    }
    format!("bytes {}\n", numbers(bytes))
}
