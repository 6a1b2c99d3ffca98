//! Document 02, U11: the reason an object is kept, as a sentence; and a reader of sentences, written on its own.

use crate::rules::heap::{first_blocks, named, reference_places, Memory, Ref};

/// "a chain, as `root 1 cell 2 block 4`, with `cell J` once for each link followed": the root, and the cell of each link, its
/// number within its owner.
#[derive(Clone, Debug, PartialEq, Eq, PartialOrd, Ord)]
pub struct Chain {
    pub root: usize,
    pub cells: Vec<usize>,
}

/// The fewest links from each object to the one at a block, counted from the end: none from itself, and one more than from what
/// a cell names. None where no links lead there.
fn links_to(blocks: usize, memory: &Memory, at: usize) -> Vec<Option<usize>> {
    let mut owners = vec![Vec::new(); blocks];
    for owner in first_blocks(blocks, memory) {
        // The cells of data "are never followed".
        for v in &memory.cells[reference_places(blocks, memory, owner)] {
            if let Some(object) = named(blocks, memory, *v) {
                owners[object].push(owner);
            }
        }
    }
    let mut fewest = vec![None; blocks];
    fewest[at] = Some(0);
    let mut ends = vec![at];
    // A chain that meets no object twice has at most N - 1 links.
    for count in 1..blocks {
        let mut further = Vec::new();
        for owner in ends.iter().flat_map(|object| &owners[*object]) {
            if fewest[*owner].is_none() {
                fewest[*owner] = Some(count);
                further.push(*owner);
            }
        }
        ends = further;
    }
    fewest
}

/// "The chain has the fewest links; among those the lowest root, then the lowest cell at the first difference."
pub fn chain(blocks: usize, memory: &Memory, at: usize) -> Option<Chain> {
    let fewest = links_to(blocks, memory, at);
    let links_from = |v: Ref| named(blocks, memory, v).and_then(|object| fewest[object]);
    let roots = memory.roots.iter();
    let least = roots.filter_map(|v| links_from(*v)).min()?;
    let root = (0..memory.roots.len()).find(|r| links_from(memory.roots[*r]) == Some(least))?;
    let mut here = named(blocks, memory, memory.roots[root])?;
    let mut cells = Vec::new();
    // The lowest cell that comes one link nearer.
    for left in (0..least).rev() {
        let own = &memory.cells[reference_places(blocks, memory, here)];
        let cell = (0..own.len()).find(|j| links_from(own[*j]) == Some(left))?;
        here = named(blocks, memory, own[cell])?;
        cells.push(cell);
    }
    Some(Chain { root, cells })
}

/// "for the object at a block, a chain, as `root 1 cell 2 block 4` ... Where there is no chain it is `no root reaches block 4`, and
/// this only then. One space parts the words, numbers carry no leading zeros, a line end closes."
pub fn sentence(chain: Option<&Chain>, at: usize) -> String {
    let Some(chain) = chain else {
        return format!("no root reaches block {at}\n");
    };
    let links: Vec<String> = chain.cells.iter().map(|j| format!(" cell {j}")).collect();
    format!("root {}{} block {at}\n", chain.root, links.concat())
}

/// What a sentence says: a chain or none, and the block.
#[derive(Clone, Debug, PartialEq, Eq)]
pub struct Said {
    pub chain: Option<Chain>,
    pub block: usize,
}

/// "Each sentence can be read back in only one way." What a text says; none where it is no sentence, or where one of its numbers
/// has more than 32 bits.
pub fn read(text: &[u8]) -> Option<Said> {
    let (end, text) = text.split_last()?;
    if *end != b'\n' {
        return None;
    }
    let words: Vec<&[u8]> = text.split(|byte| *byte == b' ').collect();
    let (block, front) = words.split_last()?;
    let block = number(block)?;
    let chain = match front {
        [b"no", b"root", b"reaches", b"block"] => None,
        [b"root", root, links @ .., b"block"] if links.len() % 2 == 0 => {
            let cells = links.chunks(2).map(|link| match link {
                [b"cell", j] => number(j),
                _ => None,
            });
            Some(Chain {
                root: number(root)?,
                cells: cells.collect::<Option<Vec<usize>>>()?,
            })
        }
        _ => return None,
    };
    Some(Said { chain, block })
}

/// A number without leading zeros.
fn number(digits: &[u8]) -> Option<usize> {
    let only_digits = digits.iter().all(u8::is_ascii_digit);
    let leading_zero = digits.len() > 1 && digits[0] == b'0';
    if digits.is_empty() || !only_digits || leading_zero {
        return None;
    }
    let number: u32 = std::str::from_utf8(digits).ok()?.parse().ok()?;
    Some(number as usize)
}

/// A sentence read back as the library answers it: what it says (0 no sentence, 1 a chain, 2 none, 3 a chain of more links than
/// there is room for), and of a chain the root and the number of its links; and the block.
#[derive(Clone, Copy, Debug, Default, PartialEq, Eq)]
pub struct Reading {
    pub kind: usize,
    pub root: usize,
    pub links: usize,
    pub block: usize,
}

/// Reads a text, and writes the cells of a chain where all of them fit.
pub fn read_reason(text: &[u8], cells: &mut [u32]) -> Reading {
    let Some(said) = read(text) else {
        return Reading::default();
    };
    let block = said.block;
    let Some(chain) = said.chain else {
        return Reading {
            kind: 2,
            block,
            ..Reading::default()
        };
    };
    let links = chain.cells.len();
    let kind = if links > cells.len() { 3 } else { 1 };
    if kind == 1 {
        for (place, cell) in cells.iter_mut().zip(&chain.cells) {
            *place = *cell as u32;
        }
    }
    Reading {
        kind,
        root: chain.root,
        links,
        block,
    }
}
