//! The reader: bytes to a galley, or one of the refusals 1 to 8.

use crate::spec::{read_folio, read_spec, Spec};
use crate::Answer;

pub const MOST_LINES: usize = 4_000;
pub const MOST_FIGURES: usize = 200;
pub const MOST_TABLES: usize = 50;
pub const LONGEST: u32 = 100_000;
const BLOCK_BYTES: usize = 18;

/// A line, a figure or a table. `last` is the fourth field: whether a page may end after the line, or the line citing the
/// figure or table. `kept` is for a figure that no page may end after.
#[derive(Clone, Copy)]
pub struct Block {
    pub height: u32,
    pub least: u32,
    pub most: u32,
    pub last: u32,
    pub kept: bool,
}

/// A galley that reads without refusal; its lines, figures and tables stay where they are in the lent bytes.
#[derive(Clone, Copy)]
pub struct Galley<'a> {
    pub spec: Spec,
    /// The folio of page 1.
    pub folio: u32,
    pub m: usize,
    pub n: usize,
    pub k: usize,
    lines: &'a [u8],
    figures: &'a [u8],
    tables: &'a [u8],
}

impl Galley<'_> {
    /// Line k, counted from 1.
    pub fn line(&self, k: usize) -> Block {
        block(&self.lines[(k - 1) * BLOCK_BYTES..])
    }

    /// Figure k, counted from 1.
    pub fn figure(&self, k: usize) -> Block {
        block(&self.figures[(k - 1) * BLOCK_BYTES..])
    }

    /// Table k, counted from 1.
    pub fn table(&self, k: usize) -> Block {
        block(&self.tables[(k - 1) * BLOCK_BYTES..])
    }

    /// Lines, figures and tables.
    pub fn blocks(&self) -> usize {
        self.m + self.n + self.k
    }

    /// Words a page takes in a list: the tables have theirs only where there are any.
    pub fn page_words(&self) -> usize {
        if self.k == 0 {
            2
        } else {
            3
        }
    }
}

pub fn field(record: &[u8], number: usize) -> u32 {
    let at = 2 + 4 * number;
    u32::from_be_bytes([record[at], record[at + 1], record[at + 2], record[at + 3]])
}

fn block(record: &[u8]) -> Block {
    let record = &record[..BLOCK_BYTES];
    let kept = record.starts_with(b"FK");
    Block { height: field(record, 0), least: field(record, 1), most: field(record, 2), last: field(record, 3), kept }
}

pub fn read(bytes: &[u8]) -> Result<Galley<'_>, Answer> {
    let (spec, spec_end) = read_spec(bytes)?;
    let (folio, lines_at) = read_folio(bytes, spec_end)?;
    let Counts { m, n, k, .. } = read_blocks(bytes, lines_at)?;
    let figures_at = lines_at + m * BLOCK_BYTES;
    let tables_at = figures_at + n * BLOCK_BYTES;
    let end = tables_at + k * BLOCK_BYTES;
    if end + 2 < bytes.len() {
        return Err(Answer::refused(8, end + 2));
    }
    let (lines, figures) = (&bytes[lines_at..figures_at], &bytes[figures_at..tables_at]);
    Ok(Galley { spec, folio, m, n, k, lines, figures, tables: &bytes[tables_at..end] })
}

/// Lines, figures and tables read so far, and the lines that cite the last figure and the last table.
#[derive(Default)]
struct Counts {
    m: usize,
    n: usize,
    k: usize,
    figure_cited: u32,
    table_cited: u32,
}

/// Lines, figures and tables up to the end of the galley.
fn read_blocks(bytes: &[u8], lines_at: usize) -> Result<Counts, Answer> {
    let mut counts = Counts::default();
    let mut at = lines_at;
    loop {
        let rest = &bytes[at..];
        let taken = match rest {
            [] | [_] => Err(1),
            [b'T', b'L', ..] => counts.take_line(rest),
            [b'F', b'G' | b'K', ..] => counts.take_figure(rest),
            [b'T', b'B', ..] => counts.take_table(rest),
            [b'E', b'D', ..] if counts.m == 0 => Err(5),
            [b'E', b'D', ..] => return Ok(counts),
            _ => Err(2),
        };
        if let Err(number) = taken {
            return Err(Answer::refused(number, at));
        }
        at += BLOCK_BYTES;
    }
}

impl Counts {
    fn take_line(&mut self, rest: &[u8]) -> Result<(), u32> {
        if self.n + self.k > 0 {
            return Err(2);
        }
        if self.m == MOST_LINES {
            return Err(4);
        }
        if sized_block(rest)?.last > 1 {
            return Err(3);
        }
        self.m += 1;
        Ok(())
    }

    fn take_figure(&mut self, rest: &[u8]) -> Result<(), u32> {
        if self.k > 0 {
            return Err(2);
        }
        self.figure_cited = self.float_cited(rest, self.n == MOST_FIGURES, self.figure_cited)?;
        self.n += 1;
        Ok(())
    }

    fn take_table(&mut self, rest: &[u8]) -> Result<(), u32> {
        self.table_cited = self.float_cited(rest, self.k == MOST_TABLES, self.table_cited)?;
        self.k += 1;
        Ok(())
    }

    /// The line that cites the figure or table, which is no earlier than for the one in front of it; or the refusal.
    fn float_cited(&self, rest: &[u8], full: bool, before: u32) -> Result<u32, u32> {
        if self.m == 0 {
            return Err(5);
        }
        if full {
            return Err(4);
        }
        match sized_block(rest)?.last {
            0 => Err(6),
            cited if cited as usize > self.m => Err(6),
            cited if cited < before => Err(7),
            cited => Ok(cited),
        }
    }
}

/// A block whose lengths are in range, or the refusal.
fn sized_block(rest: &[u8]) -> Result<Block, u32> {
    if rest.len() < BLOCK_BYTES {
        return Err(1);
    }
    let block = block(rest);
    if block.height > LONGEST || block.most > LONGEST || block.least > block.most {
        return Err(3);
    }
    Ok(block)
}
