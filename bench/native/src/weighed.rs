//! What is weighed in the plain sense, counted without a search: the pairs of start and end that are not too high.

use crate::page::Placed;
use crate::places::{columns, floats_at};
use crate::read::{read, Galley};
use crate::sums::{float_sums, line_sums, LineSums};
use crate::sweep::{earliest_table, Floats};

/// The count by itself, to be timed; 0 for a galley that is refused.
pub fn weighed(bytes: &[u8]) -> u64 {
    read(bytes).map_or(0, |galley| weighed_of(&galley, [0; 3]))
}

/// The pairs of start and end with something between them that is low enough, each once; no start has less placed, of any
/// kind, than is placed beforehand.
pub fn weighed_of(galley: &Galley, [line, figure, table]: Placed) -> u64 {
    let (spec, lines, (figures, tables)) = (&galley.spec, line_sums(galley), float_sums(galley));
    let mut pairs = 0;
    let mut earliest = figure;
    for to in 0..columns(galley) {
        let (j, d) = floats_at(galley, to);
        if j < figure || d < table {
            continue;
        }
        while figures.between(earliest, j).tight > spec.ht_max {
            earliest += 1;
        }
        for b in earliest..=j {
            let some = Floats { height: figures.between(b, j), kinds: u32::from(b < j) };
            for c in earliest_table(spec, some, &tables, table, d)..=d {
                let floats = some.with_tables(spec, tables.between(c, d), c < d);
                pairs += line_pairs(&lines, line, galley.m, floats.beside_lines(spec).tight, spec.ht_max);
                // The floats alone, after any line.
                pairs += if floats.kinds > 0 { (galley.m + 1 - line) as u64 } else { 0 };
            }
        }
    }
    pairs
}

/// The pairs of lines a < i, a at least the first, whose page with so much beside it is low enough. As i grows the earliest
/// such a never falls.
fn line_pairs(lines: &LineSums, first: usize, m: usize, beside: u32, ht_max: u32) -> u64 {
    let mut pairs = 0;
    let mut low = first;
    for i in first + 1..=m {
        let height = lines.ended[i].tight + beside;
        while low < i && height > lines.left[low].tight + ht_max {
            low += 1;
        }
        pairs += (i - low) as u64;
    }
    pairs
}
