//! A galley that reads without refusal, as its records say.

use crate::record::Record;

/// The page specification. Lengths are in hundredths of a point.
pub struct Spec {
    /// The least height of a page that is not the last.
    pub ht_min: u32,
    /// The greatest height of a page.
    pub ht_max: u32,
    /// The least separation between kinds on a page.
    pub s_min: u32,
    /// The greatest separation between kinds on a page.
    pub s_max: u32,
    /// Whether an even folio and the next one face each other.
    pub double_sided: bool,
    /// The weight of X.
    pub alpha: u32,
    /// The weight of Y.
    pub beta: u32,
    /// The least height of the last page, which the second edition alone has.
    pub last_min: Option<u32>,
}

/// A line, a figure or a table, without its fourth field.
pub struct Block {
    /// Its height.
    pub height: u32,
    /// The least space after it.
    pub least: u32,
    /// The greatest space after it.
    pub most: u32,
}

/// A line.
pub struct Line {
    /// Its height and the space after it.
    pub block: Block,
    /// Whether a page may end after it.
    pub page_end: bool,
}

/// A figure or a table.
pub struct Float {
    /// Its height and the space after it.
    pub block: Block,
    /// The line that cites it, from 1.
    pub citation: usize,
    /// Whether no page may end between it and the next one; no table is kept.
    pub kept: bool,
}

/// A galley.
pub struct Galley {
    /// Its page specification.
    pub spec: Spec,
    /// The folio of page 1.
    pub folio: usize,
    /// Its lines, in their order.
    pub lines: Vec<Line>,
    /// Its figures, in their order.
    pub figures: Vec<Float>,
    /// Its tables, in their order.
    pub tables: Vec<Float>,
}

impl Galley {
    /// The galley in these bytes, if they are records in their order. The engine is to be asked first: it judges them.
    pub fn decode(bytes: &[u8]) -> Option<Galley> {
        let (first, mut rest) = Record::take(bytes)?;
        let (mut folio, mut lines, mut figures, mut tables) = (1, Vec::new(), Vec::new(), Vec::new());
        loop {
            let (record, after) = Record::take(rest)?;
            rest = after;
            match (record.kind.mark, record.fields.as_slice()) {
                ("FO", &[stated]) => folio = stated as usize,
                ("TL", &[height, least, most, end]) => {
                    lines.push(Line { block: Block { height, least, most }, page_end: end == 1 })
                }
                (mark @ ("FG" | "FK" | "TB"), &[height, least, most, citation]) => {
                    let block = Block { height, least, most };
                    let floats = if mark == "TB" { &mut tables } else { &mut figures };
                    floats.push(Float { block, citation: citation as usize, kept: mark == "FK" })
                }
                ("ED", _) => break,
                _ => return None,
            }
        }
        Some(Galley { spec: spec_of(&first.fields)?, folio, lines, figures, tables })
    }

    /// How many lines, figures and tables there are.
    pub fn sizes(&self) -> [usize; 3] {
        [self.lines.len(), self.figures.len(), self.tables.len()]
    }

    /// The words that a page takes in a list: the tables have one only where there are any.
    pub fn page_words(&self) -> usize {
        if self.tables.is_empty() {
            2
        } else {
            3
        }
    }

    /// The float streams, each with its number among all streams and the name of its blocks.
    pub fn floats(&self) -> [(usize, &'static str, &[Float]); 2] {
        [(1, "figure", &self.figures), (2, "table", &self.tables)]
    }
}

fn spec_of(fields: &[u32]) -> Option<Spec> {
    let &[ht_min, ht_max, s_min, s_max, sides, alpha, beta, ref last_min @ ..] = fields else { return None };
    let last_min = last_min.first().copied();
    Some(Spec { ht_min, ht_max, s_min, s_max, double_sided: sides == 2, alpha, beta, last_min })
}
