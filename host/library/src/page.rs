//! One page, for people: what it holds, its two heights, its spread. The engine judges; this says in numbers what it saw.

use crate::galley::{Block, Galley};

/// Lines, figures and tables placed so far.
pub type Place = [usize; 3];

/// Page `number` from the place before it to the place where it ends.
pub struct Page {
    /// Its number, from 1.
    pub number: usize,
    /// What is placed before it.
    pub start: Place,
    /// What is placed when it ends.
    pub end: Place,
}

impl Page {
    /// The pages of a list; words that are left over are no page. Each starts with what the one before it has placed.
    pub fn all(galley: &Galley, list: &[u32]) -> Vec<Page> {
        let mut start = [0; 3];
        let mut pages = Vec::new();
        for (before, counts) in list.chunks_exact(galley.page_words()).enumerate() {
            let mut end = [0; 3];
            end.iter_mut().zip(counts).for_each(|(placed, &count)| *placed = count as usize);
            let page = Page { number: before + 1, start, end };
            start = page.placed(galley);
            pages.push(page);
        }
        pages
    }

    /// What is placed when it ends: what it says, unless it goes backwards or past the galley; then what it can.
    pub fn placed(&self, galley: &Galley) -> Place {
        let (sizes, mut placed) = (galley.sizes(), self.start);
        for (kind, count) in placed.iter_mut().enumerate() {
            *count = self.end[kind].clamp(*count, sizes[kind]);
        }
        placed
    }

    /// Whether it goes forward and within the galley (rule 13), so that it has a height at all.
    pub fn is_sound(&self, galley: &Galley) -> bool {
        let mut kinds = self.start.into_iter().zip(self.end).zip(galley.sizes());
        self.start != self.end && kinds.all(|((before, after), size)| before <= after && after <= size)
    }

    /// Tightest and loosest height of a sound page: of each kind, and a separation for each kind beyond the first.
    pub fn heights(&self, galley: &Galley) -> (u64, u64) {
        let ([a, b, c], [i, j, d]) = (self.start, self.end);
        let lines = heights(galley.lines[a..i].iter().map(|line| &line.block));
        let figures = heights(galley.figures[b..j].iter().map(|figure| &figure.block));
        let tables = heights(galley.tables[c..d].iter().map(|table| &table.block));
        let kinds = [a < i, b < j, c < d].into_iter().filter(|&there| there).count() as u64;
        let separations = kinds.saturating_sub(1);
        let (s_min, s_max) = (u64::from(galley.spec.s_min), u64::from(galley.spec.s_max));
        let tight = lines.0 + figures.0 + tables.0 + separations * s_min;
        (tight, lines.1 + figures.1 + tables.1 + separations * s_max)
    }
}

/// What a page of this loosest height lacks of htMax.
pub fn white(galley: &Galley, loose: u64) -> u64 {
    u64::from(galley.spec.ht_max).saturating_sub(loose)
}

/// Space at the edge vanishes, so the last block's is left out.
fn heights<'a>(blocks: impl Iterator<Item = &'a Block>) -> (u64, u64) {
    let (mut tight, mut loose) = (0, 0);
    let mut space = (0, 0);
    for block in blocks {
        tight += u64::from(space.0) + u64::from(block.height);
        loose += u64::from(space.1) + u64::from(block.height);
        space = (block.least, block.most);
    }
    (tight, loose)
}

/// The folio of page q: pages are counted from 1, folios from the galley's first.
pub fn folio(galley: &Galley, page: usize) -> usize {
    galley.folio + page - 1
}

/// The spread of page q in double-sided work, which goes by folio; single-sided, each page is one by itself.
pub fn spread(galley: &Galley, page: usize) -> usize {
    if galley.spec.double_sided {
        folio(galley, page) / 2 + 1
    } else {
        page
    }
}

/// Whether a spread ends with page q.
pub fn ends_spread(galley: &Galley, page: usize) -> bool {
    spread(galley, page) != spread(galley, page + 1)
}
