//! JOB.pages, which the LaTeX package writes: on which page of the PDF every line, figure and table of every galley is.

use super::galleys::Part;

/// Where a galley's blocks were shipped, by pages of the PDF; 0 for what was not.
#[derive(Debug, Default)]
pub struct Placed {
    pub by_list: bool,
    pub lines: Vec<usize>,
    pub figures: Vec<usize>,
    pub tables: Vec<usize>,
}

#[derive(Debug, Default)]
pub struct Shipped {
    /// The folio of every page of the PDF.
    pub folios: Vec<u32>,
    pub galleys: Vec<Placed>,
}

/// Turns of a galley as it was shipped: X, from citations to floats, and Y, from the first page to the last, with their weights.
#[derive(Clone, Copy, Debug, PartialEq, Eq)]
pub struct Turns {
    x: u32,
    y: u32,
    weights: [u32; 2],
}

impl Turns {
    /// alpha X + beta Y.
    pub fn weighed(self) -> u32 {
        self.weights[0] * self.x + self.weights[1] * self.y
    }
}

impl std::fmt::Display for Turns {
    fn fmt(&self, out: &mut std::fmt::Formatter) -> std::fmt::Result {
        let term = |weight: u32, turns: u32| match weight {
            1 => turns.to_string(),
            _ => format!("{weight}*{turns}"),
        };
        let [alpha, beta] = self.weights;
        write!(out, "{} + {} = {}", term(alpha, self.x), term(beta, self.y), self.weighed())
    }
}

pub fn read(text: &str) -> Shipped {
    let mut shipped = Shipped::default();
    for row in text.lines() {
        let (name, rest) = row.split_once(' ').unwrap_or((row, ""));
        let pages = || rest.split(' ').filter_map(|page| page.parse().ok()).collect::<Vec<usize>>();
        match (name, shipped.galleys.last_mut()) {
            ("folios", _) => shipped.folios = rest.split(' ').filter_map(|folio| folio.parse().ok()).collect(),
            ("galley", _) => {
                shipped.galleys.push(Placed { by_list: rest.ends_with("list"), ..Placed::default() });
            }
            ("lines", Some(galley)) => galley.lines = pages(),
            ("figures", Some(galley)) => galley.figures = pages(),
            ("tables", Some(galley)) => galley.tables = pages(),
            _ => {}
        }
    }
    shipped
}

impl Placed {
    fn all(&self) -> impl Iterator<Item = usize> + '_ {
        [&self.lines, &self.figures, &self.tables].into_iter().flatten().copied().filter(|&page| page > 0)
    }

    /// The ends of its pages up to one of the PDF, as an opening: lines, figures and tables placed so far.
    pub fn ends_up_to(&self, last: usize) -> Vec<[u32; 3]> {
        let first = self.all().min().unwrap_or(1);
        let until = last.min(self.all().max().unwrap_or(0));
        let placed = |stream: &[usize], page: usize| stream.iter().filter(|&&at| at > 0 && at <= page).count() as u32;
        let end = |page| [placed(&self.lines, page), placed(&self.figures, page), placed(&self.tables, page)];
        (first..=until).map(end).collect()
    }

    pub fn ends_by(&self, last: usize) -> bool {
        self.all().max().unwrap_or(0) <= last
    }
}

impl Shipped {
    /// A page's spread, or in single-sided work the page itself.
    fn leaf(&self, page: usize, double_sided: bool) -> u32 {
        let folio = page.checked_sub(1).and_then(|at| self.folios.get(at)).copied().unwrap_or(0);
        if double_sided {
            folio / 2
        } else {
            folio
        }
    }

    /// The turns of a galley as it was shipped, a float before its citation by its distance; none if it was not shipped whole.
    pub fn turns(&self, part: &Part) -> Option<Turns> {
        let placed = self.galleys.get(part.number - 1)?;
        let leaf = |page| self.leaf(page, part.double_sided());
        let (first, last) = (placed.all().min()?, placed.all().max()?);
        let [figures, tables] = part.citations();
        let floats = placed.figures.iter().zip(&figures).chain(placed.tables.iter().zip(&tables));
        let mut x = 0;
        for (&page, &citation) in floats {
            let cited = *placed.lines.get(citation.checked_sub(1)?)?;
            x += leaf(page).abs_diff(leaf(cited));
        }
        Some(Turns { x, y: leaf(last).abs_diff(leaf(first)), weights: part.weights() })
    }
}
