//! JOB.galley.txt, which the LaTeX package writes: the galleys of a document, each with remarks that are no part of it.

use super::Failure;
use barleychime::text;

/// The side that a galley opens on: that of the next page, or one for which a blank page is left.
#[derive(Clone, Copy, Debug, PartialEq, Eq)]
pub enum Opens {
    Anywhere,
    Right,
    Left,
}

/// A place that no float may pass: how many lines, figures and tables stand before it.
#[derive(Clone, Copy, Debug)]
pub struct Barrier {
    pub number: u32,
    pub before: [u32; 3],
}

/// A galley of the document.
#[derive(Clone, Debug)]
pub struct Part {
    pub number: usize,
    /// By which the package knows the galley again.
    pub sum: String,
    pub opens: Opens,
    /// It opens on the page after the galley before it, wherever that ends.
    pub follows: bool,
    /// The folios of its first and last page in the run that wrote it.
    pub shipped: Option<(u32, u32)>,
    pub barriers: Vec<Barrier>,
    /// Its first line of text.
    pub words: String,
    pub folio: u32,
    pub spec: String,
    /// Its records but the folio.
    records: Vec<String>,
}

impl Part {
    fn new(number: usize) -> Self {
        Part {
            number,
            sum: String::new(),
            opens: Opens::Anywhere,
            follows: false,
            shipped: None,
            barriers: Vec::new(),
            words: String::new(),
            folio: 1,
            spec: String::new(),
            records: Vec::new(),
        }
    }

    pub fn lines(&self) -> usize {
        self.count("TL")
    }

    pub fn figures(&self) -> usize {
        self.count("FG") + self.count("FK")
    }

    pub fn tables(&self) -> usize {
        self.count("TB")
    }

    pub fn has_floats(&self) -> bool {
        self.figures() + self.tables() > 0
    }

    fn count(&self, mark: &str) -> usize {
        self.records.iter().filter(|record| record.starts_with(mark)).count()
    }

    /// The citing lines of the figures, then of the tables.
    pub fn citations(&self) -> [Vec<usize>; 2] {
        let cited = |marks: &[&str]| {
            let floats = self.records.iter().filter(|record| marks.iter().any(|mark| record.starts_with(mark)));
            floats.filter_map(|record| record.rsplit(' ').next()?.parse().ok()).collect()
        };
        [cited(&["FG", "FK"]), cited(&["TB"])]
    }

    pub fn double_sided(&self) -> bool {
        self.spec.split(' ').nth(5) == Some("2")
    }

    /// Whether it begins as another: by its first line, and by what is on pages that end after so many lines, figures and tables.
    pub fn begins_as(&self, other: &Part, placed: [u32; 3]) -> bool {
        self.words == other.words && self.beginning(placed) == other.beginning(placed)
    }

    /// The records of the first lines, but of the last its height alone, since what comes after it may be new; then the heights of
    /// the first figures and tables.
    fn beginning(&self, [lines, figures, tables]: [u32; 3]) -> Vec<&str> {
        let mut found = Vec::new();
        for (marks, count) in [(&["TL"][..], lines), (&["FG", "FK"][..], figures), (&["TB"][..], tables)] {
            let stream = self.records.iter().filter(|record| marks.iter().any(|mark| record.starts_with(mark)));
            for (at, record) in stream.take(count as usize).enumerate() {
                let whole = marks[0] == "TL" && at + 1 < count as usize;
                found.push(if whole { record } else { record.split(' ').nth(1).unwrap_or_default() });
            }
        }
        found
    }

    /// alpha and beta.
    pub fn weights(&self) -> [u32; 2] {
        let weight = |at| self.spec.split(' ').nth(at).and_then(|field| field.parse().ok()).unwrap_or(1);
        [weight(6), weight(7)]
    }

    /// The galley's bytes, opened on a folio, or without one as a later chapter of a book. Page 0, as of a title, is on the left
    /// as page 2 is; a galley has no such folio.
    pub fn bytes(&self, folio: Option<u32>) -> Result<Vec<u8>, Failure> {
        let folio = folio.map(|folio| if folio == 0 { 2 } else { folio });
        let folio = folio.map_or(String::new(), |folio| format!("FO {folio}\n"));
        let text = format!("{}\n{folio}{}\n", self.spec, self.records.join("\n"));
        let packed = text::pack(&text).map_err(|error| Failure::Galley { number: self.number, error });
        packed.map(|packed| packed.bytes)
    }

    fn remark(&mut self, words: &str) {
        let (name, rest) = words.split_once(' ').unwrap_or((words, ""));
        let numbers = || rest.split(' ').filter_map(|number| number.parse::<u32>().ok()).collect::<Vec<_>>();
        match name {
            "sum" => self.sum = rest.into(),
            "opens" if rest == "right" => self.opens = Opens::Right,
            "opens" if rest == "left" => self.opens = Opens::Left,
            "follows" => self.follows = true,
            "text" => self.words = rest.into(),
            "shipped" => self.shipped = numbers().try_into().ok().map(|[first, last]: [u32; 2]| (first, last)),
            "barrier" => {
                if let Ok([number, lines, figures, tables]) = <[u32; 4]>::try_from(numbers()) {
                    self.barriers.push(Barrier { number, before: [lines, figures, tables] });
                }
            }
            _ => {}
        }
    }

    fn record(&mut self, row: &str) {
        match row.split_once(' ') {
            Some(("GS" | "G2", _)) => self.spec = row.into(),
            Some(("FO", folio)) => self.folio = folio.parse().unwrap_or(1),
            _ => self.records.push(row.into()),
        }
    }
}

/// The galleys of a document, in order.
pub fn read(text: &str) -> Vec<Part> {
    let mut parts: Vec<Part> = Vec::new();
    for row in text.lines() {
        match (row.strip_prefix("# "), parts.last_mut()) {
            (Some(words), _) if words.starts_with("galley ") => parts.push(Part::new(parts.len() + 1)),
            (Some(words), Some(part)) => part.remark(words),
            (None, Some(part)) => part.record(row),
            _ => {}
        }
    }
    parts
}
