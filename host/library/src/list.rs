//! Page lists as text: what `make` prints, or a line for each page. A page is `i j`, the lines and figures placed so far, with
//! its number before it or not; where the galley has tables it is `i j d`. Numbers have spaces between them, or commas,
//! semicolons or tabs, as a spreadsheet writes them; then a first line may name the columns.

use crate::engine::Measure;
use crate::field::{numbers, FieldError};
use crate::record::kind_of;
use std::fmt;

/// What `make` prints for a list: `p X Y T W`, then `q i j` for each page, or `q i j d` with three words a page.
pub fn print(measure: Measure, list: &[u32], words: usize) -> String {
    measure_line(measure) + "\n" + &pages(list, words)
}

/// A line `q i j` for each page, or `q i j d`.
pub fn pages(list: &[u32], words: usize) -> String {
    let line = |(page, counts): (usize, &[u32])| format!("{} {}\n", page + 1, spaced(counts));
    list.chunks_exact(words).enumerate().map(line).collect()
}

/// Numbers with a space between them.
pub fn spaced<Number: ToString>(numbers: &[Number]) -> String {
    numbers.iter().map(ToString::to_string).collect::<Vec<_>>().join(" ")
}

/// `p X Y T W`.
pub fn measure_line(measure: Measure) -> String {
    let Measure { pages, x, y, turns, white } = measure;
    spaced(&[pages, x, y, turns, white])
}

/// How much of a list is handed in: all its pages, or its first pages alone.
#[derive(Clone, Copy, Debug, PartialEq, Eq)]
pub enum Extent {
    /// All its pages.
    Whole,
    /// Its first pages alone.
    Opening,
}

/// A list that was read.
#[derive(Clone, Debug, PartialEq, Eq)]
pub struct List {
    /// The words of its pages.
    pub words: Vec<u32>,
    /// The line before the pages that says what the list comes to, if there is one.
    pub head: Option<Head>,
}

/// A head line, `p X Y T W`: what the list is said to come to. Lists of earlier versions have no W.
#[derive(Clone, Debug, PartialEq, Eq)]
pub struct Head {
    /// The line, from 1.
    pub line: usize,
    /// Four or five numbers.
    pub numbers: Vec<u32>,
}

impl Head {
    /// The first number that is another than the marking's.
    pub fn unlike(&self, measure: Measure) -> Option<UnlikeHead> {
        let Measure { pages, x, y, turns, white } = measure;
        let counted = [("p", pages), ("X", x), ("Y", y), ("T", turns), ("W", white)];
        let (&said, (name, counted)) = self.numbers.iter().zip(counted).find(|&(&said, (_, found))| said != found)?;
        Some(UnlikeHead { line: self.line, name, said, counted })
    }
}

/// A head line that is not what the marking counts.
#[derive(Clone, Debug, PartialEq, Eq)]
#[non_exhaustive]
pub struct UnlikeHead {
    /// The line, from 1.
    pub line: usize,
    /// Which of p, X, Y, T and W.
    pub name: &'static str,
    /// What the head line says.
    pub said: u32,
    /// What the marking counts.
    pub counted: u32,
}

impl fmt::Display for UnlikeHead {
    fn fmt(&self, out: &mut fmt::Formatter) -> fmt::Result {
        let UnlikeHead { line, name, said, counted } = self;
        write!(out, "line {line}: the head line says {name} {said}, but the marking counts {counted}")
    }
}

/// What is wrong with a text that is no list, and where.
#[derive(Clone, Debug, PartialEq, Eq)]
pub struct ListError {
    /// The line, from 1.
    pub line: usize,
    /// What is wrong with it.
    pub fault: ListFault,
}

/// What is wrong with a line of a list.
#[derive(Clone, Debug, PartialEq, Eq)]
#[non_exhaustive]
pub enum ListFault {
    /// It is a refusal, as `make` prints one.
    Refused,
    /// It is a record of a galley.
    Record,
    /// A field is no number.
    Field(FieldError),
    /// It names columns, but not those of a list.
    Columns,
    /// It has too few or too many numbers.
    Count {
        /// The words of a page in this galley's lists.
        words: usize,
        /// Whether pages have their numbers here.
        numbered: bool,
        /// How many numbers there are.
        found: usize,
    },
    /// Its page number is not the next one.
    Turn {
        /// The page that is due.
        due: usize,
        /// The page that it says.
        found: u32,
    },
    /// It is a head line that says another number of pages.
    Pages {
        /// What it says.
        said: u32,
        /// How many follow.
        found: usize,
    },
}

impl fmt::Display for ListError {
    fn fmt(&self, out: &mut fmt::Formatter) -> fmt::Result {
        write!(out, "line {}: ", self.line)?;
        match &self.fault {
            ListFault::Refused => write!(out, "a refusal stands where a page list is wanted: no list was made here"),
            ListFault::Record => {
                write!(out, "a record of a galley as text stands where a page list is wanted; hand in the list")
            }
            ListFault::Field(error) => {
                write!(out, "{error}; a page has whole numbers alone, and `#` opens a comment")
            }
            ListFault::Columns => {
                write!(out, "columns can be named page, lines, figures and tables, or q, i, j and d, and no other way")
            }
            ListFault::Count { words, numbered, found } => {
                let counted = if *found == 1 { "1 number".into() } else { format!("{found} numbers") };
                write!(out, "{counted}, but {}", due(*words, *numbered))
            }
            ListFault::Turn { due, found } => {
                write!(out, "field 1: page {due} is due, not {found}; pages are numbered from 1, each one more")
            }
            ListFault::Pages { said, found } => write!(
                out,
                "the head line says {said} pages, but {found} follow; correct it, or leave it out, since a list needs none"
            ),
        }
    }
}

impl std::error::Error for ListError {}

/// How a page is written.
fn due(words: usize, numbered: bool) -> &'static str {
    match (words, numbered) {
        (2, false) => "a page of this galley has two: i j, the lines and figures placed so far",
        (2, true) => "a page has three here: q i j, its number and the lines and figures placed so far",
        (_, false) => "a page of this galley has three: i j d, the lines, figures and tables placed so far",
        (_, true) => "a page has four here: q i j d, its number and the lines, figures and tables placed so far",
    }
}

/// A line that is not empty: its number, from 1, and its fields.
struct Row<'text> {
    line: usize,
    fields: Vec<&'text str>,
}

impl Row<'_> {
    fn wrong(&self, fault: ListFault) -> ListError {
        ListError { line: self.line, fault }
    }

    fn numbers(&self) -> Result<Vec<u32>, ListError> {
        match self.fields[0] {
            "R" => Err(self.wrong(ListFault::Refused)),
            mark if kind_of(mark.as_bytes()).is_some() => Err(self.wrong(ListFault::Record)),
            _ => numbers(&self.fields).map_err(|error| self.wrong(ListFault::Field(error))),
        }
    }
}

fn rows(text: &str) -> impl Iterator<Item = Row<'_>> {
    let lines =
        text.lines().enumerate().map(|(before, line)| (before + 1, line.split('#').next().unwrap_or("").trim()));
    lines.filter(|(_, line)| !line.is_empty()).map(|(line, written)| Row { line, fields: fields(written) })
}

/// The fields of a line: as a spreadsheet parts them, with quotes or without, or with spaces between them.
fn fields(line: &str) -> Vec<&str> {
    let unquoted = |field: &'_ str| -> Option<(usize, usize)> {
        let field = field.trim();
        field.strip_prefix('"').and_then(|field| field.strip_suffix('"')).map(|_| (1, field.len() - 1))
    };
    match line.find([',', ';']) {
        None => line.split_whitespace().collect(),
        Some(_) => line
            .split([',', ';', '\t'])
            .map(|field| unquoted(field).map_or(field.trim(), |(from, to)| field.trim()[from..to].trim()))
            .collect(),
    }
}

/// Where the columns of a page stand in a row: its number, if it has one, and its counts.
struct Columns {
    page: Option<usize>,
    counts: Vec<usize>,
    /// How many there are.
    width: usize,
}

impl Columns {
    /// Columns in the order in which `make` prints them.
    fn plain(words: usize, numbered: bool) -> Self {
        let first = usize::from(numbered);
        Columns { page: numbered.then_some(0), counts: (first..first + words).collect(), width: first + words }
    }

    /// The columns that a first line names; none if it names nothing.
    fn named(row: &Row, words: usize) -> Result<Option<Self>, ListError> {
        let is_name = |field: &&str| field.starts_with(|c: char| c.is_ascii_alphabetic());
        if !row.fields.iter().all(is_name) || row.fields[0] == "R" || kind_of(row.fields[0].as_bytes()).is_some() {
            return Ok(None);
        }
        let names: Vec<String> = row.fields.iter().map(|field| field.to_ascii_lowercase()).collect();
        let at = |any: [&str; 3]| names.iter().position(|name| any.contains(&name.as_str()));
        let page = at(["q", "page", "pages"]);
        let counts = [at(["i", "line", "lines"]), at(["j", "figure", "figures"]), at(["d", "table", "tables"])];
        let known = usize::from(page.is_some()) + counts.iter().flatten().count();
        match counts[..words].iter().copied().collect::<Option<Vec<usize>>>() {
            Some(counts) if known == names.len() => Ok(Some(Columns { page, counts, width: names.len() })),
            _ => Err(row.wrong(ListFault::Columns)),
        }
    }
}

/// Whether this first line is a head line. What `make` prints opens with one; in earlier versions it had four numbers, as a page
/// with its number and tables has. Then the first page is due in the next line, or the second one.
fn is_head(words: usize, first: &[u32], next: Option<&Row>) -> bool {
    match (first.len(), words) {
        (5, _) | (4, 2) => true,
        (4, _) => first[0] != 1 || next.is_some_and(|row| row.fields[0] == "1"),
        _ => false,
    }
}

/// The list in a text, for a galley whose lists have so many words a page. An error names the line, and the field where there
/// is one.
///
/// ```
/// use barleychime::list::{parse, Extent};
///
/// for text in ["1 1\n3 1\n", "1 1 1\n2 3 1\n", "2 0 1 1 0\n1 1 1\n2 3 1\n", "page,lines,figures\r\n1,1,1\r\n2,3,1\r\n"] {
///     assert_eq!(parse(text, 2, Extent::Whole)?.words, [1, 1, 3, 1]);
/// }
/// # Ok::<(), barleychime::list::ListError>(())
/// ```
pub fn parse(text: &str, words: usize, extent: Extent) -> Result<List, ListError> {
    let mut rows = rows(text).peekable();
    let mut list = List { words: Vec::new(), head: None };
    let mut columns = match rows.peek() {
        Some(row) => Columns::named(row, words)?,
        None => None,
    };
    if columns.is_some() {
        rows.next();
    }
    let mut pages = 0;
    while let Some(row) = rows.next() {
        let numbers = row.numbers()?;
        if pages == 0 && columns.is_none() && list.head.is_none() && is_head(words, &numbers, rows.peek()) {
            list.head = Some(Head { line: row.line, numbers });
            continue;
        }
        let numbered = list.head.is_some() || numbers.len() == words + 1;
        let columns = columns.get_or_insert_with(|| Columns::plain(words, numbered));
        if numbers.len() != columns.width {
            let (numbered, found) = (columns.page.is_some(), numbers.len());
            return Err(row.wrong(ListFault::Count { words, numbered, found }));
        }
        pages += 1;
        match columns.page.map(|at| numbers[at]) {
            Some(found) if found as usize != pages => return Err(row.wrong(ListFault::Turn { due: pages, found })),
            _ => list.words.extend(columns.counts.iter().map(|&at| numbers[at])),
        }
    }
    judged(list, pages, extent)
}

/// The list, if its head line says as many pages as follow. The first lines of what `make` prints are an opening.
fn judged(list: List, pages: usize, extent: Extent) -> Result<List, ListError> {
    match &list.head {
        Some(Head { line, numbers }) => match numbers[0] {
            said if (said as usize) < pages || (said as usize > pages && extent == Extent::Whole) => {
                Err(ListError { line: *line, fault: ListFault::Pages { said, found: pages } })
            }
            _ => Ok(list),
        },
        None => Ok(list),
    }
}

#[cfg(test)]
mod tests {
    use super::*;

    fn words(text: &str, words: usize) -> Result<Vec<u32>, String> {
        parse(text, words, Extent::Whole).map(|list| list.words).map_err(|error| error.to_string())
    }

    #[test]
    fn pages_are_read_in_every_form() {
        for text in [
            "1 1\n3 1",
            "# mine\n\n 1\t1 # page 1\r\n3 1\r\n",
            "1 1 1\n2 3 1\n",
            "2 0 1 1\n1 1 1\n2 3 1\n",
            "1,1\n3,1\n",
            "1;1;1\n2;3;1\n",
            "\"page\",\"lines\",\"figures\"\n\"1\",\"1\",\"1\"\n\"2\",\"3\",\"1\"\n",
            "figures,lines\n1,1\n1,3\n",
            "q i j\n1 1 1\n2 3 1\n",
            "Lines\tFigures\n1\t1\n3\t1\n",
            "lines,figures,tables\n1,1,0\n3,1,0\n",
        ] {
            assert_eq!(words(text, 2), Ok(vec![1, 1, 3, 1]), "{text:?}");
        }
        for text in ["2 1 0\n3 1 1\n", "1 2 1 0\n2 3 1 1\n", "2 1 1 2\n1 2 1 0\n2 3 1 1\n", "i,j,d\n2,1,0\n3,1,1\n"] {
            assert_eq!(words(text, 3), Ok(vec![2, 1, 0, 3, 1, 1]), "{text:?}");
        }
        assert_eq!(words("1 2 1 1\n1 3 1 1\n", 3), Ok(vec![3, 1, 1]), "a head line of earlier versions, and a page");
        assert_eq!(words("1 3 1 1\n", 3), Ok(vec![3, 1, 1]), "a page with its number, and no head line");
    }

    #[test]
    fn what_is_wrong_is_told_with_its_line() {
        for (text, told) in [
            ("1 1\n3\n", "line 2: 1 number, but a page of this galley has two"),
            ("1 1 1\n3 1\n", "line 2: 2 numbers, but a page has three here"),
            ("1 1 1\n3 3 1\n", "line 2: field 1: page 2 is due, not 3"),
            ("R 11 0\n", "line 1: a refusal stands"),
            ("GS 1 1\n", "line 1: a record of a galley"),
            ("page,height\n1,1\n", "line 1: columns can be named"),
            ("1,\n", "line 1: field 2: `` is no whole number"),
            (
                "4294967296 1\n",
                "line 1: field 1: `4294967296` is no whole number of 32 bits; the greatest is 4294967295",
            ),
            ("\n3 0 1 1 0\n1 1 1\n2 3 1\n", "line 2: the head line says 3 pages, but 2 follow"),
        ] {
            let error = words(text, 2).unwrap_err();
            assert!(error.starts_with(told), "{text:?}: {error}");
        }
    }

    #[test]
    fn a_head_line_is_held_to_the_marking() {
        let head = parse("2 0 1 9 0\n1 1 1\n2 3 1\n", 2, Extent::Whole).unwrap().head.unwrap();
        let measure = Measure { pages: 2, x: 0, y: 1, turns: 1, white: 0 };
        let unlike = head.unlike(measure).unwrap();
        assert_eq!(unlike.to_string(), "line 1: the head line says T 9, but the marking counts 1");
        assert_eq!(head.unlike(Measure { turns: 9, ..measure }), None);
    }
}
