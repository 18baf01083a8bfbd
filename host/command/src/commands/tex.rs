//! `barleychime tex`: from a document to its pages. LuaLaTeX and the engine run by turns until nothing changes.

mod failure;
mod galleys;
mod lists;
mod runs;
mod shipped;

use super::show;
use crate::error::Error;
use crate::input::FileName;
use crate::output::{say, watched, Output};
use crate::Outcome;
use barleychime::list;
pub use failure::Failure;
use galleys::Part;
use lists::{Lists, Printed};
use runs::{Job, TeX, WRITTEN};
use shipped::Turns;
use std::fs;
use std::path::PathBuf;

const MOST_RUNS: u32 = 10;
/// Runs without lists in which references settle, so that LaTeX's own turns are those of its finished pages.
const MOST_OWN: u32 = 3;

#[derive(clap::Args)]
pub struct Args {
    /// The document; it says \usepackage{barleychime}
    #[arg(value_name = "DOCUMENT[.tex]")]
    pub document: PathBuf,
    /// Only turn JOB.galley.txt into JOB.list, for latexmk or a Makefile
    #[arg(long)]
    pub lists_only: bool,
    /// Keep the pages of the PDF up to N, which are printed, and make the rest
    #[arg(long, value_name = "N")]
    pub after: Option<usize>,
    /// Write the page of spreads for each galley that has a list, JOB-N.html
    #[arg(long, conflicts_with = "lists_only")]
    pub show: bool,
    /// Let TeX write to this folder
    #[arg(long, value_name = "FOLDER")]
    pub output_directory: Option<PathBuf>,
}

pub fn run(args: &Args, output: &mut Output) -> Result<Outcome, Error> {
    let job = Job::new(&args.document, args.output_directory.as_deref()).map_err(Error::Tex)?;
    let printed = args.after.map(|last| pages_printed(&job, last)).transpose()?;
    if args.lists_only {
        return lists_only(&job, printed.as_ref());
    }
    let before = job.written();
    let outcome = make(args, &job, printed.as_ref(), output);
    // What tells of printed pages is put back, so that another call can keep them.
    if printed.is_some() && !matches!(outcome, Ok(Outcome::Success)) {
        before.iter().for_each(|(ending, bytes)| job.put_back(ending, bytes));
    }
    outcome
}

fn make(args: &Args, job: &Job, printed: Option<&Printed>, output: &mut Output) -> Result<Outcome, Error> {
    let tex = TeX::new().map_err(Error::Tex)?;
    let lists = printed.map_or(Lists::default(), |_| Lists::with_barriers(&job.text(".list")));
    let mut work = Work { job, tex: &tex, printed, runs: 0, lists };
    let own = work.own_pages()?;
    let settled = work.by_lists()?;
    output.print(summary(job, &own))?;
    if args.show {
        show_spreads(job, &own, &work.lists, output)?;
    }
    if !settled {
        let why =
            "as where a page number in the text changes its lines; LaTeX makes the pages of a galley that has changed";
        say(&format!("after {MOST_RUNS} runs the galleys still change, {why}"));
        return Ok(Outcome::Refused);
    }
    Ok(Outcome::Success)
}

/// The pages that were shipped last, up to one of the PDF.
fn pages_printed(job: &Job, last: usize) -> Result<Printed, Error> {
    let (parts, shipped) = (galleys::read(&job.text(".galley.txt")), shipped::read(&job.text(".pages")));
    match shipped.folios.len() {
        0 => Err(Error::Tex(Failure::NoPages(job.file(".pages")))),
        _ if parts.is_empty() => Err(Error::Tex(Failure::NoPages(job.file(".galley.txt")))),
        pages if last > pages => Err(Error::Tex(Failure::TooFewPages { last, pages })),
        _ => Ok(Printed { parts, shipped, last }),
    }
}

fn read_galleys(job: &Job) -> Result<Vec<Part>, Error> {
    let parts = galleys::read(&job.text(".galley.txt"));
    if parts.is_empty() && !job.file(".galley.txt").is_file() {
        return Err(Error::Tex(Failure::NoGalleys(job.file(".galley.txt"))));
    }
    Ok(parts)
}

fn write_lists(job: &Job, text: &str) -> Result<(), Error> {
    let path = job.file(".list");
    fs::write(&path, text).map_err(|error| Error::Tex(Failure::Lists { path, error }))
}

/// Lists for the galleys that are there. Barriers of the lists before stay; a file that would not change is left as it is, so
/// that a Makefile sees when all is done.
fn lists_only(job: &Job, printed: Option<&Printed>) -> Result<Outcome, Error> {
    let parts = read_galleys(job)?;
    let before = job.text(".list");
    let mut lists = Lists::with_barriers(&before);
    lists.make(&parts, printed).map_err(Error::Tex)?;
    let text = lists.text(&parts);
    if text != before {
        write_lists(job, &text)?;
    }
    Ok(Outcome::Success)
}

/// LaTeX's own pages of a galley: its turns, as far as it was shipped whole, and its page ends.
struct OwnPages {
    sum: String,
    turns: Option<Turns>,
    ends: Vec<[u32; 3]>,
}

struct Own(Vec<OwnPages>);

impl Own {
    /// LaTeX's pages of a galley; where there are other galleys now, of the one that is the same.
    fn of(&self, part: &Part, galleys: usize) -> Option<&OwnPages> {
        match self.0.len() == galleys {
            true => self.0.get(part.number - 1),
            false => self.0.iter().find(|own| own.sum == part.sum),
        }
    }
}

struct Work<'job> {
    job: &'job Job,
    tex: &'job TeX,
    printed: Option<&'job Printed>,
    runs: u32,
    lists: Lists,
}

impl Work<'_> {
    fn run(&mut self, what: &str) -> Result<(), Error> {
        self.runs += 1;
        if watched() {
            say(&format!("run {} of LuaLaTeX: {what}", self.runs));
        }
        self.tex.run(self.job).map_err(Error::Tex)
    }

    /// Runs without lists until references settle. Printed pages that end at a barrier end there again.
    fn own_pages(&mut self) -> Result<Own, Error> {
        WRITTEN.iter().for_each(|ending| self.job.remove(ending));
        if !self.lists.barriers.is_empty() {
            write_lists(self.job, &self.lists.text(&[]))?;
        }
        let mut before = None;
        while self.runs < MOST_OWN {
            self.run("LaTeX's own pages")?;
            let now = self.job.references();
            if before.replace(now.clone()) == Some(now) {
                break;
            }
        }
        let (parts, shipped) = (read_galleys(self.job)?, shipped::read(&self.job.text(".pages")));
        let own = |part: &Part| OwnPages {
            sum: part.sum.clone(),
            turns: shipped.turns(part),
            ends: shipped.galleys.get(part.number - 1).map_or(vec![], |placed| placed.ends_up_to(usize::MAX)),
        };
        Ok(Own(parts.iter().map(own).collect()))
    }

    /// Lists and runs by turns; whether nothing changes any more.
    fn by_lists(&mut self) -> Result<bool, Error> {
        let mut before = String::new();
        loop {
            let parts = read_galleys(self.job)?;
            self.lists.make(&parts, self.printed).map_err(Error::Tex)?;
            let text = self.lists.text(&parts);
            let references = self.job.references();
            if before == format!("{text}{references}") {
                return Ok(true);
            }
            if self.runs == MOST_RUNS {
                return Ok(false);
            }
            write_lists(self.job, &text)?;
            self.run("pages by the lists")?;
            before = format!("{text}{references}");
        }
    }
}

/// Turns galley by galley, LaTeX's and the list's, and the PDF.
fn summary(job: &Job, own: &Own) -> String {
    let parts = galleys::read(&job.text(".galley.txt"));
    let shipped = shipped::read(&job.text(".pages"));
    let told = |turns: Option<Turns>| turns.map_or("-".into(), |turns| turns.to_string());
    let cells = |part: &Part| {
        let before = own.of(part, parts.len()).and_then(|own| own.turns);
        [told(before), told(shipped.turns(part).filter(|_| shipped.galleys[part.number - 1].by_list))]
    };
    let turns: Vec<[String; 2]> = parts.iter().map(cells).collect();
    let wide = turns.iter().flatten().map(String::len).max().unwrap_or(0).max(13);
    let row = |fields: [&str; 4], [latex, list]: [&str; 2], words: &str| {
        let [galley, lines, figures, tables] = fields;
        format!("{galley:>6} {lines:>6} {figures:>7} {tables:>6}  {latex:<wide$} {list:<wide$} {words}\n")
    };
    let mut text = row(["galley", "lines", "figures", "tables"], ["LaTeX", "list"], "opens with");
    for (part, [latex, list]) in parts.iter().zip(&turns) {
        let numbers = [part.number, part.lines(), part.figures(), part.tables()].map(|number| number.to_string());
        let words: String = part.words.chars().take(30).collect();
        text += &row(numbers.each_ref().map(String::as_str), [latex, list], &words);
    }
    let all = |turns: &mut dyn Iterator<Item = Option<Turns>>| turns.flatten().map(Turns::weighed).sum::<u32>();
    let before = all(&mut own.0.iter().map(|own| own.turns));
    let now = all(&mut parts.iter().map(|part| shipped.turns(part)));
    let (pdf, pages) = (job.file(".pdf"), shipped.folios.len());
    text + &format!("{}: {pages} pages, {now} turns; LaTeX's own pages have {before}\n", pdf.display())
}

/// The page of spreads for each galley that has a list, with LaTeX's own pages beside it: JOB-N.html, of JOB-N.galley, JOB-N.list
/// and JOB-N.latex.
fn show_spreads(job: &Job, own: &Own, lists: &Lists, output: &mut Output) -> Result<(), Error> {
    let parts = galleys::read(&job.text(".galley.txt"));
    for (part, made) in parts.iter().zip(&lists.made) {
        let Some((measure, pages)) = &made.list else { continue };
        let words = if part.tables() > 0 { 3 } else { 2 };
        let rows = own.of(part, parts.len()).map_or(&[][..], |own| &own.ends);
        let latex: String = rows.iter().map(|end| format!("{}\n", list::spaced(&end[..words]))).collect();
        let file = |ending: &str| job.file(&format!("-{}.{ending}", part.number));
        let galley = part.bytes(Some(made.folio)).map_err(Error::Tex)?;
        let all =
            [("galley", galley), ("list", list::print(*measure, pages, words).into()), ("latex", latex.into_bytes())];
        for (ending, bytes) in all {
            fs::write(file(ending), bytes).map_err(|error| Error::Tex(Failure::Lists { path: file(ending), error }))?;
        }
        let named = |ending: &str| FileName::from(file(ending).into_os_string());
        let (galley, lists) = (named("galley"), vec![named("list"), named("latex")]);
        show::run(&show::Args { galley, lists, out: Some(file("html").into()), open: false }, output)?;
    }
    Ok(())
}
