//! `barleychime show`: the page of the browser as one file, with a galley, its lists and the engine inside.

use super::Outcomes;
use crate::error::Error;
use crate::input::FileName;
use crate::output::{refuse_galley, say, Format, Output};
use crate::Outcome;
use barleychime::engine::{self, Memory};
use barleychime::list;
use serde::Serialize;
use std::ffi::{OsStr, OsString};
use std::path::{Path, PathBuf};
use std::process::{Command, Stdio};
use std::{fs, io};

/// The page that was there when this command was built; empty where there was none.
const PAGE: &str = include_str!(concat!(env!("OUT_DIR"), "/barleychime.html"));
/// Where the page takes what is handed to it.
const HANDED: &str = r#"<script type="application/json" id="handed">"#;
const NOTHING: &str = "null</script>";

#[derive(clap::Args)]
pub struct Args {
    /// The galley
    pub galley: FileName,
    /// Page lists for it
    #[arg(value_name = "LIST")]
    pub lists: Vec<FileName>,
    /// Write the page to FILE, - for standard output
    #[arg(long, value_name = "FILE")]
    pub out: Option<OsString>,
    /// Open the page in the browser
    #[arg(long)]
    pub open: bool,
}

/// What the page is handed.
#[derive(Serialize)]
struct Handed {
    name: String,
    galley: String,
    lists: Vec<List>,
    /// The engine's own list as `make` prints it, so that the page need not make it; none where it cannot be made.
    #[serde(skip_serializing_if = "Option::is_none")]
    best: Option<String>,
}

#[derive(Serialize)]
struct List {
    name: String,
    text: String,
}

/// Writes the page; a list that cannot be read does not keep the others from being shown.
pub fn run(args: &Args, output: &mut Output) -> Result<Outcome, Error> {
    let Some((before, after)) = split(PAGE) else {
        return Err(Error::Usage(
            "this command was built without the page; `make` in the project's folder builds it".into(),
        ));
    };
    if args.open && args.out.as_deref() == Some(OsStr::new("-")) {
        return Err(Error::Usage("--open opens a file, and --out - writes none".into()));
    }
    let out = args.out.clone().map_or_else(|| beside(&args.galley), |named| Ok(PathBuf::from(named)))?;
    keep_inputs(args, &out)?;
    let galley = args.galley.galley()?;
    if let Err(refusal) = engine::page_words(&galley) {
        return refuse_galley(&args.galley, &galley, refusal, Format::default(), output);
    }
    let (mut outcomes, mut lists) = (Outcomes::default(), Vec::new());
    for (file, name) in args.lists.iter().zip(names(&args.lists)) {
        match file.text() {
            Ok(text) => lists.push(List { name, text }),
            Err(error) => outcomes.fail(&error),
        }
    }
    let handed = Handed { name: stem(&args.galley), galley: base64(&galley), lists, best: best(&galley) };
    let page = [before, &escaped(&handed), after].concat();
    if out == Path::new("-") {
        output.print(page)?;
    } else {
        fs::write(&out, page).map_err(|error| Error::Write { name: out.clone().into_os_string().into(), error })?;
        say(&format!("{} is written", FileName::from(out.clone().into_os_string())));
    }
    if args.open {
        open(&out)?;
    }
    Ok(outcomes.whole())
}

/// The page before and after what it is handed.
fn split(page: &str) -> Option<(&str, &str)> {
    let at = page.find(HANDED)? + HANDED.len();
    page[at..].starts_with(NOTHING).then(|| (&page[..at], &page[at + "null".len()..]))
}

/// The best list. Where there is none, or no memory for it, the page finds that itself and says so.
fn best(galley: &[u8]) -> Option<String> {
    let words = engine::page_words(galley).ok()?;
    let mut memory = Memory::new();
    let (measure, pages) = memory.make(galley).ok()?;
    Some(list::print(measure, pages, words))
}

/// The galley's own name with another ending.
fn beside(galley: &FileName) -> Result<PathBuf, Error> {
    match galley.is_standard_input() {
        true => Err(Error::Usage(
            "--out is wanted: a galley from standard input has no name to write the page under".into(),
        )),
        false => Ok(Path::new(galley.os()).with_extension("html")),
    }
}

/// The page never takes the place of what it shows.
fn keep_inputs(args: &Args, out: &Path) -> Result<(), Error> {
    let Ok(there) = fs::canonicalize(out) else { return Ok(()) };
    let same = |name: &&FileName| fs::canonicalize(name.os()).is_ok_and(|file| file == there);
    match std::iter::once(&args.galley).chain(&args.lists).find(same) {
        Some(name) => Err(Error::Usage(format!("{name}: the page would take its place; --out names another file"))),
        None => Ok(()),
    }
}

/// A file's name without folders, and without the ending that galleys and lists have.
fn stem(name: &FileName) -> String {
    let file = Path::new(name.os());
    let usual = file.extension().is_some_and(|ending| ending == "galley" || ending == "list");
    let stem = if usual { file.file_stem() } else { file.file_name() }.unwrap_or(name.os());
    if name.is_standard_input() {
        "galley".into()
    } else {
        stem.to_string_lossy().into_owned()
    }
}

/// Names of lists, each of them once: the file's own, the whole path where two files have the same name, a number where that is
/// the same too.
fn names(lists: &[FileName]) -> Vec<String> {
    let stems: Vec<String> = lists.iter().map(stem).collect();
    let mut names: Vec<String> = Vec::new();
    for (file, stem) in lists.iter().zip(&stems) {
        let often = stems.iter().filter(|other| *other == stem).count();
        let name = if often == 1 { stem.clone() } else { file.os().to_string_lossy().into_owned() };
        let mut unlike = name.clone();
        let mut number = 2;
        while names.contains(&unlike) {
            unlike = format!("{name} ({number})");
            number += 1;
        }
        names.push(unlike);
    }
    names
}

/// JSON that may stand in a page: nothing in it ends the element or opens another.
fn escaped(handed: &Handed) -> String {
    let json = serde_json::to_string(handed).expect("names and texts are JSON");
    let mut out = String::with_capacity(json.len());
    for letter in json.chars() {
        match letter {
            '<' | '>' | '&' | '\u{2028}' | '\u{2029}' => out.push_str(&format!("\\u{:04x}", u32::from(letter))),
            _ => out.push(letter),
        }
    }
    out
}

/// Bytes as text, as the page reads them.
fn base64(bytes: &[u8]) -> String {
    const LETTERS: &[u8; 64] = b"ABCDEFGHIJKLMNOPQRSTUVWXYZabcdefghijklmnopqrstuvwxyz0123456789+/";
    let mut out = String::with_capacity(bytes.len().div_ceil(3) * 4);
    for three in bytes.chunks(3) {
        let word = three.iter().chain(&[0; 2]).take(3).fold(0usize, |word, &byte| word << 8 | usize::from(byte));
        for place in 0..4 {
            let letter = char::from(LETTERS[word >> (18 - 6 * place) & 63]);
            out.push(if place <= three.len() { letter } else { '=' });
        }
    }
    out
}

/// Hands the file to the desktop, which opens it in the browser.
fn open(page: &Path) -> Result<(), Error> {
    let started = Command::new("xdg-open").arg(page).stdin(Stdio::null()).stdout(Stdio::null()).status();
    let name = || FileName::from(page.as_os_str().to_owned());
    match started {
        Ok(status) if status.success() => Ok(()),
        Ok(status) => Err(Error::Usage(format!("{}: xdg-open could not open it ({status})", name()))),
        Err(error) if error.kind() == io::ErrorKind::NotFound => {
            Err(Error::Usage(format!("{}: there is no xdg-open here; open it in a browser", name())))
        }
        Err(error) => Err(Error::Usage(format!("xdg-open: {error}"))),
    }
}
