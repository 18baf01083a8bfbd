//! `barleychime make --out`: many galleys made on all cores, a list for each in a folder.

use crate::error::{Error, WordError};
use crate::input::FileName;
use crate::output::{hint_at_pack, say, say_why, watched, write_whole, Output};
use crate::Outcome;
use barleychime::engine::{self, MakeError, Memory};
use barleychime::list;
use indicatif::{ProgressBar, ProgressStyle};
use rayon::prelude::*;
use std::collections::BTreeMap;
use std::ffi::{OsStr, OsString};
use std::fs;
use std::path::{Path, PathBuf};
use std::sync::{Condvar, Mutex, MutexGuard, PoisonError};

/// A galley and the file that its list goes to.
struct Job<'a> {
    galley: &'a FileName,
    list: PathBuf,
}

/// How a job ended.
enum End {
    Made,
    /// The list was there, newer than its galley.
    Kept,
    Refused,
    Failed,
}

/// Makes every galley into a list in a folder, no more at a time than so many bytes of memory hold. What is made and newer than its
/// galley is left alone.
pub fn run(galleys: &[FileName], folder: &Path, memory: u64, output: &mut Output) -> Result<Outcome, Error> {
    let jobs = jobs(galleys, folder)?;
    fs::create_dir_all(folder).map_err(|error| Error::Write { name: folder.as_os_str().to_owned().into(), error })?;
    let (lender, bar) = (Lender::new(memory), bar(jobs.len()));
    let ends = jobs.par_iter().map(|job| {
        let end = job.run(&lender, &bar);
        bar.inc(1);
        end
    });
    let ends: Vec<End> = ends.collect();
    bar.finish_and_clear();
    let count = |kind: fn(&End) -> bool| ends.iter().filter(|end| kind(end)).count();
    let (refused, failed) = (count(|end| matches!(end, End::Refused)), count(|end| matches!(end, End::Failed)));
    let (made, kept) = (count(|end| matches!(end, End::Made)), count(|end| matches!(end, End::Kept)));
    output.print_row(format!("{made} made, {kept} left as they were, {refused} refused, {failed} failed"), None)?;
    Ok(match (failed, refused) {
        (0, 0) => Outcome::Success,
        (0, _) => Outcome::Refused,
        _ => Outcome::Failed,
    })
}

/// A bar where somebody waits, and nothing elsewhere.
fn bar(galleys: usize) -> ProgressBar {
    if !watched() {
        return ProgressBar::hidden();
    }
    let style = ProgressStyle::with_template("{bar:40} {pos} of {len} galleys, {elapsed}, {eta} to go");
    let bar = ProgressBar::new(galleys as u64);
    bar.set_style(style.unwrap_or_else(|_| ProgressStyle::default_bar()));
    bar
}

/// Which list goes where. Two galleys whose lists would have one name are told before anything is made, and so is a list that would
/// take the place of a galley.
fn jobs<'a>(galleys: &'a [FileName], folder: &Path) -> Result<Vec<Job<'a>>, Error> {
    let mut by_list: BTreeMap<PathBuf, &FileName> = BTreeMap::new();
    let mut jobs = Vec::new();
    for galley in galleys {
        let Some(name) = galley.path().and_then(Path::file_name) else {
            return Err(Error::Usage(format!("{galley} has no name that a list could have; --out wants files")));
        };
        let list = folder.join(list_name(name));
        if let Some(other) = by_list.insert(list.clone(), galley) {
            let shown = list.display();
            return Err(Error::Usage(format!("{other} and {galley} would both be made into {shown}; nothing is made")));
        }
        jobs.push(Job { galley, list });
    }
    let there: Vec<PathBuf> = galleys.iter().filter_map(|galley| galley.path()?.canonicalize().ok()).collect();
    match jobs.iter().find(|job| job.list.canonicalize().is_ok_and(|list| there.contains(&list))) {
        Some(job) => {
            let shown = job.list.display();
            Err(Error::Usage(format!(
                "the list of {} would take the place of the galley {shown}; nothing is made",
                job.galley
            )))
        }
        None => Ok(jobs),
    }
}

/// `NAME.list` for `NAME.galley`, and for a name that ends otherwise, too.
fn list_name(galley: &OsStr) -> OsString {
    let stem = Path::new(galley).extension().filter(|kind| *kind == "galley").and(Path::new(galley).file_stem());
    let mut name = stem.unwrap_or(galley).to_owned();
    name.push(".list");
    name
}

impl Job<'_> {
    /// Makes the list, and says why if there is none. What is said stands above the bar.
    fn run(&self, lender: &Lender, bar: &ProgressBar) -> End {
        self.make(lender, bar).unwrap_or_else(|error| {
            bar.suspend(|| say(&error.to_string()));
            End::Failed
        })
    }

    fn make(&self, lender: &Lender, bar: &ProgressBar) -> Result<End, Error> {
        match self.up_to_date() {
            Some(list) if list.starts_with(b"R ") => {
                bar.suspend(|| say(&format!("{}: refused before, as {} says", self.galley, self.list.display())));
                return Ok(End::Refused);
            }
            Some(_) => return Ok(End::Kept),
            None => {}
        }
        let bytes = self.galley.galley()?;
        match self.made(&bytes, lender) {
            Ok(list) => write_whole(&self.list, list.as_bytes()).map(|()| End::Made),
            Err(Error::Make { error: MakeError::Refused(refusal), .. }) => {
                write_whole(&self.list, format!("{}\n", refusal.code()).as_bytes())?;
                bar.suspend(|| {
                    say_why(self.galley, refusal);
                    hint_at_pack(self.galley, &bytes, refusal);
                });
                Ok(End::Refused)
            }
            Err(error) => Err(error),
        }
    }

    /// The list as `make` prints it.
    fn made(&self, bytes: &[u8], lender: &Lender) -> Result<String, Error> {
        let unmade = |error: MakeError| Error::Make { name: self.galley.clone(), error };
        let needed = engine::forecast(bytes).map_err(|refusal| unmade(refusal.into()))?.bytes();
        let _lent = lender.lend(needed).ok_or_else(|| Error::Bounded {
            name: self.galley.clone(),
            bytes: needed,
            memory: lender.memory,
        })?;
        let mut memory = Memory::new();
        let (measure, pages) = memory.make(bytes).map_err(unmade)?;
        Ok(list::print(measure, pages, pages.len() / measure.pages as usize))
    }

    /// The list, if it is newer than its galley.
    fn up_to_date(&self) -> Option<Vec<u8>> {
        let written = |path: &Path| fs::metadata(path).and_then(|file| file.modified()).ok();
        let (galley, list) = (written(self.galley.path()?)?, written(&self.list)?);
        (list > galley).then(|| fs::read(&self.list).ok())?
    }
}

/// Memory that is lent to makings, no more of it at a time than there is.
struct Lender {
    memory: u64,
    left: Mutex<u64>,
    returned: Condvar,
}

/// So many bytes, until it goes.
struct Lent<'a> {
    lender: &'a Lender,
    bytes: u64,
}

impl Lender {
    fn new(memory: u64) -> Self {
        Lender { memory, left: Mutex::new(memory), returned: Condvar::new() }
    }

    /// Waits until there are so many bytes; more than all of them are never lent.
    fn lend(&self, bytes: u64) -> Option<Lent<'_>> {
        if bytes > self.memory {
            return None;
        }
        let enough = self.returned.wait_while(self.left(), |left| *left < bytes);
        *enough.unwrap_or_else(PoisonError::into_inner) -= bytes;
        Some(Lent { lender: self, bytes })
    }

    /// A number is whole whatever became of who changed it last.
    fn left(&self) -> MutexGuard<'_, u64> {
        self.left.lock().unwrap_or_else(PoisonError::into_inner)
    }
}

impl Drop for Lent<'_> {
    fn drop(&mut self) {
        *self.lender.left() += self.bytes;
        self.lender.returned.notify_all();
    }
}

/// Half of the machine's memory.
pub fn half_of_memory() -> Option<u64> {
    let told = fs::read_to_string("/proc/meminfo").ok()?;
    let line = told.lines().find_map(|line| line.strip_prefix("MemTotal:"))?;
    let kilobytes: u64 = line.trim().strip_suffix("kB")?.trim().parse().ok()?;
    Some(kilobytes * 1_024 / 2)
}

/// Bytes as people write them: `500M`, `1.5G`, a plain number.
pub fn bytes(text: &str) -> Result<u64, WordError> {
    let amount = text.strip_suffix(['B', 'b']).unwrap_or(text);
    let units = [('k', 1e3), ('K', 1e3), ('m', 1e6), ('M', 1e6), ('g', 1e9), ('G', 1e9)];
    let found = units.iter().find_map(|(unit, size)| amount.strip_suffix(*unit).map(|number| (number, *size)));
    let (number, size) = found.unwrap_or((amount, 1.0));
    let digits = number.bytes().all(|byte| byte.is_ascii_digit() || byte == b'.');
    match number.parse::<f64>() {
        Ok(number) if digits && number * size >= 1.0 => Ok((number * size) as u64),
        _ => Err(WordError("no amount of memory; `500M` and `8G` are some".into())),
    }
}

#[cfg(test)]
mod tests {
    use super::*;
    use std::sync::atomic::{AtomicU64, Ordering};

    #[test]
    fn memory_is_read_as_people_write_it() {
        let read = ["500M", "1.5G", "8gb", "64K", "7"].map(bytes);
        assert_eq!(read, [500_000_000, 1_500_000_000, 8_000_000_000, 64_000, 7].map(Ok));
        for text in ["", "G", "-1G", "0", "1e3", "inf", "8 G", "8GG", "nan"] {
            assert!(bytes(text).is_err(), "{text}");
        }
    }

    #[test]
    fn no_more_is_lent_than_there_is() {
        let (lender, now, most) = (Lender::new(100), AtomicU64::new(0), AtomicU64::new(0));
        (1..=400_u64).into_par_iter().for_each(|number| {
            let bytes = number % 90 + 11;
            let _lent = lender.lend(bytes).expect("it is within the memory");
            most.fetch_max(now.fetch_add(bytes, Ordering::SeqCst) + bytes, Ordering::SeqCst);
            now.fetch_sub(bytes, Ordering::SeqCst);
        });
        assert!(most.load(Ordering::SeqCst) <= 100 && *lender.left() == 100);
        assert!(lender.lend(101).is_none() && lender.lend(100).is_some());
    }

    #[test]
    fn a_list_is_called_after_its_galley() {
        let called = ["a.galley", "a", "a.b", ".galley"].map(|name| list_name(OsStr::new(name)));
        assert_eq!(called, ["a.list", "a.list", "a.b.list", ".galley.list"]);
    }
}
