//! `barleychime desk`: page ends tried line by line, by a person at a terminal or by a script through a pipe.

use super::Outcomes;
use crate::call::{self, Call};
use crate::error::Error;
use crate::input::FileName;
use crate::lines::Lines;
use crate::output::{refuse_galley, say, say_why, write_whole, Format, Output};
use crate::Outcome;
use barleychime::engine::{self, Measure};
use barleychime::explanation;
use barleychime::galley::Galley;
use barleychime::list::{self, spaced, Extent};
use barleychime::refusal::Refusal;
use barleychime::worktable::{self, Worktable, MOST_PAGES};
use std::path::Path;

#[derive(clap::Args)]
pub struct Args {
    /// The galley
    pub galley: FileName,
    /// A page list for it, which the marking accepts
    pub list: FileName,
    /// Open the galley on folio N, where it stands in a book
    #[arg(long, value_name = "N", value_parser = clap::value_parser!(u32).range(1..))]
    pub folio: Option<u32>,
}

/// So many calls can be undone.
const MOST_UNDONE: usize = 100;
/// More ends of a page than anybody looks at.
const MOST_ENDS: usize = 10_000;

/// What `help` says.
const CALLS: &str = "\
ask PAGE I J   tries another end of PAGE, lines and figures placed so far; where
               the galley has tables it is ask PAGE I J D
commit         puts in force what was asked last, if it was accepted
ends PAGE      every end of PAGE that is accepted: p X Y T W and change in turns
list           the list in force
write FILE     writes the list in force to a file
save NAME      keeps the list in force under a name
back NAME      puts in force what was saved under a name
drop NAME      frees a name
layouts        what is saved, each with its change in turns
undo           takes back the last commit, save, back or drop
quit           ends
";

/// Opens a desk on a galley and a list, and answers calls from standard input until there are no more.
pub fn run(args: &Args, output: &mut Output) -> Result<Outcome, Error> {
    if args.galley.is_standard_input() || args.list.is_standard_input() {
        return Err(Error::Usage("standard input has the calls, and can be no file here".into()));
    }
    let bytes = args.galley.galley_on(args.folio)?;
    let words = match engine::page_words(&bytes) {
        Ok(words) => args.list.list(words, Extent::Whole)?.words,
        Err(refusal) => return refuse_galley(&args.galley, &bytes, refusal, Format::default(), output),
    };
    let galley = args.galley.decoded(&bytes, args.folio)?;
    let (desk, in_force) = match Worktable::open(&bytes, &words) {
        Ok(opened) => opened,
        Err(refusal) => return refuse(&args.list, &bytes, &galley, &words, refusal, output),
    };
    output.print_row(list::measure_line(in_force), None)?;
    if desk.is_marked() {
        let pages = in_force.pages;
        say(&format!("{}: {pages} pages, and the engine's desk takes {MOST_PAGES}: each ask is a marking", args.list));
    }
    let (lines, outcomes) = (Lines::new(), Outcomes::default());
    Sitting { bytes: &bytes, galley, desk, in_force, done: vec![], lines, outcomes }.answer_all(output)
}

/// A list that no desk opens on: which rule it breaks.
fn refuse(
    name: &FileName,
    bytes: &[u8],
    galley: &Galley,
    words: &[u32],
    refusal: Refusal,
    output: &mut Output,
) -> Result<Outcome, Error> {
    output.print_row(refusal.code(), None)?;
    say_why(name, refusal);
    if let Err(marked) = engine::mark(bytes, words) {
        say(&format!("{name}: {marked} ({})", explanation::in_numbers(galley, words)));
    }
    Ok(Outcome::Refused)
}

/// A desk with somebody at it.
struct Sitting<'galley> {
    bytes: &'galley [u8],
    galley: Galley,
    desk: Worktable<'galley>,
    /// What the list in force comes to.
    in_force: Measure,
    /// The desk, and what was in force, before each call that changed it; the last ones.
    done: Vec<(Worktable<'galley>, Measure)>,
    lines: Lines,
    outcomes: Outcomes,
}

impl Sitting<'_> {
    fn answer_all(mut self, output: &mut Output) -> Result<Outcome, Error> {
        if self.lines.are_typed() {
            say("the list is in force; `help` names the calls, `quit` ends");
        }
        while let Some(line) = self.lines.next()? {
            match line.and_then(|line| call::parse(&line, self.galley.page_words())) {
                Ok(None) => {}
                Ok(Some(Call::Quit)) => break,
                Ok(Some(call)) => self.answer(&call, output)?,
                Err(what) => self.is_no_call(&what.to_string(), output)?,
            }
        }
        Ok(self.outcomes.whole())
    }

    /// Whoever sent the line waits for an answer.
    fn is_no_call(&mut self, what: &str, output: &mut Output) -> Result<(), Error> {
        output.print("?\n")?;
        self.remark(what);
        self.outcomes.failed = true;
        Ok(())
    }

    fn answer(&mut self, call: &Call, output: &mut Output) -> Result<(), Error> {
        let answered = match call {
            Call::Ask { page, end } => self.desk.ask(*page, *end).map(|measure| (measure, self.in_force)),
            Call::Commit => self.change(|desk| desk.commit()),
            Call::Save(name) => self.change(|desk| desk.save(name.as_bytes())),
            Call::Back(name) => self.change(|desk| desk.back(name.as_bytes())),
            Call::Drop(name) => self.change(|desk| desk.drop_name(name.as_bytes())),
            Call::Undo => match self.done.pop() {
                Some((desk, measure)) => {
                    self.desk = desk;
                    Ok((measure, measure))
                }
                None => return self.is_no_call("nothing is left to be taken back", output),
            },
            Call::Ends { page } => return self.ends(*page, output),
            Call::List => return output.print(self.list()),
            Call::Write(name) => return self.write(name, output),
            Call::Layouts => return output.print(self.layouts()?),
            Call::Help | Call::Quit => return output.print(CALLS),
        };
        match answered {
            Ok((measure, in_force)) => {
                output.print_row(self.line_of(measure), None)?;
                self.in_force = in_force;
                Ok(())
            }
            Err(refusal) => self.refuse(call, refusal, output),
        }
    }

    /// Does what can be undone: what the list in force comes to then, twice, as the answer and as what is in force.
    fn change<Change>(&mut self, change: Change) -> Result<(Measure, Measure), Refusal>
    where
        Change: FnOnce(&mut Worktable) -> Result<(), Refusal>,
    {
        let before = (self.desk.clone(), self.in_force);
        change(&mut self.desk)?;
        let measure = engine::mark(self.bytes, &self.desk.list())?;
        if self.done.len() == MOST_UNDONE {
            self.done.remove(0);
        }
        self.done.push(before);
        Ok((measure, measure))
    }

    /// The list in force, as `make` prints one.
    fn list(&self) -> String {
        list::print(self.in_force, &self.desk.list(), self.galley.page_words())
    }

    /// Writes the list in force to a file, whole or not at all.
    fn write(&mut self, name: &str, output: &mut Output) -> Result<(), Error> {
        match write_whole(Path::new(name), self.list().as_bytes()) {
            Ok(()) => output.print_row(self.line_of(self.in_force), None),
            Err(error) => self.is_no_call(&error.to_string(), output),
        }
    }

    /// How many ends of a page would be accepted, and a line for each: the end, what the list comes to, and the change in turns.
    fn ends(&mut self, page: u32, output: &mut Output) -> Result<(), Error> {
        match worktable::ends(&self.galley, self.bytes, &self.desk.list(), page, MOST_ENDS) {
            Ok(Some(ends)) => {
                let words = self.galley.page_words();
                let row =
                    |end: &worktable::End| format!("{}: {}\n", spaced(&end.place[..words]), self.line_of(end.measure));
                output.print(format!("{}\n{}", ends.len(), ends.iter().map(row).collect::<String>()))
            }
            Ok(None) => self.is_no_call(&format!("page {page} may end in more than {MOST_ENDS} ways"), output),
            Err(refusal) => self.refuse(&Call::Ends { page }, refusal, output),
        }
    }

    /// How many layouts are held, and a line for each: its measure, the change in turns, and its name.
    fn layouts(&self) -> Result<String, Error> {
        let held = self.desk.layouts();
        let mut text = format!("{}\n", held.len());
        for (name, list) in held {
            let measure = engine::mark(self.bytes, &list).map_err(Error::Unlike)?;
            text += &format!("{} {}\n", self.line_of(measure), String::from_utf8_lossy(&name));
        }
        Ok(text)
    }

    /// The measure of a list, and its change in turns against the list that was in force.
    fn line_of(&self, measure: Measure) -> String {
        let change = i64::from(measure.turns) - i64::from(self.in_force.turns);
        format!("{} {change:+}", list::measure_line(measure))
    }

    fn refuse(&mut self, call: &Call, refusal: Refusal, output: &mut Output) -> Result<(), Error> {
        output.print_row(refusal.code(), None)?;
        self.remark(&format!("{refusal}{}", self.in_numbers(call, refusal)));
        self.outcomes.refused = true;
        Ok(())
    }

    /// The numbers by which the list that was asked about breaks a rule; nothing of other calls and refusals.
    fn in_numbers(&self, call: &Call, refusal: Refusal) -> String {
        let (Call::Ask { page, end }, true) = (call, refusal.kind.is_of_list()) else { return String::new() };
        let altered = worktable::altered(&self.desk.list(), self.galley.page_words(), *page, *end);
        altered.map_or(String::new(), |altered| format!(" ({})", explanation::in_numbers(&self.galley, &altered)))
    }

    /// A remark on the line that was read last.
    fn remark(&self, what: &str) {
        say(&format!("{}{what}", self.lines.place()));
    }
}
