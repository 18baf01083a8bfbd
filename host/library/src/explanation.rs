//! A page list in words: page by page, for a refused one every rule that each page breaks with the numbers that break it, and for
//! one with turns too many the page ends with which they are lost for good.

use crate::engine::Measure;
use crate::galley::Galley;
use crate::list::spaced;
use crate::page::{folio, spread, white, Page, Place};
use crate::record::Record;
use crate::refusal::{Refusal, RefusalKind};
use crate::rules::{self, counted, counts_in_words, kept_with, Broken};
use crate::text::field_at_fault;
use crate::why::Loss;

/// An accepted list.
pub fn accepted(galley: &Galley, list: &[u32], measure: Measure) -> String {
    let pages = Page::all(galley, list);
    let mut text = opening(galley);
    for page in &pages {
        text += &page_in_words(galley, &pages, page);
    }
    let spec = &galley.spec;
    let Measure { x, y, turns, white, .. } = measure;
    text += &format!("accepted: {}, X {x}, Y {y}, ", counted(pages.len(), "page"));
    text + &format!("T = alpha·X + beta·Y = {}·{x} + {}·{y} = {turns}, W {white}\n", spec.alpha, spec.beta)
}

/// How an accepted list compares with the best one.
pub fn against_best(best: Measure, measure: Measure) -> String {
    if best.turns < measure.turns {
        let more = measure.turns - best.turns;
        return format!("the fewest turns are {}; this list has {more} more\n", best.turns);
    }
    match measure.white.saturating_sub(best.white) {
        0 => "no list has fewer turns, and none with as many has less white space\n".into(),
        more => {
            let least = best.white;
            format!("no list has fewer turns; the least W with as many is {least}, and this list has {more} more\n")
        }
    }
}

/// The page ends with which turns are lost for good, a line each; that there is none is said, too.
pub fn lost(losses: &[Loss]) -> String {
    match losses {
        [] => "no turn is lost for good\n".into(),
        _ => losses.iter().map(|loss| loss.in_words() + "\n").collect(),
    }
}

/// A list that breaks some of 12 to 18: all its pages, and under each what it breaks; then what the marking answers, and which
/// pages break which rule.
pub fn refused(galley: &Galley, list: &[u32], refusal: Refusal) -> String {
    let pages = Page::all(galley, list);
    let broken = rules::broken(galley, list);
    let mut text = opening(galley);
    for page in &pages {
        text += &page_in_words(galley, &pages, page);
        for Broken { rule, numbers, .. } in broken.iter().filter(|broken| broken.page == page.number) {
            text += &format!("    breaks rule {rule}: {}\n", numbers.join("; "));
        }
    }
    text += &format!("refused, {refusal}\n");
    for numbers in broken.iter().take(1).flat_map(|broken| &broken.numbers) {
        text += &format!("    {numbers}\n");
    }
    text + &others(&broken)
}

/// Which rule is broken on which pages, the first one first, unless it is but one rule on one page.
fn others(broken: &[Broken]) -> String {
    let mut by_rule: Vec<(u32, Vec<usize>)> = Vec::new();
    for Broken { page, rule, .. } in broken {
        match by_rule.iter_mut().find(|(known, _)| known == rule) {
            Some((_, pages)) => pages.push(*page),
            None => by_rule.push((*rule, vec![*page])),
        }
    }
    let told = by_rule.iter().map(|(rule, pages)| {
        let noun = if pages.len() == 1 { "page" } else { "pages" };
        format!("rule {rule} on {noun} {}", spaced(pages).replace(' ', ", "))
    });
    match broken.len() {
        0 | 1 => String::new(),
        _ => format!("in all it breaks {}\n", told.collect::<Vec<_>>().join("; ")),
    }
}

/// The numbers by which a list breaks the rule that the marking names, on one line; nothing of an accepted list.
pub fn in_numbers(galley: &Galley, list: &[u32]) -> String {
    rules::broken(galley, list).first().map_or(String::new(), |broken| broken.numbers.join("; "))
}

/// The first rule that a page of an opening breaks, as one that is not the last, and the numbers that break it.
pub fn broken_opening(galley: &Galley, opening: &[u32], page: usize) -> Option<String> {
    let pages = Page::all(galley, opening);
    let broken = rules::on_page(galley, pages.get(page.checked_sub(1)?)?, false);
    let Broken { rule, numbers, .. } = broken.first()?;
    Some(format!("page {page} breaks rule {rule}, {}: {}", RefusalKind::of(*rule).words(), numbers.join("; ")))
}

/// How the page specification of a chapter is unlike that of the first: every field that differs.
pub fn unlike_first(first: &[u8], chapter: &[u8]) -> Option<String> {
    let (first, chapter) = (Record::take(first)?.0, Record::take(chapter)?.0);
    let mark = (first.kind != chapter.kind)
        .then(|| format!("its mark is {}, and there {}", chapter.kind.mark, first.kind.mark));
    let fields = chapter.kind.fields.iter().zip(chapter.fields.iter().zip(&first.fields));
    let unlike = fields.filter(|(_, (here, there))| here != there);
    let told = unlike.map(|(name, (here, there))| format!("its {name} is {here}, and there {there}"));
    Some(mark.into_iter().chain(told).collect::<Vec<_>>().join("; "))
}

/// A galley that is refused itself: the record, and its field if one is at fault.
pub fn refused_galley(bytes: &[u8], refusal: Refusal) -> String {
    let record = bytes.get(refusal.place as usize..).and_then(Record::take);
    let field = record.map_or(String::new(), |(record, _)| field_at_fault(refusal.kind, &record));
    format!("refused, {}: {field}{}\n", refusal.code(), refusal.sentence())
}

fn opening(galley: &Galley) -> String {
    let spec = &galley.spec;
    format!(
        "galley: {}{}; height {} to {}{}, separation {} to {}; {}; alpha {}, beta {}\n",
        counts_in_words(galley, galley.sizes()).join(", "),
        if galley.folio == 1 { String::new() } else { format!("; the first folio is {}", galley.folio) },
        spec.ht_min,
        spec.ht_max,
        spec.last_min.map_or(String::new(), |last_min| format!(", of the last page {last_min} to {}", spec.ht_max)),
        spec.s_min,
        spec.s_max,
        if spec.double_sided { "double-sided" } else { "single-sided" },
        spec.alpha,
        spec.beta
    )
}

fn page_in_words(galley: &Galley, pages: &[Page], page: &Page) -> String {
    let mut text = format!("{}, {}: ", numbered(galley, page.number), spread_in_words(galley, page.number));
    if !page.is_sound(galley) {
        return text
            + &format!("from {} to {}\n", place_in_words(galley, page.start), place_in_words(galley, page.end));
    }
    text += &holdings(page);
    let (tight, loose) = page.heights(galley);
    let spec = &galley.spec;
    text += &format!("\n    height {tight} to {loose}; ");
    text += &match (page.number == pages.len(), spec.last_min) {
        (false, _) => format!("{} to {} is asked; white space {}\n", spec.ht_min, spec.ht_max, white(galley, loose)),
        (true, None) => format!("at most {} is asked of the last page\n", spec.ht_max),
        (true, Some(last_min)) => format!("{last_min} to {} is asked of the last page\n", spec.ht_max),
    };
    for (stream, ..) in galley.floats() {
        for number in page.start[stream] + 1..=page.end[stream] {
            text += &float_in_words(galley, pages, page, stream, number);
        }
    }
    text
}

/// A place as a list has it.
fn place_in_words(galley: &Galley, place: Place) -> String {
    format!("({})", spaced(&place[..galley.page_words()]).replace(' ', ", "))
}

/// A page with its number, and with its folio where that is another.
fn numbered(galley: &Galley, page: usize) -> String {
    match folio(galley, page) {
        same if same == page => format!("page {page}"),
        folio => format!("page {page}, folio {folio}"),
    }
}

fn spread_in_words(galley: &Galley, page: usize) -> String {
    match (galley.spec.double_sided, folio(galley, page) % 2) {
        (false, _) => "a spread by itself".into(),
        (true, 0) => format!("spread {}, left", spread(galley, page)),
        (true, _) => format!("spread {}, right", spread(galley, page)),
    }
}

fn holdings(page: &Page) -> String {
    let kinds = page.start.into_iter().zip(page.end).zip(["line", "figure", "table"]);
    kinds.filter_map(|((before, last), kind)| range(kind, before, last)).collect::<Vec<_>>().join(", ")
}

fn range(kind: &str, before: usize, last: usize) -> Option<String> {
    match last - before {
        0 => None,
        1 => Some(format!("{kind} {last}")),
        _ => Some(format!("{kind}s {} to {last}", before + 1)),
    }
}

/// The turns that a figure or table costs: from the spread of its citation to its own.
fn float_in_words(galley: &Galley, pages: &[Page], page: &Page, stream: usize, number: usize) -> String {
    let (_, kind, floats) = galley.floats()[stream - 1];
    let citation = floats[number - 1].citation;
    let cited_on = pages.iter().find(|page| page.end[0] >= citation).map(|page| page.number);
    let opening = format!("    {kind} {number}, cited by line {citation}");
    let kept = kept_with(floats, number).map_or(String::new(), |next| format!("; kept with {kind} {next}"));
    let Some(cited_on) = cited_on else {
        return format!("{opening}, which no page places{kept}\n");
    };
    let (there, here) = (spread(galley, cited_on), spread(galley, page.number));
    let cost = match here.checked_sub(there) {
        None => "before its citation".into(),
        Some(0) if cited_on == page.number => "the same page, no turn".into(),
        Some(0) => "the same spread, no turn".into(),
        Some(turns) => {
            let alpha = u64::from(galley.spec.alpha);
            format!("{}, costs {alpha}·{turns} = {}", counted(turns, "turn"), alpha * turns as u64)
        }
    };
    format!("{opening} on {}: {cost}{kept}\n", numbered(galley, cited_on))
}
