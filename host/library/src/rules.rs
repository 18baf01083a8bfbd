//! The rules that the pages of a list break, all of them, each with the numbers that break it. The marking names the first one and
//! stops there; whoever mends a list wants the others too. A page that goes backwards or past the galley places what it can, and the
//! pages after it go on from there.

use crate::galley::{Float, Galley};
use crate::list::spaced;
use crate::page::{ends_spread, Page, Place};

/// A rule that is broken.
#[derive(Clone, Debug, PartialEq, Eq)]
pub struct Broken {
    /// The page that breaks it, counted from 1; 0 if it is the list as a whole (rule 12).
    pub page: usize,
    /// Its number, 12 to 18.
    pub rule: u32,
    /// What is wrong, in numbers: `40 is above htMax 30 by 10`.
    pub numbers: Vec<String>,
}

/// Every rule that a list breaks, page by page; none if the marking accepts it.
pub fn broken(galley: &Galley, list: &[u32]) -> Vec<Broken> {
    let words = galley.page_words();
    if list.is_empty() || !list.len().is_multiple_of(words) || list.len() > words * blocks(galley) {
        return vec![Broken { page: 0, rule: 12, numbers: vec![length(galley, list)] }];
    }
    let pages = Page::all(galley, list);
    let mut all: Vec<Broken> =
        pages.iter().flat_map(|page| on_page(galley, page, page.number == pages.len())).collect();
    let placed = pages.last().map_or([0; 3], |page| page.placed(galley));
    if placed != galley.sizes() {
        all.push(Broken { page: pages.len(), rule: 18, numbers: vec![unfinished(galley, placed)] });
    }
    all
}

/// The rules of 13 to 17 that one page breaks. A page that breaks 13 has no height and no end, so that nothing else is asked of it.
pub fn on_page(galley: &Galley, page: &Page, last: bool) -> Vec<Broken> {
    if !page.is_sound(galley) {
        return vec![Broken { page: page.number, rule: 13, numbers: order(galley, page) }];
    }
    let heights = page.heights(galley);
    let soon = if last || ends_spread(galley, page.number) { too_soon(galley, page.end) } else { vec![] };
    let asked = [
        (14, forbidden_end(galley, page.end)),
        (15, too_high(galley, heights.0).into_iter().collect()),
        (16, too_low(galley, heights.1, last).into_iter().collect()),
        (17, soon),
    ];
    let told = asked.into_iter().filter(|(_, numbers)| !numbers.is_empty());
    told.map(|(rule, numbers)| Broken { page: page.number, rule, numbers }).collect()
}

/// Lines, figures and tables together: no list has more pages.
fn blocks(galley: &Galley) -> usize {
    galley.sizes().iter().sum()
}

/// How many words the list has, and how many are asked.
fn length(galley: &Galley, list: &[u32]) -> String {
    let words = galley.page_words();
    let most = words * blocks(galley);
    let asked = if words == 2 { "an even number" } else { "a multiple of three" };
    format!("it has {}; {words} to {most} and {asked} are asked", counted(list.len(), "word"))
}

/// How the page goes backwards, past what there is, or nowhere.
fn order(galley: &Galley, page: &Page) -> Vec<String> {
    let kinds = page.start.into_iter().zip(page.end).zip(galley.sizes()).zip(["lines", "figures", "tables"]);
    let told = kinds.filter_map(|(((before, after), size), kind)| match after {
        _ if after < before => Some(format!("{kind} placed so far fall from {before} to {after}")),
        _ if after > size => Some(format!("it claims {after} {kind}, but the galley has {size}")),
        _ => None,
    });
    let told: Vec<String> = told.collect();
    match (told.is_empty(), counts_in_words(galley, page.end).as_slice()) {
        (true, [others @ .., last]) => vec![format!("it ends where it starts, after {} and {last}", others.join(", "))],
        _ => told,
    }
}

/// What forbids a page end after line i and figure j: either or both.
pub fn forbidden_end(galley: &Galley, [i, j, _]: Place) -> Vec<String> {
    let line = (0 < i && i < galley.lines.len() && !galley.lines[i - 1].page_end)
        .then(|| format!("line {i} forbids a page end in the space after it"));
    let figure = kept_with(&galley.figures, j).map(|next| format!("figure {j} is kept with figure {next}"));
    line.into_iter().chain(figure).collect()
}

/// The figure or table that number j is kept with, if it is, and there is one.
pub fn kept_with(floats: &[Float], j: usize) -> Option<usize> {
    (0 < j && j < floats.len() && floats[j - 1].kept).then_some(j + 1)
}

fn too_high(galley: &Galley, tight: u64) -> Option<String> {
    let most = galley.spec.ht_max;
    let above = tight.checked_sub(most.into()).filter(|&above| above > 0)?;
    Some(format!("{tight} is above htMax {most} by {above}"))
}

/// The last page is held to lastMin, which in the first edition is 0.
fn too_low(galley: &Galley, loose: u64, last: bool) -> Option<String> {
    let spec = &galley.spec;
    let (name, least) = if last { ("lastMin", spec.last_min.unwrap_or(0)) } else { ("htMin", spec.ht_min) };
    let below = u64::from(least).checked_sub(loose).filter(|&below| below > 0)?;
    Some(format!("{loose} is below {name} {least} by {below}"))
}

/// The last figure and the last table placed, either or both, if they are cited by a later line than the last placed.
fn too_soon(galley: &Galley, end: Place) -> Vec<String> {
    let told = galley.floats().into_iter().filter_map(|(stream, kind, floats)| {
        let (number, line) = (end[stream], end[0]);
        let citation = floats[..number].last()?.citation;
        (citation > line)
            .then(|| format!("{kind} {number} is cited by line {citation}, and the spread ends after line {line}"))
    });
    told.collect()
}

fn unfinished(galley: &Galley, placed: Place) -> String {
    let [end, whole] = [placed, galley.sizes()].map(|place| spaced(&place[..galley.page_words()]));
    format!("the list ends at {end}, and everything is placed at {whole}")
}

/// Counts of lines, figures and, where there are any, tables.
pub fn counts_in_words(galley: &Galley, counts: Place) -> Vec<String> {
    let words = counts.into_iter().zip(["line", "figure", "table"]).map(|(count, what)| counted(count, what));
    words.take(galley.page_words()).collect()
}

/// A number and what it counts: `1 line`, `2 lines`.
pub fn counted(number: usize, what: &str) -> String {
    if number == 1 {
        format!("1 {what}")
    } else {
        format!("{number} {what}s")
    }
}

#[cfg(test)]
mod tests {
    use super::*;
    use crate::text::pack;

    #[test]
    fn a_page_that_goes_backwards_is_passed_over() {
        let text = "GS 30 30 0 0 1 1 1\nTL 10 0 0 1\nTL 10 0 0 1\nTL 10 0 0 1\nFG 20 0 0 1\nED\n";
        let galley = Galley::decode(&pack(text).expect("a galley").bytes).expect("records in order");
        let told: Vec<_> =
            broken(&galley, &[2, 1, 1, 1, 3, 1]).into_iter().map(|each| (each.page, each.rule)).collect();
        assert_eq!(told, [(1, 15), (2, 13)]);
        assert_eq!(broken(&galley, &[2, 1, 3, 1])[0].numbers, ["40 is above htMax 30 by 10"]);
        assert_eq!(broken(&galley, &[1, 1, 3, 1]), []);
    }
}
