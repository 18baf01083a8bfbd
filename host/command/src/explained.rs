//! Page lists explained to programs: what `explain --json` tells of each.

use crate::json;
use crate::marked::{Answer, Marked, Row};
use barleychime::engine::MakeError;
use barleychime::galley::Galley;
use barleychime::page::{folio, spread, white, Page};
use barleychime::rules::{self, Broken};
use barleychime::why::Finder;
use serde::Serialize;

/// A list that is explained: its row, its pages, every rule that they break, and where its turns are lost for good.
#[derive(Serialize)]
pub struct Explained<'a> {
    #[serde(flatten)]
    row: Row<'a>,
    best: Option<json::Measure>,
    pages: Vec<ToldPage>,
    broken: Vec<ToldBroken>,
    lost: Vec<json::Loss>,
}

/// A page: what it holds and its heights, which are null where it goes backwards, past the galley or nowhere.
#[derive(Serialize)]
struct ToldPage {
    page: usize,
    folio: usize,
    spread: usize,
    lines: [usize; 2],
    figures: [usize; 2],
    tables: [usize; 2],
    tightest: Option<u64>,
    loosest: Option<u64>,
    white: Option<u64>,
}

#[derive(Serialize)]
struct ToldBroken {
    page: usize,
    rule: u32,
    numbers: Vec<String>,
}

impl<'a> Explained<'a> {
    /// Explains a list that was marked; of one that cannot be read there is nothing to explain.
    pub fn of(marked: &Marked<'a>, galley: &Galley, finder: &mut Finder) -> Result<Self, MakeError> {
        let list = &marked.words;
        let mut explained = Explained { row: marked.json(), best: None, pages: vec![], broken: vec![], lost: vec![] };
        let pages = Page::all(galley, list);
        explained.pages = pages.iter().map(|page| told(galley, page, page.number == pages.len())).collect();
        match marked.answer {
            Answer::Accepted(measure) => {
                explained.best = Some(finder.best()?.measure.into());
                explained.lost = finder.losses(list, measure)?.into_iter().map(Into::into).collect();
            }
            Answer::Refused(_) => {
                let broken = rules::broken(galley, list).into_iter();
                explained.broken =
                    broken.map(|Broken { page, rule, numbers }| ToldBroken { page, rule, numbers }).collect();
            }
            Answer::Unreadable(_) => {}
        }
        Ok(explained)
    }
}

/// The last page counts for no white space.
fn told(galley: &Galley, page: &Page, last: bool) -> ToldPage {
    let heights = page.is_sound(galley).then(|| page.heights(galley));
    let of = |kind: usize| [page.start[kind], page.end[kind]];
    ToldPage {
        page: page.number,
        folio: folio(galley, page.number),
        spread: spread(galley, page.number),
        lines: of(0),
        figures: of(1),
        tables: of(2),
        tightest: heights.map(|(tight, _)| tight),
        loosest: heights.map(|(_, loose)| loose),
        white: heights.filter(|_| !last).map(|(_, loose)| white(galley, loose)),
    }
}
