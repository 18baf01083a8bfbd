//! The making: for every place and side of the page ending there the least cost, from the best of all starts.

use crate::forecast::{list_words, work_words};
use crate::known::Known;
use crate::mark::measure;
use crate::opening::{origin_of, Origin};
use crate::places::{floats_at, least, side_before, whole, Least, ENDS, OPENS};
use crate::read::{read, Galley};
use crate::weighed::weighed_of;
use crate::{limited, plain, sweep, Answer};

/// Making with the search by queues, as the engine does it.
pub fn make(bytes: &[u8], work: &mut [u32], list: &mut [u32]) -> Answer {
    make_after(bytes, &[], work, list)
}

/// The same of lists that begin with an opening.
pub fn make_after(bytes: &[u8], opening: &[u32], work: &mut [u32], list: &mut [u32]) -> Answer {
    make_by(sweep::fill, bytes, opening, work, list)
}

/// Making with the plain search.
pub fn make_plain(bytes: &[u8], work: &mut [u32], list: &mut [u32]) -> Answer {
    make_plain_after(bytes, &[], work, list)
}

/// The same of lists that begin with an opening.
pub fn make_plain_after(bytes: &[u8], opening: &[u32], work: &mut [u32], list: &mut [u32]) -> Answer {
    make_by(plain::fill, bytes, opening, work, list)
}

/// Making with the search within a limit that knows so much.
pub fn make_knowing(known: Known, bytes: &[u8], work: &mut [u32], list: &mut [u32]) -> Answer {
    make_knowing_after(known, bytes, &[], work, list)
}

/// The same of lists that begin with an opening.
pub fn make_knowing_after(known: Known, bytes: &[u8], opening: &[u32], work: &mut [u32], list: &mut [u32]) -> Answer {
    make_by(|galley, origin, work| limited::fill(galley, origin, work, known), bytes, opening, work, list)
}

fn make_by(
    fill: impl Fn(&Galley, &Origin, &mut [u32]),
    bytes: &[u8],
    opening: &[u32],
    work: &mut [u32],
    list: &mut [u32],
) -> Answer {
    let galley = match read(bytes) {
        Err(refusal) => return refusal,
        Ok(galley) => galley,
    };
    let (needed, longest, words) = (work_words(&galley), list_words(&galley), galley.page_words());
    if work.len() < needed {
        return Answer::refused(9, needed);
    }
    if list.len() < longest {
        return Answer::refused(10, longest);
    }
    let origin = match origin_of(&galley, opening) {
        Err(refusal) => return refusal,
        Ok(origin) => origin,
    };
    let work = &mut work[..needed];
    fill(&galley, &origin, work);
    let answer = match best_end(&galley, work) {
        None => Answer::refused(11, 0),
        Some(side) => {
            let pages = trace(&galley, &origin, work, side, &mut []);
            let (printed, end) = (opening.len(), opening.len() + words * pages);
            list[..printed].copy_from_slice(opening);
            trace(&galley, &origin, work, side, &mut list[printed..end]);
            measure(&galley, &list[..end])
        }
    };
    work.fill(0);
    Answer { weighed: weighed_of(&galley, origin.placed), ..answer }
}

/// The side of the last page of the best list: of equal costs, that of an even last folio.
fn best_end(galley: &Galley, work: &[u32]) -> Option<usize> {
    let end = whole(galley);
    match (least(galley, work, end, OPENS), least(galley, work, end, ENDS)) {
        (None, None) => None,
        (Some(even), Some(odd)) if odd.cost < even.cost => Some(ENDS),
        (Some(_), _) => Some(OPENS),
        (None, Some(_)) => Some(ENDS),
    }
}

/// Follows the starts from the last page to the first after the origin and counts them; a list of that many pages gets
/// their ends.
pub fn trace(galley: &Galley, origin: &Origin, work: &[u32], side: usize, list: &mut [u32]) -> usize {
    let (words, origin) = (galley.page_words(), origin.place(galley));
    let mut end = whole(galley);
    let mut side = side;
    let mut pages = 0;
    while end != origin {
        let Some(Least { start, .. }) = least(galley, work, end, side) else { break };
        pages += 1;
        if words * pages <= list.len() {
            let at = list.len() - words * pages;
            let (j, d) = floats_at(galley, end.1);
            list[at..at + words].copy_from_slice(&[end.0 as u32, j as u32, d as u32][..words]);
        }
        end = start;
        side = side_before(galley.spec.sides, side);
    }
    pages
}
