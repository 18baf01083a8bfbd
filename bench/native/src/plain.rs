//! The plain search: for every place and side all starts are weighed, however many fit a page.

use crate::opening::Origin;
use crate::page::Height;
use crate::places::{
    column_of, columns, first_side, floats_at, least, may_end, may_part, price, side_before, store, whole, Cited, Cost,
    Least, Place, ENDS, OPENS, ORIGIN,
};
use crate::read::Galley;

pub fn fill(galley: &Galley, origin: &Origin, work: &mut [u32]) {
    for column in (0..columns(galley)).filter(|&column| origin.reaches(floats_at(galley, column))) {
        let mut cited = Cited::default();
        for i in origin.line()..=galley.m {
            cited = cited.through(galley, i);
            fill_place(galley, origin, work, (i, column), cited);
        }
    }
}

fn fill_place(galley: &Galley, origin: &Origin, work: &mut [u32], place: Place, cited: Cited) {
    let (i, column) = place;
    let floats = floats_at(galley, column);
    let mut best = [None; 2];
    if place == origin.place(galley) {
        best[origin.side] = Some(ORIGIN);
    } else if may_end(galley, i) && may_part(galley, floats.0) && (galley.spec.sides == 2 || cited.covers(floats)) {
        best = best_starts(galley, origin, work, place);
        // A float cited further on may not stand on a spread that ends before its citation.
        if !cited.covers(floats) {
            best[ENDS] = None;
        }
        if let Some(least) = &mut best[ENDS] {
            least.cost += price(galley, place, floats, cited);
        }
    }
    store(galley, work, place, OPENS, best[OPENS]);
    store(galley, work, place, ENDS, best[ENDS]);
}

/// For each side the best start of a page to a place by its heights: from the latest start to the earliest, which is the
/// origin, so that only a smaller cost changes the choice.
pub fn best_starts(galley: &Galley, origin: &Origin, work: &[u32], place: Place) -> [Option<Least>; 2] {
    let (spec, i, [line, figure, table]) = (&galley.spec, place.0, origin.placed);
    let (j, d) = floats_at(galley, place.1);
    let mut best: [Option<Least>; 2] = [None; 2];
    let mut lines = Height::default();
    for a in (line..=i).rev() {
        if a < i {
            lines = lines.with(galley.line(a + 1), a + 1 == i);
            if lines.tight > spec.ht_max {
                break;
            }
        }
        let mut figures = Height::default();
        for b in (figure..=j).rev() {
            if b < j {
                figures = figures.with(galley.figure(b + 1), b + 1 == j);
            }
            let page = lines.beside(figures, a < i && b < j, spec);
            if page.tight > spec.ht_max {
                break;
            }
            let mut tables = Height::default();
            for c in (table..=d).rev() {
                if c < d {
                    tables = tables.with(galley.table(c + 1), c + 1 == d);
                }
                let page = page.beside(tables, (a < i || b < j) && c < d, spec);
                if page.tight > spec.ht_max {
                    break;
                }
                weigh(galley, work, place, (a, column_of(galley, (b, c))), page, &mut best);
            }
        }
    }
    best
}

/// A start of a page to a place against the best so far, for each side: it is chosen where it is less dear, the page's white
/// space counted unless it is the last.
fn weigh(galley: &Galley, work: &[u32], place: Place, start: Place, page: Height, best: &mut [Option<Least>; 2]) {
    let spec = &galley.spec;
    let (ht_min, white) = match place == whole(galley) {
        true => (spec.last_min, 0),
        false => (spec.ht_min, page.white(spec)),
    };
    if start == place || page.loose < ht_min {
        return;
    }
    // A side is a number by which other tables are asked, too.
    #[allow(clippy::needless_range_loop)]
    for side in first_side(spec.sides)..=ENDS {
        let Some(before) = least(galley, work, start, side_before(spec.sides, side)) else { continue };
        let cost = before.cost + Cost::from(white);
        if best[side].is_none_or(|least| cost < least.cost) {
            best[side] = Some(Least { cost, start });
        }
    }
}
