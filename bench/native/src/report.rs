//! The report on marks: every field of it by itself, from the whole list.

/// The mark of one paper, and the engine's turns for the same galley.
#[derive(Clone, Copy)]
#[repr(C)]
pub struct Mark {
    pub p: u32,
    pub x: u32,
    pub y: u32,
    pub t: u32,
    pub engine: u32,
}

/// Number, place, papers, sums of p, X, Y, T, least T, greatest T, excess and count.
pub fn report(marks: &[Mark]) -> [u64; 11] {
    let refused = |number, place| [number, place, 0, 0, 0, 0, 0, 0, 0, 0, 0];
    if marks.len() > 10_000 {
        return refused(31, 0);
    }
    if let Some(before) = marks.iter().position(|mark| mark.t < mark.engine) {
        return refused(32, before as u64 + 1);
    }
    let sum = |field: fn(&Mark) -> u32| marks.iter().map(|mark| u64::from(field(mark))).sum::<u64>();
    let turns = || marks.iter().map(|mark| u64::from(mark.t));
    let papers = marks.len() as u64;
    let (least, greatest) = (turns().min().unwrap_or(0), turns().max().unwrap_or(0));
    let excess = sum(|mark| mark.t) - sum(|mark| mark.engine);
    let [p, x, y, t] = [sum(|mark| mark.p), sum(|mark| mark.x), sum(|mark| mark.y), sum(|mark| mark.t)];
    [0, 0, papers, p, x, y, t, least, greatest, excess, papers]
}
