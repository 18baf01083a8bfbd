//! What stands before the lines: the specification of either edition, and the first folio.

use crate::read::{field, LONGEST};
use crate::Answer;

const HEAVIEST: u32 = 1_000;
const HIGHEST_FOLIO: u32 = 9_999;

/// Bytes of the specification in its first edition and in its second.
const SPEC_BYTES: usize = 30;
const SECOND_BYTES: usize = 34;
const FOLIO_BYTES: usize = 6;

#[derive(Clone, Copy)]
pub struct Spec {
    pub ht_min: u32,
    pub ht_max: u32,
    pub s_min: u32,
    pub s_max: u32,
    pub sides: u32,
    pub alpha: u32,
    pub beta: u32,
    /// The least height of the last page: 0 in the first edition.
    pub last_min: u32,
}

/// The specification of either edition, and where it ends.
pub fn read_spec(bytes: &[u8]) -> Result<(Spec, usize), Answer> {
    let size = match bytes {
        [] | [_] => return Err(Answer::refused(1, 0)),
        [b'G', b'S', ..] => SPEC_BYTES,
        [b'G', b'2', ..] => SECOND_BYTES,
        _ => return Err(Answer::refused(2, 0)),
    };
    if bytes.len() < size {
        return Err(Answer::refused(1, 0));
    }
    let spec = spec_of(&bytes[..size]);
    if spec_in_range(&spec) {
        Ok((spec, size))
    } else {
        Err(Answer::refused(3, 0))
    }
}

/// The first folio, 1 where none is stated, and where line 1 begins.
pub fn read_folio(bytes: &[u8], at: usize) -> Result<(u32, usize), Answer> {
    let rest = &bytes[at..];
    if !rest.starts_with(b"FO") {
        return Ok((1, at));
    }
    if rest.len() < FOLIO_BYTES {
        return Err(Answer::refused(1, at));
    }
    match field(rest, 0) {
        folio @ 1..=HIGHEST_FOLIO => Ok((folio, at + FOLIO_BYTES)),
        _ => Err(Answer::refused(3, at)),
    }
}

fn spec_of(record: &[u8]) -> Spec {
    Spec {
        ht_min: field(record, 0),
        ht_max: field(record, 1),
        s_min: field(record, 2),
        s_max: field(record, 3),
        sides: field(record, 4),
        alpha: field(record, 5),
        beta: field(record, 6),
        last_min: if record.len() == SECOND_BYTES { field(record, 7) } else { 0 },
    }
}

fn spec_in_range(spec: &Spec) -> bool {
    (1..=LONGEST).contains(&spec.ht_max)
        && spec.ht_min <= spec.ht_max
        && spec.s_max <= LONGEST
        && spec.s_min <= spec.s_max
        && (1..=2).contains(&spec.sides)
        && spec.alpha <= HEAVIEST
        && spec.beta <= HEAVIEST
        && spec.last_min <= spec.ht_max
}
