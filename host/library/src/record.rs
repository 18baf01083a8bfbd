//! The records of a galley file: their marks and fields, in bytes and in words of a text.

/// A kind of record: its mark, and the names of its fields as people call them.
#[derive(Debug, PartialEq, Eq)]
pub struct Kind {
    /// Two letters.
    pub mark: &'static str,
    /// The names of its fields, in their order.
    pub fields: &'static [&'static str],
}

/// The page specification.
pub const SPEC: Kind = Kind { mark: "GS", fields: &["htMin", "htMax", "sMin", "sMax", "sides", "alpha", "beta"] };
/// Its second edition, with the least height of the last page.
pub const SECOND_SPEC: Kind =
    Kind { mark: "G2", fields: &["htMin", "htMax", "sMin", "sMax", "sides", "alpha", "beta", "lastMin"] };
/// The folio of the first page.
pub const FOLIO: Kind = Kind { mark: "FO", fields: &["folio"] };
/// A line.
pub const LINE: Kind = Kind { mark: "TL", fields: &["height", "least space", "greatest space", "page end"] };
/// A figure.
pub const FIGURE: Kind = Kind { mark: "FG", fields: &["height", "least space", "greatest space", "citation"] };
/// A figure that is kept with the next one.
pub const KEPT_FIGURE: Kind = Kind { mark: "FK", fields: FIGURE.fields };
/// A table.
pub const TABLE: Kind = Kind { mark: "TB", fields: FIGURE.fields };
/// The end.
pub const END: Kind = Kind { mark: "ED", fields: &[] };

/// All of them, in the order in which they come.
pub const KINDS: [&Kind; 8] = [&SPEC, &SECOND_SPEC, &FOLIO, &LINE, &FIGURE, &KEPT_FIGURE, &TABLE, &END];

/// The kind of a mark.
pub fn kind_of(mark: &[u8]) -> Option<&'static Kind> {
    KINDS.into_iter().find(|kind| kind.mark.as_bytes() == mark)
}

/// A record: its kind, and a number for each of its fields.
#[derive(Clone, Debug, PartialEq, Eq)]
pub struct Record {
    /// Its kind.
    pub kind: &'static Kind,
    /// Its fields, as many as its kind has.
    pub fields: Vec<u32>,
}

impl Record {
    /// The record that opens these bytes, if it is whole, and the bytes after it.
    pub fn take(bytes: &[u8]) -> Option<(Record, &[u8])> {
        let (mark, rest) = bytes.split_at_checked(2)?;
        let kind = kind_of(mark)?;
        let (fields, rest) = rest.split_at_checked(4 * kind.fields.len())?;
        let fields = fields.chunks_exact(4).map(|field| u32::from_be_bytes([field[0], field[1], field[2], field[3]]));
        Some((Record { kind, fields: fields.collect() }, rest))
    }

    /// Writes it after these bytes.
    pub fn put(&self, bytes: &mut Vec<u8>) {
        bytes.extend_from_slice(self.kind.mark.as_bytes());
        for field in &self.fields {
            bytes.extend_from_slice(&field.to_be_bytes());
        }
    }

    /// Which field is outside its range, counted from 0, and the range in words: what lies behind refusal 3.
    pub fn out_of_range(&self) -> Option<(usize, String)> {
        const LONGEST: u32 = 100_000;
        let ranges: Vec<(u32, u32)> = match (self.kind.mark, self.fields.as_slice()) {
            ("GS" | "G2", &[_, ht_max, _, s_max, ..]) => {
                vec![(0, ht_max), (1, LONGEST), (0, s_max), (0, LONGEST), (1, 2), (0, 1_000), (0, 1_000), (0, ht_max)]
            }
            ("FO", _) => vec![(1, 9_999)],
            ("TL", &[_, _, most, _]) => vec![(0, LONGEST), (0, most), (0, LONGEST), (0, 1)],
            ("FG" | "FK" | "TB", &[_, _, most, _]) => vec![(0, LONGEST), (0, most), (0, LONGEST)],
            _ => vec![],
        };
        let outside = |(&field, &(least, most)): (&u32, &(u32, u32))| field < least || field > most;
        let at = self.fields.iter().zip(&ranges).position(outside)?;
        Some((at, format!("{} to {}", ranges[at].0, ranges[at].1)))
    }
}

/// The highest folio that a first page can state.
const HIGHEST_FOLIO: u32 = 9_999;

/// The bytes of a galley that opens on another folio: with an `FO` in place of its own, or put in where it has none. Which pages face
/// each other hangs on whether the folio is even; so a folio that is too high to be stated is stated as the highest like it.
pub fn opened_on(galley: &[u8], folio: u32) -> Vec<u8> {
    let Some((spec, rest)) = Record::take(galley) else { return galley.to_vec() };
    let rest = match Record::take(rest) {
        Some((stated, after)) if *stated.kind == FOLIO => after,
        _ => rest,
    };
    let folio = if folio > HIGHEST_FOLIO { HIGHEST_FOLIO - 1 + folio % 2 } else { folio };
    let mut bytes = Vec::new();
    spec.put(&mut bytes);
    Record { kind: &FOLIO, fields: vec![folio] }.put(&mut bytes);
    bytes.extend_from_slice(rest);
    bytes
}

#[cfg(test)]
mod tests {
    use super::*;
    use crate::text::{pack, unpack};

    #[test]
    fn a_galley_opens_on_another_folio() {
        let text = |folio: &str| format!("GS 30 30 0 0 1 1 1\n{folio}TL 10 0 0 1\nED\n");
        let opened = |stated: &str, folio: u32| {
            let bytes = pack(&text(stated)).expect("a galley").bytes;
            unpack(&opened_on(&bytes, folio)).0
        };
        assert_eq!(opened("", 38), text("FO 38\n"));
        assert_eq!(opened("FO 7\n", 38), text("FO 38\n"));
        assert_eq!(opened("", 10_000), text("FO 9998\n"));
        assert_eq!(opened("", 12_345), text("FO 9999\n"));
        assert_eq!(opened_on(b"no galley", 3), b"no galley");
    }
}
