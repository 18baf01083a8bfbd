//! Where no pagination exists: how far the least heights would have to be lowered, and how much of an opening could stay.

use crate::engine::{page_words, Memory};
use crate::galley::{Galley, Spec};
use std::collections::BTreeMap;

/// Where the two least heights stand in a galley's bytes; the second one in the second edition alone.
const HT_MIN: usize = 2;
const LAST_MIN: usize = 30;

/// The galley with other least heights, each pair of them tried once, and whoever is told what is tried.
struct Trials<'a> {
    galley: Vec<u8>,
    second_edition: bool,
    opening: &'a [u32],
    memory: &'a mut Memory,
    tell: &'a mut dyn FnMut(&str),
    tried: BTreeMap<(u32, u32), bool>,
}

impl Trials<'_> {
    /// Whether a pagination begins with the opening at these heights.
    fn exists(&mut self, ht_min: u32, last_min: u32) -> bool {
        if let Some(&known) = self.tried.get(&(ht_min, last_min)) {
            return known;
        }
        self.galley[HT_MIN..HT_MIN + 4].copy_from_slice(&ht_min.to_be_bytes());
        let mut heights = format!("htMin {ht_min}");
        if self.second_edition {
            self.galley[LAST_MIN..LAST_MIN + 4].copy_from_slice(&last_min.to_be_bytes());
            heights += &format!(" and lastMin {last_min}");
        }
        (self.tell)(&format!("trying {heights}"));
        let exists = self.memory.make_after(&self.galley, self.opening).is_ok();
        self.tried.insert((ht_min, last_min), exists);
        exists
    }
}

/// The greatest number below the last with which there is a success, if there is one with 0. What succeeds with a number
/// succeeds with every lower one, so halving the interval finds it. Of htMin that is a theorem: lowering it never loses a
/// pagination, nor adds turns (document 02, S-14). Lowering lastMin forbids no page that was allowed either.
fn greatest(last: u32, mut succeeds: impl FnMut(u32) -> bool) -> Option<u32> {
    if last == 0 || !succeeds(0) {
        return None;
    }
    let (mut found, mut none) = (0, last);
    while found + 1 < none {
        let middle = found + (none - found) / 2;
        if succeeds(middle) {
            found = middle;
        } else {
            none = middle;
        }
    }
    Some(found)
}

/// What would help a galley that has no pagination which begins with the opening, a remark each: to lower htMin, to lower
/// lastMin, or both; or to keep less of the opening. What is tried is told beforehand.
pub fn advice(galley: &[u8], opening: &[u32], memory: &mut Memory, tell: &mut dyn FnMut(&str)) -> Vec<String> {
    let Some(Galley { spec, .. }) = Galley::decode(galley) else { return vec![] };
    let (second_edition, tried) = (spec.last_min.is_some(), BTreeMap::new());
    let mut trials = Trials { galley: galley.to_vec(), second_edition, opening, memory, tell, tried };
    let mut remarks = lowered(&spec, &mut trials);
    remarks.extend(shortened(galley, opening, memory, tell));
    remarks
}

/// Each least height lowered by itself, or else both. As low as they go comes first: where that has no pagination, nothing
/// else has.
fn lowered(spec: &Spec, trials: &mut Trials) -> Vec<String> {
    // In the first edition there is no lastMin, which is as good as 0: nothing is left to lower.
    let (ht_min, last_min) = (spec.ht_min, spec.last_min.unwrap_or(0));
    trials.tried.insert((ht_min, last_min), false);
    if !trials.exists(0, 0) {
        return vec![if last_min == 0 {
            "no pagination exists even at htMin 0".into()
        } else {
            "no pagination exists even at htMin 0 and lastMin 0".into()
        }];
    }
    let one = greatest(ht_min, |height| trials.exists(height, last_min));
    let two = greatest(last_min, |height| trials.exists(ht_min, height));
    let told = |name: &str, asked: u32, found: u32| {
        format!("{name} is {asked}; the greatest at which a pagination exists is {}", filled(found, spec.ht_max))
    };
    match (one, two) {
        (Some(one), Some(two)) => {
            vec![told("htMin", ht_min, one), format!("or {}", told("lastMin", last_min, two))]
        }
        (Some(one), None) => vec![told("htMin", ht_min, one) + &in_vain("lastMin", last_min)],
        (None, Some(two)) => vec![told("lastMin", last_min, two) + &in_vain("htMin", ht_min)],
        (None, None) => vec![both(spec.ht_max, ht_min, last_min, trials)],
    }
}

/// That a height is not worth a try, unless nobody would try.
fn in_vain(name: &str, asked: u32) -> String {
    match asked {
        0 => String::new(),
        _ => format!("; no {name} is low enough by itself"),
    }
}

fn filled(height: u32, ht_max: u32) -> String {
    let per_mille = u64::from(height) * 1_000 / u64::from(ht_max.max(1));
    format!("{height} ({}.{} % of htMax)", per_mille / 10, per_mille % 10)
}

/// Both lowered: htMin as little as lastMin 0 allows, then lastMin as little as that allows.
fn both(ht_max: u32, ht_min: u32, last_min: u32, trials: &mut Trials) -> String {
    let one = greatest(ht_min, |height| trials.exists(height, 0)).unwrap_or(0);
    let two = greatest(last_min, |height| trials.exists(one, height)).unwrap_or(0);
    let (one, two) = (filled(one, ht_max), filled(two, ht_max));
    format!("neither htMin nor lastMin is low enough by itself; a pagination exists at htMin {one} and lastMin {two}")
}

/// How many pages of the opening could stay: a list that begins with pages begins with fewer of them.
fn shortened(galley: &[u8], opening: &[u32], memory: &mut Memory, tell: &mut dyn FnMut(&str)) -> Option<String> {
    let words = page_words(galley).ok()?;
    let pages = (opening.len() / words) as u32;
    let stays = |kept: u32| {
        tell(&format!("trying the first {kept} of the opening's {pages} pages"));
        memory.make_after(galley, &opening[..words * kept as usize]).is_ok()
    };
    (pages > 0).then(|| match greatest(pages, stays) {
        None => "no pagination exists without the opening either".into(),
        Some(0) => "a pagination exists without the opening, but none that begins with its first page".into(),
        Some(kept) => {
            format!("a pagination exists that begins with {kept} of the opening's {pages} pages, and no more")
        }
    })
}
