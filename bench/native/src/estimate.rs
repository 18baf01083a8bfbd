//! How dear the best list may be, guessed from pages that are set greedily.
//!
//! A block goes on the page as soon as it may and fits: a float that is cited before the next line, and where nothing
//! fits the page is turned. That one list says how often the best one is turned and how long its floats wait. It looks at
//! no height but the tightest and at no rule of where a page may end, so it is a guess, and a search that relies on it
//! has to be made again where it was too low.

use crate::known::Known;
use crate::opening::Origin;
use crate::page::Placed;
use crate::places::{side_before, turns, Cited, Cost, ENDS};
use crate::read::{Block, Galley};
use crate::spec::Spec;

const LINES: usize = 0;
const FIGURES: usize = 1;
const TABLES: usize = 2;

/// The limits that a search tries one after the other, in turns; each is greater than the one before, and the last is none.
pub struct Limits {
    turns: [u32; 7],
    next: usize,
}

/// More turns than any list has.
const NONE: u32 = u32::MAX;

impl Limits {
    /// With a schedule they begin with the turns that are still to come at the origin, and go on to the guess by quarters of the way, one
    /// of which gives place to the floats that wait in the greedy list where those are fewer, and as far again.
    pub fn new(galley: &Galley, origin: &Origin, known: Known, root: u32) -> Self {
        let spec = &galley.spec;
        let mut pages = Greedy::new(galley, origin);
        while pages.placed != [galley.m, galley.n, galley.k] {
            pages.step(galley);
        }
        let guess = pages.guess(spec);
        let way = guess.saturating_sub(root);
        let waits = (spec.alpha * (pages.waits + 2)).min(way / 4);
        let turns = match known.schedule {
            true => [root, root + waits, root + way / 4, root + way / 2, guess, root + 2 * way, NONE],
            false => [guess, NONE, NONE, NONE, NONE, NONE, NONE],
        };
        Limits { turns, next: 0 }
    }
}

impl Iterator for Limits {
    type Item = Cost;

    /// A limit has room for any white space.
    fn next(&mut self) -> Option<Cost> {
        let limit = *self.turns.get(self.next)?;
        self.next += 1;
        while self.turns.get(self.next).is_some_and(|&next| next <= limit) {
            self.next += 1;
        }
        Some(if limit == NONE { Cost::MAX } else { turns(limit) + (turns(1) - 1) })
    }
}

/// Pages set so far: what is placed, the side of the present page and the room left on it, the leaves turned, and the floats that
/// waited at each of their turns.
struct Greedy {
    placed: Placed,
    side: usize,
    room: u32,
    turned: u32,
    waits: u32,
    cited: Cited,
}

impl Greedy {
    fn new(galley: &Galley, origin: &Origin) -> Self {
        let side = side_before(galley.spec.sides, origin.side);
        let (placed, room) = (origin.placed, galley.spec.ht_max);
        Greedy { placed, side, room, turned: 0, waits: 0, cited: Cited::default() }
    }

    /// The turns that a list after the origin may cost: those of the greedy one, and for the rules that it leaves out a sixteenth more
    /// leaves, two turns and two floats that wait. Where it never turns a leaf the best one hardly does, and costs nothing.
    fn guess(&self, spec: &Spec) -> u32 {
        match self.turned {
            0 => 0,
            turned => {
                let more = spec.beta * (turned / 16) + 2 * (spec.alpha + spec.beta);
                spec.alpha * self.waits + spec.beta * turned + more
            }
        }
    }

    /// Sets one block or turns the page.
    fn step(&mut self, galley: &Galley) {
        for stream in [FIGURES, TABLES, LINES] {
            if let Some(block) = self.next(galley, stream) {
                let apart = if stream == LINES { 0 } else { galley.spec.s_min };
                self.placed[stream] += 1;
                self.room = self.room.saturating_sub(block.height + block.least.max(apart));
                return;
            }
        }
        self.turn(galley);
    }

    /// The next block of a stream, if it may be set on the page now: a float from its citation on. A page with all its
    /// room left takes every block, however high, so that the list goes on.
    fn next(&self, galley: &Galley, stream: usize) -> Option<Block> {
        let [i, j, d] = self.placed;
        let block = match stream {
            LINES if i < galley.m => galley.line(i + 1),
            FIGURES if j < galley.n => galley.figure(j + 1),
            TABLES if d < galley.k => galley.table(d + 1),
            _ => return None,
        };
        let cited = stream == LINES || block.last as usize <= i;
        (cited && (block.height <= self.room || self.room == galley.spec.ht_max)).then_some(block)
    }

    fn turn(&mut self, galley: &Galley) {
        if self.side == ENDS {
            let [i, j, d] = self.placed;
            self.cited = self.cited.through(galley, i);
            self.waits += self.cited.waiting((j, d));
            self.turned += 1;
        }
        self.side = side_before(galley.spec.sides, self.side);
        self.room = galley.spec.ht_max;
    }
}
