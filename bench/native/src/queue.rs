//! A queue of the starting lines in a window, the best of them in front.

use crate::places::Cost;
use crate::read::MOST_LINES;

/// Starts that rise in line and in cost. A start that is left out has a later one in the queue that is no dearer, so
/// the front is the cheapest of the window and, of equally cheap ones, the latest.
pub struct Queue {
    lines: [u32; MOST_LINES],
    costs: [Cost; MOST_LINES],
    front: usize,
    back: usize,
}

impl Queue {
    pub fn new() -> Self {
        Queue { lines: [0; MOST_LINES], costs: [0; MOST_LINES], front: 0, back: 0 }
    }

    pub fn clear(&mut self) {
        (self.front, self.back) = (0, 0);
    }

    /// A later start enters the window: those before it that are no cheaper will never be chosen again.
    pub fn enter(&mut self, line: usize, cost: Cost) {
        while self.front < self.back && cost <= self.costs[self.back - 1] {
            self.back -= 1;
        }
        self.lines[self.back] = line as u32;
        self.costs[self.back] = cost;
        self.back += 1;
    }

    /// The starts before line `low` leave the window.
    pub fn leave(&mut self, low: usize) {
        while self.front < self.back && (self.lines[self.front] as usize) < low {
            self.front += 1;
        }
    }

    /// The line and the cost of the best start in the window.
    pub fn best(&self) -> Option<(usize, Cost)> {
        (self.front < self.back).then(|| (self.lines[self.front] as usize, self.costs[self.front]))
    }
}
