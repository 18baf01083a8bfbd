//! What a search within a limit knows of a galley beside the limit. Each part alone leaves every answer as it is, and only spares work.

/// The parts that a search goes by.
#[derive(Clone, Copy, Debug, PartialEq, Eq)]
pub struct Known {
    /// Starts in another column that are dearer than what a place holds, or than the limit, are not weighed.
    pub beaten: bool,
    /// No page ends where none could start.
    pub dead: bool,
    /// What is still to come: the leaves of the pages that the blocks not placed take by their heights;
    pub leaves: bool,
    /// of those that each stream takes by itself;
    pub alone: bool,
    /// and the floats that wait on them.
    pub waits: bool,
    /// The limits rise from what is still to come at the origin to the guess. Else there is the guess, and then no limit.
    pub schedule: bool,
}

/// A limit and nothing else.
pub const LIMIT: Known =
    Known { beaten: false, dead: false, leaves: false, alone: false, waits: false, schedule: false };

/// All that is known.
pub const ALL: Known = Known { beaten: true, dead: true, leaves: true, alone: true, waits: true, schedule: true };

/// What the engine of today knows.
pub const ENGINE: Known = Known { beaten: true, dead: true, leaves: true, ..LIMIT };
