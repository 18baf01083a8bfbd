//! Every refusal: its number, its name, what it says, what its place counts, and who can mend it. The table stands here alone;
//! the C header, the other languages and the documents are tested against it.

use std::fmt;

/// Why work is turned away: document 01's number as a kind, and its place.
///
/// It is displayed as the code `R number place`, and the sentence after it:
///
/// ```
/// use barleychime::refusal::{Refusal, RefusalKind};
///
/// let refusal = Refusal { kind: RefusalKind::TooHigh, place: 4 };
/// assert_eq!(refusal.code(), "R 15 4");
/// assert_eq!(refusal.to_string(), "R 15 4: page 4: the page is higher than htMax even at its tightest; \
///     whoever handed in the list can mend it");
/// ```
#[derive(Clone, Copy, Debug, PartialEq, Eq, Hash)]
pub struct Refusal {
    /// What is wrong.
    pub kind: RefusalKind,
    /// Where it is wrong: what the number counts is said by [`Meaning::place`].
    pub place: u32,
}

/// What a refusal's place counts.
#[derive(Clone, Copy, Debug, PartialEq, Eq)]
#[non_exhaustive]
pub enum Place {
    /// The byte offset of a record.
    Record,
    /// The byte offset of what follows the end.
    Follower,
    /// The words of memory that are needed.
    Words,
    /// Nothing: the place is 0.
    Nothing,
    /// A page of the list, from 1.
    Page,
    /// A page of the opening, from 1; 0 if the opening ends within a page.
    PageIfAny,
    /// The number of pages.
    Pages,
    /// The most bytes that are taken.
    Bytes,
    /// A chapter of the book, from 1.
    Chapter,
    /// A paper among the marks, from 1.
    Paper,
    /// The size that was asked for.
    Size,
}

impl Place {
    /// What the place counts, in words.
    pub fn words(self) -> &'static str {
        match self {
            Place::Record => "byte offset of the record",
            Place::Follower => "byte offset of what follows",
            Place::Words => "words needed",
            Place::Nothing => "0",
            Place::Page => "page",
            Place::PageIfAny => "page, or 0 within a page",
            Place::Pages => "number of pages",
            Place::Bytes => "8192",
            Place::Chapter => "chapter",
            Place::Paper => "paper",
            Place::Size => "the size",
        }
    }

    /// How a sentence about this place opens.
    fn opening(self, place: u32) -> String {
        match self {
            Place::Record | Place::Follower => format!("at byte {place}: "),
            Place::Words => format!("{place} words are needed: "),
            Place::Nothing => String::new(),
            Place::PageIfAny if place == 0 => String::new(),
            Place::Page | Place::PageIfAny => format!("page {place}: "),
            Place::Pages => format!("page {place}, the last: "),
            Place::Bytes => format!("more than {place} bytes: "),
            Place::Chapter => format!("chapter {place}: "),
            Place::Paper => format!("paper {place}: "),
            Place::Size => format!("{place} pages: "),
        }
    }
}

/// A row of the table of refusals.
#[derive(Clone, Copy, Debug, PartialEq, Eq)]
#[non_exhaustive]
pub struct Meaning {
    /// Document 01's number.
    pub number: u32,
    /// The kind.
    pub kind: RefusalKind,
    /// The name of the kind, alike in every language.
    pub name: &'static str,
    /// What is wrong, as one sentence.
    pub words: &'static str,
    /// What the place counts.
    pub place: Place,
    /// Who can mend it, by document 01's groups.
    pub mender: &'static str,
}

/// The kinds and their table from one list, so that none can be in one alone.
macro_rules! refusals {
    ($($mender:literal { $($number:literal $kind:ident $place:ident $words:literal)* })*) => {
        /// What is wrong, with a name for each of document 01's numbers.
        #[derive(Clone, Copy, Debug, PartialEq, Eq, Hash)]
        #[non_exhaustive]
        pub enum RefusalKind {
            $($(#[doc = concat!($words, " (", $number, ")")] $kind,)*)*
            /// A number that this version does not know.
            Other(u32),
        }

        impl RefusalKind {
            /// The kind of this number.
            pub fn of(number: u32) -> Self {
                match number {
                    $($($number => RefusalKind::$kind,)*)*
                    other => RefusalKind::Other(other),
                }
            }

            /// Document 01's number.
            pub fn number(self) -> u32 {
                match self {
                    $($(RefusalKind::$kind => $number,)*)*
                    RefusalKind::Other(number) => number,
                }
            }

            /// The row of the table.
            pub fn meaning(self) -> Meaning {
                match self {
                    $($(RefusalKind::$kind => Meaning {
                        number: $number,
                        kind: self,
                        name: stringify!($kind),
                        words: $words,
                        place: Place::$place,
                        mender: $mender,
                    },)*)*
                    RefusalKind::Other(number) => Meaning {
                        number,
                        kind: self,
                        name: "Other",
                        words: "a refusal that this version does not know",
                        place: Place::Nothing,
                        mender: "whoever keeps the program",
                    },
                }
            }

            /// All kinds that have a name, in the order of their numbers.
            pub const ALL: &'static [RefusalKind] = &{
                // The groups are not in the order of the numbers.
                let listed = [$($(RefusalKind::$kind,)*)*];
                let numbers = [$($($number,)*)*];
                let mut ordered = listed;
                let mut at = 0;
                while at < listed.len() {
                    ordered[numbers[at] - 1] = listed[at];
                    at += 1;
                }
                ordered
            };
        }
    };
}

refusals! {
    "the galley's writer" {
        1 StopsShort Record "the galley stops short, inside a record or without its `ED`"
        2 UnknownMark Record "a mark is unknown, or known but out of place"
        3 BadField Record "the value of a field is not allowed"
        4 TooMany Record "there is a line too many (4,000 is the most), a figure too many (200) or a table too many (50)"
        5 BeforeFirstLine Record "figures, tables or the end come before the first line"
        6 NoSuchLine Record "a figure or table names a citing line that the galley does not have"
        7 OutOfOrder Record "a figure is cited earlier than the figure in front of it, or a table than the table in front of it"
        8 AfterEnd Follower "something follows `ED`"
    }
    "the host program" {
        9 WorkTooShort Words "the work area that is lent is not long enough"
        10 ListTooShort Words "the page list that is lent is not long enough"
    }
    "the designer" {
        11 NoPagination Nothing "no pagination of this galley meets its page specification"
    }
    "whoever handed in the list" {
        12 BadList Nothing "the list is empty, ends within a page, or is longer than any of this galley can be"
        13 BadPage Page "the page goes backwards, goes past what the galley has, or is empty"
        14 ForbiddenEnd Page "the page ends after a line that must not end a page, or between figures that are kept together"
        15 TooHigh Page "the page is higher than htMax even at its tightest"
        16 TooLow Page "the page is lower than htMin, or the last page lower than lastMin, even at its loosest"
        17 TooSoon Page "a figure or table stands on a spread that ends before the line that cites it"
        18 Unfinished Pages "the list ends before everything is placed"
        22 NotForDesk Nothing "the marking does not accept the list, or it has more than 64 pages"
    }
    "the person at the program" {
        19 InputTooLong Bytes "the input is longer than the small program takes"
    }
    "whoever handed in the opening" {
        20 BadOpening PageIfAny "the opening ends within a page, or the page, as one that is not the last, breaks one of 13 to 17"
        21 NothingLeft Pages "the opening already places everything, and no page is left to make"
    }
    "the make-up hand" {
        23 NoSuchPage Page "the page asked about is not one of the list in force, or is its last"
        24 NothingPending Nothing "nothing is pending that could be put in force"
        25 BadName Nothing "the name of a layout has no bytes, or more than 16"
        26 NoSuchLayout Nothing "no layout is held under this name"
        27 NoRoom Nothing "eight layouts are held under other names, and a desk has no room for a ninth"
    }
    "whoever bound the book" {
        28 BadChapters Nothing "there is no chapter, there are more than 200, or their lengths do not add up to the bytes"
        29 UnlikeFirst Chapter "the page specification of the chapter is unlike that of the first"
        30 FolioStated Chapter "the chapter states a first folio (`FO`), which only the first one may"
    }
    "whoever handed in the marks" {
        31 TooManyMarks Nothing "there are more marks than a report takes (10,000 is the most)"
        32 FewerThanEngine Paper "the paper has fewer turns than the engine"
    }
    "whoever asked for the section" {
        33 NoSuchSection Size "no section has so many pages: their number is a multiple of 4 from 4 to 64"
    }
}

impl RefusalKind {
    /// The name, alike in every language.
    pub fn name(self) -> &'static str {
        self.meaning().name
    }

    /// What is wrong, without the place.
    pub fn words(self) -> &'static str {
        self.meaning().words
    }

    /// Who can mend it.
    pub fn mender(self) -> &'static str {
        self.meaning().mender
    }

    /// Whether the galley itself is refused, whatever was asked of it.
    pub fn is_of_galley(self) -> bool {
        self.meaning().mender == RefusalKind::StopsShort.meaning().mender
    }

    /// Whether it is a rule that marking finds broken by a list.
    pub fn is_of_list(self) -> bool {
        (RefusalKind::BadList.number()..=RefusalKind::Unfinished.number()).contains(&self.number())
    }
}

impl Refusal {
    /// The refusal of this number; none for 0, which is success.
    pub(crate) fn of(number: u32, place: u32) -> Option<Self> {
        (number != 0).then(|| Refusal { kind: RefusalKind::of(number), place })
    }

    /// `R number place`, as every program of the project prints it.
    pub fn code(self) -> String {
        format!("R {} {}", self.kind.number(), self.place)
    }

    /// The refusal in one sentence, with its place and who can mend it.
    pub fn sentence(self) -> String {
        let Meaning { words, place, mender, .. } = self.kind.meaning();
        format!("{}{words}; {mender} can mend it", place.opening(self.place))
    }
}

impl fmt::Display for Refusal {
    fn fmt(&self, out: &mut fmt::Formatter) -> fmt::Result {
        write!(out, "{}: {}", self.code(), self.sentence())
    }
}

impl std::error::Error for Refusal {}

#[cfg(test)]
mod tests {
    use super::*;

    #[test]
    fn numbers_and_kinds_are_the_same() {
        assert_eq!(RefusalKind::ALL.len(), 33);
        for (number, &kind) in (1..).zip(RefusalKind::ALL) {
            assert_eq!((kind.number(), RefusalKind::of(number)), (number, kind));
            assert_eq!(kind.name(), format!("{kind:?}"));
        }
        assert_eq!(RefusalKind::of(34), RefusalKind::Other(34));
        assert_eq!(RefusalKind::Other(34).number(), 34);
    }

    #[test]
    fn the_groups_are_those_of_the_numbers() {
        for &kind in RefusalKind::ALL {
            assert_eq!(kind.is_of_galley(), kind.number() <= 8, "{kind:?}");
            assert_eq!(kind.is_of_list(), (12..=18).contains(&kind.number()), "{kind:?}");
        }
    }

    #[test]
    fn success_is_no_refusal() {
        assert_eq!(Refusal::of(0, 7), None);
        assert_eq!(Refusal::of(11, 0).map(Refusal::code), Some("R 11 0".into()));
    }
}
