// The refusals: number, name, words, what the place counts and who can mend it. The library's table is the source
// (`barleychime refusals --json`), and a test compares this one with it.

/** @typedef {{number: number, name: string, place: string, words: string, mender: string}} RefusalKind */

const WRITER = 'the galley\'s writer', HOST = 'the host program', DESIGNER = 'the designer';
const LIST = 'whoever handed in the list', OPENING = 'whoever handed in the opening', HAND = 'the make-up hand';
const RECORD = 'byte offset of the record', WORDS = 'words needed', PAGES = 'number of pages', NOTHING = '0';
const BINDER = 'whoever bound the book', MARKER = 'whoever handed in the marks';

/** @type {[number, string, string, string, string][]} */
const TABLE = [
  [1, 'StopsShort', RECORD, WRITER, 'the galley stops short, inside a record or without its `ED`'],
  [2, 'UnknownMark', RECORD, WRITER, 'a mark is unknown, or known but out of place'],
  [3, 'BadField', RECORD, WRITER, 'the value of a field is not allowed'],
  [4, 'TooMany', RECORD, WRITER, 'there is a line too many (4,000 is the most), a figure too many (200) or a table too many (50)'],
  [5, 'BeforeFirstLine', RECORD, WRITER, 'figures, tables or the end come before the first line'],
  [6, 'NoSuchLine', RECORD, WRITER, 'a figure or table names a citing line that the galley does not have'],
  [7, 'OutOfOrder', RECORD, WRITER,
    'a figure is cited earlier than the figure in front of it, or a table than the table in front of it'],
  [8, 'AfterEnd', 'byte offset of what follows', WRITER, 'something follows `ED`'],
  [9, 'WorkTooShort', WORDS, HOST, 'the work area that is lent is not long enough'],
  [10, 'ListTooShort', WORDS, HOST, 'the page list that is lent is not long enough'],
  [11, 'NoPagination', NOTHING, DESIGNER, 'no pagination of this galley meets its page specification'],
  [12, 'BadList', NOTHING, LIST, 'the list is empty, ends within a page, or is longer than any of this galley can be'],
  [13, 'BadPage', 'page', LIST, 'the page goes backwards, goes past what the galley has, or is empty'],
  [14, 'ForbiddenEnd', 'page', LIST,
    'the page ends after a line that must not end a page, or between figures that are kept together'],
  [15, 'TooHigh', 'page', LIST, 'the page is higher than htMax even at its tightest'],
  [16, 'TooLow', 'page', LIST, 'the page is lower than htMin, or the last page lower than lastMin, even at its loosest'],
  [17, 'TooSoon', 'page', LIST, 'a figure or table stands on a spread that ends before the line that cites it'],
  [18, 'Unfinished', PAGES, LIST, 'the list ends before everything is placed'],
  [19, 'InputTooLong', '8192', 'the person at the program', 'the input is longer than the small program takes'],
  [20, 'BadOpening', 'page, or 0 within a page', OPENING,
    'the opening ends within a page, or the page, as one that is not the last, breaks one of 13 to 17'],
  [21, 'NothingLeft', PAGES, OPENING, 'the opening already places everything, and no page is left to make'],
  [22, 'NotForDesk', NOTHING, LIST, 'the marking does not accept the list, or it has more than 64 pages'],
  [23, 'NoSuchPage', 'page', HAND, 'the page asked about is not one of the list in force, or is its last'],
  [24, 'NothingPending', NOTHING, HAND, 'nothing is pending that could be put in force'],
  [25, 'BadName', NOTHING, HAND, 'the name of a layout has no bytes, or more than 16'],
  [26, 'NoSuchLayout', NOTHING, HAND, 'no layout is held under this name'],
  [27, 'NoRoom', NOTHING, HAND, 'eight layouts are held under other names, and a desk has no room for a ninth'],
  [28, 'BadChapters', NOTHING, BINDER,
    'there is no chapter, there are more than 200, or their lengths do not add up to the bytes'],
  [29, 'UnlikeFirst', 'chapter', BINDER, 'the page specification of the chapter is unlike that of the first'],
  [30, 'FolioStated', 'chapter', BINDER, 'the chapter states a first folio (`FO`), which only the first one may'],
  [31, 'TooManyMarks', NOTHING, MARKER, 'there are more marks than a report takes (10,000 is the most)'],
  [32, 'FewerThanEngine', 'paper', MARKER, 'the paper has fewer turns than the engine'],
  [33, 'NoSuchSection', 'the size', 'whoever asked for the section',
    'no section has so many pages: their number is a multiple of 4 from 4 to 64'],
];

/** @type {ReadonlyMap<number, RefusalKind>} */
export const REFUSALS = new Map(TABLE.map(([number, name, place, mender, words]) => [number, { number, name, place, words, mender }]));

/** The name of a refusal, alike in all languages.
 * @param {number} number */
export const nameOf = (number) => REFUSALS.get(number)?.name ?? 'Unknown';

/** What a refusal of this number says, without its place.
 * @param {number} number */
export const meaningOf = (number) => REFUSALS.get(number)?.words ?? 'this refusal is not known to this version of the page';

/** Its place in words, with what follows it.
 * @param {string} place @param {number} count */
function placeWords(place, count) {
  switch (place) {
    case RECORD: case 'byte offset of what follows': return `at byte ${count}: `;
    case WORDS: return `${count} words are needed: `;
    case 'page': return `page ${count}: `;
    case 'page, or 0 within a page': return count ? `page ${count}: ` : '';
    case PAGES: return `page ${count}, the last: `;
    case '8192': return `more than ${count} bytes: `;
    case 'chapter': return `chapter ${count}: `;
    case 'paper': return `paper ${count}: `;
    case 'the size': return `${count} pages: `;
    default: return '';
  }
}

/**
 * A refusal in one sentence. What is no refusal of the engine's has its own words (`why`).
 * @param {{number: number, place: number, why?: string}} refusal
 */
export function sentence({ number, place, why }) {
  const kind = REFUSALS.get(number);
  if (why || !kind) return why ?? meaningOf(number);
  return `R ${number} ${place}, ${placeWords(kind.place, place)}${kind.words}.`;
}
