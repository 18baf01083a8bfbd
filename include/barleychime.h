/* Barleychime: page make-up and marking for galleys with figures and tables.
 *
 * Making gives the pagination with the fewest page turns that a galley's page specification allows. If several have as few, it gives
 * the one with the least white space. It makes one galley, or the chapters of a book, or the pages after an opening that is already
 * printed. Marking judges a pagination that is handed in. Both work on lent memory alone: they allocate nothing, keep nothing between
 * calls, print nothing, and call nothing but memcpy and memset of the C library. Calls on memory that is not shared may run at the
 * same time.
 *
 * What the caller owes, because no call can see it:
 *   - A pointer leads to as many bytes or words as its length says, or to as many as an array parameter has: the 9 words of an
 *     answer, the 8 of that for a book, the 6 of a forecast, the words of a desk. It is aligned as its type is, and it is not
 *     null, not even where the length is 0 and nothing is read.
 *   - An area that is written overlaps no other area of the call, and nobody else reads or writes it during the call. Nobody
 *     writes an area that is only read.
 *   - The thread has BARLEYCHIME_STACK_BYTES of stack left, and for a book BARLEYCHIME_BOOK_STACK_BYTES.
 *
 * A galley has m lines (1 to 4,000), n figures (0 to 200) and k tables (0 to 50). A page list has two words a page: the lines
 * placed so far and the figures placed so far. For a galley that has tables it has three: the tables placed so far too. A word
 * is 32 bits in the machine's own byte order; the galley's bytes are the same everywhere.
 *
 * A galley has these records, in this order. A record is a mark of two ASCII bytes and then its fields, of 4 bytes each, unsigned, the
 * most significant first. Lengths are in hundredths of a point, 0 to 100,000, and a least one is not above its greatest one.
 *   GS  30 bytes  the page specification: htMin, htMax (not 0), sMin, sMax, sides (1 or 2), alpha, beta (0 to 1,000 each)
 *   G2  34 bytes  its second edition, which may stand for GS: the same fields and then lastMin, 0 to htMax
 *   FO   6 bytes  the folio of the first page, 1 to 9,999; the record may be absent, and the folio is then 1
 *   TL  18 bytes  a line: height, least and greatest space after it, 1 if a page may end in that space, else 0
 *   FG  18 bytes  a figure: height, least and greatest space after it, the number of the line that cites it, from 1
 *   FK  18 bytes  a figure among the others, with the same fields; no page may end between it and the next one
 *   TB  18 bytes  a table, with the fields of FG; tables follow all figures and are cited in an order of their own
 *   ED   2 bytes  the end
 * Lines, figures and tables are each in order, but a table may stand before a figure, and a figure before a table. A page that
 * has two of these kinds has a separation, sMin to sMax, and a page that has all three has two.
 * A page has at least htMin of height, at its loosest, and at most htMax, at its tightest. Under GS the last page has no least
 * height. Under G2 it has lastMin.
 * Double-sided (sides 2), an even folio and the next one face each other on a spread, so the first folio decides on spreads and
 * turns. Pages are counted from 1 all the same, in page lists, answers and places.
 *
 * Refusals: the call returns the number. answer[0] is the number, answer[1] the place, and the rest of the answer is 0. With 11
 * making also has the count of pages weighed.
 *
 * The galley's writer can mend these. Place: byte offset of the record's mark, or where one was due; for 8, of what follows.
 *    1  the galley stops short, inside a record or without its ED
 *    2  a mark is unknown, or known but out of place
 *    3  the value of a field is not allowed
 *    4  there is a line too many (4,000 is the most), a figure too many (200) or a table too many (50)
 *    5  figures, tables or the end come before the first line
 *    6  a figure or table names a citing line that the galley does not have
 *    7  a figure is cited earlier than the figure in front of it, or a table than the table in front of it
 *    8  something follows ED
 * The host program can mend these, which only making answers. Place: words needed.
 *    9  the work area that is lent is not long enough
 *   10  the page list that is lent is not long enough
 * The designer can mend this, which only making answers. Place: 0. With an opening it means that none begins so, and
 * of a book that no choice of a list for each chapter exists.
 *   11  no pagination of this galley meets its page specification
 * Whoever handed in the list can mend these, which only marking answers. Place: page, counted from 1; for 12, 0; for 18, the
 * number of pages.
 *   12  the list is empty, ends within a page, or is longer than any of this galley can be
 *   13  the page goes backwards, goes past what the galley has, or is empty
 *   14  the page ends after a line that must not end a page, or between figures that are kept together
 *   15  the page is higher than htMax even at its tightest
 *   16  the page is lower than htMin, or the last page lower than lastMin, even at its loosest
 *   17  a figure or table stands on a spread that ends before the line that cites it
 *   18  the list ends before everything is placed
 * Whoever handed in the opening can mend these, which only making after an opening answers. Place: for 20, the page, counted
 * from 1, or 0 where the opening ends within a page; for 21, the number of pages.
 *   20  the opening ends within a page, or the page, as one that is not the last, breaks one of 13 to 17
 *   21  the opening already places everything, and no page is left to make
 * These belong to the desk. Place: 0; for 23, the page. Whoever handed in the list can mend 22, the make-up hand the others.
 *   22  the marking does not accept the list, or it has more than 64 pages
 *   23  the page asked about is not one of the list in force, or is its last
 *   24  nothing is pending that could be put in force
 *   25  the name of a layout has no bytes, or more than 16
 *   26  no layout is held under this name
 *   27  eight layouts are held under other names, and a desk has no room for a ninth
 * Whoever bound the book can mend these, which only making a book answers. Place: for 28, 0; for the others the chapter, counted
 * from 1, and so it is of a chapter that 1 to 8 refuses.
 *   28  there is no chapter, there are more than 200, or their lengths do not add up to the bytes
 *   29  the page specification of the chapter is unlike that of the first
 *   30  the chapter states a first folio (FO), which only the first one may
 * Whoever handed in the marks can mend these, which only the report answers. Place: for 31, 0; for 32, the paper, counted
 * from 1.
 *   31  there are more marks than a report takes (10,000 is the most)
 *   32  the paper has fewer turns than the engine
 * Whoever asked for the section can mend this, which only barleychime_section answers. Place: the size.
 *   33  no section has so many pages: their number is a multiple of 4 from 4 to 64
 *
 * Making, marking, the forecast and the opening of a desk read the galley first and answer 1 to 8 alike. Making then looks at the
 * lengths, 9 before 10, and then at an opening, 20 before 21. It searches only if none of these is due. If several rules are broken,
 * marking answers the one on the earliest page, and there the lowest number. Making a book answers 28 first. Then it goes chapter by
 * chapter, with the chapter's own refusal before 29, and 29 before 30. Then it looks at the lengths, 9 before 10.
 */
#ifndef BARLEYCHIME_H
#define BARLEYCHIME_H

#include <stddef.h>
#include <stdint.h>

/* The version of this header, 10,000 times the major number, 100 times the minor one and the patch number, and in figures.
 * barleychime_version tells that of the library which a program is linked with. Under one major number calls are added, and what a
 * call does stays: a program works with every library whose version is not below that of the header it was compiled with.
 */
#define BARLEYCHIME_VERSION 200
#define BARLEYCHIME_VERSION_STRING "0.2.0"

/* The refusals by name, as the list above has them in words: what a call returns where it does not return 0. */
enum barleychime_refusal {
    BARLEYCHIME_STOPS_SHORT = 1,
    BARLEYCHIME_UNKNOWN_MARK = 2,
    BARLEYCHIME_BAD_FIELD = 3,
    BARLEYCHIME_TOO_MANY = 4,
    BARLEYCHIME_BEFORE_FIRST_LINE = 5,
    BARLEYCHIME_NO_SUCH_LINE = 6,
    BARLEYCHIME_OUT_OF_ORDER = 7,
    BARLEYCHIME_AFTER_END = 8,
    BARLEYCHIME_WORK_TOO_SHORT = 9,
    BARLEYCHIME_LIST_TOO_SHORT = 10,
    BARLEYCHIME_NO_PAGINATION = 11,
    BARLEYCHIME_BAD_LIST = 12,
    BARLEYCHIME_BAD_PAGE = 13,
    BARLEYCHIME_FORBIDDEN_END = 14,
    BARLEYCHIME_TOO_HIGH = 15,
    BARLEYCHIME_TOO_LOW = 16,
    BARLEYCHIME_TOO_SOON = 17,
    BARLEYCHIME_UNFINISHED = 18,
    BARLEYCHIME_INPUT_TOO_LONG = 19, /* of the small program alone: no call returns it */
    BARLEYCHIME_BAD_OPENING = 20,
    BARLEYCHIME_NOTHING_LEFT = 21,
    BARLEYCHIME_NOT_FOR_DESK = 22,
    BARLEYCHIME_NO_SUCH_PAGE = 23,
    BARLEYCHIME_NOTHING_PENDING = 24,
    BARLEYCHIME_BAD_NAME = 25,
    BARLEYCHIME_NO_SUCH_LAYOUT = 26,
    BARLEYCHIME_NO_ROOM = 27,
    BARLEYCHIME_BAD_CHAPTERS = 28,
    BARLEYCHIME_UNLIKE_FIRST = 29,
    BARLEYCHIME_FOLIO_STATED = 30,
    BARLEYCHIME_TOO_MANY_MARKS = 31,
    BARLEYCHIME_FEWER_THAN_ENGINE = 32,
    BARLEYCHIME_NO_SUCH_SECTION = 33
};

/* Words of work area and of page list that making needs for m lines and n figures without tables, and with k tables, 1 to 50.
 * No galley needs more than the most: 1.6 GB of work area, and without tables 32.2 MB.
 */
#define BARLEYCHIME_WORK_WORDS(m, n) ((size_t)10 * ((size_t)(m) + 1) * ((size_t)(n) + 1))
#define BARLEYCHIME_LIST_WORDS(m, n) ((size_t)2 * ((size_t)(m) + (size_t)(n)))
#define BARLEYCHIME_TABLES_WORK_WORDS(m, n, k) (BARLEYCHIME_WORK_WORDS(m, n) * ((size_t)(k) + 1))
#define BARLEYCHIME_TABLES_LIST_WORDS(m, n, k) ((size_t)3 * ((size_t)(m) + (size_t)(n) + (size_t)(k)))
#define BARLEYCHIME_MOST_WORK_WORDS BARLEYCHIME_TABLES_WORK_WORDS(4000, 200, 50)
#define BARLEYCHIME_MOST_LIST_WORDS BARLEYCHIME_TABLES_LIST_WORDS(4000, 200, 50)

/* Bytes of the longest galley. Whatever is longer is refused, and its first bytes, one more than these, decide how. */
#define BARLEYCHIME_LONGEST_GALLEY ((size_t)34 + 6 + 4250 * 18 + 2)

/* Bytes of stack that a call takes below the frame of its caller, at most: making a book, any other call, and marking alone.
 * They are what the archive's machine code takes, rounded up; the tests compare them. Making and the calls of a desk need 4,096
 * bytes more where the dynamic linker binds memcpy or memset at its first call, as in a program that is linked without -z now.
 * Signal handlers are not counted.
 */
#define BARLEYCHIME_BOOK_STACK_BYTES ((size_t)244224)
#define BARLEYCHIME_STACK_BYTES ((size_t)242176)
#define BARLEYCHIME_MARK_STACK_BYTES ((size_t)1024)

/* Words of an answer, of making and of marking: every caller lends so many. */
#define BARLEYCHIME_ANSWER_WORDS 9

/* What the nine words of an answer are. */
enum {
    BARLEYCHIME_NUMBER = 0, /* 0, or the number of the refusal */
    BARLEYCHIME_PLACE = 1,  /* 0, or the refusal's place */
    BARLEYCHIME_PAGES = 2,  /* p: pages */
    BARLEYCHIME_X = 3,      /* pages, or spreads, between citations and their figures and tables, summed over these */
    BARLEYCHIME_Y = 4,      /* turns from the first page to the last: pages, or spreads, between them */
    BARLEYCHIME_TURNS = 5,  /* T = alpha * X + beta * Y */
    BARLEYCHIME_WEIGHED_LOW = 6, /* the count of pages weighed, of 64 bits: its low word and its high word; 0 of marking */
    BARLEYCHIME_WEIGHED_HIGH = 7,
    BARLEYCHIME_WHITE = 8 /* W: what all pages but the last lack of htMax at their loosest, summed over them */
};

/* Chapters of the longest book, and the words of the answer for a book, of 64 bits. */
#define BARLEYCHIME_MOST_CHAPTERS 200
#define BARLEYCHIME_BOOK_WORDS 8

/* What the eight words of the answer for a book are: sums over its chapters, but for Y and T. */
enum {
    BARLEYCHIME_BOOK_NUMBER = 0, /* 0, or the number of the refusal */
    BARLEYCHIME_BOOK_PLACE = 1,  /* 0, or the refusal's place */
    BARLEYCHIME_BOOK_PAGES = 2,  /* p */
    BARLEYCHIME_BOOK_X = 3,
    BARLEYCHIME_BOOK_Y = 4,      /* turns from the book's first page to its last */
    BARLEYCHIME_BOOK_TURNS = 5,  /* T = alpha * X + beta * Y */
    BARLEYCHIME_BOOK_WHITE = 6,  /* W */
    BARLEYCHIME_BOOK_WEIGHED = 7 /* the count of pages weighed */
};

/* Words of a forecast. */
#define BARLEYCHIME_FORECAST_WORDS 6

/* What the six words of a forecast are. */
enum {
    BARLEYCHIME_FORECAST_NUMBER = 0, /* 0, or the number of the refusal */
    BARLEYCHIME_FORECAST_PLACE = 1,  /* 0, or the refusal's place */
    BARLEYCHIME_FORECAST_WORK = 2,   /* words of work area that making needs */
    BARLEYCHIME_FORECAST_LIST = 3,   /* words of page list that making needs */
    BARLEYCHIME_FORECAST_CEILING_LOW = 4, /* the ceiling on the pages weighed, of 64 bits: its low word and its high word */
    BARLEYCHIME_FORECAST_CEILING_HIGH = 5
};

/* The mark of one paper: what marking answered for its list, and the engine's T for the same galley. */
struct barleychime_paper {
    uint32_t pages, x, y, turns, engine;
};

/* Papers that a report takes, and its words. */
#define BARLEYCHIME_MOST_PAPERS 10000
#define BARLEYCHIME_REPORT_WORDS 11

/* What the eleven words of a report are. */
enum {
    BARLEYCHIME_REPORT_NUMBER = 0, /* 0, or the number of the refusal */
    BARLEYCHIME_REPORT_PLACE = 1,  /* 0, or the refusal's place */
    BARLEYCHIME_REPORT_PAPERS = 2, /* how many papers there are */
    BARLEYCHIME_REPORT_PAGES = 3,  /* the sum of p, and those of X, Y and T */
    BARLEYCHIME_REPORT_X = 4,
    BARLEYCHIME_REPORT_Y = 5,
    BARLEYCHIME_REPORT_TURNS = 6,
    BARLEYCHIME_REPORT_LEAST = 7, /* the least T of a paper, and the greatest */
    BARLEYCHIME_REPORT_GREATEST = 8,
    BARLEYCHIME_REPORT_EXCESS = 9, /* the mean excess over the engine: this sum, divided by this count */
    BARLEYCHIME_REPORT_COUNT = 10
};

/* Pages of the longest list on a desk, and the words of such a list; layouts that a desk has room for, the words of each, and the
 * bytes of the longest name; and the words of a desk, 7,096 bytes.
 */
#define BARLEYCHIME_DESK_PAGES 64
#define BARLEYCHIME_DESK_LIST_WORDS 192
#define BARLEYCHIME_MOST_LAYOUTS 8
#define BARLEYCHIME_LAYOUT_WORDS 197
#define BARLEYCHIME_LONGEST_NAME 16
#define BARLEYCHIME_DESK_WORDS 1774

/* What the words of a desk are. */
enum {
    BARLEYCHIME_DESK_COUNT = 0, /* p: pages of the list in force, 1 to 64; 0 on a desk without pages */
    BARLEYCHIME_DESK_WIDTH = 1, /* words a page: 2, or 3 where there are tables */
    BARLEYCHIME_DESK_PAGE = 2,  /* the page whose new end is pending; 0 where nothing is */
    BARLEYCHIME_DESK_END = 3,   /* three words, its new end; the third is not looked at where a page has two */
    BARLEYCHIME_DESK_LIST = 6,  /* 192 words, the list in force and whatever follows it */
    BARLEYCHIME_DESK_LAYOUTS = 198 /* eight layouts, of 197 words each */
};

/* What the words of a layout are. It has as many pages as the list in force, so their number stands once, on the desk. */
enum {
    BARLEYCHIME_LAYOUT_NAME_LENGTH = 0, /* bytes of its name, 1 to 16; 0 where the layout is free */
    BARLEYCHIME_LAYOUT_NAME = 1,        /* four words: the bytes of its name, as they stand in memory, and then zeros */
    BARLEYCHIME_LAYOUT_LIST = 5         /* 192 words, as those of the list in force */
};

#ifdef __cplusplus
extern "C" {
#endif

/* The version of the library, as BARLEYCHIME_VERSION is that of the header. It takes 8 bytes of stack. */
uint32_t barleychime_version(void);

/* Makes the pages of a galley.
 *
 * The caller owns all memory and lends it for the length of the call.
 *   galley      galley_len bytes, only read
 *   work        at least BARLEYCHIME_WORK_WORDS(m, n) words, of any contents; with tables BARLEYCHIME_TABLES_WORK_WORDS(m, n, k)
 *   pages       at least BARLEYCHIME_LIST_WORDS(m, n) words, of any contents; with tables BARLEYCHIME_TABLES_LIST_WORDS(m, n, k)
 *   answer      9 words, always written: number, place, p, X, Y, T, the count of pages weighed, low word and high word, and W
 * Longer areas are fine. barleychime_forecast tells the lengths beforehand; 9 and 10 tell them too, each with its own.
 *
 * The count is of every possible page: the pairs of a start and an end, reached or not, with something between them whose tightest
 * height is at most htMax, each pair once. The search looks at far fewer. The count is there on success and on 11, and it is never
 * above the forecast's ceiling.
 *
 * Returns 0 for success. Afterwards:
 *   success         2*p words of pages, or 3*p where there are tables, hold the list, the rest of it is as before; the words
 *                   of the work area that are needed are 0, the rest is as before
 *   11              pages is as before; the work area is as after success
 *   other refusals  pages and work area are as before
 */
uint32_t barleychime_make(const uint8_t *galley, size_t galley_len, uint32_t *work, size_t work_len, uint32_t *pages,
                          size_t pages_len, uint32_t answer[BARLEYCHIME_ANSWER_WORDS]);

/* Makes the pages of a galley after an opening, a page list whose pages are printed and stay: of the valid lists that begin with
 * it the one with the fewest turns. Without words it is barleychime_make, and everything said there holds here.
 *   opening     opening_len words, only read; not null even where there are none
 * The whole list is written, the opening included, and p, X, Y, T, W are those of the whole list. 11 means that no valid list
 * begins so. The count has only pages that start at or past the opening's end in lines, in figures and in tables.
 * An opening has whole pages, and none of them breaks 13 to 17 (20). None counts as the last of a list, so each has htMin, and
 * 17 is asked only of a page that ends its spread. An opening may have any length that leaves something to place (21). After 20 and
 * 21 pages and work area are as before.
 */
uint32_t barleychime_make_after(const uint8_t *galley, size_t galley_len, const uint32_t *opening, size_t opening_len,
                                uint32_t *work, size_t work_len, uint32_t *pages, size_t pages_len,
                                uint32_t answer[BARLEYCHIME_ANSWER_WORDS]);

/* Makes the pages of a book: 1 to 200 galleys, its chapters, lent end to end. The first chapter opens on its own folio, stated by FO
 * or 1, each later one on the folio after the last of the one before. Of all choices of a page list for each chapter, each valid at
 * the folio on which its chapter opens, it is the one with the fewest turns, and of these the one with the least white space. If both
 * tie, the last chapter's list decides as for a galley alone, then that of the chapter before it, and so on. A chapter may be
 * worse than it could be by itself. A book of one chapter is barleychime_make.
 *   galleys     galleys_len bytes, only read: the chapters, one after another
 *   lengths     lengths_len words, only read: the bytes of each chapter; they add up to galleys_len (28). Not null even where there
 *               are none
 *   work        at least twice the words that barleychime_make needs for the chapter that needs most, of any contents
 *   pages       at least the sum of the words that barleychime_make needs for each chapter, of any contents
 *   answer      8 words of 64 bits, always written: number, place, p, X, Y, T, W and the count of pages weighed
 * Longer areas are fine; barleychime_forecast tells the words of each chapter. All chapters have the first one's specification, mark
 * and fields alike, so that G2 and GS are unlike (29); FO stands in the first alone (30).
 *
 * p, X, W and the count are the sums of the chapters'; Y is from the first page of the book to the last. 11 means that there is no
 * choice. The count is there on success and on 11; other refusals have zeros after the place.
 *
 * Returns 0 for success. Afterwards:
 *   success         pages holds the chapters' lists, one after another, each in its own 2 or 3 words a page: a chapter's ends with
 *                   the page that places everything. The rest of pages is as before; the words of the work area that are needed are
 *                   0, the rest is as before
 *   11              pages is as before; the work area is as after success
 *   other refusals  pages and work area are as before
 */
uint32_t barleychime_book(const uint8_t *galleys, size_t galleys_len, const uint32_t *lengths, size_t lengths_len, uint32_t *work,
                          size_t work_len, uint32_t *pages, size_t pages_len, uint64_t answer[BARLEYCHIME_BOOK_WORDS]);

/* Marks a page list of pages_len words for a galley. Reads both, writes the answer and nothing else.
 * Returns 0 if the list is a valid pagination, with p, X, Y, T, W in the answer.
 */
uint32_t barleychime_mark(const uint8_t *galley, size_t galley_len, const uint32_t *pages, size_t pages_len,
                          uint32_t answer[BARLEYCHIME_ANSWER_WORDS]);

/* Tells of a galley beforehand what making needs and how many pages it weighs at most, under the same terms as the others and
 * with under 1,000 bytes of stack. Reads the galley, writes the forecast and nothing else.
 *   forecast    6 words, always written: number, place, words of work area, words of page list, and the ceiling on the pages
 *               weighed, low word and high word
 * The ceiling is (m + 1)(n + 1)(k + 1)(L + 1)(G + 1)(K + 1): L, G and K are the most consecutive lines, figures and tables whose
 * tightest height by themselves is at most htMax. It is below 2 to the 51st.
 * Returns 0 for success. A refused galley has its number and its place, and 0 in the other words.
 */
uint32_t barleychime_forecast(const uint8_t *galley, size_t galley_len, uint32_t forecast[BARLEYCHIME_FORECAST_WORDS]);

/* The words that a page takes in a list for a galley: 3 where it has tables, else 2; 2 also where the galley is refused. Two
 * words are one page, and no page too many, or else marking answers 12.
 */
static inline size_t barleychime_page_words(const uint8_t *galley, size_t galley_len)
{
    const uint32_t page[2] = {0, 0};
    uint32_t answer[BARLEYCHIME_ANSWER_WORDS];
    return barleychime_mark(galley, galley_len, page, 2, answer) == BARLEYCHIME_BAD_LIST ? 3 : 2;
}

/* A desk: another end of a page is tried before the list is changed, and layouts are kept to return to.
 *
 * A desk is BARLEYCHIME_DESK_WORDS words that the caller owns and lends to each call: plain data, which may be copied and kept,
 * without a pointer and without the galley. It holds the list in force, the pending page with its new end, and up to eight layouts
 * under names of 1 to 16 bytes. Names are any bytes; two are the same if length and bytes are. The galley is given again with each
 * ask. It has to be the one that the desk was opened on, or else the answers are not about the list in force.
 *
 * A desk may hold anything, also what no call left there. Every call on it is defined, ends, and reads and writes only what is lent.
 * It has as many pages as its first word says, if these are at most 64 and a page has 2 words or 3; else it has none. A new end is
 * pending if its page is one of 1 to p - 1. Of layouts with the same name the first counts. A layout whose name is longer than 16
 * bytes is neither held nor free. On a desk without pages every ask is 23 and every commit 24, and what is saved there is an empty
 * list.
 *
 * All of them take under 24,576 bytes of stack, write an answer and return its number. Opening and asking answer as marking does;
 * the others have 0 after number and place, but for p of the list in force where that is asked for.
 *
 * These hold for a desk that opens without a refusal, after any calls about its galley. The list in force is the last layout
 * returned to, or else the opening list, plus the page ends committed since then. A name gives the list that was in force when it was
 * last saved, until it is dropped. Marking accepts the list in force and every layout, and all of them have as many pages.
 */

/* Opens a desk on a galley and a list of list_len words, and marks the list.
 *   desk        of any contents; on success all of it is written: the list in force is the one lent, nothing is pending, no
 *               layout is held, and the words that are not used are 0
 * A refused galley is refused with its own number. 22 is then a list that marking does not accept, whatever rule it breaks, or one of
 * more than BARLEYCHIME_DESK_PAGES pages. A desk that is refused at opening has no pages: its first word is 0, and the others are as
 * before. So names that it held are held, each with an empty list.
 */
uint32_t barleychime_desk_open(const uint8_t *galley, size_t galley_len, const uint32_t *list, size_t list_len,
                               uint32_t desk[BARLEYCHIME_DESK_WORDS], uint32_t answer[BARLEYCHIME_ANSWER_WORDS]);

/* Marks the list in force with another end of a page, 1 to p - 1: the lines, the figures and the tables placed so far.
 *   end         3 words, only read; the third is not looked at in a galley without tables
 * The list in force stays as it is. An accepted ask is pending, in place of an earlier one. After a refused one, by any number,
 * nothing is pending. 23 is tested before the galley is read. Then the answer is that of marking, of 1 to 8 and 12 to 18.
 */
uint32_t barleychime_desk_ask(const uint8_t *galley, size_t galley_len, uint32_t page, const uint32_t end[3],
                              uint32_t desk[BARLEYCHIME_DESK_WORDS], uint32_t answer[BARLEYCHIME_ANSWER_WORDS]);

/* Puts in force what is pending; then nothing is pending. If nothing was pending, it is 24, and the desk is as before. */
uint32_t barleychime_desk_commit(uint32_t desk[BARLEYCHIME_DESK_WORDS], uint32_t answer[BARLEYCHIME_ANSWER_WORDS]);

/* Keeps the list in force as the layout of a name of name_len bytes: in place of the layout of that name, or else as the first
 * layout that is free. 25 is a bad length of a name, 27 a ninth name; then the desk is as before. What is pending stays.
 */
uint32_t barleychime_desk_save(const uint8_t *name, size_t name_len, uint32_t desk[BARLEYCHIME_DESK_WORDS],
                               uint32_t answer[BARLEYCHIME_ANSWER_WORDS]);

/* Returns to the layout of a name: puts it in force, and then nothing is pending. The layout stays. 25 is a bad length of a name, and
 * then 26 a name that is not held; then the desk is as before, and what is pending stays.
 */
uint32_t barleychime_desk_back(const uint8_t *name, size_t name_len, uint32_t desk[BARLEYCHIME_DESK_WORDS],
                               uint32_t answer[BARLEYCHIME_ANSWER_WORDS]);

/* Frees a name: its length is 0 wherever the desk had it, and all else stays, also what is pending. It is refused as
 * barleychime_desk_back is.
 */
uint32_t barleychime_desk_drop(const uint8_t *name, size_t name_len, uint32_t desk[BARLEYCHIME_DESK_WORDS],
                               uint32_t answer[BARLEYCHIME_ANSWER_WORDS]);

/* Tells the list in force: its words at the beginning of pages, whose other words stay, and p in the answer, whose other words
 * are 0. The desk is only read. Returns 0: it is never refused. Without pages p is 0 and all of pages stays.
 */
uint32_t barleychime_desk_list(const uint32_t desk[BARLEYCHIME_DESK_WORDS], uint32_t pages[BARLEYCHIME_DESK_LIST_WORDS],
                               uint32_t answer[BARLEYCHIME_ANSWER_WORDS]);

/* Reports on marks_len papers, in exact sums, under the same terms as the others and with under 1,000 bytes of stack.
 *   marks       marks_len papers, only read; not null even where there are none
 *   report      11 words of 64 bits, always written: number, place, papers, sums of p, X, Y, T, least T, greatest T,
 *               excess, count
 * Returns 0 for success; no papers give 0 in every word. More than BARLEYCHIME_MOST_PAPERS papers are 31, whatever they
 * are; then the first paper with fewer turns than the engine is 32. A refusal has zeros after its number and its place.
 */
uint32_t barleychime_report(const struct barleychime_paper *marks, size_t marks_len, uint64_t report[11]);

/* Gives the folding order of a stitched section of size pages, a multiple of 4 from 4 to 64: its pages as they stand on the
 * nested sheets, the outermost first, four a sheet: front left, front right, back left, back right. The areas must not
 * overlap. Like the other calls it works on lent memory alone; it takes under 1,000 bytes of stack.
 *   numbers     64 words, of any contents
 *   answer      2 words, always written: number, place
 * Returns 0 for success. Afterwards the first size words of numbers hold the pages, and the rest is as before; after a
 * refusal (33) all of it is.
 */
uint32_t barleychime_section(uint32_t size, uint32_t numbers[64], uint32_t answer[2]);

#ifdef __cplusplus
}
#endif

#endif
