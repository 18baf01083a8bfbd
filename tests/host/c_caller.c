/* The version of the header and of the archive. Case A through the C interface: makes it, prints what the program prints, marks two lists, and tries too little memory.
 * Then two sections, one of a size that there is none of, and two reports, one with a paper below its engine. At last case A with
 * every record that it can have: double-sided from folio 38, the last page held to lastMin, the figure kept; and a galley with
 * a table, whose lists have three words a page; what each of the two is told to need beforehand, and what making weighed. Case A
 * after openings: one that costs a turn, one of no words, half a page, a page that breaks a rule, one that places everything; and
 * a list of it that leaves white space. Then a desk on case A, and one on the galley with a table; and both galleys as a book. */
#include <barleychime.h>
#include <stdio.h>
#include <string.h>

#define LINES 3
#define FIGURES 1
#define WORK BARLEYCHIME_WORK_WORDS(LINES, FIGURES)
#define LIST BARLEYCHIME_LIST_WORDS(LINES, FIGURES)
#define TABLES_WORK BARLEYCHIME_TABLES_WORK_WORDS(LINES, FIGURES, 1)
#define TABLES_LIST BARLEYCHIME_TABLES_LIST_WORDS(LINES, FIGURES, 1)

static uint8_t galley[34 + 6 + (LINES + FIGURES + 1) * 18 + 2];
static size_t galley_len = 0;

static void put(const char *mark, const uint32_t *fields, size_t count)
{
    memcpy(galley + galley_len, mark, 2);
    galley_len += 2;
    for (size_t k = 0; k < count; k++) {
        for (int shift = 24; shift >= 0; shift -= 8) {
            galley[galley_len++] = (uint8_t)(fields[k] >> shift);
        }
    }
}

static void put_blocks(const char *figure_mark)
{
    const uint32_t line[4] = {10, 0, 0, 1}, figure[4] = {20, 0, 0, 1};
    for (int k = 0; k < LINES; k++) {
        put("TL", line, 4);
    }
    put(figure_mark, figure, 4);
    put("ED", NULL, 0);
}

static void write_case_a(void)
{
    const uint32_t spec[7] = {30, 30, 0, 0, 1, 1, 1};
    galley_len = 0;
    put("GS", spec, 7);
    put_blocks("FG");
}

static void write_every_record(uint32_t last_min)
{
    const uint32_t spec[8] = {30, 30, 0, 0, 2, 1, 1, last_min}, folio[1] = {38};
    galley_len = 0;
    put("G2", spec, 8);
    put("FO", folio, 1);
    put_blocks("FK");
}

static void write_table(void)
{
    const uint32_t spec[7] = {0, 40, 0, 0, 1, 1, 1}, table[4] = {20, 0, 0, 1};
    galley_len = 0;
    put("GS", spec, 7);
    put_blocks("FG");
    galley_len -= 2;
    put("TB", table, 4);
    put("ED", NULL, 0);
}

static void print_answer(const uint32_t answer[BARLEYCHIME_ANSWER_WORDS])
{
    if (answer[BARLEYCHIME_NUMBER] != 0) {
        printf("R %u %u\n", (unsigned)answer[BARLEYCHIME_NUMBER], (unsigned)answer[BARLEYCHIME_PLACE]);
    } else {
        printf("%u %u %u %u %u\n", (unsigned)answer[BARLEYCHIME_PAGES], (unsigned)answer[BARLEYCHIME_X],
               (unsigned)answer[BARLEYCHIME_Y], (unsigned)answer[BARLEYCHIME_TURNS], (unsigned)answer[BARLEYCHIME_WHITE]);
    }
}

static unsigned long wide(uint32_t low, uint32_t high)
{
    return (unsigned long)((uint64_t)high << 32 | low);
}

/* What is told of the galley, and of a making's answer what was weighed. */
static void print_forecast(const uint32_t answer[BARLEYCHIME_ANSWER_WORDS])
{
    uint32_t told[BARLEYCHIME_FORECAST_WORDS + 1];

    told[BARLEYCHIME_FORECAST_WORDS] = 7;
    if (barleychime_forecast(galley, galley_len, told) != told[BARLEYCHIME_FORECAST_NUMBER] ||
        told[BARLEYCHIME_FORECAST_WORDS] != 7) {
        printf("a wrong number, or a word too many\n");
        return;
    }
    printf("%u %u: %u %u %lu, %lu weighed\n", (unsigned)told[BARLEYCHIME_FORECAST_NUMBER],
           (unsigned)told[BARLEYCHIME_FORECAST_PLACE], (unsigned)told[BARLEYCHIME_FORECAST_WORK],
           (unsigned)told[BARLEYCHIME_FORECAST_LIST],
           wide(told[BARLEYCHIME_FORECAST_CEILING_LOW], told[BARLEYCHIME_FORECAST_CEILING_HIGH]),
           wide(answer[BARLEYCHIME_WEIGHED_LOW], answer[BARLEYCHIME_WEIGHED_HIGH]));
}

static void print_section(uint32_t size)
{
    uint32_t numbers[64], answer[2];
    if (barleychime_section(size, numbers, answer) != 0) {
        printf("R %u %u\n", (unsigned)answer[BARLEYCHIME_NUMBER], (unsigned)answer[BARLEYCHIME_PLACE]);
        return;
    }
    for (uint32_t k = 0; k < size; k++) {
        printf("%u%c", (unsigned)numbers[k], k + 1 < size ? ' ' : '\n');
    }
}

static void print_report(struct barleychime_paper papers[2])
{
    uint64_t report[BARLEYCHIME_REPORT_WORDS];
    uint32_t number = barleychime_report(papers, 2, report);

    printf("%u:", (unsigned)number);
    for (int k = BARLEYCHIME_REPORT_NUMBER; k <= BARLEYCHIME_REPORT_COUNT; k++) {
        printf(" %lu", (unsigned long)report[k]);
    }
    printf("\n");
}

static void print_table(void)
{
    static uint32_t work[TABLES_WORK], pages[TABLES_LIST];
    const uint32_t two_words[4] = {2, 1, 3, 1};
    uint32_t answer[BARLEYCHIME_ANSWER_WORDS];

    printf("%u ", (unsigned)barleychime_page_words(galley, galley_len));
    write_table();
    printf("%u\n", (unsigned)barleychime_page_words(galley, galley_len));
    barleychime_make(galley, galley_len, work, TABLES_WORK, pages, TABLES_LIST, answer);
    print_answer(answer);
    for (uint32_t page = 0; page < answer[BARLEYCHIME_PAGES]; page++) {
        const uint32_t *end = pages + 3 * page;
        printf("%u %u %u %u\n", (unsigned)page + 1, (unsigned)end[0], (unsigned)end[1], (unsigned)end[2]);
    }
    print_forecast(answer);
    barleychime_mark(galley, galley_len, two_words, 4, answer);
    print_answer(answer);
    barleychime_make(galley, galley_len, work, TABLES_WORK - 1, pages, TABLES_LIST, answer);
    print_answer(answer);
    barleychime_make(galley, galley_len, work, TABLES_WORK, pages, TABLES_LIST - 1, answer);
    print_answer(answer);
}

/* What is made of the galley after an opening of so many words; an opening is only read, so it may be all that there is. */
static void print_after(const uint32_t *opening, size_t opening_len)
{
    static uint32_t work[WORK], pages[LIST];
    uint32_t answer[BARLEYCHIME_ANSWER_WORDS + 1];

    answer[BARLEYCHIME_ANSWER_WORDS] = 7;
    if (barleychime_make_after(galley, galley_len, opening, opening_len, work, WORK, pages, LIST, answer) !=
            answer[BARLEYCHIME_NUMBER] ||
        answer[BARLEYCHIME_ANSWER_WORDS] != 7) {
        printf("a wrong number, or a word too many\n");
        return;
    }
    print_answer(answer);
    for (uint32_t page = 0; page < answer[BARLEYCHIME_PAGES]; page++) {
        printf("%u %u %u\n", (unsigned)page + 1, (unsigned)pages[2 * page], (unsigned)pages[2 * page + 1]);
    }
    print_forecast(answer);
}

static void print_number(const uint32_t answer[BARLEYCHIME_ANSWER_WORDS])
{
    printf("%u %u\n", (unsigned)answer[BARLEYCHIME_NUMBER], (unsigned)answer[BARLEYCHIME_PLACE]);
}

static void print_list(const uint32_t desk[BARLEYCHIME_DESK_WORDS])
{
    uint32_t pages[BARLEYCHIME_DESK_LIST_WORDS], answer[BARLEYCHIME_ANSWER_WORDS];

    barleychime_desk_list(desk, pages, answer);
    printf("%u:", (unsigned)answer[BARLEYCHIME_PAGES]);
    for (uint32_t k = 0; k < answer[BARLEYCHIME_PAGES] * desk[BARLEYCHIME_DESK_WIDTH]; k++) {
        printf(" %u", (unsigned)pages[k]);
    }
    printf("\n");
}

/* Opens a desk on a list of two pages, asks about another end of page 1, and puts it in force; comes back to the first list. */
static void print_desk(const uint32_t *list, size_t list_len, const uint32_t end[3])
{
    static uint32_t desk[BARLEYCHIME_DESK_WORDS + 1];
    const uint8_t name[BARLEYCHIME_LONGEST_NAME + 1] = {'i', 't'};
    uint32_t answer[BARLEYCHIME_ANSWER_WORDS];

    desk[BARLEYCHIME_DESK_WORDS] = 7;
    barleychime_desk_open(galley, galley_len, list, list_len - 1, desk, answer);
    print_answer(answer);
    print_list(desk);
    barleychime_desk_open(galley, galley_len, list, list_len, desk, answer);
    print_answer(answer);
    barleychime_desk_ask(galley, galley_len, 1, end, desk, answer);
    print_answer(answer);
    print_list(desk);
    barleychime_desk_save(name, 2, desk, answer);
    print_number(answer);
    if (barleychime_desk_commit(desk, answer) == 0) {
        print_list(desk);
    }
    barleychime_desk_save(name, BARLEYCHIME_LONGEST_NAME + 1, desk, answer);
    print_number(answer);
    barleychime_desk_back(name, 1, desk, answer);
    print_number(answer);
    if (barleychime_desk_back(name, 2, desk, answer) == 0) {
        print_list(desk);
    }
    barleychime_desk_drop(name, 2, desk, answer);
    print_number(answer);
    barleychime_desk_drop(name, 2, desk, answer);
    print_number(answer);
    barleychime_desk_commit(desk, answer);
    print_answer(answer);
    barleychime_desk_ask(galley, galley_len, 2, end, desk, answer);
    print_answer(answer);
    if (desk[BARLEYCHIME_DESK_WORDS] != 7) {
        printf("a word too many\n");
    }
}

/* Two chapters as a book, of so many bytes each. */
static void print_book(const uint8_t *galleys, const uint32_t lengths[2], size_t work_len)
{
    static uint32_t work[2 * TABLES_WORK + 1], pages[LIST + TABLES_LIST];
    uint64_t made[BARLEYCHIME_BOOK_WORDS + 1];

    made[BARLEYCHIME_BOOK_WORDS] = 7;
    if (barleychime_book(galleys, (size_t)lengths[0] + lengths[1], lengths, 2, work, work_len, pages, LIST + TABLES_LIST, made) !=
            made[BARLEYCHIME_BOOK_NUMBER] ||
        made[BARLEYCHIME_BOOK_WORDS] != 7) {
        printf("a wrong number, or a word too many\n");
        return;
    }
    for (int k = BARLEYCHIME_BOOK_NUMBER; k <= BARLEYCHIME_BOOK_WEIGHED; k++) {
        printf("%lu%c", (unsigned long)made[k], k < BARLEYCHIME_BOOK_WEIGHED ? ' ' : '\n');
    }
    for (size_t k = 0; k < (made[BARLEYCHIME_BOOK_NUMBER] == 0 ? 10 : 0); k++) {
        printf("%u%c", (unsigned)pages[k], k < 9 ? ' ' : '\n');
    }
}

/* Case A, and the galley with a table, under one specification: in enough memory and in too little, with the second chapter cut
 * short, and with another htMax in the first. */
static void print_books(void)
{
    static uint8_t galleys[2 * sizeof galley];
    uint32_t lengths[2];

    write_case_a();
    galley[9] = 40; /* htMax */
    galley[5] = 0;  /* htMin */
    memcpy(galleys, galley, galley_len);
    lengths[0] = (uint32_t)galley_len;
    write_table();
    memcpy(galleys + lengths[0], galley, galley_len);
    lengths[1] = (uint32_t)galley_len;
    print_book(galleys, lengths, 2 * TABLES_WORK);
    print_book(galleys, lengths, 2 * TABLES_WORK - 1);
    lengths[1]--;
    print_book(galleys, lengths, 2 * TABLES_WORK);
    lengths[1]++;
    galleys[9] = 41;
    print_book(galleys, lengths, 2 * TABLES_WORK);
}

int main(void)
{
    static uint32_t work[WORK + 1], pages[LIST + 1];
    const uint32_t too_long[4] = {3, 0, 3, 1}, too_high[4] = {2, 1, 3, 1}, last_mins[3] = {20, 21, 31};
    const uint32_t tabled[6] = {2, 1, 0, 3, 1, 1}, later[3] = {2, 0, 1}, earlier[3] = {1, 1, 0xffffffffu};
    const uint32_t white[6] = {1, 0, 1, 1, 3, 1};
    struct barleychime_paper papers[2] = {{2, 0, 1, 1, 1}, {2, 1, 1, 0xffffffffu, 1}};
    uint32_t answer[BARLEYCHIME_ANSWER_WORDS + 1];

    printf("%s, %d, %u\n", BARLEYCHIME_VERSION_STRING, BARLEYCHIME_VERSION, (unsigned)barleychime_version());
    write_case_a();
    work[WORK] = pages[LIST] = answer[BARLEYCHIME_ANSWER_WORDS] = 7;
    if (barleychime_make(galley, galley_len, work, WORK, pages, LIST, answer) != answer[BARLEYCHIME_NUMBER]) {
        return 1;
    }
    print_answer(answer);
    for (uint32_t page = 0; page < answer[BARLEYCHIME_PAGES]; page++) {
        printf("%u %u %u\n", (unsigned)page + 1, (unsigned)pages[2 * page], (unsigned)pages[2 * page + 1]);
    }
    for (size_t k = 0; k < WORK; k++) {
        if (work[k] != 0) {
            return 1;
        }
    }
    if (work[WORK] != 7 || pages[LIST] != 7 || answer[BARLEYCHIME_ANSWER_WORDS] != 7) {
        return 1;
    }
    print_forecast(answer);

    barleychime_mark(galley, galley_len, too_long, 4, answer);
    print_answer(answer);
    barleychime_mark(galley, galley_len, too_high, 4, answer);
    print_answer(answer);
    barleychime_make(galley, galley_len, work, 0, pages, LIST, answer);
    print_answer(answer);
    barleychime_make(galley, galley_len, work, WORK, pages, 0, answer);
    print_answer(answer);
    print_after(too_long, 2);
    print_after(too_long, 0);
    print_after(too_long, 3);
    print_after(too_high, 2);
    galley[5] = 0; /* htMin */
    print_after(too_long, 4);
    barleychime_mark(galley, galley_len, white, 6, answer);
    print_answer(answer);
    galley[5] = 30;
    print_section(8);
    print_section(6);
    print_report(papers);
    papers[1].turns = 0;
    print_report(papers);
    for (int k = 0; k < 3; k++) {
        write_every_record(last_mins[k]);
        barleychime_make(galley, galley_len, work, WORK, pages, LIST, answer);
        print_answer(answer);
        print_forecast(answer);
    }
    print_table();
    print_desk(tabled, 6, later);
    write_case_a();
    print_desk(too_long, 4, earlier);
    print_books();
    return 0;
}
