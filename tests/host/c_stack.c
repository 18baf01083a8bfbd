/* Makes or marks on a thread that has a given number of bytes of stack left at the call.
 *
 *     c_stack                     prints the header's figures, for making, for marking and for a book
 *     c_stack BYTES GALLEY        makes the galley: prints the bytes left at the call, those taken, and the nine words
 *     c_stack BYTES GALLEY LIST   marks the list, two or three numbers a page, in the same way
 *     c_stack BYTES GALLEY LIST after   makes the galley after the list, which is an opening
 *     c_stack BYTES book GALLEY...      makes a book of these chapters, and prints the eight words of its answer
 *
 * Below the stack lies memory that nobody may touch, so a call that takes more ends the program by a signal. Above the
 * call a thread's stack has the thread's own data and the frames of those that called; what the stack has too much is given
 * away there. What a call takes is what it changes of a stack that was painted before.
 */
#define _GNU_SOURCE
#include <alloca.h>
#include <barleychime.h>
#include <inttypes.h>
#include <limits.h>
#include <pthread.h>
#include <stdio.h>
#include <stdlib.h>
#include <string.h>
#include <sys/mman.h>

#define PAGE ((size_t)4096)
#define FORBIDDEN (64 * PAGE)
#define ALIGNMENT ((size_t)16)
#define PAINT 0xa5

static uint8_t galley[BARLEYCHIME_LONGEST_GALLEY + 1];
static uint32_t pages[BARLEYCHIME_MOST_LIST_WORDS], list[BARLEYCHIME_MOST_LIST_WORDS], answer[BARLEYCHIME_ANSWER_WORDS], *work;
static size_t galley_len, work_len, list_len;
static uint8_t *chapters; /* end to end */
static uint32_t chapter_bytes[BARLEYCHIME_MOST_CHAPTERS];
static uint64_t book[BARLEYCHIME_BOOK_WORDS];
static size_t chapters_len, chapter_count;
static enum { MAKES, MARKS, MAKES_AFTER, BINDS } task = MAKES;

static unsigned char *lowest, *at_call; /* the stack's first byte, and where the caller's frame ends at the call */
static size_t wanted, left, taken;

typedef uint32_t maker(const uint8_t *, size_t, uint32_t *, size_t, uint32_t *, size_t, uint32_t *);
typedef uint32_t after_maker(const uint8_t *, size_t, const uint32_t *, size_t, uint32_t *, size_t, uint32_t *, size_t, uint32_t *);
typedef uint32_t marker(const uint8_t *, size_t, const uint32_t *, size_t, uint32_t *);
typedef uint32_t binder(const uint8_t *, size_t, const uint32_t *, size_t, uint32_t *, size_t, uint32_t *, size_t, uint64_t *);

/* Between the end of the caller's frame and a frame pointer lie the return address and the frame pointer before. */
#define SEE_STACK() (at_call = (unsigned char *)__builtin_frame_address(0) + 2 * sizeof(void *))

/* Stand-ins that only see where a call finds the stack. */
static uint32_t see_make(const uint8_t *bytes, size_t bytes_len, uint32_t *area, size_t area_len, uint32_t *room,
                         size_t room_len, uint32_t *words)
{
    SEE_STACK();
    return bytes != NULL && area != NULL && room != NULL && words != NULL && bytes_len + area_len + room_len > 0;
}

static uint32_t see_after(const uint8_t *bytes, size_t bytes_len, const uint32_t *opening, size_t opening_len, uint32_t *area,
                          size_t area_len, uint32_t *room, size_t room_len, uint32_t *words)
{
    SEE_STACK();
    return bytes != NULL && opening != NULL && area != NULL && room != NULL && words != NULL &&
           bytes_len + opening_len + area_len + room_len > 0;
}

static uint32_t see_mark(const uint8_t *bytes, size_t bytes_len, const uint32_t *pairs, size_t pairs_len, uint32_t *words)
{
    SEE_STACK();
    return bytes != NULL && pairs != NULL && words != NULL && bytes_len + pairs_len > 0;
}

static uint32_t see_book(const uint8_t *bytes, size_t bytes_len, const uint32_t *lengths, size_t lengths_len, uint32_t *area,
                         size_t area_len, uint32_t *room, size_t room_len, uint64_t *words)
{
    SEE_STACK();
    return bytes != NULL && lengths != NULL && area != NULL && room != NULL && words != NULL &&
           bytes_len + lengths_len + area_len + room_len > 0;
}

/* One call, of the engine or of its stand-in, from the same place: no compiler knows which. */
static __attribute__((noinline)) void call(maker *volatile make, after_maker *volatile after, marker *volatile mark,
                                           binder *volatile bind)
{
    if (task == BINDS) {
        bind(chapters, chapters_len, chapter_bytes, chapter_count, work, work_len, pages, BARLEYCHIME_MOST_LIST_WORDS, book);
    } else if (task == MARKS) {
        mark(galley, galley_len, list, list_len, answer);
    } else if (task == MAKES_AFTER) {
        after(galley, galley_len, list, list_len, work, work_len, pages, BARLEYCHIME_MOST_LIST_WORDS, answer);
    } else {
        make(galley, galley_len, work, work_len, pages, BARLEYCHIME_MOST_LIST_WORDS, answer);
    }
}

static void *run(void *given)
{
    volatile unsigned char *byte;
    call(see_make, see_after, see_mark, see_book);
    left = (size_t)(at_call - lowest);
    *(volatile char *)alloca(left - wanted - ALIGNMENT) = 0; /* alloca may take ALIGNMENT more */
    call(see_make, see_after, see_mark, see_book);
    left = (size_t)(at_call - lowest);
    for (byte = lowest; byte < at_call; byte++) {
        *byte = PAINT;
    }
    call(barleychime_make, barleychime_make_after, barleychime_mark, barleychime_book);
    for (byte = lowest; byte < at_call && *byte == PAINT; byte++) {
    }
    taken = (size_t)(at_call - byte);
    return given;
}

static int run_on_thread(void)
{
    const size_t size = (wanted + (size_t)PTHREAD_STACK_MIN) / PAGE * PAGE + 4 * PAGE;
    unsigned char *area = mmap(NULL, FORBIDDEN + size, PROT_NONE, MAP_PRIVATE | MAP_ANONYMOUS, -1, 0);
    pthread_attr_t attributes;
    pthread_t thread;
    if (area == MAP_FAILED) {
        return 0;
    }
    lowest = area + FORBIDDEN;
    return mprotect(lowest, size, PROT_READ | PROT_WRITE) == 0 && pthread_attr_init(&attributes) == 0 &&
           pthread_attr_setstack(&attributes, lowest, size) == 0 &&
           pthread_create(&thread, &attributes, run, NULL) == 0 && pthread_join(thread, NULL) == 0;
}

static int read_galley(const char *name)
{
    FILE *file = fopen(name, "rb");
    if (file == NULL) {
        return 0;
    }
    galley_len = fread(galley, 1, sizeof galley, file);
    return fclose(file) == 0;
}

static size_t work_needed(void)
{
    uint32_t forecast[BARLEYCHIME_FORECAST_WORDS];
    barleychime_forecast(galley, galley_len, forecast);
    return forecast[BARLEYCHIME_FORECAST_WORK];
}

/* As much work area as is needed; a word where it is none. */
static int take_work(size_t words)
{
    work_len = words;
    work = malloc((work_len + 1) * sizeof *work);
    return work != NULL;
}

/* The chapters end to end, and twice the work area that the largest needs. */
static int read_chapters(char **names)
{
    size_t largest = 0;
    for (chapter_count = 0; names[chapter_count] != NULL; chapter_count++) {
        if (chapter_count == BARLEYCHIME_MOST_CHAPTERS || !read_galley(names[chapter_count])) {
            return 0;
        }
        uint8_t *more = realloc(chapters, chapters_len + galley_len);
        if (more == NULL) {
            return 0;
        }
        chapters = more;
        memcpy(chapters + chapters_len, galley, galley_len);
        chapters_len += galley_len;
        chapter_bytes[chapter_count] = (uint32_t)galley_len;
        largest = work_needed() > largest ? work_needed() : largest;
    }
    return take_work(2 * largest);
}

static int read_list(const char *name)
{
    FILE *file = fopen(name, "r");
    if (file == NULL) {
        return 0;
    }
    for (list_len = 0; list_len < BARLEYCHIME_MOST_LIST_WORDS; list_len++) {
        if (fscanf(file, "%" SCNu32, &list[list_len]) != 1) {
            break;
        }
    }
    return fclose(file) == 0;
}

/* What the words of the command line name, and what is to be done with it. */
static int prepared(int count, char **words)
{
    if (count > 3 && strcmp(words[2], "book") == 0) {
        task = BINDS;
        return read_chapters(words + 3);
    }
    task = count > 4 ? MAKES_AFTER : count > 3 ? MARKS : MAKES;
    return count > 2 && read_galley(words[2]) && take_work(work_needed()) && (count == 3 || read_list(words[3]));
}

int main(int count, char **words)
{
    if (count == 1) {
        printf("%zu %zu %zu\n", BARLEYCHIME_STACK_BYTES, BARLEYCHIME_MARK_STACK_BYTES, BARLEYCHIME_BOOK_STACK_BYTES);
        return 0;
    }
    wanted = strtoul(words[1], NULL, 10);
    if (!prepared(count, words) || !run_on_thread()) {
        return 2;
    }
    printf("%zu %zu", left, taken);
    for (int k = 0; k < (task == BINDS ? BARLEYCHIME_BOOK_WORDS : BARLEYCHIME_ANSWER_WORDS); k++) {
        printf(" %" PRIu64, task == BINDS ? book[k] : answer[k]);
    }
    printf("\n");
    return 0;
}
