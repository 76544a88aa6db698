/* The line protocol over the C entries: one request a line on standard input, one answer a line. A packed event is
 * b:BYTES if it is said to be bare, v:BYTES if it is said to be versioned; without a mark it is bare.
 * It also watches what it lends: inputs keep their bytes, a refusal leaves every buffer and number as it was, success
 * leaves the bytes behind the written length as they were, and nothing around a buffer is touched. An input ends where
 * its page ends, so that a read past it is seen. So do the two buffers of a table of records and the state of a hash,
 * which live from line to line; of them nothing may change but what an answer says. Whatever goes wrong is the answer
 * `broken ..`. */
#define _GNU_SOURCE
#include "kezubimoryu.h"

#include <inttypes.h>
#include <setjmp.h>
#include <signal.h>
#include <stdio.h>
#include <stdlib.h>
#include <string.h>
#include <sys/mman.h>
#include <unistd.h>

enum { MOST = 1 << 21, GUARD = 64, NUMBERS = 6 };

static uint64_t line_number;
static const char *broken; /* what went wrong in this request, if anything */
static sigjmp_buf out_of_the_call;

static void wrong(const char *what)
{
    if (!broken)
        broken = what;
}

static void fault(int signal)
{
    wrong(signal == SIGALRM ? "does not end" : signal == SIGABRT ? "gives up" : "goes past what is lent");
    siglongjmp(out_of_the_call, 1);
}

/* Lent bytes that end at a page which can't be touched, and a copy of them; of packed ones, what is said of them. */
typedef struct {
    uint8_t *end, *copy;
    const uint8_t *at;
    size_t len;
    uint64_t bare;
} input;

static input first, second;

static int make_input(input *in)
{
    size_t page = (size_t)sysconf(_SC_PAGESIZE);
    uint8_t *map = mmap(NULL, MOST + page, PROT_READ | PROT_WRITE, MAP_PRIVATE | MAP_ANONYMOUS, -1, 0);
    in->copy = malloc(MOST);
    if (map == MAP_FAILED || !in->copy || mprotect(map + MOST, page, PROT_NONE))
        return 0;
    in->end = map + MOST;
    return 1;
}

static int digit(char c)
{
    return c >= '0' && c <= '9' ? c - '0' : c >= 'a' && c <= 'f' ? c - 'a' + 10 : -1;
}

/* How many bytes a word spells. */
static size_t spelled(const char *word)
{
    return strcmp(word, "-") ? strlen(word) / 2 : 0;
}

/* Puts the bytes that a word spells; 0 if it spells none. */
static int unhex(uint8_t *to, const char *word)
{
    size_t len = spelled(word);
    for (size_t i = 0; i < len; i++) {
        int high = digit(word[2 * i]), low = digit(word[2 * i + 1]);
        if (high < 0 || low < 0)
            return 0;
        to[i] = (uint8_t)(high << 4 | low);
    }
    return !len || !word[2 * len];
}

/* Takes the bytes that a word spells; nothing is lent as a null pointer or as the end of a page, by turns. */
static int lend(input *in, const char *word)
{
    in->len = spelled(word);
    uint8_t *to = in->end - in->len;
    if (in->len > MOST || !unhex(to, word))
        return 0;
    memcpy(in->copy, to, in->len);
    in->at = in->len || line_number % 2 ? to : NULL;
    return 1;
}

/* The same of a packed event: `v:BYTES` is said to be versioned, `b:BYTES` or BYTES alone to be bare. Any number but 0
 * says so, and by turns the entries get different ones. */
static int lend_packed(input *in, const char *word)
{
    static const uint64_t yes[] = {KEZ_BARE, 2, 256, UINT64_C(1) << 32, UINT64_C(1) << 63, UINT64_MAX};
    int marked = !strncmp(word, "v:", 2) || !strncmp(word, "b:", 2);
    in->bare = *word == 'v' ? KEZ_VERSIONED : yes[line_number % (sizeof yes / sizeof *yes)];
    return lend(in, word + 2 * marked);
}

static void check_input(const input *in)
{
    if (memcmp(in->end - in->len, in->copy, in->len))
        wrong("changes its input");
}

/* A lent buffer with guards on both sides, all filled with a pattern. */
static uint8_t area[GUARD + MOST + GUARD];

static uint8_t pattern(size_t i)
{
    return (uint8_t)(i * 167 + (i >> 8) + line_number);
}

static uint8_t *lend_room(size_t room)
{
    for (size_t i = 0; i < GUARD + room + GUARD; i++)
        area[i] = pattern(i);
    return room || line_number % 2 ? area + GUARD : NULL;
}

static void check_room(size_t room, size_t written)
{
    for (size_t i = 0; i < GUARD + room + GUARD; i++)
        if ((i < GUARD || i >= GUARD + written) && area[i] != pattern(i)) {
            wrong(i < GUARD || i >= GUARD + room ? "writes outside its buffer"
                  : written                      ? "writes behind the written length"
                                                 : "writes though nothing is to be written");
            return;
        }
}

/* Lent numbers with guards between. */
static uint64_t lent_numbers[2 * NUMBERS + 1];

static uint64_t was(int i)
{
    return UINT64_C(0x9e3779b97f4a7c15) * ((uint64_t)i + 1) + line_number;
}

static uint64_t *number(int i)
{
    return lent_numbers + 2 * i + 1;
}

static void lend_numbers(void)
{
    for (int i = 0; i < 2 * NUMBERS + 1; i++)
        lent_numbers[i] = was(i);
}

static void check_numbers(int lent, kez_answer a)
{
    for (int i = 0; i < 2 * NUMBERS + 1; i++) {
        int is_lent = i % 2 && i / 2 < lent;
        if (lent_numbers[i] != was(i) && !is_lent)
            wrong("writes beside a lent number");
        if (lent_numbers[i] != was(i) && is_lent && a.refusal)
            wrong("changes a number though it refuses");
    }
}

static void check_answer(kez_answer a)
{
    if (a.refusal > 29 && a.refusal != 34 && a.refusal != 35)
        wrong("has a refusal that does not exist");
}

static int told_refusal(kez_answer a)
{
    check_answer(a);
    if (!broken && a.refusal)
        printf("refused %" PRIu64 " %" PRIu64, a.refusal, a.value);
    return broken || a.refusal;
}

static int parsed(const char *word, uint64_t *value)
{
    char *end;
    if (word[0] < '0' || word[0] > '9')
        return 0;
    *value = strtoull(word, &end, 10);
    return *end == 0;
}

static int same(kez_answer a, kez_answer b)
{
    return a.refusal == b.refusal && a.value == b.value;
}

static kez_answer read_packed(const input *in)
{
    lend_numbers();
    kez_answer a = kez_notepack_read(in->at, in->len, in->bare, number(0), number(1), number(2), number(3), number(4));
    check_numbers(5, a);
    check_input(in);
    if (!a.refusal && a.value)
        wrong("has a value that is not 0");
    return a;
}

/* A kind of request: the words behind its name, and who prints its answer (nothing where something is broken; 0: no
 * such request). Kinds that write into a lent buffer name their entry. With MORE words, what is behind the first is
 * left in one piece. */
enum { MORE = -1, WORDS = 3 };
typedef struct kind {
    const char *name;
    int words;
    int (*answer)(const struct kind *, char **words);
    kez_answer (*write)(const uint8_t *, size_t, uint8_t *, size_t);
    kez_answer (*write_packed)(const uint8_t *, size_t, uint64_t, uint8_t *, size_t);
} kind;

static int do_read(const kind *k, char **words)
{
    if (!lend_packed(&first, words[0]))
        return 0;
    kez_answer a = read_packed(&first);
    uint64_t created_at = *number(0), event_kind = *number(1), at = *number(2), len = *number(3), tags = *number(4);
    if (!strcmp(k->name, "lister")) {
        check_answer(a);
        if (!broken && a.refusal)
            printf("refused %" PRIu64 " at %" PRIu64 "\\n", a.refusal, a.value);
        else if (!broken)
            printf("created_at %" PRIu64 "\\nkind %" PRIu64 "\\ncontent %" PRIu64 "\\ntags %" PRIu64 "\\n",
                   created_at, event_kind, len, tags);
    } else if (!told_refusal(a)) {
        if (!strcmp(k->name, "content"))
            printf("ok %" PRIu64 " %" PRIu64, at, len);
        else
            printf("ok %" PRIu64 " %" PRIu64 " %" PRIu64 " %" PRIu64 " %" PRIu64, created_at, event_kind, at, len, tags);
    }
    return 1;
}

/* Two questions, with the refusals of the reader and no other. */
static int do_ask(const kind *k, char **words)
{
    if (!lend_packed(&first, words[0]))
        return 0;
    int strict = !strcmp(k->name, "strict");
    kez_answer a = (strict ? kez_notepack_is_strict : kez_id_belongs)(first.at, first.len, first.bare);
    kez_answer read = read_packed(&first);
    if (!a.refusal && a.value > 1)
        wrong("has a value that is neither 0 nor 1");
    if (a.refusal ? !same(a, read) : read.refusal != 0)
        wrong("and the reader disagree");
    if (!told_refusal(a))
        printf(a.value ? "yes" : "no");
    return 1;
}

static int do_element(const kind *k, char **words)
{
    (void)k;
    uint64_t tag, element;
    if (!lend_packed(&first, words[0]) || !parsed(words[1], &tag) || !parsed(words[2], &element))
        return 0;
    lend_numbers();
    kez_answer a = kez_notepack_element(first.at, first.len, first.bare, tag, element, number(0), number(1), number(2));
    check_numbers(3, a);
    kez_answer n = kez_notepack_tag_len(first.at, first.len, first.bare, tag);
    check_input(&first);
    if (!a.refusal && a.value)
        wrong("has a value that is not 0");
    /* the tag's length tells whether the element is there, and refuses what the element refuses */
    if (n.refusal ? !same(a, n) : element < n.value ? a.refusal != 0 : a.refusal != 19 || a.value)
        wrong("and tag_len disagree");
    if (!told_refusal(a))
        printf("ok %" PRIu64 " %" PRIu64 " %" PRIu64, *number(0), *number(1), *number(2));
    return 1;
}

static void print_bytes(const uint8_t *at, size_t len)
{
    putchar_unlocked(' ');
    for (size_t i = 0; i < len; i++) {
        putchar_unlocked("0123456789abcdef"[at[i] >> 4]);
        putchar_unlocked("0123456789abcdef"[at[i] & 15]);
    }
    if (!len)
        putchar_unlocked('-');
}

static int do_write(const kind *k, char **words)
{
    uint64_t room;
    if (!(k->write ? lend : lend_packed)(&first, words[0]) || !parsed(words[1], &room) || room > MOST)
        return 0;
    uint8_t *out = lend_room(room);
    kez_answer a = k->write ? k->write(first.at, first.len, out, room)
                            : k->write_packed(first.at, first.len, first.bare, out, room);
    check_input(&first);
    if (!a.refusal && a.value > room)
        wrong("has written more than there is room for");
    else
        check_room(room, a.refusal ? 0 : a.value);
    if (a.refusal == 11 && a.value <= room)
        wrong("refuses 11 though there is room");
    if (told_refusal(a))
        return 1;
    printf("ok %" PRIu64, a.value);
    print_bytes(area + GUARD, a.value);
    return 1;
}

/* `elements PACKED FIRST ROOM`: how many were listed, and their bytes. */
static int do_elements(const kind *k, char **words)
{
    (void)k;
    uint64_t from, room;
    if (!lend_packed(&first, words[0]) || !parsed(words[1], &from) || !parsed(words[2], &room) || room > MOST)
        return 0;
    uint8_t *out = lend_room(room);
    kez_answer a = kez_notepack_elements(first.at, first.len, first.bare, from, out, room), read = read_packed(&first);
    size_t written = a.refusal ? 0 : KEZ_ELEMENT_BYTES * a.value;
    if (!a.refusal && a.value > room / KEZ_ELEMENT_BYTES)
        wrong("has written more than there is room for");
    else
        check_room(room, written);
    /* the reader's refusals, and no other */
    if (a.refusal ? !same(a, read) : read.refusal != 0)
        wrong("and the reader disagree");
    if (told_refusal(a))
        return 1;
    printf("ok %" PRIu64, a.value);
    print_bytes(area + GUARD, written);
    return 1;
}

/* The pointer form */

static kez_answer read_pointer(const input *in)
{
    lend_numbers();
    kez_answer a = kez_pointer_read(in->at, in->len, number(0), number(1), number(2), number(3), number(4), number(5));
    check_numbers(6, a);
    check_input(in);
    if (!a.refusal && a.value)
        wrong("has a value that is not 0");
    return a;
}

static int do_pointer_read(const kind *k, char **words)
{
    (void)k;
    if (!lend(&first, words[0]))
        return 0;
    kez_answer a = read_pointer(&first);
    if (!told_refusal(a))
        printf("ok %" PRIu64 " %" PRIu64 " %" PRId64 " %" PRIu64 " %" PRIu64 " %" PRIu64, *number(0), *number(1),
               (int64_t)*number(2), *number(3), *number(4), *number(5));
    return 1;
}

static int do_pointer_tag(const kind *k, char **words)
{
    (void)k;
    uint64_t tag;
    if (!lend(&first, words[0]) || !parsed(words[1], &tag))
        return 0;
    kez_answer a = kez_pointer_tag_len(first.at, first.len, tag), read = read_pointer(&first);
    /* the reader's refusals, and whether there is such a tag */
    if (read.refusal ? !same(a, read) : tag < *number(5) ? a.refusal != 0 : a.refusal != 19 || a.value)
        wrong("and the reader disagree");
    if (!told_refusal(a))
        printf("ok %" PRIu64, a.value);
    return 1;
}

static int do_pointer_element(const kind *k, char **words)
{
    (void)k;
    uint64_t tag, element;
    if (!lend(&first, words[0]) || !parsed(words[1], &tag) || !parsed(words[2], &element))
        return 0;
    lend_numbers();
    kez_answer a = kez_pointer_element(first.at, first.len, tag, element, number(0), number(1));
    check_numbers(2, a);
    kez_answer n = kez_pointer_tag_len(first.at, first.len, tag);
    check_input(&first);
    if (!a.refusal && a.value)
        wrong("has a value that is not 0");
    if (n.refusal ? !same(a, n) : element < n.value ? a.refusal != 0 : a.refusal != 19 || a.value)
        wrong("and tag_len disagree");
    if (!told_refusal(a))
        printf("ok %" PRIu64 " %" PRIu64, *number(0), *number(1));
    return 1;
}

/* The second lent buffer: the guards of the first, and a pattern of its own. */
static uint8_t second_area[GUARD + MOST + GUARD];

static int do_both(const kind *k, char **words)
{
    (void)k;
    uint64_t room;
    if (!lend(&first, words[0]) || !parsed(words[1], &room) || room > MOST)
        return 0;
    uint8_t *by_nson = lend_room(room);
    memcpy(second_area, area, GUARD + room + GUARD);
    uint8_t *by_json = room || line_number % 2 ? second_area + GUARD : NULL;
    lend_numbers();
    kez_answer a = kez_read_both(first.at, first.len, by_nson, room, by_json, room, number(0));
    check_numbers(1, a);
    check_input(&first);
    size_t len = a.refusal ? 0 : *number(0);
    if (len > room) {
        wrong("has written more than there is room for");
        return 1;
    }
    check_room(room, !a.refusal && a.value == 2 ? len : 0);
    for (size_t i = 0; i < GUARD + room + GUARD; i++)
        if ((i < GUARD || i >= GUARD + len) && second_area[i] != pattern(i))
            wrong("writes where it must not in the second buffer");
    if (!a.refusal && a.value != 1 && a.value != 2)
        wrong("has a value that is neither 1 nor 2");
    if (a.refusal == 11 && a.value <= room)
        wrong("refuses 11 though there is room");
    if (told_refusal(a))
        return 1;
    printf("ok %" PRIu64 " %zu", a.value, len);
    print_bytes(area + GUARD, a.value == 2 ? len : 0);
    print_bytes(second_area + GUARD, len);
    return 1;
}

static int do_rivals(const kind *k, char **words)
{
    (void)k;
    if (!lend_packed(&first, words[0]) || !lend_packed(&second, words[1]))
        return 0;
    kez_answer a = kez_rivals(first.at, first.len, first.bare, second.at, second.len, second.bare);
    check_input(&first);
    check_input(&second);
    check_answer(a);
    if (!a.refusal) {
        if (a.value > 2)
            wrong("has a value above 2");
        else if (!broken)
            printf(a.value == 0 ? "not_rivals" : a.value == 1 ? "first" : "second");
        return 1;
    }
    /* whose refusal it is: the reader tells */
    kez_answer of_first = read_packed(&first), of_second = read_packed(&second);
    if (!same(a, of_first.refusal ? of_first : of_second))
        wrong("refuses what the reader does not");
    if (!told_refusal(a))
        return 1;
    if (!broken)
        printf(of_first.refusal ? " 1" : " 2");
    return 1;
}

/* The table of records */

static input slots, cells; /* their copies are what they held before the call */

static uint8_t *slot(uint64_t n)
{
    return slots.end - slots.len + KEZ_SLOT_BYTES * n;
}

static uint8_t *cell(uint64_t n)
{
    return cells.end - cells.len + KEZ_CELL_BYTES * n;
}

/* Eight bytes as a number, the lowest first. */
static uint64_t length_at(const uint8_t *at)
{
    uint64_t length = 0;
    for (int i = 7; i >= 0; i--)
        length = length << 8 | at[i];
    return length;
}

static void put_length(uint8_t *at, uint64_t length)
{
    for (int i = 0; i < 8; i++, length >>= 8)
        at[i] = (uint8_t)length;
}

static uint8_t *lent(const input *in)
{
    return in->len || line_number % 2 ? in->end - in->len : NULL;
}

static void keep_table(void)
{
    memcpy(slots.copy, slots.end - slots.len, slots.len);
    memcpy(cells.copy, cells.end - cells.len, cells.len);
}

/* So many free slots and zeros. */
static int make_table(uint64_t count)
{
    if (count > MOST / KEZ_CELL_BYTES)
        return 0;
    slots.len = KEZ_SLOT_BYTES * count;
    cells.len = KEZ_CELL_BYTES * count;
    memset(slots.end - slots.len, 0, slots.len);
    memset(cells.end - cells.len, 0, cells.len);
    return 1;
}

static void check_table(const char *what)
{
    if (memcmp(slots.end - slots.len, slots.copy, slots.len) || memcmp(cells.end - cells.len, cells.copy, cells.len))
        wrong(what);
}

/* `N:LENGTH:CELL`, or `~N:LENGTH:CELL` for a free slot. Any mark but 0 makes a slot a used one, and seven bytes of it
 * are nobody's: there stands anything. */
static int load_slot(char *word)
{
    int used = *word != '~';
    char *rest = word + !used, *of_slot = strsep(&rest, ":"), *of_length = strsep(&rest, ":");
    uint64_t n, length;
    if (!rest || !parsed(of_slot, &n) || !parsed(of_length, &length) || n >= slots.len / KEZ_SLOT_BYTES)
        return 0;
    for (int i = 1; i < 8; i++)
        slot(n)[i] = pattern(8 * n + (size_t)i);
    slot(n)[0] = used ? (uint8_t)(1 + (line_number + 37 * n) % 255) : 0;
    put_length(slot(n) + 8, length);
    memset(cell(n), 0, KEZ_CELL_BYTES);
    return spelled(rest) <= KEZ_CELL_BYTES && unhex(cell(n), rest);
}

/* `table_load SLOTS [WORD ..]` */
static int do_load(const kind *k, char **words)
{
    (void)k;
    uint64_t count;
    if (!parsed(words[0], &count) || !make_table(count))
        return 0;
    for (char *rest = words[1]; rest;)
        if (!load_slot(strsep(&rest, " ")))
            return 0;
    printf("ok");
    return 1;
}

static int do_new(const kind *k, char **words)
{
    (void)k;
    (void)words;
    make_table(KEZ_SLOTS);
    printf("ok");
    return 1;
}

static int do_empty(const kind *k, char **words)
{
    (void)k;
    (void)words;
    keep_table();
    kez_answer a = kez_table_empty(lent(&slots), slots.len, lent(&cells), cells.len);
    if (!a.refusal) {
        memset(slots.copy, 0, slots.len);
        memset(cells.copy, 0, cells.len);
    }
    check_table(a.refusal ? "refuses, and changes the table" : "leaves something in the table");
    if (!a.refusal && a.value)
        wrong("has a value that is not 0");
    if (!told_refusal(a))
        printf("ok");
    return 1;
}

/* The slot whose own bytes or whose cell changed. */
static uint64_t changed_slot(void)
{
    for (uint64_t n = 0; n < KEZ_SLOTS; n++)
        if (memcmp(slot(n), slots.copy + KEZ_SLOT_BYTES * n, KEZ_SLOT_BYTES) ||
            memcmp(cell(n), cells.copy + KEZ_CELL_BYTES * n, KEZ_CELL_BYTES))
            return n;
    wrong("stores nothing");
    return 0;
}

/* What was offered was stored: all 16 bytes of one slot, the bare strict form in its cell, and nothing else. */
static void check_stored(void)
{
    uint64_t n = changed_slot();
    uint8_t *now = slots.copy + KEZ_SLOT_BYTES * n;
    uint8_t *of_cell = cells.copy + KEZ_CELL_BYTES * n;
    kez_answer strict = kez_notepack_write(first.at, first.len, first.bare, of_cell, KEZ_CELL_BYTES);
    if (strict.refusal)
        wrong("stores what has no strict form for a cell");
    memset(now, 0, KEZ_SLOT_BYTES);
    now[0] = 1;
    put_length(now + 8, strict.value);
    check_table("stores something else than the strict form, or elsewhere too");
}

static int do_offer(const kind *k, char **words)
{
    static const char *const said[] = {"new", "replaced", "loses", "held", "not_kept"};
    (void)k;
    if (!lend_packed(&first, words[0]))
        return 0;
    keep_table();
    kez_answer a = kez_table_offer(lent(&slots), slots.len, lent(&cells), cells.len, first.at, first.len, first.bare);
    check_input(&first);
    if (!a.refusal && a.value > KEZ_TABLE_NOT_KEPT)
        wrong("has a value above 4");
    else if (!a.refusal && (a.value == KEZ_TABLE_NEW || a.value == KEZ_TABLE_REPLACED))
        check_stored();
    else
        check_table("stores nothing, and changes the table");
    if (!told_refusal(a))
        printf("%s", said[a.value]);
    return 1;
}

/* A look at the lent bytes, which asks nothing of the library. */
static int do_look(const kind *k, char **words)
{
    (void)k;
    uint64_t n;
    if (!parsed(words[0], &n))
        return 0;
    if (n >= slots.len / KEZ_SLOT_BYTES) {
        printf("none");
        return 1;
    }
    size_t len = KEZ_CELL_BYTES;
    while (len && !cell(n)[len - 1])
        len--;
    printf("%s %" PRIu64, *slot(n) ? "used" : "free", length_at(slot(n) + 8));
    print_bytes(cell(n), len);
    return 1;
}

/* `table_slot N`: where the library shows the event of a slot. */
static int do_view(const kind *k, char **words)
{
    (void)k;
    uint64_t n;
    if (!parsed(words[0], &n))
        return 0;
    lend_numbers();
    keep_table();
    kez_answer a = kez_table_slot(lent(&slots), slots.len, lent(&cells), cells.len, n, number(0), number(1));
    check_numbers(2, a);
    check_table("changes the table");
    if (!a.refusal && a.value)
        wrong("has a value that is not 0");
    if (!told_refusal(a))
        printf("ok %" PRIu64 " %" PRIu64, *number(0), *number(1));
    return 1;
}

/* The hash */

/* The state that lives from line to line, and one for a message that is asked about in one line. */
static input session, apart;

enum { LENGTH_AT = 32, WAITING_AT = 40, BLOCK = 64 };

static uint8_t *bytes_of(const input *state)
{
    return state->end - state->len;
}

/* A buffer with a pattern in it, as long as a state or longer. */
static void make_state(input *state)
{
    state->len = KEZ_SHA256_STATE + (line_number % 3 ? 0 : line_number % 50);
    for (size_t i = 0; i < state->len; i++)
        bytes_of(state)[i] = pattern(i);
}

static void keep_state(input *state)
{
    memcpy(state->copy, bytes_of(state), state->len);
}

/* A refusal leaves all of it. Otherwise it has room for a state, nothing behind that changed, the message has this
 * length, and zeros stand behind the bytes that wait. */
static void check_state(const input *state, kez_answer a, uint64_t length)
{
    const uint8_t *now = bytes_of(state);
    size_t written = a.refusal ? 0 : KEZ_SHA256_STATE;
    if (state->len < written || (!a.refusal && a.value != written)) {
        wrong("has a value that is not 104, or no room for it");
        return;
    }
    if (memcmp(now + written, state->copy + written, state->len - written))
        wrong(a.refusal ? "refuses, and changes the state" : "changes what is behind the state");
    if (a.refusal)
        return;
    if (length_at(now + LENGTH_AT) != length)
        wrong("counts another length");
    for (size_t i = WAITING_AT + length % BLOCK; i < KEZ_SHA256_STATE; i++)
        if (now[i])
            wrong("leaves something behind the bytes that wait");
}

static kez_answer start_state(input *state)
{
    keep_state(state);
    kez_answer a = kez_sha256_start(lent(state), state->len);
    check_state(state, a, 0);
    return a;
}

static kez_answer add_piece(input *state, const input *piece)
{
    keep_state(state);
    kez_answer a = kez_sha256_add(lent(state), state->len, piece->at, piece->len);
    check_input(piece);
    check_state(state, a, state->len < KEZ_SHA256_STATE ? 0 : length_at(state->copy + LENGTH_AT) + piece->len);
    return a;
}

/* Prints the digest, or the refusal. */
static void finish_state(input *state, uint64_t room)
{
    uint8_t *out = lend_room(room);
    keep_state(state);
    kez_answer a = kez_sha256_finish(lent(state), state->len, out, room);
    check_room(room, a.refusal ? 0 : KEZ_SHA256_DIGEST);
    if (memcmp(bytes_of(state), state->copy, state->len))
        wrong("changes the state");
    if (!a.refusal && (a.value != KEZ_SHA256_DIGEST || room < a.value))
        wrong("has a value that is not 32, or no room for it");
    if (told_refusal(a))
        return;
    printf("ok");
    print_bytes(area + GUARD, KEZ_SHA256_DIGEST);
}

/* `sha_new`, `sha_start`: a fresh buffer, or the one that is there */
static int do_start(const kind *k, char **words)
{
    (void)words;
    if (!strcmp(k->name, "sha_new"))
        make_state(&session);
    if (!told_refusal(start_state(&session)))
        printf("ok");
    return 1;
}

static int do_add(const kind *k, char **words)
{
    (void)k;
    if (!lend(&first, words[0]))
        return 0;
    if (!told_refusal(add_piece(&session, &first)))
        printf("ok %" PRIu64, length_at(bytes_of(&session) + LENGTH_AT));
    return 1;
}

/* `sha_finish`, `sha_finish_in ROOM` */
static int do_finish(const kind *k, char **words)
{
    uint64_t room = KEZ_SHA256_DIGEST + line_number % 2 * 9;
    if (k->words && (!parsed(words[0], &room) || room > MOST))
        return 0;
    finish_state(&session, room);
    return 1;
}

/* `sha256 BYTES [BYTES ..]` */
static int do_sha256(const kind *k, char **words)
{
    (void)k;
    char *rest = words[1];
    make_state(&apart);
    kez_answer a = start_state(&apart);
    for (char *piece = words[0]; piece && !a.refusal; piece = strsep(&rest, " ")) {
        if (!lend(&first, piece))
            return 0;
        a = add_piece(&apart, &first);
    }
    if (!told_refusal(a))
        finish_state(&apart, KEZ_SHA256_DIGEST);
    return 1;
}

/* A look at the lent bytes, which asks nothing of the library; so do the two below, but for the words of the start. */
static int do_look_at_state(const kind *k, char **words)
{
    (void)k;
    (void)words;
    printf("ok");
    print_bytes(bytes_of(&session), session.len < KEZ_SHA256_STATE ? session.len : KEZ_SHA256_STATE);
    return 1;
}

static int do_load_state(const kind *k, char **words)
{
    (void)k;
    session.len = spelled(words[0]);
    if (session.len > MOST || !unhex(bytes_of(&session), words[0]))
        return 0;
    printf("ok");
    return 1;
}

/* `sha_set LENGTH`: a state that claims this length; behind the zeros that wait stands ee */
static int do_set(const kind *k, char **words)
{
    (void)k;
    uint64_t length;
    if (!parsed(words[0], &length))
        return 0;
    make_state(&session);
    if (told_refusal(start_state(&session)))
        return 1;
    uint8_t *waiting = bytes_of(&session) + WAITING_AT;
    put_length(bytes_of(&session) + LENGTH_AT, length);
    memset(waiting + length % BLOCK, 0xee, BLOCK - length % BLOCK);
    printf("ok");
    return 1;
}

static const kind kinds[] = {
    {"read", 1, do_read, NULL, NULL},
    {"content", 1, do_read, NULL, NULL},
    {"lister", 1, do_read, NULL, NULL},
    {"strict", 1, do_ask, NULL, NULL},
    {"id_belongs", 1, do_ask, NULL, NULL},
    {"element", 3, do_element, NULL, NULL},
    {"elements", 3, do_elements, NULL, NULL},
    {"pack", 2, do_write, NULL, kez_notepack_write},
    {"canonical", 2, do_write, NULL, kez_canonical_write},
    {"nson_write", 2, do_write, NULL, kez_nson_write},
    {"string_write", 2, do_write, NULL, kez_notepack_string_write},
    {"nson_read", 2, do_write, kez_nson_read, NULL},
    {"json_read", 2, do_write, kez_json_read, NULL},
    {"string_read", 2, do_write, kez_notepack_string_read, NULL},
    {"string1_read", 2, do_write, kez_notepack_string_read_versioned, NULL},
    {"to_versioned", 2, do_write, kez_versioned_from_bare, NULL},
    {"to_bare", 2, do_write, kez_bare_from_versioned, NULL},
    {"pointer_read", 1, do_pointer_read, NULL, NULL},
    {"pointer_tag", 2, do_pointer_tag, NULL, NULL},
    {"pointer_element", 3, do_pointer_element, NULL, NULL},
    {"pointer_convert", 2, do_write, kez_pointer_convert, NULL},
    {"pointer_write", 2, do_write, NULL, kez_pointer_write},
    {"read_both", 2, do_both, NULL, NULL},
    {"rivals", 2, do_rivals, NULL, NULL},
    {"table_new", 0, do_new, NULL, NULL},
    {"table_empty", 0, do_empty, NULL, NULL},
    {"table_offer", 1, do_offer, NULL, NULL},
    {"table_look", 1, do_look, NULL, NULL},
    {"table_load", MORE, do_load, NULL, NULL},
    {"table_slot", 1, do_view, NULL, NULL},
    {"sha256", MORE, do_sha256, NULL, NULL},
    {"sha_new", 0, do_start, NULL, NULL},
    {"sha_start", 0, do_start, NULL, NULL},
    {"sha_add", 1, do_add, NULL, NULL},
    {"sha_finish", 0, do_finish, NULL, NULL},
    {"sha_finish_in", 1, do_finish, NULL, NULL},
    {"sha_look", 0, do_look_at_state, NULL, NULL},
    {"sha_load", 1, do_load_state, NULL, NULL},
    {"sha_set", 1, do_set, NULL, NULL},
};

static const kind *kind_of(const char *name)
{
    for (size_t i = 0; i < sizeof kinds / sizeof *kinds; i++)
        if (!strcmp(kinds[i].name, name))
            return &kinds[i];
    return NULL;
}

static int answer(char *line)
{
    char *words[WORDS + 1] = {NULL}, *rest = line;
    const kind *k = kind_of(strsep(&rest, " "));
    int count = 0, wanted = !k ? 0 : k->words == MORE ? 1 : k->words;
    while (rest && count < wanted)
        words[count++] = strsep(&rest, " ");
    if (!k || count < wanted || (rest && k->words != MORE))
        return 0;
    words[count] = rest;
    return k->answer(k, words);
}

int main(void)
{
    static const int faults[] = {SIGSEGV, SIGBUS, SIGILL, SIGFPE, SIGABRT, SIGALRM};
    for (size_t i = 0; i < sizeof faults / sizeof *faults; i++)
        signal(faults[i], fault);
    input *const all[] = {&first, &second, &slots, &cells, &session, &apart};
    for (size_t i = 0; i < sizeof all / sizeof *all; i++)
        if (!make_input(all[i])) {
            fprintf(stderr, "driver: no memory\n");
            return 2;
        }
    make_table(KEZ_SLOTS);
    make_state(&session);
    start_state(&session);
    char *line = NULL;
    size_t size = 0;
    for (ssize_t len; (len = getline(&line, &size, stdin)) > 0; line_number++) {
        if (line[len - 1] == '\n')
            line[len - 1] = 0;
        broken = NULL;
        alarm(5);
        volatile int known = 1;
        if (!sigsetjmp(out_of_the_call, 1))
            known = answer(line);
        alarm(0);
        if (!known)
            printf("no such request");
        if (broken)
            printf("broken: the entry %s", broken);
        putchar('\n');
    }
    free(line);
    return ferror(stdin) || fflush(stdout) ? 2 : 0;
}
