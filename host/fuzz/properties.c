/* The properties, and the lent buffers that are watched.
 * Every buffer that is lent ends at a page that can't be touched, or starts behind one, as the dice fall; on its other
 * side stand bytes that are looked at after the call, and so are the bytes of the buffer that the call must leave. */
#define _GNU_SOURCE
#include "properties.h"

#include "../plain_sha256.h"
#include "kezubimoryu.h"

#include <inttypes.h>
#include <stdio.h>
#include <stdlib.h>
#include <string.h>
#include <sys/mman.h>
#include <unistd.h>

enum {
    READ, STRICT, PACK, TAG_LEN, ELEMENT, ELEMENTS, CANONICAL, NSON_WRITE, NSON_READ, JSON_READ, READ_BOTH, RIVALS,
    STRING_WRITE, STRING_READ, TABLE_EMPTY, TABLE_OFFER, TABLE_SLOT, SHA256_START, SHA256_ADD, SHA256_FINISH,
    ID_BELONGS, TO_VERSIONED, TO_BARE, STRING1_READ, POINTER_READ, POINTER_TAG_LEN, POINTER_ELEMENT, POINTER_CONVERT,
    POINTER_WRITE
};

const char *const entry_names[ENTRIES] = {
    "kez_notepack_read", "kez_notepack_is_strict", "kez_notepack_write", "kez_notepack_tag_len", "kez_notepack_element",
    "kez_notepack_elements", "kez_canonical_write", "kez_nson_write", "kez_nson_read", "kez_json_read", "kez_read_both",
    "kez_rivals", "kez_notepack_string_write", "kez_notepack_string_read", "kez_table_empty", "kez_table_offer",
    "kez_table_slot", "kez_sha256_start", "kez_sha256_add", "kez_sha256_finish", "kez_id_belongs",
    "kez_versioned_from_bare", "kez_bare_from_versioned", "kez_notepack_string_read_versioned", "kez_pointer_read",
    "kez_pointer_tag_len", "kez_pointer_element", "kez_pointer_convert", "kez_pointer_write",
};

void (*answered)(int entry, uint64_t refusal, uint64_t value);

/* What goes wrong ends the process, with the input. */

static int current; /* the entry */
static uint64_t said = KEZ_BARE; /* of a packed input */
static const uint8_t *given;
static size_t given_len;

static void __attribute__((noreturn)) found(const char *what)
{
    fprintf(stderr, "FOUND: %s %s\ninput of %zu bytes: ", entry_names[current], what, given_len);
    for (size_t i = 0; i < given_len && i < 2000; i++)
        fprintf(stderr, "%02x", given[i]);
    fprintf(stderr, "\n");
    abort();
}

static void must(int is_so, const char *what)
{
    if (!is_so)
        found(what);
}

static uint64_t dice;

static uint64_t roll(uint64_t below)
{
    dice += UINT64_C(0x9e3779b97f4a7c15);
    uint64_t z = dice;
    z = (z ^ (z >> 30)) * UINT64_C(0xbf58476d1ce4e5b9);
    z = (z ^ (z >> 27)) * UINT64_C(0x94d049bb133111eb);
    return (z ^ (z >> 31)) % below;
}

/* What is said, as a number for the call: any but 0 says that an event is bare. */
static uint64_t word(void)
{
    return !said ? KEZ_VERSIONED : roll(4) ? KEZ_BARE : UINT64_C(1) << roll(64);
}

/* Lent buffers */

enum { SIZE = 1 << 18, BESIDE = 64 };

typedef struct {
    uint8_t *low, *high; /* between two pages that can't be touched */
    uint8_t *at;         /* what is lent; its bytes and those beside it were old[..] */
    size_t len;
    uint8_t *from;       /* the start of what is watched: len + BESIDE bytes */
    const uint8_t *old;
} buffer;

static buffer in_first, in_second, out_first, out_second, number_buffer;
static uint8_t pattern[SIZE + BESIDE + 4096], first_copy[SIZE + BESIDE], second_copy[SIZE + BESIDE];

static void make(buffer *b)
{
    size_t page = (size_t)sysconf(_SC_PAGESIZE);
    uint8_t *map = mmap(NULL, SIZE + 2 * page, PROT_NONE, MAP_PRIVATE | MAP_ANONYMOUS, -1, 0);
    if (map == MAP_FAILED || mprotect(map + page, SIZE, PROT_READ | PROT_WRITE)) {
        perror("no memory");
        exit(2);
    }
    b->low = map + page;
    b->high = b->low + SIZE;
}

static void place(buffer *b, size_t len)
{
    b->len = len;
    if (roll(2)) {
        b->at = b->high - len;
        b->from = b->at - BESIDE;
    } else {
        b->at = b->from = b->low;
    }
}

static void lend_input(buffer *b, const uint8_t *data, size_t len, uint8_t *copy)
{
    place(b, len);
    memcpy(b->from, pattern, len + BESIDE);
    memcpy(b->at, data, len);
    memcpy(copy, b->from, len + BESIDE);
    b->old = copy;
}

static void lend_room(buffer *b, size_t room)
{
    place(b, room);
    b->old = pattern + roll(4096);
    memcpy(b->from, b->old, room + BESIDE);
}

/* Bytes with length 0 are lent as a null pointer, or as the page that can't be touched. */
static uint8_t *lent(const buffer *b)
{
    return b->len ? b->at : roll(2) ? NULL : b->high;
}

/* Only the first `written` bytes of what was lent may differ. */
static void unchanged(const buffer *b, size_t written, const char *what)
{
    size_t before = (size_t)(b->at - b->from), behind = before + written;
    must(!memcmp(b->from, b->old, before) && !memcmp(b->from + behind, b->old + behind, b->len + BESIDE - behind), what);
}

/* The refusals that the header allows each entry, one bit for each number. */
enum { BARE_ONES = 0x7fe | 1 << 24, PACKED_ONES = BARE_ONES | 1 << 25 };
enum { ROOM = 1 << 11, NO_SUCH = 1 << 19, NOT_CARRIED = 1 << 17, TOO_LONG_TO_WRITE = 1 << 29 };
enum { POINTER_ONES = 1 << 1 | 1 << 5 | 1 << 6 | 1 << 8 | 1 << 9 | 1 << 26 | 1 << 27 | 1 << 28 };
#define BAD_TABLE (UINT64_C(1) << 34)
#define TOO_MUCH (UINT64_C(1) << 35)
static const uint64_t allowed[ENTRIES] = {
    [READ] = PACKED_ONES,
    [STRICT] = PACKED_ONES,
    [PACK] = PACKED_ONES | ROOM,
    [TAG_LEN] = PACKED_ONES | NO_SUCH,
    [ELEMENT] = PACKED_ONES | NO_SUCH,
    [ELEMENTS] = PACKED_ONES,
    [CANONICAL] = PACKED_ONES | ROOM,
    [NSON_WRITE] = PACKED_ONES | NOT_CARRIED | ROOM,
    [NSON_READ] = 1 << 1 | 1 << 5 | 1 << 6 | 1 << 9 | 1 << 10 | 1 << 12 | 1 << 13 | 1 << 14 | ROOM,
    [JSON_READ] = 1 << 1 | 0x7e0 | 1 << 12 | 1 << 14 | 1 << 15 | 1 << 16 | 1 << 18 | ROOM,
    [READ_BOTH] = 1 << 1 | 0x7e0 | 1 << 12 | 1 << 14 | 1 << 15 | 1 << 16 | 1 << 18 | ROOM,
    [RIVALS] = PACKED_ONES,
    [STRING_WRITE] = PACKED_ONES | ROOM,
    [STRING_READ] = 1 << 20 | 1 << 21 | BARE_ONES | ROOM,
    [STRING1_READ] = 1 << 20 | 1 << 21 | PACKED_ONES | ROOM,
    [TO_VERSIONED] = BARE_ONES | ROOM,
    [TO_BARE] = PACKED_ONES | ROOM,
    [TABLE_EMPTY] = BAD_TABLE,
    [TABLE_OFFER] = BAD_TABLE | PACKED_ONES | 1 << 22 | 1 << 23,
    [TABLE_SLOT] = BAD_TABLE | NO_SUCH,
    [SHA256_START] = ROOM,
    [SHA256_ADD] = ROOM | TOO_MUCH,
    [SHA256_FINISH] = ROOM | TOO_MUCH,
    [ID_BELONGS] = PACKED_ONES,
    [POINTER_READ] = POINTER_ONES,
    [POINTER_TAG_LEN] = POINTER_ONES | NO_SUCH,
    [POINTER_ELEMENT] = POINTER_ONES | NO_SUCH,
    [POINTER_CONVERT] = POINTER_ONES | TOO_LONG_TO_WRITE | ROOM,
    [POINTER_WRITE] = PACKED_ONES | TOO_LONG_TO_WRITE | ROOM,
};

/* No entry needs more room than this. */
static size_t most_of(int entry)
{
    return entry == CANONICAL ? KEZ_CANONICAL_MOST : entry == STRING_WRITE ? KEZ_NOTEPACK_STRING_MOST : KEZ_MOST;
}

/* What holds of every answer. */
static kez_answer checked(kez_answer a)
{
    unchanged(&in_first, 0, "changes its input");
    must(a.refusal <= REFUSALS, "has a refusal that does not exist");
    must(!a.refusal || (allowed[current] >> a.refusal & 1), "has a refusal of another entry");
    must(a.refusal != 25 || !said || current == TO_BARE || current == STRING1_READ, "asks a bare event for its 01");
    size_t longest = current == RIVALS && in_second.len > in_first.len ? in_second.len : in_first.len;
    size_t last = a.refusal == 34 ? KEZ_SLOTS - 1 : longest;
    must(!a.refusal || a.refusal == 11 || a.value <= last, "has a place that is not in the input");
    if (answered)
        answered(current, a.refusal, a.value);
    return a;
}

static int same(kez_answer a, kez_answer b)
{
    return a.refusal == b.refusal && a.value == b.value;
}

static void accepted(kez_answer a, uint64_t value, const char *what)
{
    must(!a.refusal && a.value == value, what);
}

/* Entries that write */

typedef kez_answer writer(const uint8_t *, size_t, uint8_t *, size_t);

/* Those that take a packed event, of which something is said. */
#define AS_SAID(name, entry)                                                              \
    static kez_answer name(const uint8_t *in, size_t len, uint8_t *out, size_t room)     \
    {                                                                                     \
        return entry(in, len, word(), out, room);                                         \
    }
AS_SAID(pack, kez_notepack_write)
AS_SAID(write_canonical, kez_canonical_write)
AS_SAID(write_nson, kez_nson_write)
AS_SAID(write_string, kez_notepack_string_write)
AS_SAID(write_pointer, kez_pointer_write)

static kez_answer in_room(int entry, writer *call, size_t room)
{
    current = entry;
    lend_room(&out_first, room);
    kez_answer a = checked(call(lent(&in_first), in_first.len, lent(&out_first), room));
    if (a.refusal) {
        unchanged(&out_first, 0, "refuses, and changes the lent buffer");
        must(a.refusal != 11 || a.value > room, "refuses 11 though there is room");
    } else {
        must(a.value <= room, "has written more than there is room for");
        unchanged(&out_first, a.value, "changes bytes behind the written length");
    }
    return a;
}

/* What an entry leaves. */
typedef struct {
    kez_answer answer; /* with room enough */
    uint8_t bytes[SIZE];
} result;

static int leaves(const result *r, const uint8_t *bytes, size_t len)
{
    return !r->answer.refusal && r->answer.value == len && !memcmp(r->bytes, bytes, len);
}

/* Asks with no room, with too little, with just enough and with more. */
static void write_with(result *r, int entry, writer *call)
{
    kez_answer none = in_room(entry, call, 0);
    if (none.refusal != 11) {
        must(none.refusal != 0, "writes nothing and accepts");
        must(same(in_room(entry, call, roll(600)), none), "answers otherwise with other room");
        r->answer = none;
        return;
    }
    size_t need = none.value;
    must(need <= most_of(entry), "needs more than it can");
    must(same(in_room(entry, call, need - 1), none), "answers otherwise with a byte too little");
    must(same(in_room(entry, call, roll(need)), none), "answers otherwise with less room");
    accepted(in_room(entry, call, need + 1 + roll(40)), need, "does not write with more room");
    memcpy(r->bytes, out_first.at, need);
    r->answer = in_room(entry, call, need);
    accepted(r->answer, need, "does not write with just enough room");
    must(!memcmp(r->bytes, out_first.at, need), "writes other bytes with other room");
}

/* Entries that leave numbers */

enum { NUMBERS = 6 };
static uint64_t numbers[NUMBERS];

static void lend_numbers(int count)
{
    lend_room(&number_buffer, 8 * (size_t)count);
}

static uint64_t *number(int i)
{
    return (uint64_t *)(void *)(number_buffer.at + 8 * i);
}

static void take_numbers(kez_answer a, int count)
{
    unchanged(&number_buffer, a.refusal ? 0 : 8 * (size_t)count, "changes a number that it must leave");
    must(a.refusal || !a.value, "has a value that is not 0");
    memcpy(numbers, number_buffer.at, 8 * (size_t)count);
}

static kez_answer read_numbers(void)
{
    current = READ;
    lend_numbers(5);
    kez_answer a = checked(kez_notepack_read(lent(&in_first), in_first.len, word(), number(0), number(1), number(2),
                                             number(3), number(4)));
    take_numbers(a, 5);
    return a;
}

/* Tag and element as the tags' lengths have it. */
static void elements(kez_answer read, uint64_t tags)
{
    uint64_t tag = roll(8) ? roll(tags + 2) : UINT64_MAX - roll(2);
    current = TAG_LEN;
    kez_answer count = checked(kez_notepack_tag_len(lent(&in_first), in_first.len, word(), tag));
    kez_answer none = {19, 0};
    must(read.refusal ? same(count, read) : tag < tags ? !count.refusal && count.value - 1 < 255 : same(count, none), "disagrees with the reader");
    uint64_t texts = count.refusal ? 1 : count.value, element = roll(8) ? roll(texts + 1) : UINT64_MAX - roll(2);
    current = ELEMENT;
    lend_numbers(3);
    kez_answer a = checked(kez_notepack_element(lent(&in_first), in_first.len, word(), tag, element, number(0),
                                                number(1), number(2)));
    take_numbers(a, 3);
    must(count.refusal ? same(a, count) : element < texts ? !a.refusal : same(a, none), "disagrees with the tag's length");
    if (!a.refusal)
        must(numbers[2] < 2 && numbers[0] <= in_first.len && numbers[1] <= in_first.len - numbers[0], "shows a part that is not in the input");
}

/* All elements, block after block */

static uint64_t four_bytes(const uint8_t *at)
{
    return at[0] | (uint64_t)at[1] << 8 | (uint64_t)at[2] << 16 | (uint64_t)at[3] << 24;
}

/* The elements from this one on, into so many bytes; behind them nothing changes. */
static kez_answer list_from(uint64_t first, size_t room)
{
    current = ELEMENTS;
    lend_room(&out_first, room);
    kez_answer a = checked(kez_notepack_elements(lent(&in_first), in_first.len, word(), first, lent(&out_first), room));
    must(a.refusal || a.value <= room / KEZ_ELEMENT_BYTES, "lists more than there is room for");
    unchanged(&out_first, a.refusal ? 0 : KEZ_ELEMENT_BYTES * a.value, "changes bytes behind the listed elements");
    return a;
}

/* Is this what kez_notepack_element shows for the element? With `wanted` null: it must not be there. */
static void must_show(uint64_t tag, uint64_t element, const uint8_t *wanted)
{
    lend_numbers(3);
    kez_answer a = kez_notepack_element(lent(&in_first), in_first.len, word(), tag, element, number(0), number(1),
                                        number(2));
    take_numbers(a, 3);
    if (!wanted)
        must(a.refusal == 19, "leaves out an element");
    else
        must(!a.refusal && numbers[0] == four_bytes(wanted + 4) && numbers[1] == four_bytes(wanted + 8) &&
                 numbers[2] == four_bytes(wanted + 12), "lists another element than kez_notepack_element shows");
}

/* Where the walk over the list is: the tag, and the number in it of the element that comes next. */
typedef struct {
    uint64_t tag, element;
} position;

/* One listed element is the next one of its tag, or the first of the next tag. Of many, some are put to
 * kez_notepack_element: it goes through the record for each. */
static void step_to(position *p, const uint8_t *listed, int show)
{
    uint64_t tag = four_bytes(listed);
    if (tag != p->tag) {
        must(tag == p->tag + 1 && p->element, "lists a tag out of its order");
        if (show)
            must_show(p->tag, p->element, NULL);
        *p = (position){tag, 0};
    }
    if (show)
        must_show(p->tag, p->element, listed);
    p->element++;
}

/* The elements that are listed, block after block, are those of kez_notepack_element, one after another. */
static void listed_elements(kez_answer read, uint64_t tags)
{
    static uint8_t block[SIZE];
    /* a long record in some 16 blocks at most */
    size_t fit = in_first.len < 1000 && roll(2) ? 1 + roll(4) : in_first.len / 16 + 1 + roll(20);
    uint64_t first = 0, rare = 1 + in_first.len / 1000;
    position p = {0, 0};
    kez_answer a;
    do {
        a = list_from(first, KEZ_ELEMENT_BYTES * fit + roll(KEZ_ELEMENT_BYTES));
        must(read.refusal ? same(a, read) : !a.refusal, "disagrees with the reader");
        if (a.refusal)
            return;
        memcpy(block, out_first.at, KEZ_ELEMENT_BYTES * a.value);
        for (size_t i = 0; i < a.value; i++)
            step_to(&p, block + KEZ_ELEMENT_BYTES * i, !roll(rare));
        first += a.value;
    } while (a.value == fit);
    must(tags ? p.tag == tags - 1 : !first, "does not end with the last tag");
    must_show(p.tag, p.element, NULL);
    accepted(list_from(roll(2) ? first : UINT64_MAX - roll(2), roll(600)), 0, "lists elements that are not there");
    accepted(list_from(0, roll(KEZ_ELEMENT_BYTES)), 0, "lists an element where there is no room for one");
}

/* String forms */

static const char alphabet[] = "ABCDEFGHIJKLMNOPQRSTUVWXYZabcdefghijklmnopqrstuvwxyz0123456789+/";

static const char *prefix_of(uint64_t bare)
{
    return bare ? "notepack_" : "notepack1_";
}

/* A text or bytes of the harness's own. */
typedef struct {
    uint8_t at[SIZE];
    size_t len;
} own;

/* The string form of these bytes, which are of this form: a bit at a time. */
static void spell(own *text, uint64_t bare, const uint8_t *bytes, size_t len)
{
    size_t bits = 8 * len;
    text->len = strlen(prefix_of(bare));
    memcpy(text->at, prefix_of(bare), text->len);
    for (size_t at = 0; at < bits; at += 6) {
        int six = 0;
        for (size_t bit = at; bit < at + 6; bit++)
            six = 2 * six + (bit < bits ? bytes[bit / 8] >> (7 - bit % 8) & 1 : 0);
        text->at[text->len++] = (uint8_t)alphabet[six];
    }
}

static int six_bits(uint8_t c)
{
    const char *at = c ? strchr(alphabet, c) : NULL;
    return at ? (int)(at - alphabet) : -1;
}

/* The bytes that a text of this form spells. Refusal 20, 21 or 1 if there are none, or more than may be. */
static kez_answer despell(own *bytes, uint64_t bare, const uint8_t *text, size_t len)
{
    uint32_t bits = 0, count = 0;
    size_t behind = strlen(prefix_of(bare));
    bytes->len = 0;
    if (len < behind || memcmp(text, prefix_of(bare), behind))
        return (kez_answer){20, 0};
    for (size_t i = behind; i < len; i++) {
        int six = six_bits(text[i]);
        if (six < 0)
            return (kez_answer){21, i};
        bits = bits << 6 | (uint32_t)six;
        count += 6;
        if (count >= 8) {
            count -= 8;
            bytes->at[bytes->len++] = (uint8_t)(bits >> count);
            bits &= (1u << count) - 1;
        }
    }
    if (count == 6 || bits)
        return (kez_answer){21, len};
    return bytes->len > KEZ_MOST ? (kez_answer){1, 0} : (kez_answer){0, bytes->len};
}

/* The reader of string forms of what is said. */
static void read_with(result *left)
{
    if (said)
        write_with(left, STRING_READ, kez_notepack_string_read);
    else
        write_with(left, STRING1_READ, kez_notepack_string_read_versioned);
}

/* Any text, put to the reader of string forms of what is said: it does what spelling and the reader of packed events
 * say, and an accepted text is the one that its bytes are spelled by. */
static void read_string(const uint8_t *text, size_t len)
{
    static own bytes, back;
    static result left;
    kez_answer wanted = despell(&bytes, said, text, len);
    if (!wanted.refusal) {
        lend_input(&in_first, bytes.at, bytes.len, first_copy);
        kez_answer read = read_numbers();
        wanted = read.refusal ? read : wanted;
    }
    lend_input(&in_first, text, len, first_copy);
    read_with(&left);
    must(same(left.answer, wanted), "answers otherwise than the text is spelled");
    if (left.answer.refusal)
        return;
    must(leaves(&left, bytes.at, bytes.len), "leaves other bytes than are spelled");
    spell(&back, said, left.bytes, left.answer.value);
    must(back.len == len && !memcmp(back.at, text, len), "accepts a second text for the same bytes");
}

/* One character of a text lost, doubled or changed, or one more at its end. */
static void change(own *text)
{
    static const char likely[] = "=-_\n\r +/A";
    size_t at = roll(4) ? roll(text->len) : text->len - 1;
    uint8_t c = roll(2) ? (uint8_t)likely[roll(sizeof likely)] : (uint8_t)roll(256);
    switch (roll(4)) {
    case 0: memmove(text->at + at, text->at + at + 1, --text->len - at); break;
    case 1: text->at[text->len++] = c; break;
    case 2: memmove(text->at + at + 1, text->at + at, text->len++ - at); break;
    default: text->at[at] = c; break;
    }
}

/* The string form of any bytes is read as the bytes are, and leaves them; then it is damaged. */
static void as_string_of(const uint8_t *data, size_t len, kez_answer read)
{
    static own text;
    static result left;
    spell(&text, said, data, len);
    lend_input(&in_first, text.at, text.len, first_copy);
    read_with(&left);
    must(read.refusal ? same(left.answer, read) : leaves(&left, data, len), "disagrees with kez_notepack_read");
    change(&text);
    read_string(text.at, text.len);
    said = !said;
    read_string(text.at, text.len); /* mostly 20 */
    said = !said;
}

/* One input as a packed event */

static result strict_form, again;
static result canonical_text, by_nson, by_json;

/* What the writer wrote of the input is the string form of its strict form, and is read as that. */
static void string_written(const result *string)
{
    static own text;
    current = STRING_WRITE;
    spell(&text, KEZ_BARE, strict_form.bytes, strict_form.answer.value);
    must(leaves(string, text.at, text.len), "does not spell the strict form");
    lend_input(&in_first, string->bytes, string->answer.value, first_copy);
    write_with(&again, STRING_READ, kez_notepack_string_read);
    must(leaves(&again, strict_form.bytes, strict_form.answer.value), "does not read what the writer wrote");
}

static int is_strict(void);

/* Pointer forms */

enum { KIND_AT = 40, TIME_AT = 48, CONTENT_AT = 56, TAGS_AT = 64, DATA_AT = 72, BEHIND_DATA = KEZ_POINTER_ID_FROM_END };

static uint64_t eight_bytes(const uint8_t *at)
{
    return four_bytes(at) | four_bytes(at + 4) << 32;
}

/* Bytes that are put together; what has no room is counted and not kept. */
static void put(own *to, const uint8_t *part, size_t len)
{
    if (to->len <= SIZE && len <= SIZE - to->len)
        memcpy(to->at + to->len, part, len);
    to->len += len;
}

static void put_varint(own *to, uint64_t n)
{
    for (; n >= 0x80; n >>= 7)
        put(to, &(uint8_t){(uint8_t)(n | 0x80)}, 1);
    put(to, &(uint8_t){(uint8_t)n}, 1);
}

static int well_formed(const uint8_t *s, size_t len)
{
    static const uint32_t least[] = {0, 0x80, 0x800, 0x10000};
    for (size_t i = 0; i < len;) {
        uint32_t c = s[i++];
        size_t more = c < 0x80 ? 0 : c < 0xe0 ? 1 : c < 0xf0 ? 2 : 3;
        if ((c >= 0x80 && c < 0xc0) || c >= 0xf8 || len - i < more)
            return 0;
        c &= more ? 0x3fu >> more : 0x7f;
        for (size_t j = 0; j < more; j++, i++) {
            if ((s[i] & 0xc0) != 0x80)
                return 0;
            c = c << 6 | (s[i] & 0x3f);
        }
        if (c < least[more] || c > 0x10ffff || (c >= 0xd800 && c < 0xe000))
            return 0;
    }
    return 1;
}

static int hex_value(uint8_t c)
{
    return c >= '0' && c <= '9' ? c - '0' : c >= 'a' && c <= 'f' ? c - 'a' + 10 : -1;
}

/* A text as an element of the strict form. */
static void put_element(own *to, const uint8_t *text, size_t len)
{
    int hex = len && len % 2 == 0;
    for (size_t i = 0; hex && i < len; i++)
        hex = hex_value(text[i]) >= 0;
    put_varint(to, hex ? len + 1 : 2 * len);
    for (size_t i = 0; hex && i < len; i += 2)
        put(to, &(uint8_t){(uint8_t)(hex_value(text[i]) << 4 | hex_value(text[i + 1]))}, 1);
    if (!hex)
        put(to, text, len);
}

/* A form that is read as it is laid out, field after field and text after text, whatever is shared: what reading
 * answers, the version, and the strict form of the event. Where more is named than a million bytes, it gives up. */
typedef struct {
    const uint8_t *at;
    size_t len, named;
    uint64_t version;
    kez_answer answer;
    own strict;
} form;

static form laid_out;

/* The piece that the pointer at this place names, if it is one; a table's length is divisible by 8. */
static int named(form *f, size_t pointer, int table, size_t *at, size_t *len)
{
    uint64_t length = four_bytes(f->at + pointer), offset = four_bytes(f->at + pointer + 4);
    int good = offset % 8 == 0 && offset + length <= f->len - BEHIND_DATA - DATA_AT && (!table || length % 8 == 0);
    *at = DATA_AT + offset;
    *len = length;
    f->named += good ? length : 0;
    if (!good)
        f->answer = (kez_answer){27, pointer};
    return good;
}

static int refused(form *f, int is_so, uint64_t refusal, uint64_t place)
{
    if (is_so)
        f->answer = (kez_answer){refusal, place};
    return is_so;
}

static int gives_up(const form *f)
{
    return f->named > 1000000;
}

/* The texts of a tag, one after the other. */
static void read_texts(form *f, size_t table, size_t len)
{
    size_t at, text_len;
    put_varint(&f->strict, len / 8);
    for (size_t i = 0; i < len && !f->answer.refusal && !gives_up(f); i += 8)
        if (named(f, table + i, 0, &at, &text_len) &&
            !refused(f, !f->version && !well_formed(f->at + at, text_len), 5, at))
            put_element(&f->strict, f->at + at, text_len);
}

static void read_laid_out(form *f)
{
    size_t at, len, tags, tags_len;
    uint64_t kind = eight_bytes(f->at + KIND_AT);
    int64_t time = (int64_t)eight_bytes(f->at + TIME_AT);
    if (refused(f, !f->version && kind > 65535, 6, KIND_AT) ||
        refused(f, !f->version && (time < 0 || time % 1000), 28, TIME_AT) || !named(f, CONTENT_AT, 0, &at, &len) ||
        refused(f, !f->version && !well_formed(f->at + at, len), 5, at) || !named(f, TAGS_AT, 1, &tags, &tags_len) ||
        refused(f, !f->version && tags_len > 8000, 8, TAGS_AT))
        return;
    put(&f->strict, f->at + f->len - KEZ_POINTER_ID_FROM_END, KEZ_ID_LEN);
    put(&f->strict, f->at + KEZ_POINTER_PUBKEY_AT, KEZ_PUBKEY_LEN);
    put(&f->strict, f->at + f->len - KEZ_POINTER_SIG_FROM_END, KEZ_SIG_LEN);
    put_varint(&f->strict, (uint64_t)(time / 1000));
    put_varint(&f->strict, kind);
    put_varint(&f->strict, len);
    put(&f->strict, f->at + at, len);
    put_varint(&f->strict, tags_len / 8);
    for (size_t i = 0; i < tags_len && !f->answer.refusal && !gives_up(f); i += 8)
        if (named(f, tags + i, 1, &at, &len) && !refused(f, !f->version && len > 8 * 255, 8, tags + i) &&
            !refused(f, !f->version && !len, 9, tags + i))
            read_texts(f, at, len);
}

/* What is foretold of these bytes. */
static void foretell(const uint8_t *data, size_t len)
{
    form *f = &laid_out;
    uint64_t header = len < KEZ_POINTER_LEAST ? 0 : eight_bytes(data);
    f->at = data;
    f->len = len;
    f->named = f->strict.len = 0;
    f->answer = (kez_answer){0, 0};
    f->version = header >> 32;
    if (refused(f, len > KEZ_MOST, 1, 0) ||
        refused(f, len < KEZ_POINTER_LEAST || f->version > 1 || (header & 0xffffffff) != len - BEHIND_DATA, 26, 0))
        return;
    read_laid_out(f);
}

static kez_answer read_form(void)
{
    current = POINTER_READ;
    lend_numbers(6);
    kez_answer a = checked(kez_pointer_read(lent(&in_first), in_first.len, number(0), number(1), number(2), number(3),
                                            number(4), number(5)));
    take_numbers(a, 6);
    return a;
}

/* A piece that is shown is the one that the pointer names. */
static void must_be_named(const uint8_t *data, size_t pointer, uint64_t at, uint64_t len)
{
    must(at == DATA_AT + four_bytes(data + pointer + 4) && len == four_bytes(data + pointer), "shows another piece");
    must(at <= in_first.len - BEHIND_DATA && len <= in_first.len - BEHIND_DATA - at, "shows a piece outside the data");
}

/* A tag and a text of it: as the tables have them, or 19, or what the reader refuses. */
static void texts_of(const uint8_t *data, kez_answer read, uint64_t tags, uint64_t tags_at)
{
    uint64_t tag = roll(8) ? roll(tags + 2) : UINT64_MAX >> roll(62);
    kez_answer none = {19, 0};
    current = POINTER_TAG_LEN;
    kez_answer count = checked(kez_pointer_tag_len(lent(&in_first), in_first.len, tag));
    must(read.refusal ? same(count, read) : tag < tags ? !count.refusal : same(count, none), "disagrees with the reader");
    uint64_t texts = count.refusal ? 1 : count.value, element = roll(8) ? roll(texts + 1) : UINT64_MAX >> roll(62);
    if (!count.refusal)
        must(8 * texts == four_bytes(data + tags_at + 8 * tag), "counts other texts than the tag's table has");
    current = POINTER_ELEMENT;
    lend_numbers(2);
    kez_answer a = checked(kez_pointer_element(lent(&in_first), in_first.len, tag, element, number(0), number(1)));
    take_numbers(a, 2);
    must(count.refusal ? same(a, count) : element < texts ? !a.refusal : same(a, none), "disagrees with the tag's length");
    if (!a.refusal)
        must_be_named(data, DATA_AT + four_bytes(data + tags_at + 8 * tag + 4) + 8 * element, numbers[0], numbers[1]);
}

/* What is shown of a form stands in it. */
static void must_show_form(const uint8_t *data)
{
    must(numbers[0] == four_bytes(data + 4), "shows another version");
    must(numbers[1] == eight_bytes(data + KIND_AT), "shows another kind");
    must(numbers[2] == eight_bytes(data + TIME_AT), "shows another time");
    must(8 * numbers[5] == four_bytes(data + TAGS_AT), "counts other tags than their table has");
    must_be_named(data, CONTENT_AT, numbers[3], numbers[4]);
}

/* What a v0 was converted to: strict bytes, which are written as a v0 that converts to them again. */
static void must_stay(const result *converted)
{
    static result v0, back;
    lend_input(&in_first, converted->bytes, converted->answer.value, first_copy);
    must(is_strict() == 1, "does not take as strict what a v0 is converted to");
    write_with(&v0, POINTER_WRITE, write_pointer);
    if (v0.answer.refusal == 29)
        return;
    must(!v0.answer.refusal, "refuses what a v0 was converted to");
    lend_input(&in_first, v0.bytes, v0.answer.value, first_copy);
    write_with(&back, POINTER_CONVERT, kez_pointer_convert);
    must(leaves(&back, converted->bytes, converted->answer.value), "is not converted back");
}

/* Any bytes as a pointer form. */
static void as_pointers(const uint8_t *data, size_t len)
{
    static result converted;
    form *f = &laid_out;
    foretell(data, len);
    lend_input(&in_first, data, len, first_copy);
    kez_answer read = read_form();
    must(gives_up(f) || same(read, f->answer), "answers otherwise than the form is laid out");
    if (!read.refusal)
        must_show_form(data);
    uint64_t tags = read.refusal ? 0 : numbers[5];
    uint64_t tags_at = read.refusal ? 0 : DATA_AT + four_bytes(data + TAGS_AT + 4);
    for (int i = 0; i < 3; i++)
        texts_of(data, read, tags, tags_at);
    write_with(&converted, POINTER_CONVERT, kez_pointer_convert);
    int is_v1 = read.refusal != 1 && read.refusal != 26 && data[4];
    must(!is_v1 || same(converted.answer, (kez_answer){26, 0}), "converts a v1, or looks at a field of it");
    must(is_v1 || !read.refusal || same(converted.answer, read), "refuses otherwise than the reader");
    if (is_v1 || read.refusal)
        return;
    if (f->strict.len > KEZ_MOST)
        must(same(converted.answer, (kez_answer){29, 0}), "converts to more than 65,536 bytes");
    else
        must(gives_up(f) || leaves(&converted, f->strict.at, f->strict.len), "converts to another event");
    if (!converted.answer.refusal)
        must_stay(&converted);
}

/* The v0 of a strict event, laid out by the harness. */

static uint64_t take_varint(const uint8_t **at)
{
    uint64_t n = 0;
    for (int i = 0;; i += 7) {
        n |= (uint64_t)(**at & 0x7f) << i;
        if (*(*at)++ < 0x80)
            return n;
    }
}

static void put_word(own *to, size_t at, uint64_t word)
{
    for (int i = 0; i < 8 && at < SIZE; i++, at++, word >>= 8)
        to->at[at] = (uint8_t)word;
}

/* A piece of this length comes next, all of it zero, and is pointed to from there. Where it stands. */
static size_t put_piece(own *to, size_t pointer, size_t len)
{
    size_t at = to->len, to_end = (len + 7) / 8 * 8;
    put_word(to, pointer, (uint64_t)(at - DATA_AT) << 32 | len);
    if (to->len <= SIZE && to_end <= SIZE - to->len)
        memset(to->at + at, 0, to_end);
    to->len += to_end;
    return at;
}

/* A text, or the hex of raw bytes. */
static void put_text(own *to, size_t pointer, const uint8_t *payload, size_t len, int raw)
{
    size_t at = put_piece(to, pointer, raw ? 2 * len : len);
    for (size_t i = 0; i < len && to->len <= SIZE; i++) {
        if (raw) {
            to->at[at + 2 * i] = (uint8_t)"0123456789abcdef"[payload[i] >> 4];
            to->at[at + 2 * i + 1] = (uint8_t)"0123456789abcdef"[payload[i] & 15];
        } else {
            to->at[at + i] = payload[i];
        }
    }
}

static void lay_out(own *to, const uint8_t *strict)
{
    const uint8_t *at = strict + 128;
    memset(to->at, 0, DATA_AT);
    to->len = DATA_AT;
    memcpy(to->at + KEZ_POINTER_PUBKEY_AT, strict + KEZ_PUBKEY_AT, KEZ_PUBKEY_LEN);
    put_word(to, TIME_AT, 1000 * take_varint(&at));
    put_word(to, KIND_AT, take_varint(&at));
    size_t len = take_varint(&at);
    put_text(to, CONTENT_AT, at, len, 0);
    at += len;
    uint64_t tags = take_varint(&at);
    size_t next_tag = put_piece(to, TAGS_AT, 8 * tags);
    for (uint64_t i = 0; i < tags; i++, next_tag += 8) {
        uint64_t texts = take_varint(&at);
        size_t next = put_piece(to, next_tag, 8 * texts);
        for (uint64_t j = 0; j < texts; j++, next += 8) {
            uint64_t element = take_varint(&at);
            put_text(to, next, at, element / 2, element % 2);
            at += element / 2;
        }
    }
    put_word(to, 0, to->len);
    put(to, strict + KEZ_ID_AT, KEZ_ID_LEN);
    put(to, strict + KEZ_SIG_AT, KEZ_SIG_LEN);
}

/* What was written of an event is the one v0 of its strict form, 29 is told exactly where that is too long, and it is
 * converted back. */
static void pointer_written(const result *v0)
{
    static own wanted;
    current = POINTER_WRITE;
    lay_out(&wanted, strict_form.bytes);
    if (wanted.len > KEZ_MOST) {
        must(same(v0->answer, (kez_answer){29, 0}), "writes a v0 of more than 65,536 bytes");
        return;
    }
    must(leaves(v0, wanted.at, wanted.len), "does not lay out the event");
    lend_input(&in_first, v0->bytes, v0->answer.value, first_copy);
    write_with(&again, POINTER_CONVERT, kez_pointer_convert);
    must(leaves(&again, strict_form.bytes, strict_form.answer.value), "does not convert what the writer wrote");
    as_pointers(wanted.at, wanted.len);
}

static int is_strict(void)
{
    current = STRICT;
    kez_answer a = checked(kez_notepack_is_strict(lent(&in_first), in_first.len, word()));
    must(a.refusal || a.value < 2, "has a value that is neither 0 nor 1");
    return a.refusal ? -1 : (int)a.value;
}

/* Does the id belong? */
static kez_answer belongs(const uint8_t *data, size_t len)
{
    current = ID_BELONGS;
    lend_input(&in_first, data, len, first_copy);
    kez_answer a = checked(kez_id_belongs(lent(&in_first), in_first.len, word()));
    must(a.refusal || a.value < 2, "has a value that is neither 0 nor 1");
    return a;
}

/* The question is answered as the canonical text, hashed, says. Of one record of two more is asked: with that digest as
 * the id the answer is yes, with one bit of it changed no, with one bit of the signature changed yes again. */
static void identity(const uint8_t *data, size_t len, kez_answer read)
{
    static uint8_t record[KEZ_MOST];
    uint8_t digest[KEZ_ID_LEN];
    if (read.refusal) {
        must(same(belongs(data, len), read), "refuses otherwise than the reader");
        return;
    }
    plain_sha256(canonical_text.bytes, canonical_text.answer.value, digest);
    int is_it = !memcmp(digest, data + KEZ_ID_AT, sizeof digest);
    accepted(belongs(data, len), (uint64_t)is_it, "answers otherwise than the canonical text says");
    if (roll(2))
        return;
    memcpy(record, data, len);
    memcpy(record + KEZ_ID_AT, digest, sizeof digest);
    accepted(belongs(record, len), 1, "does not take the digest of the canonical text as the id");
    size_t bit = roll(2) ? roll(8 * sizeof digest) : 8 * (sizeof digest - 1) + roll(8); /* often the last byte's */
    record[KEZ_ID_AT + bit / 8] ^= (uint8_t)(1 << bit % 8);
    accepted(belongs(record, len), 0, "takes an id with a wrong bit");
    record[KEZ_ID_AT + bit / 8] ^= (uint8_t)(1 << bit % 8);
    record[KEZ_SIG_AT + roll(KEZ_SIG_LEN)] ^= 1;
    accepted(belongs(record, len), 1, "asks for the signature");
}

/* A record that is read is refused at its time if that is spelled by one byte more. */
static void padded(const uint8_t *data, size_t len)
{
    static uint8_t longer[KEZ_MOST];
    size_t last = 128;
    if (len == KEZ_MOST)
        return;
    while (data[last] & 0x80)
        last++;
    must(last < 137, "reads a time of more bytes than it needs");
    memcpy(longer, data, last + 1);
    longer[last] |= 0x80;
    longer[last + 1] = 0;
    memcpy(longer + last + 2, data + last + 1, len - last - 1);
    lend_input(&in_first, longer, len + 1, first_copy);
    must(same(read_numbers(), (kez_answer){24, 128}), "does not refuse a padded number");
}

static void as_packed(const uint8_t *data, size_t len)
{
    static uint8_t content[KEZ_MOST];
    uint64_t was[NUMBERS];
    lend_input(&in_first, data, len, first_copy);
    kez_answer read = read_numbers();
    memcpy(was, numbers, sizeof was);
    int strict = is_strict();
    must((strict < 0) == (read.refusal != 0), "disagrees with the reader");
    for (int i = 0; i < 3; i++)
        elements(read, was[4]);
    listed_elements(read, was[4]);
    write_with(&strict_form, PACK, pack);
    write_with(&canonical_text, CANONICAL, write_canonical);
    must(!read.refusal || same(read, canonical_text.answer), "refuses otherwise than the reader");
    must(read.refusal || canonical_text.answer.value <= 3 * len, "writes more than three times what was packed");
    static result text, string, v0;
    write_with(&text, NSON_WRITE, write_nson);
    must(!read.refusal || same(read, text.answer), "refuses otherwise than the reader");
    write_with(&string, STRING_WRITE, write_string);
    must(!read.refusal || same(read, string.answer), "refuses otherwise than the reader");
    write_with(&v0, POINTER_WRITE, write_pointer);
    must(!read.refusal || same(read, v0.answer), "refuses otherwise than the reader");
    as_string_of(data, len, read);
    identity(data, len, read);
    current = PACK;
    if (read.refusal) {
        must(same(read, strict_form.answer), "refuses otherwise than the reader");
        return;
    }
    current = READ;
    must(was[2] <= len && was[3] <= len - was[2], "shows a content that is not in the input");
    memcpy(content, data + was[2], was[3]);
    current = PACK;
    must(strict_form.answer.value <= len, "writes a strict form that is longer than what was read");
    current = STRICT;
    must(strict == leaves(&strict_form, data, len), "disagrees with the strict form");
    padded(data, len);
    /* the strict form reads back */
    lend_input(&in_first, strict_form.bytes, strict_form.answer.value, first_copy);
    accepted(read_numbers(), 0, "does not read the strict form back");
    must(numbers[0] == was[0] && numbers[1] == was[1] && numbers[3] == was[3] && numbers[4] == was[4] &&
             !memcmp(content, in_first.at + numbers[2], was[3]), "reads the strict form as another event");
    must(is_strict() == 1, "does not take the strict form as strict");
    write_with(&again, PACK, pack);
    must(leaves(&again, strict_form.bytes, strict_form.answer.value), "does not leave strict bytes as they are");
    write_with(&again, CANONICAL, write_canonical);
    must(leaves(&again, canonical_text.bytes, canonical_text.answer.value), "has another text for the strict form");
    string_written(&string);
    pointer_written(&v0);
    if (text.answer.refusal)
        return;
    lend_input(&in_first, text.bytes, text.answer.value, first_copy);
    write_with(&again, NSON_READ, kez_nson_read);
    must(leaves(&again, strict_form.bytes, strict_form.answer.value), "does not read what the NSON writer wrote");
    write_with(&again, JSON_READ, kez_json_read);
    must(leaves(&again, strict_form.bytes, strict_form.answer.value), "does not read what the NSON writer wrote");
}

/* One input, said to be versioned */

/* 01 in front of the bytes. */
static void versioned_of(own *v, const uint8_t *data, size_t len)
{
    v->at[0] = 1;
    memcpy(v->at + 1, data, len);
    v->len = len + 1;
}

static int has_place(uint64_t refusal)
{
    return (refusal >= 2 && refusal <= 10) || refusal == 24;
}

/* The answer to these bytes, said to be versioned, by the answer to those behind the first, said to be bare: a refusal
 * of the packed event counts the first byte too, all else is the same. */
static kez_answer by_bare(const uint8_t *data, size_t len, kez_answer bare)
{
    if (len > KEZ_MOST)
        return (kez_answer){1, 0};
    if (!len || data[0] != 1)
        return (kez_answer){len ? 25 : 2, 0};
    bare.value += (uint64_t)has_place(bare.refusal);
    return bare;
}

/* The bytes are lent as they are and said to be versioned, or without their first byte and said to be bare. */
static void lend_form(const uint8_t *data, size_t len, uint64_t bare)
{
    said = bare;
    lend_input(&in_first, data + (bare && len), len - (bare && len), first_copy);
}

/* An entry that writes leaves the same in both forms. */
static void writes_same(int entry, writer *call, const uint8_t *data, size_t len)
{
    static result bare, versioned;
    lend_form(data, len, KEZ_BARE);
    write_with(&bare, entry, call);
    lend_form(data, len, KEZ_VERSIONED);
    write_with(&versioned, entry, call);
    must(same(versioned.answer, by_bare(data, len, bare.answer)),
         "answers a versioned event otherwise than a bare one");
    must(versioned.answer.refusal || leaves(&bare, versioned.bytes, versioned.answer.value),
         "writes something else of a versioned event");
}

/* What is read and asked of the bytes: the numbers and all elements, with places one further on. */
static void reads_same(const uint8_t *data, size_t len)
{
    uint64_t was[NUMBERS];
    lend_form(data, len, KEZ_BARE);
    kez_answer bare = read_numbers();
    memcpy(was, numbers, sizeof was);
    int strict = is_strict();
    kez_answer id = belongs(data + !!len, len - !!len);
    lend_form(data, len, KEZ_VERSIONED);
    kez_answer read = read_numbers();
    must(same(read, by_bare(data, len, bare)), "answers a versioned event otherwise than a bare one");
    uint64_t tags = numbers[4];
    was[2]++;
    must(read.refusal || !memcmp(was, numbers, sizeof was), "reads a versioned event with other numbers");
    must(is_strict() == (read.refusal ? -1 : strict), "answers a versioned event otherwise than a bare one");
    must(same(belongs(data, len), by_bare(data, len, id)), "answers a versioned event otherwise than a bare one");
    lend_form(data, len, KEZ_VERSIONED);
    elements(read, tags);
    listed_elements(read, tags);
    if (!read.refusal && tags) {
        lend_form(data, len, KEZ_BARE);
        kez_answer first = list_from(0, KEZ_ELEMENT_BYTES);
        uint64_t place = four_bytes(out_first.at + 4);
        lend_form(data, len, KEZ_VERSIONED);
        must(same(first, list_from(0, KEZ_ELEMENT_BYTES)) && four_bytes(out_first.at + 4) == place + 1,
             "lists an element of a versioned event at another place");
    }
}

/* Moves: the same bytes, with the 01 or without, of all that is read and may have it. There and back is the same. */
static void moves(const uint8_t *data, size_t len)
{
    static result there, back;
    static own wanted;
    lend_form(data, len, KEZ_VERSIONED);
    kez_answer read = read_numbers();
    write_with(&back, TO_BARE, kez_bare_from_versioned);
    must(read.refusal ? same(back.answer, read) : leaves(&back, data + 1, len - 1), "moves other bytes");
    said = KEZ_BARE;
    lend_input(&in_first, data, len, first_copy);
    read = len < KEZ_MOST ? read_numbers() : (kez_answer){1, 0};
    write_with(&there, TO_VERSIONED, kez_versioned_from_bare);
    versioned_of(&wanted, data, len);
    must(read.refusal ? same(there.answer, read) : leaves(&there, wanted.at, len + 1), "moves other bytes");
    if (there.answer.refusal)
        return;
    lend_input(&in_first, wanted.at, len + 1, first_copy);
    write_with(&back, TO_BARE, kez_bare_from_versioned);
    must(leaves(&back, data, len), "does not move back what was moved");
}

/* The string form of a versioned event: that of 01 and the strict form. */
static void versioned_string(const uint8_t *data, size_t len)
{
    static result strict, string;
    static own held, text;
    lend_form(data, len, KEZ_VERSIONED);
    kez_answer read = read_numbers();
    write_with(&strict, PACK, pack);
    write_with(&string, STRING_WRITE, write_string);
    must(!read.refusal || same(read, string.answer), "refuses otherwise than the reader");
    as_string_of(data, len, read);
    if (read.refusal)
        return;
    current = STRING_WRITE;
    versioned_of(&held, strict.bytes, strict.answer.value);
    spell(&text, KEZ_VERSIONED, held.at, held.len);
    must(leaves(&string, text.at, text.len), "does not spell 01 and the strict form");
}

/* Any bytes, or 01 and any bytes, said to be versioned. */
static void as_versioned(const uint8_t *data, size_t len)
{
    static own behind;
    if (roll(4)) {
        versioned_of(&behind, data, len);
        data = behind.at;
        len = behind.len;
    }
    reads_same(data, len);
    writes_same(PACK, pack, data, len);
    writes_same(CANONICAL, write_canonical, data, len);
    writes_same(NSON_WRITE, write_nson, data, len);
    writes_same(POINTER_WRITE, write_pointer, data, len);
    moves(data, len);
    versioned_string(data, len);
    said = KEZ_BARE;
}

/* One input as a text */

static void both_readers(void)
{
    int nson = !by_nson.answer.refusal, json = !by_json.answer.refusal;
    size_t need = json ? by_json.answer.value : 0;
    size_t rooms[2] = {roll(4) ? need + roll(9) : roll(need + 1), roll(4) ? need + roll(9) : roll(need + 1)};
    current = READ_BOTH;
    lend_room(&out_first, rooms[0]);
    lend_room(&out_second, rooms[1]);
    lend_numbers(1);
    kez_answer a = checked(kez_read_both(lent(&in_first), in_first.len, lent(&out_first), rooms[0], lent(&out_second), rooms[1],
                                         number(0)));
    kez_answer wanted = by_json.answer;
    if (json && (rooms[1] < need || (nson && rooms[0] < need)))
        wanted = (kez_answer){11, need};
    else if (json)
        wanted = (kez_answer){0, nson ? 2 : 1};
    must(same(a, wanted), "disagrees with the readers");
    unchanged(&out_first, !a.refusal && nson ? need : 0, "changes what it must leave of the first buffer");
    unchanged(&out_second, !a.refusal ? need : 0, "changes what it must leave of the second buffer");
    unchanged(&number_buffer, !a.refusal ? 8 : 0, "changes a number that it must leave");
    if (a.refusal)
        return;
    must(*number(0) == need, "tells another length");
    must(!memcmp(out_second.at, by_json.bytes, need), "leaves another event than the JSON reader");
    if (nson)
        must(!memcmp(out_first.at, by_json.bytes, need), "leaves two events");
}

static void as_text(const uint8_t *data, size_t len)
{
    lend_input(&in_first, data, len, first_copy);
    write_with(&by_nson, NSON_READ, kez_nson_read);
    must(by_nson.answer.refusal || by_nson.answer.value <= len, "leaves a strict form that is longer than its text");
    write_with(&by_json, JSON_READ, kez_json_read);
    must(by_json.answer.refusal || by_json.answer.value <= len, "leaves a strict form that is longer than its text");
    must(by_nson.answer.refusal || leaves(&by_json, by_nson.bytes, by_nson.answer.value), "shows another event than the NSON reader");
    both_readers();
    /* what a reader leaves is strict, and an NSON text is the writer's own */
    if (!by_json.answer.refusal) {
        lend_input(&in_first, by_json.bytes, by_json.answer.value, first_copy);
        must(is_strict() == 1, "does not take as strict what the JSON reader leaves");
        kez_answer read = read_numbers();
        listed_elements(read, numbers[4]);
    }
    if (!by_nson.answer.refusal) {
        lend_input(&in_first, by_nson.bytes, by_nson.answer.value, first_copy);
        write_with(&again, NSON_WRITE, write_nson);
        must(leaves(&again, data, len), "does not write the text that the NSON reader read");
    }
}

/* Two inputs */

/* Two inputs, each said to be of a form. */
static kez_answer rivals_in(const uint8_t *data, size_t len, uint64_t bare, const uint8_t *other, size_t other_len,
                            uint64_t other_bare)
{
    lend_input(&in_first, data, len, first_copy);
    lend_input(&in_second, other, other_len, second_copy);
    current = RIVALS;
    said = bare && other_bare;
    kez_answer a = checked(kez_rivals(lent(&in_first), in_first.len, bare, lent(&in_second), in_second.len,
                                      other_bare));
    said = KEZ_BARE;
    unchanged(&in_second, 0, "changes its second input");
    must(a.refusal || a.value < 3, "has a value above 2");
    return a;
}

static kez_answer rivals_of(const uint8_t *data, size_t len, const uint8_t *other, size_t other_len)
{
    return rivals_in(data, len, KEZ_BARE, other, other_len, KEZ_BARE);
}

static kez_answer read_alone(const uint8_t *packed, size_t len, uint64_t bare)
{
    uint64_t none;
    return kez_notepack_read(packed, len, bare, &none, &none, &none, &none, &none);
}

/* The same two in other forms, now and then with another first byte: which is kept does not change, and what is refused
 * is what the reader refuses, of the first before the second. */
static void rivals_in_forms(const uint8_t *data, size_t len, const uint8_t *other, size_t other_len, kez_answer bare)
{
    static own first, second;
    uint64_t first_bare = roll(2), second_bare = !first_bare || roll(2) ? 0 : 1;
    versioned_of(&first, data, len);
    versioned_of(&second, other, other_len);
    if (first_bare)
        memmove(first.at, data, first.len = len);
    if (second_bare)
        memmove(second.at, other, second.len = other_len);
    else if (!roll(8))
        second.at[0] = (uint8_t)roll(256);
    if (!first_bare && !roll(8))
        first.at[0] = (uint8_t)roll(256);
    kez_answer refused = read_alone(first.at, first.len, first_bare);
    if (!refused.refusal)
        refused = read_alone(second.at, second.len, second_bare);
    kez_answer a = rivals_in(first.at, first.len, first_bare, second.at, second.len, second_bare);
    must(same(a, refused.refusal ? refused : bare), "answers two forms otherwise than two bare ones");
}

static uint64_t kind_of(const uint8_t *packed, size_t len)
{
    uint64_t kind = 0, none;
    kez_notepack_read(packed, len, KEZ_BARE, &none, &kind, &none, &none, &none);
    return kind;
}

/* Have all events of this kind a key? If not, none has one. */
static int keyed(uint64_t kind)
{
    return kind == 0 || kind == 3 || (kind >= 10000 && kind <= 19999) || (kind >= 30000 && kind <= 39999);
}

static void as_rivals(const uint8_t *data, size_t len, const uint8_t *other, size_t other_len)
{
    kez_answer one = rivals_of(data, len, other, other_len), two = rivals_of(other, other_len, data, len);
    must(!one.refusal == !two.refusal, "refuses two inputs in one order only");
    rivals_in_forms(data, len, other, other_len, one);
    if (one.refusal)
        return;
    must(rivals_of(data, len, data, len).value == (uint64_t)keyed(kind_of(data, len)),
         "takes a key for none, or none for a key");
    must(!one.value == !two.value, "takes two inputs as rivals in one order only");
    if (one.value == 2)
        must(two.value == 1, "keeps another record in the other order");
    if (one.value == 1 && two.value == 1)
        must(!memcmp(data, other, 32), "ties though the ids differ");
}

/* A table of records, and an input that is offered to it */

typedef struct {
    uint8_t slots[KEZ_SLOTS_BYTES], cells[KEZ_CELLS_BYTES];
} table;

static table kept; /* the harness's own: the library is lent a copy */
static buffer slots_buffer, cells_buffer;
static uint8_t slots_copy[SIZE + BESIDE], cells_copy[SIZE + BESIDE];

static uint8_t *cell_of(table *t, size_t n)
{
    return t->cells + KEZ_CELL_BYTES * n;
}

static int is_used(const table *t, size_t n)
{
    return t->slots[KEZ_SLOT_BYTES * n] != 0;
}

static uint64_t length_of(const table *t, size_t n)
{
    const uint8_t *slot = t->slots + KEZ_SLOT_BYTES * n;
    return four_bytes(slot + 8) | four_bytes(slot + 12) << 32;
}

/* What is put into a slot by hand: any mark but 0 makes it a used one, and seven bytes of it are nobody's. */
static void put_slot(table *t, size_t n, uint8_t used, uint8_t beside, uint64_t len)
{
    uint8_t *slot = t->slots + KEZ_SLOT_BYTES * n;
    memset(slot, beside, 8);
    slot[0] = used;
    for (int i = 8; i < 16; i++, len >>= 8)
        slot[i] = (uint8_t)len;
}

static void lend_table(void)
{
    lend_input(&slots_buffer, kept.slots, sizeof kept.slots, slots_copy);
    lend_input(&cells_buffer, kept.cells, sizeof kept.cells, cells_copy);
}

/* After a call: nothing beside the two buffers changed, and they hold this table. */
static void must_hold(const table *t, const char *what)
{
    unchanged(&slots_buffer, slots_buffer.len, "changes something beside the slots");
    unchanged(&cells_buffer, cells_buffer.len, "changes something beside the cells");
    must(!memcmp(slots_buffer.at, t->slots, sizeof t->slots), what);
    must(!memcmp(cells_buffer.at, t->cells, sizeof t->cells), what);
}

/* What the other entries say of tables */

static int kind_passes(const uint8_t *packed, size_t len)
{
    uint64_t kind = kind_of(packed, len);
    return kind >= 20000 && kind <= 29999;
}

/* Does the slot hold a strict event that may be kept? */
static int is_fit(table *t, size_t n)
{
    if (length_of(t, n) > KEZ_CELL_BYTES)
        return 0;
    kez_answer strict = kez_notepack_is_strict(cell_of(t, n), length_of(t, n), KEZ_BARE);
    return !strict.refusal && strict.value && !kind_passes(cell_of(t, n), length_of(t, n));
}

/* An event that has a key is its own rival. */
static int has_key(const uint8_t *packed, size_t len)
{
    return kez_rivals(packed, len, KEZ_BARE, packed, len, KEZ_BARE).value != 0;
}

static int one_name(const uint8_t *a, size_t a_len, const uint8_t *b, size_t b_len)
{
    if (kez_rivals(a, a_len, KEZ_BARE, b, b_len, KEZ_BARE).value)
        return 1;
    return !memcmp(a, b, KEZ_ID_LEN) && !has_key(a, a_len) && !has_key(b, b_len);
}

/* The lowest bad slot, or KEZ_SLOTS. */
static size_t lowest_bad(table *t)
{
    int fit[KEZ_SLOTS];
    for (size_t n = 0; n < KEZ_SLOTS; n++)
        fit[n] = is_used(t, n) && is_fit(t, n);
    for (size_t n = 0; n < KEZ_SLOTS; n++) {
        if (is_used(t, n) && !fit[n])
            return n;
        for (size_t m = n + 1; m < KEZ_SLOTS && fit[n]; m++)
            if (fit[m] && one_name(cell_of(t, n), length_of(t, n), cell_of(t, m), length_of(t, m)))
                return n;
    }
    return KEZ_SLOTS;
}

/* The answer to a strict event that may be kept, and in n the slot that it is stored in, if it is. */
static kez_answer placed(table *t, const uint8_t *strict, size_t len, size_t *n)
{
    size_t lowest_free = KEZ_SLOTS;
    for (size_t i = KEZ_SLOTS; i-- > 0;) {
        const uint8_t *cell = cell_of(t, i);
        size_t cell_len = length_of(t, i);
        if (!is_used(t, i)) {
            lowest_free = i;
        } else if (one_name(cell, cell_len, strict, len)) {
            *n = i;
            if (!has_key(strict, len) || (cell_len == len && !memcmp(cell, strict, len)))
                return (kez_answer){0, KEZ_TABLE_HELD};
            int wins = kez_rivals(cell, cell_len, KEZ_BARE, strict, len, KEZ_BARE).value == 2;
            return (kez_answer){0, wins ? KEZ_TABLE_REPLACED : KEZ_TABLE_LOSES};
        }
    }
    *n = lowest_free;
    return lowest_free < KEZ_SLOTS ? (kez_answer){0, KEZ_TABLE_NEW} : (kez_answer){23, 0};
}

/* The answer to any offer; what is stored is left in strict. */
static kez_answer foretold(table *t, const uint8_t *data, size_t len, uint64_t bare, own *strict, size_t *n)
{
    size_t bad = lowest_bad(t);
    if (bad < KEZ_SLOTS)
        return (kez_answer){34, bad};
    kez_answer written = kez_notepack_write(data, len, bare, strict->at, SIZE);
    if (written.refusal)
        return written;
    strict->len = written.value;
    if (strict->len > KEZ_CELL_BYTES)
        return (kez_answer){22, 0};
    if (kind_passes(strict->at, strict->len))
        return (kez_answer){0, KEZ_TABLE_NOT_KEPT};
    return placed(t, strict->at, strict->len, n);
}

static kez_answer view_slot(uint64_t n)
{
    current = TABLE_SLOT;
    lend_table();
    lend_numbers(2);
    kez_answer a = checked(kez_table_slot(slots_buffer.at, slots_buffer.len, cells_buffer.at, cells_buffer.len, n,
                                          number(0), number(1)));
    take_numbers(a, 2);
    must_hold(&kept, "changes the table");
    return a;
}

/* A slot shows what stands in it; of a table that is none 34 is told, whichever slot is asked for. */
static void viewed(size_t bad)
{
    uint64_t n = roll(8) ? roll(KEZ_SLOTS) : roll(2) ? KEZ_SLOTS + roll(9) : UINT64_MAX - roll(2);
    kez_answer a = view_slot(n), wanted = {0, 0};
    if (bad < KEZ_SLOTS)
        wanted = (kez_answer){34, bad};
    else if (n >= KEZ_SLOTS || !is_used(&kept, n))
        wanted = (kez_answer){19, 0};
    must(same(a, wanted), "answers otherwise than the slot stands there");
    must(a.refusal || (numbers[0] == KEZ_CELL_BYTES * n && numbers[1] == length_of(&kept, n)), "shows another place");
}

/* What was stored is shown in slot n and in no other. */
static void shown_once(const own *strict, size_t n)
{
    for (size_t i = 0; i < KEZ_SLOTS; i++) {
        if (i != n && roll(32))
            continue;
        kez_answer a = view_slot(i);
        int is_it = !a.refusal && numbers[1] == strict->len &&
                    !memcmp(kept.cells + numbers[0], strict->at, strict->len);
        must(is_it == (i == n), "does not show what was stored in one slot alone");
    }
}

static kez_answer offer(const uint8_t *data, size_t len, uint64_t bare)
{
    current = TABLE_OFFER;
    lend_input(&in_first, data, len, first_copy);
    lend_table();
    said = bare;
    kez_answer a = checked(kez_table_offer(slots_buffer.at, slots_buffer.len, cells_buffer.at, cells_buffer.len,
                                           lent(&in_first), in_first.len, bare));
    said = KEZ_BARE;
    return a;
}

/* One offer: the answer and every byte of the table are what the other entries say. Then the same is held. */
static void offered_in(const uint8_t *data, size_t len, uint64_t bare)
{
    static own strict;
    size_t n = KEZ_SLOTS;
    kez_answer wanted = foretold(&kept, data, len, bare, &strict, &n);
    kez_answer a = offer(data, len, bare);
    must(same(a, wanted), "answers otherwise than the other entries say");
    if (a.refusal || a.value > KEZ_TABLE_REPLACED) {
        must_hold(&kept, "stores nothing, and changes the table");
        return;
    }
    put_slot(&kept, n, 1, 0, strict.len);
    memcpy(cell_of(&kept, n), strict.at, strict.len);
    must_hold(&kept, "stores something else than the strict form, or elsewhere too");
    shown_once(&strict, n);
    must(same(offer(data, len, bare), (kez_answer){0, KEZ_TABLE_HELD}), "does not hold what it stored");
    must_hold(&kept, "holds an event, and changes the table");
}

/* In either form; now and then the other is said. */
static void offered(const uint8_t *data, size_t len)
{
    static own v;
    uint64_t bare = roll(3) != 0;
    versioned_of(&v, data, len);
    if (bare)
        offered_in(data, len, roll(16) ? bare : !bare);
    else
        offered_in(v.at, v.len, roll(16) ? bare : !bare);
}

/* A strict record, one of few: of its kind, its author, its id, its time and its label there are some. It is small, or
 * about as long as a cell. */
static void small_record(own *r)
{
    static const uint16_t kinds[] = {0, 1, 3, 4, 10000, 19999, 20000, 29999, 30000, 30000, 30000, 39999, 40000};
    static const char *const labels[] = {"", "g", "map", "Map", "maps"};
    const char *label = labels[roll(5)];
    uint16_t kind = kinds[roll(13)];
    memset(r->at, 0x55, 128);
    r->at[roll(2) ? 0 : 31] = (uint8_t)roll(4);
    r->at[63] = (uint8_t)roll(2);
    r->len = 128;
    r->at[r->len++] = (uint8_t)roll(3);
    for (; kind >= 0x80; kind >>= 7)
        r->at[r->len++] = (uint8_t)(kind | 0x80);
    r->at[r->len++] = (uint8_t)kind;
    size_t content = roll(16) ? 0 : 870 + roll(30);
    if (content)
        r->at[r->len++] = (uint8_t)(content | 0x80);
    r->at[r->len++] = (uint8_t)(content >> 7);
    memset(r->at + r->len, 'x', content);
    r->len += content;
    r->at[r->len++] = roll(8) != 0;
    if (!r->at[r->len - 1])
        return;
    if (!roll(8)) { /* "d" and nothing behind it */
        memcpy(r->at + r->len, "\1\2d", 3);
        r->len += 3;
        return;
    }
    r->at[r->len++] = 2;
    r->at[r->len++] = 2;
    r->at[r->len++] = 'd';
    r->at[r->len++] = (uint8_t)(2 * strlen(label));
    memcpy(r->at + r->len, label, strlen(label));
    r->len += strlen(label);
}

/* Something that is wrong with a slot, or only looks so. */
static void damage_slot(size_t n)
{
    uint8_t *slot = kept.slots + KEZ_SLOT_BYTES * n, *cell = cell_of(&kept, n);
    size_t other = roll(KEZ_SLOTS);
    switch (roll(7)) {
    case 0: put_slot(&kept, n, 1, 0, roll(2) ? 0 : KEZ_CELL_BYTES + roll(3)); break;
    case 1: slot[8] ^= 1; break;
    case 2: slot[8 + roll(8)] ^= (uint8_t)(1 << roll(8)); break;
    case 3: cell[128 + roll(16)] ^= (uint8_t)(1 << roll(8)); break;
    case 4: slot[0] = 0; break;
    case 5: slot[0] = 1; break;
    default:
        memcpy(slot, kept.slots + KEZ_SLOT_BYTES * other, KEZ_SLOT_BYTES);
        memcpy(cell, cell_of(&kept, other), KEZ_CELL_BYTES);
    }
}

/* Buffers of other sizes are refused by each of the three, and stay as they are. */
static void other_sizes(void)
{
    size_t slots_len = roll(2) ? sizeof kept.slots : roll(2 * sizeof kept.slots);
    size_t cells_len = roll(2) ? sizeof kept.cells : roll(2 * sizeof kept.cells);
    static uint8_t bytes[2 * sizeof kept.cells];
    uint64_t numbers_lent[2] = {1, 2};
    if (slots_len == sizeof kept.slots && cells_len == sizeof kept.cells)
        return;
    memset(bytes, (int)roll(256), sizeof bytes);
    lend_input(&slots_buffer, bytes, slots_len, slots_copy);
    lend_input(&cells_buffer, bytes, cells_len, cells_copy);
    uint8_t *slots = lent(&slots_buffer), *cells = lent(&cells_buffer);
    kez_answer all[] = {
        kez_table_empty(slots, slots_len, cells, cells_len),
        kez_table_offer(slots, slots_len, cells, cells_len, lent(&in_first), in_first.len, roll(2)),
        kez_table_slot(slots, slots_len, cells, cells_len, roll(99), numbers_lent, numbers_lent + 1),
    };
    for (int i = 0; i < 3; i++) {
        current = TABLE_EMPTY + i;
        must(same(checked(all[i]), (kez_answer){34, 0}), "takes buffers of another size");
        unchanged(&slots_buffer, 0, "changes slots of another size");
        unchanged(&cells_buffer, 0, "changes cells of another size");
    }
    must(numbers_lent[0] == 1 && numbers_lent[1] == 2, "changes a number that it must leave");
}

static void emptied(void)
{
    current = TABLE_EMPTY;
    memset(&kept, (int)roll(256), sizeof kept);
    lend_table();
    kez_answer a = kez_table_empty(slots_buffer.at, slots_buffer.len, cells_buffer.at, cells_buffer.len);
    accepted(checked(a), 0, "does not empty a table");
    memset(&kept, 0, sizeof kept);
    must_hold(&kept, "leaves something in an emptied table");
}

/* Some slots are filled by hand, in a full table all; a slot or two may be damaged. */
static void fill_table(void)
{
    static own r;
    size_t count = roll(12) ? roll(6) : KEZ_SLOTS;
    for (size_t i = 0; i < count; i++) {
        size_t n = count == KEZ_SLOTS ? i : roll(12) ? roll(KEZ_SLOTS) : roll(2) ? 0 : KEZ_SLOTS - 1;
        small_record(&r);
        if (count == KEZ_SLOTS)
            r.at[40] = r.at[10] = (uint8_t)n; /* another author and another id for each */
        memcpy(cell_of(&kept, n), r.at, r.len < KEZ_CELL_BYTES ? r.len : KEZ_CELL_BYTES);
        put_slot(&kept, n, (uint8_t)(1 + roll(255)), (uint8_t)roll(256), r.len);
        if (kind_passes(r.at, r.len) && roll(16))
            kept.slots[KEZ_SLOT_BYTES * n] = 0;
    }
    for (uint64_t faults = roll(6) ? 0 : 1 + roll(2); faults > 0; faults--)
        damage_slot(roll(KEZ_SLOTS));
}

static void as_offers(const uint8_t *data, size_t len, const uint8_t *other, size_t other_len)
{
    static own r;
    emptied();
    fill_table();
    viewed(lowest_bad(&kept));
    offered(data, len);
    for (int i = 0; i < 4; i++) {
        small_record(&r);
        offered(r.at, r.len);
    }
    offered(other, other_len);
    viewed(lowest_bad(&kept));
    if (!roll(8))
        other_sizes();
}

/* A message, in pieces */

enum { LENGTH_AT = 32, WAITING_AT = 40, BLOCK = 64 };
static const uint64_t too_much = UINT64_C(1) << 61;

/* A state of the harness's own: the library is lent a copy, mostly with something behind it. */
typedef struct {
    uint8_t at[KEZ_SHA256_STATE];
} hash;

static buffer state_buffer;
static uint8_t state_copy[SIZE + BESIDE];

static void lend_state(const hash *h)
{
    uint8_t longer[2 * sizeof h->at];
    memcpy(longer, h->at, sizeof h->at);
    memset(longer + sizeof h->at, (int)roll(256), sizeof h->at);
    lend_input(&state_buffer, longer, sizeof h->at + (roll(2) ? 0 : roll(sizeof h->at)), state_copy);
}

/* How long the message is. */
static uint64_t length_so_far(const hash *h)
{
    return four_bytes(h->at + LENGTH_AT) | four_bytes(h->at + LENGTH_AT + 4) << 32;
}

static void put_length(hash *h, uint64_t length)
{
    for (int i = 0; i < 8; i++, length >>= 8)
        h->at[LENGTH_AT + i] = (uint8_t)length;
}

/* After a call that may change the state: what it leaves behind a refusal, behind the state, behind what waits. */
static void take_state(hash *h, kez_answer a, uint64_t length)
{
    unchanged(&state_buffer, a.refusal ? 0 : sizeof h->at, "changes what it must leave of the state");
    if (a.refusal)
        return;
    must(a.value == sizeof h->at, "has a value that is not 104");
    memcpy(h->at, state_buffer.at, sizeof h->at);
    must(length_so_far(h) == length, "counts another length");
    for (size_t i = WAITING_AT + length % BLOCK; i < sizeof h->at; i++)
        must(!h->at[i], "leaves something behind the bytes that wait");
}

static void start_hash(hash *h)
{
    current = SHA256_START;
    for (size_t i = 0; i < sizeof h->at; i++)
        h->at[i] = (uint8_t)roll(256);
    lend_state(h);
    take_state(h, checked(kez_sha256_start(state_buffer.at, state_buffer.len)), 0);
    must(h->at[0] == 0x6a && h->at[31] == 0x19, "starts with other words");
}

/* The message is too long exactly where its length is 2^61 or more, or would be. */
static kez_answer add_piece(hash *h, const uint8_t *piece, size_t len)
{
    uint64_t length = length_so_far(h);
    int refused = length >= too_much || len >= too_much - length;
    current = SHA256_ADD;
    lend_input(&in_first, piece, len, first_copy);
    lend_state(h);
    kez_answer a = checked(kez_sha256_add(state_buffer.at, state_buffer.len, lent(&in_first), len));
    must(refused ? same(a, (kez_answer){35, 0}) : !a.refusal, "answers otherwise than the lengths say");
    take_state(h, a, length + len);
    return a;
}

static kez_answer finish_in(const hash *h, uint8_t *digest, size_t room)
{
    current = SHA256_FINISH;
    lend_state(h);
    lend_room(&out_first, room);
    kez_answer a = checked(kez_sha256_finish(state_buffer.at, state_buffer.len, lent(&out_first), room));
    unchanged(&state_buffer, 0, "changes the state");
    unchanged(&out_first, a.refusal ? 0 : KEZ_SHA256_DIGEST, "changes bytes that are not the digest's");
    if (!a.refusal)
        memcpy(digest, out_first.at, KEZ_SHA256_DIGEST);
    return a;
}

/* The digest, asked for with too little room, with enough and with more. */
static kez_answer finish_hash(const hash *h, uint8_t *digest)
{
    kez_answer none = {length_so_far(h) < too_much ? 11 : 35, length_so_far(h) < too_much ? KEZ_SHA256_DIGEST : 0};
    must(same(finish_in(h, digest, roll(KEZ_SHA256_DIGEST)), none), "answers otherwise with too little room");
    kez_answer a = finish_in(h, digest, KEZ_SHA256_DIGEST + (roll(2) ? 0 : roll(40)));
    must(same(a, none.refusal == 35 ? none : (kez_answer){0, KEZ_SHA256_DIGEST}), "does not finish with enough room");
    return a;
}

/* The same bytes in several pieces, some of them empty; finished now and then on the way, which changes nothing. */
static void add_in_pieces(hash *h, const uint8_t *data, size_t len)
{
    uint8_t digest[KEZ_SHA256_DIGEST];
    for (size_t at = 0; at < len;) {
        size_t most = roll(2) ? 2 * BLOCK + 2 : len, next = roll(4) ? 1 + roll(most) : 0;
        next = next < len - at && (roll(64) || !next) ? next : len - at;
        if (add_piece(h, data + at, next).refusal)
            return;
        at += next;
        if (!roll(8))
            finish_hash(h, digest);
    }
}

/* Any bytes as a state, mostly of an allowed length; and one that is too short. */
static void any_state(const uint8_t *data, size_t len)
{
    hash one, two;
    uint8_t digest[KEZ_SHA256_DIGEST], other_digest[KEZ_SHA256_DIGEST];
    size_t few = roll(sizeof one.at);
    for (size_t i = 0; i < sizeof one.at; i++)
        one.at[i] = (uint8_t)roll(256);
    put_length(&one, roll(3) ? roll(UINT64_MAX) >> roll(64) : (roll(4) ? too_much : 0) - roll(300) + roll(3) * len);
    two = one;
    kez_answer whole = add_piece(&one, data, len);
    if (!whole.refusal) {
        add_in_pieces(&two, data, len);
        must(!len || !memcmp(&one, &two, sizeof one), "has another state where the message is cut elsewhere");
    }
    kez_answer a = finish_hash(&one, digest), b = finish_hash(&one, other_digest);
    must(same(a, b) && (a.refusal || !memcmp(digest, other_digest, sizeof digest)), "finishes otherwise a second time");
    lend_input(&state_buffer, one.at, few, state_copy);
    lend_room(&out_first, roll(2) * KEZ_SHA256_DIGEST);
    lend_input(&in_first, data, len, first_copy);
    kez_answer all[] = {
        kez_sha256_start(lent(&state_buffer), few),
        kez_sha256_add(lent(&state_buffer), few, lent(&in_first), len),
        kez_sha256_finish(lent(&state_buffer), few, lent(&out_first), out_first.len),
    };
    for (int i = 0; i < 3; i++) {
        current = SHA256_START + i;
        must(same(checked(all[i]), (kez_answer){11, KEZ_SHA256_STATE}), "takes a state that is too short");
        unchanged(&state_buffer, 0, "changes a state that is too short");
        unchanged(&out_first, 0, "changes the lent buffer though the state is too short");
    }
}

/* A message has one state and one digest, wherever it is cut, and plain C has the same. */
static void as_message(const uint8_t *data, size_t len)
{
    hash one, two;
    uint8_t digest[KEZ_SHA256_DIGEST], plain[KEZ_SHA256_DIGEST];
    start_hash(&one);
    start_hash(&two);
    add_piece(&one, data, len);
    add_in_pieces(&two, data, len);
    must(!memcmp(&one, &two, sizeof one), "has another state where the message is cut elsewhere");
    finish_hash(roll(2) ? &one : &two, digest);
    plain_sha256(data, len, plain);
    must(!memcmp(digest, plain, sizeof plain), "has another digest than plain C");
    any_state(data, roll(4) && len > 300 ? roll(300) : len);
}

void properties(const uint8_t *data, size_t len, const uint8_t *other, size_t other_len, uint64_t choices)
{
    dice = choices;
    if (!in_first.low) {
        for (size_t i = 0; i < sizeof pattern; i++)
            pattern[i] = (uint8_t)roll(256);
        buffer *all[] = {&in_first,      &in_second,    &out_first,    &out_second,
                         &number_buffer, &slots_buffer, &cells_buffer, &state_buffer};
        for (size_t i = 0; i < sizeof all / sizeof *all; i++)
            make(all[i]);
        dice = choices;
    }
    given = data;
    given_len = len;
    as_packed(data, len);
    as_versioned(data, len);
    as_text(data, len);
    as_pointers(data, len);
    read_string(data, len);
    said = KEZ_VERSIONED;
    read_string(data, len);
    said = KEZ_BARE;
    as_message(data, len);
    as_rivals(data, len, other, other_len);
    /* a table is large: one input of four is offered to one */
    if (!roll(4))
        as_offers(data, len, other, other_len);
}
