/* Records made to be slow, each to every entry that takes its kind: the best of several calls, in microseconds. The
 * last line names the slowest. Ordinary records are measured by bench.c. */
#define _GNU_SOURCE
#include "kezubimoryu.h"

#include <stdio.h>
#include <stdlib.h>
#include <string.h>
#include <time.h>

enum { MOST = KEZ_MOST, CALLS = 15 };

typedef struct {
    uint8_t at[1 << 20];
    size_t len;
} bytes;

static bytes record;

static void put(const void *part, size_t len)
{
    memcpy(record.at + record.len, part, len);
    record.len += len;
}

static void put_text(const char *text)
{
    put(text, strlen(text));
}

static void fill(uint8_t byte, size_t count)
{
    memset(record.at + record.len, byte, count);
    record.len += count;
}

/* The unit, again and again, as long as the record stays below this length. */
static size_t repeat(const char *unit, size_t below)
{
    size_t count = 0, len = strlen(unit);
    for (; record.len + len < below; count++)
        put(unit, len);
    return count;
}

static void put_varint(uint64_t n)
{
    for (; n >= 0x80; n >>= 7)
        fill((uint8_t)(n | 0x80), 1);
    fill((uint8_t)n, 1);
}

/* Times */

static uint8_t out[KEZ_ELEMENTS_MOST], beside[MOST];
static uint64_t numbers[6];
static uint64_t tag, element; /* what kez_notepack_element is asked for */

static double slowest;
static char slowest_said[200];

static double now(void)
{
    struct timespec t;
    clock_gettime(CLOCK_MONOTONIC, &t);
    return 1e6 * (double)t.tv_sec + 1e-3 * (double)t.tv_nsec;
}

typedef kez_answer call(void);

static void measure(const char *entry, call *of, const char *what)
{
    double best = 0;
    kez_answer a = {0, 0};
    for (int i = 0; i < CALLS; i++) {
        double start = now();
        a = of();
        double took = now() - start;
        if (i == 0 || took < best)
            best = took;
    }
    char said[160];
    snprintf(said, sizeof said, "%-25s %-44s %7zu bytes %8.1f", entry, what, record.len, best);
    if (a.refusal)
        printf("%s  refused %d at %d\n", said, (int)a.refusal, (int)a.value);
    else
        printf("%s\n", said);
    if (best > slowest) {
        slowest = best;
        snprintf(slowest_said, sizeof slowest_said, "%s on %s, %zu bytes: %.2f ms", entry, what, record.len, best / 1000);
    }
}

/* Texts */

static kez_answer json_read(void) { return kez_json_read(record.at, record.len, out, MOST); }
static kez_answer nson_read(void) { return kez_nson_read(record.at, record.len, out, MOST); }
static kez_answer read_both(void)
{
    return kez_read_both(record.at, record.len, beside, MOST, out, MOST, numbers);
}

static void text_is_slow(const char *what)
{
    measure("kez_json_read", json_read, what);
    measure("kez_read_both", read_both, what);
    if (!nson_read().refusal)
        measure("kez_nson_read", nson_read, what);
}

/* Six of the seven fields; what is left is the tags, with a content, or the content, with the tags. */
static void start_json(const char *rest)
{
    record.len = 0;
    put_text("{\"id\":\"");
    fill('0', 64);
    put_text("\",\"pubkey\":\"");
    fill('0', 64);
    put_text("\",\"sig\":\"");
    fill('0', 128);
    put_text("\",\"created_at\":1700000000,\"kind\":1,");
    put_text(rest);
}

static void json_content(const char *what, const char *unit, const char *end, size_t below)
{
    start_json("\"tags\":[],\"content\":\"");
    repeat(unit, below - 40);
    put_text(end);
    put_text("\"}");
    text_is_slow(what);
}

/* As many tags of so many elements as there is room for. */
static void json_tags(const char *what, const char *unit, int elements, size_t below)
{
    start_json("\"content\":\"\",\"tags\":[");
    size_t each = (size_t)elements * (strlen(unit) + 1) + 2;
    for (int tags = 0; tags < 1000 && record.len + each + 4 < below; tags++) {
        put_text(tags ? ",[" : "[");
        for (int i = 0; i < elements; i++) {
            put_text(i ? "," : "");
            put_text(unit);
        }
        put_text("]");
    }
    put_text("]}");
    text_is_slow(what);
}

static void json_ignored(const char *what, const char *unit, const char *end)
{
    start_json("\"content\":\"\",\"tags\":[]");
    repeat(unit, MOST - 40);
    put_text(end);
    text_is_slow(what);
}

static void texts(void)
{
    json_content("content of \\u00e9", "\\u00e9", "", MOST);
    json_content("content of surrogate pairs", "\\ud83d\\udc42", "", MOST);
    json_content("content of \\\\", "\\\\", "", MOST);
    json_content("content of \\t", "\\t", "", MOST);
    json_content("content of \\n", "\\n", "", MOST);
    json_content("content of a\\/", "a\\/", "", MOST);
    json_content("content of two bytes a character", "\xc3\xa9", "", MOST);
    json_content("content of \\t, then no UTF-8", "\\t", "\xff", MOST);
    json_content("content of \\u00e9, then a lone surrogate", "\\u00e9", "\\ud83d", MOST);
    json_content("content of two bytes a character, then none", "\xc3\xa9", "\xff", MOST);
    json_tags("tags of one empty text", "\"\"", 1, MOST);
    json_tags("tags of 255 empty texts", "\"\"", 255, MOST);
    json_tags("tags of 255 texts of a letter", "\"z\"", 255, MOST);
    json_tags("tags of 255 texts of two digits", "\"ab\"", 255, MOST);
    json_tags("tags of 255 texts of one escape", "\"\\t\"", 255, MOST);
    json_tags("tags of 255 texts of one \\u", "\"\\u0061\"", 255, MOST);
    json_tags("tags of 255 texts, digits by \\u", "\"\\u0061\\u0062\"", 255, MOST);
    json_tags("tags of 255 texts of two bytes", "\"\xc3\xa9\"", 255, MOST);
    json_tags("tags of hex of 64 digits", "\"0123456789abcdef0123456789abcdef0123456789abcdef0123456789abcdef\"", 1, MOST);
    json_tags("tags of 64 digits, the last no digit",
              "\"0123456789abcdef0123456789abcdef0123456789abcdef0123456789abcdeg\"", 1, MOST);
    json_tags("tags of long texts, digits by \\u at the end",
              "\"0123456789abcdef0123456789abcdef0123456789abcdef0123456789abcde\\u0066\"", 1, MOST);
    json_ignored("ignored numbers", ",\"a\":0", "}");
    json_ignored("ignored names by \\u", ",\"\\u0061\":0", "}");
    json_ignored("ignored names near created_at", ",\"created_aT\":0", "}");
    json_ignored("ignored arrays, 16 deep", ",\"a\":[[[[[[[[[[[[[[[[]]]]]]]]]]]]]]]]", "}");
    json_ignored("ignored objects, 16 deep",
                 ",\"a\":{\"\":{\"\":{\"\":{\"\":{\"\":{\"\":{\"\":{\"\":{\"\":{\"\":{\"\":{\"\":{\"\":{\"\":{\"\":{"
                 "}}}}}}}}}}}}}}}}", "}");
    json_ignored("ignored fractions", ",\"a\":-0.5e+7", "}");
    json_ignored("white space", " ", "}");
    /* the longest digits that are no kind */
    record.len = 0;
    put_text("{\"kind\":");
    fill('9', MOST - 9);
    put_text("}");
    text_is_slow("a kind of 65,527 digits");
}

/* Packed bytes */

static kez_answer pack_read(void)
{
    return kez_notepack_read(record.at, record.len, KEZ_BARE, numbers, numbers + 1, numbers + 2, numbers + 3,
                             numbers + 4);
}
static kez_answer is_strict(void) { return kez_notepack_is_strict(record.at, record.len, KEZ_BARE); }
static kez_answer pack(void) { return kez_notepack_write(record.at, record.len, KEZ_BARE, out, MOST); }
static kez_answer canonical(void) { return kez_canonical_write(record.at, record.len, KEZ_BARE, out, sizeof out); }
static kez_answer nson_write(void) { return kez_nson_write(record.at, record.len, KEZ_BARE, out, MOST); }
static kez_answer tag_len(void) { return kez_notepack_tag_len(record.at, record.len, KEZ_BARE, tag); }
static kez_answer show_element(void)
{
    return kez_notepack_element(record.at, record.len, KEZ_BARE, tag, element, numbers, numbers + 1, numbers + 2);
}
static kez_answer show_elements(void)
{
    return kez_notepack_elements(record.at, record.len, KEZ_BARE, 0, out, sizeof out);
}
static kez_answer rivals(void)
{
    return kez_rivals(record.at, record.len, KEZ_BARE, record.at, record.len, KEZ_BARE);
}
static kez_answer id_belongs(void) { return kez_id_belongs(record.at, record.len, KEZ_BARE); }
static kez_answer string_write(void)
{
    return kez_notepack_string_write(record.at, record.len, KEZ_BARE, out, sizeof out);
}
static kez_answer to_versioned(void) { return kez_versioned_from_bare(record.at, record.len, out, MOST); }
static kez_answer to_bare(void) { return kez_bare_from_versioned(record.at, record.len, out, MOST); }
static kez_answer string_read(void) { return kez_notepack_string_read(record.at, record.len, out, MOST); }
static kez_answer pointer_write(void) { return kez_pointer_write(record.at, record.len, KEZ_BARE, out, MOST); }

/* Pointer forms */

static kez_answer pointer_read(void)
{
    return kez_pointer_read(record.at, record.len, numbers, numbers + 1, numbers + 2, numbers + 3, numbers + 4,
                            numbers + 5);
}
static kez_answer pointer_tag_len(void) { return kez_pointer_tag_len(record.at, record.len, tag); }
static kez_answer pointer_element(void)
{
    return kez_pointer_element(record.at, record.len, tag, element, numbers, numbers + 1);
}
static kez_answer pointer_convert(void) { return kez_pointer_convert(record.at, record.len, out, MOST); }

static void pointers_are_slow(const char *what)
{
    measure("kez_pointer_read", pointer_read, what);
    measure("kez_pointer_tag_len", pointer_tag_len, what);
    measure("kez_pointer_element", pointer_element, what);
    measure("kez_pointer_convert", pointer_convert, what);
}

/* The v0 of the packed event, if there is one. */
static void v0_is_slow(const char *what)
{
    static bytes packed;
    measure("kez_pointer_write", pointer_write, what);
    kez_answer a = pointer_write();
    if (a.refusal)
        return;
    packed = record;
    memcpy(record.at, out, a.value);
    record.len = a.value;
    pointers_are_slow(what);
    record = packed;
}

/* Eight bytes, the lowest first: so many bytes from an offset on. */
static void point(size_t at, uint64_t offset, uint64_t len)
{
    for (int i = 0; i < 8; i++)
        record.at[at + (size_t)i] = (uint8_t)((offset << 32 | len) >> 8 * i);
}

enum { DATA_AT = 72, DATA_MOST = MOST - KEZ_POINTER_LEAST };

/* A form of one second whose data is the longest that there is: the unit, again and again. */
static void start_pointers(uint64_t version, const char *unit)
{
    size_t unit_len = strlen(unit);
    record.len = MOST;
    memset(record.at, 0, record.len);
    point(0, version, DATA_AT + DATA_MOST);
    point(48, 0, 1000);
    for (size_t i = 0; i < DATA_MOST; i++)
        record.at[DATA_AT + i] = (uint8_t)unit[i % unit_len];
}

enum { TAGS = 1000, TEXTS = 255, TEXT_AT = 8 * (TAGS + TEXTS), TEXT_MOST = DATA_MOST - TEXT_AT };

/* 1,000 tags that are one table, of 255 texts in the same bytes. Each starts so many bytes behind the one before, and
 * has all bytes from there on, less `less`. */
static void shared_texts(const char *what, const char *unit, size_t apart, size_t less)
{
    start_pointers(0, unit);
    point(64, 0, 8 * TAGS);
    for (size_t i = 0; i < TAGS; i++)
        point(DATA_AT + 8 * i, 8 * TAGS, 8 * TEXTS);
    for (size_t i = 0; i < TEXTS; i++)
        point(DATA_AT + 8 * TAGS + 8 * i, TEXT_AT + apart * i, TEXT_MOST - apart * i - less);
    tag = TAGS - 1;
    element = TEXTS - 1;
    pointers_are_slow(what);
}

/* Tags that are windows on one table of texts, each a little further on than the one before. */
static void windows(const char *what, const char *unit, size_t words, uint64_t len)
{
    start_pointers(0, unit);
    point(64, 0, 8 * TAGS);
    for (size_t i = 0; i < TAGS; i++)
        point(DATA_AT + 8 * i, 8 * (TAGS + i * (words - TEXTS) / TAGS), 8 * TEXTS);
    for (size_t i = 0; i < words; i++)
        point(DATA_AT + 8 * TAGS + 8 * i, 8 * (TAGS + words), len);
    tag = TAGS - 1;
    element = TEXTS - 1;
    pointers_are_slow(what);
}

/* A v1 of one table, which is that of the tags, every tag and every text. Its last pointer has this length. */
static void one_table(const char *what, uint64_t len)
{
    size_t words = DATA_MOST / 8;
    start_pointers(1, "x");
    point(64, 0, DATA_MOST);
    for (size_t i = 0; i < words; i++)
        point(DATA_AT + 8 * i, 0, i < words - 1 ? DATA_MOST : len);
    tag = words - 1;
    element = 0;
    pointers_are_slow(what);
}

static void pointers(void)
{
    shared_texts("10^10 bytes of ASCII", "A map for the left ear. ", 0, 0);
    shared_texts("10^10 bytes of two a character", "\xc3\xa9", 0, 0);
    shared_texts("10^10 bytes of four a character", "\xf0\x9f\x91\x82", 0, 0);
    shared_texts("10^10 bytes of hex", "0123456789abcdef", 0, 0);
    shared_texts("10^10 bytes from 255 places on", "\xc3\xa9", 64, 0);
    shared_texts("10^10 bytes of hex from 255 places on", "ab", 64, 0);
    shared_texts("10^10 bytes, the last character cut", "\xc3\xa9", 0, 1);
    windows("tags, windows on 7,000 empty texts", "x", 7000, 0);
    windows("tags, windows on texts of 1,000 bytes", "x", 7000, 1000);
    windows("tags, all the same 255 empty texts", "x", TEXTS, 0);
    one_table("a v1, one table for all", DATA_MOST);
    one_table("a v1, one table for all, its last bad", DATA_MOST + 8);
    /* a strict form that has room: 250 times all texts, of which none has a byte */
    start_pointers(0, "x");
    point(64, 0, 8 * 250);
    for (size_t i = 0; i < 250; i++)
        point(DATA_AT + 8 * i, 8 * 250, 8 * TEXTS);
    for (size_t i = 0; i < TEXTS; i++)
        point(DATA_AT + 8 * 250 + 8 * i, 0, 0);
    tag = 249;
    element = TEXTS - 1;
    pointers_are_slow("250 tags, each the same 255 empty texts");
    start_pointers(0, "\xc3\xa9");
    point(56, 0, DATA_MOST);
    pointers_are_slow("content of two bytes a character");
}

/* The record becomes the string form of its bytes. */
static void spell(void)
{
    static const char alphabet[] = "ABCDEFGHIJKLMNOPQRSTUVWXYZabcdefghijklmnopqrstuvwxyz0123456789+/";
    static bytes packed;
    packed = record;
    record.len = 0;
    put_text("notepack_");
    for (size_t bit = 0; bit < 8 * packed.len; bit += 6) {
        unsigned next = bit / 8 + 1 < packed.len ? packed.at[bit / 8 + 1] : 0;
        unsigned two = (unsigned)packed.at[bit / 8] << 8 | next;
        fill((uint8_t)alphabet[two >> (10 - bit % 8) & 63], 1);
    }
}

/* The record is moved to the versioned form for one measurement, and is the bare one again. */
static void a_versioned_one_is_slow(const char *what)
{
    memmove(record.at + 1, record.at, record.len);
    record.at[0] = 1;
    record.len++;
    measure("kez_bare_from_versioned", to_bare, what);
    record.len--;
    memmove(record.at, record.at + 1, record.len);
}

/* The packed event, its string form, and its NSON where there is one. */
static void packed_is_slow(const char *what)
{
    measure("kez_notepack_read", pack_read, what);
    measure("kez_notepack_is_strict", is_strict, what);
    measure("kez_notepack_write", pack, what);
    measure("kez_canonical_write", canonical, what);
    measure("kez_nson_write", nson_write, what);
    measure("kez_notepack_tag_len", tag_len, what);
    measure("kez_notepack_element", show_element, what);
    measure("kez_notepack_elements", show_elements, what);
    measure("kez_notepack_string_write", string_write, what);
    measure("kez_rivals", rivals, what);
    measure("kez_id_belongs", id_belongs, what);
    measure("kez_versioned_from_bare", to_versioned, what);
    v0_is_slow(what);
    kez_answer a = nson_write();
    memcpy(beside, out, a.refusal ? 0 : a.value);
    a_versioned_one_is_slow(what);
    spell();
    measure("kez_notepack_string_read", string_read, what);
    if (a.refusal)
        return;
    memcpy(record.at, beside, a.value);
    record.len = a.value;
    text_is_slow(what);
}

/* An event of kind 30000 with this content. */
static void start_packed(const char *unit, size_t len)
{
    record.len = 0;
    fill(0, 128);
    put_varint(1700000000);
    put_varint(30000);
    size_t unit_len = strlen(unit), count = unit_len ? len / unit_len : 0;
    put_varint(count * unit_len);
    for (size_t i = 0; i < count; i++)
        put_text(unit);
}

static void packed_content(const char *what, const char *unit, size_t len)
{
    start_packed(unit, len);
    put_varint(0);
    tag = element = 0;
    packed_is_slow(what);
}

/* Elements are spelled as they are lent here, with their word in front. */
static void packed_tags(const char *what, const char *unit, size_t unit_len, uint64_t elements)
{
    start_packed("", 0);
    size_t each = (elements > 127 ? 2 : 1) + elements * unit_len, room = MOST - record.len - 2;
    uint64_t tags = room / each < 1000 ? room / each : 1000;
    put_varint(tags);
    for (uint64_t i = 0; i < tags; i++) {
        put_varint(elements);
        for (uint64_t j = 0; j < elements; j++)
            put(unit, unit_len);
    }
    tag = tags - 1;
    element = elements - 1;
    packed_is_slow(what);
}

#define UNIT(text) text, sizeof(text) - 1

static void packed(void)
{
    packed_content("content of two bytes a character", "\xc3\xa9", MOST - 200);
    packed_content("content of a letter and two bytes", "a\xc3\xa9", MOST - 200);
    packed_content("content of quotes", "\"", MOST - 200);
    packed_content("content of quotes, as long as NSON takes", "\"", MOST / 2 - 400);
    packed_content("content of \\, as long as NSON takes", "\\", MOST / 2 - 400);
    packed_content("content of two bytes, as long as NSON takes", "\xc3\xa9", MOST - 700);
    packed_tags("tags of one empty text", UNIT("\x00"), 1);
    packed_tags("tags of 255 empty texts", UNIT("\x00"), 255);
    packed_tags("tags of 255 texts of a letter", UNIT("\x02z"), 255);
    packed_tags("tags of 255 texts of raw bytes", UNIT("\x03\xab"), 255);
    packed_tags("tags of 255 texts of digits, not raw", UNIT("\x04""ab"), 255);
    packed_tags("tags of 255 texts of two bytes", UNIT("\x04\xc3\xa9"), 255);
    packed_tags("tags of 255 empty texts, raw", UNIT("\x01"), 255);
    packed_tags("tags of d and an empty text", UNIT("\x02""d"), 2);
    /* as many texts as a v0 has room for */
    start_packed("", 0);
    put_varint(31);
    for (tag = 0; tag < 31; tag++) {
        put_varint(255);
        fill(0, 255);
    }
    tag = 30;
    element = 254;
    v0_is_slow("31 tags of 255 empty texts");
}

/* Texts that are no string form, up to a megabyte: their length has no limit, and all of it may have to be seen. */
static void not_strings(void)
{
    static const struct {
        const char *what;
        size_t len;
        char last;
    } cases[] = {
        {"the longest, its last character outside", KEZ_NOTEPACK_STRING_MOST, '='},
        {"a megabyte of A, its last outside", 1 << 20, '='},
        {"a megabyte of A, bits left over", 1 << 20, 'B'},
        {"a megabyte of A, too many bytes", 1 << 20, 'A'},
    };
    for (size_t i = 0; i < sizeof cases / sizeof *cases; i++) {
        record.len = 0;
        put_text("notepack_");
        fill('A', cases[i].len - 10);
        fill((uint8_t)cases[i].last, 1);
        measure("kez_notepack_string_read", string_read, cases[i].what);
    }
}

/* Tables of 64 records, each as long as a cell and with a name of its own */

static uint8_t slots[KEZ_SLOTS_BYTES], cells[KEZ_CELLS_BYTES];

static kez_answer table_offer(void)
{
    return kez_table_offer(slots, sizeof slots, cells, sizeof cells, record.at, record.len, KEZ_BARE);
}
static kez_answer table_slot(void)
{
    return kez_table_slot(slots, sizeof slots, cells, sizeof cells, 63, numbers, numbers + 1);
}

/* A table's record number n up to its tags: by its id if it has no key. */
static void start_kept(uint8_t n, uint64_t kind, const char *unit, size_t content)
{
    start_packed(unit, content);
    record.at[31] = kind == 1 ? n : 0;
    if (kind == 1) { /* one byte in the place of three */
        record.at[133] = 1;
        memmove(record.at + 134, record.at + 136, record.len - 136);
        record.len -= 2;
    }
}

/* A tag with a label of this length in all, the number at its end. */
static void put_label(uint8_t n, size_t len)
{
    put_text("\x02\x02""d");
    put_varint(2 * len);
    fill('x', len - 2);
    fill((uint8_t)('A' + n / 8), 1);
    fill((uint8_t)('A' + n % 8), 1);
}

static void put_raw_label(uint8_t n, size_t len)
{
    put_text("\x02\x02""d");
    put_varint(2 * len + 1);
    fill(0xab, len - 1);
    fill(n, 1);
}

static void labelled(uint8_t n)
{
    start_kept(n, 30000, "", 0);
    put_varint(1);
    put_label(n, 879);
}

static void labelled_raw(uint8_t n)
{
    start_kept(n, 30000, "", 0);
    put_varint(1);
    put_raw_label(n, 879);
}

static void labelled_last(uint8_t n)
{
    start_kept(n, 30000, "", 0);
    put_varint(437);
    for (int i = 0; i < 436; i++)
        put("\x01\x00", 2);
    put_label(n, 4);
}

static void content_of_two(uint8_t n)
{
    start_kept(n, 30000, "\xc3\xa9", 868);
    put_varint(1);
    put_label(n, 4);
}

static void keyless(uint8_t n)
{
    start_kept(n, 1, "", 0);
    put_varint(3);
    for (int i = 0; i < 3; i++) {
        put_varint(255);
        fill(0, 255);
    }
}

static void table_is_slow(const char *what, void (*make)(uint8_t))
{
    for (uint8_t n = 0; n < KEZ_SLOTS; n++) {
        uint8_t *slot = slots + KEZ_SLOT_BYTES * n;
        make(n);
        memset(slot, 0, KEZ_SLOT_BYTES);
        slot[0] = 1;
        slot[8] = (uint8_t)record.len;
        slot[9] = (uint8_t)(record.len >> 8);
        memcpy(cells + KEZ_CELL_BYTES * n, record.at, record.len);
    }
    measure("kez_table_offer", table_offer, what);
    measure("kez_table_slot", table_slot, what);
}

static void tables(void)
{
    table_is_slow("64 labels that differ at their ends", labelled);
    table_is_slow("64 labels of raw bytes, the same", labelled_raw);
    table_is_slow("64 labels behind 436 other tags", labelled_last);
    table_is_slow("64 contents of two bytes a character", content_of_two);
    table_is_slow("64 ids that differ at their ends", keyless);
    /* the longest that is refused after all of the table was seen */
    start_packed("x", MOST - 200);
    put_varint(0);
    measure("kez_table_offer", table_offer, "the same table, a record that is too long");
}

/* A message as long as a record can be, in one piece; and by single bytes, each of which fetches the state and puts it
 * back. A piece has no limit of its own, and takes time in proportion to its length. */

static uint8_t state[KEZ_SHA256_STATE];

static kez_answer hash_whole(void)
{
    kez_sha256_start(state, sizeof state);
    kez_sha256_add(state, sizeof state, record.at, record.len);
    return kez_sha256_finish(state, sizeof state, out, KEZ_SHA256_DIGEST);
}

static kez_answer hash_bytes(void)
{
    kez_sha256_start(state, sizeof state);
    for (size_t i = 0; i < record.len; i++)
        kez_sha256_add(state, sizeof state, record.at + i, 1);
    return kez_sha256_finish(state, sizeof state, out, KEZ_SHA256_DIGEST);
}

static void messages(void)
{
    record.len = 0;
    fill('a', MOST);
    measure("kez_sha256_add", hash_whole, "a message in one piece");
    measure("kez_sha256_add", hash_bytes, "a message by single bytes, all calls");
}

int main(void)
{
    printf("%-25s %-44s %13s %8s\n", "entry", "record", "", "us");
    texts();
    packed();
    not_strings();
    tables();
    messages();
    pointers();
    printf("slowest: %s\n", slowest_said);
    return 0;
}
