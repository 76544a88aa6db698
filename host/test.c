/* Tests of the C entries over the library's archive, by the rules of docs/RULES.md and their examples. The last line is
 * 'N passed, M failed'. */
#define _GNU_SOURCE
#include "kezubimoryu.h"

#include <stdio.h>
#include <string.h>
#include <sys/mman.h>
#include <time.h>

static int passed, failed;

#define CHECK(is_so, ...)                            \
    do {                                             \
        if (is_so) {                                 \
            passed++;                                \
        } else if (++failed <= 20) {                 \
            printf("line %d: %s: ", __LINE__, #is_so); \
            printf(__VA_ARGS__);                     \
            printf("\n");                            \
        }                                            \
    } while (0)

/* Bytes that are put together */

typedef struct {
    uint8_t at[200100];
    size_t len;
} bytes;

static void put(bytes *b, const void *part, size_t len)
{
    memcpy(b->at + b->len, part, len);
    b->len += len;
}

static void fill(bytes *b, uint8_t byte, size_t count)
{
    memset(b->at + b->len, byte, count);
    b->len += count;
}

static void put_varint(bytes *b, uint64_t n)
{
    for (; n >= 0x80; n >>= 7)
        fill(b, (uint8_t)(n | 0x80), 1);
    fill(b, (uint8_t)n, 1);
}

#define PUT(b, text) put(b, text, sizeof(text) - 1)

static void put_hex(bytes *b, const char *hex)
{
    static const char digits[] = "0123456789abcdef";
    for (; *hex; hex += 2)
        fill(b, (uint8_t)((strchr(digits, hex[0]) - digits) << 4 | (strchr(digits, hex[1]) - digits)), 1);
}

/* These bytes as a string form: a prefix and base64 (rule 14.1), six bits after six bits. */
static void spelled_behind(bytes *text, const char *prefix, const uint8_t *s, size_t len)
{
    static const char alphabet[] = "ABCDEFGHIJKLMNOPQRSTUVWXYZabcdefghijklmnopqrstuvwxyz0123456789+/";
    text->len = 0;
    put(text, prefix, strlen(prefix));
    for (size_t bit = 0; bit < 8 * len; bit += 6) {
        unsigned two = (unsigned)s[bit / 8] << 8 | (bit / 8 + 1 < len ? s[bit / 8 + 1] : 0);
        fill(text, (uint8_t)alphabet[two >> (10 - bit % 8) & 63], 1);
    }
}

static const char *prefix_of(uint64_t bare)
{
    return bare ? "notepack_" : "notepack1_";
}

static void string_of(bytes *text, const uint8_t *s, size_t len)
{
    spelled_behind(text, prefix_of(KEZ_BARE), s, len);
}

/* The versioned form of these bytes (rule 17.1). */
static void versioned_of(bytes *b, const uint8_t *s, size_t len)
{
    b->len = 0;
    fill(b, 1, 1);
    if (len)
        put(b, s, len);
}

/* zero id, pubkey and sig */
static void start(bytes *b)
{
    b->len = 0;
    fill(b, 0, 128);
}

/* An event with this time and kind, no content and what follows it. */
static void event(bytes *b, uint64_t created_at, uint64_t kind)
{
    start(b);
    put_varint(b, created_at);
    put_varint(b, kind);
    put_varint(b, 0);
}

/* The vector of the notepack draft's section 9.1 (rule 12.5): its varints, each with what it counts */

static const struct {
    size_t at, len, payload;
} varints[] = {
    {128, 5, 0}, {133, 1, 0}, {134, 1, 5},                /* time, kind, content */
    {140, 1, 0},                                          /* tags */
    {141, 1, 0}, {142, 1, 1}, {144, 1, 32}, {177, 1, 23}, /* the first */
    {201, 1, 0}, {202, 1, 1}, {204, 1, 32},               /* the second */
};

static bytes vector, vector_string;

static void make_vector(void)
{
    fill(&vector, 0x00, 32);
    fill(&vector, 0x11, 32);
    fill(&vector, 0x22, 64);
    PUT(&vector, "\x80\xbc\x94\xb4\x06\x00\x05hello\x02\x03\x02""e\x41");
    fill(&vector, 0xaa, 32);
    PUT(&vector, "\x2ewss://relay.example.com\x02\x02p\x41");
    fill(&vector, 0xbb, 32);
    PUT(&vector_string,
        "notepack_AAAAAAAAAAAAAAAAAAAAAAAAAAAAAAAAAAAAAAAAAAARERERERERERERERERERERERERERERERERERERERERESIiIiI"
        "iIiIiIiIiIiIiIiIiIiIiIiIiIiIiIiIiIiIiIiIiIiIiIiIiIiIiIiIiIiIiIiIiIiIiIiIiIiIiIiKAvJS0BgAFaGVsbG8CAwJ"
        "lQaqqqqqqqqqqqqqqqqqqqqqqqqqqqqqqqqqqqqqqqqqqLndzczovL3JlbGF5LmV4YW1wbGUuY29tAgJwQbu7u7u7u7u7u7u7u7u"
        "7u7u7u7u7u7u7u7u7u7u7u7u7");
}

/* Lent things that must keep what they hold */

static uint8_t room[90000];
enum { NUMBERS = 6 };
static uint64_t numbers[NUMBERS];

static uint8_t mark(size_t i)
{
    return (uint8_t)(i * 31 + 7);
}

static void lend(void)
{
    for (size_t i = 0; i < sizeof room; i++)
        room[i] = mark(i);
    for (int i = 0; i < NUMBERS; i++)
        numbers[i] = UINT64_C(0xfeedfacecafe0000) + (uint64_t)i;
}

static int untouched_from(size_t from)
{
    for (size_t i = from; i < sizeof room; i++)
        if (room[i] != mark(i))
            return 0;
    return 1;
}

static int untouched(void)
{
    for (int i = 0; i < NUMBERS; i++)
        if (numbers[i] != UINT64_C(0xfeedfacecafe0000) + (uint64_t)i)
            return 0;
    return untouched_from(0);
}

static kez_answer read_as(const uint8_t *s, size_t len, uint64_t bare)
{
    return kez_notepack_read(s, len, bare, numbers, numbers + 1, numbers + 2, numbers + 3, numbers + 4);
}

static kez_answer read_it(const uint8_t *s, size_t len)
{
    return read_as(s, len, KEZ_BARE);
}

static kez_answer element_of(const uint8_t *s, size_t len, uint64_t bare, uint64_t tag, uint64_t element)
{
    return kez_notepack_element(s, len, bare, tag, element, numbers, numbers + 1, numbers + 2);
}

static kez_answer read_form(const uint8_t *s, size_t len)
{
    return kez_pointer_read(s, len, numbers, numbers + 1, numbers + 2, numbers + 3, numbers + 4, numbers + 5);
}

static int is(kez_answer a, uint64_t refusal, uint64_t value)
{
    return a.refusal == refusal && a.value == value;
}

/* Tables of records: the one that is lent, and what it must hold after the call */

typedef struct {
    uint8_t slots[KEZ_SLOTS_BYTES], cells[KEZ_CELLS_BYTES];
} table;

static table lent, wanted;

static kez_answer offer_as(const uint8_t *s, size_t len, uint64_t bare)
{
    return kez_table_offer(lent.slots, sizeof lent.slots, lent.cells, sizeof lent.cells, s, len, bare);
}

static kez_answer offer(const uint8_t *s, size_t len)
{
    return offer_as(s, len, KEZ_BARE);
}

static kez_answer view(uint64_t n)
{
    return kez_table_slot(lent.slots, sizeof lent.slots, lent.cells, sizeof lent.cells, n, numbers, numbers + 1);
}

static int as_wanted(void)
{
    return !memcmp(&lent, &wanted, sizeof lent);
}

/* What is asked of many inputs */

/* Every entry refuses the input, said to be of this form, so, and leaves alone what it was lent. Of its string form the
 * place is the same. The moves tell it too; but 65,536 bare bytes can't be moved, whatever they hold. */
static void refused_as(const uint8_t *s, size_t len, uint64_t bare, uint64_t refusal, uint64_t place)
{
    static bytes text;
    spelled_behind(&text, prefix_of(bare), s, len);
    memset(&lent, 0, sizeof lent);
    lend();
    kez_answer (*text_reader)(const uint8_t *, size_t, uint8_t *, size_t) =
        bare ? kez_notepack_string_read : kez_notepack_string_read_versioned;
    kez_answer (*move)(const uint8_t *, size_t, uint8_t *, size_t) =
        bare ? kez_versioned_from_bare : kez_bare_from_versioned;
    kez_answer all[] = {
        read_as(s, len, bare),
        kez_notepack_is_strict(s, len, bare),
        kez_notepack_write(s, len, bare, room, sizeof room),
        kez_notepack_write(s, len, bare, NULL, 0),
        kez_notepack_tag_len(s, len, bare, 0),
        element_of(s, len, bare, 0, 0),
        element_of(s, len, bare, UINT64_MAX, UINT64_MAX),
        kez_notepack_elements(s, len, bare, 0, room, sizeof room),
        kez_notepack_elements(s, len, bare, UINT64_MAX, NULL, 0),
        kez_canonical_write(s, len, bare, room, sizeof room),
        kez_canonical_write(s, len, bare, NULL, 0),
        kez_nson_write(s, len, bare, room, sizeof room),
        kez_nson_write(s, len, bare, NULL, 0),
        kez_notepack_string_write(s, len, bare, room, sizeof room),
        kez_notepack_string_write(s, len, bare, NULL, 0),
        kez_pointer_write(s, len, bare, room, sizeof room),
        kez_pointer_write(s, len, bare, NULL, 0),
        text_reader(text.at, text.len, room, sizeof room),
        text_reader(text.at, text.len, NULL, 0),
        kez_id_belongs(s, len, bare),
        offer_as(s, len, bare),
        kez_rivals(s, len, bare, vector.at, vector.len, KEZ_BARE),
        kez_rivals(vector.at, vector.len, KEZ_BARE, s, len, bare),
        move(s, len, room, sizeof room),
        move(s, len, NULL, 0),
    };
    size_t count = sizeof all / sizeof *all, moves = bare && len == KEZ_MOST ? 2 : 0;
    for (size_t i = 0; i < count - moves; i++)
        CHECK(is(all[i], refusal, place), "entry %zu on %zu %s bytes: %d at %d, not %d at %d", i, len,
              bare ? "bare" : "versioned", (int)all[i].refusal, (int)all[i].value, (int)refusal, (int)place);
    for (size_t i = count - moves; i < count; i++)
        CHECK(is(all[i], 1, 0), "65,536 bytes moved: %d at %d", (int)all[i].refusal, (int)all[i].value);
    memset(&wanted, 0, sizeof wanted);
    CHECK(untouched() && as_wanted(), "a refusal of %zu bytes changed what was lent", len);
}

/* These bytes are refused so as a bare event, and behind 01, with places one further on, as a versioned one. With 01
 * they may be too many. */
static void refused(const uint8_t *s, size_t len, uint64_t refusal, uint64_t place)
{
    static bytes b;
    versioned_of(&b, s, len);
    refused_as(s, len, KEZ_BARE, refusal, place);
    if (b.len > KEZ_MOST)
        refused_as(b.at, b.len, KEZ_VERSIONED, 1, 0);
    else
        refused_as(b.at, b.len, KEZ_VERSIONED, refusal, place + 1);
}

/* The input is read with these numbers; behind 01, with the content's place one further on, as a versioned event. */
static void reads(const bytes *b, uint64_t created_at, uint64_t kind, uint64_t at, uint64_t len, uint64_t tags)
{
    static bytes v;
    versioned_of(&v, b->at, b->len);
    for (uint64_t front = 0; front < 2 && front + b->len <= KEZ_MOST; front++) {
        const uint64_t wanted[] = {created_at, kind, front + at, len, tags};
        const bytes *in = front ? &v : b;
        lend();
        CHECK(is(read_as(in->at, in->len, !front), 0, 0), "%zu bytes are not read", in->len);
        CHECK(!memcmp(numbers, wanted, sizeof wanted), "%zu bytes have other numbers", in->len);
    }
}

typedef kez_answer writer(const uint8_t *, size_t, uint8_t *, size_t);
typedef kez_answer packed_writer(const uint8_t *, size_t, uint64_t, uint8_t *, size_t);

/* What an entry writes: room just enough, more, one byte short, none. */
static void writes(writer *entry, const bytes *b, const bytes *form)
{
    const size_t rooms[] = {form->len, form->len + 1, sizeof room};
    for (int i = 0; i < 3; i++) {
        lend();
        CHECK(is(entry(b->at, b->len, room, rooms[i]), 0, form->len), "%zu bytes", b->len);
        CHECK(!memcmp(room, form->at, form->len), "of %zu bytes something else is written", b->len);
        CHECK(untouched_from(form->len), "bytes behind the written ones changed");
    }
    lend();
    CHECK(is(entry(b->at, b->len, room, form->len - 1), 11, form->len), "%zu bytes", b->len);
    CHECK(is(entry(b->at, b->len, room, 0), 11, form->len), "%zu bytes", b->len);
    CHECK(is(entry(b->at, b->len, NULL, 0), 11, form->len), "%zu bytes", b->len);
    CHECK(untouched(), "without room something was written");
}

/* An entry that takes a packed event, as one that takes bytes alone: what is said of them, and which one it is. */
static packed_writer *of_packed;
static uint64_t said;

static kez_answer as_said(const uint8_t *s, size_t len, uint8_t *out, size_t out_len)
{
    return of_packed(s, len, said, out, out_len);
}

static void writes_as(packed_writer *entry, uint64_t bare, const bytes *b, const bytes *form)
{
    of_packed = entry;
    said = bare;
    writes(as_said, b, form);
}

/* What an entry writes of a bare event, and of the same one in versioned form. */
static void writes_of(packed_writer *entry, const bytes *b, const bytes *form)
{
    static bytes v;
    versioned_of(&v, b->at, b->len);
    writes_as(entry, KEZ_BARE, b, form);
    if (v.len <= KEZ_MOST)
        writes_as(entry, KEZ_VERSIONED, &v, form);
}

/* The string form is the strict form's, with 01 in front for a versioned input; that of the input itself is read as the
 * input, by the reader for its form, and refused with 20 by the other. */
static void string_forms_of(const bytes *b, const bytes *form)
{
    static bytes v, strict, text;
    string_of(&text, form->at, form->len);
    writes_as(kez_notepack_string_write, KEZ_BARE, b, &text);
    string_of(&text, b->at, b->len);
    writes(kez_notepack_string_read, &text, b);
    CHECK(is(kez_notepack_string_read_versioned(text.at, text.len, room, sizeof room), 20, 0), "%zu bytes", b->len);
    versioned_of(&v, b->at, b->len);
    if (v.len > KEZ_MOST)
        return;
    versioned_of(&strict, form->at, form->len);
    spelled_behind(&text, "notepack1_", strict.at, strict.len);
    writes_as(kez_notepack_string_write, KEZ_VERSIONED, &v, &text);
    spelled_behind(&text, "notepack1_", v.at, v.len);
    writes(kez_notepack_string_read_versioned, &text, &v);
    CHECK(is(kez_notepack_string_read(text.at, text.len, room, sizeof room), 20, 0), "%zu bytes", b->len);
}

/* There and back: the same bytes, strict or not. */
static void moved(const bytes *b)
{
    static bytes v;
    versioned_of(&v, b->at, b->len);
    if (v.len > KEZ_MOST) {
        CHECK(is(kez_versioned_from_bare(b->at, b->len, room, sizeof room), 1, 0), "%zu bytes", b->len);
        return;
    }
    writes(kez_versioned_from_bare, b, &v);
    writes(kez_bare_from_versioned, &v, b);
}

/* The strict form, and whether the input is that: of the bare bytes, and of the versioned ones. */
static void strict_form(const bytes *b, const bytes *form)
{
    static bytes v;
    uint64_t yes = b->len == form->len && !memcmp(b->at, form->at, b->len);
    CHECK(is(kez_notepack_is_strict(b->at, b->len, KEZ_BARE), 0, yes), "%zu bytes", b->len);
    versioned_of(&v, b->at, b->len);
    if (v.len <= KEZ_MOST)
        CHECK(is(kez_notepack_is_strict(v.at, v.len, KEZ_VERSIONED), 0, yes), "%zu bytes", v.len);
    writes_of(kez_notepack_write, b, form);
    string_forms_of(b, form);
    moved(b);
}

/* Element `element` of tag `tag` stands there, with this b; in the versioned form one byte further on. */
static void shows(const bytes *b, uint64_t tag, uint64_t element, uint64_t at, uint64_t len, uint64_t is_bytes)
{
    static bytes v;
    versioned_of(&v, b->at, b->len);
    for (uint64_t front = 0; front < 2; front++) {
        const bytes *in = front ? &v : b;
        lend();
        CHECK(is(element_of(in->at, in->len, !front, tag, element), 0, 0), "tag %d element %d", (int)tag, (int)element);
        CHECK(numbers[0] == front + at && numbers[1] == len && numbers[2] == is_bytes,
              "tag %d element %d: at %d, length %d, b %d", (int)tag, (int)element, (int)numbers[0], (int)numbers[1],
              (int)numbers[2]);
        CHECK(numbers[3] == UINT64_C(0xfeedfacecafe0003), "a number that was not lent changed");
    }
}

/* 19 has no place of its own, in either form. */
static void no_such(const bytes *b, uint64_t tag, uint64_t element)
{
    static bytes v;
    versioned_of(&v, b->at, b->len);
    lend();
    CHECK(is(element_of(b->at, b->len, KEZ_BARE, tag, element), 19, 0), "tag %d element %d", (int)tag, (int)element);
    CHECK(is(element_of(v.at, v.len, KEZ_VERSIONED, tag, element), 19, 0), "tag %d element %d", (int)tag, (int)element);
    CHECK(untouched(), "19 changed what was lent");
}

/* The tag has so many texts, or there is none. */
static void has_texts(const bytes *b, uint64_t tag, uint64_t refusal, uint64_t texts)
{
    static bytes v;
    versioned_of(&v, b->at, b->len);
    CHECK(is(kez_notepack_tag_len(b->at, b->len, KEZ_BARE, tag), refusal, texts), "tag %d", (int)tag);
    CHECK(is(kez_notepack_tag_len(v.at, v.len, KEZ_VERSIONED, tag), refusal, texts), "tag %d, versioned", (int)tag);
}

/* The tests */

static void the_vector(void)
{
    CHECK(vector.len == 237, "%zu", vector.len);
    reads(&vector, 1720000000, 0, 135, 5, 2);
    strict_form(&vector, &vector);
    has_texts(&vector, 0, 0, 3);
    has_texts(&vector, 1, 0, 2);
    has_texts(&vector, 2, 19, 0);
    has_texts(&vector, UINT64_MAX, 19, 0);
    shows(&vector, 0, 0, 143, 1, 0);
    shows(&vector, 0, 1, 145, 32, 1);
    shows(&vector, 0, 2, 178, 23, 0);
    shows(&vector, 1, 0, 203, 1, 0);
    shows(&vector, 1, 1, 205, 32, 1);
    no_such(&vector, 0, 3);
    no_such(&vector, 1, 2);
    no_such(&vector, 2, 0);
    no_such(&vector, UINT64_MAX, 0);
    no_such(&vector, 0, UINT64_MAX);
}

/* Every truncation: 2 at the fixed field or varint that is cut or whose payload is, 4 inside a varint. */
static void truncations(void)
{
    refused(NULL, 0, 2, 0);
    for (size_t len = 0; len < 128; len++)
        refused(vector.at, len, 2, len < 32 ? 0 : len < 64 ? 32 : 64);
    for (size_t i = 0; i < sizeof varints / sizeof *varints; i++) {
        size_t at = varints[i].at, behind = at + varints[i].len;
        refused(vector.at, at, 2, at);
        for (size_t len = at + 1; len < behind; len++)
            refused(vector.at, len, 4, at);
        for (size_t len = behind; len < behind + varints[i].payload; len++)
            refused(vector.at, len, 2, at);
    }
    bytes more = vector;
    fill(&more, 0, 1);
    refused(more.at, more.len, 10, 237);
}

/* A varint that is longer than needed is refused at its first byte, in each place and of each length. Cut, it is 4;
 * with a tenth byte of more than one bit it is 3. */
static void padded(void)
{
    bytes b;
    start(&b);
    PUT(&b, "\x80\x00\x00\x00\x00");
    refused(b.at, b.len, 24, 128);
    for (size_t i = 0; i < sizeof varints / sizeof *varints; i++) {
        size_t at = varints[i].at, last = at + varints[i].len - 1;
        for (size_t extra = 1; extra <= 10 - varints[i].len; extra++) {
            b.len = 0;
            put(&b, vector.at, last);
            fill(&b, vector.at[last] | 0x80, 1);
            fill(&b, 0x80, extra - 1);
            refused(b.at, b.len, 4, at);
            fill(&b, 0, 1);
            refused(b.at, b.len, 24, at);
            put(&b, vector.at + last + 1, vector.len - last - 1);
            refused(b.at, b.len, 24, at);
        }
        b.at[at + 9] = 2;
        refused(b.at, b.len, 3, at);
    }
}

/* 24 comes before all that the number would decide. */
static void padded_first(void)
{
    static const struct {
        const char *spelled;
        size_t len, place;
    } cases[] = {
        {"\x80\x80\x80\x80\x80\x80\x80\x90\x80\x00", 10, 128},             /* a time that is too large */
        {"\x00\x80\x80\x84\x00", 5, 129},                                   /* such a kind */
        {"\x00\x00\x85\x00", 4, 130},                                       /* a length beyond the rest */
        {"\x00\x00\x81\x00\xff\x00", 6, 130},                               /* no UTF-8 */
        {"\x00\x00\x00\xe9\x87\x00", 6, 131},                               /* 1,001 tags */
        {"\x00\x00\x00\x01\x80\x00", 6, 132},                               /* a tag of no elements */
        {"\x00\x00\x00\x01\x80\x82\x00", 7, 132},                           /* 256 elements */
        {"\x00\x00\x00\x01\x01\x8a\x00", 7, 133},                           /* a word beyond the rest */
        {"\x00\x00\x00\x01\x01\x82\x00\xff", 8, 133},                       /* no UTF-8 */
        {"\x00\x00\x00\x80\x00\x00", 6, 131},                               /* something behind the end */
    };
    for (size_t i = 0; i < sizeof cases / sizeof *cases; i++) {
        bytes b;
        start(&b);
        put(&b, cases[i].spelled, cases[i].len);
        refused(b.at, b.len, 24, cases[i].place);
    }
}

/* Elements as text and as bytes. */
static void elements(void)
{
    static const struct {
        const char *spelled, *strict;
        size_t len, strict_len;
    } cases[] = {
        {"\x03\xab", "\x03\xab", 2, 2}, {"\x04""ab", "\x03\xab", 3, 2},  {"\x04""AB", "\x04""AB", 3, 3}, {"\x06""abc", "\x06""abc", 4, 4},
        {"\x00", "\x00", 1, 1},         {"\x01", "\x00", 1, 1},          {"\x04""ag", "\x04""ag", 3, 3}, {"\x02""a", "\x02""a", 2, 2},
        {"\x08""00ff", "\x05\x00\xff", 5, 3},
    };
    bytes b, form;
    for (size_t i = 0; i < sizeof cases / sizeof *cases; i++) {
        event(&b, 0, 0);
        PUT(&b, "\x01\x02\x02t");
        form = b;
        put(&b, cases[i].spelled, cases[i].len);
        put(&form, cases[i].strict, cases[i].strict_len);
        reads(&b, 0, 0, 131, 0, 1);
        strict_form(&b, &form);
        shows(&b, 0, 1, 136, cases[i].len - 1, (uint64_t)cases[i].spelled[0] & 1);
        no_such(&b, 0, 2);
    }
}

/* The elements of a record as they are listed, and a buffer for the list with bytes behind it. */
enum { BEHIND = 64 };
static uint8_t list[KEZ_ELEMENTS_MOST + BEHIND], wanted_list[KEZ_ELEMENTS_MOST];

static void put_listed(uint8_t *to, uint64_t tag, uint64_t at, uint64_t len, uint64_t is_bytes)
{
    const uint64_t listed[] = {tag, at, len, is_bytes};
    for (int i = 0; i < KEZ_ELEMENT_BYTES; i++)
        to[i] = (uint8_t)(listed[i / 4] >> 8 * (i % 4));
}

/* The places of so many listed elements, each one less: what a versioned event has in front is not counted. */
static void without_front(uint64_t count)
{
    for (uint8_t *at = list + 4; count; count--, at += KEZ_ELEMENT_BYTES) {
        uint64_t place = at[0] | (uint64_t)at[1] << 8 | (uint64_t)at[2] << 16;
        place--;
        for (int i = 0; i < 3; i++)
            at[i] = (uint8_t)(place >> 8 * i);
    }
}

/* From element `first` on, into `len` bytes: so many, as they stand in wanted_list, and no byte behind them changed. Of
 * a versioned event each place is one more. */
static void lists_as(const bytes *b, uint64_t bare, uint64_t first, size_t len, uint64_t count)
{
    size_t written = KEZ_ELEMENT_BYTES * count;
    memset(list, 0xa5, len + BEHIND);
    kez_answer a = kez_notepack_elements(b->at, b->len, bare, first, len ? list : NULL, len);
    if (!bare && !a.refusal && a.value == count)
        without_front(count);
    CHECK(is(a, 0, count), "first %d in %zu bytes: %d, %d", (int)first, len, (int)a.refusal, (int)a.value);
    const uint8_t *wanted = count ? wanted_list + KEZ_ELEMENT_BYTES * first : list;
    CHECK(!memcmp(list, wanted, written), "first %d in %zu bytes: other elements", (int)first, len);
    size_t same = written;
    while (same < len + BEHIND && list[same] == 0xa5)
        same++;
    CHECK(same == len + BEHIND, "first %d in %zu bytes: byte %zu changed", (int)first, len, same);
}

static void lists(const bytes *b, uint64_t first, size_t len, uint64_t count)
{
    static bytes v;
    versioned_of(&v, b->at, b->len);
    lists_as(b, KEZ_BARE, first, len, count);
    lists_as(&v, KEZ_VERSIONED, first, len, count);
}

static double milliseconds(void)
{
    struct timespec t;
    clock_gettime(CLOCK_MONOTONIC, &t);
    return 1e3 * (double)t.tv_sec + 1e-6 * (double)t.tv_nsec;
}

/* The vector's five elements: every first, and every length of out up to that of six. */
static void listed_elements(void)
{
    static const uint64_t all[5][4] = {
        {0, 143, 1, 0}, {0, 145, 32, 1}, {0, 178, 23, 0}, {1, 203, 1, 0}, {1, 205, 32, 1},
    };
    for (int i = 0; i < 5; i++)
        put_listed(wanted_list + KEZ_ELEMENT_BYTES * i, all[i][0], all[i][1], all[i][2], all[i][3]);
    for (uint64_t first = 0; first < 8; first++)
        for (size_t len = 0; len <= 6 * KEZ_ELEMENT_BYTES; len++) {
            uint64_t left = first < 5 ? 5 - first : 0, fit = len / KEZ_ELEMENT_BYTES;
            lists(&vector, first, len, left < fit ? left : fit);
        }
    lists(&vector, UINT64_C(1) << 32, sizeof room, 0);
    lists(&vector, UINT64_MAX - 1, sizeof room, 0);
    lists(&vector, UINT64_MAX, sizeof room, 0);
    /* no tags, no elements */
    static bytes b;
    event(&b, 0, 0);
    put_varint(&b, 0);
    lists(&b, 0, sizeof room, 0);
    lists(&b, 0, 0, 0);
}

/* A record of 253 tags with 255 empty texts each: 64,515 elements, in one call or in several. The time is the best of
 * ten calls, so that a busy machine does not count: one that went through the record anew for each element would take
 * seconds. */
static void many_elements(void)
{
    enum { TAGS = 253, TEXTS = 255, ELEMENTS = TAGS * TEXTS };
    static bytes b;
    event(&b, 0, 0);
    put_varint(&b, TAGS);
    for (uint64_t tag = 0; tag < TAGS; tag++) {
        put_varint(&b, TEXTS);
        for (uint64_t i = 0; i < TEXTS; i++) {
            fill(&b, 0, 1);
            put_listed(wanted_list + KEZ_ELEMENT_BYTES * (tag * TEXTS + i), tag, b.len, 0, 0);
        }
    }
    CHECK(b.len <= KEZ_MOST && ELEMENTS == 64515, "%zu", b.len);
    lists(&b, 0, KEZ_ELEMENTS_MOST, ELEMENTS);
    lists(&b, 0, KEZ_ELEMENT_BYTES * ELEMENTS, ELEMENTS);
    lists(&b, 0, KEZ_ELEMENT_BYTES * ELEMENTS - 1, ELEMENTS - 1);
    lists(&b, ELEMENTS - 1, KEZ_ELEMENTS_MOST, 1);
    lists(&b, ELEMENTS, KEZ_ELEMENTS_MOST, 0);
    for (uint64_t first = 0; first < ELEMENTS; first += 10000)
        lists(&b, first, 10000 * KEZ_ELEMENT_BYTES + 9, ELEMENTS - first < 10000 ? ELEMENTS - first : 10000);
    double best = 1e9;
    for (int i = 0; i < 10; i++) {
        double start_of_call = milliseconds();
        kez_answer a = kez_notepack_elements(b.at, b.len, KEZ_BARE, 0, list, KEZ_ELEMENTS_MOST);
        double took = milliseconds() - start_of_call;
        CHECK(is(a, 0, ELEMENTS), "%d", (int)a.value);
        best = took < best ? took : best;
    }
    CHECK(best < 5, "%.1f ms for all elements", best);
}

static void varint_faults(void)
{
    bytes b;
    static const uint8_t tenth[] = {2, 0x7f, 0x80, 0x81, 0xff};
    for (size_t i = 0; i < sizeof varints / sizeof *varints; i++) {
        for (size_t len = 1; len < 10; len++) {
            b.len = 0;
            put(&b, vector.at, varints[i].at);
            fill(&b, 0xff, len);
            refused(b.at, b.len, 4, varints[i].at);
        }
        for (size_t j = 0; j < sizeof tenth; j++) {
            b.len = varints[i].at + 9;
            fill(&b, tenth[j], 1);
            refused(b.at, b.len, 3, varints[i].at);
            put(&b, vector.at, 100);
            refused(b.at, b.len, 3, varints[i].at);
        }
    }
    /* lengths far beyond the rest */
    for (size_t i = 0; i < sizeof varints / sizeof *varints; i++) {
        if (!varints[i].payload)
            continue;
        b.len = 0;
        put(&b, vector.at, varints[i].at);
        put_varint(&b, UINT64_MAX);
        put(&b, vector.at + varints[i].at + 1, vector.len - varints[i].at - 1);
        refused(b.at, b.len, 2, varints[i].at);
    }
}

static void limits(void)
{
    static bytes b;
    event(&b, UINT64_C(9223372036854775), 65535);
    put_varint(&b, 0);
    reads(&b, UINT64_C(9223372036854775), 65535, 128 + 8 + 3 + 1, 0, 0);
    strict_form(&b, &b);
    event(&b, UINT64_C(9223372036854776), 70000);
    refused(b.at, b.len, 7, 128);
    event(&b, 0, 65536);
    refused(b.at, b.len, 6, 129);
    for (uint64_t tags = 1000; tags <= 1001; tags++) {
        event(&b, 0, 0);
        put_varint(&b, tags);
        for (uint64_t i = 0; i < tags; i++)
            PUT(&b, "\x01\x00");
        if (tags == 1000) {
            reads(&b, 0, 0, 131, 0, tags);
            strict_form(&b, &b);
            shows(&b, 999, 0, b.len, 0, 0);
            no_such(&b, 1000, 0);
        } else {
            refused(b.at, b.len, 8, 131);
        }
    }
    for (uint64_t texts = 255; texts <= 256; texts++) {
        event(&b, 0, 0);
        put_varint(&b, 1);
        put_varint(&b, texts);
        fill(&b, 0, texts);
        if (texts == 255) {
            reads(&b, 0, 0, 131, 0, 1);
            has_texts(&b, 0, 0, 255);
            shows(&b, 0, 254, b.len, 0, 0);
            no_such(&b, 0, 255);
        } else {
            refused(b.at, b.len, 8, 132);
        }
    }
    event(&b, 0, 0);
    PUT(&b, "\x02\x01\x00\x00");
    refused(b.at, b.len, 9, 134);
    /* the last byte bad, the place that of the first */
    start(&b);
    PUT(&b, "\x00\x00\x04""abc\xff\x00");
    refused(b.at, b.len, 5, 131);
    event(&b, 0, 0);
    PUT(&b, "\x01\x01\x06""ab\xc3");
    refused(b.at, b.len, 5, 134);
    b.at[133] = 7;
    reads(&b, 0, 0, 131, 0, 1);
    /* the whole at 65,536 bytes and one more */
    start(&b);
    PUT(&b, "\x00\x00");
    put_varint(&b, 65536 - 134);
    fill(&b, 'x', 65536 - 134);
    put_varint(&b, 0);
    CHECK(b.len == 65536, "%zu", b.len);
    reads(&b, 0, 0, 133, 65536 - 134, 0);
    strict_form(&b, &b);
    fill(&b, 0, 1);
    refused(b.at, b.len, 1, 0);
    b.len = 0;
    fill(&b, 0xff, 65537);
    refused(b.at, b.len, 1, 0);
}

/* The other formats */

static void refuses(writer *entry, const bytes *b, uint64_t refusal, uint64_t place)
{
    lend();
    kez_answer a = entry(b->at, b->len, room, sizeof room);
    CHECK(is(a, refusal, place), "%d at %d, not %d at %d", (int)a.refusal, (int)a.value, (int)refusal, (int)place);
    CHECK(is(entry(b->at, b->len, NULL, 0), refusal, place), "without room");
    CHECK(untouched(), "a refusal changed what was lent");
}

/* A bare event is refused so, and the versioned form of it too; a place in it is one further on there. */
static void refuses_of(packed_writer *entry, const bytes *b, uint64_t refusal, uint64_t place)
{
    static bytes v;
    versioned_of(&v, b->at, b->len);
    of_packed = entry;
    said = KEZ_BARE;
    refuses(as_said, b, refusal, place);
    said = KEZ_VERSIONED;
    refuses(as_said, &v, refusal, place + (refusal >= 2 && refusal <= 10));
}

static void canonical(void)
{
    static bytes b, text;
    text.len = 0;
    PUT(&text, "[0,\"");
    fill(&text, '1', 64);
    PUT(&text, "\",1720000000,0,[[\"e\",\"");
    fill(&text, 'a', 64);
    PUT(&text, "\",\"wss://relay.example.com\"],[\"p\",\"");
    fill(&text, 'b', 64);
    PUT(&text, "\"]],\"hello\"]");
    CHECK(text.len == 265, "%zu", text.len);
    writes_of(kez_canonical_write, &vector, &text);
    for (size_t len = 0; len < vector.len; len += 59) {
        b = vector;
        b.len = len;
        refuses_of(kez_canonical_write, &b, 2, read_it(b.at, b.len).value);
    }
    /* seven bytes have escapes, in content and texts alike; no other control byte has one */
    static const char raw[] = "\n\"\\\r\t\b\f\x01\x1f\x7f/", spelled[] = "\\n\\\"\\\\\\r\\t\\b\\f\x01\x1f\x7f/";
    start(&b);
    PUT(&b, "\x00\x01\x0b");
    PUT(&b, raw);
    PUT(&b, "\x01\x01\x16");
    PUT(&b, raw);
    text.len = 0;
    PUT(&text, "[0,\"");
    fill(&text, '0', 64);
    PUT(&text, "\",0,1,[[\"");
    PUT(&text, spelled);
    PUT(&text, "\"]],\"");
    PUT(&text, spelled);
    PUT(&text, "\"]");
    writes_of(kez_canonical_write, &b, &text);
}


/* The event of the NSON examples of rule 12.4: packed, and as NSON with this nson field. */
static void a_b(bytes *packed, bytes *text, const char *nson)
{
    start(packed);
    put_varint(packed, 1000000000);
    PUT(packed, "\x01\x03""a\"b\x00");
    text->len = 0;
    PUT(text, "{\"id\":\"");
    fill(text, '0', 64);
    PUT(text, "\",\"pubkey\":\"");
    fill(text, '0', 64);
    PUT(text, "\",\"sig\":\"");
    fill(text, '0', 128);
    PUT(text, "\",\"created_at\":1000000000,\"nson\":\"");
    put(text, nson, strlen(nson));
    PUT(text, "\",\"kind\":1,\"content\":\"a\\\"b\",\"tags\":[]}");
}

/* The event of the NSON draft. Rule 12.5. */
static void draft_event(bytes *packed, bytes *text)
{
    static const char
        id[] = "57ff66490a6a2af3992accc26ae95f3f60c6e5f84ed0ddf6f59c534d3920d3d2"
               "79be667ef9dcbbac55a06295ce870b07029bfcdb2dce28d959f2815b16f81798"
               "504d142aed7fa7e0f6dab5bcd7eed63963b0277a8e11bbcb03b94531beb4b95a"
               "12f1438668b02746bd5362161bc782068e6b71494060975414e793f9e19f57ea",
        e[] = "b6de44a9dd47d1c000f795ea0453046914f44ba7d5e369608b04867a575ea83e",
        p[] = "c26f7b252cea77a5b94f42b1a4771021be07d4df766407e47738605f7e3ab774";
    packed->len = 0;
    const char *hex[] = {id, e, p};
    for (int i = 0; i < 3; i++) {
        if (i == 1) {
            put_varint(packed, 1683762317);
            PUT(packed, "\x01\x0bhello world\x02\x03\x02""e\x41");
        } else if (i == 2) {
            PUT(packed, "\x0areply\x04\x02p\x41");
        }
        put_hex(packed, hex[i]);
    }
    PUT(packed, "\x00\x28wss://relay.damus.io");
    text->len = 0;
    PUT(text, "{\"id\":\"");
    put(text, id, 64);
    PUT(text, "\",\"pubkey\":\"");
    put(text, id + 64, 64);
    PUT(text, "\",\"sig\":\"");
    put(text, id + 128, 128);
    PUT(text, "\",\"created_at\":1683762317,\"nson\":\"2801000b0203000100400005040001004000000014\",\"kind\":1,"
              "\"content\":\"hello world\",\"tags\":[[\"e\",\"");
    put(text, e, 64);
    PUT(text, "\",\"reply\"],[\"p\",\"");
    put(text, p, 64);
    PUT(text, "\",\"\",\"wss://relay.damus.io\"]]}");
}

/* So many tags of so many texts: written as NSON and shown again by both readers, or 17. */
static void carried(uint8_t tags, uint8_t texts, int fits)
{
    static bytes b, text;
    start(&b);
    put_varint(&b, 1000000000);
    PUT(&b, "\x01\x00");
    fill(&b, tags, 1);
    for (int i = 0; i < tags; i++) {
        fill(&b, texts, 1);
        for (int j = 0; j < texts; j++)
            PUT(&b, "\x02x");
    }
    if (!fits) {
        refuses_of(kez_nson_write, &b, 17, 0);
        return;
    }
    kez_answer a = kez_nson_write(b.at, b.len, KEZ_BARE, text.at, sizeof text.at);
    CHECK(!a.refusal, "%d tags of %d texts", tags, texts);
    text.len = a.value;
    writes(kez_nson_read, &text, &b);
    writes(kez_json_read, &text, &b);
}

static void nson_write(void)
{
    static bytes b, text;
    a_b(&b, &text, "0801000400");
    CHECK(text.len == 366, "%zu", text.len);
    writes_of(kez_nson_write, &b, &text);
    draft_event(&b, &text);
    writes_of(kez_nson_write, &b, &text);
    carried(41, 1, 1);
    carried(42, 1, 0);
    carried(1, 61, 1);
    carried(1, 62, 0);
    b.len = 140;
    refuses_of(kez_nson_write, &b, 2, 134);
}

static void nson_read(void)
{
    static bytes b, text;
    draft_event(&b, &text);
    writes(kez_nson_read, &text, &b);
    a_b(&b, &text, "0801000400");
    writes(kez_nson_read, &text, &b);
    a_b(&b, &text, "0801000300");
    refuses(kez_nson_read, &text, 13, 353);
    a_b(&b, &text, "0801000200");
    refuses(kez_nson_read, &text, 14, 350);
    a_b(&b, &text, "0801000500");
    refuses(kez_nson_read, &text, 13, 350);
    text.len = 0;
    refuses(kez_nson_read, &text, 12, 0);
}

static void json_read(void)
{
    static bytes b, text;
    draft_event(&b, &text);
    writes(kez_json_read, &text, &b);
    /* the nson field is ignored, whatever it says */
    a_b(&b, &text, "0801000500");
    writes(kez_json_read, &text, &b);
    text.len--;
    refuses(kez_json_read, &text, 14, text.len);
    PUT(&text, ",\"kind\"");
    refuses(kez_json_read, &text, 16, text.len - 6);
    text.len = 0;
    refuses(kez_json_read, &text, 14, 0);
    PUT(&text, " {}");
    refuses(kez_json_read, &text, 15, 2);
    for (size_t depth = 16; depth <= 17; depth++) {
        text.len = 0;
        PUT(&text, "{\"x\":");
        fill(&text, '[', depth);
        fill(&text, ']', depth);
        PUT(&text, "}");
        refuses(kez_json_read, &text, depth == 16 ? 15 : 18, depth == 16 ? text.len - 1 : 5 + 16);
    }
}

/* The vector's string form, and each place where it can be cut: 20 in the prefix, 21 for a lone character or for bits
 * left over, which are the first bits of the byte that is missing; else what the bytes are read as. */
static void string_form(void)
{
    static bytes text;
    CHECK(vector_string.len == 325, "%zu", vector_string.len);
    writes_as(kez_notepack_string_write, KEZ_BARE, &vector, &vector_string);
    writes(kez_notepack_string_read, &vector_string, &vector);
    text = vector_string;
    for (size_t len = 0; len < vector_string.len; len++) {
        text.len = len;
        size_t chars = len < 9 ? 0 : len - 9, whole = chars * 3 / 4;
        int bits = chars % 4 == 2 ? vector.at[whole] >> 4 : chars % 4 == 3 ? vector.at[whole] >> 6 : 0;
        if (len < 9) {
            refuses(kez_notepack_string_read, &text, 20, 0);
        } else if (chars % 4 == 1 || bits) {
            refuses(kez_notepack_string_read, &text, 21, len);
        } else {
            kez_answer a = read_it(vector.at, whole);
            refuses(kez_notepack_string_read, &text, a.refusal, a.value);
        }
    }
}

/* Bytes outside the alphabet, among them all that stand beside its letters and digits, at each place of the vector's
 * string form; the first of two counts, and it counts before a lone character and bits left over. */
static void outside_the_alphabet(void)
{
    static const char bytes_outside[] = "\0\t\n\r !*,-.:@[_`{~=\x7f\x80\xc1\xff";
    static bytes text;
    for (size_t at = 0; at < vector_string.len; at++)
        for (size_t i = 0; i < sizeof bytes_outside - 1; i++) {
            text = vector_string;
            if (text.at[at] == (uint8_t)bytes_outside[i])
                continue;
            text.at[at] = (uint8_t)bytes_outside[i];
            refuses(kez_notepack_string_read, &text, at < 9 ? 20 : 21, at < 9 ? 0 : at);
        }
    text = vector_string;
    text.at[324] = '=';
    text.at[100] = '-';
    refuses(kez_notepack_string_read, &text, 21, 100);
    text = vector_string;
    PUT(&text, "\n");
    refuses(kez_notepack_string_read, &text, 21, 325);
    text.at[0] = 'N';
    refuses(kez_notepack_string_read, &text, 20, 0);
    text = vector_string;
    PUT(&text, "B-");
    refuses(kez_notepack_string_read, &text, 21, 326);
    text.len = 326;
    refuses(kez_notepack_string_read, &text, 21, 326);
    PUT(&text, "B");
    refuses(kez_notepack_string_read, &text, 21, 327);
}

/* Events whose packed bytes are 136, 137 and 138: every value of the bits left over. Only 0 is read. */
static void left_over(void)
{
    static const char alphabet[] = "ABCDEFGHIJKLMNOPQRSTUVWXYZabcdefghijklmnopqrstuvwxyz0123456789+/";
    static bytes b, text;
    for (size_t content = 0; content < 3; content++) {
        start(&b);
        put_varint(&b, 1000000000);
        fill(&b, 1, 1);
        put_varint(&b, content);
        fill(&b, 'a', content);
        put_varint(&b, 0);
        CHECK(b.len == 136 + content, "%zu", b.len);
        string_of(&text, b.at, b.len);
        writes(kez_notepack_string_read, &text, &b);
        size_t values = content == 0 ? 16 : content == 1 ? 4 : 1, last = text.len - 1;
        size_t zero = (size_t)(strchr(alphabet, text.at[last]) - alphabet);
        for (size_t bits = 1; bits < values; bits++) {
            text.at[last] = (uint8_t)alphabet[zero + bits];
            refuses(kez_notepack_string_read, &text, 21, text.len);
        }
    }
}

/* So many characters A, which are zeros: what is asked about is the decoded bytes, but 21 comes before their number. */
static void string_limits(void)
{
    static bytes b, text;
    static const size_t chars[] = {0, 1, 2, 3, 4, 5, 87380, 87381, 87382, 87383, 87384, 200000};
    b.len = 0;
    fill(&b, 0, 65537);
    for (size_t i = 0; i < sizeof chars / sizeof *chars; i++) {
        size_t decoded = chars[i] * 3 / 4;
        kez_answer a = read_it(b.at, decoded < b.len ? decoded : b.len);
        text.len = 0;
        PUT(&text, "notepack_");
        fill(&text, 'A', chars[i]);
        if (chars[i] % 4 == 1)
            refuses(kez_notepack_string_read, &text, 21, text.len);
        else
            refuses(kez_notepack_string_read, &text, a.refusal, a.value);
        fill(&text, '!', 1);
        refuses(kez_notepack_string_read, &text, 21, text.len - 1);
        text.at[text.len - 1] = 'B'; /* alone, or with bits left over, or three whole bytes */
        if ((chars[i] + 1) % 4)
            refuses(kez_notepack_string_read, &text, 21, text.len);
        text.at[8] = '-';
        refuses(kez_notepack_string_read, &text, 20, 0);
    }
    /* the longest of all */
    start(&b);
    PUT(&b, "\x00\x00");
    put_varint(&b, KEZ_MOST - 134);
    fill(&b, 'x', KEZ_MOST - 134);
    put_varint(&b, 0);
    string_of(&text, b.at, b.len);
    CHECK(text.len == KEZ_NOTEPACK_STRING_MOST - 1 && text.len == 87391, "%zu", text.len);
    writes_as(kez_notepack_string_write, KEZ_BARE, &b, &text);
    writes(kez_notepack_string_read, &text, &b);
}

/* Two events, in each of the four ways: which is kept? */
static int kept(const bytes *first, const bytes *second, uint64_t value)
{
    static bytes v[2];
    versioned_of(&v[0], first->at, first->len);
    versioned_of(&v[1], second->at, second->len);
    for (int i = 0; i < 4; i++) {
        uint64_t first_bare = i % 2, second_bare = i / 2;
        const bytes *a = first_bare ? first : &v[0], *b = second_bare ? second : &v[1];
        if (!is(kez_rivals(a->at, a->len, first_bare, b->at, b->len, second_bare), 0, value))
            return 0;
    }
    return 1;
}

static void rivals(void)
{
    static bytes a, b;
    a = b = vector; /* kind 0 */
#define CHOICE kept(&a, &b, wanted)
    uint64_t wanted = 1;
    CHECK(CHOICE, "a full tie");
    b.at[129]++;
    wanted = 2;
    CHECK(CHOICE, "the second is later");
    b.at[0] = 1;
    CHECK(CHOICE, "the second is later, with a higher id");
    b.at[129]--;
    wanted = 1;
    CHECK(CHOICE, "the first has the lower id");
    a.at[0] = 2;
    wanted = 2;
    CHECK(CHOICE, "the second has the lower id");
    b.at[32] ^= 1;
    wanted = 0;
    CHECK(CHOICE, "another pubkey");
    b.at[32] ^= 1;
    a.at[133] = b.at[133] = 1;
    CHECK(CHOICE, "a kind without a key");
    a.len = 130;
    b.len = 10;
    CHECK(is(kez_rivals(a.at, a.len, KEZ_BARE, b.at, b.len, KEZ_BARE), 4, 128), "both refused");
    CHECK(is(kez_rivals(vector.at, vector.len, KEZ_BARE, b.at, b.len, KEZ_BARE), 2, 0), "the second refused");
    CHECK(is(kez_rivals(NULL, 0, KEZ_BARE, NULL, 0, KEZ_BARE), 2, 0), "nothing at all");
}

static int is_refusal(uint64_t number)
{
    return number <= 29 || number == 34 || number == 35;
}

static void sentences(void)
{
    for (uint64_t i = 0; i <= 36; i++)
        for (uint64_t j = 0; j < i; j++) {
            int same = !strcmp(kez_refusal_text(i), kez_refusal_text(j));
            CHECK(same == (!is_refusal(i) && !is_refusal(j)), "%d and %d", (int)i, (int)j);
        }
    CHECK(!strcmp(kez_refusal_text(UINT64_MAX), kez_refusal_text(30)), "no such number");
}

/* With length 0 every entry takes a null pointer, one that is not aligned to anything, and one to a page that can't be
 * touched, for what is read and for what is written. Nothing but a refusal can follow, since no form of an event is
 * empty; but kez_notepack_elements lists no elements, and an empty piece may be added to a hash. */
static void nothing_lent(void)
{
    uint8_t started[KEZ_SHA256_STATE], copy[sizeof started];
    kez_sha256_start(started, sizeof started);
    memcpy(copy, started, sizeof copy);
    uint8_t *page = mmap(NULL, 4096, PROT_NONE, MAP_PRIVATE | MAP_ANONYMOUS, -1, 0);
    uint8_t *const none[] = {NULL, (uint8_t *)1, page, page + 4096};
    for (int i = 0; i < 4; i++) {
        const uint8_t *in = none[i];
        refused(in, 0, 2, 0);
        refused_as(in, 0, KEZ_VERSIONED, 2, 0);
        CHECK(is(kez_sha256_start(none[i], 0), 11, KEZ_SHA256_STATE), "%d", i);
        CHECK(is(kez_sha256_add(started, sizeof started, in, 0), 0, KEZ_SHA256_STATE), "%d", i);
        CHECK(is(kez_sha256_finish(started, sizeof started, none[i], 0), 11, KEZ_SHA256_DIGEST), "%d", i);
        CHECK(!memcmp(copy, started, sizeof copy), "%d: an empty piece changed a state", i);
        for (int j = 0; j < 4; j++) {
            uint8_t *out = none[j];
            CHECK(is(kez_sha256_add(none[i], 0, out, 0), 11, KEZ_SHA256_STATE), "%d %d", i, j);
            CHECK(is(kez_sha256_add(none[i], 0, vector.at, vector.len), 11, KEZ_SHA256_STATE), "%d", i);
            CHECK(is(kez_sha256_finish(in, 0, out, 0), 11, KEZ_SHA256_STATE), "%d %d", i, j);
            CHECK(is(kez_notepack_write(in, 0, i % 2, out, 0), 2, 0), "%d %d", i, j);
            CHECK(is(kez_notepack_write(vector.at, vector.len, KEZ_BARE, out, 0), 11, vector.len), "%d", j);
            CHECK(is(kez_notepack_elements(in, 0, i % 2, 0, out, 0), 2, 0), "%d %d", i, j);
            CHECK(is(kez_notepack_elements(vector.at, vector.len, KEZ_BARE, 0, out, 0), 0, 0), "%d", j);
            CHECK(is(kez_notepack_string_write(in, 0, i % 2, out, 0), 2, 0), "%d %d", i, j);
            CHECK(is(kez_notepack_string_write(vector.at, vector.len, KEZ_BARE, out, 0), 11, 325), "%d", j);
            CHECK(is(kez_notepack_string_read(in, 0, out, 0), 20, 0), "%d %d", i, j);
            CHECK(is(kez_notepack_string_read(vector_string.at, vector_string.len, out, 0), 11, 237), "%d", j);
            CHECK(is(kez_notepack_string_read(vector_string.at, 9, out, 0), 2, 0), "%d", j);
            CHECK(is(kez_notepack_string_read_versioned(in, 0, out, 0), 20, 0), "%d %d", i, j);
            CHECK(is(kez_versioned_from_bare(in, 0, out, 0), 2, 0), "%d %d", i, j);
            CHECK(is(kez_versioned_from_bare(vector.at, vector.len, out, 0), 11, 238), "%d", j);
            CHECK(is(kez_bare_from_versioned(in, 0, out, 0), 2, 0), "%d %d", i, j);
            CHECK(is(kez_pointer_write(in, 0, i % 2, out, 0), 2, 0), "%d %d", i, j);
            CHECK(is(kez_pointer_write(vector.at, vector.len, KEZ_BARE, out, 0), 11, 400), "%d", j);
            CHECK(is(kez_pointer_convert(in, 0, out, 0), 26, 0), "%d %d", i, j);
            CHECK(is(kez_pointer_tag_len(in, 0, 0), 26, 0), "%d", i);
            CHECK(is(kez_pointer_element(in, 0, 0, 0, numbers, numbers + 1), 26, 0), "%d", i);
            CHECK(is(read_form(in, 0), 26, 0), "%d", i);
            CHECK(is(kez_canonical_write(in, 0, i % 2, out, 0), 2, 0), "%d %d", i, j);
            CHECK(is(kez_canonical_write(vector.at, vector.len, KEZ_BARE, out, 0), 11, 265), "%d", j);
            CHECK(is(kez_nson_write(in, 0, i % 2, out, 0), 2, 0), "%d %d", i, j);
            CHECK(kez_nson_write(vector.at, vector.len, KEZ_BARE, out, 0).refusal == 11, "%d", j);
            CHECK(is(kez_nson_read(in, 0, out, 0), 12, 0), "%d %d", i, j);
            CHECK(is(kez_json_read(in, 0, out, 0), 14, 0), "%d %d", i, j);
            CHECK(is(kez_read_both(in, 0, out, 0, out, 0, numbers), 14, 0), "%d %d", i, j);
            CHECK(untouched(), "%d %d: a refusal changed the length", i, j);
            CHECK(is(kez_rivals(in, 0, i % 2, out, 0, j % 2), 2, 0), "%d %d", i, j);
            CHECK(is(kez_rivals(vector.at, vector.len, KEZ_BARE, out, 0, j % 2), 2, 0), "%d", j);
            CHECK(is(kez_table_empty(none[i], 0, out, 0), 34, 0), "%d %d", i, j);
            CHECK(is(kez_table_offer(none[i], 0, out, 0, in, 0, j % 2), 34, 0), "%d %d", i, j);
            CHECK(is(kez_table_offer(none[i], 0, out, 0, vector.at, vector.len, KEZ_BARE), 34, 0), "%d %d", i, j);
            CHECK(is(kez_table_slot(in, 0, out, 0, 0, numbers, numbers + 1), 34, 0), "%d %d", i, j);
            CHECK(untouched(), "%d %d: a refusal changed a number", i, j);
        }
    }
    munmap(page, 4096);
}

/* A record by a number for its id, one for its author, its time, its kind and its label; padded with a content, if its
 * length is given. */
static void record(bytes *b, uint8_t id, uint8_t author, uint64_t time, uint64_t kind, const char *label, size_t len)
{
    size_t content = 0;
    for (int i = 0; i < 3; i++) {
        b->len = 0;
        fill(b, id, 32);
        fill(b, author, 32);
        fill(b, 7, 64);
        put_varint(b, time);
        put_varint(b, kind);
        put_varint(b, content);
        fill(b, 'x', content);
        put_varint(b, 1);
        fill(b, 2, 2);
        fill(b, 'd', 1);
        fill(b, (uint8_t)(2 * strlen(label)), 1);
        put(b, label, strlen(label));
        content += len ? len - b->len : 0; /* the content's length may take a second byte */
    }
    CHECK(!len || b->len == len, "%zu, not %zu", b->len, len);
}

/* Slot n of the table that is wanted, with these bytes; what is behind them in the cell stays. */
static void want(size_t n, uint8_t used, uint64_t len, const uint8_t *s, size_t s_len)
{
    uint8_t *slot = wanted.slots + KEZ_SLOT_BYTES * n;
    memset(slot, 0, KEZ_SLOT_BYTES);
    slot[0] = used;
    for (int i = 8; i < 16; i++, len >>= 8)
        slot[i] = (uint8_t)len;
    memcpy(wanted.cells + KEZ_CELL_BYTES * n, s, s_len);
}

static void want_record(size_t n, const bytes *b)
{
    want(n, 1, b->len, b->at, b->len);
}

static void start_table(void)
{
    CHECK(is(kez_table_empty(lent.slots, sizeof lent.slots, lent.cells, sizeof lent.cells), 0, 0), "not emptied");
    memset(&wanted, 0, sizeof wanted);
    CHECK(as_wanted(), "something is left in an emptied table");
}

/* Does a refusal tell a place in a packed event? */
static int has_place(uint64_t refusal)
{
    return (refusal >= 2 && refusal <= 10) || refusal == 24;
}

/* The offer is refused so, or with refusal 0 answered so, and no byte of the table changes. In the versioned form it is
 * the same, but for a place in the event, which is one further on; and with the 01 it may be too long. */
static void changes_nothing(const bytes *b, uint64_t refusal, uint64_t value)
{
    static bytes v;
    wanted = lent;
    kez_answer a = offer(b->at, b->len);
    CHECK(is(a, refusal, value), "%d at %d, not %d at %d", (int)a.refusal, (int)a.value, (int)refusal, (int)value);
    CHECK(as_wanted(), "answer %d, %d changed the table", (int)a.refusal, (int)a.value);
    versioned_of(&v, b->at, b->len);
    a = offer_as(v.at, v.len, KEZ_VERSIONED);
    kez_answer then = {refusal, value + (uint64_t)has_place(refusal)};
    if (v.len > KEZ_MOST && refusal != 34)
        then = (kez_answer){1, 0};
    CHECK(is(a, then.refusal, then.value), "versioned: %d at %d", (int)a.refusal, (int)a.value);
    CHECK(as_wanted(), "versioned: answer %d, %d changed the table", (int)a.refusal, (int)a.value);
}

/* The offer is stored in slot n, as this strict form, and nothing else changes. Then it is there, and is held. */
static void stored(const bytes *b, const bytes *form, uint64_t value, size_t n)
{
    wanted = lent;
    want_record(n, form);
    kez_answer a = offer(b->at, b->len);
    CHECK(is(a, 0, value), "%d at %d, not 0, %d", (int)a.refusal, (int)a.value, (int)value);
    CHECK(as_wanted(), "stored otherwise than in slot %zu alone", n);
    lend();
    CHECK(is(view(n), 0, 0) && numbers[0] == KEZ_CELL_BYTES * n && numbers[1] == form->len, "slot %zu is not shown", n);
    CHECK(numbers[2] == UINT64_C(0xfeedfacecafe0002), "a number that was not lent changed");
    changes_nothing(b, 0, KEZ_TABLE_HELD);
    changes_nothing(form, 0, KEZ_TABLE_HELD);
}

static void not_viewed(uint64_t n, uint64_t refusal, uint64_t place)
{
    wanted = lent;
    lend();
    kez_answer a = view(n);
    CHECK(is(a, refusal, place), "slot %d: %d at %d", (int)n, (int)a.refusal, (int)a.value);
    CHECK(untouched() && as_wanted(), "a refusal changed what was lent");
}

/* Every answer there is. Rules of part 15. */
static void offers(void)
{
    static bytes b, loose;
    start_table();
    record(&b, 5, 1, 9, 30000, "map", 300);
    stored(&b, &b, KEZ_TABLE_NEW, 0);
    record(&b, 4, 1, 8, 30000, "map", 0);
    changes_nothing(&b, 0, KEZ_TABLE_LOSES);
    record(&b, 6, 1, 9, 30000, "map", 0);
    changes_nothing(&b, 0, KEZ_TABLE_LOSES);
    record(&b, 5, 1, 9, 30000, "map", 301); /* the same id and time, and not the same event */
    changes_nothing(&b, 0, KEZ_TABLE_LOSES);
    record(&b, 4, 1, 9, 30000, "map", 200); /* shorter: what is behind it stays */
    stored(&b, &b, KEZ_TABLE_REPLACED, 0);
    CHECK(lent.cells[200] == 'x' && lent.cells[299] && !lent.cells[300], "behind a shorter event");
    record(&b, 9, 1, 10, 30000, "map", 0);
    stored(&b, &b, KEZ_TABLE_REPLACED, 0);
    record(&b, 9, 1, 9, 30000, "test", 0);
    stored(&b, &b, KEZ_TABLE_NEW, 1);
    record(&b, 9, 2, 9, 30000, "map", 0);
    stored(&b, &b, KEZ_TABLE_NEW, 2);
    record(&b, 9, 1, 9, 30001, "map", 0);
    stored(&b, &b, KEZ_TABLE_NEW, 3);
    record(&b, 9, 1, 9, 10000, "map", 0);
    stored(&b, &b, KEZ_TABLE_NEW, 4);
    record(&b, 8, 1, 9, 10000, "test", 0); /* the label plays no part in this kind */
    stored(&b, &b, KEZ_TABLE_REPLACED, 4);
    /* without a key: by id, whatever else it says; the ids of those with a key play no part */
    record(&b, 9, 1, 9, 1, "map", 0);
    stored(&b, &b, KEZ_TABLE_NEW, 5);
    record(&b, 9, 2, 99, 40000, "", 500);
    changes_nothing(&b, 0, KEZ_TABLE_HELD);
    event(&b, 9, 30000); /* no tags, so the label is empty; its id is 0 */
    put_varint(&b, 0);
    stored(&b, &b, KEZ_TABLE_NEW, 6);
    event(&b, 10, 30000);
    put_varint(&b, 0);
    stored(&b, &b, KEZ_TABLE_REPLACED, 6);
    event(&b, 8, 30000);
    put_varint(&b, 0);
    changes_nothing(&b, 0, KEZ_TABLE_LOSES);
    for (uint64_t kind = 20000; kind < 30000; kind += 9999) {
        record(&b, 1, 1, 9, kind, "map", 0);
        changes_nothing(&b, 0, KEZ_TABLE_NOT_KEPT);
    }
    /* a loose spelling is kept in strict form: hex that goes as text */
    start(&loose);
    PUT(&loose, "\x00\x03\x00\x01\x02\x02x\x08""beef");
    start(&b);
    PUT(&b, "\x00\x03\x00\x01\x02\x02x\x05\xbe\xef");
    stored(&loose, &b, KEZ_TABLE_NEW, 7);
    for (uint64_t n = 8; n <= 65; n++)
        not_viewed(n, 19, 0);
    not_viewed(UINT64_MAX, 19, 0);
    not_viewed((uint64_t)1 << 32, 19, 0);
    /* refused inputs */
    changes_nothing(&(bytes){.len = 0}, 2, 0);
    start(&loose);
    PUT(&loose, "\x80\x00\x03\x00\x00");
    changes_nothing(&loose, 24, 128);
    b.len--;
    changes_nothing(&b, 2, 135);
    b.len = 0;
    fill(&b, 0, 65537);
    changes_nothing(&b, 1, 0);
    start_table();
}

/* What a cell can hold is measured in strict form; 22 comes before every answer, and after the reader's refusals. */
static void cell_limits(void)
{
    static bytes b, loose;
    start_table();
    record(&b, 1, 1, 9, 0, "", KEZ_CELL_BYTES);
    stored(&b, &b, KEZ_TABLE_NEW, 0);
    for (size_t len = KEZ_CELL_BYTES + 1; len < KEZ_CELL_BYTES + 3; len++) {
        static const uint64_t kinds[] = {0, 1, 10002, 20000, 29999, 30000};
        for (size_t i = 0; i < sizeof kinds / sizeof *kinds; i++) {
            record(&b, 1, 1, 1, kinds[i], "", len);
            changes_nothing(&b, 22, 0);
        }
    }
    b.len--;
    changes_nothing(&b, 2, b.len);
    start(&b);
    PUT(&b, "\x00\x01");
    put_varint(&b, KEZ_MOST - 134);
    fill(&b, 'x', KEZ_MOST - 134);
    put_varint(&b, 0);
    changes_nothing(&b, 22, 0);
    fill(&b, 0, 1);
    changes_nothing(&b, 1, 0);
    /* more than a cell as it is given, and no more in strict form */
    start(&b);
    PUT(&b, "\x00\x01\x00\x01\x01");
    loose = b;
    put_varint(&b, 2 * 889 + 1);
    fill(&b, 0xaa, 889);
    put_varint(&loose, 4 * 889);
    fill(&loose, 'a', 2 * 889);
    CHECK(b.len == KEZ_CELL_BYTES, "%zu", b.len);
    stored(&loose, &b, KEZ_TABLE_NEW, 1);
}

/* A table of 64 records without a key; slot n has id n. */
static void full_table(void)
{
    static bytes b;
    start_table();
    for (uint8_t n = 0; n < KEZ_SLOTS; n++) {
        record(&b, n, 1, 9, 1, "map", 150 + n);
        stored(&b, &b, KEZ_TABLE_NEW, n);
    }
}

/* 23 is for what would take a new slot, and for nothing else. A free slot is taken, wherever it is. */
static void no_free_slot(void)
{
    static bytes b;
    full_table();
    record(&b, 64, 1, 9, 1, "map", 0);
    changes_nothing(&b, 23, 0);
    record(&b, 64, 1, 9, 0, "map", 0);
    changes_nothing(&b, 23, 0);
    record(&b, 63, 1, 9, 1, "map", 0);
    changes_nothing(&b, 0, KEZ_TABLE_HELD);
    record(&b, 64, 1, 9, 20000, "map", 0);
    changes_nothing(&b, 0, KEZ_TABLE_NOT_KEPT);
    record(&b, 64, 1, 9, 1, "map", KEZ_CELL_BYTES + 1);
    changes_nothing(&b, 22, 0);
    changes_nothing(&(bytes){.len = 0}, 2, 0);
    for (size_t n = 0; n < KEZ_SLOTS; n += 21) {
        full_table();
        memset(lent.slots + KEZ_SLOT_BYTES * n, 0xee, KEZ_SLOT_BYTES); /* all of it is written anew */
        lent.slots[KEZ_SLOT_BYTES * n] = 0;
        record(&b, 64, 1, 9, 0, "map", 140);
        stored(&b, &b, KEZ_TABLE_NEW, n);
        record(&b, 64, 1, 10, 0, "map", 0);
        stored(&b, &b, KEZ_TABLE_REPLACED, n);
        record(&b, 65, 1, 10, 1, "map", 0);
        changes_nothing(&b, 23, 0);
    }
}

/* A mark is any number but 0, and the seven bytes behind it are nobody's. Only what is stored anew changes them. */
static void marks(void)
{
    static bytes b;
    for (unsigned used = 1; used < 256; used++) {
        start_table();
        record(&b, 1, 1, 9, 0, "map", 200);
        want_record(3, &b);
        lent = wanted;
        memset(lent.slots + KEZ_SLOT_BYTES * 3, (int)used, 8);
        memset(lent.slots + KEZ_SLOT_BYTES * 4 + 1, (int)used, 15); /* a free one */
        changes_nothing(&b, 0, KEZ_TABLE_HELD);
        record(&b, 1, 1, 9, 1, "map", 0);
        stored(&b, &b, KEZ_TABLE_NEW, 0);
        record(&b, 1, 1, 10, 0, "map", 0);
        stored(&b, &b, KEZ_TABLE_REPLACED, 3);
    }
}

/* This table is refused with 34 at this place, whatever is offered. Emptied, it is a table again. */
static void bad_table(uint64_t place)
{
    static bytes b;
    record(&b, 99, 9, 9, 1, "map", 0);
    changes_nothing(&b, 34, place);
    record(&b, 99, 9, 9, 20000, "map", 2000);
    changes_nothing(&b, 34, place);
    changes_nothing(&(bytes){.len = 0}, 34, place);
    b.len = 0;
    fill(&b, 0, 65537);
    changes_nothing(&b, 34, place);
    not_viewed(place, 34, place);
    not_viewed(0, 34, place);
    not_viewed(UINT64_MAX, 34, place);
    start_table();
}

/* What makes a slot a bad one by itself, in a table with nothing else and in a full one. */
static void bad_slots(void)
{
    static bytes good, passing, loose, long_one, padded_one;
    static const size_t places[] = {0, 1, 40, 63};
    static const uint64_t lengths[] = {0,    1,     127, 199, 201, 1024,
                                       1025, 65536, UINT64_C(0x1000000c8), UINT64_C(1) << 63, UINT64_MAX};
    record(&good, 99, 1, 9, 1, "map", 200);
    record(&passing, 99, 1, 9, 20000, "map", 200);
    record(&long_one, 99, 1, 9, 1, "map", KEZ_CELL_BYTES);
    start(&loose);
    PUT(&loose, "\x00\x01\x00\x01\x01\x01");
    start(&padded_one);
    PUT(&padded_one, "\x80\x00\x01\x00\x00");
    for (int full = 0; full < 2; full++)
        for (size_t i = 0; i < 4; i++) {
            size_t n = places[i];
            const struct {
                const bytes *event;
                uint64_t len;
            } bad[] = {{&passing, passing.len}, {&loose, loose.len}, {&padded_one, padded_one.len}, {&long_one, 1025},
                     {&long_one, 1023}};
            for (size_t j = 0; j < sizeof bad / sizeof *bad + sizeof lengths / sizeof *lengths; j++) {
                full ? full_table() : start_table();
                wanted = lent;
                memset(wanted.cells + KEZ_CELL_BYTES * n, 0, KEZ_CELL_BYTES);
                if (j < 5)
                    want(n, 1, bad[j].len, bad[j].event->at, bad[j].event->len);
                else
                    want(n, 1, lengths[j - 5], good.at, good.len);
                lent = wanted;
                bad_table(n);
            }
        }
}

/* Two of one name are both bad; what is bad by itself is nobody's twin; a free slot isn't either. */
static void twins(void)
{
    static bytes one, other_one, passing, loose;
    static const uint64_t kinds[] = {0, 3, 10000, 19999, 30000, 39999, 1, 4, 9999, 40000, 65535};
    for (size_t i = 0; i < sizeof kinds / sizeof *kinds; i++) {
        int keyless = i > 5;
        start_table();
        record(&one, 1, 1, 9, kinds[i], "map", 0);
        record(&other_one, keyless ? 1 : 2, keyless ? 2 : 1, 10, kinds[i], "map", 300);
        want_record(63, &one);
        want_record(17, &other_one);
        lent = wanted;
        bad_table(17);
        want_record(63, &one);
        want_record(17, &other_one);
        want_record(5, &one);
        lent = wanted;
        bad_table(5);
        /* another name */
        record(&other_one, keyless ? 2 : 1, keyless ? 1 : 2, 9, kinds[i], "map", 0);
        want_record(63, &one);
        want_record(17, &other_one);
        lent = wanted;
        changes_nothing(&one, 0, KEZ_TABLE_HELD);
        changes_nothing(&other_one, 0, KEZ_TABLE_HELD);
        /* the same id, with a key and without one */
        start_table();
        record(&other_one, 1, 1, 9, keyless ? 0 : 1, "map", 0);
        want_record(63, &one);
        want_record(17, &other_one);
        want(16, 0, one.len, one.at, one.len);
        lent = wanted;
        changes_nothing(&one, 0, KEZ_TABLE_HELD);
        changes_nothing(&other_one, 0, KEZ_TABLE_HELD);
    }
    start_table();
    record(&one, 0, 0, 0, 1, "map", 0);
    record(&passing, 0, 0, 0, 20000, "map", 0);
    want_record(2, &one);
    want_record(30, &passing);
    lent = wanted;
    bad_table(30);
    start(&loose); /* its id is 0 too */
    PUT(&loose, "\x00\x01\x00\x01\x01\x01");
    want_record(2, &one);
    want_record(30, &loose);
    lent = wanted;
    bad_table(30);
}

/* The label by the tags, for two of one author: empty where no tag has "d" in front, or where nothing or an empty text
 * is behind the first that has it. As rivals, offered one after the other, and found in a table that was filled
 * before. */
static void labels(void)
{
    static const struct {
        const char *tags;
        size_t len;
        char label;
    } shapes[] = {
        {"\0", 1, 0}, {"\1\1\2d", 4, 0}, {"\1\2\2d\0", 5, 0}, {"\2\1\2d\2\2d\2x", 9, 0}, {"\2\2\2d\0\2\2d\2x", 10, 0},
        {"\1\3\2d\0\2x", 7, 0}, {"\2\2\2e\2x\1\2d", 9, 0}, {"\1\2\4dx\2x", 7, 0}, {"\1\2\2D\2x", 6, 0},
        {"\1\3\2e\2d\2x", 8, 0},
        {"\1\2\2d\2x", 6, 'x'}, {"\1\3\2d\2x\0", 7, 'x'}, {"\2\2\2d\2x\1\2d", 9, 'x'}, {"\2\2\2e\2y\2\2d\2x", 11, 'x'},
        {"\2\2\2d\2X\2\2d\2x", 11, 'X'}, {"\1\2\2d\2d", 6, 'd'},
    };
    static bytes one, other_one;
    const size_t count = sizeof shapes / sizeof *shapes;
    for (size_t i = 0; i < 2 * count * count; i++) {
        size_t a = i % count, b = i / count % count;
        uint64_t kind = i < count * count ? 30000 : 39999;
        int same = shapes[a].label == shapes[b].label;
        event(&one, 9, kind);
        put(&one, shapes[a].tags, shapes[a].len);
        event(&other_one, 10, kind);
        put(&other_one, shapes[b].tags, shapes[b].len);
        other_one.at[0] = 1;
        CHECK(kept(&one, &other_one, same ? 2 : 0), "tags %zu and %zu", a, b);
        start_table();
        stored(&one, &one, KEZ_TABLE_NEW, 0);
        stored(&other_one, &other_one, same ? KEZ_TABLE_REPLACED : KEZ_TABLE_NEW, !same);
        start_table();
        want_record(40, &one);
        want_record(8, &other_one);
        lent = wanted;
        if (same)
            bad_table(8);
        else
            changes_nothing(&one, 0, KEZ_TABLE_HELD);
    }
}

/* An event without tags, with a number for its id and one for its author. */
static void untagged(bytes *b, uint8_t id, uint8_t author, uint64_t time, uint64_t kind)
{
    event(b, time, kind);
    put_varint(b, 0);
    b->at[0] = id;
    b->at[32] = author;
}

/* No label: beside a hollow one, with another author or kind, and of the kinds below and above. */
static void no_label(void)
{
    static bytes one, other_one, form;
    untagged(&one, 0, 0, 10, 30000);
    event(&other_one, 9, 30000);
    PUT(&other_one, "\1\2\2d\1");
    CHECK(kept(&one, &other_one, 1), "an earlier one with a hollow label");
    other_one.at[128] = 11;
    CHECK(kept(&one, &other_one, 2), "a later one with a hollow label");
    form = other_one;
    form.at[form.len - 1] = 0;
    start_table();
    stored(&one, &one, KEZ_TABLE_NEW, 0);
    stored(&other_one, &form, KEZ_TABLE_REPLACED, 0);
    changes_nothing(&one, 0, KEZ_TABLE_LOSES);
    untagged(&other_one, 1, 1, 11, 30000);
    CHECK(kept(&one, &other_one, 0), "another author");
    untagged(&other_one, 1, 0, 11, 30001);
    CHECK(kept(&one, &other_one, 0), "another kind");
    untagged(&one, 0, 0, 10, 29999);
    untagged(&other_one, 1, 0, 11, 29999);
    CHECK(kept(&one, &other_one, 0), "kind 29999");
    start_table();
    changes_nothing(&one, 0, KEZ_TABLE_NOT_KEPT);
    changes_nothing(&other_one, 0, KEZ_TABLE_NOT_KEPT);
    untagged(&one, 0, 0, 10, 40000);
    untagged(&other_one, 1, 0, 11, 40000);
    CHECK(kept(&one, &other_one, 0), "kind 40000");
    stored(&one, &one, KEZ_TABLE_NEW, 0);
    stored(&other_one, &other_one, KEZ_TABLE_NEW, 1);
}

/* None of 64 events that fit a cell is refused by an emptied table, whatever they are; rule 12.6.9. One more is, where
 * each has a name of its own. */
static void offered_again(void)
{
    static const uint64_t kinds[] = {30000, 20000, 1, 0, 30000}; /* of the last, each has another author and no tags */
    static bytes b;
    for (int i = 0; i < 5; i++) {
        start_table();
        for (uint8_t n = 0; n <= KEZ_SLOTS; n++) {
            if (i < 4)
                record(&b, n, kinds[i] ? 1 : n, 9, kinds[i], n % 2 ? "map" : "", KEZ_CELL_BYTES);
            else
                untagged(&b, 0, n, 9, kinds[i]);
            kez_answer a = offer(b.at, b.len);
            int good = i > 1 && n == KEZ_SLOTS ? is(a, 23, 0) : !a.refusal;
            CHECK(good, "kind %d, event %d: %d at %d", (int)kinds[i], n, (int)a.refusal, (int)a.value);
        }
    }
}

/* Buffers of other sizes, for every entry; nothing of them changes. */
static void table_sizes(void)
{
    static const size_t slots[] = {0, 1, 1008, 1023, 1024, 1025, 1040, 65536};
    static const size_t cells[] = {0, 1, 64512, 65535, 65536, 65537, 66560};
    static uint8_t larger[KEZ_CELLS_BYTES], copy[sizeof larger];
    memset(larger, 0, sizeof larger);
    for (size_t i = 0; i < 8; i++)
        for (size_t j = 0; j < 7; j++) {
            if (slots[i] == KEZ_SLOTS_BYTES && cells[j] == KEZ_CELLS_BYTES)
                continue;
            lend();
            memcpy(copy, larger, sizeof copy);
            CHECK(is(kez_table_empty(larger, slots[i], room, cells[j]), 34, 0), "%zu, %zu", slots[i], cells[j]);
            CHECK(is(kez_table_offer(larger, slots[i], room, cells[j], vector.at, vector.len, j % 2), 34, 0),
                  "%zu, %zu", slots[i], cells[j]);
            CHECK(is(kez_table_offer(larger, slots[i], room, cells[j], NULL, 0, j % 2), 34, 0), "%zu, %zu", slots[i],
                  cells[j]);
            CHECK(is(kez_table_slot(larger, slots[i], room, cells[j], 99, numbers, numbers + 1), 34, 0), "%zu, %zu",
                  slots[i], cells[j]);
            CHECK(untouched() && !memcmp(copy, larger, sizeof copy), "a refusal changed what was lent");
            memset(larger, 0xff, sizeof larger);
        }
    /* emptied, whatever they hold, and nothing around them */
    lend();
    memset(larger, 0xff, sizeof larger);
    CHECK(is(kez_table_empty(larger, KEZ_SLOTS_BYTES, room, KEZ_CELLS_BYTES), 0, 0), "not emptied");
    CHECK(untouched_from(KEZ_CELLS_BYTES) && larger[KEZ_SLOTS_BYTES] == 0xff, "emptied too much");
    memset(&wanted, 0, sizeof wanted);
    CHECK(!memcmp(larger, wanted.slots, KEZ_SLOTS_BYTES) && !memcmp(room, wanted.cells, KEZ_CELLS_BYTES), "not zero");
}

/* Five rivals and a record of another key, in every order: the same two are kept. */
static void any_order(void)
{
    static bytes all[6];
    static const uint8_t ids[] = {5, 3, 4, 1, 2}, times[] = {9, 10, 10, 8, 9};
    for (size_t i = 0; i < 5; i++)
        record(&all[i], ids[i], 1, times[i], 30000, "map", 200 + i);
    record(&all[5], 1, 1, 9, 30000, "test", 0);
    for (unsigned order = 0; order < 720; order++) {
        size_t left[] = {0, 1, 2, 3, 4, 5};
        start_table();
        for (unsigned rest = order, count = 6; count; rest /= count--) {
            size_t next = left[rest % count];
            left[rest % count] = left[count - 1];
            kez_answer a = offer(all[next].at, all[next].len);
            CHECK(!a.refusal && a.value <= KEZ_TABLE_LOSES, "%d, %d", (int)a.refusal, (int)a.value);
        }
        size_t map = !memcmp(lent.cells, all[5].at, all[5].len);
        lend();
        CHECK(is(view(map), 0, 0) && numbers[1] == all[1].len, "order %u", order);
        CHECK(!memcmp(lent.cells + KEZ_CELL_BYTES * map, all[1].at, all[1].len), "order %u keeps another one", order);
        changes_nothing(&all[5], 0, KEZ_TABLE_HELD);
        not_viewed(2, 19, 0);
    }
}

/* Hashes. A state is lent with bytes behind it. */

static uint8_t state[KEZ_SHA256_STATE + 40], state_before[sizeof state];

static void keep_state(void)
{
    memcpy(state_before, state, sizeof state);
}

static int state_same_from(size_t from)
{
    return !memcmp(state + from, state_before + from, sizeof state - from);
}

static void put_claim(uint64_t length)
{
    for (int i = 32; i < 40; i++, length >>= 8)
        state[i] = (uint8_t)length;
}

static uint64_t claim(void)
{
    uint64_t length = 0;
    for (int i = 39; i >= 32; i--)
        length = length << 8 | state[i];
    return length;
}

/* Is what the buffer held, whatever it was, now the state of no bytes, and nothing behind it changed? */
static int started(void)
{
    static bytes wanted_state;
    if (!wanted_state.len) {
        put_hex(&wanted_state, "6a09e667bb67ae853c6ef372a54ff53a510e527f9b05688c1f83d9ab5be0cd19");
        fill(&wanted_state, 0, 72);
    }
    memset(state, 0xa5, sizeof state);
    keep_state();
    return is(kez_sha256_start(state, sizeof state), 0, KEZ_SHA256_STATE) &&
           !memcmp(state, wanted_state.at, KEZ_SHA256_STATE) && state_same_from(KEZ_SHA256_STATE);
}

/* Is the piece taken: counted, zeros behind the bytes that wait, and nothing behind the state changed? */
static int added(const void *piece, size_t len)
{
    uint64_t length = claim() + len;
    keep_state();
    kez_answer a = kez_sha256_add(state, sizeof state, piece, len);
    size_t zeros = 40 + length % 64;
    while (zeros < KEZ_SHA256_STATE && !state[zeros])
        zeros++;
    return is(a, 0, KEZ_SHA256_STATE) && claim() == length && zeros == KEZ_SHA256_STATE &&
           state_same_from(KEZ_SHA256_STATE);
}

/* What is finished is this digest, with room just enough and more; with less it is 11, and the state always stays. */
static void digest_is(const uint8_t *digest)
{
    const size_t rooms[] = {KEZ_SHA256_DIGEST, KEZ_SHA256_DIGEST + 1, sizeof room};
    keep_state();
    for (int i = 0; i < 3; i++) {
        lend();
        CHECK(is(kez_sha256_finish(state, sizeof state, room, rooms[i]), 0, KEZ_SHA256_DIGEST), "not finished");
        CHECK(!memcmp(room, digest, KEZ_SHA256_DIGEST), "another digest");
        CHECK(untouched_from(KEZ_SHA256_DIGEST), "bytes behind the digest changed");
    }
    lend();
    CHECK(is(kez_sha256_finish(state, sizeof state, room, KEZ_SHA256_DIGEST - 1), 11, KEZ_SHA256_DIGEST), "31 bytes");
    CHECK(is(kez_sha256_finish(state, sizeof state, room, 0), 11, KEZ_SHA256_DIGEST), "no room");
    CHECK(is(kez_sha256_finish(state, sizeof state, NULL, 0), 11, KEZ_SHA256_DIGEST), "nothing lent");
    CHECK(untouched() && state_same_from(0), "finishing changed something else");
}

/* In pieces of so many bytes. */
static void hash_by(const uint8_t *message, size_t len, size_t piece)
{
    int good = started();
    for (size_t at = 0; at < len; at += piece)
        good &= added(message + at, len - at < piece ? len - at : piece);
    CHECK(good, "%zu bytes by %zu", len, piece);
}

/* The examples that NIST gives for FIPS 180-4. */
static void nist(void)
{
    static uint8_t a_million[1000000];
    static const struct {
        const char *message, *digest;
    } cases[] = {
        {"", "e3b0c44298fc1c149afbf4c8996fb92427ae41e4649b934ca495991b7852b855"},
        {"abc", "ba7816bf8f01cfea414140de5dae2223b00361a396177a9cb410ff61f20015ad"},
        {"abcdbcdecdefdefgefghfghighijhijkijkljklmklmnlmnomnopnopq",
         "248d6a61d20638b8e5c026930c3e6039a33ce45964ff2167f6ecedd419db06c1"},
        {"abcdefghbcdefghicdefghijdefghijkefghijklfghijklmghijklmnhijklmnoijklmnopjklmnopqklmnopqrlmnopqrsmnopqrstnopqr"
         "stu",
         "cf5b16a778af8380036ce59e7b0492370b249b11e8f07a51afac45037afee9d1"},
        {NULL, "cdc76e5c9914fb9281a1c7e284d73e67f1809a48a497200e046d39ccc7112cd0"},
    };
    static const size_t pieces[] = {1, 55, 56, 63, 64, 65, 999, sizeof a_million};
    memset(a_million, 'a', sizeof a_million);
    for (size_t i = 0; i < sizeof cases / sizeof *cases; i++)
        for (size_t j = cases[i].message ? 0 : 4; j < sizeof pieces / sizeof *pieces; j++) {
            const char *message = cases[i].message;
            size_t len = message ? strlen(message) : sizeof a_million;
            bytes digest = {.len = 0};
            put_hex(&digest, cases[i].digest);
            hash_by(message ? (const uint8_t *)message : a_million, len, pieces[j]);
            digest_is(digest.at);
        }
}

/* Every length up to 300, cut in two everywhere: the same state and the same digest. The digest of all these digests is
 * what Python's hashlib makes of its own. */
static void cuts(void)
{
    enum { LENGTHS = 301 };
    static bytes message, digests, wanted_digest;
    uint8_t whole[KEZ_SHA256_STATE], digest[KEZ_SHA256_DIGEST];
    message.len = digests.len = wanted_digest.len = 0;
    for (size_t i = 0; i < LENGTHS; i++)
        fill(&message, (uint8_t)(7 * i + 3), 1);
    for (size_t len = 0; len < LENGTHS; len++) {
        hash_by(message.at, len, LENGTHS);
        memcpy(whole, state, sizeof whole);
        kez_answer a = kez_sha256_finish(state, sizeof state, digest, sizeof digest);
        CHECK(is(a, 0, sizeof digest), "%zu bytes", len);
        put(&digests, digest, sizeof digest);
        size_t cut = 0;
        while (cut <= len && started() && added(message.at, cut) && added(message.at + cut, 0) &&
               added(message.at + cut, len - cut) && !memcmp(whole, state, sizeof whole))
            cut++;
        CHECK(cut > len, "%zu bytes cut at %zu", len, cut);
        digest_is(digest);
    }
    put_hex(&wanted_digest, "7d917fbd2cf49ddff9ad0a8706bba32d204e92e71d2e369c5a03d6af29278c9f");
    hash_by(digests.at, digests.len, 1000);
    digest_is(wanted_digest.at);
}

/* The piece is refused with 35, and so is finishing, if the message is too long already; the state stays. */
static void too_long(uint64_t length, size_t piece)
{
    static const uint8_t some[200];
    CHECK(started(), "not started");
    memset(state + 40, 0xee, KEZ_SHA256_STATE - 40);
    put_claim(length);
    keep_state();
    lend();
    CHECK(is(kez_sha256_add(state, sizeof state, some, piece), 35, 0), "%zu bytes more", piece);
    CHECK(state_same_from(0), "35 changed the state");
    kez_answer a = kez_sha256_finish(state, sizeof state, room, sizeof room);
    kez_answer short_of = kez_sha256_finish(state, sizeof state, room, 31);
    if (length >> 61) {
        CHECK(is(a, 35, 0) && is(short_of, 35, 0), "finished, though it is too long");
        CHECK(untouched(), "35 changed what was lent");
    } else {
        CHECK(is(a, 0, KEZ_SHA256_DIGEST) && is(short_of, 11, KEZ_SHA256_DIGEST), "not finished");
    }
    CHECK(state_same_from(0), "finishing changed the state");
}

/* A message has fewer than 2^61 bytes; the sum does not wrap. */
static void hash_limits(void)
{
    static const uint64_t most = UINT64_C(1) << 61;
    static const uint64_t past[] = {0, 1, 63, 64, (UINT64_C(1) << 61) - 1, UINT64_C(1) << 61, UINT64_C(3) << 61,
                                    UINT64_MAX - (UINT64_C(1) << 61)};
    static const uint8_t some[200];
    for (size_t left = 1; left < 130; left++) {
        too_long(most - left, left);
        too_long(most - left, left + 1);
        kez_sha256_start(state, sizeof state);
        put_claim(most - left);
        CHECK(added(some, left - 1) && claim() == most - 1 && added(some, 0), "one byte less than too many");
        too_long(claim(), 1);
    }
    for (size_t i = 0; i < sizeof past / sizeof *past; i++)
        for (size_t piece = 0; piece < 130; piece += 1 + piece / 3)
            too_long(most + past[i], piece);
    /* the longest message there is, brought there in one piece and byte by byte: nobody has such a message, so the two
     * are compared */
    uint8_t digest[KEZ_SHA256_DIGEST];
    kez_sha256_start(state, sizeof state);
    put_claim(most - 65);
    CHECK(added(some, 64), "the longest, in one piece");
    CHECK(is(kez_sha256_finish(state, sizeof state, digest, sizeof digest), 0, sizeof digest), "the longest");
    kez_sha256_start(state, sizeof state);
    put_claim(most - 65);
    for (int i = 0; i < 64; i++)
        CHECK(added(some, 1), "the longest, by single bytes");
    digest_is(digest);
}

/* Any bytes are a state: what stands behind the waiting bytes makes no difference, all else does. */
static void any_bytes(void)
{
    uint8_t digest[KEZ_SHA256_DIGEST], other_digest[sizeof digest], next[KEZ_SHA256_STATE];
    for (size_t waits = 0; waits < 64; waits++) {
        for (size_t i = 0; i < KEZ_SHA256_STATE; i++)
            state[i] = mark(i + waits);
        put_claim(640 + waits);
        CHECK(is(kez_sha256_finish(state, sizeof state, digest, sizeof digest), 0, sizeof digest), "%zu wait", waits);
        uint8_t first_state[sizeof state];
        memcpy(first_state, state, sizeof state);
        CHECK(added("hello", 5), "%zu wait", waits);
        memcpy(next, state, sizeof next);
        for (size_t i = 0; i < KEZ_SHA256_STATE; i++) {
            if (i >= 32 && i < 40)
                continue;
            memcpy(state, first_state, sizeof state);
            state[i] ^= 0x10;
            kez_sha256_finish(state, sizeof state, other_digest, sizeof other_digest);
            int counts = i < 40 + waits;
            CHECK(!memcmp(digest, other_digest, sizeof digest) == !counts && added("hello", 5) &&
                      !memcmp(next, state, sizeof next) == !counts, "byte %zu, %zu wait", i, waits);
        }
    }
}

/* A buffer that is too short is 11 with 104, before all else. */
static void short_states(void)
{
    memset(state, 0xff, sizeof state); /* a length that would be 35 */
    keep_state();
    lend();
    for (size_t len = 0; len < KEZ_SHA256_STATE; len++) {
        CHECK(is(kez_sha256_start(state, len), 11, KEZ_SHA256_STATE), "%zu", len);
        CHECK(is(kez_sha256_add(state, len, vector.at, vector.len), 11, KEZ_SHA256_STATE), "%zu", len);
        CHECK(is(kez_sha256_finish(state, len, room, sizeof room), 11, KEZ_SHA256_STATE), "%zu", len);
        CHECK(is(kez_sha256_finish(state, len, room, 0), 11, KEZ_SHA256_STATE), "%zu", len);
    }
    CHECK(untouched() && state_same_from(0), "a refusal changed what was lent");
}

/* The id belongs, or it does not; the signature plays no part, all else does. In the versioned form it belongs too. */
static void belongs(bytes *b)
{
    static bytes v;
    CHECK(is(kez_id_belongs(b->at, b->len, KEZ_BARE), 0, 1), "%zu bytes have another id", b->len);
    versioned_of(&v, b->at, b->len);
    if (v.len <= KEZ_MOST)
        CHECK(is(kez_id_belongs(v.at, v.len, KEZ_VERSIONED), 0, 1), "%zu bytes, versioned, have another id", b->len);
    for (size_t bit = 0; bit < 8 * 128; bit += b->len < 1000 ? 1 : 83) {
        b->at[bit / 8] ^= (uint8_t)(1 << bit % 8);
        CHECK(is(kez_id_belongs(b->at, b->len, KEZ_BARE), 0, bit >= 8 * 64), "%zu bytes, bit %zu changed", b->len, bit);
        b->at[bit / 8] ^= (uint8_t)(1 << bit % 8);
    }
    for (unsigned last = 0; last < 256; last++) {
        uint8_t was = b->at[31];
        b->at[31] = (uint8_t)last;
        if (b->len < 1000)
            CHECK(is(kez_id_belongs(b->at, b->len, KEZ_BARE), 0, last == was), "its last byte %u", last);
        b->at[31] = was;
    }
    b->at[128] ^= 1;
    CHECK(is(kez_id_belongs(b->at, b->len, KEZ_BARE), 0, 0), "%zu bytes, another time", b->len);
    b->at[128] ^= 1;
}

/* An event with this id, zero pubkey and sig, and what follows them. */
static void identified(bytes *b, const char *id, const void *rest, size_t len)
{
    b->len = 0;
    put_hex(b, id);
    fill(b, 0, 96);
    put(b, rest, len);
}

/* The NSON draft's event has its id, and so have events whose ids Python's hashlib made, however they are spelled. */
static void ids(void)
{
#define REST(text) text, sizeof(text) - 1
#define ODD "\n\"\\\r\t\b\f\x01\x1f\x7f/"
    static const struct {
        const char *id, *rest;
        size_t len;
    } cases[] = {
        {"d23368f79cfcdd3ade5259fed1b761a9810fbbf55bc4a2d3dbbecd1d19a86b81", REST("\x00\x00\x00\x00")},
        {"313c2592107f2a38e7961ba7590abf32d362cf91623e02b0aee2b94a3c60bd73",
         REST("\x80\x94\xeb\xdc\x03\x01\x03""a\"b\x00")},
        {"657dd77b9b32ddf1e1e9c9b0de95e1f3ab15ec056712710cfcc6f1fbb7107283",
         REST("\x00\x01\x0b" ODD "\x01\x01\x16" ODD)},
        {"739d9f78806150b32df02451a9ffcddce8557a8b269e8b7674f8675f4b011a88",
         REST("\x00\x01\x00\x01\x02\x02""d\x03\xab")},
        {"739d9f78806150b32df02451a9ffcddce8557a8b269e8b7674f8675f4b011a88",
         REST("\x00\x01\x00\x01\x02\x02""d\x04""ab")},
        {"f9f679439674d749f9766dad3e61f75abef42bbfd88f4eb8176c6780f70bbce0", REST("\x00\x01\x00\x01\x01\x00")},
        {"f9f679439674d749f9766dad3e61f75abef42bbfd88f4eb8176c6780f70bbce0", REST("\x00\x01\x00\x01\x01\x01")},
        {"5cbd9d8a1dd0ec837a249ff837409da273f5e9dd0989f18fff280918e2b35626",
         REST("\x00\x01\x00\x02\x01\x04""AB\x01\x06""abc")},
        {"f5cf063f46b7e36fb76929256c7ca4e4146d233f9c39c21439390f40d1638688",
         REST("\x80\xbc\x94\xb4\x06\xb0\xea\x01\x07\xe2\x82\xac\xf0\x9f\x91\x82"
              "\x01\x02\x02""d\x04\xc3\xa9")},
        {"c24d1c7cf623e9b37dd5d172c0f9f76fca49d72b94d7a35ab2cdc10622336952",
         REST("\xf7\xa7\x8d\xaf\xba\x93\xb1\x10\xff\xff\x03\x00\x00")},
    };
    static bytes b, text;
    for (size_t i = 0; i < sizeof cases / sizeof *cases; i++) {
        identified(&b, cases[i].id, cases[i].rest, cases[i].len);
        belongs(&b);
    }
    static const char tags[] = "7d2cba9b77ad048677487f5d5b64c1aa7f6bf776dce78f21767a680391774694";
    static const char longest[] = "76a88a695708cbf81454b27a6096087f26d0257c69064b5cd42f36888bf91f6f";
    static const char line_ends[] = "b45e3e9a71c76765176c04733c37608ebaaca2a978d4493e78a38f3f22b575cf";
    identified(&b, tags, REST("\x00\x01\x00\xe8\x07"));
    for (int i = 0; i < 1000; i++)
        PUT(&b, "\x01\x00");
    belongs(&b);
    identified(&b, longest, REST("\x00\x01\xfa\xfe\x03"));
    fill(&b, 'x', 65402);
    fill(&b, 0, 1);
    CHECK(b.len == KEZ_MOST, "%zu", b.len);
    belongs(&b);
    identified(&b, line_ends, REST("\x00\x01\xe0\xd4\x03"));
    fill(&b, '\n', 60000);
    fill(&b, 0, 1);
    belongs(&b);
    draft_event(&b, &text);
    belongs(&b);
    for (size_t len = 0; len < b.len; len++)
        CHECK(kez_id_belongs(b.at, len, KEZ_BARE).refusal == read_it(b.at, len).refusal, "cut at %zu", len);
    CHECK(is(kez_id_belongs(vector.at, vector.len, KEZ_BARE), 0, 0), "the vector's id is zero");
}

/* The canonical text through the entries of the hash says what the id question says, at each length of a text in a
 * block. */
static void ids_by_hash(void)
{
    static bytes b;
    static uint8_t text[1000];
    for (size_t len = 0; len < 130; len++) {
        start(&b);
        PUT(&b, "\x00\x01");
        put_varint(&b, len);
        fill(&b, 'x', len);
        put_varint(&b, 0);
        kez_answer a = kez_canonical_write(b.at, b.len, KEZ_BARE, text, sizeof text);
        hash_by(text, a.value, 100);
        CHECK(is(kez_id_belongs(b.at, b.len, KEZ_BARE), 0, 0), "content of %zu bytes, no id", len);
        kez_sha256_finish(state, sizeof state, b.at, KEZ_ID_LEN);
        CHECK(is(kez_id_belongs(b.at, b.len, KEZ_BARE), 0, 1), "content of %zu bytes", len);
    }
}

/* The buffer that is lent beside room. */
static uint8_t other[sizeof room];

static kez_answer put_to_both(const bytes *text, size_t first_len, size_t second_len)
{
    lend();
    memcpy(other, room, sizeof other);
    return kez_read_both(text->at, text->len, room, first_len, other, second_len, numbers);
}

static int other_untouched_from(size_t from)
{
    for (size_t i = from; i < sizeof other; i++)
        if (other[i] != mark(i))
            return 0;
    return 1;
}

/* Both readers show this event, or with value 1 the second alone: room just enough, more, and the bytes that stay. */
static void shown_by(uint64_t value, const bytes *text, const bytes *packed)
{
    const size_t rooms[] = {packed->len, packed->len + 1, text->len, sizeof room};
    for (int i = 0; i < 4; i++) {
        CHECK(is(put_to_both(text, rooms[i], rooms[3 - i]), 0, value), "%zu bytes of room", rooms[i]);
        CHECK(numbers[0] == packed->len, "another length: %d", (int)numbers[0]);
        CHECK(numbers[1] == UINT64_C(0xfeedfacecafe0001), "a number that was not lent changed");
        CHECK(!memcmp(other, packed->at, packed->len), "another event in the second");
        CHECK(other_untouched_from(packed->len), "bytes behind the written ones changed in the second");
        if (value == 2)
            CHECK(!memcmp(room, packed->at, packed->len), "another event in the first");
        CHECK(untouched_from(value == 2 ? packed->len : 0), "the first changed where it must not");
    }
}

static void refused_by_both(const bytes *text, size_t first_len, size_t second_len, uint64_t refusal, uint64_t place)
{
    kez_answer a = put_to_both(text, first_len, second_len);
    CHECK(is(a, refusal, place), "%d at %d, not %d at %d", (int)a.refusal, (int)a.value, (int)refusal, (int)place);
    CHECK(untouched() && other_untouched_from(0), "a refusal changed what was lent");
}

/* The NSON draft's event by both readers; with a wrong count, by JSON alone; what the JSON reader refuses; and without
 * room. Rules 9.1 to 9.7. */
static void read_both(void)
{
    static bytes packed, text, damaged;
    draft_event(&packed, &text);
    shown_by(2, &text, &packed);
    damaged = text;
    damaged.at[326] ^= 1;
    shown_by(1, &damaged, &packed);
    damaged = text;
    PUT(&damaged, " ");
    shown_by(1, &damaged, &packed);
    a_b(&packed, &text, "0801000400");
    shown_by(2, &text, &packed);
    a_b(&packed, &damaged, "0801000500");
    shown_by(1, &damaged, &packed);
    /* by JSON alone the first buffer needs no room */
    CHECK(is(kez_read_both(damaged.at, damaged.len, NULL, 0, other, packed.len, numbers), 0, 1), "one buffer");
    /* 11 where either is too short */
    const size_t all = sizeof room, need = packed.len;
    refused_by_both(&text, all, need - 1, 11, need);
    refused_by_both(&text, need - 1, all, 11, need);
    refused_by_both(&text, 0, 0, 11, need);
    refused_by_both(&damaged, all, need - 1, 11, need);
    /* the JSON reader's refusals, before any room is asked for */
    for (int i = 0; i < 2; i++) {
        const size_t lent = i ? all : 0;
        damaged = text;
        damaged.len--;
        refused_by_both(&damaged, lent, lent, 14, damaged.len);
        damaged.len = 0;
        refused_by_both(&damaged, lent, lent, 14, 0);
        PUT(&damaged, "{\"kind\":1}");
        refused_by_both(&damaged, lent, lent, 15, 9);
        damaged = text;
        damaged.at[7] = 'A';
        refused_by_both(&damaged, lent, lent, 12, 6);
        damaged.len = 0;
        fill(&damaged, ' ', 65537);
        refused_by_both(&damaged, lent, lent, 1, 0);
    }
}

/* An event of so many bytes, most of them its content. */
static void of_length(bytes *b, size_t len)
{
    start(b);
    PUT(b, "\x00\x00");
    put_varint(b, len - 134);
    fill(b, 'x', len - 134);
    put_varint(b, 0);
    CHECK(b->len == len, "%zu, not %zu", b->len, len);
}

/* Said to be versioned: no byte, 01 alone, and every other first byte, alone and in front of an event or of damage. */
static void first_bytes(void)
{
    static bytes b;
    refused_as(NULL, 0, KEZ_VERSIONED, 2, 0);
    refused_as((const uint8_t *)"\x01", 1, KEZ_VERSIONED, 2, 1);
    for (unsigned byte = 0; byte < 256; byte++) {
        if (byte == 1)
            continue;
        versioned_of(&b, vector.at, vector.len);
        b.at[0] = (uint8_t)byte;
        refused_as(b.at, b.len, KEZ_VERSIONED, 25, 0);
        refused_as(b.at, 1, KEZ_VERSIONED, 25, 0);
        refused_as(b.at, 130, KEZ_VERSIONED, 25, 0);
    }
    refused_as(vector.at, vector.len, KEZ_VERSIONED, 25, 0);
}

/* The limit counts the 01, and comes before 25 and before all that is behind it. */
static void versioned_limits(void)
{
    static bytes b, v, text;
    of_length(&b, 65535);
    reads(&b, 0, 0, 133, 65535 - 134, 0);
    strict_form(&b, &b);
    versioned_of(&v, b.at, b.len);
    CHECK(v.len == KEZ_MOST && is(read_as(v.at, v.len, KEZ_VERSIONED), 0, 0), "65,536 bytes");
    spelled_behind(&text, "notepack1_", v.at, v.len);
    CHECK(text.len == KEZ_NOTEPACK_STRING_MOST && text.len == 87392, "%zu", text.len);
    writes_as(kez_notepack_string_write, KEZ_VERSIONED, &v, &text);
    v.at[0] = 2;
    refused_as(v.at, v.len, KEZ_VERSIONED, 25, 0);
    fill(&v, 0, 1);
    for (unsigned byte = 0; byte < 3; byte++) {
        v.at[0] = (uint8_t)byte;
        refused_as(v.at, v.len, KEZ_VERSIONED, 1, 0);
    }
    /* 65,536 bare bytes have no versioned form, whatever is wrong with them */
    of_length(&b, KEZ_MOST);
    CHECK(is(read_it(b.at, b.len), 0, 0), "65,536 bytes");
    refuses(kez_versioned_from_bare, &b, 1, 0);
    b.at[1000] = 0xff;
    refused_as(b.at, b.len, KEZ_BARE, 5, 133);
    refuses(kez_versioned_from_bare, &b, 1, 0);
}

/* Any number but 0 says that an event is bare. */
static void any_yes(void)
{
    static const uint64_t yes[] = {1, 2, 255, 256, UINT64_C(1) << 32, UINT64_C(1) << 63, UINT64_MAX};
    for (size_t i = 0; i < sizeof yes / sizeof *yes; i++) {
        CHECK(is(read_as(vector.at, vector.len, yes[i]), 0, 0), "%zu", i);
        CHECK(is(kez_notepack_is_strict(vector.at, vector.len, yes[i]), 0, 1), "%zu", i);
        CHECK(is(kez_notepack_write(vector.at, vector.len, yes[i], NULL, 0), 11, 237), "%zu", i);
        CHECK(is(kez_notepack_string_write(vector.at, vector.len, yes[i], NULL, 0), 11, 325), "%zu", i);
        CHECK(is(kez_notepack_tag_len(vector.at, vector.len, yes[i], 0), 0, 3), "%zu", i);
        CHECK(is(element_of(vector.at, vector.len, yes[i], 0, 0), 0, 0), "%zu", i);
        CHECK(is(kez_notepack_elements(vector.at, vector.len, yes[i], 0, NULL, 0), 0, 0), "%zu", i);
        CHECK(is(kez_pointer_write(vector.at, vector.len, yes[i], NULL, 0), 11, 400), "%zu", i);
        CHECK(is(kez_canonical_write(vector.at, vector.len, yes[i], NULL, 0), 11, 265), "%zu", i);
        CHECK(kez_nson_write(vector.at, vector.len, yes[i], NULL, 0).refusal == 11, "%zu", i);
        CHECK(is(kez_id_belongs(vector.at, vector.len, yes[i]), 0, 0), "%zu", i);
        CHECK(is(kez_rivals(vector.at, vector.len, yes[i], vector.at, vector.len, yes[i]), 0, 1), "%zu", i);
        start_table();
        CHECK(is(offer_as(vector.at, vector.len, yes[i]), 0, KEZ_TABLE_NEW), "%zu", i);
    }
}

/* 01 and an event of kind 1: said to be bare it reads well, as another event. Nothing in the bytes shows which of the
 * two is meant. */
static void wrong_word(void)
{
    static bytes b, v, form;
    event(&b, 0, 1);
    put_varint(&b, 0);
    versioned_of(&v, b.at, b.len);
    lend();
    CHECK(is(read_as(v.at, v.len, KEZ_VERSIONED), 0, 0) && numbers[1] == 1 && numbers[3] == 0, "as it is");
    CHECK(is(read_as(v.at, v.len, KEZ_BARE), 0, 0) && numbers[1] == 0 && numbers[3] == 1, "as bare");
    CHECK(is(kez_notepack_is_strict(v.at, v.len, KEZ_BARE), 0, 1), "as bare");
    writes_as(kez_notepack_write, KEZ_VERSIONED, &v, &b);
    writes_as(kez_notepack_write, KEZ_BARE, &v, &v);
    start_table();
    stored(&b, &b, KEZ_TABLE_NEW, 0);
    CHECK(is(offer_as(v.at, v.len, KEZ_VERSIONED), 0, KEZ_TABLE_HELD), "the very same event");
    stored(&v, &v, KEZ_TABLE_NEW, 1);
    versioned_of(&form, v.at, v.len);
    writes(kez_versioned_from_bare, &v, &form);
}

/* What is refused of two inputs: all that the first has, 25 among it, comes before the second's 25; that comes before
 * what else the second has. */
static void two_words(void)
{
    static bytes cut, v;
    cut = vector;
    cut.len = 130; /* 4 at 128 */
    versioned_of(&v, cut.at, cut.len);
#define OF_TWO(a, a_bare, b, b_bare) kez_rivals((a)->at, (a)->len, a_bare, (b)->at, (b)->len, b_bare)
    CHECK(is(OF_TWO(&vector, KEZ_VERSIONED, &cut, KEZ_BARE), 25, 0), "the first's 25");
    CHECK(is(OF_TWO(&vector, KEZ_VERSIONED, &vector, KEZ_VERSIONED), 25, 0), "both have 25");
    CHECK(is(OF_TWO(&cut, KEZ_BARE, &vector, KEZ_VERSIONED), 4, 128), "the first's 4, then the second's 25");
    CHECK(is(OF_TWO(&v, KEZ_VERSIONED, &vector, KEZ_VERSIONED), 4, 129), "the same of a versioned one");
    CHECK(is(OF_TWO(&vector, KEZ_BARE, &vector, KEZ_VERSIONED), 25, 0), "the second's 25");
    CHECK(is(OF_TWO(&vector, KEZ_BARE, &v, KEZ_VERSIONED), 4, 129), "the second's 4");
    CHECK(is(OF_TWO(&vector, KEZ_BARE, &cut, KEZ_VERSIONED), 25, 0), "25 before what is behind it");
    CHECK(kez_rivals_refused(vector.at, vector.len, KEZ_VERSIONED) == 1, "the first");
    CHECK(kez_rivals_refused(vector.at, vector.len, KEZ_BARE) == 2, "the second");
}

/* A table keeps bare strict forms, and measures those: 1,024 bytes behind 01 fit, 1,025 do not. */
static void versioned_offers(void)
{
    static bytes b, v, loose;
    for (size_t len = 1024; len <= 1025; len++) {
        start_table();
        record(&b, 1, 1, 9, 30000, "map", len);
        versioned_of(&v, b.at, b.len);
        if (len == 1025) {
            changes_nothing(&b, 22, 0);
            continue;
        }
        want_record(0, &b);
        CHECK(is(offer_as(v.at, v.len, KEZ_VERSIONED), 0, KEZ_TABLE_NEW) && as_wanted(), "%zu bytes", len);
        changes_nothing(&b, 0, KEZ_TABLE_HELD);
    }
    /* made strict on the way */
    start_table();
    event(&b, 0, 1);
    loose = b;
    PUT(&b, "\x01\x01\x03\xab");
    PUT(&loose, "\x01\x01\x04""ab");
    versioned_of(&v, loose.at, loose.len);
    want_record(0, &b);
    CHECK(is(offer_as(v.at, v.len, KEZ_VERSIONED), 0, KEZ_TABLE_NEW) && as_wanted(), "kept as offered");
    /* 34 before 25 */
    lent.slots[8] = 1;
    wanted = lent;
    CHECK(is(offer_as(vector.at, vector.len, KEZ_VERSIONED), 34, 0) && as_wanted(), "a bad table");
}

/* The versioned string form of the vector: each place where it can be cut, and a byte outside the alphabet at each. */
static void versioned_string(void)
{
    static bytes v, text, changed;
    versioned_of(&v, vector.at, vector.len);
    spelled_behind(&text, "notepack1_", v.at, v.len);
    CHECK(text.len == 10 + (4 * 238 + 2) / 3, "%zu", text.len);
    writes_as(kez_notepack_string_write, KEZ_VERSIONED, &v, &text);
    writes(kez_notepack_string_read_versioned, &text, &v);
    for (size_t len = 0; len < text.len; len++) {
        size_t chars = len < 10 ? 0 : len - 10, whole = chars * 3 / 4;
        int bits = chars % 4 == 2 ? v.at[whole] >> 4 : chars % 4 == 3 ? v.at[whole] >> 6 : 0;
        kez_answer a = read_as(v.at, whole, KEZ_VERSIONED);
        changed = text;
        changed.len = len;
        if (len < 10)
            refuses(kez_notepack_string_read_versioned, &changed, 20, 0);
        else if (chars % 4 == 1 || bits)
            refuses(kez_notepack_string_read_versioned, &changed, 21, len);
        else
            refuses(kez_notepack_string_read_versioned, &changed, a.refusal, a.value);
        changed = text;
        changed.at[len] = '-';
        refuses(kez_notepack_string_read_versioned, &changed, len < 10 ? 20 : 21, len < 10 ? 0 : len);
    }
    /* nothing held, 01 alone, another first byte, the bare bytes */
    text.len = 0;
    PUT(&text, "notepack1_");
    refuses(kez_notepack_string_read_versioned, &text, 2, 0);
    PUT(&text, "AQ");
    refuses(kez_notepack_string_read_versioned, &text, 2, 1);
    text.at[11] = 'g'; /* 02 */
    refuses(kez_notepack_string_read_versioned, &text, 25, 0);
    spelled_behind(&text, "notepack1_", vector.at, vector.len);
    refuses(kez_notepack_string_read_versioned, &text, 25, 0);
    /* 65,537 bytes held, of whatever form */
    v.len = 0;
    fill(&v, 1, 65537);
    spelled_behind(&text, "notepack1_", v.at, v.len);
    refuses(kez_notepack_string_read_versioned, &text, 1, 0);
}

/* Pointer forms. Eight bytes, the lowest first; and a pointer to so many bytes from an offset on. */

static void put_word_at(bytes *b, size_t at, uint64_t word)
{
    for (int i = 0; i < 8; i++, word >>= 8)
        b->at[at + (size_t)i] = (uint8_t)word;
}

static void put_word(bytes *b, uint64_t word)
{
    b->len += 8;
    put_word_at(b, b->len - 8, word);
}

static uint64_t pointer_to(uint64_t offset, uint64_t len)
{
    return offset << 32 | len;
}

enum { KIND_AT = 40, TIME_AT = 48, CONTENT_AT = 56, TAGS_AT = 64, DATA_AT = 72, FORM_VERSION_AT = 4 };

/* The header for as many bytes as there are, in front of the id and the sig. */
static void put_header(bytes *form, uint64_t version)
{
    put_word_at(form, 0, version << 32 | (form->len - KEZ_POINTER_ID_FROM_END));
}

/* A form of kind 1 and of one second, with data of this length, all of one byte, and zeros for id, pubkey and sig. */
static void empty_form(bytes *form, uint64_t version, size_t data, uint8_t byte)
{
    form->len = 0;
    fill(form, 0, DATA_AT);
    fill(form, byte, data);
    fill(form, 0, KEZ_POINTER_ID_FROM_END);
    put_header(form, version);
    put_word_at(form, KIND_AT, 1);
    put_word_at(form, TIME_AT, 1000);
}

/* The five questions agree: the form is refused so, and nothing that was lent changes. A v1 is 26 if it is to be
 * converted, whatever else is wrong with it; only 1 comes first. */
static void refused_form(const bytes *form, uint64_t refusal, uint64_t place)
{
    lend();
    int is_v1 = refusal != 1 && form->len >= 8 && form->at[FORM_VERSION_AT] == 1;
    uint64_t of_convert = is_v1 ? 26 : refusal, place_of_convert = is_v1 ? 0 : place;
    kez_answer all[] = {
        read_form(form->at, form->len),
        kez_pointer_tag_len(form->at, form->len, 0),
        kez_pointer_tag_len(form->at, form->len, UINT64_MAX),
        kez_pointer_element(form->at, form->len, 0, 0, numbers, numbers + 1),
        kez_pointer_element(form->at, form->len, UINT64_MAX, UINT64_MAX, numbers, numbers + 1),
    };
    for (size_t i = 0; i < sizeof all / sizeof *all; i++)
        CHECK(is(all[i], refusal, place), "question %zu of %zu bytes: %d at %d, not %d at %d", i, form->len,
              (int)all[i].refusal, (int)all[i].value, (int)refusal, (int)place);
    kez_answer a = kez_pointer_convert(form->at, form->len, room, sizeof room);
    CHECK(is(a, of_convert, place_of_convert), "%d at %d, not %d at %d", (int)a.refusal, (int)a.value, (int)of_convert,
          (int)place_of_convert);
    CHECK(is(kez_pointer_convert(form->at, form->len, NULL, 0), of_convert, place_of_convert), "without room");
    CHECK(untouched(), "a refusal changed what was lent");
}

/* The form is read with these numbers. */
static void reads_form(const bytes *form, uint64_t version, uint64_t kind, uint64_t time, uint64_t at, uint64_t len,
                       uint64_t tags)
{
    const uint64_t wanted_numbers[] = {version, kind, time, at, len, tags};
    lend();
    kez_answer a = read_form(form->at, form->len);
    CHECK(is(a, 0, 0), "%zu bytes: %d at %d", form->len, (int)a.refusal, (int)a.value);
    CHECK(!memcmp(numbers, wanted_numbers, sizeof wanted_numbers), "%zu bytes have other numbers", form->len);
}

static void shows_text(const bytes *form, uint64_t tag, uint64_t element, uint64_t at, uint64_t len)
{
    lend();
    CHECK(is(kez_pointer_element(form->at, form->len, tag, element, numbers, numbers + 1), 0, 0), "tag %d text %d",
          (int)tag, (int)element);
    CHECK(numbers[0] == at && numbers[1] == len, "tag %d text %d: at %d, length %d", (int)tag, (int)element,
          (int)numbers[0], (int)numbers[1]);
    CHECK(numbers[2] == UINT64_C(0xfeedfacecafe0002), "a number that was not lent changed");
}

/* There is no such text, and whether there is such a tag. */
static void no_such_text(const bytes *form, uint64_t tag, uint64_t element, uint64_t refusal, uint64_t texts)
{
    lend();
    CHECK(is(kez_pointer_element(form->at, form->len, tag, element, numbers, numbers + 1), 19, 0), "tag %d text %d",
          (int)tag, (int)element);
    CHECK(untouched(), "19 changed what was lent");
    CHECK(is(kez_pointer_tag_len(form->at, form->len, tag), refusal, texts), "tag %d", (int)tag);
}

/* A piece of the vector's form: the bytes, and zeros to a multiple of 8. */
static void put_piece(bytes *form, const void *part, size_t len)
{
    put(form, part, len);
    fill(form, 0, (8 - len % 8) % 8);
}

/* The v0 of the vector, piece by piece (rule 18.14). */
static void vector_form(bytes *form)
{
    static char hex[64];
    form->len = 0;
    put_word(form, 400 - 96);
    fill(form, 0x11, 32);
    put_word(form, 0);
    put_word(form, UINT64_C(1720000000000));
    put_word(form, pointer_to(0, 5));
    put_word(form, pointer_to(8, 16));
    put_piece(form, "hello", 5);
    put_word(form, pointer_to(24, 24));
    put_word(form, pointer_to(144, 16));
    put_word(form, pointer_to(48, 1));
    put_word(form, pointer_to(56, 64));
    put_word(form, pointer_to(120, 23));
    put_piece(form, "e", 1);
    put_piece(form, memset(hex, 'a', 64), 64);
    put_piece(form, "wss://relay.example.com", 23);
    put_word(form, pointer_to(160, 1));
    put_word(form, pointer_to(168, 64));
    put_piece(form, "p", 1);
    put_piece(form, memset(hex, 'b', 64), 64);
    fill(form, 0x00, 32);
    fill(form, 0x22, 64);
}

/* There and back, and what is shown of it; the same bytes as a v1. */
static void pointer_forms(void)
{
    static bytes b, form, strict;
    event(&b, 0, 0);
    put_varint(&b, 0);
    empty_form(&form, 0, 0, 0);
    put_word_at(&form, KIND_AT, 0);
    put_word_at(&form, TIME_AT, 0);
    CHECK(form.len == KEZ_POINTER_LEAST && form.len == 168, "%zu", form.len);
    writes_of(kez_pointer_write, &b, &form);
    writes(kez_pointer_convert, &form, &b);
    reads_form(&form, 0, 0, 0, DATA_AT, 0, 0);

    vector_form(&form);
    CHECK(form.len == 400, "%zu", form.len);
    writes_of(kez_pointer_write, &vector, &form);
    writes(kez_pointer_convert, &form, &vector);
    for (uint64_t version = 0; version < 2; version++) {
        put_header(&form, version);
        reads_form(&form, version, 0, UINT64_C(1720000000000), DATA_AT, 5, 2);
        shows_text(&form, 0, 0, DATA_AT + 48, 1);
        shows_text(&form, 0, 1, DATA_AT + 56, 64);
        shows_text(&form, 0, 2, DATA_AT + 120, 23);
        shows_text(&form, 1, 0, DATA_AT + 160, 1);
        shows_text(&form, 1, 1, DATA_AT + 168, 64);
        no_such_text(&form, 0, 3, 0, 3);
        no_such_text(&form, 1, 2, 0, 2);
        no_such_text(&form, 1, UINT64_MAX, 0, 2);
        no_such_text(&form, 2, 0, 19, 0);
        no_such_text(&form, UINT64_C(1) << 61, 0, 19, 0);
        no_such_text(&form, UINT64_MAX, 0, 19, 0);
        CHECK(!memcmp(form.at + KEZ_POINTER_PUBKEY_AT, vector.at + KEZ_PUBKEY_AT, KEZ_PUBKEY_LEN), "pubkey");
        CHECK(!memcmp(form.at + form.len - KEZ_POINTER_ID_FROM_END, vector.at, KEZ_ID_LEN), "id");
        CHECK(!memcmp(form.at + form.len - KEZ_POINTER_SIG_FROM_END, vector.at + KEZ_SIG_AT, KEZ_SIG_LEN), "sig");
    }
    refuses(kez_pointer_convert, &form, 26, 0);

    /* elements in other spellings: the form is that of the strict ones, and converts to those */
    event(&b, 7, 65535);
    strict = b;
    PUT(&b, "\x01\x03\x04""ab\x01\x06""abc");
    PUT(&strict, "\x01\x03\x03\xab\x00\x06""abc");
    empty_form(&form, 0, 48, 0);
    put_word_at(&form, KIND_AT, 65535);
    put_word_at(&form, TIME_AT, 7000);
    put_word_at(&form, TAGS_AT, pointer_to(0, 8));
    put_word_at(&form, DATA_AT, pointer_to(8, 24));
    put_word_at(&form, DATA_AT + 8, pointer_to(32, 2));
    put_word_at(&form, DATA_AT + 16, pointer_to(40, 0));
    put_word_at(&form, DATA_AT + 24, pointer_to(40, 3));
    memcpy(form.at + DATA_AT + 32, "ab", 2);
    memcpy(form.at + DATA_AT + 40, "abc", 3);
    writes_of(kez_pointer_write, &b, &form);
    writes_of(kez_pointer_write, &strict, &form);
    writes(kez_pointer_convert, &form, &strict);
}

/* Each word of a form with a fault in it: what a v0 is refused with, and what a v1 is. */
static void pointer_faults(void)
{
    /* one tag of two texts, `ab` and `xyz`, which is the content too; six bytes that nothing points to */
    static const struct {
        size_t at;
        uint64_t word, of_v0, place, of_v1;
    } faults[] = {
        {0, 107 | UINT64_C(2) << 32, 26, 0, 26},      {0, 107 | UINT64_C(65535) << 32, 26, 0, 26},
        {0, 107 | UINT64_C(1) << 48, 26, 0, 26},      {0, 107 | UINT64_C(1) << 63, 26, 0, 26},
        {0, 106, 26, 0, 26},                          {0, 108, 26, 0, 26},
        {0, 0, 26, 0, 26},                            {0, UINT64_MAX, 26, 0, 26},
        {KIND_AT, 65536, 6, 40, 0},                   {KIND_AT, UINT64_MAX, 6, 40, 0},
        {TIME_AT, 999, 28, 48, 0},                    {TIME_AT, 1001, 28, 48, 0},
        {TIME_AT, (uint64_t)-1000, 28, 48, 0},        {TIME_AT, UINT64_C(1) << 63, 28, 48, 0},
        {TIME_AT, INT64_MAX, 28, 48, 0},              {CONTENT_AT, UINT64_C(4) << 32, 27, 56, 27},
        {CONTENT_AT, UINT64_C(32) << 32 | 4, 27, 56, 27}, {CONTENT_AT, UINT64_C(40) << 32, 27, 56, 27},
        {CONTENT_AT, UINT64_MAX, 27, 56, 27},         {CONTENT_AT, UINT64_C(0xfffffff8) << 32 | 8, 27, 56, 27},
        {CONTENT_AT, UINT64_C(24) << 32 | 3, 5, 96, 0},   {TAGS_AT, 9, 27, 64, 27},
        {TAGS_AT, 7, 27, 64, 27},                     {TAGS_AT, UINT64_C(12) << 32 | 8, 27, 64, 27},
        {DATA_AT, UINT64_C(8) << 32, 9, 72, 0},       {DATA_AT, UINT64_C(8) << 32 | 17, 27, 72, 27},
        {DATA_AT, UINT64_C(24) << 32 | 16, 27, 72, 27},   {DATA_AT + 8, UINT64_C(24) << 32 | 3, 5, 96, 0},
        {DATA_AT + 8, UINT64_C(25) << 32 | 1, 27, 80, 27}, {DATA_AT + 16, UINT64_C(32) << 32 | 4, 27, 88, 27},
    };
    static bytes form, changed;
    for (uint64_t version = 0; version < 2; version++) {
        empty_form(&form, version, 35, 0xff);
        put_word_at(&form, CONTENT_AT, pointer_to(32, 3));
        put_word_at(&form, TAGS_AT, pointer_to(0, 8));
        put_word_at(&form, DATA_AT, pointer_to(8, 16));
        put_word_at(&form, DATA_AT + 8, pointer_to(24, 2));
        put_word_at(&form, DATA_AT + 16, pointer_to(32, 3));
        memcpy(form.at + DATA_AT + 24, "ab", 2);
        memcpy(form.at + DATA_AT + 32, "xyz", 3);
        reads_form(&form, version, 1, 1000, DATA_AT + 32, 3, 1);
        for (size_t i = 0; i < sizeof faults / sizeof *faults; i++) {
            uint64_t refusal = version ? faults[i].of_v1 : faults[i].of_v0;
            changed = form;
            put_word_at(&changed, faults[i].at, faults[i].word);
            if (refusal)
                refused_form(&changed, refusal, faults[i].place);
            else
                CHECK(is(read_form(changed.at, changed.len), 0, 0), "v1, fault %zu", i);
        }
        /* what no fault is: an empty piece at the end, pieces that overlap, the last time and the last kind there is */
        changed = form;
        put_word_at(&changed, CONTENT_AT, pointer_to(32, 0));
        put_word_at(&changed, DATA_AT + 8, pointer_to(0, 3));
        put_word_at(&changed, TIME_AT, UINT64_C(9223372036854775000));
        put_word_at(&changed, KIND_AT, 65535);
        reads_form(&changed, version, 65535, UINT64_C(9223372036854775000), DATA_AT + 32, 0, 1);
        /* cut and lengthened: the header's number is another */
        for (changed = form; changed.len > 0; changed.len--)
            if (changed.len != form.len)
                refused_form(&changed, 26, 0);
        changed = form;
        fill(&changed, 0, 1);
        refused_form(&changed, 26, 0);
    }
    /* fewer than 168 bytes, with a header that fits them */
    empty_form(&form, 0, 0, 0);
    for (form.len = 167; form.len >= 96; form.len--) {
        put_header(&form, 0);
        refused_form(&form, 26, 0);
    }
}

/* The order of faults: of each two the one that is read first. */
static void pointer_order(void)
{
    static bytes form;
    empty_form(&form, 0, 8, 0xff);
    static const struct {
        size_t at;
        uint64_t word, refusal, place;
    } faults[] = {
        {DATA_AT, UINT64_C(3) << 32, 27, 72}, {TAGS_AT, 8, 27, 72}, {CONTENT_AT, 8, 5, 72}, {TAGS_AT, 9, 5, 72},
        {CONTENT_AT, 9, 27, 56}, {TIME_AT, 1, 28, 48}, {KIND_AT, 65536, 6, 40}, {0, 0, 26, 0},
    };
    CHECK(is(read_form(form.at, form.len), 0, 0), "nothing points to it yet");
    for (size_t i = 0; i < sizeof faults / sizeof *faults; i++) {
        put_word_at(&form, faults[i].at, faults[i].word);
        if (i == 0)
            CHECK(is(read_form(form.at, form.len), 0, 0), "a word that nothing points to");
        else if (i == 2) /* the eight bytes of the content are a pointer, with ff in it */
            form.at[DATA_AT + 7] = 0xff;
        if (i)
            refused_form(&form, faults[i].refusal, faults[i].place);
    }
    form.len = 0;
    fill(&form, 0xff, 65537);
    refused_form(&form, 1, 0);
}

/* So many tags that share one table of so many texts, which share one text of this length; the content is that too. */
static void shared_form(bytes *form, uint64_t version, size_t tags, size_t texts, size_t len, uint8_t byte)
{
    size_t of_texts = 8 * tags, of_text = of_texts + 8 * texts;
    empty_form(form, version, of_text + len, byte);
    put_word_at(form, CONTENT_AT, pointer_to(of_text, len));
    put_word_at(form, TAGS_AT, pointer_to(0, of_texts));
    for (size_t i = 0; i < tags; i++)
        put_word_at(form, DATA_AT + 8 * i, pointer_to(of_texts, 8 * texts));
    for (size_t i = 0; i < texts; i++)
        put_word_at(form, DATA_AT + of_texts + 8 * i, pointer_to(of_text, len));
}

/* Numbers of tags and of texts, lengths of the form and of what is written. */
static void pointer_limits(void)
{
    static bytes form, b;
    shared_form(&form, 0, 1000, 255, 0, 0);
    reads_form(&form, 0, 1, 1000, DATA_AT + 8000 + 2040, 0, 1000);
    shared_form(&form, 0, 1001, 1, 1, 'x');
    refused_form(&form, 8, TAGS_AT);
    shared_form(&form, 0, 2, 256, 1, 'x');
    refused_form(&form, 8, DATA_AT);
    shared_form(&form, 0, 2, 0, 0, 0);
    refused_form(&form, 9, DATA_AT);
    shared_form(&form, 1, 1001, 256, 1, 0xff);
    reads_form(&form, 1, 1, 1000, DATA_AT + 8008 + 2048, 1, 1001);
    no_such_text(&form, 1000, 256, 0, 256);
    shared_form(&form, 1, 2, 0, 0, 0);
    reads_form(&form, 1, 1, 1000, DATA_AT + 16, 0, 2);
    no_such_text(&form, 1, 0, 0, 0);

    /* the longest form, and one byte more */
    empty_form(&form, 0, 65368, 'x');
    CHECK(form.len == KEZ_POINTER_MOST, "%zu", form.len);
    put_word_at(&form, CONTENT_AT, 65368);
    put_word_at(&form, TAGS_AT, pointer_to(65368, 0));
    event(&b, 1, 1);
    b.len--;
    put_varint(&b, 65368);
    fill(&b, 'x', 65368);
    put_varint(&b, 0);
    writes_of(kez_pointer_write, &b, &form);
    writes(kez_pointer_convert, &form, &b);
    empty_form(&form, 0, 65369, 'x');
    refused_form(&form, 1, 0);
    /* an event whose v0 would be longer: it is 29, in either form, with room and without */
    event(&b, 1, 1);
    b.len--;
    put_varint(&b, 65369);
    fill(&b, 'x', 65369);
    put_varint(&b, 0);
    refuses_of(kez_pointer_write, &b, 29, 0);
    /* 1,000 tags of eight texts, whose strict form is short */
    event(&b, 1, 1);
    put_varint(&b, 1000);
    for (int i = 0; i < 1000; i++) {
        put_varint(&b, 8);
        fill(&b, 0, 8);
    }
    refuses_of(kez_pointer_write, &b, 29, 0);
}

/* Strict forms of just 65,536 bytes, and of one more: three texts of 16,000 bytes and one of the rest are one text. */
static void shared_sizes(void)
{
    static bytes form, b;
    for (size_t rest = 17389; rest < 17394; rest++) {
        shared_form(&form, 0, 1, 4, 17400, 'x');
        put_word_at(&form, CONTENT_AT, 0);
        for (size_t i = 0; i < 4; i++)
            put_word_at(&form, DATA_AT + 8 + 8 * i, pointer_to(40, i < 3 ? 16000 : rest));
        event(&b, 1, 1);
        PUT(&b, "\x01\x04");
        for (size_t i = 0; i < 4; i++) {
            put_varint(&b, 2 * (i < 3 ? 16000 : rest));
            fill(&b, 'x', i < 3 ? 16000 : rest);
        }
        if (b.len <= KEZ_MOST)
            writes(kez_pointer_convert, &form, &b);
        else
            refuses(kez_pointer_convert, &form, 29, 0);
        CHECK(is(read_form(form.at, form.len), 0, 0), "%zu", b.len);
        CHECK(b.len == KEZ_MOST - 17391 + rest, "%zu", b.len);
    }
}

static double longest_of_ten(const bytes *form)
{
    double best = 1e9;
    for (int i = 0; i < 10; i++) {
        double start_of_calls = milliseconds();
        read_form(form->at, form->len);
        kez_pointer_tag_len(form->at, form->len, 999);
        kez_pointer_element(form->at, form->len, 999, 254, numbers, numbers + 1);
        kez_pointer_convert(form->at, form->len, room, sizeof room);
        double took = (milliseconds() - start_of_calls) / 4;
        best = took < best ? took : best;
    }
    return best;
}

/* As much shared as there can be: 255,000 texts that name 10^10 bytes, and 8,171 tags of 8,171 texts. A call that went
 * through them all would take seconds or tens of milliseconds; the best of ten counts, as above. */
static void worst_forms(void)
{
    static bytes form;
    static const uint8_t fillings[] = {'x', 'a'};
    for (int i = 0; i < 2; i++) {
        shared_form(&form, 0, 1000, 255, 55000, fillings[i]);
        reads_form(&form, 0, 1, 1000, DATA_AT + 10040, 55000, 1000);
        shows_text(&form, 999, 254, DATA_AT + 10040, 55000);
        refuses(kez_pointer_convert, &form, 29, 0);
        double took = longest_of_ten(&form);
        CHECK(took < 5, "%.1f ms for a call", took);
    }
    /* the last byte of the text is bad; the last pointer of the tag is */
    form.at[DATA_AT + 10040 + 54999] = 0xc3;
    refused_form(&form, 5, DATA_AT + 10040);
    form.at[DATA_AT + 10040 + 54999] = 'a';
    put_word_at(&form, CONTENT_AT, 0);
    put_word_at(&form, DATA_AT + 10032, pointer_to(10040, 55001));
    refused_form(&form, 27, DATA_AT + 10032);
    /* the last tag has a text less, and another one that is bad */
    put_word_at(&form, DATA_AT + 7992, pointer_to(10032, 8));
    put_word_at(&form, DATA_AT + 10032, pointer_to(10040, 55000));
    reads_form(&form, 0, 1, 1000, DATA_AT, 0, 1000);
    no_such_text(&form, 999, 1, 0, 1);
    put_word_at(&form, DATA_AT + 7992, pointer_to(10032, 12));
    refused_form(&form, 27, DATA_AT + 7992);

    empty_form(&form, 1, 65368, 0);
    put_word_at(&form, TAGS_AT, 65368);
    for (size_t i = 0; i < 8171; i++)
        put_word_at(&form, DATA_AT + 8 * i, 65368);
    reads_form(&form, 1, 1, 1000, DATA_AT, 0, 8171);
    shows_text(&form, 8170, 8170, DATA_AT, 65368);
    no_such_text(&form, 8170, 8171, 0, 8171);
    double took = longest_of_ten(&form);
    CHECK(took < 5, "%.1f ms for a call", took);
    put_word_at(&form, DATA_AT + 65360, 65369);
    refused_form(&form, 27, DATA_AT + 65360);
}

/* A text that the end of its piece cuts: what stands behind it is not looked at, in the data and behind it. */
static void cut_texts(void)
{
    static const char text[] = "a\xc3\xa9\xe2\x82\xac\xf0\x9f\x98\x80z"; /* a, 2, 3 and 4 bytes, z */
    static const int whole[] = {1, 1, 0, 1, 0, 0, 1, 0, 0, 0, 1, 1};
    static bytes form, b;
    for (size_t len = 0; len <= 11; len++)
        for (size_t data = len; data <= 11; data += 11 - len ? 11 - len : 1) {
            empty_form(&form, 0, data, 0);
            memcpy(form.at + DATA_AT, text, 11); /* what the data has no room for starts the id */
            put_word_at(&form, CONTENT_AT, len);
            if (!whole[len]) {
                refused_form(&form, 5, DATA_AT);
                continue;
            }
            event(&b, 1, 1);
            b.len--;
            put_varint(&b, len);
            put(&b, text, len);
            put_varint(&b, 0);
            memcpy(b.at, form.at + DATA_AT + data, 32);
            writes(kez_pointer_convert, &form, &b);
        }
}

int main(void)
{
    make_vector();
    nothing_lent();
    the_vector();
    truncations();
    padded();
    padded_first();
    elements();
    listed_elements();
    many_elements();
    varint_faults();
    limits();
    sentences();
    canonical();
    nson_write();
    nson_read();
    json_read();
    read_both();
    string_form();
    outside_the_alphabet();
    left_over();
    string_limits();
    rivals();
    offers();
    cell_limits();
    no_free_slot();
    marks();
    bad_slots();
    twins();
    labels();
    no_label();
    offered_again();
    table_sizes();
    any_order();
    nist();
    cuts();
    hash_limits();
    any_bytes();
    short_states();
    ids();
    ids_by_hash();
    first_bytes();
    versioned_limits();
    any_yes();
    wrong_word();
    two_words();
    versioned_offers();
    versioned_string();
    pointer_forms();
    pointer_faults();
    pointer_order();
    pointer_limits();
    shared_sizes();
    worst_forms();
    cut_texts();
    printf("%d passed, %d failed\n", passed, failed);
    return failed != 0;
}
