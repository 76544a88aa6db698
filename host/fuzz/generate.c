/* Random inputs. The encoders here are the harness's own and can write what no encoder would; each input may then be
 * damaged. */
#include "generate.h"

#include <stdio.h>
#include <string.h>

uint64_t seed;

uint64_t draw(uint64_t below)
{
    seed += UINT64_C(0x9e3779b97f4a7c15);
    uint64_t z = seed;
    z = (z ^ (z >> 30)) * UINT64_C(0xbf58476d1ce4e5b9);
    z = (z ^ (z >> 27)) * UINT64_C(0x94d049bb133111eb);
    return (z ^ (z >> 31)) % below;
}

static int percent(uint64_t chance)
{
    return draw(100) < chance;
}

static void put(input *to, const void *part, size_t len)
{
    if (len <= LONGEST - to->len) {
        memcpy(to->at + to->len, part, len);
        to->len += len;
    }
}

static void put_byte(input *to, int byte)
{
    put(to, &(uint8_t){(uint8_t)byte}, 1);
}

static void put_words(input *to, const char *words)
{
    put(to, words, strlen(words));
}

/* Records */

enum { TAGS = 12, TEXTS = 6, POOL = 4096 };

typedef struct {
    const uint8_t *at;
    size_t len;
} text;

typedef struct {
    uint8_t fixed[128];
    uint64_t created_at, kind;
    text content, texts[TAGS][TEXTS];
    int tags, texts_in[TAGS];
} record;

static input pool; /* the texts of the record that is made */

#define PIECE(s) {(const uint8_t *)(s), sizeof(s) - 1}
static const text pieces[] = {
    PIECE("d"), PIECE("e"), PIECE("p"), PIECE(""), PIECE("ab"), PIECE("AB"), PIECE("abc"), PIECE("00ff"), PIECE("wss://relay.example.com"),
    PIECE("\""), PIECE("\\"), PIECE("\n"), PIECE("\x01"), PIECE("\t"), PIECE("\x7f"), PIECE("/"), PIECE("\xc3\xa9"), PIECE("\xe2\x82\xac"),
    PIECE("\xf0\x9f\x91\x82"), PIECE("\xed\xa0\x80"), PIECE("\xff"), PIECE("\xc0\x80"), PIECE("Threshold 42 dB at 1000 Hz"),
    PIECE("79be667ef9dcbbac55a06295ce870b07029bfcdb2dce28d959f2815b16f81798"),
};

static text make_text(void)
{
    size_t from = pool.len, count = percent(60) ? 1 : draw(5);
    for (size_t i = 0; i < count; i++) {
        const text *t = &pieces[draw(percent(80) ? 12 : sizeof pieces / sizeof *pieces)];
        put(&pool, t->at, t->len);
    }
    if (percent(1))
        for (size_t i = draw(300); i; i--)
            put_byte(&pool, percent(50) ? '"' : 'a');
    return (text){pool.at + from, pool.len - from};
}

static uint64_t some(const uint64_t *numbers, size_t count, uint64_t below)
{
    return percent(70) ? numbers[draw(count)] : draw(below);
}

static void make_record(record *r)
{
    static const uint64_t times[] = {0, 1, 999999999, 1000000000, 1683762317, 1720000000, 9999999999, 10000000000, 9223372036854775, 9223372036854776};
    static const uint64_t kinds[] = {0, 1, 3, 7, 9999, 10000, 19999, 20000, 30000, 30023, 39999, 65535, 65536};
    int shape = (int)draw(3);
    for (int i = 0; i < 128; i++)
        r->fixed[i] = shape == 0 ? 0 : shape == 1 ? (uint8_t)i : (uint8_t)draw(256);
    r->created_at = percent(50) ? 1700000000 + draw(9) : some(times, sizeof times / sizeof *times, UINT64_C(1) << draw(64));
    r->kind = percent(40) ? 30000 : some(kinds, sizeof kinds / sizeof *kinds, 70000);
    pool.len = 0;
    r->content = make_text();
    r->tags = percent(20) ? 0 : (int)draw(percent(10) ? TAGS : 4);
    for (int i = 0; i < r->tags; i++) {
        r->texts_in[i] = percent(2) ? 0 : 1 + (int)draw(percent(20) ? TEXTS : 3);
        for (int j = 0; j < r->texts_in[i]; j++)
            r->texts[i][j] = make_text();
    }
}

/* Packed bytes */

/* Some records have padded numbers, and are refused for them: of their numbers one in ten is. */
static int pads;

static void put_varint(input *to, uint64_t n)
{
    int pad = pads && percent(10) ? 1 + (int)draw(percent(80) ? 3 : 9) : 0;
    for (; n >= 0x80; n >>= 7)
        put_byte(to, (int)(n & 0x7f) | 0x80);
    put_byte(to, (int)n | (pad ? 0x80 : 0));
    for (; pad; pad--)
        put_byte(to, pad > 1 ? 0x80 : 0);
}

static int digit(uint8_t c)
{
    return c >= '0' && c <= '9' ? c - '0' : c >= 'a' && c <= 'f' ? c - 'a' + 10 : -1;
}

static void put_element(input *to, text t)
{
    int hex = t.len && t.len % 2 == 0;
    for (size_t i = 0; i < t.len; i++)
        hex = hex && digit(t.at[i]) >= 0;
    if (hex && !percent(10)) {
        put_varint(to, t.len + 1);
        for (size_t i = 0; i < t.len; i += 2)
            put_byte(to, digit(t.at[i]) << 4 | digit(t.at[i + 1]));
    } else {
        put_varint(to, 2 * t.len + (t.len == 0 && percent(10)));
        put(to, t.at, t.len);
    }
}

static void put_packed(input *to, const record *r)
{
    pads = percent(10);
    put(to, r->fixed, 128);
    put_varint(to, r->created_at);
    put_varint(to, r->kind);
    put_varint(to, r->content.len);
    put(to, r->content.at, r->content.len);
    put_varint(to, (uint64_t)r->tags);
    for (int i = 0; i < r->tags; i++) {
        put_varint(to, (uint64_t)r->texts_in[i]);
        for (int j = 0; j < r->texts_in[i]; j++)
            put_element(to, r->texts[i][j]);
    }
}

/* Three bytes, or those that are left, as base64; now and then with bits left over that are not zero. */
static void put_base64(input *to, const uint8_t *at, size_t len)
{
    static const char alphabet[] = "ABCDEFGHIJKLMNOPQRSTUVWXYZabcdefghijklmnopqrstuvwxyz0123456789+/";
    uint32_t bits = (uint32_t)at[0] << 16 | (len > 1 ? (uint32_t)at[1] << 8 : 0) | (len > 2 ? at[2] : 0);
    if (len < 3 && percent(10))
        bits |= (uint32_t)draw(256) << (len == 1 ? 8 : 0);
    for (size_t i = 0; i <= len; i++)
        put_byte(to, alphabet[bits >> (18 - 6 * i) & 63]);
}

/* A packed record behind 01; now and then behind another byte. */
static void put_versioned(input *to, const record *r)
{
    put_byte(to, percent(95) ? 1 : (int)draw(256));
    put_packed(to, r);
}

/* The string form of a bare record or of a versioned one; now and then with the other's prefix. */
static void put_string(input *to, const record *r)
{
    static input packed;
    int versioned = percent(40);
    packed.len = 0;
    if (versioned)
        put_versioned(&packed, r);
    else
        put_packed(&packed, r);
    put_words(to, percent(2) ? "notepack-" : versioned == percent(97) ? "notepack1_" : "notepack_");
    for (size_t i = 0; i < packed.len; i += 3)
        put_base64(to, packed.at + i, packed.len - i < 3 ? packed.len - i : 3);
    if (percent(5))
        put_words(to, percent(50) ? "\n" : "==");
}

/* Texts. In NSON three bytes have escapes; in JSON all that the RFC has may be used. */

static void put_hex(input *to, const uint8_t *at, size_t len)
{
    for (size_t i = 0; i < len; i++) {
        put_byte(to, "0123456789abcdef"[at[i] >> 4]);
        put_byte(to, "0123456789abcdef"[at[i] & 15]);
    }
}

/* Puts the text escaped, and gives its length. */
static size_t put_escaped(input *to, text t, int json)
{
    size_t from = to->len;
    for (size_t i = 0; i < t.len; i++) {
        uint8_t c = t.at[i];
        char spelled[8];
        if (c < 0x80 && json && (percent(3) || (c < 0x20 && c != '\n'))) {
            snprintf(spelled, sizeof spelled, "\\u%04x", c);
            put_words(to, spelled);
        } else if (c == '"' || c == '\\') {
            put_byte(to, '\\');
            put_byte(to, c);
        } else if (c == '\n') {
            put_words(to, "\\n");
        } else {
            put_byte(to, c);
        }
    }
    return to->len - from;
}

static void put_number(input *to, uint64_t n)
{
    char spelled[24];
    snprintf(spelled, sizeof spelled, "%llu", (unsigned long long)n);
    put_words(to, spelled);
}

static void put_space(input *to, int json)
{
    if (json && percent(10))
        put_byte(to, " \t\n\r"[draw(4)]);
}

/* About as many tags, or texts in a tag, as there may be. */
static void put_many(input *to)
{
    int tags = percent(50), count = (tags ? 999 : 254) + (int)draw(3);
    put_words(to, tags ? "[" : "[[");
    for (int i = 0; i < count; i++) {
        put_words(to, i ? "," : "");
        put_words(to, tags ? "[\"a\"]" : "\"\"");
    }
    put_words(to, tags ? "]" : "]]");
}

static void put_tags(input *to, const record *r, int json)
{
    if (json && draw(300) == 0) {
        put_many(to);
        return;
    }
    put_byte(to, '[');
    for (int i = 0; i < r->tags; i++) {
        put_words(to, i ? ",[" : "[");
        put_space(to, json);
        for (int j = 0; j < r->texts_in[i]; j++) {
            put_words(to, j ? ",\"" : "\"");
            put_escaped(to, r->texts[i][j], json);
            put_byte(to, '"');
            put_space(to, json);
        }
        put_byte(to, ']');
    }
    put_byte(to, ']');
}

static void put_nson(input *to, const record *r)
{
    static input counts, scratch;
    char kind[24];
    counts.len = 0;
    put_byte(&counts, snprintf(kind, sizeof kind, "%llu", (unsigned long long)r->kind));
    size_t content = (scratch.len = 0, put_escaped(&scratch, r->content, 0));
    put_byte(&counts, (int)(content >> 8));
    put_byte(&counts, (int)content);
    put_byte(&counts, r->tags);
    for (int i = 0; i < r->tags; i++) {
        put_byte(&counts, r->texts_in[i]);
        for (int j = 0; j < r->texts_in[i]; j++) {
            size_t len = (scratch.len = 0, put_escaped(&scratch, r->texts[i][j], 0));
            put_byte(&counts, (int)(len >> 8));
            put_byte(&counts, (int)len);
        }
    }
    if (percent(5))
        counts.at[draw(counts.len)] += (uint8_t)(percent(50) ? 1 : -1);
    put_words(to, "{\"id\":\"");
    put_hex(to, r->fixed, 32);
    put_words(to, "\",\"pubkey\":\"");
    put_hex(to, r->fixed + 32, 32);
    put_words(to, "\",\"sig\":\"");
    put_hex(to, r->fixed + 64, 64);
    put_words(to, "\",\"created_at\":");
    put_number(to, r->created_at);
    put_words(to, ",\"nson\":\"");
    put_hex(to, &(uint8_t){(uint8_t)(2 * counts.len)}, 1);
    put_hex(to, counts.at, counts.len);
    put_words(to, "\",\"kind\":");
    put_words(to, kind);
    put_words(to, ",\"content\":\"");
    put_escaped(to, r->content, 0);
    put_words(to, "\",\"tags\":");
    put_tags(to, r, 0);
    put_byte(to, '}');
}

static void put_field(input *to, const record *r, int field)
{
    static const char *const names[] = {"\"id\":", "\"pubkey\":", "\"sig\":", "\"created_at\":", "\"kind\":", "\"content\":", "\"tags\":"};
    static const char *const ignored[] = {"\"nson\":\"0401\"", "\"x\":[[[[[[[[[[[[[[[[]]]]]]]]]]]]]]]]", "\"x\":[[[[[[[[[[[[[[[[[]]]]]]]]]]]]]]]]]",
                                          "\"\\u0041\":{\"a\":[1,-2.5e+3,true,null]}", "\"x\":\"\\ud83d\\udc42\"", "\"x\":\"\\ud83d\"", "\"x\":01"};
    static const size_t from[] = {0, 32, 64}, len[] = {32, 32, 64};
    put_space(to, 1);
    if (field > 6) {
        put_words(to, ignored[draw(percent(70) ? 2 : sizeof ignored / sizeof *ignored)]);
        return;
    }
    put_words(to, names[field]);
    put_space(to, 1);
    if (field < 3) {
        put_byte(to, '"');
        put_hex(to, r->fixed + from[field], len[field]);
        put_byte(to, '"');
    } else if (field < 5) {
        put_number(to, field == 3 ? r->created_at : r->kind);
    } else if (field == 5) {
        put_byte(to, '"');
        put_escaped(to, r->content, 1);
        put_byte(to, '"');
    } else {
        put_tags(to, r, 1);
    }
    put_space(to, 1);
}

static void put_json(input *to, const record *r)
{
    int order[8] = {0, 1, 2, 3, 4, 5, 6, 7}, fields = 7 + percent(40);
    for (int i = fields - 1; i > 0; i--) {
        int j = (int)draw((uint64_t)i + 1), kept = order[i];
        order[i] = order[j];
        order[j] = kept;
    }
    if (percent(3))
        fields--;
    if (percent(3))
        order[0] = order[1];
    put_space(to, 1);
    put_byte(to, '{');
    for (int i = 0; i < fields; i++) {
        if (i)
            put_byte(to, ',');
        put_field(to, r, order[i]);
    }
    put_byte(to, '}');
    put_space(to, 1);
}

/* Damage */

static void remove_at(input *to, size_t at, size_t len)
{
    memmove(to->at + at, to->at + at + len, to->len - at - len);
    to->len -= len;
}

static void insert_at(input *to, size_t at, const uint8_t *part, size_t len)
{
    if (len > LONGEST - to->len)
        return;
    memmove(to->at + at + len, to->at + at, to->len - at);
    memmove(to->at + at, part, len);
    to->len += len;
}

static void damage(input *to)
{
    static const uint8_t telling[] = {0, 1, 0x7f, 0x80, 0xff, '"', '\\', ',', '[', ']', '{', '}', ':', '0', '9', 'a',
                                      ' ', '\n', '='};
    uint8_t byte = percent(60) ? telling[draw(sizeof telling)] : (uint8_t)draw(256), part[64];
    size_t at = to->len ? draw(to->len) : 0, len = to->len ? 1 + draw(to->len - at < 64 ? to->len - at : 64) : 0;
    switch (to->len ? draw(8) : 1) {
    case 0: to->at[at] ^= (uint8_t)(1 << draw(8)); break;
    case 1: insert_at(to, at, &byte, 1); break;
    case 2: remove_at(to, at, 1); break;
    case 3: to->len = at; break;
    case 4: memcpy(part, to->at + at, len); insert_at(to, draw(to->len + 1), part, len); break;
    case 5: remove_at(to, at, len); break;
    case 6: put_byte(to, byte); break;
    default: to->at[at] = byte; break;
    }
}

/* An input near the limit of 65,536 bytes: one long content. */
static void make_long(record *r)
{
    static uint8_t filled[66000];
    memset(filled, percent(50) ? 'x' : '"', sizeof filled);
    make_record(r);
    r->tags = 0;
    r->content = (text){filled, 65536 - 300 + draw(330)};
}

/* Pointer forms */

static void set_word(input *to, size_t at, uint64_t word)
{
    for (int i = 0; i < 8 && at < to->len; i++, at++, word >>= 8)
        to->at[at] = (uint8_t)word;
}

enum { DATA_AT = 72, BEHIND = 96 };

/* The header for as many bytes as there are. */
static void set_header(input *to, uint64_t version)
{
    set_word(to, 0, version << 32 | (to->len - BEHIND));
}

/* A piece at the next multiple of 8, now and then one further on; what stands in front of it is not always zero. Gives
 * the pointer to it. */
static uint64_t put_piece(input *to, const uint8_t *at, size_t len)
{
    for (uint64_t gap = percent(5) ? 8 : 0; to->len % 8 || gap; gap -= gap > 0)
        put_byte(to, percent(90) ? 0 : 0xff);
    uint64_t offset = to->len - DATA_AT;
    put(to, at, len);
    return offset << 32 | len;
}

static uint64_t put_table(input *to, const uint64_t *pointers, int count)
{
    static input table;
    table.len = 8 * (size_t)count;
    for (int i = 0; i < count; i++)
        set_word(&table, 8 * (size_t)i, pointers[i]);
    return put_piece(to, table.at, table.len);
}

/* So many tags that are one table, of so many texts that are one: as many as may be, or one more, and more bytes than
 * could be gone through one after the other. */
static void put_shared(input *to, uint64_t *tags)
{
    static const uint64_t counts[] = {1, 2, 255, 256, 999, 1000, 1001};
    uint64_t texts = counts[draw(4)], count = counts[draw(7)], len = draw(4) ? draw(300) : draw(54000);
    uint64_t of_tags = to->len - DATA_AT, of_texts = of_tags + 8 * count, of_text = of_texts + 8 * texts;
    for (uint64_t i = 0; i < count + texts; i++)
        put(to, (uint8_t[8]){0}, 8);
    for (uint64_t i = 0; i < count; i++)
        set_word(to, DATA_AT + of_tags + 8 * i, of_texts << 32 | 8 * texts);
    for (uint64_t i = 0; i < texts; i++)
        set_word(to, DATA_AT + of_texts + 8 * i, of_text << 32 | len);
    for (uint64_t i = 0; i < len; i++)
        put_byte(to, "ab\xc3\xa9"[i % 4]);
    *tags = of_tags << 32 | 8 * count;
}

/* A record as a pointer form, from the texts up to the tables; in some each text that was there before is shared. */
static void put_pointers(input *to, const record *r)
{
    static const int64_t times[] = {0, 1, 999, 1000, 1720000000001, -1, -1000, INT64_MIN, INT64_MAX, INT64_MAX - 807};
    uint64_t tags[TAGS], texts[TEXTS], version = percent(70) ? 0 : percent(95) ? 1 : draw(65536), shared = 0;
    int shares = percent(50);
    for (int i = 0; i < DATA_AT; i++)
        put_byte(to, 0);
    memcpy(to->at + 8, r->fixed + 32, 32);
    set_word(to, 40, r->kind);
    set_word(to, 48, percent(90) ? 1000 * r->created_at : (uint64_t)times[draw(sizeof times / sizeof *times)]);
    set_word(to, 56, put_piece(to, r->content.at, r->content.len));
    for (int i = 0; i < r->tags; i++) {
        for (int j = 0; j < r->texts_in[i]; j++) {
            texts[j] = shares && shared && percent(40) ? shared : put_piece(to, r->texts[i][j].at, r->texts[i][j].len);
            shared = percent(50) ? texts[j] : shared;
        }
        tags[i] = i && shares && percent(20) ? tags[draw((uint64_t)i)] : put_table(to, texts, r->texts_in[i]);
    }
    uint64_t of_tags = put_table(to, tags, r->tags);
    if (percent(1) && to->len < 1000) {
        put_piece(to, to->at, 0); /* to a multiple of 8 */
        put_shared(to, &of_tags);
    }
    set_word(to, 64, of_tags);
    /* one word, or two, that point elsewhere */
    for (uint64_t i = percent(30) ? 1 + draw(2) : 0; i && to->len >= DATA_AT + 8; i--) {
        size_t words = (to->len - DATA_AT) / 8, at = percent(20) ? 56 + 8 * draw(2) : DATA_AT + 8 * draw(words);
        uint64_t offset = percent(90) ? 8 * draw(words + 2) : draw(8 * words), len = draw(3) ? 8 * draw(4) : draw(40);
        set_word(to, at, offset << 32 | len);
    }
    put(to, r->fixed, 32);
    put(to, r->fixed + 64, 64);
    set_header(to, version);
}

static void spell(input *to, const record *r)
{
    to->len = 0;
    uint64_t sort = draw(13);
    switch (sort) {
    case 0: case 1: put_nson(to, r); break;
    case 2: case 3: put_json(to, r); break;
    case 4: case 5: put_string(to, r); break;
    case 6: put_versioned(to, r); break;
    case 7: case 8: put_pointers(to, r); break;
    default: put_packed(to, r); break;
    }
    if (percent(60))
        for (uint64_t i = 1 + draw(3); i; i--)
            damage(to);
    /* a pointer form of another length has mostly a header for that */
    if ((sort == 7 || sort == 8) && to->len >= DATA_AT + BEHIND && percent(80))
        set_header(to, to->at[4]);
}

void generate(input *one, input *other)
{
    static record r;
    if (draw(2000) == 0) {
        make_long(&r);
    } else {
        make_record(&r);
    }
    if (percent(1)) {
        one->len = 0;
        for (uint64_t i = draw(300); i; i--)
            put_byte(one, (int)draw(256));
    } else {
        spell(one, &r);
    }
    /* the same record a little later, or with another id */
    if (percent(50))
        r.created_at += draw(3);
    if (percent(50))
        r.fixed[draw(32)] ^= 1;
    other->len = 0;
    put_packed(other, &r);
    if (percent(10))
        damage(other);
}
