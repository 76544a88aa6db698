/* Nanoseconds for a call of each entry on its records: the library as linked, host/reference by its shared library
 * (first word), a plain memcpy, what the shared library of host/peers.cc has (second word, `-`: none), and a program
 * that takes `--bench ENTRY FILE N` (third word, may be missing; NAMES, a sed script, turns an entry's name into its
 * own). The JSON parsers take the text that kez_json_read takes, and only parse it. `utf8` is kez_notepack_read, and
 * `utf8_json` kez_json_read, of records that are nearly all content; beside the first stands simdjson's check of UTF-8
 * on the content alone, and the reference's check is Rust's own, from_utf8. A hash is its three entries, one after the
 * other; beside it stand plain C, OpenSSL, and OpenSSL without the processor's SHA instructions, in a process of its
 * own. The table is gone through several times and the best figure of each kept, so that a busy moment of the machine
 * does not count. It goes to standard output, and its figures line by line to target/host/bench.tsv. */
#define _GNU_SOURCE
#include "kezubimoryu.h"
#include "plain_sha256.h"

#include <dlfcn.h>
#include <stdio.h>
#include <stdlib.h>
#include <string.h>
#include <time.h>

enum { PASSES = 12, ROUNDS = 3, ROUND_NS = 1500000, ROOM = KEZ_ELEMENTS_MOST };

/* Records */

/* The forms that an entry can take. */
typedef enum { PACKED, VERSIONED, NSON, STRING, CONTENT, POINTER, FORMS } form;

/* A table of records. */
typedef struct {
    uint8_t slots[KEZ_SLOTS_BYTES], cells[KEZ_CELLS_BYTES];
} table;

typedef struct {
    const char *name;
    const char *only; /* the entries that it is for: their names start so; NULL: all but those of tables, hashes, utf8 */
    uint64_t refusal; /* what they refuse it with */
    table *table;     /* that it is offered to, if it is one for those */
    uint64_t value;   /* what that offer is answered */
    uint8_t packed[69632], versioned[69632], text[69632], string[94208], pointer[69632];
    size_t packed_len, text_len, string_len, content_at, content_len, pointer_len;
} __attribute__((aligned(4096))) record;

static record records[35];

static void put(record *r, const void *part, size_t len)
{
    memcpy(r->packed + r->packed_len, part, len);
    r->packed_len += len;
}

static void put_varint(record *r, uint64_t n)
{
    for (; n >= 0x80; n >>= 7)
        put(r, &(uint8_t){(uint8_t)(n | 0x80)}, 1);
    put(r, &(uint8_t){(uint8_t)n}, 1);
}

static const char relay[] = "wss://relay.example.com";
enum { TAG_BYTES = 1 + 2 + 33 + sizeof relay };

/* A strict record of `size` bytes: `tags` tags of a name, 32 raw bytes and a relay, and a content that
 * repeats `text`. */
static void make(record *r, const char *name, size_t size, size_t tags, const char *text)
{
    r->name = name;
    r->packed_len = 128;
    for (size_t i = 0; i < 128; i++)
        r->packed[i] = (uint8_t)(i * 37 + 11);
    put_varint(r, 1720000000);
    put_varint(r, 10002);
    /* the number of tags is one byte, the content's length one to three */
    size_t content = size - r->packed_len - 1 - tags * TAG_BYTES;
    content -= content < 130 ? 1 : content < 16386 ? 2 : 3;
    put_varint(r, content);
    r->content_at = r->packed_len;
    r->content_len = content;
    size_t unit = strlen(text), whole = content / unit * unit;
    for (size_t at = 0; at < whole; at += unit)
        put(r, text, unit);
    for (size_t at = whole; at < content; at++)
        put(r, ".", 1);
    put_varint(r, tags);
    for (size_t i = 0; i < tags; i++) {
        put(r, "\x03\x02""e\x41", 4);
        put(r, r->packed + i, 32);
        put_varint(r, 2 * (sizeof relay - 1));
        put(r, relay, sizeof relay - 1);
    }
}

/* The start of a strict record without content, up to its so many tags. */
static void start(record *r, const char *name, size_t tags)
{
    make(r, name, 300, 0, ".");
    r->packed_len = 128;
    put_varint(r, 1720000000);
    put_varint(r, 10002);
    put_varint(r, 0);
    put_varint(r, tags);
}

/* A strict record without content, of so many tags of a name and 32 raw bytes. */
static void make_hex(record *r, const char *name, size_t tags)
{
    start(r, name, tags);
    for (size_t i = 0; i < tags; i++) {
        put(r, "\x02\x02p\x41", 4);
        put(r, r->packed + i % 96, 32);
    }
}

/* A strict record without content, as full of elements as one can be: 253 tags of 255 empty texts. */
static void make_empty_texts(record *r, const char *name)
{
    start(r, name, 253);
    for (size_t i = 0; i < 253; i++) {
        put_varint(r, 255);
        memset(r->packed + r->packed_len, 0, 255);
        r->packed_len += 255;
    }
}

/* A record of `size` bytes that is not strict: one tag more has hex digits as text. */
static void make_loose(record *r, const char *name, size_t size, size_t tags, const char *text)
{
    make(r, name, size - 4, tags, text);
    r->packed[r->packed_len - tags * TAG_BYTES - 1]++;
    put(r, "\x01\x04""ab", 4);
}

/* The string form of the bytes as they are. */
static void spell(record *r)
{
    static const char alphabet[] = "ABCDEFGHIJKLMNOPQRSTUVWXYZabcdefghijklmnopqrstuvwxyz0123456789+/";
    memcpy(r->string, "notepack_", 9);
    r->string_len = 9;
    for (size_t bit = 0; bit < 8 * r->packed_len; bit += 6) {
        unsigned next = bit / 8 + 1 < r->packed_len ? r->packed[bit / 8 + 1] : 0;
        unsigned two = (unsigned)r->packed[bit / 8] << 8 | next;
        r->string[r->string_len++] = (uint8_t)alphabet[two >> (10 - bit % 8) & 63];
    }
}

/* A strict record of `size` bytes for a table: of this kind, with a label of so many times x and then its number. Its
 * author, or its id, is that number too. */
static void make_kept(record *r, size_t size, uint64_t time, uint64_t kind, size_t label, uint8_t n, int author)
{
    r->packed_len = 128;
    for (size_t i = 0; i < 128; i++)
        r->packed[i] = (uint8_t)(i * 37 + 11);
    r->packed[author ? 32 : 0] = n;
    put_varint(r, time);
    put_varint(r, kind);
    /* the content's length is one byte or two, the label's word too */
    size_t rest = r->packed_len + 1 + 1 + 2 + (label + 2 < 64 ? 1 : 2) + label + 2, content = size - rest;
    content -= content < 129 ? 1 : 2;
    put_varint(r, content);
    for (size_t i = 0; i < content; i++)
        put(r, "A map for the left ear. " + i % 24, 1);
    put_varint(r, 1);
    put(r, "\x02\x02""d", 3);
    put_varint(r, 2 * (label + 2));
    for (size_t i = 0; i < label; i++)
        put(r, "x", 1);
    put(r, (uint8_t[]){(uint8_t)('A' + n / 8), (uint8_t)('A' + n % 8)}, 2);
}

/* Keeps the record in slot n. */
static void keep(table *t, size_t n, const record *r)
{
    uint8_t *slot = t->slots + KEZ_SLOT_BYTES * n;
    slot[0] = 1;
    slot[8] = (uint8_t)r->packed_len;
    slot[9] = (uint8_t)(r->packed_len >> 8);
    memcpy(t->cells + KEZ_CELL_BYTES * n, r->packed, r->packed_len);
}

/* Tables of 64 records: each with an author of its own; one author and one kind, with labels, which are short, or long
 * and different only at their ends; without a key. */
static table authors, labels, long_labels, ids, empty;

enum { KEPT_TIME = 1720000000, KEPT = 300, LONG = 1000, SHORT_LABEL = 12, LONG_LABEL = 800 };

static void make_tables(void)
{
    static record r;
    for (uint8_t n = 0; n < KEZ_SLOTS; n++) {
        make_kept(&r, KEPT, KEPT_TIME, 10002, SHORT_LABEL, n, 1);
        keep(&authors, n, &r);
        make_kept(&r, KEPT, KEPT_TIME, 30000, SHORT_LABEL, n, 0);
        keep(&labels, n, &r);
        make_kept(&r, LONG, KEPT_TIME, 30000, LONG_LABEL, n, 0);
        keep(&long_labels, n, &r);
        make_kept(&r, KEPT, KEPT_TIME, 1, SHORT_LABEL, n, 0);
        keep(&ids, n, &r);
    }
}

/* Entries */

typedef enum {
    READS, ASKS, PACKS, WRITES, COUNTS, SHOWS, LISTS, BOTH, RIVALS, OPENS, OFFERS, VIEWS, EMPTIES, HASHES, PLAIN,
    PARSES, COPIES
} shape;

typedef kez_answer reads(const uint8_t *, size_t, uint64_t, uint64_t *, uint64_t *, uint64_t *, uint64_t *,
                         uint64_t *);
typedef kez_answer asks(const uint8_t *, size_t, uint64_t);
typedef kez_answer packs(const uint8_t *, size_t, uint64_t, uint8_t *, size_t);
typedef kez_answer writes(const uint8_t *, size_t, uint8_t *, size_t);
typedef kez_answer counts(const uint8_t *, size_t, uint64_t, uint64_t);
typedef kez_answer shows(const uint8_t *, size_t, uint64_t, uint64_t, uint64_t, uint64_t *, uint64_t *, uint64_t *);
typedef kez_answer lists(const uint8_t *, size_t, uint64_t, uint64_t, uint8_t *, size_t);
typedef kez_answer both(const uint8_t *, size_t, uint8_t *, size_t, uint8_t *, size_t, uint64_t *);
typedef kez_answer rivals(const uint8_t *, size_t, uint64_t, const uint8_t *, size_t, uint64_t);
typedef kez_answer opens(const uint8_t *, size_t, uint64_t *, uint64_t *, uint64_t *, uint64_t *, uint64_t *,
                         uint64_t *);
typedef kez_answer offers(uint8_t *, size_t, uint8_t *, size_t, const uint8_t *, size_t, uint64_t);
typedef kez_answer views(const uint8_t *, size_t, const uint8_t *, size_t, uint64_t, uint64_t *, uint64_t *);
typedef kez_answer empties(uint8_t *, size_t, uint8_t *, size_t);
typedef void plain(const uint8_t *, size_t, uint8_t *);
typedef int parses(const uint8_t *, size_t);

/* The three entries of a hash. */
typedef struct {
    kez_answer (*start)(uint8_t *, size_t);
    kez_answer (*add)(uint8_t *, size_t, const uint8_t *, size_t);
    writes *finish;
} hashes;

static hashes library_hash = {kez_sha256_start, kez_sha256_add, kez_sha256_finish}, reference_hash;

typedef struct {
    const char *name, *symbol;
    shape shape;
    void *function;
    form takes;
} entry;

static const entry entries[] = {
    {"read", "kez_notepack_read", READS, kez_notepack_read, PACKED},
    {"strict", "kez_notepack_is_strict", ASKS, kez_notepack_is_strict, PACKED},
    {"pack", "kez_notepack_write", PACKS, kez_notepack_write, PACKED},
    {"tag_len", "kez_notepack_tag_len", COUNTS, kez_notepack_tag_len, PACKED},
    {"element", "kez_notepack_element", SHOWS, kez_notepack_element, PACKED},
    {"elements", "kez_notepack_elements", LISTS, kez_notepack_elements, PACKED},
    {"canonical", "kez_canonical_write", PACKS, kez_canonical_write, PACKED},
    {"nson_write", "kez_nson_write", PACKS, kez_nson_write, PACKED},
    {"nson_read", "kez_nson_read", WRITES, kez_nson_read, NSON},
    {"json_read", "kez_json_read", WRITES, kez_json_read, NSON},
    {"read_both", "kez_read_both", BOTH, kez_read_both, NSON},
    {"rivals", "kez_rivals", RIVALS, kez_rivals, PACKED},
    {"string_write", "kez_notepack_string_write", PACKS, kez_notepack_string_write, PACKED},
    {"string_read", "kez_notepack_string_read", WRITES, kez_notepack_string_read, STRING},
    {"table_offer", "kez_table_offer", OFFERS, kez_table_offer, PACKED},
    {"table_slot", "kez_table_slot", VIEWS, kez_table_slot, PACKED},
    {"table_empty", "kez_table_empty", EMPTIES, kez_table_empty, PACKED},
    {"sha256", "kez_sha256_add", HASHES, &library_hash, PACKED},
    {"id_belongs", "kez_id_belongs", ASKS, kez_id_belongs, PACKED},
    {"to_versioned", "kez_versioned_from_bare", WRITES, kez_versioned_from_bare, PACKED},
    {"to_bare", "kez_bare_from_versioned", WRITES, kez_bare_from_versioned, VERSIONED},
    {"pointer_read", "kez_pointer_read", OPENS, kez_pointer_read, POINTER},
    {"pointer_convert", "kez_pointer_convert", WRITES, kez_pointer_convert, POINTER},
    {"pointer_write", "kez_pointer_write", PACKS, kez_pointer_write, PACKED},
    {"utf8", "kez_notepack_read", READS, kez_notepack_read, PACKED},
    {"utf8_json", "kez_json_read", WRITES, kez_json_read, NSON},
};

/* Who is measured. Some stand beside one entry alone; those that have a symbol are in the peers' library. */
enum { LIBRARY, REFERENCE, PLAIN_C, OPENSSL, NO_SHA, RAPIDJSON, SIMDJSON, JANSSON, SIMD_UTF8, MEMCPY, PROGRAM, ALL };
static const struct {
    const char *name, *beside, *symbol;
} others[ALL] = {
    [LIBRARY] = {"library", NULL, NULL},
    [REFERENCE] = {"reference", NULL, NULL},
    [PLAIN_C] = {"plain C", "sha256", NULL},
    [OPENSSL] = {"OpenSSL", "sha256", "peer_openssl"},
    [NO_SHA] = {"no SHA-NI", "sha256", NULL},
    [RAPIDJSON] = {"RapidJSON", "json_read", "peer_rapidjson"},
    [SIMDJSON] = {"simdjson", "json_read", "peer_simdjson"},
    [JANSSON] = {"Jansson", "json_read", "peer_jansson"},
    [SIMD_UTF8] = {"simd utf8", "utf8", "peer_simdjson_utf8"},
    [MEMCPY] = {"memcpy", NULL, NULL},
    [PROGRAM] = {"program", NULL, NULL},
};

static void *reference_entry(const entry *e, void *reference)
{
    if (e->shape != HASHES)
        return dlsym(reference, e->symbol);
    *(void **)&reference_hash.start = dlsym(reference, "kez_sha256_start");
    *(void **)&reference_hash.add = dlsym(reference, "kez_sha256_add");
    *(void **)&reference_hash.finish = dlsym(reference, "kez_sha256_finish");
    return reference_hash.start && reference_hash.add && reference_hash.finish ? &reference_hash : NULL;
}

/* The entry of someone else; without a function if there is none. */
static entry by(const entry *e, int who, void *reference, void *peers)
{
    entry o = *e;
    int is_beside = others[who].beside && !strcmp(e->name, others[who].beside);
    if (who == MEMCPY) {
        o.shape = COPIES;
    } else if (who == REFERENCE) {
        o.function = reference_entry(e, reference);
    } else if (who == PLAIN_C) {
        o.shape = PLAIN;
        o.function = is_beside ? plain_sha256 : NULL;
    } else if (who != LIBRARY) {
        o.shape = PARSES;
        o.takes = who == SIMD_UTF8 ? CONTENT : e->takes;
        o.function = peers && is_beside && others[who].symbol ? dlsym(peers, others[who].symbol) : NULL;
    }
    return o;
}

/* Times */

/* not at the place in a page where the records stand, which would slow a copy down */
static uint8_t area[ROOM + 4096] __attribute__((aligned(4096)));
static uint8_t *const out = area + 2112;
static uint64_t numbers[6];

/* The table that is lent, and the record that it is lent with. */
static table lent;
static const record *offered;

/* One offer. What it stored is undone, which takes a moment beside the call. */
static uint64_t offer(offers *f, const uint8_t *in, size_t len)
{
    kez_answer a = f(lent.slots, sizeof lent.slots, lent.cells, sizeof lent.cells, in, len, KEZ_BARE);
    if (a.refusal || a.value != offered->value)
        return a.refusal ? a.refusal : 1000 + a.value;
    if (a.value == KEZ_TABLE_NEW || a.value == KEZ_TABLE_REPLACED) {
        size_t n = a.value == KEZ_TABLE_NEW ? 0 : KEZ_SLOTS - 1;
        memcpy(lent.slots + KEZ_SLOT_BYTES * n, offered->table->slots + KEZ_SLOT_BYTES * n, KEZ_SLOT_BYTES);
        memcpy(lent.cells + KEZ_CELL_BYTES * n, offered->table->cells + KEZ_CELL_BYTES * n, KEZ_CELL_BYTES);
    }
    return 0;
}

/* The digest of a message that comes in one piece. */
static uint64_t hash(const hashes *h, const uint8_t *in, size_t len)
{
    uint8_t state[KEZ_SHA256_STATE];
    return h->start(state, sizeof state).refusal + h->add(state, sizeof state, in, len).refusal +
           h->finish(state, sizeof state, out, KEZ_SHA256_DIGEST).refusal;
}

static double now(void)
{
    struct timespec t;
    clock_gettime(CLOCK_MONOTONIC, &t);
    return 1e9 * (double)t.tv_sec + (double)t.tv_nsec;
}

/* One call: what it refuses with. */
static uint64_t call(const entry *e, const uint8_t *in, size_t len)
{
    uint64_t *n = numbers;
    switch (e->shape) {
    case READS: return ((reads *)e->function)(in, len, KEZ_BARE, n, n + 1, n + 2, n + 3, n + 4).refusal;
    case ASKS: return ((asks *)e->function)(in, len, KEZ_BARE).refusal;
    case PACKS: return ((packs *)e->function)(in, len, KEZ_BARE, out, (size_t)ROOM).refusal;
    case WRITES: return ((writes *)e->function)(in, len, out, (size_t)ROOM).refusal;
    case COUNTS: return ((counts *)e->function)(in, len, KEZ_BARE, 1).refusal;
    case SHOWS: return ((shows *)e->function)(in, len, KEZ_BARE, 1, 1, n, n + 1, n + 2).refusal;
    case LISTS: return ((lists *)e->function)(in, len, KEZ_BARE, 0, out, (size_t)ROOM).refusal;
    case BOTH:
        return ((both *)e->function)(in, len, out, (size_t)ROOM / 2, out + ROOM / 2, (size_t)ROOM / 2, n).refusal;
    case RIVALS: return ((rivals *)e->function)(in, len, KEZ_BARE, in, len, KEZ_BARE).refusal;
    case OPENS: return ((opens *)e->function)(in, len, n, n + 1, n + 2, n + 3, n + 4, n + 5).refusal;
    case OFFERS: return offer((offers *)e->function, in, len);
    case VIEWS:
        return ((views *)e->function)(lent.slots, sizeof lent.slots, lent.cells, sizeof lent.cells, 63, n, n + 1)
            .refusal;
    case EMPTIES: return ((empties *)e->function)(lent.slots, sizeof lent.slots, lent.cells, sizeof lent.cells).refusal;
    case HASHES: return hash(e->function, in, len);
    case PLAIN: ((plain *)e->function)(in, len, out); return 0;
    case PARSES: return !((parses *)e->function)(in, len);
    default: memcpy(out, in, len); return 0;
    }
}

/* How many of so many calls refuse with another number, so that none is left out. */
static uint64_t run(const entry *e, const uint8_t *in, size_t len, uint64_t refusal, uint64_t calls)
{
    uint64_t sum = 0;
    for (uint64_t i = 0; i < calls; i++) {
        sum += call(e, in, len) != refusal;
        __asm__ volatile("" : : "r"(out) : "memory");
    }
    return sum;
}

/* Nanoseconds for a call in one round; `calls` grows until a round is long enough. */
static double round_of(const entry *e, const uint8_t *in, size_t len, uint64_t refusal, uint64_t *calls)
{
    for (;;) {
        double start = now();
        if (run(e, in, len, refusal, *calls)) {
            printf("%s answers a record of %zu bytes with another refusal than %d\n", e->name, len, (int)refusal);
            exit(1);
        }
        double took = now() - start;
        if (took >= ROUND_NS)
            return took / (double)*calls;
        *calls *= 2;
    }
}

static void keep_best(double *best, double ns)
{
    if (*best == 0 || ns < *best)
        *best = ns;
}

static const char file[] = "target/host/record";

/* Nanoseconds as a command tells them, which finds the bytes in the file; 0 if it tells none. */
static double by_command(const char *command, const uint8_t *in, size_t len)
{
    double ns = 0;
    FILE *f = fopen(file, "wb");
    if (!f || fwrite(in, 1, len, f) != len || fclose(f))
        return 0;
    FILE *said = popen(command, "r");
    if (!said || fscanf(said, "%lf", &ns) != 1)
        ns = 0;
    if (said)
        pclose(said);
    return ns;
}

static double by_program(const char *program, const char *kind, const uint8_t *in, size_t len, uint64_t calls)
{
    char command[4096];
    snprintf(command, sizeof command, "'%s' --bench \"$(echo %s | sed \"$NAMES\")\" %s %llu 2> /dev/null", program,
             kind, file, (unsigned long long)calls);
    return by_command(command, in, len);
}

/* This program again, where OpenSSL has read as it was loaded that there are no SHA instructions. */
static const char *self, *peers_file;

static double without_sha(const uint8_t *in, size_t len)
{
    char command[4096];
    snprintf(command, sizeof command, "OPENSSL_ia32cap=:~0x20000000 '%s' --openssl '%s' 2> /dev/null", self,
             peers_file);
    return by_command(command, in, len);
}

static int only_openssl(const char *library)
{
    static uint8_t in[sizeof records->packed];
    void *peers = dlopen(library, RTLD_NOW | RTLD_LOCAL);
    entry e = {"sha256", NULL, PARSES, peers ? dlsym(peers, others[OPENSSL].symbol) : NULL, PACKED};
    FILE *f = fopen(file, "rb");
    size_t len = f ? fread(in, 1, sizeof in, f) : 0;
    uint64_t calls = 16;
    double best = 0;
    if (!e.function || !len)
        return 1;
    for (int i = 0; i < ROUNDS; i++)
        keep_best(&best, round_of(&e, in, len, 0, &calls));
    printf("%.1f\n", best);
    return 0;
}

/* The figures of one entry on one record; 0 where there is none. */
typedef struct {
    size_t len;
    double ns[ALL];
} row;

/* One that was told. */
static void keep_figure(double *best, double ns)
{
    if (ns > 0)
        keep_best(best, ns);
}

static void measure(row *best, const entry *e, const record *r, void *reference, void *peers, const char *program)
{
    const uint8_t *const forms[FORMS] = {r->packed, r->versioned, r->text, r->string, r->packed + r->content_at,
                                         r->pointer};
    const uint8_t *const in = forms[e->takes];
    const size_t lengths[FORMS] = {r->packed_len, r->packed_len + 1, r->text_len, r->string_len, r->content_len,
                                   r->pointer_len};
    uint64_t calls = 16;
    best->len = lengths[e->takes];
    offered = r;
    lent = r->table ? *r->table : empty;
    for (int who = 0; who < PROGRAM; who++) {
        entry o = by(e, who, reference, peers);
        /* who only checks UTF-8 has no other word than no */
        uint64_t refusal = who == SIMD_UTF8 ? r->refusal != 0 : o.shape >= HASHES ? 0 : r->refusal;
        calls = 16;
        for (int i = 0; i < ROUNDS && o.function; i++)
            keep_best(&best->ns[who], round_of(&o, forms[o.takes], lengths[o.takes], refusal, &calls));
    }
    if (best->ns[OPENSSL] > 0)
        keep_figure(&best->ns[NO_SHA], without_sha(in, best->len));
    if (program)
        keep_figure(&best->ns[PROGRAM], by_program(program, e->name, in, best->len, calls));
}

/* All elements are listed of the small, the middle and the fullest record: content does not matter. */
static int is_for(const record *r, const entry *e)
{
    if (!r->only && (e->shape >= OFFERS || !strncmp(e->name, "utf8", 4)))
        return 0;
    if (r->only)
        return !strncmp(r->only, e->name, strlen(r->only));
    return e->shape != LISTS || r->packed_len <= 4000;
}

enum { ENTRIES = sizeof entries / sizeof *entries, RECORDS = sizeof records / sizeof *records };

static void print(row rows[ENTRIES][RECORDS])
{
    FILE *figures = fopen("target/host/bench.tsv", "w");
    int shown[ALL] = {0};
    for (int i = 0; i < ENTRIES; i++)
        for (int j = 0; j < RECORDS; j++)
            for (int who = 0; who < ALL; who++)
                shown[who] |= rows[i][j].ns[who] > 0;
    printf("nanoseconds for a call\n%-15s  %-12s %6s", "entry", "record", "bytes");
    for (int who = 0; who < ALL; who++)
        if (shown[who])
            printf("  %10s", others[who].name);
    printf("  %s\n", "library : reference, plain C");
    if (figures)
        fprintf(figures, "entry\trecord\tbytes\tby\tns\n");
    for (int i = 0; i < ENTRIES; i++)
        for (int j = 0; j < RECORDS; j++) {
            const row *b = &rows[i][j];
            if (!b->len)
                continue;
            printf("%-15s  %-12s %6zu", entries[i].name, records[j].name, b->len);
            for (int who = 0; who < ALL; who++) {
                if (b->ns[who] > 0)
                    printf("  %10.1f", b->ns[who]);
                else if (shown[who])
                    printf("  %10s", "-");
                if (figures && b->ns[who] > 0)
                    fprintf(figures, "%s\t%s\t%zu\t%s\t%.1f\n", entries[i].name, records[j].name, b->len,
                            others[who].name, b->ns[who]);
            }
            printf("  %.2f", b->ns[LIBRARY] / b->ns[REFERENCE]);
            if (b->ns[PLAIN_C] > 0)
                printf(", %.2f", b->ns[LIBRARY] / b->ns[PLAIN_C]);
            printf("\n");
        }
    if (figures)
        fclose(figures);
}

/* Records for one entry, or for those of string forms: not strict, and refused as late as can be. */
static void make_special(void)
{
    static const char large[] = "Threshold 42 dB at 1000 Hz, comfort 61 dB; the next visit is in spring.\n";
    make(&records[4], "plain", 60000, 0, "Threshold 42 dB at 1000 Hz, comfort 61 dB; the next visit is in spring. ");
    make(&records[5], "lines of 80", 60000, 0,
         "Threshold 42 dB at 1000 Hz, comfort 61 dB; the next visit is in spring, at ten.\n");
    make_hex(&records[6], "hex in tags", 1000);
    for (int j = 4; j < 7; j++)
        records[j].only = "canonical";
    make_empty_texts(&records[7], "empty texts");
    records[7].only = "elements";
    make_loose(&records[8], "small loose", 300, 2, "A map for the left ear. ");
    make_loose(&records[9], "middle loose", 4000, 16, "Threshold 42 dB at 1000 Hz, \"comfort\" 61 dB.\n");
    make_loose(&records[10], "large loose", 60000, 16, large);
    make(&records[11], "refused late", 59999, 16, large);
    put(&records[11], "", 1);
    records[11].refusal = 10;
    for (int j = 8; j < 12; j++)
        records[j].only = "string_";
    make(&records[12], "last outside", 60000, 16, large);
    records[12].refusal = 21;
    records[12].only = "string_read";
}

/* What is offered to the tables, from records[first] on: the record of their last slot, later or earlier or as it is,
 * or another one. */
static void make_offered(int first)
{
    static const struct {
        const char *name;
        table *table;
        uint64_t refusal, value;
        int later, kind;
        const char *only;
    } all[] = {
        {"64 authors", &authors, 0, KEZ_TABLE_HELD, 0, 10002, "table_"},
        {"64 labels", &labels, 0, KEZ_TABLE_HELD, 0, 30000, "table_offer"},
        {"long labels", &long_labels, 0, KEZ_TABLE_HELD, 0, 30000, "table_"},
        {"64 ids", &ids, 0, KEZ_TABLE_HELD, 0, 1, "table_offer"},
        {"replaces", &labels, 0, KEZ_TABLE_REPLACED, 1, 30000, "table_offer"},
        {"loses", &labels, 0, KEZ_TABLE_LOSES, -1, 30000, "table_offer"},
        {"not kept", &labels, 0, KEZ_TABLE_NOT_KEPT, 0, 20000, "table_offer"},
        {"no slot", &labels, 23, 0, 0, 30001, "table_offer"},
        {"the first", &empty, 0, KEZ_TABLE_NEW, 0, 30000, "table_offer"},
    };
    for (size_t i = 0; i < sizeof all / sizeof *all; i++) {
        record *r = &records[first + (int)i];
        int is_long = all[i].table == &long_labels;
        make_kept(r, is_long ? LONG : KEPT, (uint64_t)(KEPT_TIME + all[i].later), (uint64_t)all[i].kind,
                  is_long ? LONG_LABEL : SHORT_LABEL, KEZ_SLOTS - 1, all[i].table == &authors);
        r->name = all[i].name;
        r->only = all[i].only;
        r->refusal = all[i].refusal;
        r->value = all[i].value;
        r->table = all[i].table;
    }
}

/* Messages to be hashed, from records[first] on. */
static void make_messages(int first)
{
    make(&records[first], "300 bytes", 300, 2, "A map for the left ear. ");
    make(&records[first + 1], "64 KB", 65536, 16, "Threshold 42 dB at 1000 Hz, comfort 61 dB.\n");
    for (int j = first; j < first + 2; j++)
        records[j].only = "sha256";
}

/* Texts of each kind, from records[first] on: ASCII, a third of it not, and nothing but characters of two, three or
 * four bytes; and the last two once more, which make_forms spoils at their ends. */
static void make_texts(int first)
{
    static const struct {
        const char *name, *text;
        int is_bad;
    } all[] = {
        {"ASCII", "Threshold 42 dB at 1000 Hz, comfort 61 dB; the next visit is in spring. ", 0},
        {"a third", "abcd\xd0\xb4", 0},
        {"two bytes", "\xd0\xb4", 0},
        {"three bytes", "\xe8\x81\xb4", 0},
        {"four bytes", "\xf0\x9f\x91\x82", 0},
        {"three, bad", "\xe8\x81\xb4", 1},
        {"four, bad", "\xf0\x9f\x91\x82", 1},
    };
    for (size_t i = 0; i < sizeof all / sizeof *all; i++) {
        record *r = &records[first + (int)i];
        make(r, all[i].name, 60000, 0, all[i].text);
        r->only = "utf8";
        r->refusal = all[i].is_bad ? 5 : 0;
    }
}

/* Eight bytes of a pointer form, the lowest first: so many bytes from an offset on. */
static void point(record *r, size_t at, uint64_t offset, uint64_t len)
{
    for (int i = 0; i < 8; i++)
        r->pointer[at + (size_t)i] = (uint8_t)((offset << 32 | len) >> 8 * i);
}

/* A pointer form of a second in 1970 with data of this length. */
static void start_pointer(record *r, const char *name, uint64_t version, size_t data)
{
    r->name = name;
    r->pointer_len = KEZ_POINTER_LEAST + data;
    memset(r->pointer, 0, r->pointer_len);
    point(r, 0, version, 72 + data);
    point(r, 48, 0, 1000);
}

/* Pointer forms, from records[first] on: many small pieces, each by itself; then as much shared as can be: 1,000 tags
 * of 255 texts of 55,000 bytes, which is read, and refused where it is to be converted; and a v1 whose one table is
 * every tag. */
static void make_pointers(int first)
{
    record *r = &records[first];
    start(r, "empty texts", 31);
    for (size_t i = 0; i < 31; i++) {
        put_varint(r, 255);
        memset(r->packed + r->packed_len, 0, 255);
        r->packed_len += 255;
    }
    r->only = "pointer_";
    for (int j = 1; j < 3; j++) {
        r = &records[first + j];
        start_pointer(r, "shared texts", 0, 65040);
        point(r, 64, 0, 8000);
        for (size_t i = 0; i < 1000; i++)
            point(r, 72 + 8 * i, 8000, 2040);
        for (size_t i = 0; i < 255; i++)
            point(r, 8072 + 8 * i, 10040, 55000);
        for (size_t i = 0; i < 55000; i++)
            r->pointer[10112 + i] = (uint8_t)"A map for the left ear. "[i % 24];
        r->only = j == 1 ? "pointer_read" : "pointer_convert";
        r->refusal = j == 1 ? 0 : 29;
    }
    r = &records[first + 3];
    start_pointer(r, "one table", 1, 65368);
    point(r, 64, 0, 65368);
    for (size_t i = 0; i < 8171; i++)
        point(r, 72 + 8 * i, 0, 65368);
    r->only = "pointer_read";
}

/* The last byte that is not ASCII becomes one that no character has. */
static void spoil(uint8_t *text, size_t len)
{
    while (len && text[len - 1] < 0x80)
        len--;
    text[len - 1] = 0xff;
}

/* The other forms of each record. */
static void make_forms(packs *nson_write, packs *pointer_write)
{
    for (int j = 0; j < RECORDS; j++) {
        record *r = &records[j];
        r->text_len = nson_write(r->packed, r->packed_len, KEZ_BARE, r->text, sizeof r->text).value;
        r->versioned[0] = 1;
        memcpy(r->versioned + 1, r->packed, r->packed_len);
        spell(r);
        if (!r->pointer_len) {
            kez_answer a = pointer_write(r->packed, r->packed_len, KEZ_BARE, r->pointer, sizeof r->pointer);
            r->pointer_len = a.refusal ? 0 : a.value;
        }
        if (r->refusal == 5) {
            spoil(r->packed, r->packed_len);
            spoil(r->text, r->text_len);
        }
    }
    records[12].string[records[12].string_len - 1] = '=';
}

int main(int count, char **words)
{
    static row rows[ENTRIES][RECORDS];
    if (count == 3 && !strcmp(words[1], "--openssl"))
        return only_openssl(words[2]);
    void *reference = count > 1 ? dlopen(words[1], RTLD_NOW | RTLD_LOCAL) : NULL;
    void *peers = count > 2 && strcmp(words[2], "-") ? dlopen(words[2], RTLD_NOW | RTLD_LOCAL) : NULL;
    const char *program = count > 3 ? words[3] : NULL;
    self = words[0];
    peers_file = count > 2 ? words[2] : NULL;
    packs *nson_write = reference ? (packs *)dlsym(reference, "kez_nson_write") : NULL;
    packs *pointer_write = reference ? (packs *)dlsym(reference, "kez_pointer_write") : NULL;
    if (!nson_write || !pointer_write) {
        fprintf(stderr, "usage: bench libreference.so [libpeers.so | -] [PROGRAM]\n");
        return 2;
    }
    make(&records[0], "small", 300, 2, "A map for the left ear. ");
    make(&records[1], "middle", 4000, 16, "Threshold 42 dB at 1000 Hz, \"comfort\" 61 dB.\n");
    make(&records[2], "large", 60000, 16, "Threshold 42 dB at 1000 Hz, comfort 61 dB; the next visit is in spring.\n");
    make(&records[3], "not ASCII", 60000, 16, "Порог слышимости 42 дБ при 1000 Гц — 聴力検査の結果は良好です 👂\n");
    make_special();
    make_tables();
    make_offered(13);
    make_messages(22);
    make_texts(24);
    make_pointers(31);
    make_forms(nson_write, pointer_write);
    for (int pass = 0; pass < PASSES; pass++)
        for (int i = 0; i < ENTRIES; i++)
            for (int j = 0; j < RECORDS; j++)
                if (is_for(&records[j], &entries[i]))
                    measure(&rows[i][j], &entries[i], &records[j], reference, peers, program);
    print(rows);
    return 0;
}
