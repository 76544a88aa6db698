/* kez: the library at the command line. See kez.1. */
#define _GNU_SOURCE
#include "kezubimoryu.h"

#include <errno.h>
#include <fcntl.h>
#include <inttypes.h>
#include <limits.h>
#include <stdarg.h>
#include <stdio.h>
#include <stdlib.h>
#include <string.h>
#include <strings.h>
#include <sys/file.h>
#include <sys/stat.h>
#include <unistd.h>

enum { ACCEPTED = 0, REFUSED = 1, USAGE = 2 };

static const char help[] =
    "usage: kez COMMAND [--versioned] [--hex | --hex=in | --hex=out] [FILE] > OUTPUT\n"
    "       kez keep [--versioned | --versioned=first | --versioned=second] [--hex] FIRST SECOND\n"
    "       kez table [--json] [--versioned] [--hex] FILE [RECORD ..]\n"
    "       kez --help | --version\n"
    "\n"
    "  list [--all | --json]\n"
    "                the numbers of a packed event; --all: its fields and texts too, for people;\n"
    "                --json: all of it as plain JSON on one line, for programs\n"
    "  strict        is a packed event in its strict form? 'strict' or 'not strict'\n"
    "  pack          the strict form of a packed event, bare\n"
    "  to-versioned  a bare packed event with 01 in front, otherwise as it is\n"
    "  to-bare       a versioned packed event without its 01, otherwise as it is\n"
    "  to-letter     the string form, for a letter or a mail: notepack_ and base64, one line;\n"
    "                --versioned: notepack1_ and base64, of an event with 01 in front\n"
    "  from-letter   a string form as the packed event that it holds; --versioned: one that\n"
    "                starts with notepack1_\n"
    "  to-pointer    a packed event as a pointer form, version 0 (v0)\n"
    "  from-pointer  a v0 as a packed event; version 1 is not converted: its id is of other bytes\n"
    "  show-pointer  the fields and texts of a pointer form, version 0 or 1, for people\n"
    "  canonical     the canonical text, over which the id is taken\n"
    "  check-id      is the id of a packed event the SHA-256 of its canonical text? 'belongs', or\n"
    "                'does not belong' and both: the id that stands there, and that of the text\n"
    "  to-nson       a packed event as NSON\n"
    "  from-nson     NSON, read by its counts, as a packed event\n"
    "  from-json     an event in plain JSON as a packed event\n"
    "  both          one text, put to both readers: the event, and which of them show it\n"
    "  keep          which of two packed events is kept: 'first', 'second' or 'not rivals'\n"
    "  table         a table of current records, kept in FILE, which is made if it is not there:\n"
    "                offers it each RECORD, a packed event, and says what came of it: 'new',\n"
    "                'replaced', 'loses to its rival', 'held already' or 'not kept'; then lists\n"
    "                what the table holds; --json: all that on one line, for programs\n"
    "\n"
    "  --hex         bytes are hexadecimal digits on both sides; =in, =out: on one side\n"
    "  --versioned   packed events that are read are versioned: 01, then the bare bytes; with\n"
    "                keep =first, =second: one of them. Without it they are bare, and which of\n"
    "                the two they are can't be seen in them: whoever keeps a record has to know\n"
    "\n"
    "Without FILE, or where it is -, standard input is read. A packed event is notepack.\n"
    "Exit status: 0 accepted, 1 refused ('refused N at P: ..' on standard error, with the\n"
    "place), 2 usage, or a file that can't be read or written.\n";

static int hex_in, hex_out, all, json, string_in;

static int usage(const char *what, const char *word)
{
    fprintf(stderr, "kez: %s%s%s\nTry 'kez --help'.\n", what, word ? ": " : "", word ? word : "");
    return USAGE;
}

/* Bytes that were read, in memory that grows with them; of a packed event and of its string form also whether it is
 * said to be bare. */
typedef struct {
    uint8_t *at;
    size_t len, room;
    uint64_t bare;
} bytes;

static bytes first = {.bare = KEZ_BARE}, second = {.bare = KEZ_BARE};

/* How many bytes stand in front of the bare ones. */
static size_t front(const bytes *b)
{
    return b->bare ? 0 : 1;
}

/* Reads a string form of the form that it is said to be of. */
static kez_answer read_string(const bytes *b, uint8_t *to, size_t room)
{
    return (b->bare ? kez_notepack_string_read : kez_notepack_string_read_versioned)(b->at, b->len, to, room);
}

/* Can more bytes change the answer? One more than the library takes is kept, so that it can say that there are too
 * many. A string form has no limit: as often as the memory is full, the library is asked whether it has a fault. */
static int wants_more(const bytes *b)
{
    if (!string_in)
        return b->len <= KEZ_MOST;
    if (b->len < b->room)
        return 1;
    kez_answer a = read_string(b, NULL, 0);
    return a.refusal != 20 && (a.refusal != 21 || a.value == b->len);
}

/* Makes room for one more byte; 0: there is none. */
static int make_room(bytes *b, const char *name)
{
    if (b->len < b->room)
        return 1;
    size_t room = b->room ? 2 * b->room : KEZ_MOST + 1;
    uint8_t *at = room > b->room ? realloc(b->at, room) : NULL;
    if (!at) {
        fprintf(stderr, "kez: %s: there is no memory for so much\n", name);
        return 0;
    }
    b->at = at;
    b->room = room;
    return 1;
}

static int digit(int c)
{
    return c >= '0' && c <= '9'   ? c - '0'
           : c >= 'a' && c <= 'f' ? c - 'a' + 10
           : c >= 'A' && c <= 'F' ? c - 'A' + 10
                                  : -1;
}

static int is_space(int c)
{
    return c == ' ' || c == '\t' || c == '\n' || c == '\r';
}

/* Digits two by two, white space anywhere. */
static int read_hex(bytes *b, FILE *file, const char *name)
{
    int high = -1;
    uint64_t place = 0;
    for (int c; (c = getc(file)) != EOF && wants_more(b); place++) {
        if (!make_room(b, name))
            return 0;
        if (is_space(c))
            continue;
        if (digit(c) < 0) {
            fprintf(stderr,
                    "kez: %s: byte %" PRIu64 " is not a hexadecimal digit. "
                    "Is the input hex? Without --hex bytes are taken as they are.\n",
                    name, place);
            return 0;
        }
        if (high < 0) {
            high = digit(c);
        } else {
            b->at[b->len++] = (uint8_t)(high << 4 | digit(c));
            high = -1;
        }
    }
    if (high >= 0 && !ferror(file)) {
        fprintf(stderr, "kez: %s: an odd number of hexadecimal digits. The last byte is cut; is the input whole?\n",
                name);
        return 0;
    }
    return 1;
}

static int read_raw(bytes *b, FILE *file, const char *name)
{
    while (!feof(file) && !ferror(file) && wants_more(b)) {
        if (!make_room(b, name))
            return 0;
        b->len += fread(b->at + b->len, 1, b->room - b->len, file);
    }
    return 1;
}

static int is_standard(const char *file)
{
    return !strcmp(file, "-");
}

static int read_file(bytes *b, const char *name)
{
    int standard = is_standard(name);
    FILE *file = standard ? stdin : fopen(name, "rb");
    if (standard) {
        name = "standard input";
        if (isatty(0))
            fprintf(stderr, string_in ? "kez: reads standard input, at most 4,095 characters from a terminal; "
                                        "end it with control-D twice, not with a line end\n"
                                      : "kez: reads standard input; end it with control-D\n");
    }
    if (!file) {
        fprintf(stderr, "kez: %s: %s\n", name, strerror(errno));
        return 0;
    }
    int good = make_room(b, name) && (hex_in ? read_hex : read_raw)(b, file, name);
    if (ferror(file)) {
        fprintf(stderr, "kez: %s: %s\n", name, strerror(errno));
        good = 0;
    }
    if (!standard)
        fclose(file);
    return good;
}

/* Output. Packed bytes go to a terminal as hex; what is text gets a line end there. */

static int on_terminal;
/* the errno of the first write to standard output that failed; later calls may set errno anew */
static int lost;

static void written(int good)
{
    if (!good && !lost)
        lost = errno ? errno : EIO;
}

static void put_bytes(const void *at, size_t len)
{
    written(fwrite(at, 1, len, stdout) == len);
}

static void put_byte(int c)
{
    written(putchar(c) != EOF);
}

__attribute__((format(printf, 1, 2))) static void put(const char *format, ...)
{
    va_list rest;
    va_start(rest, format);
    written(vprintf(format, rest) >= 0);
    va_end(rest);
}

/* The exit status, once everything is written. */
static int finish(int status)
{
    written(!fflush(stdout));
    if (!lost)
        return status;
    fprintf(stderr, "kez: standard output: %s\n", strerror(lost));
    return USAGE;
}

static void put_hex(const uint8_t *at, size_t len)
{
    for (size_t i = 0; i < len; i++)
        put("%02x", at[i]);
}

static void put_output(const uint8_t *at, size_t len, int is_text)
{
    if (hex_out || (!is_text && on_terminal)) {
        put_hex(at, len);
        put_byte('\n');
    } else {
        put_bytes(at, len);
        if (is_text && on_terminal)
            put_byte('\n');
    }
}

/* The character of UTF-8 that starts here, of two bytes or more; 0: none does. */
static unsigned character(const uint8_t *at, size_t len)
{
    static const unsigned least[] = {0, 0, 0x80, 0x800, 0x10000};
    unsigned width = *at >> 5 == 6 ? 2 : *at >> 4 == 14 ? 3 : *at >> 3 == 30 ? 4 : 0;
    unsigned c = *at & (0x7fu >> width);
    if (!width || len < width)
        return 0;
    for (unsigned i = 1; i < width; i++) {
        if (at[i] >> 6 != 2)
            return 0;
        c = c << 6 | (at[i] & 63u);
    }
    return c >= least[width] ? c : 0;
}

/* The character of two or three bytes that starts here, if a terminal does something else than to show it: a control
 * above 7f, a line or paragraph separator, or what turns the direction of writing. Otherwise 0. */
static unsigned hidden(const uint8_t *at, size_t len)
{
    unsigned c = character(at, len);
    return (c >= 0x80 && c <= 0x9f) || c == 0x61c || c == 0x200e || c == 0x200f || (c >= 0x2028 && c <= 0x202e) ||
           (c >= 0x2066 && c <= 0x2069) ? c : 0;
}

/* How many bytes the character that starts here has; 0: there is none, and the byte is no UTF-8. */
static size_t width(const uint8_t *at, size_t len)
{
    unsigned c = *at < 0x80 ? *at : character(at, len);
    if (*at >= 0x80 && (!c || c > 0x10ffff || (c >= 0xd800 && c <= 0xdfff)))
        return 0;
    return c < 0x80 ? 1 : c < 0x800 ? 2 : c < 0x10000 ? 3 : 4;
}

/* A text in quotes, on one line whatever is in it. With --json it is a string of JSON. Bytes that are no UTF-8 stand
 * in no event, but a pointer form of version 1 may have them. */
static void put_quoted(const uint8_t *at, size_t len)
{
    put_byte('"');
    for (size_t i = 0, step; i < len; i += step ? step : 1) {
        unsigned c = hidden(at + i, len - i);
        step = width(at + i, len - i);
        if (c)
            put("\\u%04x", c);
        else if (at[i] == '"' || at[i] == '\\')
            put("\\%c", at[i]);
        else if (!step || at[i] < 0x20 || at[i] == 0x7f)
            put(json ? "\\u%04x" : "\\x%02x", at[i]);
        else
            put_bytes(at + i, step);
    }
    put_byte('"');
}

/* A number of four bytes, as the library lists those of an element. */
static uint32_t number_at(const uint8_t *at)
{
    return at[0] | (uint32_t)at[1] << 8 | (uint32_t)at[2] << 16 | (uint32_t)at[3] << 24;
}

/* Refusals. What the input is decides how its place is shown. HELD is what a string form holds, MOVED what is to get a
 * 01 in front or to lose it, POINTER a pointer form. */
enum { PACKED, NSON, JSON, STRING, HELD, MOVED, POINTER };

/* What can be done about it, where the sentence alone does not say. */
static const char *advice(uint64_t refusal, int input)
{
    switch (refusal) {
    case 1:
        return input == STRING  ? "A string form has at most 87,391 characters, one that starts with notepack1_ 87,392."
               : input == MOVED ? "A versioned record has at most 65,536 bytes, its 01 counted. A bare one of 65,536 "
                                  "bytes stays bare."
                                : NULL;
    case 2:
    case 4: return "Was the whole record read? Hexadecimal digits need --hex.";
    case 10:
        return input == NSON ? "A line end behind an NSON text is too much already: cut it off with head -c -1."
                             : "One record at a time: cut the input there.";
    case 12: return input == NSON ? "NSON has its fields in one fixed order. Other JSON is read by from-json." : NULL;
    case 13:
        return "The counts and the text disagree: the text is cut or changed, or its nson field is wrong. "
               "from-json takes no notice of the counts.";
    case 14:
        return input == NSON ? "A string of NSON has no escapes but \\n, \\\\ and \\\", no raw control byte, "
                               "and no escape that its count cuts."
                             : NULL;
    case 15: return "Nothing is filled in: ask the sender for the whole record.";
    case 17:
        return "NSON takes times of ten digits, no control character but the line end, at most 127 bytes of counts, "
               "65,536 bytes in all. Send packed bytes instead.";
    case 22: return "No table keeps a record of that size: keep it in a file of its own.";
    case 23: return "All 64 slots are used, and none by a version of this record. Offer it to another table file.";
    case 24:
        return "Either the tool that wrote it pads its numbers, and its maker has to mend that, or the record is "
               "damaged: ask for it anew. Nothing is repaired here.";
    case 25:
        return "A versioned record starts with 01, the only version there is. This is no record, or its first byte was "
               "lost or changed: ask for it anew.";
    case 27: return "Either the tool that wrote it is wrong, or the form is damaged: ask for it anew.";
    case 28: return "An event has whole seconds from 1970 on, so this is none, and nothing is rounded here.";
    case 29:
        return input == POINTER
                   ? "Its tags share texts. In a packed event each text stands by itself, and all of them take more."
                   : "A pointer form has eight bytes more for each text, and fills each up to eight. Send packed bytes "
                     "instead.";
    default: return NULL;
    }
}

/* What the input lacks, where it can be told without doubt. For plain JSON the library itself is asked: it reads the
 * input up to the place, and something behind it. */

static const char *const fields[] = {"id", "pubkey", "sig", "created_at", "kind", "tags", "content"};
enum { FIELDS = sizeof fields / sizeof *fields };

static kez_answer ask(const bytes *b, uint64_t place, const char *more)
{
    static uint8_t text[KEZ_MOST + 1 + 32], event[sizeof text];
    size_t len = strlen(more);
    memcpy(text, b->at, place);
    memcpy(text + place, more, len);
    return kez_json_read(text, place + len, event, sizeof event);
}

/* Names what is missing at the closing brace: a name that is there already is refused with 16 if it comes again. */
static void tell_missing(const bytes *b, uint64_t brace)
{
    char said[100] = "", more[20];
    size_t end = brace;
    while (end && is_space(b->at[end - 1]))
        end--;
    int comma = end && b->at[end - 1] != '{';
    for (int i = 0; i < FIELDS; i++) {
        snprintf(more, sizeof more, "%s\"%s\"", comma ? "," : "", fields[i]);
        kez_answer a = ask(b, brace, more);
        if (a.refusal == 14 && a.value == brace + strlen(more))
            snprintf(said + strlen(said), sizeof said - strlen(said), "%s%s", *said ? ", " : "", fields[i]);
        else if (a.refusal != 16)
            return; /* the input is so long that nothing can be put behind it */
    }
    if (*said)
        fprintf(stderr, "     Missing: %s.\n", said);
}

/* The four digits of \uXXXX at this place, or -1. */
static long unit(const bytes *b, size_t at)
{
    long number = 0;
    if (b->len < 6 || at > b->len - 6 || b->at[at] != '\\' || b->at[at + 1] != 'u')
        return -1;
    for (int i = 2; i < 6; i++) {
        if (digit(b->at[at + i]) < 0)
            return -1;
        number = number << 4 | digit(b->at[at + i]);
    }
    return number;
}

/* Is the escape at this backslash cut by the input's end? */
static int is_cut(const bytes *b, size_t at)
{
    size_t to = at + 1;
    if (to < b->len && b->at[to] == 'u')
        for (to++; to < b->len && to < at + 6 && digit(b->at[to]) >= 0; to++)
            ;
    return to == b->len && to < at + 6;
}

/* Which of the seven names stands at this opening quote? NULL: none. */
static const char *name_at(const bytes *b, size_t quote)
{
    for (int i = 0; i < FIELDS; i++) {
        size_t at = quote + 1;
        const char *c = fields[i];
        for (; *c && at < b->len; c++) {
            int escaped = unit(b, at) == *c;
            if (!escaped && b->at[at] != *c)
                break;
            at += escaped ? 6 : 1;
        }
        if (!*c && at < b->len && b->at[at] == '"')
            return fields[i];
    }
    return NULL;
}

/* The name in front of the value at this place. */
static const char *name_before(const bytes *b, size_t place)
{
    while (place && (is_space(b->at[place - 1]) || b->at[place - 1] == ':'))
        place--;
    if (place < 2 || b->at[--place] != '"')
        return NULL;
    while (place && b->at[place - 1] != '"')
        place--;
    return place ? name_at(b, place - 1) : NULL;
}

/* What is wrong with the string of plain JSON at this opening quote. */
static void tell_string(const bytes *b, size_t quote)
{
    size_t at = quote + 1;
    const char *what = NULL;
    while (at < b->len && !what && !(b->at[at] == '\\' && is_cut(b, at))) {
        long u = unit(b, at);
        if (b->at[at] == '"')
            return;
        if (b->at[at] < 0x20)
            what = "a raw control byte";
        else if (b->at[at] != '\\')
            at++;
        else if (at + 1 < b->len && b->at[at + 1] && strchr("\"\\/bfnrt", b->at[at + 1]))
            at += 2;
        else if (u >= 0 && (u < 0xd800 || u > 0xdfff))
            at += 6;
        else if (u >= 0xd800 && u <= 0xdbff && unit(b, at + 6) >= 0xdc00 && unit(b, at + 6) <= 0xdfff)
            at += 12;
        else
            what = u < 0 ? "an escape that is not allowed" : "half of a surrogate pair";
    }
    if (what)
        fprintf(stderr, "     The string that starts here has %s at byte %zu.\n", what, at);
    else
        fprintf(stderr, "     The string that starts here is not closed.\n");
}

/* Which tokens of plain JSON may stand at this place: those that the library does not refuse there. */
static void tell_tokens(const bytes *b, uint64_t place)
{
    enum { STRING, NUMBER };
    static const struct { const char *token, *name; } tokens[] = {
        {" \"\"", "a string"}, {" 0", "a number"}, {" null", "true, false, null"}, {" :", "':'"}, {" ,", "','"},
        {" [", "'['"}, {" {", "'{'"}, {" ]", "']'"}, {" }", "'}'"}};
    enum { TOKENS = sizeof tokens / sizeof *tokens };
    int may[TOKENS], count = 0;
    for (int i = 0; i < TOKENS; i++) {
        kez_answer a = ask(b, place, tokens[i].token);
        if (a.refusal == 1)
            return; /* the input is so long that nothing can be put behind it */
        may[i] = !a.refusal || (a.refusal == 14 && a.value == place + strlen(tokens[i].token)) ||
                 ((a.refusal == 12 || a.refusal == 15) && a.value == place + 1);
        count += may[i];
    }
    if (may[STRING] && place < b->len && b->at[place] == '"') {
        tell_string(b, place);
        return;
    }
    if (count)
        fprintf(stderr, "     Expected here: ");
    for (int i = 0, left = count; i < TOKENS; i++)
        if (may[i]) {
            left--;
            fprintf(stderr, "%s%s%s", tokens[i].name, i == NUMBER && count == 1 ? " of digits alone" : "",
                    left > 1 ? ", " : left ? " or " : ".\n");
        }
}

/* The pieces of NSON up to its descriptors stand at fixed places. */
static void tell_piece(uint64_t place)
{
    static const struct { uint64_t at; const char *what; } pieces[] = {
        {0, "{\"id\":\""}, {7, "the id, 64 lowercase hexadecimal digits"},
        {71, "\",\"pubkey\":\""}, {83, "the pubkey, 64 lowercase hexadecimal digits"},
        {147, "\",\"sig\":\""}, {156, "the sig, 128 lowercase hexadecimal digits"},
        {284, "\",\"created_at\":"}, {299, "created_at, ten digits of which the first is not 0"},
        {309, ",\"nson\":\""}, {318, "the size, two lowercase hexadecimal digits"}};
    for (size_t i = 0; i < sizeof pieces / sizeof *pieces; i++)
        if (pieces[i].at == place)
            fprintf(stderr, "     Expected here: %s\n", pieces[i].what);
    if (place >= 320)
        fprintf(stderr, "     Expected here: a descriptor, in lowercase hexadecimal digits\n");
}

/* A string form: why it does not start with its prefix, which character does not belong there, what is wrong at its
 * end. */

static const char *prefix_of(uint64_t bare)
{
    return bare ? "notepack_" : "notepack1_";
}

/* Does a string form of this form start here? */
static int starts(const uint8_t *at, size_t len, uint64_t bare)
{
    size_t prefix = strlen(prefix_of(bare));
    return len >= prefix && !memcmp(at, prefix_of(bare), prefix);
}

static int starts_any(const uint8_t *at, size_t len)
{
    return starts(at, len, KEZ_BARE) || starts(at, len, KEZ_VERSIONED);
}

/* How much of the prefix is needed in front to make the text a string form that the library reads? 0: none does. White
 * space behind it is left out. */
static int part_missing(const bytes *b)
{
    static uint8_t event[KEZ_MOST];
    const char *prefix = prefix_of(b->bare);
    size_t len = b->len, all_of_it = strlen(prefix);
    uint8_t *text = malloc(all_of_it + len);
    size_t found = 0;
    while (len && is_space(b->at[len - 1]))
        len--;
    for (size_t i = 1; text && !found && i <= all_of_it; i++) {
        bytes whole = {text, i + len, i + len, b->bare};
        memcpy(text, prefix, i);
        memcpy(text + i, b->at, len);
        found = read_string(&whole, event, sizeof event).refusal ? 0 : i;
    }
    free(text);
    return (int)found;
}

/* Are the bytes a packed event of this form? */
static int is_packed(const bytes *b, uint64_t bare)
{
    uint64_t n[5];
    return !kez_notepack_read(b->at, b->len, bare, &n[0], &n[1], &n[2], &n[3], &n[4]).refusal;
}

/* The prefix stands further behind: in which line and column, both from 1 on. */
static void tell_later(const bytes *b, size_t place)
{
    size_t line = 1, column = 1;
    for (size_t i = 0; i < place; i++) {
        line += b->at[i] == '\n';
        column = b->at[i] == '\n' ? 1 : column + (b->at[i] >> 6 != 2);
    }
    fprintf(stderr, "     %s stands in line %zu, column %zu. Cut off what is in front: tail -c +%zu FILE\n",
            prefix_of(b->bare), line, column, place + 1);
}

/* The text is a string form of the other form. */
static void tell_other(const bytes *b)
{
    fprintf(stderr, b->bare ? "     It starts with notepack1_, as the string form of a versioned record does: "
                              "from-letter --versioned reads these.\n"
                            : "     It starts with notepack_, as the string form of a bare record does: "
                              "from-letter without --versioned reads these.\n");
}

static void tell_prefix(const bytes *b)
{
    const char *prefix = prefix_of(b->bare);
    size_t len = strlen(prefix);
    const uint8_t *later = memmem(b->at, b->len, prefix, len);
    int part;
    if (starts(b->at, b->len, !b->bare))
        tell_other(b);
    else if (later)
        tell_later(b, later - b->at);
    else if (b->len < len && !memcmp(b->at, prefix, b->len))
        fprintf(stderr, "     The text ends inside %s: was all of it copied?\n", prefix);
    else if (b->len >= len && !strncasecmp((const char *)b->at, prefix, len))
        fprintf(stderr, "     Capitals were changed on the way, perhaps in all of the text: ask for it anew.\n");
    else if ((part = part_missing(b)))
        fprintf(stderr, "     Its start was not copied along: with '%.*s' in front it is read.\n", part, prefix);
    else if (is_packed(b, KEZ_BARE) || is_packed(b, KEZ_VERSIONED))
        fprintf(stderr, "     These are packed bytes, and no text: the other commands read them.\n");
    else if (memmem(b->at, b->len, "n\0o\0t\0e\0p", 9))
        fprintf(stderr, "     The text is in UTF-16, with 00 between its characters: save it as UTF-8.\n");
    else
        fprintf(stderr, "     A string form is %s and base64, with nothing in front.\n", prefix);
}

static int is_line_end(int c)
{
    return c == '\n' || c == '\r';
}

/* Does a screen show nothing there? Spaces that are not ASCII, the soft hyphen, marks of width and direction. */
static int is_unseen(unsigned c)
{
    return c == 0xa0 || c == 0xad || c == 0x61c || (c >= 0x2000 && c <= 0x200f) || (c >= 0x2028 && c <= 0x202f) ||
           (c >= 0x205f && c <= 0x206f) || c == 0x3000 || c == 0xfeff;
}

/* Names the character at this place, which is in line 1: a line end in front of it would be outside the alphabet. */
static void tell_character(const bytes *b, size_t place)
{
    const uint8_t *at = b->at + place;
    size_t len = b->len - place;
    unsigned c = character(at, len);
    fprintf(stderr, "     In column %zu stands ", place + 1);
    if (is_line_end(*at))
        fprintf(stderr, "a line end (%s)", *at == '\n' ? "LF" : len > 1 && at[1] == '\n' ? "CR LF" : "CR");
    else if (*at == ' ' || *at == '\t')
        fprintf(stderr, *at == ' ' ? "a blank" : "a tab");
    else if (*at > 0x20 && *at < 0x7f)
        fprintf(stderr, "'%c'", *at);
    else if (c)
        fprintf(stderr, "the character U+%04X%s", c, is_unseen(c) ? ", which a screen does not show" : "");
    else
        fprintf(stderr, "the byte %02x", *at);
    fprintf(stderr, ".\n");
}

/* No character is outside the alphabet, but the last ones hold no whole byte. */
static void tell_end(const bytes *b)
{
    const char *prefix = prefix_of(b->bare);
    size_t count = b->len - strlen(prefix);
    if (count % 4 == 1)
        fprintf(stderr, "     Behind %s stand %zu characters, and base64 never has so many.\n", prefix, count);
    else
        fprintf(stderr, "     The last character, '%c', has bits left over that are not zero.\n", b->at[b->len - 1]);
}

/* The place behind white space and, where it may be there, padding. */
static size_t behind_space(const bytes *b, size_t place, int padding)
{
    while (place < b->len && (is_space(b->at[place]) || (padding && b->at[place] == '=')))
        place++;
    return place;
}

/* Does the last character of a second text's prefix stand here? */
static int ends_prefix(const bytes *b, size_t place, uint64_t bare)
{
    size_t len = strlen(prefix_of(bare));
    return place >= strlen(prefix_of(b->bare)) + len - 1 && starts(b->at + place - (len - 1), len, bare);
}

/* Does a second text start here, behind white space or at the end of its prefix? */
static int is_second(const bytes *b, size_t place)
{
    size_t behind = behind_space(b, place, 0);
    return starts_any(b->at + behind, b->len - behind) || ends_prefix(b, place, KEZ_BARE) ||
           ends_prefix(b, place, KEZ_VERSIONED);
}

/* What can be done about refusal 21. */
static const char *string_advice(const bytes *b, size_t place)
{
    int c = place < b->len ? b->at[place] : EOF;
    if (c == EOF)
        return "A character was lost, added or changed, or the end is missing: ask for the text anew.";
    if (is_second(b, place))
        return "A second text starts there: put them to from-letter one by one.";
    if (is_line_end(c))
        return behind_space(b, place, 0) == b->len
                   ? "It was pasted along behind the text. Cut it off: tr -d '[:space:]' < FILE | kez from-letter"
                   : "It was pasted along inside the text. Join the lines: tr -d '[:space:]' < FILE | kez from-letter";
    if (is_space(c))
        return "White space was pasted along. Take it out: tr -d '[:space:]' < FILE | kez from-letter";
    if (c == '=' && behind_space(b, place, 1) == b->len)
        return "This form has no padding. Take it off: tr -d '=[:space:]' < FILE | kez from-letter";
    if (c == '-' || c == '_')
        return "If the sender used the URL-safe alphabet, write + for - and / for _ behind the prefix.";
    return "Base64 has A-Z, a-z, 0-9, + and / alone. Was something pasted along, or a character changed?";
}

/* Where in the text a byte that it holds starts: a character has six bits. */
static void tell_column(const bytes *held, uint64_t place)
{
    fprintf(stderr, "     These are the bytes that the text holds");
    if (place < held->len)
        fprintf(stderr, "; byte %" PRIu64 " starts in column %" PRIu64, place,
                strlen(prefix_of(held->bare)) + 8 * place / 6 + 1);
    fprintf(stderr, ".\n");
}

/* The length of the strict form, told by lending no room for it. */
static void tell_length(const bytes *b)
{
    fprintf(stderr, "     Its strict form has %" PRIu64 " bytes.\n",
            kez_notepack_write(b->at, b->len, b->bare, NULL, 0).value);
}

/* Does the library read these bytes as a pointer form? */
static int is_pointer_form(const bytes *b)
{
    uint64_t n[6];
    return !kez_pointer_read(b->at, b->len, &n[0], &n[1], &n[2], &n[3], &n[4], &n[5]).refusal;
}

/* The version of a pointer form whose header is in order. */
static unsigned version_of(const bytes *b)
{
    return b->at[4] | (unsigned)b->at[5] << 8;
}

/* What is wrong with a header, if it is not the version alone. */
static int tell_header(const bytes *b)
{
    if (b->len < KEZ_POINTER_LEAST)
        fprintf(stderr, "     A pointer form has at least %d bytes, and this has %zu.\n", KEZ_POINTER_LEAST, b->len);
    else if (b->at[6] || b->at[7])
        fprintf(stderr, "     Bytes 6 and 7 of its header are not 00.\n");
    else if (version_of(b) > 1)
        fprintf(stderr, "     Its header says version %u; there are 0 and 1 alone.\n", version_of(b));
    else if ((uint64_t)number_at(b->at) + KEZ_POINTER_ID_FROM_END != b->len)
        fprintf(stderr, "     Its header says %" PRIu64 " bytes in all, and it has %zu.\n",
                (uint64_t)number_at(b->at) + KEZ_POINTER_ID_FROM_END, b->len);
    else
        return 0;
    return 1;
}

/* What a fault in a pointer form is about: the header, a pointer, the time. */
static void tell_form(const bytes *b, kez_answer a)
{
    const uint8_t *at = b->at + a.value;
    if (a.refusal == 26 && !tell_header(b))
        fprintf(stderr, "     It is of version 1.\n");
    if (a.refusal == 27)
        fprintf(stderr, "     The pointer says %" PRIu32 " bytes from offset %" PRIu32 " on; the data has %zu.\n",
                number_at(at), number_at(at + 4), b->len - KEZ_POINTER_LEAST);
    if (a.refusal == 28)
        fprintf(stderr, "     It says %" PRId64 " milliseconds since 1970.\n",
                (int64_t)(number_at(at) | (uint64_t)number_at(at + 4) << 32));
}

/* What can be done about refusal 26. */
static const char *form_advice(const bytes *b)
{
    if (is_pointer_form(b))
        return "Its id is taken of its own bytes and not of the canonical text, so it is no packed event. show-pointer "
               "shows what it says.";
    if (is_packed(b, KEZ_BARE) || is_packed(b, KEZ_VERSIONED))
        return "These bytes are a packed event, and no pointer form: to-pointer makes one of it.";
    return "Was the whole form read, and nothing else? Hexadecimal digits need --hex.";
}

static void tell_lack(const bytes *b, kez_answer a, int input)
{
    const char *name;
    if (input == POINTER)
        tell_form(b, a);
    if (a.refusal == 12 && input == NSON)
        tell_piece(a.value);
    if (input == HELD)
        tell_column(b, a.value);
    if (a.refusal == 20)
        tell_prefix(b);
    if (a.refusal == 21 && a.value < b->len)
        tell_character(b, a.value);
    if (a.refusal == 21 && a.value == b->len)
        tell_end(b);
    if (a.refusal == 22)
        tell_length(b);
    if (input != JSON)
        return;
    if (a.refusal == 12 && (name = name_before(b, a.value)))
        fprintf(stderr, "     Expected here: the %s, %d lowercase hexadecimal digits.\n", name,
                *name == 's' ? 128 : 64);
    if (a.refusal == 14)
        tell_tokens(b, a.value);
    if (a.refusal == 15)
        tell_missing(b, a.value);
    if (a.refusal == 16 && (name = name_at(b, a.value)))
        fprintf(stderr, "     Here %s stands for the second time.\n", name);
}

/* Do these numbers have a place that shows something? */
static int has_place(uint64_t refusal)
{
    return refusal != 1 && refusal != 11 && refusal != 17 && refusal != 19 && refusal != 22 && refusal != 23 &&
           refusal != 29;
}

/* The bytes around the place, and a mark below it: a text as it is, packed bytes as hex. */
static void show_place(const bytes *b, uint64_t place, int is_text)
{
    size_t before = is_text ? 36 : 8, behind = is_text ? 36 : 16;
    size_t from = place > before ? (size_t)place - before : 0;
    size_t to = b->len - place > behind ? (size_t)place + behind : b->len;
    int mark = 0;
    fprintf(stderr, from ? "  .. " : "     ");
    for (size_t i = from; i < to; i++) {
        int c = b->at[i];
        int width = is_text ? fprintf(stderr, "%c", c >= 0x20 && c < 0x7f ? c : '.') : fprintf(stderr, "%02x ", c);
        if (i < place)
            mark += width;
    }
    fprintf(stderr, to < b->len ? "..\n" : "(end)\n");
    fprintf(stderr, "     %*s%s byte %" PRIu64 " of %zu\n", mark, "", is_text ? "^" : "^^", place, b->len);
}

/* What was said of a packed event may be wrong: do the bytes read well in the other form? That is asked of what is
 * refused alone; bytes that are read as they are said to be may be of the other form all the same. */
static int reads_otherwise(const bytes *b, kez_answer a)
{
    return ((a.refusal >= 2 && a.refusal <= 10) || a.refusal == 24 || a.refusal == 25) && is_packed(b, !b->bare);
}

static const char *other_word(const bytes *b, int input)
{
    if (b->bare)
        return input == MOVED
                   ? "It starts with 01, and as a versioned record it is read. If it is one, it has its 01 already."
                   : "It starts with 01, and as a versioned record it is read. If it is one, say --versioned.";
    return input == MOVED ? "As a bare record it is read. If it is one, it has no 01 that could be taken off."
                          : "As a bare record it is read. If it is one, leave --versioned out.";
}

static const char *what_to_do(const bytes *b, kez_answer a, int input)
{
    if ((input == PACKED || input == MOVED) && reads_otherwise(b, a))
        return other_word(b, input);
    if (a.refusal == 24)
        return advice(a.refusal, input);
    if (input == HELD && a.refusal == 25 && is_packed(b, KEZ_BARE))
        return "What it holds is a bare record, and a text that starts with notepack1_ holds a versioned one: tell the "
               "sender.";
    if (input == HELD)
        return b->len ? "The text is base64, but the record in it is damaged: characters are missing, added or "
                        "changed. Ask for it anew."
                      : "Nothing stands behind the prefix: was all of the text copied?";
    if (!b->len)
        return "The input is empty: is it the right file?";
    if (input != STRING && starts(b->at, b->len, KEZ_BARE))
        return "It starts with notepack_, as a string form does: from-letter reads these.";
    if (input != STRING && starts(b->at, b->len, KEZ_VERSIONED))
        return "It starts with notepack1_, as a string form does: from-letter --versioned reads these.";
    if ((input == PACKED || input == MOVED) && is_pointer_form(b))
        return version_of(b) ? "These bytes are a pointer form of version 1: show-pointer shows what it says."
                             : "These bytes are a pointer form: from-pointer makes a packed event of it.";
    if (a.refusal == 26)
        return form_advice(b);
    return a.refusal == 21 ? string_advice(b, (size_t)a.value) : advice(a.refusal, input);
}

/* Advice that ends with the command to be called gets the word that it needs. */
static const char *word_behind(const bytes *b, const char *what)
{
    static const char command[] = "kez from-letter";
    size_t len = strlen(what), end = sizeof command - 1;
    return !b->bare && len > end && !strcmp(what + len - end, command) ? " --versioned" : "";
}

static void tell_refusal(kez_answer a)
{
    fprintf(stderr, "refused %" PRIu64 " at %" PRIu64 ": %s\n", a.refusal, a.value, kez_refusal_text(a.refusal));
}

static int refused(const bytes *b, kez_answer a, int input)
{
    const char *what = what_to_do(b, a, input);
    tell_refusal(a);
    if (has_place(a.refusal) && a.value <= b->len)
        show_place(b, a.value, input == NSON || input == JSON || input == STRING);
    if (b->len)
        tell_lack(b, a, input);
    if (what)
        fprintf(stderr, "     %s%s\n", what, word_behind(b, what));
    return REFUSED;
}

/* Commands. Each takes what stands in first; keep takes second too, and table the files that are named. */

static void put_text(const uint8_t *at, size_t len, int is_bytes)
{
    if (is_bytes) {
        put_byte('"');
        put_hex(at, len);
        put_byte('"');
    } else {
        put_quoted(at, len);
    }
}

/* The texts of all tags, with what stands before and behind a tag, and between two tags and two texts. */
typedef struct {
    const char *open, *close, *tags, *texts;
} frame;

static uint8_t list[KEZ_ELEMENTS_MOST];

static void put_tags(const frame *f, int numbered)
{
    uint64_t count = kez_notepack_elements(first.at, first.len, first.bare, 0, list, sizeof list).value;
    for (uint64_t i = 0; i < count; i++) {
        const uint8_t *e = list + i * KEZ_ELEMENT_BYTES;
        uint32_t tag = number_at(e);
        int fresh = !i || number_at(e - KEZ_ELEMENT_BYTES) != tag;
        if (fresh) {
            put("%s%s", i ? f->tags : "", f->open);
            if (numbered)
                put(" %" PRIu32, tag);
        }
        put("%s", fresh && !numbered ? "" : f->texts);
        put_text(first.at + number_at(e + 4), number_at(e + 8), number_at(e + 12) == 1);
        if (i + 1 == count || number_at(e + KEZ_ELEMENT_BYTES) != tag)
            put("%s", f->close);
    }
}

static void put_named(const char *name, const uint8_t *at, size_t len)
{
    put(json ? "\"%s\":\"" : "%s ", name);
    put_hex(at, len);
    put(json ? "\"," : "\n");
}

static int do_list(void)
{
    static const frame lines = {"tag", "\n", "", " "}, arrays = {"[", "]", ",", ","};
    uint64_t created_at, kind, content_at, content_len, tags;
    const uint8_t *fixed = first.at + front(&first);
    kez_answer a = kez_notepack_read(first.at, first.len, first.bare, &created_at, &kind, &content_at, &content_len,
                                     &tags);
    if (a.refusal)
        return refused(&first, a, PACKED);
    if (json)
        put("{\"created_at\":%" PRIu64 ",\"kind\":%" PRIu64 ",", created_at, kind);
    else
        put("created_at %" PRIu64 "\nkind %" PRIu64 "\ncontent %" PRIu64 "\ntags %" PRIu64 "\n", created_at, kind,
            content_len, tags);
    if (json || all) {
        put_named("id", fixed + KEZ_ID_AT, KEZ_ID_LEN);
        put_named("pubkey", fixed + KEZ_PUBKEY_AT, KEZ_PUBKEY_LEN);
        put_named("sig", fixed + KEZ_SIG_AT, KEZ_SIG_LEN);
        put(json ? "\"content\":" : "content ");
        put_quoted(first.at + content_at, content_len);
        put(json ? ",\"tags\":[" : "\n");
        put_tags(json ? &arrays : &lines, !json);
        if (json)
            put("]}\n");
    }
    return ACCEPTED;
}

static uint8_t out[KEZ_CANONICAL_MOST];

typedef kez_answer writer(const uint8_t *, size_t, uint8_t *, size_t);
typedef kez_answer packed_writer(const uint8_t *, size_t, uint64_t, uint8_t *, size_t);

/* Where the strict form first differs: in an element's word. Both have that byte: no event goes on behind its end. The
 * strict form is bare; the place counts in the bytes as they are. */
static void tell_difference(void)
{
    const uint8_t *bare = first.at + front(&first);
    size_t at = 0;
    uint64_t len = kez_notepack_write(first.at, first.len, first.bare, out, sizeof out).value;
    while (at < len && out[at] == bare[at])
        at++;
    if (at == len)
        return;
    fprintf(stderr, "the strict form differs first at byte %zu, an element's word, where it has %02x for %02x\n",
            front(&first) + at, out[at], bare[at]);
    show_place(&first, front(&first) + at, 0);
}

static int do_strict(void)
{
    kez_answer a = kez_notepack_is_strict(first.at, first.len, first.bare);
    if (a.refusal)
        return refused(&first, a, PACKED);
    put(a.value ? "strict\n" : "not strict\n");
    if (!a.value) {
        /* the answer first, where both go to one place */
        written(!fflush(stdout));
        tell_difference();
    }
    return ACCEPTED;
}

/* The two ids where they differ: the one in the record, and that of its canonical text. Of what is accepted neither the
 * writer nor the hash refuses anything. */
static void put_ids(void)
{
    uint8_t state[KEZ_SHA256_STATE], digest[KEZ_SHA256_DIGEST];
    uint64_t len = kez_canonical_write(first.at, first.len, first.bare, out, sizeof out).value;
    kez_sha256_start(state, sizeof state);
    kez_sha256_add(state, sizeof state, out, len);
    kez_sha256_finish(state, sizeof state, digest, sizeof digest);
    put_named("id", first.at + front(&first) + KEZ_ID_AT, KEZ_ID_LEN);
    put_named("SHA-256", digest, sizeof digest);
}

static int do_check_id(void)
{
    kez_answer a = kez_id_belongs(first.at, first.len, first.bare);
    if (a.refusal)
        return refused(&first, a, PACKED);
    put(a.value ? "belongs\n" : "does not belong\n");
    if (!a.value)
        put_ids();
    return ACCEPTED;
}

/* What an entry wrote to out, or why it did not. */
static int wrote(kez_answer a, int input, int to_text)
{
    if (a.refusal)
        return refused(&first, a, input);
    put_output(out, a.value, to_text);
    return ACCEPTED;
}

static int do_write(writer *entry, int input)
{
    return wrote(entry(first.at, first.len, out, sizeof out), input, 0);
}

static int do_write_packed(packed_writer *entry, int to_text)
{
    return wrote(entry(first.at, first.len, first.bare, out, sizeof out), PACKED, to_text);
}

/* How much of the texts is shown: more than a form of which nothing is shared can have. */
enum { SHOWN_TEXTS = 10000, SHOWN_BYTES = 4 * KEZ_MOST };

/* The texts of a tag of a pointer form, on one line; they are counted. 0: that was enough. */
static int put_pointer_tag(uint64_t tag, uint64_t *texts, uint64_t *shown)
{
    uint64_t count = kez_pointer_tag_len(first.at, first.len, tag).value, at = 0, len = 0, i = 0;
    put("tag %" PRIu64, tag);
    for (; i < count && *texts < SHOWN_TEXTS && *shown < SHOWN_BYTES; i++) {
        kez_pointer_element(first.at, first.len, tag, i, &at, &len);
        put_byte(' ');
        put_quoted(first.at + at, len);
        ++*texts;
        *shown += len;
    }
    put_byte('\n');
    return i == count;
}

static int do_show_pointer(void)
{
    uint64_t version, kind, milliseconds, content_at, content_len, tags, texts = 0, shown = 0, tag = 0;
    kez_answer a = kez_pointer_read(first.at, first.len, &version, &kind, &milliseconds, &content_at, &content_len,
                                    &tags);
    if (a.refusal)
        return refused(&first, a, POINTER);
    const uint8_t *end = first.at + first.len;
    put("version %" PRIu64 "\nkind %" PRIu64 "\nmilliseconds %" PRId64 "\ncontent %" PRIu64 "\ntags %" PRIu64 "\n",
        version, kind, (int64_t)milliseconds, content_len, tags);
    put_named("id", end - KEZ_POINTER_ID_FROM_END, KEZ_ID_LEN);
    put_named("pubkey", first.at + KEZ_POINTER_PUBKEY_AT, KEZ_PUBKEY_LEN);
    put_named("sig", end - KEZ_POINTER_SIG_FROM_END, KEZ_SIG_LEN);
    put("content ");
    put_quoted(first.at + content_at, content_len);
    put_byte('\n');
    while (tag < tags && put_pointer_tag(tag, &texts, &shown))
        tag++;
    if (tag < tags) {
        written(!fflush(stdout));
        fprintf(stderr, "kez: its tags share texts, and name more than is shown: it ends in tag %" PRIu64 " of %" PRIu64
                        "\n", tag, tags);
    }
    return ACCEPTED;
}

/* The bytes that base64 without a fault holds; their number. */
static size_t decode(const uint8_t *at, size_t len, uint8_t *to)
{
    static const char digits[] = "ABCDEFGHIJKLMNOPQRSTUVWXYZabcdefghijklmnopqrstuvwxyz0123456789+/";
    uint32_t bits = 0;
    size_t count = 0;
    for (size_t i = 0; i < len; i++) {
        bits = bits << 6 | (uint32_t)(strchr(digits, at[i]) - digits);
        if (i % 4)
            to[count++] = (uint8_t)(bits >> (6 - 2 * (i % 4)));
    }
    return count;
}

/* Refusals 2 to 10, 24 and 25 are of the bytes that the text holds, and their places are in these. */
static int do_from_string(void)
{
    size_t prefix = strlen(prefix_of(first.bare));
    kez_answer a = read_string(&first, out, sizeof out);
    if ((a.refusal >= 2 && a.refusal <= 10) || a.refusal == 24 || a.refusal == 25) {
        bytes held = {out, decode(first.at + prefix, first.len - prefix, out), sizeof out, first.bare};
        return refused(&held, a, HELD);
    }
    return wrote(a, STRING, 0);
}

/* The direction says which form is read. */
static int do_to_bare(void)
{
    first.bare = KEZ_VERSIONED;
    return do_write(kez_bare_from_versioned, MOVED);
}

static int do_pack(void) { return do_write_packed(kez_notepack_write, 0); }
static int do_to_versioned(void) { return do_write(kez_versioned_from_bare, MOVED); }
static int do_to_string(void) { return do_write_packed(kez_notepack_string_write, 1); }
static int do_to_pointer(void) { return do_write_packed(kez_pointer_write, 0); }
static int do_from_pointer(void) { return do_write(kez_pointer_convert, POINTER); }
static int do_canonical(void) { return do_write_packed(kez_canonical_write, 1); }
static int do_to_nson(void) { return do_write_packed(kez_nson_write, 1); }
static int do_from_nson(void) { return do_write(kez_nson_read, NSON); }
static int do_from_json(void) { return do_write(kez_json_read, JSON); }

static int do_both(void)
{
    static uint8_t by_nson[KEZ_MOST];
    uint64_t len;
    kez_answer a = kez_read_both(first.at, first.len, by_nson, sizeof by_nson, out, sizeof out, &len);
    if (a.refusal)
        return refused(&first, a, JSON);
    if (a.value == 1) {
        /* why the NSON reader does not show it */
        fprintf(stderr, "NSON: ");
        refused(&first, kez_nson_read(first.at, first.len, by_nson, sizeof by_nson), NSON);
    }
    fprintf(stderr, a.value == 2 ? "both readers show this event\n" : "the JSON reader alone shows this event\n");
    put_output(out, len, 0);
    return ACCEPTED;
}

static int do_keep(void)
{
    static const char *const told[] = {"not rivals", "first", "second"};
    kez_answer a = kez_rivals(first.at, first.len, first.bare, second.at, second.len, second.bare);
    if (!a.refusal) {
        put("%s\n", told[a.value]);
        return ACCEPTED;
    }
    /* the place is in the input that is refused */
    int of_first = kez_rivals_refused(first.at, first.len, first.bare) == 1;
    fprintf(stderr, of_first ? "the first: " : "the second: ");
    return refused(of_first ? &first : &second, a, PACKED);
}

/* A table of current records, in a file: the slots, and behind them the cells. */
enum { TABLE = KEZ_SLOTS_BYTES + KEZ_CELLS_BYTES };

/* the words behind the command: the table's file, then the records; how many they are */
static const char **files;
static int named;
/* what was read of the file, a byte more than a table has if it is longer; how many bytes these are */
static uint8_t table[TABLE + 1];
static size_t table_len;

static size_t slots_len(void)
{
    return table_len < KEZ_SLOTS_BYTES ? table_len : KEZ_SLOTS_BYTES;
}

static kez_answer offer(const bytes *b)
{
    size_t len = slots_len();
    return kez_table_offer(table, len, table + len, table_len - len, b->at, b->len, b->bare);
}

/* The event that is kept in this slot. */
static kez_answer kept(uint64_t slot, bytes *b)
{
    size_t slots = slots_len();
    uint64_t at = 0, len = 0;
    kez_answer a = kez_table_slot(table, slots, table + slots, table_len - slots, slot, &at, &len);
    *b = (bytes){table + slots + at, (size_t)len, (size_t)len, KEZ_BARE};
    return a;
}

/* Says what is wrong with the table's file. */
static int failed(const char *why)
{
    fprintf(stderr, "kez: %s: %s\n", files[0], why);
    return 0;
}

/* Why a table is bad. */

/* Which bytes a slot says that it uses, as far as its cell goes; 0: it is free. */
static int said(uint64_t slot, bytes *b, uint64_t *len)
{
    const uint8_t *at = table + slot * KEZ_SLOT_BYTES + 8;
    *len = number_at(at) | (uint64_t)number_at(at + 4) << 32;
    b->at = table + KEZ_SLOTS_BYTES + slot * KEZ_CELL_BYTES;
    b->len = b->room = *len < KEZ_CELL_BYTES ? (size_t)*len : KEZ_CELL_BYTES;
    b->bare = KEZ_BARE;
    return table[slot * KEZ_SLOT_BYTES];
}

static int has_label(uint64_t kind)
{
    return kind >= 30000 && kind <= 39999;
}

/* The element with the label: the second text of the first tag with "d" in front. NULL: there is none, and the label is
 * the empty text. */
static const uint8_t *label(const bytes *b)
{
    uint64_t count = kez_notepack_elements(b->at, b->len, b->bare, 0, list, sizeof list).value;
    for (uint64_t i = 0; i < count; i++) {
        const uint8_t *e = list + i * KEZ_ELEMENT_BYTES;
        int heads = !i || number_at(e - KEZ_ELEMENT_BYTES) != number_at(e);
        if (heads && number_at(e + 8) == 1 && !number_at(e + 12) && b->at[number_at(e + 4)] == 'd')
            return i + 1 < count && number_at(e + KEZ_ELEMENT_BYTES) == number_at(e) ? e + KEZ_ELEMENT_BYTES : NULL;
    }
    return NULL;
}

/* Which of two kept events would be kept? They are bare. */
static uint64_t choice(const bytes *a, const bytes *b)
{
    return kez_rivals(a->at, a->len, KEZ_BARE, b->at, b->len, KEZ_BARE).value;
}

/* Are these two strict events kept under one name: one key, or, both without a key, one id? */
static int same_name(const bytes *a, const bytes *b)
{
    return choice(a, b) ||
           (!choice(a, a) && !choice(b, b) && !memcmp(a->at + KEZ_ID_AT, b->at + KEZ_ID_AT, KEZ_ID_LEN));
}

/* Is this a strict event of a kind that is kept? */
static int is_fit(const bytes *b)
{
    uint64_t kind = 0, n[4];
    kez_answer a = kez_notepack_read(b->at, b->len, b->bare, &n[0], &kind, &n[1], &n[2], &n[3]);
    return !a.refusal && (kind < 20000 || kind > 29999) && kez_notepack_is_strict(b->at, b->len, b->bare).value;
}

/* The lowest other slot with an event of the same name. */
static uint64_t twin(uint64_t slot, const bytes *b)
{
    bytes other;
    uint64_t len, i = 0;
    while (i < KEZ_SLOTS && (i == slot || !said(i, &other, &len) || len > KEZ_CELL_BYTES || !is_fit(&other) ||
                             !same_name(b, &other)))
        i++;
    return i;
}

/* Could a version before 0.10.0 have kept both of two events of one name? It kept one without a label by its id. */
static int kept_before(const bytes *a, const bytes *b)
{
    int mine = label(a) != NULL, other = label(b) != NULL;
    return mine != other || (!mine && memcmp(a->at + KEZ_ID_AT, b->at + KEZ_ID_AT, KEZ_ID_LEN));
}

/* What is wrong with a bad slot. Is it a missing label, as in a table that was filled before 0.10.0? */
static int tell_slot(uint64_t slot)
{
    bytes b, other;
    uint64_t len, kind = 0, n[4];
    said(slot, &b, &len);
    kez_answer a = kez_notepack_read(b.at, b.len, b.bare, &n[0], &kind, &n[1], &n[2], &n[3]);
    fprintf(stderr, "     Slot %" PRIu64, slot);
    if (len > KEZ_CELL_BYTES) {
        fprintf(stderr, " says %" PRIu64 " bytes, and a cell has %d.\n", len, KEZ_CELL_BYTES);
    } else if (a.refusal) {
        fprintf(stderr, " says %" PRIu64 " bytes, and these are no packed event: ", len);
        tell_refusal(a);
    } else if (!kez_notepack_is_strict(b.at, b.len, b.bare).value) {
        fprintf(stderr, " has a packed event that is not in its strict form.\n");
    } else if (kind >= 20000 && kind <= 29999) {
        fprintf(stderr, " has an event of kind %" PRIu64 ", and these are never kept.\n", kind);
    } else {
        uint64_t second = twin(slot, &b);
        fprintf(stderr, " and slot %" PRIu64 " have two events of which one alone may be kept.\n", second);
        said(second, &other, &len);
        if (has_label(kind) && kept_before(&b, &other)) {
            fprintf(stderr, "     Their label is missing or empty, so they are one record; before 0.10.0 a missing "
                            "label made each its own. The manual says how to mend such a table.\n");
            return 1;
        }
    }
    return 0;
}

static int refused_table(kez_answer a)
{
    int by_label = 0;
    fprintf(stderr, "%s: ", files[0]);
    tell_refusal(a);
    if (table_len != TABLE)
        fprintf(stderr, "     It has %s%zu bytes, and a table has %d: %d of slots, then %d of cells.\n",
                table_len > TABLE ? "at least " : "", table_len, TABLE, KEZ_SLOTS_BYTES, KEZ_CELLS_BYTES);
    else
        by_label = tell_slot(a.value);
    fputs(by_label ? "     It was left as it is.\n"
                   : "     The file is no table, or was damaged; it was left as it is. Take a good copy of it, or "
                     "offer the records to a new file.\n",
          stderr);
    return REFUSED;
}

/* Reading and writing the file. */

/* Takes the table from its file; one that is not there yet is emptied, and fresh says so. */
static int read_table(int *fresh)
{
    struct stat what;
    FILE *file = fopen(files[0], "rb");
    if ((*fresh = !file && errno == ENOENT)) {
        table_len = TABLE;
        return !kez_table_empty(table, KEZ_SLOTS_BYTES, table + KEZ_SLOTS_BYTES, KEZ_CELLS_BYTES).refusal;
    }
    if (!file)
        return failed(strerror(errno));
    table_len = fread(table, 1, sizeof table, file);
    int good = !ferror(file) || failed(strerror(errno));
    if (good && (fstat(fileno(file), &what) || !S_ISREG(what.st_mode)))
        good = failed("a table is an ordinary file");
    fclose(file);
    return good;
}

/* The first bytes of a path, so many, and more behind them. */
static char *joined(const char *path, size_t len, const char *more)
{
    char *made = NULL;
    return asprintf(&made, "%.*s%s", (int)len, path, more) < 0 ? NULL : made;
}

/* Locks the file's folder, so that of several tools at one table each waits for the other; -1: it can't be. It is
 * unlocked as the tool ends. */
static int lock(const char *path)
{
    const char *slash = strrchr(path, '/');
    char *folder = joined(path, slash ? (size_t)(slash - path) + 1 : 0, ".");
    int at = folder ? open(folder, O_RDONLY | O_DIRECTORY | O_CLOEXEC) : -1;
    if (at < 0 || flock(at, LOCK_EX)) {
        failed(strerror(errno));
        at = -1;
    }
    free(folder);
    return at;
}

/* The mode of the file, or that of a new one. */
static mode_t mode_of(const char *path)
{
    struct stat what;
    mode_t mask = umask(0);
    umask(mask);
    return stat(path, &what) ? 0666 & ~mask : what.st_mode & 07777;
}

/* Writes the table to this descriptor, whole and down to the disk. */
static int write_whole(int to)
{
    size_t done = 0;
    while (done < TABLE) {
        ssize_t some = write(to, table + done, TABLE - done);
        if (some < 0 && errno != EINTR)
            return 0;
        done += some > 0 ? (size_t)some : 0;
    }
    return !fsync(to);
}

/* Writes the table to a new file beside its own, which then takes its name: a reader sees the one or the other. */
static int write_table(const char *path, int folder)
{
    char *fresh = joined(path, strlen(path), ".XXXXXX");
    int to = fresh ? mkstemp(fresh) : -1;
    int good = to >= 0 && write_whole(to) && !fchmod(to, mode_of(path)) && !rename(fresh, path);
    int why = errno;
    if (to >= 0)
        close(to);
    if (to >= 0 && !good)
        unlink(fresh);
    free(fresh);
    if (!good)
        return failed(strerror(why));
    fsync(folder);
    return 1;
}

/* Listing what is kept. */

static void put_field(const bytes *b, const char *name, size_t at, size_t len)
{
    put(json ? ",\"%s\":\"" : " %s ", name);
    put_hex(b->at + at, len);
    put(json ? "\"" : "");
}

/* One kept event and what it is kept under: author and label, author alone, or the id. With --json all of them. */
static void put_kept(uint64_t slot, const bytes *b)
{
    uint64_t created_at = 0, kind = 0, n[3];
    kez_notepack_read(b->at, b->len, b->bare, &created_at, &kind, &n[0], &n[1], &n[2]);
    int has_key = choice(b, b) != 0;
    put(json ? "{\"slot\":%" PRIu64 ",\"kind\":%" PRIu64 ",\"created_at\":%" PRIu64 ",\"length\":%zu"
             : "slot %" PRIu64 " kind %" PRIu64 " created_at %" PRIu64 " length %zu",
        slot, kind, created_at, b->len);
    if (json || !has_key)
        put_field(b, "id", KEZ_ID_AT, KEZ_ID_LEN);
    if (json || has_key)
        put_field(b, "pubkey", KEZ_PUBKEY_AT, KEZ_PUBKEY_LEN);
    if (has_label(kind)) {
        const uint8_t *e = label(b);
        put(json ? ",\"label\":" : " label ");
        put_text(e ? b->at + number_at(e + 4) : b->at, e ? number_at(e + 8) : 0, e && number_at(e + 12) == 1);
    }
    put(json ? "}" : "\n");
}

static void put_table(void)
{
    int count = 0;
    bytes b;
    put(json ? "\"slots\":[" : "");
    for (uint64_t i = 0; i < KEZ_SLOTS; i++)
        if (!kept(i, &b).refusal) {
            put(json && count ? "," : "");
            put_kept(i, &b);
            count++;
        }
    put(json ? "]}\n" : "%d of 64 slots are used\n", count);
}

/* What came of the records: the answers stand in the order of these. */

static const char *const outcomes[] = {"new", "replaced", "loses to its rival", "held already", "not kept"};

static void put_offer_json(int number, kez_answer a)
{
    put("%s", number ? "," : "");
    if (a.refusal)
        put("{\"refusal\":%" PRIu64 ",\"place\":%" PRIu64 "}", a.refusal, a.value);
    else
        put("{\"outcome\":\"%s\"}", outcomes[a.value]);
}

static void put_offer(const char *name, const bytes *b, kez_answer a)
{
    if (a.refusal) {
        /* in their order, where both go to one place */
        written(!fflush(stdout));
        fprintf(stderr, "%s: ", name);
        refused(b, a, PACKED);
    } else if (!json) {
        put_quoted((const uint8_t *)name, strlen(name));
        put(": %s\n", outcomes[a.value]);
    }
}

static const char *shown_name(const char *name)
{
    return is_standard(name) ? "standard input" : name;
}

static int put_offers(const bytes *records, const kez_answer *answers, int count)
{
    int status = ACCEPTED;
    put(json ? "{\"offers\":[" : "");
    for (int i = 0; json && i < count; i++)
        put_offer_json(i, answers[i]);
    put(json ? "]," : "");
    for (int i = 0; i < count; i++) {
        put_offer(shown_name(files[i + 1]), &records[i], answers[i]);
        status = answers[i].refusal ? REFUSED : status;
    }
    return status;
}

/* Offers the records, writes the table if it changed or is new, and only then says what came of them. A table that is
 * listed only is not locked: its file is whole at any time. */
static int run_table(const char *path, const bytes *records, kez_answer *answers, int count)
{
    bytes none;
    int fresh, changed = 0, folder = -1;
    if ((count || access(path, F_OK)) && (folder = lock(path)) < 0)
        return USAGE;
    if (!read_table(&fresh))
        return USAGE;
    kez_answer a = kept(KEZ_SLOTS, &none);
    if (a.refusal == 34)
        return refused_table(a);
    for (int i = 0; i < count; i++) {
        answers[i] = offer(&records[i]);
        changed |= !answers[i].refusal && answers[i].value <= KEZ_TABLE_REPLACED;
    }
    if ((fresh || changed) && !write_table(path, folder))
        return USAGE;
    if (fresh)
        fprintf(stderr, "kez: %s: a new table\n", files[0]);
    int status = put_offers(records, answers, count);
    put_table();
    return status;
}

/* All records are read before the table is: a tool that feeds this one may use the same table. */
static int do_table(void)
{
    int count = named - 1, good = 1;
    bytes *records = calloc((size_t)named, sizeof *records);
    kez_answer *answers = calloc((size_t)named, sizeof *answers);
    char *path = realpath(files[0], NULL);
    for (int i = 0; records && answers && good && i < count; i++) {
        records[i].bare = first.bare; /* said of all of them */
        good = read_file(&records[i], files[i + 1]);
    }
    if (!records || !answers)
        good = failed("there is no memory for so many records");
    return good ? run_table(path ? path : files[0], records, answers, count) : USAGE;
}

typedef struct {
    const char *name;
    int files;
    int (*run)(void);
} command;

/* one file may be named, or none; with keep two must be; with table one or more */
static const command commands[] = {
    {"list", 1, do_list},           {"strict", 1, do_strict},             {"pack", 1, do_pack},
    {"to-bare", 1, do_to_bare},     {"to-versioned", 1, do_to_versioned}, {"canonical", 1, do_canonical},
    {"to-letter", 1, do_to_string}, {"from-letter", 1, do_from_string},   {"check-id", 1, do_check_id},
    {"to-nson", 1, do_to_nson},     {"from-nson", 1, do_from_nson},       {"from-json", 1, do_from_json},
    {"both", 1, do_both},           {"keep", 2, do_keep},                 {"table", INT_MAX, do_table},
    {"to-pointer", 1, do_to_pointer},
    {"from-pointer", 1, do_from_pointer},
    {"show-pointer", 1, do_show_pointer},
};

static const command *find(const char *name)
{
    for (size_t i = 0; i < sizeof commands / sizeof *commands; i++)
        if (!strcmp(commands[i].name, name))
            return &commands[i];
    return NULL;
}

/* Does the command read packed events, or string forms, of either form? */
static int takes_forms(const command *c)
{
    return c->run != do_to_bare && c->run != do_to_versioned && c->run != do_from_nson && c->run != do_from_json &&
           c->run != do_both && c->run != do_from_pointer && c->run != do_show_pointer;
}

/* What is said of the packed events that are read; 0: it can't be said of these. */
static int said_versioned(const char *which, const command *c)
{
    if (!takes_forms(c) || (*which && c->run != do_keep))
        return 0;
    if (!*which)
        first.bare = second.bare = KEZ_VERSIONED;
    else if (!strcmp(which, "=first"))
        first.bare = KEZ_VERSIONED;
    else if (!strcmp(which, "=second"))
        second.bare = KEZ_VERSIONED;
    else
        return 0;
    return 1;
}

/* Takes an option; 0: there is no such option. */
static int option(const char *word, const command *c)
{
    static const char versioned[] = "--versioned";
    if (c && !strncmp(word, versioned, sizeof versioned - 1))
        return said_versioned(word + sizeof versioned - 1, c);
    if (!strcmp(word, "--hex"))
        hex_in = hex_out = 1;
    else if (!strcmp(word, "--hex=in"))
        hex_in = 1;
    else if (!strcmp(word, "--hex=out"))
        hex_out = 1;
    else if (!strcmp(word, "--all") && c && c->run == do_list)
        all = 1;
    else if (!strcmp(word, "--json") && c && (c->run == do_list || c->run == do_table))
        json = 1;
    else
        return 0;
    return 1;
}

/* Can the files be what the command takes? What is wrong is said. */
static int are_files(const command *c)
{
    int standard = 0;
    for (int i = 0; i < named; i++)
        standard += is_standard(files[i]);
    if (c->files == 2 && named < 2)
        usage("two files are needed, the first and the second record", NULL);
    else if (c->files == 2 && standard == 2)
        usage("standard input can be one of the two records only", NULL);
    else if (c->run == do_table && (!named || is_standard(files[0])))
        usage("the table's file is needed first; it can't be standard input", NULL);
    else if (c->run == do_table && standard > 1)
        usage("standard input can be one of the records only", NULL);
    else
        return 1;
    return 0;
}

/* The commands with a fixed number of files get them read. */
static int run(const command *c)
{
    string_in = c->run == do_from_string;
    if (c->run == do_table)
        return do_table();
    if (!read_file(&first, named ? files[0] : "-") || (c->files == 2 && !read_file(&second, files[1])))
        return USAGE;
    return c->run();
}

int main(int count, char **words)
{
    const command *c = NULL;
    on_terminal = isatty(1);
    files = calloc((size_t)count + 1, sizeof *files);
    if (!files)
        return usage("there is no memory", NULL);
    for (int i = 1; i < count; i++) {
        if (!strcmp(words[i], "--help") || !strcmp(words[i], "-h")) {
            put("%s", help);
            return finish(ACCEPTED);
        }
        if (!strcmp(words[i], "--version")) {
            put("kez %s\n", KEZ_VERSION);
            return finish(ACCEPTED);
        }
        if (words[i][0] == '-' && words[i][1]) {
            if (!option(words[i], c))
                return usage("there is no such option here", words[i]);
        } else if (!c) {
            if (!(c = find(words[i])))
                return usage("there is no such command", words[i]);
        } else if (named < c->files) {
            files[named++] = words[i];
        } else {
            return usage(c->files == 2 ? "too many words; keep takes two files" : "too many words; one file is read",
                         words[i]);
        }
    }
    if (!c)
        return usage("which command?", NULL);
    return are_files(c) ? finish(run(c)) : USAGE;
}
