/* Faults, planted between the library and the harness: each call of a wrapped entry comes here first (-Wl,--wrap).
 * -DPLANTED=n chooses one. Each shows itself at some inputs only, by a sum over their bytes, and host/fuzz/planted asks
 * that it be found. */
#include "kezubimoryu.h"

#ifndef PLANTED
#define PLANTED 0
#endif

/* one input of 64 */
__attribute__((unused)) static int shows(const uint8_t *at, size_t len)
{
    uint32_t sum = 2166136261u;
    for (size_t i = 0; i < len; i++)
        sum = (sum ^ at[i]) * 16777619u;
    return (sum >> 20) % 64 == 0;
}

#define WRITER(name)                                                                           \
    kez_answer __real_##name(const uint8_t *in, size_t in_len, uint8_t *out, size_t out_len);  \
    kez_answer __wrap_##name(const uint8_t *in, size_t in_len, uint8_t *out, size_t out_len);  \
    kez_answer __wrap_##name(const uint8_t *in, size_t in_len, uint8_t *out, size_t out_len)

#define PACKED_WRITER(name)                                                                                   \
    kez_answer __real_##name(const uint8_t *in, size_t in_len, uint64_t bare, uint8_t *out, size_t out_len);  \
    kez_answer __wrap_##name(const uint8_t *in, size_t in_len, uint64_t bare, uint8_t *out, size_t out_len);  \
    kez_answer __wrap_##name(const uint8_t *in, size_t in_len, uint64_t bare, uint8_t *out, size_t out_len)

#define READER(name)                                                                                            \
    kez_answer __real_##name(const uint8_t *in, size_t in_len, uint64_t bare, uint64_t *a, uint64_t *b,         \
                             uint64_t *c, uint64_t *d, uint64_t *e);                                            \
    kez_answer __wrap_##name(const uint8_t *in, size_t in_len, uint64_t bare, uint64_t *a, uint64_t *b,         \
                             uint64_t *c, uint64_t *d, uint64_t *e);                                            \
    kez_answer __wrap_##name(const uint8_t *in, size_t in_len, uint64_t bare, uint64_t *a, uint64_t *b,         \
                             uint64_t *c, uint64_t *d, uint64_t *e)

#if PLANTED == 1 /* one byte is stored by a refusal */
PACKED_WRITER(kez_notepack_write)
{
    kez_answer a = __real_kez_notepack_write(in, in_len, bare, out, out_len);
    if (a.refusal && out_len && shows(in, in_len))
        out[out_len / 2] ^= 1;
    return a;
}
#elif PLANTED == 2 /* one byte behind the written length is changed */
PACKED_WRITER(kez_canonical_write)
{
    kez_answer a = __real_kez_canonical_write(in, in_len, bare, out, out_len);
    if (!a.refusal && a.value < out_len && shows(in, in_len))
        out[out_len - 1] ^= 1;
    return a;
}
#elif PLANTED == 3 /* one byte of the event is flipped by one of the two readers */
WRITER(kez_json_read)
{
    kez_answer a = __real_kez_json_read(in, in_len, out, out_len);
    if (!a.refusal && shows(in, in_len))
        out[40] ^= 1;
    return a;
}
#elif PLANTED == 4 /* one byte of the event is flipped by the strict writer */
PACKED_WRITER(kez_notepack_write)
{
    kez_answer a = __real_kez_notepack_write(in, in_len, bare, out, out_len);
    if (!a.refusal && shows(in, in_len))
        out[128] ^= 1;
    return a;
}
#elif PLANTED == 5 /* the byte behind an input is read */
typedef kez_answer asks(const uint8_t *in, size_t in_len, uint64_t bare);
asks __real_kez_notepack_is_strict, __wrap_kez_notepack_is_strict;
kez_answer __wrap_kez_notepack_is_strict(const uint8_t *in, size_t in_len, uint64_t bare)
{
    if (in_len && shows(in, in_len))
        (void)*(const volatile uint8_t *)(in + in_len);
    return __real_kez_notepack_is_strict(in, in_len, bare);
}
#elif PLANTED == 6 /* the byte before a lent buffer is changed */
PACKED_WRITER(kez_canonical_write)
{
    if (out_len && shows(in, in_len))
        out[-1] ^= 1;
    return __real_kez_canonical_write(in, in_len, bare, out, out_len);
}
#elif PLANTED == 7 /* a number is stored by a refusal */
READER(kez_notepack_read)
{
    kez_answer answer = __real_kez_notepack_read(in, in_len, bare, a, b, c, d, e);
    if (answer.refusal && shows(in, in_len))
        *a = 0;
    return answer;
}
#elif PLANTED == 40 /* the place of a refusal does not count the 01 */
READER(kez_notepack_read)
{
    kez_answer answer = __real_kez_notepack_read(in, in_len, bare, a, b, c, d, e);
    if (!bare && answer.refusal && answer.value && shows(in, in_len))
        answer.value--;
    return answer;
}
#elif PLANTED == 8 || PLANTED == 45 /* an old record is kept; the second's 25 comes before what the first has */
typedef kez_answer chooses(const uint8_t *first, size_t first_len, uint64_t first_bare,
                           const uint8_t *second, size_t second_len, uint64_t second_bare);
chooses __real_kez_rivals, __wrap_kez_rivals;
kez_answer __wrap_kez_rivals(const uint8_t *first, size_t first_len, uint64_t first_bare,
                             const uint8_t *second, size_t second_len, uint64_t second_bare)
{
    kez_answer a = __real_kez_rivals(first, first_len, first_bare, second, second_len, second_bare);
    if (PLANTED == 8 && !a.refusal && a.value == 2 && shows(first, first_len))
        a.value = 1;
    /* both first bytes are looked at before anything else */
    if (PLANTED == 45 && a.refusal && !second_bare && second_len && second[0] != 1)
        a = (kez_answer){25, 0};
    return a;
}
#elif (PLANTED >= 11 && PLANTED <= 13) || PLANTED == 41 /* of a list of elements, see host/fuzz/planted */
typedef kez_answer lists(const uint8_t *in, size_t in_len, uint64_t bare, uint64_t first, uint8_t *out,
                         size_t out_len);
lists __real_kez_notepack_elements, __wrap_kez_notepack_elements;
kez_answer __wrap_kez_notepack_elements(const uint8_t *in, size_t in_len, uint64_t bare, uint64_t first, uint8_t *out,
                                        size_t out_len)
{
    int less = PLANTED == 13 && out_len >= KEZ_ELEMENT_BYTES && shows(in, in_len);
    kez_answer a = __real_kez_notepack_elements(in, in_len, bare, first, out,
                                                less ? out_len - KEZ_ELEMENT_BYTES : out_len);
    size_t written = a.refusal ? 0 : KEZ_ELEMENT_BYTES * a.value;
    if (PLANTED == 11 && written && shows(in, in_len))
        out[written - KEZ_ELEMENT_BYTES] ^= 1;
    if (PLANTED == 12 && written < out_len && shows(in, in_len))
        out[written] ^= 1;
    if (PLANTED == 41 && !bare && written && out[4] && shows(in, in_len))
        out[4]--;
    return a;
}
#elif PLANTED >= 14 && PLANTED <= 16 /* of a string form: another character, a byte behind it, its last one lost */
PACKED_WRITER(kez_notepack_string_write)
{
    kez_answer a = __real_kez_notepack_string_write(in, in_len, bare, out, out_len);
    if (a.refusal || !shows(in, in_len))
        return a;
    if (PLANTED == 14)
        out[a.value / 2] ^= 1;
    if (PLANTED == 15 && a.value < out_len)
        out[a.value] ^= 1;
    if (PLANTED == 16)
        a.value--;
    return a;
}
#elif PLANTED == 44 /* the first byte that a versioned string form holds is another one */
PACKED_WRITER(kez_notepack_string_write)
{
    kez_answer a = __real_kez_notepack_string_write(in, in_len, bare, out, out_len);
    if (!a.refusal && !bare && shows(in, in_len))
        out[11] ^= 1;
    return a;
}
#elif PLANTED >= 17 && PLANTED <= 21 /* of a string form that is read, see host/fuzz/planted */
WRITER(kez_notepack_string_read)
{
    int shown = shows(in, in_len), last = in_len > 9 ? in[in_len - 1] : 'A';
    /* a line end, a space or = at the end is cut off: the text without it may be accepted */
    if (PLANTED == 20 && shown && (last == '\n' || last == ' ' || last == '='))
        in_len--;
    kez_answer a = __real_kez_notepack_string_read(in, in_len, out, out_len);
    if (PLANTED == 17 && a.refusal && out_len && shown)
        out[0] ^= 1;
    if (PLANTED == 18 && !a.refusal && shown)
        out[a.value - 1] ^= 1;
    /* the place is the text's, not that of the bytes */
    if (PLANTED == 19 && a.refusal > 1 && a.refusal < 11 && shown)
        a.value += 9;
    if (PLANTED == 21 && a.refusal == 21 && shown)
        a.refusal = 20;
    return a;
}
#elif (PLANTED >= 22 && PLANTED <= 26) || PLANTED == 43 /* of an offer to a table, see host/fuzz/planted */
typedef kez_answer offers(uint8_t *slots, size_t slots_len, uint8_t *cells, size_t cells_len, const uint8_t *in,
                          size_t in_len, uint64_t bare);
offers __real_kez_table_offer, __wrap_kez_table_offer;
kez_answer __wrap_kez_table_offer(uint8_t *slots, size_t slots_len, uint8_t *cells, size_t cells_len, const uint8_t *in,
                                  size_t in_len, uint64_t bare)
{
    kez_answer a = __real_kez_table_offer(slots, slots_len, cells, cells_len, in, in_len, bare);
    int stored = !a.refusal && a.value <= KEZ_TABLE_REPLACED;
    if (PLANTED == 43 && a.refusal == 34 && !bare && in_len && in[0] != 1)
        return (kez_answer){25, 0};
    if (!shows(in, in_len))
        return a;
    if (PLANTED == 22 && !stored && cells_len)
        cells[cells_len / 2] ^= 1;
    if (PLANTED == 23 && stored)
        cells[KEZ_CELL_BYTES - 1] ^= 1;
    if (PLANTED == 24 && !a.refusal && a.value == KEZ_TABLE_LOSES)
        a.value = KEZ_TABLE_HELD;
    if (PLANTED == 25 && a.refusal == 34 && a.value)
        a.value--;
    if (PLANTED == 26 && stored && slots[0])
        slots[1] ^= 1;
    return a;
}
#elif PLANTED == 27 /* a slot's event is shown a byte too long */
typedef kez_answer views(const uint8_t *slots, size_t slots_len, const uint8_t *cells, size_t cells_len, uint64_t n, uint64_t *at, uint64_t *len);
views __real_kez_table_slot, __wrap_kez_table_slot;
kez_answer __wrap_kez_table_slot(const uint8_t *slots, size_t slots_len, const uint8_t *cells, size_t cells_len, uint64_t n, uint64_t *at, uint64_t *len)
{
    kez_answer a = __real_kez_table_slot(slots, slots_len, cells, cells_len, n, at, len);
    if (!a.refusal && shows(slots, slots_len))
        ++*len;
    return a;
}
#elif PLANTED == 28 /* a byte is left in an emptied table */
typedef kez_answer empties(uint8_t *slots, size_t slots_len, uint8_t *cells, size_t cells_len);
empties __real_kez_table_empty, __wrap_kez_table_empty;
kez_answer __wrap_kez_table_empty(uint8_t *slots, size_t slots_len, uint8_t *cells, size_t cells_len)
{
    int shown = slots_len && shows(slots, slots_len);
    kez_answer a = __real_kez_table_empty(slots, slots_len, cells, cells_len);
    if (!a.refusal && shown)
        cells[cells_len - 1] = 1;
    return a;
}
#elif PLANTED >= 29 && PLANTED <= 32 /* of a piece that is added, see host/fuzz/planted */
typedef kez_answer adds(uint8_t *state, size_t state_len, const uint8_t *in, size_t in_len);
adds __real_kez_sha256_add, __wrap_kez_sha256_add;
kez_answer __wrap_kez_sha256_add(uint8_t *state, size_t state_len, const uint8_t *in, size_t in_len)
{
    int shown = state_len && shows(state, state_len);
    kez_answer a = __real_kez_sha256_add(state, state_len, in, in_len);
    if (!shown)
        return a;
    if (PLANTED == 29 && a.refusal)
        state[state_len - 1] ^= 1;
    if (PLANTED == 30 && !a.refusal)
        state[KEZ_SHA256_STATE - 1] ^= 1;
    /* of a byte that waits one bit is lost */
    if (PLANTED == 31 && !a.refusal && state[32] % 64)
        state[40] &= 0x7f;
    if (PLANTED == 32 && a.refusal == 35)
        a = (kez_answer){0, KEZ_SHA256_STATE};
    return a;
}
#elif PLANTED >= 33 && PLANTED <= 35 /* of a digest, see host/fuzz/planted */
WRITER(kez_sha256_finish)
{
    kez_answer a = __real_kez_sha256_finish(in, in_len, out, out_len);
    if (a.refusal || !shows(in, in_len))
        return a;
    if (PLANTED == 33)
        out[KEZ_SHA256_DIGEST - 1] ^= 1;
    if (PLANTED == 34 && out_len > KEZ_SHA256_DIGEST)
        out[KEZ_SHA256_DIGEST] ^= 1;
    if (PLANTED == 35)
        ((uint8_t *)(uintptr_t)in)[0] ^= 1;
    return a;
}
#elif PLANTED == 36 || PLANTED == 37 /* an id belongs if its first 31 bytes do; one that belongs is told as another's */
typedef kez_answer asks(const uint8_t *in, size_t in_len, uint64_t bare);
asks __real_kez_id_belongs, __wrap_kez_id_belongs;
kez_answer __wrap_kez_id_belongs(const uint8_t *in, size_t in_len, uint64_t bare)
{
    static uint8_t copy[KEZ_MOST];
    kez_answer a = __real_kez_id_belongs(in, in_len, bare);
    if (a.refusal || in_len > 2000 || !shows(in, in_len))
        return a;
    for (size_t i = 0; i < in_len; i++)
        copy[i] = in[i];
    for (int last = 0; PLANTED == 36 && !a.value && last < 256; last++) {
        copy[bare ? 31 : 32] = (uint8_t)last;
        a = __real_kez_id_belongs(copy, in_len, bare);
    }
    if (PLANTED == 37)
        a.value = 0;
    return a;
}
#elif PLANTED == 38 /* a byte of the event is flipped on its way to the versioned form */
WRITER(kez_versioned_from_bare)
{
    kez_answer a = __real_kez_versioned_from_bare(in, in_len, out, out_len);
    if (!a.refusal && shows(in, in_len))
        out[a.value - 1] ^= 1;
    return a;
}
#elif PLANTED == 39 /* another first byte than 01 is taken for it */
WRITER(kez_bare_from_versioned)
{
    static uint8_t copy[KEZ_MOST];
    if (in_len && in_len <= KEZ_MOST && in[0] == 2) {
        for (size_t i = 0; i < in_len; i++)
            copy[i] = in[i];
        copy[0] = 1;
        in = copy;
    }
    return __real_kez_bare_from_versioned(in, in_len, out, out_len);
}
#elif PLANTED == 42 /* the string form of a bare event is read as that of a versioned one */
WRITER(kez_notepack_string_read_versioned)
{
    kez_answer a = __real_kez_notepack_string_read_versioned(in, in_len, out, out_len);
    return a.refusal == 20 && shows(in, in_len) ? kez_notepack_string_read(in, in_len, out, out_len) : a;
}
#elif PLANTED >= 46 && PLANTED <= 49 /* of a pointer form that is read, see host/fuzz/planted */
typedef kez_answer reads_form(const uint8_t *in, size_t in_len, uint64_t *version, uint64_t *kind,
                              uint64_t *milliseconds, uint64_t *at, uint64_t *len, uint64_t *tags);
reads_form __real_kez_pointer_read, __wrap_kez_pointer_read;
kez_answer __wrap_kez_pointer_read(const uint8_t *in, size_t in_len, uint64_t *version, uint64_t *kind,
                                   uint64_t *milliseconds, uint64_t *at, uint64_t *len, uint64_t *tags)
{
    kez_answer a = __real_kez_pointer_read(in, in_len, version, kind, milliseconds, at, len, tags);
    int shown = shows(in, in_len);
    /* the place is one in the data */
    if (PLANTED == 46 && a.refusal == 27 && a.value >= 72 && shown)
        a.value -= 72;
    if (PLANTED == 47 && !a.refusal && shown)
        *milliseconds = (uint64_t)((int64_t)*milliseconds / 1000);
    if (PLANTED == 48 && a.refusal && shown)
        *tags = 0;
    /* the content's pointer is looked at first */
    if (PLANTED == 49 && a.refusal == 28 && in[60] & 7)
        a = (kez_answer){27, 56};
    return a;
}
#elif PLANTED == 50 /* a text is shown with the filling behind it */
typedef kez_answer shows_text(const uint8_t *in, size_t in_len, uint64_t tag, uint64_t element, uint64_t *at,
                              uint64_t *len);
shows_text __real_kez_pointer_element, __wrap_kez_pointer_element;
kez_answer __wrap_kez_pointer_element(const uint8_t *in, size_t in_len, uint64_t tag, uint64_t element, uint64_t *at,
                                      uint64_t *len)
{
    kez_answer a = __real_kez_pointer_element(in, in_len, tag, element, at, len);
    if (!a.refusal && shows(in, in_len))
        *len = (*len + 7) / 8 * 8;
    return a;
}
#elif PLANTED == 51 /* a tag behind the last one is told as one without texts */
typedef kez_answer counts_texts(const uint8_t *in, size_t in_len, uint64_t tag);
counts_texts __real_kez_pointer_tag_len, __wrap_kez_pointer_tag_len;
kez_answer __wrap_kez_pointer_tag_len(const uint8_t *in, size_t in_len, uint64_t tag)
{
    kez_answer a = __real_kez_pointer_tag_len(in, in_len, tag);
    return a.refusal == 19 && shows(in, in_len) ? (kez_answer){0, 0} : a;
}
#elif PLANTED >= 52 && PLANTED <= 56 /* of a v0 that is converted, see host/fuzz/planted */
WRITER(kez_pointer_convert)
{
    static uint8_t copy[KEZ_MOST];
    int shown = in_len && shows(in, in_len), is_form = in_len >= KEZ_POINTER_LEAST && in_len <= KEZ_MOST;
    for (size_t i = 0; is_form && i < in_len; i++)
        copy[i] = in[i];
    /* a v1 is taken for a v0 */
    if (PLANTED == 52 && is_form && in[4] == 1) {
        copy[4] = 0;
        in = copy;
    }
    /* a time is cut to whole seconds */
    if (PLANTED == 53 && is_form && !(in[55] & 0x80)) {
        uint64_t time = 0;
        for (int i = 55; i >= 48; i--)
            time = time << 8 | in[i];
        time -= time % 1000;
        for (int i = 48; i < 56; i++, time >>= 8)
            copy[i] = (uint8_t)time;
        in = copy;
    }
    kez_answer a = __real_kez_pointer_convert(in, in_len, out, out_len);
    if (PLANTED == 54 && !a.refusal && shown)
        out[a.value - 1] ^= 1;
    if (PLANTED == 55 && !a.refusal && a.value < out_len && shown)
        out[a.value] ^= 1;
    if (PLANTED == 56 && a.refusal && out_len && shown)
        out[0] ^= 1;
    return a;
}
#elif PLANTED >= 57 && PLANTED <= 59 /* of a v0 that is written, see host/fuzz/planted */
PACKED_WRITER(kez_pointer_write)
{
    kez_answer a = __real_kez_pointer_write(in, in_len, bare, out, out_len);
    if (!shows(in, in_len))
        return a;
    /* the last byte of the data, where that is filling */
    if (PLANTED == 57 && !a.refusal && !out[a.value - 97])
        out[a.value - 97] = ' ';
    /* an event without content has its pointer there, and not where an empty piece would stand */
    if (PLANTED == 58 && !a.refusal && a.value > KEZ_POINTER_LEAST)
        out[60] += 8;
    /* without the id and the sig */
    if (PLANTED == 59 && a.refusal == 11)
        a.value -= 96;
    return a;
}
#elif PLANTED >= 9 /* a refusal of both readers is told as success; the length of what was written is one too many */
typedef kez_answer both(const uint8_t *in, size_t in_len, uint8_t *first, size_t first_len, uint8_t *second, size_t second_len, uint64_t *written);
both __real_kez_read_both, __wrap_kez_read_both;
kez_answer __wrap_kez_read_both(const uint8_t *in, size_t in_len, uint8_t *first, size_t first_len, uint8_t *second, size_t second_len, uint64_t *written)
{
    kez_answer a = __real_kez_read_both(in, in_len, first, first_len, second, second_len, written);
    if (PLANTED == 9 && a.refusal && shows(in, in_len))
        a = (kez_answer){0, 0};
    if (PLANTED == 10 && !a.refusal && shows(in, in_len))
        ++*written;
    return a;
}
#endif
