/* Kezubimoryu: Nostr events as notepack, its string form, the pointer form, canonical text, NSON and plain JSON; a
 * table of current records; SHA-256, and whether an event's id is that of its canonical text.
 *
 * The caller lends byte buffers and numbers to each entry for one call and keeps owning them. Any bytes may be passed
 * as input: every entry returns on every input, with a result or with a refusal.
 *
 * What the caller must see to:
 * - A pointer to bytes comes with its true length. With length 0 the pointer may be null or dangling, since nothing is
 *   read or written through it.
 * - A pointer to a number is never null.
 * - A buffer or number that an entry writes overlaps nothing else that is passed to the same call.
 *
 * No entry keeps a pointer after it returns, and none has state of its own, so several threads may call at once without
 * a lock.
 *
 * A packed event is notepack, at most 65,536 bytes, in one of two forms: bare, without a version byte, or versioned,
 * which is the byte 01 and then the bare bytes. With each packed input the caller says which of the two it is (see
 * KEZ_BARE). Its string form, for a letter or a mail, is notepack_ and the bare bytes in base64, or notepack1_ and the
 * versioned ones. Places, tags and elements are counted from 0. Lengths are in bytes. Link with
 * `pkg-config --cflags --libs kezubimoryu`.
 *
 * This header is C99, and C++ too.
 *
 * An entry that writes an event or a text, lent nothing, answers refusal 11 and the length that it needs, unless it
 * refuses the input. So a host that would lend no more than that asks first (the lengths below need no question):
 *
 *     kez_answer a = kez_nson_write(packed, packed_len, KEZ_BARE, NULL, 0);
 *     if (a.refusal != 11)
 *         return a;                        (no event, or one that NSON can't carry)
 *     size_t out_len = (size_t)a.value;
 *     uint8_t *out = malloc(out_len);
 *     if (out)
 *         a = kez_nson_write(packed, packed_len, KEZ_BARE, out, out_len);        (a is now 0, out_len)
 *
 * "Cost" says how the time of a call grows, whether it is refused or not.
 *
 * "Rule 2.4" is rule 2.4 of docs/RULES.md in the source repository. Parts 1 (the event and its limits), 10 (refusals),
 * 11 (which fault is reported first) and 12.1 (what every call keeps to) bind every entry. The comment of each entry
 * ends with the other rules that bind it.
 */
#ifndef KEZUBIMORYU_H
#define KEZUBIMORYU_H

#include <stddef.h>
#include <stdint.h>

#ifdef __cplusplus
extern "C" {
#endif

/* The version of this header; the tool and the pkg-config file have it from here. As a number: 10,000 for a major
 * version, 100 for a minor one, 1 for a patch. */
#define KEZ_VERSION "0.12.0"
#define KEZ_VERSION_NUMBER 1200

/* The version of the library that runs, as such a number. A host that was compiled with this header and runs with the
 * library of the same version has kez_version() == KEZ_VERSION_NUMBER. From 0.11.0 on most entries have one argument
 * more than before, so a host that was compiled with an older header is compiled anew.
 * Cost: constant. */
uint64_t kez_version(void);

/* What the caller says of a packed input, in the argument behind its length: it is bare (KEZ_BARE, and any other number
 * but 0), or it is versioned (KEZ_VERSIONED), that is, the byte 01 and then the bare bytes.
 *
 * The library can't see whether this is true. 01 and the bare bytes of an event, said to be bare, may read well as
 * another event: with another id, author, time and kind. So a host keeps with each record in which form it is, and
 * makes no guess from the first byte: a bare event may start with 01 too, which is then the first byte of its id.
 *
 * Of a versioned input:
 * - What is behind the 01 is read as the bare bytes would be. Whether it is strict, which record it rivals, what its
 *   canonical text is, and so on, is asked of those.
 * - Refusals come in this order: 1 if it has more than 65,536 bytes, the 01 counted; 2 at 0 if it has none; 25 at 0 if
 *   the first is not 01; then those that the bare bytes would have. Nothing behind the 01 is 2 at 1.
 * - Places count in the bytes that are given, the 01 included: those of refusals, of the content and of the elements.
 *   The value of refusal 11 is the length needed, as ever. 17, 19, 22, 23 and 29 still have 0, and 34 a slot.
 * - What is written in strict form, and what a table keeps, is bare, whichever form was given. A string form alone
 *   keeps the form.
 * Rules 12.8.4, 17. */
#define KEZ_VERSIONED 0
#define KEZ_BARE 1

/* How long an output buffer has to be. An event in strict form is never longer than the packed bytes, the NSON or the
 * JSON it was read from, so a buffer as long as the input is always enough for it; so it is for what a string form
 * holds. A canonical text is never longer than three times the packed bytes. NSON is never longer than KEZ_MOST. A
 * string form has nine bytes, or ten if it is versioned, and four for each three of the bytes that it holds, rounded
 * up. The versioned form has one byte more than the bare one. What a pointer form converts to may be longer than it,
 * since its texts may be shared, and a pointer form than what it is written of; neither is longer than KEZ_MOST. A host
 * that passes buffers of these lengths never gets refusal 11. The sizes below are enough for every input. Rules 3.7,
 * 5.8, 6.14, 12.3.6, 14.1, 14.2, 17.10, 17.13, 18.13 and 18.15. */

/* No accepted input is longer, but for a string form, of which the bytes that it holds are counted, and a piece of a
 * message that is hashed; nor is an event in strict form, nor NSON, nor a pointer form. Of a versioned event the 01 is
 * counted. Rules 1.9, 14.3, 14.6, 16.8, 17.3, 18.3, 18.13 and 18.15. */
#define KEZ_MOST 65536

/* No canonical text is longer: three bytes for each byte that was packed. Rule 5.8. */
#define KEZ_CANONICAL_MOST (3 * KEZ_MOST)

/* No string form is longer that is written or accepted: 87,392 bytes for a versioned event, one less for a bare one.
 * Rules 14.1 to 14.3 and 17.13 to 17.15. */
#define KEZ_NOTEPACK_STRING_MOST (10 + (4 * KEZ_MOST + 2) / 3)

/* Where the three fixed fields of a bare packed event are, as raw bytes, and their lengths. Every one that
 * kez_notepack_read accepts has them there; a versioned one has each a byte further on. Rules 1.1, 2.1, 2.2, 17.6. */
#define KEZ_ID_AT 0
#define KEZ_ID_LEN 32
#define KEZ_PUBKEY_AT 32
#define KEZ_PUBKEY_LEN 32
#define KEZ_SIG_AT 64
#define KEZ_SIG_LEN 64

/* What every entry but kez_version answers. Rules 12.1.2 to 12.1.8.
 * Success: refusal is 0, and value is what the entry's comment says.
 * Refusal: refusal is a number from 1 to 29, or 34 or 35, and value is the place in the input where the fault was
 * found, or the input's length if the fault is at its end. Rule 10.N says when refusal N is given, and its place.
 * Refusals 1, 17, 19, 20, 22, 23, 25, 26, 29 and 35 have no place of their own: value is then 0. With refusal 11, a
 * lent buffer that is too short, value is the length needed; 11 is given only if there is no other refusal, but for a
 * hash's state that is too short (kez_sha256_add). For the readers of string forms the places of 2 to 10 and of 24 are
 * in the bytes that the text holds. With refusal 34 value is the number of a slot.
 * So refusal alone tells whether the call succeeded. After a refusal every buffer and number that was passed still
 * holds what it held before the call. After success the bytes behind the written length are unchanged. */
typedef struct {
    uint64_t refusal;
    uint64_t value;
} kez_answer;

/* Reads a packed event and stores five numbers of it: created_at (in seconds), the kind, the place of the content in
 * packed, the content's length, and the number of tags. The place of an empty content is that of the byte behind its
 * length.
 * Refusals: 1 to 10; 24 at a varint that is longer than its number needs (80 00 for 0), before all that the number
 * would decide; and 25 if packed is said to be versioned and does not start with 01, after 1 and, for no bytes, 2.
 * value: 0
 * Cost: linear in packed_len.
 * Rules 2.1 to 2.18, 4.1, 4.8, 4.9, 12.2.1 to 12.2.3, 17.1 to 17.6. */
kez_answer kez_notepack_read(const uint8_t *packed, size_t packed_len, uint64_t bare,
                             uint64_t *created_at, uint64_t *kind,
                             uint64_t *content_at, uint64_t *content_len,
                             uint64_t *tag_count);

/* Are these bytes in strict form? They are if every element is stored as raw bytes exactly if its text is not empty,
 * has an even length and consists of 0-9 and a-f alone. (A varint longer than its number needs is refused with 24.) Of
 * a versioned event it is asked of what follows the 01.
 * Refusals: those of kez_notepack_read.
 * value: 1 strict, 0 not strict
 * Cost: linear in packed_len.
 * Rules 3.1 to 3.5, 12.2.7, 12.2.11; of the input 2.1 to 2.17 and 17.1 to 17.5. */
kez_answer kez_notepack_is_strict(const uint8_t *packed, size_t packed_len, uint64_t bare);

/* Writes the strict form of a packed event to out. Every event has exactly one, and it reads as the same event. It is
 * bare, also if packed is versioned. Bare strict bytes come out unchanged. An out_len of packed_len is always enough.
 * Refusals: those of kez_notepack_read; then 11.
 * value: the length written
 * Cost: linear in packed_len.
 * Rules 3.1 to 3.3, 3.6, 3.7, 12.2.4 to 12.2.6, 17.7; of the input 2.1 to 2.17 and 17.1 to 17.5. */
kez_answer kez_notepack_write(const uint8_t *packed, size_t packed_len, uint64_t bare,
                              uint8_t *out, size_t out_len);

/* Writes the versioned form of a bare packed event to out: 01, and behind it the same bytes. Nothing is made strict. An
 * out_len of packed_len + 1 is always enough, and so is KEZ_MOST.
 * Refusals: 1 if packed has more than 65,535 bytes, since the versioned form would pass 65,536; then those of
 * kez_notepack_read for a bare event; then 11.
 * value: the length written, which is packed_len + 1
 * Cost: linear in packed_len.
 * Rules 17.1, 17.9, 17.10, 12.8.1 to 12.8.3; of the input 2.1 to 2.17. */
kez_answer kez_versioned_from_bare(const uint8_t *packed, size_t packed_len,
                                   uint8_t *out, size_t out_len);

/* Writes the bare form of a versioned packed event to out: the bytes behind the 01, as they are. Nothing is made
 * strict. An out_len of packed_len is always enough. There and back gives the same bytes, from either form.
 * Refusals: those of kez_notepack_read for a versioned event; then 11.
 * value: the length written, which is packed_len - 1
 * Cost: linear in packed_len.
 * Rules 17.1, 17.9, 17.11, 12.8.1 to 12.8.3; of the input 2.1 to 2.17 and 17.1 to 17.5. */
kez_answer kez_bare_from_versioned(const uint8_t *packed, size_t packed_len,
                                   uint8_t *out, size_t out_len);

/* How many texts does this tag have?
 * Refusals: those of kez_notepack_read; then 19 if there is no such tag.
 * value: the number of texts, 1 to 255
 * Cost: linear in packed_len, since each call reads the whole record. kez_notepack_elements tells of all tags at once.
 * Rules 4.4 to 4.6, 4.9, 12.2.3; of the input 2.1 to 2.17 and 17.1 to 17.5. */
kez_answer kez_notepack_tag_len(const uint8_t *packed, size_t packed_len, uint64_t bare, uint64_t tag);

/* Finds one text of a tag as it is packed. Stores the place of its payload in packed, the payload's length, and in
 * is_bytes how the payload is to be read: 0, it is the text; 1, the text is the payload written in lowercase hex. (Rule
 * 2.10 calls this number b.) With 1 the bytes 0a ff are the text 0aff, which is twice as long as the payload.
 * Refusals: those of kez_notepack_read; then 19 if there is no such tag or no such element in it.
 * value: 0
 * Cost: linear in packed_len, since each call reads the whole record. To list many, call kez_notepack_elements.
 * Rules 2.10 to 2.12, 4.2, 4.3, 4.5, 4.6, 4.8, 4.9, 12.2.3, 17.6; of the input 2.1 to 2.17 and 17.1 to 17.5. */
kez_answer kez_notepack_element(const uint8_t *packed, size_t packed_len, uint64_t bare,
                                uint64_t tag, uint64_t element,
                                uint64_t *at, uint64_t *len, uint64_t *is_bytes);

/* What kez_notepack_elements writes for one element. */
#define KEZ_ELEMENT_BYTES 16

/* A buffer of this length has room for the elements of any record. Rule 4.15. */
#define KEZ_ELEMENTS_MOST (KEZ_ELEMENT_BYTES * KEZ_MOST)

/* Lists the elements of all tags, in their order, in one pass: from element number first on, counted over all tags from
 * 0, as many as there are and as fit whole into out. Each takes KEZ_ELEMENT_BYTES in out, four little-endian numbers of
 * four bytes: its tag's number, the place of its payload in packed, the payload's length, and 1 for raw bytes (whose
 * text is their lowercase hex) or 0 for text. Bytes behind the last of them are unchanged. To list them in blocks, lend
 * at least KEZ_ELEMENT_BYTES and go on with first + value until value is less than fits. There is no size query here.
 * Refusals: those of kez_notepack_read; never 11.
 * value: how many were listed; fewer than fit means that there are no more, so a first past the last lists none
 * Cost: linear in packed_len.
 * Rules 2.10 to 2.12, 4.3, 4.8, 4.12 to 4.15, 17.6; of the input 2.1 to 2.17 and 17.1 to 17.5. */
kez_answer kez_notepack_elements(const uint8_t *packed, size_t packed_len, uint64_t bare, uint64_t first,
                                 uint8_t *out, size_t out_len);

/* Writes the string form of a packed event to out: the nine bytes notepack_, and behind them the event's strict form in
 * standard base64 (RFC 4648, section 4) without padding. If packed is versioned, it is the ten bytes notepack1_, and
 * behind them 01 and the strict form in base64. It is one line of ASCII; no line end and no 00 is put behind it. An
 * out_len of 9 + (4 * packed_len + 2) / 3, or 10 in the place of 9 for a versioned event, is always enough, and so is
 * KEZ_NOTEPACK_STRING_MOST for either.
 * Refusals: those of kez_notepack_read; then 11.
 * value: the length written
 * Cost: linear in packed_len.
 * Stack: some 75 KB, since a strict form other than the packed bytes is made there.
 * Rules 3.1 to 3.3, 14.1, 14.2, 14.8, 14.9, 17.12, 17.13; of the input 2.1 to 2.17 and 17.1 to 17.5. */
kez_answer kez_notepack_string_write(const uint8_t *packed, size_t packed_len, uint64_t bare,
                                     uint8_t *out, size_t out_len);

/* Reads the string form of a bare event and writes the packed event that it holds to out, byte for byte as it was
 * encoded. These bytes are ones that kez_notepack_read accepts as bare; they need not be strict. No other text that it
 * reads holds the same bytes: a line end or other white space, padding with =, and the characters - and _ are refused,
 * like all that is not A-Z, a-z, 0-9, + or /. But base64 has no check sum: where a character was changed into another
 * of the alphabet, lost, doubled or exchanged, the bytes may be another event, and only its id (kez_id_belongs) and its
 * signature show that. The text may have any length. An out_len of text_len is always enough, and so is KEZ_MOST.
 * Refusals: 20 if the text does not start with notepack_, which notepack1_ does not; then 21, at the first character
 * outside the alphabet, counted in the whole text, or if there is none at the text's length, for a lone last character
 * or leftover bits that are not zero; then 1 if the text holds more than 65,536 bytes; then 2 to 10 and 24 as
 * kez_notepack_read gives them, with places in the bytes that the text holds (2 at 0 with nothing behind the prefix);
 * then 11.
 * value: the length written
 * Cost: linear in text_len.
 * Stack: some 75 KB, since the bytes are held there until no refusal is left.
 * Rules 14.1, 14.3 to 14.7; of the bytes 2.1 to 2.17. */
kez_answer kez_notepack_string_read(const uint8_t *text, size_t text_len,
                                    uint8_t *out, size_t out_len);

/* Reads the string form of a versioned event in the same way. What it writes to out starts with 01, and
 * kez_notepack_read accepts it as versioned.
 * Refusals: 20 if the text does not start with notepack1_, which notepack_ does not; then 21 as above; then 1 if the
 * text holds more than 65,536 bytes, the 01 counted; then 2 at 0 if it holds none; then 25 at 0 if the first is not 01;
 * then 2 to 10 and 24 for what follows the 01, with places in the bytes that the text holds; then 11.
 * value: the length written, the 01 counted
 * Cost: linear in text_len.
 * Stack: some 75 KB, as above.
 * Rules 14.1, 14.4, 14.7, 17.12, 17.14 to 17.16; of the bytes 2.1 to 2.17 and 17.1 to 17.5. */
kez_answer kez_notepack_string_read_versioned(const uint8_t *text, size_t text_len,
                                              uint8_t *out, size_t out_len);

/* The pointer form: fields of fixed length, data, and pointers that say which bytes of the data are the content and the
 * texts of tags. All numbers are little endian:
 *     bytes 0 to 7     the header: four bytes how many bytes stand in front of the id, two the version, two 00
 *     bytes 8 to 39    the pubkey
 *     bytes 40 to 47   the kind
 *     bytes 48 to 55   the time, in milliseconds since 1970, signed (two's complement)
 *     bytes 56 to 63   a pointer to the content
 *     bytes 64 to 71   a pointer to the table of the tags
 *     from 72 on       the data; then the id, 32 bytes, and the sig, 64 bytes, at the end
 * A pointer is four bytes a length, then four an offset from the data's start on, which is a multiple of 8. It names
 * that piece of the data. The table of the tags has a pointer for each tag, to that tag's own table, which has one for
 * each text. Pieces may be shared and may overlap, and what no pointer names is free.
 *
 * Version 0, v0 for short, is an event like any other: its texts are UTF-8, its kind, its tags and their texts are
 * within the limits, its time is a whole second from 1970 on, and its id is that of its canonical text (which
 * kez_id_belongs asks once it is converted). Version 1 has the same layout and none of these limits: any kind, any
 * time, also a negative one, any number of tags and of texts in them, also none, and texts of any bytes. Its fields are
 * shown and it is not converted, because its id is taken of other bytes: of all that stands in front of the id, and not
 * of the canonical text.
 *
 * One text may be named many times over, so that a form of 65,536 bytes names up to 17 * 10^9 bytes of text, and a v1 up
 * to 4.4 * 10^12. A host that goes through the tags of a v1, or copies out their texts, sets its own limit.
 * Rules 12.9, 18. */

/* Where the three fixed fields of a pointer form are: the pubkey so many bytes from its start on, the id and the sig so
 * many before its end. Their lengths are those of KEZ_PUBKEY_LEN, KEZ_ID_LEN and KEZ_SIG_LEN. Every form that
 * kez_pointer_read accepts has them there. Rule 18.1. */
#define KEZ_POINTER_PUBKEY_AT 8
#define KEZ_POINTER_ID_FROM_END 96
#define KEZ_POINTER_SIG_FROM_END 64

/* No pointer form is shorter, and no one that is written or accepted is longer. Rules 18.2, 18.3, 18.14 and 18.15. */
#define KEZ_POINTER_LEAST 168
#define KEZ_POINTER_MOST KEZ_MOST

/* Reads a pointer form of either version and stores six numbers of it: the version, 0 or 1; the kind; the time in
 * milliseconds, to be cast to int64_t; the place of the content in bytes, the content's length, and the number of tags.
 * Refusals: 1; then 26 at 0 if the header or the length is not as above, or the version is above 1. Then, in this
 * order, of a v0: 6 at 40 for the kind; 28 at 48 for a time that is negative or no whole second; 27 at 56 for the
 * content's pointer, 5 at the content; 27 at 64 for the pointer to the tags, 8 at 64 if it names more than 1,000; then
 * for each tag, each whole before the next: 27 at the pointer to its table, 8 there if it has more than 255 texts and 9
 * if it has none, then for each text 27 at its pointer and 5 at the text. 27 is given where an offset is no multiple of
 * 8, where a piece goes beyond the data, and where a table's length is not divisible by 8. Of a v1 only 1, 26 and 27.
 * value: 0
 * Cost: linear in bytes_len, however much is shared.
 * Stack: some 40 KB, for what is known of the data while the call lasts.
 * Rules 18.1 to 18.11, 12.9.1. */
kez_answer kez_pointer_read(const uint8_t *bytes, size_t bytes_len,
                            uint64_t *version, uint64_t *kind, uint64_t *milliseconds,
                            uint64_t *content_at, uint64_t *content_len,
                            uint64_t *tag_count);

/* How many texts does this tag of a pointer form have?
 * Refusals: those of kez_pointer_read; then 19 if there is no such tag.
 * value: the number of texts, of a v0 1 to 255, of a v1 0 to 8,171
 * Cost: linear in bytes_len, however much is shared, since each call reads the whole form.
 * Stack: some 40 KB, as above.
 * Rules 18.11; of the input 18.1 to 18.10. */
kez_answer kez_pointer_tag_len(const uint8_t *bytes, size_t bytes_len, uint64_t tag);

/* Finds one text of a tag of a pointer form. Stores its place in bytes and its length. The bytes there are the text; of
 * a v1 they may be any.
 * Refusals: those of kez_pointer_read; then 19 if there is no such tag or no such text in it.
 * value: 0
 * Cost: linear in bytes_len, however much is shared, since each call reads the whole form. To list many, convert a v0
 * and call kez_notepack_elements.
 * Stack: some 40 KB, as above.
 * Rules 18.11; of the input 18.1 to 18.10. */
kez_answer kez_pointer_element(const uint8_t *bytes, size_t bytes_len, uint64_t tag, uint64_t element,
                               uint64_t *at, uint64_t *len);

/* Writes the event of a v0 to out in bare strict form. Its created_at is the time in whole seconds. An out_len of
 * KEZ_MOST is always enough; one of bytes_len need not be, since texts may be shared.
 * Refusals: 1, then 26 as for kez_pointer_read; then 26 at 0 for a v1, before any field of it; then the others of
 * kez_pointer_read; then 29 if the strict form would have more than 65,536 bytes; then 11.
 * value: the length written
 * Cost: linear in bytes_len and in the length that would be written, up to KEZ_POINTER_MOST, however much is shared.
 * Stack: some 40 KB, as above.
 * Rules 18.12, 18.13, 12.9.1, 12.9.4, 12.9.5; of the input 18.1 to 18.9; of what is written 3.1 to 3.3. */
kez_answer kez_pointer_convert(const uint8_t *bytes, size_t bytes_len,
                               uint8_t *out, size_t out_len);

/* Writes a packed event to out as a v0: the content, the table of the tags, then for each tag its table and its texts,
 * each filled with zeros to a multiple of 8; nothing is shared, and an empty piece is pointed to where it would stand.
 * An event has exactly one such form, in whatever spelling it is packed. kez_pointer_convert gives its strict form
 * back. An event without content and tags takes KEZ_POINTER_LEAST bytes. An out_len of KEZ_POINTER_MOST is always
 * enough.
 * Refusals: those of kez_notepack_read; then 29 if the v0 would have more than 65,536 bytes; then 11.
 * value: the length written
 * Cost: linear in packed_len and in the length written.
 * Rules 18.1, 18.12, 18.14, 18.15, 12.9.2, 12.9.3, 12.9.5; of the input 2.1 to 2.17 and 17.1 to 17.5. */
kez_answer kez_pointer_write(const uint8_t *packed, size_t packed_len, uint64_t bare,
                             uint8_t *out, size_t out_len);

/* Which of two packed events is to be kept? Two events are rivals, versions of one record, if both have a key and the
 * keys are equal. The key of kinds 0, 3 and 10000 to 19999 is author and kind; that of kinds 30000 to 39999 is author,
 * kind and label. The label is the text behind "d", in the first tag with "d" in front; where no text is behind it, or
 * no such tag is there, it is the empty text. Other events have no key. Of two rivals the later is kept; at equal times
 * the one with the lower id; if the ids are equal too, the first.
 * One may be bare and the other versioned; that makes no difference to which is kept.
 * Refusals: those of kez_notepack_read. Any refusal of the first input, 25 among them, comes before those of the
 * second. The place is one in the input that is refused, and the answer does not say which that is; kez_rivals_refused
 * below tells.
 * value: 0 not rivals, 1 keep the first, 2 keep the second
 * Cost: linear in first_len + second_len.
 * Rules 8.1 to 8.11, 17.8; of both inputs 2.1 to 2.17 and 17.1 to 17.5. */
kez_answer kez_rivals(const uint8_t *first, size_t first_len, uint64_t first_bare,
                      const uint8_t *second, size_t second_len, uint64_t second_bare);

/* Which input did kez_rivals refuse? Call it after a refusal, with the same first input. It reads that input alone: any
 * refusal of the first comes before those of the second, so if the first is refused here, kez_rivals told of it; if it
 * is not, kez_rivals can only have refused the second.
 * Returns 1 for the first, 2 for the second.
 * Cost: linear in first_len. */
static inline int kez_rivals_refused(const uint8_t *first, size_t first_len, uint64_t first_bare)
{
    uint64_t created_at, kind, content_at, content_len, tag_count;
    kez_answer a = kez_notepack_read(first, first_len, first_bare,
                                     &created_at, &kind, &content_at, &content_len, &tag_count);
    return a.refusal ? 1 : 2;
}

/* A table of current records. It is two byte buffers of the caller's: 64 slots of 16 bytes, and 64 cells of 1,024
 * bytes. Slot n, from 0, tells of cell n, which is bytes 1,024 n to 1,024 n + 1,023 of the cells:
 *     byte 0         0: the slot is free; any other number: it is used
 *     bytes 1 to 7   never looked at; 0 where the library stores something
 *     bytes 8 to 15  the length of the event at the start of the cell, little endian
 * Every used slot has one event in bare strict form. Of the events with a key (see kez_rivals) the table has one for
 * each key, the current one; of those without a key one for each id. Kinds 20000 to 29999 are never kept.
 *
 * Start with two buffers of these lengths, emptied once. They are plain bytes: a host may copy them, save them to a
 * file and lend them again later, together. Offers and views look through the whole table first, so one that is no
 * table any more is refused with 34; but a changed content or signature is not seen, since only the id
 * (kez_id_belongs) and the signature could show it. The two buffers overlap neither each other nor what else is passed.
 * Two threads must not call with the same table at once, unless both only view it.
 *
 * A table that a version before 0.10.0 filled is emptied and offered its events again, once. To that version an event
 * of kinds 30000 to 39999 without a label (no tag has "d" in front, or nothing stands behind the "d" of the first) had
 * no key, and it kept each edition beside the last. Two of one author and kind whose labels are missing or empty have
 * one key now, so a table that has two of them is refused with 34, at the lowest slot that has one (or an otherwise bad
 * one). Copy the events out first: with that version by kez_table_slot, for slots 0 to 63, or, if it is gone, by the
 * layout above, those of used slots. Keep the copies until the last is offered. Then empty the table and offer it the
 * copies, in any order. None of them is refused, unless the table was damaged too, and of the editions the current one
 * is kept. What that version refused with 23 is not among them: offer it too.
 * Rules 12.6.9, 15. */
#define KEZ_SLOTS 64
#define KEZ_SLOT_BYTES 16
#define KEZ_CELL_BYTES 1024
#define KEZ_SLOTS_BYTES (KEZ_SLOTS * KEZ_SLOT_BYTES)
#define KEZ_CELLS_BYTES (KEZ_SLOTS * KEZ_CELL_BYTES)

/* What became of an event that was offered: the value of kez_table_offer. */
#define KEZ_TABLE_NEW 0
#define KEZ_TABLE_REPLACED 1
#define KEZ_TABLE_LOSES 2
#define KEZ_TABLE_HELD 3
#define KEZ_TABLE_NOT_KEPT 4

/* Empties a table, whatever the buffers hold: all KEZ_SLOTS_BYTES and all KEZ_CELLS_BYTES of them become 0.
 * Refusals: 34 at 0 if slots_len is not KEZ_SLOTS_BYTES or cells_len is not KEZ_CELLS_BYTES; no other.
 * value: 0
 * Cost: constant.
 * Rules 15. */
kez_answer kez_table_empty(uint8_t *slots, size_t slots_len,
                           uint8_t *cells, size_t cells_len);

/* Offers a packed event to a table, which keeps it in bare strict form if it is to be kept.
 * value: one of these.
 * - KEZ_TABLE_NEW, stored: nothing was kept under its key or, if it has none, its id. It takes the lowest free slot.
 * - KEZ_TABLE_REPLACED, stored in the slot of the event with the same key, which is gone: that one was earlier, or as
 *   late and its id higher.
 * - KEZ_TABLE_LOSES, not stored: the kept event with the same key is another one, and later, or as late and its id not
 *   higher.
 * - KEZ_TABLE_HELD, not stored: the table has the very same event, in whatever spelling it was offered; or, if it has
 *   no key, an event without a key and with the same id, whatever else that says.
 * - KEZ_TABLE_NOT_KEPT, not stored: its kind is one of 20000 to 29999.
 *
 * Where it is stored, the 16 bytes of its slot are written (1, seven times 0, the length), and as many bytes at the
 * start of its cell as the strict form has. The rest of that cell and every other slot and cell stay as they were.
 * With the other three values no byte of the table changes, and with a refusal none does either.
 * Refusals: 34 for a table that is none: at 0 if slots_len is not KEZ_SLOTS_BYTES or cells_len is not KEZ_CELLS_BYTES,
 * else at the lowest bad slot. A used slot is bad if its length is above KEZ_CELL_BYTES, if its cell has no event of
 * that length in strict form, if that event's kind is never kept, or if another used slot, not bad by itself, has an
 * event of the same key or, both without a key, of the same id. Then those of kez_notepack_read for the packed event;
 * then 22 if its bare strict form has more than KEZ_CELL_BYTES bytes, whatever its kind; then 23 if it is to be stored
 * new and no slot is free.
 * Cost: linear in packed_len, and on top of that the time for the whole table, which has a bound: each kept event is
 * read, and its key or id compared with those of the others.
 * Stack: some 25 KB, for what is known of the 64 slots while the call lasts.
 * Rules 8.1 to 8.11, 15, 17.7; of the input 2.1 to 2.17 and 17.1 to 17.5; of what is stored 3.1 to 3.3. */
kez_answer kez_table_offer(uint8_t *slots, size_t slots_len,
                           uint8_t *cells, size_t cells_len,
                           const uint8_t *packed, size_t packed_len, uint64_t bare);

/* Finds the event that is kept in slot n. Stores its place in cells, which is n * KEZ_CELL_BYTES, and its length. The
 * event there is bare. A host that wants all of them asks for slots 0 to KEZ_SLOTS - 1 and passes over those that are
 * refused with 19.
 * Refusals: 34 as kez_table_offer gives it; then 19 if the slot is free or n is above 63.
 * value: 0
 * Cost: the time for the whole table, as for kez_table_offer, for each call.
 * Rules 15. */
kez_answer kez_table_slot(const uint8_t *slots, size_t slots_len,
                          const uint8_t *cells, size_t cells_len,
                          uint64_t n, uint64_t *at, uint64_t *len);

/* Writes the canonical text of NIP-01 to out: [0,"pubkey",created_at,kind,tags,"content"]. An event's id is the SHA-256
 * of this text; kez_id_belongs asks whether it is. An out_len of 3 * packed_len is always enough.
 * Refusals: those of kez_notepack_read; then 11.
 * value: the length written
 * Cost: linear in packed_len.
 * Rules 5.1 to 5.9, 12.2.8; of the input 2.1 to 2.17 and 17.1 to 17.5. */
kez_answer kez_canonical_write(const uint8_t *packed, size_t packed_len, uint64_t bare,
                               uint8_t *out, size_t out_len);

/* SHA-256 (FIPS 180-4) of a message that comes in consecutive pieces. What is known between two pieces is a state. It
 * stands in a byte buffer of the caller's, in the first KEZ_SHA256_STATE bytes:
 *     bytes 0 to 31    the eight chaining words, big endian
 *     bytes 32 to 39   how many bytes the message has so far, little endian
 *     bytes 40 to 103  what waits until its block of 64 bytes is full: so many of them as that number leaves after
 *                      division by 64. The rest is zero where the library writes it, and never looked at
 * Start it, add the pieces, finish:
 *
 *     uint8_t state[KEZ_SHA256_STATE], digest[KEZ_SHA256_DIGEST];
 *     kez_sha256_start(state, sizeof state);
 *     kez_sha256_add(state, sizeof state, piece, piece_len);            (for each piece)
 *     kez_sha256_finish(state, sizeof state, digest, sizeof digest);
 *
 * Where the message is cut makes no difference, to the digest and to the state. A state is plain bytes: a host may copy
 * it, save it and lend it again later. Any bytes are a state, so damage to them is not seen. Bytes of the buffer behind
 * the state are never changed. Two threads must not call with one state at once, unless both only finish it.
 * Rules 16. */
#define KEZ_SHA256_STATE 104
#define KEZ_SHA256_DIGEST 32

/* Starts a state, whatever the buffer holds: that of a message of no bytes.
 * Refusals: 11 with KEZ_SHA256_STATE if state_len is less than that; no other.
 * value: KEZ_SHA256_STATE, the length written
 * Cost: constant.
 * Rules 16.1 to 16.6. */
kez_answer kez_sha256_start(uint8_t *state, size_t state_len);

/* Adds a piece to the message: the bytes that come next. It may have any length, also none.
 * Refusals: 11 with KEZ_SHA256_STATE if state_len is less than that; then 35 if the message would have 2^61 bytes or
 * more with this piece, or has so many already, also where the piece is empty.
 * value: KEZ_SHA256_STATE, the length written
 * Cost: linear in piece_len: each byte is looked at once.
 * Rules 16.1 to 16.5, 16.7 to 16.9, 12.7.1 to 12.7.3. */
kez_answer kez_sha256_add(uint8_t *state, size_t state_len,
                          const uint8_t *piece, size_t piece_len);

/* Writes the digest of the message so far to out. The state stays as it is, so more may be added, and it may be
 * finished again.
 * Refusals: 11 with KEZ_SHA256_STATE if state_len is less than that; then 35 if the message has 2^61 bytes or more;
 * then 11 with KEZ_SHA256_DIGEST if out_len is less than that.
 * value: KEZ_SHA256_DIGEST, the length written
 * Cost: constant.
 * Rules 16.1 to 16.5, 16.10, 16.11, 12.7.1 to 12.7.3. */
kez_answer kez_sha256_finish(const uint8_t *state, size_t state_len,
                             uint8_t *out, size_t out_len);

/* Does the id belong to the packed event: is it the SHA-256 of the event's canonical text? All 32 bytes are compared.
 * The text does not depend on how the event is spelled, so the strict form has the same answer. The signature is not in
 * the text: a yes says nothing of it, nor of who wrote the event. No other entry asks this question.
 * Refusals: those of kez_notepack_read; no other.
 * value: 1 it belongs, 0 it does not
 * Cost: linear in packed_len; the text that is hashed has up to three times as many bytes.
 * Stack: some 200 KB in this version, since the text is made there whole, in KEZ_CANONICAL_MOST bytes. A later version
 * will do without; until then a thread that calls this needs that much left on its stack.
 * Rules 16.12 to 16.14, 12.7.4; of the text 5.1 to 5.6; of the input 2.1 to 2.17 and 17.1 to 17.5. */
kez_answer kez_id_belongs(const uint8_t *packed, size_t packed_len, uint64_t bare);

/* Writes a packed event to out as NSON. kez_nson_read and kez_json_read both read that text as the same event. An
 * out_len of KEZ_MOST is always enough.
 * Refusals: those of kez_notepack_read; then 17 if NSON can't carry the event; then 11.
 * value: the length written
 * Cost: linear in packed_len.
 * Rules 6.1 to 6.16, 12.3.10 to 12.3.12; of the input 2.1 to 2.17 and 17.1 to 17.5. */
kez_answer kez_nson_write(const uint8_t *packed, size_t packed_len, uint64_t bare,
                          uint8_t *out, size_t out_len);

/* Reads NSON by the counts in its nson field, and writes the event to out in strict form. A count that disagrees with
 * the text is refused. Whatever this entry accepts, kez_json_read accepts too: it writes the same bytes and needs the
 * same out_len. An out_len of text_len is always enough.
 * Refusals: 1, 5, 6, 9, 10, 12, 13, 14; then 11.
 * value: the length written
 * Cost: linear in text_len.
 * Rules 6.1 to 6.12, 6.17 to 6.30, 12.3.1 to 12.3.3, 12.3.5 to 12.3.9; of what is written 3.1 to 3.3. */
kez_answer kez_nson_read(const uint8_t *text, size_t text_len,
                         uint8_t *out, size_t out_len);

/* Reads an event as plain JSON (RFC 8259) and writes it to out in strict form. Each of the seven fields must be there
 * once, in any order. A missing field is refused; none has a default. Fields of other names are ignored. The nson field
 * is one of these, so this entry does not notice a wrong count in it. An out_len of text_len is always enough.
 * Refusals: 1, 5 to 10, 12, 14, 15, 16, 18; then 11.
 * value: the length written
 * Cost: linear in text_len.
 * Rules 7.1 to 7.27, 12.1.9, 12.2.9, 12.2.10, 12.3.1 to 12.3.6; of what is written 3.1 to 3.3. */
kez_answer kez_json_read(const uint8_t *text, size_t text_len,
                         uint8_t *out, size_t out_len);

/* Reads one text as kez_json_read does and as kez_nson_read does, and says which of the two accept it.
 * value: 2 both accept it. They show the same event, and its strict form is at the start of both buffers.
 *        1 kez_json_read alone accepts it. The strict form is at the start of json_out; nson_out is unchanged, so don't
 *        read it.
 * In both cases the length of the strict form is stored in written. That the two readers show different events is
 * proved never to happen. A host that takes nothing but NSON treats value 1 as a refusal.
 * Refusals: those of kez_json_read (what it refuses, kez_nson_read refuses too, perhaps with another number). Then 11
 * if json_out is too short; then 11 if kez_nson_read accepts the text and nson_out is too short. A length of text_len
 * for each buffer is always enough.
 * Cost: linear in text_len. Each reader goes through the text twice, once to decide before anything is written and once
 * to write. A call takes up to twice as long as the two readers together.
 * Rules 9.1 to 9.7, 12.3.1 to 12.3.3, 12.3.6; of the text parts 6 and 7; of what is written 3.1 to 3.3. */
kez_answer kez_read_both(const uint8_t *text, size_t text_len,
                         uint8_t *nson_out, size_t nson_out_len,
                         uint8_t *json_out, size_t json_out_len,
                         uint64_t *written);

/* A sentence for a refusal. The string is a constant: it is never null, and must not be freed. */
static inline const char *kez_refusal_text(uint64_t number)
{
    switch (number) {
    case 0: return "Nothing is refused.";
    case 1: /* rule 10.1 */
        return "The input is longer than 65,536 bytes, a string form holds more, "
               "or the versioned form would be longer.";
    case 2: return "The packed event is cut short, or a length in it goes beyond its end."; /* rule 10.2 */
    case 3: return "A varint's tenth byte is neither 00 nor 01."; /* rule 10.3 */
    case 4: return "The packed event ends inside a varint."; /* rule 10.4 */
    case 5: return "A text is not well-formed UTF-8."; /* rule 10.5 */
    case 6: return "The kind is above 65,535."; /* rule 10.6 */
    case 7: return "The time is above 9,223,372,036,854,775 seconds."; /* rule 10.7 */
    case 8: return "There are more than 1,000 tags, or more than 255 texts in a tag."; /* rule 10.8 */
    case 9: return "A tag is empty."; /* rule 10.9 */
    case 10: return "Something follows after the end."; /* rule 10.10 */
    case 11: return "The lent buffer is shorter than needed."; /* rule 10.11 */
    case 12: /* rule 10.12 */
        return "A fixed piece, hex or time is not as it must be, "
               "or the id, pubkey or sig is not lowercase hex of its length.";
    case 13: return "A count in the nson field disagrees with the text."; /* rule 10.13 */
    case 14: return "The text is not allowed: wrong JSON syntax, type, escape, or a raw control byte."; /* rule 10.14 */
    case 15: return "A field is missing."; /* rule 10.15 */
    case 16: return "A field stands there twice."; /* rule 10.16 */
    case 17: return "NSON can't carry this event."; /* rule 10.17 */
    case 18: return "Arrays and objects are nested more than 16 deep."; /* rule 10.18 */
    case 19: return "There is no such tag or element, or nothing is kept in this slot."; /* rule 10.19 */
    case 20: /* rule 10.20 */
        return "The text does not start with notepack_ (bare) or notepack1_ (versioned), whichever is asked for.";
    case 21: /* rule 10.21 */
        return "What follows notepack_ or notepack1_ is not base64: a character outside its alphabet, "
               "a lone last one, or leftover bits that are not zero.";
    case 22: return "The event's strict form is longer than 1,024 bytes, which is a cell of a table."; /* rule 10.22 */
    case 23: return "The table has no free slot for another event."; /* rule 10.23 */
    case 24: return "A varint is longer than its number needs."; /* rule 10.24 */
    case 25: return "The packed event is said to be versioned, and does not start with 01."; /* rule 10.25 */
    case 26: /* rule 10.26 */
        return "The header of the pointer form, or the length that it names, is not as it must be, "
               "or version 1 is to be converted.";
    case 27: /* rule 10.27 */
        return "A pointer's offset is no multiple of 8, it leads out of the data, "
               "or it names a table whose length is not divisible by 8.";
    case 28: return "The time of a pointer form is negative, or is no whole second."; /* rule 10.28 */
    case 29: return "What is to be written would be longer than 65,536 bytes."; /* rule 10.29 */
    case 34: /* rule 10.34 */
        return "The table is not as it must be: not of 64 slots and cells, "
               "or a used slot without a strict event to be kept, or with the name of another.";
    case 35: return "The message has 2^61 bytes or more, or would have with this piece."; /* rule 10.35 */
    default: return "There is no refusal with this number.";
    }
}

#ifdef __cplusplus
}
#endif

#endif /* KEZUBIMORYU_H */
