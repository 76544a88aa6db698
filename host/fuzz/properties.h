/* What must hold of every entry, whatever bytes it gets. */
#include <stddef.h>
#include <stdint.h>

/* Puts the bytes to every entry, as a packed event, bare and versioned, as a text, as a string form of either, as a
 * pointer form, as a message to be hashed, and with `other` as a rival and as an offer to a table. Ends the process
 * with a message if something does not hold. `choices` decides on rooms, on elements, on characters that are changed,
 * on where a message is cut, on what a table holds, and on which side of a buffer the guard page stands. */
void properties(const uint8_t *data, size_t len, const uint8_t *other, size_t other_len, uint64_t choices);

/* Told of every answer: the number of the entry, the refusal and the place or value. */
extern void (*answered)(int entry, uint64_t refusal, uint64_t value);

enum { ENTRIES = 29, REFUSALS = 35 };
extern const char *const entry_names[ENTRIES];
