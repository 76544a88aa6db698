/* Random inputs: records as packed bytes, string forms, pointer forms, NSON and JSON, true and damaged. */
#include <stddef.h>
#include <stdint.h>

enum { LONGEST = 90000 };

typedef struct {
    uint8_t at[LONGEST];
    size_t len;
} input;

/* The next number below this, always the same for the same seed. */
uint64_t draw(uint64_t below);
extern uint64_t seed;

/* An input of any sort, and one that may be its rival. */
void generate(input *one, input *other);
