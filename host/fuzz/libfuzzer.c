/* The same properties under libFuzzer. The archive has no counters of its own, so the answers are the guide: each new
 * pair of an entry's refusal and place counts as something new. */
#include "generate.h"
#include "properties.h"

#include <string.h>

enum { PLACES = 1024 };

__attribute__((section("__libfuzzer_extra_counters"))) static uint8_t counters[ENTRIES * (REFUSALS + 1) * PLACES];

static void guide(int entry, uint64_t refusal, uint64_t value)
{
    if (refusal <= REFUSALS)
        counters[((uint64_t)entry * (REFUSALS + 1) + refusal) * PLACES + value % PLACES] = 1;
}

int LLVMFuzzerTestOneInput(const uint8_t *data, size_t len);
int LLVMFuzzerTestOneInput(const uint8_t *data, size_t len)
{
    /* choices and the rival follow from the input, so that it alone repeats what was found */
    static input one, other;
    uint64_t sum = UINT64_C(1469598103934665603);
    if (len > LONGEST)
        return -1;
    for (size_t i = 0; i < len; i++)
        sum = (sum ^ data[i]) * UINT64_C(1099511628211);
    seed = sum;
    generate(&one, &other);
    if (len && sum % 3) {
        memcpy(other.at, data, len);
        other.len = len;
        if (len > 128)
            other.at[128 * (sum % 2)] ^= 1;
    }
    answered = guide;
    properties(data, len, other.at, other.len, sum);
    return 0;
}
