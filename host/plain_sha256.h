/* SHA-256 in plain C, as anybody would write it down from FIPS 180-4: host/bench puts it beside the library's for its
 * speed, and host/fuzz for its digests. */
#include <stddef.h>
#include <stdint.h>

void plain_sha256(const uint8_t *message, size_t len, uint8_t digest[32]);
