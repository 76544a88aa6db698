// What others wrote, for host/bench: JSON parsers, each of which parses a text into its own tree and says whether it
// could; a check of UTF-8; and a hash. Those are built whose headers are there (host/bench-install gets them).
#include <cstddef>
#include <cstdint>

#ifdef HAS_RAPIDJSON
#include <rapidjson/document.h>
extern "C" int peer_rapidjson(const uint8_t *text, size_t len)
{
    rapidjson::Document tree;
    tree.Parse<rapidjson::kParseValidateEncodingFlag>(reinterpret_cast<const char *>(text), len);
    return !tree.HasParseError();
}
#endif

#ifdef HAS_SIMDJSON
#include <simdjson.h>
// it reads past the end of what it is given, so each text is copied into a buffer of its own, as its guide has it
extern "C" int peer_simdjson(const uint8_t *text, size_t len)
{
    static simdjson::dom::parser parser;
    return parser.parse(reinterpret_cast<const char *>(text), len, true).error() == simdjson::SUCCESS;
}

extern "C" int peer_simdjson_utf8(const uint8_t *text, size_t len)
{
    return simdjson::validate_utf8(reinterpret_cast<const char *>(text), len);
}
#endif

#ifdef HAS_JANSSON
#include <jansson.h>
extern "C" int peer_jansson(const uint8_t *text, size_t len)
{
    json_t *tree = json_loadb(reinterpret_cast<const char *>(text), len, 0, nullptr);
    json_decref(tree);
    return tree != nullptr;
}
#endif

#ifdef HAS_OPENSSL
#define OPENSSL_SUPPRESS_DEPRECATED
#include <openssl/sha.h>
// by its oldest functions, which fetch nothing and so cost least on a short message
extern "C" int peer_openssl(const uint8_t *message, size_t len)
{
    static unsigned char digest[SHA256_DIGEST_LENGTH];
    SHA256_CTX state;
    return SHA256_Init(&state) && SHA256_Update(&state, message, len) && SHA256_Final(digest, &state);
}
#endif
