/* The last chunks that a file may have, 2^48: the state of an encoder and of a decoder is set to
 * just before them. usage: limit */
#include "../core.h"

#include <stdio.h>
#include <string.h>

#define CHECK(it)                                                                                  \
    do {                                                                                           \
        if (!(it))                                                                                 \
            printf("%s:%d: not so: %s\n", __FILE__, __LINE__, #it), failed++;                      \
    } while (0)
enum { CHUNKS = 2 * AGEFILE_CHUNK };
static const uint64_t limit = UINT64_C(1) << 48;
static unsigned failed;
static uint8_t text[CHUNKS + 1], file[AGEFILE_ROOM(CHUNKS + 1)], out[CHUNKS + AGEFILE_CHUNK];

int main(void) {
    const uint8_t *key = (const uint8_t *)"0123456789abcdef";
    agefile_key writes = agefile_wrapped(key, "-> a\n\n", 6);
    agefile_encoder *e;
    agefile_decoder *d;
    size_t n, len, front;
    uint64_t size;
    for (size_t i = 0; i < sizeof text; i++)
        text[i] = (uint8_t)(i * 7 + i / 255);
    CHECK(agefile_encoder_new(&e, writes) == 0 &&
          agefile_decoder_new(&d, agefile_file_key(key)) == 0);
    /* two chunks, the last but one and the last */
    CHECK(agefile_encode(e, text, 1, file, sizeof file, &front) == 0);
    e->core.chunk = limit - 2;
    CHECK(agefile_encode(e, text + 1, CHUNKS - 1, file + front, sizeof file - front, &len) == 0 &&
          len == AGEFILE_BLOCK);
    CHECK(agefile_encode_end(e, file + front + len, sizeof file - front - len, &n) == 0 &&
          n == AGEFILE_BLOCK);
    len += n;
    CHECK(agefile_decode(d, file, front, NULL, 0, &n) == 0 && agefile_payload_at(d) == front);
    d->core.reader.chunk = limit - 2;
    CHECK(agefile_decode(d, file + front, len, out, sizeof out, &n) == 0 && n == CHUNKS &&
          agefile_decode_end(d, NULL, 0, &n) == 0 && !memcmp(out, text, CHUNKS));
    CHECK(agefile_decode(d, file, 1, NULL, 0, &n) == AGEFILE_TRAILING);
    CHECK(agefile_size(d, UINT64_MAX, &size) == 0 && size > limit);
    /* and a byte more */
    CHECK(agefile_encoder_begin(e, writes) == 0 &&
          agefile_encode(e, text, 1, file, sizeof file, &front) == 0);
    e->core.chunk = limit - 2;
    CHECK(agefile_encode(e, text + 1, CHUNKS, file + front, sizeof file - front, &len) ==
              AGEFILE_TOO_MANY_CHUNKS &&
          len == AGEFILE_BLOCK);
    CHECK(agefile_encode(e, text, 1, file, sizeof file, &n) == AGEFILE_TOO_MANY_CHUNKS && n == 0);
    /* at a number that no chunk has, nothing is sealed or opened */
    e->core.chunk = limit;
    CHECK(agefile_encode(e, text, CHUNKS, file, sizeof file, &n) == AGEFILE_MISUSED && n == 0 &&
          agefile_encode_end(e, file, sizeof file, &n) == AGEFILE_MISUSED && n == 0);
    CHECK(agefile_decode_seek(d, 0, UINT64_MAX, &size) == 0);
    d->core.reader.chunk = limit;
    CHECK(agefile_decode(d, file, AGEFILE_BLOCK, out, sizeof out, &n) == AGEFILE_MISUSED && n == 0);
    /* begun again, both are as new */
    CHECK(agefile_encoder_begin(e, writes) == 0 &&
          agefile_encode(e, text, 5, file, sizeof file, &len) == 0 &&
          agefile_encode_end(e, file + len, sizeof file - len, &n) == 0);
    CHECK(agefile_decrypt(agefile_file_key(key), file, len + n, out, 5, &n) == 0 && n == 5 &&
          !memcmp(out, text, 5));
    agefile_encoder_free(e), agefile_decoder_free(d);
    return failed != 0;
}
