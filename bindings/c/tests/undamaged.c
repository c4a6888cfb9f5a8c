/* An undamaged file opens whatever was done before, from any place, and as soon as its header has
 * come: what a program once had to know of chunks, of fields to set and of lengths, it needn't.
 * usage: undamaged */
#include "agefile.h"

#include <stdio.h>
#include <stdlib.h>
#include <string.h>

#define CHECK(it)                                                                                  \
    do {                                                                                           \
        if (!(it))                                                                                 \
            printf("%s:%d: not so: %s\n", __FILE__, __LINE__, #it), failed++;                      \
    } while (0)
enum { LONGEST = 200000 };
static unsigned failed;
static uint8_t text[LONGEST], file[LONGEST + 1000], out[LONGEST + 65536];

static agefile_key pass(void) {
    agefile_key key = agefile_passphrase("pw", 2);
    key.work = 1;
    return key;
}
static size_t sealed(size_t size) {
    size_t len = 0;
    CHECK(agefile_encrypt(pass(), text, size, file, sizeof file, &len) == 0);
    return len;
}
/* Gives the file from an offset on, and its end: whether just the text from a place on comes. */
static int gives(agefile_decoder *it, uint64_t offset, size_t len, size_t size, uint64_t place) {
    size_t got = 0, n = 0, from = place < size ? (size_t)place : size;
    int answer = agefile_decode(it, file + offset, len - (size_t)offset, out, sizeof out, &got);
    if (!answer)
        answer = agefile_decode_end(it, out + got, sizeof out - got, &n), got += n;
    return answer == 0 && got == size - from && !memcmp(out, text + from, got);
}
/* One chunk is opened while the file comes; then another file, by the same decoder; then a place.
 */
static void nothing_to_set(agefile_decoder *it) {
    size_t len = sealed(LONGEST), at, n, got;
    uint64_t offset;
    int last;
    CHECK(agefile_decoder_begin(it, pass()) == 0 &&
          agefile_decode(it, file, 100000, out, sizeof out, &got) == 0);
    at = (size_t)agefile_payload_at(it);
    CHECK(agefile_open_at(it, 2, file + at + 2 * AGEFILE_BLOCK, AGEFILE_BLOCK, out + 100000,
                          AGEFILE_CHUNK, &n, &last) == 0 &&
          n == AGEFILE_CHUNK && !last);
    CHECK(!memcmp(out + 100000, text + 2 * AGEFILE_CHUNK, n));
    CHECK(agefile_decode(it, file + 100000, len - 100000, out + got, sizeof out - got, &n) == 0);
    got += n;
    CHECK(agefile_decode_end(it, out + got, sizeof out - got, &n) == 0 && got + n == LONGEST &&
          !memcmp(out, text, LONGEST));
    len = sealed(70000);
    CHECK(agefile_decoder_begin(it, pass()) == 0 && gives(it, 0, len, 70000, 0));
    CHECK(agefile_decode_seek(it, 5, len, &offset) == 0 &&
          agefile_decode(it, file + offset, 1000, out, sizeof out, &n) == 0);
    CHECK(agefile_decode_seek(it, 66000, len, &offset) == 0 &&
          gives(it, offset, len, 70000, 66000));
}
/* The header opens with its last byte, and no byte of the payload is asked for. */
static void opens_at_once(agefile_decoder *it) {
    size_t len = sealed(5), at, n;
    CHECK(agefile_decoder_begin(it, pass()) == 0 &&
          agefile_decode(it, file, len, out, sizeof out, &n) == 0);
    at = (size_t)agefile_payload_at(it);
    CHECK(agefile_decoder_begin(it, pass()) == 0 &&
          agefile_decode(it, file, at - 1, NULL, 0, &n) == 0 && agefile_payload_at(it) == 0);
    CHECK(agefile_decode(it, file + at - 1, 1, NULL, 0, &n) == 0 && agefile_payload_at(it) == at &&
          gives(it, at, len, 5, 0));
}
/* The end is a place, and so is each beyond it, at every length; room for the text is room enough.
 */
static void ends(agefile_decoder *it) {
    static const size_t sizes[] = {0, 1, 65535, 65536, 65537, 131072, 196608, LONGEST};
    for (size_t i = 0; i < sizeof sizes / sizeof *sizes; i++) {
        size_t size = sizes[i], len = sealed(size), n;
        uint64_t offset, places[] = {size,         size + 1,      size + 53138, size + 84780,
                                     size + 65536, size + 131072, UINT64_MAX,   UINT64_MAX - 65536};
        uint8_t *exact = malloc(size + 1);
        CHECK(agefile_decrypt(pass(), file, len, exact, size, &n) == 0 && n == size &&
              !memcmp(exact, text, size));
        free(exact);
        CHECK(agefile_decoder_begin(it, pass()) == 0 && gives(it, 0, len, size, 0));
        for (size_t k = 0; k < sizeof places / sizeof *places; k++)
            CHECK(agefile_decode_seek(it, places[k], len, &offset) == 0 && offset <= len &&
                  gives(it, offset, len, size, places[k]));
        CHECK(agefile_decode_seek(it, size, UINT64_MAX, &offset) == 0 && offset <= len &&
              gives(it, offset, len, size, size));
    }
}
int main(void) {
    agefile_decoder *it;
    for (size_t i = 0; i < sizeof text; i++)
        text[i] = (uint8_t)(i * 131 + i / 251);
    CHECK(agefile_decoder_new(&it, pass()) == 0);
    nothing_to_set(it);
    opens_at_once(it);
    ends(it);
    agefile_decoder_free(it);
    return failed != 0;
}
