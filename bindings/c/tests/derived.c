/* A passphrase's key is derived once for each file that is written, and once for each header that
 * is opened, in whatever pieces it comes: counted by scrypt's table, of 1 MiB at the work factor
 * used here. Everything else takes less than half of that. usage: derived */
#include "agefile.h"

#include <stdio.h>
#include <stdlib.h>
#include <string.h>

#define CHECK(it)                                                                                  \
    do {                                                                                           \
        if (!(it))                                                                                 \
            printf("%s:%d: not so: %s\n", __FILE__, __LINE__, #it), failed++;                      \
    } while (0)
enum { WORK = 10, TABLE = 128 * 8 << WORK, TEXT = 70000 };
struct tried {
    size_t ok;
    void *at;
};
static char nowhere;
static unsigned failed, tables;
static uint8_t text[TEXT], file[TEXT + 1000], out[2 * TEXT];

static struct tried tried(void *at) {
    return (struct tried){at != NULL, at != NULL ? at : &nowhere};
}
struct tried rattle_alloc(size_t size, size_t align) {
    tables += size >= TABLE / 2;
    return tried(malloc(size ? size : align));
}
struct tried rattle_realloc(void *at, size_t kept, size_t size, size_t align) {
    (void)kept;
    tables += size >= TABLE / 2;
    return tried(realloc(at, size ? size : align));
}
void rattle_dealloc(void *at) { free(at); }

/* How many keys were derived since this was asked last. */
static unsigned derived(void) {
    unsigned now = tables;
    tables = 0;
    return now;
}
static agefile_key pass(void) {
    agefile_key key = agefile_passphrase("pw", 2);
    key.work = WORK;
    return key;
}
static size_t in_one_call(void) {
    size_t len = 0, got = 0;
    CHECK(agefile_encrypt(pass(), text, TEXT, file, sizeof file, &len) == 0 && derived() == 1);
    CHECK(agefile_decrypt(pass(), file, len, out, sizeof out, &got) == 0 && got == TEXT &&
          derived() == 1);
    CHECK(agefile_decrypt(agefile_passphrase("other", 5), file, len, out, sizeof out, &got) != 0 &&
          derived() == 1);
    return len;
}
static void by_an_encoder(void) {
    agefile_encoder *it;
    size_t n;
    CHECK(agefile_encoder_new(&it, pass()) == 0);
    for (int files = 0; files < 2; files++) {
        CHECK(agefile_encode(it, text, TEXT, out, sizeof out, &n) == 0 &&
              agefile_encode_end(it, out, sizeof out, &n) == 0 && derived() == 1);
        CHECK(agefile_encoder_begin(it, pass()) == 0);
    }
    agefile_encoder_free(it);
    derived();
}
/* Pieces of this size, then a place. */
static void by_a_decoder(size_t len, size_t piece) {
    agefile_decoder *it;
    size_t n, got = 0;
    uint64_t offset;
    CHECK(agefile_decoder_new(&it, pass()) == 0);
    for (size_t at = 0, more; at < len; at += more, got += n) {
        more = piece < len - at ? piece : len - at;
        CHECK(agefile_decode(it, file + at, more, out + got, sizeof out - got, &n) == 0);
    }
    CHECK(agefile_decode_end(it, out + got, sizeof out - got, &n) == 0 && got + n == TEXT &&
          derived() == 1);
    CHECK(agefile_decode_seek(it, 66000, len, &offset) == 0 &&
          agefile_decode(it, file + offset, len - (size_t)offset, out, sizeof out, &n) == 0);
    CHECK(agefile_decode_end(it, out, sizeof out, &n) == 0 && derived() == 0);
    agefile_decoder_free(it);
}

int main(void) {
    size_t len = in_one_call();
    by_an_encoder();
    by_a_decoder(len, 1);
    by_a_decoder(len, 100);
    by_a_decoder(len, len);
    CHECK(agefile_encrypt(agefile_wrapped((const uint8_t *)"sixteen bytes...", "-> x\n\n", 6), text,
                          TEXT, file, sizeof file, &len) == 0);
    CHECK(agefile_decrypt(agefile_file_key((const uint8_t *)"sixteen bytes..."), file, len, out,
                          sizeof out, &len) == 0 &&
          derived() == 0);
    printf("%u failed\n", failed);
    return failed != 0;
}
