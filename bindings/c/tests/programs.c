/* What programs do with agefile.h, each as short as it can be and right: encrypt and decrypt a
 * stream, in memory, verify, read a part as an archive does, take what comes from a network, go on
 * from a place, save what still opens, and look at a header. Each is run over files of several
 * lengths, and over damaged ones. (x25519.c has recipients and identities.) usage: programs */
#include "agefile.h"

#include <stdio.h>
#include <stdlib.h>
#include <string.h>

static uint8_t in[65536], out[AGEFILE_ROOM(sizeof in)];

/* Each returns 0, a fault, or -1 if the system failed. */
static int encrypt(agefile_key key, FILE *from, FILE *to) {
    agefile_encoder *it;
    size_t have = 1, n = 0;
    int answer = agefile_encoder_new(&it, key);
    while (answer == 0 && have > 0) {
        have = fread(in, 1, sizeof in, from);
        answer = have > 0       ? agefile_encode(it, in, have, out, sizeof out, &n)
                 : ferror(from) ? -1
                                : agefile_encode_end(it, out, sizeof out, &n);
        if (answer >= 0)
            fwrite(out, 1, n, to);
    }
    agefile_encoder_free(it);
    return fflush(to) || ferror(to) ? -1 : answer;
}
static int decrypt(agefile_key key, FILE *from, FILE *to) {
    agefile_decoder *it;
    size_t have = 1, n = 0;
    int answer = agefile_decoder_new(&it, key);
    while (answer == 0 && have > 0) {
        have = fread(in, 1, sizeof in, from);
        answer = have > 0       ? agefile_decode(it, in, have, out, sizeof out, &n)
                 : ferror(from) ? -1
                                : agefile_decode_end(it, out, sizeof out, &n);
        if (answer >= 0)
            fwrite(out, 1, n, to);
    }
    agefile_decoder_free(it);
    return fflush(to) || ferror(to) ? -1 : answer;
}
static int verify(agefile_key key, FILE *from) {
    agefile_decoder *it;
    size_t have = 1, n;
    int answer = agefile_decoder_new(&it, key);
    while (answer == 0 && have > 0) {
        have = fread(in, 1, sizeof in, from);
        answer = have > 0       ? agefile_decode(it, in, have, out, sizeof out, &n)
                 : ferror(from) ? -1
                                : agefile_decode_end(it, out, sizeof out, &n);
    }
    agefile_decoder_free(it);
    return answer;
}
/* What comes, in pieces of any length, and the end; what it gives goes into one room. */
struct connection {
    agefile_decoder *it;
    uint8_t *text;
    size_t len, room;
};
static int on_bytes(struct connection *c, const void *bytes, size_t len) {
    size_t n;
    int answer = agefile_decode(c->it, bytes, len, c->text + c->len, c->room - c->len, &n);
    c->len += n;
    return answer;
}
static int on_end(struct connection *c) {
    size_t n;
    int answer = agefile_decode_end(c->it, c->text + c->len, c->room - c->len, &n);
    c->len += n;
    return answer;
}
/* Opens the header, so that places can be sought. */
static int open_header(agefile_decoder **it, agefile_key key, FILE *from) {
    size_t have = 1, n;
    int answer = agefile_decoder_new(it, key);
    for (rewind(from); answer == 0 && !agefile_payload_at(*it) && have > 0;) {
        have = fread(in, 1, sizeof in, from);
        answer = have > 0 ? agefile_decode(*it, in, have, out, sizeof out, &n)
                          : agefile_decode_end(*it, out, sizeof out, &n);
    }
    return *it && agefile_payload_at(*it)
               ? 0
               : answer; /* what is wrong after it, whoever reads there is told */
}
/* Reads bytes of the plaintext, as an archive or a file system does: how many there were. */
static int read_at(agefile_decoder *it, FILE *from, uint64_t place, uint8_t *to, size_t len,
                   size_t *got) {
    uint64_t offset;
    size_t have = 1, n;
    int answer = agefile_decode_seek(it, place, UINT64_MAX, &offset);
    if (answer == 0 && fseek(from, (long)offset, SEEK_SET))
        answer = -1;
    for (*got = 0; answer == 0 && have > 0 && *got < len; *got += n) {
        have = fread(in, 1, sizeof in, from);
        answer = have > 0 ? agefile_decode(it, in, have, out, sizeof out, &n)
                          : agefile_decode_end(it, out, sizeof out, &n);
        if (n > len - *got)
            n = len - *got;
        memcpy(to + *got, out, n);
    }
    return *got == len ? 0 : answer;
}
/* Goes on with an output that has its first `place` bytes. */
static int resume(agefile_key key, FILE *from, uint64_t place, FILE *to) {
    agefile_decoder *it;
    uint64_t offset;
    size_t have = 1, n = 0;
    int answer = open_header(&it, key, from);
    if (answer == 0)
        answer = agefile_decode_seek(it, place, UINT64_MAX, &offset);
    if (answer == 0 && fseek(from, (long)offset, SEEK_SET))
        answer = -1;
    while (answer == 0 && have > 0) {
        have = fread(in, 1, sizeof in, from);
        answer = have > 0       ? agefile_decode(it, in, have, out, sizeof out, &n)
                 : ferror(from) ? -1
                                : agefile_decode_end(it, out, sizeof out, &n);
        if (answer >= 0)
            fwrite(out, 1, n, to);
    }
    agefile_decoder_free(it);
    return fflush(to) || ferror(to) ? -1 : answer;
}
/* Writes each chunk that opens at its place: how many don't. */
static int salvage(agefile_key key, FILE *from, FILE *to, size_t *lost) {
    static uint8_t block[AGEFILE_BLOCK];
    agefile_decoder *it;
    size_t len, n;
    int answer = open_header(&it, key, from), is_last = *lost = 0;
    if (answer == 0 && fseek(from, (long)agefile_payload_at(it), SEEK_SET))
        answer = -1;
    for (uint64_t chunk = 0;
         answer == 0 && !is_last && (len = fread(block, 1, sizeof block, from)) > 0; chunk++) {
        if (agefile_open_at(it, chunk, block, len, out, sizeof out, &n, &is_last))
            *lost += 1;
        else if (fseek(to, (long)chunk * AGEFILE_CHUNK, SEEK_SET) || fwrite(out, 1, n, to) < n)
            answer = -1;
    }
    agefile_decoder_free(it);
    return answer;
}
/* The types of the stanzas, one a line, into `to`; and the work that the file demands. */
static int inspect(const uint8_t *file, size_t len, char *to, size_t *count, uint32_t *work) {
    static agefile_stanza all[100];
    size_t header_len, n;
    int answer = agefile_header(file, len, &header_len, count, work);
    if (answer == 0)
        answer = agefile_stanzas(file, len, all, 100, count, out, sizeof out, &n);
    for (size_t i = 0; answer == 0 && i < *count; i++)
        to += sprintf(to, "%.*s\n", (int)strcspn((const char *)file + all[i].args_at, " \n"),
                      file + all[i].args_at);
    return answer;
}

/* ---- They are tried. ---- */

#define CHECK(it)                                                                                  \
    do {                                                                                           \
        if (!(it))                                                                                 \
            printf("%s:%d: not so: %s\n", __FILE__, __LINE__, #it), failed++;                      \
    } while (0)
enum { LONGEST = 200000 };
static unsigned failed;
static uint8_t text[LONGEST], file[LONGEST + 1000], got[LONGEST + 70000];

static FILE *file_of(const uint8_t *bytes, size_t len) {
    FILE *it = tmpfile();
    CHECK(it && fwrite(bytes, 1, len, it) == len);
    rewind(it);
    return it;
}
static size_t held_by(FILE *it) {
    rewind(it);
    size_t len = fread(got, 1, sizeof got, it);
    fclose(it);
    return len;
}
static void see(agefile_key key, size_t size) {
    FILE *plain = file_of(text, size), *sealed = tmpfile(), *back = tmpfile();
    struct connection c = {NULL, got, 0, sizeof got};
    size_t n, lost, count;
    uint32_t work;
    char types[100];
    CHECK(encrypt(key, plain, sealed) == 0);
    fclose(plain);
    size_t len = held_by(sealed);
    memcpy(file, got, len);
    sealed = file_of(file, len);
    CHECK(verify(key, sealed) == 0);
    rewind(sealed);
    CHECK(decrypt(key, sealed, back) == 0 && held_by(back) == size && !memcmp(got, text, size));
    CHECK(agefile_decrypt(key, file, len, got, size, &n) == 0 && n == size &&
          !memcmp(got, text, size));
    CHECK(agefile_decoder_new(&c.it, key) == 0);
    for (size_t at = 0; at < len; at += 1000)
        CHECK(on_bytes(&c, file + at, len - at < 1000 ? len - at : 1000) == 0);
    CHECK(on_end(&c) == 0 && c.len == size && !memcmp(got, text, size));
    agefile_decoder_free(c.it);
    for (size_t place = 0; place <= size; place += size / 3 + 1) {
        back = tmpfile();
        CHECK(fwrite(text, 1, place, back) == place && resume(key, sealed, place, back) == 0 &&
              held_by(back) == size && !memcmp(got, text, size));
        CHECK(open_header(&c.it, key, sealed) == 0 &&
              read_at(c.it, sealed, place, got, (size - place) / 2, &n) == 0);
        CHECK(n == (size - place) / 2 && !memcmp(got, text + place, n));
        CHECK(read_at(c.it, sealed, place, got, size - place + 1, &n) == 0 && n == size - place &&
              !memcmp(got, text + place, n));
        agefile_decoder_free(c.it);
    }
    CHECK(inspect(file, len, types, &count, &work) == 0 && count == 1 && work == 1 &&
          !strcmp(types, "scrypt\n"));
    fclose(sealed);
    /* one byte of the first chunk is damaged, and the last one is gone */
    file[len - size - 16 * (size ? (size - 1) / 65536 + 1 : 1)] ^= 1;
    sealed = file_of(file, len - 1);
    back = tmpfile();
    CHECK(verify(key, sealed) > 0);
    rewind(sealed);
    CHECK(decrypt(key, sealed, back) > 0 && held_by(back) == 0);
    back = tmpfile();
    CHECK(salvage(key, sealed, back, &lost) == 0 && lost == (size > 65536 ? 2 : 1));
    n = held_by(back);
    CHECK(n == (size > 131072 ? size / 65536 * 65536 : 0) &&
          (n == 0 || !memcmp(got + 65536, text + 65536, n - 65536)));
    fclose(sealed);
}
int main(void) {
    static const size_t sizes[] = {0, 1, 65536, 65537, LONGEST};
    agefile_key key = agefile_passphrase("pw", 2);
    key.work = 1;
    for (size_t i = 0; i < sizeof text; i++)
        text[i] = (uint8_t)(i * 131 + i / 251);
    for (size_t i = 0; i < sizeof sizes / sizeof *sizes; i++)
        see(key, sizes[i]);
    return failed != 0;
}
