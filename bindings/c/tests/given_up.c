/* A file that was given up, and the next one by the same encoder, for another: nothing of the first
 * can be in the second, since no call has to come before it. And a decoder that was used before,
 * that opened a chunk, or whose file broke off, reads the next file. usage: given_up */
#include "agefile.h"

#include <stdio.h>
#include <string.h>

int main(void) {
    static uint8_t file[300000], out[300000];
    size_t n, at = 0, got = 0;
    int last;
    agefile_encoder *w;
    agefile_decoder *r;
    int a = agefile_encoder_new(&w, agefile_passphrase("alice", 5));
    a |= agefile_encode(w, "SECRET OF A", 11, out, sizeof out, &n);
    a |= agefile_encoder_begin(w, agefile_passphrase("bob", 3));
    a |= agefile_encode(w, "hello bob", 9, file, sizeof file, &n), at += n;
    a |= agefile_encode_end(w, file + at, sizeof file - at, &n), at += n;
    a |= agefile_decoder_new(&r, agefile_passphrase("bob", 3));
    a |= agefile_decode(r, file, at / 2, out, sizeof out, &n);
    a |= agefile_decoder_begin(r, agefile_passphrase("bob", 3));
    a |= agefile_decode(r, file, at, out, sizeof out, &n), got += n;
    a |= agefile_open_at(r, 0, file + agefile_payload_at(r), at - agefile_payload_at(r),
                         out + 100000, sizeof out - 100000, &n, &last);
    a |= agefile_decode_end(r, out + got, sizeof out - got, &n), got += n;
    agefile_encoder_free(w), agefile_decoder_free(r);
    printf("bob reads (answer %d): \"%.*s\"\n", a, (int)got, (char *)out);
    return a != 0 || got != 9 || memcmp(out, "hello bob", 9) != 0;
}
