/* Opens an age file that lies in memory by the C library, or writes as long a text, and prints the
 * processor time of the payload in seconds.
 *
 * usage: library FILE decode | encode [SIZE]: for the passphrase "pw", in pieces of SIZE bytes (1
 * MiB)
 */
#define _POSIX_C_SOURCE 200809L
#include "agefile.h"

#include <stdio.h>
#include <stdlib.h>
#include <string.h>
#include <time.h>

enum { MOST = 1 << 20 };

/* What is written goes through all of it, however it is written, so that the processor's caches are
 * as full. */
static uint8_t out[AGEFILE_ROOM(MOST)];
static size_t piece = MOST;

static double now(void) {
    struct timespec t;
    clock_gettime(CLOCK_PROCESS_CPUTIME_ID, &t);
    return (double)t.tv_sec + (double)t.tv_nsec / 1e9;
}

static int decode(agefile_decoder *it, const uint8_t *payload, size_t len, size_t *all) {
    size_t written = 0;
    int answer = 0;
    for (size_t at = 0, size; answer == 0 && at < len; at += size, *all += written) {
        size = len - at < piece ? len - at : piece;
        answer = agefile_decode(it, payload + at, size, out, sizeof out, &written);
    }
    if (answer == 0)
        answer = agefile_decode_end(it, out, sizeof out, &written), *all += written;
    return answer;
}

static int encode(agefile_encoder *it, const uint8_t *text, size_t len, size_t *all) {
    size_t written = 0;
    int answer = 0;
    for (size_t at = 0, size; answer == 0 && at < len; at += size, *all += written) {
        size = len - at < piece ? len - at : piece;
        answer = agefile_encode(it, text + at, size, out, sizeof out, &written);
    }
    if (answer == 0)
        answer = agefile_encode_end(it, out, sizeof out, &written), *all += written;
    return answer;
}

int main(int argc, char **argv) {
    const char *how = argc > 2 ? argv[2] : "";
    FILE *in = argc == 3 || argc == 4 ? fopen(argv[1], "rb") : NULL;
    agefile_key key = agefile_passphrase("pw", 2);
    agefile_decoder *decoder;
    agefile_encoder *encoder;
    if (argc == 4)
        piece = strtoul(argv[3], NULL, 10);
    if (piece < 1 || piece > MOST || in == NULL || fseek(in, 0, SEEK_END) != 0)
        return 2;
    size_t len = (size_t)ftell(in), all = 0;
    uint8_t *file = malloc(len);
    rewind(in);
    if (file == NULL || fread(file, 1, len, in) != len)
        return 2;
    key.work = 1;
    size_t header_len, stanzas, none;
    uint32_t work;
    if (agefile_header(file, len, &header_len, &stanzas, &work) || len < header_len + 16)
        return 1;
    if (agefile_decoder_new(&decoder, key) ||
        agefile_decode(decoder, file, header_len + 16, NULL, 0, &none) ||
        agefile_encoder_new(&encoder, key))
        return 1;
    const uint8_t *payload = file + agefile_payload_at(decoder);
    len -= (size_t)agefile_payload_at(decoder);
    int answer;
    double begun = now();
    if (strcmp(how, "decode") == 0)
        answer = decode(decoder, payload, len, &all);
    else if (strcmp(how, "encode") == 0)
        answer = encode(encoder, payload, len, &all);
    else
        return 2;
    if (answer != 0)
        return 1;
    printf("%.4f\n", now() - begun);
    fprintf(stderr, "%zu\n", all);
    return 0;
}
