/* Threads that open chunks of one file at their places by one decoder, which none of them changes.
 * What is expected is the text that was put in.
 *
 * usage: places
 */
#include "agefile.h"

#include <pthread.h>
#include <stdio.h>
#include <stdlib.h>
#include <string.h>

enum { CHUNKS = 12, LENGTH = CHUNKS * 65536 - 1000, THREADS = 4, TURNS = 200 };

static uint8_t text[LENGTH], file[AGEFILE_ROOM(LENGTH)], other[LENGTH];
static size_t file_len;
static agefile_decoder *decoder;
static int failed;

static void see(int holds, const char *what) {
    if (!holds) {
        __atomic_add_fetch(&failed, 1, __ATOMIC_RELAXED);
        printf("%s\n", what);
    }
}
/* The file, and a decoder that opened its header. */
static int begin(void) {
    agefile_key key = agefile_passphrase("pw", 2);
    size_t header_len, stanzas, none;
    uint32_t work;
    key.work = 1;
    for (size_t i = 0; i < LENGTH; i++)
        text[i] = (uint8_t)(i * 2654435761u >> 13);
    return agefile_encrypt(key, text, LENGTH, file, sizeof file, &file_len) == 0 &&
           agefile_header(file, file_len, &header_len, &stanzas, &work) == 0 &&
           agefile_decoder_new(&decoder, key) == 0 &&
           agefile_decode(decoder, file, header_len + 16, NULL, 0, &none) == 0;
}
static void *reads(void *number) {
    uint8_t *out = malloc(AGEFILE_CHUNK);
    if (out == NULL)
        exit(2);
    for (unsigned turn = 0; turn < TURNS; turn++) {
        size_t chunk = (turn * 7 + (size_t)number * 5) % CHUNKS,
               at = (size_t)agefile_payload_at(decoder) + chunk * AGEFILE_BLOCK, written;
        size_t len = file_len - at < AGEFILE_BLOCK ? file_len - at : AGEFILE_BLOCK;
        int is_last, answer = agefile_open_at(decoder, chunk, file + at, len, out, AGEFILE_CHUNK,
                                              &written, &is_last);
        see(answer == 0 && written == len - 16 &&
                memcmp(out, text + chunk * AGEFILE_CHUNK, written) == 0,
            "a thread reads another text");
        see(is_last == (chunk == CHUNKS - 1), "which chunk is the last");
        answer = agefile_open_at(decoder, chunk + 1, file + at, len, out, AGEFILE_CHUNK, &written,
                                 &is_last);
        see(answer == AGEFILE_CHUNK_DAMAGED && written == 0 && !is_last,
            "a block opens at another place");
    }
    free(out);
    return NULL;
}
int main(void) {
    pthread_t threads[THREADS];
    size_t n, end = 0;
    if (!begin())
        return 2;
    for (size_t i = 0; i < THREADS; i++)
        if (pthread_create(&threads[i], NULL, reads, (void *)i) != 0)
            return 2;
    for (size_t i = 0; i < THREADS; i++)
        pthread_join(threads[i], NULL);
    size_t at = (size_t)agefile_payload_at(decoder);
    see(agefile_decode(decoder, file + at, file_len - at, other, sizeof other, &n) == 0 &&
            agefile_decode_end(decoder, other + n, sizeof other - n, &end) == 0 &&
            n + end == LENGTH && memcmp(other, text, LENGTH) == 0,
        "the decoder goes on from where it was");
    agefile_decoder_free(decoder);
    printf("%s\n", failed ? "failed" : "passed");
    return failed != 0;
}
