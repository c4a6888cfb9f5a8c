/* Threads that each write and read files of their own by objects of their own, for the thread
 * sanitizer. What is expected is the text that was put in.
 *
 * usage: threads
 */
#include "agefile.h"

#include <pthread.h>
#include <stdio.h>
#include <stdlib.h>
#include <string.h>

enum { LENGTH = 150000, PIECE = 40000, THREADS = 6, TURNS = 30 };

/* What one thread has. */
struct own {
    unsigned number;
    int right;
    uint8_t text[LENGTH], file[LENGTH + 4096], back[LENGTH + AGEFILE_CHUNK];
    agefile_encoder *encoder;
    agefile_decoder *decoder;
};

static agefile_key key_of(void) {
    agefile_key key = agefile_passphrase("pw", 2);
    key.work = 1;
    return key;
}
static int seal(struct own *it, size_t *len) {
    size_t n = 0;
    int answer = agefile_encoder_begin(it->encoder, key_of());
    *len = 0;
    for (size_t at = 0; answer == 0 && at < LENGTH; at += PIECE, *len += n) {
        size_t size = LENGTH - at < PIECE ? LENGTH - at : PIECE;
        answer = agefile_encode(it->encoder, it->text + at, size, it->file + *len,
                                sizeof it->file - *len, &n);
    }
    if (answer == 0)
        answer = agefile_encode_end(it->encoder, it->file + *len, sizeof it->file - *len, &n);
    *len += n;
    return answer;
}
static int open_file(struct own *it, size_t len, size_t *out_len) {
    size_t n = 0;
    int answer = agefile_decoder_begin(it->decoder, key_of());
    *out_len = 0;
    for (size_t at = 0; answer == 0 && at < len; at += PIECE, *out_len += n) {
        size_t size = len - at < PIECE ? len - at : PIECE;
        answer = agefile_decode(it->decoder, it->file + at, size, it->back + *out_len,
                                sizeof it->back - *out_len, &n);
    }
    if (answer == 0)
        answer =
            agefile_decode_end(it->decoder, it->back + *out_len, sizeof it->back - *out_len, &n),
        *out_len += n;
    return answer;
}
static void *works(void *given) {
    struct own *it = given;
    size_t len, out_len;
    it->right = agefile_encoder_new(&it->encoder, key_of()) == 0 &&
                agefile_decoder_new(&it->decoder, key_of()) == 0;
    for (unsigned turn = 0; it->right && turn < TURNS; turn++) {
        for (size_t i = 0; i < LENGTH; i++)
            it->text[i] = (uint8_t)(i * 2654435761u >> (13 + (it->number + turn) % 8));
        it->right = seal(it, &len) == 0 && open_file(it, len, &out_len) == 0 && out_len == LENGTH &&
                    memcmp(it->back, it->text, LENGTH) == 0;
        it->file[len - 1] ^= 1;
        it->right = it->right && open_file(it, len, &out_len) == AGEFILE_CHUNK_DAMAGED &&
                    strcmp(agefile_fault_name(17), "ChunkDamaged") == 0;
    }
    agefile_encoder_free(it->encoder);
    agefile_decoder_free(it->decoder);
    return NULL;
}
int main(void) {
    static pthread_t threads[THREADS];
    int failed = 0;
    struct own *owns = calloc(THREADS, sizeof *owns);
    if (owns == NULL)
        return 2;
    for (unsigned i = 0; i < THREADS; i++) {
        owns[i].number = i + 1;
        if (pthread_create(&threads[i], NULL, works, &owns[i]) != 0)
            return 2;
    }
    for (unsigned i = 0; i < THREADS; i++) {
        if (pthread_join(threads[i], NULL) != 0)
            return 2;
        if (!owns[i].right)
            printf("a thread got another text\n");
        failed += !owns[i].right;
    }
    free(owns);
    return failed != 0;
}
