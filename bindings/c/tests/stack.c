/* Makes each call in a thread with a stack of its own, and prints how many bytes it used: at most
 * 100 KiB. The thread's own use counts.
 *
 * usage: stack FILE: an age file for the passphrase "pw", whose file key is 16 bytes 7
 */
#define _GNU_SOURCE
#include "agefile.h"

#include <pthread.h>
#include <stdio.h>
#include <stdlib.h>
#include <string.h>
#include <sys/mman.h>

#define ROOM ((size_t)1 << 20)
#define MOST ((size_t)100 << 10)
#define CALLS 16

static uint8_t file[1048592], out[sizeof file + AGEFILE_CHUNK], key[32], share[32];
static agefile_stanza places[9];
static agefile_encoder *encoder;
static agefile_decoder *decoder, *by_key;
static size_t len, written, taken;
static uint32_t work;
static uint64_t place;
static int is_last;

static volatile int answer; /* (what it is doesn't matter here) */

static agefile_key pass(void) {
    agefile_key it = agefile_passphrase("pw", 2);
    it.work = 1;
    return it;
}
static void *call(void *which) {
    agefile_key shared = agefile_shared(key, share, key),
                wraps = agefile_wrapped(key, "-> a\n\n", 6);
    switch (*(int *)which) {
    case 0:
        answer = agefile_decrypt(pass(), file, len, out, sizeof out, &written);
        break;
    case 1:
        answer = agefile_decrypt(agefile_file_key(key), file, len, out, sizeof out, &written);
        break;
    case 2:
        answer = agefile_decrypt(shared, file, len, out, sizeof out, &written);
        break;
    case 3:
        answer = agefile_encrypt(pass(), file, 3 * AGEFILE_CHUNK, out, sizeof out, &written);
        break;
    case 4:
        answer = agefile_encrypt(wraps, file, 3 * AGEFILE_CHUNK, out, sizeof out, &written);
        break;
    case 5:
        answer = agefile_encrypt(shared, file, 3 * AGEFILE_CHUNK, out, sizeof out, &written);
        break;
    case 6:
        answer = agefile_decode(decoder, file, len, out, sizeof out, &written);
        break;
    case 7:
        answer = agefile_decode_end(decoder, out, sizeof out, &written);
        break;
    case 8:
        answer = agefile_decode_seek(by_key, 70000, len, &place);
        break;
    case 9:
        answer = agefile_open_at(by_key, 0, file, 400, out, sizeof out, &written, &is_last);
        break;
    case 10:
        answer = agefile_size(by_key, len, &place);
        break;
    case 11:
        answer = agefile_encode(encoder, file, 3 * AGEFILE_CHUNK, out, sizeof out, &written);
        break;
    case 12:
        answer = agefile_encode_end(encoder, out, sizeof out, &written);
        break;
    case 13:
        answer = agefile_header(file, len, &written, &taken, &work);
        break;
    case 14:
        answer = agefile_stanzas(file, len, places, 9, &taken, out, sizeof out, &written);
        break;
    default:
        answer = agefile_encoder_begin(encoder, shared);
        break;
    }
    return NULL;
}

/* how much of the thread's stack isn't as it was */
static size_t used(int which) {
    uint8_t *stack = mmap(NULL, ROOM, PROT_READ | PROT_WRITE, MAP_PRIVATE | MAP_ANONYMOUS, -1, 0);
    pthread_attr_t attributes;
    pthread_t thread;
    size_t untouched = 0;
    if (stack == MAP_FAILED)
        exit(2);
    memset(stack, 0xa5, ROOM);
    if (pthread_attr_init(&attributes) || pthread_attr_setstack(&attributes, stack, ROOM) ||
        pthread_create(&thread, &attributes, call, &which) || pthread_join(thread, NULL))
        exit(2);
    while (untouched < ROOM && stack[untouched] == 0xa5)
        untouched++;
    munmap(stack, ROOM);
    return ROOM - untouched;
}

int main(int argc, char **argv) {
    FILE *in = argc == 2 ? fopen(argv[1], "rb") : NULL;
    int failed = 0;
    if (in == NULL)
        return 2;
    len = fread(file, 1, sizeof file, in);
    fclose(in);
    memset(key, 7, sizeof key);
    memset(share, 9, sizeof share);
    if (agefile_encoder_new(&encoder, pass()) || agefile_decoder_new(&decoder, pass()) ||
        agefile_decoder_new(&by_key, agefile_file_key(key)))
        return 2;
    if (agefile_decode(by_key, file, len, out, sizeof out, &written))
        return 2;
    for (int which = 0; which < CALLS; which++) {
        size_t bytes = used(which);
        printf("call %d: answer %d, %zu bytes of stack\n", which, answer, bytes);
        failed += bytes > MOST;
    }
    printf("%d passed, %d failed\n", CALLS - failed, failed);
    return failed != 0;
}
