/* No random bytes, as seccomp refuses them, and each allocation failing in turn.
 * Link with -Wl,--wrap=malloc,--wrap=realloc,--wrap=getrandom. usage: lacking */
#define _GNU_SOURCE
#include "agefile.h"

#include <errno.h>
#include <linux/filter.h>
#include <linux/seccomp.h>
#include <stddef.h>
#include <stdio.h>
#include <stdlib.h>
#include <string.h>
#include <sys/prctl.h>
#include <sys/random.h>
#include <sys/syscall.h>
#include <sys/wait.h>
#include <unistd.h>

#define CHECK(it)                                                                                  \
    do {                                                                                           \
        if (!(it))                                                                                 \
            printf("%s:%d: not so: %s\n", __FILE__, __LINE__, #it), failed++;                      \
    } while (0)
void *__real_malloc(size_t), *__real_realloc(void *, size_t), *__wrap_malloc(size_t),
    *__wrap_realloc(void *, size_t);
ssize_t __real_getrandom(void *, size_t, unsigned), __wrap_getrandom(void *, size_t, unsigned);
static unsigned failed;
static long left;
static int interrupts;

static int fails(void) { return left > 0 && --left == 0; }
void *__wrap_malloc(size_t n) { return fails() ? NULL : __real_malloc(n); }
void *__wrap_realloc(void *at, size_t n) { return fails() ? NULL : __real_realloc(at, n); }
ssize_t __wrap_getrandom(void *at, size_t n, unsigned flags) {
    if (interrupts > 0)
        return interrupts--, errno = EINTR, -1;
    return __real_getrandom(at, n, flags);
}
static agefile_key pass(void) {
    agefile_key key = agefile_passphrase("pw", 2);
    key.work = 1;
    return key;
}
/* Refuses getrandom to this process from now on. */
static int refuse_getrandom(void) {
    struct sock_filter rules[] = {
        BPF_STMT(BPF_LD | BPF_W | BPF_ABS, offsetof(struct seccomp_data, nr)),
        BPF_JUMP(BPF_JMP | BPF_JEQ | BPF_K, SYS_getrandom, 0, 1),
        BPF_STMT(BPF_RET | BPF_K, SECCOMP_RET_ERRNO | EPERM),
        BPF_STMT(BPF_RET | BPF_K, SECCOMP_RET_ALLOW),
    };
    struct sock_fprog program = {sizeof rules / sizeof *rules, rules};
    return prctl(PR_SET_NO_NEW_PRIVS, 1, 0, 0, 0) ||
           prctl(PR_SET_SECCOMP, SECCOMP_MODE_FILTER, &program);
}
static void without_random(void) {
    static uint8_t file[70000], text[16];
    agefile_encoder *made = (agefile_encoder *)(void *)file, *kept;
    size_t n = 1;
    CHECK(agefile_encoder_new(&kept, pass()) == 0);
    CHECK(refuse_getrandom() == 0);
    CHECK(agefile_encoder_new(&made, pass()) == AGEFILE_NO_RANDOM && !made);
    CHECK(agefile_encrypt(pass(), text, 5, file, sizeof file, &n) == AGEFILE_NO_RANDOM && n == 0);
    CHECK(agefile_encrypt(agefile_wrapped(text, "-> a\n\n", 6), text, 5, file, sizeof file, &n) ==
              AGEFILE_NO_RANDOM &&
          n == 0);
    for (size_t i = 0; i < sizeof file; i++)
        CHECK(!file[i]);
    /* the file that was begun is forgotten too */
    CHECK(agefile_encoder_begin(kept, pass()) == AGEFILE_NO_RANDOM &&
          agefile_encode(kept, text, 5, file, sizeof file, &n) == AGEFILE_MISUSED);
    CHECK(agefile_encode_end(kept, file, sizeof file, &n) == AGEFILE_MISUSED && n == 0);
    agefile_encoder_free(kept);
}
static void without_memory(void) {
    static uint8_t file[300000], out[300000], text[100000], share[32] = {9}, lines[6000];
    size_t n = 1, got = 1, most = 0;
    agefile_key shared = agefile_shared(share, share, share),
                keys[] = {pass(), agefile_wrapped(text, lines, sizeof lines), shared};
    for (size_t i = 0; i < sizeof lines / 100; i++)
        memcpy(lines + 100 * i,
               "-> some of the arguments that a stanza may have, which is one of many here so that "
               "some is\nAAAAAAAA\n",
               100);
    for (size_t k = 0; k < 3; k++) {
        for (long nth = 1, done = 0; !done; nth++) {
            left = nth;
            int a = agefile_encrypt(keys[k], text, sizeof text, file, sizeof file, &n), first = a;
            if (!a)
                a = agefile_decrypt(keys[k], file, n, out, sizeof out, &got);
            done = left > 0, left = 0;
            most += !done;
            CHECK(done ? a == 0 && got == sizeof text
                       : a == AGEFILE_MEMORY && (first ? n == 0 : got == 0));
        }
    }
    printf("%zu allocations failed in turn\n", most);
}
/* An object that was refused memory in the midst is as new once it is begun again. */
static void begun_again(void) {
    static uint8_t file[200000], out[200000], text[100000];
    agefile_encoder *e;
    agefile_decoder *d;
    size_t n, m, len = 0, got = 0;
    CHECK(agefile_encrypt(pass(), text, sizeof text, file, sizeof file, &len) == 0);
    CHECK(agefile_encoder_new(&e, pass()) == 0 && agefile_decoder_new(&d, pass()) == 0);
    for (long nth = 1, done = 0; !done; nth++) {
        CHECK(agefile_encoder_begin(e, pass()) == 0 &&
              agefile_encode(e, text, 70000, out, sizeof out, &n) == 0);
        left = nth;
        int a = agefile_encoder_begin(e, pass());
        done = left > 0, left = 0;
        CHECK(a == (done ? 0 : AGEFILE_MEMORY) &&
              agefile_encode(e, text, 5, out, sizeof out, &n) == (done ? 0 : AGEFILE_MISUSED) &&
              (done || n == 0));
    }
    CHECK(agefile_encode_end(e, out + n, sizeof out - n, &m) == 0 &&
          agefile_decrypt(pass(), out, n + m, file + len, 5, &got) == 0 && got == 5);
    for (long nth = 1, done = 0; !done; nth++) {
        CHECK(agefile_decoder_begin(d, pass()) == 0 &&
              agefile_decode(d, file, 40, NULL, 0, &n) == 0);
        left = nth;
        int a = agefile_decoder_begin(d, pass());
        if (!a)
            a = agefile_decode(d, file, len, out, sizeof out, &n);
        done = left > 0, left = 0;
        CHECK(a == (done ? 0 : AGEFILE_MEMORY) &&
              (done || agefile_decode(d, file, len, out, sizeof out, &n) == a));
    }
    CHECK(n == 65536 && agefile_decode_end(d, out, sizeof out, &n) == 0 &&
          n == sizeof text - 65536);
    for (long nth = 1, done = 0; !done; nth++) {
        size_t count;
        agefile_stanza it;
        left = nth;
        int a = agefile_stanzas(file, len, &it, 1, &count, out, sizeof out, &n);
        done = left > 0, left = 0;
        CHECK(a == (done ? 0 : AGEFILE_MEMORY) && (done ? count == 1 && n == 32 : !count && !n));
    }
    agefile_encoder_free(e), agefile_decoder_free(d);
}
int main(void) {
    static uint8_t file[1000];
    size_t n;
    int status;
    pid_t child = fork();
    if (child == 0) {
        without_random();
        exit(failed != 0);
    }
    CHECK(waitpid(child, &status, 0) == child && status == 0);
    interrupts = 3;
    CHECK(agefile_encrypt(pass(), "text", 4, file, sizeof file, &n) == 0 && n > 0);
    without_memory();
    begun_again();
    return failed != 0;
}
