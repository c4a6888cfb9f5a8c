/* A header made by hand, whose stanza asks for scrypt at work factor 22, which takes 4 GiB. A limit
 * of 22 leads to a try, whose memory is refused here: 28. A lower limit has to lead to 11, before
 * any memory is asked for that a header of this size doesn't need.
 *
 * usage: work
 */
#include "agefile.h"

#include <stdio.h>
#include <stdlib.h>
#include <string.h>

#define FEW ((size_t)1 << 16)

struct tried {
    size_t ok;
    void *at;
};

static char nowhere;
static size_t most;

static void *none_or(void *at) { return at != NULL ? at : &nowhere; }

static int is_refused(size_t size) {
    if (size > most)
        most = size;
    return size > FEW;
}

struct tried rattle_alloc(size_t size, size_t align) {
    void *at = is_refused(size) ? NULL : malloc(size ? size : align);
    return (struct tried){at != NULL, none_or(at)};
}

struct tried rattle_realloc(void *at, size_t kept, size_t size, size_t align) {
    (void)kept;
    at = is_refused(size) ? NULL : realloc(at, size ? size : align);
    return (struct tried){at != NULL, none_or(at)};
}

void rattle_dealloc(void *at) { free(at); }

#define ZEROS "AAAAAAAAAAAAAAAAAAAAAAAAAAAAAAAAAAAAAAAAAAA\n"

static const char front[] = "age-encryption.org/v1\n-> scrypt AAAAAAAAAAAAAAAAAAAAAA 22\n" ZEROS
                            "--- " ZEROS "sixteen bytes...";

static int is_answered(uint32_t limit, int expected) {
    agefile_key key = agefile_passphrase("pw", 2);
    agefile_decoder *it;
    size_t n = 9;
    key.work = limit;
    most = 0;
    int answer = agefile_decoder_new(&it, key);
    if (answer == 0)
        answer = agefile_decode(it, front, sizeof front - 1, NULL, 0, &n);
    int right = answer == expected && n == 0 && (most > FEW) == (expected == AGEFILE_MEMORY);
    printf("limit %u: answer %d, at most %zu bytes at once\n", limit, answer, most);
    agefile_decoder_free(it);
    return right;
}

int main(void) {
    int passed =
        is_answered(0, 28) + is_answered(22, 28) + is_answered(21, 11) + is_answered(1, 11);
    printf("%d passed, %d failed\n", passed, 4 - passed);
    return passed != 4;
}
