/* Writes again a file that age wrote for an X25519 key: with its file key and nonce, and the
 * stanzas of its header, each byte is the same. Then lines that no header has.
 *
 * usage: wrapped FILE: bindings/tests/age/one.age
 */
#include "agefile.h"

#include <stdio.h>
#include <string.h>
#include <sys/random.h>

#define FIRST 22 /* bytes of the first line of a header */
#define LAST 48  /* bytes of its last */

static const uint8_t secret[32] = {0xa6, 0x3e, 0x71, 0x1b, 0xbe, 0x76, 0x6a, 0xc0, 0x24, 0x92, 0xda,
                                   0xc2, 0xdd, 0xac, 0x00, 0x96, 0x40, 0xa5, 0xde, 0xc3, 0x40, 0x7e,
                                   0x1d, 0x76, 0x63, 0x75, 0x92, 0xc1, 0x11, 0x24, 0x56, 0x43};
static const uint8_t recipient[32] = {
    0xeb, 0xaa, 0x24, 0x28, 0x7c, 0x1e, 0x69, 0x25, 0x27, 0x05, 0x6f, 0xc5, 0xea, 0x48, 0x06, 0x63,
    0x9e, 0x8c, 0x56, 0xc9, 0x25, 0x7e, 0x95, 0x3b, 0x6d, 0xc5, 0x56, 0xe8, 0xbe, 0x34, 0xd2, 0x0f};
static const uint8_t key[16] = {0x3c, 0x54, 0xaa, 0x9f, 0x65, 0xf2, 0x0a, 0x73,
                                0x3e, 0x41, 0x30, 0x72, 0x54, 0x9d, 0xe7, 0xbd};
static int failed;
static uint8_t file[1 << 16], text[1 << 16], out[1 << 17], nonce[16], lines[1 << 16];

/* The library draws the nonce that age drew. */
ssize_t getrandom(void *to, size_t len, unsigned flags) {
    (void)flags;
    memset(to, 0, len);
    memcpy((uint8_t *)to + 16, nonce, len < 32 ? 0 : 16);
    return (ssize_t)len;
}
static void see(int holds, const char *what) {
    if (!holds)
        printf("%s\n", what), failed = 1;
}
/* What each of these lines is answered with. */
static void refusals(void) {
    static const struct {
        const char *lines;
        int answer;
    } rows[] = {
        {"\n", 3},
        {"-> a", 3},
        {"-> a\n", 3},
        {"-> a\nAA", 3},
        {"a\n\n", 3},
        {"-> a  b\n\n", 3},
        {"-> \n\n", 3},
        {"-> a\nAB\n", 3},
        {"-> a\n\n\n", 3},
        {"-> a\n\n--- ", 3},
        {"-> a\n\n--- AAAAAAAAAAAAAAAAAAAAAAAAAAAAAAAAAAAAAAAAAAA\n", 3},
        {"-> a\n\n--- AAAAAAAAAAAAAAAAAAAAAAAAAAAAAAAAAAAAAAAAAAA\n-> b\n\n", 3},
        {"-> a\r\n\n", 3},
        {"-> a\n\n", 0},
        {"-> a\n\n-> b c\nAA\n", 0},
        {"-> scrypt AAAAAAAAAAAAAAAAAAAAAA 1\nAA\n", 0},
        {"-> a\n\n-> scrypt\n\n", 9},
        {"-> scrypt\n\n-> scrypt\n\n", 9},
        {"-> scrypt2\n\n-> a\n\n", 0},
    };
    for (size_t i = 0; i < sizeof rows / sizeof *rows; i++) {
        size_t n = 9;
        int answer = agefile_encrypt(agefile_wrapped(key, rows[i].lines, strlen(rows[i].lines)),
                                     "text", 4, out, sizeof out, &n);
        if (answer != rows[i].answer || (answer != 0 && n != 0))
            printf("%s: %d, not %d\n", rows[i].lines, answer, rows[i].answer), failed = 1;
    }
}
int main(int argc, char **argv) {
    FILE *in = argc == 2 ? fopen(argv[1], "rb") : NULL;
    size_t len, header_len, count, text_len, n;
    uint32_t work;
    if (in == NULL || (len = fread(file, 1, sizeof file, in)) == 0 ||
        agefile_header(file, len, &header_len, &count, &work) != 0)
        return 2;
    fclose(in);
    see(agefile_decrypt(agefile_shared(secret, NULL, recipient), file, len, text, sizeof text,
                        &text_len) == 0 &&
            text_len == 17,
        "its text");
    memcpy(nonce, file + header_len, sizeof nonce);
    memcpy(lines, file + FIRST, header_len - FIRST - LAST);
    see(agefile_encrypt(agefile_wrapped(key, lines, header_len - FIRST - LAST), text, text_len, out,
                        sizeof out, &n) == 0,
        "it is written");
    see(n == len && memcmp(out, file, len) == 0, "it is byte for byte what age wrote");
    refusals();
    printf("%s\n", failed ? "failed" : "passed");
    return failed;
}
