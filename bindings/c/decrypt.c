/* Decrypts an age file under a passphrase, from standard input to standard output: decrypt PASSFILE
 * [SIZE] It reads SIZE bytes at a time (65,536). One newline at the end of PASSFILE is ignored.
 * Only status 0 means that the output is the complete plaintext; after a fault it is a prefix that
 * was checked. */
#include "agefile.h"

#include <stdio.h>
#include <stdlib.h>

static int failed(const char *what) {
    perror(what);
    return 2;
}

int main(int argc, char **argv) {
    static char pass[65538], in[1 << 20], out[(1 << 20) + 65536];
    size_t size = argc > 2 ? strtoul(argv[2], NULL, 10) : 65536, len, n;
    FILE *file = argc == 2 || argc == 3 ? fopen(argv[1], "rb") : NULL;
    agefile_decoder *it;
    if (argc != 2 && argc != 3)
        return fprintf(stderr, "usage: decrypt PASSFILE [SIZE] <IN >OUT\n"), 2;
    if (!file)
        return failed(argv[1]);
    len = fread(pass, 1, sizeof pass, file);
    if (ferror(file))
        return failed(argv[1]);
    fclose(file);
    if (len > 0 && pass[len - 1] == '\n')
        len--;
    if (size < 1 || size > sizeof in)
        size = sizeof in;
    setvbuf(stdin, NULL, _IONBF, 0);
    int answer = agefile_decoder_new(&it, agefile_passphrase(pass, len));
    while (!answer && (len = fread(in, 1, size, stdin)) > 0) {
        answer = agefile_decode(it, in, len, out, sizeof out, &n);
        if (fwrite(out, 1, n, stdout) < n)
            return failed("decrypt: standard output");
    }
    if (ferror(stdin))
        return failed("decrypt: standard input");
    if (!answer)
        answer = agefile_decode_end(it, out, sizeof out, &n), fwrite(out, 1, n, stdout);
    if (fflush(stdout) || ferror(stdout))
        return failed("decrypt: standard output");
    if (answer)
        fprintf(stderr, "decrypt: %d %s", answer, agefile_fault_name(answer));
    if (answer && it && agefile_fault_chunk(it) != UINT64_MAX)
        fprintf(stderr, " chunk %llu", (unsigned long long)agefile_fault_chunk(it));
    if (answer)
        fputc('\n', stderr);
    agefile_decoder_free(it);
    return answer != 0;
}
