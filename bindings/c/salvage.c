/* Saves what still opens of a damaged or truncated age file:
 *
 *     salvage PASSFILE <IN >OUT
 *
 * Each chunk that opens is written at its place, and zeros for each one that doesn't. For each part
 * that is lost it prints the first byte and the byte after the last. Status 0 means that nothing is
 * missing, 1 that something is, or that the file couldn't be opened, and then nothing is written.
 * One newline at the end of PASSFILE is ignored. A program can save a file that a key opens in the
 * same way.
 */
#include "agefile.h"

#include <stdio.h>
#include <string.h>

static uint8_t front[1048592], block[AGEFILE_BLOCK], text[sizeof front + AGEFILE_CHUNK],
    zeros[AGEFILE_CHUNK];
static size_t have, used; /* bytes of `front`, and how many of them were taken */
static agefile_decoder *decoder;

/* Reads a block, or what is left at the end. */
static size_t next_block(void) {
    size_t len = have - used < sizeof block ? have - used : sizeof block;
    memcpy(block, front + used, len);
    used += len;
    return len + fread(block + len, 1, sizeof block - len, stdin);
}

/* Writes zeros for what was lost before this place, and says so. */
static void put_zeros(uint64_t *size, uint64_t end) {
    if (*size < end) {
        fprintf(stderr, "salvage: lost: from byte %llu to before byte %llu\n",
                (unsigned long long)*size, (unsigned long long)end);
    }
    while (*size < end) {
        uint64_t len = end - *size < sizeof zeros ? end - *size : sizeof zeros;
        fwrite(zeros, 1, (size_t)len, stdout);
        *size += len;
    }
}

/* Writes what opens. Returns whether nothing is missing. */
static int salvage(void) {
    uint64_t chunk = 0, size = 0, end = 0;
    size_t len, written;
    int ended = 0, missing = 0, any = 0;
    do {
        len = next_block();
        if (agefile_open_at(decoder, chunk, block, len, text, sizeof text, &written, &ended) == 0) {
            put_zeros(&size, chunk * AGEFILE_CHUNK);
            fwrite(text, 1, written, stdout);
            end = size += written;
            any = 1;
        } else if (len > 16) {
            end = chunk * AGEFILE_CHUNK + len - 16;
            missing = 1;
        }
        chunk++;
    } while (len == sizeof block && !ended);
    if (any)
        put_zeros(&size, end);
    if (!any && !ended)
        fprintf(stderr, "salvage: no chunk opens\n");
    if (!ended)
        fprintf(stderr, "salvage: the text may have been longer\n");
    return ended && !missing;
}

/* Opens the header. */
static int begin(const uint8_t *pass, size_t pass_len) {
    size_t written;
    int answer = agefile_decoder_new(&decoder, agefile_passphrase(pass, pass_len));
    have = fread(front, 1, sizeof front, stdin);
    if (answer == 0)
        answer = agefile_decode(decoder, front, have, text, sizeof text, &written);
    if (answer == 0 && !agefile_payload_at(decoder))
        answer = agefile_decode_end(decoder, text, sizeof text, &written);
    if (decoder && agefile_payload_at(decoder))
        answer = 0; /* (what is wrong after it is for salvage) */
    if (answer == 0)
        used = (size_t)agefile_payload_at(decoder);
    return answer;
}

int main(int argc, char **argv) {
    static uint8_t pass[65538];
    FILE *in = argc == 2 ? fopen(argv[1], "rb") : NULL;
    size_t pass_len;
    if (in == NULL) {
        fprintf(stderr, "usage: salvage PASSFILE <IN >OUT\n");
        return 2;
    }
    pass_len = fread(pass, 1, sizeof pass, in);
    fclose(in);
    if (pass_len > 0 && pass[pass_len - 1] == '\n')
        pass_len--;
    int answer = begin(pass, pass_len), whole = 0;
    if (answer == 0)
        whole = salvage();
    if (fflush(stdout) != 0 || ferror(stdout) || ferror(stdin)) {
        fprintf(stderr, "salvage: a file can't be read or written\n");
        answer = 1;
    } else if (answer != 0) {
        fprintf(stderr, "salvage: %d %s\n", answer, agefile_fault_name(answer));
    }
    agefile_decoder_free(decoder);
    return answer == 0 && whole ? 0 : 1;
}
