/* Which branches and addresses of the proved calls depend on secrets: these are marked as undefined
 * for valgrind's memcheck, which then reports each conditional jump and each address that depends
 * on them.
 *
 * usage: valgrind --error-limit=no secrets WHAT: seal (file key and text), block (file key), key
 * (opening by the file key), passphrase (opening by one), shared (opening by a shared secret), leak
 * (an address that this program forms by the file key)
 */
#include "../core.h"

#include <stdio.h>
#include <string.h>
#include <valgrind/memcheck.h>

static const char shared[] =
    "age-encryption.org/v1\n-> X25519 AQEBAQEBAQEBAQEBAQEBAQEBAQEBAQEBAQEBAQEBAQE\n"
    "AQEBAQEBAQEBAQEBAQEBAQEBAQEBAQEBAQEBAQEBAQE\n--- "
    "AQEBAQEBAQEBAQEBAQEBAQEBAQEBAQEBAQEBAQEBAQE\n0123456789abcdef";
static uint8_t text[AGEFILE_CHUNK], block[AGEFILE_BLOCK], out[AGEFILE_BLOCK], front[FRONT],
    held[FRONT], noise[48], key[16];
static uint8_t pass[20] = "hunter2-a-passphrase", secret[32], recipient[32];
static size_t front_len, taken, written;
static core_encoder encoder;
static core_decoder decoder;

/* A file of one whole chunk and another byte, of which `block` is the first block; a decoder of it;
 * and the file key. */
static int begin(void) {
    for (size_t i = 0; i < sizeof noise; i++)
        noise[i] = (uint8_t)(i * 7 + 1);
    for (size_t i = 0; i < sizeof text; i++)
        text[i] = (uint8_t)(i * 31);
    memcpy(key, noise, sizeof key);
    memset(secret, 5, sizeof secret);
    memset(recipient, 9, sizeof recipient);
    return age_c_encode_passphrase(pass, sizeof pass, 1, noise, sizeof noise, front, sizeof front,
                                   &front_len, &encoder) == 0 &&
           age_c_encode_piece(&encoder, text, sizeof text, &taken, block, sizeof block, &written) ==
               0 &&
           age_c_encode_piece(&encoder, text, 1, &taken, block, sizeof block, &written) == 0;
}

static uint32_t opened(const char *what) {
    age_c_decode_begin(&decoder);
    if (!strcmp(what, "passphrase"))
        return age_c_decode_head_passphrase(pass, sizeof pass, 22, &decoder, held, sizeof held,
                                            front, front_len, false, &taken);
    if (!strcmp(what, "key"))
        return age_c_decode_head_key(key, sizeof key, &decoder, held, sizeof held, front, front_len,
                                     false, &taken);
    return age_c_decode_head_shared(secret, sizeof secret, recipient, sizeof recipient, &decoder,
                                    held, sizeof held, (const uint8_t *)shared, sizeof shared - 1,
                                    false, &taken);
}

static uint32_t called(const char *what) {
    uint32_t answer;
    if (!strcmp(what, "seal")) {
        VALGRIND_MAKE_MEM_UNDEFINED(encoder.file_key, 16);
        VALGRIND_MAKE_MEM_UNDEFINED(text, sizeof text);
        answer = age_c_encode_piece(&encoder, text, sizeof text, &taken, out, sizeof out, &written);
        answer |= age_c_encode_piece(&encoder, text, 2, &taken, out, sizeof out, &written);
        return answer | age_c_finish_text(&encoder, out, sizeof out, &written);
    }
    if (!strcmp(what, "block")) {
        if (opened("key"))
            return 2;
        VALGRIND_MAKE_MEM_UNDEFINED(decoder.reader.file_key, 16);
        return age_c_decode_piece(&decoder, block, sizeof block, &taken, out, sizeof out, &written);
    }
    VALGRIND_MAKE_MEM_UNDEFINED(key, sizeof key);
    VALGRIND_MAKE_MEM_UNDEFINED(pass, sizeof pass);
    VALGRIND_MAKE_MEM_UNDEFINED(secret, sizeof secret);
    return !strcmp(what, "leak") ? text[key[3]] : opened(what);
}

int main(int argc, char **argv) {
    if (argc != 2 || !begin())
        return 2;
    uint32_t answer = called(argv[1]);
    VALGRIND_MAKE_MEM_DEFINED(&answer, sizeof answer);
    printf("%u\n", answer);
    return 0;
}
