/* Encrypts to a recipient of age-keygen, or decrypts with an identity of it, by libsodium's X25519:
 *     x25519 age1.. <IN >OUT          x25519 AGE-SECRET-KEY-1.. <IN >OUT
 * Only status 0 means that the output is complete. Link with -lagefile -lsodium. (A program for
 * many would read the identity from a file.) */
#include "agefile.h"

#include <ctype.h>
#include <sodium.h>
#include <stdio.h>
#include <stdlib.h>
#include <string.h>

/* The 32 bytes of a key in Bech32 (BIP 173), which begins with `head` and 1, in one case: whether
 * it is one. */
static int read_key(const char *text, const char *head, uint8_t key[32]) {
    static const char letters[] = "qpzry9x8gf2tvdw0s3jn54khce6mua7l";
    static const uint32_t factors[] = {0x3b6a57b2, 0x26508e6d, 0x1ea119fa, 0x3d4233dd, 0x2a1462b3};
    uint32_t sum = 1, values[200], n = 0, bits = 0, held = 0, made = 0;
    size_t len = strlen(head);
    if (strncmp(text, head, len) || text[len] != '1' || strlen(text + len) != 59)
        return 0;
    for (size_t i = 0; i < len; i++)
        values[n++] = (uint32_t)tolower(head[i]) >> 5;
    values[n++] = 0;
    for (size_t i = 0; i < len; i++)
        values[n++] = (uint32_t)tolower(head[i]) & 31;
    for (const char *at = text + len + 1; *at; at++) {
        const char *found = !isalpha((unsigned char)*at) ||
                                    !islower((unsigned char)head[0]) == !islower((unsigned char)*at)
                                ? strchr(letters, tolower(*at))
                                : NULL;
        if (!found)
            return 0;
        values[n++] = (uint32_t)(found - letters);
    }
    for (uint32_t i = 0; i < n; i++) {
        uint32_t top = sum >> 25;
        sum = (sum & 0x1ffffff) << 5 ^ values[i];
        for (int j = 0; j < 5; j++)
            sum ^= top >> j & 1 ? factors[j] : 0;
    }
    for (uint32_t i = (uint32_t)(2 * len + 1); i < n - 6; i++) {
        held = held << 5 | values[i], bits += 5;
        if (bits >= 8)
            bits -= 8, key[made++] = (uint8_t)(held >> bits), held &= (1u << bits) - 1;
    }
    return sum == 1 && made == 32 && held == 0;
}
static int encrypt_to(const uint8_t *recipient, const uint8_t *text, size_t len, uint8_t *out,
                      size_t room, size_t *n) {
    uint8_t secret[32], share[32], own[32];
    randombytes_buf(own, sizeof own);
    if (crypto_scalarmult_base(share, own) || crypto_scalarmult(secret, own, recipient))
        return AGEFILE_BAD_X25519;
    return agefile_encrypt(agefile_shared(secret, share, recipient), text, len, out, room, n);
}
/* Tries each share of the header. */
static int decrypt_by(const uint8_t *identity, const uint8_t *file, size_t len, uint8_t *out,
                      size_t room, size_t *n) {
    uint8_t secret[32], share[32], recipient[32];
    size_t header_len, count, size;
    uint32_t work;
    int answer = agefile_header(file, len, &header_len, &count, &work);
    agefile_stanza *all = calloc(count + 1, sizeof *all);
    if (!answer && all)
        answer = agefile_stanzas(file, len, all, count, &count, out, room, n);
    if (answer || !all || crypto_scalarmult_base(recipient, identity))
        return answer ? answer : AGEFILE_MEMORY;
    answer = AGEFILE_NO_MATCH;
    for (size_t i = 0; i < count && (answer == AGEFILE_NO_MATCH || answer == AGEFILE_WRONG_KEY);
         i++) {
        const char *args = (const char *)file + all[i].args_at;
        if (all[i].args_len != 50 || memcmp(args, "X25519 ", 7))
            continue;
        if (sodium_base642bin(share, 32, args + 7, 43, NULL, &size, NULL,
                              sodium_base64_VARIANT_ORIGINAL_NO_PADDING) ||
            size != 32)
            continue;
        if (crypto_scalarmult(secret, identity, share))
            continue; /* a share of low order: no one's */
        answer = agefile_decrypt(agefile_shared(secret, NULL, recipient), file, len, out, room, n);
    }
    free(all);
    return answer;
}
int main(int argc, char **argv) {
    uint8_t key[32], *in = NULL, *out;
    size_t len = 0, n = 0, room = 0, more = 1;
    int is_recipient = argc == 2 && read_key(argv[1], "age", key);
    if (sodium_init() < 0 ||
        (!is_recipient && (argc != 2 || !read_key(argv[1], "AGE-SECRET-KEY-", key))))
        return fputs("usage: x25519 KEY <IN >OUT\n", stderr), 2;
    for (; more > 0; len += more) {
        if (len == room && !(in = realloc(in, room = 2 * room + 65536)))
            return fputs("x25519: no memory\n", stderr), 2;
        more = fread(in + len, 1, room - len, stdin);
    }
    room = len + len / 4096 + 1000;
    if (ferror(stdin) || !(out = malloc(room)))
        return perror("x25519"), 2;
    int answer = is_recipient ? encrypt_to(key, in, len, out, room, &n)
                              : decrypt_by(key, in, len, out, room, &n);
    if (answer)
        return fprintf(stderr, "x25519: %d %s: %s\n", answer, agefile_fault_name(answer),
                       agefile_fault_text(answer)),
               1;
    return fwrite(out, 1, n, stdout) < n || fflush(stdout) ? perror("x25519"), 2 : 0;
}
