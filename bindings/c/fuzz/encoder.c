/* Fuzzes an encoder: begun by each kind of key, with stanzas of any lines, fed, ended, begun again
 * and given up, in any order and any pieces. What it writes is compared with the file that
 * reference.h makes of the same key, text and random bytes. */
#include "fuzz.h"

enum { TEXT = 4 * R_CHUNK, LINES = 60000 };
static uint8_t text[TEXT], secret[32], share[32], recipient[32], key[16], drawn[48];
static unsigned draws;
static int is_refused;

/* The random bytes are known, and may be refused. */
ssize_t getrandom(void *to, size_t len, unsigned flags) {
    (void)flags;
    CHECK(len == sizeof drawn);
    if (is_refused)
        return -1;
    fill(drawn, len, 5 + 2 * draws++);
    memcpy(to, drawn, len);
    return (ssize_t)len;
}

/* What the encoder was begun with, and what it has to have written. */
static struct file {
    int is_begun;
    uint8_t front[LINES + 500], own[32];
    size_t front_len, front_left, text_len, sealed;
} wanted;

/* The lines of the stanza, or stanzas, of a key. */
static size_t stanzas_of(const agefile_key *it, const uint8_t *file_key, uint8_t *to) {
    uint8_t wrap[32], body[32], words[44] = {0}, lines[44] = {0};
    if (it->kind == FILE_KEY)
        return memcpy(to, it->with, it->with_len), it->with_len;
    if (it->kind == PASS)
        r_scrypt(it->at, it->len, drawn + 16, it->work, wrap), r_text(drawn + 16, 16, words);
    else
        r_shared(it->with, it->at, it->to, wrap), r_text(it->with, 32, words);
    r_seal(wrap, r_zeros, file_key, 16, body);
    r_text(body, 32, lines);
    return (size_t)(it->kind == PASS
                        ? sprintf((char *)to, "-> scrypt %s %u\n%s\n", words, it->work, lines)
                        : sprintf((char *)to, "-> X25519 %s\n%s\n", words, lines));
}
/* Begins: 0, and what stands before the payload; or why no file is begun. */
static int w_begin(const agefile_key *it) {
    static r_header head;
    static uint8_t bodies[LINES + 500];
    const uint8_t *file_key = it->kind == FILE_KEY ? it->at : drawn,
                  *nonce = drawn + (it->kind == PASS ? 32 : 16);
    uint8_t mac[32];
    size_t len = 22;
    if (it->kind == SHARED && !memcmp(it->at, r_zeros, 32))
        return AGEFILE_BAD_X25519;
    memcpy(wanted.front, "age-encryption.org/v1\n", len);
    len += stanzas_of(it, file_key, wanted.front + len);
    len += (size_t)sprintf((char *)wanted.front + len,
                           "--- AAAAAAAAAAAAAAAAAAAAAAAAAAAAAAAAAAAAAAAAAAA\n");
    head.bodies = bodies;
    if (r_parse(wanted.front, len, &head) || head.size != len)
        return AGEFILE_BAD_STANZA_LINE;
    if (head.count > 1 && r_has(wanted.front, &head, "scrypt"))
        return AGEFILE_SCRYPT_NOT_ALONE;
    r_mac(wanted.front, len, file_key, mac);
    r_text(mac, 32, wanted.front + head.mac_at);
    memcpy(wanted.front + len, nonce, 16);
    r_hkdf(file_key, 16, nonce, 16, "payload", wanted.own);
    wanted.front_len = wanted.front_left = len + 16;
    wanted.text_len = wanted.sealed = 0;
    return 0;
}
/* Puts what stands before the payload, once, and the blocks of full chunks that aren't the last, or
 * of all that is left. */
static size_t w_put(int is_end, uint8_t *to) {
    size_t n = wanted.front_left;
    memcpy(to, wanted.front, n);
    wanted.front_left = 0;
    for (; wanted.text_len - wanted.sealed > R_CHUNK; wanted.sealed += R_CHUNK, n += R_BLOCK)
        r_seal_chunk(wanted.own, wanted.sealed / R_CHUNK, 0, text + wanted.sealed, R_CHUNK, to + n);
    if (!is_end)
        return n;
    r_seal_chunk(wanted.own, wanted.sealed / R_CHUNK, 1, text + wanted.sealed,
                 wanted.text_len - wanted.sealed, to + n);
    wanted.is_begun = 0;
    return n + wanted.text_len - wanted.sealed + R_TAG;
}

static agefile_key keys[4];

static int begins(const agefile_key *it) {
    int misused = (it->kind == PASS && !it->len) || (it->kind != PASS && !it->with);
    int want = misused ? AGEFILE_MISUSED : is_refused ? AGEFILE_NO_RANDOM : w_begin(it);
    wanted.is_begun = !want;
    return want;
}
/* A key, which may be one that can't be used; or no random bytes. */
static agefile_key draw_key(unsigned how) {
    is_refused = how % 16 == 15;
    if (how % 16 == 14)
        return agefile_passphrase("", 0);
    if (how % 16 == 13)
        return agefile_file_key(key);
    if (how % 16 == 12)
        return agefile_shared(r_zeros, share, recipient);
    return keys[how % 4];
}
static void see_begin(agefile_encoder *it, unsigned how) {
    agefile_key by = draw_key(how);
    int answer = agefile_encoder_begin(it, by);
    CHECK(answer == begins(&by));
}
static agefile_encoder *see_new(agefile_encoder *it, unsigned how) {
    agefile_key by = draw_key(how);
    agefile_encoder_free(it);
    int answer = agefile_encoder_new(&it, by);
    CHECK(answer == begins(&by) && !it == (answer != 0));
    if (it)
        return it;
    is_refused = 0;
    answer = agefile_encoder_new(&it, keys[3]);
    CHECK(answer == 0 && begins(&keys[3]) == 0);
    return it;
}
static void see_call(agefile_encoder *it, int is_end, size_t len) {
    static uint8_t expected[TEXT + TEXT / R_CHUNK * R_TAG + LINES + 1000];
    size_t held = wanted.text_len - wanted.sealed, n = 0, written = 99;
    if (len > TEXT - wanted.text_len)
        len = TEXT - wanted.text_len;
    size_t need = !wanted.is_begun
                      ? 0
                      : wanted.front_left + (is_end ? held + R_TAG
                                             : len  ? (held + len - 1) / R_CHUNK * R_BLOCK
                                                    : 0),
           room = draw_room(need);
    if (wanted.is_begun)
        CHECK(need == (is_end ? agefile_encode_end_room(it) : agefile_encode_room(it, len)));
    uint8_t *out = filled(out_room, room), *piece = copied(more_room, text + wanted.text_len, len);
    int answer = is_end ? agefile_encode_end(it, out, room, &written)
                        : agefile_encode(it, piece, len, out, room, &written);
    CHECK(answer == (!wanted.is_begun ? AGEFILE_MISUSED : room < need ? AGEFILE_NO_ROOM : 0));
    if (!answer)
        wanted.text_len += is_end ? 0 : len, n = w_put(is_end, expected);
    CHECK(written == n && (!n || !memcmp(out, expected, n)) && is_untouched(out, n, room));
}
static void see_in_one_call(unsigned how, size_t len) {
    static uint8_t expected[TEXT + TEXT / R_CHUNK * R_TAG + LINES + 1000];
    static struct file kept;
    agefile_key by = draw_key(how);
    size_t room = agefile_sealed_len(by, len), n = 0, written = 99;
    kept = wanted;
    uint8_t *out = filled(out_room, room);
    int answer = agefile_encrypt(by, copied(more_room, text, len), len, out, room, &written),
        want = begins(&by);
    if (!want)
        wanted.text_len = len, n = w_put(1, expected);
    CHECK(answer == want && written == n && (!n || !memcmp(out, expected, n)) &&
          is_untouched(out, n, room));
    wanted = kept;
}
/* Its first byte says how many steps there are, its second by which key it begins; two bytes for
 * each step follow, and then lines. */
int LLVMFuzzerTestOneInput(const uint8_t *given, size_t size) {
    static uint8_t lines[LINES];
    if (size < 2 || size - 2 < 2 * (size_t)(given[0] % 32) || size > LINES)
        return 0;
    size_t steps = given[0] % 32, len = size - 2 - 2 * steps;
    at_fuzz = given + 2 + 2 * steps, end_fuzz = given + size;
    memcpy(lines, at_fuzz, len);
    keys[0] = keys[1] = agefile_wrapped(key, lines, len);
    draws = 0, is_refused = 0;
    agefile_encoder *it = see_new(NULL, given[1] % 16);
    for (size_t i = 0; i < steps; i++) {
        unsigned low = given[2 + 2 * i], high = given[3 + 2 * i];
        if (low >= 240)
            see_in_one_call(high, low == 255 ? TEXT : (low % 16) * 5000);
        else if (low >= 224)
            it = see_new(it, high);
        else if (low >= 192)
            see_begin(it, high);
        else if (low >= 176)
            see_call(it, 1, 0);
        else
            see_call(it, 0,
                     low % 16 == 1   ? R_CHUNK - high % 3
                     : low % 16 == 2 ? 3 * R_CHUNK
                     : low % 16 == 3 ? 0
                                     : low | high << 8);
    }
    see_call(it, 1, 0);
    see_call(it, 1, 0);
    agefile_encoder_free(it);
    return 0;
}
int LLVMFuzzerInitialize(int *argc, char ***argv) {
    (void)argc, (void)argv;
    fill(text, sizeof text, 131), fill(secret, 32, 7), fill(share, 32, 9), fill(recipient, 32, 11),
        fill(key, 16, 13);
    keys[2] = agefile_shared(secret, share, recipient), keys[3] = agefile_passphrase("pw", 2);
    keys[3].work = 1;
    return begin_fuzz();
}
