/* Fuzzes what is told of a header, and the opening of it by each kind of key, in two pieces. Its
 * first four bytes say what is mended of it, so that it opens, where it is cut, and the most work.
 */
#include "model.h"

static const uint8_t key[16] = {3,  14,  25,  36,  47,  58,  69,  80,
                                91, 102, 113, 124, 135, 146, 157, 168};
static uint8_t secret[32], recipient[32];
static r_header head;
static uint8_t bodies[MOST], whole[MOST];
static model wanted;

/* Makes the header one that opens: the body of its last stanza, and its MAC. */
static void mend(uint8_t *data, unsigned how) {
    uint8_t wrap[32], body[32], mac[32];
    const r_stanza *it = &head.stanzas[head.count - 1];
    if (how & 1 && it->text_len == 44 &&
        r_wrap_of(data, &head, it, "pw", 2, secret, recipient, wrap)) {
        r_seal(wrap, r_zeros, key, 16, body);
        r_text(body, 32, data + it->text_at);
    }
    if (how & 2) {
        r_mac(data, head.size, key, mac);
        r_text(mac, 32, data + head.mac_at);
    }
    CHECK(r_parse(data, head.size, &head) == 0);
}
static void see_stanzas(const uint8_t *data, size_t len) {
    size_t count = 9, written = 9;
    agefile_stanza *all = (agefile_stanza *)(void *)filled(more_room, head.count * sizeof *all);
    uint8_t *out = filled(out_room, len);
    CHECK(agefile_stanzas(data, len, all, head.count, &count, out, len, &written) == 0 &&
          count == head.count);
    CHECK(written == head.bodies_len && (!written || !memcmp(out, bodies, written)) &&
          is_untouched(out, written, len));
    for (size_t i = 0; i < count; i++) {
        const r_stanza *it = &head.stanzas[i];
        CHECK(all[i].args_at == it->args_at && all[i].args_len == it->args_len &&
              all[i].body_len == it->body_len);
        CHECK(it->body_len == 0 || all[i].body_at == it->body_at);
    }
    CHECK(agefile_stanzas(data, len, all, head.count - 1, &count, out, len, &written) ==
              AGEFILE_NO_ROOM &&
          !count && !written);
    CHECK(agefile_stanzas(data, len, all, head.count, &count, out, head.size - 1, &written) ==
              AGEFILE_NO_ROOM &&
          !count && !written);
}
static void see_header(const uint8_t *data, size_t len, int want) {
    size_t header_len = 9, count = 9, written = 9;
    uint32_t work = 9;
    CHECK(agefile_header(data, len, &header_len, &count, &work) == want);
    if (want)
        CHECK(!header_len && !count && !work &&
              agefile_stanzas(data, len, NULL, 0, &count, NULL, 0, &written) == want && !count &&
              !written);
    else
        CHECK(header_len == head.size && count == head.count && work == r_work(data, &head));
    if (!want)
        see_stanzas(data, len);
}
int LLVMFuzzerTestOneInput(const uint8_t *given, size_t size) {
    if (size < 4 || size > MOST)
        return 0;
    size_t len = size - 4, split = (given[1] | (size_t)given[2] << 8) % (len + 1);
    uint8_t *data = copied(bytes_room, given + 4, len);
    agefile_key keys[] = {agefile_passphrase("pw", 2), agefile_file_key(key),
                          agefile_shared(secret, NULL, recipient)};
    keys[0].work = 1 + given[3] % 4;
    head.bodies = bodies;
    int want = (int)r_parse(data, len, &head);
    if (head.overflow)
        return 0;
    if (!want)
        mend(data, given[0]);
    see_header(data, len, want);
    if (len)
        memcpy(whole, data, len);
    for (size_t i = 0; i < 3; i++) {
        agefile_decoder *it;
        CHECK(agefile_decoder_new(&it, keys[i]) == 0);
        m_begin(&wanted, keys[i]);
        see_decode(it, &wanted, whole, split);
        see_decode(it, &wanted, whole + split, len - split);
        see_end(it, &wanted);
        see_end(it, &wanted);
        agefile_decoder_free(it);
    }
    return 0;
}
int LLVMFuzzerInitialize(int *argc, char ***argv) {
    (void)argc, (void)argv;
    fill(secret, sizeof secret, 7), fill(recipient, sizeof recipient, 11);
    return begin_fuzz();
}
