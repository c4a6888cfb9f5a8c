/* Fuzzes a decoder: begun, fed, ended, begun again, given up, sent to places and asked for chunks
 * and lengths, in any order, over files that are altered, cut or another's, in pieces of any
 * length. */
#include "model.h"

enum { TEXTS = 5, KINDS = 3, LONGEST = 4 * R_BLOCK };
static const size_t text_lens[TEXTS] = {0, 70, R_CHUNK, 2 * R_CHUNK + 5, 3 * R_CHUNK};
static const char *const lines[KINDS] = {
    "-> scrypt AwMDAwMDAwMDAwMDAwMDAw 1\n", "-> x\n\n",
    "-> y z\nAAAA\n-> X25519 BwcHBwcHBwcHBwcHBwcHBwcHBwcHBwcHBwcHBwcHBwc\n"};
static uint8_t text[LONGEST], secret[32], recipient[32], key[16];
static struct file {
    uint8_t bytes[LONGEST + 1000];
    size_t len;
} files[KINDS][TEXTS];
static agefile_key keys[2 * KINDS]; /* each right one, and then each wrong one */
static model wanted;

/* A file with these stanzas, whose last is completed by the body that wraps the key. */
static void make_file(struct file *it, int kind, size_t text_len) {
    static r_header head;
    static uint8_t bodies[1000];
    uint8_t own[32], nonce[16], mac[32], wrap[32], body[32];
    char zeros[44] = "AAAAAAAAAAAAAAAAAAAAAAAAAAAAAAAAAAAAAAAAAAA";
    size_t size =
        (size_t)sprintf((char *)it->bytes, "age-encryption.org/v1\n%s%s%s--- %s\n", lines[kind],
                        kind == 1 ? "" : zeros, kind == 1 ? "" : "\n", zeros);
    head.bodies = bodies;
    CHECK(r_parse(it->bytes, size, &head) == 0 && head.size == size);
    const r_stanza *last = &head.stanzas[head.count - 1];
    if (kind != 1) {
        CHECK(r_wrap_of(it->bytes, &head, last, "pw", 2, secret, recipient, wrap));
        r_seal(wrap, r_zeros, key, 16, body);
        r_text(body, 32, it->bytes + last->text_at);
    }
    r_mac(it->bytes, size, key, mac);
    r_text(mac, 32, it->bytes + head.mac_at);
    memset(nonce, 7 + kind, 16);
    memcpy(it->bytes + size, nonce, 16);
    r_hkdf(key, 16, nonce, 16, "payload", own);
    it->len = size + 16 + r_payload(own, text, text_len, it->bytes + size + 16);
}

/* The file that is read, and how much of it was given. */
static const struct file *file;
static uint64_t place;

static agefile_key draw_key(void) {
    unsigned how = draw();
    file = &files[how % KINDS][how / 4 % TEXTS];
    place = 0;
    return how == 255      ? agefile_passphrase("", 0)
           : how / 64 == 3 ? keys[how / 8 % (2 * KINDS)]
                           : keys[how % KINDS];
}
static void see_begin(agefile_decoder *it) {
    agefile_key it_has = draw_key();
    m_begin(&wanted, it_has);
    CHECK(agefile_decoder_begin(it, it_has) == wanted.fault);
    see_decoder(it, &wanted);
}
/* Bytes of the file from a place on, perhaps altered. */
static const uint8_t *draw_piece(size_t len, size_t *have) {
    static uint8_t to[LONGEST];
    size_t at = place < file->len ? (size_t)place : file->len;
    unsigned how = draw(), where = draw2();
    *have = file->len - at < len ? file->len - at : len;
    if (*have > sizeof to)
        *have = sizeof to;
    memcpy(to, file->bytes + at, *have);
    if (how % 16 == 15 && *have)
        to[where * 7 % *have] ^= (uint8_t)(1 << how / 16 % 8);
    if (how % 32 == 14 && *have < sizeof to)
        to[(*have)++] = (uint8_t)where;
    return to;
}
static void see_piece(agefile_decoder *it) {
    unsigned how = draw();
    size_t len = how % 4 == 0   ? LONGEST
                 : how % 4 == 1 ? draw2()
                 : how % 4 == 2 ? draw()
                                : R_BLOCK - 2 + draw() % 5;
    const uint8_t *piece = draw_piece(len, &len);
    if (!wanted.is_open && wanted.front_len + len > MOST)
        return;
    if (see_decode(it, &wanted, piece, len))
        place += len;
}
static void see_seek(agefile_decoder *it) {
    unsigned how = draw();
    uint64_t to = how % 8 == 7
                      ? UINT64_MAX - draw()
                      : (uint64_t)(draw() % 5) * R_CHUNK + draw2() % 7 * (how & 8 ? 1 : 9999),
             offset = 99;
    uint64_t len = how & 16 ? UINT64_MAX : how & 32 ? draw2() * 5 : file->len;
    int answer = agefile_decode_seek(it, to, len, &offset);
    CHECK(answer == (wanted.is_open ? 0 : AGEFILE_MISUSED));
    if (answer)
        CHECK(offset == 0);
    else
        CHECK(offset == m_seek(&wanted, to, len));
    if (!answer && how & 192)
        place = offset; /* (else what comes next isn't what it asked for) */
    see_decoder(it, &wanted);
}
static void see_chunk(const agefile_decoder *it) {
    static model copy;
    uint64_t chunk = draw() % 5, kept = place;
    size_t len = draw() & 1 ? R_BLOCK : draw2(), room = draw() % 8 == 7 ? R_CHUNK - 1 : R_CHUNK,
           written = 99, n = 0;
    int is_last = 99, want;
    place = wanted.payload_at + chunk * R_BLOCK;
    const uint8_t *block = draw_piece(len, &len);
    place = kept;
    if (draw() % 8 == 7)
        chunk = chunk_limit - 2 + draw() % 4;
    uint8_t *out = filled(out_room, room);
    memcpy(&copy, &wanted, offsetof(model, block)); /* (all but the bytes that are held) */
    copy.chunk = chunk, copy.is_done = copy.fault = 0;
    want = !wanted.is_open  ? AGEFILE_MISUSED
           : room < R_CHUNK ? AGEFILE_NO_ROOM
           : chunk >= chunk_limit || len > R_BLOCK
               ? AGEFILE_MISUSED
               : m_block(&copy, block, len, len < R_BLOCK, m_out, &n);
    see_written(agefile_open_at(it, chunk, copied(bytes_room, block, len), len, out, room, &written,
                                &is_last),
                want, out, room, written, n);
    CHECK(is_last == (want == 0 && copy.is_done));
    see_decoder(it, &wanted);
}
static void see_size(const agefile_decoder *it) {
    uint64_t len = draw() & 1 ? (uint64_t)draw2() << draw() % 48
                              : wanted.payload_at + draw() % 4 * (uint64_t)R_BLOCK + draw2() % 40,
             text_len = 99;
    uint64_t rest = len > wanted.payload_at ? len - wanted.payload_at : 0, full = rest / R_BLOCK,
             left = rest % R_BLOCK;
    int want = !wanted.is_open         ? AGEFILE_MISUSED
               : !rest                 ? AGEFILE_TRUNCATED
               : left && left < R_TAG  ? AGEFILE_CHUNK_CUT
               : left == R_TAG && full ? AGEFILE_EMPTY_LAST
                                       : 0;
    CHECK(agefile_size(it, len, &text_len) == want &&
          text_len == (want ? 0 : rest - (full + (left > 0)) * R_TAG));
}
static void see_in_one_call(void) {
    static model whole;
    agefile_key by = draw_key();
    size_t len, written = 99, n = 0, more = 0;
    const uint8_t *bytes = draw_piece(draw() & 1 ? LONGEST : draw2(), &len);
    m_begin(&whole, by);
    int want = m_decode(&whole, bytes, len, m_out, &n);
    if (!want)
        want = m_end(&whole, m_out + n, &more), n += more;
    uint8_t *out = filled(out_room, want ? len : n);
    CHECK(agefile_decrypt(by, copied(bytes_room, bytes, len), len, out, want ? len : n, &written) ==
              want &&
          written == (want ? 0 : n));
    if (!want)
        CHECK(!n || !memcmp(out, m_out, n));
    else
        for (size_t i = 0; i < len; i++)
            CHECK(out[i] == 0 || out[i] == 0xaa);
    place = 0;
}
static agefile_decoder *see_new(agefile_decoder *it) {
    agefile_decoder_free(it);
    file = &files[1][draw() % TEXTS], place = 0;
    CHECK(agefile_decoder_new(&it, keys[1]) == 0);
    m_begin(&wanted, keys[1]);
    return it;
}
int LLVMFuzzerTestOneInput(const uint8_t *given, size_t size) {
    at_fuzz = given, end_fuzz = given + size;
    agefile_decoder *it = see_new(NULL);
    see_begin(it);
    for (int steps = 0; steps < 24 && at_fuzz < end_fuzz; steps++) {
        switch (draw() % 16) {
        case 0:
            see_begin(it);
            break;
        case 1:
            it = see_new(it);
            break;
        case 2:
            see_chunk(it);
            break;
        case 3:
            see_size(it);
            break;
        case 4:
        case 5:
            see_seek(it);
            break;
        case 6:
        case 7:
            see_end(it, &wanted);
            break;
        case 8:
            see_in_one_call();
            break;
        default:
            see_piece(it);
        }
    }
    agefile_decoder_free(it);
    return 0;
}
int LLVMFuzzerInitialize(int *argc, char ***argv) {
    (void)argc, (void)argv;
    fill(text, sizeof text, 131), fill(secret, 32, 7), fill(recipient, 32, 11), fill(key, 16, 13);
    keys[0] = agefile_passphrase("pw", 2), keys[1] = agefile_file_key(key),
    keys[2] = agefile_shared(secret, NULL, recipient);
    keys[3] = agefile_passphrase("p", 1), keys[4] = agefile_file_key(secret),
    keys[5] = agefile_shared(recipient, NULL, recipient);
    for (int kind = 0; kind < KINDS; kind++)
        for (int i = 0; i < TEXTS; i++)
            make_file(&files[kind][i], kind, text_lens[i]);
    return begin_fuzz();
}
