/* Tries the encoder and the decoder of agefile.h on files of many lengths, in many pieces, cut,
 * damaged, begun again, sought, and in one call; and what is misused. Each room has exactly the
 * bytes that a call needs, so that the address sanitizer sees one too many. usage: objects [SEED]
 */
#define _GNU_SOURCE
#include "agefile.h"

#include <stdio.h>
#include <stdlib.h>
#include <string.h>
#include <sys/random.h>
#include <sys/syscall.h>
#include <unistd.h>

#define CHECK(it)                                                                                  \
    do {                                                                                           \
        count++;                                                                                   \
        if (!(it)) {                                                                               \
            printf("%s:%d: not so: %s\n", __FILE__, __LINE__, #it);                                \
            if (++failed > 20)                                                                     \
                exit(1);                                                                           \
        }                                                                                          \
    } while (0)
enum { MOST = 200000, ROOM = 600000 };
static unsigned long count, failed;
static uint64_t state = 88172645463325252u;
static uint8_t text[MOST], file[ROOM], other[ROOM], out[ROOM];
static const size_t sizes[] = {0, 1, 65535, 65536, 65537, 131072, MOST},
                    pieces[] = {1, 7, 4096, 65552, MOST * 2};
/* What getrandom gives, if it isn't to be new. */
static const uint8_t *fixed;
static uint8_t bytes[48];

ssize_t getrandom(void *to, size_t len, unsigned flags) {
    if (!fixed)
        return (ssize_t)syscall(SYS_getrandom, to, len, flags);
    memcpy(to, fixed, len);
    return (ssize_t)len;
}
static uint64_t next(void) {
    state ^= state << 13, state ^= state >> 7, state ^= state << 17;
    return state;
}
static agefile_key pass(const char *it) {
    agefile_key key = agefile_passphrase(it, strlen(it));
    key.work = 1;
    return key;
}
static int begin_fixed(agefile_encoder *it) {
    fixed = bytes;
    int answer = agefile_encoder_begin(it, pass("pw"));
    fixed = NULL;
    return answer;
}
static int give(agefile_decoder *it, const uint8_t *from, size_t len, size_t piece, uint8_t *to,
                size_t *got) {
    for (size_t n = 0, size; len; from += size, len -= size) {
        size = piece < len ? piece : len;
        size_t need = agefile_decode_room(it, size);
        uint8_t *copy = malloc(size), *room = malloc(need ? need : 1);
        memcpy(copy, from, size);
        int answer = agefile_decode(it, copy, size, need ? room : NULL, need, &n);
        memcpy(to + *got, room, n);
        *got += n;
        free(copy), free(room);
        if (answer)
            return answer;
    }
    return 0;
}
static int end(agefile_decoder *it, uint8_t *to, size_t *got) {
    size_t n = 0, need = agefile_decode_end_room(it);
    uint8_t *room = malloc(need ? need : 1);
    int answer = agefile_decode_end(it, need ? room : NULL, need, &n);
    memcpy(to + *got, room, n);
    *got += n;
    free(room);
    return answer;
}
static int put(agefile_encoder *it, size_t len, size_t piece, uint8_t *to, size_t *got) {
    size_t n, at = 0, size;
    for (; at < len; at += size) {
        size = piece < len - at ? piece : len - at;
        size_t need = agefile_encode_room(it, size);
        uint8_t *copy = malloc(size), *room = malloc(need ? need : 1);
        memcpy(copy, text + at, size);
        CHECK(need <= AGEFILE_ROOM(size));
        int answer = agefile_encode(it, copy, size, room, need, &n);
        memcpy(to + *got, room, n);
        *got += n;
        free(copy), free(room);
        if (answer)
            return answer;
    }
    size_t need = agefile_encode_end_room(it);
    CHECK(need <= AGEFILE_ROOM(0));
    int answer = agefile_encode_end(it, to + *got, need, &n);
    *got += n;
    return answer;
}
static void places(agefile_decoder *d, size_t size, size_t len, size_t piece) {
    uint64_t at;
    size_t got;
    for (int t = 0; t < 16; t++) {
        uint64_t place = t < 8     ? next() % (size + 1)
                         : t == 8  ? size
                         : t == 9  ? 65536
                         : t == 10 ? size + 1
                         : t == 11 ? size + 65536
                         : t == 12 ? UINT64_MAX
                         : t == 13 ? size + next() % 300000
                                   : 0;
        CHECK(agefile_decode_seek(d, place, len, &at) == 0 && at <= len);
        got = 0;
        CHECK(give(d, file + at, len - (size_t)at, piece < 7 ? 4095 : piece, out, &got) == 0 &&
              end(d, out, &got) == 0);
        if (place <= size)
            CHECK(got == size - place && !memcmp(out, text + place, got));
        else
            CHECK(got == 0);
        if (place > size)
            continue;
        CHECK(agefile_decode_seek(d, place, UINT64_MAX, &at) == 0 && at <= len);
        got = 0;
        CHECK(give(d, file + at, len - (size_t)at, MOST * 2, out, &got) == 0 &&
              end(d, out, &got) == 0 && got == size - place && !memcmp(out, text + place, got));
    }
    uint64_t length = 1;
    CHECK(agefile_size(d, len, &length) == 0 && length == size);
    CHECK(agefile_decode_seek(d, length, len, &at) == 0);
}
/* Each chunk by itself, in any order, while the decoder is in the midst of the file. */
static void chunks(agefile_decoder *d, size_t size, size_t len) {
    uint8_t *room = malloc(AGEFILE_CHUNK);
    size_t at = (size_t)agefile_payload_at(d), last = size ? (size - 1) / AGEFILE_CHUNK : 0, n,
           got = 0;
    uint64_t from;
    int is_last;
    CHECK(at > 16 && agefile_decode_seek(d, 0, len, &from) == 0 && from == at);
    size_t half = (len - at) / 2;
    CHECK(give(d, file + at, half, MOST * 2, out, &got) == 0);
    for (size_t chunk = last + 1; chunk-- > 0;) {
        size_t block = at + chunk * AGEFILE_BLOCK,
               rest = len - block < AGEFILE_BLOCK ? len - block : AGEFILE_BLOCK;
        CHECK(agefile_open_at(d, chunk, file + block, rest, room, AGEFILE_CHUNK, &n, &is_last) ==
              0);
        CHECK(n == rest - 16 && !memcmp(room, text + chunk * AGEFILE_CHUNK, n) &&
              is_last == (chunk == last));
        CHECK(agefile_open_at(d, chunk + 1, file + block, rest, room, AGEFILE_CHUNK, &n,
                              &is_last) != 0 &&
              n == 0 && !is_last);
        CHECK(agefile_open_at(d, chunk, file + block, rest, room, AGEFILE_CHUNK - 1, &n,
                              &is_last) == AGEFILE_NO_ROOM &&
              n == 0);
    }
    CHECK(agefile_open_at(d, (uint64_t)1 << 48, file + at, 16, room, AGEFILE_CHUNK, &n, &is_last) ==
              AGEFILE_MISUSED &&
          n == 0);
    CHECK(agefile_open_at(d, 0, file + at, AGEFILE_BLOCK + 1, room, AGEFILE_CHUNK, &n, &is_last) ==
              AGEFILE_MISUSED &&
          n == 0);
    /* it went on as if nothing had been */
    CHECK(give(d, file + at + half, len - at - half, MOST * 2, out, &got) == 0 &&
          end(d, out, &got) == 0 && got == size && !memcmp(out, text, got));
    free(room);
}
static void in_one_call(size_t size, size_t len) {
    size_t most = agefile_sealed_len(pass("pw"), size), n = 1, got = 1;
    uint8_t *room = malloc(most), *back = malloc(size + 1);
    CHECK(agefile_encrypt(pass("pw"), text, size, room, most, &n) == 0 && n <= most);
    CHECK(agefile_decrypt(pass("pw"), room, n, back, size, &got) == 0 && got == size &&
          !memcmp(back, text, got));
    if (size) {
        memset(back, 'x', size);
        CHECK(agefile_decrypt(pass("pw"), room, n, back, size - 1, &got) == AGEFILE_NO_ROOM &&
              got == 0 && back[0] != text[0] + 256);
        for (size_t i = 0; i < size; i++)
            if (back[i] != 'x' && back[i] != 0)
                CHECK(!"the room holds nothing of the text");
    }
    CHECK(agefile_decrypt(pass("no"), room, n, back, size, &got) == AGEFILE_WRONG_KEY && got == 0);
    room[n - 1] ^= 1;
    memset(back, 'x', size);
    CHECK(agefile_decrypt(pass("pw"), room, n, back, size, &got) == AGEFILE_CHUNK_DAMAGED &&
          got == 0);
    for (size_t i = 0; i < size; i++)
        if (back[i] != 'x' && back[i] != 0)
            CHECK(!"the room holds nothing of the text");
    CHECK(agefile_encrypt(pass("pw"), text, size, room, 100, &n) == AGEFILE_NO_ROOM && n == 0);
    CHECK(agefile_decrypt(agefile_file_key(bytes), file, len, back, size, &got) == 0 &&
          got == size);
    free(room), free(back);
}
static void lengths(agefile_encoder *e, agefile_decoder *d, size_t *len) {
    size_t got, n;
    for (size_t s = 0; s < sizeof sizes / sizeof *sizes; s++) {
        for (size_t p = 0; p < sizeof pieces / sizeof *pieces; p++) {
            got = 0;
            CHECK(begin_fixed(e) == 0 && put(e, sizes[s], pieces[p], p ? other : file, &got) == 0);
            if (!p)
                *len = got;
            CHECK(got == *len && (!p || !memcmp(file, other, *len)) &&
                  *len <= agefile_sealed_len(pass("pw"), sizes[s]));
            CHECK(agefile_encode(e, text, 1, out, ROOM, &n) == AGEFILE_MISUSED && n == 0 &&
                  agefile_encode_end(e, out, ROOM, &n) == AGEFILE_MISUSED);
            got = 0;
            CHECK(agefile_decoder_begin(d, pass("pw")) == 0 && agefile_payload_at(d) == 0);
            CHECK(give(d, file, *len, pieces[p], out, &got) == 0 && end(d, out, &got) == 0 &&
                  got == sizes[s] && !memcmp(out, text, got));
            CHECK(end(d, out, &got) == 0 && got == sizes[s] &&
                  agefile_fault_chunk(d) == UINT64_MAX);
            int answer = agefile_decode(d, file, 1, out, ROOM, &n);
            CHECK(answer == AGEFILE_TRAILING && n == 0 &&
                  agefile_decode(d, file, ROOM, NULL, 0, &n) == answer &&
                  end(d, out, &got) == answer);
            places(d, sizes[s], *len, pieces[p]);
        }
        chunks(d, sizes[s], *len);
        in_one_call(sizes[s], *len);
    }
}
static void damaged(agefile_decoder *d, size_t len) {
    size_t got;
    for (int t = 0; t < 3000; t++) {
        size_t cut = t < 300   ? (size_t)t
                     : t < 600 ? len - (size_t)(t - 299)
                               : next() % len,
               piece = t % 3 ? 65552 : 1 + next() % 5000;
        CHECK(agefile_decoder_begin(d, pass("pw")) == 0);
        got = 0;
        int answer = give(d, file, cut, piece, out, &got);
        if (!answer)
            answer = end(d, out, &got);
        CHECK(answer != 0 && answer != AGEFILE_MISUSED &&
              agefile_fault_kind(answer) == AGEFILE_KIND_NOT_WHOLE);
        CHECK(got < MOST && !memcmp(out, text, got) && end(d, out, &got) == answer &&
              give(d, file, 5, 5, out, &got) == answer);
    }
    for (int t = 0; t < 3000; t++) {
        size_t bit = t < 1600 ? (size_t)t : next() % (len * 8);
        memcpy(other, file, len);
        other[bit / 8] ^= (uint8_t)(1 << bit % 8);
        CHECK(agefile_decoder_begin(d, pass("pw")) == 0);
        got = 0;
        int answer = give(d, other, len, t % 2 ? 65552 : MOST * 2, out, &got);
        if (!answer)
            answer = end(d, out, &got);
        CHECK(answer != 0 && answer != AGEFILE_MISUSED && !memcmp(out, text, got) && got < MOST);
        if (answer == AGEFILE_CHUNK_DAMAGED)
            CHECK(agefile_fault_chunk(d) == got / AGEFILE_CHUNK);
    }
}
static void again(agefile_encoder *e, agefile_decoder *d, size_t len) {
    static uint8_t bobs[ROOM];
    size_t bob = 0, got, n;
    uint64_t at;
    CHECK(agefile_encoder_begin(e, pass("bob")) == 0 && put(e, 100000, 999, bobs, &bob) == 0);
    for (int t = 0; t < 400; t++) {
        CHECK(agefile_decoder_begin(d, pass("pw")) == 0);
        got = 0;
        (void)give(d, file, next() % len, 1 + next() % 70000, out, &got);
        if (t % 3 == 0)
            (void)end(d, out, &got);
        CHECK(agefile_decoder_begin(d, pass("bob")) == 0);
        got = 0;
        CHECK(give(d, bobs, bob, 1 + next() % 70000, out, &got) == 0 && end(d, out, &got) == 0 &&
              got == 100000 && !memcmp(out, text, got));
        CHECK(agefile_encoder_begin(e, pass("alice")) == 0);
        CHECK(agefile_encode(e, text + 5, next() % 130000, out, ROOM, &n) == 0);
        got = 0;
        CHECK(begin_fixed(e) == 0 && put(e, MOST, 1 + next() % 70000, out, &got) == 0 &&
              got == len && !memcmp(out, file, len));
        CHECK(agefile_encoder_begin(e, agefile_passphrase("", 0)) == AGEFILE_MISUSED);
        CHECK(agefile_encode(e, text, 1, out, ROOM, &n) == AGEFILE_MISUSED &&
              agefile_encode_end(e, out, ROOM, &n) == AGEFILE_MISUSED);
        CHECK(agefile_decoder_begin(d, agefile_passphrase("", 0)) == AGEFILE_MISUSED);
        CHECK(agefile_decode(d, file, len, out, ROOM, &n) == AGEFILE_MISUSED &&
              end(d, out, &n) == AGEFILE_MISUSED);
        CHECK(agefile_decode_seek(d, 0, len, &at) == AGEFILE_MISUSED && at == 0);
    }
}
/* A room that is too small: nothing is written or changed, and how much is needed is known. */
static void rooms(agefile_encoder *e, agefile_decoder *d, size_t len) {
    size_t got = 0, made = 0, n;
    CHECK(agefile_decoder_begin(d, pass("pw")) == 0 && begin_fixed(e) == 0);
    for (size_t from = 0; from < len; from += 70000) {
        size_t size = len - from < 70000 ? len - from : 70000, need = agefile_decode_room(d, size);
        if (need)
            CHECK(agefile_decode(d, file + from, size, out + got, need - 1, &n) ==
                      AGEFILE_NO_ROOM &&
                  n == 0);
        CHECK(agefile_decode(d, file + from, size, out + got, need, &n) == 0);
        got += n;
    }
    CHECK(agefile_decode_end(d, out + got, agefile_decode_end_room(d) - 1, &n) == AGEFILE_NO_ROOM &&
          n == 0 && end(d, out, &got) == 0);
    CHECK(got == MOST && !memcmp(out, text, MOST));
    CHECK(agefile_encode(e, text, MOST, out, agefile_encode_room(e, MOST) - 1, &n) ==
              AGEFILE_NO_ROOM &&
          n == 0);
    CHECK(agefile_encode_end(e, out, agefile_encode_end_room(e) - 1, &n) == AGEFILE_NO_ROOM &&
          n == 0);
    CHECK(put(e, MOST, 30000, out, &made) == 0 && made == len && !memcmp(out, file, len));
    /* nothing, and a piece of no bytes */
    CHECK(begin_fixed(e) == 0 && agefile_encode(e, NULL, 0, out, AGEFILE_ROOM(0), &n) == 0);
    made = n;
    CHECK(agefile_encode(e, NULL, 0, NULL, 0, &n) == 0 && n == 0 &&
          agefile_encode_end(e, out + made, AGEFILE_ROOM(0), &n) == 0);
    made += n;
    CHECK(agefile_decoder_begin(d, pass("pw")) == 0 &&
          agefile_decode(d, NULL, 0, NULL, 0, &n) == 0 && n == 0);
    CHECK(agefile_decode(d, out, made, NULL, 0, &n) == 0 &&
          agefile_decode(d, NULL, 0, NULL, 0, &n) == 0 && agefile_decode_end(d, NULL, 0, &n) == 0 &&
          n == 0);
}
static void headers(agefile_encoder *e, agefile_decoder *d) {
    static uint8_t lines[1100000];
    size_t size = 0, n, made, got = 0, most = 1048576 - 70;
    while (size + 150 < most)
        size += (size_t)sprintf((char *)lines + size, "-> some %zu\n%.43s\n", size,
                                "AAAAAAAAAAAAAAAAAAAAAAAAAAAAAAAAAAAAAAAAAAAAAAAAAAAA");
    size += (size_t)sprintf((char *)lines + size, "-> some %0*d\n\n", (int)(most - size - 10), 0);
    uint8_t *big = malloc(size + AGEFILE_ROOM(MOST) + 65536);
    CHECK(size == most && agefile_encoder_begin(e, agefile_wrapped(bytes, lines, size)) == 0);
    CHECK(agefile_encode(e, text, 1000, big, size + AGEFILE_ROOM(1000), &n) == 0 &&
          agefile_encode_end(e, big + n, 65536, &made) == 0);
    CHECK(agefile_decoder_begin(d, agefile_file_key(bytes)) == 0);
    CHECK(give(d, big, n + made, 13, out, &got) == 0 && end(d, out, &got) == 0 && got == 1000 &&
          !memcmp(out, text, 1000) && agefile_payload_at(d) == 1048592);
    CHECK(agefile_decrypt(agefile_file_key(bytes), big, n + made, out, 1000, &got) == 0 &&
          got == 1000);
    /* one byte more than a header has */
    lines[size - 2] = '0', lines[size - 1] = '\n', lines[size] = '\n';
    CHECK(agefile_encoder_begin(e, agefile_wrapped(bytes, lines, size + 1)) ==
          AGEFILE_BAD_STANZA_LINE);
    memcpy(other, "age-encryption.org/v1\n", 22);
    for (size_t piece = 100; piece < 2000000; piece *= 100) {
        CHECK(agefile_decoder_begin(d, agefile_file_key(bytes)) == 0);
        got = 0;
        int answer = give(d, other, 22, piece, out, &got);
        for (size_t at = 0; !answer && at <= size; at += 500)
            answer =
                give(d, lines + at, size + 1 - at < 500 ? size + 1 - at : 500, piece, out, &got);
        if (!answer)
            answer =
                give(d,
                     (const uint8_t
                          *)"--- AAAAAAAAAAAAAAAAAAAAAAAAAAAAAAAAAAAAAAAAAAA\n0123456789abcdef",
                     64, piece, out, &got);
        CHECK(answer == AGEFILE_HEAD_TOO_LONG && give(d, other, 22, 22, out, &got) == answer);
    }
    memset(big, 'a', size + 65536);
    CHECK(agefile_decoder_begin(d, agefile_file_key(bytes)) == 0);
    int answer = give(d, big, size + 65536, 1001, out, &got);
    CHECK(answer == AGEFILE_HEAD_TOO_LONG || answer == AGEFILE_NOT_AGE);
    free(big);
    CHECK(agefile_decoder_begin(d, pass("pw")) == 0);
    got = 0;
    CHECK(give(d, (const uint8_t *)"age-encryption.org/v1\n-> X", 26, 26, out, &got) == 0 &&
          end(d, out, &got) == AGEFILE_CUT_IN_HEADER && end(d, out, &got) == AGEFILE_CUT_IN_HEADER);
}
/* What the header and its stanzas say. */
static void looks(size_t len) {
    size_t header_len, stanzas, made, n;
    uint32_t work;
    agefile_stanza it;
    CHECK(agefile_header(file, len, &header_len, &stanzas, &work) == 0 && stanzas == 1 &&
          work == 1);
    CHECK(agefile_stanzas(file, len, &it, 1, &made, out, header_len, &n) == 0 && made == 1 &&
          n == 32 && it.body_len == 32 && !memcmp(file + it.args_at, "scrypt ", 7));
    CHECK(agefile_header(file, header_len - 1, &n, &stanzas, &work) == AGEFILE_CUT_IN_HEADER &&
          n == 0);
}
/* NULL for no bytes and no room, wherever bytes or a room may be. */
static void nothings(agefile_encoder *e, agefile_decoder *d, size_t len) {
    size_t n = 9, m = 9, count = 9;
    uint32_t work = 9;
    uint64_t at;
    int last = 9;
    CHECK(agefile_header(NULL, 0, &n, &m, &work) == AGEFILE_CUT_IN_HEADER && !n && !m && !work);
    CHECK(agefile_stanzas(NULL, 0, NULL, 0, &count, NULL, 0, &n) == AGEFILE_CUT_IN_HEADER &&
          !count && !n);
    CHECK(agefile_stanzas(file, len, NULL, 0, &count, out, ROOM, &n) == AGEFILE_NO_ROOM && !count &&
          !n);
    CHECK(agefile_decoder_begin(d, pass("pw")) == 0 &&
          agefile_decode_end(d, NULL, 0, &n) == AGEFILE_CUT_IN_HEADER && !n);
    CHECK(agefile_decoder_begin(d, pass("pw")) == 0 &&
          agefile_open_at(d, 0, NULL, 0, out, ROOM, &n, &last) == AGEFILE_MISUSED && !n && !last);
    CHECK(agefile_decode_seek(d, 0, len, &at) == AGEFILE_MISUSED && !at &&
          agefile_size(d, len, &at) == AGEFILE_MISUSED && !at && agefile_payload_at(d) == 0);
    CHECK(agefile_decode(d, file, len, out, ROOM, &n) == 0);
    CHECK(agefile_open_at(d, 0, NULL, 0, NULL, 0, &n, &last) == AGEFILE_NO_ROOM &&
          agefile_open_at(d, 0, NULL, 0, out, ROOM, &n, &last) == AGEFILE_TRUNCATED && !n && !last);
    CHECK(agefile_encoder_begin(e, agefile_passphrase(NULL, 0)) == AGEFILE_MISUSED &&
          agefile_encoder_begin(e, agefile_wrapped(bytes, NULL, 0)) == AGEFILE_MISUSED);
    CHECK(agefile_encoder_begin(e, agefile_file_key(bytes)) == AGEFILE_MISUSED &&
          agefile_encoder_begin(e, agefile_shared(bytes, NULL, bytes)) == AGEFILE_MISUSED);
    CHECK(agefile_decoder_begin(d, agefile_passphrase(NULL, 0)) == AGEFILE_MISUSED &&
          agefile_decoder_begin(d, agefile_file_key(NULL)) == AGEFILE_MISUSED);
    CHECK(agefile_encrypt(pass("pw"), NULL, 0, other, ROOM, &n) == 0 &&
          agefile_decrypt(pass("pw"), other, n, NULL, 0, &m) == 0 && !m);
    CHECK(agefile_decrypt(pass("pw"), NULL, 0, NULL, 0, &m) == AGEFILE_CUT_IN_HEADER && !m);
    CHECK(agefile_encrypt(pass("pw"), NULL, 0, NULL, 0, &n) == AGEFILE_NO_ROOM && !n &&
          agefile_encrypt(pass(""), text, 5, out, ROOM, &n) == AGEFILE_MISUSED && !n);
}
/* What a key may be. */
static void limits(agefile_encoder *e, agefile_decoder *d) {
    size_t n, m;
    agefile_key most = agefile_passphrase(text, 65536), longer = agefile_passphrase(text, 65537),
                hard = pass("pw"), shared = agefile_shared(bytes, bytes + 9, bytes + 16);
    most.work = 1, longer.work = 1, hard.work = 23;
    CHECK(agefile_encrypt(most, text, 5, other, ROOM, &n) == 0 &&
          agefile_decrypt(most, other, n, out, 5, &m) == 0 && m == 5);
    CHECK(agefile_encoder_begin(e, longer) == AGEFILE_MISUSED &&
          agefile_decoder_begin(d, longer) == AGEFILE_MISUSED);
    CHECK(agefile_encoder_begin(e, hard) == AGEFILE_MISUSED &&
          agefile_decoder_begin(d, hard) == AGEFILE_MISUSED);
    hard.work = 2;
    CHECK(agefile_encrypt(hard, text, 5, other, ROOM, &n) == 0 &&
          agefile_decrypt(pass("pw"), other, n, out, 5, &m) == AGEFILE_WORK_TOO_HIGH && !m);
    hard.work = 22;
    CHECK(agefile_decrypt(hard, other, n, out, 5, &m) == 0 &&
          agefile_decrypt(agefile_passphrase("pw", 2), other, n, out, 5, &m) == 0 && m == 5);
    CHECK(agefile_encrypt(shared, text, 5, other, agefile_sealed_len(shared, 5), &n) == 0 &&
          agefile_decrypt(shared, other, n, out, 5, &m) == 0 && m == 5);
    CHECK(agefile_decrypt(agefile_shared(bytes, NULL, bytes + 16), other, n, out, 5, &m) == 0 &&
          agefile_decrypt(agefile_shared(bytes + 1, NULL, bytes + 16), other, n, out, 5, &m) ==
              AGEFILE_WRONG_KEY);
    CHECK(agefile_sealed_len(pass("pw"), SIZE_MAX) == SIZE_MAX &&
          agefile_sealed_len(pass("pw"), SIZE_MAX - 100) == SIZE_MAX);
}
/* Stanzas of the caller's: which a header may have, and that the file key opens the file. */
static void stanzas(agefile_encoder *e) {
    static const struct {
        const char *lines;
        int answer;
    } rows[] = {
        {"-> a\n\n", 0},
        {"-> a b\nAAAA\n-> c\n\n", 0},
        {"-> scrypt a\n\n", 0},
        {"", 3},
        {"-> a\n", 3},
        {"-> a\n\n\n", 3},
        {"-> a  b\n\n", 3},
        {"-> a\nAAAB\nAAAA\n", 3},
        {"-> a\n\n--- AAAAAAAAAAAAAAAAAAAAAAAAAAAAAAAAAAAAAAAAAAA\n", 3},
        {"-> scrypt a\n\n-> b\n\n", 9},
        {"-> a\n\n-> scrypt\n\n", 9},
    };
    for (size_t i = 0; i < sizeof rows / sizeof *rows; i++) {
        agefile_key key = agefile_wrapped(bytes, rows[i].lines, strlen(rows[i].lines));
        size_t n = 9, got = 9;
        CHECK(agefile_encoder_begin(e, key) == rows[i].answer &&
              agefile_encrypt(key, text, 5, other, ROOM, &n) == rows[i].answer);
        if (rows[i].answer)
            CHECK(n == 0 && agefile_encode_end(e, out, ROOM, &n) == AGEFILE_MISUSED);
        else
            CHECK(agefile_decrypt(agefile_file_key(bytes), other, n, out, 5, &got) == 0 &&
                  got == 5 && !memcmp(out, text, 5) && !memcmp(other + 22, key.with, key.with_len));
    }
}
/* A length is one of a whole file just if a text has a file of that length. */
static void sizes_of(agefile_decoder *d, size_t len) {
    size_t got = 0, at;
    CHECK(agefile_decoder_begin(d, pass("pw")) == 0 && give(d, file, len, len, out, &got) == 0);
    at = (size_t)agefile_payload_at(d);
    for (size_t size = 0, last = at; size < MOST; size++, last++) {
        size_t whole = at + size + (size ? (size - 1) / AGEFILE_CHUNK + 1 : 1) * 16;
        uint64_t length = 1;
        for (; last < whole; last++)
            CHECK(agefile_size(d, last, &length) != 0 && length == 0);
        CHECK(agefile_size(d, whole, &length) == 0 && length == size);
    }
    CHECK(agefile_size(d, at, &(uint64_t){1}) == AGEFILE_TRUNCATED &&
          agefile_size(d, 0, &(uint64_t){1}) == AGEFILE_TRUNCATED);
}
static void memories(size_t len) {
    size_t got = 0;
    uint8_t *memory = malloc(agefile_encoder_size() + agefile_decoder_size());
    agefile_encoder *e = (agefile_encoder *)(void *)out;
    agefile_decoder *d = (agefile_decoder *)(void *)out;
    CHECK(agefile_encoder_size() < 140 * 1024 && agefile_decoder_size() < 140 * 1024 &&
          agefile_encoder_size() % 8 == 0);
    CHECK(agefile_encoder_init(&e, pass("pw"), memory, agefile_encoder_size() - 1) ==
              AGEFILE_MISUSED &&
          !e);
    CHECK(agefile_encoder_init(&e, pass("pw"), NULL, 0) == AGEFILE_MISUSED && !e &&
          agefile_encoder_init(&e, pass("pw"), memory + 1, agefile_encoder_size()) ==
              AGEFILE_MISUSED &&
          !e);
    CHECK(agefile_decoder_init(&d, pass("pw"), memory, agefile_decoder_size() - 1) ==
              AGEFILE_MISUSED &&
          !d);
    CHECK(agefile_encoder_init(&e, pass(""), memory, agefile_encoder_size()) == AGEFILE_MISUSED &&
          !e);
    memset(memory, 0xa5, agefile_encoder_size() + agefile_decoder_size());
    CHECK(agefile_encoder_init(&e, pass("pw"), memory, agefile_encoder_size()) == 0);
    CHECK(agefile_decoder_init(&d, pass("pw"), memory + agefile_encoder_size(),
                               agefile_decoder_size()) == 0);
    CHECK(put(e, MOST, 5000, out, &got) == 0 && got == len);
    got = 0;
    CHECK(give(d, file, len, 5000, out, &got) == 0 && end(d, out, &got) == 0 && got == MOST &&
          !memcmp(out, text, MOST));
    agefile_encoder_free(e), agefile_decoder_free(d);
    for (size_t i = 0; i < agefile_encoder_size() + agefile_decoder_size(); i++)
        if (memory[i])
            CHECK(!"what was freed is wiped");
    free(memory);
}
int main(int argc, char **argv) {
    if (argc > 1)
        state ^= strtoull(argv[1], 0, 10) * 0x9e3779b97f4a7c15u;
    for (int i = 0; i < 48; i++)
        bytes[i] = (uint8_t)next();
    for (size_t i = 0; i < MOST; i++)
        text[i] = (uint8_t)next();
    agefile_encoder *e;
    agefile_decoder *d;
    size_t len = 0;
    agefile_encoder_free(NULL), agefile_decoder_free(NULL);
    CHECK(agefile_version() == AGEFILE_VERSION);
    CHECK(agefile_encoder_new(&e, pass("pw")) == 0 && agefile_decoder_new(&d, pass("pw")) == 0);
    lengths(e, d, &len);
    looks(len);
    damaged(d, len);
    again(e, d, len);
    rooms(e, d, len);
    headers(e, d);
    nothings(e, d, len);
    limits(e, d);
    stanzas(e);
    sizes_of(d, len);
    memories(len);
    agefile_encoder_free(e), agefile_decoder_free(d);
    printf("%lu checks, %lu failed\n", count, failed);
    return failed != 0;
}
