/* agefile.c: an encoder and a decoder over the proved calls of core.h. It allocates, draws random
 * bytes, keeps a copy of a key, and wipes. */
#define _DEFAULT_SOURCE
#include "core.h"
#include <errno.h>
#include <stdlib.h>
#include <string.h>
#include <sys/random.h>

static size_t copy(void *to, const void *from, size_t len) {
    if (len)
        memcpy(to, from, len);
    return len;
}
static void forget_front(agefile_encoder *it) {
    free(it->front), it->front = NULL, it->front_len = 0;
}
/* Draws random bytes: whether the system gave them. */
static bool draw(uint8_t *random, size_t len) {
    ssize_t n;
    do
        n = getrandom(random, len, 0);
    while (n < 0 && errno == EINTR);
    return n == (ssize_t)len;
}
static int begin(agefile_encoder *it, const agefile_key *key, uint8_t *random) {
    uint8_t stanza[STANZA];
    const void *lines = key->kind == SHARED ? stanza : key->with;
    size_t len = key->kind == PASS     ? 0
                 : key->kind == SHARED ? STANZA
                                       : key->with_len,
           room = FRONT + len;
    if (!(it->front = malloc(room)))
        return AGEFILE_MEMORY;
    if (key->kind == PASS)
        return (int)age_c_encode_passphrase(key->at, key->len, key->work ? key->work : 18, random,
                                            48, it->front, room, &it->front_len, &it->core);
    if (key->kind == FILE_KEY)
        copy(random, key->at, 16);
    int answer = key->kind == SHARED ? (int)age_c_wrap_shared(key->at, 32, key->with, 32, key->to,
                                                              32, random, 16, stanza, STANZA, &len)
                                     : 0;
    return answer ? answer
                  : (int)age_c_encode_key(lines, len, random, 32, it->front, room, &it->front_len,
                                          &it->core);
}
int agefile_encoder_begin(agefile_encoder *it, agefile_key key) {
    uint8_t random[48]; /* of a passphrase: the file key, the salt, the nonce; else the file key and
                           the nonce */
    int answer = key.kind == PASS || key.with ? core_fit(&key) : AGEFILE_MISUSED;
    forget_front(it);
    explicit_bzero(&it->core, sizeof it->core);
    if (!answer)
        answer = draw(random, sizeof random) ? begin(it, &key, random) : AGEFILE_NO_RANDOM;
    explicit_bzero(random, sizeof random);
    return answer;
}
void agefile_encoder_free(agefile_encoder *it) {
    bool is_owned = it && it->is_owned;
    if (it)
        forget_front(it), explicit_bzero(it, sizeof *it);
    if (is_owned)
        free(it);
}
int agefile_encoder_init(agefile_encoder **made, agefile_key key, void *memory, size_t len) {
    agefile_encoder *it = core_cleared(memory, len, sizeof *it);
    int answer = it ? agefile_encoder_begin(it, key) : AGEFILE_MISUSED;
    if (answer)
        agefile_encoder_free(it);
    *made = answer ? NULL : it;
    return answer;
}
int agefile_encoder_new(agefile_encoder **made, agefile_key key) {
    void *memory = malloc(sizeof **made);
    int answer = memory ? agefile_encoder_init(made, key, memory, sizeof **made) : AGEFILE_MEMORY;
    if (answer)
        free(memory), *made = NULL;
    else
        (*made)->is_owned = true;
    return answer;
}
/* Puts a piece of the text or, without one, the end; and what stands before the payload, once. */
static int put(agefile_encoder *it, const void *text, size_t len, bool ended, uint8_t *out,
               size_t room, size_t *written) {
    size_t taken, front;
    *written = 0;
    if (it->core.state != 1)
        return AGEFILE_MISUSED;
    if (room < (ended ? agefile_encode_end_room(it) : agefile_encode_room(it, len)))
        return AGEFILE_NO_ROOM;
    front = copy(out, it->front, it->front_len);
    forget_front(it);
    int answer =
        (int)(ended ? age_c_finish_text(&it->core, core_after(out, front), room - front, written)
                    : age_c_encode_piece(&it->core, text, len, &taken, core_after(out, front),
                                         room - front, written));
    *written += front;
    return answer;
}
int agefile_encode(agefile_encoder *it, const void *text, size_t len, void *out, size_t room,
                   size_t *written) {
    return put(it, text, len, false, out, room, written);
}
int agefile_encode_end(agefile_encoder *it, void *out, size_t room, size_t *written) {
    return put(it, NULL, 0, true, out, room, written);
}
static void forget_key(agefile_decoder *it) {
    if (it->secret)
        explicit_bzero(it->secret, it->secret_len);
    free(it->secret), free(it->front);
    it->secret = it->front = NULL, it->front_room = 0;
}
int agefile_decoder_begin(agefile_decoder *it, agefile_key key) {
    forget_key(it);
    age_c_decode_begin(&it->core);
    it->kind = key.kind, it->work = key.work ? key.work : WORK_MAX,
    it->secret_len = key.len + (key.kind == SHARED ? 32 : 0);
    it->fault = core_fit(&key);
    if (!it->fault && !(it->secret = malloc(it->secret_len)))
        it->fault = AGEFILE_MEMORY;
    if (!it->fault)
        copy(it->secret + copy(it->secret, key.at, key.len), key.to, it->secret_len - key.len);
    return it->fault;
}
void agefile_decoder_free(agefile_decoder *it) {
    bool is_owned = it && it->is_owned;
    if (it)
        forget_key(it), explicit_bzero(it, sizeof *it);
    if (is_owned)
        free(it);
}
int agefile_decoder_init(agefile_decoder **made, agefile_key key, void *memory, size_t len) {
    agefile_decoder *it = core_cleared(memory, len, sizeof *it);
    int answer = it ? agefile_decoder_begin(it, key) : AGEFILE_MISUSED;
    if (answer)
        agefile_decoder_free(it);
    *made = answer ? NULL : it;
    return answer;
}
int agefile_decoder_new(agefile_decoder **made, agefile_key key) {
    void *memory = malloc(sizeof **made);
    int answer = memory ? agefile_decoder_init(made, key, memory, sizeof **made) : AGEFILE_MEMORY;
    if (answer)
        free(memory), *made = NULL;
    else
        (*made)->is_owned = true;
    return answer;
}
/* Gives bytes of the header, or the end, with room for one more than it holds. */
static int head(agefile_decoder *it, const uint8_t *from, size_t len, bool ended, size_t *taken) {
    const uint8_t *key = it->secret;
    if (it->core.held == it->front_room) {
        size_t room = it->front_room == 0              ? 4096
                      : it->front_room < FRONT_MAX / 2 ? 2 * it->front_room
                                                       : FRONT_MAX + 1;
        uint8_t *front = realloc(it->front, room);
        if (!front)
            return it->fault = AGEFILE_MEMORY;
        it->front = front, it->front_room = room;
    }
    it->fault =
        (int)(it->kind == PASS
                  ? age_c_decode_head_passphrase(key, it->secret_len, it->work, &it->core,
                                                 it->front, it->front_room, from, len, ended, taken)
              : it->kind == FILE_KEY
                  ? age_c_decode_head_key(key, it->secret_len, &it->core, it->front, it->front_room,
                                          from, len, ended, taken)
                  : age_c_decode_head_shared(key, 32, key + 32, 32, &it->core, it->front,
                                             it->front_room, from, len, ended, taken));
    if (it->fault || it->core.open)
        forget_key(it);
    return it->fault;
}
/* The fault that stays. */
static int fault_of(const agefile_decoder *it) {
    return it->fault                                     ? it->fault
           : it->core.open && it->core.reader.state > 16 ? (int)it->core.reader.state
                                                         : 0;
}
int core_decode(agefile_decoder *it, const uint8_t *from, size_t len, uint8_t *out, size_t room,
                size_t *written) {
    size_t taken = 0;
    for (; len && !it->fault && !it->core.open; from += taken, len -= taken)
        if (head(it, from, len, false, &taken))
            return it->fault;
    return !len ? 0
           : room < agefile_decode_room(it, len)
               ? AGEFILE_NO_ROOM
               : (int)age_c_decode_piece(&it->core, from, len, &taken, out, room, written);
}
int agefile_decode(agefile_decoder *it, const void *file, size_t len, void *out, size_t room,
                   size_t *written) {
    *written = 0;
    if (fault_of(it))
        return fault_of(it);
    return room < agefile_decode_room(it, len) ? AGEFILE_NO_ROOM
                                               : core_decode(it, file, len, out, room, written);
}
int agefile_decode_end(agefile_decoder *it, void *out, size_t room, size_t *written) {
    size_t none;
    *written = 0;
    if (fault_of(it))
        return fault_of(it);
    if (!it->core.open)
        return head(it, NULL, 0, true, &none);
    return room < agefile_decode_end_room(it)
               ? AGEFILE_NO_ROOM
               : (int)age_c_decode_end(&it->core, out, room, written);
}
