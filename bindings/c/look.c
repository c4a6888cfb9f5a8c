/* look.c: the calls of agefile.h that keep nothing: keys, the version, rooms, places of an open
 * file, and what is told of a header. */
#define _DEFAULT_SOURCE
#include "core.h"
#include <string.h>

void *core_cleared(void *memory, size_t len, size_t size) {
    return memory && len >= size && (uintptr_t)memory % 8 == 0 ? memset(memory, 0, size) : NULL;
}
int core_fit(const agefile_key *key) {
    bool fits = key->kind == PASS     ? key->len - 1 < PASS_MAX && key->work <= WORK_MAX
                : key->kind == SHARED ? key->to != NULL
                                      : key->kind == FILE_KEY;
    return !fits || !key->at ? AGEFILE_MISUSED : !age_c_runs_here() ? AGEFILE_NO_PROCESSOR : 0;
}

int agefile_version(void) { return AGEFILE_VERSION; }
agefile_key agefile_passphrase(const void *pass, size_t len) {
    agefile_key key = {PASS, 0, pass, 0, 0, len, 0};
    return key;
}
agefile_key agefile_wrapped(const uint8_t file_key[16], const void *stanzas, size_t len) {
    agefile_key key = {FILE_KEY, 0, file_key, stanzas, 0, 16, len};
    return key;
}
agefile_key agefile_file_key(const uint8_t file_key[16]) { return agefile_wrapped(file_key, 0, 0); }
agefile_key agefile_shared(const uint8_t secret[32], const uint8_t share[32],
                           const uint8_t recipient[32]) {
    agefile_key key = {SHARED, 0, secret, share, recipient, 32, 32};
    return key;
}
int agefile_header(const void *file, size_t len, size_t *header_len, size_t *stanzas,
                   uint32_t *work) {
    *header_len = *stanzas = *work = 0;
    return age_c_runs_here() ? (int)age_c_header(file, len, header_len, stanzas, work)
                             : AGEFILE_NO_PROCESSOR;
}
int agefile_stanzas(const void *file, size_t len, agefile_stanza *stanzas, size_t most,
                    size_t *count, void *out, size_t room, size_t *written) {
    size_t header_len, held;
    uint32_t work;
    int answer = agefile_header(file, len, &header_len, &held, &work);
    *count = *written = 0;
    if (answer)
        return answer;
    return most < held || room < header_len
               ? AGEFILE_NO_ROOM
               : (int)age_c_stanzas(file, header_len, stanzas, most, count, out, room, written);
}
int agefile_size(const agefile_decoder *it, uint64_t file_len, uint64_t *text_len) {
    uint64_t last;
    *text_len = 0;
    return it->core.open ? (int)age_c_size(&it->core.reader, file_len, text_len, &last)
                         : AGEFILE_MISUSED;
}
int agefile_decode_seek(agefile_decoder *it, uint64_t place, uint64_t file_len, uint64_t *offset) {
    return (int)age_c_decode_seek(&it->core, place, file_len, offset);
}
int agefile_open_at(const agefile_decoder *it, uint64_t chunk, const void *block, size_t len,
                    void *out, size_t room, size_t *written, int *is_last) {
    core_reader reader = it->core.reader;
    int answer = !it->core.open ? AGEFILE_MISUSED : room < AGEFILE_CHUNK ? AGEFILE_NO_ROOM : 0;
    *written = 0, *is_last = 0;
    if (!answer)
        answer = (int)age_c_open_at(&reader, chunk, block, len, out, room, written);
    if (!answer)
        *is_last = reader.state != 1;
    explicit_bzero(&reader, sizeof reader);
    return answer;
}
uint64_t agefile_payload_at(const agefile_decoder *it) {
    return it->core.open ? it->core.reader.payload_at : 0;
}
uint64_t agefile_fault_chunk(const agefile_decoder *it) {
    const core_reader *at = &it->core.reader;
    return it->core.open && at->state > 16 && at->state != AGEFILE_TRAILING ? at->fault_chunk
                                                                            : UINT64_MAX;
}
size_t agefile_encoder_size(void) { return sizeof(agefile_encoder); }
size_t agefile_decoder_size(void) { return sizeof(agefile_decoder); }
size_t agefile_encode_room(const agefile_encoder *it, size_t len) {
    return it->front_len + (len ? (it->core.held + len - 1) / AGEFILE_CHUNK : 0) * AGEFILE_BLOCK;
}
size_t agefile_encode_end_room(const agefile_encoder *it) {
    return it->front_len + it->core.held + 16;
}
size_t agefile_decode_room(const agefile_decoder *it, size_t len) {
    return (it->core.block_held + len) / AGEFILE_BLOCK * AGEFILE_CHUNK;
}
size_t agefile_decode_end_room(const agefile_decoder *it) {
    return it->core.block_held > 16 ? it->core.block_held - 16 : 0;
}
size_t agefile_sealed_len(agefile_key key, size_t len) {
    size_t front = FRONT + (key.kind == PASS     ? 0
                            : key.kind == SHARED ? STANZA
                                                 : key.with_len),
           tags = (len ? (len - 1) / AGEFILE_CHUNK + 1 : 1) * 16;
    return len > SIZE_MAX - front - tags ? SIZE_MAX : front + len + tags;
}
