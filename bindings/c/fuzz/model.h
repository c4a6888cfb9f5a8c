/* model.h: what a decoder has to answer and to write, by reference.h alone. */
#include "fuzz.h"

enum { FRONT_LIMIT = R_HEAD_MOST + 16 };
static const uint64_t chunk_limit = UINT64_C(1) << 48;

typedef struct {
    agefile_key key;
    int is_open, is_done,
        fault; /* is_done: the last chunk was opened; fault: the answer that stays */
    size_t front_len, held;
    uint64_t payload_at, chunk, skip, fault_chunk;
    uint8_t own[32], block[R_BLOCK], front[MOST];
} model;
static r_header m_header;
static uint8_t m_bodies[MOST];

static void m_begin(model *m, agefile_key key) {
    m->key = key, m->is_open = m->is_done = m->fault = 0;
    m->front_len = m->held = 0, m->skip = m->chunk = m->payload_at = 0;
    m->fault_chunk = UINT64_MAX;
    if (key.kind == PASS && !key.len)
        m->fault = AGEFILE_MISUSED;
}
static int m_fails(model *m, int fault) {
    if (fault != AGEFILE_TRAILING)
        m->fault_chunk = m->chunk;
    return m->fault = fault;
}
static int m_key(const agefile_key *key, const uint8_t *data, const r_header *head,
                 uint8_t *file_key) {
    if (key->kind == PASS)
        return r_by_pass(data, head, key->at, key->len, key->work ? key->work : 22, file_key);
    if (key->kind == SHARED)
        return r_by_secret(data, head, key->at, key->to, file_key);
    memcpy(file_key, key->at, 16);
    return r_by_key(data, head, file_key);
}
/* Opens the header if it is there: 0, AGEFILE_CUT_IN_HEADER, or why it is refused. */
static int m_open(model *m) {
    uint8_t file_key[16];
    m_header.bodies = m_bodies;
    int answer = (int)r_parse(m->front, m->front_len, &m_header);
    if (answer)
        return answer;
    if (m->front_len < m_header.size + 16)
        return AGEFILE_CUT_IN_HEADER;
    answer = m_key(&m->key, m->front, &m_header, file_key);
    if (answer)
        return m->fault = answer;
    r_hkdf(file_key, 16, m->front + m_header.size, 16, "payload", m->own);
    m->payload_at = m_header.size + 16;
    m->is_open = 1;
    return 0;
}
/* Opens a full block, or what is left at the end. */
static int m_block(model *m, const uint8_t *block, size_t len, int is_end, uint8_t *text,
                   size_t *n) {
    *n = 0;
    if (m->is_done)
        return is_end && !len ? 0 : m_fails(m, AGEFILE_TRAILING);
    if (is_end && len < R_TAG)
        return m_fails(m, len ? AGEFILE_CHUNK_CUT : AGEFILE_TRUNCATED);
    if (is_end && len == R_TAG && m->chunk)
        return m_fails(m, AGEFILE_EMPTY_LAST);
    if (!is_end && r_open_chunk(m->own, m->chunk, 0, block, len, text)) {
        if (m->chunk == chunk_limit - 1)
            return m_fails(m, AGEFILE_TOO_MANY_CHUNKS);
        m->chunk++;
    } else if (r_open_chunk(m->own, m->chunk, 1, block, len, text)) {
        m->is_done = 1;
    } else {
        return m_fails(m, AGEFILE_CHUNK_DAMAGED);
    }
    *n = len - R_TAG;
    return 0;
}
/* Puts a text behind what was written, from the place that was sought on. */
static void m_put(model *m, const uint8_t *text, size_t n, uint8_t *out, size_t *written) {
    size_t before = m->skip < n ? (size_t)m->skip : n;
    memcpy(out + *written, text + before, n - before);
    *written += n - before;
    m->skip -= before;
}
static int m_payload(model *m, const uint8_t *file, size_t len, uint8_t *out, size_t *written) {
    static uint8_t text[R_CHUNK];
    size_t n;
    while (len && !m->fault) {
        if (m->is_done)
            return m_fails(m, AGEFILE_TRAILING);
        size_t fits = R_BLOCK - m->held < len ? R_BLOCK - m->held : len;
        memcpy(m->block + m->held, file, fits);
        m->held += fits, file += fits, len -= fits;
        if (m->held < R_BLOCK)
            break;
        m->held = 0;
        m_block(m, m->block, R_BLOCK, 0, text, &n);
        m_put(m, text, n, out, written);
    }
    return m->fault;
}
/* A fault of the header's text, which a decoder may also tell later, is answered and not kept. */
static int m_decode(model *m, const uint8_t *file, size_t len, uint8_t *out, size_t *written) {
    *written = 0;
    if (m->fault)
        return m->fault;
    if (m->is_open)
        return m_payload(m, file, len, out, written);
    size_t before = m->front_len;
    if (len)
        memcpy(m->front + before, file, len);
    m->front_len += len;
    int answer = m_open(m);
    if (answer)
        return answer == AGEFILE_CUT_IN_HEADER ? 0 : answer;
    return m_payload(m, file + (m->payload_at - before), len - (size_t)(m->payload_at - before),
                     out, written);
}
static int m_end(model *m, uint8_t *out, size_t *written) {
    static uint8_t text[R_CHUNK];
    size_t n;
    *written = 0;
    if (m->fault)
        return m->fault;
    if (!m->is_open)
        return m->fault = m_open(m);
    int answer = m_block(m, m->block, m->held, 1, text, &n);
    m->held = 0;
    m_put(m, text, n, out, written);
    return answer;
}
/* Returns where the file is to be given from. */
static uint64_t m_seek(model *m, uint64_t place, uint64_t file_len) {
    uint64_t size = file_len > m->payload_at ? file_len - m->payload_at : 0,
             last = size ? (size - 1) / R_BLOCK : 0, chunk = place ? (place - 1) / R_CHUNK : 0;
    m->chunk = chunk < last ? chunk : last;
    m->skip = place - m->chunk * R_CHUNK;
    m->is_done = m->fault = 0, m->held = 0;
    m->fault_chunk = UINT64_MAX;
    return m->payload_at + m->chunk * R_BLOCK;
}
static size_t m_room(const model *m, size_t len) { return (m->held + len) / R_BLOCK * R_CHUNK; }
static size_t m_end_room(const model *m) { return m->held > R_TAG ? m->held - R_TAG : 0; }

/* ---- A decoder beside its model. ---- */

static uint8_t m_out[MOST];

static void see_decoder(const agefile_decoder *it, const model *m) {
    CHECK(agefile_payload_at(it) == (m->is_open ? m->payload_at : 0));
    CHECK(agefile_fault_chunk(it) == m->fault_chunk &&
          agefile_decode_end_room(it) == m_end_room(m) &&
          agefile_decode_room(it, 99999) == m_room(m, 99999));
}
static void see_written(int answer, int want, const uint8_t *out, size_t room, size_t written,
                        size_t n) {
    CHECK(answer == want && written == n && (!n || !memcmp(out, m_out, n)));
    if (answer == AGEFILE_NO_ROOM || answer == AGEFILE_MISUSED)
        CHECK(!n && is_untouched(out, 0, room));
}
/* Returns whether the bytes were taken. */
static int see_decode(agefile_decoder *it, model *m, const uint8_t *file, size_t len) {
    size_t room = draw_room(m_room(m, len)), written = 99, n = 0;
    uint8_t *out = filled(out_room, room);
    int was_open = m->is_open, want = m->fault                ? m->fault
                                      : room < m_room(m, len) ? AGEFILE_NO_ROOM
                                                              : m_decode(m, file, len, m_out, &n);
    int answer = agefile_decode(it, copied(bytes_room, file, len), len, out, room, &written);
    if (!was_open && !m->is_open && !m->fault && want != AGEFILE_NO_ROOM) {
        CHECK(answer == want || (answer == 0 && m->front_len < FRONT_LIMIT));
        want = m->fault = answer;
    }
    see_written(answer, want, out, room, written, n);
    see_decoder(it, m);
    return answer != AGEFILE_NO_ROOM;
}
static void see_end(agefile_decoder *it, model *m) {
    size_t need = m->fault || !m->is_open ? 0 : m_end_room(m), room = draw_room(need), written = 99,
           n = 0;
    uint8_t *out = filled(out_room, room);
    int want = room < need ? AGEFILE_NO_ROOM : m_end(m, m_out, &n);
    see_written(agefile_decode_end(it, out, room, &written), want, out, room, written, n);
    see_decoder(it, m);
}
