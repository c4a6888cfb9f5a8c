/* core.h: the proved calls that agefile.c, once.c and look.c are made of (crates/age_c says what
 * each promises), and what these share. The shared library shows none of it. */
#include "../../include/agefile.h"
#include <stdbool.h>

typedef struct core_reader {
    uint8_t file_key[16], nonce[16];
    uint64_t payload_at, chunk, fault_chunk;
    uint32_t state, unused;
} core_reader;
typedef struct core_decoder {
    core_reader reader;
    uint32_t block_held, unused;
    uint8_t block[AGEFILE_BLOCK];
    size_t held, skip;
    uint32_t open, fault;
} core_decoder;
typedef struct core_encoder {
    uint8_t file_key[16], nonce[16];
    uint64_t chunk;
    uint32_t state, unused[5], held, pad;
    uint8_t text[AGEFILE_CHUNK];
} core_encoder;

struct agefile_encoder {
    core_encoder core;
    uint8_t *front; /* what stands before the payload, until it is written */
    size_t front_len;
    bool is_owned;
};
struct agefile_decoder {
    core_decoder core;
    uint8_t *secret,
        *front; /* the copy of the key, and the bytes of the header, until it is open */
    size_t secret_len, front_room;
    uint32_t kind, work;
    int fault;
    bool is_owned;
};
enum {
    PASS = 1,
    FILE_KEY = 2,
    SHARED = 3,
    FRONT = 256,
    STANZA = 98,
    FRONT_MAX = 1048592,
    PASS_MAX = 65536,
    WORK_MAX = 22
};

/* Memory for an object, set to zeros; NULL if it doesn't serve. */
void *core_cleared(void *memory, size_t len, size_t size);
/* The place after so many bytes; NULL, which may be given for none, stays NULL. */
static inline uint8_t *core_after(void *at, size_t n) { return n ? (uint8_t *)at + n : at; }
/* 0 if a key can be used, else the answer that says why not. */
int core_fit(const agefile_key *);
/* agefile_decode, with room for the plaintext alone. */
int core_decode(agefile_decoder *, const uint8_t *file, size_t len, uint8_t *out, size_t room,
                size_t *written);

uint32_t age_c_runs_here(void);
void age_c_decode_begin(core_decoder *);
uint32_t age_c_decode_head_passphrase(const uint8_t *, size_t, uint32_t, core_decoder *, uint8_t *,
                                      size_t, const uint8_t *, size_t, bool, size_t *);
uint32_t age_c_decode_head_key(const uint8_t *, size_t, core_decoder *, uint8_t *, size_t,
                               const uint8_t *, size_t, bool, size_t *);
uint32_t age_c_decode_head_shared(const uint8_t *, size_t, const uint8_t *, size_t, core_decoder *,
                                  uint8_t *, size_t, const uint8_t *, size_t, bool, size_t *);
uint32_t age_c_decode_piece(core_decoder *, const uint8_t *, size_t, size_t *, uint8_t *, size_t,
                            size_t *);
uint32_t age_c_decode_end(core_decoder *, uint8_t *, size_t, size_t *);
uint32_t age_c_decode_seek(core_decoder *, uint64_t, uint64_t, uint64_t *);
uint32_t age_c_open_at(core_reader *, uint64_t, const uint8_t *, size_t, uint8_t *, size_t,
                       size_t *);
uint32_t age_c_size(const core_reader *, uint64_t, uint64_t *, uint64_t *);
uint32_t age_c_encode_passphrase(const uint8_t *, size_t, uint32_t, const uint8_t *, size_t,
                                 uint8_t *, size_t, size_t *, core_encoder *);
uint32_t age_c_encode_key(const uint8_t *, size_t, const uint8_t *, size_t, uint8_t *, size_t,
                          size_t *, core_encoder *);
uint32_t age_c_encode_piece(core_encoder *, const uint8_t *, size_t, size_t *, uint8_t *, size_t,
                            size_t *);
uint32_t age_c_finish_text(core_encoder *, uint8_t *, size_t, size_t *);
uint32_t age_c_wrap_shared(const uint8_t *, size_t, const uint8_t *, size_t, const uint8_t *,
                           size_t, const uint8_t *, size_t, uint8_t *, size_t, size_t *);
uint32_t age_c_header(const uint8_t *, size_t, size_t *, size_t *, uint32_t *);
uint32_t age_c_stanzas(const uint8_t *, size_t, agefile_stanza *, size_t, size_t *, uint8_t *,
                       size_t, size_t *);
