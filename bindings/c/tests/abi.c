/* What a program that was compiled with agefile.h of 2.0.0 has inside: sizes, places and types of
 * fields, numbers and the types of the calls. While the soname is libagefile.so.2 none of these
 * lines changes; a later version adds lines. It is compiled, and not run. */
#include "agefile.h"

#include <stddef.h>

#define SIZE(type, size) _Static_assert(sizeof(type) == (size), #type)
#define PLACE(type, field, pointer, place)                                                         \
    _Static_assert(offsetof(type, field) == (place) &&                                             \
                       _Generic(&((type *)0)->field, pointer : 1, default : 0),                    \
                   #type "." #field)
#define NUMBER(name, value) _Static_assert((name) == (value), #name)
#define CALL(name, answer, ...) static answer (*const was_##name)(__VA_ARGS__) = name

SIZE(agefile_key, 48);
PLACE(agefile_key, kind, uint32_t *, 0);
PLACE(agefile_key, work, uint32_t *, 4);
PLACE(agefile_key, at, const void **, 8);
PLACE(agefile_key, with, const void **, 16);
PLACE(agefile_key, to, const void **, 24);
PLACE(agefile_key, len, size_t *, 32);
PLACE(agefile_key, with_len, size_t *, 40);
SIZE(agefile_stanza, 32);
PLACE(agefile_stanza, args_at, size_t *, 0);
PLACE(agefile_stanza, args_len, size_t *, 8);
PLACE(agefile_stanza, body_at, size_t *, 16);
PLACE(agefile_stanza, body_len, size_t *, 24);

NUMBER(AGEFILE_CHUNK, 65536);
NUMBER(AGEFILE_BLOCK, 65552);
NUMBER(AGEFILE_ROOM(65536), 131360);
NUMBER(AGEFILE_NOT_AGE, 1);
NUMBER(AGEFILE_ARMORED, 2);
NUMBER(AGEFILE_BAD_STANZA_LINE, 3);
NUMBER(AGEFILE_BAD_BODY, 4);
NUMBER(AGEFILE_BAD_END_LINE, 5);
NUMBER(AGEFILE_NO_STANZA, 6);
NUMBER(AGEFILE_HEAD_TOO_LONG, 7);
NUMBER(AGEFILE_SCRYPT_NOT_ALONE, 9);
NUMBER(AGEFILE_BAD_SCRYPT, 10);
NUMBER(AGEFILE_WORK_TOO_HIGH, 11);
NUMBER(AGEFILE_NO_MATCH, 12);
NUMBER(AGEFILE_WRONG_KEY, 13);
NUMBER(AGEFILE_MAC_MISMATCH, 14);
NUMBER(AGEFILE_BAD_X25519, 15);
NUMBER(AGEFILE_CHUNK_DAMAGED, 17);
NUMBER(AGEFILE_CHUNK_CUT, 18);
NUMBER(AGEFILE_EMPTY_LAST, 19);
NUMBER(AGEFILE_TRUNCATED, 20);
NUMBER(AGEFILE_TRAILING, 21);
NUMBER(AGEFILE_TOO_MANY_CHUNKS, 22);
NUMBER(AGEFILE_NO_RANDOM, 26);
NUMBER(AGEFILE_MEMORY, 28);
NUMBER(AGEFILE_NO_PROCESSOR, 252);
NUMBER(AGEFILE_NO_ROOM, 253);
NUMBER(AGEFILE_CUT_IN_HEADER, 254);
NUMBER(AGEFILE_MISUSED, 255);
NUMBER(AGEFILE_KIND_NONE, 0);
NUMBER(AGEFILE_KIND_WRONG_KEY, 1);
NUMBER(AGEFILE_KIND_NOT_WHOLE, 2);
NUMBER(AGEFILE_KIND_WORK, 3);
NUMBER(AGEFILE_KIND_MEMORY, 4);
NUMBER(AGEFILE_KIND_MISUSE, 5);
NUMBER(AGEFILE_KIND_SYSTEM, 6);

CALL(agefile_version, int, void);
CALL(agefile_passphrase, agefile_key, const void *, size_t);
CALL(agefile_file_key, agefile_key, const uint8_t *);
CALL(agefile_wrapped, agefile_key, const uint8_t *, const void *, size_t);
CALL(agefile_shared, agefile_key, const uint8_t *, const uint8_t *, const uint8_t *);
CALL(agefile_encrypt, int, agefile_key, const void *, size_t, void *, size_t, size_t *);
CALL(agefile_decrypt, int, agefile_key, const void *, size_t, void *, size_t, size_t *);
CALL(agefile_sealed_len, size_t, agefile_key, size_t);
CALL(agefile_encoder_new, int, agefile_encoder **, agefile_key);
CALL(agefile_encoder_size, size_t, void);
CALL(agefile_encoder_init, int, agefile_encoder **, agefile_key, void *, size_t);
CALL(agefile_encoder_begin, int, agefile_encoder *, agefile_key);
CALL(agefile_encode, int, agefile_encoder *, const void *, size_t, void *, size_t, size_t *);
CALL(agefile_encode_end, int, agefile_encoder *, void *, size_t, size_t *);
CALL(agefile_encode_room, size_t, const agefile_encoder *, size_t);
CALL(agefile_encode_end_room, size_t, const agefile_encoder *);
CALL(agefile_encoder_free, void, agefile_encoder *);
CALL(agefile_decoder_new, int, agefile_decoder **, agefile_key);
CALL(agefile_decoder_size, size_t, void);
CALL(agefile_decoder_init, int, agefile_decoder **, agefile_key, void *, size_t);
CALL(agefile_decoder_begin, int, agefile_decoder *, agefile_key);
CALL(agefile_decode, int, agefile_decoder *, const void *, size_t, void *, size_t, size_t *);
CALL(agefile_decode_end, int, agefile_decoder *, void *, size_t, size_t *);
CALL(agefile_decode_room, size_t, const agefile_decoder *, size_t);
CALL(agefile_decode_end_room, size_t, const agefile_decoder *);
CALL(agefile_decoder_free, void, agefile_decoder *);
CALL(agefile_payload_at, uint64_t, const agefile_decoder *);
CALL(agefile_fault_chunk, uint64_t, const agefile_decoder *);
CALL(agefile_decode_seek, int, agefile_decoder *, uint64_t, uint64_t, uint64_t *);
CALL(agefile_open_at, int, const agefile_decoder *, uint64_t, const void *, size_t, void *, size_t,
     size_t *, int *);
CALL(agefile_size, int, const agefile_decoder *, uint64_t, uint64_t *);
CALL(agefile_header, int, const void *, size_t, size_t *, size_t *, uint32_t *);
CALL(agefile_stanzas, int, const void *, size_t, agefile_stanza *, size_t, size_t *, void *, size_t,
     size_t *);
CALL(agefile_fault_name, const char *, int);
CALL(agefile_fault_text, const char *, int);
CALL(agefile_fault_kind, int, int);

/* (names them, so that no compiler finds one unused) */
const void *const agefile_calls[] = {
    (const void *)&was_agefile_version,
    (const void *)&was_agefile_passphrase,
    (const void *)&was_agefile_file_key,
    (const void *)&was_agefile_wrapped,
    (const void *)&was_agefile_shared,
    (const void *)&was_agefile_encrypt,
    (const void *)&was_agefile_decrypt,
    (const void *)&was_agefile_sealed_len,
    (const void *)&was_agefile_encoder_new,
    (const void *)&was_agefile_encoder_size,
    (const void *)&was_agefile_encoder_init,
    (const void *)&was_agefile_encoder_begin,
    (const void *)&was_agefile_encode,
    (const void *)&was_agefile_encode_end,
    (const void *)&was_agefile_encode_room,
    (const void *)&was_agefile_encode_end_room,
    (const void *)&was_agefile_encoder_free,
    (const void *)&was_agefile_decoder_new,
    (const void *)&was_agefile_decoder_size,
    (const void *)&was_agefile_decoder_init,
    (const void *)&was_agefile_decoder_begin,
    (const void *)&was_agefile_decode,
    (const void *)&was_agefile_decode_end,
    (const void *)&was_agefile_decode_room,
    (const void *)&was_agefile_decode_end_room,
    (const void *)&was_agefile_decoder_free,
    (const void *)&was_agefile_payload_at,
    (const void *)&was_agefile_fault_chunk,
    (const void *)&was_agefile_decode_seek,
    (const void *)&was_agefile_open_at,
    (const void *)&was_agefile_size,
    (const void *)&was_agefile_header,
    (const void *)&was_agefile_stanzas,
    (const void *)&was_agefile_fault_name,
    (const void *)&was_agefile_fault_text,
    (const void *)&was_agefile_fault_kind,
};
