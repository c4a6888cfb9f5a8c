/* agefile.h: age files (https://c2sp.org/age), version 1, read and written over proved code.
 *
 *     agefile_decoder *it;
 *     int answer = agefile_decoder_new(&it, agefile_passphrase(pass, pass_len));
 *     while (!answer && (have = fread(in, 1, sizeof in, stdin)) > 0) {
 *         answer = agefile_decode(it, in, have, out, sizeof out, &n);
 *         fwrite(out, 1, n, stdout);
 *     }
 *     if (!answer) answer = agefile_decode_end(it, out, sizeof out, &n), fwrite(out, 1, n, stdout);
 *     agefile_decoder_free(it);
 *
 * WHAT HOLDS. Since a decoder was begun or last sought to a place, what it wrote is a prefix of the
 * plaintext from there on, unless somebody forged a tag. Only once agefile_decode_end has answered
 * 0 is it all of that. What an encoder wrote up to an agefile_encode_end that answered 0 is the age
 * file of the text that it took. Into which pieces a file or a text is cut makes no difference. Any
 * call may follow any other, and none must. Either may be given up, or begun again, at any time.
 *
 * ANSWERS are 0 or the number of a fault, of which agefile_fault_name, _text and _kind tell more.
 * After AGEFILE_MISUSED (an argument is out of range, or nothing was begun) and AGEFILE_NO_ROOM
 * nothing is changed or written. After any other fault *written bytes were still written, and a
 * decoder answers it again until it is begun again or, once its header is open, sought to a place.
 *
 * ROOM. n + 65,536 bytes always suffice to decode n bytes, 65,536 for agefile_decode_end,
 * AGEFILE_ROOM(n) to encode n bytes and AGEFILE_ROOM(0) for agefile_encode_end. The calls .._room
 * say how much the next call needs.
 *
 * KEYS are values over the caller's bytes, which a decoder copies, and wipes once the header is
 * open. A passphrase has 1 to 65,536 bytes. The .._free calls wipe what they free; NULL is allowed.
 * Stack and scrypt's table aren't wiped; constant time isn't claimed. Random bytes are getrandom's:
 * if it fails, the answer is AGEFILE_NO_RANDOM, and no file is begun.
 *
 * POINTERS to bytes may be NULL if the length after them is 0. What a call writes must not overlap
 * what else it is given. MEMORY: a decoder takes up to 1 MiB for the header, and 66 KiB once it is
 * open; an encoder 66 KiB and its stanzas; and a passphrase of work N takes 2^N KiB for a moment.
 * THREADS: one call at a time on each object, except those that take it as const; otherwise any.
 */
#ifndef AGEFILE_H
#define AGEFILE_H
#include <stddef.h>
#include <stdint.h>
#ifdef __cplusplus
extern "C" {
#endif

#define AGEFILE_VERSION 20000 /* 10,000 * major + 100 * minor + patch */
#define AGEFILE_CHUNK 65536   /* bytes of plaintext in a full chunk */
#define AGEFILE_BLOCK 65552   /* bytes of its block in the file */
#define AGEFILE_ROOM(n)                                                                            \
    (((n) / 65536 + 1) * 65552 + 256) /* and the length of the caller's stanzas */

#if defined __GNUC__ && !defined AGEFILE_MUST_CHECK
#define AGEFILE_MUST_CHECK __attribute__((warn_unused_result))
#elif !defined AGEFILE_MUST_CHECK
#define AGEFILE_MUST_CHECK
#endif

int agefile_version(void); /* AGEFILE_VERSION of the library that is linked */

/* ---- keys ---- */

typedef struct agefile_key { /* made by the calls below */
    uint32_t kind;
    uint32_t work; /* may be set, of a passphrase: to write, 1 to 22, 0 means 18; to read, the most,
                      0 means 22 */
    const void *at, *with, *to;
    size_t len, with_len;
} agefile_key;

agefile_key agefile_passphrase(const void *pass, size_t len);
/* The file's own key. It reads; to write, give the lines of the header's stanzas that wrap it, each
 * ended by LF. */
agefile_key agefile_file_key(const uint8_t key[16]);
agefile_key agefile_wrapped(const uint8_t key[16], const void *stanzas, size_t len);
/* X25519, of 32 bytes each. To read the stanza of a share: secret is X25519(identity, share), and
 * recipient X25519(identity, 9). To write: secret is X25519(random, recipient), and share
 * X25519(random, 9), of a new random for each file. To read, share may be NULL. */
agefile_key agefile_shared(const uint8_t secret[32], const uint8_t share[32],
                           const uint8_t recipient[32]);

/* ---- in one call ---- */

/* *written is 0 unless the file, or the text, is whole, and the room then holds nothing of it. */
AGEFILE_MUST_CHECK int agefile_encrypt(agefile_key key, const void *text, size_t len, void *out,
                                       size_t room, size_t *written);
AGEFILE_MUST_CHECK int agefile_decrypt(agefile_key key, const void *file, size_t len, void *out,
                                       size_t room, size_t *written);
/* room for the file; a text is shorter than its file */
size_t agefile_sealed_len(agefile_key key, size_t text_len);

/* ---- writing ---- */

typedef struct agefile_encoder agefile_encoder;
/* *it is NULL unless the answer is 0 */
AGEFILE_MUST_CHECK int agefile_encoder_new(agefile_encoder **it, agefile_key key);
/* The same in memory of at least that size, aligned to 8 bytes; then agefile_encoder_free doesn't
 * free that. */
size_t agefile_encoder_size(void);
AGEFILE_MUST_CHECK int agefile_encoder_init(agefile_encoder **it, agefile_key key, void *memory,
                                            size_t len);
/* Begins another file. */
AGEFILE_MUST_CHECK int agefile_encoder_begin(agefile_encoder *it, agefile_key key);
AGEFILE_MUST_CHECK int agefile_encode(agefile_encoder *it, const void *text, size_t len, void *out,
                                      size_t room, size_t *written);
AGEFILE_MUST_CHECK int agefile_encode_end(agefile_encoder *it, void *out, size_t room,
                                          size_t *written);
size_t agefile_encode_room(const agefile_encoder *it, size_t len);
size_t agefile_encode_end_room(const agefile_encoder *it);
void agefile_encoder_free(agefile_encoder *it);

/* ---- reading ---- */

typedef struct agefile_decoder agefile_decoder;
AGEFILE_MUST_CHECK int agefile_decoder_new(agefile_decoder **it, agefile_key key);
size_t agefile_decoder_size(void);
AGEFILE_MUST_CHECK int agefile_decoder_init(agefile_decoder **it, agefile_key key, void *memory,
                                            size_t len);
AGEFILE_MUST_CHECK int agefile_decoder_begin(agefile_decoder *it, agefile_key key);
AGEFILE_MUST_CHECK int agefile_decode(agefile_decoder *it, const void *file, size_t len, void *out,
                                      size_t room, size_t *written);
AGEFILE_MUST_CHECK int agefile_decode_end(agefile_decoder *it, void *out, size_t room,
                                          size_t *written);
size_t agefile_decode_room(const agefile_decoder *it, size_t len);
size_t agefile_decode_end_room(const agefile_decoder *it);
void agefile_decoder_free(agefile_decoder *it);
/* Where the payload begins in the file, once the header is open; 0 before. */
uint64_t agefile_payload_at(const agefile_decoder *it);
/* The chunk of the fault 17 to 20 or 22 that was answered last, else UINT64_MAX. */
uint64_t agefile_fault_chunk(const agefile_decoder *it);

/* ---- any place of a file whose header is open; AGEFILE_MISUSED before ---- */

/* The next plaintext is that from byte `place` on: give the file from *offset on. With the file's
 * length, a place beyond the end is the end; UINT64_MAX if that isn't known. At the first byte of a
 * chunk the one before is opened too, so that its fault is answered. */
AGEFILE_MUST_CHECK int agefile_decode_seek(agefile_decoder *it, uint64_t place, uint64_t file_len,
                                           uint64_t *offset);
/* Opens one chunk by its block, which stands at agefile_payload_at + chunk * AGEFILE_BLOCK: a full
 * one, or what the file still has. *is_last says whether the plaintext ends with it. It depends on
 * no other call, and changes nothing. */
AGEFILE_MUST_CHECK int agefile_open_at(const agefile_decoder *it, uint64_t chunk, const void *block,
                                       size_t len, void *out, size_t room, size_t *written,
                                       int *is_last);
/* How long the plaintext of a file of this length is, if that is complete (18 to 20 if none is). A
 * length proves nothing: to prove it, seek there and give the rest. */
AGEFILE_MUST_CHECK int agefile_size(const agefile_decoder *it, uint64_t file_len,
                                    uint64_t *text_len);

/* ---- looking at a header: nobody has confirmed what it says ---- */

/* The header that the bytes begin with: its length, its stanzas, and the work factor that it
 * demands of a passphrase (0 if no passphrase opens it). AGEFILE_CUT_IN_HEADER says that more bytes
 * are needed. */
AGEFILE_MUST_CHECK int agefile_header(const void *file, size_t len, size_t *header_len,
                                      size_t *stanzas, uint32_t *work);
/* A stanza's arguments are the args_len bytes at file + args_at, with a space between two; its body
 * is at out + body_at. */
typedef struct agefile_stanza {
    size_t args_at, args_len, body_at, body_len;
} agefile_stanza;
/* All of them. There is room for as many as agefile_header says, and in `out` for header_len bytes.
 */
AGEFILE_MUST_CHECK int agefile_stanzas(const void *file, size_t len, agefile_stanza *stanzas,
                                       size_t most, size_t *count, void *out, size_t room,
                                       size_t *written);

/* ---- faults: one list for all languages; docs/FAULTS.md says what to do ---- */

enum {
    AGEFILE_NOT_AGE = 1,
    AGEFILE_ARMORED = 2,
    AGEFILE_BAD_STANZA_LINE = 3,
    AGEFILE_BAD_BODY = 4,
    AGEFILE_BAD_END_LINE = 5,
    AGEFILE_NO_STANZA = 6,
    AGEFILE_HEAD_TOO_LONG = 7,
    AGEFILE_SCRYPT_NOT_ALONE = 9,
    AGEFILE_BAD_SCRYPT = 10,
    AGEFILE_WORK_TOO_HIGH = 11,
    AGEFILE_NO_MATCH = 12,
    AGEFILE_WRONG_KEY = 13,
    AGEFILE_MAC_MISMATCH = 14,
    AGEFILE_BAD_X25519 = 15,
    AGEFILE_CHUNK_DAMAGED = 17,
    AGEFILE_CHUNK_CUT = 18,
    AGEFILE_EMPTY_LAST = 19,
    AGEFILE_TRUNCATED = 20,
    AGEFILE_TRAILING = 21,
    AGEFILE_TOO_MANY_CHUNKS = 22,
    AGEFILE_NO_RANDOM = 26,
    AGEFILE_MEMORY = 28,
    AGEFILE_NO_PROCESSOR = 252,
    AGEFILE_NO_ROOM = 253,
    AGEFILE_CUT_IN_HEADER = 254,
    AGEFILE_MISUSED = 255
};
enum { /* what to do about it */
       AGEFILE_KIND_NONE,
       AGEFILE_KIND_WRONG_KEY,
       AGEFILE_KIND_NOT_WHOLE, /* the file isn't as its writer left it, or isn't an age file */
       AGEFILE_KIND_WORK,      /* the work factor is above the most that is allowed */
       AGEFILE_KIND_MEMORY,
       AGEFILE_KIND_MISUSE,
       AGEFILE_KIND_SYSTEM
};
const char *agefile_fault_name(int answer); /* as "WrongKey" */
const char *agefile_fault_text(int answer); /* as "the passphrase or key doesn't open the file" */
int agefile_fault_kind(int answer);

#ifdef __cplusplus
}
#endif
#endif
