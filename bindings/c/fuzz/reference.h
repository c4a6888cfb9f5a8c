/* reference.h: the age format by OpenSSL alone, with which the library is compared. It is compiled
 * with the fuzzer's coverage, so that the fuzzer finds its way through headers by it. */
#include <openssl/evp.h>
#include <openssl/hmac.h>
#include <stdint.h>
#include <stdlib.h>
#include <string.h>

enum {
    R_CHUNK = 65536,
    R_TAG = 16,
    R_BLOCK = R_CHUNK + R_TAG,
    R_HEAD_MOST = 1 << 20,
    R_STANZAS = 4096
};

typedef struct {
    size_t args_at, args_len, body_at, body_len; /* body: in `bodies` */
    size_t text_at, text_len;                    /* the body's lines in the header */
} r_stanza;

typedef struct {
    size_t size, count, bodies_len, mac_at; /* mac_at: of its 43 characters */
    uint8_t mac[32];
    r_stanza stanzas[R_STANZAS];
    uint8_t *bodies;
    int overflow; /* more stanzas than there is room for here */
} r_header;

static int r_value(uint8_t c) {
    if (c >= 'A' && c <= 'Z')
        return c - 'A';
    if (c >= 'a' && c <= 'z')
        return c - 'a' + 26;
    if (c >= '0' && c <= '9')
        return c - '0' + 52;
    return c == '+' ? 62 : c == '/' ? 63 : -1;
}

/* The bytes of a canonical base64 text without padding, or -1. */
static long r_bytes(const uint8_t *text, size_t len, uint8_t *to) {
    uint32_t bits = 0;
    int have = 0;
    long count = 0;
    if (len % 4 == 1)
        return -1;
    for (size_t i = 0; i < len; i++) {
        int value = r_value(text[i]);
        if (value < 0)
            return -1;
        bits = bits << 6 | (uint32_t)value;
        have += 6;
        if (have >= 8) {
            have -= 8;
            to[count++] = (uint8_t)(bits >> have);
        }
        bits &= (1u << have) - 1;
    }
    return bits ? -1 : count;
}

static void r_text(const uint8_t *bytes, size_t len, uint8_t *to) {
    static const char letters[] =
        "ABCDEFGHIJKLMNOPQRSTUVWXYZabcdefghijklmnopqrstuvwxyz0123456789+/";
    uint32_t bits = 0;
    int have = 0;
    for (size_t i = 0; i < len; i++) {
        bits = bits << 8 | bytes[i];
        for (have += 8; have >= 6;)
            *to++ = (uint8_t)letters[bits >> (have -= 6) & 63];
    }
    if (have)
        *to++ = (uint8_t)letters[bits << (6 - have) & 63];
}

/* The header with which some bytes begin: 0, a fault, or 254. `bodies` has room for len bytes. */
static uint32_t r_parse(const uint8_t *data, size_t len, r_header *it) {
    static const char version[] = "age-encryption.org/v1",
                      armor[] = "-----BEGIN AGE ENCRYPTED FILE-----";
    size_t at = 0, most = len < R_HEAD_MOST ? len : R_HEAD_MOST;
    int where = 0; /* 0 the version, 1 between stanzas, 2 in a body */
    it->count = it->bodies_len = it->size = 0;
    it->overflow = 0;
    while (at < most) {
        const uint8_t *line = data + at, *lf = memchr(line, '\n', most - at);
        if (lf == NULL)
            break;
        size_t n = (size_t)(lf - line);
        at += n + 1;
        if (where == 0) {
            if (n != 21 || memcmp(line, version, 21) != 0) {
                size_t cut = n && line[n - 1] == '\r' ? n - 1 : n;
                return cut == 34 && memcmp(line, armor, 34) == 0 ? 2 : 1;
            }
            where = 1;
        } else if (where == 2) {
            long count = n <= 64 ? r_bytes(line, n, it->bodies + it->bodies_len) : -1;
            if (count < 0)
                return 4;
            it->bodies_len += (size_t)count;
            if (it->count <= R_STANZAS) {
                r_stanza *last = &it->stanzas[it->count - 1];
                last->body_len += (size_t)count;
                last->text_len += n + 1;
            }
            if (n < 64)
                where = 1;
        } else if (n >= 3 && memcmp(line, "---", 3) == 0) {
            if (n != 47 || line[3] != ' ' || r_bytes(line + 4, 43, it->mac) != 32)
                return 5;
            if (it->count == 0)
                return 6;
            it->size = at;
            it->mac_at = at - 44;
            return 0;
        } else {
            if (n < 4 || memcmp(line, "-> ", 3) != 0)
                return 3;
            for (size_t i = 3; i < n; i++) {
                if (line[i] == ' ' ? (i == 3 || line[i - 1] == ' ' || i == n - 1)
                                   : (line[i] < 0x21 || line[i] > 0x7e))
                    return 3;
            }
            if (it->count < R_STANZAS)
                it->stanzas[it->count] =
                    (r_stanza){(size_t)(line + 3 - data), n - 3, it->bodies_len, 0, at, 0};
            else
                it->overflow = 1;
            it->count++;
            where = 2;
        }
        if (it->overflow)
            return 0;
    }
    return len >= R_HEAD_MOST ? 7 : 254;
}

static void r_hmac(const uint8_t *key, size_t key_len, const uint8_t *data, size_t len,
                   uint8_t *to) {
    unsigned int n = 32;
    if (!HMAC(EVP_sha256(), key, (int)key_len, data, len, to, &n))
        abort();
}

static void r_hkdf(const uint8_t *key, size_t key_len, const uint8_t *salt, size_t salt_len,
                   const char *label, uint8_t *to) {
    uint8_t mid[32], info[128];
    size_t n = strlen(label);
    r_hmac(salt, salt_len, key, key_len, mid);
    memcpy(info, label, n);
    info[n] = 1;
    r_hmac(mid, 32, info, n + 1, to);
}

static void r_mac(const uint8_t *head, size_t size, const uint8_t *file_key, uint8_t *to) {
    static const uint8_t zero[32];
    uint8_t key[32];
    r_hkdf(file_key, 16, zero, 32, "header", key);
    r_hmac(key, 32, head, size - 45, to); /* up to and including "---" */
}

static EVP_CIPHER_CTX *r_context;

static int r_open(const uint8_t *key, const uint8_t *nonce, const uint8_t *block, size_t len,
                  uint8_t *to) {
    int n = 0;
    if (len < R_TAG)
        return 0;
    if (!r_context)
        r_context = EVP_CIPHER_CTX_new();
    EVP_DecryptInit_ex(r_context, EVP_chacha20_poly1305(), NULL, key, nonce);
    EVP_CIPHER_CTX_ctrl(r_context, EVP_CTRL_AEAD_SET_TAG, R_TAG, (void *)(block + len - R_TAG));
    EVP_DecryptUpdate(r_context, to, &n, block, (int)(len - R_TAG));
    return EVP_DecryptFinal_ex(r_context, to + n, &n) == 1;
}

static void r_seal(const uint8_t *key, const uint8_t *nonce, const uint8_t *text, size_t len,
                   uint8_t *to) {
    int n = 0;
    if (!r_context)
        r_context = EVP_CIPHER_CTX_new();
    EVP_EncryptInit_ex(r_context, EVP_chacha20_poly1305(), NULL, key, nonce);
    EVP_EncryptUpdate(r_context, to, &n, text, (int)len);
    EVP_EncryptFinal_ex(r_context, to + n, &n);
    EVP_CIPHER_CTX_ctrl(r_context, EVP_CTRL_AEAD_GET_TAG, R_TAG, to + len);
}

static void r_nonce(uint64_t chunk, int is_last, uint8_t *to) {
    memset(to, 0, 12);
    for (int i = 0; i < 8; i++)
        to[10 - i] = (uint8_t)(chunk >> 8 * i);
    to[11] = (uint8_t)is_last;
}

static int r_open_chunk(const uint8_t *key, uint64_t chunk, int is_last, const uint8_t *block,
                        size_t len, uint8_t *to) {
    uint8_t nonce[12];
    r_nonce(chunk, is_last, nonce);
    return r_open(key, nonce, block, len, to);
}

static void r_seal_chunk(const uint8_t *key, uint64_t chunk, int is_last, const uint8_t *text,
                         size_t len, uint8_t *to) {
    uint8_t nonce[12];
    r_nonce(chunk, is_last, nonce);
    r_seal(key, nonce, text, len, to);
}

static size_t r_payload(const uint8_t *key, const uint8_t *text, size_t len, uint8_t *to) {
    uint64_t chunk = 0;
    size_t begin = 0, made = 0;
    for (;; chunk++, begin += R_CHUNK, made += R_BLOCK) {
        size_t left = len - begin;
        r_seal_chunk(key, chunk, left <= R_CHUNK, text + begin, left < R_CHUNK ? left : R_CHUNK,
                     to + made);
        if (left <= R_CHUNK)
            return made + left + R_TAG;
    }
}

static void r_scrypt(const uint8_t *pass, size_t len, const uint8_t *salt, unsigned log,
                     uint8_t *to) {
    uint8_t full[44];
    memcpy(full, "age-encryption.org/v1/scrypt", 28);
    memcpy(full + 28, salt, 16);
    if (!EVP_PBE_scrypt((const char *)pass, len, full, 44, 1ull << log, 8, 1, 1ull << 31, to, 32))
        abort();
}

/* ---- What opens a header. ---- */

static const uint8_t r_zeros[32];

/* The work factor that it demands of a passphrase, or 0 if none opens it. */
static uint32_t r_work(const uint8_t *data, const r_header *head) {
    const uint8_t *args = data + head->stanzas[0].args_at, *end = args + head->stanzas[0].args_len,
                  *at;
    uint8_t salt[64];
    uint64_t work = 0;
    if (head->count != 1 || end - args < 9 || memcmp(args, "scrypt ", 7) != 0)
        return 0;
    at = memchr(args + 7, ' ', (size_t)(end - args - 7));
    if (!at || at - args != 29 || r_bytes(args + 7, 22, salt) != 16)
        return 0;
    at++;
    if (at == end || *at == '0' || head->stanzas[0].body_len != 32)
        return 0;
    for (; at < end; at++) {
        if (*at < '0' || *at > '9')
            return 0;
        work = work * 10 + (uint64_t)(*at - '0');
        if (work > UINT32_MAX)
            work = UINT32_MAX;
    }
    return (uint32_t)work;
}
static int r_is_type(const uint8_t *data, const r_stanza *it, const char *type) {
    size_t n = strlen(type);
    return it->args_len >= n && memcmp(data + it->args_at, type, n) == 0 &&
           (it->args_len == n || data[it->args_at + n] == ' ');
}
static int r_has(const uint8_t *data, const r_header *head, const char *type) {
    for (size_t i = 0; i < head->count; i++)
        if (r_is_type(data, &head->stanzas[i], type))
            return 1;
    return 0;
}
static int r_share(const uint8_t *data, const r_stanza *it, uint8_t share[32]) {
    uint8_t bytes[64];
    if (it->args_len != 7 + 43 || r_bytes(data + it->args_at + 7, 43, bytes) != 32)
        return 0;
    memcpy(share, bytes, 32);
    return it->body_len == 32;
}
static void r_shared(const uint8_t share[32], const uint8_t secret[32], const uint8_t recipient[32],
                     uint8_t to[32]) {
    uint8_t salt[64];
    memcpy(salt, share, 32);
    memcpy(salt + 32, recipient, 32);
    r_hkdf(secret, 32, salt, 64, "age-encryption.org/v1/X25519", to);
}
/* The key under which this stanza wraps the file key, by a passphrase of little work or a shared
 * secret: whether there is one. */
static int r_wrap_of(const uint8_t *data, const r_header *head, const r_stanza *it,
                     const char *pass, size_t len, const uint8_t *secret, const uint8_t *recipient,
                     uint8_t to[32]) {
    uint8_t bytes[64];
    uint32_t work = r_work(data, head);
    if (work >= 1 && work <= 4) {
        r_bytes(data + it->args_at + 7, 22, bytes);
        r_scrypt((const uint8_t *)pass, len, bytes, work, to);
        return 1;
    }
    if (!r_is_type(data, it, "X25519") || !r_share(data, it, bytes))
        return 0;
    r_shared(bytes, secret, recipient, to);
    return 1;
}

/* The fault of a whole header, or 0 and the file key: by that itself, a passphrase whose work is at
 * most `most`, or a shared secret. */
static int r_by_key(const uint8_t *data, const r_header *head, const uint8_t *file_key) {
    uint8_t mac[32];
    if (head->count > 1 && r_has(data, head, "scrypt"))
        return 9;
    r_mac(data, head->size, file_key, mac);
    return memcmp(mac, head->mac, 32) ? 14 : 0;
}
static int r_by_pass(const uint8_t *data, const r_header *head, const uint8_t *pass, size_t len,
                     uint32_t most, uint8_t *file_key) {
    const r_stanza *it = &head->stanzas[0];
    uint8_t salt[16], wrap[32];
    uint32_t work = r_work(data, head);
    if (!r_has(data, head, "scrypt"))
        return 12;
    if (head->count > 1)
        return 9;
    if (!work || work > most)
        return work ? 11 : 10;
    r_bytes(data + it->args_at + 7, 22, salt);
    r_scrypt(pass, len, salt, work, wrap);
    return r_open(wrap, r_zeros, head->bodies + it->body_at, 32, file_key)
               ? r_by_key(data, head, file_key)
               : 13;
}
static int r_by_secret(const uint8_t *data, const r_header *head, const uint8_t *secret,
                       const uint8_t *recipient, uint8_t *file_key) {
    uint8_t share[32], wrap[32];
    if (head->count > 1 && r_has(data, head, "scrypt"))
        return 9;
    if (!r_has(data, head, "X25519"))
        return 12;
    for (size_t i = 0; i < head->count; i++)
        if (r_is_type(data, &head->stanzas[i], "X25519") &&
            !r_share(data, &head->stanzas[i], share))
            return 15;
    if (memcmp(secret, r_zeros, 32) == 0)
        return 15;
    for (size_t i = 0; i < head->count; i++) {
        if (!r_is_type(data, &head->stanzas[i], "X25519"))
            continue;
        r_share(data, &head->stanzas[i], share);
        r_shared(share, secret, recipient, wrap);
        if (r_open(wrap, r_zeros, head->bodies + head->stanzas[i].body_at, 32, file_key))
            return r_by_key(data, head, file_key);
    }
    return 13;
}
