/* once.c: agefile_encrypt and agefile_decrypt, over an encoder and a decoder. */
#define _DEFAULT_SOURCE
#include "core.h"
#include <string.h>

int agefile_encrypt(agefile_key key, const void *text, size_t len, void *out, size_t room,
                    size_t *written) {
    agefile_encoder *it;
    size_t n = *written = 0;
    int answer = agefile_encoder_new(&it, key);
    if (!answer)
        answer = agefile_encode(it, text, len, out, room, &n);
    if (!answer)
        answer = agefile_encode_end(it, core_after(out, n), room - n, written);
    if (!answer)
        *written += n;
    else if (n)
        explicit_bzero(out, n);
    agefile_encoder_free(it);
    return answer;
}
int agefile_decrypt(agefile_key key, const void *file, size_t len, void *out, size_t room,
                    size_t *written) {
    agefile_decoder *it;
    size_t n = *written = 0;
    int answer = agefile_decoder_new(&it, key);
    if (!answer)
        answer = core_decode(it, file, len, out, room, &n);
    if (!answer)
        answer = agefile_decode_end(it, core_after(out, n), room - n, written);
    if (!answer)
        *written += n;
    else if (n)
        explicit_bzero(out, n);
    agefile_decoder_free(it);
    return answer;
}
