/* Uses an object after it was freed, which the address sanitizer has to report: freed encode |
 * decode | begin | free | no. The library's C files are compiled with it, so that it sees what they
 * touch. */
#include "agefile.h"

#include <string.h>

int main(int argc, char **argv) {
    static unsigned char out[70000];
    const char *how = argc == 2 ? argv[1] : "no";
    agefile_key key = agefile_file_key((const uint8_t *)"0123456789abcdef"),
                writes = agefile_wrapped((const uint8_t *)"0123456789abcdef", "-> a\n\n", 6);
    agefile_encoder *e;
    agefile_decoder *d;
    size_t n;
    int answer = agefile_encoder_new(&e, writes) | agefile_decoder_new(&d, key);
    agefile_encoder_free(e);
    agefile_decoder_free(d);
    if (!strcmp(how, "encode"))
        answer |= agefile_encode(e, "text", 4, out, sizeof out, &n);
    if (!strcmp(how, "decode"))
        answer |= agefile_decode(d, "text", 4, out, sizeof out, &n);
    if (!strcmp(how, "begin"))
        answer |= agefile_encoder_begin(e, writes);
    if (!strcmp(how, "free"))
        agefile_decoder_free(d);
    return answer;
}
