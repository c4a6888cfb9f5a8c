/* names.c: what a call answers, for people, as agefile.h says: the one list for all languages. */
#include "../../include/agefile.h"

enum {
    KEY = AGEFILE_KIND_WRONG_KEY,
    NOT_WHOLE = AGEFILE_KIND_NOT_WHOLE,
    SYSTEM = AGEFILE_KIND_SYSTEM
};

static const struct fault {
    int number;
    const char *name, *text;
    int kind;
} faults[] = {
    {0, "Ok", "no fault", AGEFILE_KIND_NONE},
    {1, "NotAge", "the file doesn't begin as an age file does", NOT_WHOLE},
    {2, "Armored", "the file is armored: remove the armor first", NOT_WHOLE},
    {3, "BadStanzaLine", "the header is damaged: a line should begin a stanza", NOT_WHOLE},
    {4, "BadBody", "the header is damaged: the body of a stanza isn't base64", NOT_WHOLE},
    {5, "BadEndLine", "the header is damaged: its last line is malformed", NOT_WHOLE},
    {6, "NoStanza", "the header is damaged: it has no stanza", NOT_WHOLE},
    {7, "HeadTooLong", "the header is too long: this may not be an age file", NOT_WHOLE},
    {8, "HeadCut", "the file ends in its header, or isn't an age file", NOT_WHOLE},
    {9, "ScryptNotAlone", "the header was altered or forged: a passphrase stanza isn't alone",
     NOT_WHOLE},
    {10, "BadScrypt", "the header was altered or forged: the passphrase stanza is malformed",
     NOT_WHOLE},
    {11, "WorkTooHigh", "the work factor is above the most that is allowed", AGEFILE_KIND_WORK},
    {12, "NoMatch", "the file isn't for this kind of key", KEY},
    {13, "WrongKey", "the passphrase or key doesn't open the file", KEY},
    {14, "MacMismatch", "the header was altered, or the file key is another file's", NOT_WHOLE},
    {15, "BadX25519", "an X25519 stanza is malformed, or the shared secret is zero", NOT_WHOLE},
    {16, "NonceCut", "the file ends right after its header", NOT_WHOLE},
    {17, "ChunkDamaged", "the file is damaged or was cut here, or something was appended",
     NOT_WHOLE},
    {18, "ChunkCut", "the file was cut", NOT_WHOLE},
    {19, "EmptyLast", "the file was cut off here or altered: its last chunk is empty", NOT_WHOLE},
    {20, "Truncated", "the file was cut", NOT_WHOLE},
    {21, "Trailing", "something was appended to the file", NOT_WHOLE},
    {22, "TooManyChunks", "the file has too many chunks", NOT_WHOLE},
    {AGEFILE_NO_RANDOM, "NoRandom", "the system gave no random bytes", SYSTEM},
    {AGEFILE_MEMORY, "Memory", "there isn't enough memory", AGEFILE_KIND_MEMORY},
    {AGEFILE_NO_PROCESSOR, "NoProcessor", "the library isn't made for this processor", SYSTEM},
    {AGEFILE_NO_ROOM, "NoRoom", "the room for what is written is too small", AGEFILE_KIND_MISUSE},
    {AGEFILE_CUT_IN_HEADER, "HeaderOrNonceCut",
     "the file ends in its header or right after it, or isn't an age file", NOT_WHOLE},
    {AGEFILE_MISUSED, "Misused", "an argument is out of range, or nothing was begun",
     AGEFILE_KIND_MISUSE},
};
static const struct fault unknown = {-1, "Unknown", "no call answers this", AGEFILE_KIND_MISUSE};

static const struct fault *fault(int answer) {
    for (size_t i = 0; i < sizeof faults / sizeof *faults; i++)
        if (faults[i].number == answer)
            return &faults[i];
    return &unknown;
}

const char *agefile_fault_name(int answer) { return fault(answer)->name; }
const char *agefile_fault_text(int answer) { return fault(answer)->text; }
int agefile_fault_kind(int answer) { return fault(answer)->kind; }
