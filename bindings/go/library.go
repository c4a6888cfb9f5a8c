package agefile

// All calls of the C library, but for those about faults. A decoder or an encoder lies in memory of Go's, and so goes with what has it.
// Pointers to bytes have the type of bytes: then cgo doesn't look at what is around them.

/*
#cgo !agefile_system CFLAGS: -I${SRCDIR}
#cgo !agefile_system,amd64 LDFLAGS: ${SRCDIR}/libagefile_amd64.a
#cgo !agefile_system,arm64 LDFLAGS: ${SRCDIR}/libagefile_arm64.a
#cgo agefile_system pkg-config: agefile
#include "agefile.h"

typedef uint64_t *object;
typedef const uint8_t *from;
typedef uint8_t *to;

static agefile_key by_passphrase(from pass, size_t len, uint32_t work) {
    agefile_key key = agefile_passphrase(pass, len);
    key.work = work;
    return key;
}
static int begin_decoder(object at, agefile_key key) {
    agefile_decoder *it;
    int answer = agefile_decoder_init(&it, key, at, agefile_decoder_size());
    return answer || (void *)it == at ? answer : AGEFILE_MISUSED;
}
static int begin_encoder(object at, agefile_key key) {
    agefile_encoder *it;
    int answer = agefile_encoder_init(&it, key, at, agefile_encoder_size());
    return answer || (void *)it == at ? answer : AGEFILE_MISUSED;
}
static int decoder_by_passphrase(object at, from pass, size_t len, uint32_t most) { return begin_decoder(at, by_passphrase(pass, len, most)); }
static int decoder_by_key(object at, from key) { return begin_decoder(at, agefile_file_key(key)); }
static int decode(object it, from file, size_t len, to out, size_t room, size_t *n) { return agefile_decode((void *)it, file, len, out, room, n); }
static int decode_end(object it, to out, size_t room, size_t *n) { return agefile_decode_end((void *)it, out, room, n); }
static int decode_seek(object it, uint64_t place, uint64_t len, uint64_t *offset) { return agefile_decode_seek((void *)it, place, len, offset); }
static int open_at(object it, uint64_t chunk, from block, size_t len, to out, size_t room, size_t *n, int *is_last) {
    return agefile_open_at((void *)it, chunk, block, len, out, room, n, is_last);
}
static int text_size(object it, uint64_t file_len, uint64_t *text_len) { return agefile_size((void *)it, file_len, text_len); }
static uint64_t payload_at(object it) { return agefile_payload_at((void *)it); }
static uint64_t fault_chunk(object it) { return agefile_fault_chunk((void *)it); }
static void free_decoder(object it) { agefile_decoder_free((void *)it); }
static int encoder_by_passphrase(object at, from pass, size_t len, uint32_t work) { return begin_encoder(at, by_passphrase(pass, len, work)); }
static int encoder_by_key(object at, from key, from stanzas, size_t len) { return begin_encoder(at, agefile_wrapped(key, stanzas, len)); }
static int encode(object it, from text, size_t len, to out, size_t room, size_t *n) { return agefile_encode((void *)it, text, len, out, room, n); }
static int encode_end(object it, to out, size_t room, size_t *n) { return agefile_encode_end((void *)it, out, room, n); }
static size_t encode_room(object it) { return agefile_encode_room((void *)it, 0); }
static void free_encoder(object it) { agefile_encoder_free((void *)it); }
static int stanzas(from header, size_t len, agefile_stanza *all, size_t *count, to bodies) {
    size_t written;
    return agefile_stanzas(header, len, all, *count, count, bodies, len, &written);
}
static int header(from file, size_t len, size_t *size, size_t *count, uint32_t *work) { return agefile_header(file, len, size, count, work); }
*/
import "C"

import "strings"

const (
	chunkLen   = C.AGEFILE_CHUNK
	blockLen   = C.AGEFILE_BLOCK
	fileKeyLen = 16

	macMismatch = C.AGEFILE_MAC_MISMATCH
)

// memory is where an encoder or a decoder lies.
type memory []uint64

func memoryOf(size C.size_t) memory { return make(memory, (size+7)/8) }

func (m memory) at() *C.uint64_t { return (*C.uint64_t)(&m[0]) }

// place is where bytes are, if there are any.
func place(bytes []byte) *C.uint8_t {
	if len(bytes) == 0 {
		return nil
	}
	return (*C.uint8_t)(&bytes[0])
}

func length(bytes []byte) C.size_t { return C.size_t(len(bytes)) }

// A decoder holds memory of C until its header is open, or it is freed.
type decoder struct{ memory }

func decoderByPassphrase(passphrase []byte, most int) (decoder, error) {
	d := decoder{memoryOf(C.agefile_decoder_size())}
	return d, answered(C.decoder_by_passphrase(d.at(), place(passphrase), length(passphrase), C.uint32_t(most)), -1)
}

func decoderByKey(fileKey []byte) (decoder, error) {
	d := decoder{memoryOf(C.agefile_decoder_size())}
	return d, answered(C.decoder_by_key(d.at(), place(fileKey)), -1)
}

// decode gives bytes of the file, at most a block, and returns how many of the plaintext came. There is room for a chunk, if one comes.
func (d decoder) decode(file, room []byte) (int, error) {
	var n C.size_t
	answer := C.decode(d.at(), place(file), length(file), place(room), length(room), &n)
	return int(n), answered(answer, int64(C.fault_chunk(d.at()))) // (the chunk is 2^64 - 1 if there is none)
}

// end says that the file has ended: without an error, the plaintext is complete.
func (d decoder) end(room []byte) (int, error) {
	var n C.size_t
	answer := C.decode_end(d.at(), place(room), length(room), &n)
	return int(n), answered(answer, int64(C.fault_chunk(d.at())))
}

// seek makes the next plaintext that from a place on, for bytes of the file from the place that it returns on.
func (d decoder) seek(at, fileLen int64) (int64, error) {
	var offset C.uint64_t
	answer := C.decode_seek(d.at(), C.uint64_t(at), C.uint64_t(fileLen), &offset)
	return int64(offset), answered(answer, -1)
}

// openAt opens the block of one chunk, and says whether that is the last. Any number of goroutines may call it.
func (d decoder) openAt(chunk int64, block, room []byte) (size int, isLast bool, err error) {
	var n C.size_t
	var last C.int
	answer := C.open_at(d.at(), C.uint64_t(chunk), place(block), length(block), place(room), length(room), &n, &last)
	return int(n), last != 0, answered(answer, chunk)
}

// size is how long the plaintext of a file of this length is, if that is complete.
func (d decoder) size(fileLen int64) (int64, error) {
	var size C.uint64_t
	answer := C.text_size(d.at(), C.uint64_t(fileLen), &size)
	return int64(size), answered(answer, (fileLen-d.payloadAt())/blockLen)
}

// payloadAt is where the payload begins, or 0 before the header is open.
func (d decoder) payloadAt() int64 { return int64(C.payload_at(d.at())) }

// free overwrites it, and frees what it holds. It is used no more.
func (d decoder) free() { C.free_decoder(d.at()) }

// An encoder holds memory of C until its first bytes are given, or it is freed.
type encoder struct{ memory }

func encoderByPassphrase(passphrase []byte, work int) (encoder, error) {
	e := encoder{memoryOf(C.agefile_encoder_size())}
	return e, answered(C.encoder_by_passphrase(e.at(), place(passphrase), length(passphrase), C.uint32_t(work)), -1)
}

func encoderByKey(fileKey, stanzas []byte) (encoder, error) {
	e := encoder{memoryOf(C.agefile_encoder_size())}
	return e, answered(C.encoder_by_key(e.at(), place(fileKey), place(stanzas), length(stanzas)), -1)
}

// begin returns what stands before the payload.
func (e encoder) begin() ([]byte, error) {
	front := make([]byte, C.encode_room(e.at()))
	n, err := e.encode(nil, front)
	return front[:n], err
}

// encode takes bytes of the plaintext, at most a chunk, and returns how many of the file came, for which there is room: a block.
func (e encoder) encode(text, room []byte) (int, error) {
	var n C.size_t
	answer := C.encode(e.at(), place(text), length(text), place(room), length(room), &n)
	return int(n), answered(answer, -1)
}

// end returns how many bytes the last block has.
func (e encoder) end(room []byte) (int, error) {
	var n C.size_t
	answer := C.encode_end(e.at(), place(room), length(room), &n)
	return int(n), answered(answer, -1)
}

// free overwrites it, and frees what it holds. It is used no more.
func (e encoder) free() { C.free_encoder(e.at()) }

// headerOf is what the header says that these bytes begin with.
func headerOf(front []byte) (*Header, error) {
	var size, count C.size_t
	var work C.uint32_t
	if answer := C.header(place(front), length(front), &size, &count, &work); answer != 0 {
		return nil, answered(answer, -1)
	}
	places, bodies := make([]C.agefile_stanza, count), make([]byte, size)
	answer := C.stanzas(place(front), size, &places[0], &count, place(bodies))
	h := &Header{Len: int(size), Work: int(work), Stanzas: make([]Stanza, count)}
	for i, it := range places[:count] {
		words := strings.Split(string(front[it.args_at:it.args_at+it.args_len]), " ")
		h.Stanzas[i] = Stanza{Type: words[0], Args: words[1:], Body: bodies[it.body_at : it.body_at+it.body_len : it.body_at+it.body_len]}
	}
	return h, answered(answer, -1)
}
