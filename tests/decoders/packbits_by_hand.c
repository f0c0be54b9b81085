/* PackBits as somebody would write it by hand in C, resumable at each byte of input and output. It has the names and the behaviour of
   the C text of packbits.wuffs, but that the receiver isn't looked at. */
#include <stddef.h>
#include <stdint.h>
#include <string.h>

typedef struct { uint8_t* ptr; size_t len; size_t wi; size_t ri; uint64_t pos; _Bool closed; } wuffs_base__io_buffer;
typedef struct { uint8_t state; uint8_t byte; uint16_t left; uint64_t written; } wuffs_packbits__unpacker;

enum { START, LITERALS, REPEATED, REPEATS };

const char* wuffs_packbits__unpacker__initialize(wuffs_packbits__unpacker* self) {
  memset(self, 0, sizeof(*self));
  return 0;
}

uint64_t wuffs_packbits__unpacker__count(wuffs_packbits__unpacker* self) {
  return self->written;
}

const char* wuffs_packbits__unpacker__unpack(wuffs_packbits__unpacker* self, wuffs_base__io_buffer* dst, wuffs_base__io_buffer* src) {
  const uint8_t* from = src->ptr + src->ri;
  const uint8_t* from_end = src->ptr + src->wi;
  uint8_t* to = dst->ptr + dst->wi;
  uint8_t* to_end = dst->closed ? to : dst->ptr + dst->len;
  uint8_t state = self->state, byte = self->byte;
  unsigned left = self->left;
  uint64_t written = self->written;
  const char* status = 0;

  for (;;) {
    switch (state) {
      case START:
        if (from == from_end) {
          status = "$base: short read";
          goto out;
        }
        byte = *from++;
        if (byte < 128) {
          left = byte + 1u;
          state = LITERALS;
        } else if (byte > 128) {
          left = 257u - byte;
          state = REPEATED;
        }
        break;
      case LITERALS:
        while (left) {
          if (from == from_end) {
            status = "$base: short read";
            goto out;
          }
          if (to == to_end) {
            status = "$base: short write";
            goto out;
          }
          *to++ = *from++;
          written++;
          left--;
        }
        state = START;
        break;
      case REPEATED:
        if (from == from_end) {
          status = "$base: short read";
          goto out;
        }
        byte = *from++;
        state = REPEATS;
        break;
      case REPEATS:
        while (left) {
          if (to == to_end) {
            status = "$base: short write";
            goto out;
          }
          *to++ = byte;
          written++;
          left--;
        }
        state = START;
        break;
    }
  }

out:
  self->state = state;
  self->byte = byte;
  self->left = (uint16_t)left;
  self->written = written;
  src->ri = (size_t)(from - src->ptr);
  dst->wi = (size_t)(to - dst->ptr);
  return status;
}
