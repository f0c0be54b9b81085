/* LZW as somebody would write it by hand in C, resumable at each byte of input and output. It has the names and the behaviour of the C
   text of lzw.wuffs, but that the receiver isn't looked at. */
#include <stddef.h>
#include <stdint.h>
#include <string.h>

typedef struct { uint8_t* ptr; size_t len; size_t wi; size_t ri; uint64_t pos; _Bool closed; } wuffs_base__io_buffer;
typedef struct {
  uint32_t bits;
  uint32_t n_bits;
  uint32_t width;
  uint32_t next;
  uint32_t prev;
  uint32_t top;
  uint8_t first;
  uint8_t begun;
  uint16_t prefix[4096];
  uint8_t suffix[4096];
  uint8_t stack[4096];
} wuffs_lzw__lzw;

const char* wuffs_lzw__lzw__initialize(wuffs_lzw__lzw* self) {
  memset(self, 0, sizeof(*self));
  return 0;
}

const char* wuffs_lzw__lzw__decode(wuffs_lzw__lzw* self, wuffs_base__io_buffer* dst, wuffs_base__io_buffer* src) {
  const uint8_t* from = src->ptr + src->ri;
  const uint8_t* from_end = src->ptr + src->wi;
  uint8_t* to = dst->ptr + dst->wi;
  uint8_t* to_end = dst->closed ? to : dst->ptr + dst->len;
  uint32_t bits = self->bits, n_bits = self->n_bits, width = self->width, next = self->next, prev = self->prev, top = self->top;
  uint32_t code, c;
  uint8_t first = self->first;
  const char* status = 0;

  if (!self->begun) {
    self->begun = 1;
    width = 9;
    next = 258;
    prev = 4096;
    top = 4096;
  }
  for (;;) {
    while (top < 4096) {
      if (to == to_end) {
        status = "$base: short write";
        goto out;
      }
      *to++ = self->stack[top++];
    }
    while (n_bits < width) {
      if (from == from_end) {
        status = "$base: short read";
        goto out;
      }
      bits |= (uint32_t)*from++ << n_bits;
      n_bits += 8;
    }
    code = bits & ((1u << width) - 1);
    bits >>= width;
    n_bits -= width;
    if (code == 256) {
      width = 9;
      next = 258;
      prev = 4096;
      continue;
    }
    if (code == 257) {
      goto out;
    }
    c = code;
    if (code >= next) {
      if (code > next || prev == 4096) {
        status = "#lzw: bad code";
        goto out;
      }
      self->stack[--top] = first;
      c = prev;
    }
    while (c >= 256) {
      if (top == 1) {
        status = "#lzw: bad code";
        goto out;
      }
      self->stack[--top] = self->suffix[c];
      c = self->prefix[c];
    }
    first = (uint8_t)c;
    self->stack[--top] = first;
    if (prev < 4096 && next < 4096) {
      self->prefix[next] = (uint16_t)prev;
      self->suffix[next] = first;
      next++;
      if (next == 1u << width && width < 12) {
        width++;
      }
    }
    prev = code;
  }

out:
  self->bits = bits;
  self->n_bits = n_bits;
  self->width = width;
  self->next = next;
  self->prev = prev;
  self->top = top;
  self->first = first;
  src->ri = (size_t)(from - src->ptr);
  dst->wi = (size_t)(to - dst->ptr);
  return status;
}
