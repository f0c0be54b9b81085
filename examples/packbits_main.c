/* Unpacks a PackBits file to standard output, with a buffer of 4096 bytes on either side.

     ../wuffsc gen packbits packbits.wuffs > packbits.c && cc -std=c99 -O2 -o packbits packbits_main.c

   builds it in this folder, and ./packbits FILE > UNPACKED runs it.
*/
#include "packbits.c"

#include <stdio.h>

/* Moves what is unread to the front, so that the buffer has room at its end. */
static void compact(wuffs_base__io_buffer* b) {
  memmove(b->ptr, b->ptr + b->ri, b->wi - b->ri);
  b->pos += b->ri;
  b->wi -= b->ri;
  b->ri = 0;
}

/* Puts the file's next bytes into the buffer, and closes it at the file's end. */
static int fill(wuffs_base__io_buffer* b, FILE* file) {
  size_t room, got;
  compact(b);
  room = b->len - b->wi;
  got = fread(b->ptr + b->wi, 1, room, file);
  b->wi += got;
  if (got < room) {
    b->closed = 1;
  }
  return !ferror(file);
}

/* Writes all that the buffer has, and leaves it empty. */
static int drain(wuffs_base__io_buffer* b, FILE* file) {
  size_t held = b->wi - b->ri;
  size_t gone = fwrite(b->ptr + b->ri, 1, held, file);
  b->ri += gone;
  compact(b);
  return gone == held;
}

int main(int argc, char** argv) {
  uint8_t packed[4096], unpacked[4096];
  wuffs_base__io_buffer src = {0}, dst = {0};
  wuffs_packbits__unpacker unpacker;
  const char* status;
  FILE* file;
  int works;

  if (argc != 2) {
    fprintf(stderr, "usage: packbits FILE > UNPACKED\n");
    return 2;
  }
  file = fopen(argv[1], "rb");
  if (!file) {
    perror(argv[1]);
    return 1;
  }
  wuffs_packbits__unpacker__initialize(&unpacker);
  src.ptr = packed;
  src.len = sizeof(packed);
  dst.ptr = unpacked;
  dst.len = sizeof(unpacked);
  for (;;) {
    status = wuffs_packbits__unpacker__unpack(&unpacker, &dst, &src);
    if (status && !strcmp(status, "$base: short read") && !src.closed) {
      works = fill(&src, file);
    } else if (status && !strcmp(status, "$base: short write")) {
      works = drain(&dst, stdout);
    } else {
      break;
    }
    if (!works) {
      perror("packbits");
      fclose(file);
      return 1;
    }
  }
  fclose(file);
  /* However it ended, what was unpacked so far is good. */
  if (!drain(&dst, stdout) || fflush(stdout)) {
    perror("packbits");
    return 1;
  }
  /* An error, or "$base: short read" though the file is over. */
  if (status) {
    fprintf(stderr, "%s: %s\n", argv[1], status);
    return 1;
  }
  return 0;
}
