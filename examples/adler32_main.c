/* Prints the Adler-32 checksum of a file. The file is read in pieces, and the hasher goes on where each piece ends.

     ../wuffsc gen adler32 adler32.wuffs > adler32.c && cc -std=c99 -O2 -o adler32 adler32_main.c

   builds it in this folder, and ./adler32 FILE runs it.
*/
#include "adler32.c"

#include <stdio.h>

int main(int argc, char** argv) {
  uint8_t bytes[4096];
  wuffs_base__io_buffer src = {0};
  wuffs_adler32__hasher hasher;
  const char* status;
  FILE* file;

  if (argc != 2) {
    fprintf(stderr, "usage: adler32 FILE\n");
    return 2;
  }
  file = fopen(argv[1], "rb");
  if (!file) {
    perror(argv[1]);
    return 1;
  }
  wuffs_adler32__hasher__initialize(&hasher);
  src.ptr = bytes;
  src.len = sizeof(bytes);
  for (;;) {
    status = wuffs_adler32__hasher__update_from(&hasher, &src);
    if (!status || status[0] != '$' || src.closed) {
      break;
    }
    /* It wants more bytes, and has taken all that were there. */
    src.pos += src.ri;
    src.ri = 0;
    src.wi = fread(bytes, 1, sizeof(bytes), file);
    if (src.wi < sizeof(bytes)) {
      if (ferror(file)) {
        perror(argv[1]);
        fclose(file);
        return 1;
      }
      src.closed = 1;
    }
  }
  fclose(file);
  if (status) {
    fprintf(stderr, "%s: %s\n", argv[1], status);
    return 1;
  }
  if (printf("%08lx\n", (unsigned long)wuffs_adler32__hasher__value(&hasher)) < 0 || fflush(stdout)) {
    perror("adler32");
    return 1;
  }
  return 0;
}
