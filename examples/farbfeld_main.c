/* Prints the size of a farbfeld image, and how its first pixels look as text: one character a pixel, by its brightness.

     ../wuffsc gen farbfeld farbfeld.wuffs > farbfeld.c && cc -std=c99 -O2 -o farbfeld farbfeld_main.c

   builds it in this folder, and ./farbfeld FILE runs it.
*/
#include "farbfeld.c"

#include <stdio.h>

/* Puts the file's next bytes into the buffer, after those that are unread. Returns 0 where there are none. */
static int fill(wuffs_base__io_buffer* b, FILE* file) {
  size_t got;
  memmove(b->ptr, b->ptr + b->ri, b->wi - b->ri);
  b->pos += b->ri;
  b->wi -= b->ri;
  b->ri = 0;
  got = fread(b->ptr + b->wi, 1, b->len - b->wi, file);
  b->wi += got;
  return got != 0;
}

/* A character for a pixel of red, green, blue and opacity. */
static char shade(const uint8_t* pixel) {
  unsigned light = (pixel[0] + 2u * pixel[1] + pixel[2]) * pixel[3];
  return " .:-=+*#%@"[light / (4u * 255u * 255u / 10u + 1u)];
}

int main(int argc, char** argv) {
  uint8_t bytes[512], pixels[256];
  wuffs_base__io_buffer src = {0}, dst = {0};
  wuffs_farbfeld__decoder decoder;
  const char* status;
  uint32_t width, column = 0;
  size_t at;
  FILE* file;

  if (argc != 2) {
    fprintf(stderr, "usage: farbfeld FILE\n");
    return 2;
  }
  file = fopen(argv[1], "rb");
  if (!file) {
    perror(argv[1]);
    return 1;
  }
  wuffs_farbfeld__decoder__initialize(&decoder);
  src.ptr = bytes;
  src.len = sizeof(bytes);
  dst.ptr = pixels;
  dst.len = sizeof(pixels);
  do {
    status = wuffs_farbfeld__decoder__decode_header(&decoder, &src);
  } while (status && status[0] == '$' && fill(&src, file));
  if (!status) {
    width = wuffs_farbfeld__decoder__width(&decoder);
    printf("%lu x %lu\n", (unsigned long)width, (unsigned long)wuffs_farbfeld__decoder__height(&decoder));
    do {
      status = wuffs_farbfeld__decoder__decode_pixels(&decoder, &dst, &src);
      /* It writes a byte at a time, so the last pixel may be there in part: that part stays in the buffer. */
      for (at = 0; dst.wi - at >= 4; at += 4) {
        putchar(shade(pixels + at));
        column += 1;
        if (column == width) {
          putchar('\n');
          column = 0;
        }
      }
      memmove(pixels, pixels + at, dst.wi - at);
      dst.pos += at;
      dst.wi -= at;
      /* Now there is room in dst. Where src has no more and the file neither, nothing more can come of another call. */
    } while (status && status[0] == '$' && (at || fill(&src, file)));
  }
  /* Where fill got nothing, the file is over or failed. */
  if (ferror(file)) {
    perror(argv[1]);
    fclose(file);
    return 1;
  }
  fclose(file);
  /* However it ended, what was printed so far is good. */
  if (fflush(stdout) || ferror(stdout)) {
    perror("farbfeld");
    return 1;
  }
  if (status) {
    fprintf(stderr, "%s: %s\n", argv[1], status);
    return 1;
  }
  return 0;
}
