/* Two filters of PNG as somebody would write them by hand in C. It has the names and the behaviour of the C text of rows.wuffs, but that
   the receiver isn't looked at. */
#include <stddef.h>
#include <stdint.h>
#include <string.h>

typedef struct { uint8_t unused; } wuffs_rows__rows;

const char* wuffs_rows__rows__initialize(wuffs_rows__rows* self) {
  memset(self, 0, sizeof(*self));
  return 0;
}

uint64_t wuffs_rows__rows__up(wuffs_rows__rows* self, uint8_t* row, size_t row_length, uint8_t* above, size_t above_length) {
  size_t n = row_length < above_length ? row_length : above_length;
  size_t i;
  (void)self;
  for (i = 0; i < n; i++) {
    row[i] = (uint8_t)(row[i] + above[i]);
  }
  return n;
}

uint64_t wuffs_rows__rows__average(wuffs_rows__rows* self, uint8_t* row, size_t row_length, uint8_t* above, size_t above_length, uint64_t step) {
  size_t n = row_length < above_length ? row_length : above_length;
  size_t i;
  (void)self;
  for (i = 0; i < n && i < step; i++) {
    row[i] = (uint8_t)(row[i] + (above[i] >> 1));
  }
  for (; i < n; i++) {
    row[i] = (uint8_t)(row[i] + ((row[i - step] + above[i]) >> 1));
  }
  return n;
}
