/* Request 9 on the examples: every page of each, by calls from row 0 on, with every scratch length from 39 to 1,000 and with lengths that
   differ from call to call, against the same page in one call. cells.c compares the page in one call with the other calls. */
#include <dirent.h>
#include <stdio.h>
#include <string.h>

#include "host.h"

#define SIZE_LEAST 39
#define SIZE_MOST 1000

typedef struct {
  uint8_t cells[PAGE_LENGTH];
  uint32_t rows, dots;
} page_cells;

/* The calls from row 0 on until 5, place 3. The scratch has the given length, or, if that is 0, another length at each call. */
static bool by_pieces(const order_bytes *order, uint32_t page, size_t size, page_cells *got) {
  got->rows = got->dots = 0;
  for (uint32_t call = 0;; call++) {
    size_t lent = size != 0 ? size : SIZE_LEAST + (call * 397u + page * 61u) % 200;
    uint8_t *scratch = lend_buffer(lent);
    katchidul_cells piece = katchidul_write_page(order->bytes, order->length, page, got->rows, scratch, lent);
    if (piece.number != 0) return cells_refused(&piece, 5, 3) && buffer_kept();
    if (piece.rows == 0 || got->rows + piece.rows > 25 || 39 * (size_t)piece.rows > lent) return false;
    uint8_t *front = got->cells + 39 * got->rows;
    memcpy(front, scratch, 39 * (size_t)piece.rows);
    if (!buffer_holds(front, 39 * (size_t)piece.rows) || piece.dots != dots_in(front, 39 * (size_t)piece.rows)) return false;
    got->rows += piece.rows;
    got->dots += piece.dots;
  }
}

static void one_page(const order_bytes *order, uint32_t page, const char *name) {
  page_cells whole, got;
  katchidul_cells answer = katchidul_write_page(order->bytes, order->length, page, 0, whole.cells, sizeof whole.cells);
  whole.rows = answer.rows;
  uint32_t rows = katchidul_read_order(order->bytes, order->length).rows, left = rows - 25 * (page - 1);
  check(answer.number == 0 && answer.rows == (left < 25 ? left : 25), "a page at once has its rows");
  for (size_t size = SIZE_LEAST - 1; size <= SIZE_MOST; size++) {
    char what[320];
    if (size < SIZE_LEAST) snprintf(what, sizeof what, "%s: page %u by scratches of many lengths", name, page);
    else snprintf(what, sizeof what, "%s: page %u by scratches of %zu bytes", name, page, size);
    bool right = by_pieces(order, page, size < SIZE_LEAST ? 0 : size, &got);
    check(right && got.rows == whole.rows && got.dots == answer.dots && memcmp(got.cells, whole.cells, 39 * (size_t)whole.rows) == 0, what);
  }
}

static bool read_file(const char *folder, const char *name, order_bytes *order) {
  char path[512];
  snprintf(path, sizeof path, "%s/%s", folder, name);
  FILE *file = fopen(path, "rb");
  if (file == NULL) return false;
  order->length = fread(order->bytes, 1, sizeof order->bytes, file);
  return fclose(file) == 0;
}

void check_pieces(const char *folder) {
  DIR *files = opendir(folder);
  uint32_t pages = 0;
  check(files != NULL, "there are examples");
  if (files == NULL) return;
  for (struct dirent *file = readdir(files); file != NULL; file = readdir(files)) {
    const char *end = strrchr(file->d_name, '.');
    order_bytes order;
    if (end == NULL || strcmp(end, ".order") != 0) continue;
    check(read_file(folder, file->d_name, &order), file->d_name);
    katchidul_order read = katchidul_read_order(order.bytes, order.length);
    for (uint32_t page = 1; read.number == 0 && page <= (read.rows + 24) / 25; page++, pages++) one_page(&order, page, file->d_name);
  }
  closedir(files);
  printf("host: %u pages of the examples by pieces\n", pages);
  check(pages > 16, "the examples have pages");
}
