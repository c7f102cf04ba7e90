/* Lists the outlines of a matte, stores them, and asks about the first of them: each call of the library once.
 *
 *   outline LEVEL.. < matte.pgm
 *
 * The matte is a PGM, P5 or P2, up to a maximum of 255; levels are 0 to 254, ascending. */
#include <loafcanyon.h>

#include <stdio.h>
#include <stdlib.h>
#include <string.h>

static void *lend(size_t bytes) {
  void *memory = malloc(bytes > 0 ? bytes : 1); /* never null, even for nothing */
  if (memory == NULL) {
    fprintf(stderr, "outline: no memory\n");
    exit(1);
  }
  return memory;
}

static void done(const char *call, struct loafcanyon_answer answer) {
  if (answer.number != LOAFCANYON_DONE) {
    printf("%s: refused %u, place %zu\n", call, (unsigned)answer.number, answer.place);
    exit(1);
  }
}

int main(int count, char **texts) {
  uint8_t levels[255];
  size_t level_count = 0;
  for (int i = 1; i < count && level_count < 255; i++) levels[level_count++] = (uint8_t)atoi(texts[i]);

  /* The picture. A plain one of the largest size takes a few bytes a sample. */
  size_t most = 2048 * 2048, length;
  uint8_t *pgm = (uint8_t *)lend(8 * most), *scanned = (uint8_t *)lend(most);
  length = fread(pgm, 1, 8 * most, stdin);
  struct loafcanyon_pgm_answer picture = loafcanyon_pgm(pgm, length, scanned, most);
  done("pgm", picture.answer);
  size_t w = picture.width, h = picture.height, n = w * h;
  uint8_t *px = (uint8_t *)lend(n), *work = (uint8_t *)lend(n);

  /* Its border made even, so that every outline closes. */
  done("frame", loafcanyon_frame(w, h, scanned, n, px, n));

  /* Ask with no places, read how many words there are, lend them, call again. */
  uint32_t none = 0;
  struct loafcanyon_answer asked = loafcanyon_list(w, h, px, n, levels, level_count, work, n, &none, 0);
  if (asked.number != LOAFCANYON_WORD_PLACES) done("list", asked);
  size_t m = asked.place;
  uint32_t *words = (uint32_t *)lend(m * sizeof *words), *entries = (uint32_t *)lend(m / 2 * sizeof *entries);
  struct loafcanyon_answer all =
      loafcanyon_tree(w, h, px, n, levels, level_count, work, n, words, m, entries, m / 2);
  done("tree", all);
  printf("%zu words, %zu lines\n", all.words, all.lines);

  /* Every line, and where each of its crossings is. */
  for (size_t line = 0; line < all.lines; line++) {
    struct loafcanyon_part_answer part = loafcanyon_part(words, m, line);
    uint8_t level = loafcanyon_word_level(words[part.start]);
    printf("line %zu, level %d, ", line, level);
    if (loafcanyon_entry_root(entries[line])) printf("in no other");
    else printf("in line %u", (unsigned)loafcanyon_entry_parent(entries[line]));
    printf(", %s:", loafcanyon_entry_lower(entries[line]) ? "lower" : "upper");
    for (size_t i = part.start; i < part.start + part.count; i++) {
      struct loafcanyon_crossing_answer at = loafcanyon_crossing(w, h, px, n, level, loafcanyon_word_code(words[i]));
      done("crossing", at.answer);
      printf(" (%.3f, %.3f)", at.x, at.y);
    }
    printf("\n");
  }

  /* The samples inside line 0, and the curve in the cell above its first crossing. */
  if (all.lines > 0) {
    uint32_t code = loafcanyon_word_code(words[0]);
    size_t inside = 0, x = loafcanyon_code_x(code, w), y = loafcanyon_code_y(code, w);
    for (size_t i = 0; i < n; i++) {
      struct loafcanyon_member_answer is = loafcanyon_member(w, h, words, m, 0, i % w, i / w);
      done("member", is.answer);
      inside += is.inside;
    }
    struct loafcanyon_piece_answer piece =
        loafcanyon_piece(w, h, px, n, loafcanyon_word_level(words[0]), x, y - 1);
    done("piece", piece.answer);
    const char *kinds[] = {"refused", "straight", "corner", "branch"};
    printf("line 0 has %zu samples inside; in the cell (%zu, %zu) it is a %s\n", inside, x, y - 1, kinds[piece.kind]);
  }

  /* Stored, read back, and painted: each sample becomes the number of levels that it is above. */
  size_t bytes = loafcanyon_file_bytes(m);
  uint8_t *file = (uint8_t *)lend(bytes), *painted = (uint8_t *)lend(n);
  uint32_t *again = (uint32_t *)lend(m * sizeof *again);
  done("write", loafcanyon_write(w, h, px[0], levels, level_count, words, m, file, bytes));
  struct loafcanyon_read_answer stored = loafcanyon_read(file, bytes, again, m);
  done("read", stored.answer);
  printf("a file of %zu bytes, read back %s\n", bytes, memcmp(words, again, m * sizeof *words) ? "otherwise" : "alike");
  done("paint", loafcanyon_paint(stored.width, stored.height, (uint8_t)stored.border, stored.levels, stored.count,
                                 again, m, painted, n));
  for (size_t i = 0; i < n; i++) printf("%d%c", painted[i], (i + 1) % w == 0 ? '\n' : ' ');

  free(pgm), free(scanned), free(px), free(work), free(words), free(entries), free(file), free(painted), free(again);
  return 0;
}
