/* Holds the small functions of loafcanyon.h to the sums in its comments. The last line is 'N passed, M failed'. */
#include <loafcanyon.h>

#include <stdio.h>

static unsigned long passed, failed;

static void is(const char *what, uint64_t got, uint64_t due) {
  if (got == due) {
    passed++;
  } else if (failed++ < 20) {
    printf("%s: %llu, where %llu is due\n", what, (unsigned long long)got, (unsigned long long)due);
  }
}

static void one(size_t x, size_t y, bool horizontal, size_t w, uint8_t level, bool first) {
  uint32_t code = loafcanyon_code(x, y, horizontal, w), word = loafcanyon_word(code, level, first);
  is("code", code, 2 * (y * w + x) + (horizontal ? 0 : 1));
  is("word", word, code + level * (1ull << 23) + (first ? 1ull << 31 : 0));
  is("word_code", loafcanyon_word_code(word), code);
  is("word_level", loafcanyon_word_level(word), level);
  is("word_first", loafcanyon_word_first(word), first);
  is("code_horizontal", loafcanyon_code_horizontal(code), horizontal);
  is("code_x", loafcanyon_code_x(code, w), x);
  is("code_y", loafcanyon_code_y(code, w), y);
}

int main(void) {
  const size_t sides[] = {2, 3, 1000, 2047, 2048};
  const uint8_t levels[] = {0, 1, 127, 128, 254};
  for (int i = 0; i < 5; i++)
    for (int j = 0; j < 5; j++)
      for (int k = 0; k < 5; k++)
        for (int flags = 0; flags < 4; flags++) {
          one(0, 0, flags & 1, sides[i], levels[k], flags & 2);
          one(sides[i] - 1, sides[j] - 1, flags & 1, sides[i], levels[k], flags & 2);
          one(sides[i] / 2, sides[j] / 3, flags & 1, sides[i], levels[k], flags & 2);
        }
  for (size_t n = 0; n < 1000; n++) is("file_bytes", loafcanyon_file_bytes(n), 512 * (1 + (n + 126) / 127));
  is("file_bytes", loafcanyon_file_bytes(LOAFCANYON_FILE_WORDS), 512ull * (1 + (16777215 + 126) / 127));
  for (uint32_t parent = 0; parent < 1000; parent++) {
    is("entry_parent", loafcanyon_entry_parent(parent + 1), parent);
    is("entry_parent", loafcanyon_entry_parent(parent + 1 + 0x80000000u), parent);
    is("entry_root", loafcanyon_entry_root(parent + 1) || loafcanyon_entry_root(parent + 1 + 0x80000000u), false);
    is("entry_lower", loafcanyon_entry_lower(parent) ? 1 : loafcanyon_entry_lower(parent + 0x80000000u) ? 2 : 3, 2);
  }
  is("entry_root", loafcanyon_entry_root(0) && loafcanyon_entry_root(0x80000000u), true);
  printf("%lu passed, %lu failed\n", passed, failed);
  return failed != 0;
}
