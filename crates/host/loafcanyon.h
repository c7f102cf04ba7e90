/* Loafcanyon: the outlines of a grey matte, for C and C++.
 *
 * Contents
 *   Before you call     linking, memory, threads, stack
 *   Version
 *   Numbers             what a call answers: 0 for done, else why it was refused
 *   Words and entries   taken apart and made
 *   Sizes               what each buffer needs
 *   Answers             the structs
 *   Calls               eleven of them
 *
 * Before you call
 *
 * The library is for Linux on x86-64. It needs memcpy and memset of the C library and nothing else: it allocates nothing, opens nothing,
 * prints nothing and sets no errno. Link it by `pkg-config --cflags --libs loafcanyon` after ./install, or by naming
 * target/staticlib/libhost.a.
 *
 * Memory. A buffer is a pointer and a count of its elements (not bytes). A call reads what is const and may write the rest.
 *   - No pointer may be null, not even for a count of 0: pass the address of anything of that type.
 *   - uint32_t buffers stand at multiples of 4, as malloc and arrays give them; byte buffers may stand anywhere.
 *   - The buffers of one call do not overlap.
 *   - A refused call changes no buffer. A done call fills the first places of a buffer and leaves the rest as they were.
 *   - What a buffer that is written holds beforehand does not matter.
 * For any input that keeps these rules a call ends, without a fault, with the answer that its contract says: bad pictures, levels,
 * words and files are refused by a number.
 *
 * How to lend enough. Ask with a count of 0: the call is refused by 6 (7 for tree places, 15 for a file), and the answer's place is
 * the count that it needs. Lend that many, and call again. Where nothing is needed, the first call is done already.
 *
 * Threads. Calls share nothing and keep nothing, so any number of threads may call at once. Buffers that are only read may be shared;
 * one that a call may write belongs to that call until it returns.
 *
 * Stack. A call takes at most this many bytes of its thread's stack:
 */
#ifndef LOAFCANYON_H
#define LOAFCANYON_H

#define LOAFCANYON_STACK_LIST (144 * 1024)
#define LOAFCANYON_STACK_TREE (48 * 1024)
#define LOAFCANYON_STACK_PAINT (528 * 1024)
#define LOAFCANYON_STACK_FRAME 512
#define LOAFCANYON_STACK_OTHER (8 * 1024) /* every other call */

#include <stddef.h>
#include <stdint.h>
#ifndef __cplusplus
#include <stdbool.h>
#endif

/* Version: of this header and of the library beside it. CHANGES.md says what came with which. */
#define LOAFCANYON_VERSION "0.1.0"
#define LOAFCANYON_VERSION_MAJOR 0
#define LOAFCANYON_VERSION_MINOR 1
#define LOAFCANYON_VERSION_PATCH 0

/* Numbers. Where several apply, the call gives the first in its order, which stands at the call. The place is 0 unless said here. */
enum loafcanyon_number {
  LOAFCANYON_DONE = 0,         /* done */
  LOAFCANYON_SIDES = 1,        /* w or h is not 2 to 2,048 */
  LOAFCANYON_SAMPLES = 2,      /* the samples are not w*h, but more or fewer */
  LOAFCANYON_LEVELS = 3,       /* a level is 255, or the levels do not ascend, each above the one before */
  LOAFCANYON_BORDER_TOP = 4,   /* the border samples are not all of one value, and the first of them, row by row, that differs from
                                  sample 0 is in the top row; place: its index, which is at x = place % w and y = place / w. Of 4 and
                                  17 to 19 the one for its edge is given. loafcanyon_frame makes the border one value */
  LOAFCANYON_WORK = 5,         /* fewer than w*h work bytes */
  LOAFCANYON_WORD_PLACES = 6,  /* too few word places; place: how many are needed */
  LOAFCANYON_TREE_PLACES = 7,  /* too few tree places; place: how many are needed */
  LOAFCANYON_WORD = 8,         /* a code names no edgel of this size, or a word's level is not listed; place: the first such word,
                                  0 for a single code */
  LOAFCANYON_ROOM = 9,         /* room for fewer than w*h samples */
  LOAFCANYON_NOT_CROSSED = 10, /* the level does not cross that edgel; for a piece, no edgel of that cell */
  LOAFCANYON_NOT_THERE = 11,   /* there is no such line, sample or cell */
  LOAFCANYON_LENGTH = 12,      /* the file is empty, or not a multiple of 512 bytes */
  LOAFCANYON_CHECK = 13,       /* a block of the file is damaged; place: the first such block, from 0 */
  LOAFCANYON_LAYOUT = 14,      /* the blocks are whole, and do not make an outline file */
  LOAFCANYON_FILE_ROOM = 15,   /* too little room for the file; place: how many bytes are needed */
  LOAFCANYON_TOO_MANY = 16,    /* more than 16,777,215 words, which is the most that a file holds */
  LOAFCANYON_BORDER_BOTTOM = 17, /* as 4, but in the bottom row; a corner counts as its row */
  LOAFCANYON_BORDER_LEFT = 18,   /* as 4, but in the left column */
  LOAFCANYON_BORDER_RIGHT = 19,  /* as 4, but in the right column */
  LOAFCANYON_HEADER = 22,      /* a PGM's header is not of the form, or its maximum is not 1 to 255; place: the byte at which it gave up:
                                  the first of an unfit maximum, else the first wrong one, or the length where the file ends early */
  LOAFCANYON_ABOVE = 23,       /* a sample of a PGM is above its maximum; place: the sample's first byte */
  LOAFCANYON_MISSING = 24      /* a PGM has no further sample; place: the byte that is none, or the length where the file ends early */
};

#define LOAFCANYON_FILE_WORDS 16777215 /* the most words in one file */

/* Words and entries
 *
 * An edgel joins two neighbouring samples; (x, y) is its left or top end. Its code is 2*(y*w + x), plus 1 if it is vertical.
 * A word is a crossing: code + level * 2^23, plus 2^31 on the first word of a line.
 * A tree entry is 0 for a line in no other, else the number of the line around it, plus 1; plus 2^31 if the line is of the lower kind.
 * The samples beside a line and inside it are above its level if it is upper, and not if it is lower, as a hole is.
 * In these functions w is the width that the code was made with, and is not 0.
 */
static inline uint32_t loafcanyon_word_code(uint32_t word) { return word & 0x7fffffu; }
static inline uint8_t loafcanyon_word_level(uint32_t word) { return (uint8_t)(word >> 23 & 0xffu); }
static inline bool loafcanyon_word_first(uint32_t word) { return word >> 31 != 0; }
static inline bool loafcanyon_code_horizontal(uint32_t code) { return code % 2 == 0; }
static inline size_t loafcanyon_code_x(uint32_t code, size_t w) { return code / 2 % w; }
static inline size_t loafcanyon_code_y(uint32_t code, size_t w) { return code / 2 / w; }

static inline uint32_t loafcanyon_code(size_t x, size_t y, bool horizontal, size_t w) {
  return (uint32_t)(2 * (y * w + x)) + (horizontal ? 0u : 1u);
}

static inline uint32_t loafcanyon_word(uint32_t code, uint8_t level, bool first) {
  return code | (uint32_t)level << 23 | (first ? 0x80000000u : 0u);
}

static inline bool loafcanyon_entry_root(uint32_t entry) { return (entry & 0x7fffffffu) == 0; }
static inline bool loafcanyon_entry_lower(uint32_t entry) { return entry >> 31 != 0; }
/* The number of the line around it; only for an entry that is no root. */
static inline uint32_t loafcanyon_entry_parent(uint32_t entry) { return (entry & 0x7fffffffu) - 1; }

/* Sizes
 *
 *   px      exactly w*h samples, row by row
 *   levels  0 to 255 of them, each 0 to 254, ascending; level k is the height k + 1/2
 *   work    w*h bytes at least
 *   room    w*h bytes at least, for loafcanyon_pgm as the header of the file says: 2,048*2,048 are always enough
 *   words   as many places as the answer's place says when they are too few
 *   places  half of all horizontal crossings, of all levels, although only one a line is written; the answer's place says how
 *           many, and half as many as there are words is always enough
 *   file    512*(1 + words/127, rounded up) bytes at least
 */
static inline size_t loafcanyon_file_bytes(size_t words) { return 512 * (1 + (words / 127 + (words % 127 != 0))); }

/* Answers. Refused, every number but `number` and `place` is 0, and `inside` is false. */

/* number: one of enum loafcanyon_number. place: 0, or what that number says. words, lines: how many words were handed over, and how
 * many lines they make, for list, tree and read; 0 for every other call. */
struct loafcanyon_answer {
  uint32_t number;
  size_t place;
  size_t words;
  size_t lines;
};

/* heading: 0 to 3 for S, E, N, W, the way that keeps high ground at the left hand. The crossing lies num/den of the way from the
 * edgel's left or top end, in lowest terms; x and y are where that is. */
struct loafcanyon_crossing_answer {
  struct loafcanyon_answer answer;
  uint32_t heading;
  uint32_t num;
  uint32_t den;
  double x;
  double y;
};

/* kind: one of enum loafcanyon_kind. Coordinates are relative to the cell's top left sample. What a kind does not have is 0. */
struct loafcanyon_piece_answer {
  struct loafcanyon_answer answer;
  uint32_t kind;
  double xs;
  double ys;
  double delta;
};

enum loafcanyon_kind {
  LOAFCANYON_REFUSED = 0,
  LOAFCANYON_STRAIGHT = 1, /* a straight piece */
  LOAFCANYON_CORNER = 2,   /* the lines x = xs and y = ys, which meet in the cell */
  LOAFCANYON_BRANCH = 3    /* on the curve (x - xs)*(y - ys) = delta */
};

struct loafcanyon_member_answer {
  struct loafcanyon_answer answer;
  bool inside;
};

/* The line is words[start] to words[start + count - 1]. There is no such line: start and count are 0. */
struct loafcanyon_part_answer {
  size_t start;
  size_t count;
};

/* levels: the first `count` of them, zeros after that. */
struct loafcanyon_read_answer {
  struct loafcanyon_answer answer;
  uint32_t width;
  uint32_t height;
  uint32_t border;
  uint32_t count;
  uint8_t levels[255];
};

/* The sides, and the maximum that the file says: samples are 0 to that, and stay as they are in the file. */
struct loafcanyon_pgm_answer {
  struct loafcanyon_answer answer;
  uint32_t width;
  uint32_t height;
  uint32_t maximum;
};

/* Calls. `Refuses` gives the order of the numbers. */
#ifdef __cplusplus
extern "C" {
#endif

/* Copies the picture and sets its border samples to their lower median, the smaller of the middle two.
 * Refuses 1 2 9. Room beyond w*h is left. */
struct loafcanyon_answer loafcanyon_frame(size_t w, size_t h, const uint8_t *px, size_t px_count, uint8_t *room,
                                          size_t room_count);

/* Lists every outline at the levels: levels in order, lines by their first word, each line from there all the way round.
 * Refuses 1 2 3 4 17 18 19 5 6. Done, the first w*h work bytes are 0. */
struct loafcanyon_answer loafcanyon_list(size_t w, size_t h, const uint8_t *px, size_t px_count,
                                         const uint8_t *levels, size_t level_count, uint8_t *work, size_t work_count,
                                         uint32_t *words, size_t word_count);

/* As loafcanyon_list, and writes the tree entry of each line, in the order of the lines, to places.
 * Refuses 1 2 3 4 17 18 19 5 6 7. It needs half of all horizontal crossings as places, although it writes one a line. 7 is given
 * only once there are enough word places, so its place is known after a second call; or lend half as many places as words, which is
 * enough. */
struct loafcanyon_answer loafcanyon_tree(size_t w, size_t h, const uint8_t *px, size_t px_count,
                                         const uint8_t *levels, size_t level_count, uint8_t *work, size_t work_count,
                                         uint32_t *words, size_t word_count, uint32_t *places, size_t place_count);

/* Where the level crosses one edgel. The border need not be of one value.
 * Refuses 1 2 3 8 10. */
struct loafcanyon_crossing_answer loafcanyon_crossing(size_t w, size_t h, const uint8_t *px, size_t px_count,
                                                      uint8_t level, uint32_t code);

/* The curve of the level in the cell whose top left sample is (x, y). The border need not be of one value.
 * Refuses 1 2 3 11 10. */
struct loafcanyon_piece_answer loafcanyon_piece(size_t w, size_t h, const uint8_t *px, size_t px_count, uint8_t level,
                                                size_t x, size_t y);

/* Line n of a word list, from 0: from its first word, which is flagged, up to the next such word or the end. Never refused. */
struct loafcanyon_part_answer loafcanyon_part(const uint32_t *words, size_t word_count, size_t n);

/* Whether the sample (x, y) is inside line n of a word list.
 * Refuses 1 8 11; 8 is for codes alone, of any word of the list. */
struct loafcanyon_member_answer loafcanyon_member(size_t w, size_t h, const uint32_t *words, size_t word_count,
                                                  size_t n, size_t x, size_t y);

/* Paints words back to a picture: for each sample, how many of the levels it is above. border is the value of the border samples of the
 * picture that was listed.
 * Refuses 1 3 8 9. Room beyond w*h is left. */
struct loafcanyon_answer loafcanyon_paint(size_t w, size_t h, uint8_t border, const uint8_t *levels,
                                          size_t level_count, const uint32_t *words, size_t word_count, uint8_t *room,
                                          size_t room_count);

/* Writes the outline file of a word list, loafcanyon_file_bytes(word_count) bytes.
 * Refuses 1 3 16 8 15. Room beyond the file is left. */
struct loafcanyon_answer loafcanyon_write(size_t w, size_t h, uint8_t border, const uint8_t *levels,
                                          size_t level_count, const uint32_t *words, size_t word_count, uint8_t *file,
                                          size_t file_count);

/* Reads an outline file of file_count bytes. What it takes is exactly what loafcanyon_write writes.
 * Refuses 12 13 14 8 6. */
struct loafcanyon_read_answer loafcanyon_read(const uint8_t *file, size_t file_count, uint32_t *words,
                                              size_t word_count);

/* Reads a PGM of file_count bytes, P5 or P2, with a maximum of 1 to 255: width*height samples go to room as they are, not scaled. Any
 * white space and comments may stand between the fields of the header; one white space byte stands after the maximum. Bytes after the
 * last sample are not read.
 * Refuses 22 1 9 23 24; of 23 and 24 the one that comes first in the file. Room beyond width*height is left. */
struct loafcanyon_pgm_answer loafcanyon_pgm(const uint8_t *file, size_t file_count, uint8_t *room, size_t room_count);

#ifdef __cplusplus
}
#endif

#endif
