/* Wylgentip: the proved calls on recogniser tables, for C and for whatever links a static library.
 *
 * Link with crates/wylgentip/out/libwylgentip.a, which `rt lib` in crates/wylgentip writes.
 * Every call takes any bytes and any lengths and returns; the caller checks nothing beforehand.
 * A pointer that is lent with a length must point to that many bytes, or numbers of two bytes, for the time of the call, and
 * slices lent to one call must not overlap; with the length 0 nothing is read or written through it.
 *
 * Refusals. Each has a number and a place:
 *    1  fewer than 3 bytes left for a field's head, or fewer than its length for its body: the file's length
 *    2  the tag isn't the one due: the tag
 *    3  bytes follow field 3: the first of them
 *    4  a length isn't the one required: the length's first byte
 *    5  n, k or n x k outside its range: 3
 *    6  the start is n or more: 7
 *    7  a mark is neither 0 nor 1: the first such mark
 *    8  a next state is n or more: the first byte of the first such
 *    9  a line is to be run and k isn't 47: 0
 *   10  an asked state is n or more: 0 for the first, else 1; a sign of a lent word is k or more: the index of the first such
 *   11  the work slice has fewer than 16 x n numbers: 16 x n
 *   12  a lent result is shorter than the result: the length needed
 *   13  a class or pending list isn't well formed: the least state where it fails
 *
 * Memory. On 1 to 11 and 13 all lent memory stays as it was. On 12 the first 16 x n numbers of the work slice are 0, and nothing else
 * changes. They are 0 after an accepted call too; beyond them, and beyond the end of a result, nothing changes. What lent memory
 * held before the call changes no answer.
 */
#ifndef WYLGENTIP_H
#define WYLGENTIP_H

#include <stddef.h>
#include <stdint.h>

#ifdef __cplusplus
extern "C" {
#endif

/* number 0: the file is accepted, with n states, k signs and the start, and place is 0.
 * Any other number is that of the refusal, and states, signs and start are 0. */
typedef struct {
    size_t number;
    size_t place;
    size_t states;
    size_t signs;
    size_t start;
} wyl_judged;

/* Judges the whole file. Refuses with 1 to 8. Reads the file and writes nothing. */
wyl_judged wyl_judge(const uint8_t *file, size_t length);

/* A part of the lent file: where it starts, counted from the file's first byte, and how many bytes it has. */
typedef struct {
    size_t place;
    size_t length;
} wyl_part;

/* Where the body of field 1, 2 or 3 stands. For a file that is refused, and for any other number, the empty part
 * at the file's start; the refusal itself is had from wyl_judge. Reads the file and writes nothing. */
wyl_part wyl_field(const uint8_t *file, size_t length, size_t number);

/* number 0: run to the end, and kind is the mark of the last state. Any other number is that of the refusal, and kind is 0. */
typedef struct {
    size_t number;
    size_t place;
    size_t kind;
} wyl_ran;

/* Runs a word, one sign a byte, from the start; the empty word gives the start's mark. Judges the whole file.
 * Refuses with 1 to 8, then 10. Reads the file and the word and writes nothing. */
wyl_ran wyl_run_word(const uint8_t *file, size_t length, const uint8_t *word, size_t signs);

/* Runs a line of bytes by the sign plan: 0 to 9 are signs 0 to 9; A to Z and a to z 10 to 35; space 36, + 37, - 38, . 39, / 40, comma 41,
 * : 42, = 43, byte 13 44, byte 10 45; every other byte 46. Judges the whole file. Refuses with 1 to 8, then 9.
 * Reads the file and the line and writes nothing. */
wyl_ran wyl_run_line(const uint8_t *file, size_t length, const uint8_t *line, size_t bytes);

/* number 0: the number of classes and the rounds. Any other number is that of the refusal, and the rest is 0. */
typedef struct {
    size_t number;
    size_t place;
    size_t classes;
    size_t rounds;
} wyl_layered;

/* The classes by layers: the name of each state's class, which is its least state, at the front of classes. Judges the whole
 * file. Refuses with 1 to 8, then 11 (work), then 12 at n (classes). */
wyl_layered wyl_layers(const uint8_t *file, size_t length, uint16_t *work, size_t work_length, uint16_t *classes,
                       size_t classes_length);

/* number 0: apart is 1, and length is that of the shortest word that tells the two states apart, the first in sign order among
 * those; or apart is 0, length is 0, and no word does. Any other number is that of the refusal, and the rest is 0. */
typedef struct {
    size_t number;
    size_t place;
    size_t apart;
    size_t length;
} wyl_told;

/* The word that tells two states apart, one sign a byte, at the front of word; a word has at most n - 2 signs, and two states
 * that are alike need no room. Judges the whole file. Refuses with 1 to 8, then 10 (first, second), then 11 (work), then 12 at
 * the word's length. */
wyl_told wyl_tell(const uint8_t *file, size_t length, size_t first, size_t second, uint16_t *work, size_t work_length,
                  uint8_t *word, size_t word_length);

/* number 0: the lists are fresh. Any other number is that of the refusal. */
typedef struct {
    size_t number;
    size_t place;
} wyl_started;

/* The fresh lists of a splitting, at the front of classes and pending: the classes by marks; where both marks occur the accepting
 * class waits with all signs when it isn't larger than the other, else the other does. Judges the whole file. Refuses with 1 to
 * 8, then 12 at n. */
wyl_started wyl_fresh(const uint8_t *file, size_t length, uint16_t *classes, size_t classes_length, uint16_t *pending,
                      size_t pending_length);

/* number 0: takes made and entries looked at in this call. Any other number is that of the refusal, and the rest is 0. */
typedef struct {
    size_t number;
    size_t place;
    size_t takes;
    size_t entries;
} wyl_taken;

/* Takes on the two lists until the budget is used or nothing waits; a budget above 65,535 counts as 65,535. The lists may come
 * from anywhere: the first n numbers of each must be well formed, that is classes[q] <= q, classes[classes[q]] = classes[q],
 * pending[q] <= k, and pending[q] = 0 unless classes[q] = q. Judges the whole file. Refuses with 1 to 8, then 11 (work), then 12
 * at n, then 13. */
wyl_taken wyl_run(const uint8_t *file, size_t length, size_t budget, uint16_t *classes, size_t classes_length, uint16_t *pending,
                  size_t pending_length, uint16_t *work, size_t work_length);

/* number 0: the rows of the shrunk file and its length in bytes. Any other number is that of the refusal, and the rest is 0. */
typedef struct {
    size_t number;
    size_t place;
    size_t rows;
    size_t length;
} wyl_shrunk;

/* The shrunk file, at the front of out: one row for each class that holds a state reachable from the start, in rising order of the
 * classes' least states; 15 + rows + 2 x rows x k bytes. It accepts exactly the words the given file does, and no file over the
 * same signs with fewer rows does; shrinking it again gives the same bytes. Judges the whole file. Refuses with 1 to 8, then 11
 * (work), then 12 at the length of the shrunk file, which is never longer than the given one. */
wyl_shrunk wyl_shrink(const uint8_t *file, size_t length, uint16_t *work, size_t work_length, uint8_t *out, size_t out_length);

#ifdef __cplusplus
}
#endif

#endif
