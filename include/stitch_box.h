/* The stitch box for C: six embroidery formats (PES, PEC, DST, EXP, JEF, VP3), written and read; job files, imported and exported.
 *
 * The archive is crates/stitch_box_c/out/libstitch_box_c.a, made by `rt lib` in crates/stitch_box_c, for x86-64 Linux. It takes memcpy and
 * memset from the C library and nothing else, uses no heap and keeps nothing between calls. Each slice is a pointer and a length, counted
 * in elements.
 * Slices and numbers that are written must not overlap any other. A slice of length 0 still needs a pointer that is not null; the data() of
 * an empty C++ vector may be null, so pass `v.empty() ? &spare : v.data()` with some `spare` of the element type.
 *
 * Stack: stitch_box_write_cmds takes under 1 MiB; stitch_box_write under 512 KiB in PES and PEC, however short the list, and under 8 KiB in
 * the other formats; the other functions under 8 KiB.
 *
 * Units: places are whole tenths of a millimetre; x points right and y points down. An extension is "pes", "pec", "dst", "exp", "jef" or
 * "vp3", in letters of either case, without a dot and without a final zero. */
#ifndef STITCH_BOX_H
#define STITCH_BOX_H

#include <stddef.h>
#include <stdint.h>

#ifdef __cplusplus
extern "C" {
#endif

/* Raised with each change of the interface or of what the functions answer; CHANGELOG.md has what changed. */
#define STITCH_BOX_VERSION "0.7.0"

/* What a function answers: 0, or the number of a refusal. A number comes if its condition holds and that of none before it in the order of
 * checking. Reading checks 1, 2, 3, 4, 5, 11, the count byte (4) after 5; in a VP3 4 and 12 come after 3, in order of place in the file.
 * Writing checks 1, 6, 7, 8, 9, 10, 11, each over the whole list. Importing a job checks 2, then 13 and 14 in order of place in the job,
 * then 6, 7, 8, 9, 11; exporting one checks 14 (the name), 6, 7, 8, 9, 11. A refused call changes no element of any slice; the numbers
 * that it is given references to become 0. */
enum {
    STITCH_BOX_DONE = 0,
    STITCH_BOX_UNKNOWN_EXTENSION = 1, /* The extension is none of the six. */
    STITCH_BOX_FILE_TOO_LONG = 2,     /* The file or job has more than 2,097,152 bytes. */
    STITCH_BOX_BAD_OPENING = 3,       /* A PES does not begin #PES, or a VP3 does not begin %vsm% and a zero byte. */
    STITCH_BOX_FILE_TOO_SHORT = 4,    /* PES under 12 bytes, DST under 512, JEF under 4, a PEC part without its count byte, or a VP3 part
                                         that ends before or inside a fixed field ahead of stitches. */
    STITCH_BOX_START_BELOW_ZERO = 5,  /* A PES file says that its PEC part starts below 0. */
    STITCH_BOX_BAD_LIST = 6,          /* Empty, over 65,535 commands, slices of unequal length, a kind over 4, or the end missing, early or
                                         repeated. */
    STITCH_BOX_PLACE_OUTSIDE = 7,     /* A place is outside -16,000 to 16,000. */
    STITCH_BOX_TOO_MANY = 8,          /* More than 254 colour changes or 255 threads, or thread bytes not a multiple of three. */
    STITCH_BOX_MOVED = 9,             /* A trim, colour change or end is not where the command before was ((0, 0) if it is the first). */
    STITCH_BOX_STEP_TOO_LONG = 10,    /* A step is past the limit of the format. */
    STITCH_BOX_BUFFER_TOO_SHORT = 11, /* A slice to be written is shorter than the answer. */
    STITCH_BOX_OUT_OF_RANGE = 12,     /* A VP3 length passes its enclosing part, or a place or block start is beyond 32 signed bits. */
    STITCH_BOX_BAD_TAG = 13,          /* An unknown tag or kind in a job, a tag out of order, or no name. */
    STITCH_BOX_BAD_LENGTH = 14        /* A job's field passes the end, or its length is not at most 64 (name), 3 (thread) or a multiple of 5
                                         (commands); a name over 64 bytes. */
};

/* Kinds of commands. The last command, and only that, is an end. A command's place is absolute. A step is the change of place on one axis
 * from the command before, the first from (0, 0). Its limits: DST -121 to 121, EXP and JEF -127 to 127, PES and PEC -2,048 to 2,047; VP3
 * has none beyond the range of places. */
enum {
    STITCH_BOX_STITCH = 0,
    STITCH_BOX_JUMP = 1, /* Leaves no mark in VP3: the stitch after it leads from the stitch before. */
    STITCH_BOX_TRIM = 2, /* Leaves no mark in PES, PEC and JEF; three jumps in DST that end where they began; 80 03 in VP3. */
    STITCH_BOX_COLOR_CHANGE = 3,
    STITCH_BOX_END = 4
};

/* A command as one record of 12 bytes. */
struct stitch_box_cmd {
    int32_t x;
    int32_t y;
    uint8_t kind;
};

/* Writes a list to the front of out, the file's length to *length and how far off its threads are to *distance; the bytes behind the file
 * stay.
 *
 * xs, ys and kinds have one element a command. Threads are three bytes each (red, green, blue), one for each colour block in order. What
 * is stored of a colour is the entry of a chart: in PES and PEC the nearest of 64 that no other thread has yet, in JEF the nearest of 78,
 * but not that of a different thread just before. VP3 stores the colours as they are, black for a block without a thread. DST and EXP
 * store no colours. Of the name PES and PEC keep 8 bytes and DST 16, after bytes from 128 up (in DST also control characters) are dropped;
 * EXP, JEF and VP3 store none.
 *
 * *distance is the largest distance between a thread and the chart's own colour of the entry stored for it: in PES and PEC the entry in the
 * PEC part (the codes of PES sections do not count), in JEF that in the thread table. It is 0 where each thread is its entry's colour or
 * there are no threads, in DST, EXP and VP3, and under a refusal; else it is greater, at most 584,970, the distance of black and white.
 * With the differences r, g and b of two colours and the mean m of their reds (a half goes to the even number) the distance is
 * (512 + m) r r / 256 + 4 g g + (767 - m) b b / 256, each quotient rounded down. */
uint32_t stitch_box_write(
    const uint8_t *ext, size_t ext_length,
    const uint8_t *name, size_t name_length,
    const int32_t *xs, size_t xs_length,
    const int32_t *ys, size_t ys_length,
    const uint8_t *kinds, size_t kinds_length,
    const uint8_t *threads, size_t threads_length,
    uint8_t *out, size_t out_length,
    uint64_t *length, uint32_t *distance);

/* stitch_box_write of a list of records. */
uint32_t stitch_box_write_cmds(
    const uint8_t *ext, size_t ext_length,
    const uint8_t *name, size_t name_length,
    const struct stitch_box_cmd *cmds, size_t cmds_length,
    const uint8_t *threads, size_t threads_length,
    uint8_t *out, size_t out_length,
    uint64_t *length, uint32_t *distance);

/* A length of out that always suffices: no list of so many commands and threads that is accepted has a longer file. With an unknown
 * extension the answer is 0. Commands past 65,535 and threads past 255, which are refused, do not raise it. For n commands and t threads:
 * PES 1,094 + 26 n + 228 min(n, 254), PEC 992 + 6 n + 228 min(n, 254), DST 512 + 9 n, EXP 4 n, JEF 124 + 4 n + 8 t,
 * VP3 283 + 8 n + 57 min(n, 254). */
size_t stitch_box_write_bound(const uint8_t *ext, size_t ext_length, size_t commands, size_t threads);

/* No file of any list is longer: the greatest answer of stitch_box_write_bound. */
#define STITCH_BOX_WRITE_BOUND 1762916

/* Elements of places, runs and blocks that always suffice to read a file of n bytes. */
#define STITCH_BOX_PLACES_FOR(n) ((n) + 2)
#define STITCH_BOX_RUNS_FOR(n) ((n) / 2)
#define STITCH_BOX_BLOCKS_FOR(n) (3 * (n) / 2)

/* Reads a file to the fronts of places, runs and blocks; the elements behind stay.
 *
 * A run is a row of points sewn without a jump or colour change (in EXP and VP3 also a trim) between them. Its first point is where the
 * thread starts: the place that the first stitch leaves, and no stitch itself; the other points are the needle places. VP3 drops jumps, so
 * there the place left is that of the stitch before, or the block's start; the needle places are those of the list.
 *
 * A block is what is sewn in one colour: a colour change opens the next, and blocks are numbered from 0. Blocks without runs are left out.
 * Cuts are how often the thread is cut within a colour: runs less blocks listed. A DST machine cuts only after three or more jump records
 * in a row between two stitches of one block, so in DST the cuts are the number of such rows, however long; a colour change ends a row.
 *
 * places: x and y of each point, run after run. runs: the points of each run. blocks: three numbers each, the block's number, its colour
 * (65,536 red + 256 green + blue) and its runs. The four counts are points, runs, blocks listed and cuts. Filled are two elements of places
 * for each point, one of runs for each run and three of blocks for each block.
 *
 * A block's colour is the one stored for it in the file (PES, PEC and JEF: a chart entry; VP3: the colour itself; DST: a TC: line of the
 * header, which stitch_box_write does not write), or else one of eight default shades, by its number modulo 8. */
uint32_t stitch_box_read(
    const uint8_t *ext, size_t ext_length,
    const uint8_t *file, size_t file_length,
    int32_t *places, size_t places_length,
    uint32_t *runs, size_t runs_length,
    uint32_t *blocks, size_t blocks_length,
    uint32_t *point_count, uint32_t *run_count, uint32_t *block_count, uint32_t *cut_count);

/* Where a file's label stands: *length bytes of the file from *start on. The label of EXP, JEF and VP3 is empty. The call meets every
 * refusal of reading but 11. */
uint32_t stitch_box_label(
    const uint8_t *ext, size_t ext_length,
    const uint8_t *file, size_t file_length,
    uint64_t *start, uint64_t *length);

/* Whether a file fits a hoop. *answer is 1 (yes) if every point of every run, its first too, has x from left to right and y from top to
 * bottom, edges included, and 0 (no) otherwise. A file without runs is a yes. If left is past right or top past bottom, the answer is no
 * unless there are no runs. The edges are tenths of a millimetre as the places are; y points down, so top is the lesser number.
 *
 * The call meets every refusal of reading but 11, and its answer equals the one worked out from stitch_box_read with enough space. It needs
 * no slices to be written. */
uint32_t stitch_box_fits(
    const uint8_t *ext, size_t ext_length,
    const uint8_t *file, size_t file_length,
    int32_t left, int32_t right, int32_t top, int32_t bottom,
    uint32_t *answer);

/* A job hands over a name, threads and a list of commands. It is a row of fields: a tag byte, a two-byte length, low byte first, and the
 * content. Tag 1 is the name, once and first, of at most 64 bytes; tag 2 a thread, three bytes; tag 3 commands of five bytes: the kind,
 * then x and y as signed 16-bit numbers, low byte first. Threads come before commands; the commands of several fields are one list. */

/* Elements of xs, ys and kinds, and of threads, that always suffice to import a job of n bytes. */
#define STITCH_BOX_JOB_COMMANDS_FOR(n) ((n) / 5)
#define STITCH_BOX_JOB_THREADS_FOR(n) ((n) / 2)

/* Imports a job to the fronts of xs, ys, kinds (one element a command) and threads (three a thread); the elements behind stay. The list is
 * then one that stitch_box_write takes but for its steps, which are not checked here (10). *command_count is the number of commands,
 * *thread_bytes that of the bytes of threads. */
uint32_t stitch_box_import_job(
    const uint8_t *job, size_t job_length,
    int32_t *xs, size_t xs_length,
    int32_t *ys, size_t ys_length,
    uint8_t *kinds, size_t kinds_length,
    uint8_t *threads, size_t threads_length,
    uint32_t *command_count, uint32_t *thread_bytes);

/* Where a job's name stands: *length bytes of the job from *start on, which is 3. The call meets every refusal of importing but 11; both
 * are 0 then. */
uint32_t stitch_box_job_name(const uint8_t *job, size_t job_length, uint64_t *start, uint64_t *length);

/* Exports a list, its threads and a name as a job to the front of out, 1,000 commands to a field, and the job's length to *length; the
 * bytes behind it stay. For a name of m bytes, n commands and t threads the length is 3 + m + 6 t + 5 n + 3 ((n + 999) / 1000). Imported,
 * it gives the same name, threads and list. */
uint32_t stitch_box_export_job(
    const uint8_t *name, size_t name_length,
    const int32_t *xs, size_t xs_length,
    const int32_t *ys, size_t ys_length,
    const uint8_t *kinds, size_t kinds_length,
    const uint8_t *threads, size_t threads_length,
    uint8_t *out, size_t out_length,
    uint64_t *length);

/* No job that is exported is longer. */
#define STITCH_BOX_JOB_BOUND 329470

#ifdef __cplusplus
}
#endif

#endif
