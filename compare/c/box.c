/* Writes a square in each format by both writes, reads it back, asks for its label and prints what came back; then sees to it that refused
 * calls answer their number and change no buffer, that writes tell how far off threads are, which hoops the square fits, and that the cuts
 * of a DST are counted by rows of jumps. Exports the square as a job and imports it. Valid C99 and C++. The status is 1 if anything is
 * wrong. */
#include "../../include/stitch_box.h"
#include <stdio.h>
#include <string.h>

/* A record is 12 bytes with x at 0, y at 4 and kind at 8; else one of these lengths is negative. */
typedef char record_has_12_bytes[sizeof(struct stitch_box_cmd) == 12 ? 1 : -1];
typedef char x_is_at_0[offsetof(struct stitch_box_cmd, x) == 0 ? 1 : -1];
typedef char y_is_at_4[offsetof(struct stitch_box_cmd, y) == 4 ? 1 : -1];
typedef char kind_is_at_8[offsetof(struct stitch_box_cmd, kind) == 8 ? 1 : -1];

/* Buffers have ROOM elements, of which a call gets a part, and their bytes are set to MARK before each call. */
enum { COMMANDS = 6, TOO_MANY = 65536, ROOM = 4096, MARK = 0xA5 };

/* The square's job: three bytes before the name, before the thread and before the commands, of five bytes each. */
enum { JOB_BYTES = 3 + 6 + 3 + 3 + 3 + 5 * COMMANDS };

static const char *const exts[] = {"pes", "pec", "dst", "exp", "jef", "vp3"};
static const char name[] = "square";
static const uint8_t threads[] = {200, 40, 40};

/* The square as slices and as records. */
static const int32_t xs[COMMANDS] = {10, 60, 60, 10, 10, 10};
static const int32_t ys[COMMANDS] = {10, 10, 60, 60, 10, 10};
static const uint8_t kinds[COMMANDS] = {
    STITCH_BOX_JUMP, STITCH_BOX_STITCH, STITCH_BOX_STITCH, STITCH_BOX_STITCH, STITCH_BOX_STITCH, STITCH_BOX_END,
};
static const struct stitch_box_cmd square[COMMANDS] = {
    {10, 10, STITCH_BOX_JUMP},   {60, 10, STITCH_BOX_STITCH}, {60, 60, STITCH_BOX_STITCH},
    {10, 60, STITCH_BOX_STITCH}, {10, 10, STITCH_BOX_STITCH}, {10, 10, STITCH_BOX_END},
};

/* Threads, and how far off they are in PES and PEC and in JEF. Black is in both charts; of two threads the second goes without it. */
static const struct {
    uint8_t bytes[6];
    size_t length;
    uint32_t pec, jef;
} shades[] = {
    {{0}, 0, 0, 0},                      /* none */
    {{0, 0, 0}, 3, 0, 0},                /* black */
    {{200, 40, 40}, 3, 5232, 2565},      /* the square's: (237, 23, 31) and (227, 49, 31) */
    {{0, 0, 0, 1, 1, 1}, 6, 4802, 9331}, /* black and then (42, 19, 1), in JEF (51, 32, 10) */
};

/* Stitches on the spot and an end: one more than may be. */
static struct stitch_box_cmd many[TOO_MANY];

static uint8_t file[ROOM], out[ROOM];
static uint32_t distance;
static int32_t places[ROOM];
static uint32_t runs[ROOM], blocks[ROOM];
static uint32_t point_count, run_count, block_count, cut_count;
static uint32_t answer;
static int32_t job_xs[ROOM], job_ys[ROOM];
static uint8_t job_kinds[ROOM], job_threads[ROOM];
static uint32_t command_count, thread_bytes;
static int wrong;

/* Says what is wrong, unless it is right. */
static int see(int right, const char *ext, const char *what)
{
    if (!right) {
        printf("%s: wrong: %s\n", ext, what);
        wrong = 1;
    }
    return right;
}

static const uint8_t *bytes(const char *text)
{
    return (const uint8_t *)text;
}

/* Whether the bytes of a buffer are marked from this one on. */
static int marked(const void *buffer, size_t from, size_t size)
{
    const uint8_t *cells = (const uint8_t *)buffer;
    while (from < size && cells[from] == MARK)
        from++;
    return from >= size;
}

/* Bytes that suffice for the square. */
static size_t bound(const char *ext)
{
    return stitch_box_write_bound(bytes(ext), strlen(ext), COMMANDS, 1);
}

/* Writes the square by its slices, to so many bytes. */
static uint32_t write_slices(const char *ext, size_t room, uint64_t *length)
{
    memset(out, MARK, sizeof out);
    *length = distance = 7;
    return stitch_box_write(bytes(ext), strlen(ext), bytes(name), strlen(name), xs, COMMANDS, ys, COMMANDS, kinds, COMMANDS,
                            threads, sizeof threads, out, room, length, &distance);
}

/* Writes so many records, to so many bytes. */
static uint32_t write_records(const char *ext, const struct stitch_box_cmd *cmds, size_t count, size_t room, uint64_t *length)
{
    memset(out, MARK, sizeof out);
    *length = distance = 7;
    return stitch_box_write_cmds(bytes(ext), strlen(ext), bytes(name), strlen(name), cmds, count, threads, sizeof threads,
                                 out, room, length, &distance);
}

/* Whether a write or an export answers this number, changes nothing and tells a length of 0. */
static int unchanged(uint32_t number, uint32_t wanted, const uint64_t *length)
{
    return number == wanted && *length == 0 && marked(out, 0, sizeof out);
}

/* The same of a write, which tells a distance of 0 too. */
static int refused(uint32_t number, uint32_t wanted, const uint64_t *length)
{
    return unchanged(number, wanted, length) && distance == 0;
}

/* What a write under this extension should tell of shades. */
static uint32_t far_off(const char *ext, size_t at)
{
    if (strcmp(ext, "jef") == 0)
        return shades[at].jef;
    return strcmp(ext, "pes") == 0 || strcmp(ext, "pec") == 0 ? shades[at].pec : 0;
}

/* Reads the front of the file; so many elements of places, and enough of runs and blocks. */
static uint32_t read_file(const char *ext, size_t length, size_t room)
{
    memset(places, MARK, sizeof places);
    memset(runs, MARK, sizeof runs);
    memset(blocks, MARK, sizeof blocks);
    point_count = run_count = block_count = cut_count = 7;
    return stitch_box_read(bytes(ext), strlen(ext), file, length, places, room, runs, STITCH_BOX_RUNS_FOR(length),
                           blocks, STITCH_BOX_BLOCKS_FOR(length), &point_count, &run_count, &block_count, &cut_count);
}

/* Whether a read has changed nothing and tells counts of 0. */
static int nothing_read(void)
{
    return marked(places, 0, sizeof places) && marked(runs, 0, sizeof runs) && marked(blocks, 0, sizeof blocks) &&
           point_count == 0 && run_count == 0 && block_count == 0 && cut_count == 0;
}

/* Writes the square in each of the shades by both writes. */
static void see_distances(const char *ext)
{
    for (size_t at = 0; at < sizeof shades / sizeof *shades; at++) {
        uint64_t length = 7;
        uint32_t by_slices = 7, by_records = 7;
        see(stitch_box_write(bytes(ext), strlen(ext), bytes(name), strlen(name), xs, COMMANDS, ys, COMMANDS, kinds, COMMANDS,
                             shades[at].bytes, shades[at].length, out, ROOM, &length, &by_slices) == STITCH_BOX_DONE,
            ext, "the write of a shade");
        see(stitch_box_write_cmds(bytes(ext), strlen(ext), bytes(name), strlen(name), square, COMMANDS, shades[at].bytes,
                                  shades[at].length, out, ROOM, &length, &by_records) == STITCH_BOX_DONE,
            ext, "the write of a shade by records");
        see(by_slices == far_off(ext, at) && by_records == far_off(ext, at), ext, "the distance of a shade");
    }
}

/* Writes the square by both writes and keeps its file; the file's length, or 0 if something is wrong. */
static size_t write_square(const char *ext)
{
    uint64_t length, again;
    if (!see(0 < bound(ext) && bound(ext) <= ROOM, ext, "the bound"))
        return 0;
    see(write_slices(ext, bound(ext), &length) == STITCH_BOX_DONE, ext, "the write");
    if (!see(0 < length && length <= bound(ext), ext, "the length"))
        return 0;
    see(marked(out, (size_t)length, sizeof out), ext, "bytes behind the file");
    memcpy(file, out, sizeof file);
    see(write_records(ext, square, COMMANDS, bound(ext), &again) == STITCH_BOX_DONE, ext, "the write of records");
    see(again == length && memcmp(file, out, sizeof file) == 0, ext, "the file of records");
    return (size_t)length;
}

/* Reads the square. VP3 drops the jump to its first corner: there the first stitch leaves (0, 0). */
static void read_square(const char *ext, size_t length)
{
    int from_zero = strcmp(ext, "vp3") == 0;
    see(read_file(ext, length, STITCH_BOX_PLACES_FOR(length)) == STITCH_BOX_DONE, ext, "the read");
    see(point_count == 5 && run_count == 1 && block_count == 1 && cut_count == 0, ext, "the counts");
    for (size_t at = 0; at < 5; at++) {
        int32_t x = at == 0 && from_zero ? 0 : xs[at], y = at == 0 && from_zero ? 0 : ys[at];
        see(places[2 * at] == x && places[2 * at + 1] == y, ext, "a place");
    }
    see(runs[0] == 5 && blocks[0] == 0 && blocks[2] == 1, ext, "the run and the block");
    see(marked(places, 10 * sizeof *places, sizeof places), ext, "elements behind the places");
    see(marked(runs, sizeof *runs, sizeof runs), ext, "elements behind the runs");
    see(marked(blocks, 3 * sizeof *blocks, sizeof blocks), ext, "elements behind the blocks");
}

/* Asks whether the front of the file fits a hoop. */
static uint32_t hold(const char *ext, size_t length, int32_t left, int32_t right, int32_t top, int32_t bottom)
{
    answer = 7;
    return stitch_box_fits(bytes(ext), strlen(ext), file, length, left, right, top, bottom, &answer);
}

/* Whether the call says yes, and whether it says no. */
static int fits(const char *ext, size_t length, int32_t left, int32_t right, int32_t top, int32_t bottom)
{
    return hold(ext, length, left, right, top, bottom) == STITCH_BOX_DONE && answer == 1;
}

static int passes(const char *ext, size_t length, int32_t left, int32_t right, int32_t top, int32_t bottom)
{
    return hold(ext, length, left, right, top, bottom) == STITCH_BOX_DONE && answer == 0;
}

/* Holds the square against the hoop that just holds it, which in VP3 has (0, 0) too; against those with an edge one off; against crossed
 * ones. */
static void hold_square(const char *ext, size_t length)
{
    int32_t least = strcmp(ext, "vp3") == 0 ? 0 : 10, most = 60;
    see(fits(ext, length, least, most, least, most), ext, "the hoop that just holds the square");
    see(passes(ext, length, least + 1, most, least, most), ext, "a hoop with its left edge one too far right");
    see(passes(ext, length, least, most - 1, least, most), ext, "a hoop with its right edge one too far left");
    see(passes(ext, length, least, most, least + 1, most), ext, "a hoop with its top edge one too far down");
    see(passes(ext, length, least, most, least, most - 1), ext, "a hoop with its bottom edge one too far up");
    see(fits(ext, length, least - 1, most, least, most), ext, "a hoop with its left edge one further left");
    see(fits(ext, length, least, most + 1, least, most), ext, "a hoop with its right edge one further right");
    see(fits(ext, length, least, most, least - 1, most), ext, "a hoop with its top edge one further up");
    see(fits(ext, length, least, most, least, most + 1), ext, "a hoop with its bottom edge one further down");
    see(fits(ext, length, INT32_MIN, INT32_MAX, INT32_MIN, INT32_MAX), ext, "the widest hoop");
    see(passes(ext, length, most, least, least, most), ext, "a hoop with left past right");
    see(passes(ext, length, least, most, most, least), ext, "a hoop with top past bottom");
}

/* Files without runs fit a crossed hoop too; refused ones have no answer. */
static void hold_others(void)
{
    memset(file, ' ', sizeof file);
    see(fits("exp", 0, 1, 0, 1, 0), "exp", "a file without runs in a crossed hoop");
    see(fits("dst", 512, 1, 0, 1, 0), "dst", "a file without runs in a crossed hoop");
    see(hold("dst", 511, 0, 0, 0, 0) == STITCH_BOX_FILE_TOO_SHORT && answer == 0, "dst", "a short file in a hoop");
    see(hold("pes", 512, 0, 0, 0, 0) == STITCH_BOX_BAD_OPENING && answer == 0, "pes", "a bad opening in a hoop");
    see(hold("vp3", 512, 0, 0, 0, 0) == STITCH_BOX_BAD_OPENING && answer == 0, "vp3", "a bad opening in a hoop");
    see(hold("txt", 512, 0, 0, 0, 0) == STITCH_BOX_UNKNOWN_EXTENSION && answer == 0, "txt", "a hoop");
    if (!wrong)
        printf("hoops: the square fits from 10 to 60, in VP3 from 0 to 60, and no less; a file without runs fits any hoop\n");
}

/* Asks for the label, which is the name or empty, and prints all that came back. */
static void label_square(const char *ext, size_t length)
{
    int without = strcmp(ext, "exp") == 0 || strcmp(ext, "jef") == 0 || strcmp(ext, "vp3") == 0;
    const char *label = without ? "" : name;
    uint64_t start = 7, label_length = 7;
    see(stitch_box_label(bytes(ext), strlen(ext), file, length, &start, &label_length) == STITCH_BOX_DONE, ext, "the label");
    if (!see(label_length == strlen(label) && start <= length && label_length <= length - start, ext, "the label's place"))
        return;
    see(memcmp(file + start, label, strlen(label)) == 0, ext, "the label's bytes");
    printf("%s: %lu bytes of at most %lu, distance %lu; %lu points, %lu run, %lu block, %lu cuts; label [%.*s]\n", ext,
           (unsigned long)length, (unsigned long)bound(ext), (unsigned long)distance, (unsigned long)point_count,
           (unsigned long)run_count, (unsigned long)block_count, (unsigned long)cut_count, (int)label_length,
           (const char *)file + start);
}

/* A byte or an element too few; records of which there are too many, and one fewer, for which the buffer is too short. */
static void refuse(const char *ext, size_t length)
{
    uint64_t told;
    see(refused(write_slices(ext, length - 1, &told), STITCH_BOX_BUFFER_TOO_SHORT, &told), ext, "a byte too few");
    see(refused(write_records(ext, square, COMMANDS, length - 1, &told), STITCH_BOX_BUFFER_TOO_SHORT, &told), ext,
        "a byte too few for records");
    see(refused(write_records(ext, many, TOO_MANY, ROOM, &told), STITCH_BOX_BAD_LIST, &told), ext, "65,536 records");
    see(refused(write_records(ext, many + 1, TOO_MANY - 1, ROOM, &told), STITCH_BOX_BUFFER_TOO_SHORT, &told), ext,
        "65,535 records");
    see(read_file(ext, length, 9) == STITCH_BOX_BUFFER_TOO_SHORT && nothing_read(), ext, "an element of places too few");
}

/* Reads a DST of a stitch, so many jumps and a stitch, all on the spot: three jumps and more are a cut. */
static void count_cuts(size_t jumps)
{
    size_t length = 512 + 3 * (jumps + 2);
    memset(file, ' ', 512);
    memset(file + 512, 0, length - 512);
    for (size_t at = 0; at < jumps + 2; at++)
        file[512 + 3 * at + 2] = at == 0 || at == jumps + 1 ? 0x03 : 0x83;
    see(read_file("dst", length, STITCH_BOX_PLACES_FOR(length)) == STITCH_BOX_DONE, "dst", "the read of a row of jumps");
    see(run_count == (jumps == 0 ? 1 : 2) && block_count == 1, "dst", "the runs of a row of jumps");
    see(cut_count == (jumps < 3 ? 0 : 1), "dst", "the cuts of a row of jumps");
}

/* Each function under an unknown extension. */
static void refuse_extension(const char *ext)
{
    uint64_t start = 7, told;
    see(refused(write_slices(ext, ROOM, &told), STITCH_BOX_UNKNOWN_EXTENSION, &told), ext, "the write");
    see(refused(write_records(ext, square, COMMANDS, ROOM, &told), STITCH_BOX_UNKNOWN_EXTENSION, &told), ext,
        "the write of records");
    see(bound(ext) == 0, ext, "the bound");
    see(read_file(ext, 100, STITCH_BOX_PLACES_FOR(100)) == STITCH_BOX_UNKNOWN_EXTENSION && nothing_read(), ext, "the read");
    told = 7;
    see(stitch_box_label(bytes(ext), strlen(ext), file, 100, &start, &told) == STITCH_BOX_UNKNOWN_EXTENSION, ext, "the label");
    see(start == 0 && told == 0, ext, "the label's place");
}

/* Exports the square under a name of so many bytes, to so many bytes. */
static uint32_t export_square(const char *of_job, size_t name_length, size_t room, uint64_t *length)
{
    memset(out, MARK, sizeof out);
    *length = 7;
    return stitch_box_export_job(bytes(of_job), name_length, xs, COMMANDS, ys, COMMANDS, kinds, COMMANDS, threads, sizeof threads,
                                 out, room, length);
}

/* Imports the front of the file, which is a job; so many elements of x, and enough of the others. */
static uint32_t import_file(size_t length, size_t room)
{
    memset(job_xs, MARK, sizeof job_xs);
    memset(job_ys, MARK, sizeof job_ys);
    memset(job_kinds, MARK, sizeof job_kinds);
    memset(job_threads, MARK, sizeof job_threads);
    command_count = thread_bytes = 7;
    return stitch_box_import_job(file, length, job_xs, room, job_ys, STITCH_BOX_JOB_COMMANDS_FOR(length), job_kinds,
                                 STITCH_BOX_JOB_COMMANDS_FOR(length), job_threads, STITCH_BOX_JOB_THREADS_FOR(length),
                                 &command_count, &thread_bytes);
}

/* Whether both calls refuse the job by this number, change nothing and tell zeros. */
static int job_refused(size_t length, uint32_t wanted)
{
    uint64_t start = 7, name_length = 7;
    return import_file(length, STITCH_BOX_JOB_COMMANDS_FOR(length)) == wanted && command_count == 0 && thread_bytes == 0 &&
           marked(job_xs, 0, sizeof job_xs) && marked(job_ys, 0, sizeof job_ys) && marked(job_kinds, 0, sizeof job_kinds) &&
           marked(job_threads, 0, sizeof job_threads) && stitch_box_job_name(file, length, &start, &name_length) == wanted &&
           start == 0 && name_length == 0;
}

/* Exports the square as a job and keeps it as the file. */
static void export_job(void)
{
    uint64_t length;
    see(export_square(name, strlen(name), ROOM, &length) == STITCH_BOX_DONE, "job", "the export");
    see(length == JOB_BYTES && length <= STITCH_BOX_JOB_BOUND, "job", "the length");
    see(marked(out, JOB_BYTES, sizeof out), "job", "bytes behind the job");
    memcpy(file, out, sizeof file);
    see(unchanged(export_square(name, strlen(name), JOB_BYTES - 1, &length), STITCH_BOX_BUFFER_TOO_SHORT, &length), "job",
        "a byte too few");
}

/* Imports the job, asks for its name and prints both. */
static void import_job(void)
{
    uint64_t start = 7, length = 7;
    see(import_file(JOB_BYTES, COMMANDS - 1) == STITCH_BOX_BUFFER_TOO_SHORT && command_count == 0 && thread_bytes == 0, "job",
        "an element of x too few");
    see(import_file(JOB_BYTES, COMMANDS) == STITCH_BOX_DONE, "job", "the import");
    see(command_count == COMMANDS && thread_bytes == sizeof threads, "job", "the counts");
    see(memcmp(job_xs, xs, sizeof xs) == 0 && memcmp(job_ys, ys, sizeof ys) == 0, "job", "the places");
    see(memcmp(job_kinds, kinds, sizeof kinds) == 0 && memcmp(job_threads, threads, sizeof threads) == 0, "job", "kinds and threads");
    see(marked(job_xs, sizeof xs, sizeof job_xs) && marked(job_ys, sizeof ys, sizeof job_ys) &&
            marked(job_kinds, sizeof kinds, sizeof job_kinds) && marked(job_threads, sizeof threads, sizeof job_threads),
        "job", "elements behind what was imported");
    see(stitch_box_job_name(file, JOB_BYTES, &start, &length) == STITCH_BOX_DONE, "job", "the name");
    if (!see(start == 3 && length == strlen(name), "job", "the name's place"))
        return;
    see(memcmp(file + start, name, strlen(name)) == 0, "job", "the name's bytes");
    printf("job: %lu bytes; name [%.*s], %lu commands, %lu thread bytes\n", (unsigned long)JOB_BYTES, (int)length,
           (const char *)file + start, (unsigned long)command_count, (unsigned long)thread_bytes);
}

/* 14: a last field that passes the end, a name of 65 bytes. 13: an unknown tag, no name. */
static void refuse_job(void)
{
    char long_name[65];
    uint64_t length;
    memset(long_name, 'n', sizeof long_name);
    see(job_refused(JOB_BYTES - 1, STITCH_BOX_BAD_LENGTH), "job", "a field that passes the end");
    see(unchanged(export_square(long_name, 65, ROOM, &length), STITCH_BOX_BAD_LENGTH, &length), "job", "a name of 65 bytes");
    see(export_square(long_name, 64, ROOM, &length) == STITCH_BOX_DONE && length == JOB_BYTES + 58, "job", "a name of 64 bytes");
    file[0] = 9;
    see(job_refused(JOB_BYTES, STITCH_BOX_BAD_TAG), "job", "an unknown tag");
    see(job_refused(0, STITCH_BOX_BAD_TAG), "job", "no name");
}

int main(void)
{
    many[TOO_MANY - 1].kind = STITCH_BOX_END;
    for (size_t f = 0; f < sizeof exts / sizeof *exts; f++) {
        size_t length = write_square(exts[f]);
        if (length == 0)
            continue;
        read_square(exts[f], length);
        label_square(exts[f], length);
        hold_square(exts[f], length);
        refuse(exts[f], length);
        see_distances(exts[f]);
    }
    see(stitch_box_write_bound(bytes("pes"), 3, SIZE_MAX, SIZE_MAX) == STITCH_BOX_WRITE_BOUND, "pes", "the greatest bound");
    refuse_extension("txt");
    hold_others();
    for (size_t jumps = 0; jumps < 7; jumps++)
        count_cuts(jumps);
    if (!wrong)
        printf("cuts of a DST: none for a row of fewer than three jumps between two stitches, one for a row of three to six\n");
    export_job();
    import_job();
    refuse_job();
    if (!wrong)
        printf("refused as they should be: buffers that are too short, 65,536 records, an unknown extension; jobs with an unknown tag and\n"
               "without a name (%d), a job with a field that passes the end and a name of 65 bytes (%d)\n",
               STITCH_BOX_BAD_TAG, STITCH_BOX_BAD_LENGTH);
    return wrong;
}
