/* runguide: translates a guide, runs its plate on the answers, and prints the transcript and how the run ended.
 *
 *     runguide GUIDE-FILE BOOK-FILE [ANSWER..]
 *
 * BOOK-FILE is `-` for an empty book. Exit status: 0, also for a guide that is refused; 2 where the arguments or files are no use.
 */
#include <errno.h>
#include <inttypes.h>
#include <stdio.h>
#include <stdlib.h>
#include <string.h>

#include "doorplate.h"

/* Bytes of a file; `at` is never NULL. */
struct bytes {
    uint8_t *at;
    size_t length;
};

static void stop(const char *what, const char *name)
{
    fprintf(stderr, "runguide: %s: %s\n", name, what);
    exit(2);
}

static void *room(void *old, size_t size)
{
    void *memory = realloc(old, size);
    if (memory == NULL)
        stop("no memory", "realloc");
    return memory;
}

static struct bytes read_file(const char *name)
{
    struct bytes file = {NULL, 0};
    size_t size = 4096;
    FILE *in = fopen(name, "rb");
    if (in == NULL)
        stop(strerror(errno), name);
    for (;;) {
        file.at = room(file.at, size);
        file.length += fread(file.at + file.length, 1, size - file.length, in);
        if (file.length < size)
            break;
        size *= 2;
    }
    if (ferror(in))
        stop("cannot be read", name);
    fclose(in);
    return file;
}

static int32_t read_answer(const char *word)
{
    char *end;
    long number;
    errno = 0;
    number = strtol(word, &end, 10);
    if (end == word || *end != '\0' || errno != 0 || number < INT32_MIN || number > INT32_MAX)
        stop("no 32-bit number", word);
    return (int32_t)number;
}

static int refused(uint32_t number, uint64_t place)
{
    printf("refused,%" PRIu32 ",%" PRIu64 "\n", number, place);
    return 0;
}

/* Runs a plate, with a transcript buffer that is long enough for any. */
static int run(const uint8_t *plate, size_t length, struct bytes book, const int32_t *answers, size_t count)
{
    static uint16_t scratch[DOORPLATE_SCRATCH_NUMBERS];
    uint8_t *transcript = room(NULL, DOORPLATE_TRANSCRIPT_BYTES);
    doorplate_ran ran = doorplate_run(plate, length, book.at, book.length, answers, count, scratch, DOORPLATE_SCRATCH_NUMBERS,
                                      transcript, DOORPLATE_TRANSCRIPT_BYTES);
    if (ran.number != 0)
        return refused(ran.number, ran.place);
    fwrite(transcript, 1, (size_t)ran.length, stdout);
    printf("outcome,%" PRIu32 ",taken,%" PRIu64 ",steps,%" PRIu64 ",wrong,%" PRIu32 "\n", ran.outcome, ran.taken, ran.steps, ran.wrong);
    free(transcript);
    return 0;
}

int main(int count, char **words)
{
    static uint8_t plate[DOORPLATE_PLATE_BYTES];
    uint8_t nothing = 0;
    struct bytes guide, book = {&nothing, 0};
    size_t answer_count, i;
    int32_t *answers;
    doorplate_written written;
    if (count < 3) {
        fprintf(stderr, "usage: runguide GUIDE-FILE BOOK-FILE [ANSWER..]\n");
        return 2;
    }
    guide = read_file(words[1]);
    if (strcmp(words[2], "-") != 0)
        book = read_file(words[2]);
    answer_count = (size_t)count - 3;
    answers = room(NULL, (answer_count + 1) * sizeof *answers);
    for (i = 0; i < answer_count; i++)
        answers[i] = read_answer(words[3 + i]);
    written = doorplate_translate(guide.at, guide.length, book.at, book.length, plate, sizeof plate);
    if (written.number != 0)
        return refused(written.number, written.place);
    return run(plate, (size_t)written.length, book, answers, answer_count);
}
