/* hostile COUNT SEED FILE..: gives each call COUNT inputs, random bytes and spoilt copies of the
 * files, with words of all kinds and room for few bytes or many. Words, input and output end at a
 * page that may not be touched, and the output begins behind bytes that may not change. Ends with 1
 * at the first answer that is none. */
#define HOSTILE "hostile"
#include "hostile.h"

typedef robus_answer call(const uint8_t *, size_t, const uint8_t *, size_t, uint8_t *, size_t);

enum { GUARD = 32 };

#define WORDS(text) {(uint8_t *)text, sizeof text - 1}
static const struct bytes known[] = {
    WORDS("run"),           WORDS("run"),          WORDS("check"),        WORDS("record\0B0"), WORDS("record\0R1"),  WORDS("replay"),
    WORDS("listen\0" "30"), WORDS("letters"),      WORDS("spell\0" "6869"), WORDS("group\0most\0" "7"), WORDS("group\0mid\0" "3"),
    WORDS("gen\0" "5\0" "2"), WORDS("stress\0" "5\0" "1"), WORDS("--help"), WORDS("--version"), WORDS(""), WORDS("0\0" "1"), WORDS("\0"),
    WORDS("run\0"),         WORDS("\0run"),        WORDS("r\xffn"),       WORDS("\xc3"),       WORDS("gen\0" "5\0" "0"), WORDS("listen\0-1"),
};

/* Words that are known, or spoilt, or random, at the end of their fence. */
static struct bytes some_words(uint8_t *fence)
{
    struct bytes from = known[below(sizeof known / sizeof *known)];
    size_t length = below(8) == 0 ? below(40) : from.length;
    uint8_t *at = fence + MOST - length;
    for (size_t i = 0; i < length; i++)
        at[i] = i < from.length ? from.at[i] : below(256);
    if (length > 0 && below(6) == 0)
        at[below(length)] = below(256);
    return (struct bytes){at, length};
}

static int is_wrong(const char *what, const char *name, unsigned long number, robus_answer answer)
{
    fprintf(stderr, "hostile: %s: input %lu: status %d, length %llu: %s\n", name, number, (int)answer.status,
            (unsigned long long)answer.length, what);
    return 1;
}

/* One call with this much room; what it wrote is left at `output`. */
static int is_wrong_call(call *of, const char *name, unsigned long number, struct bytes words, struct bytes input, uint8_t *fence, size_t room,
                         robus_answer *answer, uint8_t **output)
{
    *output = fence + MOST - room;
    memset(*output - GUARD, 0xa5, room + GUARD);
    *answer = of(words.at, words.length, input.at, input.length, *output, room);
    size_t put = answer->length < room ? answer->length : room;
    for (size_t i = 0; i < GUARD; i++)
        if ((*output)[-1 - (long)i] != 0xa5)
            return is_wrong("bytes before the output have changed", name, number, *answer);
    for (size_t i = put; i < room; i++)
        if ((*output)[i] != 0xa5)
            return is_wrong("bytes behind what was put have changed", name, number, *answer);
    switch (answer->status) {
    case ROBUS_DONE: case ROBUS_BREACH: case ROBUS_REFUSED:
        return answer->length > room ? is_wrong("more bytes than room", name, number, *answer) : 0;
    case ROBUS_USAGE: case ROBUS_TOO_LONG: case ROBUS_NO_MEMORY: case ROBUS_NOT_TEXT:
        return answer->length != 0 ? is_wrong("output where there is none", name, number, *answer) : 0;
    case ROBUS_TOO_SMALL:
        return answer->length <= room ? is_wrong("there is room", name, number, *answer) : 0;
    default:
        return is_wrong("no such status", name, number, *answer);
    }
}

int main(int argc, char **argv)
{
    if (argc < 3) {
        fprintf(stderr, "usage: hostile COUNT SEED FILE..\n");
        return 2;
    }
    unsigned long count = strtoul(argv[1], NULL, 10);
    size_t files_count = argc - 3;
    struct bytes *files = calloc(files_count + 1, sizeof *files);
    for (size_t i = 0; i < files_count; i++)
        files[i] = read_file(argv[3 + i]);
    uint8_t *words_fence = fenced(), *input_fence = fenced(), *output_fence = fenced(), *second_fence = fenced();
    const struct { call *of; const char *name; } calls[] = {
        {robus_call, "robus_call"}, {robus_bridge_call, "robus_bridge_call"}, {robus_picture_call, "robus_picture_call"}};
    for (size_t c = 0; c < 3; c++) {
        unsigned long statuses[10] = {0};
        state = strtoull(argv[2], NULL, 10) * 2654435761u + c + 1;
        for (unsigned long number = 0; number < count; number++) {
            struct bytes words = some_words(words_fence), input = some_input(input_fence, files, files_count);
            size_t room = below(8) == 0 ? 1 << 20 : number % 400;
            robus_answer answer, whole;
            uint8_t *output, *second;
            if (is_wrong_call(calls[c].of, calls[c].name, number, words, input, output_fence, room, &answer, &output))
                return 1;
            statuses[answer.status]++;
            if (answer.status != ROBUS_TOO_SMALL || answer.length > MOST - GUARD)
                continue;
            /* With the room that it names the call gives the whole output, which begins as the
             * first did. */
            if (is_wrong_call(calls[c].of, calls[c].name, number, words, input, second_fence, answer.length, &whole, &second))
                return 1;
            if (whole.status == ROBUS_TOO_SMALL || whole.length != answer.length || memcmp(output, second, room) != 0)
                return is_wrong("the whole output is another", calls[c].name, number, whole);
        }
        printf("%s: %lu inputs; statuses", calls[c].name, count);
        for (int i = 0; i < 10; i++)
            printf(" %lu", statuses[i]);
        printf("\n");
    }
    for (size_t i = 0; i < files_count; i++)
        free(files[i].at);
    free(files);
    return 0;
}
