/* report FILE: runs the scenario in the file and prints the report. Ends with the status of the
 * call. */
#include <robus.h>
#include <stdio.h>
#include <stdlib.h>

/* The bytes of the file, and their number; NULL if it cannot be read or there is no memory. */
static uint8_t *read_file(const char *path, size_t *length)
{
    FILE *file = fopen(path, "rb");
    if (file == NULL)
        return NULL;
    uint8_t *bytes = NULL;
    size_t room = 1 << 16, count = 0;
    for (;;) {
        uint8_t *more = realloc(bytes, room);
        if (more == NULL) {
            free(bytes);
            bytes = NULL;
            break;
        }
        bytes = more;
        count += fread(bytes + count, 1, room - count, file);
        if (ferror(file)) {
            free(bytes);
            bytes = NULL;
            break;
        }
        if (count < room)
            break;
        room *= 2;
    }
    fclose(file);
    *length = count;
    return bytes;
}

int main(int argc, char **argv)
{
    size_t length = 0;
    uint8_t *scenario = argc == 2 ? read_file(argv[1], &length) : NULL;
    if (scenario == NULL) {
        fprintf(stderr, "usage: report FILE, where FILE is a scenario that can be read\n");
        return 2;
    }
    /* The first call is made with room for 64 KiB. One that needs more says how much, and is made
     * again. */
    size_t room = 1 << 16;
    uint8_t *report = malloc(room);
    robus_answer answer = {ROBUS_NO_MEMORY, 0};
    if (report != NULL)
        answer = robus_call((const uint8_t *)"run", 3, scenario, length, report, room);
    if (answer.status == ROBUS_TOO_SMALL) {
        room = answer.length;
        free(report);
        report = malloc(room);
        answer = (robus_answer){ROBUS_NO_MEMORY, 0};
        if (report != NULL)
            answer = robus_call((const uint8_t *)"run", 3, scenario, length, report, room);
    }
    if (report != NULL)
        fwrite(report, 1, answer.length, stdout);
    free(report);
    free(scenario);
    return answer.status;
}
