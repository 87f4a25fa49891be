/* Reads lines `kind grade energy coordinates`, as a listing has them, and prints what the two readings say of each frame. As in a
 * sheet, the lines are numbered from 0, the listing's header left out, and each frame is read strictly under the number of its line.
 * With an argument all are read under that number: `mark 0` for frames that are judged by number 0. Of a line `near kind grade
 * samples`, which takes no number, it prints what the near reading says. No bit is free. */
#include <stdio.h>
#include <stdlib.h>
#include <string.h>
#include "frame_coder.h"

static void refused(const char *reading, int64_t answer)
{
    printf("%s refused %d (%s)", reading, (int)-answer, coder_refusal_name(answer));
}

static void show_message(const uint8_t *message, size_t length)
{
    printf(", message");
    for (size_t i = 0; i < length; i++)
        printf(" %02X", (unsigned)message[i]);
}

static void show(const char *reading, int64_t answer, const uint8_t *message, size_t length)
{
    if (answer < 0) {
        refused(reading, answer);
        return;
    }
    printf("%s energy %lld", reading, (long long)answer);
    show_message(message, length);
}

/* What the near reading says of `kind grade samples`. */
static void show_near(char *at)
{
    float samples[CODER_MAX_FRAME_LENGTH + 1];
    uint8_t message[CODER_MAX_MESSAGE_LENGTH] = {0};
    double distance = 0;
    size_t n = 0;
    int kind = (int)strtol(at, &at, 10);
    int grade = (int)strtol(at, &at, 10);
    for (char *end; n <= CODER_MAX_FRAME_LENGTH; n++, at = end) {
        samples[n] = strtof(at, &end);
        if (end == at)
            break;
    }
    size_t length = coder_message_length(kind, grade);
    if (length == 0) {
        printf(": no kind and grade\n");
        return;
    }
    int64_t answer = coder_read_near((uint8_t)kind, (uint8_t)grade, samples, n, message, length, &distance);
    if (answer < 0) {
        refused(": near", answer);
    } else {
        printf(": near squared distance %.17g", distance);
        show_message(message, length);
    }
    printf("\n");
}

int main(int count, char **words)
{
    char line[1024];
    uint32_t next = 0;
    for (int place = 1; fgets(line, sizeof line, stdin); place++) {
        char *at = line, *end;
        int head[3]; /* kind, grade, energy; the energy is not used */
        int32_t frame[CODER_MAX_FRAME_LENGTH + 1];
        uint8_t message[CODER_MAX_MESSAGE_LENGTH] = {0};
        size_t n = 0;
        printf("line %d", place);
        if (strncmp(line, "kind ", 5) == 0) {
            printf(": header\n");
            continue;
        }
        if (strncmp(line, "near ", 5) == 0) {
            show_near(line + 5);
            continue;
        }
        const uint32_t number = count > 1 ? (uint32_t)strtoul(words[1], NULL, 10) : next++;
        for (int i = 0; i < 3; i++, at = end)
            head[i] = (int)strtol(at, &end, 10);
        for (; n <= CODER_MAX_FRAME_LENGTH; n++, at = end) {
            long x = strtol(at, &end, 10);
            if (end == at)
                break;
            /* what is too large for int32_t is over range all the same */
            frame[n] = (int32_t)(x > 2000000 ? 2000000 : x < -2000000 ? -2000000 : x);
        }
        size_t length = coder_message_length(head[0], head[1]);
        printf(", number %lu: ", (unsigned long)number);
        if (length == 0) {
            printf("no kind and grade\n");
            continue;
        }
        uint8_t kind = (uint8_t)head[0], grade = (uint8_t)head[1];
        show("strictly", coder_read_strict(kind, grade, number, 0, frame, n, message, length), message, length);
        show("; openly", coder_read_open(kind, grade, 0, frame, n, message, length), message, length);
        printf("\n");
    }
    return 0;
}
