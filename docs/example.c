/* Sends the message 00 08 at kind 3, grade 1, under an even and an odd number, prints the energy and both frames, and reads them
 * back openly and strictly, under their own number and under the other; then sums of two frames, a message with free bits, noisy
 * samples of a frame, two recordings of one, refusals by name, an account across its changeover, and a queue that stops at its third
 * message. */
#include <inttypes.h>
#include <stdio.h>
#include <string.h>
#include "frame_coder.h"

static void print_frame(const int32_t *frame, size_t length)
{
    for (size_t p = 0; p < length; p++)
        printf(" %" PRId32, frame[p]);
    printf("\n");
}

static void print_message(const char *how, int64_t answer, const uint8_t *message, size_t length)
{
    if (answer < 0) {
        printf("%s: refused %" PRId64 " (%s)\n", how, -answer, coder_refusal_name(answer));
        return;
    }
    printf("%s: energy %" PRId64 ", message", how, answer);
    for (size_t i = 0; i < length; i++)
        printf(" %02x", (unsigned)message[i]);
    printf("\n");
}

int main(void)
{
    const uint8_t kind = 3, grade = 1;
    const uint8_t message[CODER_MESSAGE_LENGTH(3, 1)] = {0x00, 0x08};
    int32_t frame[CODER_FRAME_LENGTH(3)];
    uint8_t back[CODER_MAX_MESSAGE_LENGTH] = {0};
    const size_t bytes = coder_message_length(kind, grade), coordinates = coder_frame_length(kind);

    printf("frame coder %s\n", FRAME_CODER_VERSION);

    /* Sixteen frames of its class have the least energy: number 0 is sent as the first of them in reading order, number 1 as the
     * last. Both are read as the message, but strictly each under its own number alone. */
    for (uint32_t number = 0; number < 2; number++) {
        int64_t answer = coder_send(kind, grade, number, 0, message, bytes, frame, coordinates);
        if (answer < 0) {
            printf("refused %" PRId64 " (%s)\n", -answer, coder_refusal_name(answer));
            return 1;
        }
        printf("number %" PRIu32 ", energy %" PRId64 ":", number, answer);
        print_frame(frame, coordinates);

        answer = coder_read_open(kind, grade, 0, frame, coordinates, back, bytes);
        print_message("read openly", answer, back, bytes);
        if (answer < 0 || memcmp(back, message, bytes) != 0)
            return 1;
        answer = coder_read_strict(kind, grade, number, 0, frame, coordinates, back, bytes);
        print_message("read strictly", answer, back, bytes);
        if (answer < 0 || memcmp(back, message, bytes) != 0)
            return 1;
        answer = coder_read_strict(kind, grade, 1 - number, 0, frame, coordinates, back, bytes);
        print_message("read strictly under the other number", answer, back, bytes);
    }

    /* Another frame of the same class, far from the least: it has the same message, but it is sent under no number. */
    frame[0] += 1048568;
    print_message("read openly", coder_read_open(kind, grade, 0, frame, coordinates, back, bytes), back, bytes);
    print_message("read strictly", coder_read_strict(kind, grade, 0, 0, frame, coordinates, back, bytes), back, bytes);

    /* What a repeater makes of two frames of kind 6 by adding them: a sum that is read, or one that has left the coding set. */
    const uint8_t first[CODER_MESSAGE_LENGTH(6, 1)] = {0, 0, 0, 0x20};
    const uint8_t seconds[2][CODER_MESSAGE_LENGTH(6, 1)] = {{0, 0, 0, 0x40}, {0, 0, 0, 0, 0, 0, 0x01}};
    for (int i = 0; i < 2; i++) {
        int32_t sum[CODER_FRAME_LENGTH(6)], second[CODER_FRAME_LENGTH(6)];
        if (coder_send(6, 1, 0, 0, first, sizeof first, sum, CODER_FRAME_LENGTH(6)) < 0 ||
            coder_send(6, 1, 0, 0, seconds[i], sizeof first, second, CODER_FRAME_LENGTH(6)) < 0)
            return 1;
        for (size_t p = 0; p < CODER_FRAME_LENGTH(6); p++)
            sum[p] += second[p];
        print_message("sum read openly", coder_read_open(6, 1, 0, sum, CODER_FRAME_LENGTH(6), back, sizeof first), back, sizeof first);
    }

    /* The last bits of a message left to the sender, who sends the smallest filling of least energy. It is read back with as many free
     * bits, which are given as 0. */
    const uint8_t quiet[CODER_MESSAGE_LENGTH(3, 1)] = {0x12, 0x00};
    for (uint8_t bits = 0; bits <= CODER_MAX_FREE + 1; bits++) {
        const int64_t quiet_answer = coder_send(kind, grade, 0, bits, quiet, bytes, frame, coordinates);
        printf("free count %d, ", (int)bits);
        if (quiet_answer < 0) {
            printf("refused %" PRId64 " (%s)\n", -quiet_answer, coder_refusal_name(quiet_answer));
            continue;
        }
        printf("energy %" PRId64 ":", quiet_answer);
        print_frame(frame, coordinates);
        print_message("read strictly", coder_read_strict(kind, grade, 0, bits, frame, coordinates, back, bytes), back, bytes);
    }

    /* With two bits free filling 1 was sent, which is 12 04. Filling 2, 12 08, has the same energy: its frame is read openly, but not
     * strictly. */
    const uint8_t as_quiet[CODER_MESSAGE_LENGTH(3, 1)] = {0x12, 0x08};
    if (coder_send(kind, grade, 0, 0, as_quiet, bytes, frame, coordinates) != 4)
        return 1;
    printf("another filling, energy 4:");
    print_frame(frame, coordinates);
    print_message("read openly", coder_read_open(kind, grade, 2, frame, coordinates, back, bytes), back, bytes);
    print_message("read strictly", coder_read_strict(kind, grade, 0, 2, frame, coordinates, back, bytes), back, bytes);

    /* What a receiver has of a frame: samples, each a whole number of 256ths, with noise. It is read as long as the squared distance
     * is below the limit; on the limit it is too far. */
    float samples[CODER_FRAME_LENGTH(3)] = {3.5f, 0.5f, 0.25f, 0.0f, 0.0f, 0.0f, -0.25f, 0.0f};
    for (int times = 0; times < 3; times++) {
        double distance;
        int64_t near_answer = coder_read_near(kind, grade, samples, coordinates, back, bytes, &distance);
        if (near_answer < 0)
            printf("noisy samples: refused %" PRId64 " (%s)\n", -near_answer, coder_refusal_name(near_answer));
        else
            printf("noisy samples: squared distance %g, below %d, message %02x %02x\n", distance, CODER_NEAR_LIMIT(3),
                   (unsigned)back[0], (unsigned)back[1]);
        samples[7] += times == 0 ? 0.875f : 1.0f / 512; /* then no whole number of 256ths */
    }

    /* What two receivers have of it: the closer recording comes back as the caller's own samples, and is read. The third is too far,
     * and leaves the first; the fourth is of another message. */
    const float recordings[4][CODER_FRAME_LENGTH(3)] = {{3.5f, 0.5f, 0.25f, 0.0f, 0.0f, 0.0f, -0.25f, 0.0f},
                                                        {4.25f, 0.0f, -0.5f, 0.0f, 0.0f, 0.25f, 0.0f, 0.0f},
                                                        {3.0f, 0.5f, 0.0f, 0.0f, 0.5f, 0.0f, 0.0f, 0.0f},
                                                        {0.0f, 1.25f, 0.0f, 0.5f, -0.25f, 1.0f, 0.0f, 1.0f}};
    for (int i = 1; i < 4; i++) {
        double distance;
        const struct coder_recording closer =
            coder_closer_recording(kind, grade, recordings[0], coordinates, recordings[i], coordinates);
        if (closer.answer < 0) {
            printf("two recordings: refused %" PRId64 " (%s)\n", -closer.answer, coder_refusal_name(closer.answer));
            continue;
        }
        if (coder_read_near(kind, grade, closer.samples, closer.length, back, bytes, &distance) < 0)
            return 1;
        printf("two recordings: recording %" PRId64 ", squared distance %g, message %02x %02x\n", closer.answer, distance,
               (unsigned)back[0], (unsigned)back[1]);
    }

    /* Nothing is lent: a null pointer may stand where the length is 0. */
    print_message("no message", coder_send(kind, grade, 0, 0, NULL, 0, frame, coordinates), NULL, 0);

    /* An account with a changeover of 2: its first two frames follow the old rule, and those after them the rule of their number,
     * which is the count before the send. The number by which a frame is judged is asked for before the send. */
    struct coder_account account;
    print_message("changeover 1000001", coder_account_open(&account, 1000001), NULL, 0);
    if (coder_account_open(&account, 2) < 0)
        return 1;
    for (int times = 0; times < 4; times++) {
        const uint32_t count = account.count, number = coder_account_number(&account);
        if (coder_account_send(&account, kind, grade, 0, message, bytes, frame, coordinates) < 0 ||
            coder_read_strict(kind, grade, number, 0, frame, coordinates, back, bytes) < 0)
            return 1;
        printf("count %" PRIu32 ", judged under %" PRIu32 ":", count, number);
        print_frame(frame, coordinates);
    }
    print_message("kind 259", coder_account_send(&account, 259, 1, 0, message, bytes, frame, coordinates), NULL, 0);
    printf("account: %" PRIu32 " frames, mean power %g, largest block %" PRIu64 ", changeover %" PRIu32 "\n", account.count,
           account.sum / account.count, account.largest, account.changeover);

    /* A queue: messages end to end, and so their frames. The third has a spare bit set: the two before it are sent and counted. */
    const uint8_t queue[4 * CODER_MESSAGE_LENGTH(3, 1)] = {0x00, 0x08, 0x01, 0x00, 0x00, 0x10, 0x02, 0x00};
    int32_t frames[4 * CODER_FRAME_LENGTH(3)];
    const uint32_t before = account.count;
    size_t sent;
    int64_t answer = coder_account_send_queue(&account, kind, grade, queue, 4 * bytes, frames, 4 * coordinates, &sent);
    for (size_t i = 0; i < sent; i++) {
        printf("queue, message %zu, judged under %" PRIu32 ":", i + 1, coder_number_at(account.changeover, before + (uint32_t)i));
        print_frame(frames + i * coordinates, coordinates);
    }
    if (answer < 0)
        printf("queue, message %zu: refused %" PRId64 " (%s)\n", sent + 1, -answer, coder_refusal_name(answer));
    printf("account: %" PRIu32 " frames\n", account.count);
    return sent == 2 ? 0 : 1;
}
