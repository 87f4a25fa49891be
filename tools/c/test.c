/* Tests what frame_coder.h, block.h and plain.h promise a C caller beyond the contracts: lengths by kind and grade, refusals and
 * their names, pointers that are not looked at where the length is 0, int arguments, the account as a struct; frames by hand under
 * even and odd numbers, and every frame judged under its own number and under others; accounts opened, and across their changeover;
 * messages with free bits against their fillings; coordinates at the ends of the range and past them, and sums of frames; queues
 * against sending one by one; noisy samples, near and too far, unfit and refused in their order; two recordings, the closer chosen and
 * handed back, one refused or both, and at odds; and records, written and read at every place, changed, cut short and refused in their
 * order. Every buffer is on the heap with its exact length, so that valgrind sees a byte too far. It ends with status 1 where
 * something differs. */
#include <inttypes.h>
#include <stdio.h>
#include <stdlib.h>
#include <string.h>
#include <xmmintrin.h>
#include "block.h"
#include "plain.h"
#include "frame_coder.h"

static unsigned long calls, wrong;

static void expect(const char *what, int kind, int grade, int64_t answer, int64_t expected)
{
    calls++;
    if (answer == expected)
        return;
    wrong++;
    printf("%s, kind %d, grade %d: %" PRId64 " and not %" PRId64 "\n", what, kind, grade, answer, expected);
}

static void *room(size_t size)
{
    void *room = calloc(size > 0 ? size : 1, 1);
    if (room == NULL)
        exit(2);
    return room;
}

/* Room that was never set, so that valgrind tells of a load from it. */
static void *unset(size_t size)
{
    void *room = malloc(size > 0 ? size : 1);
    if (room == NULL)
        exit(2);
    return room;
}

/* The sums by their bits, as one may be no number. */
static int same_account(struct coder_account a, struct coder_account b)
{
    return a.count == b.count && memcmp(&a.sum, &b.sum, sizeof a.sum) == 0 && a.largest == b.largest &&
           a.changeover == b.changeover;
}

/* An account whose sum is no number, but bits that a copy keeps and an addition changes. */
static struct coder_account strange_account(uint32_t count, uint32_t changeover)
{
    const uint64_t bits = UINT64_C(0x7FF4000012345678);
    struct coder_account account = {count, 0.0, 3, changeover};
    memcpy(&account.sum, &bits, sizeof account.sum);
    return account;
}

/* A random message, or one with a tie: the last bit alone of one block or more, whose least members then have one coordinate that is
 * the scale in size, at any place and of either sign, and zeros. */
static void fill_one(int kind, int grade, uint8_t *message)
{
    const size_t bytes = coder_message_length(kind, grade), bits = coder_message_bits(kind, grade), over = bits % 8;
    const size_t blocks = coder_frame_length(kind) / 8, some = (size_t)rand() % blocks;
    const int tie = rand() % 2;
    for (size_t i = 0; i < bytes; i++)
        message[i] = tie ? 0 : (uint8_t)(rand() >> 7);
    if (!tie && over != 0)
        message[bytes - 1] &= (uint8_t)((1u << over) - 1);
    for (size_t j = 0; tie && j < blocks; j++) {
        const size_t last = bits - 8 * (size_t)grade * j - 1;
        if (j == some || rand() % 2)
            message[last / 8] |= (uint8_t)(1u << last % 8);
    }
}

/* A message whose fillings come in pairs of the same energy, those that differ in the last bit: half the scale at a coordinate of the
 * last block, the second to the fifth, anything at its eighth, and zeros. */
static void fill_pairs(int kind, int grade, uint8_t *message)
{
    const size_t bits = coder_message_bits(kind, grade), g = (size_t)grade;
    const size_t half = bits - 8 * g + (2 + (size_t)rand() % 4) * g - 2; /* the highest of the coordinate's bits */
    memset(message, 0, coder_message_length(kind, grade));
    message[half / 8] |= (uint8_t)(1u << half % 8);
    for (size_t k = bits - g - 1; k < bits; k++)
        message[k / 8] |= (uint8_t)((rand() >> 7 & 1) << k % 8);
}

/* So many messages of a kind and grade end to end. */
static void fill(int kind, int grade, uint8_t *messages, size_t number)
{
    for (size_t i = 0; i < number; i++)
        fill_one(kind, grade, messages + i * coder_message_length(kind, grade));
}

/* A frame that was sent under this number: it is what coder_send writes under every number of its parity; the open reading takes it,
 * and so does the strict reading under each number whose frame it is; under the others it is 9 and leaves the bytes. */
static void judge(int kind, int grade, uint32_t number, const uint8_t *message, const int32_t *frame, int64_t energy)
{
    const uint8_t k = (uint8_t)kind, g = (uint8_t)grade;
    const size_t bytes = coder_message_length(kind, grade), coordinates = coder_frame_length(kind);
    const size_t size = coordinates * sizeof *frame;
    const uint32_t others[] = {number, number + 1, number ^ UINT32_C(0x80000000), ~number};
    uint8_t *back = (uint8_t *)unset(bytes), *kept = (uint8_t *)room(bytes);
    int32_t *again = (int32_t *)unset(size);
    expect("judged, open", kind, grade, coder_read_open(k, g, 0, frame, coordinates, back, bytes), energy);
    expect("judged, open message", kind, grade, memcmp(back, message, bytes), 0);
    for (size_t i = 0; i < sizeof others / sizeof others[0]; i++) {
        const uint32_t other = others[i];
        expect("judged, again", kind, grade, coder_send(k, g, other, 0, message, bytes, again, coordinates), energy);
        const int own = memcmp(again, frame, size) == 0;
        if (other % 2 == number % 2)
            expect("judged, same rule", kind, grade, own, 1);
        memset(back, 0xA5, bytes);
        memset(kept, 0xA5, bytes);
        expect("judged, strict", kind, grade, coder_read_strict(k, g, other, 0, frame, coordinates, back, bytes),
               own ? energy : -CODER_REFUSED_UNSHAPED);
        expect("judged, strict message", kind, grade, memcmp(back, own ? message : kept, bytes), 0);
    }
    free(back);
    free(kept);
    free(again);
}

/* A queue of which nothing is sent, with an account of this count: the answer, `sent`, and the account to its last bit. */
static void queue(const char *what, int kind, int grade, const uint8_t *messages, size_t bytes, int32_t *frames, size_t coordinates,
                  uint32_t count, int64_t expected)
{
    const struct coder_account before = strange_account(count, 7);
    struct coder_account account = before;
    size_t sent = 12345;
    const int64_t answer = coder_send_queue((uint8_t)kind, (uint8_t)grade, messages, bytes, frames, coordinates, &account.count,
                                            &account.sum, &account.largest, account.changeover, &sent);
    expect(what, kind, grade, answer, expected);
    expect("queue, none sent", kind, grade, (int64_t)sent, 0);
    expect("queue, account kept", kind, grade, same_account(account, before), 1);
}

/* Two recordings as they are lent: coder_closer's answer, and of coder_closer_recording the same with the caller's own pointer and
 * length, or with the first's pointer and 0. */
static void choice(const char *what, int kind, int grade, const float *first, size_t first_len, const float *second, size_t second_len,
                   int64_t expected)
{
    expect(what, kind, grade, coder_closer((uint8_t)kind, (uint8_t)grade, first, first_len, second, second_len), expected);
    const struct coder_recording chosen = coder_closer_recording(kind, grade, first, first_len, second, second_len);
    expect("recording, answer", kind, grade, chosen.answer, expected);
    expect("recording, samples", kind, grade, chosen.samples == (expected == 2 ? second : first), 1);
    expect("recording, length", kind, grade, chosen.length == (expected == 1 ? first_len : expected == 2 ? second_len : 0), 1);
}

/* Nothing is lent, with a pointer to nowhere. */
static void empty(int kind, int grade, void *nowhere)
{
    const uint8_t k = (uint8_t)kind, g = (uint8_t)grade;
    const size_t bytes = coder_message_length(kind, grade), coordinates = coder_frame_length(kind);
    const int early = coordinates == 0 ? CODER_REFUSED_KIND : bytes == 0 ? CODER_REFUSED_GRADE : 0;
    const int no_message = early != 0 ? -early : -CODER_REFUSED_MESSAGE_LENGTH;
    const int no_frame = early != 0 ? -early : -CODER_REFUSED_FRAME_LENGTH;
    uint8_t *message = (uint8_t *)room(bytes), *lost = (uint8_t *)nowhere;
    int32_t *frame = (int32_t *)room(coordinates * sizeof *frame), *gone = (int32_t *)nowhere;
    const struct coder_account before = strange_account(5, 5);
    struct coder_account account = before;
    expect("send, no message", kind, grade, coder_send(k, g, 0, 0, lost, 0, frame, coordinates), no_message);
    expect("send, no frame", kind, grade, coder_send(k, g, 1, 0, message, bytes, gone, 0), no_frame);
    expect("send, neither", kind, grade, coder_send(k, g, UINT32_MAX, 0, lost, 0, gone, 0), no_message);
    expect("open, no frame", kind, grade, coder_read_open(k, g, 0, gone, 0, message, bytes), no_frame);
    expect("open, no message", kind, grade, coder_read_open(k, g, 0, frame, coordinates, lost, 0), no_message);
    expect("open, neither", kind, grade, coder_read_open(k, g, 0, gone, 0, lost, 0), no_frame);
    expect("strict, no frame", kind, grade, coder_read_strict(k, g, 0, 0, gone, 0, message, bytes), no_frame);
    expect("strict, no message", kind, grade, coder_read_strict(k, g, 1, 0, frame, coordinates, lost, 0), no_message);
    expect("strict, neither", kind, grade, coder_read_strict(k, g, UINT32_MAX, 0, gone, 0, lost, 0), no_frame);
    const int near_early = coordinates == 0 || kind == 6 ? -CODER_REFUSED_KIND : early != 0 ? -early : 0;
    const int no_bytes = near_early != 0 ? near_early : -CODER_REFUSED_MESSAGE_LENGTH;
    const int no_samples = near_early != 0 ? near_early : -CODER_REFUSED_FRAME_LENGTH;
    float *samples = (float *)room(coordinates * sizeof *samples), *quiet = (float *)nowhere;
    double *distance = (double *)room(sizeof *distance);
    *distance = -1.5;
    expect("near, no samples", kind, grade, coder_read_near(k, g, quiet, 0, message, bytes, distance), no_samples);
    expect("near, no message", kind, grade, coder_read_near(k, g, samples, coordinates, lost, 0, distance), no_bytes);
    expect("near, neither", kind, grade, coder_read_near(k, g, quiet, 0, lost, 0, distance), no_samples);
    expect("near, distance", kind, grade, *distance == -1.5, 1);
    choice("closer, no first", kind, grade, quiet, 0, samples, coordinates, near_early != 0 ? near_early : 2);
    choice("closer, no second", kind, grade, samples, coordinates, quiet, 0, near_early != 0 ? near_early : 1);
    choice("closer, neither", kind, grade, quiet, 0, quiet, 0, no_samples);
    choice("closer, null", kind, grade, NULL, 0, quiet, 0, no_samples);
    free(samples);
    free(distance);
    uint8_t *record = (uint8_t *)room(CODER_MAX_RECORD_LENGTH), its_kind = 0xA5, its_grade = 0xA5;
    uint32_t number = 12345;
    size_t next = 12345;
    const int no_room = early != 0 ? -early : -CODER_REFUSED_RECORD_END;
    expect("record, no message", kind, grade, coder_write_record(k, g, 1, lost, 0, record, CODER_MAX_RECORD_LENGTH, 0, &next),
           no_message);
    expect("record, no buffer", kind, grade, coder_write_record(k, g, 1, message, bytes, lost, 0, 0, &next), no_room);
    expect("record, neither", kind, grade, coder_write_record(k, g, 1, lost, 0, lost, 0, 7, &next), no_message);
    expect("record read, no buffer", kind, grade,
           coder_read_record(lost, 0, 0, frame, coordinates, &its_kind, &its_grade, &number, &next), -CODER_REFUSED_MARK);
    record[0] = 0x4C;
    record[1] = 0x46;
    record[2] = k;
    record[3] = g;
    expect("record read, no frame", kind, grade,
           coder_read_record(record, CODER_MAX_RECORD_LENGTH, 0, gone, 0, &its_kind, &its_grade, &number, &next), no_frame);
    expect("record read, neither", kind, grade, coder_read_record(lost, 0, SIZE_MAX, gone, 0, &its_kind, &its_grade, &number, &next),
           -CODER_REFUSED_MARK);
    expect("record, coordinates of none", kind, grade, (int64_t)coder_frame_length_at(lost, 0, 0), 0);
    expect("record, kept", kind, grade, its_kind == 0xA5 && its_grade == 0xA5 && number == 12345 && next == 12345, 1);
    free(record);
    expect("counted, no message", kind, grade,
           coder_send_counted(k, g, 0, lost, 0, frame, coordinates, &account.count, &account.sum, &account.largest, account.changeover),
           no_message);
    expect("account, no frame", kind, grade, coder_account_send(&account, kind, grade, 0, message, bytes, gone, 0), no_frame);
    expect("account, kind", kind, grade, coder_account_send(&account, kind + 256, grade, 0, message, bytes, frame, coordinates),
           -CODER_REFUSED_KIND);
    if (coordinates != 0)
        expect("account, grade", kind, grade, coder_account_send(&account, kind, grade - 256, 0, message, bytes, frame, coordinates),
               -CODER_REFUSED_GRADE);
    expect("account kept", kind, grade, same_account(account, before), 1);
    if (early == 0) {
        queue("queue, no frames", kind, grade, message, bytes, gone, 0, 5, no_frame);
        queue("queue, no messages", kind, grade, lost, 0, frame, coordinates, 5, no_frame);
    }
    queue("queue, neither", kind, grade, lost, 0, gone, 0, 5, -early);
    queue("queue, neither, full", kind, grade, lost, 0, gone, 0, CODER_MAX_COUNT, -early);
    size_t sent = 12345;
    expect("queue, kind", kind, grade, coder_account_send_queue(&account, kind + 256, grade, lost, 0, gone, 0, &sent),
           -CODER_REFUSED_KIND);
    expect("queue, kind, sent", kind, grade, (int64_t)sent, 0);
    if (coordinates != 0) {
        sent = 12345;
        expect("queue, grade", kind, grade, coder_account_send_queue(&account, kind, grade - 256, lost, 0, gone, 0, &sent),
               -CODER_REFUSED_GRADE);
        expect("queue, grade, sent", kind, grade, (int64_t)sent, 0);
    }
    free(message);
    free(frame);
}

/* A message with accounts from elsewhere, whose frame has this energy and this largest block: sent, and refused as the account is
 * full. */
static void elsewhere(int kind, int grade, const uint8_t *message, size_t bytes, size_t coordinates, int64_t energy, uint64_t block)
{
    const uint64_t figures[] = {0, 1, block - 1, block, block + 1, UINT64_C(1) << 32, UINT64_C(1) << 63, UINT64_MAX};
    int32_t *frame = (int32_t *)room(coordinates * sizeof *frame);
    for (size_t i = 0; i < sizeof figures / sizeof figures[0]; i++) {
        const uint32_t changeover = i % 2 == 0 ? 0 : CODER_MAX_COUNT - 1 + (uint32_t)i;
        const struct coder_account last = {CODER_MAX_COUNT - 1, 0.25, figures[i], changeover};
        const struct coder_account grown = {CODER_MAX_COUNT, 0.25 + (double)energy / (double)coordinates,
                                            figures[i] < block ? block : figures[i], changeover};
        const struct coder_account full = {CODER_MAX_COUNT, 0.25, figures[i], changeover};
        struct coder_account account = last;
        expect("last", kind, grade, coder_account_send(&account, kind, grade, 0, message, bytes, frame, coordinates), energy);
        expect("last account", kind, grade, same_account(account, grown), 1);
        if (i < 2) /* under 999999, and under 0 */
            judge(kind, grade, coder_account_number(&last), message, frame, energy);
        account = full;
        memset(frame, 0x5A, coordinates * sizeof *frame);
        expect("full", kind, grade, coder_account_send(&account, kind, grade, 0, message, bytes, frame, coordinates),
               -CODER_REFUSED_ACCOUNT_FULL);
        expect("full account", kind, grade, same_account(account, full), 1);
        int64_t changed = 0;
        for (size_t p = 0; p < coordinates; p++)
            changed += frame[p] != 0x5A5A5A5A;
        expect("full, frame", kind, grade, changed, 0);
    }
    free(frame);
}

/* A message, sent with an account at its beginning and judged; and refused for its spare bits. */
static void there_and_back(int kind, int grade)
{
    const uint8_t k = (uint8_t)kind, g = (uint8_t)grade;
    const size_t bytes = coder_message_length(kind, grade), coordinates = coder_frame_length(kind);
    uint8_t *message = (uint8_t *)room(bytes);
    int32_t *frame = (int32_t *)unset(coordinates * sizeof *frame);
    struct coder_account account;
    int64_t energy = 0;
    uint64_t block = 0, largest = 0;
    fill_one(kind, grade, message);
    expect("opened", kind, grade, coder_account_open(&account, rand() % 3), 0);
    const uint32_t changeover = account.changeover;
    const int64_t answer = coder_account_send(&account, kind, grade, 0, message, bytes, frame, coordinates);
    for (size_t p = 0; p < coordinates; p++) {
        energy += (int64_t)frame[p] * frame[p];
        block = (p % 8 == 0 ? 0 : block) + (uint64_t)((int64_t)frame[p] * frame[p]);
        largest = block > largest ? block : largest;
        expect("range", kind, grade, frame[p] < -128 || frame[p] > 128, 0);
    }
    expect("energy", kind, grade, answer, energy);
    const struct coder_account grown = {1, (double)energy / (double)coordinates, largest, changeover};
    expect("account", kind, grade, same_account(account, grown), 1);
    judge(kind, grade, 0, message, frame, energy);
    elsewhere(kind, grade, message, bytes, coordinates, energy, largest);
    int32_t *plain = (int32_t *)unset(coordinates * sizeof *plain);
    const uint32_t any = (uint32_t)rand();
    for (uint32_t number = any; number - any < 2; number++) {
        expect("under a number", kind, grade, coder_send(k, g, number, 0, message, bytes, frame, coordinates), energy);
        judge(kind, grade, number, message, frame, energy);
        expect("mask test", kind, grade, plain_send(k, g, number, message, bytes, plain, coordinates), energy);
        expect("mask test, frame", kind, grade, memcmp(plain, frame, coordinates * sizeof *frame), 0);
    }
    free(plain);
    if (coder_message_bits(kind, grade) % 8 != 0) {
        int32_t *kept = (int32_t *)room(coordinates * sizeof *kept);
        memcpy(kept, frame, coordinates * sizeof *kept);
        message[bytes - 1] |= 0x80;
        for (uint32_t other = 0; other < 2; other++) {
            expect("spare", kind, grade, coder_send(k, g, other, 0, message, bytes, frame, coordinates), -CODER_REFUSED_SPARE_BITS);
            expect("mask test, spare", kind, grade, plain_send(k, g, other, message, bytes, frame, coordinates),
                   -CODER_REFUSED_SPARE_BITS);
        }
        expect("spare, frame", kind, grade, memcmp(kept, frame, coordinates * sizeof *kept), 0);
        free(kept);
    }
    free(message);
    free(frame);
}

/* Frames by hand, at grade 1: that of an even number, and that of an odd one. */
static void by_hand(void)
{
    static const struct {
        int kind;
        uint8_t message[5];
        int64_t energy;
        int32_t even[16], odd[16];
    } cases[] = {
        {3, {0x00, 0x08}, 16, {-4}, {4}},
        {3, {0x01, 0x00}, 8, {-1, -1, -1, -1, -1, -1, -1, -1}, {1, 1, 1, 1, 1, 1, 1, 1}},
        {3, {0x02, 0x08}, 12, {0, -3, 0, 1, 0, 1, 0, 1}, {0, 1, 0, 1, 0, 1, 0, -3}},
        {3, {0x02, 0x00}, 4, {0, 1, 0, 1, 0, 1, 0, 1}, {0, 1, 0, 1, 0, 1, 0, 1}},
        {4, {0x20}, 64, {-2, -2, -2, -2, -2, -2, -2, -2, -2, -2, -2, -2, -2, -2, -2, -2}, {2, 2, 2, 2, 2, 2, 2, 2, 2, 2, 2, 2, 2, 2, 2, 2}},
        {4, {0x01}, 16, {1, 1, 1, 1, 1, 1, 1, 1, 1, 1, 1, 1, 1, 1, 1, 1}, {1, 1, 1, 1, 1, 1, 1, 1, 1, 1, 1, 1, 1, 1, 1, 1}},
    };
    static const uint32_t numbers[] = {0, 1, 2, 3, 999999, 1000000, UINT32_C(0x7FFFFFFF), UINT32_C(0x80000000), UINT32_MAX - 1, UINT32_MAX};
    for (size_t i = 0; i < sizeof cases / sizeof cases[0]; i++) {
        const int kind = cases[i].kind;
        const size_t bytes = coder_message_length(kind, 1), coordinates = coder_frame_length(kind);
        uint8_t *message = (uint8_t *)room(bytes);
        memcpy(message, cases[i].message, bytes);
        for (size_t j = 0; j < sizeof numbers / sizeof numbers[0]; j++) {
            int32_t *frame = (int32_t *)unset(coordinates * sizeof *frame);
            expect("by hand", kind, 1, coder_send((uint8_t)kind, 1, numbers[j], 0, message, bytes, frame, coordinates), cases[i].energy);
            const int32_t *own = numbers[j] % 2 == 0 ? cases[i].even : cases[i].odd;
            expect("by hand, frame", kind, 1, memcmp(frame, own, coordinates * sizeof *frame), 0);
            judge(kind, 1, numbers[j], message, frame, cases[i].energy);
            free(frame);
        }
        free(message);
    }
}

/* Sets the last bits of a message, so many of them, to a filling, lowest bit first. */
static void set_filling(int kind, int grade, int bits, int filling, uint8_t *message)
{
    const size_t from = coder_message_bits(kind, grade) - (size_t)bits;
    for (size_t t = 0; t < (size_t)bits; t++) {
        const uint8_t bit = (uint8_t)(1u << (from + t) % 8);
        if (filling >> t & 1)
            message[(from + t) / 8] |= bit;
        else
            message[(from + t) / 8] &= (uint8_t)~bit;
    }
}

/* Every frame of a filling is read as the message with its free bits 0: openly, and strictly where it is the one that is sent; any
 * other is 9 under numbers of both parities, and leaves the bytes. */
static void read_filling(int kind, int grade, uint32_t number, int bits, const uint8_t *message, const int32_t *frame, int64_t energy,
                         int sent)
{
    const uint8_t k = (uint8_t)kind, g = (uint8_t)grade, f = (uint8_t)bits;
    const size_t bytes = coder_message_length(kind, grade), coordinates = coder_frame_length(kind);
    uint8_t *back = (uint8_t *)unset(bytes), *kept = (uint8_t *)room(bytes);
    expect("filling, open", kind, grade, coder_read_open(k, g, f, frame, coordinates, back, bytes), energy);
    expect("filling, open message", kind, grade, memcmp(back, message, bytes), 0);
    memset(back, 0xA5, bytes);
    memset(kept, 0xA5, bytes);
    if (!sent)
        expect("filling, other number", kind, grade, coder_read_strict(k, g, number ^ 1, f, frame, coordinates, back, bytes),
               -CODER_REFUSED_UNSHAPED);
    expect("filling, strict", kind, grade, coder_read_strict(k, g, number, f, frame, coordinates, back, bytes),
           sent ? energy : -CODER_REFUSED_UNSHAPED);
    expect("filling, strict message", kind, grade, memcmp(back, sent ? message : kept, bytes), 0);
    free(back);
    free(kept);
}

/* A message with so many bits free, against its fillings sent by themselves: sent is the frame of the smallest of least energy, alone
 * and with an account, which grows by it as by any other; and each is read. What is sent is read strictly with fewer free bits too.
 * With a free bit set the message is refused. Gives the number of fillings that are as quiet and not sent. */
static int quiet(int kind, int grade, uint32_t number, int bits, const uint8_t *given)
{
    const uint8_t k = (uint8_t)kind, g = (uint8_t)grade, f = (uint8_t)bits;
    const size_t bytes = coder_message_length(kind, grade), coordinates = coder_frame_length(kind);
    const size_t size = coordinates * sizeof(int32_t);
    uint8_t *message = (uint8_t *)room(bytes), *filled = (uint8_t *)room(bytes);
    int32_t *frame = (int32_t *)unset(size), *counted = (int32_t *)unset(size), *own = (int32_t *)unset(size);
    memcpy(message, given, bytes);
    set_filling(kind, grade, bits, 0, message);
    memcpy(filled, message, bytes);
    const int64_t energy = coder_send(k, g, number, f, message, bytes, frame, coordinates);
    const struct coder_account before = {number % 1000, 0.25, 3, 0}; /* its next frame has a number of the same parity */
    struct coder_account account = before;
    expect("quiet, account", kind, grade, coder_account_send(&account, kind, grade, bits, message, bytes, counted, coordinates), energy);
    int64_t least = INT64_MAX;
    uint64_t block = 0, largest = before.largest;
    int smallest = 0, as_quiet = 0;
    for (int filling = 0; filling < 1 << bits; filling++) {
        set_filling(kind, grade, bits, filling, filled);
        const int64_t one = coder_send(k, g, number, 0, filled, bytes, own, coordinates);
        smallest = one < least ? filling : smallest;
        least = one < least ? one : least;
    }
    expect("quiet, energy", kind, grade, energy, least);
    for (int filling = 0; filling < 1 << bits; filling++) {
        set_filling(kind, grade, bits, filling, filled);
        const int64_t one = coder_send(k, g, number, 0, filled, bytes, own, coordinates);
        expect("quiet, frame", kind, grade, memcmp(own, frame, size) == 0, filling == smallest);
        expect("quiet, frame with an account", kind, grade, memcmp(own, counted, size) == 0, filling == smallest);
        read_filling(kind, grade, number, bits, message, own, one, filling == smallest);
        as_quiet += one == least && filling != smallest;
    }
    for (int fewer = 0; fewer < bits; fewer++) {
        set_filling(kind, grade, bits, smallest, filled);
        set_filling(kind, grade, fewer, 0, filled);
        read_filling(kind, grade, number, fewer, filled, frame, energy, 1);
    }
    for (size_t p = 0; p < coordinates; p++) {
        block = (p % 8 == 0 ? 0 : block) + (uint64_t)((int64_t)counted[p] * counted[p]);
        largest = block > largest ? block : largest;
    }
    const struct coder_account grown = {before.count + 1, 0.25 + (double)energy / (double)coordinates, largest, 0};
    expect("quiet, account grown", kind, grade, same_account(account, grown), 1);
    for (int t = 0; t < bits; t++) {
        set_filling(kind, grade, bits, 1 << t, filled);
        memcpy(own, frame, size);
        account = before;
        expect("free bit set", kind, grade, coder_send(k, g, number, f, filled, bytes, own, coordinates), -CODER_REFUSED_SPARE_BITS);
        expect("free bit set, account", kind, grade,
               coder_account_send(&account, kind, grade, bits, filled, bytes, own, coordinates), -CODER_REFUSED_SPARE_BITS);
        expect("free bit set, frame", kind, grade, memcmp(own, frame, size), 0);
        expect("free bit set, account kept", kind, grade, same_account(account, before), 1);
    }
    free(message);
    free(filled);
    free(frame);
    free(counted);
    free(own);
    return as_quiet;
}

/* Free counts above 4, which come before all but kind and grade; and ints that would be good ones if they were narrowed. */
static void free_counts(int kind, int grade)
{
    static const int counts[] = {5, 6, 8, 127, 128, 255, 256, 260, -1, -252, -256, INT32_MAX};
    const uint8_t k = (uint8_t)kind, g = (uint8_t)grade;
    const size_t bytes = coder_message_length(kind, grade), coordinates = coder_frame_length(kind);
    const struct coder_account before = strange_account(CODER_MAX_COUNT, 7);
    uint8_t *message = (uint8_t *)room(bytes + 1);
    int32_t *frame = (int32_t *)room((coordinates + 1) * sizeof *frame);
    memset(message, 0xFF, bytes + 1);
    for (size_t i = 0; i < sizeof counts / sizeof counts[0]; i++)
        for (size_t over = 0; over < 2; over++) {
            const size_t m = bytes + over, n = coordinates + over;
            struct coder_account account = before;
            expect("free count, account", kind, grade, coder_account_send(&account, kind, grade, counts[i], message, m, frame, n),
                   -CODER_REFUSED_FREE_COUNT);
            expect("free count, kind", kind, grade, coder_account_send(&account, kind + 4, grade, counts[i], message, m, frame, n),
                   -CODER_REFUSED_KIND);
            expect("free count, grade", kind, grade, coder_account_send(&account, kind, grade + 4, counts[i], message, m, frame, n),
                   -CODER_REFUSED_GRADE);
            expect("free count, account kept", kind, grade, same_account(account, before), 1);
            if (counts[i] < 0 || counts[i] > 255)
                continue;
            const uint8_t f = (uint8_t)counts[i];
            expect("free count, send", kind, grade, coder_send(k, g, 1, f, message, m, frame, n), -CODER_REFUSED_FREE_COUNT);
            expect("free count, open", kind, grade, coder_read_open(k, g, f, frame, n, message, m), -CODER_REFUSED_FREE_COUNT);
            expect("free count, strict", kind, grade, coder_read_strict(k, g, 0, f, frame, n, message, m),
                   -CODER_REFUSED_FREE_COUNT);
            expect("free count, kind", kind, grade, coder_send((uint8_t)(k + 4), g, 1, f, message, m, frame, n), -CODER_REFUSED_KIND);
            expect("free count, grade", kind, grade, coder_read_open(k, (uint8_t)(g + 4), f, frame, n, message, m),
                   -CODER_REFUSED_GRADE);
        }
    int64_t changed = 0;
    for (size_t p = 0; p <= coordinates; p++)
        changed += frame[p] != 0;
    for (size_t i = 0; i <= bytes; i++)
        changed += message[i] != 0xFF;
    expect("free count, kept", kind, grade, changed, 0);
    free(message);
    free(frame);
}

/* Free bits by hand: 12 00 at kind 3, grade 1, whose fillings with two bits free have the energies 12, 4, 4 and 12. Filling 1 is
 * sent. */
static void quiet_by_hand(void)
{
    static const uint8_t message[2] = {0x12, 0x00};
    static const int32_t frames[2][8] = {{0, -1, 0, 1, 0, 1, 0, -1}, {0, -1, 0, 1, 0, 1, 0, 1}};
    static const int64_t energies[4] = {12, 4, 4, 12};
    for (uint32_t number = 0; number < 2; number++) {
        int32_t frame[8];
        expect("quiet by hand", 3, 1, coder_send(3, 1, number, 2, message, 2, frame, 8), 4);
        expect("quiet by hand, frame", 3, 1, memcmp(frame, frames[0], sizeof frame), 0);
        struct coder_account account = {number, 0.25, 3, 0};
        memset(frame, 0, sizeof frame);
        expect("quiet by hand, account", 3, 1, coder_account_send(&account, 3, 1, 2, message, 2, frame, 8), 4);
        expect("quiet by hand, frame with an account", 3, 1, memcmp(frame, frames[0], sizeof frame), 0);
        for (int filling = 0; filling < 4; filling++) {
            uint8_t filled[2] = {0x12, 0x00};
            set_filling(3, 1, 2, filling, filled);
            expect("filling by hand", 3, 1, coder_send(3, 1, number, 0, filled, 2, frame, 8), energies[filling]);
            if (filling == 1 || filling == 2)
                expect("filling by hand, frame", 3, 1, memcmp(frame, frames[filling - 1], sizeof frame), 0);
            read_filling(3, 1, number, 2, message, frame, energies[filling], filling == 1);
        }
    }
}

/* Accounts opened, over memory that was never set and over memory that was: with a good changeover, and refused, with zero in each
 * figure. */
static void opening(void)
{
    static const struct {
        int64_t changeover;
        int answer;
    } cases[] = {{0, 0}, {1, 0}, {999999, 0}, {CODER_MAX_COUNT, 0}, {1000001, -CODER_REFUSED_CHANGEOVER},
                 {INT64_C(0x7FFFFFFF), -CODER_REFUSED_CHANGEOVER}, {INT64_C(0x80000000), -CODER_REFUSED_CHANGEOVER},
                 {UINT32_MAX, -CODER_REFUSED_CHANGEOVER}, {INT64_C(0x100000000), -CODER_REFUSED_CHANGEOVER},
                 {INT64_C(0x100000001), -CODER_REFUSED_CHANGEOVER}, {-1, -CODER_REFUSED_CHANGEOVER},
                 {-INT64_C(0xFFFFFFFF), -CODER_REFUSED_CHANGEOVER}, {INT64_MIN, -CODER_REFUSED_CHANGEOVER},
                 {INT64_MAX, -CODER_REFUSED_CHANGEOVER}};
    for (size_t i = 0; i < sizeof cases / sizeof cases[0]; i++) {
        const int64_t changeover = cases[i].changeover, answer = cases[i].answer;
        const struct coder_account begun = {0, 0.0, 0, answer == 0 ? (uint32_t)changeover : 0};
        for (int set = 0; set < 2; set++) {
            struct coder_account *account = (struct coder_account *)unset(sizeof *account);
            if (set)
                memset(account, 0xA5, sizeof *account);
            expect("open", 0, 0, coder_account_open(account, changeover), answer);
            expect("opened", 0, 0, same_account(*account, begun), 1);
            expect("opened, number", 0, 0, coder_account_number(account), 0);
            if (set)
                memset(account, 0xA5, sizeof *account);
            if (changeover >= 0 && changeover <= UINT32_MAX) {
                expect("open by parts", 0, 0,
                       coder_open((uint32_t)changeover, &account->count, &account->sum, &account->largest, &account->changeover), answer);
                expect("opened by parts", 0, 0, same_account(*account, begun), 1);
            }
            free(account);
        }
    }
}

/* Messages sent with accounts that are opened with a changeover, from before the first of them to behind the last; between them one
 * that is refused, which takes no number. Each frame is judged under its number, and the figures are those of an account that has its
 * changeover at the end. */
static void across(int kind, int grade)
{
    enum { SENT = 6 };
    const size_t bytes = coder_message_length(kind, grade), coordinates = coder_frame_length(kind);
    uint8_t *messages = (uint8_t *)room(SENT * bytes);
    int32_t *frame = (int32_t *)unset(coordinates * sizeof *frame);
    fill(kind, grade, messages, SENT);
    for (uint32_t changeover = 0; changeover <= SENT + 1; changeover++) {
        struct coder_account account, old;
        expect("opened", kind, grade, coder_account_open(&account, changeover), 0);
        expect("opened", kind, grade, coder_account_open(&old, CODER_MAX_COUNT), 0);
        for (uint32_t i = 0; i < SENT; i++) {
            const uint8_t *message = messages + i * bytes;
            const uint32_t number = i < changeover ? 0 : i;
            expect("number", kind, grade, coder_account_number(&account), number);
            expect("number at", kind, grade, coder_number_at(changeover, i), number);
            expect("refused", kind, grade, coder_account_send(&account, kind, grade, 0, message, bytes, frame, coordinates + 1),
                   -CODER_REFUSED_FRAME_LENGTH);
            const int64_t energy = coder_account_send(&old, kind, grade, 0, message, bytes, frame, coordinates);
            judge(kind, grade, 0, message, frame, energy);
            expect("across", kind, grade, coder_account_send(&account, kind, grade, 0, message, bytes, frame, coordinates), energy);
            judge(kind, grade, number, message, frame, energy);
            expect("old changeover", kind, grade, old.changeover, CODER_MAX_COUNT);
            old.changeover = changeover;
            expect("across, account", kind, grade, same_account(account, old), 1);
            old.changeover = CODER_MAX_COUNT;
        }
    }
    free(messages);
    free(frame);
}

/* Frames of kind 6 with one coordinate that is not 0: the lowest broken level is answered. */
static void broken(int grade)
{
    static const int numbers[] = {0, CODER_REFUSED_BROKEN_LEVEL_0, CODER_REFUSED_BROKEN_LEVEL_1, CODER_REFUSED_BROKEN_LEVEL_0,
                                  CODER_REFUSED_BROKEN_LEVEL_2, CODER_REFUSED_BROKEN_LEVEL_0, CODER_REFUSED_BROKEN_LEVEL_1,
                                  CODER_REFUSED_BROKEN_LEVEL_0};
    const size_t bytes = coder_message_length(6, grade);
    uint8_t *message = (uint8_t *)room(bytes);
    int32_t *frame = (int32_t *)room(CODER_FRAME_LENGTH(6) * sizeof *frame);
    for (int x = 0; x < 8; x++) {
        frame[63] = x;
        expect("broken, open", 6, grade, coder_read_open(6, (uint8_t)grade, 0, frame, CODER_FRAME_LENGTH(6), message, bytes), -numbers[x]);
        for (uint32_t number = 0; number < 2; number++)
            expect("broken, strict", 6, grade,
                   coder_read_strict(6, (uint8_t)grade, number, 0, frame, CODER_FRAME_LENGTH(6), message, bytes), -numbers[x]);
    }
    free(message);
    free(frame);
}

/* Both readings of a copy of the frame with its exact length, with so many bits free: the answer of the open one, and of the strict
 * one under an even and an odd number. Where a reading takes the frame it is this message, else all bytes are as before. */
static void readings(const char *what, int kind, int grade, int bits, const int32_t *frame, int64_t open, int64_t even, int64_t odd,
                     const uint8_t *message)
{
    const uint8_t k = (uint8_t)kind, g = (uint8_t)grade, f = (uint8_t)bits;
    const size_t bytes = coder_message_length(kind, grade), n = coder_frame_length(kind), size = n * sizeof *frame;
    const uint32_t any = 2 * (uint32_t)rand();
    int32_t *lent = (int32_t *)room(size);
    uint8_t *back = (uint8_t *)room(bytes), *kept = (uint8_t *)room(bytes);
    memcpy(lent, frame, size);
    memset(kept, 0xA5, bytes);
    for (uint32_t rule = 0; rule < 3; rule++) { /* even, odd, and open */
        const int64_t expected = rule == 2 ? open : rule == 1 ? odd : even;
        memset(back, 0xA5, bytes);
        const int64_t answer = rule == 2 ? coder_read_open(k, g, f, lent, n, back, bytes)
                                         : coder_read_strict(k, g, any + rule, f, lent, n, back, bytes);
        expect(what, kind, grade, answer, expected);
        expect("reading, message", kind, grade, memcmp(back, expected < 0 ? kept : message, bytes), 0);
    }
    expect("reading, frame kept", kind, grade, memcmp(lent, frame, size), 0);
    free(lent);
    free(back);
    free(kept);
}

/* A frame that both readings refuse by this number. */
static void unread(const char *what, int kind, int grade, int bits, const int32_t *frame, int number)
{
    readings(what, kind, grade, bits, frame, -number, -number, -number, NULL);
}

/* Every coordinate at both ends of the range, one before them and one past them, and at the ends of int32_t, with zeros at the other
 * places and with all of them at the end. A multiple of 256 at each place is a point of the lattice: the message is zeros. */
static void ends(int kind, int grade)
{
    const int32_t far_end = 16777216;
    const size_t n = coder_frame_length(kind);
    static const uint8_t zeros[CODER_MAX_MESSAGE_LENGTH] = {0};
    int32_t frame[CODER_MAX_FRAME_LENGTH];
    expect("largest coordinate", kind, grade, CODER_MAX_COORDINATE, far_end);
    for (int32_t sign = -1; sign <= 1; sign += 2)
        for (size_t p = 0; p < 2 * n; p++) {
            const int bits = (int)p % (CODER_MAX_FREE + 1);
            const int32_t others = p < n ? 0 : sign * far_end;
            int32_t *x = &frame[p % n];
            for (size_t q = 0; q < n; q++)
                frame[q] = others;
            *x = sign * far_end;
            readings("end", kind, grade, bits, frame, (int64_t)(p < n ? 1 : n) << 48, -CODER_REFUSED_UNSHAPED,
                     -CODER_REFUSED_UNSHAPED, zeros);
            *x = sign * (far_end - 1);
            unread("before the end", kind, grade, bits, frame, CODER_REFUSED_BROKEN_LEVEL_0);
            *x = sign * (far_end + 1);
            unread("past the end", kind, grade, bits, frame, CODER_REFUSED_OVER_RANGE);
            *x = sign < 0 ? INT32_MIN : INT32_MAX;
            unread("far past the end", kind, grade, bits, frame, CODER_REFUSED_OVER_RANGE);
        }
}

/* By hand: past the range of document 01 a coordinate is read like any other. Of frames of kind 6 that are 2 where three bits of the
 * place are set, two that have two of these in common add up to a sum that is read, and two that have none to one that is 13. */
static void far_by_hand(void)
{
    static const uint8_t ones[2] = {0x01, 0x00};
    static const size_t bits[3] = {29, 30, 48}, masks[3] = {7, 11, 56};
    const int64_t energy = 8 * INT64_C(1048577) * 1048577;
    int32_t frame[8], frames[3][64], sum[64];
    uint8_t message[CODER_MESSAGE_LENGTH(6, 1)];
    for (int32_t x = -1048577; x <= 1048577; x += 2 * 1048577) {
        for (size_t p = 0; p < 8; p++)
            frame[p] = x;
        readings("1048577", 3, 1, 0, frame, energy, -CODER_REFUSED_UNSHAPED, -CODER_REFUSED_UNSHAPED, ones);
        memset(frame + 1, 0, 7 * sizeof *frame);
        unread("1048577 alone", 3, 1, 0, frame, CODER_REFUSED_BROKEN_LEVEL_0);
    }
    for (size_t i = 0; i < 3; i++) {
        memset(message, 0, sizeof message);
        message[bits[i] / 8] = (uint8_t)(1u << bits[i] % 8);
        expect("to be added", 6, 1, coder_send(6, 1, 0, 0, message, sizeof message, frames[i], 64), 32);
        for (size_t p = 0; p < 64; p++)
            expect("to be added, frame", 6, 1, frames[i][p], (p & masks[i]) == masks[i] ? 2 : 0);
    }
    for (size_t p = 0; p < 64; p++)
        sum[p] = frames[0][p] + frames[2][p];
    unread("sum outside", 6, 1, 0, sum, CODER_REFUSED_BROKEN_LEVEL_2);
    for (size_t p = 0; p < 64; p++)
        sum[p] = frames[0][p] + frames[1][p];
    memset(message, 0, sizeof message);
    message[3] = 0x60; /* bits 29 and 30 */
    message[11] = 0x08; /* bit 91, of level 2: 4 where four bits of the place are set */
    readings("sum", 6, 1, 0, sum, 96, 96, 96, message);
}

/* Whether two frames differ by a point of the lattice: in each block by half the scale times numbers of one parity, whose sum 4
 * divides. */
static int same_class(int kind, int grade, const int32_t *x, const int32_t *y)
{
    const int32_t half = 1 << ((kind == 3 ? 1 : kind == 6 ? 3 : 2) + grade - 1);
    int32_t sum = 0, first = 0;
    for (size_t p = 0; p < coder_frame_length(kind); p++) {
        const int32_t off = x[p] - y[p], w = off / half;
        if (p % 8 == 0) {
            sum = 0;
            first = w;
        }
        sum += w;
        if (off % half != 0 || (w - first) % 2 != 0 || (p % 8 == 7 && sum % 4 != 0))
            return 0;
    }
    return 1;
}

/* A sum of sent frames, of any grades and numbers, up to 131072 of them: the answer is its energy, or at kind 6 it may be 13. The
 * frames of the message that is read are of its class, and strictly it is read where it is one of them. Gives the answer. */
static int64_t sum_of_frames(int kind, int grade)
{
    const uint8_t k = (uint8_t)kind, g = (uint8_t)grade;
    const size_t bytes = coder_message_length(kind, grade), n = coder_frame_length(kind), size = n * sizeof(int32_t);
    uint8_t *message = (uint8_t *)room(CODER_MAX_MESSAGE_LENGTH), *back = (uint8_t *)room(bytes);
    int32_t *frame = (int32_t *)room(size), *sum = (int32_t *)room(size), left = 131072;
    int64_t energy = 0, strict[2];
    for (int i = 0; i < 4 && left > 0; i++) {
        const int any = 1 + rand() % 4;
        const int32_t times = rand() % 3 == 0 ? left : rand() % 2 == 0 ? 1 : 1 + rand() % left;
        fill_one(kind, any, message);
        expect("to be added", kind, any,
               coder_send(k, (uint8_t)any, (uint32_t)rand(), 0, message, coder_message_length(kind, any), frame, n) >= 0, 1);
        for (size_t p = 0; p < n; p++)
            sum[p] += times * frame[p];
        left -= times;
    }
    for (size_t p = 0; p < n; p++)
        energy += (int64_t)sum[p] * sum[p];
    const int64_t answer = coder_read_open(k, g, 0, sum, n, back, bytes);
    const int64_t expected = kind == 6 && answer < 0 ? -CODER_REFUSED_BROKEN_LEVEL_2 : energy;
    strict[0] = strict[1] = expected;
    for (uint32_t number = 0; number < 2 && expected >= 0; number++) {
        expect("sum, sent", kind, grade, coder_send(k, g, number, 0, back, bytes, frame, n) >= 0, 1);
        expect("sum, class", kind, grade, same_class(kind, grade, sum, frame), 1);
        strict[number] = memcmp(sum, frame, size) == 0 ? energy : -CODER_REFUSED_UNSHAPED;
    }
    readings("sum", kind, grade, 0, sum, expected, strict[0], strict[1], back);
    free(message);
    free(back);
    free(frame);
    free(sum);
    return answer;
}

/* A queue of so many messages, the one at the place `bad` with a spare bit set, against sending them one by one, each frame judged
 * under its number: into frames that were set, which keep their values from the refused one on, and into frames that never were. */
static void in_turn(int kind, int grade, size_t number, size_t bad, const struct coder_account before)
{
    const size_t bytes = coder_message_length(kind, grade), coordinates = coder_frame_length(kind);
    const size_t size = number * coordinates * sizeof(int32_t);
    const size_t left = before.count < CODER_MAX_COUNT ? CODER_MAX_COUNT - before.count : 0;
    uint8_t *messages = (uint8_t *)room(number * bytes);
    int32_t *one = (int32_t *)room(size), *set = (int32_t *)room(size), *fresh = (int32_t *)unset(size);
    struct coder_account by_one = before, by_queue = before, by_fresh = before;
    size_t stop = number, sent = 12345;
    int expected = 0;
    if (left < stop) {
        stop = left;
        expected = -CODER_REFUSED_ACCOUNT_FULL;
    }
    fill(kind, grade, messages, number);
    if (bad < number) {
        messages[bad * bytes + bytes - 1] |= (uint8_t)(0x10 << bad % 4);
        if (bad <= stop) { /* spare bits come before the account */
            stop = bad;
            expected = -CODER_REFUSED_SPARE_BITS;
        }
    }
    memset(one, 0x5A, size);
    memset(set, 0x5A, size);
    for (size_t i = 0; i < number && i <= stop; i++) {
        const int64_t answer =
            coder_account_send(&by_one, kind, grade, 0, messages + i * bytes, bytes, one + i * coordinates, coordinates);
        expect("one by one", kind, grade, answer < 0 ? answer : 0, i < stop ? 0 : expected);
        if (answer >= 0)
            judge(kind, grade, coder_number_at(before.changeover, before.count + (uint32_t)i), messages + i * bytes,
                  one + i * coordinates, answer);
    }
    const int64_t answer = coder_send_queue((uint8_t)kind, (uint8_t)grade, messages, number * bytes, set, number * coordinates,
                                            &by_queue.count, &by_queue.sum, &by_queue.largest, by_queue.changeover, &sent);
    expect("queue", kind, grade, answer, expected);
    expect("queue, sent", kind, grade, (int64_t)sent, (int64_t)stop);
    expect("queue, frames", kind, grade, memcmp(set, one, size), 0);
    expect("queue, account", kind, grade, same_account(by_queue, by_one), 1);
    sent = 12345;
    expect("fresh queue", kind, grade,
           coder_account_send_queue(&by_fresh, kind, grade, messages, number * bytes, fresh, number * coordinates, &sent), expected);
    expect("fresh queue, sent", kind, grade, (int64_t)sent, (int64_t)stop);
    expect("fresh queue, frames", kind, grade, memcmp(fresh, one, stop * coordinates * sizeof *fresh), 0);
    expect("fresh queue, account", kind, grade, same_account(by_fresh, by_one), 1);
    free(messages);
    free(one);
    free(set);
    free(fresh);
}

/* A queue with these lengths, every bit of its messages set, and a full account: the refusal is this one. */
static void misfit(int kind, int grade, size_t bytes, size_t coordinates, int refusal)
{
    uint8_t *messages = (uint8_t *)room(bytes);
    int32_t *frames = (int32_t *)room(coordinates * sizeof *frames);
    memset(messages, 0xFF, bytes);
    for (size_t p = 0; p < coordinates; p++)
        frames[p] = 1000 + (int32_t)p;
    queue("misfit", kind, grade, messages, bytes, frames, coordinates, CODER_MAX_COUNT, -refusal);
    int64_t changed = 0;
    for (size_t p = 0; p < coordinates; p++)
        changed += frames[p] != 1000 + (int32_t)p;
    expect("misfit, frames", kind, grade, changed, 0);
    free(messages);
    free(frames);
}

/* Queues of up to four messages, refused at each place for either reason, with a changeover before them, at each of them and behind
 * them; and lengths that do not fit. */
static void queues(int kind, int grade)
{
    static const uint32_t counts[] = {0, CODER_MAX_COUNT - 5, CODER_MAX_COUNT - 4, CODER_MAX_COUNT - 3, CODER_MAX_COUNT - 2,
                                      CODER_MAX_COUNT - 1, CODER_MAX_COUNT, CODER_MAX_COUNT + 1, UINT32_MAX};
    const size_t m = coder_message_length(kind, grade), n = coder_frame_length(kind);
    const int spare = coder_message_bits(kind, grade) % 8 != 0;
    for (size_t number = 0; number <= 4; number++) {
        for (size_t bad = spare ? 0 : number; bad <= number; bad++)
            for (size_t i = 0; i < sizeof counts / sizeof counts[0]; i++)
                for (size_t place = 0; place <= number + 1; place++) {
                    const uint32_t changeover = place == number + 1 ? (i % 2 == 0 ? 0 : UINT32_MAX) : counts[i] + (uint32_t)place;
                    const struct coder_account before = {counts[i], 0.25, 3, changeover};
                    in_turn(kind, grade, number, bad, before);
                    in_turn(kind, grade, number, bad, strange_account(counts[i], changeover));
                }
        for (size_t over = 1; over < m; over++) {
            misfit(kind, grade, number * m + over, number * n, CODER_REFUSED_MESSAGE_LENGTH);
            misfit(kind, grade, number * m + over, number * n + 1, CODER_REFUSED_MESSAGE_LENGTH);
            misfit(kind, grade, number * m + over, (number + 1) * n, CODER_REFUSED_MESSAGE_LENGTH);
        }
        for (size_t over = 1; over <= n; over++) {
            misfit(kind, grade, number * m, number * n + over, CODER_REFUSED_FRAME_LENGTH);
            if (number > 0)
                misfit(kind, grade, number * m, number * n - over, CODER_REFUSED_FRAME_LENGTH);
        }
        misfit(kind, grade, number * m, number * n,
               number == 0 ? 0 : spare ? CODER_REFUSED_SPARE_BITS : CODER_REFUSED_ACCOUNT_FULL);
    }
}

/* A near reading of a copy of the samples with its exact length, into a message and a distance that were set: the answer; on
 * success this message and this distance, in 65536ths, and the same into ones that never were; else all bytes and bits as before. */
static void near_reading(const char *what, int kind, int grade, const float *samples, size_t length, size_t bytes, int expected,
                         const uint8_t *message, int parts)
{
    const uint8_t k = (uint8_t)kind, g = (uint8_t)grade;
    const uint64_t mark = UINT64_C(0x7FF4000012345678);
    float *lent = (float *)room(length * sizeof *lent);
    uint8_t *back = (uint8_t *)room(bytes), *kept = (uint8_t *)room(bytes), *fresh = (uint8_t *)unset(bytes);
    double *distance = (double *)room(sizeof *distance), *new_distance = (double *)unset(sizeof *new_distance);
    const double exact = parts / 65536.0;
    memcpy(lent, samples, length * sizeof *lent);
    memset(back, 0xA5, bytes);
    memset(kept, 0xA5, bytes);
    memcpy(distance, &mark, sizeof mark);
    expect(what, kind, grade, coder_read_near(k, g, lent, length, back, bytes, distance), expected);
    expect("near, message", kind, grade, memcmp(back, expected == 0 ? message : kept, bytes), 0);
    expect("near, distance", kind, grade, memcmp(distance, expected == 0 ? (const void *)&exact : &mark, sizeof mark), 0);
    expect("near, samples kept", kind, grade, memcmp(lent, samples, length * sizeof *lent), 0);
    expect("near, fresh", kind, grade, coder_read_near(k, g, lent, length, fresh, bytes, new_distance), expected);
    if (expected == 0) {
        expect("near, fresh message", kind, grade, memcmp(fresh, message, bytes), 0);
        expect("near, fresh distance", kind, grade, memcmp(new_distance, &exact, sizeof exact), 0);
    }
    free(lent);
    free(back);
    free(kept);
    free(fresh);
    free(distance);
    free(new_distance);
}

/* A frame with noise, in 256ths, at as many places as it is given for, from one on: near, at the squared distance of the noise, where
 * that is below the limit. */
static void noisy(int kind, int grade, const uint8_t *message, const int32_t *frame, size_t place, const int *noise, size_t places)
{
    const size_t n = coder_frame_length(kind);
    const int limit = 65536 * CODER_NEAR_LIMIT(kind);
    float samples[CODER_MAX_FRAME_LENGTH];
    int parts = 0;
    for (size_t p = 0; p < n; p++) {
        const size_t i = (p + n - place) % n;
        const int off = i < places ? noise[i] : 0;
        samples[p] = (float)(256 * frame[p] + off) / 256;
        parts += off * off;
    }
    near_reading("noisy", kind, grade, samples, n, coder_message_length(kind, grade), parts < limit ? 0 : -CODER_REFUSED_TOO_FAR,
                 message, parts);
}

/* A message sent, and read from samples of its frame: with no noise; with as much as is near at one place, and at each alike; with
 * noise that is on the limit, half way to another frame; and with more at each place alike, where no other frame is near. */
static void near_and_far(int kind, int grade)
{
    static const int most[] = {255, 362, 511}, on_limit[][4] = {{256, 0, 0, 0}, {256, -256, 0, 0}, {-256, 256, 256, 256}};
    static const int alike[] = {1, 60, 90, 91, 100, 128}; /* 90 is near, and 91 is not */
    const uint8_t k = (uint8_t)kind, g = (uint8_t)grade;
    const size_t bytes = coder_message_length(kind, grade), n = coder_frame_length(kind), place = (size_t)rand() % n;
    uint8_t *message = (uint8_t *)room(bytes);
    int32_t *frame = (int32_t *)unset(n * sizeof *frame);
    int noise[CODER_MAX_FRAME_LENGTH];
    fill_one(kind, grade, message);
    expect("near, sent", kind, grade, coder_send(k, g, (uint32_t)rand(), 0, message, bytes, frame, n) >= 0, 1);
    noisy(kind, grade, message, frame, 0, noise, 0);
    noise[0] = rand() % 2 ? most[kind - 3] : -most[kind - 3];
    noisy(kind, grade, message, frame, place, noise, 1);
    for (size_t i = 0; i < sizeof alike / sizeof alike[0]; i++) {
        for (size_t p = 0; p < n; p++)
            noise[p] = rand() % 2 ? alike[i] : -alike[i];
        noisy(kind, grade, message, frame, place, noise, n);
    }
    for (size_t p = 0; p < n; p++)
        noise[p] = rand() % 181 - 90;
    noisy(kind, grade, message, frame, place, noise, n);
    noisy(kind, grade, message, frame, place, on_limit[kind - 3], 4);
    free(message);
    free(frame);
}

/* One sample that is fit, or is not, among zeros, of either sign: 15, but not after a refusal by a length. */
static void fit_or_not(int kind, int grade)
{
    const size_t bytes = coder_message_length(kind, grade), n = coder_frame_length(kind);
    const uint32_t nan = UINT32_C(0x7FC00000), infinite = UINT32_C(0x7F800000), above = UINT32_C(0x43000001), least = 1;
    float samples[CODER_MAX_FRAME_LENGTH + 1] = {0}, odd[8];
    memcpy(&odd[0], &nan, sizeof nan);
    memcpy(&odd[1], &infinite, sizeof infinite);
    memcpy(&odd[2], &above, sizeof above); /* the next above 128 */
    memcpy(&odd[3], &least, sizeof least); /* subnormal */
    odd[4] = 128.0f + 1.0f / 256;
    odd[5] = 1.0f / 512;
    odd[6] = 1.0f / 256 + 1.0f / 4194304;
    odd[7] = 3.4e38f;
    const float even[] = {0.0f, 1.0f / 256, 128.0f};
    uint8_t *zeros = (uint8_t *)room(bytes);
    for (size_t i = 0; i < 16; i++)
        for (size_t p = 0; p < n; p += i % 2 == 0 ? 1 : n - 1) {
            samples[p] = i % 2 == 0 ? odd[i / 2] : -odd[i / 2];
            near_reading("unfit", kind, grade, samples, n, bytes, -CODER_REFUSED_UNFIT_SAMPLE, NULL, 0);
            near_reading("unfit, bytes", kind, grade, samples, n, bytes + 1, -CODER_REFUSED_MESSAGE_LENGTH, NULL, 0);
            near_reading("unfit, bytes", kind, grade, samples, n, bytes - 1, -CODER_REFUSED_MESSAGE_LENGTH, NULL, 0);
            near_reading("unfit, samples", kind, grade, samples, n - 1, bytes + 1, -CODER_REFUSED_FRAME_LENGTH, NULL, 0);
            near_reading("unfit, samples", kind, grade, samples, n + 1, bytes, -CODER_REFUSED_FRAME_LENGTH, NULL, 0);
            near_reading("unfit, grade", kind, 5, samples, n - 1, bytes + 1, -CODER_REFUSED_GRADE, NULL, 0);
            near_reading("unfit, kind", 6, 5, samples, n - 1, bytes + 1, -CODER_REFUSED_KIND, NULL, 0);
            near_reading("unfit, kind", 2, grade, samples, n, bytes, -CODER_REFUSED_KIND, NULL, 0);
            samples[p] = 0;
        }
    for (size_t i = 0; i < sizeof even / sizeof even[0]; i++) {
        /* 128 is a coordinate of the coding set that stands for 0 at these grades: the sample alone is at distance 0 */
        const int parts = i == 1 ? 1 : 0;
        samples[3] = even[i];
        near_reading("fit", kind, grade, samples, n, bytes, 0, zeros, parts);
        samples[3] = -even[i];
        near_reading("fit", kind, grade, samples, n, bytes, 0, zeros, parts);
        samples[3] = 0;
    }
    free(zeros);
}

/* By hand, at grade 1: samples, and the message that is near with its distance in 65536ths; at kind 6, which has no near reading, 1. */
static void near_by_hand(void)
{
    static const uint8_t two[2] = {0x02, 0x00}, eight[2] = {0x00, 0x08}, ones[5] = {0x01}, none[8] = {0x00};
    const float quiet[8] = {0.0f, 1.25f, 0.0f, 0.5f, -0.25f, 1.0f, -0.0f, 1.0f};
    near_reading("by hand", 3, 1, quiet, 8, 2, 0, two, 24576);
    const float near_four[8] = {3.5f, 0.5f, 0.25f, 0.0f, 0.0f, 0.0f, -0.25f, 0.0f};
    near_reading("by hand", 3, 1, near_four, 8, 2, 0, eight, 40960);
    const float middle[8] = {0.5f, 0.5f, 0.5f, 0.5f, 0.5f, 0.5f, 0.5f, 0.5f};
    near_reading("by hand", 3, 1, middle, 8, 2, -CODER_REFUSED_TOO_FAR, NULL, 0);
    float many[CODER_MAX_FRAME_LENGTH];
    for (size_t p = 0; p < 16; p++)
        many[p] = p == 5 ? 2.25f : 1.0f; /* 1 is farther than 3 at this place, but 3 at one alone is no codeword */
    near_reading("by hand", 4, 1, many, 16, 5, 0, ones, 102400);
    for (size_t p = 0; p < 32; p++)
        many[p] = p == 7 || p == 20 || p == 31 ? 1.125f : 0.0f; /* 2 would be nearer at each */
    near_reading("by hand", 5, 1, many, 32, 8, 0, none, 3 * 82944);
    memset(many, 0, sizeof many);
    for (int grade = 0; grade <= 5; grade++)
        near_reading("kind 6", 6, grade, many, 64, CODER_MESSAGE_LENGTH(6, 1), -CODER_REFUSED_KIND, NULL, 0);
    for (int kind = 0; kind < 256; kind++)
        expect("near limit", kind, 0, CODER_NEAR_LIMIT(kind), kind == 3 ? 1 : kind == 4 ? 2 : kind == 5 ? 4 : 0);
}

/* Copies of two recordings with their exact lengths, in both orders: the answers, and every bit as before. */
static void both_orders(const char *what, int kind, int grade, const float *one, size_t one_len, const float *other, size_t other_len,
                        int64_t expected, int64_t turned)
{
    float *first = (float *)room(one_len * sizeof *first), *second = (float *)room(other_len * sizeof *second);
    memcpy(first, one, one_len * sizeof *first);
    memcpy(second, other, other_len * sizeof *second);
    choice(what, kind, grade, first, one_len, second, other_len, expected);
    choice(what, kind, grade, second, other_len, first, one_len, turned);
    expect("recordings kept", kind, grade, memcmp(first, one, one_len * sizeof *first), 0);
    expect("recordings kept", kind, grade, memcmp(second, other, other_len * sizeof *second), 0);
    free(first);
    free(second);
}

/* The samples of a frame with noise, in 256ths, at as many places as it is given for, from one on. */
static void recorded(int kind, const int32_t *frame, size_t place, const int *noise, size_t places, float *samples)
{
    const size_t n = coder_frame_length(kind);
    for (size_t p = 0; p < n; p++) {
        const size_t i = (p + n - place) % n;
        samples[p] = (float)(256 * frame[p] + (i < places ? noise[i] : 0)) / 256;
    }
}

/* What coder_closer has to answer, by two near readings into messages of the right length. */
static int64_t by_readings(int kind, int grade, const float *first, const float *second)
{
    const uint8_t k = (uint8_t)kind, g = (uint8_t)grade;
    const size_t bytes = coder_message_length(kind, grade), n = coder_frame_length(kind);
    uint8_t messages[2][CODER_MAX_MESSAGE_LENGTH];
    double distances[2];
    const int64_t one = coder_read_near(k, g, first, n, messages[0], bytes, &distances[0]);
    const int64_t other = coder_read_near(k, g, second, n, messages[1], bytes, &distances[1]);
    if (one < 0 || other < 0)
        return other == 0 ? 2 : one == 0 ? 1 : one;
    if (memcmp(messages[0], messages[1], bytes) != 0)
        return -CODER_REFUSED_AT_ODDS;
    return distances[0] <= distances[1] ? 1 : 2;
}

/* Two recordings of a frame, with less noise and more, with as much, and with one part of 1/65536 more below the limit; with noise on
 * the limit at one of them and at both; of two frames of one class, and of two messages; a recording twice, and samples shared; and
 * noise of all sorts, against two near readings. */
static void recordings(int kind, int grade)
{
    static const int nearly[][7] = {{255, 22, 5, 1}, {362, 5, 1, 1}, {-511, 31, 7, 3, 1, 1, 1}}; /* the limit less one part */
    static const size_t last[] = {3, 3, 6};
    static const int on_limit[][4] = {{256, 0, 0, 0}, {256, -256, 0, 0}, {-256, 256, 256, 256}};
    const uint8_t k = (uint8_t)kind, g = (uint8_t)grade;
    const size_t bytes = coder_message_length(kind, grade), n = coder_frame_length(kind), place = (size_t)rand() % n;
    const int scale = 1 << (grade + (kind == 3 ? 1 : 2)), *most = nearly[kind - 3];
    uint8_t message[CODER_MAX_MESSAGE_LENGTH], changed[CODER_MAX_MESSAGE_LENGTH];
    int32_t frame[CODER_MAX_FRAME_LENGTH], other[CODER_MAX_FRAME_LENGTH];
    int noise[CODER_MAX_FRAME_LENGTH] = {0}, moved[CODER_MAX_FRAME_LENGTH] = {0};
    float exact[CODER_MAX_FRAME_LENGTH], less[CODER_MAX_FRAME_LENGTH + 1], more[CODER_MAX_FRAME_LENGTH + 1], far[CODER_MAX_FRAME_LENGTH];
    fill_one(kind, grade, message);
    const uint32_t number = (uint32_t)rand();
    expect("recordings, sent", kind, grade, coder_send(k, g, number, 0, message, bytes, frame, n) >= 0, 1);
    recorded(kind, frame, place, NULL, 0, exact);
    recorded(kind, frame, place, on_limit[kind - 3], 4, far);

    for (size_t p = 0; p < n; p++)
        noise[p] = rand() % 161 - 80;
    recorded(kind, frame, place, noise, n, less);
    for (size_t p = 0; p < n; p++)
        moved[p] = rand() % 2 ? noise[(p + place) % n] : -noise[(p + place) % n];
    recorded(kind, frame, place, moved, n, more);
    both_orders("equal distance", kind, grade, less, n, more, n, 1, 1);
    moved[place] += moved[place] < 0 ? -1 : 1;
    recorded(kind, frame, place, moved, n, more);
    both_orders("closer", kind, grade, less, n, more, n, 1, 2);
    both_orders("closer", kind, grade, exact, n, more, n, 1, 2);
    recorded(kind, frame, place, most, last[kind - 3], less);
    recorded(kind, frame, (place + 3) % n, most, last[kind - 3] + 1, more);
    both_orders("closer by one part", kind, grade, less, n, more, n, 1, 2);
    both_orders("one too far", kind, grade, more, n, far, n, 1, 2);
    both_orders("both too far", kind, grade, far, n, far, n, -CODER_REFUSED_TOO_FAR, -CODER_REFUSED_TOO_FAR);

    /* another frame of the class, then the frame of the other rule, then that of another message */
    memcpy(other, frame, sizeof other);
    other[place] += frame[place] > 0 ? -2 * scale : 2 * scale;
    recorded(kind, other, (place + 1) % n, most, 2, more);
    both_orders("one class", kind, grade, exact, n, more, n, 1, 2);
    expect("recordings, sent", kind, grade, coder_send(k, g, number + 1, 0, message, bytes, other, n) >= 0, 1);
    recorded(kind, other, place, most, 2, more);
    both_orders("one class", kind, grade, exact, n, more, n, 1, 2);
    do
        fill_one(kind, grade, changed);
    while (memcmp(changed, message, bytes) == 0);
    expect("recordings, sent", kind, grade, coder_send(k, g, number, 0, changed, bytes, other, n) >= 0, 1);
    recorded(kind, other, place, most, 2, more);
    both_orders("at odds", kind, grade, exact, n, more, n, -CODER_REFUSED_AT_ODDS, -CODER_REFUSED_AT_ODDS);

    choice("twice", kind, grade, less, n, less, n, 1);
    choice("twice, too far", kind, grade, far, n, far, n, -CODER_REFUSED_TOO_FAR);
    for (size_t p = 0; p < n; p++)
        more[p] = 2;
    more[n] = 2.25f;
    choice("shared", kind, grade, more, n, more + 1, n, 1);
    choice("shared", kind, grade, more + 1, n, more, n, 2);
    more[n] = 2;
    choice("shared, equal", kind, grade, more, n, more + 1, n, 1);
    choice("shared, equal", kind, grade, more + 1, n, more, n, 1);
    choice("shared, lengths", kind, grade, more, n + 1, more, n, 2);
    choice("shared, lengths", kind, grade, more, n, more, n - 1, 1);

    for (int turn = 0; turn < 20; turn++) {
        const int sizes[] = {40, 80, 100, 120, 160, 300}, one = sizes[rand() % 6], two = sizes[rand() % 6];
        for (size_t p = 0; p < n; p++) {
            noise[p] = rand() % (2 * one + 1) - one;
            moved[p] = rand() % (2 * two + 1) - two;
        }
        recorded(kind, frame, 0, noise, n, less);
        recorded(kind, frame, 0, moved, n, more);
        both_orders("by readings", kind, grade, less, n, more, n, by_readings(kind, grade, less, more),
                    by_readings(kind, grade, more, less));
    }
}

/* One recording refused by each number, with all that is tested later wrong too, or both; and kinds and grades that refuse both. */
static void refused_recordings(int kind, int grade)
{
    const size_t n = coder_frame_length(kind);
    float good[CODER_MAX_FRAME_LENGTH + 1] = {0}, far[CODER_MAX_FRAME_LENGTH], unfit[CODER_MAX_FRAME_LENGTH + 1];
    for (size_t p = 0; p <= n; p++) {
        far[p] = 0.5f;
        unfit[p] = p == n - 2 ? 1.0f / 512 : 0.5f;
    }
    const struct {
        const float *samples;
        size_t length;
        int number;
    } refused[] = {{far, n, CODER_REFUSED_TOO_FAR},            {unfit, n, CODER_REFUSED_UNFIT_SAMPLE},
                   {unfit, n + 1, CODER_REFUSED_FRAME_LENGTH}, {unfit, n - 1, CODER_REFUSED_FRAME_LENGTH},
                   {good, 0, CODER_REFUSED_FRAME_LENGTH},      {good, n / 2, CODER_REFUSED_FRAME_LENGTH}};
    enum { REFUSED = sizeof refused / sizeof refused[0] };
    for (size_t i = 0; i < REFUSED; i++) {
        const float *samples = refused[i].samples;
        const size_t length = refused[i].length;
        both_orders("one refused", kind, grade, good, n, samples, length, 1, 2);
        for (size_t j = 0; j < REFUSED; j++)
            both_orders("both refused", kind, grade, samples, length, refused[j].samples, refused[j].length, -refused[i].number,
                        -refused[j].number);
        for (int other = 0; other < 256; other += other == 0 ? 5 : 25) {
            both_orders("grade", kind, other, good, n, samples, length, -CODER_REFUSED_GRADE, -CODER_REFUSED_GRADE);
            both_orders("kind", other < 250 ? 6 + other : 2, other, good, n, samples, length, -CODER_REFUSED_KIND, -CODER_REFUSED_KIND);
        }
        both_orders("kind", 6, grade, good, n, samples, length, -CODER_REFUSED_KIND, -CODER_REFUSED_KIND);
    }
}

/* By hand, at grade 1; at kind 6, which has no near reading, 1; and ints that would be a good kind or grade if they were narrowed. */
static void recordings_by_hand(void)
{
    static const float quiet[8] = {0.0f, 1.25f, 0.0f, 0.5f, -0.25f, 1.0f, -0.0f, 1.0f};       /* 02 00, at 0.375 */
    static const float as_far[8] = {0.25f, 1.0f, 0.0f, 1.0f, 0.0f, 1.5f, 0.0f, 0.75f};        /* 02 00, at 0.375 */
    static const float farther[8] = {0.25f, 1.0f, 0.0f, 1.0f, 0.0f, 1.5f, 0.00390625f, 0.75f}; /* and 1/65536 more */
    static const float near_four[8] = {3.5f, 0.5f, 0.25f, 0.0f, 0.0f, 0.0f, -0.25f, 0.0f};    /* 00 08, at 0.625 */
    static const float below_four[8] = {-4.0f, 0.5f, 0.25f, 0.0f, 0.5f, 0.0f, -0.25f, 0.0f};  /* 00 08 too, of the other sign */
    static const float middle[8] = {0.5f, 0.5f, 0.5f, 0.5f, 0.5f, 0.5f, 0.5f, 0.5f};
    static const float many[CODER_MAX_FRAME_LENGTH] = {0};
    both_orders("by hand", 3, 1, quiet, 8, as_far, 8, 1, 1);
    both_orders("by hand", 3, 1, quiet, 8, farther, 8, 1, 2);
    both_orders("by hand", 3, 1, as_far, 8, farther, 8, 1, 2);
    both_orders("by hand", 3, 1, near_four, 8, below_four, 8, 1, 1);
    both_orders("by hand", 3, 1, quiet, 8, near_four, 8, -CODER_REFUSED_AT_ODDS, -CODER_REFUSED_AT_ODDS);
    both_orders("by hand", 3, 1, middle, 8, near_four, 8, 2, 1);
    both_orders("by hand", 3, 1, middle, 8, quiet, 7, -CODER_REFUSED_TOO_FAR, -CODER_REFUSED_FRAME_LENGTH);
    for (int grade = 0; grade <= 5; grade++)
        both_orders("kind 6", 6, grade, many, 64, many, 64, -CODER_REFUSED_KIND, -CODER_REFUSED_KIND);
    static const int beyond[][3] = {{259, 1, 1}, {-253, 1, 1}, {3, 257, 2}, {3, -255, 2}, {259, 257, 1}, {6, 257, 1}, {65539, 1, 1},
                                    {INT32_MIN + 3, 1, 1}, {3, INT32_MIN + 1, 2}, {5, 0, 2}, {2, 0, 1}};
    for (size_t i = 0; i < sizeof beyond / sizeof beyond[0]; i++) {
        const struct coder_recording none = coder_closer_recording(beyond[i][0], beyond[i][1], quiet, 8, as_far, 8);
        expect("recording, int", beyond[i][0], beyond[i][1], none.answer, -beyond[i][2]);
        expect("recording, int, samples", beyond[i][0], beyond[i][1], none.samples == quiet && none.length == 0, 1);
    }
}

/* The four bytes of a number, lowest first, and a coordinate of such bytes. */
static void put_four(uint32_t number, uint8_t *bytes)
{
    for (int i = 0; i < 4; i++)
        bytes[i] = (uint8_t)(number >> 8 * i);
}

static int32_t coordinate_of(const uint8_t *bytes)
{
    const int64_t number = bytes[0] + 256 * (bytes[1] + 256 * (bytes[2] + 256 * (int64_t)bytes[3]));
    return (int32_t)(number < INT64_C(0x80000000) ? number : number - INT64_C(0x100000000));
}

/* The record of a frame, sent or not. */
static void make_record(int kind, int grade, uint32_t number, const int32_t *frame, uint8_t *record)
{
    record[0] = 0x4C;
    record[1] = 0x46;
    record[2] = (uint8_t)kind;
    record[3] = (uint8_t)grade;
    put_four(number, record + 4);
    for (size_t p = 0; p < coder_frame_length(kind); p++)
        put_four((uint32_t)frame[p], record + 8 + 4 * p);
}

/* What coder_read_record has to answer, by the strict reading. */
static int64_t by_strict_reading(const uint8_t *buffer, size_t length, size_t place, size_t frame_len)
{
    int32_t frame[CODER_MAX_FRAME_LENGTH];
    uint8_t message[CODER_MAX_MESSAGE_LENGTH];
    const size_t left = place < length ? length - place : 0;
    const uint8_t *record = left == 0 ? NULL : buffer + place;
    if (left < 2 || record[0] != 0x4C || record[1] != 0x46)
        return -CODER_REFUSED_MARK;
    if (left < 3)
        return -CODER_REFUSED_RECORD_END;
    const int kind = record[2];
    const size_t n = coder_frame_length(kind);
    if (n == 0)
        return -CODER_REFUSED_KIND;
    if (left < 4)
        return -CODER_REFUSED_RECORD_END;
    const size_t bytes = coder_message_length(kind, record[3]);
    if (bytes == 0)
        return -CODER_REFUSED_GRADE;
    if (frame_len != n)
        return -CODER_REFUSED_FRAME_LENGTH;
    if (left < 8 + 4 * n)
        return -CODER_REFUSED_RECORD_END;
    for (size_t p = 0; p < n; p++)
        frame[p] = coordinate_of(record + 8 + 4 * p);
    return coder_read_strict(record[2], record[3], (uint32_t)coordinate_of(record + 4), 0, frame, n, message, bytes);
}

/* The record at a place of a copy of the buffer with its exact length, read into a frame and figures that were set: the answer; on
 * success all that stands in the record, and the same into ones that never were set; else every bit as before. */
static void record_read(const char *what, const uint8_t *buffer, size_t length, size_t place, size_t frame_len, int64_t expected)
{
    const size_t size = frame_len * sizeof(int32_t);
    uint8_t *lent = (uint8_t *)room(length), *bytes = (uint8_t *)room(2), *new_bytes = (uint8_t *)unset(2);
    int32_t *frame = (int32_t *)room(size), *fresh = (int32_t *)unset(size), *kept = (int32_t *)room(size);
    uint32_t *number = (uint32_t *)room(sizeof *number), *new_number = (uint32_t *)unset(sizeof *new_number);
    size_t *next = (size_t *)room(sizeof *next), *new_next = (size_t *)unset(sizeof *new_next);
    memcpy(lent, buffer, length);
    memset(frame, 0x5A, size);
    memset(kept, 0x5A, size);
    memset(bytes, 0xA5, 2);
    *number = 12345;
    *next = place; /* the place goes by value */
    expect(what, (int)frame_len, 0, by_strict_reading(lent, length, place, frame_len), expected);
    expect(what, (int)frame_len, 0, coder_read_record(lent, length, *next, frame, frame_len, &bytes[0], &bytes[1], number, next),
           expected);
    expect("record, buffer kept", (int)frame_len, 0, memcmp(lent, buffer, length), 0);
    const int64_t again = coder_read_record(lent, length, place, fresh, frame_len, &new_bytes[0], &new_bytes[1], new_number, new_next);
    expect("record, fresh", (int)frame_len, 0, again, expected);
    if (expected < 0) {
        expect("record refused, frame", (int)frame_len, 0, memcmp(frame, kept, size), 0);
        expect("record refused, figures", (int)frame_len, 0,
               bytes[0] == 0xA5 && bytes[1] == 0xA5 && *number == 12345 && *next == place, 1);
    } else {
        const uint8_t *record = lent + place;
        int64_t energy = 0;
        for (size_t p = 0; p < frame_len; p++) {
            expect("record, frame", (int)frame_len, 0, frame[p], coordinate_of(record + 8 + 4 * p));
            energy += (int64_t)frame[p] * frame[p];
        }
        expect("record, energy", (int)frame_len, 0, expected, energy);
        expect("record, kind and grade", (int)frame_len, 0, bytes[0] == record[2] && bytes[1] == record[3], 1);
        expect("record, number", (int)frame_len, 0, *number, (uint32_t)coordinate_of(record + 4));
        expect("record, next", (int)frame_len, 0, *next == place + 8 + 4 * frame_len, 1);
        expect("record, coordinates", (int)frame_len, 0, coder_frame_length_at(lent, length, place) == frame_len, 1);
        expect("record, fresh frame", (int)frame_len, 0, memcmp(fresh, frame, size), 0);
        expect("record, fresh figures", (int)frame_len, 0,
               memcmp(new_bytes, bytes, 2) == 0 && *new_number == *number && *new_next == *next, 1);
    }
    free(lent);
    free(bytes);
    free(new_bytes);
    free(frame);
    free(fresh);
    free(kept);
    free(number);
    free(new_number);
    free(next);
    free(new_next);
}

/* A message written at a place of a buffer of this length, over bytes that were set and over ones that never were: the answer; on
 * success the record of the frame that is sent, with every other byte as before, and read back; else every byte as before. */
static void record_written(const char *what, int kind, int grade, uint32_t number, const uint8_t *message, size_t bytes, size_t length,
                           size_t place, int64_t expected)
{
    const uint8_t k = (uint8_t)kind, g = (uint8_t)grade;
    const size_t n = coder_frame_length(kind), whole = coder_record_length(k);
    uint8_t *lent = (uint8_t *)room(bytes), *buffer = (uint8_t *)room(length), *own = (uint8_t *)room(length);
    uint8_t *fresh = (uint8_t *)unset(length);
    size_t next = place, *new_next = (size_t *)unset(sizeof *new_next);
    int32_t frame[CODER_MAX_FRAME_LENGTH];
    memcpy(lent, message, bytes);
    for (size_t i = 0; i < length; i++)
        own[i] = buffer[i] = (uint8_t)(rand() >> 7);
    expect(what, kind, grade, coder_write_record(k, g, number, lent, bytes, buffer, length, next, &next), expected);
    expect(what, kind, grade, coder_write_record(k, g, number, lent, bytes, fresh, length, place, new_next), expected);
    if (expected == 0) {
        const int64_t energy = coder_send(k, g, number, 0, lent, bytes, frame, n);
        make_record(kind, grade, number, frame, own + place);
        expect("record, fresh", kind, grade, memcmp(fresh + place, own + place, whole), 0);
        expect("record, next", kind, grade, next == place + whole && *new_next == next, 1);
        record_read("record read back", own, length, place, n, energy);
    } else
        expect("record, next", kind, grade, next == place, 1);
    expect("record, bytes", kind, grade, memcmp(buffer, own, length), 0);
    expect("record, message kept", kind, grade, memcmp(lent, message, bytes), 0);
    free(lent);
    free(buffer);
    free(own);
    free(fresh);
    free(new_next);
}

/* Places of a buffer of this length for a record of so many bytes: each, and those from which on the record's end has no number. */
static size_t place_at(size_t i, size_t length, size_t whole)
{
    const size_t far[] = {SIZE_MAX, SIZE_MAX - 1, SIZE_MAX - 2, SIZE_MAX - 3, SIZE_MAX - 7, SIZE_MAX - 8, SIZE_MAX - whole,
                          SIZE_MAX - whole + 1, SIZE_MAX - length, SIZE_MAX - length + 1, SIZE_MAX / 2, SIZE_MAX / 2 + 1};
    return i < length + 8 ? i : far[i - length - 8];
}
enum { FAR_PLACES = 12 };

/* A message under a number: its record at every place of a buffer that is longer by up to 5 bytes, or shorter by one; and read in
 * buffers that end at each of its bytes, or with too few or too many coordinates. */
static void record_places(int kind, int grade, uint32_t number)
{
    const size_t bytes = coder_message_length(kind, grade), n = coder_frame_length(kind), whole = coder_record_length((uint8_t)kind);
    uint8_t message[CODER_MAX_MESSAGE_LENGTH], buffer[5 + CODER_MAX_RECORD_LENGTH];
    int32_t frame[CODER_MAX_FRAME_LENGTH];
    fill_one(kind, grade, message);
    const int64_t energy = coder_send((uint8_t)kind, (uint8_t)grade, number, 0, message, bytes, frame, n);
    for (size_t length = whole - 1; length <= whole + 5; length += 3)
        for (size_t i = 0; i < length + 8 + FAR_PLACES; i++) {
            const size_t place = place_at(i, length, whole);
            record_written("record", kind, grade, number, message, bytes, length, place,
                           place <= length && length - place >= whole ? 0 : -CODER_REFUSED_RECORD_END);
        }
    memset(buffer, 0, sizeof buffer);
    make_record(kind, grade, number, frame, buffer + 5);
    for (size_t i = 0; i < whole + 5 + 8 + FAR_PLACES; i++) {
        const size_t place = place_at(i, whole + 5, whole);
        if (place < 7 || place > 9)
            record_read("record, place", buffer, whole + 5, place, n, place == 5 ? energy : -CODER_REFUSED_MARK);
    }
    for (size_t left = 0; left <= whole; left++) {
        const int cut = left < 2 ? CODER_REFUSED_MARK : CODER_REFUSED_RECORD_END;
        const int64_t other = left < 4 ? -cut : -CODER_REFUSED_FRAME_LENGTH;
        record_read("record cut short", buffer, 5 + left, 5, n, left < whole ? -cut : energy);
        record_read("record, no coordinates", buffer, 5 + left, 5, 0, other);
        record_read("record, too few coordinates", buffer, 5 + left, 5, n - 1, other);
        record_read("record, too many coordinates", buffer, 5 + left, 5, n + 1, other);
        record_read("record, twice the coordinates", buffer, 5 + left, 5, 2 * n, other);
    }
}

/* A message that is refused, each test with all that is tested later wrong too, for every place; and a record likewise. */
static void refused_records(int kind, int grade)
{
    const size_t bytes = coder_message_length(kind, grade), n = coder_frame_length(kind), whole = coder_record_length((uint8_t)kind);
    uint8_t message[CODER_MAX_MESSAGE_LENGTH + 1], record[CODER_MAX_RECORD_LENGTH];
    int32_t frame[CODER_MAX_FRAME_LENGTH] = {0};
    memset(message, 0xFF, sizeof message);
    for (size_t length = 0; length <= whole; length += whole / 2)
        for (size_t place = 0; place <= whole + 1; place++) {
            for (int other = 0; other < 256; other += other == 0 ? 5 : 25) {
                record_written("record, kind", other < 5 ? 2 : 2 + other, other, 1, message, bytes + 1, length, place,
                               -CODER_REFUSED_KIND);
                record_written("record, grade", kind, other, 1, message, bytes + 1, length, place, -CODER_REFUSED_GRADE);
            }
            record_written("record, message", kind, grade, 1, message, bytes + 1, length, place, -CODER_REFUSED_MESSAGE_LENGTH);
            record_written("record, message", kind, grade, 1, message, bytes - 1, length, place, -CODER_REFUSED_MESSAGE_LENGTH);
            record_written("record, no message", kind, grade, 1, message, 0, length, place, -CODER_REFUSED_MESSAGE_LENGTH);
            if (coder_message_bits(kind, grade) % 8 != 0)
                record_written("record, spare bits", kind, grade, 1, message, bytes, length, place, -CODER_REFUSED_SPARE_BITS);
        }
    frame[n - 1] = CODER_MAX_COORDINATE + 1;
    for (size_t length = 4; length <= whole; length += whole - 4)
        for (int second = 0; second < 256; second += second == 0 ? 5 : 25) {
            const int other = second < 5 ? 2 : 2 + second;
            make_record(kind, second, 0, frame, record);
            record_read("record, grade", record, length, 0, n + 1, -CODER_REFUSED_GRADE);
            record[2] = (uint8_t)other;
            record_read("record, kind", record, length, 0, n, -CODER_REFUSED_KIND);
            record_read("record, kind alone", record, 3, 0, n, -CODER_REFUSED_KIND);
            record[1] = (uint8_t)(0x46 ^ 1 << second % 8);
            record_read("record, mark", record, length, 0, n + 1, -CODER_REFUSED_MARK);
            record[1] = 0x46;
            record[0] = (uint8_t)(0x4C ^ 1 << second % 8);
            record_read("record, mark", record, length, 0, n + 1, -CODER_REFUSED_MARK);
        }
}

/* Coordinates of a record at the ends of the range and past them, and at those of int32_t; with the message zeros, whose sent frame is
 * zeros. At kind 6 each broken level. */
static void record_ends(int kind, int grade)
{
    static const struct {
        int32_t coordinate;
        int number;
    } cases[] = {{16777216, CODER_REFUSED_UNSHAPED},        {16777217, CODER_REFUSED_OVER_RANGE},
                 {16777215, CODER_REFUSED_BROKEN_LEVEL_0},  {INT32_MAX, CODER_REFUSED_OVER_RANGE},
                 {-16777216, CODER_REFUSED_UNSHAPED},       {-16777217, CODER_REFUSED_OVER_RANGE},
                 {-16777215, CODER_REFUSED_BROKEN_LEVEL_0}, {INT32_MIN, CODER_REFUSED_OVER_RANGE}};
    const size_t n = coder_frame_length(kind), whole = coder_record_length((uint8_t)kind);
    uint8_t record[CODER_MAX_RECORD_LENGTH];
    int32_t frame[CODER_MAX_FRAME_LENGTH] = {0};
    for (size_t p = 0; p < n; p++) {
        for (size_t i = 0; i < sizeof cases / sizeof cases[0]; i++) {
            frame[p] = cases[i].coordinate;
            make_record(kind, grade, (uint32_t)rand(), frame, record);
            record_read("record, end", record, whole, 0, n, -cases[i].number);
        }
        if (kind == 6)
            for (int32_t x = 1; x < 8; x++) {
                frame[p] = x;
                make_record(kind, grade, (uint32_t)rand(), frame, record);
                record_read("record, level", record, whole, 0, n,
                            x % 2 == 1   ? -CODER_REFUSED_BROKEN_LEVEL_0
                            : x % 4 == 2 ? -CODER_REFUSED_BROKEN_LEVEL_1
                                         : -CODER_REFUSED_BROKEN_LEVEL_2);
            }
        frame[p] = 0;
    }
}

/* Records of several kinds one behind the other, read to the end, where there is none; under the other parity of its number one is read
 * where its frame is the same, else it is 9; and with a byte changed each is what the strict reading says. */
static void record_row(void)
{
    enum { ROW = 12 };
    uint8_t buffer[ROW * CODER_MAX_RECORD_LENGTH], message[CODER_MAX_MESSAGE_LENGTH];
    size_t places[ROW + 1] = {0};
    int64_t energies[ROW];
    int32_t frame[CODER_MAX_FRAME_LENGTH], own[CODER_MAX_FRAME_LENGTH];
    for (size_t i = 0; i < ROW; i++) {
        const int kind = 3 + (int)(i + (size_t)rand() % 2) % 4, grade = 1 + rand() % 4;
        const uint8_t k = (uint8_t)kind, g = (uint8_t)grade;
        const uint32_t number = i < 2 ? UINT32_MAX - (uint32_t)i : (uint32_t)rand();
        const size_t bytes = coder_message_length(kind, grade), n = coder_frame_length(kind);
        fill_one(kind, grade, message);
        expect("row, written", kind, grade,
               coder_write_record(k, g, number, message, bytes, buffer, sizeof buffer, places[i], &places[i + 1]), 0);
        energies[i] = coder_send(k, g, number, 0, message, bytes, frame, n);
        uint8_t record[CODER_MAX_RECORD_LENGTH];
        make_record(kind, grade, number ^ 1, frame, record);
        expect("row, other number", kind, grade, coder_send(k, g, number ^ 1, 0, message, bytes, own, n), energies[i]);
        record_read("row, other number", record, coder_record_length(k), 0, n,
                    memcmp(frame, own, n * sizeof *own) == 0 ? energies[i] : -CODER_REFUSED_UNSHAPED);
    }
    const size_t end = places[ROW];
    size_t place = 0;
    for (size_t i = 0; i < ROW; i++) {
        const size_t n = coder_frame_length_at(buffer, end, place);
        uint8_t kind, grade;
        uint32_t number;
        expect("row", (int)i, 0, place == places[i], 1);
        expect("row, read", (int)i, 0, coder_read_record(buffer, end, place, frame, n, &kind, &grade, &number, &place), energies[i]);
        record_read("row, read", buffer, end, places[i], n, energies[i]);
        for (int turn = 0; turn < 20; turn++) {
            const size_t at = places[i] + (size_t)rand() % (turn < 10 ? 8 : places[i + 1] - places[i]);
            const uint8_t before = buffer[at];
            buffer[at] ^= (uint8_t)(turn % 2 == 0 ? 1 << rand() % 8 : 1 + rand() % 255);
            record_read("row, changed", buffer, end, places[i], n, by_strict_reading(buffer, end, places[i], n));
            buffer[at] = before;
        }
    }
    expect("row, end", 0, 0, place == end, 1);
    expect("row, coordinates at the end", 0, 0, (int64_t)coder_frame_length_at(buffer, end, end), 0);
    record_read("row, end", buffer, end, end, 8, -CODER_REFUSED_MARK);
}

/* By hand: 00 08 at kind 3, grade 1, under an even number and an odd one, byte for byte. */
static void records_by_hand(void)
{
    static const struct {
        uint32_t number;
        uint8_t begin[12];
    } cases[] = {{UINT32_MAX - 1, {0x4C, 0x46, 0x03, 0x01, 0xFE, 0xFF, 0xFF, 0xFF, 0xFC, 0xFF, 0xFF, 0xFF}},
                 {1, {0x4C, 0x46, 0x03, 0x01, 0x01, 0x00, 0x00, 0x00, 0x04, 0x00, 0x00, 0x00}}};
    static const uint8_t message[2] = {0x00, 0x08};
    for (size_t i = 0; i < 2; i++) {
        uint8_t own[40] = {0}, record[40], kind, grade;
        int32_t frame[8];
        uint32_t number;
        size_t next;
        memcpy(own, cases[i].begin, 12);
        expect("record by hand", 3, 1, coder_write_record(3, 1, cases[i].number, message, 2, record, 40, 0, &next), 0);
        expect("record by hand, bytes", 3, 1, memcmp(record, own, 40), 0);
        expect("record by hand, next", 3, 1, (int64_t)next, 40);
        expect("record by hand, read", 3, 1, coder_read_record(own, 40, 0, frame, 8, &kind, &grade, &number, &next), 16);
        expect("record by hand, first", 3, 1, frame[0], i == 0 ? -4 : 4);
        expect("record by hand, figures", 3, 1, kind == 3 && grade == 1 && number == cases[i].number && next == 40, 1);
        own[8] = own[8] == 4 ? 0xFC : 0x04; /* 252 or -252, of the same class */
        record_read("record by hand, unlike", own, 40, 0, 8, -CODER_REFUSED_UNSHAPED);
        own[11] = (uint8_t)(own[11] ^ 0x01); /* past the range */
        record_read("record by hand, past", own, 40, 0, 8, -CODER_REFUSED_OVER_RANGE);
    }
}

int main(void)
{
    static const struct {
        int kind, grade, coordinates, bytes;
    } lengths[] = {{3, 1, 8, 2}, {3, 2, 8, 3}, {3, 3, 8, 4}, {3, 4, 8, 5}, {4, 1, 16, 5}, {4, 2, 16, 7}, {4, 3, 16, 9},
                   {4, 4, 16, 11}, {5, 1, 32, 8}, {5, 2, 32, 12}, {5, 3, 32, 16}, {5, 4, 32, 20}, {6, 1, 64, 22}, {6, 2, 64, 30},
                   {6, 3, 64, 38}, {6, 4, 64, 46}, {2, 1, 0, 0}, {7, 1, 0, 0}, {3, 0, 8, 0}, {3, 5, 8, 0}, {6, 0, 64, 0},
                   {6, 5, 64, 0}, {259, 1, 0, 0}, {262, 1, 0, 0}, {3, 257, 8, 0}, {-253, 1, 0, 0}, {3, -255, 8, 0}};
    for (size_t i = 0; i < sizeof lengths / sizeof lengths[0]; i++) {
        const int kind = lengths[i].kind, grade = lengths[i].grade;
        expect("frame length", kind, grade, (int64_t)coder_frame_length(kind), lengths[i].coordinates);
        expect("message length", kind, grade, (int64_t)coder_message_length(kind, grade), lengths[i].bytes);
        expect("record length", kind, grade, CODER_RECORD_LENGTH(kind),
               lengths[i].coordinates == 0 ? 0 : 8 + 4 * lengths[i].coordinates);
    }
    for (int kind = 0; kind < 256; kind++)
        expect("record length", kind, 0, (int64_t)coder_record_length((uint8_t)kind), CODER_RECORD_LENGTH(kind));
    expect("longest record", 6, 0, CODER_RECORD_LENGTH(6), CODER_MAX_RECORD_LENGTH);

    static const char *const names[] = {"none", "kind", "grade", "message length", "frame length", "spare bits", "over range",
                                        "broken level 0", "broken level 1", "unshaped", "mark", "account full", "not known",
                                        "broken level 2", "changeover", "unfit sample", "too far", "free count", "at odds",
                                        "record end", "not known"};
    for (int number = 0; number <= 20; number++)
        expect("name", 0, number, strcmp(coder_refusal_name(-number), names[number]), 0);

    void *const nowhere[] = {NULL, (void *)1, (void *)UINTPTR_MAX};
    for (size_t i = 0; i < 3; i++) {
        for (int kind = 0; kind < 256; kind++)
            for (int grade = 0; grade < 256; grade += kind >= 2 && kind <= 7 ? 1 : 51)
                empty(kind, grade, nowhere[i]);
        int32_t block[8] = {0}, *gone = (int32_t *)nowhere[i];
        expect("block", 0, 0, block_least(1, gone, 0, block, 8), 0);
        expect("block", 0, 0, block_least(1, block, 8, gone, 0), 0);
        expect("block", 0, 0, block_least(1, gone, 0, gone, 0), 0);
        expect("mask test", 3, 1, plain_send(3, 1, 1, (uint8_t *)nowhere[i], 0, gone, 0), -CODER_REFUSED_MESSAGE_LENGTH);
    }
    by_hand();
    opening();
    for (int turn = 0; turn < 100; turn++)
        for (int kind = 3; kind <= 6; kind++)
            for (int grade = 1; grade <= 4; grade++)
                there_and_back(kind, grade);
    quiet_by_hand();
    for (int kind = 3; kind <= 6; kind++)
        for (int grade = 1; grade <= 4; grade++) {
            uint8_t message[CODER_MAX_MESSAGE_LENGTH];
            free_counts(kind, grade);
            for (int turn = 0; turn < 20; turn++)
                for (int bits = 0; bits <= CODER_MAX_FREE; bits++) {
                    fill_one(kind, grade, message);
                    quiet(kind, grade, (uint32_t)rand(), bits, message);
                    fill_pairs(kind, grade, message);
                    expect("pairs", kind, grade, quiet(kind, grade, (uint32_t)rand(), bits, message) > 0, bits > 0);
                }
        }
    for (int grade = 1; grade <= 4; grade++)
        broken(grade);
    far_by_hand();
    for (int kind = 3; kind <= 6; kind++)
        for (int grade = 1; grade <= 4; grade++) {
            int refused = 0;
            ends(kind, grade);
            for (int turn = 0; turn < 100; turn++)
                refused += sum_of_frames(kind, grade) < 0;
            expect("sums refused", kind, grade, kind == 6 ? refused > 0 && refused < 100 : refused == 0, 1);
        }
    for (int kind = 3; kind <= 6; kind++)
        for (int grade = 1; grade <= 4; grade++) {
            across(kind, grade);
            queues(kind, grade);
        }
    /* the four modes of rounding, of which the first is the usual one */
    for (unsigned mode = 4; mode-- > 0;) {
        _mm_setcsr((_mm_getcsr() & ~(unsigned)_MM_ROUND_MASK) | mode << 13);
        near_by_hand();
        fit_or_not(4, 1);
        recordings_by_hand();
        recordings(4, 1);
    }
    for (int kind = 3; kind <= 5; kind++)
        for (int grade = 1; grade <= 4; grade++) {
            fit_or_not(kind, grade);
            refused_recordings(kind, grade);
            for (int turn = 0; turn < 100; turn++) {
                near_and_far(kind, grade);
                recordings(kind, grade);
            }
        }
    records_by_hand();
    for (int kind = 3; kind <= 6; kind++)
        for (int grade = 1; grade <= 4; grade++) {
            for (uint32_t number = 0; number < 2; number++) {
                record_places(kind, grade, number);
                record_places(kind, grade, UINT32_MAX - number);
            }
            refused_records(kind, grade);
            record_ends(kind, grade);
        }
    for (int turn = 0; turn < 100; turn++)
        record_row();
    printf("%lu tests, %lu wrong\n", calls, wrong);
    return wrong != 0;
}
