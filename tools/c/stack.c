/* Measures the most stack that a call of each function uses: the call is made on a stack that was filled with one byte, and the
 * lowest place that differs afterwards is looked up. Random messages of every kind and grade, 4000 of each, under even and odd numbers
 * by turns and with 0 to 4 bits free, and with each two more behind it as a queue; of kinds 3 to 5 noisy samples of the frame, and two
 * recordings of it, near and too far; and a record, written and read; x86-64 Linux.
 *
 *     cc -I crates/frame_coder tools/c/stack.c target/staticlib/libframe_coder.a -o target/stack && target/stack
 */
#include <inttypes.h>
#include <stdio.h>
#include <stdlib.h>
#include <string.h>
#include <ucontext.h>
#include "frame_coder.h"

enum { TURNS = 4000, ROOM = 16384, FILL = 0xA7, QUEUE = 3 };

static const char *const names[] = {"coder_open", "coder_send", "coder_send_counted", "coder_send_queue", "coder_read_open",
                                    "coder_read_strict", "coder_read_near", "coder_closer", "coder_write_record",
                                    "coder_read_record", "coder_record_length"};
enum { FUNCTIONS = sizeof names / sizeof names[0] };

static unsigned char stack[ROOM];
static ucontext_t here, there;
static uint8_t kind, grade, bits, messages[QUEUE * CODER_MAX_MESSAGE_LENGTH];
static uint8_t record[CODER_MAX_RECORD_LENGTH], read_kind, read_grade;
static int32_t frame[CODER_MAX_FRAME_LENGTH], frames[QUEUE * CODER_MAX_FRAME_LENGTH];
static float samples[2][CODER_MAX_FRAME_LENGTH];
static double distance;
static uint32_t number, read_number;
static size_t bytes, coordinates, sent, next;
static int function;
static int64_t answer;
static struct coder_account account;
static unsigned char *top;

/* The call alone, of the queue or of its first message; `top` is the stack pointer before it. */
static void call(void)
{
    __asm__ volatile("mov %%rsp, %0" : "=r"(top));
    switch (function) {
    case 0: answer = coder_open(0, &account.count, &account.sum, &account.largest, &account.changeover); break;
    case 1: answer = coder_send(kind, grade, number, bits, messages, bytes, frame, coordinates); break;
    case 2:
        answer = coder_send_counted(kind, grade, bits, messages, bytes, frame, coordinates, &account.count, &account.sum,
                                    &account.largest, account.changeover);
        break;
    case 3:
        answer = coder_send_queue(kind, grade, messages, QUEUE * bytes, frames, QUEUE * coordinates, &account.count, &account.sum,
                                  &account.largest, account.changeover, &sent);
        break;
    case 4: answer = coder_read_open(kind, grade, bits, frame, coordinates, messages, bytes); break;
    case 5: answer = coder_read_strict(kind, grade, number, bits, frame, coordinates, messages, bytes); break;
    case 6: answer = coder_read_near(kind, grade, samples[0], coordinates, messages, bytes, &distance); break;
    case 7: answer = coder_closer(kind, grade, samples[0], coordinates, samples[1], coordinates); break;
    case 8: answer = coder_write_record(kind, grade, number, messages, bytes, record, sizeof record, 0, &next); break;
    case 9:
        answer = coder_read_record(record, sizeof record, 0, frames, coordinates, &read_kind, &read_grade, &read_number, &next);
        break;
    default: answer = (int64_t)coder_record_length(kind); break;
    }
}

/* The bytes of stack that the call used, in words of 8, by which the stack pointer moves. */
static size_t used(void)
{
    size_t lowest = 0;
    memset(stack, FILL, ROOM);
    getcontext(&there);
    there.uc_stack.ss_sp = stack;
    there.uc_stack.ss_size = ROOM;
    there.uc_link = &here;
    makecontext(&there, call, 0);
    swapcontext(&here, &there);
    while (lowest < ROOM && stack[lowest] == FILL)
        lowest++;
    return ((size_t)(top - (stack + lowest)) + 7) / 8 * 8;
}

int main(void)
{
    size_t most[FUNCTIONS] = {0};
    for (int turn = 0; turn < TURNS; turn++)
        for (kind = 3; kind <= 6; kind++)
            for (grade = 1; grade <= 4; grade++) {
                bytes = coder_message_length(kind, grade);
                coordinates = coder_frame_length(kind);
                for (size_t i = 0; i < QUEUE * bytes; i++) {
                    messages[i] = (uint8_t)(rand() >> 7);
                    if (kind < 5 && i % bytes == bytes - 1)
                        messages[i] &= 0x0F; /* spare bits */
                }
                number = (uint32_t)turn;
                bits = (uint8_t)(turn / 2 % (CODER_MAX_FREE + 1));
                for (size_t k = coder_message_bits(kind, grade) - bits; k < coder_message_bits(kind, grade); k++)
                    messages[k / 8] &= (uint8_t)~(1u << k % 8);
                for (function = 0; function < FUNCTIONS; function++) {
                    account.count = number; /* its next frame has this number: the account was opened with 0 */
                    for (size_t p = 0; p < 2 * coordinates; p++)
                        samples[p % 2][p / 2] = (float)frame[p / 2] + (float)(rand() % 193 - 96) / 256;
                    size_t now = used();
                    const int far = answer == (kind == 6 ? -CODER_REFUSED_KIND : -CODER_REFUSED_TOO_FAR) ||
                                    (function == 7 && answer == -CODER_REFUSED_AT_ODDS);
                    if (answer < 0 && (function < 6 || function > 7 || !far)) {
                        printf("refused %" PRId64 " (%s)\n", -answer, coder_refusal_name(answer));
                        return 1;
                    }
                    if (most[function] < now)
                        most[function] = now;
                }
            }
    for (function = 0; function < FUNCTIONS; function++)
        printf("%s %lu\n", names[function], (unsigned long)most[function]);
    return 0;
}
