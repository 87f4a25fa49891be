/* The frame coder for C99 and C++: link with libframe_coder.a, which `tools/archives frame_coder` makes in target/staticlib.
 *
 * A message is bytes, a frame is 8, 16, 32 or 64 whole numbers (int32_t). Sending makes the frame of a message, or the frames of a
 * queue of messages; reading makes the message of a frame, or of the noisy samples (float) that a receiver has of it; of the samples
 * of two receivers the closer ones can be chosen; and a sent frame can be written to a buffer of bytes as a record, and read from it.
 * Each is lent as a pointer and a length. An answer is the energy of the frame, 0 or more (for a queue, for the opening of an account,
 * for noisy samples and for the writing of a record 0, for a choice 1 or 2), or minus the number of a refusal. Bad input is refused,
 * and a refusal changes nothing that was lent; in a queue this is true of the refused message, and what was sent before it stands; an
 * account whose opening is refused is zero.
 * docs/GUIDE.md explains the words, docs/example.c shows the calls.
 *
 * LENGTHS, by kind (3 to 6) and grade (1 to 4). A lent length must be exactly the table's; for a queue see QUEUES, and the buffer of
 *     a record may have any.
 *
 *     kind | coordinates | message bits     | message bytes  | spare bits | record bytes
 *        3 |           8 |   4 +  8 * grade |     grade + 1  | 4          |  40
 *        4 |          16 |  20 + 16 * grade | 2 * grade + 3  | 4          |  72
 *        5 |          32 |  32 + 32 * grade | 4 * grade + 4  | none       | 136
 *        6 |          64 | 112 + 64 * grade | 8 * grade + 14 | none       | 264
 *
 * BITS. Message bit k is bit k mod 8, lowest first, of byte k div 8. The bits past the last are spare: at kinds 3 and 4 the four
 *     highest of the last byte. They must be 0 when sending, and a reading writes them as 0.
 *
 * ENERGY AND POWER. The energy of a frame is the sum of the squares of its coordinates; its power is the energy divided by the
 *     number of coordinates. A sent frame has an energy of 1,048,576 at most, and coordinates from -128 to 128. A frame that is
 *     read can have an energy of 2^54: an answer is printed with PRId64. A block is 8 coordinates that begin at a position which
 *     8 divides; its energy is the sum of their squares.
 *
 * SUMS OF FRAMES, as a repeater makes them of sent frames of one kind, whatever their grades and numbers. The open reading takes
 *     a sum as it takes any frame, and gives the message of the sum itself. Up to 131,072 frames add up to a sum in range, and up
 *     to 16,777,215 to one that int32_t holds. A sum in range is always read at kinds 3, 4 and 5, where it is in the coding set;
 *     at kind 6 it is read, or it has left the coding set and is refused by 13, never by 7 or 8.
 *
 * NUMBERS AND TIES. A frame carries a number, 0 to 4294967295. The sent frame is one of least energy in the class of the message;
 *     where several have it, an even number is sent as the first of them in reading order, an odd number as the last: at the first
 *     coordinate where two differ, the smaller comes first. Their energy is the same, so that the number changes no answer of
 *     sending, and all even numbers have one frame, all odd numbers one. Without ties both are the same frame. A strict reading takes
 *     the frame of its number alone. Over all messages of a kind and grade, the frames of an even and those of an odd number add up
 *     to zero in every coordinate. All this is said of messages without free bits.
 *
 * FREE BITS. The last bits of a message, 0 to 4 of them, can be left to the sender, who makes the frame quieter by them: `free`
 *     says how many, and they are the message bits from coder_message_bits(kind, grade) - free on. They must be given as 0, else
 *     the message is refused by 5, as for a spare bit. Each way to set them is a filling of the message: the free bits read as a
 *     number, lowest bit first. Each has a frame under the frame's number, by the rules above. Sent is the frame of the smallest
 *     filling among those of least energy, which is the same one under every number: two sets send the same frame, and never one of
 *     more energy than without free bits. A reading with the same `free` gives the other bits, which are fixed, and writes the free
 *     bits as 0. A strict reading takes the sent frame of its number alone: that of any other filling is 9, also of one with the same
 *     energy. Messages that differ in a bit that is fixed for both keep their distance, whatever their fillings, numbers and free
 *     counts. With `free` 0 nothing is left to the sender, and all is as said above. In a queue, in a near reading and in a record
 *     no bit is free.
 *
 * ACCOUNTS AND THE CHANGEOVER. An account is opened with a changeover, a count from 0 to 1,000,000. With an account the number of a
 *     frame is the count before the send; but the frames below the changeover follow the old rule, which is that of number 0. So
 *     the frame that was sent at a count is judged, by coder_read_strict, under
 *
 *         count < changeover ? 0 : count               (coder_number_at)
 *
 *     Opened with 0, every frame follows the rule of its number; with 1,000,000 none does, and all are sent as by versions up to
 *     0.6.0. The changeover stays as it is, and the other figures of an account do not depend on it.
 *
 * QUEUES. Messages of one kind and grade stand end to end, and so do their frames: for N messages lend
 *     N * coder_message_length(kind, grade) bytes and N * coder_frame_length(kind) coordinates. They are sent in turn, with an
 *     account, up to the first that is refused: the frames before it are written, the account is grown by them, `sent` says how
 *     many they are, and the coordinates behind them keep their values. Message i, counted from 0, is sent at the count before the
 *     queue plus i. A queue of no messages is good: 0 bytes and 0 coordinates.
 *
 * NOISY FRAMES, of kinds 3, 4 and 5. coder_read_near takes as many samples as the kind has coordinates, finds the frame of the coding
 *     set that is near to them, and gives its message and the squared distance of the two. Each sample is a whole number of 256ths
 *     from -128 to 128 (-0.0 is 0); any other, one that is no number among them, is refused by 15. Near is a squared distance below
 *
 *         1, 2, 4              at kinds 3, 4, 5        (CODER_NEAR_LIMIT; not the limit itself)
 *
 *     There is never a second near frame, for two frames of the coding set are at squared distance 4, 8, 16 or more: twice as far
 *     as the limits reach. So a sent frame that noise has moved by less than that is always read back, whatever the noise. The near
 *     frame is found wherever there is one; 16 (too far) says that no frame of the coding set is near. It need not be one that is
 *     sent: coordinates of sent frames are at most 64 in size at these kinds, and samples reach to 128. The distance is exact, a
 *     whole number of 65536ths, and nothing is rounded on the way. A receiver whose samples are finer than 256ths rounds them
 *     first, each to the nearest one (in C: roundf(x * 256) / 256); the distance is then that of the rounded samples, of which each
 *     has been moved by up to 1/512. Kind 6 has no near reading and is answered 1.
 *
 * TWO RECORDINGS, the samples that two receivers have of one frame. coder_closer reads each as coder_read_near does, and says which
 *     is to be taken:
 *
 *         both near, to one message              the closer, of the smaller distance; on equal distance the first
 *         one refused, too far included          the other
 *         both refused                           none: minus the number of the first, whatever that of the second
 *         both near, to different messages       none: minus 18 (at odds)
 *
 *     Distances are compared exactly. It is the messages that are compared: recordings near to two frames of one class, as a message
 *     has under an even and an odd number, are not at odds. Kind and grade are those of both recordings; where either is wrong, both
 *     are refused. Nothing is written: the message of the chosen recording, and its distance, are had by coder_read_near. A choice
 *     does not say whether the other was near too.
 *
 * RECORDS. A record is a sent frame in bytes, with what it is judged by:
 *
 *         4C 46 | kind | grade | number, 4 bytes | coordinates, 4 bytes each
 *
 *     all lowest byte first, coordinates in two's complement. It begins at a place of the buffer, counted in bytes from 0, whatever
 *     the alignment. Records of any kinds may stand one behind the other: the place after one, which a call stores to `next`, is the
 *     place of the next. A place may be any number. At the end of the buffer and past it reading is refused by 10, and writing a good
 *     message by 19: a buffer of records is read through when the place is its length. What is written is read back the same, and a
 *     record that is read is, byte for byte, the one that is written of its message, which a reading of its frame gives.
 *
 * WHAT A CALLER HAS TO SEE TO, since nothing here can test it:
 *   - a pointer is valid for as many elements as its length says, and aligned for its type. Where the length is 0 it may be
 *     anything, null too, and is not looked at: no message, frame or record has length 0, so that the call is refused, unless it is a
 *     queue of no messages, which has nothing to read and nothing to write, or the other of two recordings is chosen;
 *   - `count`, `sum`, `largest`, `kept`, `sent`, `distance`, `next` and a record's `kind`, `grade` and `number`, or `account`, are
 *     valid in every call that takes them, and never null, also where the call is refused (coder_send_queue and coder_open store to
 *     all four of theirs in every call);
 *   - a frame is read strictly under its own number, and an account goes on with its own changeover: nothing in a frame tells its
 *     number, as a record does, and coder_send_counted and coder_send_queue take any changeover, as they take any count;
 *   - a frame is read with the free count that it was sent with: nothing in a frame tells that either. With a smaller one bits of
 *     the filling are read too, and with a larger one fixed bits are lost, or strictly the frame may be 9;
 *   - what is lent to be written overlaps nothing else that is lent to the call, and nobody else writes to what is lent during the
 *     call. What is only read may overlap: two recordings can share samples, or be the same.
 * What is lent to be written (a sender's frames, `sent`, an account to be opened, a reading's message, `distance`, the buffer that a
 *     record is written to, what one is read into) need not be set before: nothing of it is loaded that the call has not stored
 *     (tested under valgrind).
 *
 * KIND, GRADE AND FREE ARE uint8_t in the archive's functions. C and C++ narrow an int to that in silence: kind 259 arrives as 3,
 *     and 256 free bits as none. The functions that are written out in this header take an int and test it before they narrow it.
 *     Where kind and grade come from outside as ints, ask coder_message_length(kind, grade) first: it is 0 where there is no such
 *     kind or grade; and hold a free count to CODER_MAX_FREE. A wider number or changeover is narrowed to uint32_t likewise: a
 *     number keeps its parity and so its rule; a changeover is tested by coder_account_open before that, and not by coder_open.
 *
 * FOR FIRMWARE. The archive is for x86-64, ELF and the System V calling convention (Linux); there is none for other processors
 *     today. It needs nothing beyond the base of x86-64 (SSE2), and links into fixed and position-independent programs. It calls
 *     nothing but memset, which the compiler puts in for setting a buffer to zeros and which C libraries and firmware have (no
 *     allocation, no system call), and has no data that is written, so it is reentrant and safe in threads.
 *     Only coder_send_counted, coder_send_queue (double), coder_read_near and coder_closer (float and double) compute in floating
 *     point; but every function save coder_open and coder_record_length uses the vector registers (xmm), which whoever interrupts a
 *     thread must save. The mode of rounding does not matter to the last two of the four; where mxcsr takes denormals for zero, as
 *     -ffast-math may set it, a denormal sample is 0 and not unfit. A call ends on every input; its time depends on the input
 *     (docs/BENCHMARKS.md), that of a queue on the number of its messages above all, that of coder_read_near and coder_closer on the
 *     noise.
 *     Measured on the archive of this version, A=target/staticlib/libframe_coder.a:
 *
 *       nm -u $A        one undefined symbol: memset
 *       size $A         text 30312 (code and constants), data 0, bss 0
 *       size -A $A      a section for each function, so that -Wl,--gc-sections leaves out what is not called: of 28684 bytes of
 *                       code coder_send alone needs 12752, the open and the strict reading 15529, coder_read_near alone 14417,
 *                       coder_closer alone 15205, coder_write_record alone 13237, coder_read_record alone 13099
 *       cc -I crates/frame_coder tools/c/stack.c $A -o target/stack && target/stack
 *                       the most stack that a call used, in bytes, with its return address and the arguments on the stack:
 *                       coder_open 8, coder_send 2288, coder_send_counted 2336, coder_send_queue 1216, coder_read_open 616,
 *                       coder_read_strict 2224, coder_read_near 1624, coder_closer 1752, coder_write_record 1408,
 *                       coder_read_record 1792, coder_record_length 8
 *       objdump -dr $A | grep -E '>:$|push|sub .*,%rsp|-0x[0-9a-f]*\(%rsp\)|PLT32'
 *                       where it goes. Nothing recurs, and some of the bytes, 128 at most, lie below the stack pointer, in the
 *                       red zone of the calling convention: an interrupt on the same stack must leave out 128 bytes there
 *
 * Every function of the archive is proved to answer, and to leave in what it is lent, what crates/frame_coder/src/lib.rt says.
 * The functions that are written out in this header (lengths, limits, names, account, recording) are plain C and tested only, by
 * tools/c/run; so are pointers where the length is 0, which no contract speaks of.
 */
#ifndef FRAME_CODER_H
#define FRAME_CODER_H

#include <stddef.h>
#include <stdint.h>

#define FRAME_CODER_VERSION "0.12.0"

#ifdef __cplusplus
extern "C" {
#endif

/* A function that is written out here; a program need not use it. */
#ifdef __GNUC__
#define CODER_INLINE static inline __attribute__((unused))
#else
#define CODER_INLINE static inline
#endif

/* The largest lengths, over all kinds and grades. */
#define CODER_MAX_MESSAGE_LENGTH 46 /* bytes */
#define CODER_MAX_FRAME_LENGTH 64   /* coordinates */
#define CODER_MAX_RECORD_LENGTH 264 /* bytes */

/* A reading takes coordinates from minus this to this. */
#define CODER_MAX_COORDINATE 16777216

/* The most bits of a message that may be free. */
#define CODER_MAX_FREE 4

/* An account with so many frames is full, and no account is opened with a changeover above it. */
#define CODER_MAX_COUNT 1000000

/* The coordinates and the record bytes of a kind, the message bits and the message bytes of a kind and grade, as constants where kind
 * and grade are; 0 where there is no such kind or grade. An argument may be evaluated more than once. */
#define CODER_FRAME_LENGTH(kind) ((kind) == 3 ? 8 : (kind) == 4 ? 16 : (kind) == 5 ? 32 : (kind) == 6 ? 64 : 0)
#define CODER_RECORD_LENGTH(kind) (CODER_FRAME_LENGTH(kind) == 0 ? 0 : 8 + 4 * CODER_FRAME_LENGTH(kind))
#define CODER_MESSAGE_BITS(kind, grade)                                                  \
    ((grade) < 1 || (grade) > 4 ? 0 : (kind) == 3 ? 4 + 8 * (grade)                      \
                                  : (kind) == 4   ? 20 + 16 * (grade)                    \
                                  : (kind) == 5   ? 32 + 32 * (grade)                    \
                                  : (kind) == 6   ? 112 + 64 * (grade)                   \
                                                  : 0)
#define CODER_MESSAGE_LENGTH(kind, grade) ((CODER_MESSAGE_BITS(kind, grade) + 7) / 8)

/* The squared distance below which a frame of the kind is near to samples; 0 where the kind has no near reading. */
#define CODER_NEAR_LIMIT(kind) ((kind) == 3 ? 1 : (kind) == 4 ? 2 : (kind) == 5 ? 4 : 0)

/* The lengths as functions; that of a record is coder_record_length, below. */
CODER_INLINE size_t coder_frame_length(int kind)
{
    return (size_t)CODER_FRAME_LENGTH(kind);
}

CODER_INLINE size_t coder_message_bits(int kind, int grade)
{
    return (size_t)CODER_MESSAGE_BITS(kind, grade);
}

CODER_INLINE size_t coder_message_length(int kind, int grade)
{
    return (size_t)CODER_MESSAGE_LENGTH(kind, grade);
}

/* The numbers of the refusals. Sending tests 1, 2, 17, 3, 4, 5, and with an account 11; sending a queue tests 1, 2, 3, 4 before any
 * message is sent, then 5 and 11 of each message in its turn; reading tests 1, 2, 17, 4, 3, then 6 over all coordinates, then 7, 8,
 * 13, and if it is strict 9; reading noisy samples tests 1, 2, 4, 3, then 15 over all samples, then 16; opening an account tests 14
 * alone. The first that holds is answered. Choosing a recording tests each of the two like noisy samples, but for 3, since no message
 * is lent, and where neither is refused 18. Writing a record tests 1, 2, 3, 5, then 19; reading one tests 10, then 1, 2, 4, 19, then as
 * the strict reading 6, 7, 8, 13, 9, and answers 19 in place of 1 or 2 where the kind's or the grade's byte is missing. (12 is a
 * refusal of a sheet.) */
enum coder_refusal {
    CODER_REFUSED_KIND = 1,            /* the kind is not 3 to 6; noisy samples: not 3 to 5 */
    CODER_REFUSED_GRADE = 2,           /* the grade is not 1 to 4 */
    CODER_REFUSED_MESSAGE_LENGTH = 3,  /* the message bytes lent differ from the kind's and grade's; a queue: are no whole messages */
    CODER_REFUSED_FRAME_LENGTH = 4,    /* the coordinates or samples lent differ from the kind's; a queue: from so many a message */
    CODER_REFUSED_SPARE_BITS = 5,      /* sending: a spare bit of the message is set, or a free one; a queue: of the first not sent */
    CODER_REFUSED_OVER_RANGE = 6,      /* reading: a coordinate is outside -16777216 .. 16777216 */
    CODER_REFUSED_BROKEN_LEVEL_0 = 7,  /* reading: the coordinates' bits of weight 1 are not a codeword */
    CODER_REFUSED_BROKEN_LEVEL_1 = 8,  /* reading, kinds 4 to 6: the coordinates' bits of weight 2 are not a codeword */
    CODER_REFUSED_UNSHAPED = 9,        /* strict reading: the frame is not the one that is sent for its message under the number */
    CODER_REFUSED_MARK = 10,           /* reading a record: the mark 4C 46 does not stand at the place, or not all of it */
    CODER_REFUSED_ACCOUNT_FULL = 11,   /* sending with an account: the count is 1,000,000 or more; a queue: has become so */
    CODER_REFUSED_BROKEN_LEVEL_2 = 13, /* reading, kind 6: the coordinates' bits of weight 4 are not a codeword */
    CODER_REFUSED_CHANGEOVER = 14,     /* opening an account: the changeover is above 1,000,000 */
    CODER_REFUSED_UNFIT_SAMPLE = 15,   /* noisy samples: one is no number, or no whole number of 256ths from -128 to 128 */
    CODER_REFUSED_TOO_FAR = 16,        /* noisy samples: no frame of the coding set is near */
    CODER_REFUSED_FREE_COUNT = 17,     /* more than 4 bits are to be free */
    CODER_REFUSED_AT_ODDS = 18,        /* two recordings: both are near, and their messages differ */
    CODER_REFUSED_RECORD_END = 19      /* records: the buffer from the place on is too short for the record */
};

/* The name of the refusal that an answer tells, in the words of the trade; "none" for an answer of 0 or more. */
CODER_INLINE const char *coder_refusal_name(int64_t answer)
{
    if (answer >= 0)
        return "none";
    switch (-answer) {
    case CODER_REFUSED_KIND: return "kind";
    case CODER_REFUSED_GRADE: return "grade";
    case CODER_REFUSED_MESSAGE_LENGTH: return "message length";
    case CODER_REFUSED_FRAME_LENGTH: return "frame length";
    case CODER_REFUSED_SPARE_BITS: return "spare bits";
    case CODER_REFUSED_OVER_RANGE: return "over range";
    case CODER_REFUSED_BROKEN_LEVEL_0: return "broken level 0";
    case CODER_REFUSED_BROKEN_LEVEL_1: return "broken level 1";
    case CODER_REFUSED_UNSHAPED: return "unshaped";
    case CODER_REFUSED_MARK: return "mark";
    case CODER_REFUSED_ACCOUNT_FULL: return "account full";
    case CODER_REFUSED_BROKEN_LEVEL_2: return "broken level 2";
    case CODER_REFUSED_CHANGEOVER: return "changeover";
    case CODER_REFUSED_UNFIT_SAMPLE: return "unfit sample";
    case CODER_REFUSED_TOO_FAR: return "too far";
    case CODER_REFUSED_FREE_COUNT: return "free count";
    case CODER_REFUSED_AT_ODDS: return "at odds";
    case CODER_REFUSED_RECORD_END: return "record end";
    default: return "not known";
    }
}

/* Sends a message under a number, with its last `free` bits left to the sender: writes every coordinate of the frame that the
 * smallest filling of least energy has under the number. With `free` 0 that is the frame of the message itself: the first in reading
 * order among the least where the number is even, the last where it is odd. */
int64_t coder_send(uint8_t kind, uint8_t grade, uint32_t number, uint8_t free, const uint8_t *message, size_t message_len,
                   int32_t *frame, size_t frame_len);

/* The open reading: takes any frame of the coding set with coordinates in range, and writes every byte of its message, the last
 * `free` bits as 0. It takes no number: the frames of a message under all numbers, and of all its fillings, are read as the
 * message. */
int64_t coder_read_open(uint8_t kind, uint8_t grade, uint8_t free, const int32_t *frame, size_t frame_len, uint8_t *message,
                        size_t message_len);

/* The strict reading under a number: takes the frame alone that coder_send writes under it with the same `free`, and writes every
 * byte of its message, the last `free` bits as 0. */
int64_t coder_read_strict(uint8_t kind, uint8_t grade, uint32_t number, uint8_t free, const int32_t *frame, size_t frame_len,
                          uint8_t *message, size_t message_len);

/* The near reading of noisy samples (kinds 3 to 5): finds the frame of the coding set whose squared distance from the samples is below
 * CODER_NEAR_LIMIT(kind), writes every byte of its message, stores the squared distance to `distance`, and answers 0. Where there is
 * none it answers -16. `distance` is stored to on success only. It takes no number, as the open reading takes none. */
int64_t coder_read_near(uint8_t kind, uint8_t grade, const float *samples, size_t samples_len, uint8_t *message, size_t message_len,
                        double *distance);

/* Chooses between two recordings of one frame (kinds 3 to 5): 1 for the first, 2 for the second, or minus the number where there is
 * none to choose, -18 where both are near and their messages differ. coder_closer_recording hands the recording itself back. */
int64_t coder_closer(uint8_t kind, uint8_t grade, const float *first, size_t first_len, const float *second, size_t second_len);

/* Opens an account with a changeover: leaves 0, 0.0 and 0 in the count of frames, the sum of powers and `largest`, and the changeover
 * in `kept`, and answers 0. For a changeover above 1,000,000 it answers -14, and leaves zero in each of the four. */
int64_t coder_open(uint32_t changeover, uint32_t *count, double *sum, uint64_t *largest, uint32_t *kept);

/* Sends as coder_send does, under the number coder_number_at(changeover, *count), and on success adds 1 to the count of frames and
 * the frame's power to the sum of powers, and leaves in `largest` the larger of what stood there and the largest energy of the
 * frame's blocks, by which an output stage is sized. A refusal changes none of the three. The changeover is the one that coder_open
 * left in `kept`, in every call with the account. The sum of an account that grew from its opening is exact, and its `largest` is
 * the largest block energy among the frames counted. One from elsewhere is taken as it comes, with any count, sum, `largest` and
 * changeover. */
int64_t coder_send_counted(uint8_t kind, uint8_t grade, uint8_t free, const uint8_t *message, size_t message_len, int32_t *frame,
                           size_t frame_len, uint32_t *count, double *sum, uint64_t *largest, uint32_t changeover);

/* Sends a queue with an account: does what coder_send_counted with `free` 0 would do with each message and frame in turn, up to the
 * first message that is refused. Answers 0 where all are sent, or minus the number of the refusal. In every call it leaves the
 * number of messages sent in `sent`, and the account grown by them in the other three, which is as it came where none is sent. The
 * refused message is the one behind those sent: it writes nothing and adds nothing, and what is behind it is not looked at. The
 * refusals 1 to 4 are of the whole queue, and none is sent. A queue of no messages is answered 0, also with a full account. */
int64_t coder_send_queue(uint8_t kind, uint8_t grade, const uint8_t *messages, size_t messages_len, int32_t *frames,
                         size_t frames_len, uint32_t *count, double *sum, uint64_t *largest, uint32_t changeover, size_t *sent);

/* Writes a record: sends the message under the number, as coder_send with `free` 0 does, puts the frame's record at the place, changes
 * no byte outside it, stores the place after it to `next`, and answers 0. */
int64_t coder_write_record(uint8_t kind, uint8_t grade, uint32_t number, const uint8_t *message, size_t message_len, uint8_t *buffer,
                           size_t buffer_len, size_t place, size_t *next);

/* Reads the record at the place: takes the frame alone that is sent under the record's number, writes every coordinate of it, stores
 * the record's kind, grade and number and the place after it, and answers the energy. `frame_len` must be that of the record's kind
 * (coder_frame_length_at). */
int64_t coder_read_record(const uint8_t *buffer, size_t buffer_len, size_t place, int32_t *frame, size_t frame_len, uint8_t *kind,
                          uint8_t *grade, uint32_t *number, size_t *next);

/* The bytes of a kind's record; 0 where there is no such kind. */
size_t coder_record_length(uint8_t kind);

/* The coordinates to lend for the record at the place, by its kind's byte; 0 where that byte is missing or is no kind's, and then the
 * record is refused by 10, 19 or 1, whatever is lent. */
CODER_INLINE size_t coder_frame_length_at(const uint8_t *buffer, size_t buffer_len, size_t place)
{
    return place < buffer_len && buffer_len - place > 2 ? coder_frame_length(buffer[place + 2]) : 0;
}

/* The number under which a frame is judged that was sent with an account of this changeover, at this count before the send. */
CODER_INLINE uint32_t coder_number_at(uint32_t changeover, uint32_t count)
{
    return count < changeover ? 0 : count;
}

/* An account: the count of the frames that were sent, the sum of their powers, and the largest energy of their blocks; and the
 * changeover that it was opened with. */
struct coder_account {
    uint32_t count;
    double sum;
    uint64_t largest;
    uint32_t changeover;
};

/* coder_open with the account as a struct, and with the changeover tested before it is narrowed: 0; or -14 for a changeover that is
 * not 0 to 1,000,000, and the account is zero. */
CODER_INLINE int64_t coder_account_open(struct coder_account *account, int64_t changeover)
{
    const uint32_t narrowed = changeover < 0 || changeover > CODER_MAX_COUNT ? UINT32_MAX : (uint32_t)changeover;
    return coder_open(narrowed, &account->count, &account->sum, &account->largest, &account->changeover);
}

/* The number of the next frame that is sent with the account, by which it is judged: ask before the send. */
CODER_INLINE uint32_t coder_account_number(const struct coder_account *account)
{
    return coder_number_at(account->changeover, account->count);
}

/* coder_send_counted with the account as a struct, and with kind, grade and free count tested before they are narrowed. */
CODER_INLINE int64_t coder_account_send(struct coder_account *account, int kind, int grade, int free, const uint8_t *message,
                                        size_t message_len, int32_t *frame, size_t frame_len)
{
    if (coder_frame_length(kind) == 0)
        return -CODER_REFUSED_KIND;
    if (coder_message_length(kind, grade) == 0)
        return -CODER_REFUSED_GRADE;
    if (free < 0 || free > CODER_MAX_FREE)
        return -CODER_REFUSED_FREE_COUNT;
    return coder_send_counted((uint8_t)kind, (uint8_t)grade, (uint8_t)free, message, message_len, frame, frame_len, &account->count,
                              &account->sum, &account->largest, account->changeover);
}

/* The same for coder_send_queue, which takes no free count; where kind or grade is refused, `sent` is 0. */
CODER_INLINE int64_t coder_account_send_queue(struct coder_account *account, int kind, int grade, const uint8_t *messages,
                                              size_t messages_len, int32_t *frames, size_t frames_len, size_t *sent)
{
    *sent = 0;
    if (coder_frame_length(kind) == 0)
        return -CODER_REFUSED_KIND;
    if (coder_message_length(kind, grade) == 0)
        return -CODER_REFUSED_GRADE;
    return coder_send_queue((uint8_t)kind, (uint8_t)grade, messages, messages_len, frames, frames_len, &account->count,
                            &account->sum, &account->largest, account->changeover, sent);
}

/* A recording that was chosen: the caller's own samples, the first's or the second's, and what coder_closer answered. Where none was
 * chosen it is the empty beginning of the first: its pointer, and length 0. */
struct coder_recording {
    const float *samples;
    size_t length;
    int64_t answer;
};

/* coder_closer with the chosen recording as a struct, and with kind and grade tested before they are narrowed. */
CODER_INLINE struct coder_recording coder_closer_recording(int kind, int grade, const float *first, size_t first_len,
                                                           const float *second, size_t second_len)
{
    struct coder_recording chosen = {first, 0, -CODER_REFUSED_KIND};
    if (CODER_NEAR_LIMIT(kind) == 0)
        return chosen;
    chosen.answer = -CODER_REFUSED_GRADE;
    if (coder_message_length(kind, grade) == 0)
        return chosen;
    chosen.answer = coder_closer((uint8_t)kind, (uint8_t)grade, first, first_len, second, second_len);
    if (chosen.answer == 1)
        chosen.length = first_len;
    if (chosen.answer == 2) {
        chosen.samples = second;
        chosen.length = second_len;
    }
    return chosen;
}

#ifdef __cplusplus
}
#endif

#endif
