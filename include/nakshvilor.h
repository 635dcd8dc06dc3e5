/* Nakshvilor: the proved protocol core of the cooling card.
 *
 * Link with libfirmware.a (./card builds target/staticlib/libfirmware.a, from crates/firmware_c). The archive is for x86-64 with the
 * System V calling convention alone. It needs memcpy and memset, allocates nothing, keeps no state and calls no other function.
 *
 * TABLES. The firmware owns three tables and passes them to every call of the card. Each is a pointer and a count of ELEMENTS. A
 * table of any other length than below, zero too, gets NK_CARD_UNFIT and is not changed.
 *
 * ARGUMENTS. The library uses what is passed during the call and keeps no pointer to it. A pointer that has a count may be null
 * if the count is 0; `len`, `taken`, `degrees` and `phase` may not be null. The arguments of one call may not overlap in memory:
 * tables, bytes, frame, answer buffer and image, and of nk_step `sent`, `states`, `answer` and `frame`; nor may *len, *taken,
 * *degrees or *phase lie in any of these or in one another. While a call uses a table that is not const, no other call may use
 * it, not from an interrupt either; calls on different cards are independent. In an answer buffer, a frame buffer or an image's
 * buffer the bytes after those that the call writes never change.
 *
 * REFUSALS. Every entry takes all inputs and returns one of the numbers below. A number of 2 or more changes no table and
 * writes nothing but the wire bytes of that refusal, whose count is in *len (0 for none). *len and *taken are written by every
 * call that has them, and *phase by every step. docs/FIRMWARE.md says what to do on 11, 12, 13, 14 and 16.
 *
 * WORST CASES. Every call ends, does not recurse, and loops only over tables, frames and fields of bounded length, and over the
 * bytes lent to a receiver. The figures with each entry are the instructions of the most expensive call measured on x86-64, and
 * the most stack bytes of any call (docs/PERFORMANCE.md); they were measured with the older kit.
 */
#ifndef NAKSHVILOR_H
#define NAKSHVILOR_H

#include <stddef.h>
#include <stdint.h>

#ifdef __cplusplus
extern "C" {
#endif

/* Numbers returned (docs/NUMBERS.md has the wire bytes of each). */
enum {
    NK_ANSWERED = 0,         /* done; *len answer bytes are to be sent. From a receiver: *len bytes are a frame */
    NK_DONE = 1,             /* done; nothing is to be sent. From a receiver: no frame yet */
    NK_FOREIGN_ADDRESS = 2,
    NK_FRAME_FORM = 3,
    NK_CHECK_CHARACTER = 4,
    NK_COMMAND_UNKNOWN = 5,
    NK_RANGE_UNKNOWN = 6,    /* register, channel or range */
    NK_VALUE_OUTSIDE = 7,    /* value or option */
    NK_READ_ONLY = 8,
    NK_PROBE_FAULT = 9,
    NK_NOTHING_PENDING = 10,
    NK_BUFFER_SHORT = 11,
    NK_CARD_UNFIT = 12,
    NK_IMAGE_LENGTH = 13,
    NK_IMAGE_PADDING = 14,
    NK_FRAME_BUFFER_SHORT = 16
};

/* Lengths. */
#define NK_WORDS 315u        /* words: uint32_t[NK_WORDS] */
#define NK_MEMORY 4096u      /* memory: uint8_t[NK_MEMORY] */
#define NK_PORTS 398u        /* ports: uint8_t[NK_PORTS], zero at the start */
#define NK_ROOM 38u          /* a dialect's answer buffer has at least this many bytes */
#define NK_IMAGE 293u        /* the saved image */

/* The longest frame of each dialect: its receiver's frame buffer has at least this many bytes. The last is enough for all. */
#define NK_DATALINK_LONGEST 38u
#define NK_LECOM_LONGEST 25u
#define NK_LOVE_LONGEST 32u
#define NK_LUCID_LONGEST 259u

/* Places in words. A signed entry is in two's complement: read it as int32_t. */
#define NK_IA 0u             /* Datalink I.A., 0 to 31 */
#define NK_LECOM_ADDRESS 1u  /* 11 to 99 without a zero figure */
#define NK_LOVE_ADDRESS 2u   /* 1 to 3FFh, low two hex figures not 00 */
#define NK_LOVE 3u           /* SP1, SP2, ALLO, ALHI: signed tenths, -400 to 870 */
#define NK_DEMANDS 7u        /* four fan demands, 0 to 65535 */
#define NK_PARAMETERS 11u    /* channel by channel: 1110h (1000 to 60000000, default 1000000), 1120h (0 to 65535, default 0) */
#define NK_KEPT 19u          /* their saved copies, in the same order */
#define NK_REGISTERS 96u
#define NK_BUFFER 27u        /* LECOM registers, signed, -999999 to 999999: buffer copy, */
#define NK_OPERATIONAL 123u  /* operational copy, */
#define NK_SAVED 219u        /* saved copy */

/* Places in memory: Datalink address 1000h is memory[0]. */
#define NK_CODES 0u          /* four probe codes; 255 is a failed probe */
#define NK_WRITABLE 16u      /* the first byte that a Datalink change may name */

/* Places in ports, the row of the card's port. First the pending Datalink change: if NK_KIND is 0, nothing is pending and the
 * other four have no meaning. */
#define NK_KIND 0u           /* 0 none, 1 Change, 2 Change Bits */
#define NK_NUM 1u            /* NUM as received */
#define NK_LOW_ADDRESS 2u
#define NK_HIGH_ADDRESS 3u
#define NK_DATA 4u           /* NUM data bytes, 32 at most */
/* Then of each dialect the part frame that its receiver has collected: how many bytes it has, low byte first in two bytes; then
 * the bytes, with room for the longest frame. Bytes behind that many have no meaning. */
#define NK_DATALINK_PART 36u
#define NK_LECOM_PART 76u
#define NK_LOVE_PART 103u
#define NK_LUCID_PART 137u

/* Sets the code of probe `channel` (0 to 3). NK_DONE, NK_CARD_UNFIT, or NK_RANGE_UNKNOWN for another channel.
 * Worst case: 445 instructions, 56 bytes of stack. */
uint8_t nk_set_code(const uint32_t *words, size_t words_count, uint8_t *memory, size_t memory_count,
                    const uint8_t *ports, size_t ports_count, uint32_t channel, uint8_t code);

/* Restart: buffer and operational registers become the saved ones, parameters their saved copy, demands 65535, probe codes
 * 255, nothing pending, no part frames; the rest stays. NK_DONE or NK_CARD_UNFIT.
 * Worst case: 523 instructions, 72 bytes of stack. */
uint8_t nk_restart(uint32_t *words, size_t words_count, uint8_t *memory, size_t memory_count, uint8_t *ports,
                   size_t ports_count);

/* The governor's reading of a channel. NK_ANSWERED: *degrees is half the code less 40, exactly. NK_PROBE_FAULT: the probe
 * has failed; NK_CARD_UNFIT, NK_RANGE_UNKNOWN: refused. In these cases *degrees is not written: there are no degrees.
 * Worst case: 452 instructions, 56 bytes of stack. */
uint8_t nk_governor(const uint32_t *words, size_t words_count, const uint8_t *memory, size_t memory_count,
                    const uint8_t *ports, size_t ports_count, uint32_t channel, float *degrees);

/* One whole request of a dialect. `frame` is the request as received, whole: from the dialect's receiver below, or from a driver
 * that knows where frames end. The answer is written to the front of `answer` (at least NK_ROOM bytes, else NK_BUFFER_SHORT)
 * and its length to *len, which is 0 where nothing is to be sent. A frame above the dialect's longest is NK_FRAME_FORM with
 * nothing to be sent.
 *
 * Worst cases: Datalink 772 instructions and 120 bytes of stack, LECOM 840 and 376, Love 720 and 384, LucidControl 608 and
 * 88. */
uint8_t nk_datalink(const uint32_t *words, size_t words_count, uint8_t *memory, size_t memory_count, uint8_t *ports,
                    size_t ports_count, const uint8_t *frame, size_t frame_count, uint8_t *answer, size_t answer_count,
                    size_t *len);
uint8_t nk_lecom(uint32_t *words, size_t words_count, const uint8_t *memory, size_t memory_count, const uint8_t *ports,
                 size_t ports_count, const uint8_t *frame, size_t frame_count, uint8_t *answer, size_t answer_count,
                 size_t *len);
uint8_t nk_love(uint32_t *words, size_t words_count, const uint8_t *memory, size_t memory_count, const uint8_t *ports,
                size_t ports_count, const uint8_t *frame, size_t frame_count, uint8_t *answer, size_t answer_count,
                size_t *len);
uint8_t nk_lucid(uint32_t *words, size_t words_count, const uint8_t *memory, size_t memory_count, const uint8_t *ports,
                 size_t ports_count, const uint8_t *frame, size_t frame_count, uint8_t *answer, size_t answer_count,
                 size_t *len);

/* A receiver for each dialect: bytes go in as they come, a few at each interrupt, and whole frames come out. `bytes` are the
 * bytes that came; `frame` is a buffer of at least the dialect's longest frame.
 *
 * NK_ANSWERED: a byte finished a frame. The frame is at the front of `frame`, *len bytes of it, for the dialect's entry above.
 *   The call stops behind that byte; *taken says how many bytes it took. While that is below the count, lend the rest again.
 * NK_DONE: no frame is finished. All bytes were taken, and *len is 0.
 * NK_CARD_UNFIT; then NK_FRAME_BUFFER_SHORT if `frame` is below the dialect's longest. No byte was taken: *taken and *len are 0.
 *   Lending the same bytes again gives the same number: a loop ends here.
 *
 * What is collected is kept in the dialect's part frame, in ports; words and memory stay as they are. However the bytes are
 * divided over calls, the frames are the same. Bytes of no frame are dropped: those before a frame's start (7Eh in Datalink, EOT
 * in LECOM, STX in Love, any byte in LucidControl); a frame that grows past the longest; a Datalink frame at an unknown command
 * or a NUM above 32; in LECOM and Love a frame that another start breaks off.
 *
 * Here NK_CARD_UNFIT also looks at the part frames of all four dialects: each must be one that its receiver can leave, as one of
 * no bytes is. No other entry looks at them.
 *
 * These calls use the tables as all others do: an interrupt may make them only while no other call of the card is under way.
 * docs/FIRMWARE.md has an interrupt's body.
 *
 * Worst cases, for a longest frame in one call: Datalink 1332 instructions and 328 bytes of stack, LECOM 3301 and 328, Love 1313
 * and 136, LucidControl 1465 and 328. For one byte 1430 at most; each byte more that is lent takes up to 28, in LECOM up to 95. */
uint8_t nk_receive_datalink(const uint32_t *words, size_t words_count, const uint8_t *memory, size_t memory_count,
                            uint8_t *ports, size_t ports_count, const uint8_t *bytes, size_t bytes_count, uint8_t *frame,
                            size_t frame_count, size_t *taken, size_t *len);
uint8_t nk_receive_lecom(const uint32_t *words, size_t words_count, const uint8_t *memory, size_t memory_count,
                         uint8_t *ports, size_t ports_count, const uint8_t *bytes, size_t bytes_count, uint8_t *frame,
                         size_t frame_count, size_t *taken, size_t *len);
uint8_t nk_receive_love(const uint32_t *words, size_t words_count, const uint8_t *memory, size_t memory_count,
                        uint8_t *ports, size_t ports_count, const uint8_t *bytes, size_t bytes_count, uint8_t *frame,
                        size_t frame_count, size_t *taken, size_t *len);
uint8_t nk_receive_lucid(const uint32_t *words, size_t words_count, const uint8_t *memory, size_t memory_count,
                         uint8_t *ports, size_t ports_count, const uint8_t *bytes, size_t bytes_count, uint8_t *frame,
                         size_t frame_count, size_t *taken, size_t *len);

/* The dialect's line was quiet: its part frame is dropped. Call it when the line has been silent for longer than a pause within a
 * frame may last; without it LucidControl, whose frames have no start character, does not find back to their beginning.
 * NK_DONE, or NK_CARD_UNFIT as for the receivers. nk_restart drops the part frames of all dialects.
 * Worst case: 1040 instructions, 120 bytes of stack. */
uint8_t nk_quiet_datalink(const uint32_t *words, size_t words_count, const uint8_t *memory, size_t memory_count,
                          uint8_t *ports, size_t ports_count);
uint8_t nk_quiet_lecom(const uint32_t *words, size_t words_count, const uint8_t *memory, size_t memory_count,
                       uint8_t *ports, size_t ports_count);
uint8_t nk_quiet_love(const uint32_t *words, size_t words_count, const uint8_t *memory, size_t memory_count,
                      uint8_t *ports, size_t ports_count);
uint8_t nk_quiet_lucid(const uint32_t *words, size_t words_count, const uint8_t *memory, size_t memory_count,
                       uint8_t *ports, size_t ports_count);

/* Writes the saved image: NK_ANSWERED with NK_IMAGE bytes at the front of `image`, NK_CARD_UNFIT, or NK_BUFFER_SHORT.
 * Worst case: 2040 instructions, 72 bytes of stack. */
uint8_t nk_write_image(const uint32_t *words, size_t words_count, const uint8_t *memory, size_t memory_count,
                       const uint8_t *ports, size_t ports_count, uint8_t *image, size_t image_count, size_t *len);

/* Reads an image: the addresses, saved registers, saved parameters and Love parameters of the card become the image's.
 * NK_DONE; NK_CARD_UNFIT for the card before the call, NK_IMAGE_LENGTH, NK_IMAGE_PADDING, or NK_CARD_UNFIT for an entry of the
 * image outside its range. Worst case: 2631 instructions, 552 bytes of stack. */
uint8_t nk_read_image(uint32_t *words, size_t words_count, const uint8_t *memory, size_t memory_count,
                      const uint8_t *ports, size_t ports_count, const uint8_t *image, size_t image_count);

/* The line master's step: the host's side of one Datalink exchange (change, acknowledge, read back).
 *
 * A request is `kind`, the unit's I.A., a 16-bit address, and what is to be written: for NK_BYTES `sent` holds the bytes (at
 * most 32) and `states` is not used; for any other kind `sent` holds the masks and `states` the states (at most 16 each).
 * *phase starts as NK_NEW; pass it unchanged, with the same request, from one step to the next. `answer` is the answer to the
 * frame last sent, or nothing (count 0). The step writes the next frame to the front of `frame` (at least NK_ROOM bytes) and its
 * length to *len.
 *
 * NK_ANSWERED: send the frame. NK_DONE: the exchange has ended, *phase says how: NK_ENDED_DONE (every byte, or every forced
 * bit, was read back as asked) or NK_ENDED_UNKNOWN. Refused, with nothing to be sent and the phase as it was: NK_VALUE_OUTSIDE
 * for the request, NK_BUFFER_SHORT, NK_NOTHING_PENDING after the end. A phase outside the list counts as NK_ENDED_UNKNOWN, and
 * is then stored as that. Worst case: 326 instructions, 120 bytes of stack. */
enum { NK_BYTES = 0, NK_BITS = 1 };
enum {
    NK_NEW = 0,
    NK_CHANGING = 1,
    NK_ACKNOWLEDGING = 2,
    NK_READING = 3,
    NK_ENDED_DONE = 4,
    NK_ENDED_UNKNOWN = 5
};
uint8_t nk_step(uint8_t *phase, uint8_t kind, uint32_t ia, uint32_t address, const uint8_t *sent, size_t sent_count,
                const uint8_t *states, size_t states_count, const uint8_t *answer, size_t answer_count, uint8_t *frame,
                size_t frame_count, size_t *len);

/* The masters of LECOM, Love and LucidControl: the host's side of one request and its reply. They keep no state: ask makes the
 * request's frame, and hear, with the same request, says what a reply to it means.
 *
 * ask: NK_VALUE_OUTSIDE exactly if the request lies outside document 01 or writes a probe; then NK_BUFFER_SHORT exactly if the
 *   frame is longer than `frame`; else NK_ANSWERED with the frame at the front of `frame`, *len bytes of it. Of all frames for a
 *   request it is the shortest, and of these the lowest byte by byte.
 * hear: `reply` is the whole reply as received (none: count 0). See nk_heard. */
enum { NK_READ = 0, NK_WRITE = 1, NK_STATUS = 2 };

/* What was heard. `number` is NK_DONE and `said` tells what the reply says; or `said` is NK_HEARD_NOTHING and `number` tells why:
 * NK_VALUE_OUTSIDE (a request that ask refuses so), NK_CHECK_CHARACTER (an answer to this request but for its check characters),
 * NK_FRAME_FORM (no answer to this request, and no refusal from this address).
 * NK_HEARD_VALUE: `count` values, of a group one for each channel, lowest first. A temperature is in tenths of a degree, in
 * LucidControl's type 41h in hundredths. NK_HEARD_FAULT: the probe has failed; there is no value. NK_HEARD_REFUSED:
 * the unit refuses; of Love and LucidControl `count` is 1 and values[0] the error code or status, of LECOM `count` is 0 (its NAK
 * does not tell a failed probe from any other refusal). Values behind `count` have no meaning. */
enum { NK_HEARD_NOTHING = 0, NK_HEARD_VALUE = 1, NK_HEARD_DONE = 2, NK_HEARD_FAULT = 3, NK_HEARD_REFUSED = 4 };
typedef struct {
    uint8_t number;
    uint8_t said;
    size_t count;
    int32_t values[4];
} nk_heard;

/* LECOM: `task` NK_READ or NK_WRITE, any other is outside. `address` is a unit's, or collective: 0, 10, 20 .. 90; to a collective
 * address no unit replies. `code` is the code's number: register 5 is 5, probe 0 is 0x60 (read alone), ACTIVATE 0x67, STORE 0x68.
 * `value` is looked at for a write alone. Worst cases: ask 298 instructions and 144 bytes of stack, hear 465 and 368. */
uint8_t nk_ask_lecom(uint32_t address, uint8_t task, uint32_t code, int32_t value, uint8_t *frame, size_t frame_count,
                     size_t *len);
nk_heard nk_hear_lecom(uint32_t address, uint8_t task, uint32_t code, int32_t value, const uint8_t *reply,
                       size_t reply_count);

/* Love: `task` NK_READ or NK_WRITE of the parameter at `place` (0 to 3: SP1, SP2, ALLO, ALHI), or NK_STATUS, the temperature of
 * probe 0; any other is outside. `value` in tenths, for a write alone. Worst cases: ask 219 instructions and 88 bytes of stack,
 * hear 265 and 176. */
uint8_t nk_ask_love(uint32_t address, uint8_t task, uint32_t place, int32_t value, uint8_t *frame, size_t frame_count,
                    size_t *len);
nk_heard nk_hear_love(uint32_t address, uint8_t task, uint32_t place, int32_t value, const uint8_t *reply,
                      size_t reply_count);

/* LucidControl: any other command is outside. `p1` is a channel, of a group a mask; `p2` a type (0x10, 0x40, 0x41), of the
 * commands on parameters the option byte as sent (NK_SET_PARAM without bit 0x01, NK_RESET with it); `address` names the
 * parameter of NK_GET_PARAM, NK_SET_PARAM and NK_RESET (0x1110 or 0x1120) and is not looked at for the others. `values` are what
 * is sent: one demand for NK_SET_IO, one for each channel of the mask, lowest first, for NK_SET_IO_GROUP, the parameter's value
 * for NK_SET_PARAM, else none; another count is outside.
 * Worst cases: ask 188 instructions and 120 bytes of stack, hear 253 and 152. */
enum {
    NK_GET_IO = 0,
    NK_GET_IO_GROUP = 1,
    NK_SET_IO = 2,
    NK_SET_IO_GROUP = 3,
    NK_GET_PARAM = 4,
    NK_SET_PARAM = 5,
    NK_RESET = 6
};
uint8_t nk_ask_lucid(uint8_t command, uint32_t p1, uint32_t p2, uint32_t address, const uint32_t *values, size_t values_count,
                     uint8_t *frame, size_t frame_count, size_t *len);
nk_heard nk_hear_lucid(uint8_t command, uint32_t p1, uint32_t p2, uint32_t address, const uint32_t *values,
                       size_t values_count, const uint8_t *reply, size_t reply_count);

#ifdef __cplusplus
}
#endif

#endif
