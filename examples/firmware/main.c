/* A small card over the proved library: its tables, its loop's body, a request of every dialect with the answer that the
 * papers give it, the same requests as bytes come at interrupts, the governor's reading, and the saved image.
 *
 * Build and run, from the repository's root (./card does this, and then the same with checks.c beside it):
 *     (cd crates/firmware_c && rt lib)
 *     mkdir -p target/staticlib && cp crates/firmware_c/out/libfirmware_c.a target/staticlib/libfirmware.a
 *     gcc -std=c11 -Wall -Wextra -Werror -O2 -Iinclude examples/firmware/main.c target/staticlib/libfirmware.a -o target/card
 *     target/card
 */
#include <stdbool.h>
#include <stdio.h>
#include <stdlib.h>
#include <string.h>

#include "nakshvilor.h"

enum { CHANNELS = 4, FAULT_CODE = 255, FULL_DEMAND = 65535, DEFAULT_1110 = 1000000 };

/* The tables. The firmware owns them and lends them to every call. */
struct card {
    uint32_t words[NK_WORDS];
    uint8_t memory[NK_MEMORY];
    uint8_t ports[NK_PORTS];
};

/* The six arguments that begin every call of the card. */
#define TABLES(card) (card)->words, NK_WORDS, (card)->memory, NK_MEMORY, (card)->ports, NK_PORTS

/* The card before its first saved image: its addresses, its defaults, failed probes, everything else zero. */
static void card_default(struct card *card)
{
    memset(card, 0, sizeof *card);
    card->words[NK_IA] = 3;
    card->words[NK_LECOM_ADDRESS] = 11;
    card->words[NK_LOVE_ADDRESS] = 0x32;
    for (size_t channel = 0; channel < CHANNELS; channel++) {
        card->memory[NK_CODES + channel] = FAULT_CODE;
        card->words[NK_DEMANDS + channel] = FULL_DEMAND;
        card->words[NK_PARAMETERS + 2 * channel] = DEFAULT_1110;
        card->words[NK_KEPT + 2 * channel] = DEFAULT_1110;
    }
}

enum dialect { DATALINK, LECOM, LOVE, LUCID };

/* The loop's body: one whole frame that a line received. *len bytes of the answer are to be sent, none if it is 0; the
 * number says what happened. */
static uint8_t serve(struct card *card, enum dialect dialect, const uint8_t *frame, size_t count, uint8_t *answer,
                     size_t room, size_t *len)
{
    switch (dialect) {
    case DATALINK:
        return nk_datalink(TABLES(card), frame, count, answer, room, len);
    case LECOM:
        return nk_lecom(TABLES(card), frame, count, answer, room, len);
    case LOVE:
        return nk_love(TABLES(card), frame, count, answer, room, len);
    case LUCID:
        return nk_lucid(TABLES(card), frame, count, answer, room, len);
    }
    abort();
}

/* Bytes that came on a dialect's line go to its receiver. */
static uint8_t receive(struct card *card, enum dialect dialect, const uint8_t *bytes, size_t count, uint8_t *frame,
                       size_t room, size_t *taken, size_t *len)
{
    switch (dialect) {
    case DATALINK:
        return nk_receive_datalink(TABLES(card), bytes, count, frame, room, taken, len);
    case LECOM:
        return nk_receive_lecom(TABLES(card), bytes, count, frame, room, taken, len);
    case LOVE:
        return nk_receive_love(TABLES(card), bytes, count, frame, room, taken, len);
    case LUCID:
        return nk_receive_lucid(TABLES(card), bytes, count, frame, room, taken, len);
    }
    abort();
}

/* The dialect's line was silent for longer than a pause within a frame may last. */
static uint8_t quiet(struct card *card, enum dialect dialect)
{
    switch (dialect) {
    case DATALINK:
        return nk_quiet_datalink(TABLES(card));
    case LECOM:
        return nk_quiet_lecom(TABLES(card));
    case LOVE:
        return nk_quiet_love(TABLES(card));
    case LUCID:
        return nk_quiet_lucid(TABLES(card));
    }
    abort();
}

/* The transmitter of the line: here what the card sends is kept, to be compared. */
static struct {
    uint8_t bytes[2 * NK_ROOM];
    size_t count;
} sent;

static void transmit(const uint8_t *answer, size_t len)
{
    if (len > sizeof sent.bytes - sent.count)
        abort();
    memcpy(sent.bytes + sent.count, answer, len);
    sent.count += len;
}

/* An interrupt's body, to be copied: some bytes came on a dialect's line. Each frame that they finish goes to the dialect's
 * entry, and the rest is lent again. NK_DONE when all bytes are taken; else the number of the refusal, and the bytes behind
 * those taken are lost. */
static uint8_t bytes_came(struct card *card, enum dialect dialect, const uint8_t *bytes, size_t count)
{
    uint8_t frame[NK_LUCID_LONGEST], answer[NK_ROOM];
    size_t taken, frame_len, answer_len;
    for (size_t at = 0; at < count; at += taken) {
        uint8_t number = receive(card, dialect, bytes + at, count - at, frame, sizeof frame, &taken, &frame_len);
        if (number != NK_ANSWERED && number != NK_DONE)
            return number; /* 12 or 16: no byte was taken, and none would be the next time */
        if (number == NK_ANSWERED) {
            serve(card, dialect, frame, frame_len, answer, sizeof answer, &answer_len); /* the number is for the log */
            transmit(answer, answer_len);
        }
    }
    return NK_DONE;
}

/* What a line brings, and what the card answers by the papers. Probe 0 has code 90, which is 5.0 degrees. */
#define BYTES(...) (const uint8_t[]){__VA_ARGS__}, sizeof((const uint8_t[]){__VA_ARGS__})
static const struct request {
    const char *name;
    enum dialect dialect;
    const uint8_t *frame;
    size_t count;
    const uint8_t *answer;
    size_t answer_count;
} requests[] = {
    {"Datalink: four bytes from 1000h, the probe codes", DATALINK, BYTES(0x7E, 0xE3, 0x04, 0x00, 0x10, 0xF7),
     BYTES(0x7E, 0x23, 0x04, 0x00, 0x10, 90, 255, 255, 255, 0x8E)},
    {"LECOM: 9873 to register 00", LECOM, BYTES(0x04, '1', '1', 0x02, '0', '0', '0', '9', '8', '7', '3', 0x03, 0x36),
     BYTES(0x06)},
    {"LECOM: ACTIVATE", LECOM, BYTES(0x04, '1', '1', 0x02, '6', '7', '1', 0x03, 0x33), BYTES(0x06)},
    {"LECOM: STORE", LECOM, BYTES(0x04, '1', '1', 0x02, '6', '8', '1', 0x03, 0x3C), BYTES(0x06)},
    {"Love: the temperature", LOVE, BYTES(0x02, 'L', '3', '2', '0', '0', 'C', '5', 0x03),
     BYTES(0x02, 'L', '3', '2', 'C', '0', '0', '0', '0', '0', '5', '0', '4', '9', 0x06)},
    {"LucidControl: probe 0 in tenths", LUCID, BYTES(0x46, 0x00, 0x40, 0x00), BYTES(0x00, 0x02, 50, 0x00)},
    {"LucidControl: probe 1, which has failed", LUCID, BYTES(0x46, 0x01, 0x40, 0x00), BYTES(0xD0, 0x00)},
};

static void show(const char *name, const uint8_t *bytes, size_t count)
{
    printf("    %-6s", name);
    for (size_t i = 0; i < count; i++)
        printf(" %02X", bytes[i]);
    printf("\n");
}

/* The governor gets degrees, or none. */
static void govern(struct card *card, uint32_t channel)
{
    float degrees;
    uint8_t number = nk_governor(TABLES(card), channel, &degrees);
    if (number == NK_ANSWERED)
        printf("governor, channel %u: %.1f degrees\n", (unsigned)channel, degrees);
    else
        printf("governor, channel %u: no degrees, number %u\n", (unsigned)channel, number);
}

/* Since the last look the card has sent this many times the answer to a request, and nothing else. */
static bool has_sent(const struct request *r, size_t times)
{
    bool same = sent.count == times * r->answer_count;
    for (size_t i = 0; same && i < times; i++)
        same = memcmp(sent.bytes + i * r->answer_count, r->answer, r->answer_count) == 0;
    sent.count = 0;
    return same;
}

/* The frame comes in two calls, divided at a place. */
static bool is_served_in_two(struct card *card, const struct request *r, size_t place)
{
    return bytes_came(card, r->dialect, r->frame, place) == NK_DONE &&
           bytes_came(card, r->dialect, r->frame + place, r->count - place) == NK_DONE && has_sent(r, 1);
}

static bool is_served_byte_by_byte(struct card *card, const struct request *r)
{
    bool taken = true;
    for (size_t i = 0; i < r->count; i++)
        taken = taken && has_sent(r, 0) && bytes_came(card, r->dialect, r->frame + i, 1) == NK_DONE;
    return taken && has_sent(r, 1);
}

/* Two frames come in one call, which the loop lends again behind the first. */
static bool is_served_twice(struct card *card, const struct request *r)
{
    uint8_t both[2 * NK_LUCID_LONGEST];
    memcpy(both, r->frame, r->count);
    memcpy(both + r->count, r->frame, r->count);
    return bytes_came(card, r->dialect, both, 2 * r->count) == NK_DONE && has_sent(r, 2);
}

/* Bytes of no frame send nothing, and what is left of them is dropped by quiet: the frame behind it is answered. */
static bool is_served_behind(struct card *card, const struct request *r, const uint8_t *bytes, size_t count)
{
    return bytes_came(card, r->dialect, bytes, count) == NK_DONE && has_sent(r, 0) &&
           quiet(card, r->dialect) == NK_DONE && bytes_came(card, r->dialect, r->frame, r->count) == NK_DONE &&
           has_sent(r, 1);
}

/* A request as bytes come, in all these ways, has the same answer as its whole frame. */
static bool is_served_as_it_comes(struct card *card, const struct request *r)
{
    static const uint8_t noise[] = {0x55, 0x00, 0x20};
    bool same = is_served_byte_by_byte(card, r) && is_served_twice(card, r);
    for (size_t place = 0; same && place < r->count; place++)
        same = is_served_in_two(card, r, place) && is_served_behind(card, r, r->frame, place);
    return same && is_served_behind(card, r, noise, sizeof noise);
}

/* The requests once more, each as its bytes come. */
static bool show_receivers(struct card *card)
{
    printf("as bytes come: divided at every place, byte by byte, two in one call, behind noise, and after quiet\n");
    for (const struct request *r = requests; r < requests + sizeof requests / sizeof *requests; r++) {
        if (!is_served_as_it_comes(card, r)) {
            fprintf(stderr, "FAILED: as bytes come: %s\n", r->name);
            return false;
        }
        printf("    %s: %zu bytes, the same answer each time\n", r->name, r->count);
    }
    return true;
}

int main(void)
{
    static struct card card;
    static uint8_t image[NK_IMAGE];
    uint8_t answer[NK_ROOM];
    size_t len;

    card_default(&card);
    nk_set_code(TABLES(&card), 0, 90);
    govern(&card, 0);
    govern(&card, 1);
    for (const struct request *r = requests; r < requests + sizeof requests / sizeof *requests; r++) {
        uint8_t number = serve(&card, r->dialect, r->frame, r->count, answer, sizeof answer, &len);
        printf("%s: number %u\n", r->name, number);
        show("frame", r->frame, r->count);
        show("answer", answer, len);
        if (len != r->answer_count || memcmp(answer, r->answer, len) != 0) {
            show("should", r->answer, r->answer_count);
            return EXIT_FAILURE;
        }
    }
    if (!show_receivers(&card))
        return EXIT_FAILURE;
    /* The image is kept after a STORE; a card whose supply comes back is set up, reads it and restarts. */
    if (nk_write_image(TABLES(&card), image, sizeof image, &len) != NK_ANSWERED)
        return EXIT_FAILURE;
    card_default(&card);
    if (nk_read_image(TABLES(&card), image, len) != NK_DONE || nk_restart(TABLES(&card)) != NK_DONE)
        return EXIT_FAILURE;
    printf("image: register 00 is %d again\n", (int)(int32_t)card.words[NK_OPERATIONAL]);
    return card.words[NK_OPERATIONAL] == 9873 ? EXIT_SUCCESS : EXIT_FAILURE;
}
