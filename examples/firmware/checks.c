/* The checks of the small card in main.c: scripts of requests with the answers that the papers give them, as whole frames and as
 * bytes come; the line master and the other masters against the card; and every entry on unfit tables and short buffers.
 *
 * After every call the number, the length, the answer, the rest of the buffer and all three tables are compared. No expected
 * byte was taken from the library. It prints a line for each group and how many checks passed; at the first that fails it says
 * which and exits with 1.
 */

/* The card as main.c has it: its tables, their set-up, its loop's and its interrupt's body. */
#define main example
#include "main.c"
#undef main

#include "scripts.h"

enum { LOVE_PARAMETERS = 4 };

/* Tables as they are lent to one call, of any length. */
struct lent {
    uint32_t *words;
    size_t words_count;
    uint8_t *memory;
    size_t memory_count;
    uint8_t *ports;
    size_t ports_count;
};

#define LENT(t) (t)->words, (t)->words_count, (t)->memory, (t)->memory_count, (t)->ports, (t)->ports_count

static struct lent lend(struct card *card)
{
    return (struct lent){TABLES(card)};
}

/* Room for any answer and for an image, with bytes after it that no call may touch. */
enum { ROOM = NK_IMAGE + 27, PAINT = 0xA5 };

struct answer {
    uint8_t bytes[ROOM];
    size_t len;
};

/* ---- Checks ---- */

static unsigned checks;       /* all that held */
static unsigned group_start;  /* how many held before the group */
static const char *group;

static void begin(const char *name)
{
    group = name;
    group_start = checks;
}

static void end(void)
{
    printf("%-58s %5u checks\n", group, checks - group_start);
}

static void check(bool holds, const char *call, const char *what)
{
    if (!holds) {
        fprintf(stderr, "FAILED: %s: %s: %s\n", group, call, what);
        exit(EXIT_FAILURE);
    }
    checks++;
}

static void check_number(uint8_t number, uint8_t expected, const char *call)
{
    if (number != expected)
        fprintf(stderr, "number %u instead of %u\n", number, expected);
    check(number == expected, call, "number");
}

static void check_tables(const struct card *card, const struct card *expected, const char *call)
{
    check(memcmp(card->words, expected->words, sizeof card->words) == 0, call, "words");
    check(memcmp(card->memory, expected->memory, sizeof card->memory) == 0, call, "memory");
    check(memcmp(card->ports, expected->ports, sizeof card->ports) == 0, call, "ports");
}

static struct answer painted(void)
{
    struct answer answer = {.len = ROOM};
    memset(answer.bytes, PAINT, sizeof answer.bytes);
    return answer;
}

/* The answer has these bytes, and what stands after them in the buffer is as it was. */
static void check_answer(const struct answer *answer, const uint8_t *expected, size_t count, const char *call)
{
    check(answer->len == count, call, "length");
    if (count != 0 && memcmp(answer->bytes, expected, count) != 0) {
        show("answer", answer->bytes, count);
        show("should", expected, count);
    }
    check(count == 0 || memcmp(answer->bytes, expected, count) == 0, call, "answer");
    bool kept = true;
    for (size_t i = count; i < ROOM; i++)
        kept = kept && answer->bytes[i] == PAINT;
    check(kept, call, "buffer after the answer");
}

/* ---- Scripts ---- */

#define COUNT(list) (sizeof(list) / sizeof *(list))

static void edit_card(struct card *card, const struct edit *edits, size_t count)
{
    for (size_t i = 0; i < count; i++) {
        switch (edits[i].table) {
        case WORDS:
            card->words[edits[i].place] = (uint32_t)edits[i].value;
            break;
        case MEMORY:
            card->memory[edits[i].place] = (uint8_t)edits[i].value;
            break;
        case PORTS:
            card->ports[edits[i].place] = (uint8_t)edits[i].value;
            break;
        }
    }
}

/* A whole frame goes to its dialect's entry. */
static void serve_as_said(struct card *card, enum dialect dialect, const struct exchange *e)
{
    struct card expected = *card;
    edit_card(&expected, e->edits, e->edit_count);
    struct answer answer = painted();
    uint8_t number = serve(card, dialect, e->frame, e->frame_count, answer.bytes, ROOM, &answer.len);
    check_number(number, e->number, e->source);
    check_answer(&answer, e->answer, e->answer_count, e->source);
    check_tables(card, &expected, e->source);
}

/* A line's requests, one after the other on the same card. */
static void run(struct card *card, enum dialect dialect, const struct exchange *script, size_t count)
{
    for (const struct exchange *e = script; e < script + count; e++)
        serve_as_said(card, dialect, e);
}

/* Sets a probe's code, as firmware does when a probe sent one. */
static void probe(struct card *card, uint32_t channel, uint8_t code)
{
    struct card expected = *card;
    expected.memory[NK_CODES + channel] = code;
    check_number(nk_set_code(TABLES(card), channel, code), NK_DONE, "set code");
    check_tables(card, &expected, "set code");
}

/* ---- Probes and governor: 01, "What the card holds" ---- */

static void check_governor(struct card *card, uint32_t channel, uint8_t number, float degrees)
{
    const float untouched = 1234.5f;
    struct card expected = *card;
    float given = untouched;
    check_number(nk_governor(TABLES(card), channel, &given), number, "governor");
    check(given == (number == NK_ANSWERED ? degrees : untouched), "governor", "degrees");
    check_tables(card, &expected, "governor");
}

static void check_probes(struct card *card)
{
    begin("probes and governor (01)");
    for (uint32_t channel = 0; channel < CHANNELS; channel++)
        check_governor(card, channel, NK_PROBE_FAULT, 0); /* there are no degrees: *degrees stays */
    for (unsigned code = 0; code < FAULT_CODE; code++) {
        probe(card, 2, (uint8_t)code);
        check_governor(card, 2, NK_ANSWERED, (float)code / 2 - 40);
    }
    probe(card, 2, FAULT_CODE);
    check_governor(card, 2, NK_PROBE_FAULT, 0);
    check_governor(card, CHANNELS, NK_RANGE_UNKNOWN, 0);
    struct card expected = *card;
    check_number(nk_set_code(TABLES(card), CHANNELS, 90), NK_RANGE_UNKNOWN, "set code of channel 4");
    check_number(nk_set_code(TABLES(card), 256, 90), NK_RANGE_UNKNOWN, "set code of channel 256");
    check_tables(card, &expected, "set code of no channel");
    end();
}

#include "receivers.h"

/* ---- The scripts, in both ways ---- */

/* A way in which a script's requests reach the card, and what the group of each dialect is called. */
struct way {
    void (*run)(struct card *card, enum dialect dialect, const struct exchange *script, size_t count);
    const char *groups[DIALECTS];
};

static const struct way whole = {
    run,
    {"Datalink (01, 003)", "LECOM (01, 001)", "Love (01, 004)", "LucidControl (01, 002)"},
};

static const struct way as_bytes_come = {
    run_as_bytes_come,
    {"Datalink, as bytes come (02)", "LECOM, as bytes come (02)", "Love, as bytes come (02)",
     "LucidControl, as bytes come (02)"},
};

static void check_dialects(struct card *card, const struct way *way)
{
    begin(way->groups[DATALINK]);
    probe(card, 0, 90);
    probe(card, 1, 78);
    probe(card, 2, 0);
    way->run(card, DATALINK, datalink_script, COUNT(datalink_script));
    end();

    begin(way->groups[LECOM]);
    way->run(card, LECOM, lecom_script, COUNT(lecom_script));
    end();

    begin(way->groups[LOVE]);
    way->run(card, LOVE, love_script, COUNT(love_script));
    probe(card, 0, FAULT_CODE);
    way->run(card, LOVE, love_fault, COUNT(love_fault));
    probe(card, 0, 78);
    way->run(card, LOVE, love_cold, COUNT(love_cold));
    end();

    begin(way->groups[LUCID]);
    probe(card, 1, 90);
    way->run(card, LUCID, lucid_script, COUNT(lucid_script));
    end();
}

/* ---- The saved image and restart: 01 ---- */

enum { REGISTER_BIAS = 999999, LOVE_BIAS = 400, LAST_BYTE_PADDING = 0x3F };

struct bits {
    uint8_t *image;
    size_t place;
};

/* The next field, most significant bit first. */
static void put_field(struct bits *bits, unsigned width, uint32_t value)
{
    for (unsigned i = width; i-- > 0; bits->place++)
        if (value >> i & 1)
            bits->image[bits->place / 8] |= (uint8_t)(0x80 >> bits->place % 8);
}

/* The image of a card, written from 01, "The saved image". */
static void expected_image(const struct card *card, uint8_t image[NK_IMAGE])
{
    struct bits bits = {image, 0};
    memset(image, 0, NK_IMAGE);
    put_field(&bits, 5, card->words[NK_IA]);
    put_field(&bits, 7, card->words[NK_LECOM_ADDRESS]);
    put_field(&bits, 10, card->words[NK_LOVE_ADDRESS]);
    for (size_t i = 0; i < NK_REGISTERS; i++)
        put_field(&bits, 21, card->words[NK_SAVED + i] + REGISTER_BIAS);
    for (size_t i = 0; i < 2 * CHANNELS; i++)
        put_field(&bits, 32, card->words[NK_KEPT + i]);
    for (size_t i = 0; i < LOVE_PARAMETERS; i++)
        put_field(&bits, 11, card->words[NK_LOVE + i] + LOVE_BIAS);
}

static void write_image(struct card *card, struct answer *image, size_t room, uint8_t number)
{
    struct card expected = *card;
    *image = painted();
    check_number(nk_write_image(TABLES(card), image->bytes, room, &image->len), number, "write image");
    check_tables(card, &expected, "write image");
}

/* Reads an image of `count` bytes; the card becomes as expected. */
static void read_image(struct card *card, const uint8_t *image, size_t count, uint8_t number, const struct card *expected)
{
    check_number(nk_read_image(TABLES(card), image, count), number, "read image");
    check_tables(card, expected, "read image");
}

/* What an image holds of `from`, taken over into `card`. */
static void take_over(struct card *card, const struct card *from)
{
    memcpy(&card->words[NK_IA], &from->words[NK_IA], 3 * sizeof *card->words);
    memcpy(&card->words[NK_LOVE], &from->words[NK_LOVE], LOVE_PARAMETERS * sizeof *card->words);
    memcpy(&card->words[NK_KEPT], &from->words[NK_KEPT], 2 * CHANNELS * sizeof *card->words);
    memcpy(&card->words[NK_SAVED], &from->words[NK_SAVED], NK_REGISTERS * sizeof *card->words);
}

static void check_image(struct card *card)
{
    begin("saved image, written and read back (01)");
    /* I.A. 3, LECOM 11, Love 32h: 00011 0001011 0000110010, then 9873 + 999999 = F68D0h in 21 bits. */
    const uint8_t front[] = {0x18, 0xB0, 0xC9, 0xED, 0x1A};
    uint8_t expected[NK_IMAGE];
    struct answer image;
    expected_image(card, expected);
    write_image(card, &image, NK_IMAGE - 1, NK_BUFFER_SHORT);
    check_answer(&image, NULL, 0, "write image into 292 bytes");
    write_image(card, &image, NK_IMAGE, NK_ANSWERED);
    check_answer(&image, expected, NK_IMAGE, "write image");
    check(memcmp(image.bytes, front, sizeof front) == 0, "write image", "addresses and register 00, packed by hand");

    struct card other, same;
    card_default(&other);
    other.words[NK_IA] = 31;
    other.words[NK_SAVED + 95] = (uint32_t)-999999;
    same = other;
    read_image(&other, image.bytes, NK_IMAGE - 1, NK_IMAGE_LENGTH, &same);
    read_image(&other, image.bytes, NK_IMAGE + 1, NK_IMAGE_LENGTH, &same);
    read_image(&other, NULL, 0, NK_IMAGE_LENGTH, &same);
    for (uint8_t bit = 1; bit <= LAST_BYTE_PADDING; bit = (uint8_t)(bit * 2)) {
        image.bytes[NK_IMAGE - 1] ^= bit;
        read_image(&other, image.bytes, NK_IMAGE, NK_IMAGE_PADDING, &same);
        image.bytes[NK_IMAGE - 1] ^= bit;
    }
    image.bytes[1] = 0x30; /* LECOM 3, below its range */
    read_image(&other, image.bytes, NK_IMAGE, NK_CARD_UNFIT, &same);
    image.bytes[1] = 0xB0;
    take_over(&same, card);
    read_image(&other, image.bytes, NK_IMAGE, NK_DONE, &same);
    end();
}

static void check_restart(struct card *card)
{
    begin("restart (01, 02)");
    begin_frames(card);
    struct card expected = *card;
    memcpy(&expected.words[NK_BUFFER], &card->words[NK_SAVED], NK_REGISTERS * sizeof *card->words);
    memcpy(&expected.words[NK_OPERATIONAL], &card->words[NK_SAVED], NK_REGISTERS * sizeof *card->words);
    memcpy(&expected.words[NK_PARAMETERS], &card->words[NK_KEPT], 2 * CHANNELS * sizeof *card->words);
    for (size_t channel = 0; channel < CHANNELS; channel++) {
        expected.words[NK_DEMANDS + channel] = FULL_DEMAND;
        expected.memory[NK_CODES + channel] = FAULT_CODE;
    }
    expected.ports[NK_KIND] = 0;
    for (size_t i = 0; i < DIALECTS; i++)
        memset(&expected.ports[parts[i].place], 0, COUNT_SIZE);
    check(memcmp(&expected, card, sizeof expected) != 0, "restart", "has something to do");
    check_number(nk_restart(TABLES(card)), NK_DONE, "restart");
    check_tables(card, &expected, "restart");
    end();
}

/* ---- The line master: 01, "Datalink", second half. Its frames go to the card, the card's answers to its next step. ---- */

/* What is asked of the unit at an I.A. */
struct order {
    uint8_t kind;
    uint32_t ia;
    uint32_t address;
    const uint8_t *sent;
    size_t sent_count;
    const uint8_t *states;
    size_t states_count;
};

/* A step and what 01 says of it: the answer that it gets, its number, its phase and its frame. */
struct turn {
    const char *source;
    const uint8_t *answer;
    size_t answer_count;
    uint8_t number;
    uint8_t phase;
    const uint8_t *frame;
    size_t frame_count;
};

static uint8_t step(const struct order *o, const struct turn *turn, uint8_t *phase, size_t room, struct answer *frame)
{
    return nk_step(phase, o->kind, o->ia, o->address, o->sent, o->sent_count, o->states, o->states_count, turn->answer,
                   turn->answer_count, frame->bytes, room, &frame->len);
}

/* An exchange, step by step. Each frame reaches the card; its answer is what the next step gets, or is lost there. */
static void exchange(struct card *card, const struct order *order, const struct turn *turns, size_t count)
{
    uint8_t phase = NK_NEW;
    for (size_t i = 0; i < count; i++) {
        struct answer frame = painted(), answer = painted();
        check_number(step(order, &turns[i], &phase, ROOM, &frame), turns[i].number, turns[i].source);
        check(phase == turns[i].phase, turns[i].source, "phase");
        check_answer(&frame, turns[i].frame, turns[i].frame_count, turns[i].source);
        if (frame.len != 0)
            serve(card, DATALINK, frame.bytes, frame.len, answer.bytes, ROOM, &answer.len);
        if (i + 1 < count && turns[i + 1].answer_count != 0)
            check_answer(&answer, turns[i + 1].answer, turns[i + 1].answer_count, "the card's answer");
    }
}

static const struct order bytes_order = {NK_BYTES, 3, 0x1010, BYTES(0x08, 0x0C), NULL, 0};
static const struct order bits_order = {NK_BITS, 3, 0x1020, BYTES(0xF0), BYTES(0x01)};

static const struct turn bytes_done[] = {
    {"change, 003 example B at 1010h", NULL, 0, NK_ANSWERED, NK_CHANGING,
     BYTES(0x7E, 0xA3, 0x02, 0x10, 0x10, 0x08, 0x0C, 0xD9)},
    {"acknowledge on an exact echo", BYTES(0x7E, 0x23, 0x02, 0x10, 0x10, 0x08, 0x0C, 0x59), NK_ANSWERED,
     NK_ACKNOWLEDGING, BYTES(0x7E, 0x83)},
    {"interrogate", NULL, 0, NK_ANSWERED, NK_READING, BYTES(0x7E, 0xE3, 0x02, 0x10, 0x10, 0x05)},
    {"done", BYTES(0x7E, 0x23, 0x02, 0x10, 0x10, 0x08, 0x0C, 0x59), NK_DONE, NK_ENDED_DONE, SILENT},
    {"a step after the end", NULL, 0, NK_NOTHING_PENDING, NK_ENDED_DONE, SILENT},
};

static const struct turn bits_done[] = {
    {"01 P4: change bits", NULL, 0, NK_ANSWERED, NK_CHANGING, BYTES(0x7E, 0xC3, 0x02, 0x20, 0x10, 0xF0, 0x01, 0xE6)},
    {"01 P4: acknowledge", BYTES(0x7E, 0x23, 0x02, 0x20, 0x10, 0xF0, 0x01, 0x46), NK_ANSWERED, NK_ACKNOWLEDGING,
     BYTES(0x7E, 0x83)},
    {"01 P4: interrogate", NULL, 0, NK_ANSWERED, NK_READING, BYTES(0x7E, 0xE3, 0x01, 0x20, 0x10, 0x14)},
    {"01 P4: 51h is done", BYTES(0x7E, 0x23, 0x01, 0x20, 0x10, 0x51, 0xA5), NK_DONE, NK_ENDED_DONE, SILENT},
};

static const struct turn echo_lost[] = {
    {"change", NULL, 0, NK_ANSWERED, NK_CHANGING, BYTES(0x7E, 0xA3, 0x02, 0x10, 0x10, 0x08, 0x0C, 0xD9)},
    {"no echo", NULL, 0, NK_DONE, NK_ENDED_UNKNOWN, SILENT},
    {"a step after the end", NULL, 0, NK_NOTHING_PENDING, NK_ENDED_UNKNOWN, SILENT},
};

static const struct turn read_back_lost[] = {
    {"change bits", NULL, 0, NK_ANSWERED, NK_CHANGING, BYTES(0x7E, 0xC3, 0x02, 0x20, 0x10, 0xF0, 0x01, 0xE6)},
    {"acknowledge", BYTES(0x7E, 0x23, 0x02, 0x20, 0x10, 0xF0, 0x01, 0x46), NK_ANSWERED, NK_ACKNOWLEDGING,
     BYTES(0x7E, 0x83)},
    {"interrogate", NULL, 0, NK_ANSWERED, NK_READING, BYTES(0x7E, 0xE3, 0x01, 0x20, 0x10, 0x14)},
    {"no read-back", NULL, 0, NK_DONE, NK_ENDED_UNKNOWN, SILENT},
};

/* A step that is refused moves no phase and touches no buffer. */
static void check_step_refused(const struct order *order, size_t room, uint8_t number, const char *source)
{
    const struct turn turn = {source, NULL, 0, number, NK_NEW, SILENT};
    struct answer frame = painted();
    uint8_t phase = NK_NEW;
    check_number(step(order, &turn, &phase, room, &frame), number, source);
    check(phase == NK_NEW, source, "phase");
    check_answer(&frame, NULL, 0, source);
}

static void check_master(void)
{
    static const uint8_t many[33];
    const struct order ia_32 = {NK_BYTES, 32, 0x1010, many, 1, NULL, 0};
    const struct order bytes_33 = {NK_BYTES, 3, 0x1010, many, 33, NULL, 0};
    const struct order bits_17 = {NK_BITS, 3, 0x1010, many, 17, many, 17};
    const struct order unpaired = {NK_BITS, 3, 0x1010, many, 2, many, 1};
    const struct order address_65536 = {NK_BYTES, 3, 65536, NULL, 0, NULL, 0};
    const struct order past_the_end = {NK_BYTES, 3, 65535, many, 2, NULL, 0};
    struct card card;

    begin("line master and card (01)");
    card_default(&card);
    card.memory[0x20] = 0x5A;
    exchange(&card, &bytes_order, bytes_done, COUNT(bytes_done));
    check(card.memory[0x10] == 0x08 && card.memory[0x11] == 0x0C, "done", "memory");
    exchange(&card, &bits_order, bits_done, COUNT(bits_done));
    check(card.memory[0x20] == 0x51, "done", "memory");
    exchange(&card, &bytes_order, echo_lost, COUNT(echo_lost));
    exchange(&card, &bits_order, read_back_lost, COUNT(read_back_lost));
    check_step_refused(&ia_32, ROOM, NK_VALUE_OUTSIDE, "I.A. 32");
    check_step_refused(&bytes_33, ROOM, NK_VALUE_OUTSIDE, "33 bytes");
    check_step_refused(&bits_17, ROOM, NK_VALUE_OUTSIDE, "17 bytes of bits");
    check_step_refused(&unpaired, ROOM, NK_VALUE_OUTSIDE, "two masks, one state");
    check_step_refused(&address_65536, ROOM, NK_VALUE_OUTSIDE, "address 65536");
    check_step_refused(&past_the_end, ROOM, NK_VALUE_OUTSIDE, "address plus bytes 65537");
    check_step_refused(&bytes_order, NK_ROOM - 1, NK_BUFFER_SHORT, "a frame buffer of 37");
    end();
}

/* ---- The masters of LECOM, Love and LucidControl: 02, M-102, with 01, P6 to P12. Each made frame goes to the card, and the card's
 * answer to hear. ---- */

/* What is asked: of LECOM and Love address, task, code or place, and value; of LucidControl the command and what it takes. */
struct wish {
    const char *source;
    enum dialect dialect;
    uint32_t address;
    uint8_t task;
    uint32_t code;
    int32_t value;
    uint8_t command;
    uint32_t p1, p2;
    uint32_t values[2];
    size_t values_count;
};

/* The frame that the papers have for it, and what is then heard of the card. */
struct told {
    const uint8_t *frame;
    size_t frame_count;
    uint8_t said;
    size_t count;
    int32_t values[2];
};

static uint8_t ask(const struct wish *w, uint8_t *frame, size_t room, size_t *len)
{
    if (w->dialect == LECOM)
        return nk_ask_lecom(w->address, w->task, w->code, w->value, frame, room, len);
    if (w->dialect == LOVE)
        return nk_ask_love(w->address, w->task, w->code, w->value, frame, room, len);
    return nk_ask_lucid(w->command, w->p1, w->p2, w->address, w->values, w->values_count, frame, room, len);
}

static nk_heard hear(const struct wish *w, const uint8_t *reply, size_t count)
{
    if (w->dialect == LECOM)
        return nk_hear_lecom(w->address, w->task, w->code, w->value, reply, count);
    if (w->dialect == LOVE)
        return nk_hear_love(w->address, w->task, w->code, w->value, reply, count);
    return nk_hear_lucid(w->command, w->p1, w->p2, w->address, w->values, w->values_count, reply, count);
}

/* A request, from its frame to what is heard; with a room one short it is refused. */
static void inquire(struct card *card, const struct wish *w, const struct told *told)
{
    struct answer frame = painted(), answer = painted(), none = painted();
    check_number(ask(w, frame.bytes, ROOM, &frame.len), NK_ANSWERED, w->source);
    check_answer(&frame, told->frame, told->frame_count, w->source);
    check_number(ask(w, none.bytes, told->frame_count - 1, &none.len), NK_BUFFER_SHORT, w->source);
    check_answer(&none, NULL, 0, w->source);
    serve(card, w->dialect, frame.bytes, frame.len, answer.bytes, ROOM, &answer.len);
    const nk_heard heard = hear(w, answer.bytes, answer.len);
    check_number(heard.number, NK_DONE, w->source);
    check(heard.said == told->said && heard.count == told->count, w->source, "what is said");
    check(memcmp(heard.values, told->values, told->count * sizeof *told->values) == 0, w->source, "values");
}

/* A reply that is none, and a request that is outside. */
static void check_unheard(const struct wish *w, const uint8_t *reply, size_t count, uint8_t number, const char *source)
{
    const nk_heard heard = hear(w, reply, count);
    check_number(heard.number, number, source);
    check(heard.said == NK_HEARD_NOTHING && heard.count == 0, source, "nothing is said");
}

static void check_outside(const struct wish *w, const char *source)
{
    struct answer frame = painted();
    check_number(ask(w, frame.bytes, ROOM, &frame.len), NK_VALUE_OUTSIDE, source);
    check_answer(&frame, NULL, 0, source);
    check_unheard(w, (const uint8_t *)"\x06", 1, NK_VALUE_OUTSIDE, source);
}

static void check_masters(void)
{
    const struct wish write = {.source = "01 P6", .dialect = LECOM, .address = 11, .task = NK_WRITE, .value = 9873};
    const struct wish activate = {.source = "01 P7", .dialect = LECOM, .address = 11, .task = NK_WRITE, .code = 0x67, .value = 1};
    const struct wish read = {.source = "01 P7: it reads 9873", .dialect = LECOM, .address = 11, .task = NK_READ};
    const struct wish probe = {.source = "LECOM, probe 0", .dialect = LECOM, .address = 11, .task = NK_READ, .code = 0x60};
    const struct wish point = {.source = "01 P8", .dialect = LOVE, .address = 0x32, .task = NK_WRITE, .value = -15};
    const struct wish status = {.source = "01 P9, P10", .dialect = LOVE, .address = 0x32, .task = NK_STATUS};
    const struct wish channel = {.source = "01 P11, P12", .dialect = LUCID, .command = NK_GET_IO, .p2 = 0x40};
    const struct wish demands = {.source = "SetIoGroup", .dialect = LUCID, .command = NK_SET_IO_GROUP, .p1 = 5, .p2 = 0x10,
                                 .values = {1, 65535}, .values_count = 2};
    const struct wish group = {.source = "GetIoGroup", .dialect = LUCID, .command = NK_GET_IO_GROUP, .p1 = 5, .p2 = 0x10};
    const struct wish reset = {.source = "02 M-103", .dialect = LUCID, .command = NK_RESET, .p2 = 0x81, .address = 0x1110};
    const struct wish unnamed = {.source = "02 M-103", .dialect = LUCID, .command = NK_RESET, .p2 = 0x81};
    const struct wish task_3 = {.source = "task 3", .dialect = LOVE, .address = 0x32, .task = 3};
    const struct wish command_7 = {.source = "command 7", .dialect = LUCID, .command = 7, .p2 = 0x10};
    const struct wish written = {.source = "a probe", .dialect = LECOM, .address = 11, .task = NK_WRITE, .code = 0x60};
    struct card card;

    begin("masters of LECOM, Love, LucidControl and card (02)");
    card_default(&card);
    inquire(&card, &write,
            &(struct told){BYTES(0x04, 0x31, 0x31, 0x02, 0x30, 0x30, 0x39, 0x38, 0x37, 0x33, 0x03, 0x06),
                                 NK_HEARD_DONE, 0, {0}});
    inquire(&card, &activate,
            &(struct told){BYTES(0x04, 0x31, 0x31, 0x02, 0x36, 0x37, 0x31, 0x03, 0x33), NK_HEARD_DONE, 0, {0}});
    inquire(&card, &read, &(struct told){BYTES(0x04, 0x31, 0x31, 0x30, 0x30, 0x05), NK_HEARD_VALUE, 1, {9873}});
    inquire(&card, &point,
            &(struct told){BYTES(0x02, 0x4C, 0x33, 0x32, 0x30, 0x32, 0x30, 0x30, 0x30, 0x30, 0x31, 0x35, 0x46, 0x46,
                                 0x37, 0x39, 0x03), NK_HEARD_DONE, 0, {0}});
    card.memory[NK_CODES] = 255;
    inquire(&card, &probe, &(struct told){BYTES(0x04, 0x31, 0x31, 0x36, 0x30, 0x05), NK_HEARD_REFUSED, 0, {0}});
    inquire(&card, &status,
            &(struct told){BYTES(0x02, 0x4C, 0x33, 0x32, 0x30, 0x30, 0x43, 0x35, 0x03), NK_HEARD_FAULT, 0, {0}});
    inquire(&card, &channel, &(struct told){BYTES(0x46, 0x00, 0x40, 0x00), NK_HEARD_FAULT, 0, {0}});
    card.memory[NK_CODES] = 90;
    inquire(&card, &status,
            &(struct told){BYTES(0x02, 0x4C, 0x33, 0x32, 0x30, 0x30, 0x43, 0x35, 0x03), NK_HEARD_VALUE, 1, {50}});
    card.memory[NK_CODES] = 78;
    inquire(&card, &channel, &(struct told){BYTES(0x46, 0x00, 0x40, 0x00), NK_HEARD_VALUE, 1, {-10}});
    inquire(&card, &demands, &(struct told){BYTES(0x42, 0x05, 0x10, 0x04, 0x01, 0x00, 0xFF, 0xFF), NK_HEARD_DONE, 0, {0}});
    inquire(&card, &group, &(struct told){BYTES(0x48, 0x05, 0x10, 0x00), NK_HEARD_VALUE, 2, {1, 65535}});
    card.words[NK_PARAMETERS] = card.words[NK_KEPT] = 750000;
    inquire(&card, &reset, &(struct told){BYTES(0xA0, 0x00, 0x81, 0x02, 0x10, 0x11), NK_HEARD_DONE, 0, {0}});
    check(card.words[NK_PARAMETERS] == DEFAULT_1110 && card.words[NK_KEPT] == DEFAULT_1110, reset.source, "both copies");
    check_unheard(&read, NULL, 0, NK_FRAME_FORM, "no reply");
    check_unheard(&read, BYTES(0x02, 0x30, 0x30, 0x39, 0x03, 0x00), NK_CHECK_CHARACTER, "another BCC");
    check_outside(&task_3, "task 3");
    check_outside(&command_7, "command 7");
    check_outside(&written, "a probe written");
    check_outside(&unnamed, "a reset of address 0");
    end();
}

/* ---- Every entry of the card: unfit tables and short buffers ---- */

/* Calls that a fit card with a pending change carries out; all but two of them would change a table. */
static const uint8_t acknowledge_frame[] = {0x7E, 0x83};
static const uint8_t activate_frame[] = {EOT, '1', '1', STX, '6', '7', '1', ETX, 0x33};
static const uint8_t write_frame[] = {UNIT, '0', '2', '0', '0', '0', '0', '1', '5', 'F', 'F', '7', '9', ETX};
static const uint8_t demand_frame[] = {0x40, 0x01, 0x10, 0x02, 0x34, 0x12};
static uint8_t image_of_another[NK_IMAGE];

static uint8_t call_set_code(const struct lent *t, size_t room, struct answer *answer)
{
    (void)room;
    answer->len = 0;
    return nk_set_code(LENT(t), 0, 90);
}

static uint8_t call_restart(const struct lent *t, size_t room, struct answer *answer)
{
    (void)room;
    answer->len = 0;
    return nk_restart(LENT(t));
}

static uint8_t call_governor(const struct lent *t, size_t room, struct answer *answer)
{
    (void)room;
    float degrees = -0.5f;
    uint8_t number = nk_governor(LENT(t), 1, &degrees);
    check((degrees == -0.5f) == (number != NK_ANSWERED), "nk_governor", "degrees only where they are answered");
    answer->len = 0;
    return number;
}

static uint8_t call_datalink(const struct lent *t, size_t room, struct answer *answer)
{
    return nk_datalink(LENT(t), acknowledge_frame, sizeof acknowledge_frame, answer->bytes, room, &answer->len);
}

static uint8_t call_lecom(const struct lent *t, size_t room, struct answer *answer)
{
    return nk_lecom(LENT(t), activate_frame, sizeof activate_frame, answer->bytes, room, &answer->len);
}

static uint8_t call_love(const struct lent *t, size_t room, struct answer *answer)
{
    return nk_love(LENT(t), write_frame, sizeof write_frame, answer->bytes, room, &answer->len);
}

static uint8_t call_lucid(const struct lent *t, size_t room, struct answer *answer)
{
    return nk_lucid(LENT(t), demand_frame, sizeof demand_frame, answer->bytes, room, &answer->len);
}

/* A receiver's entry, with the frame of its dialect: a call that is refused takes no byte. */
typedef uint8_t receiver(const uint32_t *words, size_t words_count, const uint8_t *memory, size_t memory_count,
                         uint8_t *ports, size_t ports_count, const uint8_t *bytes, size_t bytes_count, uint8_t *frame,
                         size_t frame_count, size_t *taken, size_t *len);

static uint8_t call_receiver(receiver *nk_receive, const struct lent *t, const uint8_t *bytes, size_t count,
                             size_t room, struct answer *answer)
{
    size_t taken = ROOM;
    uint8_t number = nk_receive(LENT(t), bytes, count, answer->bytes, room, &taken, &answer->len);
    check(taken == (number == NK_ANSWERED ? count : 0), "a receiver", "bytes taken");
    return number;
}

static uint8_t call_receive_datalink(const struct lent *t, size_t room, struct answer *answer)
{
    return call_receiver(nk_receive_datalink, t, acknowledge_frame, sizeof acknowledge_frame, room, answer);
}

static uint8_t call_receive_lecom(const struct lent *t, size_t room, struct answer *answer)
{
    return call_receiver(nk_receive_lecom, t, activate_frame, sizeof activate_frame, room, answer);
}

static uint8_t call_receive_love(const struct lent *t, size_t room, struct answer *answer)
{
    return call_receiver(nk_receive_love, t, write_frame, sizeof write_frame, room, answer);
}

static uint8_t call_receive_lucid(const struct lent *t, size_t room, struct answer *answer)
{
    return call_receiver(nk_receive_lucid, t, demand_frame, sizeof demand_frame, room, answer);
}

static uint8_t call_quiet_datalink(const struct lent *t, size_t room, struct answer *answer)
{
    (void)room;
    answer->len = 0;
    return nk_quiet_datalink(LENT(t));
}

static uint8_t call_quiet_lecom(const struct lent *t, size_t room, struct answer *answer)
{
    (void)room;
    answer->len = 0;
    return nk_quiet_lecom(LENT(t));
}

static uint8_t call_quiet_love(const struct lent *t, size_t room, struct answer *answer)
{
    (void)room;
    answer->len = 0;
    return nk_quiet_love(LENT(t));
}

static uint8_t call_quiet_lucid(const struct lent *t, size_t room, struct answer *answer)
{
    (void)room;
    answer->len = 0;
    return nk_quiet_lucid(LENT(t));
}

static uint8_t call_write_image(const struct lent *t, size_t room, struct answer *answer)
{
    return nk_write_image(LENT(t), answer->bytes, room, &answer->len);
}

static uint8_t call_read_image(const struct lent *t, size_t room, struct answer *answer)
{
    (void)room;
    answer->len = 0;
    return nk_read_image(LENT(t), image_of_another, NK_IMAGE);
}

static const struct entry {
    const char *name;
    uint8_t (*call)(const struct lent *t, size_t room, struct answer *answer);
    uint8_t number;       /* on the fit card */
    size_t room_least;    /* 0: the entry has no buffer */
    uint8_t short_number; /* with a shorter buffer */
    bool sees_parts;      /* whether it looks at the part frames */
} entries[] = {
    {"nk_set_code", call_set_code, NK_DONE, 0, 0, false},
    {"nk_restart", call_restart, NK_DONE, 0, 0, false},
    {"nk_governor", call_governor, NK_ANSWERED, 0, 0, false},
    {"nk_datalink", call_datalink, NK_DONE, NK_ROOM, NK_BUFFER_SHORT, false},
    {"nk_lecom", call_lecom, NK_ANSWERED, NK_ROOM, NK_BUFFER_SHORT, false},
    {"nk_love", call_love, NK_ANSWERED, NK_ROOM, NK_BUFFER_SHORT, false},
    {"nk_lucid", call_lucid, NK_ANSWERED, NK_ROOM, NK_BUFFER_SHORT, false},
    {"nk_receive_datalink", call_receive_datalink, NK_ANSWERED, NK_DATALINK_LONGEST, NK_FRAME_BUFFER_SHORT, true},
    {"nk_receive_lecom", call_receive_lecom, NK_ANSWERED, NK_LECOM_LONGEST, NK_FRAME_BUFFER_SHORT, true},
    {"nk_receive_love", call_receive_love, NK_ANSWERED, NK_LOVE_LONGEST, NK_FRAME_BUFFER_SHORT, true},
    {"nk_receive_lucid", call_receive_lucid, NK_ANSWERED, NK_LUCID_LONGEST, NK_FRAME_BUFFER_SHORT, true},
    {"nk_quiet_datalink", call_quiet_datalink, NK_DONE, 0, 0, true},
    {"nk_quiet_lecom", call_quiet_lecom, NK_DONE, 0, 0, true},
    {"nk_quiet_love", call_quiet_love, NK_DONE, 0, 0, true},
    {"nk_quiet_lucid", call_quiet_lucid, NK_DONE, 0, 0, true},
    {"nk_write_image", call_write_image, NK_ANSWERED, NK_IMAGE, NK_BUFFER_SHORT, false},
    {"nk_read_image", call_read_image, NK_DONE, 0, 0, false},
};

/* A fit card on which each of these calls is carried out. */
static void card_ready(struct card *card)
{
    const struct edit edits[] = {
        {MEMORY, NK_CODES + 1, 78}, PENDING(1, 1, 0x20, 0x10), {PORTS, NK_DATA, 0x5A}, {WORDS, NK_BUFFER, 9873}};
    card_default(card);
    card->words[NK_LOVE] = 870;
    expected_image(card, image_of_another);
    card->words[NK_LOVE] = 0;
    edit_card(card, edits, COUNT(edits));
}

/* The call is refused with this number; it sends nothing and touches neither buffer nor tables. */
static void check_refused(const struct entry *entry, struct card *card, const struct lent *tables, size_t room,
                          uint8_t number)
{
    struct card expected = *card;
    struct answer answer = painted();
    check_number(entry->call(tables, room, &answer), number, entry->name);
    check_answer(&answer, NULL, 0, entry->name);
    check_tables(card, &expected, entry->name);
}

static void check_carried_out(void)
{
    begin("each call below on a fit card");
    for (const struct entry *e = entries; e < entries + COUNT(entries); e++) {
        struct card card;
        card_ready(&card);
        struct lent tables = lend(&card);
        struct answer answer = painted();
        check_number(e->call(&tables, ROOM, &answer), e->number, e->name);
    }
    end();
}

/* Tables with one element more than a card's. */
struct roomy {
    uint32_t words[NK_WORDS + 1];
    uint8_t memory[NK_MEMORY + 1];
    uint8_t ports[NK_PORTS + 1];
};

/* Zero, null with zero, one less and one more of one table's elements. */
static void check_length(const struct entry *entry, enum table table)
{
    static struct roomy roomy, expected;
    struct card card;
    card_ready(&card);
    memcpy(roomy.words, card.words, sizeof card.words);
    memcpy(roomy.memory, card.memory, sizeof card.memory);
    memcpy(roomy.ports, card.ports, sizeof card.ports);
    memcpy(&expected, &roomy, sizeof roomy);
    for (unsigned i = 0; i < 4; i++) {
        struct lent tables = {TABLES(&roomy)};
        size_t *count = table == WORDS ? &tables.words_count : table == MEMORY ? &tables.memory_count : &tables.ports_count;
        const size_t counts[] = {0, 0, *count - 1, *count + 1};
        *count = counts[i];
        if (i == 1 && table == WORDS)
            tables.words = NULL;
        if (i == 1 && table == MEMORY)
            tables.memory = NULL;
        if (i == 1 && table == PORTS)
            tables.ports = NULL;
        struct answer answer = painted();
        check_number(entry->call(&tables, ROOM, &answer), NK_CARD_UNFIT, entry->name);
        check_answer(&answer, NULL, 0, entry->name);
        check(memcmp(&roomy, &expected, sizeof roomy) == 0, entry->name, "tables");
    }
}

static void check_lengths(void)
{
    begin("a table of 0, none, one less, one more: 12");
    for (const struct entry *e = entries; e < entries + COUNT(entries); e++) {
        check_length(e, WORDS);
        check_length(e, MEMORY);
        check_length(e, PORTS);
    }
    end();
}

/* One entry of each kind, outside its range. */
static const struct edit unfit_edits[] = {
    {WORDS, NK_IA, 32},
    {WORDS, NK_LECOM_ADDRESS, 20},
    {WORDS, NK_LOVE_ADDRESS, 0x100},
    {WORDS, NK_LOVE + 3, 871},
    {WORDS, NK_LOVE, -401},
    {WORDS, NK_DEMANDS + 3, 65536},
    {WORDS, NK_PARAMETERS, 999},
    {WORDS, NK_PARAMETERS + 7, 65536},
    {WORDS, NK_KEPT + 6, 60000001},
    {WORDS, NK_BUFFER, 1000000},
    {WORDS, NK_OPERATIONAL + 50, -1000000},
    {WORDS, NK_SAVED + 95, INT32_MIN},
    {PORTS, NK_KIND, 3},
    {PORTS, NK_NUM, 33},
    {PORTS, NK_LOW_ADDRESS, 0x0F},
};

static void check_unfit_entries(void)
{
    begin("an entry outside its range: 12");
    for (const struct entry *e = entries; e < entries + COUNT(entries); e++) {
        for (size_t i = 0; i < COUNT(unfit_edits); i++) {
            struct card card;
            card_ready(&card);
            edit_card(&card, &unfit_edits[i], 1);
            struct lent tables = lend(&card);
            check_refused(e, &card, &tables, ROOM, NK_CARD_UNFIT);
        }
    }
    end();
}

/* Bytes to which no line leads, as a dialect's part frame. */
static const struct bad_part {
    enum dialect dialect;
    const uint8_t *bytes;
    size_t count;
} bad_parts[] = {
    {DATALINK, BYTES(0x7F)},
    {DATALINK, BYTES(0x7E, 0x23)},
    {DATALINK, BYTES(0x7E, 0x83)},
    {DATALINK, BYTES(0x7E, 0xA3, 33)},
    {DATALINK, BYTES(0x7E, 0xE3, 0, 0x00, 0x10, 0xF3)},
    {LECOM, BYTES('1')},
    {LECOM, BYTES(EOT, EOT)},
    {LECOM, BYTES(EOT, ENQ)},
    {LECOM, BYTES(EOT, STX, ETX, 'x')},
    {LOVE, BYTES('L')},
    {LOVE, BYTES(STX, STX)},
    {LOVE, BYTES(STX, ETX)},
    {LUCID, BYTES(0x46, 0, 0x40, 0)},
};

/* The receivers refuse this row with 12; every other entry is carried out, for it does not look at part frames. */
static void check_part(const struct card *card)
{
    for (const struct entry *e = entries; e < entries + COUNT(entries); e++) {
        struct card own = *card;
        struct lent tables = lend(&own);
        struct answer answer = painted();
        if (e->sees_parts)
            check_refused(e, &own, &tables, ROOM, NK_CARD_UNFIT);
        else
            check_number(e->call(&tables, ROOM, &answer), e->number, e->name);
    }
}

static void check_unfit_parts(void)
{
    begin("a part frame outside the rules: 12 of the receivers (02)");
    for (const struct bad_part *b = bad_parts; b < bad_parts + COUNT(bad_parts); b++) {
        struct card card;
        card_ready(&card);
        card.ports[parts[b->dialect].place] = (uint8_t)b->count;
        memcpy(&card.ports[parts[b->dialect].place + COUNT_SIZE], b->bytes, b->count);
        check_part(&card);
    }
    for (size_t i = 0; i < DIALECTS; i++) {
        struct card card;
        card_ready(&card);
        memset(&card.ports[parts[i].place], 0xFF, COUNT_SIZE); /* far more bytes than the longest frame has */
        check_part(&card);
    }
    end();
}

static void check_rooms(void)
{
    begin("a buffer of 0 and of one byte too few: 11, or 16");
    for (const struct entry *e = entries; e < entries + COUNT(entries); e++) {
        if (e->room_least == 0)
            continue;
        struct card card;
        card_ready(&card);
        struct lent tables = lend(&card);
        check_refused(e, &card, &tables, 0, e->short_number);
        check_refused(e, &card, &tables, e->room_least - 1, e->short_number);
        struct answer answer = painted();
        check_number(e->call(&tables, e->room_least, &answer), e->number, e->name);
    }
    end();
}

int main(void)
{
    struct card card;
    card_default(&card);
    check_probes(&card);
    check_dialects(&card, &whole);
    check_image(&card);
    check_restart(&card);
    card_default(&card);
    check_dialects(&card, &as_bytes_come);
    check_lines();
    check_longest();
    check_together();
    check_master();
    check_masters();
    check_carried_out();
    check_lengths();
    check_unfit_entries();
    check_unfit_parts();
    check_rooms();
    printf("%u checks passed\n", checks);
    return EXIT_SUCCESS;
}
