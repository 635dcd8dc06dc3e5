/* The checks of the receivers, by "02", M-100. checks.c includes this once, behind its scripts and its checks. */

enum { DIALECTS = 4, COUNT_SIZE = 2, BYTE_VALUES = 256 };

/* Of each dialect: where its part frame stands in the row, and its longest frame. */
static const struct part {
    size_t place;
    size_t longest;
} parts[DIALECTS] = {
    [DATALINK] = {NK_DATALINK_PART, NK_DATALINK_LONGEST},
    [LECOM] = {NK_LECOM_PART, NK_LECOM_LONGEST},
    [LOVE] = {NK_LOVE_PART, NK_LOVE_LONGEST},
    [LUCID] = {NK_LUCID_PART, NK_LUCID_LONGEST},
};

/* How many bytes a dialect's receiver has collected. */
static size_t collected(const struct card *card, enum dialect dialect)
{
    const uint8_t *count = &card->ports[parts[dialect].place];
    return count[0] + (size_t)BYTE_VALUES * count[1];
}

/* Bytes that are lent to a receiver in one call, and what 02 says of it: how many it takes, which frame it hands over, if any, and
 * how many bytes are then collected. */
struct lending {
    const char *source;
    enum dialect dialect;
    const uint8_t *bytes;
    size_t count;
    size_t taken;
    const uint8_t *frame;
    size_t frame_count;
    size_t collected;
};

/* Of the tables nothing but the dialect's own part frame changes. */
static void check_only_part(const struct card *card, struct card *before, enum dialect dialect, const char *call)
{
    size_t place = parts[dialect].place;
    memcpy(&before->ports[place], &card->ports[place], COUNT_SIZE + parts[dialect].longest);
    check_tables(card, before, call);
}

static void lend_bytes(struct card *card, const struct lending *l)
{
    struct card before = *card;
    struct answer frame = painted();
    size_t taken = ROOM;
    uint8_t number = receive(card, l->dialect, l->bytes, l->count, frame.bytes, ROOM, &taken, &frame.len);
    check_number(number, l->frame_count == 0 ? NK_DONE : NK_ANSWERED, l->source);
    check(taken == l->taken, l->source, "bytes taken");
    check_answer(&frame, l->frame, l->frame_count, l->source);
    check(collected(card, l->dialect) == l->collected, l->source, "bytes collected");
    check_only_part(card, &before, l->dialect, l->source);
}

static void be_quiet(struct card *card, enum dialect dialect)
{
    struct card before = *card;
    check_number(quiet(card, dialect), NK_DONE, "quiet");
    check(collected(card, dialect) == 0, "quiet", "bytes collected");
    check_only_part(card, &before, dialect, "quiet");
}

/* ---- The scripts as bytes come ---- */

/* The frame from a byte on, up to another; the call that has its last byte hands it over. */
static void lend_piece(struct card *card, enum dialect dialect, const struct exchange *e, size_t from, size_t to)
{
    bool ends = to == e->frame_count;
    lend_bytes(card, &(struct lending){e->source, dialect, e->frame + from, to - from, to - from,
                                       ends ? e->frame : NULL, ends ? to : 0, ends ? 0 : to});
}

static void lend_in_two(struct card *card, enum dialect dialect, const struct exchange *e, size_t place)
{
    lend_piece(card, dialect, e, 0, place);
    lend_piece(card, dialect, e, place, e->frame_count);
}

static void lend_byte_by_byte(struct card *card, enum dialect dialect, const struct exchange *e)
{
    for (size_t place = 0; place < e->frame_count; place++)
        lend_piece(card, dialect, e, place, place + 1);
}

/* A whole frame, divided at every place on a card of its own, then byte by byte; each time the entry answers as the papers say. */
static void receive_and_serve(struct card *card, enum dialect dialect, const struct exchange *e)
{
    for (size_t place = 0; place < e->frame_count; place++) {
        struct card divided = *card;
        lend_in_two(&divided, dialect, e, place);
        serve_as_said(&divided, dialect, e);
    }
    lend_byte_by_byte(card, dialect, e);
    serve_as_said(card, dialect, e);
}

/* A line's requests as bytes come. What a receiver takes for no frame reaches no entry; quiet drops what is left of it. */
static void run_as_bytes_come(struct card *card, enum dialect dialect, const struct exchange *script, size_t count)
{
    for (const struct exchange *e = script; e < script + count; e++) {
        if (e->collected == WHOLE) {
            receive_and_serve(card, dialect, e);
        } else {
            lend_bytes(card, &(struct lending){e->source, dialect, e->frame, e->frame_count, e->frame_count, NULL, 0,
                                               (size_t)e->collected});
            be_quiet(card, dialect);
        }
    }
}

/* ---- Lines ---- */

#define READ EOT, '1', '1', '0', '0', ENQ
#define WRITE EOT, '1', '1', STX, '0', '0', '0', '7', ETX, 0x04
#define PROBE UNIT, '0', '0', 'C', '5', ETX

/* Each from a receiver at rest. */
static const struct lending lines[] = {
    {"noise before 7Eh", DATALINK, BYTES(0x00, 0x83, 0x7E, 0x83), 4, BYTES(0x7E, 0x83), 0},
    {"an unknown command drops, that byte included", DATALINK, BYTES(0x7E, 0x7E, 0x83), 3, NULL, 0, 0},
    {"20h is an unknown command", DATALINK, BYTES(0x7E, 0x23, 0x7E, 0x83), 4, BYTES(0x7E, 0x83), 0},
    {"NUM 33 drops", DATALINK, BYTES(0x7E, 0xE3, 33, 0x7E, 0x83), 5, BYTES(0x7E, 0x83), 0},
    {"NUM 32", DATALINK, BYTES(0x7E, 0xA3, 32, 0x00), 4, NULL, 0, 4},
    {"a call stops after a finished frame", DATALINK, BYTES(0x7E, 0x83, 0x7E, 0x83), 2, BYTES(0x7E, 0x83), 0},
    {"noise before EOT", LECOM, BYTES(STX, ENQ, ETX, READ), 9, BYTES(READ), 0},
    {"EOT starts anew", LECOM, BYTES(EOT, '1', '1', STX, '0', READ), 11, BYTES(READ), 0},
    {"the BCC even if it is 04h", LECOM, BYTES(WRITE, READ), 10, BYTES(WRITE), 0},
    {"ENQ behind STX", LECOM, BYTES(EOT, STX, ENQ, ETX, 'x'), 5, BYTES(EOT, STX, ENQ, ETX, 'x'), 0},
    {"ETX before STX", LECOM, BYTES(EOT, ETX, 'x', 'y'), 4, NULL, 0, 4},
    {"noise before STX", LOVE, BYTES(ETX, 'L', PROBE), 11, BYTES(PROBE), 0},
    {"a later STX starts anew", LOVE, BYTES(STX, 'L', '3', PROBE), 12, BYTES(PROBE), 0},
    {"a frame below the shortest", LOVE, BYTES(STX, ETX, 'x'), 2, BYTES(STX, ETX), 0},
    {"LEN 0", LUCID, BYTES(0x46, 0x00, 0x40, 0, 0x46), 4, BYTES(0x46, 0x00, 0x40, 0), 0},
    {"LEN 2", LUCID, BYTES(0x40, 1, 0x10, 2, 0x34, 0x12, 0x46), 6, BYTES(0x40, 1, 0x10, 2, 0x34, 0x12), 0},
    {"no bytes", LUCID, NULL, 0, 0, NULL, 0, 0},
};

static void check_lines(void)
{
    begin("receivers: noise, starting anew, ends (02)");
    for (size_t i = 0; i < COUNT(lines); i++) {
        struct card card;
        card_default(&card);
        lend_bytes(&card, &lines[i]);
    }
    end();
}

/* ---- The longest frames ---- */

/* A frame's first bytes, ordinary bytes up to the dialect's longest frame, and its last bytes. */
static const struct longest {
    const char *source;
    enum dialect dialect;
    const uint8_t *first;
    size_t first_count;
    const uint8_t *last;
    size_t last_count;
} longest[] = {
    {"Datalink: NUM 32", DATALINK, BYTES(0x7E, 0xA3, 32), SILENT},
    {"LECOM: a read", LECOM, BYTES(EOT), BYTES(ENQ)},
    {"LECOM: a write", LECOM, BYTES(EOT, STX), BYTES(ETX, EOT)},
    {"Love", LOVE, BYTES(STX), BYTES(ETX)},
    {"LucidControl: LEN 255", LUCID, BYTES(0x42, 0x0F, 0x10, 255), SILENT},
};

static void longest_frame(const struct longest *l, uint8_t frame[NK_LUCID_LONGEST])
{
    memset(frame, 'x', parts[l->dialect].longest);
    memcpy(frame, l->first, l->first_count);
    if (l->last_count != 0)
        memcpy(frame + parts[l->dialect].longest - l->last_count, l->last, l->last_count);
}

/* With as many bytes collected as the longest frame has, one more drops them; it goes with them, or starts anew. */
static void check_past_longest(enum dialect dialect, const uint8_t *full, uint8_t byte, size_t left)
{
    size_t count = parts[dialect].longest;
    struct card card;
    card_default(&card);
    lend_bytes(&card, &(struct lending){"the longest part frame", dialect, full, count, count, NULL, 0, count});
    lend_bytes(&card, &(struct lending){"a byte past the longest", dialect, &byte, 1, 1, NULL, 0, left});
}

/* A longest frame is handed over, wherever it is divided. */
static void check_longest_frame(const struct longest *l)
{
    uint8_t frame[NK_LUCID_LONGEST];
    const struct exchange e = {.source = l->source, .frame = frame, .frame_count = parts[l->dialect].longest};
    struct card card;
    longest_frame(l, frame);
    card_default(&card);
    for (size_t place = 0; place < e.frame_count; place++)
        lend_in_two(&card, l->dialect, &e, place);
    lend_byte_by_byte(&card, l->dialect, &e);
}

static void check_longest(void)
{
    const struct longest open_lecom = {"", LECOM, BYTES(EOT), SILENT};
    const struct longest bcc_due = {"", LECOM, BYTES(EOT, STX), BYTES(ETX)};
    const struct longest open_love = {"", LOVE, BYTES(STX), SILENT};
    uint8_t full[NK_LUCID_LONGEST];

    begin("receivers: the longest frames, and a byte past them (02)");
    for (const struct longest *l = longest; l < longest + COUNT(longest); l++)
        check_longest_frame(l);
    longest_frame(&open_lecom, full);
    check_past_longest(LECOM, full, ENQ, 0);
    check_past_longest(LECOM, full, EOT, 1);
    longest_frame(&bcc_due, full);
    check_past_longest(LECOM, full, EOT, 0); /* it is the BCC, and starts nothing */
    longest_frame(&open_love, full);
    check_past_longest(LOVE, full, ETX, 0);
    check_past_longest(LOVE, full, STX, 1);
    end();
}

/* ---- All dialects at a time ---- */

/* A frame of each dialect. */
static const struct exchange *const frame_of[DIALECTS] = {
    [DATALINK] = &datalink_script[0],
    [LECOM] = &lecom_script[0],
    [LOVE] = &love_script[0],
    [LUCID] = &lucid_script[0],
};

/* Every receiver has collected the first two bytes of its frame. */
static void begin_frames(struct card *card)
{
    for (enum dialect dialect = DATALINK; dialect <= LUCID; dialect++)
        lend_piece(card, dialect, frame_of[dialect], 0, 2);
}

/* The frames come byte by byte in turn, and each receiver has its own; quiet of one dialect drops its own part frame alone. */
static void check_together(void)
{
    struct card card;
    begin("receivers: all dialects at a time, and quiet (02)");
    card_default(&card);
    for (size_t place = 0; place < NK_LUCID_LONGEST; place++)
        for (enum dialect dialect = DATALINK; dialect <= LUCID; dialect++)
            if (place < frame_of[dialect]->frame_count)
                lend_piece(&card, dialect, frame_of[dialect], place, place + 1);
    begin_frames(&card);
    for (enum dialect dialect = DATALINK; dialect <= LUCID; dialect++) {
        be_quiet(&card, dialect);
        lend_byte_by_byte(&card, dialect, frame_of[dialect]);
    }
    end();
}
