/* The scripts of checks.c: requests of each dialect with what the papers say of them. "01" is the scope paper with its checked
 * examples P1 to P12; "001" to "004" are the makers' documents; "02" is the paper of later requests. No expected byte was taken
 * from the library. checks.c includes this once, behind main.c.
 */

enum table { WORDS, MEMORY, PORTS };

/* An entry that a call changes, and what it becomes. */
struct edit {
    enum table table;
    size_t place;
    int32_t value;
};

enum { EDITS_MOST = 10 };

/* `collected` of a request whose frame a receiver hands over. */
enum { WHOLE = -1 };

/* A request and what the papers say of it. Tables change by the edits and in nothing else. Its bytes are a frame for the dialect's
 * receiver, or are none, and then it has `collected` of them. */
struct exchange {
    const char *source;
    const uint8_t *frame;
    size_t frame_count;
    uint8_t number;
    const uint8_t *answer;
    size_t answer_count;
    struct edit edits[EDITS_MOST];
    size_t edit_count;
    int collected;
};

#define SILENT NULL, 0
#define EDITS(...) {__VA_ARGS__}, sizeof((const struct edit[]){__VA_ARGS__}) / sizeof(struct edit), WHOLE
#define KEEP {{0}}, 0, WHOLE
#define NO_FRAME(collected) {{0}}, 0, collected
#define PENDING(kind, num, low, high) \
    {PORTS, NK_KIND, kind}, {PORTS, NK_NUM, num}, {PORTS, NK_LOW_ADDRESS, low}, {PORTS, NK_HIGH_ADDRESS, high}

/* ---- Datalink: 01 and 003; I.A. 3, probe codes 90, 78, 0 and 255 ---- */

static const struct exchange datalink_script[] = {
    {"01 P1, 003 example A", BYTES(0x7E, 0xE3, 0x09, 0x00, 0x10, 0xFC), NK_ANSWERED,
     BYTES(0x7E, 0x23, 0x09, 0x00, 0x10, 90, 78, 0, 255, 0, 0, 0, 0, 0, 0xE3), KEEP},
    {"01 P2", BYTES(0x7E, 0xE3, 0x09, 0x00, 0x10, 0xFB), NK_CHECK_CHARACTER, SILENT, KEEP},
    {"01 P3, 003 example B", BYTES(0x7E, 0xA3, 0x02, 0x00, 0x10, 0x08, 0x0C, 0xC9), NK_READ_ONLY, SILENT, KEEP},
    {"01: I.A. 4", BYTES(0x7E, 0xE4, 0x09, 0x00, 0x10, 0xFD), NK_FOREIGN_ADDRESS, SILENT, KEEP},
    {"01: a response is no command", BYTES(0x7E, 0x23, 0x00, 0x00, 0x10, 0x33), NK_COMMAND_UNKNOWN, SILENT,
     NO_FRAME(0)},
    {"01: first byte", BYTES(0x7F, 0xE3, 0x09, 0x00, 0x10, 0xFC), NK_FRAME_FORM, SILENT, NO_FRAME(0)},
    {"01: shorter than two bytes", BYTES(0x7E), NK_FRAME_FORM, SILENT, NO_FRAME(1)},
    {"01: an empty frame", NULL, 0, NK_FRAME_FORM, SILENT, NO_FRAME(0)},
    {"01: nothing pending", BYTES(0x7E, 0x83), NK_NOTHING_PENDING, SILENT, KEEP},
    {"01: change echoed, 003 example B at 1010h", BYTES(0x7E, 0xA3, 0x02, 0x10, 0x10, 0x08, 0x0C, 0xD9), NK_ANSWERED,
     BYTES(0x7E, 0x23, 0x02, 0x10, 0x10, 0x08, 0x0C, 0x59),
     EDITS(PENDING(1, 2, 0x10, 0x10), {PORTS, NK_DATA, 0x08}, {PORTS, NK_DATA + 1, 0x0C})},
    {"01: nothing changes before the acknowledge", BYTES(0x7E, 0xE3, 0x02, 0x10, 0x10, 0x05), NK_ANSWERED,
     BYTES(0x7E, 0x23, 0x02, 0x10, 0x10, 0x00, 0x00, 0x45), KEEP},
    {"01: acknowledge", BYTES(0x7E, 0x83), NK_DONE, SILENT,
     EDITS({MEMORY, 0x10, 0x08}, {MEMORY, 0x11, 0x0C}, {PORTS, NK_KIND, 0})},
    {"01: applied once", BYTES(0x7E, 0x83), NK_NOTHING_PENDING, SILENT, KEEP},
    {"01 P4: 5Ah at 1020h", BYTES(0x7E, 0xA3, 0x01, 0x20, 0x10, 0x5A, 0x2E), NK_ANSWERED,
     BYTES(0x7E, 0x23, 0x01, 0x20, 0x10, 0x5A, 0xAE), EDITS(PENDING(1, 1, 0x20, 0x10), {PORTS, NK_DATA, 0x5A})},
    {"01 P4: acknowledge", BYTES(0x7E, 0x83), NK_DONE, SILENT, EDITS({MEMORY, 0x20, 0x5A}, {PORTS, NK_KIND, 0})},
    {"01 P4: mask F0h, state 01h", BYTES(0x7E, 0xC3, 0x02, 0x20, 0x10, 0xF0, 0x01, 0xE6), NK_ANSWERED,
     BYTES(0x7E, 0x23, 0x02, 0x20, 0x10, 0xF0, 0x01, 0x46),
     EDITS(PENDING(2, 2, 0x20, 0x10), {PORTS, NK_DATA, 0xF0}, {PORTS, NK_DATA + 1, 0x01})},
    {"01 P4: 51h", BYTES(0x7E, 0x83), NK_DONE, SILENT, EDITS({MEMORY, 0x20, 0x51}, {PORTS, NK_KIND, 0})},
    {"01 P5: mask 00h, state FFh", BYTES(0x7E, 0xC3, 0x02, 0x20, 0x10, 0x00, 0xFF, 0xF4), NK_ANSWERED,
     BYTES(0x7E, 0x23, 0x02, 0x20, 0x10, 0x00, 0xFF, 0x54),
     EDITS(PENDING(2, 2, 0x20, 0x10), {PORTS, NK_DATA, 0x00}, {PORTS, NK_DATA + 1, 0xFF})},
    {"01 P5: FFh", BYTES(0x7E, 0x83), NK_DONE, SILENT, EDITS({MEMORY, 0x20, 0xFF}, {PORTS, NK_KIND, 0})},
    {"01: NUM 32", BYTES(0x7E, 0xE3, 0x20, 0x00, 0x10, 0x13), NK_ANSWERED,
     BYTES(0x7E, 0x23, 0x20, 0x00, 0x10, 90, 78, 0, 255, 0, 0, 0, 0, 0, 0, 0, 0, 0, 0, 0, 0, 0x08, 0x0C, 0, 0, 0, 0, 0,
           0, 0, 0, 0, 0, 0, 0, 0, 0, 0x0E),
     KEEP},
    {"01: NUM 33", BYTES(0x7E, 0xE3, 0x21, 0x00, 0x10, 0x14), NK_FRAME_FORM, SILENT, NO_FRAME(0)},
    {"01: 2000h with NUM 0", BYTES(0x7E, 0xE3, 0x00, 0x00, 0x20, 0x03), NK_ANSWERED,
     BYTES(0x7E, 0x23, 0x00, 0x00, 0x20, 0x43), KEEP},
    {"01: 2000h with NUM 1", BYTES(0x7E, 0xE3, 0x01, 0x00, 0x20, 0x04), NK_RANGE_UNKNOWN, SILENT, KEEP},
};

/* ---- LECOM: 01 and 001; unit 11, probe codes 90, 78, 0 and 255 ---- */

enum { STX = 0x02, ETX = 0x03, EOT = 0x04, ENQ = 0x05, ACK = 0x06, NAK = 0x15 };

static const struct exchange lecom_script[] = {
    {"01 P6, 001 6.1.1", BYTES(EOT, '1', '1', STX, '0', '0', '0', '9', '8', '7', '3', ETX, 0x36), NK_ANSWERED,
     BYTES(ACK), EDITS({WORDS, NK_BUFFER, 9873})},
    {"01 P6: register 00 reads as before", BYTES(EOT, '1', '1', '0', '0', ENQ), NK_ANSWERED,
     BYTES(STX, '0', '0', '0', ETX, 0x33), KEEP},
    {"01 P7, 001 6.1.4", BYTES(EOT, '1', '1', STX, '6', '7', '1', ETX, 0x33), NK_ANSWERED, BYTES(ACK),
     EDITS({WORDS, NK_OPERATIONAL, 9873})},
    {"01 P7: register 00 reads 9873", BYTES(EOT, '1', '1', '0', '0', ENQ), NK_ANSWERED,
     BYTES(STX, '0', '0', '9', '8', '7', '3', ETX, 0x06), KEEP},
    {"01: \"!00\" reaches the same register", BYTES(EOT, '1', '1', '!', '0', '0', '0', '0', '0', '0', ENQ), NK_ANSWERED,
     BYTES(STX, '!', '0', '0', '0', '0', '0', '0', '9', '8', '7', '3', ETX, 0x27), KEEP},
    {"001 6.1.5: STORE", BYTES(EOT, '1', '1', STX, '6', '8', '1', ETX, 0x3C), NK_ANSWERED, BYTES(ACK),
     EDITS({WORDS, NK_SAVED, 9873})},
    {"001 3.3.1: unit 31", BYTES(EOT, '3', '1', '0', '3', ENQ), NK_FOREIGN_ADDRESS, SILENT, KEEP},
    {"001 3.3.2: unknown code", BYTES(EOT, '1', '1', '!', '0', '8', '1', 'A', '0', '0', ENQ), NK_RANGE_UNKNOWN,
     BYTES(STX, '!', '0', '8', '1', 'A', '0', '0', EOT), KEEP},
    {"01: data 999999", BYTES(EOT, '1', '1', STX, '0', '1', '9', '9', '9', '9', '9', '9', ETX, 0x02), NK_ANSWERED,
     BYTES(ACK), EDITS({WORDS, NK_BUFFER + 1, 999999})},
    {"01: data -999999", BYTES(EOT, '1', '1', STX, '0', '1', '-', '9', '9', '9', '9', '9', '9', ETX, 0x2F), NK_ANSWERED,
     BYTES(ACK), EDITS({WORDS, NK_BUFFER + 1, -999999})},
    {"01: data 1000000", BYTES(EOT, '1', '1', STX, '0', '1', '1', '0', '0', '0', '0', '0', '0', ETX, 0x33),
     NK_VALUE_OUTSIDE, BYTES(NAK), KEEP},
    {"01: probe 1, code 78", BYTES(EOT, '1', '1', '6', '1', ENQ), NK_ANSWERED,
     BYTES(STX, '6', '1', '-', '1', '0', ETX, 0x28), KEEP},
    {"01: probe 3 at fault", BYTES(EOT, '1', '1', '6', '3', ENQ), NK_PROBE_FAULT, BYTES(NAK), KEEP},
    {"01: probe written", BYTES(EOT, '1', '1', STX, '6', '0', '1', ETX, 0x34), NK_READ_ONLY, BYTES(NAK), KEEP},
    {"01: BCC", BYTES(EOT, '1', '1', STX, '0', '0', '0', '9', '8', '7', '3', ETX, 0x37), NK_CHECK_CHARACTER, BYTES(NAK),
     KEEP},
    {"01: layout", BYTES(EOT, '1', '1', '0', 'a', ENQ), NK_FRAME_FORM, BYTES(NAK), KEEP},
    {"01: first byte", BYTES(ENQ, '1', '1', '0', '0', ENQ), NK_FRAME_FORM, SILENT, NO_FRAME(0)},
    {"01: address 00 sends nothing", BYTES(EOT, '0', '0', STX, '6', '7', '0', ETX, 0x32), NK_DONE, SILENT, KEEP},
    {"01: address 10 sends nothing", BYTES(EOT, '1', '0', '0', '0', ENQ), NK_DONE, SILENT, KEEP},
    {"01: no NAK to address 10", BYTES(EOT, '1', '0', '6', '3', ENQ), NK_PROBE_FAULT, SILENT, KEEP},
};

/* ---- Love: 01 and 004; address 32h, probe 0 with code 90 ---- */

#define UNIT STX, 'L', '3', '2'

static const struct exchange love_script[] = {
    {"01 P8, 004: write -15 to SP1", BYTES(UNIT, '0', '2', '0', '0', '0', '0', '1', '5', 'F', 'F', '7', '9', ETX),
     NK_ANSWERED, BYTES(UNIT, '0', '0', '1', '1', ACK), EDITS({WORDS, NK_LOVE, -15})},
    {"004: read SP1", BYTES(UNIT, '0', '1', '0', '0', '2', '6', ETX), NK_ANSWERED,
     BYTES(UNIT, '0', '1', '0', '0', '1', '5', 'D', '8', ACK), KEEP},
    {"01 P10: 5.0 degrees", BYTES(UNIT, '0', '0', 'C', '5', ETX), NK_ANSWERED,
     BYTES(UNIT, 'C', '0', '0', '0', '0', '0', '5', '0', '4', '9', ACK), KEEP},
    {"004: checksum error", BYTES(UNIT, '0', '0', 'C', '6', ETX), NK_CHECK_CHARACTER, BYTES(UNIT, 'N', '0', '2', ACK),
     KEEP},
    {"004: illegal character", BYTES(UNIT, '0', 'G', 'D', 'C', ETX), NK_FRAME_FORM, BYTES(UNIT, 'N', '0', '4', ACK),
     KEEP},
    {"01: 00 with d = 3", BYTES(UNIT, '0', '0', '0', 'F', '5', ETX), NK_FRAME_FORM, BYTES(UNIT, 'N', '0', '5', ACK),
     KEEP},
    {"01: a command that is not built", BYTES(UNIT, '0', '1', '0', '6', '2', 'C', ETX), NK_COMMAND_UNKNOWN,
     BYTES(UNIT, 'N', '0', '1', ACK), KEEP},
    {"01: sign 01 in a write", BYTES(UNIT, '0', '2', '0', '0', '0', '0', '1', '5', '0', '1', '4', 'E', ETX),
     NK_VALUE_OUTSIDE, BYTES(UNIT, 'N', '0', '5', ACK), KEEP},
    {"01: 87.0 to ALHI", BYTES(UNIT, '0', '2', '0', '5', '0', '8', '7', '0', '0', '0', '5', 'B', ETX), NK_ANSWERED,
     BYTES(UNIT, '0', '0', '1', '1', ACK), EDITS({WORDS, NK_LOVE + 3, 870})},
    {"01: 87.1 to ALHI", BYTES(UNIT, '0', '2', '0', '5', '0', '8', '7', '1', '0', '0', '5', 'C', ETX), NK_VALUE_OUTSIDE,
     BYTES(UNIT, 'N', '0', '6', ACK), KEEP},
    {"01: address 33h", BYTES(STX, 'L', '3', '3', '0', '0', 'C', '6', ETX), NK_FOREIGN_ADDRESS, SILENT, KEEP},
    {"01: filter of address 132h", BYTES(STX, 'O', '3', '2', '0', '0', 'C', '5', ETX), NK_FOREIGN_ADDRESS, SILENT, KEEP},
    {"01: no ETX", BYTES(UNIT, '0', '0', 'C', '5', ACK), NK_FRAME_FORM, SILENT, NO_FRAME(9)},
};

static const struct exchange love_fault[] = {
    {"01 P9: fault", BYTES(UNIT, '0', '0', 'C', '5', ETX), NK_ANSWERED,
     BYTES(UNIT, 'D', '0', '0', '0', '0', '0', '0', '0', '4', '5', ACK), KEEP},
};

static const struct exchange love_cold[] = {
    {"01: -1.0 degrees", BYTES(UNIT, '0', '0', 'C', '5', ETX), NK_ANSWERED,
     BYTES(UNIT, 'C', '0', '0', '2', '0', '0', '1', '0', '4', '7', ACK), KEEP},
};

/* ---- LucidControl: 01, 02 and 002; probe codes 78, 90, 0 and 255 ---- */

static const struct exchange lucid_script[] = {
    {"01 P11", BYTES(0x46, 0x00, 0x40, 0x00), NK_ANSWERED, BYTES(0x00, 0x02, 0xF6, 0xFF), KEEP},
    {"01 P12, channel 3", BYTES(0x46, 0x03, 0x40, 0x00), NK_PROBE_FAULT, BYTES(0xD0, 0x00), KEEP},
    {"01: hundredths", BYTES(0x46, 0x00, 0x41, 0x00), NK_ANSWERED, BYTES(0x00, 0x04, 0x9C, 0xFF, 0xFF, 0xFF), KEEP},
    {"01: a group of probes", BYTES(0x48, 0x07, 0x40, 0x00), NK_ANSWERED,
     BYTES(0x00, 0x06, 0xF6, 0xFF, 0x32, 0x00, 0x70, 0xFE), KEEP},
    {"01: a failed probe refuses its group", BYTES(0x48, 0x0F, 0x40, 0x00), NK_PROBE_FAULT, BYTES(0xD0, 0x00), KEEP},
    {"002 4.3.5: 750 ms, persistent", BYTES(0xA0, 0x00, 0x80, 0x06, 0x10, 0x11, 0xB0, 0x71, 0x0B, 0x00), NK_ANSWERED,
     BYTES(0x00, 0x00), EDITS({WORDS, NK_PARAMETERS, 750000}, {WORDS, NK_KEPT, 750000})},
    {"002 4.3.6: read it", BYTES(0xA2, 0x00, 0x00, 0x02, 0x10, 0x11), NK_ANSWERED,
     BYTES(0x00, 0x04, 0xB0, 0x71, 0x0B, 0x00), KEEP},
    {"01: 1120h, persistent", BYTES(0xA0, 0x00, 0x80, 0x06, 0x20, 0x11, 0x06, 0x00, 0x00, 0x00), NK_ANSWERED,
     BYTES(0x00, 0x00), EDITS({WORDS, NK_PARAMETERS + 1, 6}, {WORDS, NK_KEPT + 1, 6})},
    {"02 M-103: 1110h reset", BYTES(0xA0, 0x00, 0x01, 0x02, 0x10, 0x11), NK_ANSWERED, BYTES(0x00, 0x00),
     EDITS({WORDS, NK_PARAMETERS, DEFAULT_1110})},
    {"02 M-103: 1120h reset, persistent", BYTES(0xA0, 0x00, 0x81, 0x02, 0x20, 0x11), NK_ANSWERED, BYTES(0x00, 0x00),
     EDITS({WORDS, NK_PARAMETERS + 1, 0}, {WORDS, NK_KEPT + 1, 0})},
    {"02 M-103: reset without an address", BYTES(0xA0, 0x00, 0x01, 0x00), NK_FRAME_FORM, BYTES(0xB0, 0x00), KEEP},
    {"02 M-103: reset of 1130h", BYTES(0xA0, 0x00, 0x01, 0x02, 0x30, 0x11), NK_RANGE_UNKNOWN, BYTES(0xBA, 0x00), KEEP},
    {"01: a demand", BYTES(0x40, 0x01, 0x10, 0x02, 0x34, 0x12), NK_ANSWERED, BYTES(0x00, 0x00),
     EDITS({WORDS, NK_DEMANDS + 1, 0x1234})},
    {"01: the demand read", BYTES(0x46, 0x01, 0x10, 0x00), NK_ANSWERED, BYTES(0x00, 0x02, 0x34, 0x12), KEEP},
    {"01: mask 0Fh", BYTES(0x42, 0x0F, 0x10, 0x08, 0x01, 0x00, 0x02, 0x00, 0x03, 0x00, 0x04, 0x80), NK_ANSWERED,
     BYTES(0x00, 0x00),
     EDITS({WORDS, NK_DEMANDS, 1}, {WORDS, NK_DEMANDS + 1, 2}, {WORDS, NK_DEMANDS + 2, 3},
           {WORDS, NK_DEMANDS + 3, 0x8004})},
    {"01: mask 09h read", BYTES(0x48, 0x09, 0x10, 0x00), NK_ANSWERED, BYTES(0x00, 0x04, 0x01, 0x00, 0x04, 0x80), KEEP},
    {"01: mask 10h", BYTES(0x48, 0x10, 0x10, 0x00), NK_RANGE_UNKNOWN, BYTES(0xB2, 0x00), KEEP},
    {"01: channel 4", BYTES(0x46, 0x04, 0x40, 0x00), NK_RANGE_UNKNOWN, BYTES(0xB8, 0x00), KEEP},
    {"002 4.3.1: type 1Dh", BYTES(0x46, 0x03, 0x1D, 0x00), NK_VALUE_OUTSIDE, BYTES(0xB6, 0x00), KEEP},
    {"01: probe written", BYTES(0x40, 0x00, 0x40, 0x02, 0x00, 0x00), NK_READ_ONLY, BYTES(0xB6, 0x00), KEEP},
    {"01: option 02h", BYTES(0xA0, 0x00, 0x02, 0x00), NK_VALUE_OUTSIDE, BYTES(0xB4, 0x00), KEEP},
    {"01: parameter 1130h", BYTES(0xA2, 0x00, 0x00, 0x02, 0x30, 0x11), NK_RANGE_UNKNOWN, BYTES(0xBA, 0x00), KEEP},
    {"01: 65536 to 1120h", BYTES(0xA0, 0x00, 0x00, 0x06, 0x20, 0x11, 0x00, 0x00, 0x01, 0x00), NK_VALUE_OUTSIDE,
     BYTES(0xC0, 0x00), KEEP},
    {"01: LEN against slice", BYTES(0x46, 0x00, 0x40, 0x01), NK_FRAME_FORM, BYTES(0xB0, 0x00), NO_FRAME(4)},
    {"01: LEN for the command", BYTES(0x46, 0x00, 0x40, 0x01, 0x00), NK_FRAME_FORM, BYTES(0xB0, 0x00), KEEP},
    {"002 4.3.7: calibration is not built", BYTES(0x52, 0x00, 0x00, 0x00), NK_COMMAND_UNKNOWN, BYTES(0xA0, 0x00), KEEP},
    {"002 4.3.8: identification is not built", BYTES(0xC0, 0x00, 0x00, 0x00), NK_COMMAND_UNKNOWN, BYTES(0xA0, 0x00),
     KEEP},
    {"01: shorter than four bytes", BYTES(0x46, 0x00, 0x40), NK_FRAME_FORM, SILENT, NO_FRAME(3)},
};
