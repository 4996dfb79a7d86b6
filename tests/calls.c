/*
 * The calls of bafokun.h, one after the other: whole sequences of frames, byte for byte, faults, small and empty arrays, and
 * each allocation refused in turn. The last line is "N passed, 0 failed".
 *
 * A line of a sequence is an input and, after "=", the frames that are then sent and no other; of several ticks the last
 * alone may send something. A line that begins with "value" or "state" is a question.
 */
#include <bafokun.h>

#include <stdio.h>
#include <stdlib.h>
#include <string.h>

static unsigned passed, failed;

static void check(bool right, const char *name, const char *line)
{
    if (right) {
        passed++;
    } else {
        failed++;
        printf("FAILED %s: %s\n", name, line);
    }
}

/* ---- memory: counted, and refused by number. The linker's --wrap puts these into the place of malloc and realloc. */

void *__real_malloc(size_t size);
void *__real_realloc(void *block, size_t size);
void *__wrap_malloc(size_t size);
void *__wrap_realloc(void *block, size_t size);

static unsigned long asked, refused;

void *__wrap_malloc(size_t size)
{
    return ++asked == refused ? NULL : __real_malloc(size);
}

void *__wrap_realloc(void *block, size_t size)
{
    return ++asked == refused ? NULL : __real_realloc(block, size);
}

/* ---- the sheet, with other defaults */

static char *sheet;
static const bafokun_config config = { 16, 889, 1000 };

static char *read_file(const char *name)
{
    FILE *file = fopen(name, "rb");
    char *text = calloc(1, 65536);
    if (!file || !text || fread(text, 1, 65535, file) == 0) {
        fprintf(stderr, "cannot read %s\n", name);
        exit(1);
    }
    fclose(file);
    return text;
}

/* The sheet with "SECTION=DEFAULT" for each word. */
static char *sheet_with(const char *words)
{
    static char text[65536];
    char section[32], value[32];
    int length;
    strcpy(text, sheet);
    for (; sscanf(words, " %31[^=]=%31s%n", section, value, &length) == 2; words += length) {
        char head[48], *at, *end, *line, rest[65536];
        sprintf(head, "[%s]\n", section);
        at = strstr(text, head);
        if (!at) exit(1);
        at += strlen(head);
        end = strstr(at, "\n[");
        end = end ? end + 1 : at + strlen(at);
        line = strstr(at, "DefaultValue=");
        if (line && line < end) {
            strcpy(rest, strchr(line, '\n') + 1);
        } else {
            line = at;
            strcpy(rest, at);
        }
        sprintf(line, "DefaultValue=%s\n", value);
        strcat(line, rest);
    }
    return text;
}

/* ---- frames as text */

static bafokun_frame frame_of(const char *text)
{
    bafokun_frame frame = { 0, 0, { 0 } };
    unsigned id, byte;
    int used;
    if (sscanf(text, "%3x#%n", &id, &used) != 1) exit(1);
    frame.id = (uint16_t)id;
    for (text += used; frame.length < 8 && sscanf(text, "%2x", &byte) == 1; text += 2)
        frame.bytes[frame.length++] = (uint8_t)byte;
    return frame;
}

static void put_frame(char *text, const bafokun_frame *frame)
{
    int i;
    text += sprintf(text, "%03X#", frame->id);
    for (i = 0; i < frame->length; i++) text += sprintf(text, "%02X", frame->bytes[i]);
}

static bool are_frames(const bafokun_frame *frames, size_t count, const char *text)
{
    char want[64], have[64];
    int used;
    size_t i = 0;
    for (; sscanf(text, " %63s%n", want, &used) == 1; text += used, i++) {
        if (i >= count) return false;
        put_frame(have, &frames[i]);
        if (strcmp(want, have) != 0) return false;
    }
    return i == count;
}

/* ---- sequences */

static size_t give(bafokun_node *node, const char *input, bafokun_frame *frames)
{
    unsigned long number;
    unsigned index, sub, code, bits;
    if (sscanf(input, "ticks %lu", &number) == 1) {
        while (number-- > 1)
            if (bafokun_tick(node, frames, BAFOKUN_MOST_FRAMES) != 0) return BAFOKUN_MOST_FRAMES + 1;
        return bafokun_tick(node, frames, BAFOKUN_MOST_FRAMES);
    }
    if (sscanf(input, "event %lu", &number) == 1)
        return bafokun_event(node, (uint16_t)number, frames, BAFOKUN_MOST_FRAMES);
    if (sscanf(input, "changed %x:%x", &index, &sub) == 2)
        return bafokun_changed(node, (uint16_t)index, (uint8_t)sub, frames, BAFOKUN_MOST_FRAMES);
    if (sscanf(input, "raise %x %x", &code, &bits) == 2) {
        static const uint8_t none[5] = { 0, 0, 0, 0, 0 };
        return bafokun_raise(node, (uint16_t)code, (uint8_t)bits, none, frames, BAFOKUN_MOST_FRAMES);
    }
    if (sscanf(input, "clear %x", &bits) == 1) return bafokun_clear(node, (uint8_t)bits, frames, BAFOKUN_MOST_FRAMES);
    if (sscanf(input, "bus %lu", &number) == 1) return bafokun_bus(node, (uint8_t)number, frames, BAFOKUN_MOST_FRAMES);
    if (sscanf(input, "write %x:%x %lx", &index, &sub, &number) == 3) {
        uint8_t bytes[2];
        bytes[0] = (uint8_t)number;
        bytes[1] = (uint8_t)(number >> 8);
        return bafokun_write(node, (uint16_t)index, (uint8_t)sub, bytes, 2, frames, BAFOKUN_MOST_FRAMES);
    }
    if (sscanf(input, "byte %x:%x %lx", &index, &sub, &number) == 3) {
        uint8_t byte = (uint8_t)number;
        return bafokun_write(node, (uint16_t)index, (uint8_t)sub, &byte, 1, frames, BAFOKUN_MOST_FRAMES);
    }
    if (strcmp(input, "boot") == 0) return bafokun_boot(node, frames, BAFOKUN_MOST_FRAMES);
    {
        bafokun_frame frame = frame_of(input);
        return bafokun_take(node, &frame, frames, BAFOKUN_MOST_FRAMES);
    }
}

static bool has_value(bafokun_node *node, const char *words)
{
    unsigned index, sub, byte;
    int used;
    uint8_t bytes[16];
    size_t length = 0, i = 0;
    if (sscanf(words, "%x:%x%n", &index, &sub, &used) != 2) return false;
    if (!bafokun_value(node, (uint16_t)index, (uint8_t)sub, bytes, sizeof bytes, &length)) return false;
    for (words += used; sscanf(words, " %2x%n", &byte, &used) == 1; words += used, i++)
        if (i >= length || bytes[i] != byte) return false;
    return i == length;
}

static bool run_line(bafokun_node *node, const char *line)
{
    static bafokun_frame frames[BAFOKUN_MOST_FRAMES];
    char input[64];
    const char *sent = strchr(line, '=');
    size_t length = sent ? (size_t)(sent - line) : strlen(line), count;
    uint32_t code;
    if (strncmp(line, "value ", 6) == 0) return has_value(node, line + 6);
    if (strncmp(line, "state ", 6) == 0) return bafokun_state(node) == atoi(line + 6);
    if (strcmp(line, "idle for ever") == 0) return bafokun_idle(node) == BAFOKUN_FOREVER;
    if (strncmp(line, "idle ", 5) == 0) return bafokun_idle(node) == strtoul(line + 5, NULL, 10);
    if (strncmp(line, "held ", 5) == 0) return bafokun_held(node, 0) == (size_t)atoi(line + 5);
    if (strcmp(line, "done") == 0) return bafokun_answer(node, &code) == BAFOKUN_DONE && code == 0;
    if (strncmp(line, "refused ", 8) == 0)
        return bafokun_answer(node, &code) == BAFOKUN_REFUSED && code == strtoul(line + 8, NULL, 16);
    while (length > 0 && line[length - 1] == ' ') length--;
    memcpy(input, line, length);
    input[length] = 0;
    count = give(node, input, frames);
    return count <= BAFOKUN_MOST_FRAMES && are_frames(frames, count, sent ? sent + 1 : "");
}

static void run(const char *name, const char *defaults, const char *const *lines)
{
    bafokun_node node = BAFOKUN_EMPTY;
    bafokun_fault fault;
    const char *text = sheet_with(defaults);
    unsigned long before;
    check(bafokun_build(&node, text, strlen(text), 5, &config, &fault), name, "build");
    before = asked;
    for (; *lines; lines++) check(run_line(&node, *lines), name, *lines);
    check(asked == before, name, "no memory is asked for after the build");
    bafokun_free(&node);
}

static const char *const boot_up[] = { "boot = 705#00", "state 127", NULL };
static const char *const expedited_upload[] = { "605#4000100000000000 = 585#4300100091010000", NULL };
static const char *const segmented_download[] = {
    "605#210120000A000000 = 585#6001200000000000",
    "605#0030313233343536 = 585#2000000000000000",
    "held 7",
    "605#1937383900000000 = 585#3000000000000000",
    "value 2001:00 30 31 32 33 34 35 36 37 38 39",
    "held 0",
    NULL
};
static const char *const rpdos[] = {
    "000#0105",
    "state 5",
    "205#010203 = 085#1082110000000000",
    "value 2002:00 00 00 00 00",
    "605#4003100100000000 = 585#4303100110820000",
    "205#0102030405 = 085#2082110000000000",
    "value 2002:00 01 02 03 04",
    NULL
};
static const char *const every_third_sync[] = { "000#0105", "080#", "080#", "080# = 185#00000000", "080#", NULL };
static const char *const event_at_sync[] = {
    "000#0105", "080#", "080#", "event 0", "done", "080# = 185#00000000", "080#", NULL
};
static const char *const lost_heartbeat[] = {
    "605#2316100164000700 = 585#6016100100000000",
    "605#23161002C8000700 = 585#8016100243000406",
    "000#0105",
    "707#05",
    "ticks 100 = 085#3081110000000000",
    "state 127",
    NULL
};
static const char *const sync_and_reset[] = {
    "080#01 = 085#4082110000000000",
    "605#23022000EFBEADDE = 585#6002200000000000",
    "000#8105 = 705#00",
    "value 2002:00 00 00 00 00",
    "value 1001:00 00",
    "value 1003:00 00",
    NULL
};
static const char *const application[] = {
    "write 2003:00 1E8",
    "done",
    "value 2003:00 E8 01",
    "write 2003:00 3E9",
    "refused 06090031",
    "changed 3000:00",
    "refused 06020000",
    "event 7",
    "refused 06020000",
    "000#0105",
    "changed 2003:00 = 285#E801",
    "raise 1000 01 = 085#0010010000000000",
    "clear 01 = 085#0000000000000000",
    "raise 0000 01",
    "refused 06090030",
    "000#0205",
    "state 4",
    NULL
};

/* for how many ticks nothing is due */
static const char *const idle[] = {
    "idle for ever",
    /* the device's own heartbeat, each 100 ms */
    "605#2B17100064000000 = 585#6017100000000000",
    "idle 99",
    "ticks 60",
    "idle 39",
    "ticks 39",
    "idle 0",
    "ticks 1 = 705#7F",
    "idle 99",
    /* in stopped too */
    "000#0205",
    "idle 99",
    "000#8005",
    "605#2B17100001000000 = 585#6017100000000000",
    "idle 0",
    "ticks 1 = 705#7F",
    "idle 0",
    "605#2B17100000000000 = 585#6017100000000000",
    "idle for ever",
    /* a transfer, which may wait for a second */
    "605#210120000A000000 = 585#6001200000000000",
    "idle 999",
    "ticks 500",
    "idle 499",
    "605#0030313233343536 = 585#2000000000000000",
    "idle 999",
    "ticks 1000 = 585#8001200000000405",
    "idle for ever",
    /* the heartbeat of node 7, which is lost after 100 ms, from the first one on */
    "605#2316100164000700 = 585#6016100100000000",
    "idle for ever",
    "707#05",
    "ticks 30",
    "idle 69",
    "605#2B17100032000000 = 585#6017100000000000",
    "idle 49",
    "605#2B17100000000000 = 585#6017100000000000",
    "idle 69",
    /* and that of node 8, after 40 ms */
    "605#2316100228000800 = 585#6016100200000000",
    "708#05",
    "idle 39",
    "ticks 40 = 085#3081110000000000",
    "idle 29",
    "ticks 30 = 085#3081110000000000",
    "idle for ever",
    NULL
};
static const char *const idle_event_timer[] = {
    "idle for ever",
    "000#0105",
    "idle 49",
    "ticks 20",
    "idle 29",
    "event 0 = 185#00000000",
    "idle 49",
    "ticks 50 = 185#00000000",
    "idle 49",
    /* it isn't active */
    "605#2300180185010080 = 585#6000180100000000",
    "idle for ever",
    "605#2300180185010000 = 585#6000180100000000",
    "idle 49",
    "000#8005",
    "idle for ever",
    NULL
};
static const char *const idle_inhibit_time[] = {
    "000#0105",
    "idle for ever",
    "event 0 = 185#00000000",
    "idle for ever",
    "ticks 40",
    "event 0",
    "idle 59",
    "ticks 60 = 185#00000000",
    "idle for ever",
    NULL
};
/* a synchronous TPDO is due at a SYNC, and at no tick */
static const char *const idle_synchronous[] = { "000#0105", "event 0", "idle for ever", "080# = 185#00000000", "idle for ever", NULL };
static const char *const idle_emergencies[] = {
    "raise 1000 01 = 085#0010010000000000",
    "idle for ever",
    "raise 2000 01",
    "idle 49",
    /* while it is stopped none is sent */
    "000#0205",
    "idle for ever",
    "ticks 10",
    "000#8005",
    "idle 39",
    "ticks 40 = 085#0020010000000000",
    "idle for ever",
    NULL
};
static const char *const bus[] = {
    "000#0105",
    "bus 1 = 085#2081110000000000",
    "done",
    "value 1001:00 11",
    "bus 0 = 085#0000000000000000",
    "value 1001:00 00",
    "state 5",
    "bus 2",
    "state 127",
    "bus 3 = 085#4081110000000000",
    "605#4003100100000000 = 585#4303100140810000",
    "bus 0 = 085#0000000000000000",
    /* other errors stay */
    "raise 4200 08 = 085#0042090000000000",
    "bus 1 = 085#2081190000000000",
    "bus 0 = 085#0000090000000000",
    "bus 4",
    "state 127",
    /* 1029:01 is 2, then 1, then 0 in a state that isn't operational */
    "605#2F29100102000000 = 585#6029100100000000",
    "000#0105",
    "bus 2",
    "state 4",
    "000#0105",
    "605#2F29100101000000 = 585#6029100100000000",
    "bus 2",
    "state 5",
    "605#2F29100100000000 = 585#6029100100000000",
    "000#0205",
    "bus 2",
    "state 4",
    NULL
};

/* What the end of error passive leaves where another error lasts. */
static const char *const bus_and_others[] = {
    /* recovered after error passive is the same error's bit */
    "bus 1 = 085#2081110000000000",
    "bus 3 = 085#4081110000000000",
    "bus 0 = 085#0000000000000000",
    /* an error that has bit 0 alone lasts; it ends */
    "raise 1000 00 = 085#0010010000000000",
    "bus 1 = 085#2081110000000000",
    "bus 0 = 085#0000010000000000",
    "value 1001:00 01",
    "clear 01 = 085#0000000000000000",
    "bus 1 = 085#2081110000000000",
    "bus 0 = 085#0000000000000000",
    /* one with another bit ends meanwhile */
    "raise 4200 08 = 085#0042090000000000",
    "bus 1 = 085#2081190000000000",
    "clear 08 = 085#0000110000000000",
    "bus 0 = 085#0000000000000000",
    /* 8130h lasts */
    "605#2316100164000700 = 585#6016100100000000",
    "707#05",
    "ticks 100 = 085#3081110000000000",
    "bus 1 = 085#2081110000000000",
    "bus 0 = 085#0000110000000000",
    "value 1001:00 11",
    "clear 11 = 085#0000000000000000",
    /* it comes meanwhile */
    "bus 1 = 085#2081110000000000",
    "707#05",
    "ticks 100 = 085#3081110000000000",
    "bus 0 = 085#0000110000000000",
    "clear 11 = 085#0000000000000000",
    /* an error of the application with bit 4 comes meanwhile; one that is refused doesn't */
    "bus 1 = 085#2081110000000000",
    "raise 8100 10 = 085#0081110000000000",
    "bus 0 = 085#0000110000000000",
    "clear 11 = 085#0000000000000000",
    "bus 3 = 085#4081110000000000",
    "raise 0 10",
    "refused 06090030",
    "bus 0 = 085#0000000000000000",
    /* 8130h after a reset */
    "bus 1 = 085#2081110000000000",
    "000#8205 = 705#00",
    "value 1001:00 00",
    "605#2316100164000700 = 585#6016100100000000",
    "707#05",
    "ticks 100 = 085#3081110000000000",
    "bus 0 = 085#0000110000000000",
    "clear 11 = 085#0000000000000000",
    /* what the program writes into 1001h; two bytes are refused */
    "bus 1 = 085#2081110000000000",
    "byte 1001:00 11",
    "done",
    "bus 0 = 085#0000110000000000",
    "clear 11 = 085#0000000000000000",
    "bus 1 = 085#2081110000000000",
    "write 1001:00 11",
    "refused 06070012",
    "bus 0 = 085#0000000000000000",
    /* an error in a SYNC meanwhile isn't known */
    "bus 1 = 085#2081110000000000",
    "080#01 = 085#4082110000000000",
    "bus 0 = 085#0000000000000000",
    /* but one before is */
    "080#01 = 085#4082110000000000",
    "bus 1 = 085#2081110000000000",
    "bus 0 = 085#0000110000000000",
    "clear 11 = 085#0000000000000000",
    /* each call sends one, and bit 0 is cleared where it is named */
    "raise 3210 04 = 085#1032050000000000",
    "raise 3210 04 = 085#1032050000000000",
    "clear 04 = 085#0000010000000000",
    "clear 04 = 085#0000010000000000",
    NULL
};
static const char *const nine_errors[] = {
    "000#0205",
    "raise 5001 00", "raise 5002 00", "raise 5003 00", "raise 5004 00", "raise 5005 00", "raise 5006 00", "raise 5007 00",
    "raise 5008 00", "raise 5009 00",
    "done",
    "000#0105 = 085#0250010000000000",
    "ticks 1 = 085#0350010000000000",
    "ticks 1 = 085#0450010000000000",
    "ticks 1 = 085#0550010000000000",
    "ticks 1 = 085#0650010000000000",
    "ticks 1 = 085#0750010000000000",
    "ticks 1 = 085#0850010000000000",
    "ticks 1 = 085#0950010000000000",
    "ticks 10",
    NULL
};
static const char *const without_effect[] = {
    "event 0",
    "done",
    "000#0105",
    "boot = 705#00",
    "state 5",
    "event 0",
    "done",
    "080#",
    "080#",
    "080# = 185#00000000",
    "write 1201:01 681",
    "refused 06010002",
    "boot = 705#00",
    "refused 06010002",
    NULL
};

/* ---- faults, small arrays, empty places */

static bool is_fault(const bafokun_fault *fault, uint64_t line, int stage, int number, int index, int sub_index)
{
    return fault->line == line && fault->stage == stage && fault->number == number && fault->index == index
        && fault->sub_index == sub_index;
}

static void test_faults(void)
{
    bafokun_node node = BAFOKUN_EMPTY;
    bafokun_fault fault;
    const char cut[] = "[MandatoryObjects]\nSupportedObjects=3\n1=0x1000\n";
    const char *text;
    check(!bafokun_build(&node, cut, 0, 5, &config, &fault), "faults", "no text");
    check(is_fault(&fault, 0, BAFOKUN_FAULT_SHEET, 6, 0, 0), "faults", "MissingSection");
    check(!bafokun_build(&node, cut, sizeof cut - 1, 5, &config, &fault), "faults", "a cut text");
    check(is_fault(&fault, 1, BAFOKUN_FAULT_SHEET, 9, 0, 0), "faults", "BadList line 1");
    check(!bafokun_build(&node, sheet, strlen(sheet), 0, &config, &fault), "faults", "node-ID 0");
    check(is_fault(&fault, 0, BAFOKUN_FAULT_DEVICE, 1, 0, 0), "faults", "NodeId");
    check(!bafokun_build(&node, sheet, strlen(sheet), 128, &config, &fault), "faults", "node-ID 128");
    text = sheet_with("1800sub1=0x80000000000");
    check(!bafokun_build(&node, text, strlen(text), 5, &config, &fault), "faults", "a default out of range");
    text = sheet_with("1800sub1=0x585");
    check(!bafokun_build(&node, text, strlen(text), 5, &config, &fault), "faults", "a COB-ID that isn't free");
    check(is_fault(&fault, 0, BAFOKUN_FAULT_DEVICE, 3, 0x1800, 1), "faults", "BadCobId 1800:01");
    check(bafokun_state(&node) == 0, "faults", "the place is empty");
    check(bafokun_build(&node, sheet, strlen(sheet), 127, &config, &fault), "faults", "node-ID 127");
    check(is_fault(&fault, 0, BAFOKUN_FAULT_NONE, 0, 0, 0), "faults", "none");
    check(bafokun_node_id(&node) == 127, "faults", "the node-ID");
    check(bafokun_build(&node, sheet, strlen(sheet), 1, &config, &fault), "faults", "built again");
    check(bafokun_node_id(&node) == 1, "faults", "the other node-ID");
    check(!bafokun_build(&node, sheet, strlen(sheet), 0, &config, &fault), "faults", "built again with a fault");
    check(bafokun_node_id(&node) == 0, "faults", "the place is empty then");
}

/* The entries of 1000h to 2FFFh with sub-indices up to 8 that two devices have alike; SIZE_MAX where one differs. */
static size_t same_entries(bafokun_node *one, bafokun_node *other)
{
    unsigned index, sub;
    size_t count = 0;
    for (index = 0x1000; index < 0x3000; index++)
        for (sub = 0; sub <= 8; sub++) {
            uint8_t a[64], b[64];
            size_t of_a = 0, of_b = 0;
            bool has_a = bafokun_value(one, (uint16_t)index, (uint8_t)sub, a, sizeof a, &of_a);
            bool has_b = bafokun_value(other, (uint16_t)index, (uint8_t)sub, b, sizeof b, &of_b);
            if (has_a != has_b || of_a != of_b || of_a > sizeof a) return SIZE_MAX;
            if (has_a && memcmp(a, b, of_a) != 0) return SIZE_MAX;
            count += has_a;
        }
    return count;
}

/* An NMT reset of the node gives all 46 entries of the sheet the bytes that they have after a build. */
static void test_reset(void)
{
    static const char *const lines[] = {
        "605#23022000EFBEADDE = 585#6002200000000000",
        "605#2B171000E8030000 = 585#6017100000000000",
        "write 2003:00 1E8",
        "080#01 = 085#4082110000000000",
        NULL
    };
    const char *const *line = lines;
    bafokun_node used = BAFOKUN_EMPTY, fresh = BAFOKUN_EMPTY;
    bafokun_fault fault;
    check(bafokun_build(&used, sheet, strlen(sheet), 5, &config, &fault), "reset", "build");
    check(bafokun_build(&fresh, sheet, strlen(sheet), 5, &config, &fault), "reset", "build another");
    for (; *line; line++) check(run_line(&used, *line), "reset", *line);
    check(same_entries(&used, &fresh) == SIZE_MAX, "reset", "entries differ");
    check(run_line(&used, "000#8105 = 705#00"), "reset", "boot-up");
    check(same_entries(&used, &fresh) == 46, "reset", "all entries are as after the build");
    bafokun_free(&used);
    bafokun_free(&fresh);
}

static void test_small_arrays(void)
{
    bafokun_node node = BAFOKUN_EMPTY;
    bafokun_fault fault;
    bafokun_frame frames[3], sync = { 0x80, 0, { 0 } }, start = { 0, 2, { 1, 5 } }, wrong = { 0x800, 0, { 0 } };
    const char *text = sheet_with("1800sub2=1 1801sub2=1");
    uint8_t bytes[4] = { 9, 9, 9, 9 };
    size_t length = 77;
    check(bafokun_build(&node, text, strlen(text), 5, &config, &fault), "arrays", "build");
    check(bafokun_take(&node, &start, frames, 3) == 0, "arrays", "start");
    memset(frames, 0xEE, sizeof frames);
    check(bafokun_take(&node, &sync, frames, 3) == 2, "arrays", "two frames");
    check(are_frames(frames, 2, "185#00000000 285#0000"), "arrays", "both");
    check(frames[2].id == 0xEEEE, "arrays", "the third place is left");
    memset(frames, 0xEE, sizeof frames);
    check(bafokun_take(&node, &sync, frames, 1) == 2, "arrays", "two frames, room for one");
    check(are_frames(frames, 1, "185#00000000") && frames[1].id == 0xEEEE, "arrays", "the first");
    check(bafokun_sent(&node, 1, frames, 3) == 1 && are_frames(frames, 1, "285#0000"), "arrays", "the second");
    check(bafokun_sent(&node, 2, frames, 3) == 0, "arrays", "none after it");
    check(bafokun_sent(&node, SIZE_MAX, frames, 3) == 0, "arrays", "none far past it");
    check(bafokun_take(&node, &sync, frames, 0) == 2, "arrays", "room for none");
    check(bafokun_sent(&node, 0, frames, 3) == 2, "arrays", "both afterwards");
    check(bafokun_take(&node, &wrong, frames, 3) == 0, "arrays", "no CAN identifier");
    wrong.id = 0x80;
    wrong.length = 9;
    check(bafokun_take(&node, &wrong, frames, 3) == 0, "arrays", "too long");
    check(bafokun_sent(&node, 0, frames, 3) == 2, "arrays", "which was no input");
    check(bafokun_value(&node, 0x2002, 0, bytes, 2, &length) && length == 4, "arrays", "a value, room for two");
    check(bytes[0] == 0 && bytes[1] == 0 && bytes[2] == 9, "arrays", "its first bytes");
    check(bafokun_value(&node, 0x2002, 0, bytes, 0, &length) && length == 4, "arrays", "a value, room for none");
    length = 77;
    check(!bafokun_value(&node, 0x3000, 0, bytes, 4, &length) && length == 77, "arrays", "no entry");
    check(bafokun_write(&node, 0x2001, 0, bytes, 0, frames, 3) == 0, "arrays", "a write of no bytes");
    check(bafokun_value(&node, 0x2001, 0, bytes, 4, &length) && length == 0, "arrays", "an empty string");
    bafokun_free(&node);
    bafokun_free(&node);
}

/* Many ticks at once end with the first that sends frames, and are those that single ticks would be. */
static void test_ticks(void)
{
    bafokun_node node = BAFOKUN_EMPTY;
    bafokun_fault fault;
    bafokun_frame frames[3];
    const char *text = sheet_with("1017=100");
    uint32_t elapsed = 77;
    check(bafokun_build(&node, text, strlen(text), 5, &config, &fault), "ticks", "build");
    check(bafokun_boot(&node, frames, 3) == 1, "ticks", "boot");
    check(bafokun_ticks(&node, 0, &elapsed, frames, 3) == 0 && elapsed == 0, "ticks", "none");
    check(bafokun_sent(&node, 0, frames, 3) == 0, "ticks", "none gives nothing");
    check(bafokun_ticks(&node, 99, &elapsed, frames, 3) == 0 && elapsed == 99, "ticks", "before the heartbeat");
    check(bafokun_ticks(&node, 1, &elapsed, frames, 3) == 1 && elapsed == 1, "ticks", "the last sends it");
    check(are_frames(frames, 1, "705#7F"), "ticks", "the heartbeat");
    memset(frames, 0xEE, sizeof frames);
    check(bafokun_ticks(&node, UINT32_MAX, &elapsed, frames, 0) == 1 && elapsed == 100, "ticks", "they end there, room for none");
    check(frames[0].id == 0xEEEE, "ticks", "nothing is written");
    check(bafokun_sent(&node, 0, frames, 3) == 1 && are_frames(frames, 1, "705#7F"), "ticks", "the frame afterwards");
    check(run_line(&node, "605#2B17100000000000 = 585#6017100000000000"), "ticks", "no heartbeat any more");
    check(bafokun_ticks(&node, 100000, &elapsed, frames, 3) == 0 && elapsed == 100000, "ticks", "nothing is due");
    bafokun_free(&node);
    check(bafokun_ticks(&node, 7, &elapsed, frames, 3) == 0 && elapsed == 7, "ticks", "of an empty place");
    check(bafokun_idle(&node) == BAFOKUN_FOREVER, "ticks", "which is idle");
}

static bool is_entry(bafokun_node *node, size_t number, unsigned index, int type, int original, int access, size_t capacity,
                     size_t length)
{
    bafokun_entry_info entry;
    return bafokun_entry(node, number, &entry) && entry.index == index && entry.sub_index == 0 && entry.type == type
        && entry.original_type == original && entry.access == access && entry.capacity == capacity && entry.length == length;
}

/* All entries of the sheet, by their numbers, and what the sheet says of them. */
static void test_entries(void)
{
    static char text[65536];
    bafokun_node node = BAFOKUN_EMPTY;
    bafokun_fault fault;
    bafokun_entry_info entry, before;
    bafokun_frame frame;
    const char *at = strstr(sheet, "[2001]\n"), *next = strstr(sheet, "[2002]\n");
    char name[16];
    size_t number, found = 77, length, unlike = 0;
    at += strlen("[2001]\n");
    next += strlen("[2002]\n");
    sprintf(text, "%.*sParameterName = Device name\n%.*sOriginalDataType=8\n%s", (int)(at - sheet), sheet, (int)(next - at), at, next);
    check(bafokun_build(&node, text, strlen(text), 5, &config, &fault), "entries", "build");
    memset(&before, 0, sizeof before);
    for (number = 0; bafokun_entry(&node, number, &entry); number++) {
        uint8_t byte;
        unlike += number > 0 && (before.index << 8 | before.sub_index) >= (entry.index << 8 | entry.sub_index);
        unlike += !bafokun_find(&node, entry.index, entry.sub_index, &found) || found != number;
        unlike += !bafokun_value(&node, entry.index, entry.sub_index, &byte, 0, &length) || length != entry.length;
        before = entry;
    }
    check(number == 46, "entries", "all 46");
    check(unlike == 0, "entries", "by increasing key, each is found, and has the length of its value");
    check(entry.index == 0x2100, "entries", "past the last nothing is written");
    check(is_entry(&node, 0, 0x1000, 0x07, 0x07, BAFOKUN_RO, 4, 4), "entries", "1000:00");
    check(is_entry(&node, 41, 0x2001, 0x09, 0x09, BAFOKUN_RW, 16, 0), "entries", "2001:00, a VISIBLE_STRING");
    check(is_entry(&node, 42, 0x2002, 0x07, 0x08, BAFOKUN_RW, 4, 4), "entries", "2002:00, that was a REAL32");
    check(is_entry(&node, 43, 0x2003, 0x06, 0x06, BAFOKUN_RW, 2, 2), "entries", "2003:00, an UNSIGNED16");
    check(is_entry(&node, 44, 0x2004, 0x06, 0x06, BAFOKUN_WO, 2, 2), "entries", "2004:00, write only");
    check(is_entry(&node, 45, 0x2100, 0x0F, 0x0F, BAFOKUN_RW, 889, 0), "entries", "2100:00, a DOMAIN");
    check(bafokun_write(&node, 0x2001, 0, (const uint8_t *)"ten", 3, &frame, 1) == 0, "entries", "write");
    check(is_entry(&node, 41, 0x2001, 0x09, 0x09, BAFOKUN_RW, 16, 3), "entries", "2001:00 has three bytes");
    check(!bafokun_find(&node, 0x2001, 1, &found) && found == 45, "entries", "no 2001:01");
    memset(name, '#', sizeof name);
    check(bafokun_entry_name(&node, 41, name, sizeof name) == 11 && memcmp(name, "Device name\0#", 13) == 0, "entries", "its name");
    check(bafokun_entry_name(&node, 41, name, 4) == 11 && memcmp(name, "Dev\0ce", 6) == 0, "entries", "room for three");
    check(bafokun_entry_name(&node, 42, name, 4) == 0 && name[0] == 0, "entries", "no name");
    check(bafokun_entry_name(&node, SIZE_MAX, name + 1, 0) == 0 && name[1] == 'e', "entries", "no such entry");
    bafokun_free(&node);
    check(!bafokun_entry(&node, 0, &entry) && entry.index == 0x2100, "entries", "none of an empty place");
    check(!bafokun_find(&node, 0x1000, 0, &found) && found == 45, "entries", "which has none to find");
    check(bafokun_entry_name(&node, 41, name, 4) == 0 && name[0] == 0, "entries", "nor a name");
}

/* An entry is read and written by its number as by its key. */
static void test_numbers(void)
{
    bafokun_node node = BAFOKUN_EMPTY;
    bafokun_fault fault;
    bafokun_entry_info entry;
    bafokun_frame frames[2];
    uint8_t by_key[16], by_number[16];
    const char *text = sheet_with("2003=7");
    size_t number, unlike = 0, of_key, of_number, next = 0;
    uint32_t code = 0;
    check(bafokun_build(&node, text, strlen(text), 5, &config, &fault), "numbers", "build");
    for (number = 0; bafokun_entry(&node, number, &entry); number++) {
        memset(by_key, 0xEE, sizeof by_key);
        memset(by_number, 0xEE, sizeof by_number);
        unlike += !bafokun_value(&node, entry.index, entry.sub_index, by_key, sizeof by_key, &of_key)
            || !bafokun_value_at(&node, number, by_number, sizeof by_number, &of_number)
            || of_key != of_number || memcmp(by_key, by_number, sizeof by_key) != 0;
    }
    check(number == 46 && unlike == 0, "numbers", "all 46 are read alike");
    of_number = 77;
    check(!bafokun_value_at(&node, 46, by_number, sizeof by_number, &of_number) && of_number == 77, "numbers", "past the last");
    check(!bafokun_value_at(&node, SIZE_MAX, by_number, sizeof by_number, &of_number) && of_number == 77, "numbers", "far past it");
    memset(by_number, 0xEE, sizeof by_number);
    check(bafokun_find(&node, 0x2003, 0, &number) && number == 43, "numbers", "find 2003:00");
    check(bafokun_value_at(&node, number, by_number, 1, &of_number) && of_number == 2, "numbers", "a value, room for one");
    check(by_number[0] == 7 && by_number[1] == 0xEE, "numbers", "its first byte");
    check(bafokun_write_at(&node, number, (const uint8_t *)"\x2C\x01", 2, frames, 2) == 0, "numbers", "write 2003:00");
    check(bafokun_answer(&node, &code) == BAFOKUN_DONE && code == 0, "numbers", "done");
    check(run_line(&node, "value 2003:00 2C 01"), "numbers", "it is set");
    check(!bafokun_next_changed(&node, 0, &next), "numbers", "what the program wrote isn't found");
    check(bafokun_write_at(&node, number, by_number, 1, frames, 2) == 0, "numbers", "one byte");
    check(bafokun_answer(&node, &code) == BAFOKUN_REFUSED && code == 0x06070013, "numbers", "is refused: too short");
    check(bafokun_write_at(&node, 46, by_number, 2, frames, 2) == 0, "numbers", "past the last");
    check(bafokun_answer(&node, &code) == BAFOKUN_REFUSED && code == 0x06020000, "numbers", "is refused: no such object");
    check(bafokun_write_at(&node, SIZE_MAX, by_number, 2, frames, 2) == 0, "numbers", "far past it");
    check(bafokun_answer(&node, &code) == BAFOKUN_REFUSED && code == 0x06020000, "numbers", "is refused too");
    check(run_line(&node, "value 2003:00 2C 01"), "numbers", "nothing else is set");
    check(bafokun_find(&node, 0x1014, 0, &number), "numbers", "find 1014:00");
    check(bafokun_write_at(&node, number, (const uint8_t *)"\x85\0\0\x80", 4, frames, 2) == 0, "numbers", "write 1014:00");
    check(bafokun_answer(&node, &code) == BAFOKUN_DONE, "numbers", "EMCY is switched off");
    check(bafokun_write_at(&node, number, (const uint8_t *)"\x01\0\0\0", 4, frames, 2) == 0, "numbers", "a restricted COB-ID");
    check(bafokun_answer(&node, &code) == BAFOKUN_REFUSED && code == 0x06090030, "numbers", "is refused by the rule of 1014h");
    bafokun_free(&node);
    check(!bafokun_value_at(&node, 0, by_number, 1, &of_number), "numbers", "none of an empty place");
    check(bafokun_write_at(&node, 0, by_number, 1, frames, 2) == 0, "numbers", "which takes none");
}

/* The entries that were set, from a number on: these keys, in this order, and no other. */
static bool are_changed(bafokun_node *node, size_t from, const char *keys)
{
    bafokun_entry_info entry;
    unsigned index, sub;
    int used;
    for (; bafokun_next_changed(node, from, &from); from++, keys += used)
        if (!bafokun_entry(node, from, &entry) || sscanf(keys, " %x:%x%n", &index, &sub, &used) != 2 || entry.index != index
            || entry.sub_index != sub)
            return false;
    return *keys == 0;
}

/* A line of a sequence, and the entries that it sets. */
static void check_changes(bafokun_node *node, const char *line, const char *keys)
{
    check(run_line(node, line) && are_changed(node, 0, keys), "changes", line);
}

/* How many entries were set, each with an index within these ends. */
static size_t count_changes(bafokun_node *node, unsigned least, unsigned greatest)
{
    bafokun_entry_info entry;
    size_t next = 0, count = 0;
    for (; bafokun_next_changed(node, next, &next); next++, count++)
        if (!bafokun_entry(node, next, &entry) || entry.index < least || entry.index > greatest) return SIZE_MAX;
    return count;
}

/* What SDO clients, RPDOs and resets set is given once, also if the bytes are the same; what the application writes, never. */
static void test_changes(void)
{
    bafokun_node node = BAFOKUN_EMPTY;
    bafokun_fault fault;
    size_t next = 45;
    check(bafokun_build(&node, sheet, strlen(sheet), 5, &config, &fault), "changes", "build");
    check(!bafokun_next_changed(&node, 0, &next) && next == 45, "changes", "first none, and nothing is written");
    check_changes(&node, "605#2B0320002C010000 = 585#6003200000000000", " 2003:0");
    check(are_changed(&node, 0, ""), "changes", "once");
    check_changes(&node, "605#2B0320002C010000 = 585#6003200000000000", " 2003:0");
    check_changes(&node, "605#2B03200100000000 = 585#8003200111000906", "");
    check_changes(&node, "605#4003200000000000 = 585#4B0320002C010000", "");
    check_changes(&node, "write 2003:00 12E", "");
    check(run_line(&node, "605#2B0320002D010000 = 585#6003200000000000"), "changes", "a download");
    check_changes(&node, "write 2003:00 12E", " 2003:0");
    check_changes(&node, "605#210120000A000000 = 585#6001200000000000", "");
    check_changes(&node, "605#0030313233343536 = 585#2000000000000000", "");
    check_changes(&node, "605#1937383900000000 = 585#3000000000000000", " 2001:0");
    check(run_line(&node, "605#2B0320002D010000 = 585#6003200000000000"), "changes", "a download");
    check(run_line(&node, "605#2302200001020304 = 585#6002200000000000"), "changes", "another");
    check(are_changed(&node, 43, " 2003:0") && are_changed(&node, 0, " 2002:0"), "changes", "from a number on");
    check(!bafokun_next_changed(&node, SIZE_MAX, &next) && next == 45, "changes", "none past the last");
    check_changes(&node, "000#0105", "");
    check_changes(&node, "raise 8120 10 = 085#2081110000000000", "");
    check_changes(&node, "205#05060708", " 2002:0");
    check_changes(&node, "205#05060708", " 2002:0");
    check_changes(&node, "205#050607 = 085#1082110000000000", "");
    check(run_line(&node, "000#8205 = 705#00") && count_changes(&node, 0x1000, 0x1FFF) == 41, "changes", "reset communication");
    check(run_line(&node, "000#8105 = 705#00") && count_changes(&node, 0x1000, 0x2100) == 46, "changes", "reset node");
    check(are_changed(&node, 0, ""), "changes", "once");
    bafokun_free(&node);
    check(!bafokun_next_changed(&node, 0, &next) && next == 45, "changes", "none of an empty place");
}

/* The entries of several RPDOs that take effect at a SYNC. */
static void test_changes_at_sync(const char *text)
{
    bafokun_node node = BAFOKUN_EMPTY;
    bafokun_fault fault;
    check(bafokun_build(&node, text, strlen(text), 5, &config, &fault), "changes", "build an I/O module");
    check_changes(&node, "605#2F00140201000000 = 585#6000140200000000", " 1400:2");
    check_changes(&node, "605#2F01140201000000 = 585#6001140200000000", " 1401:2");
    check_changes(&node, "000#0105", "");
    check_changes(&node, "305#01000200", "");
    check_changes(&node, "205#0A0B", "");
    check_changes(&node, "080#", " 6200:1 6200:2 6411:1 6411:2");
    check(run_line(&node, "value 6411:02 02 00"), "changes", "they are set");
    check_changes(&node, "080#", "");
    check(run_line(&node, "305#01000200") && run_line(&node, "205#0A0B"), "changes", "the same again");
    check_changes(&node, "080#", " 6200:1 6200:2 6411:1 6411:2");
    check(run_line(&node, "305#01000080") && run_line(&node, "205#0A0B"), "changes", "-32768, below its limit");
    check_changes(&node, "080# = 085#0082110000000000", " 6200:1 6200:2");
    bafokun_free(&node);
}

/* What happened since the last time: these words, and no other; "-" for nothing. */
static bool did_happen(bafokun_node *node, const char *words)
{
    bafokun_events events;
    char have[256];
    int i, length;
    memset(&events, 0xEE, sizeof events);
    if (!bafokun_happened(node, &events)) return strcmp(words, "-") == 0 && events.sync == 0xEE && events.silent[127] == 0xEE;
    length = sprintf(have, "%s%s%s%s%s", events.reset_node ? " node" : "", events.reset_communication ? " communication" : "",
                     events.sync ? " sync" : "", events.rpdo ? " rpdo" : "", events.heartbeat ? " heartbeat" : "");
    if (events.state) length += sprintf(have + length, " state %d", events.state);
    for (i = 0; i < 128; i++) {
        if (events.lost[i]) length += sprintf(have + length, " lost %d", i);
        if (events.back[i]) length += sprintf(have + length, " back %d", i);
        if (events.silent[i]) length += sprintf(have + length, " silent %d", i);
    }
    return strcmp(words, have) == 0;
}

/* Lines of a sequence, each after what happened since the one before. */
static void test_happened(void)
{
    static const char *const lines[][2] = {
        { "boot = 705#00", "-" },
        { "080#", " sync" },
        { "605#4000100000000000 = 585#4300100091010000", "-" },
        /* it isn't operational */
        { "205#01020304", "-" },
        { "000#0105", " state 5" },
        { "000#0105", "-" },
        { "205#01020304", " rpdo" },
        /* errors that the device finds (CiA 301, 7.2.7.1), and that the program clears */
        { "205#010203 = 085#1082110000000000", " rpdo" },
        { "205#0102030405 = 085#2082110000000000", " rpdo" },
        { "080#01 = 085#4082110000000000", " sync" },
        { "205#01020304", " rpdo" },
        { "clear 11 = 085#0000000000000000", "-" },
        { "write 2003:00 1E8", "-" },
        { "000#0205", " state 4" },
        { "080#", "-" },
        /* not for this node */
        { "000#8106", "-" },
        { "000#8105 = 705#00", " node state 127" },
        { "000#8200 = 705#00", " communication state 127" },
        /* the heartbeat of node 7, which is lost after 100 ms, and that of node 8, after 50 ms */
        { "605#2316100164000700 = 585#6016100100000000", "-" },
        { "605#2316100232000800 = 585#6016100200000000", "-" },
        { "000#0105", " state 5" },
        { "707#05", "-" },
        { "708#05", "-" },
        { "ticks 49", "-" },
        { "ticks 1 = 085#3081110000000000", " heartbeat state 127 lost 8 silent 8" },
        { "ticks 50 = 085#3081110000000000", " heartbeat lost 7 silent 7 silent 8" },
        { "708#05", " heartbeat silent 7 back 8" },
        { "708#05", "-" },
        /* it stays lost past a reset */
        { "000#8200 = 705#00", " communication state 127 silent 7" },
        { "707#05", " heartbeat back 7" },
        /* bus-off leaves operational */
        { "000#0105", " state 5" },
        { "bus 2", " state 127" },
        { NULL, NULL }
    };
    size_t i;
    bafokun_node node = BAFOKUN_EMPTY;
    bafokun_fault fault;
    bafokun_events events;
    bafokun_frame frame;
    uint32_t elapsed;
    check(bafokun_build(&node, sheet, strlen(sheet), 5, &config, &fault), "happened", "build");
    check(did_happen(&node, "-"), "happened", "nothing at first");
    for (i = 0; lines[i][0]; i++) check(run_line(&node, lines[i][0]) && did_happen(&node, lines[i][1]), "happened", lines[i][0]);
    /* several inputs */
    check(run_line(&node, "000#0105") && run_line(&node, "080#") && run_line(&node, "205#01020304"), "happened", "several inputs");
    check(run_line(&node, "000#8105 = 705#00"), "happened", "and a reset");
    check(did_happen(&node, " node sync rpdo state 127") && did_happen(&node, "-"), "happened", "all of them, once");
    /* several ticks */
    check(run_line(&node, "605#2316100164000900 = 585#6016100100000000") && run_line(&node, "709#7F"), "happened", "node 9");
    check(bafokun_ticks(&node, 200, &elapsed, &frame, 1) == 1 && elapsed == 100, "happened", "its heartbeat is lost");
    check(run_line(&node, "709#7F") && did_happen(&node, " heartbeat lost 9 back 9"), "happened", "and is back");
    bafokun_free(&node);
    check(did_happen(&node, "-"), "happened", "nothing of an empty place");
    events.state = 77;
    check(!bafokun_happened(&node, &events) && events.state == 77, "happened", "which writes nothing");
}

/* The words of the faults and abort codes: none is too long for the array, and an array with less room has a 0 at its end. */
static void test_texts(void)
{
    bafokun_fault fault = { 59, BAFOKUN_FAULT_SHEET, 9, 0, 0 };
    char text[128], few[6];
    int stage, number;
    memset(text, '#', sizeof text);
    check(bafokun_abort_text(0x06020000, text, sizeof text) == 14, "texts", "length");
    check(memcmp(text, "no such object\0#", 16) == 0, "texts", "no such object");
    check(bafokun_abort_text(0x06020001, text, sizeof text) == 0 && text[0] == 0 && text[1] == 'o', "texts", "no abort code");
    memset(few, '#', sizeof few);
    check(bafokun_abort_text(0x06020000, few, 5) == 14 && memcmp(few, "no s\0#", 6) == 0, "texts", "room for four");
    check(bafokun_abort_text(0x06020000, few, 1) == 14 && memcmp(few, "\0o s\0#", 6) == 0, "texts", "room for the 0");
    check(bafokun_abort_text(0x06020000, few + 1, 0) == 14 && few[1] == 'o', "texts", "no room");
    check(bafokun_fault_text(&fault, text, sizeof text) < sizeof text, "texts", "BadList");
    check(strcmp(text, "SupportedObjects and the keys don't agree, or an index is above 0xFFFF") == 0, "texts", text);
    check(bafokun_fault_fix(&fault, text, sizeof text) < sizeof text, "texts", "BadList is fixed");
    check(strcmp(text, "number the keys 1, 2, 3 without a gap or leading zeros, and count them") == 0, "texts", text);
    fault.number = 6;
    bafokun_fault_text(&fault, text, sizeof text);
    check(strcmp(text, "the listed object has no section") == 0, "texts", text);
    fault.line = 0;
    bafokun_fault_text(&fault, text, sizeof text);
    check(strcmp(text, "there is no section [MandatoryObjects]") == 0, "texts", text);
    bafokun_fault_fix(&fault, text, sizeof text);
    check(strcmp(text, "add it, with 1000h, 1001h and 1018h") == 0, "texts", text);
    for (stage = 0; stage <= 3; stage++)
        for (number = 0; number <= 21; number++) {
            size_t is_fault = (stage == BAFOKUN_FAULT_SHEET && number >= 1 && number <= 20)
                || (stage == BAFOKUN_FAULT_DEVICE && number >= 1 && number <= 7);
            fault.stage = (uint16_t)stage;
            fault.number = (uint16_t)number;
            check((bafokun_fault_text(&fault, text, sizeof text) > 0) == is_fault && strlen(text) < 127, "texts", text);
            check((bafokun_fault_fix(&fault, text, sizeof text) > 0) == is_fault && strlen(text) < 127, "texts", text);
        }
}

static void test_empty_place(void)
{
    bafokun_node node = BAFOKUN_EMPTY;
    bafokun_frame frame = { 0, 0, { 0 } };
    const uint8_t none[5] = { 0, 0, 0, 0, 0 };
    bafokun_fault fault;
    uint8_t byte = 0;
    char text[2] = { '#', '#' };
    size_t length = 0;
    uint32_t code = 1;
    check(bafokun_boot(&node, &frame, 1) == 0, "empty", "boot");
    check(bafokun_tick(&node, &frame, 1) == 0, "empty", "tick");
    check(bafokun_take(&node, &frame, &frame + 1, 0) == 0, "empty", "take");
    check(bafokun_write(&node, 0x2001, 0, &byte, 1, &frame, 1) == 0, "empty", "write");
    check(bafokun_event(&node, 0, &frame, 1) == 0, "empty", "event");
    check(bafokun_changed(&node, 0x2001, 0, &frame, 1) == 0, "empty", "changed");
    check(bafokun_raise(&node, 0x1000, 1, none, &frame, 1) == 0, "empty", "raise");
    check(bafokun_clear(&node, 1, &frame, 1) == 0, "empty", "clear");
    check(bafokun_bus(&node, BAFOKUN_BUS_OFF, &frame, 1) == 0, "empty", "bus");
    check(bafokun_sent(&node, 0, &frame, 1) == 0, "empty", "sent");
    check(!bafokun_value(&node, 0x1000, 0, &byte, 1, &length), "empty", "value");
    check(bafokun_answer(&node, &code) == BAFOKUN_NO_EVENT && code == 0, "empty", "answer");
    check(bafokun_state(&node) == 0 && bafokun_node_id(&node) == 0 && bafokun_held(&node, 0) == 0, "empty", "questions");
    check(bafokun_entry_name(&node, 0, text, sizeof text) == 0 && text[0] == 0 && text[1] == '#', "empty", "name");
    /* a build that fails has freed the device before */
    check(bafokun_build(&node, sheet, strlen(sheet), 5, &config, &fault) && is_fault(&fault, 0, 0, 0, 0, 0), "empty", "build");
    check(!bafokun_build(&node, "", 0, 5, &config, &fault) && node.built == 0, "empty", "build of nothing");
    check(bafokun_state(&node) == 0, "empty", "no device is left");
    bafokun_free(&node);
    check(node.built == 0, "empty", "free");
}

/* Each allocation of the build refused in turn: the answer is that memory is out, and the next build is right. */
static void test_refused_memory(void)
{
    unsigned long number;
    bool built = false;
    for (number = 1; !built && number < 100000; number++) {
        bafokun_node node = BAFOKUN_EMPTY;
        bafokun_fault fault;
        asked = 0;
        refused = number;
        built = bafokun_build(&node, sheet, strlen(sheet), 5, &config, &fault);
        refused = 0;
        if (!built && !is_fault(&fault, 0, BAFOKUN_FAULT_SHEET, BAFOKUN_SHEET_MEMORY, 0, 0)
            && !is_fault(&fault, 0, BAFOKUN_FAULT_DEVICE, BAFOKUN_DEVICE_MEMORY, 0, 0)) {
            check(false, "memory", "a wrong fault");
            return;
        }
        bafokun_free(&node);
    }
    check(built && number > 2, "memory", "each allocation refused");
}

int main(int argc, char **argv)
{
    char *module;
    if (argc != 3) return 2;
    sheet = read_file(argv[1]);
    module = read_file(argv[2]);
    check(sizeof(bafokun_frame) == 12, "layout", "frame");
    check(sizeof(bafokun_config) == 6, "layout", "config");
    check(sizeof(bafokun_fault) == 16, "layout", "fault");
    check(sizeof(bafokun_entry_info) == 8 + 2 * sizeof(size_t), "layout", "entry");
    check(sizeof(bafokun_events) == 390, "layout", "events");
    check(bafokun_version() == BAFOKUN_VERSION_NUMBER, "version", "that of the header");
    run("boot-up", "", boot_up);
    run("expedited upload", "", expedited_upload);
    run("segmented download", "", segmented_download);
    run("RPDOs", "", rpdos);
    run("every third SYNC", "1800sub2=3", every_third_sync);
    run("event at SYNC", "1800sub2=0", event_at_sync);
    run("lost heartbeat", "", lost_heartbeat);
    run("SYNC length and reset", "", sync_and_reset);
    run("application", "", application);
    run("bus", "", bus);
    run("bus and other errors", "", bus_and_others);
    run("nine errors", "", nine_errors);
    run("without effect", "1800sub2=3", without_effect);
    run("idle", "", idle);
    run("idle, an event timer", "1800sub5=50", idle_event_timer);
    run("idle, an inhibit time", "1800sub3=1000", idle_inhibit_time);
    run("idle, a synchronous TPDO", "1800sub2=0 1800sub5=50", idle_synchronous);
    run("idle, emergencies", "1015=500", idle_emergencies);
    test_faults();
    test_reset();
    test_small_arrays();
    test_ticks();
    test_entries();
    test_numbers();
    test_changes();
    test_changes_at_sync(module);
    test_happened();
    test_texts();
    test_empty_place();
    test_refused_memory();
    free(sheet);
    free(module);
    printf("%u passed, %u failed\n", passed, failed);
    return failed != 0;
}
