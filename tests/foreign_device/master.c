/* The master of the session: it reads and writes entries in every protocol, commands, sends SYNC, PDOs and heartbeats,
   and sometimes errs. */
#include "foreign.h"

#include <string.h>

enum kind { PAUSE, READ, WRITE, SEGMENT_WRITE, BLOCK_READ, BLOCK_WRITE, COMMAND, POWER, ODD_FRAME };
enum flaw { NO_FLAW, WRONG_TOGGLE, ABORTS, LEAVES, UNKNOWN_SPECIFIER, OVERTAKES, WRONG_CRC, LOSES_SEGMENT, FLAWS };
enum phase {
    READY, UPLOAD, UPLOAD_SEGMENT, DOWNLOAD, DOWNLOAD_SEGMENT, BLOCK_UPLOAD, BLOCK_UPLOAD_DATA, BLOCK_DOWNLOAD,
    BLOCK_DOWNLOAD_DATA, BLOCK_DOWNLOAD_END
};

#define TASKS 64
#define CLIENT_TIMEOUT (2500 * MILLISECOND)

struct task {
    enum kind kind;
    uint16_t index;
    uint8_t sub;
    uint32_t size;
    uint32_t number;
    bool indicated;
    micros pause;
};

static uint8_t node;
static struct task tasks[TASKS];
static size_t task_count;
static micros next_task, deadline, next_sync, next_heartbeat, next_rpdo, next_stranger;
static micros sync_period, heartbeat_period, rpdo_period;
static struct {
    enum phase phase;
    enum flaw flaw;
    struct task task;
    uint8_t data[ROOM];
    uint32_t place, begin;
    bool toggle, crc, ended;
    uint8_t number, block_size;
} to;

void master_begin(uint8_t node_id)
{
    node = node_id;
    next_task = 40 * MILLISECOND;
    deadline = next_sync = next_heartbeat = next_rpdo = NEVER;
    next_stranger = 13 * MILLISECOND;
}

/* ---- tasks */

static void plan(struct task task)
{
    if (task_count < TASKS) tasks[task_count++] = task;
}

static void plan_write(uint16_t index, uint8_t sub, uint32_t number, uint32_t size)
{
    plan((struct task){.kind = WRITE, .index = index, .sub = sub, .number = number, .size = size, .indicated = true,
        .pause = 4 * MILLISECOND});
}

static void plan_command(uint8_t command, micros pause)
{
    plan((struct task){.kind = COMMAND, .number = command, .pause = pause});
}

/* The procedure by which a TPDO is mapped (CiA 301, 7.5.2.36): invalid, no entry, entries, their number, valid. */
static void plan_tpdo(void)
{
    static const uint32_t objects[] = {
        0x60000108, 0x60000208, 0x64010110, 0x64010210, 0x64010310, 0x20000010, 0x10010008
    };
    static const uint32_t types[] = {0, 1, 2, 5, 240, 254, 255, 255};
    unsigned at = dice(2), count = 1 + dice(4);
    uint16_t index = (uint16_t)(0x1800 + at);
    uint32_t cob = (at ? 0x40000280u : 0x40000180u) + node;
    plan_write(index, 1, cob | 0x80000000u, 4);
    if (dice(3)) {
        plan_write((uint16_t)(index + 0x200), 0, 0, 1);
        for (unsigned place = 1; place <= count; place++)
            plan_write((uint16_t)(index + 0x200), (uint8_t)place, objects[dice(7)], 4);
        plan_write((uint16_t)(index + 0x200), 0, count, 1);
    }
    if (dice(2)) plan_write(index, 2, types[dice(8)], 1);
    if (dice(2)) plan_write(index, 3, dice(2) ? dice(5000) : 0, 2);
    if (dice(2)) plan_write(index, 5, dice(2) ? 20 + dice(3000) : 0, 2);
    if (dice(8)) plan_write(index, 1, cob, 4);
}

/* Any entry, or one that isn't there, with any number of bytes. */
static struct task any_transfer(void)
{
    const struct entry *entry = &entries[dice((unsigned)entry_count)];
    struct task task = {.kind = READ, .index = entry->index, .sub = entry->sub, .indicated = dice(3) != 0};
    unsigned kind = dice(20);
    if (kind >= 8) task.kind = kind < 13 ? WRITE : kind < 16 ? SEGMENT_WRITE : kind < 18 ? BLOCK_READ : BLOCK_WRITE;
    if (dice(25) == 0) task.sub = (uint8_t)(task.sub + 7);
    if (dice(25) == 0) task.index = (uint16_t)(0x3000 + dice(100));
    task.size = width_of(entry);
    if (entry->type == STRING) task.size = task.kind == WRITE ? 1 + dice(4) : 1 + dice(60);
    if (task.size == 0 || dice(12) == 0) task.size = 1 + dice(8);
    if (task.kind == WRITE && task.size > 4) task.size = 4;
    task.number = dice(3) ? dice(120) : dice(0x10000) << 4;
    if (entry->index == 0x1017) task.number = dice(4) ? 30 + dice(1500) : 0;
    if (entry->index == 0x1015) task.number = dice(2) ? 200 + dice(9000) : 0;
    if (entry->index == 0x1016) task.number = dice(2) ? 0x10000u + 600 + dice(900) : 0;
    if (entry->index == 0x1029) task.number = dice(4);
    if (entry->index == 0x1014) task.number = dice(2) ? 0x80u + node : 0x80000080u + node;
    if (entry->index >= 0x1400 && entry->index < 0x1C00 && entry->sub == 1 && dice(4)) task.kind = READ;
    task.pause = (2 + dice(dice(6) ? 300 : 2500)) * (micros)MILLISECOND;
    return task;
}

static void plan_more(void)
{
    unsigned choice = dice(100);
    if (choice < 74) plan(any_transfer());
    else if (choice < 78 && has_index(0x1800)) plan_tpdo();
    else if (choice < 84) plan_command(1, dice(900) * MILLISECOND);
    else if (choice < 86) plan_command(2, dice(2500) * MILLISECOND);
    else if (choice < 88) plan_command(0x80, dice(900) * MILLISECOND);
    else if (choice < 90) plan_command(choice & 1 ? 0x81 : 0x82, dice(8) ? 6 * SECOND : dice(400) * MILLISECOND);
    else if (choice < 92) plan((struct task){.kind = ODD_FRAME, .pause = 900 * MILLISECOND});
    else if (choice < 93) plan((struct task){.kind = PAUSE, .pause = dice(14) * SECOND});
    else if (choice < 94 && dice(4) == 0) {
        plan((struct task){.kind = POWER, .number = 0, .pause = (2 + dice(8)) * SECOND});
        plan((struct task){.kind = POWER, .number = 1, .pause = 6 * SECOND});
    } else if (choice < 96) plan_write(0x1017, 0, 30 + dice(1200), 2);
    else if (choice < 98) sync_period = dice(3) ? (10 + dice(190)) * (micros)MILLISECOND : NEVER;
    else if (choice < 99) heartbeat_period = dice(2) ? 500 * (micros)MILLISECOND : NEVER;
    else rpdo_period = dice(2) ? (5 + dice(400)) * (micros)MILLISECOND : NEVER;
}

/* ---- frames */

static void send_request(micros now, const uint8_t data[8], uint8_t length)
{
    struct frame frame = {.id = (uint16_t)(0x600 + node), .length = length};
    memcpy(frame.data, data, 8);
    send_frame(false, now, &frame);
    deadline = now + CLIENT_TIMEOUT;
}

static void request(micros now, uint8_t command, uint32_t number)
{
    const uint8_t data[8] = {command, (uint8_t)to.task.index, (uint8_t)(to.task.index >> 8), to.task.sub,
        (uint8_t)number, (uint8_t)(number >> 8), (uint8_t)(number >> 16), (uint8_t)(number >> 24)};
    send_request(now, data, 8);
}

static void finish(micros now)
{
    to.phase = READY;
    deadline = NEVER;
    next_task = now + to.task.pause;
}

static void abort_transfer(micros now, uint32_t code)
{
    request(now, 0x80, code);
    finish(now);
}

/* Whether this is the place where the transfer is to go wrong. */
static bool flawed(enum flaw flaw)
{
    if (to.flaw != flaw || dice(2)) return false;
    to.flaw = NO_FLAW;
    return true;
}

static uint16_t crc_of(const uint8_t *data, uint32_t size)
{
    uint16_t crc = 0;
    for (uint32_t place = 0; place < size; place++)
        for (int bit = 7; bit >= 0; bit--) {
            bool feeds = (crc >> 15) != (data[place] >> bit & 1);
            crc = (uint16_t)(crc << 1 ^ (feeds ? 0x1021 : 0));
        }
    return crc;
}

static void begin_transfer(micros now)
{
    const struct task *task = &to.task;
    to.flaw = dice(14) ? NO_FLAW : 1 + dice(FLAWS - 1);
    to.place = to.begin = 0;
    to.toggle = false;
    for (uint32_t place = 0; place < task->size; place++)
        to.data[place] = task->size > 4 ? (uint8_t)('a' + dice(26)) : (uint8_t)(task->number >> (8 * place));
    to.block_size = (uint8_t)(1 + dice(dice(2) ? 127 : 9));
    switch (task->kind) {
    case READ:
        to.phase = UPLOAD;
        request(now, 0x40, 0);
        break;
    case WRITE:
        to.phase = DOWNLOAD;
        request(now, task->indicated ? (uint8_t)(0x23 | (4 - task->size) << 2) : 0x22, task->number);
        break;
    case SEGMENT_WRITE:
        to.phase = DOWNLOAD;
        request(now, task->indicated ? 0x21 : 0x20, task->indicated ? task->size : 0);
        break;
    case BLOCK_READ:
        to.phase = BLOCK_UPLOAD;
        request(now, 0xA4, to.block_size | (uint32_t)(dice(2) ? 0 : dice(40)) << 8);
        break;
    default:
        to.phase = BLOCK_DOWNLOAD;
        request(now, task->indicated ? 0xC6 : 0xC4, task->indicated ? task->size : 0);
        break;
    }
    if (flawed(OVERTAKES)) {
        finish(now);
        next_task = now + dice(5) * MILLISECOND;
    }
}

static void send_segment(micros now)
{
    uint32_t count = to.task.size - to.place < 7 ? to.task.size - to.place : 7;
    uint8_t data[8] = {(uint8_t)((to.toggle != flawed(WRONG_TOGGLE) ? 0x10 : 0) | (7 - count) << 1)};
    if (flawed(ABORTS)) { abort_transfer(now, 0x08000000); return; }
    if (flawed(LEAVES)) { finish(now); next_task = now + 4 * SECOND; return; }
    if (flawed(UNKNOWN_SPECIFIER)) data[0] |= 0xE0;
    memcpy(data + 1, to.data + to.place, count);
    to.place += count;
    to.ended = to.place == to.task.size;
    if (to.ended) data[0] |= 1;
    to.toggle = !to.toggle;
    to.phase = DOWNLOAD_SEGMENT;
    send_request(now, data, 8);
}

static void ask_segment(micros now)
{
    const uint8_t data[8] = {(uint8_t)(0x60 | (to.toggle != flawed(WRONG_TOGGLE) ? 0x10 : 0))};
    if (flawed(ABORTS)) { abort_transfer(now, 0x08000000); return; }
    if (flawed(LEAVES)) { finish(now); next_task = now + 4 * SECOND; return; }
    to.toggle = !to.toggle;
    to.phase = UPLOAD_SEGMENT;
    send_request(now, data, 8);
}

static void send_block(micros now)
{
    uint32_t place = to.begin;
    uint8_t number = 0;
    do {
        uint32_t count = to.task.size - place < 7 ? to.task.size - place : 7;
        uint8_t data[8] = {++number};
        memcpy(data + 1, to.data + place, count);
        place += count;
        if (place == to.task.size) data[0] |= 0x80;
        if (!flawed(LOSES_SEGMENT) || place == to.task.size || number == to.block_size)
            send_request(now + number * (micros)300, data, 8);
    } while (place < to.task.size && number < to.block_size);
    to.number = number;
    to.phase = BLOCK_DOWNLOAD_DATA;
}

static void block_taken(micros now, const uint8_t *data)
{
    uint32_t sent = to.begin + 7u * data[1];
    if (data[1] > to.number || data[2] < 1 || data[2] > 127) { abort_transfer(now, 0x05040003); return; }
    if (data[1] == to.number && sent >= to.task.size) {
        uint16_t crc = to.crc ? (uint16_t)(crc_of(to.data, to.task.size) ^ (flawed(WRONG_CRC) ? 1 : 0)) : 0;
        const uint8_t end[8] = {(uint8_t)(0xC1 | (sent - to.task.size) << 2), (uint8_t)crc, (uint8_t)(crc >> 8)};
        to.phase = BLOCK_DOWNLOAD_END;
        send_request(now, end, 8);
        return;
    }
    to.begin = sent;
    to.block_size = data[2];
    send_block(now);
}

static void take_block_segment(micros now, const uint8_t *data)
{
    uint8_t number = data[0] & 0x7F;
    if (number == to.number + 1) {
        to.number = number;
        to.ended = data[0] & 0x80;
    }
    if (number != to.block_size && !(data[0] & 0x80)) return;
    if (flawed(LOSES_SEGMENT) && to.number > 1) {
        to.number = (uint8_t)(to.number - 1);
        to.ended = false;
    }
    to.block_size = (uint8_t)(1 + dice(40));
    const uint8_t reply[8] = {0xA2, to.number, to.block_size};
    if (flawed(LEAVES)) { finish(now); next_task = now + 4 * SECOND; return; }
    to.number = 0;
    send_request(now, reply, 8);
}

static void uploaded(micros now, const uint8_t *data)
{
    if (data[0] & 2) finish(now);
    else ask_segment(now);
}

static void take_answer(micros now, const uint8_t *data)
{
    unsigned command = data[0] >> 5;
    bool is_segment = to.phase == BLOCK_UPLOAD_DATA && !(to.ended && command == 6);
    if (data[0] == 0x80) finish(now);
    else if (is_segment) take_block_segment(now, data);
    else if ((to.phase == UPLOAD || to.phase == BLOCK_UPLOAD) && command == 2) uploaded(now, data);
    else if (to.phase == UPLOAD_SEGMENT && command == 0) { if (data[0] & 1) finish(now); else ask_segment(now); }
    else if (to.phase == DOWNLOAD && command == 3) { if (to.task.kind == WRITE) finish(now); else send_segment(now); }
    else if (to.phase == DOWNLOAD_SEGMENT && command == 1) { if (to.ended) finish(now); else send_segment(now); }
    else if (to.phase == BLOCK_UPLOAD && command == 6) {
        const uint8_t start[8] = {0xA3};
        to.phase = BLOCK_UPLOAD_DATA;
        to.number = 0;
        to.ended = false;
        send_request(now, start, 8);
    } else if (to.phase == BLOCK_UPLOAD_DATA && command == 6) {
        const uint8_t end[8] = {0xA1};
        send_request(now, end, 8);
        finish(now);
    } else if (to.phase == BLOCK_DOWNLOAD && command == 5) {
        to.crc = data[0] & 4;
        to.block_size = data[4];
        send_block(now);
    } else if (to.phase == BLOCK_DOWNLOAD_DATA && command == 5 && (data[0] & 3) == 2) block_taken(now, data);
    else if (to.phase == BLOCK_DOWNLOAD_END && command == 5) finish(now);
    else if (to.phase != READY && dice(2)) abort_transfer(now, 0x05040001);
}

void master_receive(micros now, const struct frame *frame)
{
    if (frame->id == 0x580 + node && frame->length == 8 && to.phase != READY)
        take_answer(now + 100 + dice(1500), frame->data);
    if (frame->id == 0x700 + node && frame->length == 1 && frame->data[0] == 0 && to.phase == READY && dice(4)) {
        task_count = 0;
        if (dice(3)) plan_write(0x1017, 0, 100 + dice(1000), 2);
        if (has_index(0x1800) && dice(2)) plan_tpdo();
        if (dice(5)) plan_command(1, 50 * MILLISECOND);
        next_task = now + (1 + dice(200)) * (micros)MILLISECOND;
    }
}

/* ---- time */

static void do_task(micros now)
{
    struct frame frame = {.id = 0, .length = 2, .data = {0, dice(4) ? node : 0}};
    if (task_count == 0) plan_more();
    if (task_count == 0) { next_task = now + 50 * MILLISECOND; return; }
    to.task = tasks[0];
    memmove(tasks, tasks + 1, --task_count * sizeof *tasks);
    next_task = now + to.task.pause;
    switch (to.task.kind) {
    case PAUSE: break;
    case POWER: device_power(now, to.task.number == 1); break;
    case COMMAND:
        frame.data[0] = (uint8_t)to.task.number;
        send_frame(false, now, &frame);
        break;
    case ODD_FRAME:
        frame.id = (uint16_t)(0x600 + node);
        frame.length = (uint8_t)(dice(2) ? 8 : dice(8));
        for (size_t place = 0; place < frame.length; place++) frame.data[place] = (uint8_t)dice(256);
        send_frame(false, now, &frame);
        break;
    default: begin_transfer(now); break;
    }
}

static void send_plain(micros now, uint16_t id, uint8_t length)
{
    struct frame frame = {.id = id, .length = length};
    for (size_t place = 0; place < length; place++) frame.data[place] = (uint8_t)dice(100);
    if (id == 0x701) frame.data[0] = 5;
    send_frame(false, now, &frame);
}

/* Sends what is due of something that goes out in a period; NEVER: not at all. */
static bool comes(micros now, micros *next, micros period)
{
    if (period == 0 || period == NEVER) { *next = NEVER; return false; }
    if (*next == NEVER || now < *next) { if (*next == NEVER) *next = now + period; return false; }
    *next += period;
    return true;
}

void master_tick(micros now)
{
    if (to.phase != READY && now >= deadline) { if (dice(3)) abort_transfer(now, 0x05040000); else finish(now); }
    if (to.phase == READY && now >= next_task) do_task(now);
    if (comes(now, &next_sync, sync_period)) send_plain(now, 0x80, 0);
    if (comes(now, &next_heartbeat, heartbeat_period)) send_plain(now, 0x701, 1);
    if (comes(now, &next_rpdo, rpdo_period)) {
        uint16_t id = (uint16_t)((dice(2) ? 0x200 : 0x300) + node);
        send_plain(now, id, (uint8_t)dice(9));
    }
    if (comes(now, &next_stranger, 730 * MILLISECOND)) send_plain(now, dice(2) ? 0x189 : 0x709, 1);
}

micros master_due(void)
{
    micros due = to.phase == READY ? next_task : deadline;
    if (next_sync < due) due = next_sync;
    if (next_heartbeat < due) due = next_heartbeat;
    if (next_rpdo < due) due = next_rpdo;
    return next_stranger < due ? next_stranger : due;
}
