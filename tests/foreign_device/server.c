/* The SDO server (CiA 301, 7.2.4): expedited, segmented and block transfers in both directions. */
#include "foreign.h"

#include <string.h>

enum stage {
    IDLE, SEGMENTED_DOWNLOAD, SEGMENTED_UPLOAD, BLOCK_DOWNLOAD, BLOCK_DOWNLOAD_END, BLOCK_UPLOAD_START, BLOCK_UPLOAD,
    BLOCK_UPLOAD_END
};

#define TOGGLE_NOT_ALTERNATED 0x05030000u
#define TIMED_OUT 0x05040000u
#define SPECIFIER_UNKNOWN 0x05040001u
#define BLOCK_SIZE_INVALID 0x05040002u
#define CRC_ERROR 0x05040004u
#define WRITE_ONLY 0x06010001u
#define READ_ONLY 0x06010002u
#define OBJECT_MISSING 0x06020000u
#define LENGTH_DIFFERS 0x06070010u
#define LENGTH_TOO_HIGH 0x06070012u
#define LENGTH_TOO_LOW 0x06070013u
#define SUB_INDEX_MISSING 0x06090011u

static struct {
    enum stage stage;
    struct entry *entry;
    uint8_t key[3];
    uint8_t data[ROOM];
    uint32_t size, place;
    bool indicated, toggle, crc, ended;
    uint8_t block_size, acknowledged, unused;
    uint32_t block_begin;
    micros newest;
    micros answered;
} at;

void server_reset(void)
{
    at.stage = IDLE;
    at.answered = 0;
}

static uint16_t crc_of(const uint8_t *data, uint32_t size)
{
    uint16_t crc = 0;
    for (uint32_t place = 0; place < size; place++) {
        crc ^= (uint16_t)(data[place] << 8);
        for (int bit = 0; bit < 8; bit++) crc = (uint16_t)(crc & 0x8000 ? (crc << 1) ^ 0x1021 : crc << 1);
    }
    return crc;
}

/* Answers go out in their order, a while after the request. */
static void send(micros now, uint8_t node, const uint8_t data[8])
{
    struct frame frame = {.id = (uint16_t)(0x580 + node), .length = 8};
    micros delay = 150 + dice(choices.answer_delay);
    if (dice(100) < choices.slow_answers) delay += dice(700) * MILLISECOND;
    if (errs(ANSWER_SLOW)) delay += 1500 * MILLISECOND;
    if (at.stage == BLOCK_UPLOAD) delay = 200;
    micros ready = now + span(delay);
    if (ready <= at.answered) ready = at.answered + 120;
    at.answered = ready;
    memcpy(frame.data, data, 8);
    if (at.stage != BLOCK_UPLOAD && errs(ANSWER_MISSING)) return;
    send_frame(true, ready, &frame);
    if (at.stage != BLOCK_UPLOAD && errs(ANSWER_TWICE)) send_frame(true, ready + 400, &frame);
}

static void put_number(uint8_t *bytes, uint32_t number)
{
    for (unsigned place = 0; place < 4; place++) bytes[place] = (uint8_t)(number >> (8 * place));
}

static uint32_t number_of(const uint8_t *bytes)
{
    return (uint32_t)(bytes[0] | bytes[1] << 8 | bytes[2] << 16) | (uint32_t)bytes[3] << 24;
}

static void answer(micros now, uint8_t node, uint8_t command, uint32_t number)
{
    uint8_t data[8] = {command, at.key[0], at.key[1], at.key[2]};
    put_number(data + 4, number);
    if (errs(ANSWER_MULTIPLEXER)) data[3] ^= 1;
    send(now, node, data);
}

static void refuse(micros now, uint8_t node, uint32_t code)
{
    uint8_t data[8] = {0x80, at.key[0], at.key[1], at.key[2]};
    put_number(data + 4, code);
    if (errs(ABORT_MULTIPLEXER)) data[1] ^= 2;
    at.stage = IDLE;
    send(now, node, data);
}

/* Another maker has one code for several reasons. */
static uint32_t general(uint32_t code)
{
    if (!choices.general_codes) return code;
    if (code == READ_ONLY) return 0x06010000;
    if (code == LENGTH_TOO_HIGH || code == LENGTH_TOO_LOW) return LENGTH_DIFFERS;
    if (code == 0x06090031 || code == 0x06090032) return 0x06090030;
    return code;
}

/* The entry of an initiate request, or why it is refused. */
static uint32_t choose_entry(const uint8_t *data, bool writes)
{
    uint16_t index = (uint16_t)(data[1] | data[2] << 8);
    memcpy(at.key, data + 1, 3);
    at.entry = find_entry(index, data[3]);
    if (at.entry == NULL) return has_index(index) ? SUB_INDEX_MISSING : OBJECT_MISSING;
    if (!writes && errs(READ_REFUSED)) return WRITE_ONLY;
    if (writes && at.entry->access != RW && !errs(READ_ONLY_WRITTEN)) return READ_ONLY;
    if (index == 0x1003 && data[3] > number_in(0x1003, 0)) return dice(2) ? SUB_INDEX_MISSING : 0x08000024;
    return 0;
}

/* ---- values */

static uint32_t length_refused(uint32_t size)
{
    uint32_t width = width_of(at.entry);
    if (width == 0) return size > 300 ? LENGTH_TOO_HIGH : 0;
    return size > width ? LENGTH_TOO_HIGH : size < width ? LENGTH_TOO_LOW : 0;
}

/* Takes the bytes that were downloaded; gives why they are refused, or 0. */
static uint32_t write_value(micros now, const uint8_t *data, uint32_t size)
{
    struct entry *entry = at.entry;
    uint32_t number = 0;
    uint32_t code = length_refused(size);
    if (code != 0) return code;
    if (width_of(entry) > 0) {
        for (uint32_t place = 0; place < size; place++) number |= (uint32_t)data[place] << (8 * place);
        int64_t value = entry->type == INTEGER16 ? (int16_t)number : (int64_t)number;
        if (entry->limited && !errs(LIMITS_IGNORED)) {
            if (value > entry->high) return 0x06090031;
            if (value < entry->low) return 0x06090032;
        }
        code = entry_refused(now, entry, number);
        if (code != 0) return code;
    }
    if (errs(WRITE_FORGOTTEN)) return 0;
    memcpy(entry->value, data, size);
    entry->size = size;
    entry_written(now, entry);
    return 0;
}

static void read_value(void)
{
    memcpy(at.data, at.entry->value, at.entry->size);
    at.size = at.entry->size;
    if (at.entry->index < 0x1019 && at.size == 4 && errs(VALUE_CONST)) at.data[0] ^= 0x10;
}

/* ---- initiate */

static void upload(micros now, uint8_t node)
{
    uint32_t number = 0;
    read_value();
    for (uint32_t place = 0; place < at.size && place < 4; place++) number |= (uint32_t)at.data[place] << (8 * place);
    if (errs(ANSWER_SPECIFIER)) {
        answer(now, node, 0x60, 0);
        at.stage = IDLE;
    } else if (at.size >= 1 && at.size <= 4 && dice(100) >= choices.small_in_segments) {
        uint32_t unused = 4 - at.size;
        if (unused > 0 && width_of(at.entry) > 0 && errs(VALUE_SIZE)) unused--;
        bool indicated = width_of(at.entry) == 0 || dice(100) >= choices.expedited_without_size;
        at.stage = IDLE;
        answer(now, node, indicated ? (uint8_t)(0x43 | unused << 2) : 0x42, number);
    } else {
        at.indicated = dice(100) >= choices.size_left_out;
        at.stage = SEGMENTED_UPLOAD;
        at.place = 0;
        at.toggle = false;
        answer(now, node, at.indicated ? 0x41 : 0x40, at.indicated ? at.size + (errs(SIZE_WRONG) ? 1 : 0) : 0);
    }
}

static void download(micros now, uint8_t node, const uint8_t *data)
{
    uint32_t width = width_of(at.entry);
    if (data[0] & 2) {
        uint32_t size = data[0] & 1 ? 4u - (data[0] >> 2 & 3) : width > 0 ? width : 4;
        uint32_t code = write_value(now, data + 4, size);
        if (code != 0) { refuse(now, node, general(code)); return; }
        at.stage = IDLE;
        answer(now, node, 0x60, 0);
        return;
    }
    at.indicated = data[0] & 1;
    at.size = at.indicated ? number_of(data + 4) : 0;
    if (at.indicated && length_refused(at.size) != 0) {
        refuse(now, node, general(length_refused(at.size)));
        return;
    }
    at.place = 0;
    at.toggle = false;
    at.stage = SEGMENTED_DOWNLOAD;
    answer(now, node, 0x60, 0);
}

static void block_upload(micros now, uint8_t node, const uint8_t *data)
{
    if (data[4] < 1 || data[4] > 127) { refuse(now, node, BLOCK_SIZE_INVALID); return; }
    if (choices.switches && data[5] != 0 && at.entry->size <= data[5]) { upload(now, node); return; }
    read_value();
    at.crc = choices.crc && (data[0] & 4);
    at.indicated = dice(100) >= choices.size_left_out;
    at.block_size = data[4];
    at.block_begin = 0;
    at.stage = BLOCK_UPLOAD_START;
    answer(now, node, (uint8_t)(0xC0 | (choices.crc ? 4 : 0) | (at.indicated ? 2 : 0)), at.indicated ? at.size : 0);
}

static void block_download(micros now, uint8_t node, const uint8_t *data)
{
    at.indicated = data[0] & 2;
    at.size = at.indicated ? number_of(data + 4) : 0;
    if (at.indicated && length_refused(at.size) != 0) {
        refuse(now, node, general(length_refused(at.size)));
        return;
    }
    at.crc = choices.crc && (data[0] & 4);
    at.place = 0;
    at.acknowledged = 0;
    at.block_size = choices.block_size;
    at.ended = false;
    at.stage = BLOCK_DOWNLOAD;
    answer(now, node, (uint8_t)(0xA0 | (choices.crc ? 4 : 0)), at.block_size);
}

static bool initiates(const uint8_t *data)
{
    unsigned command = data[0] >> 5;
    return command == 1 || command == 2 || (command == 6 && !(data[0] & 1)) || (command == 5 && (data[0] & 3) == 0);
}

static void initiate(micros now, uint8_t node, const uint8_t *data)
{
    unsigned command = data[0] >> 5;
    bool writes = command == 1 || command == 6;
    uint32_t code = choose_entry(data, writes);
    if (command >= 5 && !choices.blocks) refuse(now, node, SPECIFIER_UNKNOWN);
    else if (code != 0) refuse(now, node, general(code));
    else if (command == 1) download(now, node, data);
    else if (command == 2) upload(now, node);
    else if (command == 6) block_download(now, node, data);
    else block_upload(now, node, data);
}

/* ---- segments */

static void download_segment(micros now, uint8_t node, const uint8_t *data)
{
    uint8_t reply[8] = {(uint8_t)(0x20 | (data[0] & 0x10))};
    uint32_t count = 7u - (data[0] >> 1 & 7);
    if (((data[0] & 0x10) != 0) != at.toggle) { refuse(now, node, TOGGLE_NOT_ALTERNATED); return; }
    if (at.place + count > 300) { refuse(now, node, LENGTH_TOO_HIGH); return; }
    memcpy(at.data + at.place, data + 1, count);
    at.place += count;
    at.toggle = !at.toggle;
    if (data[0] & 1) {
        uint32_t code = at.indicated && at.place != at.size ? LENGTH_DIFFERS : write_value(now, at.data, at.place);
        if (code != 0) { refuse(now, node, general(code)); return; }
        at.stage = IDLE;
    }
    if (errs(TOGGLE_WRONG)) reply[0] ^= 0x10;
    send(now, node, reply);
}

static void upload_segment(micros now, uint8_t node, const uint8_t *data)
{
    uint8_t reply[8] = {0};
    uint32_t most = choices.short_segments ? 1 + dice(7) : 7;
    uint32_t count = at.size - at.place < most ? at.size - at.place : most;
    bool last = at.place + count == at.size;
    if (((data[0] & 0x10) != 0) != at.toggle) { refuse(now, node, TOGGLE_NOT_ALTERNATED); return; }
    memcpy(reply + 1, at.data + at.place, count);
    at.place += count;
    if (at.indicated && last && count > 1 && errs(SEGMENT_SHORT)) count--;
    reply[0] = (uint8_t)((at.toggle ? 0x10 : 0) | (7 - count) << 1 | (last ? 1 : 0));
    if (errs(TOGGLE_WRONG)) reply[0] ^= 0x10;
    at.toggle = !at.toggle;
    if (last) at.stage = IDLE;
    send(now, node, reply);
}

/* ---- blocks */

static void send_block(micros now, uint8_t node)
{
    uint32_t place = at.block_begin;
    uint8_t number = 0;
    at.stage = BLOCK_UPLOAD;
    do {
        uint32_t count = at.size - place < 7 ? at.size - place : 7;
        uint8_t data[8] = {++number};
        if (errs(BLOCK_SEQUENCE)) data[0] ^= 2;
        memcpy(data + 1, at.data + place, count);
        place += count;
        at.ended = place == at.size;
        at.unused = (uint8_t)(7 - count);
        if (at.ended) data[0] |= 0x80;
        send(now, node, data);
    } while (!at.ended && number < at.block_size);
    at.acknowledged = number;
}

static void block_acknowledged(micros now, uint8_t node, const uint8_t *data)
{
    if (data[0] != 0xA2 || data[1] > at.acknowledged) { refuse(now, node, SPECIFIER_UNKNOWN); return; }
    if (data[2] < 1 || data[2] > 127) { refuse(now, node, BLOCK_SIZE_INVALID); return; }
    at.block_size = data[2];
    if (data[1] == at.acknowledged && at.ended) {
        uint16_t crc = at.crc ? (uint16_t)(crc_of(at.data, at.size) ^ (errs(CRC_WRONG) ? 0x8001 : 0)) : 0;
        uint8_t reply[8] = {(uint8_t)(0xC1 | at.unused << 2), (uint8_t)crc, (uint8_t)(crc >> 8)};
        at.stage = BLOCK_UPLOAD_END;
        send(now, node, reply);
    } else {
        at.block_begin += 7u * data[1];
        send_block(now, node);
    }
}

static void block_segment(micros now, uint8_t node, const uint8_t *data)
{
    uint8_t number = data[0] & 0x7F;
    if (number == at.acknowledged + 1) {
        if (at.place + 7 > sizeof at.data) { refuse(now, node, LENGTH_TOO_HIGH); return; }
        memcpy(at.data + at.place, data + 1, 7);
        at.place += 7;
        at.acknowledged = number;
        at.ended = data[0] & 0x80;
    }
    if (number == at.block_size || (data[0] & 0x80)) {
        uint8_t next = (uint8_t)(1 + dice(choices.block_size));
        uint8_t reply[8] = {0xA2, at.acknowledged, next};
        if (at.ended) at.stage = BLOCK_DOWNLOAD_END;
        at.block_size = next;
        at.acknowledged = 0;
        send(now, node, reply);
    }
}

static void block_download_end(micros now, uint8_t node, const uint8_t *data)
{
    uint8_t reply[8] = {0xA1};
    uint32_t unused = data[0] >> 2 & 7, code;
    if ((data[0] & 0xE3) != 0xC1) { refuse(now, node, SPECIFIER_UNKNOWN); return; }
    at.place -= unused;
    if (at.indicated && at.place != at.size) code = LENGTH_DIFFERS;
    else if (at.crc && crc_of(at.data, at.place) != (data[1] | data[2] << 8)) code = CRC_ERROR;
    else code = write_value(now, at.data, at.place);
    if (code != 0) { refuse(now, node, general(code)); return; }
    at.stage = IDLE;
    send(now, node, reply);
}

/* ---- frames and time */

static void go_on(micros now, uint8_t node, const uint8_t *data)
{
    unsigned command = data[0] >> 5;
    if (at.stage == SEGMENTED_DOWNLOAD && command == 0) download_segment(now, node, data);
    else if (at.stage == SEGMENTED_UPLOAD && command == 3) upload_segment(now, node, data);
    else if (at.stage == BLOCK_UPLOAD_START && data[0] == 0xA3) send_block(now, node);
    else if (at.stage == BLOCK_UPLOAD && command == 5) block_acknowledged(now, node, data);
    else if (at.stage == BLOCK_UPLOAD_END && data[0] == 0xA1) at.stage = IDLE;
    else if (at.stage == BLOCK_DOWNLOAD_END) block_download_end(now, node, data);
    else if (at.stage != IDLE) refuse(now, node, SPECIFIER_UNKNOWN);
    else if (!choices.ignores_strays) {
        memcpy(at.key, data + 1, 3);
        refuse(now, node, SPECIFIER_UNKNOWN);
    }
}

void server_receive(micros now, uint8_t node, const struct frame *frame)
{
    if (frame->length != 8) return;
    at.newest = now;
    if (frame->data[0] == 0x80) at.stage = IDLE;
    else if (at.stage == BLOCK_DOWNLOAD) block_segment(now, node, frame->data);
    else if (initiates(frame->data)) initiate(now, node, frame->data);
    else go_on(now, node, frame->data);
}

micros server_due(void)
{
    return at.stage == IDLE || choices.silent_timeouts ? NEVER : at.newest + 3 * SECOND;
}

void server_tick(micros now, uint8_t node)
{
    if (now < server_due()) return;
    if (choices.aborts_timeouts) refuse(now, node, TIMED_OUT);
    at.stage = IDLE;
}
