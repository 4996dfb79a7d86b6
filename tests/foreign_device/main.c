/* foreign-device module|sensor NODE SEED [--seconds N] [--from N] [--ahead N] [--mistake NAME]: an hour's session of the
   device and its master, as `candump -L` writes it. The same words give the same lines. --from leaves out the first
   seconds. With --ahead it sends TPDOs of type 2 to 240 first so many SYNCs earlier. How often it made the mistake is
   said on standard error. */
#include "foreign.h"

#include <stdio.h>
#include <stdlib.h>
#include <string.h>

#define QUEUE 1024
/* of 500 kbit/s */
#define BIT 2

static const char *const mistake_names[MISTAKES] = {
    "heartbeat-late", "heartbeat-state", "heartbeat-no-state", "heartbeat-length", "command-ignored",
    "boot-up-missing", "boot-up-twice",
    "emcy-stopped", "emcy-register", "emcy-length", "emcy-inhibit",
    "answer-missing", "answer-slow", "answer-twice", "answer-multiplexer", "answer-specifier", "answer-stopped",
    "abort-multiplexer",
    "value-size", "value-const", "read-refused", "read-only-written", "limits-ignored", "write-forgotten",
    "toggle-wrong", "segment-short", "size-wrong", "crc-wrong", "block-sequence",
    "tpdo-length", "tpdo-pre-operational", "tpdo-inhibit", "tpdo-without-sync", "tpdo-sync-count", "tpdo-event-timer",
};

struct waiting {
    bool by_device;
    micros ready;
    uint64_t order;
    struct frame frame;
};

static struct waiting queue[QUEUE];
static size_t waiting_count;
static uint64_t orders, state;
static enum mistake chosen = MISTAKES;
static unsigned mistakes;

unsigned dice(unsigned sides)
{
    state ^= state << 13;
    state ^= state >> 7;
    state ^= state << 17;
    return sides == 0 ? 0 : (unsigned)((state >> 20) % sides);
}

bool errs(enum mistake mistake)
{
    if (mistake != chosen || dice(7)) return false;
    mistakes++;
    return true;
}

/* ---- the bus */

void send_frame(bool by_device, micros ready, const struct frame *frame)
{
    if (waiting_count == QUEUE) return;
    queue[waiting_count++] = (struct waiting){by_device, ready, orders++, *frame};
}

void drop_device_frames(uint16_t first, uint16_t last)
{
    size_t kept = 0;
    for (size_t at = 0; at < waiting_count; at++)
        if (!queue[at].by_device || queue[at].frame.id < first || queue[at].frame.id > last) queue[kept++] = queue[at];
    waiting_count = kept;
}

static micros first_ready(void)
{
    micros ready = NEVER;
    for (size_t at = 0; at < waiting_count; at++)
        if (queue[at].ready < ready) ready = queue[at].ready;
    return ready;
}

/* Of the frames that are ready the one with the lowest identifier goes first; of the same identifier the older one. */
static struct waiting arbitrate(micros now)
{
    size_t first = waiting_count;
    for (size_t at = 0; at < waiting_count; at++) {
        if (queue[at].ready > now) continue;
        if (first == waiting_count || queue[at].frame.id < queue[first].frame.id
            || (queue[at].frame.id == queue[first].frame.id && queue[at].order < queue[first].order)) first = at;
    }
    struct waiting sent = queue[first];
    memmove(queue + first, queue + first + 1, (--waiting_count - first) * sizeof *queue);
    return sent;
}

static void print_frame(micros now, const struct frame *frame)
{
    printf("(%llu.%06llu) can0 %03X#", 1700000000 + (unsigned long long)(now / SECOND),
        (unsigned long long)(now % SECOND), frame->id);
    for (size_t place = 0; place < frame->length; place++) printf("%02X", frame->data[place]);
    putchar('\n');
}

static micros least(micros a, micros b)
{
    return a < b ? a : b;
}

static void run(micros from, micros until)
{
    micros now = 0, free_at = 0;
    device_power(0, true);
    while (now < until) {
        micros ready = first_ready();
        if (ready != NEVER && ready < free_at) ready = free_at;
        micros due = least(device_due(), master_due());
        if (ready <= due && ready != NEVER) {
            struct waiting sent = arbitrate(ready);
            now = ready + (47 + 8u * sent.frame.length + dice(2u * sent.frame.length + 4)) * BIT;
            free_at = now + 3 * BIT;
            if (now >= from) print_frame(now, &sent.frame);
            if (sent.by_device) master_receive(now, &sent.frame);
            else device_receive(now, &sent.frame);
        } else {
            now = due > now ? due : now;
        }
        device_tick(now);
        master_tick(now);
    }
}

/* ---- what CiA 301 leaves open, by the seed */

static void choose(void)
{
    choices.parts_per_million = (int)dice(8001) - 4000;
    choices.answer_delay = dice(3) ? 1500 : 20000;
    choices.slow_answers = dice(3);
    choices.expedited_without_size = dice(3) * 50;
    choices.small_in_segments = dice(3) * 40;
    choices.size_left_out = dice(3) * 50;
    choices.short_segments = dice(2);
    choices.blocks = dice(4) != 0;
    choices.crc = dice(3) != 0;
    choices.switches = dice(2);
    choices.general_codes = dice(2);
    choices.ignores_strays = dice(2);
    choices.aborts_timeouts = dice(2);
    choices.silent_timeouts = dice(3) == 0;
    choices.block_size = (uint8_t)(1 + dice(dice(2) ? 8 : 127));
    choices.boot_millis = dice(2) ? 20 + dice(300) : 800 + dice(3000);
    choices.heartbeat_at_change = dice(2);
    choices.sends_at_start = dice(2);
    choices.keeps_errors = dice(2);
    choices.refuses_short_pdo = dice(2);
}

static int usage(void)
{
    fputs("usage: foreign-device module|sensor NODE SEED [--seconds N] [--from N] [--ahead N] [--mistake NAME]\n", stderr);
    return 2;
}

int main(int count, char **words)
{
    micros seconds = 3600, from = 0;
    if (count < 4 || count % 2 != 0 || !choose_dictionary(words[1])) return usage();
    uint8_t node = (uint8_t)atoi(words[2]);
    for (int at = 4; at + 1 < count; at += 2) {
        if (strcmp(words[at], "--seconds") == 0) seconds = strtoull(words[at + 1], NULL, 10);
        else if (strcmp(words[at], "--from") == 0) from = strtoull(words[at + 1], NULL, 10);
        else if (strcmp(words[at], "--ahead") == 0) choices.syncs_ahead = (unsigned)strtoul(words[at + 1], NULL, 10);
        else if (strcmp(words[at], "--mistake") == 0) {
            unsigned name = 0;
            while (name < MISTAKES && strcmp(mistake_names[name], words[at + 1]) != 0) name++;
            if (name == MISTAKES) return usage();
            chosen = (enum mistake)name;
        } else return usage();
    }
    state = strtoull(words[3], NULL, 10) * 0x9E3779B97F4A7C15u + 0x1234567;
    for (int warm = 0; warm < 20; warm++) dice(2);
    choose();
    device_begin(node);
    master_begin(node);
    run(from * SECOND, seconds * SECOND);
    fprintf(stderr, "%u mistakes\n", mistakes);
    return 0;
}
