/*
 * A temperature sensor at node-ID 5, a whole CANopen device: `device` reads candump lines and events of the application
 * on standard input, and prints the frames that it sends; `device --can vcan0` is on a bus.
 */
#define _GNU_SOURCE
#include <bafokun.h>

#include <stdio.h>
#include <stdlib.h>
#include <string.h>

#ifdef WITH_CAN
#include <errno.h>
#include <linux/can.h>
#include <linux/can/raw.h>
#include <net/if.h>
#include <poll.h>
#include <sys/ioctl.h>
#include <sys/socket.h>
#include <sys/timerfd.h>
#include <unistd.h>
#endif

/* a byte may be above 127 */
static const unsigned char eds[] = {
#include "eds.inc"
};

static bafokun_node node = BAFOKUN_EMPTY;
static bafokun_frame frames[BAFOKUN_MOST_FRAMES];

/* The application writes an entry of two bytes. */
static size_t set_entry(uint16_t index, uint8_t sub_index, unsigned value)
{
    uint8_t bytes[2];
    bytes[0] = (uint8_t)value;
    bytes[1] = (uint8_t)(value >> 8);
    return bafokun_write(&node, index, sub_index, bytes, sizeof bytes, frames, BAFOKUN_MOST_FRAMES);
}

/* ---- lines */

static unsigned long long now; /* ms */
static unsigned long received, printed, ticks;

static void print_frames(size_t count)
{
    size_t i, j;
    for (i = 0; i < count; i++) {
        printf("(%010llu.%06llu) can0 %03X#", now / 1000, now % 1000 * 1000, frames[i].id);
        for (j = 0; j < frames[i].length; j++) printf("%02X", frames[i].bytes[j]);
        putchar('\n');
    }
    printed += count;
}

static void elapse(unsigned long long count)
{
    for (; count > 0; count--) {
        now++;
        ticks++;
        print_frames(bafokun_tick(&node, frames, BAFOKUN_MOST_FRAMES));
    }
}

static bool take_line(const char *line)
{
    unsigned long seconds, micros;
    unsigned id, index, sub_index, byte;
    int used;
    bafokun_frame frame = { 0, 0, { 0 } };
    if (line[0] == ';' || line[0] == '\n') return true;
    if (sscanf(line, "!tick %lu", &seconds) == 1) {
        elapse(seconds);
        return true;
    }
    if (sscanf(line, "!write %4x:%2x %2x%2x", &index, &sub_index, &id, &byte) == 4) {
        print_frames(set_entry((uint16_t)index, (uint8_t)sub_index, id | byte << 8));
        return true;
    }
    if (sscanf(line, "!changed %4x:%2x", &index, &sub_index) == 2) {
        print_frames(bafokun_changed(&node, (uint16_t)index, (uint8_t)sub_index, frames, BAFOKUN_MOST_FRAMES));
        return true;
    }
    if (sscanf(line, "(%lu.%6lu) %*15s %3x#%n", &seconds, &micros, &id, &used) != 3) return false;
    frame.id = (uint16_t)id;
    for (line += used; frame.length < 8 && sscanf(line, "%2x", &byte) == 1; line += 2)
        frame.bytes[frame.length++] = (uint8_t)byte;
    if (received++ == 0) now = seconds * 1000ULL + micros / 1000;
    if (seconds * 1000ULL + micros / 1000 > now) elapse(seconds * 1000ULL + micros / 1000 - now);
    print_frames(bafokun_take(&node, &frame, frames, BAFOKUN_MOST_FRAMES));
    return true;
}

static int run_lines(void)
{
    char line[512];
    unsigned long number = 0;
    print_frames(bafokun_boot(&node, frames, BAFOKUN_MOST_FRAMES));
    while (fgets(line, sizeof line, stdin)) {
        number++;
        if (!take_line(line)) {
            printf("; line %lu is none\n", number);
            return 1;
        }
    }
    printf("; in %lu, out %lu, ticks %lu\n", received, printed, ticks);
    return 0;
}

/* ---- a bus */

#ifdef WITH_CAN
/* The queue of an interface may have 10 places. While it is full the frame is tried again each millisecond. */
static bool send_frames(int bus, size_t count)
{
    size_t i;
    for (i = 0; i < count; i++) {
        struct can_frame out;
        memset(&out, 0, sizeof out);
        out.can_id = frames[i].id;
        out.can_dlc = (uint8_t)frames[i].length;
        memcpy(out.data, frames[i].bytes, frames[i].length);
        while (write(bus, &out, sizeof out) != (ssize_t)sizeof out) {
            if (errno != ENOBUFS) return false;
            poll(NULL, 0, 1);
        }
    }
    return true;
}

static bool take_frame(int bus)
{
    struct can_frame in;
    bafokun_frame frame = { 0, 0, { 0 } };
    if (read(bus, &in, sizeof in) != (ssize_t)sizeof in) return false;
    if (in.can_id & (CAN_EFF_FLAG | CAN_RTR_FLAG | CAN_ERR_FLAG) || in.can_dlc > 8) return true;
    frame.id = (uint16_t)in.can_id;
    frame.length = in.can_dlc;
    memcpy(frame.bytes, in.data, in.can_dlc);
    return send_frames(bus, bafokun_take(&node, &frame, frames, BAFOKUN_MOST_FRAMES));
}

static bool take_ticks(int bus, int timer)
{
    static int tenths = 215, step = 1, wait = 1000;
    uint64_t count;
    if (read(timer, &count, sizeof count) != (ssize_t)sizeof count) return false;
    if (count > 1000) count = 1000; /* more are missed only if the bus took nothing for so long */
    for (; count > 0; count--) {
        if (!send_frames(bus, bafokun_tick(&node, frames, BAFOKUN_MOST_FRAMES))) return false;
        if (--wait > 0) continue;
        /* a measurement each second in tenths of a degree, here made up: 7130h, which TPDO1 maps */
        wait = 1000;
        if (tenths >= 250 || tenths <= 180) step = -step;
        tenths += step;
        if (!send_frames(bus, set_entry(0x7130, 1, (unsigned)tenths))) return false;
        if (!send_frames(bus, bafokun_changed(&node, 0x7130, 1, frames, BAFOKUN_MOST_FRAMES))) return false;
    }
    return true;
}

static int run_bus(const char *name)
{
    int bus = socket(PF_CAN, SOCK_RAW, CAN_RAW), timer = timerfd_create(CLOCK_MONOTONIC, 0);
    struct itimerspec each_ms = { { 0, 1000000 }, { 0, 1000000 } };
    struct sockaddr_can at;
    struct pollfd fds[2];
    memset(&at, 0, sizeof at);
    at.can_family = AF_CAN;
    at.can_ifindex = (int)if_nametoindex(name);
    if (bus < 0 || timer < 0 || at.can_ifindex == 0 || bind(bus, (struct sockaddr *)&at, sizeof at) < 0
        || timerfd_settime(timer, 0, &each_ms, NULL) < 0) {
        perror(name);
        return 1;
    }
    fds[0].fd = bus;
    fds[1].fd = timer;
    fds[0].events = fds[1].events = POLLIN;
    if (!send_frames(bus, bafokun_boot(&node, frames, BAFOKUN_MOST_FRAMES))) return 1;
    while (poll(fds, 2, -1) > 0) {
        if (fds[1].revents && !take_ticks(bus, timer)) break;
        if (fds[0].revents && !take_frame(bus)) break;
    }
    perror(name);
    return 1;
}
#else
static int run_bus(const char *name) { return fprintf(stderr, "%s: built without SocketCAN\n", name) != 0; }
#endif

int main(int argc, char **argv)
{
    static const bafokun_config config = { 16, 889, 1000 };
    bafokun_fault fault;
    char text[128];
    int status;
    if (argc != 1 && (argc != 3 || strcmp(argv[1], "--can") != 0)) return fputs("device [--can NAME]\n", stderr), 2;
    if (!bafokun_build(&node, (const char *)eds, sizeof eds, 5, &config, &fault)) {
        bafokun_fault_text(&fault, text, sizeof text);
        fprintf(stderr, "no device: %s", text);
        if (fault.line > 0) fprintf(stderr, ", line %lu", (unsigned long)fault.line);
        if (fault.index > 0) fprintf(stderr, ", entry %04X:%02X", fault.index, fault.sub_index);
        fputc('\n', stderr);
        return 1;
    }
    status = argc == 3 ? run_bus(argv[2]) : run_lines();
    bafokun_free(&node);
    return status;
}
