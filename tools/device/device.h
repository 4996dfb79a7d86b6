/* canopen-device: devices of data sheets, live on a CAN bus. What all files share; main.c includes them in order. */
#define _GNU_SOURCE
#include <bafokun.h>

#include <ctype.h>
#include <err.h>
#include <errno.h>
#include <fcntl.h>
#include <float.h>
#include <getopt.h>
#include <inttypes.h>
#include <linux/can/error.h>
#include <linux/can/raw.h>
#include <math.h>
#include <net/if.h>
#include <poll.h>
#include <stdarg.h>
#include <stdio.h>
#include <stdlib.h>
#include <string.h>
#include <sys/epoll.h>
#include <sys/param.h>
#include <sys/signalfd.h>
#include <sys/socket.h>
#include <sys/stat.h>
#include <sys/timerfd.h>
#include <sys/un.h>
#include <time.h>
#include <unistd.h>

#define MOST_WAITING 1024 /* frames of a device that wait, before TPDOs or inputs yield */
#define MOST_TAKEN 64     /* frames of a device, or lines of a client, in one turn of the loop */
#define DAY_MS 86400000   /* most ms of a !tick */
#define DIGITS "0123456789ABCDEFabcdef"
#define BLANKS " \t"
#define FRAMES frames, BAFOKUN_MOST_FRAMES

/* What the bus is like to a device, by the numbers of bafokun_bus. */
enum health { ACTIVE = BAFOKUN_BUS_ACTIVE, PASSIVE = BAFOKUN_BUS_PASSIVE, BUS_OFF = BAFOKUN_BUS_OFF, DOWN };
static const char *const health_names[] = { "error active", "error passive", "bus-off", "down" };

static struct device {
    bafokun_node node;
    char interface[16], name[48];         /* can0, can0:5 */
    char *text, *objects[UINT16_MAX + 1]; /* its sheet; the names of objects in it, by their index, or NULL */
    bool hears_all;                       /* frames of each interface, in --stdio */
    int bus;                              /* its socket, -1 while the interface is down */
    enum health health;
    uint64_t ticks;                       /* of the ms elapsed those that it had */
    size_t waiting, others, thrown;       /* frames that wait; of these others than TPDOs; TPDOs that were thrown away */
    struct waiting {
        bafokun_frame frame;
        bool is_tpdo;
    } queue[MOST_WAITING + 2 * BAFOKUN_MOST_FRAMES]; /* with room for what two inputs more send */
} *devices, *devices_end;

static bafokun_frame frames[BAFOKUN_MOST_FRAMES]; /* those that the last call of the library gave */
static int in_stdio, by_stamps, wants_help;       /* options, and those that take a word: */
enum { CAN = 1, SOCKET, PLAY, STRINGS, DOMAINS, TIME, WRONG = '?', OPTIONS };
static const char *given[OPTIONS] = { [CAN] = "", [PLAY] = "/dev/null", [STRINGS] = "16", [DOMAINS] = "889", [TIME] = "1000" };
static uint64_t elapsed;                          /* ms since the start */
static bool is_over, is_bad;                      /* it ends, with status 1 */

static void send_frames(struct device *device, size_t count); /* those that the last call gave; in bus.h */
static void elapse(uint64_t until);                           /* time passes; in lines.h */
