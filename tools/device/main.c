/* The words of canopen-device, the devices that they name, and the loop. */
#include "device.h"
#include "clients.h"
#include "values.h"
#include "trace.h"
#include "bus.h"
#include "commands.h"
#include "lines.h"

#define MOST_SHEET 1048577 /* a byte more than a sheet may have */

static const char usage[] =
    "canopen-device [INTERFACE:]N=SHEET.. --can INTERFACE | --stdio [--stamps]\n"
    "  N=SHEET         a device of a data sheet, at node-ID N, 1 to 127\n"
    "  --can NAME      the SocketCAN interface of the devices that have none of their own\n"
    "  --stdio         frames come and go as lines of candump -L, on standard input and output\n"
    "  --stamps        with --stdio: time passes by the stamps of these lines, as in conode replay\n"
    "  --socket PATH   clients may connect there\n"
    "  --play FILE     lines of the application, with stamps\n"
    "  --strings N, --domains N, --time N   as with conode replay; 16, 889 and 1000 if not given\n"
    "Standard input and clients say what the application does: help lists it.\n";

static bafokun_config config;
static const struct option options[] = {
    { "can", 1, NULL, CAN }, { "stdio", 0, &in_stdio, 1 }, { "stamps", 0, &by_stamps, 1 }, { "socket", 1, NULL, SOCKET },
    { "play", 1, NULL, PLAY }, { "strings", 1, NULL, STRINGS }, { "domains", 1, NULL, DOMAINS }, { "time", 1, NULL, TIME },
    { "help", 0, &wants_help, 1 }, { NULL, 0, NULL, 0 },
};

/* Whether the words are right. */
static bool read_options(int count, char **words)
{
    uint64_t numbers[OPTIONS];
    for (int option; (option = getopt_long(count, words, "", options, NULL)) != -1; ) given[option] = optarg ? optarg : "";
    if (wants_help) exit(fputs(usage, stdout) < 0 || fflush(stdout) != 0);
    for (int i = STRINGS; i <= TIME; i++)
        if (!read_number(given[i], 10, 0, UINT16_MAX, &numbers[i])) return false;
    config = (bafokun_config){ (uint16_t)numbers[STRINGS], (uint16_t)numbers[DOMAINS], (uint16_t)numbers[TIME] };
    return !given[WRONG] && optind < count && (in_stdio ? !*given[CAN] : !by_stamps);
}

/* Builds the device of a word [INTERFACE:]N=SHEET. */
static void build(struct device *device, const char *word)
{
    char *sheet = strdupa(word), *node = strsep(&sheet, "="), what[128];
    const char *own = strchr(node, ':') ? strsep(&node, ":") : NULL, *interface = own ? own : in_stdio ? "can0" : given[CAN];
    uint64_t node_id;
    bafokun_fault fault;
    if (!sheet || !read_number(node, 10, 1, 127, &node_id) || (own && !*own))
        errx(2, "%s: a device is N=SHEET or INTERFACE:N=SHEET, N from 1 to 127", word);
    if (!*interface) errx(2, "%s: on which bus? give --can INTERFACE, or --stdio", word);
    if (strlen(interface) > 15) errx(2, "%s: the name of an interface has at most 15 characters", interface);
    device->hears_all = in_stdio && !own;
    strcpy(device->interface, interface);
    sprintf(device->name, "%s:%d", interface, (int)node_id);
    for (struct device *at = devices; at < device; at++)
        if (strcmp(at->name, device->name) == 0) errx(2, "%s: there is a node %d on %s already", word, (int)node_id, interface);
    char *text = calloc(1, MOST_SHEET + 1);
    FILE *file = fopen(sheet, "re");
    size_t size = text && file ? fread(text, 1, MOST_SHEET, file) : 0;
    if (!text || !file || ferror(file) || !(device->text = text = realloc(text, size + 1))) err(1, "%s", sheet);
    fclose(file);
    if (!bafokun_build(&device->node, text, size, (uint8_t)node_id, &config, &fault)) {
        bafokun_fault_text(&fault, what, sizeof what);
        if (fault.stage == BAFOKUN_FAULT_DEVICE)
            errx(1, "%s: build fault %u %04X:%02X: %s; `conode adapt --force %s` may rewrite it, `conode lint --node %d %s` says how to "
                 "fix it", word, fault.number, fault.index, fault.sub_index, what, sheet, (int)node_id, sheet);
        errx(1, "%s: fault %u line %" PRIu64 ": %s; `conode adapt %s` may rewrite it, `conode lint %s` says how to fix it", word,
             fault.number, fault.line, what, sheet, sheet);
    }
    name_objects(device, text);
}

/* Each turn does all that is ready, until a signal comes or a trace ends. */
static void run_loop(void)
{
    struct epoll_event events[16];
    uint64_t begin = now(CLOCK_MONOTONIC);
    for (;;) {
        deliver();
        bool is_busy = tend_clients();
        for (struct device *at = devices; !in_stdio && at < devices_end; at++) is_busy |= tend_bus(at);
        if (is_over || is_ready(signals, POLLIN, 0)) return;
        uint64_t next = begin + next_ms(elapsed + DAY_MS) * 1000;
        struct itimerspec once = { { 0, 0 }, { (time_t)(next / 1000000), (long)(next % 1000000 * 1000) } };
        if (!by_stamps) timerfd_settime(timer, TFD_TIMER_ABSTIME, &once, NULL);
        epoll_wait(epoll, events, 16, is_busy ? 0 : -1);
        if (!by_stamps) elapse((now(CLOCK_MONOTONIC) - begin) / 1000);
    }
}

int main(int count, char **words)
{
    /* where a standard stream is closed, no file of ours is taken for it: reads find the end, writes fail */
    for (int fd = 0; fd <= 2; fd++)
        if (fcntl(fd, F_GETFD) < 0) open("/dev/null", O_RDONLY);
    if (!read_options(count, words)) return fputs(usage, stderr), 2;
    if (!(devices_end = devices = calloc((size_t)(count - optind), sizeof *devices))) err(1, "canopen-device");
    while (optind < count) build(devices_end++, words[optind++]);
    sigset_t ends;
    sigemptyset(&ends);
    for (const int *end = (int[]){ SIGTERM, SIGINT, SIGHUP, 0 }; *end; end++) sigaddset(&ends, *end);
    sigprocmask(SIG_BLOCK, &ends, NULL);
    signal(SIGPIPE, SIG_IGN);
    signal(SIGTTIN, SIG_IGN); /* in the background a terminal isn't read */
    epoll = epoll_create1(EPOLL_CLOEXEC);
    timer = timerfd_create(CLOCK_MONOTONIC, TFD_CLOEXEC);
    signals = signalfd(-1, &ends, SFD_CLOEXEC);
    if (!wake_by(timer, EPOLLIN) || !wake_by(signals, EPOLLIN)) err(1, "canopen-device");
    for (struct device *at = devices; !in_stdio && at < devices_end; at++)
        if (!open_bus(at)) {
            if (errno != ENODEV || strncmp(at->interface, "vcan", 4) != 0) err(1, "%s", at->interface);
            errx(1, "%s: %s; `ip link add dev %s type vcan` makes a virtual one", at->interface, strerror(ENODEV), at->interface);
        }
    open_clients();
    for (struct device *at = devices; at < devices_end; at++) send_frames(at, bafokun_boot(&at->node, FRAMES));
    run_loop();
    say_changes(); /* those of the last ticks */
    if (in_stdio) say(standard, ANSWER, "in %zu, out %zu, ticks %" PRIu64, frames_in, frames_out, elapsed);
    flush(standard);
    if (given[SOCKET]) unlink(given[SOCKET]);
    return is_bad;
}
