/* Lines of a trace: frames, and stamps. */

#define MOST_HEARD 8192

static size_t frames_in, frames_out, heard_count;
static struct heard { /* a frame of a device, or from outside, which the other devices of the interface will hear */
    struct device *from;
    const char *interface;
    bafokun_frame frame;
} heard[MOST_HEARD];

/* What was sent or came is heard on its interface; from outside also by devices without one of their own. */
static void deliver(void)
{
    for (struct heard *each = heard; each < heard + heard_count; each++)
        for (struct device *at = devices; at < devices_end; at++)
            if (at != each->from && ((!each->from && at->hears_all) || strcmp(at->interface, each->interface) == 0))
                send_frames(at, bafokun_take(&at->node, &each->frame, FRAMES));
    heard_count = 0;
}

/* A clock of the system, in microseconds. */
static uint64_t now(clockid_t clock)
{
    struct timespec time;
    clock_gettime(clock, &time);
    return (uint64_t)time.tv_sec * 1000000 + (uint64_t)time.tv_nsec / 1000;
}

static void print_frame(struct device *device, const bafokun_frame *frame)
{
    uint64_t time = by_stamps ? (standard->first + elapsed) * 1000 : now(CLOCK_REALTIME), data = 0;
    for (int i = 0; i < frame->length; i++) data = data << 8 | frame->bytes[i];
    say(standard, FRAME, "(%010" PRIu64 ".%06" PRIu64 ") %s %03X#%.*" PRIX64, time / 1000000, time % 1000000, device->interface,
        frame->id, 2 * frame->length, data);
    frames_out++;
    if (heard_count < MOST_HEARD) heard[heard_count++] = (struct heard){ device, device->interface, *frame };
}

/* Whether a word is a frame as cansend takes it: 605#40. */
static bool is_bare_frame(const char *word)
{
    size_t digits = strspn(word, DIGITS);
    return (digits == 3 || digits == 8) && word[digits] == '#';
}

/* Takes a stamp, and a frame that follows, off a line. Time passes until then, or a line of --play waits. Gives what is wrong. */
static const char *read_stamp(struct client *client, char **line)
{
    char seconds[13], micros[7] = "", id[9], data[MOST_LINE + 1], mark[3] = "";
    int end = 0, count = sscanf(*line, "(%12[0-9].%6[0-9])%*[ \t]%n%15[^ \t]%*[ \t]%8[" DIGITS "]%8191[^ \t]%*[ \t]%2[^\n]",
                                seconds, micros, &end, client->interface, id, data, mark);
    bool has_stamp = end > 0 && strlen(micros) == 6, is_frame = has_stamp && count >= 5 && *data == '#';
    bool is_fd = is_frame && data[1] == '#', is_extended = is_frame && strlen(id) == 8;
    bool is_remote = is_frame && data[1] == 'R' && (!data[2] || (isdigit((unsigned char)data[2]) && !data[3]));
    bafokun_frame frame = { is_frame ? (uint16_t)strtoul(id, NULL, 16) : 0, is_frame ? (uint16_t)(strlen(data) / 2) : 0, { 0 } };
    is_frame = is_frame && (is_extended || (strlen(id) == 3 && *id <= '7')) && strchr("RT", *mark) && !mark[1]
        && (is_remote || is_fd || (strlen(data) <= 17 && bytes_of(&plain, data + 1, frame.bytes, &(size_t){ 0 })));
    if (client == player && !has_stamp) return "this is no stamp, as (0.250000)";
    if (client != player && !is_frame) return "this is no frame of a trace";
    uint64_t ms = strtoull(seconds, NULL, 10) * 1000 + strtoull(micros, NULL, 10) / 1000;
    uint64_t done = client == player ? client->due : elapsed, last = client->first + done;
    if (by_stamps && client != player && client->has_first && ms > last + DAY_MS) return "this is more than a day past the line before";
    if (!client->has_first) client->first = ms - done; /* that is the start */
    else if (client == player) client->due = MAX(ms, last) - client->first;
    else if (by_stamps && ms > last) elapse(ms - client->first);
    client->has_first = true;
    *line += is_frame ? strlen(*line) : (size_t)end;
    if (!is_frame || client == player || is_extended || is_remote || is_fd) return NULL; /* which no device takes */
    heard[heard_count++] = (struct heard){ NULL, client->interface, frame };
    frames_in++;
    return NULL;
}
