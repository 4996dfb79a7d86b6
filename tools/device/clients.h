/* Clients: who gives lines, and how they are answered. */

#define MOST_CLIENTS 34                /* with the file of --play and standard input; more wait until one leaves */
#define MOST_LINE 8191                 /* bytes of a line */
#define PIECE 4096                     /* bytes that are read or written at once */
#define MOST_TEXT (4 * UINT16_MAX + 1) /* bytes of a value that people read: each may be \xHH */
#define MOST_UNREAD 262144             /* bytes of answers that wait, before their reader is dropped */
#define MOST_WATCHES 32                /* of a client */
#define LAST_MS 1000                   /* a signal that ends the run waits so long for each piece of output */

/* The file of --play, standard input and output, and connections. */
static struct client {
    int in, out;               /* in is -1 where no line comes any more; out is 0 where the place of a connection is free */
    bool is_broken, has_first; /* no answer can be written; there was a stamp, */
    uint64_t first, due;       /* and which; when the next line of --play is due, in ms since the start */
    char interface[16];        /* that of its last frame */
    const char *numbered;      /* "line" where lines may have stamps, and errors their number; else NULL */
    size_t number, from, to, unread, watched; /* lines done; where unread text is; bytes of answers; watches */
    struct watch { /* an entry whose changes it is told; the bytes that were said last */
        struct device *device;
        bafokun_entry_info entry;
        uint8_t *said;
    } watches[MOST_WATCHES + 1]; /* the last is for a get */
    char text[MOST_LINE + PIECE + 4], answers[MOST_UNREAD + MOST_TEXT + 100];
} clients[MOST_CLIENTS], *const player = clients, *const standard = clients + 1, *const clients_end = clients + MOST_CLIENTS;
static int epoll, timer, signals, listener;

/* A descriptor wakes the loop when it becomes ready. epoll doesn't take a file, which always is. */
static bool wake_by(int fd, uint32_t events)
{
    return epoll_ctl(epoll, EPOLL_CTL_ADD, fd, &(struct epoll_event){ .events = events | EPOLLET }) == 0 || errno == EPERM;
}

/* Whether there is something to read, or room to write, within so many ms. */
static bool is_ready(int fd, short events, int ms) { return poll(&(struct pollfd){ fd, events, 0 }, 1, ms) > 0; }

/* Writes what goes without a wait, or all of a trace, unless nobody reads it and a signal came. False: too much waits. */
static bool flush(struct client *client)
{
    bool is_trace = client == standard && in_stdio;
    size_t done = 0;
    while (done < client->unread && !client->is_broken) {
        bool is_room = is_ready(client->out, POLLOUT, is_trace ? LAST_MS : 0);
        if (!is_room && (!is_trace || is_ready(signals, POLLIN, 0))) break;
        ssize_t size = is_room ? write(client->out, client->answers + done, MIN(client->unread - done, PIECE)) : 0;
        client->is_broken = size < 0 && errno != EAGAIN && errno != EINTR;
        done += (size_t)MAX(size, 0);
    }
    if (is_trace && done < client->unread) client->is_broken = is_over = is_bad = true;
    memmove(client->answers, client->answers + done, client->unread -= done);
    return client->unread <= MOST_UNREAD;
}

/* Says a line: in a trace an answer is a comment; trouble has the number of the line. False, for callers. */
enum kind { FRAME, ANSWER, TROUBLE };
__attribute__((format(printf, 3, 4)))
static bool say(struct client *client, enum kind kind, const char *format, ...)
{
    struct client *reader = client == player ? standard : client;
    va_list values;
    if (reader->unread > MOST_UNREAD && !flush(reader)) return false;
    char *end = reader->answers + reader->unread;
    if (reader == standard && in_stdio && kind != FRAME) end = stpcpy(end, "; ");
    if (client->numbered && kind == TROUBLE) end += sprintf(end, "%s %zu ", client->numbered, client->number + 1);
    va_start(values, format);
    end += vsprintf(end, format, values);
    va_end(values);
    *end++ = '\n';
    reader->unread = (size_t)(end - reader->answers);
    return false;
}
