/* Lines and connections: who gives lines, and when they are due. */

/* Watched entries that changed are said, to each client. */
static void say_changes(void)
{
    for (struct client *at = clients; at < clients_end; at++)
        for (size_t i = 0; i < at->watched; i++) say_value(at, &at->watches[i]);
}

/* Reads a piece. True: there was one, or the end. */
static bool read_piece(struct client *client)
{
    if (client->in < 0 || !is_ready(client->in, POLLIN, 0)) return false;
    client->to = MIN(client->to - client->from, MOST_LINE + 2); /* of a line that is too long the rest isn't kept */
    memmove(client->text, client->text + client->from, client->to);
    client->from = 0;
    ssize_t size = read(client->in, client->text + client->to, PIECE);
    if (size < 0 && (errno == EAGAIN || errno == EINTR)) return false;
    if (size < 0 && client->numbered) warn("%s", client == player ? given[PLAY] : "standard input");
    if (size < 0 && client->numbered) is_over = is_bad = true;
    client->to += (size_t)MAX(size, 0);
    if (size <= 0 && client->to > 0) client->text[client->to++] = '\n'; /* a last line needs no end */
    if (size <= 0) client->in = -1;
    return true;
}

/* Does the next line once it is there and due. True: one may follow. */
static bool take_line(struct client *client)
{
    char *line = client->text + client->from;
    if (client->due > elapsed) return false;
    char *end = memchr(line, '\n', client->to - client->from);
    if (!end) return read_piece(client);
    char *last = end - (end > line && end[-1] == '\r'), cut = *last;
    *last = 0;
    const char *error = last > line + MOST_LINE ? "the line has more than 8191 bytes"
        : line + strlen(line) < last ? "the line has a byte 0"
        : client->numbered && *line == '(' ? read_stamp(client, &line) : NULL;
    if (client->due > elapsed) return *last = cut, false;
    if (error) say(client, TROUBLE, "error: %s", error);
    else do_line(client, line);
    deliver();
    say_changes();
    client->number++;
    client->from = (size_t)(end + 1 - client->text);
    return true;
}

/* The next ms, up to the given one, at which a device or a line of --play is due. */
static uint64_t next_ms(uint64_t next)
{
    if (player->due > elapsed) next = MIN(next, player->due);
    for (struct device *at = devices; at < devices_end; at++) {
        uint64_t due = is_crowded(at) ? DAY_MS : bafokun_idle(&at->node) + UINT64_C(1);
        next = MIN(next, elapsed + MIN(due, at->bus < 0 ? RETRY_MS : at->waiting > 0 ? 1 : DAY_MS));
    }
    return next;
}

/* Time passes, up to each ms at which something happens at once. */
static void elapse(uint64_t until)
{
    while (elapsed < until) {
        elapsed = next_ms(until);
        for (struct device *at = devices; at < devices_end; at++) catch_up(at);
        deliver();
        while (take_line(player)) { }
    }
}

/* Lets a client in: at each turn of the loop, as one for whom there is no descriptor isn't indicated again. */
static bool let_in(struct client *client)
{
    static bool is_said;
    int fd = accept4(listener, NULL, NULL, SOCK_NONBLOCK | SOCK_CLOEXEC);
    bool is_trouble = fd < 0 && errno != EAGAIN && errno != ECONNABORTED;
    if (is_trouble && !is_said) warn("%s: no client can be let in", given[SOCKET]);
    if (fd < 0) is_said = is_trouble;
    client->in = client->out = MAX(fd, 0);
    return fd >= 0 && wake_by(fd, EPOLLIN | EPOLLOUT);
}

/* Standard input and output; a file that is played, and a path where the own user may connect, if it is given. */
static void open_clients(void)
{
    const char *path = given[SOCKET];
    struct sockaddr_un at = { .sun_family = AF_UNIX };
    struct stat there;
    standard->numbered = in_stdio ? "line" : NULL;
    player->numbered = "play";
    player->in = open(given[PLAY], O_RDONLY | O_CLOEXEC);
    player->out = standard->out = STDOUT_FILENO;
    if (player->in < 0 || !wake_by(player->in, EPOLLIN)) err(1, "%s", given[PLAY]);
    if (!wake_by(standard->in, EPOLLIN) || !wake_by(standard->out, EPOLLOUT)) err(1, "standard input");
    if (!path) return;
    if (strlen(path) >= sizeof at.sun_path) errx(1, "%s: the path is too long", path);
    strcpy(at.sun_path, path);
    listener = socket(AF_UNIX, SOCK_STREAM | SOCK_NONBLOCK | SOCK_CLOEXEC, 0);
    /* a socket that was left there, where nobody listens any more */
    bool is_left = connect(listener, (struct sockaddr *)&at, sizeof at) != 0 && errno == ECONNREFUSED;
    if (is_left && lstat(path, &there) == 0 && S_ISSOCK(there.st_mode)) unlink(path);
    umask(0177);
    if (bind(listener, (struct sockaddr *)&at, sizeof at) != 0 || listen(listener, SOMAXCONN) != 0 || !wake_by(listener, EPOLLIN))
        err(1, "%s", path);
}

/* At each turn of the loop: lines are done, changes said, answers written. True: more may have come. */
static bool tend_clients(void)
{
    bool is_busy = false, may_come = given[SOCKET];
    say_changes();
    for (struct client *client = clients; client < clients_end; client++) {
        bool stays = client == player || client == standard;
        if (client->out == 0 && !(may_come = may_come && let_in(client))) continue;
        for (int taken = 0; taken < MOST_TAKEN && take_line(client); ) is_busy |= ++taken == MOST_TAKEN;
        bool is_full = !flush(client), is_lost = is_full || client->is_broken;
        if (is_full) fprintf(stderr, "%s isn't read, and is dropped\n", stays ? "standard output" : "a client");
        if (is_lost) client->unread = 0;
        if (stays || !(is_lost || (client->in < 0 && client->from == client->to && client->unread == 0))) continue;
        while (client->watched > 0) free(client->watches[--client->watched].said);
        close(client->out);
        memset(client, 0, offsetof(struct client, text));
    }
    bool is_played = player->in < 0 && player->from == player->to && player->due <= elapsed;
    if (in_stdio && standard->in < 0 && standard->from == standard->to && (by_stamps || is_played)) is_over = true;
    return is_busy;
}
