/* A line of the application: an event line of a trace (docs/TRACES.md), or one that people write. */

#define HEX_WORDS ", of 4, 2 and 10 hexadecimal digits"

/*
 * The commands: how each is written, what it does, and what its words are, where the form doesn't say it. read_words knows a word in
 * capitals by its first letter, and KEY.
 */
static const struct command {
    const char *form;
    enum action { SET, WRITE, CHANGED, EVENT, RAISE, CLEAR, GET, WATCH, STATE, TICK, HELP } action; /* events first */
    const char *words;
} commands[] = {
    { "set KEY VALUE", SET, "" }, { "get KEY", GET, "" }, { "watch KEY", WATCH, "" }, { "event TPDO", EVENT, ", its number from 1" },
    { "raise CODE [BITS [EXTRA]]", RAISE, HEX_WORDS }, { "clear [BITS]", CLEAR, ", of 2 hexadecimal digits" },
    { "state", STATE, "" }, { "!write KEY HEX", WRITE, "" }, { "!changed KEY", CHANGED, "" },
    { "!event K", EVENT, ", the number of a TPDO from 0" }, { "!raise CODE BITS EXTRA", RAISE, HEX_WORDS },
    { "!clear BITS", CLEAR, ", of 2 hexadecimal digits" }, { "!tick N", TICK, ", ms from 1" }, { "help", HELP, "" },
}, *const commands_end = commands + sizeof commands / sizeof *commands;

/* What the words of a line say; the bytes of its value. */
static bafokun_entry_info entry;
static uint64_t number, code, bits;
static uint8_t bytes[UINT16_MAX + 1];
static size_t length;

/* The answer to an event that gave so many frames. */
static bool answer(struct client *client, struct device *device, size_t count)
{
    char text[128] = "";
    uint32_t abort_code;
    bool is_done = bafokun_answer(&device->node, &abort_code) != BAFOKUN_REFUSED;
    /* the answers to a trace are those of conode replay */
    if (client != standard || !by_stamps) bafokun_abort_text(abort_code, text, sizeof text);
    if (!is_done) say(client, TROUBLE, "refused %08" PRIX32 "%s%s", abort_code, *text ? " " : "", text);
    send_frames(device, count);
    return is_done;
}

/* Says the value of an entry, unless it is the one that was said last. */
static void say_value(struct client *client, struct watch *at)
{
    static char text[MOST_TEXT];
    bafokun_entry_info *info = &at->entry;
    bafokun_value(&at->device->node, info->index, info->sub_index, bytes, sizeof bytes, &length);
    if (at->said && length == info->length && memcmp(bytes, at->said, length) == 0) return;
    write_value(info, bytes, length, text);
    say(client, ANSWER, "%04X:%02X %s", info->index, info->sub_index, *text ? text : "-");
    if (at->said) memcpy(at->said, bytes, length);
    info->length = length;
}

/* Does a command. False where it wasn't done, and that was said, or where something else than ok was. */
static bool act(struct client *client, struct device *device, enum action action)
{
    static const char *const states[] = { [BAFOKUN_STOPPED] = "stopped", [BAFOKUN_OPERATIONAL] = "operational",
                                          [BAFOKUN_PRE_OPERATIONAL] = "pre-operational" };
    char forms[512] = "";
    bafokun_node *node = &device->node;
    if (action <= CLEAR && is_crowded(device))
        return say(client, TROUBLE, "error: %zu frames wait for %s", device->waiting, device->interface);
    switch (action) {
    case SET: return act(client, device, WRITE) && act(client, device, CHANGED);
    case WRITE: return answer(client, device, bafokun_write(node, entry.index, entry.sub_index, bytes, length, FRAMES));
    case CHANGED: return answer(client, device, bafokun_changed(node, entry.index, entry.sub_index, FRAMES));
    case EVENT: return answer(client, device, bafokun_event(node, (uint16_t)number, FRAMES));
    case RAISE: return answer(client, device, bafokun_raise(node, (uint16_t)code, (uint8_t)bits, bytes, FRAMES));
    case CLEAR: return answer(client, device, bafokun_clear(node, (uint8_t)bits, FRAMES));
    case TICK:
        if (client == player) client->due += number;
        else if (by_stamps) elapse(elapsed + number);
        else return say(client, TROUBLE, "error: here time passes by itself");
        return true;
    case STATE:
        return say(client, ANSWER, "node %d %s, %s %s, %zu frames wait, %zu thrown away", bafokun_node_id(node),
                   states[bafokun_state(node)], device->interface, health_names[device->health], device->waiting, device->thrown);
    case HELP:
        for (const struct command *each = commands; each < commands_end; each++)
            strcat(strcat(forms, each > commands ? ", " : ""), each->form);
        return say(client, ANSWER, "[NODE] and: %s; KEY is 2001:01, a name, or OBJECT.NAME", forms);
    default:
        if (action == WATCH && client->watched == MOST_WATCHES)
            return say(client, TROUBLE, "error: %d entries are watched already", MOST_WATCHES);
        if (!bafokun_value(node, entry.index, entry.sub_index, bytes, 0, &length))
            return say(client, TROUBLE, "error: there is no entry %04X:%02X", entry.index, entry.sub_index);
        entry.length = SIZE_MAX; /* nothing was said of it */
        client->watches[client->watched] = (struct watch){ device, entry, action == WATCH ? malloc(entry.capacity + 1) : NULL };
        say_value(client, &client->watches[client->watched]);
        client->watched += action == WATCH;
        return false;
    }
}

/* Reads the words after a command, those that its form has. */
static bool read_words(struct client *client, struct device *device, const struct command *command, char *rest)
{
    /* what an error sets if not said: current, voltage, temperature, communication, the manufacturer's */
    static const uint8_t kinds_of_error[16] = { [2] = 0x02, [3] = 0x04, [4] = 0x08, [8] = 0x10, [15] = 0x80 };
    const char *form = strchr(command->form, ' ');
    bool is_right = true;
    bits = 0xFF;
    memset(bytes, 0, 5);
    for (; is_right && form && *rest; form = strchr(form + 1, ' ')) {
        char kind = form[form[1] == '[' ? 2 : 1];
        size_t size = strncmp(form, " KEY", 4) == 0 ? find_entry(client, device, rest, &entry)
            : kind == 'V' ? strlen(rest) : strcspn(rest, BLANKS);
        if (size == 0) return false;
        const char *word = cut(&rest, size), *value = strcmp(word, "-") == 0 ? "" : word; /* - for none */
        if (kind == 'C') is_right = size == 4 && read_number(word, 16, 0, UINT16_MAX, &code);
        if (kind == 'C') bits = kinds_of_error[code >> 12 & 0xF];
        if (kind == 'B') is_right = size == 2 && read_number(word, 16, 0, UINT8_MAX, &bits);
        if (kind == 'T') is_right = read_number(word, 10, 1, UINT16_MAX + 1, &number);
        if (kind == 'T') number--; /* TPDO1 is number 0 of the library */
        if (kind == 'K' && !form[2]) is_right = read_number(word, 10, 0, UINT16_MAX, &number);
        if (kind == 'N') is_right = read_number(word, 10, 1, DAY_MS, &number);
        if (kind == 'H' || kind == 'E') is_right = bytes_of(&plain, value, bytes, &length) && (kind == 'H' || length == 5);
        if (kind == 'V' && !bytes_of(&entry, value, bytes, &length))
            return bafokun_find(&device->node, entry.index, entry.sub_index, &(size_t){ 0 })
                ? say(client, TROUBLE, "error: this is no value of %s", type_names[entry.original_type])
                : say(client, TROUBLE, "error: there is no entry %04X:%02X", entry.index, entry.sub_index);
    }
    if (is_right && !*rest && (!form || form[1] == '[')) return true;
    return say(client, TROUBLE, "error: wanted: %s%s", command->form, command->words);
}

/* Does a line. A node comes first, as 5 or can0:5, unless there is one alone, or the command is for all. */
static void do_line(struct client *client, char *line)
{
    struct device *device = devices_end - 1;
    const struct command *command = commands;
    const char *text = line;
    size_t size = strcspn(line, BLANKS), count = 0;
    if (*line == 0 || *line == ';') return;
    bool has_node = *line != '!' && size > 0 && isdigit((unsigned char)line[size - 1]);
    const char *name = has_node ? cut(&line, size) : NULL;
    bool is_pasted = is_bare_frame(text) || is_bare_frame(line);
    bool is_for_all = strncmp(line, "!tick ", 6) == 0 || strcmp(line, "help") == 0;
    for (struct device *at = devices; at < devices_end; at++) {
        if (name && strcmp(name, at->name) != 0 && strcmp(name, strchr(at->name, ':') + 1) != 0) continue;
        device = at;
        count++;
    }
    bool is_loose = strstr(line, "  ") || strchr(line, '\t') || line[strlen(line) - (*line != 0)] == ' ';
    char *rest = trimmed(line);
    size = strcspn(rest, BLANKS);
    name = cut(&rest, size);
    while (command < commands_end && (strcspn(command->form, " ") != size || strncmp(command->form, name, size) != 0)) command++;
    if (is_pasted && client == standard && in_stdio)
        say(client, TROUBLE, "error: this is no command; a frame is a line of candump -L, (1.000000) %s 605#40", device->interface);
    else if (count == 0) say(client, TROUBLE, "error: there is no such node, as %s is one", device->name);
    else if (count > 1 && !is_for_all) say(client, TROUBLE, "error: the node comes first, as %s", device->name);
    else if (command == commands_end || (*name == '!' && is_loose)) say(client, TROUBLE, "error: this is no command; help has them");
    else if (read_words(client, device, command, rest) && act(client, device, command->action) && !client->numbered)
        say(client, ANSWER, "ok");
}
