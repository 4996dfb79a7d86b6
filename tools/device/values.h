/* Words, and names and values of entries as people write them: the library gives numbers and bytes. */

static const bafokun_entry_info plain = { .original_type = 0x0F }; /* an entry of bytes: DOMAIN */
/* What a value is by its original data type: a number (u), one with a sign (i), a REAL (r), a text (t), or else bytes. */
static const char kinds[] = "-uiiiuuurt--uu--iriiiiu-uuuu-";
/* The names of the data types that an entry may have, or had before its sheet was adapted (CiA 301, 7.4.7.1). */
static const char *const type_names[] = {
    [0x01] = "BOOLEAN", "INTEGER8", "INTEGER16", "INTEGER32", "UNSIGNED8", "UNSIGNED16", "UNSIGNED32", "REAL32",
    "VISIBLE_STRING", "OCTET_STRING", "UNICODE_STRING", "TIME_OF_DAY", "TIME_DIFFERENCE", [0x0F] = "DOMAIN", "INTEGER24",
    "REAL64", "INTEGER40", "INTEGER48", "INTEGER56", "INTEGER64", "UNSIGNED24",
    [0x18] = "UNSIGNED40", "UNSIGNED48", "UNSIGNED56", "UNSIGNED64",
};

/* A number of digits alone. */
static bool read_number(const char *word, int base, uint64_t least, uint64_t most, uint64_t *number)
{
    errno = 0;
    *number = strtoull(word, NULL, base);
    return *word && !word[strspn(word, base == 16 ? DIGITS : "0123456789")] && errno == 0 && *number >= least && *number <= most;
}

/* The front of a text, cut off the rest and off the blanks between them. */
static char *cut(char **rest, size_t size)
{
    char *front = *rest;
    *rest += size + strspn(front + size, BLANKS);
    front[size] = 0;
    return front;
}

static char *trimmed(char *text)
{
    text += strspn(text, BLANKS);
    for (char *end = text + strlen(text); end > text && strchr(" \t\r", end[-1]); end--) end[-1] = 0;
    return text;
}

/* Keeps the names of a sheet's objects, since the library has those of entries alone. It cuts the text. */
static void name_objects(struct device *device, char *text)
{
    char **name = NULL, *line, last;
    unsigned short index;
    while ((line = strsep(&text, "\n"))) {
        const char *key = trimmed(strsep(&line, "="));
        if (*key == '[') name = sscanf(key, "[%4hx %c", &index, &last) == 2 && last == ']' ? &device->objects[index] : NULL;
        else if (name && line && strcasecmp(key, "ParameterName") == 0) *name = trimmed(line);
    }
}

/* How many bytes of a text are a name that it begins with. */
static size_t match(const char *text, const char *name)
{
    size_t length = strlen(name);
    return strncasecmp(text, name, length) == 0 && strchr(BLANKS, text[length]) ? length : 0;
}

/* The entry that a text begins with, by key, longest name or OBJECT.NAME: how many bytes that has. 0: it says why. */
static size_t find_entry(struct client *client, struct device *device, const char *text, bafokun_entry_info *found)
{
    static char full[2 * MOST_LINE];
    size_t number = 0, best = 0, count = 0;
    if (strspn(text, DIGITS) == 4 && text[4] == ':' && strspn(text + 5, DIGITS) == 2 && strchr(BLANKS, text[7])) {
        *found = plain;
        sscanf(text, "%4hx:%2hhx", &found->index, &found->sub_index);
        if (bafokun_find(&device->node, found->index, found->sub_index, &number)) bafokun_entry(&device->node, number, found);
        return 7;
    }
    for (bafokun_entry_info entry; bafokun_entry(&device->node, number, &entry); number++) {
        const char *object = device->objects[entry.index];
        snprintf(full, MOST_LINE, "%s.", object ? object : "");
        char *name = full + strlen(full);
        bafokun_entry_name(&device->node, number, name, MOST_LINE);
        size_t length = MAX(match(text, name), match(text, full));
        if (length == 0 || length < best) continue;
        count = length > best ? 1 : count + 1;
        if (length > best) *found = entry;
        best = length;
    }
    if (count == 1) return best;
    if (count == 0) return say(client, TROUBLE, "error: no entry has this name");
    return say(client, TROUBLE, "error: several entries have this name, first %04X:%02X: write OBJECT.NAME, or the key",
               found->index, found->sub_index);
}

/* The bytes of a REAL of this size, of a number in decimal, inf or NaN. False: the text is none of these, or outside the type. */
static bool read_real(const char *text, size_t size, uint8_t *bytes)
{
    char *end;
    float single = size == sizeof single ? strtof(text, &end) : 0;
    double number = size == sizeof single ? (double)single : strtod(text, &end);
    memcpy(bytes, size == sizeof single ? (void *)&single : &number, size);
    if (strcasecmp(text + (*text == '-'), "inf") == 0 || strcasecmp(text, "NaN") == 0) return true;
    return *text && !*end && !text[strspn(text, "0123456789+-.eE")] && isfinite(number);
}

/* Writes a REAL in decimal, with as few digits as are read as the same number. */
static void write_real(const uint8_t *bytes, size_t size, char *text)
{
    float single = 0;
    double number = 0;
    uint8_t again[sizeof number];
    memcpy(size == sizeof single ? (void *)&single : &number, bytes, size);
    if (size == sizeof single) number = (double)single;
    if (isnan(number)) strcpy(text, "NaN");
    for (int digits = size == sizeof single ? FLT_DIG : DBL_DIG; !isnan(number) && digits <= DBL_DIG + 2; digits++) {
        sprintf(text, "%.*g", digits, number);
        if (read_real(text, size, again) && memcmp(again, bytes, size) == 0) return;
    }
}

/*
 * The bytes of a value as write_value writes it, or of a number as 0x and as many bits as the entry has. False: it is no such value. Bytes
 * of a number are in the order of the machine, as the library is for little-endian machines alone.
 */
static bool bytes_of(const bafokun_entry_info *entry, const char *text, uint8_t *bytes, size_t *length)
{
    char kind = kinds[MIN(entry->original_type, sizeof kinds - 2)];
    bool is_number = kind == 'u' || kind == 'i' || kind == 'r';
    bool is_negative = kind == 'i' && *text == '-', is_hex = strncasecmp(text, "0x", 2) == 0;
    uint64_t number = 0, most = !is_number ? 0 : entry->original_type == 0x01 ? 1 : UINT64_MAX >> (64 - 8 * entry->capacity);
    if (kind == 'r' && !is_hex) return read_real(text, *length = entry->capacity, bytes);
    if (kind == 'i' && !is_hex) most = most / 2 + is_negative;
    if (is_number && !read_number(text + (is_hex ? 2 : is_negative), is_hex ? 16 : 10, 0, most, &number)) return false;
    if (is_negative) number = 0 - number;
    *length = is_number ? entry->capacity : 0;
    memcpy(bytes, &number, *length);
    while (*text && !is_number) {
        bool is_char = kind == 't' && *text != '\\', is_escaped = kind == 't' && strncmp(text, "\\x", 2) == 0;
        const char *digits = text + 2 * is_escaped;
        if (!is_char && !(isxdigit((unsigned char)digits[0]) && isxdigit((unsigned char)digits[1]))) return false;
        bytes[(*length)++] = (uint8_t)(is_char ? *text : strtol((char[]){ digits[0], digits[1], 0 }, NULL, 16));
        text = is_char ? text + 1 : digits + 2;
    }
    return true;
}

/* Writes a number in decimal, a text where \xHH is any byte, else digits. */
static void write_value(const bafokun_entry_info *entry, const uint8_t *bytes, size_t length, char *text)
{
    char kind = kinds[MIN(entry->original_type, sizeof kinds - 2)];
    uint64_t number = 0;
    *text = 0;
    if (kind == 'u' || kind == 'i') memcpy(&number, bytes, length);
    if (kind == 'u') sprintf(text, "%" PRIu64, number);
    if (kind == 'i') sprintf(text, "%" PRId64, (int64_t)(number << (64 - 8 * length)) >> (64 - 8 * length));
    if (kind == 'r') write_real(bytes, length, text);
    for (const uint8_t *at = bytes; at < bytes + length && (kind == 't' || kind == '-'); at++) {
        bool is_char = kind == 't' && *at >= ' ' && *at != 127 && *at != '\\' && (length > 1 || *at != '-');
        text += sprintf(text, kind == '-' ? "%02X" : is_char ? "%c" : "\\x%02X", *at);
    }
}
