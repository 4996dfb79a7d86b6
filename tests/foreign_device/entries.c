/* The object dictionaries of the device: those of examples/io-module.eds and examples/temperature-sensor.eds. */
#include "foreign.h"

#include <string.h>

#define NUMBER(i, s, t, a, p) {.index = i, .sub = s, .type = t, .access = a, .preset = p}
#define LIMITED(i, s, t, a, p, l, h) \
    {.index = i, .sub = s, .type = t, .access = a, .preset = p, .limited = true, .low = l, .high = h}
#define MAPPED(i, s, t, a, p) {.index = i, .sub = s, .type = t, .access = a, .preset = p, .mappable = true}
#define ANALOGUE_OUTPUT(s) \
    {.index = 0x6411, .sub = s, .type = INTEGER16, .access = RW, .mappable = true, .limited = true, .low = -32767, \
     .high = 32767}
#define TEXT(i, s, t, a, x) {.index = i, .sub = s, .type = t, .access = a, .text = x}
#define COUNT(i, n) NUMBER(i, 0, UNSIGNED8, RO, n)
/* the node-ID is added */
#define PLUS_NODE 0x100000000

#define COMMUNICATION(i, cob) \
    NUMBER(i, 1, UNSIGNED32, RW, PLUS_NODE + cob), NUMBER(i, 2, UNSIGNED8, RW, 0xFF)
#define TIMES(i, inhibit) NUMBER(i, 3, UNSIGNED16, RW, inhibit), NUMBER(i, 5, UNSIGNED16, RW, 0)
#define MAPPING(i, n, a, b, c, d) \
    LIMITED(i, 0, UNSIGNED8, RW, n, 0, 4), NUMBER(i, 1, UNSIGNED32, RW, a), NUMBER(i, 2, UNSIGNED32, RW, b), \
    NUMBER(i, 3, UNSIGNED32, RW, c), NUMBER(i, 4, UNSIGNED32, RW, d)
#define IDENTITY(vendor, product, revision) \
    NUMBER(0x1018, 1, UNSIGNED32, RO, vendor), NUMBER(0x1018, 2, UNSIGNED32, RO, product), \
    NUMBER(0x1018, 3, UNSIGNED32, RO, revision), NUMBER(0x1018, 4, UNSIGNED32, RO, 20713)
#define PAIR(i, type, access, preset) \
    COUNT(i, 2), NUMBER(i, 1, type, access, preset), NUMBER(i, 2, type, access, preset)

static struct entry module[] = {
    NUMBER(0x1000, 0, UNSIGNED32, RO, 0x000F0191),
    MAPPED(0x1001, 0, UNSIGNED8, RO, 0),
    NUMBER(0x1003, 0, UNSIGNED8, RW, 0), NUMBER(0x1003, 1, UNSIGNED32, RO, 0), NUMBER(0x1003, 2, UNSIGNED32, RO, 0),
    NUMBER(0x1003, 3, UNSIGNED32, RO, 0), NUMBER(0x1003, 4, UNSIGNED32, RO, 0),
    NUMBER(0x1005, 0, UNSIGNED32, RW, 0x80),
    TEXT(0x1008, 0, STRING, CONST, "CIO-40"), TEXT(0x1009, 0, STRING, CONST, "B2"),
    TEXT(0x100A, 0, STRING, CONST, "2.1.4"),
    NUMBER(0x1014, 0, UNSIGNED32, RW, PLUS_NODE + 0x80),
    NUMBER(0x1015, 0, UNSIGNED16, RW, 0),
    PAIR(0x1016, UNSIGNED32, RW, 0),
    NUMBER(0x1017, 0, UNSIGNED16, RW, 0),
    COUNT(0x1018, 4), IDENTITY(0xF2C4, 0x00280401, 0x00020001),
    COUNT(0x1029, 1), LIMITED(0x1029, 1, UNSIGNED8, RW, 0, 0, 2),
    COUNT(0x1200, 2), NUMBER(0x1200, 1, UNSIGNED32, RO, PLUS_NODE + 0x600),
    NUMBER(0x1200, 2, UNSIGNED32, RO, PLUS_NODE + 0x580),
    COUNT(0x1400, 2), COMMUNICATION(0x1400, 0x200),
    COUNT(0x1401, 2), COMMUNICATION(0x1401, 0x300),
    MAPPING(0x1600, 2, 0x62000108, 0x62000208, 0, 0),
    MAPPING(0x1601, 2, 0x64110110, 0x64110210, 0, 0),
    COUNT(0x1800, 5), COMMUNICATION(0x1800, 0x40000180), TIMES(0x1800, 0),
    COUNT(0x1801, 5), COMMUNICATION(0x1801, 0x40000280), TIMES(0x1801, 100),
    MAPPING(0x1A00, 2, 0x60000108, 0x60000208, 0, 0),
    MAPPING(0x1A01, 4, 0x64010110, 0x64010210, 0x64010310, 0x64010410),
    TEXT(0x2003, 0, OCTETS, RO, "\x00\xA1\xFF\x3C\x00\xA2\xFF\x3B"),
    MAPPED(0x2000, 0, UNSIGNED16, RO, 24013),
    LIMITED(0x2001, 0, UNSIGNED8, RW, 3, 0, 100),
    TEXT(0x2002, 0, STRING, RW, "CIO-40"),
    TEXT(0x2F00, 0, DOMAIN, RO, NULL),
    COUNT(0x6000, 2), MAPPED(0x6000, 1, UNSIGNED8, RO, 0), MAPPED(0x6000, 2, UNSIGNED8, RO, 0),
    PAIR(0x6002, UNSIGNED8, RW, 0),
    LIMITED(0x6005, 0, BOOLEAN, RW, 1, 0, 1),
    COUNT(0x6200, 2), MAPPED(0x6200, 1, UNSIGNED8, RW, 0), MAPPED(0x6200, 2, UNSIGNED8, RW, 0),
    PAIR(0x6206, UNSIGNED8, RW, 0xFF),
    PAIR(0x6207, UNSIGNED8, RW, 0),
    COUNT(0x6401, 4), MAPPED(0x6401, 1, INTEGER16, RO, 100), MAPPED(0x6401, 2, INTEGER16, RO, -200),
    MAPPED(0x6401, 3, INTEGER16, RO, 300), MAPPED(0x6401, 4, INTEGER16, RO, -400),
    COUNT(0x6411, 2),
    ANALOGUE_OUTPUT(1), ANALOGUE_OUTPUT(2),
    LIMITED(0x6423, 0, BOOLEAN, RW, 0, 0, 1),
    COUNT(0x6426, 4), NUMBER(0x6426, 1, UNSIGNED32, RW, 0), NUMBER(0x6426, 2, UNSIGNED32, RW, 0),
    NUMBER(0x6426, 3, UNSIGNED32, RW, 0), NUMBER(0x6426, 4, UNSIGNED32, RW, 0),
    COUNT(0x6443, 2), LIMITED(0x6443, 1, UNSIGNED8, RW, 1, 0, 1), LIMITED(0x6443, 2, UNSIGNED8, RW, 1, 0, 1),
    PAIR(0x6444, UNSIGNED32, RW, 0),
};

static struct entry sensor[] = {
    NUMBER(0x1000, 0, UNSIGNED32, RO, 0x00020194),
    NUMBER(0x1001, 0, UNSIGNED8, RO, 0),
    TEXT(0x1008, 0, STRING, CONST, "TS1-PT100"),
    NUMBER(0x1017, 0, UNSIGNED16, RW, 1000),
    NUMBER(0x1018, 0, UNSIGNED8, CONST, 4), IDENTITY(0xF1A2, 0x101, 0x00010003),
    NUMBER(0x6110, 0, UNSIGNED8, CONST, 1), NUMBER(0x6110, 1, UNSIGNED16, RO, 30),
    NUMBER(0x6131, 0, UNSIGNED8, CONST, 1), NUMBER(0x6131, 1, UNSIGNED32, RO, 0x002D0000),
    NUMBER(0x6132, 0, UNSIGNED8, CONST, 1), NUMBER(0x6132, 1, UNSIGNED8, RO, 1),
    NUMBER(0x6150, 0, UNSIGNED8, CONST, 1), NUMBER(0x6150, 1, UNSIGNED8, RO, 0),
    NUMBER(0x7130, 0, UNSIGNED8, CONST, 1), NUMBER(0x7130, 1, INTEGER16, RO, 215),
    LIMITED(0x2000, 0, UNSIGNED16, RW, 1000, 10, 60000),
    LIMITED(0x2010, 0, INTEGER16, RW, 0, -100, 100),
    TEXT(0x2011, 0, STRING, RW, "2022-11-07"),
};

struct entry *entries;
size_t entry_count;

bool choose_dictionary(const char *name)
{
    if (strcmp(name, "module") == 0) {
        entries = module;
        entry_count = sizeof module / sizeof *module;
    } else if (strcmp(name, "sensor") == 0) {
        entries = sensor;
        entry_count = sizeof sensor / sizeof *sensor;
    } else {
        return false;
    }
    return true;
}

uint32_t width_of(const struct entry *entry)
{
    switch (entry->type) {
    case BOOLEAN: case UNSIGNED8: return 1;
    case INTEGER16: case UNSIGNED16: return 2;
    case UNSIGNED32: return 4;
    default: return 0;
    }
}

static void preset(struct entry *entry, uint8_t node)
{
    if (entry->type == DOMAIN) {
        entry->size = 611;
        for (uint32_t place = 0; place < entry->size; place++)
            entry->value[place] = (uint8_t)(place * 7 + place / 90);
    } else if (entry->text != NULL) {
        entry->size = entry->type == OCTETS ? 8 : (uint32_t)strlen(entry->text);
        memcpy(entry->value, entry->text, entry->size);
    } else {
        int64_t number = entry->preset >= PLUS_NODE ? entry->preset - PLUS_NODE + node : entry->preset;
        entry->size = width_of(entry);
        for (unsigned place = 0; place < entry->size; place++)
            entry->value[place] = (uint8_t)(number >> (8 * place));
    }
}

void reset_entries(uint8_t node, bool only_communication)
{
    for (size_t at = 0; at < entry_count; at++)
        if (!only_communication || entries[at].index < 0x2000) preset(&entries[at], node);
}

struct entry *find_entry(uint16_t index, uint8_t sub)
{
    for (size_t at = 0; at < entry_count; at++)
        if (entries[at].index == index && entries[at].sub == sub) return &entries[at];
    return NULL;
}

bool has_index(uint16_t index)
{
    return find_entry(index, 0) != NULL || find_entry(index, 1) != NULL;
}

uint32_t number_in(uint16_t index, uint8_t sub)
{
    const struct entry *entry = find_entry(index, sub);
    uint32_t number = 0;
    if (entry == NULL) return 0;
    for (uint32_t place = 0; place < entry->size && place < 4; place++)
        number |= (uint32_t)entry->value[place] << (8 * place);
    return number;
}

void set_number(uint16_t index, uint8_t sub, uint32_t number)
{
    struct entry *entry = find_entry(index, sub);
    if (entry == NULL) return;
    for (uint32_t place = 0; place < entry->size; place++)
        entry->value[place] = (uint8_t)(number >> (8 * place));
}
