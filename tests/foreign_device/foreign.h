/* A CANopen device of another maker, a master, and the bus between them, by a clock of their own. */
#ifndef FOREIGN_H
#define FOREIGN_H

#include <stdbool.h>
#include <stddef.h>
#include <stdint.h>

typedef uint64_t micros;
#define NEVER UINT64_MAX
#define MILLISECOND 1000u
#define SECOND 1000000u

struct frame {
    uint16_t id;
    uint8_t length;
    uint8_t data[8];
};

/* What the device does otherwise than CiA 301 prescribes, in some of the cases where it could. */
enum mistake {
    HEARTBEAT_LATE, HEARTBEAT_STATE, HEARTBEAT_NO_STATE, HEARTBEAT_LENGTH, COMMAND_IGNORED,
    BOOT_UP_MISSING, BOOT_UP_TWICE,
    EMCY_STOPPED, EMCY_REGISTER, EMCY_LENGTH, EMCY_INHIBIT,
    ANSWER_MISSING, ANSWER_SLOW, ANSWER_TWICE, ANSWER_MULTIPLEXER, ANSWER_SPECIFIER, ANSWER_STOPPED,
    ABORT_MULTIPLEXER,
    VALUE_SIZE, VALUE_CONST, READ_REFUSED, READ_ONLY_WRITTEN, LIMITS_IGNORED, WRITE_FORGOTTEN,
    TOGGLE_WRONG, SEGMENT_SHORT, SIZE_WRONG, CRC_WRONG, BLOCK_SEQUENCE,
    TPDO_LENGTH, TPDO_PRE_OPERATIONAL, TPDO_INHIBIT, TPDO_WITHOUT_SYNC, TPDO_SYNC_COUNT, TPDO_EVENT_TIMER,
    MISTAKES
};

/* ---- main.c: the bus, dice, and which mistake is made */

unsigned dice(unsigned sides);
bool errs(enum mistake mistake);
void send_frame(bool by_device, micros ready, const struct frame *frame);
void drop_device_frames(uint16_t first, uint16_t last);

/* ---- entries.c: the object dictionaries */

enum type {
    BOOLEAN = 1, INTEGER16 = 3, UNSIGNED8 = 5, UNSIGNED16 = 6, UNSIGNED32 = 7, STRING = 9, OCTETS = 10, DOMAIN = 15
};
enum access { RO, CONST, RW };
#define ROOM 700

struct entry {
    uint16_t index;
    uint8_t sub;
    uint8_t type;
    uint8_t access;
    bool mappable;
    bool limited;
    int64_t low, high;
    int64_t preset;
    const char *text;
    uint32_t size;
    uint8_t value[ROOM];
};

extern struct entry *entries;
extern size_t entry_count;

bool choose_dictionary(const char *name);
void reset_entries(uint8_t node, bool only_communication);
struct entry *find_entry(uint16_t index, uint8_t sub);
bool has_index(uint16_t index);
uint32_t number_in(uint16_t index, uint8_t sub);
void set_number(uint16_t index, uint8_t sub, uint32_t number);
uint32_t width_of(const struct entry *entry);

/* ---- device.c: NMT, error control, EMCY and PDOs */

enum state { OFF = 1, INITIALISING = 0, STOPPED = 4, OPERATIONAL = 5, PRE_OPERATIONAL = 127 };

/* What CiA 301 leaves to the maker. */
struct choices {
    int parts_per_million;
    unsigned answer_delay, slow_answers;
    unsigned expedited_without_size, small_in_segments, size_left_out, short_segments;
    bool blocks, crc, switches, general_codes, ignores_strays, aborts_timeouts, silent_timeouts;
    uint8_t block_size;
    unsigned boot_millis;
    bool heartbeat_at_change, sends_at_start, keeps_errors, refuses_short_pdo;
    /* how many SYNCs earlier it sends a TPDO of type 2 to 240 first, than one that counts from the start */
    unsigned syncs_ahead;
};

extern struct choices choices;
extern enum state device_state;

void device_begin(uint8_t node);
void device_power(micros now, bool on);
void device_receive(micros now, const struct frame *frame);
void device_tick(micros now);
micros device_due(void);
uint32_t entry_refused(micros now, struct entry *entry, uint32_t number);
void entry_written(micros now, struct entry *entry);
micros span(micros time);

/* ---- server.c: the SDO server */

void server_reset(void);
void server_receive(micros now, uint8_t node, const struct frame *frame);
void server_tick(micros now, uint8_t node);
micros server_due(void);

/* ---- master.c */

void master_begin(uint8_t node);
void master_receive(micros now, const struct frame *frame);
void master_tick(micros now);
micros master_due(void);

#endif
