/*
 * Bafokun: a CANopen device node (CiA 301 v4.2) from an EDS (CiA 306), for C programs.
 *
 * The program owns the bus, the clock and the values. It passes the node each received CAN frame, a
 * tick each millisecond, and the events of the application; the node returns the frames to be sent,
 * in order.
 *
 *     bafokun_node node = BAFOKUN_EMPTY;
 *     if (!bafokun_build(&node, eds, sizeof eds - 1, 5, &config, &fault)) ...
 *     count = bafokun_boot(&node, frames, BAFOKUN_MOST_FRAMES);     send frames[0] to frames[count - 1]
 *     count = bafokun_tick(&node, frames, BAFOKUN_MOST_FRAMES);     each ms
 *     count = bafokun_take(&node, &frame, frames, BAFOKUN_MOST_FRAMES);
 *
 * For Linux with glibc, on every x86-64 processor and on 64-bit ARM. Link with libbafokun.a or
 * libbafokun.so alone; it calls malloc, realloc and free of the program. A program finds the latter
 * as libbafokun.so.0, a link beside it that bin/libbafokun and bin/install make.
 *
 * Rules for every call:
 * - No pointer is NULL, even if its count is 0, and each is aligned as its type is. An array has as
 *   many elements as its count states.
 * - What a call writes (node, frames, bytes, length, fault, abort_code, elapsed, entry, events,
 *   number, text) overlaps no other argument.
 * - A node is in one call at a time, and each call ends before the next begins: a question too, since
 *   each call may write the node. So no call comes from a signal handler or an interrupt, and none is
 *   left by longjmp. Different nodes may be used in different threads: there is no data that they
 *   share.
 * - A node begins as BAFOKUN_EMPTY, all bytes 0, as static memory is, and only the calls below write
 *   it. It may be moved, not copied.
 *   While it is empty, all calls but bafokun_build do nothing and return 0 or false; bafokun_idle
 *   returns BAFOKUN_FOREVER, bafokun_ticks sets elapsed to most, bafokun_answer sets abort_code to 0,
 *   and bafokun_entry_name puts an empty text.
 * - Arguments stay the caller's; none is used after the call, the text of the EDS included.
 * - Only bafokun_build allocates memory. It and bafokun_free free the memory of a device.
 * - malloc aligns blocks to 16 bytes, and malloc, realloc and free belong together. malloc and realloc
 *   may return NULL.
 * - The stack has room: bafokun_build took 42 KB on x86-64, bafokun_free 10, any other call 6 (measured
 *   with 0.35.0, not proved).
 * After the build the calls may come in any order. Each returns, and none waits for anything;
 * bafokun_build takes ms, and bafokun_ticks time for each ms.
 * Numbers are in the byte order of the machine; the bytes of an entry and of a frame are in that of
 * CANopen, least significant byte first.
 */
#ifndef BAFOKUN_H
#define BAFOKUN_H

#include <stdbool.h>
#include <stddef.h>
#include <stdint.h>

#ifdef __cplusplus
extern "C" {
#endif

#define BAFOKUN_VERSION "0.39.0"
#define BAFOKUN_VERSION_MAJOR 0
#define BAFOKUN_VERSION_MINOR 39
#define BAFOKUN_VERSION_PATCH 0

/* The version as a number: a byte for each of the three, the last in the lowest byte. */
#define BAFOKUN_VERSION_NUMBER (BAFOKUN_VERSION_MAJOR << 16 | BAFOKUN_VERSION_MINOR << 8 | BAFOKUN_VERSION_PATCH)

/*
 * That of the library: another one than the header's if a program runs with a libbafokun.so that it
 * wasn't compiled for.
 */
uint32_t bafokun_version(void);

/* No input gives more frames: an array of so many has room for all. */
#define BAFOKUN_MOST_FRAMES 514

/* The place of a device. 16 bytes on a machine of 64 bits; only the calls below look into it. */
typedef struct bafokun_node {
    size_t built;
    void *device;
} bafokun_node;

#define BAFOKUN_EMPTY { 0, NULL }

/* A CAN data frame with an identifier of 11 bits. 12 bytes, no padding. */
typedef struct bafokun_frame {
    uint16_t id;      /* 0 to 7FFh */
    uint16_t length;  /* how many data bytes there are, 0 to 8 */
    uint8_t bytes[8]; /* those past length are 0 in a frame that is sent, and not looked at in one that is received */
} bafokun_frame;

/* What an EDS leaves open. 6 bytes, no padding. */
typedef struct bafokun_config {
    uint16_t strings; /* bytes that each string has room for that SDO clients may write; a longer default makes more
                         room. One that is BAFOKUN_RO or _CONST has room for its default, without one none */
    uint16_t domains; /* bytes that each domain has room for, whatever its access */
    uint16_t time;    /* SDO timeout in ms; 0: none */
} bafokun_config;

/* Why there is no device. 16 bytes, no padding. */
typedef struct bafokun_fault {
    uint64_t line;      /* of the EDS, from 1; 0 where no line is to blame, and for a fault of the device */
    uint16_t stage;     /* BAFOKUN_FAULT_NONE, _SHEET or _DEVICE */
    uint16_t number;    /* 1 to 20 of an EDS, 1 to 7 of a device; docs/SHEETS.md has each, and how to fix it */
    uint16_t index;     /* the entry that a fault of the device names, else 0 */
    uint16_t sub_index;
} bafokun_fault;

#define BAFOKUN_FAULT_NONE 0
#define BAFOKUN_FAULT_SHEET 1
#define BAFOKUN_FAULT_DEVICE 2

/* The number of the fault "out of memory", of an EDS and of a device. */
#define BAFOKUN_SHEET_MEMORY 20
#define BAFOKUN_DEVICE_MEMORY 7

/* An entry of the object dictionary. 24 bytes on a machine of 64 bits, no padding. */
typedef struct bafokun_entry_info {
    uint16_t index;
    uint8_t sub_index;
    uint8_t access;         /* of SDO clients and PDOs: BAFOKUN_RO to BAFOKUN_CONST */
    uint16_t type;          /* the code of its data type (CiA 301, 7.4.7.1): 5 UNSIGNED8, 9 VISIBLE_STRING, and so on */
    uint16_t original_type; /* where conode adapt put that type in its place, the one before: 8 REAL32, 11h REAL64, 0Bh
                               UNICODE_STRING, 0Ch TIME_OF_DAY, 0Dh TIME_DIFFERENCE; else the same as type */
    size_t capacity;        /* bytes that it has room for */
    size_t length;          /* bytes that it has now */
} bafokun_entry_info;

/* The access of an entry, AccessType (CiA 306): ro, wo, rw, rwr, rww, const. */
#define BAFOKUN_RO 1
#define BAFOKUN_WO 2
#define BAFOKUN_RW 3
#define BAFOKUN_RWR 4
#define BAFOKUN_RWW 5
#define BAFOKUN_CONST 6

/*
 * What happened to a device since the program asked: 1 is yes, 0 is no. 390 bytes, no padding. The
 * arrays are by node-ID, of the other nodes whose heartbeat 1016h monitors.
 */
typedef struct bafokun_events {
    uint8_t reset_node;          /* the NMT service reset node: each entry has its default again */
    uint8_t reset_communication; /* the NMT service reset communication: those of 1000h to 1FFFh have */
    uint8_t state;               /* the last NMT state that was entered: BAFOKUN_STOPPED, _OPERATIONAL or
                                    _PRE_OPERATIONAL, which a reset enters too; 0 if none was */
    uint8_t sync;                /* a SYNC was received, and the device wasn't stopped */
    uint8_t rpdo;                /* a frame of an active RPDO was received, and the device was operational. If the
                                    RPDO is synchronous, its data take effect at the next SYNC */
    uint8_t heartbeat;           /* a heartbeat was lost or is back */
    uint8_t lost[128];           /* the heartbeat of this node was lost */
    uint8_t back[128];           /* a heartbeat of this node was received, the first after a loss */
    uint8_t silent[128];         /* now: the heartbeat of this node is lost. This isn't forgotten */
} bafokun_events;

/* What bafokun_idle returns where nothing is ever due. */
#define BAFOKUN_FOREVER UINT32_MAX

/* NMT states, as the byte of a heartbeat (CiA 301, 7.2.8.3.2). */
#define BAFOKUN_STOPPED 4
#define BAFOKUN_OPERATIONAL 5
#define BAFOKUN_PRE_OPERATIONAL 127

/* Changes of the CAN controller. */
#define BAFOKUN_BUS_ACTIVE 0    /* error active again, after error passive or once it has recovered */
#define BAFOKUN_BUS_PASSIVE 1   /* error passive */
#define BAFOKUN_BUS_OFF 2       /* bus-off */
#define BAFOKUN_BUS_RECOVERED 3 /* recovered from bus-off */

/* Answers to an event of the application. */
#define BAFOKUN_NO_EVENT 0
#define BAFOKUN_DONE 1
#define BAFOKUN_REFUSED 2

/*
 * Builds the device of an EDS, a text of text_length bytes, at a node-ID, 1 to 127, in state
 * pre-operational. The text needs no 0 after it, and has at most 1,048,576 bytes. A device that the
 * place had is freed first, also if the build then fails. Returns whether there is a device; if not,
 * fault is the reason, and the place is empty. If malloc or realloc returns NULL, that is
 * BAFOKUN_SHEET_MEMORY or BAFOKUN_DEVICE_MEMORY, and all memory of the build is freed. If there is a
 * device, fault is BAFOKUN_FAULT_NONE. The NodeID of a device configuration file isn't read.
 */
bool bafokun_build(bafokun_node *node, const char *text, size_t text_length, uint8_t node_id,
                   const bafokun_config *config, bafokun_fault *fault);

/* Frees the device and its memory. The place is then empty, and can be filled again. */
void bafokun_free(bafokun_node *node);

/*
 * Inputs. Each puts the frames that the device then sends into frames, as many as there is room
 * for, in the order in which they are to be sent. It returns how many there are, at most
 * BAFOKUN_MOST_FRAMES. If there is no room for all, bafokun_sent returns the others, until the next
 * input. Places of the array past them stay as they are.
 */

/*
 * The boot-up (CiA 301, 7.2.8.3.3): one frame, to be sent once after the build. Another call puts the
 * same frame again, 700h + node-ID with a byte 0, and changes neither the NMT state nor the answer.
 * The boot-up after a reset comes by itself. The device works without this call too.
 */
size_t bafokun_boot(bafokun_node *node, bafokun_frame *frames, size_t room);

/*
 * A data frame with an identifier of 11 bits was received from another node: no remote frame, no
 * error frame of the driver, no frame that this device sent. One with an identifier above 7FFh, or
 * with more than 8 bytes, is no input: it sends nothing, and bafokun_sent and bafokun_answer still
 * return what they did. An NMT command (identifier 0) of more than two bytes, as some masters send it,
 * has no effect.
 */
size_t bafokun_take(bafokun_node *node, const bafokun_frame *frame, bafokun_frame *frames, size_t room);

/* 1 ms elapsed. */
size_t bafokun_tick(bafokun_node *node, bafokun_frame *frames, size_t room);

/*
 * Several ms elapsed, up to most: for a program that wakes up late, or slept for as long as
 * bafokun_idle returned. The ticks end with the first that sends frames, so that these are sent
 * before the next tick. elapsed is how many elapsed: all, if none sends frames.
 *
 *     for (; late > 0; late -= elapsed)
 *         send(frames, bafokun_ticks(&node, late, &elapsed, frames, BAFOKUN_MOST_FRAMES));
 *
 * It takes some 10 ns for each ms on a PC, about a second for a day. For an empty node all elapse, and
 * nothing happens. With most 0 none elapses, and bafokun_sent then returns no frame.
 */
size_t bafokun_ticks(bafokun_node *node, uint32_t most, uint32_t *elapsed, bafokun_frame *frames, size_t room);

/*
 * The application writes an entry, even if SDO clients may only read it: all its bytes, as many as
 * its type has, of a string or a domain at most as many as it has room for (bafokun_config).
 * bafokun_answer returns whether it was done: an entry that is BAFOKUN_CONST, or a parameter of an SDO
 * channel (1200h to 127Fh), is refused with the SDO abort code 06010002h. A missing entry, another
 * number of bytes, a value outside the limits, or one that the entry's own rule refuses, is refused
 * with the code that an SDO client gets: 06070012h for a string that is too long, 06090030h for 1 in
 * 1019h, 08000022h for a mapping while its PDO is valid, 08000020h for 1010h. A program that changes
 * COB-IDs or mappings does so in a client's steps.
 */
size_t bafokun_write(bafokun_node *node, uint16_t index, uint8_t sub_index, const uint8_t *bytes, size_t length,
                     bafokun_frame *frames, size_t room);

/*
 * The same for the entry with a number, that of bafokun_find or bafokun_entry, without a search. If
 * no entry has the number, the write is refused with the SDO abort code 06020000h.
 */
size_t bafokun_write_at(bafokun_node *node, size_t number, const uint8_t *bytes, size_t length,
                        bafokun_frame *frames, size_t room);

/*
 * An event of a TPDO: number 0 is that of 1800h. In state operational an active TPDO of transmission
 * type 254 or 255 is sent, at once or when its inhibit time is over, and one of type 0 at the next
 * SYNC. An event of any other TPDO has no effect, and is BAFOKUN_DONE too; if no TPDO has the
 * number, it is refused with the SDO abort code 06020000h.
 */
size_t bafokun_event(bafokun_node *node, uint16_t tpdo, bafokun_frame *frames, size_t room);

/* The value of an entry changed: an event of each active TPDO that maps it. */
size_t bafokun_changed(bafokun_node *node, uint16_t index, uint8_t sub_index, bafokun_frame *frames, size_t room);

/*
 * An error is raised: its emergency error code, other than 0, the bits that it sets in the error
 * register (1001h) besides bit 0, and five manufacturer-specific bytes (CiA 301, 7.2.7). Code 0 is
 * refused with the SDO abort code 06090030h. Each call sends an emergency, also if the bits are set:
 * call it once an error. It is sent at once, or when the inhibit time of 1015h is over; it waits while
 * the device is stopped, or 1014h is no valid COB-ID. At most eight emergencies wait; a ninth
 * overwrites the oldest, and the answer is BAFOKUN_DONE all the same.
 */
size_t bafokun_raise(bafokun_node *node, uint16_t code, uint8_t bits, const uint8_t manufacturer[5],
                     bafokun_frame *frames, size_t room);

/*
 * Errors are gone: these bits of the error register are cleared, whichever error set them, and no
 * others. Add bit 0 when the last error ends; error passive is one too, and has bits 0 and 4. Each call
 * sends an emergency of code 0 with the bits that are left, also if none changes, as with bits 0: call
 * it once an error that ends. The device clears bits at a reset and at BAFOKUN_BUS_ACTIVE alone, so
 * those of the errors that it finds itself (8130h, 8200h, 8210h, 8220h, 8240h) stay too: bits 0 and 4.
 */
size_t bafokun_clear(bafokun_node *node, uint8_t bits, bafokun_frame *frames, size_t room);

/*
 * The CAN controller changed. BAFOKUN_BUS_PASSIVE raises error 8120h, BAFOKUN_BUS_RECOVERED 8140h,
 * each with bit 4 of the error register, communication error. BAFOKUN_BUS_ACTIVE ends them: it clears
 * bit 4 if they alone have set it, and bit 0 if no other bit is left then; it sends an emergency of
 * code 0 with the bits that are left.
 * - Bit 4 stays if another error had set it when they were raised, or if since then a heartbeat was
 *   lost (8130h), bafokun_raise raised an error that has it, or bafokun_write wrote it into 1001h.
 * - Bit 0 stays if bafokun_raise raised an error that has no other bit, or bafokun_write wrote bit 0
 *   into 1001h, before them or since: until bafokun_clear clears bit 0, or a reset.
 * - Not known is an error that the device finds in an RPDO or a SYNC while bit 4 is set by them (8200h,
 *   8210h, 8220h, 8240h), nor what an SDO client or an RPDO writes into 1001h, where the EDS permits it:
 *   bit 4 is cleared all the same. To keep it, write the value of 1001h into it by bafokun_write.
 *
 * BAFOKUN_BUS_OFF changes the NMT state by 1029:01, as a lost heartbeat does: 0, or a missing entry,
 * leaves operational for pre-operational, 2 enters stopped, any other value changes nothing. A
 * bus-off that changes nothing, and any other number of a change, is no input: it sends nothing,
 * bafokun_sent then returns no frame, and bafokun_answer still returns the answer to the input
 * before it.
 *
 * After bus-off come BAFOKUN_BUS_RECOVERED and BAFOKUN_BUS_ACTIVE. Call this only at a change: an
 * error that is raised again sends its emergency again.
 */
size_t bafokun_bus(bafokun_node *node, uint8_t change, bafokun_frame *frames, size_t room);

/*
 * The frames of the last input, starting with number from (0 is the first): put and counted as by
 * an input, so the result is how many there are from that one on.
 */
size_t bafokun_sent(bafokun_node *node, size_t from, bafokun_frame *frames, size_t room);

/*
 * Questions: none changes the state of the device, nor what bafokun_sent returns.
 * bafokun_next_changed and bafokun_happened forget what they returned.
 */

/*
 * Gets the bytes of an entry: as many as there is room for are put into bytes, and length is how
 * many the entry has. Returns whether there is such an entry; if not, nothing is written.
 */
bool bafokun_value(bafokun_node *node, uint16_t index, uint8_t sub_index, uint8_t *bytes, size_t room, size_t *length);

/* The same for the entry with a number, that of bafokun_find or bafokun_entry, without a search. */
bool bafokun_value_at(bafokun_node *node, size_t number, uint8_t *bytes, size_t room, size_t *length);

/*
 * Entries by their number: from 0 on, by increasing index and sub-index. An entry keeps its number
 * until the device is freed. A device that is built of the same EDS has the same numbers; in
 * another device a number may be that of another entry.
 *
 *     for (number = 0; bafokun_entry(&node, number, &entry); number++)
 *         ...
 */

/* Gets the entry with this number. Returns whether there is one; if not, nothing is written. */
bool bafokun_entry(bafokun_node *node, size_t number, bafokun_entry_info *entry);

/*
 * Gets the name of an entry, its ParameterName: put into text with a 0 after it, and truncated if
 * there is less room; with room 0 nothing is written. Returns the length of the whole name without
 * the 0: 0 if it has none, or if there is no such entry.
 */
size_t bafokun_entry_name(bafokun_node *node, size_t number, char *text, size_t room);

/*
 * Gets the number of the entry with this index and sub-index. Returns whether there is one; if not,
 * nothing is written.
 */
bool bafokun_find(bafokun_node *node, uint16_t index, uint8_t sub_index, size_t *number);

/*
 * Gets the first entry, starting with number from, that an SDO download, an RPDO or a reset has set
 * since the last result of this call for the entry, or since the build: also to the bytes that it
 * had, and however often. Returns whether there is one. If so, its number is put into number, and it
 * isn't found again until it is set again; if not, nothing is written.
 *
 *     for (number = 0; bafokun_next_changed(&node, number, &number); number++)
 *         ...
 *
 * After each frame, or once a cycle, this loop visits once each entry that was set since then, by
 * increasing number. A download sets its entry when it is complete and accepted. An RPDO sets the
 * entries that it maps when its data take effect: at once or at a SYNC, and none of them if a value
 * is outside its limits. Reset node sets all entries, reset communication those from 1000h to 1FFFh.
 * After the build none is set. What the program itself writes is not found, nor what an error sets
 * (1001h, 1003h); an entry that was set before the program wrote it is.
 */
bool bafokun_next_changed(bafokun_node *node, size_t from, size_t *number);

/* The node-ID, 1 to 127. */
uint8_t bafokun_node_id(bafokun_node *node);

/* The NMT state: BAFOKUN_STOPPED, _OPERATIONAL or _PRE_OPERATIONAL. */
uint8_t bafokun_state(bafokun_node *node);

/*
 * During this many ms the device sends nothing, and its entries and its NMT state stay the same, if
 * it gets no other input: a lower bound, which any input may change. BAFOKUN_FOREVER: nothing waits
 * for time, so nothing becomes due however long nothing is received; also for an empty node. A
 * program may wait for a frame until one ms more has elapsed, and then pass these ms at once, by
 * bafokun_ticks, which takes time for each: so wait a minute at most.
 *
 *     idle = bafokun_idle(&node);
 *     poll(&bus, 1, idle < 60000 ? (int)idle + 1 : 60000);
 */
uint32_t bafokun_idle(bafokun_node *node);

/*
 * Gets what happened to the device since the last result of this call, or since the build: what the
 * inputs did. Returns whether anything happened. If so, it is put into events, and is then forgotten,
 * but for silent; if not, nothing is written. Of the errors that the device finds itself, 8130h comes
 * with heartbeat, the others with rpdo or sync; bafokun_value returns 1001h and 1003h.
 *
 *     if (bafokun_happened(&node, &events) && (events.reset_node || events.reset_communication))
 *         write the measurements anew
 */
bool bafokun_happened(bafokun_node *node, bafokun_events *events);

/*
 * The answer to the last input: BAFOKUN_DONE, or BAFOKUN_REFUSED with the SDO abort code in
 * abort_code, which is 0 otherwise; a refused event changes nothing. BAFOKUN_NO_EVENT if the last
 * input was no event of the application, but a frame, a tick, or a BAFOKUN_BUS_OFF that had an
 * effect, or if there was none since the build; the other changes of bafokun_bus are events.
 * bafokun_boot leaves the answer as it is.
 */
uint8_t bafokun_answer(bafokun_node *node, uint32_t *abort_code);

/*
 * How many bytes are held for the transfer of an SDO channel: at most the capacity of the
 * transferred entry plus 889. Channel 0 is that of 1200h. 0 if there is no such channel.
 */
size_t bafokun_held(bafokun_node *node, uint8_t channel);

/*
 * Texts for users, in English, without a node. A text is put into text with a 0 after it, and
 * truncated if there is less room; with room 0 nothing is written. The result is the length of the
 * whole text without the 0: less than 128.
 */

/* The meaning of a fault that bafokun_build has written; empty for BAFOKUN_FAULT_NONE. */
size_t bafokun_fault_text(const bafokun_fault *fault, char *text, size_t room);

/* How to fix such a fault. */
size_t bafokun_fault_fix(const bafokun_fault *fault, char *text, size_t room);

/*
 * The meaning of an SDO abort code (CiA 301, 7.2.4.3.17); empty for a code that the standard
 * doesn't have.
 */
size_t bafokun_abort_text(uint32_t code, char *text, size_t room);

#ifdef __cplusplus
}
#endif

#endif
