/* NMT, error control, EMCY and PDOs of the device. */
#include "foreign.h"

#include <string.h>

#define EMCY_ROOM 4
#define VALID(cob) (((cob) & 0x80000000u) == 0)

struct tpdo {
    uint16_t index;
    bool wanted;
    bool sent;
    micros last, event;
    unsigned syncs;
};

struct rpdo {
    uint16_t index;
    bool waits;
    struct frame frame;
};

struct choices choices;
enum state device_state = OFF;

static uint8_t node;
static micros boots, changes, heartbeat, heartbeat_planned, newest_control, heard_deadline;
static micros input, failure, repair, emcy_free;
static enum state next_state;
static unsigned emcy_count;
static struct frame emcy[EMCY_ROOM];
static struct tpdo tpdos[2] = {{.index = 0x1800}, {.index = 0x1801}};
static struct rpdo rpdos[2] = {{.index = 0x1400}, {.index = 0x1401}};

/* by the device's own clock */
micros span(micros time)
{
    return (micros)((int64_t)time + (int64_t)time * choices.parts_per_million / 1000000);
}

static micros jitter(void)
{
    return dice(3000);
}

static bool has_pdos(void)
{
    return has_index(0x1800);
}

static bool communicates(void)
{
    return device_state == PRE_OPERATIONAL || device_state == OPERATIONAL;
}

/* ---- error control */

static void send_control(micros now, uint8_t byte)
{
    struct frame frame = {.id = (uint16_t)(0x700 + node), .length = 1, .data = {byte}};
    if (byte != 0) {
        if (byte == PRE_OPERATIONAL && errs(HEARTBEAT_STATE)) frame.data[0] = OPERATIONAL;
        if (errs(HEARTBEAT_NO_STATE)) frame.data[0] = 6;
        if (errs(HEARTBEAT_LENGTH)) frame.length = 2;
    }
    newest_control = now;
    send_frame(true, now, &frame);
}

static void plan_heartbeat(micros base)
{
    micros period = span(number_in(0x1017, 0) * (micros)MILLISECOND);
    heartbeat_planned = base + period;
    heartbeat = period == 0 ? NEVER : heartbeat_planned + jitter();
    if (period != 0 && errs(HEARTBEAT_LATE)) heartbeat += period / 10 + 30 * MILLISECOND;
}

/* ---- EMCY */

static void queue_emcy(uint16_t code)
{
    uint8_t reg = (uint8_t)number_in(0x1001, 0);
    if (!VALID(number_in(0x1014, 0)) || !has_index(0x1014) || emcy_count == EMCY_ROOM) return;
    emcy[emcy_count++] =
        (struct frame){.length = 8, .data = {(uint8_t)code, (uint8_t)(code >> 8), reg, 0x5A, (uint8_t)dice(256)}};
}

static void send_emcy(micros now)
{
    if (emcy_count == 0 || now < emcy_free) return;
    if (!communicates() && !(device_state == STOPPED && errs(EMCY_STOPPED))) return;
    struct frame frame = emcy[0];
    frame.id = (uint16_t)(number_in(0x1014, 0) & 0x7FF);
    if (frame.data[2] != 0 && errs(EMCY_REGISTER)) frame.data[2] = (uint8_t)((frame.data[2] & 0xFE) | 0x10);
    if (errs(EMCY_LENGTH)) frame.length = 6;
    memmove(emcy, emcy + 1, --emcy_count * sizeof *emcy);
    send_frame(true, now, &frame);
    emcy_free = now + span(number_in(0x1015, 0) * (micros)100);
    if (errs(EMCY_INHIBIT)) emcy_free = now;
}

static void raise_error(micros now, uint16_t code, uint8_t bit)
{
    set_number(0x1001, 0, number_in(0x1001, 0) | 1u | bit);
    uint32_t count = number_in(0x1003, 0);
    for (uint8_t sub = 4; sub > 1; sub--) set_number(0x1003, sub, number_in(0x1003, (uint8_t)(sub - 1)));
    set_number(0x1003, 1, code);
    set_number(0x1003, 0, count < 4 ? count + 1 : 4);
    queue_emcy(code);
    send_emcy(now);
}

static void clear_errors(micros now)
{
    if (number_in(0x1001, 0) == 0) return;
    set_number(0x1001, 0, 0);
    queue_emcy(0);
    send_emcy(now);
}

/* ---- PDOs */

static struct entry *mapped(uint16_t index, uint8_t place, uint32_t *bits)
{
    uint32_t mapping = number_in((uint16_t)(index + 0x200), (uint8_t)(place + 1));
    *bits = mapping & 0xFF;
    return find_entry((uint16_t)(mapping >> 16), (uint8_t)(mapping >> 8));
}

static uint32_t type_of(uint16_t index)
{
    return number_in(index, 2);
}

static void plan_event(struct tpdo *pdo, micros now)
{
    micros time = number_in(pdo->index, 5) * (micros)MILLISECOND;
    pdo->event = time == 0 || type_of(pdo->index) < 254 ? NEVER : now + span(time) + jitter();
    if (pdo->event != NEVER && errs(TPDO_EVENT_TIMER)) pdo->event += time / 4 + 40 * MILLISECOND;
}

static void send_tpdo(struct tpdo *pdo, micros now)
{
    uint32_t cob = number_in(pdo->index, 1), bits;
    struct frame frame = {.id = (uint16_t)(cob & 0x7FF)};
    pdo->wanted = false;
    if (!VALID(cob)) return;
    for (uint8_t place = 0; place < number_in((uint16_t)(pdo->index + 0x200), 0); place++) {
        struct entry *entry = mapped(pdo->index, place, &bits);
        if (entry == NULL || frame.length + bits / 8 > 8) continue;
        memcpy(frame.data + frame.length, entry->value, bits / 8);
        frame.length = (uint8_t)(frame.length + bits / 8);
    }
    if (frame.length == 0) return;
    if (errs(TPDO_LENGTH)) frame.length--;
    send_frame(true, now, &frame);
    pdo->last = now;
    pdo->sent = true;
    plan_event(pdo, now);
}

static micros free_again(const struct tpdo *pdo)
{
    micros time = span(number_in(pdo->index, 3) * (micros)100);
    return pdo->sent && time > 0 && !errs(TPDO_INHIBIT) ? pdo->last + time : 0;
}

static void trigger(struct tpdo *pdo, micros now)
{
    uint32_t type = type_of(pdo->index);
    if (device_state != OPERATIONAL && !(device_state == PRE_OPERATIONAL && errs(TPDO_PRE_OPERATIONAL))) return;
    if (type >= 254 && now >= free_again(pdo)) send_tpdo(pdo, now);
    else if (type >= 254 || type == 0) pdo->wanted = true;
    if (type < 254 && errs(TPDO_WITHOUT_SYNC)) send_tpdo(pdo, now);
}

static void value_changed(micros now, uint16_t index)
{
    for (size_t at = 0; at < 2; at++) {
        uint32_t bits;
        for (uint8_t place = 0; place < number_in((uint16_t)(tpdos[at].index + 0x200), 0); place++) {
            struct entry *entry = mapped(tpdos[at].index, place, &bits);
            if (entry != NULL && entry->index == index) { trigger(&tpdos[at], now); break; }
        }
    }
}

static void take_rpdo(struct rpdo *pdo)
{
    uint32_t place = 0, bits;
    for (uint8_t number = 0; number < number_in((uint16_t)(pdo->index + 0x200), 0); number++) {
        struct entry *entry = mapped(pdo->index, number, &bits);
        if (entry != NULL && place + bits / 8 <= pdo->frame.length)
            memcpy(entry->value, pdo->frame.data + place, bits / 8);
        place += bits / 8;
    }
    pdo->waits = false;
}

static uint32_t length_of(uint16_t index)
{
    uint32_t length = 0, bits;
    for (uint8_t place = 0; place < number_in((uint16_t)(index + 0x200), 0); place++) {
        mapped(index, place, &bits);
        length += bits / 8;
    }
    return length;
}

static void receive_rpdo(struct rpdo *pdo, micros now, const struct frame *frame)
{
    uint32_t cob = number_in(pdo->index, 1);
    if (device_state != OPERATIONAL || !VALID(cob) || frame->id != (cob & 0x7FF)) return;
    if (frame->length < length_of(pdo->index)) {
        if (choices.refuses_short_pdo) raise_error(now, 0x8210, 0x10);
        return;
    }
    pdo->frame = *frame;
    if (type_of(pdo->index) >= 254) take_rpdo(pdo);
    else pdo->waits = true;
}

static void receive_sync(micros now)
{
    if (device_state != OPERATIONAL) return;
    for (size_t at = 0; at < 2; at++) {
        struct tpdo *pdo = &tpdos[at];
        uint32_t type = type_of(pdo->index);
        if (rpdos[at].waits) take_rpdo(&rpdos[at]);
        if (type == 0 && pdo->wanted) send_tpdo(pdo, now + dice(2000));
        if (type >= 1 && type <= 240 && (++pdo->syncs >= type || errs(TPDO_SYNC_COUNT))) {
            pdo->syncs = 0;
            send_tpdo(pdo, now + dice(2000));
        }
    }
}

/* ---- NMT */

static void enter(enum state state, micros now)
{
    device_state = state;
    changes = NEVER;
    for (size_t at = 0; at < 2; at++) {
        tpdos[at].wanted = false;
        uint32_t type = type_of(tpdos[at].index);
        tpdos[at].syncs = state == OPERATIONAL && type > 0 ? choices.syncs_ahead % type : 0;
        tpdos[at].event = NEVER;
        rpdos[at].waits = false;
        if (state != OPERATIONAL || !has_pdos()) continue;
        plan_event(&tpdos[at], now);
        if (choices.sends_at_start) trigger(&tpdos[at], now);
    }
    if (state == STOPPED) {
        server_reset();
        drop_device_frames((uint16_t)(0x580 + node), (uint16_t)(0x580 + node));
        if (!choices.keeps_errors && !errs(EMCY_STOPPED)) emcy_count = 0;
    }
    if (choices.heartbeat_at_change && heartbeat != NEVER && now > newest_control + 20 * MILLISECOND) {
        send_control(now, (uint8_t)state);
        plan_heartbeat(now);
    }
}

static void reset(micros now, bool only_communication)
{
    device_state = INITIALISING;
    server_reset();
    drop_device_frames(0, 0x7FF);
    reset_entries(node, only_communication);
    emcy_count = 0;
    emcy_free = 0;
    changes = heartbeat = heard_deadline = NEVER;
    for (size_t at = 0; at < 2; at++) {
        tpdos[at] = (struct tpdo){.index = tpdos[at].index, .event = NEVER};
        rpdos[at].waits = false;
    }
    boots = now + span((choices.boot_millis + dice(20)) * (micros)MILLISECOND);
}

static void boot(micros now)
{
    boots = NEVER;
    device_state = PRE_OPERATIONAL;
    if (!errs(BOOT_UP_MISSING)) send_control(now, 0);
    if (errs(BOOT_UP_TWICE)) send_control(now + 2 * MILLISECOND, 0);
    plan_heartbeat(now);
    emcy_free = now + 2 * MILLISECOND;
    if (input < emcy_free) input = emcy_free;
}

static void receive_command(micros now, const struct frame *frame)
{
    if (frame->length != 2 || (frame->data[1] != 0 && frame->data[1] != node)) return;
    if (device_state == INITIALISING) return;
    if (frame->data[0] == 0x81 || frame->data[0] == 0x82) { reset(now, frame->data[0] == 0x82); return; }
    if (errs(COMMAND_IGNORED)) return;
    switch (frame->data[0]) {
    case 1: next_state = OPERATIONAL; break;
    case 2: next_state = STOPPED; break;
    case 0x80: next_state = PRE_OPERATIONAL; break;
    default: return;
    }
    if (next_state == device_state && changes == NEVER) return;
    changes = now + dice(2500);
}

/* A consumer of heartbeats that miss goes to pre-operational, with 1029:01 = 0, or stops, with 2. */
static void heartbeat_missed(micros now)
{
    heard_deadline = NEVER;
    raise_error(now, 0x8130, 0x10);
    uint32_t behaviour = number_in(0x1029, 1);
    if (device_state != OPERATIONAL || behaviour == 1) return;
    enter(behaviour == 2 ? STOPPED : PRE_OPERATIONAL, now);
}

/* ---- what writes do */

static uint32_t mapping_refused(uint16_t index, uint32_t count)
{
    uint32_t total = 0, bits;
    for (uint8_t place = 0; place < count; place++) {
        struct entry *entry = mapped((uint16_t)(index - 0x200), place, &bits);
        if (entry == NULL || !entry->mappable || bits != 8 * width_of(entry)) return 0x06040041;
        total += bits;
    }
    return total > 64 ? 0x06040042 : 0;
}

uint32_t entry_refused(micros now, struct entry *entry, uint32_t number)
{
    uint16_t index = entry->index;
    bool is_pdo = (index >= 0x1400 && index < 0x1600) || (index >= 0x1800 && index < 0x1A00);
    bool is_mapping = (index >= 0x1600 && index < 0x1800) || (index >= 0x1A00 && index < 0x1C00);
    uint32_t old = number_in(index, entry->sub);
    uint32_t in_use = choices.general_codes ? 0x06010000 : 0x08000022;
    (void)now;
    if (index == 0x1003) return number == 0 ? 0 : 0x06090030;
    if (index == 0x1005) return (number & 0x7FF) == 0x80 && (number & ~0x7FFu) == 0 ? 0 : 0x06090030;
    if (index == 0x1014 || (is_pdo && entry->sub == 1)) {
        if (number & 0x20000000u) return 0x06090030;
        if (VALID(number) && VALID(old) && (number & 0x1FFFFFFF) != (old & 0x1FFFFFFF)) return 0x06090030;
        if (VALID(number) && ((number & 0x1FFFFFFF) < 0x81 || (number & 0x1FFFFFFF) > 0x57F)) return 0x06090030;
    }
    if (is_pdo && entry->sub == 2 && number > 240 && number < 254) return 0x06090030;
    if (is_pdo && entry->sub == 3 && VALID(number_in(index, 1))) return in_use;
    if (is_mapping && VALID(number_in((uint16_t)(index - 0x200), 1))) return in_use;
    if (is_mapping && entry->sub == 0) return mapping_refused(index, number);
    if (is_mapping && number_in(index, 0) != 0) return 0x08000022;
    const struct entry *object = find_entry((uint16_t)(number >> 16), (uint8_t)(number >> 8));
    if (is_mapping && number != 0 && object == NULL) return 0x06020000;
    return 0;
}

void entry_written(micros now, struct entry *entry)
{
    if (entry->index == 0x1017) {
        plan_heartbeat(now);
        if (choices.heartbeat_at_change && heartbeat != NEVER) heartbeat = heartbeat_planned = now + 5 * MILLISECOND;
    }
    if (entry->index == 0x1016) heard_deadline = NEVER;
    if (entry->index == 0x1003)
        for (uint8_t sub = 1; sub <= 4; sub++) set_number(0x1003, sub, 0);
    for (size_t at = 0; at < 2; at++) {
        if (entry->index != tpdos[at].index && entry->index != tpdos[at].index + 0x200) continue;
        tpdos[at].wanted = false;
        tpdos[at].syncs = 0;
        if (device_state == OPERATIONAL) plan_event(&tpdos[at], now);
    }
}

/* ---- frames and time */

void device_begin(uint8_t node_id)
{
    node = node_id;
    boots = changes = heartbeat = repair = heard_deadline = NEVER;
    input = failure = NEVER;
}

void device_power(micros now, bool on)
{
    if (on && device_state == OFF) {
        reset(now, false);
        input = now + dice(400) * MILLISECOND;
        failure = now + dice(30) * SECOND;
    }
    if (!on) {
        reset(now, false);
        device_begin(node);
        device_state = OFF;
    }
}

void device_receive(micros now, const struct frame *frame)
{
    if (device_state == OFF) return;
    if (frame->id == 0) receive_command(now, frame);
    if (device_state == INITIALISING) return;
    uint32_t consumed = number_in(0x1016, 1);
    if (frame->id == 0x700 + (consumed >> 16 & 0x7F) && (consumed & 0xFFFF) != 0 && (consumed >> 16 & 0x7F) != 0)
        heard_deadline = now + span((consumed & 0xFFFF) * (micros)MILLISECOND);
    if (frame->id == 0x600 + node && (communicates() || (device_state == STOPPED && errs(ANSWER_STOPPED))))
        server_receive(now, node, frame);
    if (!has_pdos()) return;
    if (frame->id == (number_in(0x1005, 0) & 0x7FF)) receive_sync(now);
    for (size_t at = 0; at < 2; at++) receive_rpdo(&rpdos[at], now, frame);
}

static void application(micros now)
{
    if (now >= input) {
        input = now + span((5 + dice(dice(10) ? 400 : 3000)) * (micros)MILLISECOND);
        uint16_t index = has_pdos() ? (dice(2) ? 0x6000 : 0x6401) : 0x7130;
        set_number(index, 1, dice(0x10000));
        if (has_pdos()) value_changed(now, index);
    }
    if (now >= failure) {
        failure = now + span((1 + dice(25)) * (micros)SECOND);
        if (repair == NEVER) repair = now + span((1 + dice(4000)) * (micros)MILLISECOND);
        uint16_t code = dice(2) ? 0x3120 : 0x5030;
        raise_error(now, code, dice(2) ? 4 : 0x20);
        if (dice(3) == 0) raise_error(now, 0x2310, 2);
    }
    if (now >= repair) {
        repair = NEVER;
        clear_errors(now);
    }
}

void device_tick(micros now)
{
    if (now >= boots) boot(now);
    if (now >= changes) enter(next_state, now);
    if (device_state == OFF || device_state == INITIALISING) return;
    if (now >= heartbeat) {
        send_control(now, (uint8_t)device_state);
        plan_heartbeat(heartbeat_planned);
    }
    if (now >= heard_deadline) heartbeat_missed(now);
    server_tick(now, node);
    application(now);
    send_emcy(now);
    if (!has_pdos()) return;
    for (size_t at = 0; at < 2; at++) {
        struct tpdo *pdo = &tpdos[at];
        if (now >= pdo->event || (pdo->wanted && type_of(pdo->index) >= 254 && now >= free_again(pdo))) {
            pdo->event = NEVER;
            trigger(pdo, now);
        }
    }
}

static micros least(micros a, micros b)
{
    return a < b ? a : b;
}

micros device_due(void)
{
    micros due = least(boots, changes);
    if (device_state == OFF || device_state == INITIALISING) return due;
    due = least(least(due, heartbeat), least(heard_deadline, server_due()));
    due = least(due, least(input, least(failure, repair)));
    if (emcy_count > 0 && communicates()) due = least(due, emcy_free);
    if (!has_pdos() || device_state != OPERATIONAL) return due;
    for (size_t at = 0; at < 2; at++) {
        due = least(due, tpdos[at].event);
        if (tpdos[at].wanted && type_of(tpdos[at].index) >= 254)
            due = least(due, tpdos[at].last + span(number_in(tpdos[at].index, 3) * (micros)100));
    }
    return due;
}
