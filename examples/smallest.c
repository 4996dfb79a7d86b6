/*
 * The smallest program over libbafokun: the device of the EDS on standard input, at node-ID 5. It boots, measures 21.5 degrees
 * for examples/temperature-sensor.eds, answers one SDO upload, and lets a second pass. What it sends is printed.
 */
#include <bafokun.h>
#include <stdio.h>

static char eds[1048577]; /* a byte more than an EDS may have */
static bafokun_node node = BAFOKUN_EMPTY;
static bafokun_frame frames[BAFOKUN_MOST_FRAMES];

static void print_frames(size_t count)
{
    for (size_t i = 0; i < count; i++) {
        printf("%03X#", frames[i].id);
        for (int j = 0; j < frames[i].length; j++) printf("%02X", frames[i].bytes[j]);
        printf("\n");
    }
}

int main(void)
{
    const bafokun_config config = { 16, 889, 1000 };
    const bafokun_frame upload = { 0x605, 8, { 0x40, 0x30, 0x71, 0x01 } };
    const uint8_t measured[2] = { 215, 0 };
    bafokun_fault fault;
    char text[128];
    size_t length = fread(eds, 1, sizeof eds, stdin);
    if (!bafokun_build(&node, eds, length, 5, &config, &fault)) {
        bafokun_fault_text(&fault, text, sizeof text);
        printf("no device: %s", text);
        if (fault.line > 0) printf(", line %d", (int)fault.line);
        if (fault.index > 0) printf(", entry %04X:%02X", fault.index, fault.sub_index);
        printf("\n");
        return 1;
    }
    print_frames(bafokun_boot(&node, frames, BAFOKUN_MOST_FRAMES));
    print_frames(bafokun_write(&node, 0x7130, 1, measured, sizeof measured, frames, BAFOKUN_MOST_FRAMES));
    print_frames(bafokun_take(&node, &upload, frames, BAFOKUN_MOST_FRAMES));
    for (int ms = 0; ms < 1000; ms++) print_frames(bafokun_tick(&node, frames, BAFOKUN_MOST_FRAMES));
    bafokun_free(&node);
    return 0;
}
