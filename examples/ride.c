/*
 * A whole ride: two blocks go from memory to the card along two descriptor lines, and one comes back. Each step prints what is
 * done, its answer and value, and the interrupt line after it. bench/sdhc/examples/ride.rs is the same ride in Rust; both print
 * bench/sdhc/ride.out. The program plays the guest's driver, the monitor and the card at once.
 *
 *     cc -std=c99 -Iinclude examples/ride.c target/staticlib/libslot.a -o target/ride && target/ride
 */
#include <stdio.h>

#include "sdhc.h"

enum { MEMORY = 64, BLOCK = 8, BLOCKS = 2 };

struct ride {
    struct sdhc_slot slot;
    uint8_t memory[MEMORY];
    uint8_t card[BLOCKS][BLOCK];
    unsigned next; /* the block that the card takes or gives next */
};

static const char *reason(uint32_t number)
{
    switch (number) {
    case SDHC_DONE:
        return "done";
    case SDHC_NOT_YET:
        return "not yet";
    case SDHC_NO_TRANSFER:
        return "no transfer";
    default:
        return "refused";
    }
}

/* Prints a step with its answer, and passes the answer on. */
static struct sdhc_answer tell(const struct ride *ride, const char *what, struct sdhc_answer answer)
{
    printf("%-46s %2u %-11s  %08X  %s\n", what, (unsigned)answer.number, reason(answer.number), (unsigned)answer.value,
           sdhc_slot_line(&ride->slot) ? "up" : "down");
    return answer;
}

static void show(const char *what, const uint8_t *bytes)
{
    int i;
    printf("    %s:", what);
    for (i = 0; i < BLOCK; i++) {
        printf(" %02X", bytes[i]);
    }
    printf("\n");
}

/* ---- the guest's driver */

static void reads(struct ride *ride, unsigned offset, unsigned width, const char *name)
{
    char what[64];
    snprintf(what, sizeof what, "read  %03Xh/%u           %s", offset, width, name);
    tell(ride, what, sdhc_slot_read(&ride->slot, offset, width));
}

static void writes(struct ride *ride, unsigned offset, unsigned width, uint32_t value, const char *name)
{
    char what[64];
    snprintf(what, sizeof what, "write %03Xh/%u %08X  %s", offset, width, (unsigned)value, name);
    tell(ride, what, sdhc_slot_write(&ride->slot, offset, width, value));
}

/* A Tran line is written where the driver keeps its table. */
static void lays(struct ride *ride, unsigned at, unsigned length, unsigned address, bool end)
{
    char what[64];
    struct sdhc_table_line line = {0};
    line.valid = 1;
    line.act2 = 1;
    line.end = end;
    line.length = length;
    line.address = address;
    snprintf(what, sizeof what, "line  %03Xh             %u bytes at %03Xh%s", at, length, address, end ? ", End" : "");
    tell(ride, what, sdhc_write_line(&ride->memory[at], SDHC_LINE, line));
}

/* ---- the monitor and the card */

static struct sdhc_answer takes(struct ride *ride)
{
    struct sdhc_answer answer = tell(ride, "the card takes a block", sdhc_slot_taken(&ride->slot, ride->card[ride->next], BLOCK));
    if (answer.number == SDHC_DONE) {
        show("it took", ride->card[ride->next++]);
    }
    return answer;
}

static struct sdhc_answer gives(struct ride *ride)
{
    struct sdhc_answer answer = tell(ride, "the card gives a block", sdhc_slot_given(&ride->slot, ride->card[ride->next], BLOCK));
    if (answer.number == SDHC_DONE) {
        show("it gave", ride->card[ride->next++]);
    }
    return answer;
}

/* The engine turns as far as it can, then it is the card's move, until the line is up or neither can go on. */
static void carries(struct ride *ride, struct sdhc_answer (*card)(struct ride *))
{
    while (!sdhc_slot_line(&ride->slot)) {
        if (tell(ride, "turn", sdhc_slot_turn(&ride->slot, ride->memory, MEMORY)).number != SDHC_DONE
            && card(ride).number != SDHC_DONE) {
            return;
        }
    }
}

/* ---- the ride */

static void starts(struct ride *ride)
{
    sdhc_slot_power_on(&ride->slot);
    printf("%-46s %26s%s\n", "power on", "", sdhc_slot_line(&ride->slot) ? "up" : "down");
    tell(ride, "turn, with no memory lent", sdhc_slot_turn(&ride->slot, NULL, 0));
    reads(ride, 0x024, 4, "present state");
    tell(ride, "card in", sdhc_slot_card_in(&ride->slot));
    reads(ride, 0x024, 4, "present state");
    writes(ride, 0x02C, 2, 0x00000005, "clock");
    reads(ride, 0x02C, 2, "clock");
    writes(ride, 0x029, 1, 0x0000000F, "power");
    writes(ride, 0x028, 1, 0x00000010, "DMA select");
    writes(ride, 0x034, 4, 0x03FF01FF, "status enables");
    writes(ride, 0x038, 4, 0x00000002, "signal enables");
}

static void acknowledges(struct ride *ride)
{
    reads(ride, 0x030, 2, "status");
    writes(ride, 0x030, 2, 0x00000001, "clear Command Complete");
    writes(ride, 0x030, 2, 0x00000002, "clear Transfer Complete");
}

static void writes_two_blocks(struct ride *ride)
{
    printf("\ntwo blocks to the card\n");
    lays(ride, 0x000, 12, 0x020, false);
    lays(ride, 0x008, 4, 0x030, true);
    writes(ride, 0x004, 4, 0x00020008, "block size and count");
    writes(ride, 0x058, 4, 0x00000000, "table address");
    writes(ride, 0x00C, 4, 0x193A0023, "mode, command 25");
    reads(ride, 0x024, 4, "present state");
    tell(ride, "turn", sdhc_slot_turn(&ride->slot, ride->memory, MEMORY));
    tell(ride, "the card answers well, 00000900", sdhc_slot_respond(&ride->slot, SDHC_RESPONSE_GOOD, 0x900, 0, 0, 0));
    ride->next = 0;
    carries(ride, takes);
    reads(ride, 0x006, 2, "block count");
    reads(ride, 0x058, 4, "table address");
    acknowledges(ride);
}

static void reads_one_block(struct ride *ride)
{
    printf("\nthe second block back\n");
    lays(ride, 0x010, 8, 0x038, true);
    writes(ride, 0x058, 4, 0x00000010, "table address");
    writes(ride, 0x00C, 4, 0x113A0011, "mode, command 17");
    reads(ride, 0x024, 4, "present state");
    tell(ride, "the card answers well, 00000900", sdhc_slot_respond(&ride->slot, SDHC_RESPONSE_GOOD, 0x900, 0, 0, 0));
    ride->next = 1;
    carries(ride, gives);
    show("memory at 038h", &ride->memory[0x038]);
    acknowledges(ride);
}

int main(void)
{
    static const uint8_t first[12] = {0x11, 0x22, 0x33, 0x44, 0x55, 0x66, 0x77, 0x88, 0x99, 0xAA, 0xBB, 0xCC};
    static const uint8_t second[4] = {0xDD, 0xEE, 0xFF, 0x00};
    struct ride ride = {0};
    size_t i;
    for (i = 0; i < sizeof first; i++) {
        ride.memory[0x020 + i] = first[i];
    }
    for (i = 0; i < sizeof second; i++) {
        ride.memory[0x030 + i] = second[i];
    }
    printf("%-46s %-14s  %-8s  line\n", "what is done", "answer", "value");
    starts(&ride);
    writes_two_blocks(&ride);
    reads_one_block(&ride);
    tell(&ride, "card out", sdhc_slot_card_out(&ride.slot));
    reads(&ride, 0x024, 4, "present state");
    return 0;
}
