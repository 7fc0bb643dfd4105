/*
 * The C face at its edges: what the header itself adds (numbers of 64 bits, record and buffer together), empty parts with a null
 * pointer, and every function of the archive called once across the boundary. Its last line is 'N passed, M failed'.
 */
#include <stdio.h>
#include <stdlib.h>
#include <string.h>

#include "sdhc.h"

static unsigned passed, failed;

static void check(bool holds, const char *what)
{
    if (holds) {
        passed++;
    } else {
        failed++;
        printf("face: %s\n", what);
    }
}

static bool is(struct sdhc_answer answer, uint32_t number, uint32_t value)
{
    return answer.number == number && answer.value == value;
}

/* Field by field: the bytes between fields tell nothing. */
static bool same_command(struct sdhc_command a, struct sdhc_command b)
{
    return a.tag == b.tag && a.kind == b.kind && a.crc == b.crc && a.index == b.index;
}

static bool same_dat(struct sdhc_dat a, struct sdhc_dat b)
{
    return a.tag == b.tag && a.way == b.way && a.answered == b.answered && a.counted == b.counted && a.size == b.size
        && a.left == b.left && a.owed == b.owed && a.held == b.held && a.stage.tag == b.stage.tag
        && a.stage.last == b.stage.last && a.stage.interrupt == b.stage.interrupt && a.stage.rest == b.stage.rest
        && a.stage.at == b.stage.at;
}

static bool same_registers(struct sdhc_registers a, struct sdhc_registers b)
{
    return memcmp(&a.setup, &b.setup, sizeof a.setup) == 0 && memcmp(&a.reply, &b.reply, sizeof a.reply) == 0
        && memcmp(&a.control, &b.control, sizeof a.control) == 0
        && memcmp(&a.interrupts, &b.interrupts, sizeof a.interrupts) == 0 && a.adma.fault == b.adma.fault
        && a.adma.low == b.adma.low && a.adma.high == b.adma.high;
}

static bool same(const struct sdhc_slot *a, const struct sdhc_slot *b)
{
    return same_registers(a->record.registers, b->record.registers) && a->record.card == b->record.card
        && a->record.level == b->record.level && same_command(a->record.command, b->record.command)
        && same_dat(a->record.dat, b->record.dat) && memcmp(a->buffer, b->buffer, sizeof a->buffer) == 0;
}

/* A slot with card, power and clock, every event enabled, and Transfer Complete and the card's interrupt signalled. */
static void make_ready(struct sdhc_slot *slot)
{
    sdhc_slot_power_on(slot);
    check(is(sdhc_slot_card_in(slot), SDHC_DONE, 0), "card in");
    check(is(sdhc_slot_write(slot, 0x02C, 2, 5), SDHC_DONE, 0), "clock");
    check(is(sdhc_slot_write(slot, 0x029, 1, 0x0F), SDHC_DONE, 0), "power");
    check(is(sdhc_slot_write(slot, 0x028, 1, 0x10), SDHC_DONE, 0), "DMA select");
    check(is(sdhc_slot_write(slot, 0x034, 4, 0x03FF01FF), SDHC_DONE, 0), "status enables");
    check(is(sdhc_slot_write(slot, 0x038, 4, 0x00000102), SDHC_DONE, 0), "signal enables");
}

static void wide_numbers(void)
{
    const uint64_t beyond = (uint64_t)1 << 32;
    struct sdhc_slot slot, before;
    make_ready(&slot);
    before = slot;
    check(is(sdhc_slot_read(&slot, beyond + 0x024, 4), SDHC_NO_PLACE, 0), "an offset of 33 bits is read");
    check(is(sdhc_slot_read(&slot, UINT64_MAX, 1), SDHC_NO_PLACE, 0), "the largest offset is read");
    check(is(sdhc_slot_write(&slot, beyond + 0x008, 4, 1), SDHC_NO_PLACE, 0), "an offset of 33 bits is written");
    check(is(sdhc_slot_read(&slot, 0x024, (size_t)(beyond + 4)), SDHC_NO_PLACE, 0), "a width of 33 bits is read");
    check(is(sdhc_slot_write(&slot, 0x008, 4, beyond), SDHC_NO_PLACE, 0), "a value of 33 bits is cut to 0");
    check(is(sdhc_slot_write(&slot, 0x008, 8, beyond + 7), SDHC_NO_PLACE, 0), "eight bytes are written");
    check(is(sdhc_slot_write(&slot, 0x008, 1, 0x100), SDHC_NO_PLACE, 0), "a value of 9 bits goes into a byte");
    check(is(sdhc_slot_read(&slot, 0x0FF, 2), SDHC_NO_PLACE, 0), "0FFh/2 is read");
    check(same(&slot, &before), "a refused access changes the slot");
    check(is(sdhc_slot_write(&slot, 0x008, 4, 0xFFFFFFFFu), SDHC_DONE, 0), "the largest value");
    check(is(sdhc_slot_read(&slot, 0x008, 4), SDHC_DONE, 0xFFFFFFFFu), "the largest value is read back");
}

static void empty_parts(void)
{
    struct sdhc_slot slot, before;
    struct sdhc_table_line line = sdhc_read_line(NULL, 0);
    struct sdhc_report report = sdhc_survey(NULL, 0, 0, 8, 0);
    struct sdhc_boot boot = sdhc_boot_check(NULL, 0, 0, 8);
    check(!line.valid && !line.end && !line.interrupt && !line.act1 && !line.act2, "flags of no line");
    check(line.length == 65536 && line.address == 0, "length and address of no line");
    check(is(sdhc_write_line(NULL, 0, line), SDHC_LINE_REFUSED, 0), "a line into no room");
    check(report.number == SDHC_DONE && report.kind == SDHC_TABLE_ERROR && report.state == 1, "P9: how it ends");
    check(report.lines == 1 && report.bytes == 0 && report.after == 0, "P9: what it counts");
    check(boot.number == SDHC_DONE && boot.yes == 0, "the boot check of no memory");
    make_ready(&slot);
    before = slot;
    check(is(sdhc_slot_turn(&slot, NULL, 0), SDHC_NO_TRANSFER, 0), "a turn over no memory");
    check(is(sdhc_slot_given(&slot, NULL, 0), SDHC_OUT_OF_TURN, 0), "an empty block given");
    check(is(sdhc_slot_taken(&slot, NULL, 0), SDHC_OUT_OF_TURN, 0), "a block taken into no room");
    check(same(&slot, &before), "an empty part changes the slot");
}

/* A read and a write with their response in, met by empty parts. */
static void empty_parts_in_a_transfer(void)
{
    struct sdhc_slot slot;
    uint8_t memory[16] = {0x23, 0, 8, 0, 8, 0, 0, 0, 1, 2, 3, 4, 5, 6, 7, 8};
    make_ready(&slot);
    check(is(sdhc_slot_write(&slot, 0x004, 4, 8), SDHC_DONE, 0), "block size");
    check(is(sdhc_slot_write(&slot, 0x00C, 4, 0x113A0011), SDHC_DONE, 0), "a read");
    check(is(sdhc_slot_respond(&slot, SDHC_RESPONSE_GOOD, 0x900, 0, 0, 0), SDHC_DONE, 0), "its response");
    check(is(sdhc_slot_given(&slot, NULL, 0), SDHC_WRONG_LENGTH, 0), "an empty block given in turn");
    check(is(sdhc_slot_turn(&slot, NULL, 0), SDHC_DONE, 0), "a fetch from no memory");
    check(is(sdhc_slot_read(&slot, 0x054, 1), SDHC_DONE, 1), "its state is 01");
    make_ready(&slot);
    check(is(sdhc_slot_write(&slot, 0x004, 4, 8), SDHC_DONE, 0), "block size");
    check(is(sdhc_slot_write(&slot, 0x00C, 4, 0x183A0001), SDHC_DONE, 0), "a write");
    check(is(sdhc_slot_respond(&slot, SDHC_RESPONSE_GOOD, 0x900, 0, 0, 0), SDHC_DONE, 0), "its response");
    check(is(sdhc_slot_turn(&slot, memory, sizeof memory), SDHC_DONE, 0), "a fetch");
    check(is(sdhc_slot_turn(&slot, memory, sizeof memory), SDHC_DONE, 8), "a move");
    check(is(sdhc_slot_taken(&slot, NULL, 0), SDHC_WRONG_LENGTH, 0), "a block taken into no room, in turn");
    check(memcmp(slot.buffer, &memory[8], 8) == 0, "the buffer holds the block");
}

static void card_events(void)
{
    struct sdhc_slot slot;
    make_ready(&slot);
    check(is(sdhc_slot_set_level(&slot, true), SDHC_DONE, 0) && sdhc_slot_line(&slot), "the level up");
    check(is(sdhc_slot_set_level(&slot, false), SDHC_DONE, 0) && !sdhc_slot_line(&slot), "the level down");
    check(is(sdhc_set_level(&slot.record, 0x80000000u), SDHC_DONE, 0) && sdhc_slot_line(&slot), "any other number is up");
    check(is(sdhc_slot_set_level(&slot, false), SDHC_DONE, 0), "the level down again");
    check(is(sdhc_slot_write(&slot, 0x00E, 2, 0x071B), SDHC_DONE, 0), "a command with busy");
    check(slot.record.command.tag == 1 && slot.record.registers.setup.order >> 24 == 7, "the record shows it");
    check(is(sdhc_slot_busy_over(&slot), SDHC_OUT_OF_TURN, 0), "busy over before its response");
    check(is(sdhc_slot_respond(&slot, SDHC_RESPONSE_GOOD, 0x12345678, 2, 3, 4), SDHC_DONE, 0), "its response");
    check(is(sdhc_slot_read(&slot, 0x010, 4), SDHC_DONE, 0x12345678), "the word of its response");
    check(is(sdhc_slot_read(&slot, 0x014, 4), SDHC_DONE, 0), "and no other");
    check(is(sdhc_slot_busy_over(&slot), SDHC_DONE, 0) && sdhc_slot_line(&slot), "busy over completes");
    check(is(sdhc_slot_write(&slot, 0x00E, 2, 0x0209), SDHC_DONE, 0), "a command with a long response");
    check(is(sdhc_slot_respond(&slot, SDHC_RESPONSE_GOOD, 0x11111111, 0x22222222, 0x33333333, 0x44444444), SDHC_DONE, 0), "its response");
    check(is(sdhc_slot_read(&slot, 0x018, 4), SDHC_DONE, 0x33333333), "its third word");
    check(is(sdhc_slot_read(&slot, 0x01C, 4), SDHC_DONE, 0x00444444), "its fourth, but for 01Fh");
    check(is(sdhc_slot_data_error(&slot, SDHC_DATA_CRC), SDHC_OUT_OF_TURN, 0), "a data error with no transfer");
    check(is(sdhc_slot_card_out(&slot), SDHC_DONE, 0), "card out");
    check(is(sdhc_slot_card_out(&slot), SDHC_OUT_OF_TURN, 0), "card out twice");
}

/* Every register that is stored, by a value of its own: each field of the header is the archive's. */
static void record_of_registers(void)
{
    struct sdhc_slot slot;
    const struct sdhc_registers *r = &slot.record.registers;
    make_ready(&slot);
    sdhc_slot_write(&slot, 0x000, 4, 0x01020304);
    sdhc_slot_write(&slot, 0x004, 4, 0x00050006);
    sdhc_slot_write(&slot, 0x008, 4, 0x0708090A);
    sdhc_slot_write(&slot, 0x00C, 2, 0x0011);
    sdhc_slot_write(&slot, 0x058, 4, 0x0B0C0D0C);
    sdhc_slot_write(&slot, 0x05C, 4, 0x0E0F1011);
    sdhc_slot_write(&slot, 0x02B, 1, 0x07);
    sdhc_slot_write(&slot, 0x02E, 1, 0x0E);
    sdhc_slot_write(&slot, 0x00E, 2, 0x0209);
    check(slot.record.command.tag == 1 && slot.record.command.kind == 1, "command: tag and kind");
    check(slot.record.command.crc == 1 && slot.record.command.index == 0, "command: crc and index");
    sdhc_slot_respond(&slot, SDHC_RESPONSE_GOOD, 0x11111111, 0x22222222, 0x33333333, 0x00444444);
    check(r->setup.system == 0x01020304 && r->setup.block == 0x00050006, "setup: system and block");
    check(r->setup.argument == 0x0708090A && r->setup.order == 0x02090011, "setup: argument and order");
    check(r->reply.first == 0x11111111 && r->reply.second == 0x22222222, "reply: first and second");
    check(r->reply.third == 0x33333333 && r->reply.fourth == 0x00444444, "reply: third and fourth");
    check(r->control.host == 0x07000F10 && r->control.clock == 0x000E0005, "control: host and clock");
    check(r->interrupts.status == 0x00000001, "interrupts: status");
    check(r->interrupts.enabled == 0x03FF01FF && r->interrupts.signal == 0x00000102, "interrupts: enabled and signal");
    check(r->adma.low == 0x0B0C0D0C && r->adma.high == 0x0E0F1011, "adma: low and high");
    check(slot.record.command.tag == 0 && slot.record.dat.tag == 0, "both sides at rest");
    check(slot.record.card == 1 && slot.record.level == 0, "a card with its level down");
    sdhc_slot_set_level(&slot, true);
    check(slot.record.card == 1 && slot.record.level == 1, "a card with its level up");
}

/* A write of three blocks in the midst of its first line, with Int and without End. */
static void record_of_a_transfer(void)
{
    struct sdhc_slot slot;
    const struct sdhc_dat *dat = &slot.record.dat;
    uint8_t memory[32] = {0x25, 0, 20, 0, 8, 0, 0, 0};
    make_ready(&slot);
    sdhc_slot_write(&slot, 0x004, 4, 0x0003000C);
    sdhc_slot_write(&slot, 0x00C, 4, 0x193A0023);
    check(dat->tag == 2 && dat->way == 1 && dat->answered == 0 && dat->counted == 1, "dat: before its response");
    check(dat->size == 12 && dat->left == 3 && dat->owed == 36 && dat->held == 0, "dat: its counts");
    sdhc_slot_respond(&slot, SDHC_RESPONSE_GOOD, 0, 0, 0, 0);
    check(dat->answered == 1 && dat->stage.tag == 0, "dat: about to fetch");
    sdhc_slot_turn(&slot, memory, sizeof memory);
    check(dat->stage.tag == 1 && dat->stage.last == 0 && dat->stage.interrupt == 1, "stage: its flags");
    check(dat->stage.rest == 20 && dat->stage.at == 8, "stage: its rest and address");
    check(is(sdhc_slot_turn(&slot, memory, sizeof memory), SDHC_DONE, 12), "a move");
    check(dat->stage.rest == 8 && dat->stage.at == 20 && dat->owed == 24 && dat->held == 12, "what the move leaves");
    check(is(sdhc_slot_turn(&slot, memory, 8), SDHC_NOT_YET, 0), "a full buffer");
    check(is(sdhc_slot_taken(&slot, memory, sizeof memory), SDHC_DONE, 12), "a block taken");
    check(dat->left == 2 && dat->held == 0 && slot.record.registers.setup.block == 0x0002000C, "what the block leaves");
    check(is(sdhc_slot_turn(&slot, memory, 8), SDHC_DONE, 0), "a move beyond memory");
    check(dat->tag == 4 && dat->way == 1 && slot.record.registers.adma.fault == 3, "a halted write in state 11");
}

static void largest_memory(void)
{
    struct sdhc_slot slot, before;
    uint8_t *memory = (uint8_t *)calloc(SDHC_MEMORY + 1, 1);
    check(memory != NULL, "16 MiB for the test");
    if (memory == NULL) {
        return;
    }
    make_ready(&slot);
    before = slot;
    check(is(sdhc_slot_turn(&slot, memory, SDHC_MEMORY), SDHC_NO_TRANSFER, 0), "as much memory as is permitted");
    check(is(sdhc_slot_turn(&slot, memory, SDHC_MEMORY + 1), SDHC_MEMORY_TOO_LARGE, 0), "a byte more");
    check(sdhc_survey(memory, SDHC_MEMORY + 1, 0, 8, 0).number == SDHC_MEMORY_TOO_LARGE, "a byte more in a survey");
    check(sdhc_boot_check(memory, SDHC_MEMORY + 1, 0, 8).number == SDHC_MEMORY_TOO_LARGE, "a byte more in a boot check");
    check(same(&slot, &before), "too much memory changes the slot");
    free(memory);
}

int main(void)
{
    wide_numbers();
    empty_parts();
    empty_parts_in_a_transfer();
    card_events();
    record_of_registers();
    record_of_a_transfer();
    largest_memory();
    printf("%u passed, %u failed\n", passed, failed);
    return failed != 0;
}
