/*
 * One slot of a proved SD host controller, as a device model of a virtual machine monitor holds it.
 *
 * The functions are in libslot.a, which `tools/archive` has proved and writes, for x86-64 Linux (x86-64-v2 and newer). Each is
 * proved to do what document 01 says of its step. docs/INTEGRATION.md says how a monitor uses them and what the proof leaves to the caller.
 *
 * A monitor keeps a `struct sdhc_slot` and calls the functions named sdhc_slot_...: they pass both parts of it, so no buffer
 * can be too short. Below them stand the archive's own functions, for a caller that keeps the two parts elsewhere.
 *
 * Nothing is allocated and no pointer is kept: what is lent to a call is the caller's again when the call returns. What one
 * call is lent must not overlap. One slot has one caller at a time; different slots have nothing in common.
 *
 * Memory, blocks and rooms are lent as a pointer and a length. With length 0 the pointer may be null: nothing is read or
 * written through it.
 */
#ifndef SDHC_H
#define SDHC_H

#include <stdbool.h>
#include <stddef.h>
#include <stdint.h>

#ifdef __cplusplus
extern "C" {
#endif

/* A block has at most this many bytes, and the buffer is one block. */
#define SDHC_BLOCK 512

/* The most memory that a turn, a survey and a boot check take. It stands for addresses from 0. */
#define SDHC_MEMORY 16777216

/* The bytes of a descriptor line. */
#define SDHC_LINE 8

/* ---- answers */

/* Why a step is refused. Every number but SDHC_DONE has value 0, and its step has changed nothing. */
enum sdhc_number {
    SDHC_DONE = 0,
    SDHC_NO_PLACE = 1,          /* width not 1, 2 or 4; offset no multiple of it; beyond 256 bytes; value too big for the width */
    SDHC_DAT_INHIBITED = 2,     /* write wholly inside 004h-007h or 00Ch-00Dh while Command Inhibit (DAT) is 1 */
    SDHC_COMMAND_INHIBITED = 3, /* command while Command Inhibit (CMD) is 1 */
    SDHC_DAT_IN_USE = 4,        /* command with data or busy, not Abort, while Command Inhibit (DAT) is 1 */
    SDHC_UNPOWERED = 5,         /* command while SD Clock Enable or SD Bus Power is 0 */
    SDHC_NOT_CARRIED = 6,       /* command setting that is not carried */
    SDHC_OUT_OF_TURN = 7,       /* event out of turn */
    SDHC_WRONG_LENGTH = 8,      /* block given of another length than the block size; room for a taken block below it */
    SDHC_NOT_YET = 9,           /* turn: response awaited, or a move due with the buffer full (write) or empty (read) */
    SDHC_NO_TRANSFER = 10,      /* turn: no transfer, a halted one, or the engine stopped */
    SDHC_MEMORY_TOO_LARGE = 11, /* turn, survey, boot check: lent memory over SDHC_MEMORY bytes */
    SDHC_LIMIT_TOO_HIGH = 12,   /* survey limit over 4,096 */
    SDHC_LINE_REFUSED = 17      /* line to be written: length 0 or over 65,536, address no multiple of 4, room not 8 bytes */
};

/* What a step answers: an sdhc_number, and what a read returns, or the bytes moved by a turn or by a block event, else 0. */
struct sdhc_answer {
    uint32_t number;
    uint32_t value;
};

/* ---- what the card reports */

/* How the card answers a command. */
enum sdhc_response {
    SDHC_RESPONSE_GOOD = 0,
    SDHC_RESPONSE_TIMEOUT = 1,
    SDHC_RESPONSE_CRC = 2,
    SDHC_RESPONSE_END_BIT = 3,
    SDHC_RESPONSE_INDEX = 4
};

/* How a data transfer or a busy goes wrong on the card's side. */
enum sdhc_data_fault {
    SDHC_DATA_TIMEOUT = 0,
    SDHC_DATA_CRC = 1,
    SDHC_DATA_END_BIT = 2
};

/* ---- the record of a slot: numbers only, and every number has a meaning. A flag is down at 0, else up. */

/* 000h to 00Fh. */
struct sdhc_setup {
    uint32_t system;   /* 000h */
    uint32_t block;    /* 004h: block size; 006h: block count */
    uint32_t argument; /* 008h */
    uint32_t order;    /* 00Ch: transfer mode; 00Eh: command, its index in bits 29-24 of this word */
};

/* 010h to 01Fh. */
struct sdhc_reply {
    uint32_t first;
    uint32_t second;
    uint32_t third;
    uint32_t fourth;
};

/* 028h to 02Fh. Bit 1 of 02Ch is worked out as it is read. */
struct sdhc_control {
    uint32_t host;
    uint32_t clock;
};

/* 030h to 03Bh, the normal half low and the error half high. Bits 8 and 15 of 030h are worked out as it is read. */
struct sdhc_interrupts {
    uint32_t status;
    uint32_t enabled;
    uint32_t signal;
};

/* 054h to 05Fh. */
struct sdhc_adma {
    uint8_t fault; /* 054h */
    uint32_t low;  /* 058h */
    uint32_t high; /* 05Ch */
};

struct sdhc_registers {
    struct sdhc_setup setup;
    struct sdhc_reply reply;
    struct sdhc_control control;
    struct sdhc_interrupts interrupts;
    struct sdhc_adma adma;
};

/* The command side. The last three tell of a command that waits. */
struct sdhc_command {
    uint8_t tag;   /* 0 idle, 1 waits for its response, else halted */
    uint8_t kind;  /* response type, as in 00Eh bits 1-0 */
    uint8_t crc;   /* its CRC is checked */
    uint8_t index; /* its index is checked */
};

/* How the engine of a running transfer stands. The others tell of the line in hand. */
struct sdhc_stage {
    uint8_t tag;       /* 0 no line in hand, 1 a line in hand, else stopped */
    uint8_t last;      /* it has End */
    uint8_t interrupt; /* it has Int */
    uint32_t rest;     /* bytes of it still to move */
    uint32_t at;       /* the address of the next of them */
};

/* The DAT side. All but tag, way and answered tell of a running transfer. */
struct sdhc_dat {
    uint8_t tag;      /* 0 free, 1 busy, 2 a running transfer, 3 a halted busy, else a halted transfer */
    uint8_t way;      /* 0 read, else write */
    uint8_t answered; /* its response is in */
    uint8_t counted;  /* Block Count falls with each block */
    uint16_t size;    /* bytes of a block */
    uint16_t left;    /* blocks that the card has yet to give or take */
    uint32_t owed;    /* bytes that the lines have yet to move */
    uint32_t held;    /* bytes that the buffer holds */
    struct sdhc_stage stage;
};

struct sdhc_record {
    struct sdhc_registers registers;
    uint8_t card;  /* a card is in */
    uint8_t level; /* its interrupt level */
    struct sdhc_command command;
    struct sdhc_dat dat;
};

/* What a monitor keeps for each slot. It may be copied, kept and put back; docs/INTEGRATION.md says how. */
struct sdhc_slot {
    struct sdhc_record record;
    uint8_t buffer[SDHC_BLOCK];
};

/* ---- tables of descriptor lines */

/* How a survey ends. */
enum sdhc_kind {
    SDHC_TABLE_WELL = 0,
    SDHC_TABLE_ERROR = 1,
    SDHC_TABLE_LIMIT = 2
};

/* What a survey tells; all 0 behind a number that is not SDHC_DONE. */
struct sdhc_report {
    uint32_t number; /* an sdhc_number */
    uint32_t kind;   /* an sdhc_kind */
    uint32_t state;  /* the byte for 054h */
    uint32_t lines;  /* lines tried */
    uint32_t bytes;  /* bytes named by sound Tran lines */
    uint32_t after;  /* the address that 058h would hold */
};

/* What the boot check says. */
struct sdhc_boot {
    uint32_t number; /* an sdhc_number */
    uint32_t yes; /* 1: the table goes well within 64 lines; 0: it does not, or it was not followed to its end */
};

/* A descriptor line: its five flags, down at 0 and up at any other number, the bytes it names, and an address. */
struct sdhc_table_line {
    uint8_t valid;
    uint8_t end;
    uint8_t interrupt;
    uint8_t act1;
    uint8_t act2; /* act2 alone: Tran; act2 and act1: Link */
    uint32_t length;
    uint32_t address;
};

/* ---- the layout that the archive was compiled for; bench/sdhc/src/raw.rs asserts the same */

#if defined(__cplusplus) && __cplusplus >= 201103L
#define SDHC_HOLDS(name, fact) static_assert(fact, #name)
#elif !defined(__cplusplus) && defined(__STDC_VERSION__) && __STDC_VERSION__ >= 201112L
#define SDHC_HOLDS(name, fact) _Static_assert(fact, #name)
#else
#define SDHC_HOLDS(name, fact) typedef char sdhc_holds_##name[(fact) ? 1 : -1]
#endif

/* The place of a record behind one byte is its alignment. */
struct sdhc_aligned_record {
    char before;
    struct sdhc_record record;
};

SDHC_HOLDS(record_size, sizeof(struct sdhc_record) == 100);
SDHC_HOLDS(record_alignment, offsetof(struct sdhc_aligned_record, record) == 4);
SDHC_HOLDS(card_place, offsetof(struct sdhc_record, card) == 64);
SDHC_HOLDS(command_place, offsetof(struct sdhc_record, command) == 66);
SDHC_HOLDS(dat_place, offsetof(struct sdhc_record, dat) == 72);
SDHC_HOLDS(stage_place, offsetof(struct sdhc_dat, stage) == 16);
SDHC_HOLDS(buffer_place, offsetof(struct sdhc_slot, buffer) == 100);
SDHC_HOLDS(slot_size, sizeof(struct sdhc_slot) == 612);
SDHC_HOLDS(answer_size, sizeof(struct sdhc_answer) == 8);
SDHC_HOLDS(report_size, sizeof(struct sdhc_report) == 24);
SDHC_HOLDS(boot_size, sizeof(struct sdhc_boot) == 8);
SDHC_HOLDS(line_size, sizeof(struct sdhc_table_line) == 16);

#undef SDHC_HOLDS

/* ---- the archive's own functions: `buffer` has SDHC_BLOCK bytes */

/* At start: no card, nothing waits, the DAT side is free. The buffer may hold anything. */
struct sdhc_record sdhc_power_on(void);

/* Is the interrupt line up? */
bool sdhc_line(struct sdhc_record record);

/* A register is read or written, little-endian, by 1, 2 or 4 bytes. */
struct sdhc_answer sdhc_read(struct sdhc_record *record, uint32_t offset, uint32_t width);
struct sdhc_answer sdhc_write(struct sdhc_record *record, uint32_t offset, uint32_t width, uint32_t value);

/* A card comes in; the card goes out. */
struct sdhc_answer sdhc_card_in(struct sdhc_record *record);
struct sdhc_answer sdhc_card_out(struct sdhc_record *record);

/* The card answers the command that waits: an sdhc_response, and four words of which the response type takes none, one or four. */
struct sdhc_answer sdhc_respond(struct sdhc_record *record, uint32_t response, uint32_t first, uint32_t second,
                                uint32_t third, uint32_t fourth);

/* The card's interrupt level: down at 0, else up. */
struct sdhc_answer sdhc_set_level(struct sdhc_record *record, uint32_t up);

/* The busy of a response is over. */
struct sdhc_answer sdhc_busy_over(struct sdhc_record *record);

/* The card reports an error on its data lines: an sdhc_data_fault. */
struct sdhc_answer sdhc_data_error(struct sdhc_record *record, uint32_t fault);

/* The card gives a block of a read. */
struct sdhc_answer sdhc_given(struct sdhc_record *record, uint8_t *buffer, const uint8_t *block, size_t length);

/* The card takes a block of a write, into the first bytes of the room. */
struct sdhc_answer sdhc_taken(struct sdhc_record *record, const uint8_t *buffer, uint8_t *room, size_t length);

/* A turn of the engine over the guest's memory, which stands for addresses from 0. */
struct sdhc_answer sdhc_turn(struct sdhc_record *record, uint8_t *buffer, uint8_t *memory, size_t length);

/* Follows a table from `start`, with so many bytes owed, for at most `limit` lines (0 stands for 64). */
struct sdhc_report sdhc_survey(const uint8_t *memory, size_t length, uint32_t start, uint32_t owed, uint32_t limit);

/* Would a transfer of so many bytes go well, within 64 lines? */
struct sdhc_boot sdhc_boot_check(const uint8_t *memory, size_t length, uint32_t start, uint32_t owed);

/* Writes a line into a room of SDHC_LINE bytes. */
struct sdhc_answer sdhc_write_line(uint8_t *room, size_t length, struct sdhc_table_line line);

/* Reads a line; a part that has not SDHC_LINE bytes reads as zeros, which name 65,536 bytes. */
struct sdhc_table_line sdhc_read_line(const uint8_t *bytes, size_t length);

/* ---- the same steps on a slot: record and buffer go together */

/* A number of 64 bits as the archive takes it. What does not fit becomes the largest, which is no offset and no width. */
static inline uint32_t sdhc_narrowed(uint64_t number)
{
    return number > 0xFFFFFFFFu ? 0xFFFFFFFFu : (uint32_t)number;
}

/* The slot at power-on, its buffer all 0. */
static inline void sdhc_slot_power_on(struct sdhc_slot *slot)
{
    size_t i;
    slot->record = sdhc_power_on();
    for (i = 0; i < SDHC_BLOCK; i++) {
        slot->buffer[i] = 0;
    }
}

/* Is the interrupt line up? */
static inline bool sdhc_slot_line(const struct sdhc_slot *slot)
{
    return sdhc_line(slot->record);
}

/* A register is read. The value holds the register's bytes, the lowest first. */
static inline struct sdhc_answer sdhc_slot_read(struct sdhc_slot *slot, uint64_t offset, size_t width)
{
    return sdhc_read(&slot->record, sdhc_narrowed(offset), sdhc_narrowed(width));
}

/* A register is written. No width holds more than 32 bits, so a larger value goes to an offset that names no place. */
static inline struct sdhc_answer sdhc_slot_write(struct sdhc_slot *slot, uint64_t offset, size_t width, uint64_t value)
{
    uint64_t place = value > 0xFFFFFFFFu ? 0xFFFFFFFFu : offset;
    return sdhc_write(&slot->record, sdhc_narrowed(place), sdhc_narrowed(width), (uint32_t)(value & 0xFFFFFFFFu));
}

/* A card comes in. */
static inline struct sdhc_answer sdhc_slot_card_in(struct sdhc_slot *slot)
{
    return sdhc_card_in(&slot->record);
}

/* The card goes out. */
static inline struct sdhc_answer sdhc_slot_card_out(struct sdhc_slot *slot)
{
    return sdhc_card_out(&slot->record);
}

/* The card answers the command that waits. */
static inline struct sdhc_answer sdhc_slot_respond(struct sdhc_slot *slot, uint32_t response, uint32_t first, uint32_t second,
                                                   uint32_t third, uint32_t fourth)
{
    return sdhc_respond(&slot->record, response, first, second, third, fourth);
}

/* The card's interrupt level. */
static inline struct sdhc_answer sdhc_slot_set_level(struct sdhc_slot *slot, bool up)
{
    return sdhc_set_level(&slot->record, up ? 1u : 0u);
}

/* The busy of a response is over. */
static inline struct sdhc_answer sdhc_slot_busy_over(struct sdhc_slot *slot)
{
    return sdhc_busy_over(&slot->record);
}

/* The card reports an error on its data lines. */
static inline struct sdhc_answer sdhc_slot_data_error(struct sdhc_slot *slot, uint32_t fault)
{
    return sdhc_data_error(&slot->record, fault);
}

/* The card gives a block of a read. */
static inline struct sdhc_answer sdhc_slot_given(struct sdhc_slot *slot, const uint8_t *block, size_t length)
{
    return sdhc_given(&slot->record, slot->buffer, block, length);
}

/* The card takes a block of a write, into the first bytes of the room. */
static inline struct sdhc_answer sdhc_slot_taken(struct sdhc_slot *slot, uint8_t *room, size_t length)
{
    return sdhc_taken(&slot->record, slot->buffer, room, length);
}

/* A turn of the engine over the guest's memory, which stands for addresses from 0. */
static inline struct sdhc_answer sdhc_slot_turn(struct sdhc_slot *slot, uint8_t *memory, size_t length)
{
    return sdhc_turn(&slot->record, slot->buffer, memory, length);
}

#ifdef __cplusplus
}
#endif

#endif
