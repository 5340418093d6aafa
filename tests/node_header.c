/* Holds ota_node.h to ota.h. Each of its six functions hands every field on in its own place, and gives the number, the values and the
 * bytes that the function of ota.h gives on a copy of the same node. The nodes are many, so that each call gives every number that it can.
 * Prints a line; where something differs, says so and fails. */
#include "ota.h"

/* The functions of ota_node.h call these instead, which compare what they are handed with `given` and go on to the library. */
#define ota_boot handed_boot
#define ota_set_boot handed_set_boot
#define ota_mark_valid handed_mark_valid
#define ota_mark_invalid handed_mark_invalid
#define ota_state_query handed_state_query
#define ota_next_slot handed_next_slot
#define NODE const uint32_t *list, size_t words, const uint8_t *flash, size_t flash_len, uint8_t *otadata, size_t otadata_len
#define CONST_NODE \
    const uint32_t *list, size_t words, const uint8_t *flash, size_t flash_len, const uint8_t *otadata, size_t otadata_len
#define SETTINGS uint16_t chip_id, uint16_t revision, uint32_t efuse, uint8_t rollback, uint8_t anti_rollback
static uint32_t handed_boot(NODE, SETTINGS, uint32_t out[6]);
static uint32_t handed_set_boot(NODE, SETTINGS, uint32_t slot, uint64_t out[4]);
static uint32_t handed_mark_valid(NODE, SETTINGS, uint32_t slot, uint64_t out[5]);
static uint32_t handed_mark_invalid(NODE, SETTINGS, uint32_t slot);
static uint32_t handed_state_query(CONST_NODE, uint32_t slot, uint32_t out[1]);
static uint32_t handed_next_slot(CONST_NODE, SETTINGS, uint32_t running, uint32_t out[1]);
#include "ota_node.h"
#undef ota_boot
#undef ota_set_boot
#undef ota_mark_valid
#undef ota_mark_invalid
#undef ota_state_query
#undef ota_next_slot

#include <stdio.h>
#include <stdlib.h>
#include <string.h>

/* What a call is given, and how often the library was called with it. */
static struct {
    ota_node node;
    ota_settings settings;
    uint32_t slot;
    int calls;
} given;

static void hold(int right, const char *what) {
    if (!right) {
        fprintf(stderr, "node_header: %s: list of %zu words, chip %u, revision %u, efuse %lx, rollback %u, anti-rollback %u, slot %lx\n",
                what, given.node.words, given.settings.chip_id, given.settings.revision, (unsigned long)given.settings.efuse,
                given.settings.rollback, given.settings.anti_rollback, (unsigned long)given.slot);
        exit(1);
    }
}

/* ---- what the functions of ota_node.h hand on */

static void hold_node(CONST_NODE) {
    const ota_node *node = &given.node;
    hold(list == node->list && words == node->words, "the list handed on");
    hold(flash == node->flash && flash_len == node->flash_len, "the flash handed on");
    hold(otadata == node->otadata && otadata_len == node->otadata_len, "otadata handed on");
    given.calls++;
}

static void hold_settings(SETTINGS) {
    const ota_settings *settings = &given.settings;
    hold(chip_id == settings->chip_id && revision == settings->revision, "chip id and revision handed on");
    hold(efuse == settings->efuse, "the register handed on");
    hold(rollback == settings->rollback && anti_rollback == settings->anti_rollback, "the flags handed on");
}

static void hold_slot(uint32_t slot) {
    hold(slot == given.slot, "the slot handed on");
}

#define THE_NODE list, words, flash, flash_len, otadata, otadata_len
#define THE_SETTINGS chip_id, revision, efuse, rollback, anti_rollback

static uint32_t handed_boot(NODE, SETTINGS, uint32_t out[6]) {
    hold_node(THE_NODE);
    hold_settings(THE_SETTINGS);
    return ota_boot(THE_NODE, THE_SETTINGS, out);
}

static uint32_t handed_set_boot(NODE, SETTINGS, uint32_t slot, uint64_t out[4]) {
    hold_node(THE_NODE);
    hold_settings(THE_SETTINGS);
    hold_slot(slot);
    return ota_set_boot(THE_NODE, THE_SETTINGS, slot, out);
}

static uint32_t handed_mark_valid(NODE, SETTINGS, uint32_t slot, uint64_t out[5]) {
    hold_node(THE_NODE);
    hold_settings(THE_SETTINGS);
    hold_slot(slot);
    return ota_mark_valid(THE_NODE, THE_SETTINGS, slot, out);
}

static uint32_t handed_mark_invalid(NODE, SETTINGS, uint32_t slot) {
    hold_node(THE_NODE);
    hold_settings(THE_SETTINGS);
    hold_slot(slot);
    return ota_mark_invalid(THE_NODE, THE_SETTINGS, slot);
}

static uint32_t handed_state_query(CONST_NODE, uint32_t slot, uint32_t out[1]) {
    hold_node(THE_NODE);
    hold_slot(slot);
    return ota_state_query(THE_NODE, slot, out);
}

static uint32_t handed_next_slot(CONST_NODE, SETTINGS, uint32_t running, uint32_t out[1]) {
    hold_node(THE_NODE);
    hold_settings(THE_SETTINGS);
    hold_slot(running);
    return ota_next_slot(THE_NODE, THE_SETTINGS, running, out);
}

/* ---- the nodes */

enum { UNIT = 0x10000, SECTOR = 4096, FLASH = 3 * UNIT + SECTOR, CHIP = 5, REVISION = 303, LOWER = 302 };
enum { NEW = 0, PENDING = 1, VALID = 2 };

/* Factory, slot 2, slot 0 and slot 1. Without the first entry factory isn't listed, without the last there is a slot less. */
static const uint32_t list[12] = {0, 0, SECTOR, 18, UNIT, SECTOR, 16, 2 * UNIT, SECTOR, 17, 3 * UNIT, SECTOR};
static uint8_t flash[FLASH];
static uint8_t otadata[2 * SECTOR + 1], copied[2 * SECTOR + 1], before[2 * SECTOR + 1];

static void put_word(uint8_t *at, uint32_t word) {
    for (int k = 0; k < 4; k++)
        at[k] = (uint8_t)(word >> 8 * k);
}

/* What is wrong with an image. */
enum { NOTHING, CHECKSUM, DIGEST };

/* An image for REVISION and later, with a digest and one segment of `size` bytes, a multiple of 16, zero but for its descriptor. */
static void put_image(uint8_t *part, uint32_t entry, uint32_t size, uint8_t version, int wrong) {
    part[0] = 0xE9;
    part[1] = 1;
    put_word(part + 4, entry);
    part[12] = CHIP;
    part[15] = REVISION & 0xFF;
    part[16] = REVISION >> 8;
    part[23] = 1;
    put_word(part + 28, size);
    put_word(part + 32, 0xABCD5432);
    part[36] = version;
    part[32 + size + 15] = 0xEF ^ version ^ (wrong == CHECKSUM); /* the checksum; the descriptor's four bytes cancel out */
    uint8_t *digest = part + 32 + size + 16;
    ota_sha256(part, 32 + size + 16, digest);
    digest[0] ^= wrong == DIGEST;
}

/* A sector with a record, or erased where the sequence is 0. */
static void put_record(uint8_t *sector, uint32_t sequence, uint32_t state) {
    static const uint8_t label[20] = {0x41};
    memset(sector, 0xFF, SECTOR);
    if (sequence != 0)
        ota_make_record(sequence, label, state, sector);
}

/* ---- each call both ways */

/* The numbers that a call has given, a bit for each. */
enum { BOOT, SET_BOOT, MARK_VALID, MARK_INVALID, STATE_QUERY, NEXT_SLOT, CALLS };
static uint32_t numbers[CALLS];
/* Whether these came up: a boot whose six values differ, and refusals with image number and place, also for the revision and the digest. */
static int start_met, set_refusal_met, mark_refusal_met, set_revision_met, mark_revision_met, set_digest_met, mark_digest_met;

static void prepare(void) {
    memcpy(otadata, before, sizeof before);
    memcpy(copied, before, sizeof before);
    given.calls = 0;
}

/* The numbers of both ways and all bytes are the same, and the library was called once. */
static void hold_same(int call, uint32_t number, uint32_t direct, const char *name) {
    hold(number == direct && number < 32, name);
    hold(memcmp(otadata, copied, sizeof otadata) == 0, name);
    hold(given.calls == 1, name);
    numbers[call] |= UINT32_C(1) << number;
}

#define DIRECT_NODE given.node.list, given.node.words, given.node.flash, given.node.flash_len, copied, given.node.otadata_len
#define DIRECT_SETTINGS \
    given.settings.chip_id, given.settings.revision, given.settings.efuse, given.settings.rollback, given.settings.anti_rollback

static void boot(void) {
    ota_start start;
    uint32_t out[6];
    prepare();
    memset(&start, 0xA5, sizeof start);
    uint32_t number = ota_boot_node(&given.node, &given.settings, &start);
    hold_same(BOOT, number, ota_boot(DIRECT_NODE, DIRECT_SETTINGS, out), "boot");
    hold(start.kind == out[0] && start.slot == out[1] && start.sector == out[2], "what starts");
    hold(start.efuse == out[3] && start.length == out[4] && start.entry == out[5], "register and image of a boot");
    start_met |= start.kind == OTA_SLOT && start.slot == 1 && start.sector == 0 && start.efuse == 3 && start.length == 592 &&
                 start.entry == 0x40080400;
}

static void set_boot(void) {
    ota_set_reply reply;
    uint64_t out[4];
    prepare();
    memset(&reply, 0xA5, sizeof reply);
    uint32_t number = ota_set_boot_node(&given.node, &given.settings, given.slot, &reply);
    hold_same(SET_BOOT, number, ota_set_boot(DIRECT_NODE, DIRECT_SETTINGS, given.slot, out), "set-boot");
    hold(reply.image_number == out[0] && reply.place == out[1], "image number and place of a set-boot");
    hold(reply.length == out[2] && reply.entry == out[3], "the image of a set-boot");
    set_refusal_met |= number == 5 && reply.image_number == 28 && reply.place == 559;
    set_revision_met |= number == 5 && reply.image_number == 31 && reply.place == 15;
    set_digest_met |= number == 5 && reply.image_number == 30 && reply.place == 560;
}

static void mark_valid(void) {
    ota_valid_reply reply;
    uint64_t out[5];
    prepare();
    memset(&reply, 0xA5, sizeof reply);
    uint32_t number = ota_mark_valid_node(&given.node, &given.settings, given.slot, &reply);
    hold_same(MARK_VALID, number, ota_mark_valid(DIRECT_NODE, DIRECT_SETTINGS, given.slot, out), "mark-valid");
    hold(reply.efuse == out[0] && reply.image_number == out[1] && reply.place == out[2], "register, number and place of a mark");
    hold(reply.length == out[3] && reply.entry == out[4], "the image of a mark");
    mark_refusal_met |= number == 5 && reply.image_number == 28 && reply.place == 559;
    mark_revision_met |= number == 5 && reply.image_number == 31 && reply.place == 15;
    mark_digest_met |= number == 5 && reply.image_number == 30 && reply.place == 560;
}

static void mark_invalid(void) {
    prepare();
    uint32_t number = ota_mark_invalid_node(&given.node, &given.settings, given.slot);
    hold_same(MARK_INVALID, number, ota_mark_invalid(DIRECT_NODE, DIRECT_SETTINGS, given.slot), "mark-invalid");
}

static void state_query(void) {
    uint32_t state = 0xA5A5A5A5, out[1];
    prepare();
    uint32_t number = ota_state_query_node(&given.node, given.slot, &state);
    hold_same(STATE_QUERY, number, ota_state_query(DIRECT_NODE, given.slot, out), "state query");
    hold(state == out[0], "the state");
}

static void next_slot(void) {
    uint32_t slot = 0xA5A5A5A5, out[1];
    prepare();
    uint32_t number = ota_next_slot_node(&given.node, &given.settings, given.slot, &slot);
    hold_same(NEXT_SLOT, number, ota_next_slot(DIRECT_NODE, DIRECT_SETTINGS, given.slot, out), "next slot");
    hold(slot == out[0], "the next slot");
}

/* ---- all of them */

static void all_calls(void) {
    static const uint32_t slots[] = {0, 1, 2, 3, OTA_RUNNING_FACTORY};
    for (size_t k = 0; k < sizeof slots / sizeof *slots; k++) {
        given.slot = slots[k];
        boot();
        set_boot();
        mark_valid();
        mark_invalid();
        state_query();
        next_slot();
    }
}

/* With each of the settings. No app has the version of the register 0x1F, and none is for chip 7 or the revision LOWER. */
static void all_settings(void) {
    static const ota_settings settings[] = {
        {CHIP, REVISION, 3, 1, 0},    {CHIP, REVISION, 3, 1, 2}, {CHIP, REVISION, 3, 0, 1}, {CHIP, REVISION, 3, 0, 0},
        {CHIP, REVISION, 0x1F, 1, 2}, {7, REVISION, 3, 1, 0},    {CHIP, LOWER, 3, 1, 0},
    };
    for (size_t k = 0; k < sizeof settings / sizeof *settings; k++) {
        given.settings = settings[k];
        all_calls();
    }
}

/* On each pair of records. With three slots sequence 2 and the highest name slot 1. */
static void all_records(void) {
    static const uint32_t records[][4] = {
        {0, 0, 0, 0}, {2, VALID, 0, 0}, {2, PENDING, 1, VALID}, {1, VALID, 3, NEW}, {4294967294, VALID, 1, NEW},
    };
    for (size_t k = 0; k < sizeof records / sizeof *records; k++) {
        put_record(before, records[k][0], records[k][1]);
        put_record(before + SECTOR, records[k][2], records[k][3]);
        all_settings();
    }
}

int main(void) {
    put_image(flash, 0x40080000, 256, 3, NOTHING);
    put_image(flash + 2 * UNIT, 0x40080300, 384, 3, NOTHING);
    put_image(flash + 3 * UNIT, 0x40080400, 512, 3, NOTHING);
    /* With factory, without it, a list that is refused, otadata too short, and too long. */
    const ota_node nodes[] = {
        {list, 12, flash, FLASH, otadata, 2 * SECTOR},     {list + 3, 9, flash, FLASH, otadata, 2 * SECTOR},
        {list + 3, 6, flash, FLASH, otadata, 2 * SECTOR},  {list + 3, 9, flash, FLASH, otadata, 2 * SECTOR - 1},
        {list, 12, flash, FLASH, otadata, 2 * SECTOR + 1},
    };
    for (int wrong = CHECKSUM; wrong <= DIGEST; wrong++) {
        put_image(flash + UNIT, 0x40080200, 512, 3, wrong);
        for (size_t k = 0; k < sizeof nodes / sizeof *nodes; k++) {
            given.node = nodes[k];
            all_records();
        }
    }

    static const uint32_t expected[CALLS] = {
        0x40F, /* boot: 0 to 3, 10 */
        0x8FF, /* set-boot: 0 to 7, 11 */
        0x17F, /* mark-valid: 0 to 6, 8 */
        0x31F, /* mark-invalid: 0 to 4, 8, 9 */
        0x117, /* state query: 0 to 2, 4, 8 */
        0x81F, /* next slot: 0 to 4, 11 */
    };
    hold(memcmp(numbers, expected, sizeof numbers) == 0, "the numbers that the calls gave");
    hold(start_met && set_refusal_met && mark_refusal_met, "the values that the calls gave");
    hold(set_revision_met && mark_revision_met && set_digest_met && mark_digest_met, "the image numbers that the calls gave");
    printf("ota_node.h: its six functions give what those of ota.h give\n");
    return 0;
}
