/* Checks an app's image and boots a node: two app slots, an old app that works and a new one on trial.
 *
 *   ./library
 *   gcc -Iinclude examples/boot_node.c target/staticlib/libota.a -o boot_node
 */
#include "ota_node.h"
#include <inttypes.h>
#include <stdint.h>
#include <stdio.h>
#include <string.h>

enum { SLOT_SIZE = 0x10000, SECTOR_SIZE = 4096, WORDS = 6 };
enum { STATE_NEW = 0, STATE_VALID = 2 };

/* What a node has: its flash, the two otadata sectors, and the partition list, here a slot 0 and a slot 1.
 * An entry is subtype, offset and size; the subtype of slot 0 is 16. */
static uint8_t flash[2 * SLOT_SIZE];
static uint8_t otadata[2 * SECTOR_SIZE];
static const uint32_t list[WORDS] = {16, 0, SLOT_SIZE, 17, SLOT_SIZE, SLOT_SIZE};

static const ota_node node = {list, WORDS, flash, sizeof flash, otadata, sizeof otadata};
/* An ESP32 of revision 3.1 that has burned no version, with rollback on and anti-rollback off. */
static const ota_settings settings = {.chip_id = 0, .revision = 301, .efuse = 0, .rollback = 1, .anti_rollback = 0};

/* Puts a small image into a slot, as a build tool makes it: one segment of 256 bytes with the app's descriptor. */
static void put_image(uint8_t *slot, uint32_t entry, uint8_t version) {
    static const uint8_t descriptor[4] = {0x32, 0x54, 0xCD, 0xAB};
    memset(slot, 0, 304);
    slot[0] = 0xE9; /* magic */
    slot[1] = 1;    /* segments */
    for (int k = 0; k < 4; k++)
        slot[4 + k] = (uint8_t)(entry >> 8 * k); /* the entry address */
    slot[15] = 300 & 0xFF; /* the minimum revision, 3.0; the maximum stays 0, no limit */
    slot[16] = 300 >> 8;
    slot[29] = 1; /* the segment's length, 256 */
    memcpy(slot + 32, descriptor, sizeof descriptor);
    slot[36] = version;         /* the secure version */
    slot[303] = 0xEF ^ version; /* the checksum; the descriptor's four bytes cancel out */
}

/* Puts a record into a sector. With two slots, sequence 1 names slot 0, sequence 2 slot 1, sequence 3 slot 0, and so on. */
static void put_record(uint8_t *sector, uint32_t sequence, uint32_t state) {
    static const uint8_t label[20] = {0};
    uint8_t record[32];
    ota_make_record(sequence, label, state, record);
    ota_rewrite(sector, SECTOR_SIZE, record, sizeof record);
}

/* Boots the node, and says what was decided. */
static void boot(void) {
    ota_start start;
    uint32_t number = ota_boot_node(&node, &settings, &start);
    if (number != 0)
        printf("boot refused with %" PRIu32 "\n", number);
    else
        printf("boot starts slot %" PRIu32 " through sector %" PRIu32 ", entry 0x%08" PRIx32 "\n", start.slot, start.sector,
               start.entry);
}

int main(void) {
    put_image(flash, 0x40080000, 1);
    put_image(flash + SLOT_SIZE, 0x40080400, 2);
    put_record(otadata, 1, STATE_VALID);
    put_record(otadata + SECTOR_SIZE, 2, STATE_NEW);

    /* Is the image in slot 1 whole, and for this chip and its revision? */
    uint64_t facts[4];
    uint32_t number = ota_check_image(flash + SLOT_SIZE, SLOT_SIZE, settings.chip_id, settings.revision, facts);
    if (number != 0) {
        printf("image refused with %" PRIu32 " at byte %" PRIu64 "\n", number, facts[0]);
        return 1;
    }
    printf("slot 1 holds an image of %" PRIu64 " bytes, version %" PRIu64 "\n", facts[0], facts[2]);

    boot(); /* The new app starts on trial: its record becomes pending. */
    boot(); /* It never called ota_mark_valid_node, so its record becomes aborted and the old app starts. */
    return 0;
}
