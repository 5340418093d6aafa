/* The calls on a node over structs. Each of the six functions calls the one of ota.h that has its name without `_node`; ota.h says what
 * that does.
 *
 * A call returns that function's number and writes its result whole, refused or not. All values of a result fit into 32 bits: an image lies
 * within a flash of at most 16,777,216 bytes. Valid C11 and C++; link it as ota.h says. */
#ifndef OTA_NODE_H
#define OTA_NODE_H

#include "ota.h"

/* What starts, the `kind` of an ota_start. */
enum { OTA_NOTHING = 0, OTA_FACTORY = 1, OTA_SLOT = 2 };

/* The `sector` of an ota_start where no record was used. */
enum { OTA_NO_SECTOR = 2 };

/* The running slot of ota_next_slot_node where factory runs. */
#define OTA_RUNNING_FACTORY 0xFFFFFFFFu

/* The settings of a node. */
typedef struct ota_settings {
    uint16_t chip_id;
    uint16_t revision; /* the chip's, major * 100 + minor */
    uint32_t efuse;
    uint8_t rollback;      /* on where not 0 */
    uint8_t anti_rollback; /* on where not 0 */
} ota_settings;

/* What a node has: the partition list, the flash and otadata. */
typedef struct ota_node {
    const uint32_t *list;
    size_t words;
    const uint8_t *flash;
    size_t flash_len;
    uint8_t *otadata;
    size_t otadata_len;
} ota_node;

/* What a boot decided. Refused: OTA_NOTHING, slot 0, OTA_NO_SECTOR, the register as it was given, and zero. */
typedef struct ota_start {
    uint32_t kind;
    uint32_t slot;
    uint32_t sector;
    uint32_t efuse;  /* the register to burn */
    uint32_t length; /* the whole length of the app's image */
    uint32_t entry;  /* its entry address */
} ota_start;

/* The reply of a set-boot. */
typedef struct ota_set_reply {
    uint32_t image_number; /* why the image is refused, and the place, where the call returns 5, else zero */
    uint32_t place;
    uint32_t length; /* the image's whole length and entry address where the call returns 0, else zero */
    uint32_t entry;
} ota_set_reply;

/* The reply of a mark-valid. */
typedef struct ota_valid_reply {
    uint32_t efuse; /* the register to burn; as it was given where refused */
    uint32_t image_number;
    uint32_t place;
    uint32_t length;
    uint32_t entry;
} ota_valid_reply;

static inline uint32_t ota_boot_node(const ota_node *node, const ota_settings *settings, ota_start *start) {
    uint32_t out[6];
    uint32_t number = ota_boot(node->list, node->words, node->flash, node->flash_len, node->otadata, node->otadata_len,
                               settings->chip_id, settings->revision, settings->efuse, settings->rollback,
                               settings->anti_rollback, out);
    start->kind = out[0];
    start->slot = out[1];
    start->sector = out[2];
    start->efuse = out[3];
    start->length = out[4];
    start->entry = out[5];
    return number;
}

static inline uint32_t ota_set_boot_node(const ota_node *node, const ota_settings *settings, uint32_t slot,
                                         ota_set_reply *reply) {
    uint64_t out[4];
    uint32_t number = ota_set_boot(node->list, node->words, node->flash, node->flash_len, node->otadata, node->otadata_len,
                                   settings->chip_id, settings->revision, settings->efuse, settings->rollback,
                                   settings->anti_rollback, slot, out);
    reply->image_number = (uint32_t)out[0];
    reply->place = (uint32_t)out[1];
    reply->length = (uint32_t)out[2];
    reply->entry = (uint32_t)out[3];
    return number;
}

static inline uint32_t ota_mark_valid_node(const ota_node *node, const ota_settings *settings, uint32_t slot,
                                           ota_valid_reply *reply) {
    uint64_t out[5];
    uint32_t number = ota_mark_valid(node->list, node->words, node->flash, node->flash_len, node->otadata, node->otadata_len,
                                     settings->chip_id, settings->revision, settings->efuse, settings->rollback,
                                     settings->anti_rollback, slot, out);
    reply->efuse = (uint32_t)out[0];
    reply->image_number = (uint32_t)out[1];
    reply->place = (uint32_t)out[2];
    reply->length = (uint32_t)out[3];
    reply->entry = (uint32_t)out[4];
    return number;
}

static inline uint32_t ota_mark_invalid_node(const ota_node *node, const ota_settings *settings, uint32_t slot) {
    return ota_mark_invalid(node->list, node->words, node->flash, node->flash_len, node->otadata, node->otadata_len,
                            settings->chip_id, settings->revision, settings->efuse, settings->rollback,
                            settings->anti_rollback, slot);
}

/* Gives the state word of the record that names a slot, or zero where refused. */
static inline uint32_t ota_state_query_node(const ota_node *node, uint32_t slot, uint32_t *state) {
    uint32_t out[1];
    uint32_t number = ota_state_query(node->list, node->words, node->flash, node->flash_len, node->otadata,
                                      node->otadata_len, slot, out);
    *state = out[0];
    return number;
}

/* Gives the slot to write an update to, or zero where refused. `running` is a slot or OTA_RUNNING_FACTORY. */
static inline uint32_t ota_next_slot_node(const ota_node *node, const ota_settings *settings, uint32_t running,
                                          uint32_t *slot) {
    uint32_t out[1];
    uint32_t number = ota_next_slot(node->list, node->words, node->flash, node->flash_len, node->otadata, node->otadata_len,
                                    settings->chip_id, settings->revision, settings->efuse, settings->rollback,
                                    settings->anti_rollback, running, out);
    *slot = out[0];
    return number;
}

#endif
