/* The C interface of the proved firmware-update library.
 *
 * Link it with libota.a, which the script `library` makes. A slice is a pointer and a count of its elements. `out` is written whole
 * at every call, refused or not, and is zero where nothing is stated. A number that a call returns is document 01's:
 * 0 is done, any other a refusal, unless the call says otherwise.
 *
 * What a call is given need not be checked before. The caller sees to this alone: each pointer leads to as many elements
 * as are stated, aligned, and what a call writes overlaps nothing else that it is given. No call keeps a pointer. */
#ifndef OTA_H
#define OTA_H

#include <stddef.h>
#include <stdint.h>

#ifdef __cplusplus
extern "C" {
#endif

/* ---- records */

/* Returns the check word of a sequence. */
uint32_t ota_check_word(uint32_t sequence);

/* Puts the check word of each sequence in its place, for many of them faster than by a call each. Returns 0. */
uint32_t ota_check_words(uint32_t *sequences, size_t count);

/* Makes a record of a sequence, a label and a state word.
 * Returns 0 with the record, or 17 with 32 zero bytes where the fields make no good record. */
uint32_t ota_make_record(uint32_t sequence, const uint8_t label[20], uint32_t state, uint8_t record[32]);

/* Reads the record of a sector. Returns 0 with out = {1, sequence, state word} of a good record. Else 0 with out = {why, 0, 0}, the first
 * that applies: 2 blank, 32 bytes 0xFF; 3 bad sequence; 4 bad check word; 5 bad state. Or 2 where the size is wrong. */
uint32_t ota_read_sector(const uint8_t *sector, size_t sector_len, uint32_t out[3]);

/* Copies the active record of two sectors.
 * Returns 32 with the record, or 0 where none is active, and then `record` stays as it was. */
uint32_t ota_active(const uint8_t *sector_0, size_t sector_0_len, const uint8_t *sector_1, size_t sector_1_len,
                    uint8_t record[32]);

/* ---- rewriting a sector */

/* Does store m, 0 to 4,127, of a rewrite of the sector with the record.
 * Returns 0, 2 where a size is wrong, or 12 where there is no such store. */
uint32_t ota_store(uint8_t *sector, size_t sector_len, const uint8_t *record, size_t record_len, size_t m);

/* Does a whole rewrite of the sector with the record. Returns 0, or 2 where a size is wrong. */
uint32_t ota_rewrite(uint8_t *sector, size_t sector_len, const uint8_t *record, size_t record_len);

/* ---- the partition list and app images */

/* Tests a partition list, triples of subtype, offset and size, for a flash of that length.
 * It has 2 to 16 slots, and factory at most once: 51 words at most.
 * Returns 0 with out = {number of slots, 1 if factory is listed}, or 1. */
uint32_t ota_check_list(const uint32_t *list, size_t words, size_t flash_len, uint32_t out[2]);

/* Checks an app image for a chip of that id and revision, which is major * 100 + minor. An image whose minimum revision is above
 * the chip's, or whose maximum is below it, is refused with 31; a maximum of 0 or 65,535 is no limit. Where the digest
 * flag is 1 and the appended digest is not the SHA-256 of all bytes before it, the image is refused with 30, the last of the tests,
 * and the place is the first byte of the digest.
 * Returns 0 with out = {whole length, entry address, secure version, number of segments},
 * or 20 to 31 with out = {place, 0, 0, 0}. */
uint32_t ota_check_image(const uint8_t *image, size_t image_len, uint16_t chip_id, uint16_t revision, uint64_t out[4]);

/* Fills `digest` with the SHA-256 of the bytes, as FIPS 180-4 defines it. Returns 0. */
uint32_t ota_sha256(const uint8_t *bytes, size_t len, uint8_t digest[32]);

/* ---- the eFuse register
 *
 * On chip 0, the ESP32, all its 32 bits count; on every other chip the 16 lowest. */

/* Returns the version that a register holds: the number of ones among the bits that count. */
uint32_t ota_efuse_version(uint16_t chip_id, uint32_t efuse);

/* Returns the register raised to a version: the lowest clear bits that count are set until it holds the version, or until
 * all of them are set. The other bits come back as they were. */
uint32_t ota_efuse_raise(uint16_t chip_id, uint32_t efuse, uint32_t version);

/* ---- the node
 *
 * The calls below take the partition list, the flash and otadata, and all but the query the settings: chip id, the chip's revision,
 * eFuse register, and two flags, on where not 0. An app's image is checked for that chip id and revision, as by ota_check_image.
 * A refusal gives the register as it was given, and zero for the length and the entry address of an image. ota_node.h has these
 * calls over structs. */

/* Decides which app starts, and changes the states of the records.
 * out = {1 factory or 2 slot; slot; sector used, or 2 for none; register; whole length, entry address of the app's image}.
 * Refused: out = {0, 0, 2, register, 0, 0}. */
uint32_t ota_boot(const uint32_t *list, size_t words, const uint8_t *flash, size_t flash_len,
                  uint8_t *otadata, size_t otadata_len,
                  uint16_t chip_id, uint16_t revision, uint32_t efuse, uint8_t rollback, uint8_t anti_rollback,
                  uint32_t out[6]);

/* Makes a slot the one to start next. out = {image number, place, whole length, entry address}: the first two are zero unless it
 * returns 5, and the last two, of the slot's image, unless it returns 0. */
uint32_t ota_set_boot(const uint32_t *list, size_t words, const uint8_t *flash, size_t flash_len,
                      uint8_t *otadata, size_t otadata_len,
                      uint16_t chip_id, uint16_t revision, uint32_t efuse, uint8_t rollback, uint8_t anti_rollback,
                      uint32_t slot, uint64_t out[4]);

/* Marks the running slot valid. out = {register to burn, image number, place, whole length, entry address}, the last four as of
 * ota_set_boot. */
uint32_t ota_mark_valid(const uint32_t *list, size_t words, const uint8_t *flash, size_t flash_len,
                        uint8_t *otadata, size_t otadata_len,
                        uint16_t chip_id, uint16_t revision, uint32_t efuse, uint8_t rollback, uint8_t anti_rollback,
                        uint32_t slot, uint64_t out[5]);

/* Marks the running slot invalid, unless nothing else could be started. */
uint32_t ota_mark_invalid(const uint32_t *list, size_t words, const uint8_t *flash, size_t flash_len,
                          uint8_t *otadata, size_t otadata_len,
                          uint16_t chip_id, uint16_t revision, uint32_t efuse, uint8_t rollback, uint8_t anti_rollback,
                          uint32_t slot);

/* Gives the state of the record that names a slot. out = {state word}. */
uint32_t ota_state_query(const uint32_t *list, size_t words, const uint8_t *flash, size_t flash_len,
                         const uint8_t *otadata, size_t otadata_len,
                         uint32_t slot, uint32_t out[1]);

/* Gives the slot to write an update to, from the running slot, or 0xFFFFFFFF for factory. out = {slot}. */
uint32_t ota_next_slot(const uint32_t *list, size_t words, const uint8_t *flash, size_t flash_len,
                       const uint8_t *otadata, size_t otadata_len,
                       uint16_t chip_id, uint16_t revision, uint32_t efuse, uint8_t rollback, uint8_t anti_rollback,
                       uint32_t running, uint32_t out[1]);

#ifdef __cplusplus
}
#endif

#endif
