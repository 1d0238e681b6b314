/* The plain Rust twin of twin/lib.rs: the signatures of splicebell.h. */
#ifndef TWIN_H
#define TWIN_H

#include "splicebell.h"

void twin_products(const uint8_t *a, const uint8_t *b, uint8_t *out, size_t len);
uint64_t twin_encode(splicebell_layout y, uint8_t *buf, size_t len);
uint64_t twin_rebuild(splicebell_layout y, const uint64_t *missing, size_t missing_count, uint8_t *buf, size_t len);
uint64_t twin_read(splicebell_layout y, splicebell_record r, const uint8_t *image, size_t image_len, uint64_t offset,
                   uint8_t *out, size_t out_len);
uint64_t twin_write(splicebell_layout y, splicebell_record r, uint8_t *image, size_t image_len, uint64_t offset,
                    const uint8_t *bytes, size_t bytes_len);
splicebell_list_written twin_write_list(splicebell_layout y, splicebell_record r, uint8_t *image, size_t image_len,
                                        const splicebell_range *ranges, size_t range_count, const uint8_t *bytes,
                                        size_t bytes_len);
splicebell_repaired twin_repair(splicebell_layout y, splicebell_record r, uint8_t *image, size_t image_len);
splicebell_failed twin_fail(splicebell_layout y, splicebell_record r, const uint8_t *image, size_t image_len,
                            uint64_t target);
uint64_t twin_audit(splicebell_layout y, splicebell_record r, const uint8_t *image, size_t image_len);
uint64_t twin_check_plan(splicebell_layout y, splicebell_record r, const uint8_t *image, size_t image_len,
                         const uint64_t *plan, size_t plan_len);
splicebell_repaired twin_repair_by(splicebell_layout y, splicebell_record r, uint8_t *image, size_t image_len,
                                   const uint64_t *plan, size_t plan_len);
splicebell_drawn twin_draw_plan(splicebell_layout y, splicebell_record r, const uint8_t *image, size_t image_len,
                                uint64_t *plan, size_t plan_len);
splicebell_swapped twin_swap(splicebell_layout y, splicebell_record r, uint8_t *image, size_t image_len,
                             uint64_t target);
uint64_t twin_move_edition(splicebell_layout y, splicebell_record r, const uint8_t *old_image, size_t old_image_len,
                           uint8_t *new_image, size_t new_image_len);
uint64_t twin_write_text(splicebell_layout y, const uint8_t *image, size_t image_len, uint8_t *text, size_t text_len);
splicebell_text_read twin_read_text(splicebell_layout y, const uint8_t *text, size_t text_len, uint8_t *image,
                                    size_t image_len);
splicebell_added twin_add_settings(uint64_t version, splicebell_layout y, uint8_t *buffer, size_t buffer_len,
                                   size_t used);
splicebell_settings twin_newest_settings(const uint8_t *buffer, size_t buffer_len, size_t used);
splicebell_settings twin_newest_settings_old(const uint8_t *buffer, size_t buffer_len, size_t used);
splicebell_found twin_lookup(const splicebell_entry *slots, size_t slot_count, size_t n, splicebell_key key);
splicebell_changed twin_insert(splicebell_entry *slots, size_t slot_count, size_t n, splicebell_entry record);
splicebell_changed twin_delete(splicebell_entry *slots, size_t slot_count, size_t n, splicebell_entry record);
splicebell_page twin_listing(const splicebell_entry *slots, size_t slot_count, size_t n, splicebell_key from,
                             splicebell_wide *out, size_t out_len);
splicebell_entries twin_tile_permutation(splicebell_layout y, uint64_t tile);
splicebell_mapped twin_map_offset(splicebell_layout y, uint64_t offset);

#endif
