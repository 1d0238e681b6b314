/* The calls of an earlier archive, under names of their own, where SPLICEBELL_BEFORE names its folder (build.sh): one of
 * version 3.1.0, the last before document 02's order 8. */
#ifndef BEFORE_H
#define BEFORE_H

#include "splicebell.h"

/* The layout as it was, without the edition: 48 bytes. It means edition 1. */
typedef struct before_layout {
    uint64_t n, k, p, u, t, cookie;
} before_layout;

static inline before_layout without_edition(splicebell_layout y)
{
    return (before_layout){y.n, y.k, y.p, y.u, y.t, y.cookie};
}

splicebell_entries before_tile_permutation(before_layout y, uint64_t tile);
splicebell_mapped before_map_offset(before_layout y, uint64_t offset);
uint64_t before_encode(before_layout y, uint8_t *buf, size_t len);
uint64_t before_rebuild(before_layout y, const uint64_t *missing, size_t missing_count, uint8_t *buf, size_t len);
uint64_t before_read(before_layout y, splicebell_record r, const uint8_t *image, size_t image_len, uint64_t offset,
                     uint8_t *out, size_t out_len);
uint64_t before_write(before_layout y, splicebell_record r, uint8_t *image, size_t image_len, uint64_t offset,
                      const uint8_t *bytes, size_t bytes_len);
splicebell_repaired before_repair(before_layout y, splicebell_record r, uint8_t *image, size_t image_len);
splicebell_failed before_fail(before_layout y, splicebell_record r, const uint8_t *image, size_t image_len,
                              uint64_t target);
uint64_t before_audit(before_layout y, splicebell_record r, const uint8_t *image, size_t image_len);
splicebell_counts before_panel(before_layout y, splicebell_record r, const uint8_t *image, size_t image_len);
uint64_t before_check_plan(before_layout y, splicebell_record r, const uint8_t *image, size_t image_len,
                           const uint64_t *plan, size_t plan_len);
splicebell_repaired before_repair_by(before_layout y, splicebell_record r, uint8_t *image, size_t image_len,
                                     const uint64_t *plan, size_t plan_len);
splicebell_drawn before_draw_plan(before_layout y, splicebell_record r, const uint8_t *image, size_t image_len,
                                  uint64_t *plan, size_t plan_len);
splicebell_found before_lookup(const splicebell_entry *slots, size_t slot_count, size_t n, splicebell_key key);
splicebell_changed before_insert(splicebell_entry *slots, size_t slot_count, size_t n, splicebell_entry record);
splicebell_changed before_delete(splicebell_entry *slots, size_t slot_count, size_t n, splicebell_entry record);
splicebell_page before_listing(const splicebell_entry *slots, size_t slot_count, size_t n, splicebell_key from,
                               splicebell_wide *out, size_t out_len);

#endif
