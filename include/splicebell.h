/*
 * Splicebell: a proved storage pool for rows of bag-drop kiosks, called from C.
 *
 * Every call takes any numbers and any lengths, tests everything itself and answers the lowest refusal
 * number that applies; 0 is accepted. After a refusal an output buffer (read, listing, prepare, hex line,
 * a pool's text, an image that a text or a move was to fill, a line's answer) is all zeros, returned numbers
 * are 0 unless stated, and nothing else that was lent has changed.
 *
 * What a caller owes, since C cannot be asked: a pointer with a length leads to that many elements, aligned
 * for their type, also where the length is 0 (not NULL); a buffer that a call may change overlaps no other
 * buffer of that call; no other thread touches them meanwhile. docs/ABI.md has the whole of it.
 *
 * C11, no dependencies. Link libsplicebell, or the archive that `rt lib` makes in crates/abi, for x86-64-v2 Linux.
 */
#ifndef SPLICEBELL_H
#define SPLICEBELL_H

#include <stdbool.h>
#include <stddef.h>
#include <stdint.h>

/* The interface's number: the first number of VERSION, and the shared library's. It goes up where a program
 * built before could not run with the library, since a struct or a call has changed; a new call leaves it as
 * it is. A program can ask for the header that it was written for:
 *
 *     #if SPLICEBELL_INTERFACE != 4
 *     #error "docs/ABI.md, The interface's number, says what has changed"
 *     #endif
 */
#define SPLICEBELL_INTERFACE 4

#ifdef __cplusplus
extern "C" {
#endif

/* Why a call was refused. Where several apply, the lowest is given. */
enum splicebell_refusal {
    SPLICEBELL_ACCEPTED = 0,
    SPLICEBELL_BAD_LAYOUT = 1,         /* a layout number outside its bounds; or settings of a version that is
                                        * not 1 or 2, or of edition 2 in version 1 */
    SPLICEBELL_BAD_IMAGE_LENGTH = 2,   /* the image is not of its exact length */
    SPLICEBELL_BAD_RECORD = 3,         /* the failure record is bad, or its count of missing units is above
                                        * T*C*(N+K), or a fail would raise it above */
    SPLICEBELL_OUTSIDE = 4,            /* tile, group, unit, frame, target, offset or range outside,
                                        * or more than 64 ranges in a list */
    SPLICEBELL_BAD_BUFFER_LENGTH = 5,  /* a unit, group, scratch, line, text or list buffer of wrong length,
                                        * or too short a buffer for an answer or a plan, or a used length
                                        * above the buffer */
    SPLICEBELL_ALREADY_FAILED = 6,     /* the target has failed already */
    SPLICEBELL_DUD = 7,                /* K targets have failed already */
    SPLICEBELL_TOO_MANY_MISSING = 8,   /* more than K units named missing */
    SPLICEBELL_BAD_CATALOGUE = 9,      /* count above the slice, or keys not strictly rising */
    SPLICEBELL_CATALOGUE_FULL = 10,    /* no free slot, and the key is new; or no room for a line of settings */
    SPLICEBELL_NO_SUCH_RECORD = 11,    /* no record of that key, or none that matches in all three; or a target
                                        * that is not in the failure list; or no settings at all */
    SPLICEBELL_WRONG_LINE = 12,        /* a text that is not the hex lines of a pool of this layout, or a
                                        * malformed line of settings */
    SPLICEBELL_BAD_TRACE = 13,         /* a malformed line of a trace, or a pool too large for a replay */
    SPLICEBELL_WRONG_COUNT = 14,       /* the record's count of missing units is not the true one */
    SPLICEBELL_BAD_PLAN = 15,          /* a plan of repair that is not accepted */
    SPLICEBELL_NOT_REPAIRED = 16,      /* q is not k: a target cannot be taken back before all are repaired */
    SPLICEBELL_UNKNOWN_EDITION = 17    /* the newest settings have edition 2, which a reader of version 1 does
                                        * not know */
};

/* N data, K parity and K spare units a group, P targets, U bytes a unit, T tiles, the permutations' cookie and
 * edition. Edition 1: document 01's permutations, those of every row that was installed while there was no
 * other. Edition 2: the generator is advanced four times more before the exchanges. Another is refused with 1,
 * so also the 0 of a layout whose edition was never set. */
typedef struct splicebell_layout {
    uint64_t n, k, p, u, t, cookie, edition;
} splicebell_layout;

/* The first k entries are the failed targets, in order; the first q of them have been repaired. waiting is the
 * count of missing units. All zeros: nothing has failed. */
typedef struct splicebell_record {
    uint64_t failed[3];
    uint64_t k, q, waiting;
} splicebell_record;

/* W = N+2K units a group, B = lcm(W, P), L rows and C groups a tile, frames of a target, groups, bytes of
 * the file, bytes of the image. */
typedef struct splicebell_numbers {
    uint64_t w, b, l, c, frames, groups, capacity, image;
} splicebell_numbers;

typedef struct splicebell_measured {
    uint64_t refusal;
    splicebell_numbers numbers;
} splicebell_measured;

typedef struct splicebell_entries {
    uint64_t refusal;
    uint8_t entries[64];
} splicebell_entries;

typedef struct splicebell_placed {
    uint64_t refusal, frame, target, begins;
} splicebell_placed;

typedef struct splicebell_held {
    uint64_t refusal, group, unit;
} splicebell_held;

typedef struct splicebell_mapped {
    uint64_t refusal, group, unit, byte, image;
} splicebell_mapped;

/* What a byte of the image holds; offset is 0 where it is none of the file's. */
typedef struct splicebell_traced {
    uint64_t refusal, group, unit, byte;
    bool is_data;
    uint64_t offset;
} splicebell_traced;

typedef struct splicebell_unit {
    uint64_t group, unit;
} splicebell_unit;

typedef struct splicebell_cursor {
    uint64_t target, frame;
} splicebell_cursor;

typedef struct splicebell_walked {
    uint64_t refusal;
    bool done;
    splicebell_unit held;
    splicebell_cursor next;
} splicebell_walked;

typedef struct splicebell_failed {
    uint64_t refusal;
    splicebell_record record;
} splicebell_failed;

/* Where in the file bytes are to be stored, and how many. */
typedef struct splicebell_range {
    uint64_t offset, length;
} splicebell_range;

/* Where the refusal is 4 for one range, range is the first that is outside, counted from 1; else 0. */
typedef struct splicebell_list_written {
    uint64_t refusal, range;
} splicebell_list_written;

typedef struct splicebell_repaired {
    uint64_t refusal, count;
    splicebell_record record;
} splicebell_repaired;

/* How many numbers of the buffer the plan takes, from the first on. */
typedef struct splicebell_drawn {
    uint64_t refusal, length;
} splicebell_drawn;

typedef struct splicebell_swapped {
    uint64_t refusal;
    splicebell_record record;
} splicebell_swapped;

/* What the service panel shows: how many units await repair, how many targets have failed, and how many of
 * these have been repaired. */
typedef struct splicebell_counts {
    uint64_t refusal, waiting, failed, repaired;
} splicebell_counts;

/* Where a unit is shown: in the scratch where it is missing, else in the image. */
typedef struct splicebell_shown {
    uint64_t refusal;
    bool missing;
    size_t begins, length;
} splicebell_shown;

/* A number of 128 bits, a file's or a cob's. first is the more significant word: pairs are ordered by it, and
 * by second where it is equal. */
typedef struct splicebell_wide {
    uint64_t first, second;
} splicebell_wide;

/* The component object of a file on a device. */
typedef struct splicebell_entry {
    uint64_t device;
    splicebell_wide file, cob;
} splicebell_entry;

/* What a record is found by; keys are ordered by device, then by file. */
typedef struct splicebell_key {
    uint64_t device;
    splicebell_wide file;
} splicebell_key;

typedef struct splicebell_found {
    uint64_t refusal;
    splicebell_wide cob;
} splicebell_found;

typedef struct splicebell_changed {
    uint64_t refusal;
    size_t count;
} splicebell_changed;

/* count pairs of the output were filled; next is the file at which to go on, (0,0) where no more remain. */
typedef struct splicebell_page {
    uint64_t refusal;
    size_t count;
    bool more;
    splicebell_wide next;
} splicebell_page;

/* Where the refusal is 12, line is the first wrong line, counted from 1; else 0. */
typedef struct splicebell_text_read {
    uint64_t refusal, line;
} splicebell_text_read;

/* What a trace begins with: its layout, and the bytes of the image that it is played on. */
typedef struct splicebell_first_line {
    uint64_t refusal;
    splicebell_layout layout;
    uint64_t image;
} splicebell_first_line;

/* How many bytes of the buffer are the answer, and the record after the event. */
typedef struct splicebell_played {
    uint64_t refusal, length;
    splicebell_record record;
} splicebell_played;

/* How many bytes of the buffer are then the text; refused, as many as were given. */
typedef struct splicebell_added {
    uint64_t refusal;
    size_t used;
} splicebell_added;

/* Where the refusal is 12, line is the first malformed line, counted from 1; else 0. */
typedef struct splicebell_settings {
    uint64_t refusal, line;
    splicebell_layout layout;
} splicebell_settings;

/* ---- layout numbers, permutation, places, offsets, walk: nothing is lent */

/* All numbers that follow from a layout.
 * Refusals: 1. */
splicebell_measured splicebell_measure(splicebell_layout y);

/* Entry t is the target of column t of a tile; entries from P on hold their own index.
 * Refusals: 1, 4 (tile >= T). */
splicebell_entries splicebell_tile_permutation(splicebell_layout y, uint64_t tile);

/* Entry t is the column of target t of a tile: what undoes the permutation.
 * Refusals: 1, 4 (tile >= T). */
splicebell_entries splicebell_tile_inverse(splicebell_layout y, uint64_t tile);

/* The frame and target of a unit, and the byte of the image at which it begins.
 * Refusals: 1, 4 (group or unit outside). */
splicebell_placed splicebell_find_place(splicebell_layout y, uint64_t group, uint64_t unit);

/* The group and unit that lie at a frame of a target: what undoes find_place.
 * Refusals: 1, 4 (frame or target outside). */
splicebell_held splicebell_find_unit(splicebell_layout y, uint64_t frame, uint64_t target);

/* A file offset's group, unit and byte in the unit, and its byte of the image while nothing has failed.
 * Refusals: 1, 4 (offset >= capacity). */
splicebell_mapped splicebell_map_offset(splicebell_layout y, uint64_t offset);

/* An image byte's group, unit and byte in the unit, whether that is a data unit, and then its file offset,
 * while nothing has failed: what undoes map_offset.
 * Refusals: 1, 4 (x >= P*L*T*U). */
splicebell_traced splicebell_map_byte(splicebell_layout y, uint64_t x);

/* The unit at the cursor and the next cursor; at frame L*T done. Done or refused, the cursor comes back.
 * Refusals: 1, 4 (target >= P or frame > L*T). */
splicebell_walked splicebell_step(splicebell_layout y, splicebell_cursor at);

/* ---- one group in a buffer of (N+K)*U bytes: both answer the refusal number */

/* Sets the K parity units of the buffer from its N data units; every other byte stays.
 * Refusals: 1, 5 (len). Refused: no byte changes. */
uint64_t splicebell_encode(splicebell_layout y, uint8_t *buf, size_t len);

/* Fills the named units from the N lowest others; every other byte stays. A unit named twice counts once.
 * Refusals: 1, 4 (a unit >= N+K), 5 (len), 8. Refused: no byte changes. */
uint64_t splicebell_rebuild(splicebell_layout y, const uint64_t *missing, size_t missing_count,
                            uint8_t *buf, size_t len);

/* ---- the pool: every call tests the layout (1), the image's length (2), the record with its count (3), then
 * its own. From a true count every call keeps it true. Panel, audit, number 3 and the record handed back depend
 * on the count, and nothing else does. */

/* The record with one failed target more, and its count raised by the contents whose home under the first q
 * entries was on that target; the image is lent for its length alone.
 * Refusals: 1, 2, 3 (also where nothing else is wrong and the count would be raised above T*C*(N+K)), 4
 * (target >= P), 6, 7. Refused: the record as it was. */
splicebell_failed splicebell_fail(splicebell_layout y, splicebell_record r, const uint8_t *image,
                                  size_t image_len, uint64_t target);

/* The bytes of the file from offset on, missing contents rebuilt. The image is only read.
 * Refusals: 1, 2, 3, 4 (range). Refused: out is all zeros. */
uint64_t splicebell_read(splicebell_layout y, splicebell_record r, const uint8_t *image, size_t image_len,
                         uint64_t offset, uint8_t *out, size_t out_len);

/* Stores bytes at a file offset: those bytes and the parity bytes at their unit offsets change, no other.
 * Refusals: 1, 2, 3, 4 (range). Refused: the image is unchanged. */
uint64_t splicebell_write(splicebell_layout y, splicebell_record r, uint8_t *image, size_t image_len,
                          uint64_t offset, const uint8_t *bytes, size_t bytes_len);

/* Stores up to 64 ranges as write would one after the other: where they overlap, the later wins. bytes holds
 * those of all ranges, in order. A range of length 0 counts as one; a list of none, with no bytes, does
 * nothing.
 * Refusals: 1, 2, 3, 4 (more than 64 ranges, with range 0; else with the first range that is outside), 5
 * (bytes_len is not the sum of the lengths). Refused: the image is unchanged. */
splicebell_list_written splicebell_write_list(splicebell_layout y, splicebell_record r, uint8_t *image,
                                              size_t image_len, const splicebell_range *ranges,
                                              size_t range_count, const uint8_t *bytes, size_t bytes_len);

/* Stores every missing content at its new home; answers how many there were, counted afresh, and the record
 * with q = k and its count 0.
 * Refusals: 1, 2, 3. Refused: image and record are unchanged. */
splicebell_repaired splicebell_repair(splicebell_layout y, splicebell_record r, uint8_t *image,
                                      size_t image_len);

/* Whether a plan of repair is accepted. A plan is one entry after another, in any order, each of N+2 numbers:
 * a group, one of its contents, and the N contents of that group to rebuild it from. It is accepted exactly if
 * each missing content is named once, each of its N sources is a different present content of the same group,
 * and nothing else is named. The image is lent for its length alone. The plan is only read.
 * Refusals: 1, 2, 3, 15 (also where plan_len is no multiple of N+2). */
uint64_t splicebell_check_plan(splicebell_layout y, splicebell_record r, const uint8_t *image,
                               size_t image_len, const uint64_t *plan, size_t plan_len);

/* Stores every missing content at its new home, rebuilt from the sources that its entry names, in the plan's
 * order; answers how many there were, and the record with q = k and its count 0. On a pool that only these
 * calls have changed from zeros any accepted plan leaves what repair leaves. The plan is only read.
 * Refusals: as check_plan. Refused: image and record are unchanged. */
splicebell_repaired splicebell_repair_by(splicebell_layout y, splicebell_record r, uint8_t *image,
                                         size_t image_len, const uint64_t *plan, size_t plan_len);

/* Draws up a plan that check_plan accepts: groups rising, contents rising within each, and the N lowest present
 * contents as sources. It takes N+2 numbers for each missing content, from the first of the buffer on; the
 * others stay. Where the record's count is true, the panel tells how many are missing; the call itself counts
 * afresh. The image is lent for its length alone.
 * Refusals: 1, 2, 3, 5 (plan_len is less than the plan takes). Refused: the length is 0, no number changes. */
splicebell_drawn splicebell_draw_plan(splicebell_layout y, splicebell_record r, const uint8_t *image,
                                      size_t image_len, uint64_t *plan, size_t plan_len);

/* Takes back a failed target, whose drive has been swapped for a new one: it leaves the failure list, the
 * others stay in order, k and q are both one lower, the freed entry is 0, and the count stays what it is. Every
 * content's bytes go from its old home to its new one; only bytes of new homes change, on the target and on
 * spares. What the new drive held before does not matter. On a pool that only these calls have changed from
 * zeros every content is then what encoding the file afresh would put there.
 * Refusals: 1, 2, 3, 4 (target >= P), 11 (not in the list), 16 (q is not k). Refused: image and record are
 * unchanged. */
splicebell_swapped splicebell_swap(splicebell_layout y, splicebell_record r, uint8_t *image, size_t image_len,
                                   uint64_t target);

/* Moves a pool to the other edition, N, K, P, U, T and cookie kept: y and r are the old pool's. The new image
 * holds the file that reads of the old pool show, missing contents rebuilt, with the parity of that file, all
 * at their own places, and zeros in its spares. So the new pool has layout y with edition 3 - y.edition, and
 * the empty record, all zeros. The old image is only read; the new one has as many bytes, may hold any before,
 * and does not overlap it.
 * Refusals: 1, 2 (the length of either image), 3. Refused: the new image is all zeros, whatever its length. */
uint64_t splicebell_move_edition(splicebell_layout y, splicebell_record r, const uint8_t *old_image,
                                 size_t old_image_len, uint8_t *new_image, size_t new_image_len);

/* What the service panel shows, as the record has it: nothing is counted. The image is lent for its length
 * alone.
 * Refusals: 1, 2, 3. Refused: the other three numbers are 0. */
splicebell_counts splicebell_panel(splicebell_layout y, splicebell_record r, const uint8_t *image,
                                   size_t image_len);

/* Whether the record's count is that of the missing units, which are counted afresh. The image is lent for its
 * length alone.
 * Refusals: 1, 2, 3, 14 (another count). */
uint64_t splicebell_audit(splicebell_layout y, splicebell_record r, const uint8_t *image, size_t image_len);

/* A look's first step: the scratch of U bytes becomes the rebuilt unit if it is missing, else zeros.
 * Refusals: 1, 2, 3, 4 (group or content), 5 (scratch). Refused: the scratch is all zeros. */
uint64_t splicebell_prepare(splicebell_layout y, splicebell_record r, const uint8_t *image,
                            size_t image_len, uint64_t group, uint64_t content, uint8_t *scratch,
                            size_t scratch_len);

/* A look's second step: where the unit is shown, in the scratch where it is missing, else in the image.
 * Refusals: as prepare. Refused: an empty part. Image and scratch are lent for their lengths alone. */
splicebell_shown splicebell_show(splicebell_layout y, splicebell_record r, const uint8_t *image,
                                 size_t image_len, const uint8_t *scratch, size_t scratch_len,
                                 uint64_t group, uint64_t content);

/* ---- the catalogue: slots records are lent, the first n of them are in use, strictly rising by key */

/* The cob of a key.
 * Refusals: 9, 11. Refused: the cob is (0,0). */
splicebell_found splicebell_lookup(const splicebell_entry *slots, size_t slot_count, size_t n,
                                   splicebell_key key);

/* Replaces the cob of an equal key, else opens a slot in order; answers the new count.
 * Refusals: 9, 10. Refused: slots and count as they were. */
splicebell_changed splicebell_insert(splicebell_entry *slots, size_t slot_count, size_t n,
                                     splicebell_entry record);

/* Takes out the record that matches in all three; the slot freed at the end becomes zeros, in all five words.
 * Refusals: 9, 11. Refused: slots and count as they were. */
splicebell_changed splicebell_delete(splicebell_entry *slots, size_t slot_count, size_t n,
                                     splicebell_entry record);

/* The cobs of a device from file key.file on, each as a pair, as many as fit; whether more remain, and the
 * next file, (0,0) if none remain. The rest of out stays.
 * Refusals: 9. Refused: out is all (0,0), the count is 0, more is false and the next file (0,0). */
splicebell_page splicebell_listing(const splicebell_entry *slots, size_t slot_count, size_t n,
                                   splicebell_key key, splicebell_wide *out, size_t out_len);

/* ---- the hex line, and a whole pool as text */

/* Target, frame and the frame's bytes in hex, 11+2U bytes with the newline. The image is only read.
 * Refusals: 1, 2, 4 (target or frame), 5 (line). Refused: the line is all zeros. */
uint64_t splicebell_hex_line(splicebell_layout y, const uint8_t *image, size_t image_len, uint64_t target,
                             uint64_t frame, uint8_t *line, size_t line_len);

/* The hex lines of all frames, targets rising and frames rising within each: P*L*T*(11+2U) bytes, nothing
 * between or after them. The image is only read.
 * Refusals: 1, 2, 5 (text). Refused: the text is all zeros. */
uint64_t splicebell_write_text(splicebell_layout y, const uint8_t *image, size_t image_len, uint8_t *text,
                               size_t text_len);

/* Fills the image from what write_text makes for some image, and from nothing else. A text that ends early
 * is wrong at the line that is cut or missing, one that goes on at line P*L*T+1. The text is only read.
 * Refusals: 1, 2, 12 (with the first wrong line). Refused: the image is all zeros, whatever its length. */
splicebell_text_read splicebell_read_text(splicebell_layout y, const uint8_t *text, size_t text_len,
                                          uint8_t *image, size_t image_len);

/* ---- a recorded day, replayed line by line: lower-case hex, single spaces, each line lent with its newline
 *
 * NN KK PP UUUU TTTTTT CCCCCCCCCCCCCCCC    the first line: six layout numbers; the edition is 1
 * 01 OOOOOOOOOOOOOOOO BB..                 write: offset, bytes
 * 02 TT                                    fail: target
 * 03                                       repair
 * 04 OOOOOOOOOOOOOOOO LLLLLLLLLLLLLLLL     read: offset, length */

/* The layout that the first line tells, of edition 1, and the bytes of the image, which is zeros when the
 * replay begins. The line is only read.
 * Refusals: 1, 13 (malformed, or an image above 32,768 bytes). Refused: all numbers are 0. */
splicebell_first_line splicebell_replay_first(const uint8_t *line, size_t line_len);

/* Plays any other line, on a layout of either edition. The first length bytes of answer become what a replay
 * prints, with the newline: the number that the event's own call answers, 13 where the line is malformed (also
 * one that has no newline, or more than 8,300 bytes before it); after an accepted read its bytes, after an
 * accepted repair its count. The rest of answer stays. Image and record become what that call leaves. The line
 * is only read.
 * Refusals: 5 (answer_len < 24 + 2*image_len). Refused: answer is all zeros, image and record are unchanged. */
splicebell_played splicebell_replay_line(splicebell_layout y, splicebell_record r, uint8_t *image,
                                         size_t image_len, const uint8_t *line, size_t line_len,
                                         uint8_t *answer, size_t answer_len);

/* ---- a row's settings as text: a record a line, the newest last; lower-case hex, single spaces, a newline
 *
 * 01 NN KK PP UUUU TTTTTT CCCCCCCCCCCCCCCC       version 1, 41 bytes: six layout numbers; the edition is 1
 * 02 NN KK PP UUUU TTTTTT CCCCCCCCCCCCCCCC EE    version 2, 44 bytes: the six, and the edition
 *
 * The first used bytes of the buffer are the text; what lies after them is not looked at. */

/* Appends the line of a layout to the text, in the version that is asked for, and answers how long the text is
 * then. What lies after the new line stays. The lines before it are not looked at.
 * Refusals: 1 (y; a version that is not 1 or 2; edition 2 in version 1), 5 (used > buffer_len), 10 (too little
 * room). Refused: no byte changes, and used comes back as it was given. */
splicebell_added splicebell_add_settings(uint64_t version, splicebell_layout y, uint8_t *buffer,
                                         size_t buffer_len, size_t used);

/* The layout of the newest record; of a line of version 1 it is of edition 1. A line that is cut short, has
 * another form or version, or numbers that are refused is malformed. The buffer is only read.
 * Refusals: 5 (used > buffer_len), 11 (used is 0: no record), 12 (a malformed line anywhere, with its number).
 * Refused: the layout is zeros. */
splicebell_settings splicebell_newest_settings(const uint8_t *buffer, size_t buffer_len, size_t used);

/* The same by the reader of rows that know version 1 alone, and so edition 1 alone: the layout that
 * newest_settings shows, or 17.
 * Refusals: 5, 11, 12, 17 (the newest record has edition 2). Refused: the layout is zeros. */
splicebell_settings splicebell_newest_settings_old(const uint8_t *buffer, size_t buffer_len, size_t used);

#ifdef __cplusplus
}
#endif

#endif
