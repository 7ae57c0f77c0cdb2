/* The audit of recorded /dev/fuse traffic, in process. */
#ifndef FA_AUDIT_H
#define FA_AUDIT_H

#include <stdbool.h>
#include <stddef.h>
#include <stdint.h>

#ifdef __cplusplus
extern "C" {
#endif

/* The statuses, which are those with which the program fa_audit ends. */
enum {
    FA_AUDIT_LEGAL = 0,
    FA_AUDIT_FAULT = 1,
    FA_AUDIT_NOT_SHOWN = 2,
    FA_AUDIT_TEXT = 3, /* the tree text or the order text is not in its grammar */
    FA_AUDIT_FAILED = 5, /* memory was refused, or the capture has more than 402,653,184 bytes,
                           or a text more than 268,435,456 */
    FA_AUDIT_NO_ORDER = 6, /* no order explains the capture */
    FA_AUDIT_GAVE_UP = 7, /* the search ended before it had an answer */
};

/* So many bytes have room for each line. */
#define FA_AUDIT_LINE_SIZE 128

/* Judges a capture and an order text, in the forms of docs/formats.md, from the tree of the tree text where has_tree is true, else from an
 * empty root: the status.
 *
 * The line of the verdict, without a line feed and without a zero byte, is written to the front of line, as much of it as there is room
 * for; what stood behind it stays. *size is the size of the whole line, also where line has no room for it. At FA_AUDIT_FAILED line is as
 * it was and *size is 0.
 *
 * No pointer is null, also where its length is 0. Where has_tree is false tree is not read, but it has so many bytes all the same: hand
 * over any pointer, and the length 0. line and *size overlap neither each other nor the bytes that are read.
 *
 * It calls malloc, realloc and free of the program, which have to be of one allocator and to align a block to each power of two up to 16
 * that divides its size. It is not to be called from a signal handler, or from the forked child of a process with threads.
 *
 * Its tables are hashed with the same seed at each call, so that a capture can be made on which it takes long. The program fa_audit draws a
 * seed. */
uint8_t fa_audit_check(const uint8_t *capture, size_t capture_length, const uint8_t *tree, size_t tree_length, bool has_tree,
                       const uint8_t *order, size_t order_length, uint8_t *line, size_t line_length, size_t *size);

/* As many steps as the program's search may spend where it is told no number. */
#define FA_AUDIT_STEPS 10000000

/* Judges a capture by a search of all its orders, so that none is handed over: the status. FA_AUDIT_NO_ORDER says that no order explains
 * the capture, with the first line alone of the two that the program prints, and FA_AUDIT_GAVE_UP that the search spent so many steps, or
 * as many trees or bytes as the program may take, without an answer; FA_AUDIT_NOT_SHOWN is never told. Where no order explains it, the first
 * messages alone are searched too, with a tenth of the steps each time. All else is as with fa_audit_check. */
uint8_t fa_audit_judge(const uint8_t *capture, size_t capture_length, const uint8_t *tree, size_t tree_length, bool has_tree,
                       uint64_t steps, uint8_t *line, size_t line_length, size_t *size);

#ifdef __cplusplus
}
#endif

#endif
