/* proved.h: what the library's own C files call. It declares the calls of the crate arrowflow_c, under the
 * names that c/build gives them: arrowflow.c passes the calls of arrowflow.h on to them.
 *
 * No pointer that a call takes is NULL. Each call is proved to keep its contract in crates/arrowflow_c/src,
 * where it has the name of the call of arrowflow.h.
 */
#ifndef ARROWFLOW_PROVED_H
#define ARROWFLOW_PROVED_H

#include "arrowflow.h"

/* A handle of an object that a call opened, or of no object. A copy of it refers to the same object: of a
 * handle and its copies only one is used from then on. */
typedef struct {
    void *at;
    bool live;
} arrowflow_handle;

arrowflow_report arrowflow_proved_check(const uint8_t *bytes, size_t len, arrowflow_limits limits);
arrowflow_culprit arrowflow_proved_fault_column(const uint8_t *bytes, size_t len, arrowflow_limits limits);
arrowflow_text arrowflow_proved_copy(const uint8_t *bytes, size_t len, arrowflow_limits limits,
                                     arrowflow_options options, uint8_t *out, size_t room);
arrowflow_text arrowflow_proved_show(const uint8_t *bytes, size_t len, arrowflow_limits limits, uint8_t *out,
                                     size_t room);
arrowflow_text arrowflow_proved_messages(const uint8_t *bytes, size_t len, arrowflow_limits limits, uint8_t *out,
                                         size_t room);
arrowflow_text arrowflow_proved_schema(const uint8_t *bytes, size_t len, arrowflow_limits limits, uint8_t *out,
                                       size_t room);

/* The object that the handle referred to before is freed. */
uint32_t arrowflow_proved_copier_open(arrowflow_limits limits, arrowflow_options options, arrowflow_handle *copier);
arrowflow_copied arrowflow_proved_copier_put(arrowflow_handle *copier, const uint8_t *piece, size_t len);
arrowflow_copied arrowflow_proved_copier_end(arrowflow_handle *copier);
size_t arrowflow_proved_copier_take(arrowflow_handle *copier, uint8_t *out, size_t room);
void arrowflow_proved_copier_close(arrowflow_handle *copier);

uint32_t arrowflow_proved_reader_open(arrowflow_limits limits, arrowflow_handle *reader);
arrowflow_step arrowflow_proved_reader_read(arrowflow_handle *reader, const uint8_t *piece, size_t len);
arrowflow_fault arrowflow_proved_reader_end(arrowflow_handle *reader);
arrowflow_cell arrowflow_proved_reader_cell(arrowflow_handle *reader, size_t column, size_t row, uint8_t *out,
                                            size_t room);
/* Before the call *column is initialized, but its contents are not used: `has_sign` is 0 or 1, and each of its
 * pointers points to as many bytes as the length next to it says. */
void arrowflow_proved_reader_column(arrowflow_handle *reader, const size_t *path, size_t depth,
                                    arrowflow_column *column);
arrowflow_field arrowflow_proved_reader_field(arrowflow_handle *reader, const size_t *path, size_t depth,
                                              uint8_t *out, size_t room);
void arrowflow_proved_reader_close(arrowflow_handle *reader);

/* In arrowflow.c, and not proved. */

/* The maximum length in bytes of a field's name in a sentence. */
enum { NAME_ROOM = 64 };

/* Writes the name of the field that a path leads to, with "?" for control characters; of a long name the first
 * bytes, without an incomplete character. Returns its length. */
size_t arrowflow_shown_name(const arrowflow_reader *reader, const size_t *path, size_t depth, char name[NAME_ROOM]);

/* Writes the end of arrowflow_fault_text's sentence, ", in column 1, \"city\"", or nothing if no column is at
 * fault. Returns its length, or -1 if an allocation failed. */
int arrowflow_column_text(const uint8_t *bytes, size_t len, arrowflow_limits limits, char *out, size_t room);

#endif
