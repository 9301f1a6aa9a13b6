/* Live views over Apache Arrow streams: the calls of liblv.
 *
 *     lv_handle h = {0};
 *     uint8_t cause = lv_open(&h, config, config_len);
 *     lv_pushed pushed = lv_push(&h, (const uint8_t *)"calls", 5, piece, piece_len);
 *     lv_written written = lv_write(&h, (const uint8_t *)"report", 6);
 *     size_t copied = lv_copy(&h, 0, buffer, buffer_len);
 *     lv_close(&h);
 *
 * The proof of the library rests on the following, which no call can check.
 *
 * - A handle is zeros before its first call, as `lv_handle h = {0};` makes it, and nobody but the library changes what
 *   is in it. It may be moved while no call runs. A copy of its bytes is no second handle: once one of the two was
 *   given to a call, the other must not be.
 * - A handle stays on the thread that opened it, and is given to one call at a time. Handles share nothing, so each
 *   thread may have its own.
 * - A pointer is never null, also where the length that goes with it is 0, and as many bytes as the length says can be
 *   read there, or written for a buffer. A buffer doesn't overlap the handle or another argument. The library keeps no
 *   pointer of its caller once a call has returned.
 * - malloc, realloc and free come from one C library and return blocks aligned to 16 bytes. No call is made from a
 *   signal handler, or in the forked child of a process with threads.
 *
 * Behind a handle that isn't open a call answers LV_NOT_OPEN, or 0 where it answers a number, and touches nothing.
 *
 * Names of feeds and views, and configurations, are UTF-8 without a zero at the end. */
#ifndef LV_H
#define LV_H

#include <stdbool.h>
#include <stddef.h>
#include <stdint.h>

#ifdef __cplusplus
extern "C" {
#endif

#define LV_VERSION "1.0.7"

/* The cause of a call whose handle isn't open, and of lv_open where it is. */
#define LV_NOT_OPEN 255

/* Why a call is refused; 0 is success. 1 to 30 are faults of a stream, which break its feed, 41 to 45 an edit that
 * doesn't fit its table, 51 to 56 a call that can't be done, 61 to 70 a fault of a configuration. docs/FORMAT.md and
 * docs/VIEWS.md have the rules. */
enum lv_cause {
/* causes: written by tools/makers/cause_tables.py */
    /* the first four bytes of a message aren't FF FF FF FF */
    LV_CAUSE_NO_CONTINUATION = 1,
    /* the metadata size is negative or above 2^24 */
    LV_CAUSE_BAD_SIZE = 2,
    /* a place that must be read lies outside the metadata, a vtable's own size is under 4, or a table that must be
     * there is absent */
    LV_CAUSE_BAD_TABLE = 3,
    /* a field's name isn't UTF-8 or is longer than 4,096 bytes */
    LV_CAUSE_BAD_NAME = 4,
    /* the metadata version is neither V4 nor V5 */
    LV_CAUSE_VERSION = 5,
    /* the header is neither a Schema nor a DictionaryBatch nor a RecordBatch */
    LV_CAUSE_HEADER_KIND = 6,
    /* the body's length is negative or above 2^28 */
    LV_CAUSE_BODY_SIZE = 7,
    /* an end mark or a batch comes before a Schema, or the input ends without one */
    LV_CAUSE_NO_SCHEMA = 8,
    /* a Schema comes after a Schema */
    LV_CAUSE_SECOND_SCHEMA = 9,
    /* the schema's endianness isn't little */
    LV_CAUSE_BIG_ENDIAN = 10,
    /* a column has a type that isn't read */
    LV_CAUSE_UNSUPPORTED_TYPE = 11,
    /* a type's table is absent, or its parameter, its children or the weight of its null are out of range */
    LV_CAUSE_BAD_TYPE = 12,
    /* there are more than 1,024 fields at all levels, or a field is deeper than 16 */
    LV_CAUSE_TOO_MANY_FIELDS = 13,
    /* a RecordBatch is compressed */
    LV_CAUSE_COMPRESSED = 14,
    /* two fields use one dictionary with different types of values */
    LV_CAUSE_DICTIONARY_CLASH = 15,
    /* a DictionaryBatch's dictionary is in no field of the schema */
    LV_CAUSE_UNKNOWN_DICTIONARY = 16,
    /* a dictionary would have more than 2^20 values */
    LV_CAUSE_DICTIONARY_TOO_LARGE = 17,
    /* the number of nodes isn't that of the schema's fields */
    LV_CAUSE_NODE_COUNT = 18,
    /* the number of buffers isn't that of the schema's fields */
    LV_CAUSE_BUFFER_COUNT = 19,
    /* a batch's or a node's length is out of range, or a node's length doesn't fit the one above it */
    LV_CAUSE_BAD_LENGTH = 20,
    /* a buffer's offset or length is negative, or it ends past the body */
    LV_CAUSE_BUFFER_RANGE = 21,
    /* a buffer is shorter than its array needs */
    LV_CAUSE_BUFFER_SHORT = 22,
    /* a null count isn't the number of nulls in the validity bits */
    LV_CAUSE_NULL_COUNT = 23,
    /* offsets fall, are negative, or end past what they point into */
    LV_CAUSE_OFFSETS = 24,
    /* a text isn't UTF-8 */
    LV_CAUSE_NOT_UTF8 = 25,
    /* a dictionary index is outside its dictionary */
    LV_CAUSE_DICTIONARY_INDEX = 26,
    /* a decimal has more digits than its precision */
    LV_CAUSE_DECIMAL_RANGE = 27,
    /* a feed's schema isn't the declared one */
    LV_CAUSE_SCHEMA_MISMATCH = 28,
    /* bytes come after the end mark, or after the feed was finished */
    LV_CAUSE_AFTER_END = 29,
    /* the input ends within a message */
    LV_CAUSE_TRUNCATED = 30,
    /* a key is null */
    LV_CAUSE_NULL_KEY = 41,
    /* a key stands twice in a batch, or an appended key is live */
    LV_CAUSE_DUPLICATE_KEY = 42,
    /* a retract or a drop names a key that no live row has */
    LV_CAUSE_UNKNOWN_KEY = 43,
    /* a table would have more rows than its limit */
    LV_CAUSE_TOO_MANY_ROWS = 44,
    /* a cell or a row is above its weight limit */
    LV_CAUSE_CELL_TOO_HEAVY = 45,
    /* there is no edit to undo */
    LV_CAUSE_NOTHING_TO_UNDO = 51,
    /* the feed was broken by an earlier fault */
    LV_CAUSE_FEED_BROKEN = 52,
    /* there is no feed of that name */
    LV_CAUSE_UNKNOWN_FEED = 53,
    /* there is no view of that name */
    LV_CAUSE_UNKNOWN_VIEW = 54,
    /* memory ran out */
    LV_CAUSE_MEMORY = 55,
    /* the sink failed */
    LV_CAUSE_DEVICE = 56,
    /* the configuration isn't TOML */
    LV_CAUSE_NOT_TOML = 61,
    /* a column, a side table or an output of this name isn't declared, or a column isn't among those that rows are
     * grouped by */
    LV_CAUSE_UNKNOWN_NAME = 62,
    /* a column, a child of a struct, an output, a coded output, or a column of an order or of the grouping stands
     * twice */
    LV_CAUSE_DUPLICATE_COLUMN = 63,
    /* what is written for a type is none, or has a parameter out of its range */
    LV_CAUSE_TYPE_TEXT = 64,
    /* a constant isn't of its column's type or is out of its range, or two columns that are compared, or `on` of a
     * lookup and the side table's key, have different types */
    LV_CAUSE_CONSTANT_TYPE = 65,
    /* a sum is of other values than integers or decimals of at most 28 digits */
    LV_CAUSE_SUM_TYPE = 66,
    /* a list or a struct stands where values must have an order: as a key, as `on` of a lookup, in a comparison, a
     * group or an order, or under `distinct`, `least` or `greatest` */
    LV_CAUSE_ORDER_TYPE = 67,
    /* a count, a depth, the weight of a type's null, the length of a name or how many rows a view has is out of its
     * limits */
    LV_CAUSE_OVER_LIMIT = 68,
    /* an entry is missing or unknown, or a value isn't of the form that its place wants */
    LV_CAUSE_SHAPE = 69,
    /* an output that is to be written with a dictionary doesn't hold texts */
    LV_CAUSE_DICT_TYPE = 70
/* end of causes */
};

/* The message that a push completed. */
enum lv_event {
    LV_EVENT_NONE = 0,
    LV_EVENT_SCHEMA = 1,
    LV_EVENT_DICTIONARY = 2,
    LV_EVENT_BATCH = 3,
    LV_EVENT_END = 4
};

/* A session, or nothing. */
typedef struct lv_handle {
    void *at;
    bool is_open;
} lv_handle;

/* The answer of a push: how many bytes of the piece were consumed, the cause of a refusal or 0, and the message that
 * was completed (enum lv_event). */
typedef struct lv_pushed {
    size_t used;
    uint8_t cause;
    uint8_t event;
} lv_pushed;

/* The answer of a call that writes a stream: how many bytes it has, and the cause of a refusal or 0. */
typedef struct lv_written {
    uint64_t len;
    uint8_t cause;
} lv_written;

/* Opens the session of a configuration, the text of a TOML file: its tables have no rows. Answers 0, a cause from 61 on
 * or LV_CAUSE_MEMORY; the handle is open only after 0. One that is open already stays as it is: LV_NOT_OPEN. */
uint8_t lv_open(lv_handle *handle, const uint8_t *config, size_t config_len);

/* Consumes a piece of the stream of a feed, up to the end of the first message that it completes, or all of it. Push
 * what is left again, until all is used. A stream may be cut into pieces anywhere.
 *
 * A refusal with `used` above 0 is a batch whose edit doesn't fit: it was consumed, changed nothing, and the feed goes
 * on. With `used` 0 nothing was consumed: after a cause up to 30 the feed is broken, and answers LV_CAUSE_FEED_BROKEN
 * from then on; after LV_CAUSE_MEMORY the same piece may be pushed again. */
lv_pushed lv_push(lv_handle *handle, const uint8_t *feed, size_t feed_len, const uint8_t *piece, size_t piece_len);

/* Ends the input of a feed: LV_CAUSE_TRUNCATED where it ends inside a message, LV_CAUSE_NO_SCHEMA where no schema came.
 * It may be called again. */
uint8_t lv_finish(lv_handle *handle, const uint8_t *feed, size_t feed_len);

/* Undoes the latest accepted edit, of any feed, that isn't undone; the last 64 can be. */
uint8_t lv_undo(lv_handle *handle);

/* Writes the stream of a view as it is now to memory of the session's own, in place of the one before, and answers its
 * length. lv_copy reads it there. Where memory ran out it has a beginning of the stream, whose length is answered with
 * LV_CAUSE_MEMORY; where there is no such view it has none. */
lv_written lv_write(lv_handle *handle, const uint8_t *view, size_t view_len);

/* Copies bytes of the stream that was written last, from place `from` on, and answers how many: as many as there are
 * and fit. */
size_t lv_copy(lv_handle *handle, size_t from, uint8_t *buffer, size_t buffer_len);

/* The number of live rows of the main table. */
size_t lv_live_rows(lv_handle *handle);

/* How many views are stale: memory for keeping them current was refused since they were written last. Each is built
 * anew when it is written. */
size_t lv_stale(lv_handle *handle);

/* How often a stored row of the main table was opened since the session was; it stops at 2^64 - 1. */
uint64_t lv_visits(lv_handle *handle);

/* Closes the session, if one is open, and frees its memory. The handle can be opened again. */
void lv_close(lv_handle *handle);

/* Reads a whole stream and copies the canonical stream of its table to a buffer, as much of it as fits. The length is
 * that of the whole: where it is above buffer_len, call again with a buffer of that length. After a refusal it is 0,
 * and the buffer is as it was. */
lv_written lv_recast(const uint8_t *input, size_t input_len, uint8_t *buffer, size_t buffer_len);

/* Finds where a configuration is refused, and copies its text to a buffer, as much of it as fits: the keys of the part,
 * as "view.totals.order", or "line 3" where the configuration stops being TOML. The length is that of the whole; 0 where
 * the configuration is accepted or isn't UTF-8, or memory ran out. */
size_t lv_find_fault(const uint8_t *config, size_t config_len, uint8_t *buffer, size_t buffer_len);

#ifdef __cplusplus
}
#endif

#endif
