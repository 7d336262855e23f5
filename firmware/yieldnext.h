/* Reads one BSER table at once, over memory that the caller has. Nothing here allocates, and nothing is kept between two calls,
   so that calls from several threads do not meet. The library is proved (docs/FIRMWARE.md says what of it); that this
   header says the same as the library is not, and the assertions at its end are there for that. */
#ifndef YIELDNEXT_H
#define YIELDNEXT_H

#include <stddef.h>
#include <stdint.h>

#ifdef __cplusplus
extern "C" {
#endif

/* Which refusal it is. What a place or a number means is said at each; docs/REFUSALS.md has more. A table at once never meets
   those that are marked so. */
enum yieldnext_number {
    YIELDNEXT_ACCEPTED = 0,       /* none: the table is accepted */
    YIELDNEXT_OUT_OF_TURN = 1,    /* a call came out of turn; never met */
    YIELDNEXT_TOKEN = 2,          /* a PDU was closed by another's token; never met */
    YIELDNEXT_SHORT = 3,          /* the bytes end too early; place: where the item that lacks them begins */
    YIELDNEXT_SOURCE = 4,         /* the source of the bytes has a fault; never met. first: its code */
    YIELDNEXT_MAGIC = 5,          /* the table does not begin with 00 02. first, second: the two bytes */
    YIELDNEXT_BYTE = 6,           /* this byte cannot begin what is due. first: enum yieldnext_due; second: the byte */
    YIELDNEXT_NEGATIVE = 7,       /* a count or a length is below zero */
    YIELDNEXT_TOO_LONG = 8,       /* the declared body ends beyond 2^60 */
    YIELDNEXT_END = 9,            /* a read passes the declared end; from the layer of the reader, its stop, which is never met */
    YIELDNEXT_DEPTH = 10,         /* values are nested more than 128 deep */
    YIELDNEXT_KEY_ROOM = 11,      /* the open templates have more than 256 keys */
    YIELDNEXT_NO_KEYS = 12,       /* a template has rows and no keys */
    YIELDNEXT_NOT_TEXT = 13,      /* a text or a key is not UTF-8 */
    YIELDNEXT_ROOM = 14,          /* the buffer for texts is too short; never met, since texts stay where they are */
    YIELDNEXT_UNFINISHED = 15,    /* the PDU was closed before its last event; never met */
    YIELDNEXT_LENGTH = 16         /* the value ends elsewhere than declared. first: the end declared; second: where it ends */
};

/* Which layer refuses. Number, layer, first and second are the whole cause of a refusal. */
enum yieldnext_layer {
    YIELDNEXT_NO_LAYER = 0,
    YIELDNEXT_LAYER_SOURCE = 1,
    YIELDNEXT_LAYER_READER = 2,
    YIELDNEXT_LAYER_DECODER = 3
};

/* What was to begin at a byte that cannot begin it. */
enum yieldnext_due {
    YIELDNEXT_DUE_INTEGER = 1,
    YIELDNEXT_DUE_VALUE = 2,
    YIELDNEXT_DUE_KEY = 3,
    YIELDNEXT_DUE_KEY_LIST = 4,
    YIELDNEXT_DUE_TEMPLATE_KEY = 5
};

/* Which event it is. */
enum yieldnext_kind {
    YIELDNEXT_ARRAY_BEGIN = 1,
    YIELDNEXT_ARRAY_END = 2,
    YIELDNEXT_MAP_BEGIN = 3,
    YIELDNEXT_MAP_END = 4,
    YIELDNEXT_KEY = 5,            /* place, length: its bytes, which are UTF-8 */
    YIELDNEXT_INTEGER = 6,        /* width: its bits, 8, 16, 32 or 64; value: itself, as (int64_t)value */
    YIELDNEXT_REAL = 7,           /* value: the eight bytes of an IEEE double as one number */
    YIELDNEXT_BYTES = 8,          /* place, length: its bytes, which may be any */
    YIELDNEXT_TEXT = 9,           /* place, length: its bytes, which are UTF-8 */
    YIELDNEXT_TRUE = 10,
    YIELDNEXT_FALSE = 11,
    YIELDNEXT_NULL = 12,
    YIELDNEXT_ABSENT = 13         /* a gap: there is no value under the key before it */
};

/* What came of a table. */
typedef struct {
    uint32_t number;              /* enum yieldnext_number; 0 exactly where the table is accepted */
    uint32_t layer;               /* enum yieldnext_layer; 0 exactly where the table is accepted */
    size_t place;                 /* where the refusal is, counted from the table's first byte */
    size_t first;                 /* the numbers that the refusal keeps, and else 0 */
    size_t second;
    size_t events;                /* how many events have passed, also where there were fewer slots */
    size_t taken;                 /* how many bytes were taken: all of an accepted PDU, its header too */
} yieldnext_verdict;

/* An event. What it has no use for is 0. */
typedef struct {
    uint32_t kind;                /* enum yieldnext_kind */
    uint32_t width;
    uint64_t value;
    size_t place;                 /* counted from the table's first byte */
    size_t length;
} yieldnext_event;

/* Reads the PDU with which the table begins, and says whether it is accepted. Bytes behind it are not looked at: another PDU
   may stand at table + taken.

   The caller keeps `length` bytes at `table` as they are during the call. `table` is no null pointer, also where the length is
   0, and the length is below 2^63. Any bytes will do: the call returns, reads none but these, and writes nothing. */
yieldnext_verdict yieldnext_check(const uint8_t *table, size_t length);

/* The same verdict, and the events in their order in the first slots, as many as fit. So slots 0 to min(events, count) - 1 are
   written, and those behind them stay as they were. Where the table is refused these are the events before the refusal. Each
   place and length lies within the table.

   The caller keeps, besides, `count` slots at `slots`, which no one else looks at during the call. `slots` is aligned, and no
   null pointer, also where the count is 0. */
yieldnext_verdict yieldnext_events(const uint8_t *table, size_t length, yieldnext_event *slots, size_t count);

/* How many bytes of the stack hold the decoder during a call. */
size_t yieldnext_decoder_size(void);

#ifdef __cplusplus
}
#define YIELDNEXT_ASSERT(holds) static_assert(holds, #holds)
#else
#define YIELDNEXT_ASSERT(holds) _Static_assert(holds, #holds)
#endif

YIELDNEXT_ASSERT(sizeof(size_t) == 8);
YIELDNEXT_ASSERT(sizeof(yieldnext_verdict) == 48);
YIELDNEXT_ASSERT(offsetof(yieldnext_verdict, number) == 0);
YIELDNEXT_ASSERT(offsetof(yieldnext_verdict, layer) == 4);
YIELDNEXT_ASSERT(offsetof(yieldnext_verdict, place) == 8);
YIELDNEXT_ASSERT(offsetof(yieldnext_verdict, first) == 16);
YIELDNEXT_ASSERT(offsetof(yieldnext_verdict, second) == 24);
YIELDNEXT_ASSERT(offsetof(yieldnext_verdict, events) == 32);
YIELDNEXT_ASSERT(offsetof(yieldnext_verdict, taken) == 40);
YIELDNEXT_ASSERT(sizeof(yieldnext_event) == 32);
YIELDNEXT_ASSERT(offsetof(yieldnext_event, kind) == 0);
YIELDNEXT_ASSERT(offsetof(yieldnext_event, width) == 4);
YIELDNEXT_ASSERT(offsetof(yieldnext_event, value) == 8);
YIELDNEXT_ASSERT(offsetof(yieldnext_event, place) == 16);
YIELDNEXT_ASSERT(offsetof(yieldnext_event, length) == 24);

#undef YIELDNEXT_ASSERT

#endif
