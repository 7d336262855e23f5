/* Reads table files, all PDUs of each, and prints what came of them. Then it reads the first file again: with too few slots,
   without its last byte, and with another first byte. */
#include "yieldnext.h"

#include <inttypes.h>
#include <stdio.h>
#include <string.h>

enum { MOST_BYTES = 1 << 16, MOST_EVENTS = 256, FEW_EVENTS = 3 };

static uint8_t table[MOST_BYTES];
static yieldnext_event slots[MOST_EVENTS];

static const char *const kinds[] = {
    "none", "array begin", "array end", "map begin", "map end", "key", "integer", "real", "bytes", "text", "true", "false",
    "null", "absent",
};

static void print_verdict(const char *what, const yieldnext_verdict *v) {
    if (v->number == YIELDNEXT_ACCEPTED) {
        printf("%s: accepted, %zu events, %zu bytes\n", what, v->events, v->taken);
    } else {
        printf("%s: refusal %" PRIu32 " of layer %" PRIu32 " at byte %zu, %zu, %zu, after %zu events, %zu bytes\n", what, v->number,
               v->layer, v->place, v->first, v->second, v->events, v->taken);
    }
}

static void print_bytes(const uint8_t *bytes, size_t length) {
    putchar('"');
    for (size_t i = 0; i < length; i++) {
        if (bytes[i] >= ' ' && bytes[i] <= '~' && bytes[i] != '"' && bytes[i] != '\\') {
            putchar(bytes[i]);
        } else {
            printf("\\x%02x", (unsigned)bytes[i]);
        }
    }
    putchar('"');
}

static void print_event(const uint8_t *bytes, const yieldnext_event *e) {
    printf("  %s", kinds[e->kind]);
    switch (e->kind) {
    case YIELDNEXT_INTEGER:
        printf(" of %" PRIu32 " bits: %" PRId64, e->width, (int64_t)e->value);
        break;
    case YIELDNEXT_REAL:
        printf(": %016" PRIx64, e->value);
        break;
    case YIELDNEXT_KEY:
    case YIELDNEXT_BYTES:
    case YIELDNEXT_TEXT:
        printf(" at %zu: ", e->place);
        print_bytes(bytes + e->place, e->length);
        break;
    default:
        break;
    }
    putchar('\n');
}

/* Reads one PDU, prints it, and answers how many bytes it takes, or 0 where it is refused. */
static size_t read_pdu(const char *what, const uint8_t *bytes, size_t length) {
    yieldnext_verdict v = yieldnext_events(bytes, length, slots, MOST_EVENTS);
    print_verdict(what, &v);
    for (size_t i = 0; i < v.events && i < MOST_EVENTS; i++) {
        print_event(bytes, &slots[i]);
    }
    return v.number == YIELDNEXT_ACCEPTED ? v.taken : 0;
}

/* Answers how many bytes a file has, or 0 where it cannot be read or is too large. */
static size_t load(const char *path) {
    FILE *file = fopen(path, "rb");
    if (file == NULL) {
        return 0;
    }
    size_t length = fread(table, 1, MOST_BYTES, file);
    int more = fgetc(file) != EOF;
    fclose(file);
    return more ? 0 : length;
}

static void read_again(size_t length) {
    memset(slots, 0xff, sizeof slots);
    yieldnext_verdict v = yieldnext_events(table, length, slots, FEW_EVENTS);
    print_verdict("too few slots", &v);
    for (size_t i = 0; i < FEW_EVENTS; i++) {
        print_event(table, &slots[i]);
    }
    printf("  the next slot is %s\n", slots[FEW_EVENTS].kind == UINT32_MAX ? "as it was" : "written");
    v = yieldnext_check(table, length - 1);
    print_verdict("one byte less", &v);
    table[0] = 'B';
    v = yieldnext_check(table, length);
    print_verdict("another first byte", &v);
}

int main(int count, char **paths) {
    printf("a decoder has %zu bytes\n", yieldnext_decoder_size());
    for (int i = 1; i < count; i++) {
        size_t length = load(paths[i]);
        if (length == 0) {
            fprintf(stderr, "%s cannot be read\n", paths[i]);
            return 1;
        }
        size_t at = 0;
        while (at < length) {
            size_t taken = read_pdu(paths[i], table + at, length - at);
            if (taken == 0) {
                break;
            }
            at += taken;
        }
    }
    if (count > 1) {
        read_again(load(paths[1]));
    }
    return 0;
}
