/* Implements the CTAP2 canonical CBOR encoding form: checks strictly that bytes have this form, and decodes bytes that
 * have been checked. */
#include "peer.h"

#include <string.h>

enum { MAX_DEPTH = 4 };

struct checker {
    const uint8_t *start, *next, *end;
    uint64_t compared; /* bytes of map keys compared with the previous key */
};

static bool is_utf8(const uint8_t *next, size_t len) {
    const uint8_t *end = next + len;
    while (next < end) {
        uint8_t first = *next++;
        if (first < 0x80) {
            continue;
        }
        int more = first >= 0xf0 ? 3 : first >= 0xe0 ? 2 : 1;
        if (first < 0xc2 || first > 0xf4 || end - next < more) {
            return false;
        }
        uint8_t low = first == 0xe0 ? 0xa0 : first == 0xf0 ? 0x90 : 0x80;
        uint8_t high = first == 0xed ? 0x9f : first == 0xf4 ? 0x8f : 0xbf;
        if (*next < low || *next > high) {
            return false;
        }
        for (next++; --more > 0; next++) {
            if ((*next & 0xc0) != 0x80) {
                return false;
            }
        }
    }
    return true;
}

static bool check_head(struct checker *check, enum major *major, uint64_t *number) {
    if (check->next == check->end) {
        return false;
    }
    uint8_t first = *check->next++, low = first & 31;
    *major = first >> 5;
    *number = low;
    if (low < 24) {
        return *major == SIMPLE ? low >= 20 && low <= 22 : *major != TAG;
    }
    if (low > 27 || *major == TAG || *major == SIMPLE) {
        return false;
    }
    ptrdiff_t bytes = (ptrdiff_t)1 << (low - 24);
    if (check->end - check->next < bytes) {
        return false;
    }
    uint64_t read = 0;
    for (ptrdiff_t i = 0; i < bytes; i++) {
        read = read << 8 | check->next[i];
    }
    check->next += bytes;
    *number = read;
    return bytes == 1 ? read >= 24 : read >> (4 * bytes) != 0;
}

static bool check_item(struct checker *check, int level, bool is_key);

/* Checks a map, whose keys must be in canonical order: by major type, then by length, then by bytes. The encoded keys
 * can be compared byte by byte for this, since each head must have its shortest form. */
static bool check_map(struct checker *check, uint64_t pairs, int level) {
    const uint8_t *last = NULL;
    size_t last_len = 0;
    for (uint64_t i = 0; i < pairs; i++) {
        const uint8_t *key = check->next;
        if (!check_item(check, level + 1, true)) {
            return false;
        }
        size_t len = (size_t)(check->next - key);
        if (last != NULL) {
            check->compared += len;
            int order = memcmp(last, key, last_len < len ? last_len : len);
            if (order > 0 || (order == 0 && last_len >= len)) {
                return false;
            }
        }
        last = key;
        last_len = len;
        if (!check_item(check, level + 1, false)) {
            return false;
        }
    }
    return true;
}

static bool check_item(struct checker *check, int level, bool is_key) {
    enum major major;
    uint64_t number;
    if (!check_head(check, &major, &number) || (is_key && major >= ARRAY)) {
        return false;
    }
    switch (major) {
    case BYTES:
    case TEXT:
        if (number > (uint64_t)(check->end - check->next) || (major == TEXT && !is_utf8(check->next, number))) {
            return false;
        }
        check->next += number;
        return true;
    case ARRAY:
        for (uint64_t i = 0; level <= MAX_DEPTH && i < number; i++) {
            if (!check_item(check, level + 1, false)) {
                return false;
            }
        }
        return level <= MAX_DEPTH;
    case MAP:
        return level <= MAX_DEPTH && check_map(check, number, level);
    default:
        return true;
    }
}

bool cbor_check(const uint8_t *encoded, size_t len, uint64_t *steps) {
    struct checker check = {encoded, encoded, encoded + len, 0};
    bool is_canonical = check_item(&check, 1, false) && check.next == check.end;
    *steps = (uint64_t)(check.next - check.start) + check.compared + 1;
    return is_canonical;
}

uint64_t cbor_read_head(struct reader *reader, enum major *major) {
    uint8_t first = *reader->next++, low = first & 31;
    *major = first >> 5;
    if (low < 24) {
        return low;
    }
    uint64_t number = 0;
    for (int bytes = 1 << (low - 24); bytes > 0; bytes--) {
        number = number << 8 | *reader->next++;
    }
    return number;
}

bool cbor_read_count(struct reader *reader, enum major major, uint64_t *count) {
    enum major found;
    *count = cbor_read_head(reader, &found);
    return found == major;
}

bool cbor_read_string(struct reader *reader, enum major major, struct string *string) {
    enum major found;
    const uint8_t *start = reader->next;
    string->len = cbor_read_head(reader, &found);
    string->data = reader->next;
    if (found != major) {
        reader->next = start;
        cbor_skip(reader);
        return false;
    }
    reader->next += string->len;
    return true;
}

void cbor_skip(struct reader *reader) {
    enum major major;
    uint64_t number = cbor_read_head(reader, &major);
    if (major == BYTES || major == TEXT) {
        reader->next += number;
    }
    for (uint64_t i = 0; major == ARRAY && i < number; i++) {
        cbor_skip(reader);
    }
    for (uint64_t i = 0; major == MAP && i < 2 * number; i++) {
        cbor_skip(reader);
    }
}

bool string_equals(struct string string, const char *expected) {
    return string.data != NULL && string.len == strlen(expected) && memcmp(string.data, expected, string.len) == 0;
}
