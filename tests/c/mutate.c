/* A change for libFuzzer that leaves many scenes valid: one value of an axis becomes another wherever it stands, so that halfsegments keep
 * their partners and joined ends stay joined. Every fourth time the fuzzer changes bytes in its own ways. */
#include "scenes.h"

enum { HEAD = 17, MOST = 8192 };

size_t LLVMFuzzerMutate(uint8_t *data, size_t size, size_t most);
size_t LLVMFuzzerCustomMutator(uint8_t *data, size_t size, size_t most, unsigned seed);

/* How many points the record at `kind` holds. */
static size_t points_in(uint8_t kind)
{
    return kind == 80 ? 1 : kind == 76 || kind == 82 ? 2 : 0;
}

/* Where the coordinates of one axis stand; gives their number. */
static size_t find(const uint8_t *data, size_t size, size_t axis, size_t *places)
{
    size_t count = 0, length;

    for (size_t at = HEAD; at < size; at += length) {
        length = record_length(data[at]);
        if (length == 0 || length > size - at)
            break;
        for (size_t p = 0; p < points_in(data[at]) && count < MOST; p++)
            places[count++] = at + 1 + 8 * p + 4 * axis;
    }
    return count;
}

static bool move_one(uint8_t *data, size_t size, unsigned seed)
{
    static size_t places[MOST];
    size_t count = find(data, size, seed / 4 % 2, places);
    int32_t from, to;

    if (count == 0)
        return false;
    memcpy(&from, data + places[seed / 8 % count], 4);
    memcpy(&to, data + places[seed / 64 % count], 4);
    if (seed / 1024 % 2 == 0)
        to = (int32_t)((uint32_t)from + seed / 2048 % 9 - 4);
    for (size_t i = 0; i < count; i++)
        if (memcmp(data + places[i], &from, 4) == 0)
            memcpy(data + places[i], &to, 4);
    return true;
}

size_t LLVMFuzzerCustomMutator(uint8_t *data, size_t size, size_t most, unsigned seed)
{
    return seed % 4 != 0 && move_one(data, size, seed) ? size : LLVMFuzzerMutate(data, size, most);
}
