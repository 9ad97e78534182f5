/* From well-known binary, as a survey package exports it, to the matrix and the shared
 * ground of two parcels whose outlines cross: they are read, laid one after the other,
 * split where they meet, and asked about. Then a pair that crosses off the grid.
 *
 *     split
 *
 * To build it, with Karvoiss installed:
 *
 *     cc split.c $(pkg-config --cflags --libs karvoiss) -o split
 */
#include <karvoiss.h>

#include <inttypes.h>
#include <stdio.h>

/* Any object fits into OBJECT bytes, and any two, split or not, into twice that. */
enum { OBJECT = 19459 };

/* MultiPolygon (((0 0, 4 0, 4 4, 0 4, 0 0))), low byte first. */
static const char meadow[] =
    "010600000001000000"
    "010300000001000000"
    "05000000"
    "00000000000000000000000000000000"
    "00000000000010400000000000000000"
    "00000000000010400000000000001040"
    "00000000000000000000000000001040"
    "00000000000000000000000000000000";

/* MultiPolygon (((2 2, 6 2, 6 6, 2 6, 2 2))). */
static const char orchard[] =
    "010600000001000000"
    "010300000001000000"
    "05000000"
    "00000000000000400000000000000040"
    "00000000000018400000000000000040"
    "00000000000018400000000000001840"
    "00000000000000400000000000001840"
    "00000000000000400000000000000040";

/* MultiPolygon (((1 -1, 3 -1, 2 2, 1 -1))): its sides cross y = 0 at thirds. */
static const char spinney[] =
    "010600000001000000"
    "010300000001000000"
    "04000000"
    "000000000000f03f000000000000f0bf"
    "0000000000000840000000000000f0bf"
    "00000000000000400000000000000040"
    "000000000000f03f000000000000f0bf";

static unsigned digit(char c)
{
    return (unsigned)(c <= '9' ? c - '0' : c - 'a' + 10);
}

/* Reads the shape of a hexadecimal text to `object`; gives its length, 0 if it is
 * refused. */
static size_t read_shape(const char *text, uint8_t *object)
{
    uint8_t wkb[512];
    size_t count = 0;

    for (; text[2 * count] != '\0'; count++)
        wkb[count] = (uint8_t)(16 * digit(text[2 * count]) + digit(text[2 * count + 1]));
    return karvoiss_read_wkb(wkb, count, object, OBJECT).length;
}

static void say_why_not(karvoiss_split_t answer)
{
    printf("  refused with %u at byte %zu: ", (unsigned)answer.number, answer.place);
    switch (answer.number) {
    case 19:
        puts("this segment crosses one of the other shape off the grid");
        break;
    case 20:
        puts("this shape would have more than 512 segments");
        break;
    case 21:
        puts("the buffer is too short");
        break;
    default:
        puts("one of the two shapes is not sound");
    }
}

static void compare(const char *name, const char *first, const char *second)
{
    static const char *const parts[] = {"interior", "boundary", "exterior"};
    static uint8_t pair[2 * OBJECT], scene[2 * OBJECT];
    size_t length = read_shape(first, pair);

    length += read_shape(second, pair + length);
    printf("%s\n  as they are: number %u\n", name,
           (unsigned)karvoiss_cells(pair, length).number);

    karvoiss_split_t split = karvoiss_split(pair, length, scene, sizeof scene);

    if (split.number != 0) {
        say_why_not(split);
        return;
    }
    printf("  split: %zu and %zu segments more, %zu bytes\n", split.added_f,
           split.added_g, split.length);

    karvoiss_cells_t m = karvoiss_cells(scene, split.length);
    karvoiss_areas_t a = karvoiss_areas(scene, split.length);

    for (int r = 0; r < 3; r++)
        printf("  %s %c %c %c\n", parts[r], m.cell[r][0], m.cell[r][1], m.cell[r][2]);
    printf("  twice the area in both %" PRId64 ", in the first only %" PRId64
           ", in the second only %" PRId64 "\n", a.both, a.f_only, a.g_only);
}

int main(void)
{
    compare("meadow and orchard", meadow, orchard);
    compare("meadow and spinney", meadow, spinney);
    return 0;
}
