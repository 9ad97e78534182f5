/* From well-known binary, as a survey package exports it, to the matrix: a road and
 * a parcel are read, laid one after the other as a scene, and asked about. Then what
 * cannot be read, in words.
 *
 *     wkb
 *
 * To build it, with Karvoiss installed:
 *
 *     cc wkb.c $(pkg-config --cflags --libs karvoiss) -o wkb
 */
#include <karvoiss.h>

#include <stdio.h>
#include <string.h>

/* Any object fits into OBJECT bytes, and any points or line as well-known binary
 * into WKB. */
enum { OBJECT = 19459, WKB = 21513 };

/* MultiLineString ((-2 2, 0 2, 4 2)), high byte first: the header, the part's, its
 * points. */
static const char road[] =
    "000000000500000001"
    "000000000200000003"
    "c0000000000000004000000000000000"
    "00000000000000004000000000000000"
    "40100000000000004000000000000000";

/* MultiPolygon (((0 0, 4 0, 4 2, 4 4, 0 4, 0 2, 0 0))), low byte first, its polygon
 * high byte first. Where the road meets it, it has corners. */
static const char parcel[] =
    "010600000001000000"
    "000000000300000001"
    "00000007"
    "00000000000000000000000000000000"
    "40100000000000000000000000000000"
    "40100000000000004000000000000000"
    "40100000000000004010000000000000"
    "00000000000000004010000000000000"
    "00000000000000004000000000000000"
    "00000000000000000000000000000000";

/* MultiPolygon (((0 0, 4 0, 4 2.5, 0 0))). */
static const char halfway[] =
    "010600000001000000"
    "010300000001000000"
    "04000000"
    "00000000000000000000000000000000"
    "00000000000010400000000000000000"
    "00000000000010400000000000000440"
    "00000000000000000000000000000000";

static unsigned digit(char c)
{
    return (unsigned)(c <= '9' ? c - '0' : c - 'a' + 10);
}

/* The bytes of a hexadecimal text; gives their number. */
static size_t bytes_of(const char *text, uint8_t *bytes)
{
    size_t count = 0;

    for (; text[2 * count] != '\0'; count++)
        bytes[count] = (uint8_t)(16 * digit(text[2 * count]) + digit(text[2 * count + 1]));
    return count;
}

static void say_why_not(karvoiss_read_wkb_t answer)
{
    printf("refused with %u at byte %zu: ", (unsigned)answer.number, answer.place);
    switch (answer.number) {
    case 24:
        puts("cut, left over, or nothing that is allowed there");
        break;
    case 25:
        printf("the coordinate %g is no whole number from -10000000 to 10000000\n", answer.value);
        break;
    case 26:
        puts("the last point of the ring is not its first");
        break;
    case 20:
        puts("more than 1,024 points or 512 segments");
        break;
    case 10:
    case 12:
        puts("segments meet elsewhere than at common ends");
        break;
    case 13:
        puts("polygons have a side in common");
        break;
    default:
        puts("the buffer is too short");
    }
}

/* Reads one shape to `object`; gives its length, 0 if it is refused. */
static size_t read_shape(const char *name, const char *text, uint8_t *object, size_t room)
{
    static const char *const types[] = {"", "points", "line", "region"};
    uint8_t wkb[512];
    karvoiss_read_wkb_t answer = karvoiss_read_wkb(wkb, bytes_of(text, wkb), object, room);

    printf("%s: ", name);
    if (answer.number != 0)
        say_why_not(answer);
    else
        printf("%s, %zu bytes\n", types[object[1]], answer.length);
    return answer.length;
}

int main(void)
{
    static const char *const parts[] = {"interior", "boundary", "exterior"};
    static uint8_t scene[2 * OBJECT], wkb[WKB];
    size_t first = read_shape("road", road, scene, OBJECT);
    size_t second = read_shape("parcel", parcel, scene + first, OBJECT);
    karvoiss_cells_t m = karvoiss_cells(scene, first + second);

    if (first == 0 || second == 0 || m.number != 0)
        return 1;
    for (int r = 0; r < 3; r++)
        printf("  %s %c %c %c\n", parts[r], m.cell[r][0], m.cell[r][1], m.cell[r][2]);

    /* the road as it is written: a part for each segment, low byte first */
    karvoiss_write_wkb_t written = karvoiss_write_wkb(scene, first, wkb, WKB);

    printf("road again:");
    for (size_t i = 0; i < written.length; i++)
        printf("%s%02x", (i < 9 ? i == 0 : (i - 9) % 41 == 0) ? "\n  " : "", wkb[i]);
    printf("\n");

    /* a number that is not on the grid; and the same ring open, its last y 4 */
    char open_ring[sizeof halfway];

    memcpy(open_ring, halfway, sizeof halfway);
    memcpy(open_ring + sizeof halfway - 5, "1040", 4);
    read_shape("halfway", halfway, scene, OBJECT);
    read_shape("open ring", open_ring, scene, OBJECT);
    return 0;
}
