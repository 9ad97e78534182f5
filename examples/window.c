/* A map viewer asks which of a thousand stored shapes are in its window. The
 * store keeps a summary of 20 bytes for each shape; the library takes 64 of
 * them at a time and gives a word whose bits say which.
 *
 *     window
 *
 * To build it, with Karvoiss installed:
 *
 *     cc window.c $(pkg-config --cflags --libs karvoiss) -o window
 */
#include <karvoiss.h>

#include <stdio.h>

enum { SHAPES = 1000, SUMMARY = 20, AT_ONCE = 64 };

static uint8_t summaries[SHAPES * SUMMARY];

/* 32 bits, low byte first */
static void put_number(uint8_t *p, int32_t v)
{
    for (int i = 0; i < 4; i++)
        p[i] = (uint8_t)((uint32_t)v >> (8 * i));
}

/* The summary of a region: kind, type, not empty, its box, and that it has a
 * boundary. */
static void put_region(uint8_t *p, int32_t least_x, int32_t least_y, int32_t greatest_x, int32_t greatest_y)
{
    p[0] = 83;
    p[1] = 3;
    p[2] = 0;
    put_number(p + 3, least_x);
    put_number(p + 7, least_y);
    put_number(p + 11, greatest_x);
    put_number(p + 15, greatest_y);
    p[19] = 1;
}

/* Parcels in rows of forty, 10 wide and 6 high, with a street of 2 between
 * them; every seventh lot is a double one. */
static void fill_store(void)
{
    for (int i = 0; i < SHAPES; i++) {
        int32_t x = 12 * (i % 40), y = 8 * (i / 40);

        put_region(summaries + SUMMARY * i, x, y, x + (i % 7 == 0 ? 22 : 10), y + 6);
    }
}

static void ask(karvoiss_window_t window)
{
    uint32_t hits = 0;
    int first = -1;

    for (int from = 0; from < SHAPES; from += AT_ONCE) {
        int count = SHAPES - from < AT_ONCE ? SHAPES - from : AT_ONCE;
        karvoiss_in_window_t answer = karvoiss_in_window(window, summaries + SUMMARY * from, (size_t)count * SUMMARY);

        if (answer.number != 0) {
            printf("refused: %u at %zu\n", (unsigned)answer.number, answer.place);
            return;
        }
        for (int k = 0; k < count && first < 0; k++)
            if (answer.word >> k & 1)
                first = from + k;
        hits += answer.hits;
    }
    printf("x %.9g to %.9g, y %.9g to %.9g: %u of %d", (double)window.least_x, (double)window.greatest_x, (double)window.least_y, (double)window.greatest_y, (unsigned)hits, SHAPES);
    if (first >= 0)
        printf(", the first is %d", first);
    printf("\n");
}

int main(void)
{
    fill_store();
    ask((karvoiss_window_t){0.0F, 0.0F, 480.0F, 200.0F});
    ask((karvoiss_window_t){100.5F, 50.25F, 161.75F, 90.5F});
    /* the street between two columns; to the float before a parcel, and to its
     * edge */
    ask((karvoiss_window_t){34.5F, 0.0F, 35.9999962F, 6.0F});
    ask((karvoiss_window_t){34.5F, 0.0F, 36.0F, 6.0F});
    ask((karvoiss_window_t){-1.0e30F, -1.0e30F, -1.0e-30F, 1.0e30F});
    ask((karvoiss_window_t){-1.0e30F, -1.0e30F, -0.0F, 1.0e30F});
    ask((karvoiss_window_t){2.0F, 0.0F, 1.0F, 6.0F});
    return 0;
}
