/* Patterns against cells: of each scene, every pattern of T and F and many with digits and *, which must hold exactly if the cells fit. Then patterns whose answers
 * are known: scene a and scene a exchanged, and patterns that are turned away. */
#include "scenes.h"

enum { STARRED = 1000 };

static uint32_t state = 2463534242u;

static uint32_t next(void)
{
    state ^= state << 13;
    state ^= state >> 17;
    state ^= state << 5;
    return state;
}

static bool fits_cell(uint8_t c, uint8_t cell)
{
    return c == '*' || (c == 'T' ? cell != 'F' : c == cell);
}

static void pattern_must(const struct scene *scene, const karvoiss_cells_t *cells, const uint8_t *pattern)
{
    bool fits = cells->number == 0;

    for (int row = 0; row < 3; row++)
        for (int column = 0; column < 3; column++)
            fits = fits && fits_cell(pattern[3 * row + column], cells->cell[row][column]);
    karvoiss_relate_t answer = karvoiss_relate(scene->bytes, scene->length, pattern, 9);
    if (answer.number != cells->number || answer.place != cells->place || answer.holds != fits)
        fail(scene->name, "a pattern is not answered as the cells say");
}

static void try_scene(const struct scene *scene)
{
    karvoiss_cells_t cells = karvoiss_cells(scene->bytes, scene->length);
    uint8_t pattern[9];

    for (unsigned bits = 0; bits < 512; bits++) {
        for (int i = 0; i < 9; i++)
            pattern[i] = bits >> i & 1 ? 'T' : 'F';
        pattern_must(scene, &cells, pattern);
    }
    for (int k = 0; k < STARRED; k++) {
        for (int i = 0; i < 9; i++) {
            uint8_t own = cells.cell[i / 3][i % 3];
            uint32_t choice = next() % 32;

            pattern[i] = choice < 16 ? '*' : choice < 24 ? own : choice < 30 ? (own == 'F' ? 'F' : 'T') : (uint8_t)"TF012"[next() % 5];
        }
        pattern_must(scene, &cells, pattern);
    }
}

static void known(const struct scene *scene, const char *pattern, uint32_t number, size_t place, bool holds)
{
    karvoiss_relate_t expected = {.number = number, .place = place, .holds = holds};
    karvoiss_relate_t answer = karvoiss_relate(scene->bytes, scene->length, (const uint8_t *)pattern, strlen(pattern));

    if (!same_relate(&answer, &expected)) {
        fprintf(stderr, "border: %s against \"%s\": %u at %zu, %d\n", scene->name, pattern, (unsigned)answer.number, answer.place, answer.holds);
        fail(pattern, "another answer than is known");
    }
}

/* The scene with its second object, which begins at an offset, first. */
static struct scene exchanged(const struct scene *scene, size_t second)
{
    struct scene other = {.name = "scene a exchanged", .bytes = malloc(scene->length), .length = scene->length};

    if (other.bytes == NULL)
        fail("exchanged", "no memory");
    memcpy(other.bytes, scene->bytes + second, scene->length - second);
    memcpy(other.bytes + scene->length - second, scene->bytes, second);
    return other;
}

/* argv[1]: document 01's scene a, two points and a line; argv[2]: a line across a side of a square; the others: any scenes */
int main(int argc, char **argv)
{
    if (argc < 3)
        fail("patterns", "name scene a, a line across a square, and any others");

    struct scene a = read_scene(argv[1]), crossing = read_scene(argv[2]), turned = exchanged(&a, 2 + 2 * 9 + 1);

    known(&a, "FTTFFFTTT", 0, 0, true);
    known(&a, "*********", 0, 0, true);
    known(&a, "********F", 0, 0, false);
    known(&a, "FTTFFFTTF", 0, 0, false);
    known(&turned, "FFTTFTTFT", 0, 0, true);
    known(&turned, "FTTFFFTTT", 0, 0, false);
    known(&a, "TTTFFFTTx", 23, 8, false);
    known(&a, "fTTFFFTTT", 23, 0, false);
    known(&a, "F00FFF102", 0, 0, true);
    known(&a, "F01FFF102", 0, 0, false);
    known(&a, "FT0FFF1*2", 0, 0, true);
    known(&a, "F00FFF103", 23, 8, false);
    known(&a, "", 22, 0, false);
    known(&a, "FTTFFFTT", 22, 0, false);
    known(&a, "FTTFFFTTTT", 22, 0, false);
    known(&a, "FTTFFFTT\xc3\xa9", 22, 0, false);
    known(&crossing, "FFFFFFFFF", 15, 2, false);
    known(&crossing, "*********", 15, 2, false);
    known(&crossing, "x", 15, 2, false);
    known(&crossing, "xTTFFFTTT", 15, 2, false);
    try_scene(&turned);
    for (int i = 1; i < argc; i++) {
        struct scene scene = read_scene(argv[i]);

        try_scene(&scene);
        free(scene.bytes);
    }
    printf("patterns: 20 known answers, %d patterns over each of %d scenes\n", 512 + STARRED, argc);
    return 0;
}
