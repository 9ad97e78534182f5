/* Every 64-bit multiplication of the archive stops the program while the questions are asked, and its two factors are looked at. A product of a side has differences of
 * coordinates for both; the place of a record, and its index from its place, have a record's size for one, or the inverse of one.
 * products <addresses> <scene>..: the addresses of the multiplications, one to a line, in this program. Each scene is stretched over the range first. */
#define _GNU_SOURCE
#include "scenes.h"

#include <inttypes.h>
#include <signal.h>
#include <sys/mman.h>
#include <ucontext.h>
#include <unistd.h>

enum { MOST = 1024, LARGE = 65536, LIMIT = 10000000, TRAP_FLAG = 0x100 };

static struct stop {
    uint8_t *at;
    uint8_t byte;
} stops[MOST];
static int stop_count;
static struct stop *stepping;

/* Of the call that is watched: the multiplications run, and the greatest lesser factor. */
static uint64_t products, lesser_factor;

static const int registers[16] = {REG_RAX, REG_RCX, REG_RDX, REG_RBX, REG_RSP, REG_RBP, REG_RSI, REG_RDI,
                                  REG_R8,  REG_R9,  REG_R10, REG_R11, REG_R12, REG_R13, REG_R14, REG_R15};

static uint64_t size_of(uint64_t x)
{
    return (int64_t)x < 0 ? -x : x;
}

/* The operand that the byte after the opcode names: a register, or eight bytes of memory. */
static uint64_t operand(const greg_t *g, const uint8_t *code, unsigned rex)
{
    unsigned mode = code[0] >> 6, rm = code[0] & 7;
    uint64_t address = 0;
    int32_t shift = 0;
    const uint8_t *next = code + 1;

    if (mode == 3)
        return (uint64_t)g[registers[rm | (rex & 1) << 3]];
    if (rm == 4) {
        unsigned sib = *next++, index = (sib >> 3 & 7) | (rex & 2) << 2, base = (sib & 7) | (rex & 1) << 3;

        if (index != 4)
            address += (uint64_t)g[registers[index]] << (sib >> 6);
        if ((sib & 7) == 5 && mode == 0)
            mode = 2;
        else
            address += (uint64_t)g[registers[base]];
    } else if (rm == 5 && mode == 0) {
        address = (uint64_t)(next + 4);
        mode = 2;
    } else {
        address = (uint64_t)g[registers[rm | (rex & 1) << 3]];
    }
    if (mode == 1)
        shift = (int8_t)*next;
    else if (mode == 2)
        memcpy(&shift, next, 4);
    return *(const uint64_t *)(address + (uint64_t)(int64_t)shift);
}

/* The factors of the multiplication at an address: REX.W 0F AF (register and operand), REX.W F7 (rax and operand). */
static void look(const greg_t *g, const uint8_t *code)
{
    unsigned rex = code[0];
    uint64_t x, y;

    if (code[1] == 0xf7) {
        x = (uint64_t)g[REG_RAX];
        y = operand(g, code + 2, rex);
    } else {
        x = (uint64_t)g[registers[(code[3] >> 3 & 7) | (rex & 4) << 1]];
        y = operand(g, code + 3, rex);
    }
    products++;
    x = size_of(x) < size_of(y) ? size_of(x) : size_of(y);
    if (lesser_factor < x)
        lesser_factor = x;
}

static void stopped(int signal, siginfo_t *info, void *context)
{
    greg_t *g = ((ucontext_t *)context)->uc_mcontext.gregs;

    (void)signal;
    (void)info;
    if (stepping != NULL) {
        *stepping->at = 0xcc;
        stepping = NULL;
        g[REG_EFL] &= ~(greg_t)TRAP_FLAG;
        return;
    }
    for (int i = 0; i < stop_count; i++)
        if (stops[i].at + 1 == (uint8_t *)g[REG_RIP]) {
            *stops[i].at = stops[i].byte;
            look(g, stops[i].at);
            g[REG_RIP]--;
            g[REG_EFL] |= TRAP_FLAG;
            stepping = &stops[i];
            return;
        }
    _exit(3);
}

static void set_stops(const char *name)
{
    FILE *file = fopen(name, "r");
    uint64_t at, page = (uint64_t)sysconf(_SC_PAGESIZE);
    struct sigaction action = {.sa_sigaction = stopped, .sa_flags = SA_SIGINFO};

    if (file == NULL)
        fail(name, "cannot be read");
    while (stop_count < MOST && fscanf(file, "%" SCNx64, &at) == 1) {
        struct stop *s = &stops[stop_count++];

        s->at = (uint8_t *)at;
        s->byte = *s->at;
        if (mprotect((void *)(at / page * page), 2 * page, PROT_READ | PROT_WRITE | PROT_EXEC) != 0)
            fail(name, "code cannot be written");
        if ((s->byte & 0xf8) != 0x48 || !(s->at[1] == 0xf7 || (s->at[1] == 0x0f && s->at[2] == 0xaf)))
            fail(name, "no 64-bit multiplication there");
    }
    fclose(file);
    sigaction(SIGTRAP, &action, NULL);
    for (int i = 0; i < stop_count; i++)
        *stops[i].at = 0xcc;
}

static int32_t coordinate(const uint8_t *at)
{
    int32_t v;

    memcpy(&v, at, 4);
    return v;
}

/* Coordinates times a whole number, so that the greatest is near the limit. */
static void stretch(struct scene scene)
{
    int32_t greatest = 1;

    for (int turn = 0; turn < 2; turn++)
        for (size_t at = 0; at < scene.length;) {
            int count = scene.bytes[at] == 'P' ? 2 : scene.bytes[at] == 'L' || scene.bytes[at] == 'R' ? 4 : 0;

            for (int k = 0; k < count; k++) {
                int32_t v = coordinate(scene.bytes + at + 1 + 4 * k);

                if (turn == 0 && abs(v) > greatest)
                    greatest = abs(v);
                v *= LIMIT / greatest;
                if (turn == 1)
                    memcpy(scene.bytes + at + 1 + 4 * k, &v, 4);
            }
            at += scene.bytes[at] == 'T' ? 2 : scene.bytes[at] == 'E' ? 1 : scene.bytes[at] == 'P' ? 9 : scene.bytes[at] == 'L' ? 18 : 19;
        }
}

/* What was run under one name, over all scenes. */
static struct {
    const char *name;
    uint64_t products, factor;
} seen[] = {{"karvoiss_vectors", 0, 0}, {"karvoiss_cells", 0, 0}, {"karvoiss_relate", 0, 0}, {"karvoiss_overlap", 0, 0}, {"karvoiss_areas", 0, 0}};

static void watch(int k, struct scene scene)
{
    static uint8_t list[LIST];
    uint32_t number = 0;

    products = lesser_factor = 0;
    switch (k) {
    case 0: number = karvoiss_vectors(scene.bytes, scene.length, 1, 0).number; break;
    case 1: number = karvoiss_cells(scene.bytes, scene.length).number; break;
    case 2: number = karvoiss_relate(scene.bytes, scene.length, (const uint8_t *)"TTTTTTTTT", 9).number; break;
    case 3: number = karvoiss_overlap(scene.bytes, scene.length, list, LIST).number; break;
    case 4: number = karvoiss_areas(scene.bytes, scene.length).number; break;
    }
    if (number != 0 && number != 9 && number != 16)
        fail(scene.name, "refused");
    seen[k].products += products;
    if (seen[k].factor < lesser_factor)
        seen[k].factor = lesser_factor;
}

int main(int count, char **names)
{
    int bad = 0;

    set_stops(names[1]);
    for (int i = 2; i < count; i++) {
        struct scene scene = read_scene(names[i]);

        stretch(scene);
        for (int k = 0; k < 5; k++)
            watch(k, scene);
    }
    for (int k = 0; k < 5; k++) {
        int wide = seen[k].factor > LARGE;

        printf("products: %s: %" PRIu64 " 64-bit products, the lesser factor at most %" PRIu64 "\n", seen[k].name, seen[k].products, seen[k].factor);
        /* the areas are of side values, and show that one would be seen */
        bad |= seen[k].products == 0 || wide != (k == 4);
    }
    if (bad)
        puts("products: a walk multiplies differences of coordinates in 64 bits, or nothing was seen");
    return bad;
}
