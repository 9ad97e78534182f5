/* The functions of the extension for PostgreSQL without the server, to be run under valgrind: what they take of the server is made here of the C library, so that each argument and each lent buffer has
   its own memory and not a byte more, and a byte beyond, or one that was never written, is seen. Reads, first, the functions as "argument types : result : name in C" up to an empty line, then lines of a sort and
   bytes in hexadecimal (`listed` of tests/reference). Each function gets the bytes, the first object, and its summary; in a second argument the rest and its summary. */
#include "postgres.h"

#include "fmgr.h"
#include "utils/builtins.h"

#include <dlfcn.h>
#include <setjmp.h>

/* the C library's own, in place of the server's */
#undef printf
#undef fprintf
#undef snprintf
#undef vsnprintf
#include "scenes.h"

/* ---- The server ---------------------------------------------------------- */

static jmp_buf after_error;
static char said[4096];

/* What is lent, to be freed after the call. */
static void *lent[64];
static int lent_count;

void *palloc(Size size)
{
    void *bytes = malloc(size);

    if (bytes == NULL || lent_count == 64)
        fail("postgres", "too much is lent");
    return lent[lent_count++] = bytes;
}

void pfree(void *bytes)
{
    for (int k = 0; k < lent_count; k++)
        if (lent[k] == bytes)
            lent[k] = NULL;
    free(bytes);
}

static void free_lent(void)
{
    for (int k = 0; k < lent_count; k++)
        free(lent[k]);
    lent_count = 0;
}

void check_stack_depth(void)
{
}

struct varlena *pg_detoast_datum_packed(struct varlena *datum)
{
    return datum;
}

unsigned char pg_toupper(unsigned char c)
{
    return c >= 'a' && c <= 'z' ? c - 'a' + 'A' : c;
}

text *cstring_to_text_with_len(const char *characters, int length)
{
    text *made = palloc(VARHDRSZ + length);

    SET_VARSIZE(made, VARHDRSZ + length);
    memcpy(VARDATA(made), characters, length);
    return made;
}

text *cstring_to_text(const char *characters)
{
    return cstring_to_text_with_len(characters, strlen(characters));
}

static int say(const char *format, va_list arguments)
{
    return vsnprintf(said, sizeof said, format, arguments);
}

#define SAYS(name)                                                                                  \
    int name(const char *format, ...)                                                               \
    {                                                                                               \
        va_list arguments;                                                                          \
                                                                                                    \
        va_start(arguments, format);                                                                \
        say(format, arguments);                                                                     \
        va_end(arguments);                                                                          \
        return 0;                                                                                   \
    }

SAYS(errmsg)
SAYS(errdetail)
SAYS(errhint)

char *psprintf(const char *format, ...)
{
    va_list arguments;

    va_start(arguments, format);
    int length = say(format, arguments);
    va_end(arguments);
    return memcpy(palloc(length + 1), said, length + 1);
}

bool errstart(int level, const char *domain)
{
    return true;
}

bool errstart_cold(int level, const char *domain)
{
    return true;
}

int errcode(int state)
{
    return state;
}

void errfinish(const char *file, int line, const char *function)
{
    longjmp(after_error, 1);
}

/* ---- Calls --------------------------------------------------------------- */

enum { FUNCTIONS = 128, ARGUMENTS = 3 };
enum type { OTHER, BYTEA, INTEGER, TEXT };

struct function {
    char name[80];
    PGFunction call;
    enum type result, types[ARGUMENTS];
    int count;
};

struct argument {
    const void *bytes;
    size_t length;
};

/* A value of its own memory; a short one has the short header, and then begins at an odd address. */
static Datum own_copy(struct argument argument, char **freed)
{
    const bool is_short = argument.length + 1 <= 0x7F;
    const size_t header = is_short ? 1 : VARHDRSZ;
    char *made = *freed = malloc(argument.length + header + is_short);
    char *value = made + is_short;

    if (is_short)
        SET_VARSIZE_SHORT(value, argument.length + header);
    else
        SET_VARSIZE(value, argument.length + header);
    if (argument.length > 0)
        memcpy(value + header, argument.bytes, argument.length);
    return PointerGetDatum(value);
}

static unsigned long calls, errors, bytes_read;

/* Reads all bytes of what is answered, and goes by them, so that none may be unwritten. */
static void look_at(Datum value)
{
    const struct varlena *answer = (const struct varlena *)DatumGetPointer(value);

    for (size_t i = 0; i < VARSIZE_ANY_EXHDR(answer); i++)
        if (VARDATA_ANY(answer)[i] != 0)
            bytes_read++;
}

static void call(const struct function *function, struct argument first, struct argument second, uint64_t id)
{
    static const char *const patterns[] = {"T********", "FF*FF****", "", "T*t", "T*F**F****"};
    const char *pattern = patterns[id % 5];
    char *volatile copies[ARGUMENTS] = {NULL};
    char *made;
    LOCAL_FCINFO(info, ARGUMENTS);

    InitFunctionCallInfoData(*info, NULL, function->count, InvalidOid, NULL, NULL);
    for (int k = 0; k < function->count; k++) {
        made = NULL;
        info->args[k].isnull = false;
        info->args[k].value = function->types[k] == INTEGER ? Int32GetDatum((int32)(id % 40) - 3)
                              : own_copy(function->types[k] == TEXT ? (struct argument){pattern, strlen(pattern)} : k == 0 ? first : second, &made);
        copies[k] = made;
    }
    calls++;
    if (setjmp(after_error) == 0) {
        Datum value = function->call(info);

        if (!info->isnull && (function->result == BYTEA || function->result == TEXT))
            look_at(value);
    } else {
        errors++;
    }
    free_lent();
    for (int k = 0; k < ARGUMENTS; k++)
        free(copies[k]);
}

/* ---- Inputs -------------------------------------------------------------- */

static struct function functions[FUNCTIONS];
static int function_count;

static enum type type_of(const char *words)
{
    return strstr(words, "bytea") ? BYTEA : strstr(words, "text") ? TEXT : strstr(words, "integer") ? INTEGER : OTHER;
}

/* A line "argument types : result : name in C". */
static void add_function(char *line)
{
    struct function *function = &functions[function_count++];
    char *arguments = strtok(line, ":"), *result = strtok(NULL, ":"), *name = strtok(NULL, ": \n");

    snprintf(function->name, sizeof function->name, "%s", name);
    function->call = (PGFunction)dlsym(NULL, name);
    if (function->call == NULL)
        fail(name, "is not there");
    function->result = type_of(result);
    for (char *type = strtok(arguments, ","); type != NULL; type = strtok(NULL, ","))
        function->types[function->count++] = type_of(type);
}

static unsigned digit(char c)
{
    return (unsigned)(c <= '9' ? c - '0' : c - 'a' + 10);
}

static void call_all(const uint8_t *bytes, size_t length, uint64_t id)
{
    const size_t at = second_object(bytes, length);
    const karvoiss_summary_t first = karvoiss_summary(bytes, at), second = karvoiss_summary(bytes + at, length - at);

    for (int k = 0; k < function_count; k++) {
        call(&functions[k], (struct argument){bytes, length}, (struct argument){bytes + at, length - at}, id);
        call(&functions[k], (struct argument){bytes, at}, (struct argument){bytes + at, length - at}, id + 1);
        call(&functions[k], (struct argument){first.record, 20}, (struct argument){second.record, 20}, id + 2);
    }
}

int main(void)
{
    char *line = NULL;
    size_t room = 0;
    uint64_t id = 0;

    while (getline(&line, &room, stdin) > 1)
        add_function(line);
    while (getline(&line, &room, stdin) > 0) {
        const char *hexadecimal = strchr(line, ' ') + 1;
        size_t length = strcspn(hexadecimal, "\n") / 2;
        uint8_t *bytes = malloc(length + 1);

        for (size_t i = 0; i < length; i++)
            bytes[i] = (uint8_t)(16 * digit(hexadecimal[2 * i]) + digit(hexadecimal[2 * i + 1]));
        call_all(bytes, length, id++);
        free(bytes);
    }
    printf("alone: %d functions, %lu calls, %lu refused\n", function_count, calls, errors);
    return errors == 0 || errors == calls || bytes_read == 0;
}
