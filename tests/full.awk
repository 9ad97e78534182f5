# The text of a scene whose two objects have 1,024 elements each; -v pair=23 is a line against a region, pair=32 a region against a line. Each object is 128 parts in a row,
# columns of 8 points or paths of 4 segments; every other part of G is equal to F's, and the rest lie apart or within.

function path(x, low, high, last) {
    return sprintf("%d %d, %d %d, %d %d, %d %d, %d %d", x + low, low, x + high, low, x + high, high, x + low, high, x + low, last)
}

function column(x, low,    y, text) {
    for (y = low; y < low + 8; y++)
        text = text (y > low ? ", " : "") x " " y
    return text
}

function part(type, x, within) {
    if (type == 1)
        return column(x, within ? 4 : 0)
    if (type == 2)
        return "(" (within ? path(x, 2, 6, 3) : path(x, 0, 8, 0)) ")"
    return "((" (within ? path(x, 2, 6, 2) : path(x, 0, 8, 0)) "))"
}

function object(type, is_g,    i, text) {
    for (i = 0; i < 128; i++)
        text = text (i > 0 ? ", " : "") part(type, 10 * i, is_g && i % 2 == 0)
    print (type == 1 ? "MULTIPOINT" : type == 2 ? "MULTILINESTRING" : "MULTIPOLYGON") " (" text ")"
}

BEGIN {
    object(substr(pair, 1, 1), 0)
    object(substr(pair, 2, 1), 1)
}
