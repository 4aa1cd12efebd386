/*
 * due: prints what the sheet program must print for a file in the format, its sheet or why it is refused. Standard
 * input has the file's numbers without its comments.
 */
#include <inttypes.h>
#include <stdio.h>
#include <stdlib.h>

#include "hold.h"
#include "paper.h"

static u64 next(void)
{
    u64 n;
    if (scanf("%" SCNu64, &n) != 1) {
        fprintf(stderr, "due: a number is missing\n");
        exit(2);
    }
    return n;
}

static u64 count(u64 most)
{
    u64 n = next();
    if (n > most) {
        fprintf(stderr, "due: a count is too large\n");
        exit(2);
    }
    return n;
}

static void numbers(u64 *at, u64 n)
{
    for (u64 i = 0; i < n; i++)
        at[i] = next();
}

static void record(u64 *own)
{
    own[BT_PATCH_COUNT] = count(BT_MOST_PATCHES);
    numbers(own + BT_PATCHES, BT_PATCH_WIDTH * own[BT_PATCH_COUNT]);
    own[BT_SEGMENT_COUNT] = count(BT_MOST_SEGMENTS);
    for (u64 i = 0; i < own[BT_SEGMENT_COUNT]; i++) {
        u64 *segment = segment_at(own, i);
        segment[BT_KIND_AT] = next();
        numbers(segment + BT_LENGTH_AT, segment_numbers(segment[BT_KIND_AT]) - BT_LENGTH_AT);
    }
}

int main(void)
{
    static struct site s;
    static char text[TEXT];
    set_rows(&s, count(BT_MOST_ROWS));
    s.step = next();
    s.first = next();
    s.rule = next();
    s.rain.len = count(BT_MOST_ROWS + 1);
    numbers(s.rain.at, s.rain.len);
    s.subareas.len = BT_WIDTH * count(BT_MOST_SUBAREAS);
    for (size_t i = 0; i < subarea_count(&s); i++)
        record(record_at(&s, i));
    s.pond.len = BT_POND_WIDTH * count(BT_MOST_POND_ROWS);
    numbers(s.pond.at, s.pond.len);
    paper(&s, text, sizeof text);
    fputs(text, stdout);
    return 0;
}
