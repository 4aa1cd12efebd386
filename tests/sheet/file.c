#include "file.h"

#include <inttypes.h>
#include <stdio.h>
#include <stdlib.h>
#include <string.h>

void sayable(struct site *s)
{
    set_rows(s, s->inflow);
    s->subareas.len -= s->subareas.len % BT_WIDTH;
    s->pond.len -= s->pond.len % BT_POND_WIDTH;
}

/* ---- Words */

static struct word *add(struct file *f, u64 value)
{
    if (f->count == WORDS) {
        fprintf(stderr, "sheet: no room for a file's words\n");
        exit(2);
    }
    struct word *w = &f->words[f->count++];
    snprintf(w->text, sizeof w->text, "%" PRIu64, value);
    w->most = UINT64_MAX;
    w->limit = "";
    return w;
}

static void number(struct file *f, u64 value, const char *name)
{
    snprintf(add(f, value)->name, NAME, "%s", name);
}

static void count(struct file *f, u64 value, const char *name, u64 most, const char *limit)
{
    number(f, value, name);
    f->words[f->count - 1].most = most;
    f->words[f->count - 1].limit = limit;
}

static u64 least_of(u64 a, u64 b)
{
    return a < b ? a : b;
}

/* A number of a patch or of a segment, by its column. */
static void part(struct file *f, u64 value, const char *column, const char *of, u64 i, size_t subarea)
{
    snprintf(add(f, value)->name, NAME, "the %s of %s %" PRIu64 " of subarea %zu", column, of, i + 1, subarea);
}

static void patch(struct file *f, const u64 *own, u64 i, size_t subarea)
{
    static const char *const columns[BT_PATCH_WIDTH] = { "cover", "soil group", "area" };
    for (size_t j = 0; j < BT_PATCH_WIDTH; j++)
        part(f, own[j], columns[j], "patch", i, subarea);
}

/* A kind that nobody knows has as many numbers as the oldest. */
size_t segment_numbers(u64 kind)
{
    return kind == BT_SEGMENT_SHEET || kind == BT_SEGMENT_CHANNEL ? BT_SEGMENT_WIDTH : BT_SHALLOW_SLOPE_AT + 1;
}

static void segment(struct file *f, const u64 *own, u64 i, size_t subarea)
{
    static const char *const columns[BT_SEGMENT_WIDTH] = { "kind", "length", "slope, velocity or n",
                                                           "2-year rain or radius", "slope" };
    for (size_t j = 0; j < segment_numbers(own[BT_KIND_AT]); j++)
        part(f, own[j], columns[j], "segment", i, subarea);
}

/* Past the limit of a count nothing is read. */
static void record(struct file *f, const u64 *own, size_t subarea)
{
    char name[NAME];
    snprintf(name, sizeof name, "the number of patches of subarea %zu", subarea);
    count(f, own[BT_PATCH_COUNT], name, BT_MOST_PATCHES, ", at most 8");
    for (u64 i = 0; i < least_of(own[BT_PATCH_COUNT], BT_MOST_PATCHES); i++)
        patch(f, own + BT_PATCHES + BT_PATCH_WIDTH * i, i, subarea);
    snprintf(name, sizeof name, "the number of segments of subarea %zu", subarea);
    count(f, own[BT_SEGMENT_COUNT], name, BT_MOST_SEGMENTS, ", at most 6");
    for (u64 i = 0; i < least_of(own[BT_SEGMENT_COUNT], BT_MOST_SEGMENTS); i++)
        segment(f, own + BT_SEGMENTS + BT_SEGMENT_WIDTH * i, i, subarea);
}

static void pond(struct file *f, const struct site *s)
{
    static const char *const columns[BT_POND_WIDTH] = { "stage", "storage", "discharge" };
    count(f, pond_rows(s), "the number of pond rows", BT_MOST_POND_ROWS + 1, ", at most 64");
    for (size_t i = 0; i < s->pond.len; i++)
        snprintf(add(f, s->pond.at[i])->name, NAME, "the %s of pond row %zu", columns[i % BT_POND_WIDTH],
                 i / BT_POND_WIDTH + 1);
}

/* One more than the limit of rows, rain entries, subareas and pond rows can be read, and is the engine's to refuse. */
void words_of(const struct site *s, struct file *f)
{
    f->count = 0;
    count(f, s->inflow, "the number of rows", BT_MOST_ROWS + 1, ", at most 2000");
    number(f, s->step, "the step");
    number(f, s->first, "the first row number");
    number(f, s->rule, "the sheet rule");
    count(f, s->rain.len, "the number of rain entries", BT_MOST_ROWS + 2, ", at most one more than the rows");
    for (size_t t = 0; t < s->rain.len; t++)
        snprintf(add(f, s->rain.at[t])->name, NAME, "rain entry %zu", t);
    count(f, subarea_count(s), "the number of subareas", BT_MOST_SUBAREAS + 1, ", at most 16");
    for (size_t i = 0; i < subarea_count(s); i++)
        record(f, s->subareas.at + BT_WIDTH * i, i + 1);
    pond(f, s);
}

const struct word *too_large(const struct file *f)
{
    for (size_t i = 0; i < f->count; i++)
        if (strtoull(f->words[i].text, NULL, 10) > f->words[i].most)
            return &f->words[i];
    return NULL;
}

/* ---- Bytes */

static bool append(struct file *f, const char *text)
{
    size_t len = strlen(text);
    if (len > LONGEST - f->len)
        return false;
    memcpy(f->bytes + f->len, text, len);
    f->len += len;
    for (; *text; text++)
        f->end += *text == '\n';
    return true;
}

static const char *gap(struct prng *r)
{
    static const char *const seldom[] = { "\n",   "\t",                "\r\n", "   ",
                                          "\n\n", " # a comment, 12 3\n", "#\n",  "# # 7\n\t" };
    return chance(r, 80) ? " " : seldom[below(r, sizeof seldom / sizeof *seldom)];
}

bool write_words(struct file *f, struct prng *r)
{
    f->len = 0;
    f->end = 1;
    if (chance(r, 30) && !append(f, "# 1 2 3\n\n"))
        return false;
    for (size_t i = 0; i < f->count; i++) {
        f->words[i].line = f->end;
        if (!append(f, f->words[i].text) || !append(f, i + 1 < f->count || chance(r, 50) ? gap(r) : ""))
            return false;
    }
    return true;
}
