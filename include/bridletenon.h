/*
 * Bridletenon for C and C++ hosts. docs/SCOPE.md (document 01) has the rules, the units and the refusal numbers.
 *
 * Only whole numbers and pointers cross, and the doubles of a mark. A list is a pointer and a length, which counts
 * numbers, or records, and not bytes.
 *
 * What the caller must see to, since nothing proves it and the engine cannot look:
 *   - no pointer is null, also where the length beside it is 0, and each is a multiple of 8;
 *   - each list has as many numbers as its length says (records, where it is one of bt_subarea), and each answer as
 *     many as its parameter says;
 *   - no lent list overlaps another, nor an answer;
 *   - nobody else writes to them while a call runs;
 *   - the stack has room for the call: under 2,048 bytes for bt_study, bt_edit, bt_inflow and bt_mark, under 36,000 for the
 *     others, measured and not proved (docs/HOST.md, 'Stack').
 * Any numbers and any lengths may stand in them: what is out of limits is refused.
 */
#ifndef BRIDLETENON_H
#define BRIDLETENON_H

#include <stddef.h>
#include <stdint.h>

#ifdef __cplusplus
extern "C" {
#endif

/* ---- What is lent */

/* The number of this interface, raised with each change of a layout, of a signature, or of the rows that a study
   leaves. A function more does not raise it: an engine that lacks one does not link with a host that calls it.
   bt_interface gives that of the engine that is linked: where the two differ, the host was built for another one and
   must not call it. A host that keeps rows keeps the number beside them: rows of a lower one may be of another rule,
   which nothing in them shows (docs/HOST.md, 'Rows kept from before a request'). */
#define BT_INTERFACE 5

uint64_t bt_interface(void);

/* Sheet rules: how far sheet flow may run. A study names one, and every subarea of it follows that one; its edits name
   the same. A mark has none. */
enum {
    BT_RULE_TR55 = 1,   /* 300 ft: TR-55 of 1986 */
    BT_RULE_WINTR55 = 2 /* 100 ft: WinTR-55, and NEH 630 chapter 15 */
};

/* A subarea is a record of BT_WIDTH numbers; a list of subareas is 1 to BT_MOST_SUBAREAS records, end to end. Patches
   and segments past the record's counts are not read, and may hold anything. */
enum {
    BT_PATCH_COUNT = 0,    /* 1 to 8 */
    BT_PATCHES = 1,        /* the first patch stands here */
    BT_MOST_PATCHES = 8,
    BT_PATCH_WIDTH = 3,    /* cover code, soil group, area in hundredths of an acre */

    BT_SEGMENT_COUNT = BT_PATCHES + BT_PATCH_WIDTH * BT_MOST_PATCHES, /* 1 to 6 */
    BT_SEGMENTS = BT_SEGMENT_COUNT + 1,                               /* the first segment stands here */
    BT_MOST_SEGMENTS = 6,
    BT_SEGMENT_WIDTH = 5,  /* kind, length, then up to three numbers by the kind */

    BT_WIDTH = BT_SEGMENTS + BT_SEGMENT_WIDTH * BT_MOST_SEGMENTS,
    BT_MOST_SUBAREAS = 16
};

/* Kinds of segments. A sheet segment stands first in its subarea or nowhere. */
enum {
    BT_SEGMENT_UNPAVED = 1, /* shallow flow over unpaved ground: slope */
    BT_SEGMENT_PAVED = 2,   /* over paved ground: slope */
    BT_SEGMENT_GIVEN = 3,   /* flow at a given velocity: velocity */
    BT_SEGMENT_SHEET = 4,   /* sheet flow by Manning: n, 2-year rain, slope */
    BT_SEGMENT_CHANNEL = 5  /* channel flow by Manning: n, hydraulic radius, slope */
};

/* Places in a segment of a flat list. Those past its kind's own are spare: they are not read, and may hold anything. */
enum {
    BT_KIND_AT = 0,
    BT_LENGTH_AT = 1,

    BT_SHALLOW_SLOPE_AT = 2,  /* unpaved, paved */

    BT_GIVEN_VELOCITY_AT = 2,

    BT_SHEET_N_AT = 2,
    BT_SHEET_RAIN_AT = 3,
    BT_SHEET_SLOPE_AT = 4,

    BT_CHANNEL_N_AT = 2,
    BT_CHANNEL_RADIUS_AT = 3,
    BT_CHANNEL_SLOPE_AT = 4
};

/* The same record by the names of its numbers, which lie as the places above say: a list of either may be read as the
   other, and a pointer to one, cast to const uint64_t *, will do wherever BT_WIDTH numbers are asked for. */
typedef struct bt_patch {
    uint64_t cover; /* code, 1 to 22 */
    uint64_t soil;  /* group, 1 to 4 for A to D */
    uint64_t area;  /* hundredths of an acre, 1 to 200,000 */
} bt_patch;

typedef struct bt_segment {
    uint64_t kind;   /* BT_SEGMENT_UNPAVED to BT_SEGMENT_CHANNEL */
    uint64_t length; /* feet, 1 to 4,000, of a sheet segment 1 to 300 or 100, as the sheet rule has it */
    union {          /* the member that the kind names */
        struct {
            uint64_t slope;    /* ten-thousandths, 1 to 10,000 */
        } shallow;             /* unpaved, paved */
        struct {
            uint64_t velocity; /* hundredths of a foot a second, 1 to 10,000 */
        } given;
        struct {
            uint64_t n;        /* Manning's n in thousandths, 1 to 999 */
            uint64_t rain;     /* the 2-year 24-hour rain in thousandths of an inch, 1 to 30,000 */
            uint64_t slope;    /* ten-thousandths, 1 to 10,000 */
        } sheet;
        struct {
            uint64_t n;        /* Manning's n in thousandths, 1 to 999 */
            uint64_t radius;   /* hydraulic radius in hundredths of a foot, 1 to 10,000 */
            uint64_t slope;    /* ten-thousandths, 1 to 10,000 */
        } channel;
        uint64_t numbers[BT_SEGMENT_WIDTH - 2]; /* all three, whatever the kind */
    } by;
} bt_segment;

typedef struct bt_subarea {
    uint64_t patch_count;
    bt_patch patches[BT_MOST_PATCHES];
    uint64_t segment_count;
    bt_segment segments[BT_MOST_SEGMENTS];
} bt_subarea;

/* A pond is 2 to BT_MOST_POND_ROWS rows, end to end: stage, storage, discharge, in thousandths of a foot, of a cubic
   foot and of a cubic foot a second. */
enum {
    BT_POND_WIDTH = 3,
    BT_MOST_POND_ROWS = 64
};

/* The row lists have one length, 1 to BT_MOST_ROWS. Rain has 2 entries to one more than there are rows, and rises by at
   most BT_MOST_RISE thousandths of an inch from one to the next. */
enum {
    BT_MOST_ROWS = 2000,
    BT_MOST_RISE = 4000
};

/* The greatest number that the last row may have, 2^53 - 1: a double holds every row number. */
#define BT_LAST_ROW_NUMBER UINT64_C(9007199254740991)

/* ---- What is given back */

/* Places in the answer of a study, and in that of an edit, which has one more. Refused: the refusal number and its
   place, then zeros. Done: two zeros, then the figures. Rows count from 1. */
enum {
    BT_REFUSAL,       /* 0 when done */
    BT_PLACE,         /* where: see the refusal numbers */
    BT_INFLOW,        /* total inflow, in thousandths of a cubic foot */
    BT_RELEASED,      /* total released, in thousandths of a cubic foot */
    BT_STORAGE,       /* storage after the last row, in thousandths of a cubic foot */
    BT_PEAK,          /* greatest outflow, in thousandths of a cubic foot a second */
    BT_ROW,           /* the first row that has it */
    BT_STAGE,         /* greatest stage of a row, in thousandths of a foot */
    BT_SURFACES,      /* area of cover codes 1 to 8, in hundredths of an acre */
    BT_DISTRICTS,     /* of 9 and 10 */
    BT_LOTS,          /* of 11 to 16 */
    BT_RURAL,         /* of 17 to 22 */
    BT_ANSWER_LENGTH,

    BT_CHANGED = BT_ANSWER_LENGTH, /* edit: the first row whose inflow volume differs, 0 if none */
    BT_EDIT_ANSWER_LENGTH
};

/* Places in the changes of an edit: new less old, with its sign. Refused: zeros. */
enum {
    BT_PEAK_CHANGE,     /* of the greatest outflow */
    BT_RELEASED_CHANGE, /* of the total released */
    BT_CHANGES_LENGTH
};

/* Places in the answer of a mark: BT_REFUSAL, BT_PLACE, and the kind, which is 0 when refused. */
enum {
    BT_KIND = 2,
    BT_MARK_ANSWER_LENGTH
};

/* Kinds of marks. */
enum {
    BT_KIND_NOTHING, /* the row's outflow is 0 */
    BT_KIND_OUTFLOW, /* it is above 0 */
    BT_KIND_PEAK     /* it is above 0, and the row is the first that has the greatest outflow */
};

/* Places in the values of a mark. Each double is a whole number, exactly. Refused: zeros. */
enum {
    BT_MARK_OUTFLOW,  /* outflow and peak: the row's outflow, in thousandths of a cubic foot a second; else 0 */
    BT_MARK_STAGE,    /* peak: the row's stage, in thousandths of a foot; else 0 */
    BT_POINT_ROW,     /* the row's number, first + row - 1 */
    BT_POINT_SECONDS, /* seconds from the start to the row's end, row times step */
    BT_POINT_OUTFLOW, /* the row's outflow */
    BT_VALUES_LENGTH
};

/* The answer of inflow rows alone: BT_REFUSAL and BT_PLACE, two zeros when done. */
enum {
    BT_INFLOW_ANSWER_LENGTH = BT_PLACE + 1
};

/* Refusal numbers, and after the semicolon what the place beside each of them is. Subareas, rows and pond rows count
   from 1, rain entries from 0. Each number is given for the first place that has the fault. They are asked in the order
   1, 2, 20, 3, 19, 4, 5 and on; docs/SCOPE.md has it for each call. */
enum {
    BT_REFUSED_ROWS = 1,          /* the row lists differ in length, or are not 1 to 2,000 rows long; 0 */
    BT_REFUSED_STEP = 2,          /* the step is odd, or not 60 to 3,600; 0 */
    BT_REFUSED_RAIN = 3,          /* not 2 to m + 1 entries; 0. Entry 0 not 0, or one above 30,000 or falling; entry */
    BT_REFUSED_ROW_NUMBERS = 4,   /* the last row number is above BT_LAST_ROW_NUMBER; 0 */
    BT_REFUSED_SUBAREAS = 5,      /* not 1 to 16 whole records; 0 */
    BT_REFUSED_PATCHES = 6,       /* a patch count, or a patch within it, out of limits; subarea */
    BT_REFUSED_SEGMENTS = 7,      /* a segment count, or a segment within it, out of limits, or a sheet segment that
                                     does not stand first or is longer than the sheet rule lets it be; subarea */
    BT_REFUSED_AREA = 8,          /* all areas together above 200,000; 0 */
    BT_REFUSED_TIME = 9,          /* the time of concentration is above 36,000; subarea */
    BT_REFUSED_LONG_STEP = 10,    /* the step is above the time to peak; subarea */
    BT_REFUSED_SHORT_STEP = 11,   /* five times to peak are above 512 steps; subarea */
    BT_REFUSED_POND = 12,         /* not 2 to 64 whole rows; 0. A row out of limits or out of order; pond row */
    BT_REFUSED_POND_STORAGE = 13, /* storage less than half the step times discharge; pond row */
    BT_REFUSED_FULL = 14,         /* more water than the pond's last row holds; row */
    BT_REFUSED_EDIT = 15,         /* edit: the place is not in the list of subareas; 0 */
    BT_REFUSED_INFLOW = 16,       /* edit: an inflow row below the old record's part, or above 217,800,000,000; row */
    BT_REFUSED_STANDING = 17,     /* edit, mark: outflow above the last discharge, storage below half the step times
                                     outflow, or the two together above what the pond's last row holds; row */
    BT_REFUSED_ASKED = 18,        /* mark: the row asked is not 1 to m; 0 */
    BT_REFUSED_RISE = 19,         /* rain rises by more than BT_MOST_RISE from one entry to the next; the later entry */
    BT_REFUSED_RULE = 20          /* the sheet rule is neither BT_RULE_TR55 nor BT_RULE_WINTR55; 0 */
};

/* ---- Calls. Each gives the refusal number, 0 when done, and writes its answers whole either way. */

/*
 * Works a study. A done study fills inflow (thousandths of a cubic foot), outflow (thousandths of a cubic foot a
 * second) and storage (thousandths of a cubic foot), a number for each row; a refused one leaves them as they were.
 *
 * step: seconds, even, 60 to 3600. first: the number of the first row. rule: BT_RULE_TR55 or BT_RULE_WINTR55, also
 * where no subarea has a sheet segment. rain: cumulative, thousandths of an inch.
 * A length of subareas that is no multiple of BT_WIDTH is refusal 5 at 0; of pond, of BT_POND_WIDTH: 12 at 0.
 */
uint64_t bt_study(uint64_t step, uint64_t first, uint64_t rule, const uint64_t *rain, size_t rain_len,
                  const uint64_t *subareas, size_t subareas_len, const uint64_t *pond, size_t pond_len,
                  uint64_t *inflow, size_t inflow_len, uint64_t *outflow, size_t outflow_len, uint64_t *storage,
                  size_t storage_len, uint64_t answer[BT_ANSWER_LENGTH]);

/* The same study of a list of records: no record, or more than BT_MOST_SUBAREAS, is refusal 5 at 0. */
uint64_t bt_study_records(uint64_t step, uint64_t first, uint64_t rule, const uint64_t *rain, size_t rain_len,
                          const bt_subarea *list, size_t list_len, const uint64_t *pond, size_t pond_len,
                          uint64_t *inflow, size_t inflow_len, uint64_t *outflow, size_t outflow_len, uint64_t *storage,
                          size_t storage_len, uint64_t answer[BT_ANSWER_LENGTH]);

/*
 * Alters one subarea of a study that stands in the row lists: the old record's parts are taken from the inflow rows,
 * the new one's added, and the pond routed again from the first changed row. Rows before it are not written; where no
 * row is changed, none is. A refused edit leaves the three lists as they were. On rows that a study or an edit left,
 * with the list and by the rule they were worked from, it refuses as a new study of the altered list would, or leaves
 * its very rows.
 *
 * As for bt_study, and: subareas, the list as it stands, which is only read: after a done edit the caller puts the new
 * record into it. place: which of them, from 1. fresh: the new record.
 */
uint64_t bt_edit(uint64_t step, uint64_t first, uint64_t rule, const uint64_t *rain, size_t rain_len,
                 const uint64_t *subareas, size_t subareas_len, const uint64_t *pond, size_t pond_len, uint64_t *inflow,
                 size_t inflow_len, uint64_t *outflow, size_t outflow_len, uint64_t *storage, size_t storage_len,
                 uint64_t place, const uint64_t fresh[BT_WIDTH], uint64_t answer[BT_EDIT_ANSWER_LENGTH],
                 int64_t changes[BT_CHANGES_LENGTH]);

/* The same edit of a list of records. The new record is lent as its numbers still: of a bt_subarea, its address cast to
   const uint64_t *. */
uint64_t bt_edit_records(uint64_t step, uint64_t first, uint64_t rule, const uint64_t *rain, size_t rain_len,
                         const bt_subarea *list, size_t list_len, const uint64_t *pond, size_t pond_len,
                         uint64_t *inflow, size_t inflow_len, uint64_t *outflow, size_t outflow_len, uint64_t *storage,
                         size_t storage_len, uint64_t place, const uint64_t fresh[BT_WIDTH],
                         uint64_t answer[BT_EDIT_ANSWER_LENGTH], int64_t changes[BT_CHANGES_LENGTH]);

/*
 * The chart mark of one row, from 1, of the rows that stand in the lists. All rows are looked at for 17, whichever is
 * asked; of inflow only the length is. Nothing but the answer and the values is written.
 */
uint64_t bt_mark(uint64_t step, uint64_t first, const uint64_t *pond, size_t pond_len, const uint64_t *inflow,
                 size_t inflow_len, const uint64_t *outflow, size_t outflow_len, const uint64_t *storage,
                 size_t storage_len, uint64_t row, uint64_t answer[BT_MARK_ANSWER_LENGTH],
                 double values[BT_VALUES_LENGTH]);

/*
 * The inflow rows alone, as a study works them, without a pond. They are refused as a study is by 1 to 11, 19 and 20,
 * and by no other number: where a study is refused by 12, 13 or 14 they are done. A done call fills inflow with the
 * rows that a study leaves there; a refused one leaves it as it was. Of outflow and storage only the lengths are read,
 * and neither is written.
 *
 * The parameters are those of bt_study.
 */
uint64_t bt_inflow(uint64_t step, uint64_t first, uint64_t rule, const uint64_t *rain, size_t rain_len,
                   const uint64_t *subareas, size_t subareas_len, uint64_t *inflow, size_t inflow_len,
                   const uint64_t *outflow, size_t outflow_len, const uint64_t *storage, size_t storage_len,
                   uint64_t answer[BT_INFLOW_ANSWER_LENGTH]);

/* The same by a second engine, in the textbook's way: the runoff added in each rain step, times each weight, is laid
   into the rows. It is there to be held beside the first. */
uint64_t bt_textbook(uint64_t step, uint64_t first, uint64_t rule, const uint64_t *rain, size_t rain_len,
                     const uint64_t *subareas, size_t subareas_len, uint64_t *inflow, size_t inflow_len,
                     const uint64_t *outflow, size_t outflow_len, const uint64_t *storage, size_t storage_len,
                     uint64_t answer[BT_INFLOW_ANSWER_LENGTH]);

#ifdef __cplusplus
}
#endif

#endif
