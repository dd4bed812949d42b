/* What HarfBuzz has not: a list of calls that edit the glyphs of a buffer, made in order over the proved buffer of Vukhaso. Each call
 * is answered, and one whose condition does not hold changes nothing. */
#ifndef HB_VUKHASO_H
#define HB_VUKHASO_H

#include <hb.h>
#include <stddef.h>

#ifdef __cplusplus
extern "C" {
#endif

typedef enum {
    VUKHASO_DONE = 0,    /* It was made. */
    VUKHASO_REFUSED = 1, /* A side would have grown longer than it may be, or an earlier call was refused. */
    VUKHASO_OUTSIDE = 2, /* Its condition does not hold. Nothing changed. */
    VUKHASO_MEMORY = 3,  /* There was no memory. Nothing changed. */
    VUKHASO_INVALID = 4  /* It is no call, or has no ids. */
} vukhaso_answer_t;

/* A place that is not said, in the calls that set glyph flags: the start, or the end of the text. */
#define VUKHASO_NOT_SAID ((size_t) -1)

typedef enum {
    VUKHASO_CLEAR_OUTPUT = 0,
    VUKHASO_NEXT_GLYPHS = 1, /* first: how many */
    VUKHASO_SKIP_GLYPH = 2,
    VUKHASO_REPLACE_GLYPHS = 3, /* first glyphs by second ids */
    VUKHASO_OUTPUT_GLYPH = 4,   /* first: its number */
    VUKHASO_COPY_GLYPH = 5,
    VUKHASO_MOVE_TO = 6, /* first: a place of both sides as one list */
    VUKHASO_SYNC = 7,
    VUKHASO_DELETE_GLYPH = 8,
    /* Of these first and second are the ends of a range. */
    VUKHASO_MERGE_CLUSTERS = 9,
    VUKHASO_MERGE_OUT_CLUSTERS = 10,
    VUKHASO_MERGE_GRAPHEME_CLUSTERS = 11,
    VUKHASO_UNSAFE_TO_BREAK = 12,
    VUKHASO_UNSAFE_TO_BREAK_FROM_OUTBUFFER = 13,
    VUKHASO_SAFE_TO_INSERT_TATWEEL = 14,
    VUKHASO_UNSAFE_TO_CONCAT = 15,
    VUKHASO_UNSAFE_TO_CONCAT_FROM_OUTBUFFER = 16
} vukhaso_kind_t;

typedef struct {
    vukhaso_kind_t kind;
    size_t first;
    size_t second;
    const hb_codepoint_t *ids; /* those of VUKHASO_REPLACE_GLYPHS */
} vukhaso_call_t;

/* Glyphs that are edited. */
typedef struct vukhaso_edit_t vukhaso_edit_t;

/* Takes a copy of the items of a buffer, with its flags and its cluster level. NULL where there is no memory. */
vukhaso_edit_t *vukhaso_edit_create(const hb_buffer_t *buffer);

void vukhaso_edit_destroy(vukhaso_edit_t *edit);

/* Makes room for so many glyphs: no call whose sides stay within it asks for memory then. */
vukhaso_answer_t vukhaso_edit_ensure(vukhaso_edit_t *edit, size_t size);

/* Makes calls in order, and writes an answer for each. It ends early where memory runs out, which is its answer. */
vukhaso_answer_t vukhaso_edit_replay(vukhaso_edit_t *edit, const vukhaso_call_t *calls, size_t count, vukhaso_answer_t *answers);

/* Puts the glyphs in the place of the items of a buffer, without positions. VUKHASO_OUTSIDE while an output is open. */
vukhaso_answer_t vukhaso_edit_put(const vukhaso_edit_t *edit, hb_buffer_t *buffer);

#ifdef __cplusplus
}
#endif

#endif
