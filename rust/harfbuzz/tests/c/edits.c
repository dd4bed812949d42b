/* The calls of `hb-vukhaso.h`: a list of calls with the answer of each, and that no call on numbers of any size does harm. */
#include "checks.h"
#include <hb-vukhaso.h>

static hb_buffer_t *buffer_of(const char *text) {
    hb_buffer_t *buffer = hb_buffer_create();
    hb_buffer_add_utf8(buffer, text, -1, 0, -1);
    hb_buffer_set_content_type(buffer, HB_BUFFER_CONTENT_TYPE_GLYPHS);
    return buffer;
}

static void check_glyphs(hb_buffer_t *buffer, const char *expected, const char *what) {
    char text[256];
    hb_buffer_serialize_glyphs(buffer, 0, -1, text, sizeof text, NULL, NULL, HB_BUFFER_SERIALIZE_FORMAT_TEXT, 2 | 4 | 16);
    check_text(text, expected, what);
}

static void a_list_of_calls(void) {
    const hb_codepoint_t ids[] = {1, 2, 3};
    const vukhaso_call_t calls[] = {
        {VUKHASO_CLEAR_OUTPUT, 0, 0, NULL},
        {VUKHASO_REPLACE_GLYPHS, 1, 3, ids},
        {VUKHASO_DELETE_GLYPH, 0, 0, NULL},
        {VUKHASO_NEXT_GLYPHS, 99, 0, NULL},
        {(vukhaso_kind_t) 99, 0, 0, NULL},
        {VUKHASO_REPLACE_GLYPHS, 1, 2, NULL},
        {VUKHASO_SYNC, 0, 0, NULL},
        {VUKHASO_UNSAFE_TO_BREAK, VUKHASO_NOT_SAID, VUKHASO_NOT_SAID, NULL},
    };
    enum { COUNT = sizeof calls / sizeof calls[0] };
    const vukhaso_answer_t expected[COUNT] = {VUKHASO_DONE,    VUKHASO_DONE,    VUKHASO_DONE, VUKHASO_OUTSIDE,
                                              VUKHASO_INVALID, VUKHASO_INVALID, VUKHASO_DONE, VUKHASO_DONE};
    vukhaso_answer_t answers[COUNT];
    hb_buffer_t *buffer = buffer_of("abc");
    vukhaso_edit_t *edit = vukhaso_edit_create(buffer);
    check(vukhaso_edit_ensure(edit, 100) == VUKHASO_DONE, "room for glyphs");
    check(vukhaso_edit_replay(edit, calls, COUNT, answers) == VUKHASO_DONE, "a list of calls is made");
    check(!memcmp(answers, expected, sizeof expected), "each call has its answer");
    check(vukhaso_edit_put(edit, buffer) == VUKHASO_DONE, "the glyphs are put back");
    check_glyphs(buffer, "[1=0|2=0|3=0|99=2#3]", "glyphs of a list of calls");
    check(vukhaso_edit_ensure(edit, (size_t) -1) == VUKHASO_REFUSED, "too much room is refused");
    vukhaso_edit_destroy(edit);
    hb_buffer_destroy(buffer);
}

static void an_open_output(void) {
    const vukhaso_call_t calls[] = {{VUKHASO_CLEAR_OUTPUT, 0, 0, NULL}, {VUKHASO_SKIP_GLYPH, 0, 0, NULL}};
    vukhaso_answer_t answers[2];
    hb_buffer_t *buffer = buffer_of("ab");
    vukhaso_edit_t *edit = vukhaso_edit_create(buffer);
    check(vukhaso_edit_replay(edit, calls, 2, answers) == VUKHASO_DONE, "an output is opened");
    check(vukhaso_edit_put(edit, buffer) == VUKHASO_OUTSIDE, "an open output is not put back");
    check_glyphs(buffer, "[97=0|98=1]", "the buffer stays");
    vukhaso_edit_destroy(edit);
    vukhaso_edit_destroy(NULL);
    hb_buffer_destroy(buffer);
}

static unsigned state = 1;

static unsigned any(unsigned below) {
    state ^= state << 13;
    state ^= state >> 17;
    state ^= state << 5;
    return state % below;
}

static size_t any_place(void) {
    static const size_t odd[] = {0, 1, (size_t) -1, (size_t) -2, (size_t) -1 / 2, 4294967296u};
    return any(4) ? any(12) : odd[any(6)];
}

static void calls_of_any_numbers(void) {
    const hb_codepoint_t ids[] = {1, 65536, 0, 4294967295u, 5};
    int holds = 1;
    for (unsigned round = 0; round < 2000; round++) {
        hb_buffer_t *buffer = buffer_of("abc\xC3\xA9xyz");
        vukhaso_edit_t *edit = vukhaso_edit_create(buffer);
        for (unsigned i = 0; i < 40; i++) {
            vukhaso_call_t call = {(vukhaso_kind_t) any(18), any_place(), any(6), ids};
            vukhaso_answer_t answer;
            if (call.kind != VUKHASO_REPLACE_GLYPHS) call.second = any_place();
            holds &= vukhaso_edit_replay(edit, &call, 1, &answer) == VUKHASO_DONE && answer != VUKHASO_MEMORY;
        }
        if (vukhaso_edit_put(edit, buffer) == VUKHASO_DONE) {
            unsigned count;
            const hb_glyph_info_t *infos = hb_buffer_get_glyph_infos(buffer, &count);
            for (unsigned i = 0; i < count; i++) holds &= infos[i].cluster < 8;
        }
        vukhaso_edit_destroy(edit);
        hb_buffer_destroy(buffer);
    }
    check(holds, "calls of any numbers");
}

int main(void) {
    a_list_of_calls();
    an_open_output();
    calls_of_any_numbers();
    return counted();
}
