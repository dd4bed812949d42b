/* Calls of HarfBuzz's interface, with the answers that HarfBuzz gives: this program passes when it is linked to HarfBuzz itself. The
 * argument is the folder of this project's fonts. */
#include "checks.h"
#include <pthread.h>

static hb_font_t *font_of(const char *folder, const char *name) {
    hb_face_t *face = face_of(folder, name);
    hb_font_t *font = hb_font_create(face);
    hb_face_destroy(face);
    return font;
}

static void shaped(hb_font_t *font, const char *text, hb_direction_t direction, const char *feature, char *out, unsigned size) {
    hb_buffer_t *buffer = hb_buffer_create();
    hb_buffer_add_utf8(buffer, text, -1, 0, -1);
    if (direction) hb_buffer_set_direction(buffer, direction);
    hb_buffer_guess_segment_properties(buffer);
    hb_feature_t features[1];
    unsigned count = feature && hb_feature_from_string(feature, -1, features);
    hb_shape(font, buffer, features, count);
    hb_buffer_serialize(buffer, 0, -1, out, size, NULL, font, HB_BUFFER_SERIALIZE_FORMAT_TEXT, 0);
    hb_buffer_destroy(buffer);
}

static void test_shape(const char *folder) {
    char text[1000];
    hb_font_t *font = font_of(folder, "letters.ttf");
    shaped(font, "office fi AV", 0, NULL, text, sizeof text);
    check_text(text, "[o=0+550|f_f_i=1+1300|c=4+430|e=5+450|space=6+250|f_i=7+900|space=9+250|A=10+530|V=11+820]", "a ligature and kerning");
    shaped(font, "office fi AV", 0, "-liga", text, sizeof text);
    check_text(text, "[o=0+550|f=1+460|f=2+460|i=3+490|c=4+430|e=5+450|space=6+250|f=7+460|i=8+490|space=9+250|A=10+530|V=11+820]", "a feature that is off");
    shaped(font, "office fi AV", HB_DIRECTION_RTL, NULL, text, sizeof text);
    check_text(text, "[V=11+740|A=10+610|space=9+250|i=8+490|f=7+460|space=6+250|e=5+450|c=4+430|i=3+490|f_f=1+900|o=0+550]", "against the script");
    hb_font_set_scale(font, 500, 500);
    shaped(font, "office fi AV", 0, NULL, text, sizeof text);
    check_text(text, "[o=0+275|f_f_i=1+650|c=4+215|e=5+225|space=6+125|f_i=7+450|space=9+125|A=10+265|V=11+410]", "at half the size");
    hb_font_destroy(font);
    font = font_of(folder, "arabic.ttf");
    shaped(font, "بِسم", 0, NULL, text, sizeof text);
    check_text(text, "[uni0645=6+722|0633.medi=4+1565|0650.low=0+1763|0628.init=0+1640]", "joining");
    hb_font_destroy(font);
}

static hb_position_t advance(hb_font_t *font, void *data, hb_codepoint_t glyph, void *user) {
    (void) font, (void) glyph, (void) user;
    return *(int *) data;
}

static hb_bool_t glyph(hb_font_t *font, void *data, hb_codepoint_t character, hb_codepoint_t *found, void *user) {
    (void) font, (void) data, (void) user;
    *found = character == 'T' ? 7 : 0;
    return *found != 0;
}

static hb_bool_t any_form(
    hb_font_t *font, void *data, hb_codepoint_t character, hb_codepoint_t selector, hb_codepoint_t *found, void *user) {
    (void) font, (void) data, (void) user;
    *found = selector ? 9 : 8;
    return character == 'T';
}

static void set_flag(void *flag) { *(int *) flag = 1; }

/* One function for characters, alone and before a variation selector. */
static void test_glyph_function(const char *folder) {
    int released = 0;
    hb_codepoint_t found = 0;
    hb_font_t *font = font_of(folder, "letters.ttf");
    hb_font_funcs_t *functions = hb_font_funcs_create();
    hb_font_funcs_set_glyph_func(functions, any_form, &released, set_flag);
    hb_font_set_funcs(font, functions, NULL, NULL);
    check(hb_font_get_nominal_glyph(font, 'T', &found) && found == 8, "a glyph of the only function");
    check(hb_font_get_variation_glyph(font, 'T', 0xFE00, &found) && found == 9, "a glyph of a variation, of the same");
    check(!hb_font_get_nominal_glyph(font, 'U', &found), "no glyph of the only function");
    hb_font_funcs_set_nominal_glyph_func(functions, glyph, NULL, NULL);
    check(!released, "data that a function still has is kept");
    hb_font_funcs_destroy(functions);
    hb_font_destroy(font);
    check(released, "data that no function has is given back");
}

static void test_functions(const char *folder) {
    char text[1000];
    int width = 77, released = 0;
    hb_font_t *font = font_of(folder, "letters.ttf");
    hb_font_t *sub_font = hb_font_create_sub_font(font);
    hb_font_destroy(font);
    hb_font_funcs_t *functions = hb_font_funcs_create();
    hb_font_funcs_set_glyph_h_advance_func(functions, advance, NULL, NULL);
    hb_font_set_funcs(sub_font, functions, &width, NULL);
    shaped(sub_font, "fio", 0, NULL, text, sizeof text);
    check_text(text, "[f_i=0+77|o=2+77]", "advances of the caller's");
    hb_font_funcs_destroy(functions);
    functions = hb_font_funcs_create();
    hb_font_funcs_set_nominal_glyph_func(functions, glyph, &released, set_flag);
    hb_font_set_funcs(sub_font, functions, NULL, NULL);
    hb_font_funcs_destroy(functions);
    hb_codepoint_t found = 0;
    check(hb_font_get_nominal_glyph(sub_font, 'T', &found) && found == 7, "a glyph of the caller's");
    check(!hb_font_get_nominal_glyph(sub_font, 'U', &found), "no glyph of the caller's");
    shaped(sub_font, "T", 0, NULL, text, sizeof text);
    char name[64];
    hb_font_glyph_to_string(sub_font, 7, name, sizeof name);
    check(text[0] == '[' && !strncmp(text + 1, name, strlen(name)), "a text by the caller's glyphs");
    check(!released, "functions in use are kept");
    hb_font_destroy(sub_font);
    check(released, "the functions' data is given back");
}

/* Functions that answer what they like, otherwise each time: any number, and any glyph of more than 16 bits too. */
static unsigned any_number(void *state) { return *(unsigned *) state = *(unsigned *) state * 1664525 + 1013904223; }

static hb_bool_t any_glyph(hb_font_t *font, void *state, hb_codepoint_t character, hb_codepoint_t *glyph, void *data) {
    (void) font, (void) character, (void) data;
    *glyph = any_number(state) >> 15;
    return *glyph & 1;
}

static hb_position_t any_advance(hb_font_t *font, void *state, hb_codepoint_t glyph, void *data) {
    (void) font, (void) glyph, (void) data;
    return (hb_position_t) any_number(state);
}

static hb_bool_t any_origin(hb_font_t *font, void *state, hb_codepoint_t glyph, hb_position_t *x, hb_position_t *y, void *data) {
    (void) font, (void) glyph, (void) data;
    *x = (hb_position_t) any_number(state);
    *y = (hb_position_t) any_number(state);
    return *x & 1;
}

static hb_bool_t any_extents(hb_font_t *font, void *state, hb_codepoint_t glyph, hb_glyph_extents_t *extents, void *data) {
    (void) font, (void) glyph, (void) data;
    *extents = (hb_glyph_extents_t) {(int) any_number(state), (int) any_number(state), (int) any_number(state), (int) any_number(state)};
    return extents->width & 1;
}

static void test_any_functions(const char *folder) {
    static const char *texts[] = {"a\u0301\u0327 b\u2011\u2003c", "\u0628\u0644\u0627\u064e", "\u1112\u1161\u11ab\ud55c", "\u0915\u094d\u0937\u093f"};
    unsigned state = 1;
    hb_font_t *font = font_of(folder, "letters.ttf");
    hb_font_funcs_t *functions = hb_font_funcs_create();
    hb_font_funcs_set_nominal_glyph_func(functions, any_glyph, NULL, NULL);
    hb_font_funcs_set_glyph_h_advance_func(functions, any_advance, NULL, NULL);
    hb_font_funcs_set_glyph_v_advance_func(functions, any_advance, NULL, NULL);
    hb_font_funcs_set_glyph_v_origin_func(functions, any_origin, NULL, NULL);
    hb_font_funcs_set_glyph_extents_func(functions, any_extents, NULL, NULL);
    hb_font_set_funcs(font, functions, &state, NULL);
    hb_font_funcs_destroy(functions);
    int all = 1;
    for (unsigned i = 0; i < 4 * sizeof texts / sizeof *texts; i++) {
        hb_buffer_t *buffer = hb_buffer_create();
        hb_buffer_add_utf8(buffer, texts[i / 4], -1, 0, -1);
        hb_buffer_set_direction(buffer, HB_DIRECTION_LTR + i % 4);
        hb_buffer_guess_segment_properties(buffer);
        hb_shape(font, buffer, NULL, 0);
        all &= hb_buffer_get_content_type(buffer) == HB_BUFFER_CONTENT_TYPE_GLYPHS;
        hb_buffer_destroy(buffer);
    }
    check(all, "texts by functions that answer what they like");
    hb_font_destroy(font);
}

static hb_blob_t *table(hb_face_t *face, hb_tag_t tag, void *source) {
    (void) face;
    return hb_face_reference_table(source, tag);
}

static void test_tables(const char *folder) {
    char text[1000];
    hb_face_t *source = face_of(folder, "letters.ttf");
    hb_face_t *face = hb_face_create_for_tables(table, source, NULL);
    check(hb_face_get_upem(face) == hb_face_get_upem(source), "units of single tables");
    check(hb_face_get_glyph_count(face) == hb_face_get_glyph_count(source), "glyphs of single tables");
    hb_font_t *font = hb_font_create(face);
    hb_face_destroy(face);
    shaped(font, "fi", 0, NULL, text, sizeof text);
    check_text(text, "[f_i=0+900]", "a font of single tables");
    hb_codepoint_t found = 0;
    check(hb_font_glyph_from_string(font, "f_i", -1, &found), "a glyph of a name");
    hb_font_destroy(font);
    hb_set_t *set = hb_set_create();
    hb_face_collect_unicodes(source, set);
    check(hb_set_has(set, 'f') && !hb_set_has(set, 0x3B1), "the characters of a face");
    hb_set_destroy(set);
    hb_face_destroy(source);
}

static void test_buffer(void) {
    static const uint16_t utf16[] = {'a', 0xD83D, 0xDE00, 0xD800, 'b'};
    char text[1000];
    const char *end;
    hb_buffer_t *buffer = hb_buffer_create(), *other = hb_buffer_create();
    hb_buffer_add_utf16(buffer, utf16, 5, 0, -1);
    hb_buffer_serialize(buffer, 0, -1, text, sizeof text, NULL, NULL, HB_BUFFER_SERIALIZE_FORMAT_TEXT, 0);
    check_text(text, "<U+0061=0|U+1F600=1|U+FFFD=3|U+0062=4>", "characters of UTF-16");
    hb_buffer_reset(buffer);
    hb_buffer_add_utf8(buffer, "x\xC3\xA9\xFFy", -1, 1, 3);
    hb_buffer_serialize(buffer, 0, -1, text, sizeof text, NULL, NULL, HB_BUFFER_SERIALIZE_FORMAT_JSON, 0);
    check_text(text, "[{\"u\":233,\"cl\":1},{\"u\":65533,\"cl\":3}]", "characters of UTF-8");
    hb_buffer_reset(buffer);
    check(!hb_buffer_deserialize_glyphs(buffer, "[gid1=0+10|gid2=0@3,-4+5]", -1, &end, NULL, HB_BUFFER_SERIALIZE_FORMAT_TEXT) || !*end, "glyphs of a text");
    hb_buffer_serialize(buffer, 0, -1, text, sizeof text, NULL, NULL, HB_BUFFER_SERIALIZE_FORMAT_TEXT, 0);
    check_text(text, "[gid1=0+10|gid2=0@3,-4+5]", "glyphs as they were written");
    hb_buffer_deserialize_glyphs(other, "[gid1=0+10|gid2=0@3,-4+7]", -1, &end, NULL, HB_BUFFER_SERIALIZE_FORMAT_TEXT);
    check(hb_buffer_diff(buffer, other, (hb_codepoint_t) -1, 0) == 128, "positions that differ");
    check(hb_buffer_diff(buffer, other, (hb_codepoint_t) -1, 2) == 0, "positions that differ by a little");
    hb_buffer_destroy(other);
    hb_buffer_destroy(buffer);
}

static void test_collections(void) {
    hb_set_t *set = hb_set_create();
    hb_set_add_range(set, 5, 9);
    hb_set_del(set, 7);
    hb_codepoint_t next = 6;
    check(hb_set_get_population(set) == 4 && hb_set_next(set, &next) && next == 8, "a set");
    hb_set_destroy(set);
    hb_map_t *map = hb_map_create();
    hb_map_set(map, 3, 4);
    check(hb_map_get(map, 3) == 4 && hb_map_get(map, 4) == (hb_codepoint_t) -1, "a map");
    hb_map_destroy(map);
}

static void test_blob(void) {
    static hb_user_data_key_t key;
    int released = 0, hung = 0;
    hb_blob_t *blob = hb_blob_create("0123456789", 10, HB_MEMORY_MODE_READONLY, &released, set_flag);
    hb_blob_t *part = hb_blob_create_sub_blob(blob, 3, 100);
    hb_blob_set_user_data(part, &key, &hung, set_flag, 1);
    hb_blob_destroy(blob);
    check(!released && hb_blob_get_length(part) == 7 && *hb_blob_get_data(part, NULL) == '3', "a part of a blob");
    check(hb_blob_get_user_data(part, &key) == &hung, "data on an object");
    hb_blob_destroy(part);
    check(released && hung, "data is given back");
}

static void *shape_often(void *font) {
    char text[1000];
    for (int time = 0; time < 100; time++) {
        shaped(font, "office fi AV", 0, NULL, text, sizeof text);
        if (strncmp(text, "[o=0+550|f_f_i=1+1300|", 22)) return font;
    }
    return NULL;
}

static void test_threads(const char *folder) {
    pthread_t threads[4];
    void *wrong;
    hb_font_t *font = font_of(folder, "letters.ttf");
    for (int number = 0; number < 4; number++) pthread_create(&threads[number], NULL, shape_often, font);
    for (int number = 0; number < 4; number++) {
        pthread_join(threads[number], &wrong);
        check(!wrong, "threads that share a font");
    }
    hb_font_destroy(font);
}

int main(int count, char **words) {
    if (count != 2) return 2;
    test_shape(words[1]);
    test_functions(words[1]);
    test_glyph_function(words[1]);
    test_any_functions(words[1]);
    test_tables(words[1]);
    test_buffer();
    test_collections();
    test_blob();
    test_threads(words[1]);
    return counted();
}
