/* Anchors that are points of outlines (format 2), of which a font function of the caller's says where they are: at a size in pixels that is
 * asked. The answers are those that HarfBuzz gives: this program passes when it is linked to HarfBuzz itself. The argument is the folder
 * of this project's fonts. */
#include "checks.h"

/* Where the glyphs of a, b, c and d stand in the table. */
enum { A = 0xA000, B, C, D };

/* A table GPOS. Its first lookup joins a and b: the exit of a is the point 3, or else 400 units across and 50 up, and the entry of b the
 * point 5, or else 30 and 20. The second attaches d to c: the point 7, or else 10 and 20, to the point 9, or else 300 and 500. */
static const uint16_t GPOS[] = {
    1, 0, 10, 32, 58,
    1, 0x4446, 0x4C54, 8, 4, 0, 0, 0xFFFF, 2, 0, 1,
    2, 0x6375, 0x7273, 14, 0x6D61, 0x726B, 20, 0, 1, 0, 0, 1, 1,
    2, 6, 52,
    3, 0, 1, 8, 1, 30, 2, 0, 14, 22, 0, 2, 400, 50, 3, 2, 30, 20, 5, 1, 2, A, B,
    4, 0, 1, 8, 1, 12, 18, 1, 24, 38, 1, 1, D, 1, 1, C, 1, 0, 6, 2, 10, 20, 7, 1, 4, 2, 300, 500, 9,
};

static uint8_t gpos[sizeof GPOS];

/* The table with the glyphs of a font, as bytes of a file; whether the font has them in order. */
static int fill(hb_face_t *face) {
    hb_codepoint_t glyphs[4] = {0};
    hb_font_t *font = hb_font_create(face);
    for (unsigned i = 0; i < 4; i++) hb_font_get_nominal_glyph(font, 'a' + i, &glyphs[i]);
    hb_font_destroy(font);
    for (unsigned i = 0; i < sizeof GPOS / sizeof *GPOS; i++) {
        unsigned word = GPOS[i] >= A && GPOS[i] <= D ? glyphs[GPOS[i] - A] : GPOS[i];
        gpos[2 * i] = (uint8_t) (word >> 8);
        gpos[2 * i + 1] = (uint8_t) word;
    }
    return glyphs[0] && glyphs[0] < glyphs[1] && glyphs[2] && glyphs[3];
}

static hb_blob_t *table(hb_face_t *face, hb_tag_t tag, void *source) {
    (void) face;
    if (tag == HB_TAG('G', 'P', 'O', 'S')) return hb_blob_create((const char *) gpos, sizeof gpos, HB_MEMORY_MODE_READONLY, NULL, NULL);
    if (tag == HB_TAG('G', 'S', 'U', 'B') || tag == HB_TAG('G', 'D', 'E', 'F')) return NULL;
    return hb_face_reference_table(source, tag);
}

static hb_bool_t point(hb_font_t *font, void *missing, hb_codepoint_t glyph, unsigned point, hb_position_t *x, hb_position_t *y, void *user) {
    (void) font, (void) user;
    *x = 100 * (hb_position_t) point + (hb_position_t) glyph;
    *y = -9 * (hb_position_t) point;
    return point != *(unsigned *) missing;
}

static void shaped(hb_font_t *font, unsigned x_ppem, unsigned y_ppem, const char *expected, const char *what) {
    char text[1000];
    hb_buffer_t *buffer = hb_buffer_create();
    hb_font_set_ppem(font, x_ppem, y_ppem);
    hb_buffer_add_utf8(buffer, "abcd", -1, 0, -1);
    hb_buffer_guess_segment_properties(buffer);
    hb_shape(font, buffer, NULL, 0);
    hb_buffer_serialize(buffer, 0, -1, text, sizeof text, NULL, font, HB_BUFFER_SERIALIZE_FORMAT_TEXT, 0);
    check_text(text, expected, what);
    hb_buffer_destroy(buffer);
}

int main(int count, char **words) {
    if (count != 2) return 2;
    unsigned missing = 0;
    hb_face_t *source = face_of(words[1], "letters.ttf");
    check(fill(source), "glyphs in order");
    hb_face_t *face = hb_face_create_for_tables(table, source, NULL);
    hb_font_t *font = hb_font_create(face), *sub_font = hb_font_create_sub_font(font);
    hb_font_funcs_t *functions = hb_font_funcs_create();
    hb_font_funcs_set_glyph_contour_point_func(functions, point, NULL, NULL);
    hb_font_set_funcs(sub_font, functions, &missing, NULL);
    hb_font_funcs_destroy(functions);
    shaped(font, 12, 12, "[a=0+400|b=1@-30,30+390|c=2+430|d=3@-140,480+440]", "a font that knows no points");
    shaped(sub_font, 0, 0, "[a=0+400|b=1@-30,30+390|c=2+430|d=3@-140,480+440]", "no pixels");
    shaped(sub_font, 12, 12, "[a=0+328|b=1@-529,18+-109|c=2+430|d=3@-231,-18+440]", "points in pixels");
    shaped(sub_font, 12, 0, "[a=0+328|b=1@-529,30+-109|c=2+430|d=3@-231,480+440]", "pixels across");
    shaped(sub_font, 0, 12, "[a=0+400|b=1@-30,18+390|c=2+430|d=3@-140,-18+440]", "pixels upwards");
    missing = 3;
    shaped(sub_font, 12, 12, "[a=0+400|b=1@-529,95+-109|c=2+430|d=3@-231,-18+440]", "an exit that is not known");
    hb_font_destroy(sub_font);
    hb_font_destroy(font);
    hb_face_destroy(face);
    hb_face_destroy(source);
    return counted();
}
