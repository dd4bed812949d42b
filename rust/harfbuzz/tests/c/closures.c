/* The glyphs that texts and lookups may become, in the fonts of this project, with the answers that HarfBuzz gives: this program passes
 * when it is linked to HarfBuzz itself. The argument is the folder of the fonts. */
#include "checks.h"
#include <hb-ot.h>

/* How many numbers a set has, and a sum that tells which. */
typedef struct {
    unsigned count, sum;
} seen_t;

typedef struct {
    const char *font, *text;
    /* The glyphs of the text, the lookups of its plan in GSUB and GPOS, and what each lookup alone makes of some of the font's glyphs. */
    seen_t glyphs, substitutions, positions, alone;
} row_t;

static const row_t ROWS[] = {
    {"letters.ttf", "office fi AV", {11, 3542586967}, {3, 7464}, {4, 97350}, {1185, 157639581}},
    {"arabic.ttf", "بِسم", {13, 4193585411}, {13, 2962965702}, {4, 1026}, {2679, 1339673407}},
    {"devanagari.ttf", "क्षत्रिय र्क कि", {21, 2508734143}, {36, 215114771}, {6, 986115}, {3175, 323931524}},
    {"bengali.ttf", "বাংলা ক্ষ", {12, 1012292058}, {36, 215114771}, {6, 986115}, {2650, 3205373820}},
    {"gujarati.ttf", "ક્ષ", {5, 21967901}, {36, 215114771}, {6, 986115}, {2602, 1845692240}},
    {"gurmukhi.ttf", "ਪੰਜਾਬੀ", {7, 1839207699}, {35, 6939186}, {6, 986115}, {2317, 368789354}},
    {"kannada.ttf", "ಕ್ಷ", {5, 23907165}, {35, 6939186}, {6, 986115}, {2475, 971692022}},
    {"khmer.ttf", "ភាសាខ្មែរ", {11, 1854517922}, {23, 3645876556}, {6, 986115}, {1406, 1945691067}},
    {"malayalam.ttf", "ക്ഷ", {5, 23971488}, {35, 6939186}, {6, 986115}, {2904, 455121342}},
    {"myanmar.ttf", "မြန်မာ", {6, 744956889}, {23, 3645875563}, {6, 986115}, {1743, 215013064}},
    {"oriya.ttf", "କ୍ଷ", {5, 20057431}, {35, 6939186}, {6, 986115}, {2491, 450043686}},
    {"sinhala.ttf", "ශ්‍රී", {7, 86437549}, {25, 3288070540}, {6, 986115}, {1189, 3098065852}},
    {"tamil.ttf", "கொ", {2, 639}, {28, 3885329422}, {6, 986115}, {1619, 3435204813}},
    {"telugu.ttf", "క్ష", {5, 23938239}, {35, 6939186}, {6, 986115}, {2618, 1814129894}},
    {"tibetan.ttf", "བོད", {5, 81306526}, {41, 3956279956}, {6, 986115}, {4034, 2356102216}},
    {"hebrew.ttf", "שָׁלוֹם (a)", {8, 817635527}, {1, 0}, {3, 33}, {79, 1786129280}},
    {"formats.ttf", "abc", {3, 2019}, {1, 3}, {3, 2020}, {279, 3427864840}},
    {"variable.ttf", "AVfi", {1, 7}, {2, 3}, {2, 1}, {20, 1377846370}},
    {"syriac.ttf", "ܫܠܡܐ", {24, 2071470419}, {11, 820959397}, {4, 1026}, {1038, 258807912}},
    {"nko.ttf", "ߒߞߏ", {15, 3122904136}, {7, 30569571}, {4, 1026}, {568, 3456624845}},
    {"mongolian.ttf", "ᠮᠣᠩᠭᠣᠯ", {25, 1115403305}, {11, 820959397}, {4, 1026}, {1603, 4086332559}},
    {"javanese.ttf", "ꦗꦮ", {3, 28592}, {41, 3956279956}, {6, 986115}, {2434, 3257002641}},
    {"balinese.ttf", "ᬩᬮᬶ", {5, 44063289}, {41, 3956279956}, {6, 986115}, {2962, 564961343}},
    {"breaks-lookups.ttf", "abc", {3, 2019}, {1, 8}, {0, 0}, {245, 3475389188}},
};

static seen_t seen(hb_set_t *set) {
    seen_t seen = {0, 0};
    for (hb_codepoint_t number = HB_SET_VALUE_INVALID; hb_set_next(set, &number); seen.count++)
        seen.sum = seen.sum * 31 + number;
    hb_set_destroy(set);
    return seen;
}

static int same(const char *font, const char *what, seen_t found, seen_t expected) {
    int is_same = found.count == expected.count && found.sum == expected.sum;
    check(is_same, what);
    if (!is_same) printf("  %s: {%u, %u}\n", font, found.count, found.sum);
    return is_same;
}

static seen_t glyphs_of(hb_font_t *font, hb_buffer_t *buffer) {
    hb_set_t *set = hb_set_create();
    hb_ot_shape_glyphs_closure(font, buffer, NULL, 0, set);
    return seen(set);
}

static seen_t lookups_of(hb_face_t *face, hb_buffer_t *buffer, hb_tag_t table) {
    hb_segment_properties_t properties;
    hb_buffer_get_segment_properties(buffer, &properties);
    hb_shape_plan_t *plan = hb_shape_plan_create(face, &properties, NULL, 0, NULL);
    hb_set_t *set = hb_set_create();
    hb_ot_shape_plan_collect_lookups(plan, table, set);
    hb_shape_plan_destroy(plan);
    return seen(set);
}

/* Each lookup closes every second glyph, or every fifth. */
static seen_t lookups_alone(hb_face_t *face) {
    seen_t all = {0, 0};
    unsigned count = hb_ot_layout_table_get_lookup_count(face, HB_TAG('G', 'S', 'U', 'B'));
    for (unsigned lookup = 0; lookup < count; lookup++) {
        hb_set_t *set = hb_set_create();
        for (unsigned glyph = lookup % 2; glyph < hb_face_get_glyph_count(face); glyph += lookup % 3 ? 2 : 5) hb_set_add(set, glyph);
        hb_ot_layout_lookup_substitute_closure(face, lookup, set);
        seen_t one = seen(set);
        all.count += one.count;
        all.sum = all.sum * 31 + one.sum;
    }
    return all;
}

static void test_row(const char *folder, const row_t *row) {
    hb_face_t *face = face_of(folder, row->font);
    hb_font_t *font = hb_font_create(face);
    hb_buffer_t *buffer = hb_buffer_create();
    hb_buffer_add_utf8(buffer, row->text, -1, 0, -1);
    hb_buffer_guess_segment_properties(buffer);
    same(row->font, "the glyphs of a text", glyphs_of(font, buffer), row->glyphs);
    same(row->font, "the lookups of substitution of a plan", lookups_of(face, buffer, HB_TAG('G', 'S', 'U', 'B')), row->substitutions);
    same(row->font, "the lookups of positioning of a plan", lookups_of(face, buffer, HB_TAG('G', 'P', 'O', 'S')), row->positions);
    same(row->font, "what each lookup makes", lookups_alone(face), row->alone);
    hb_buffer_destroy(buffer);
    hb_font_destroy(font);
    hb_face_destroy(face);
}

int main(int count, char **words) {
    if (count != 2) return 2;
    for (unsigned row = 0; row < sizeof ROWS / sizeof *ROWS; row++) test_row(words[1], &ROWS[row]);
    return counted();
}
