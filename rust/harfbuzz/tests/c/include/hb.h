/* What the programs beside this folder use of HarfBuzz's interface, written down for the gate, which has no package with the header.
 * `tools/harfbuzz/abi answers` compiles the same programs with HarfBuzz's own `hb.h`. */
#ifndef HB_H
#define HB_H

#include <stdint.h>

#define HB_TAG(a, b, c, d) ((uint32_t) (a) << 24 | (b) << 16 | (c) << 8 | (d))

typedef int hb_bool_t;
typedef uint32_t hb_codepoint_t;
typedef int32_t hb_position_t;
typedef uint32_t hb_tag_t;
typedef unsigned hb_direction_t, hb_script_t, hb_memory_mode_t, hb_buffer_serialize_format_t, hb_buffer_serialize_flags_t;
typedef void (*hb_destroy_func_t)(void *);
typedef struct { char unused; } hb_user_data_key_t;
typedef struct hb_blob_t hb_blob_t;
typedef struct hb_face_t hb_face_t;
typedef struct hb_font_t hb_font_t;
typedef struct hb_font_funcs_t hb_font_funcs_t;
typedef struct hb_buffer_t hb_buffer_t;
typedef struct hb_set_t hb_set_t;
typedef struct hb_map_t hb_map_t;
typedef struct { hb_tag_t tag; uint32_t value; unsigned start, end; } hb_feature_t;
typedef struct { hb_tag_t tag; float value; } hb_variation_t;
typedef struct { hb_codepoint_t codepoint; uint32_t mask, cluster, var1, var2; } hb_glyph_info_t;
typedef struct { hb_position_t x_advance, y_advance, x_offset, y_offset; uint32_t var; } hb_glyph_position_t;
typedef struct hb_shape_plan_t hb_shape_plan_t;
typedef struct { hb_direction_t direction; hb_script_t script; const void *language, *reserved1, *reserved2; } hb_segment_properties_t;
typedef hb_position_t (*hb_font_get_glyph_h_advance_func_t)(hb_font_t *, void *, hb_codepoint_t, void *);
typedef hb_position_t (*hb_font_get_glyph_v_advance_func_t)(hb_font_t *, void *, hb_codepoint_t, void *);
typedef hb_bool_t (*hb_font_get_glyph_v_origin_func_t)(hb_font_t *, void *, hb_codepoint_t, hb_position_t *, hb_position_t *, void *);
typedef hb_bool_t (*hb_font_get_nominal_glyph_func_t)(hb_font_t *, void *, hb_codepoint_t, hb_codepoint_t *, void *);
typedef hb_bool_t (*hb_font_get_glyph_contour_point_func_t)(
    hb_font_t *, void *, hb_codepoint_t, unsigned, hb_position_t *, hb_position_t *, void *);
typedef struct { hb_position_t x_bearing, y_bearing, width, height; } hb_glyph_extents_t;
typedef hb_bool_t (*hb_font_get_glyph_extents_func_t)(hb_font_t *, void *, hb_codepoint_t, hb_glyph_extents_t *, void *);
typedef hb_bool_t (*hb_font_get_glyph_func_t)(hb_font_t *, void *, hb_codepoint_t, hb_codepoint_t, hb_codepoint_t *, void *);
typedef hb_blob_t *(*hb_reference_table_func_t)(hb_face_t *, hb_tag_t, void *);

#define HB_DIRECTION_LTR 4
#define HB_DIRECTION_RTL 5
#define HB_MEMORY_MODE_DUPLICATE 0
#define HB_MEMORY_MODE_READONLY 1
#define HB_BUFFER_SERIALIZE_FORMAT_TEXT HB_TAG('T', 'E', 'X', 'T')
#define HB_BUFFER_CONTENT_TYPE_GLYPHS 2
#define HB_BUFFER_SERIALIZE_FORMAT_JSON HB_TAG('J', 'S', 'O', 'N')
#define HB_FEATURE_GLOBAL_END ((unsigned) -1)
#define HB_SET_VALUE_INVALID ((hb_codepoint_t) -1)

hb_blob_t *hb_blob_create(const char *, unsigned, hb_memory_mode_t, void *, hb_destroy_func_t);
hb_blob_t *hb_blob_create_from_file(const char *);
hb_blob_t *hb_blob_create_sub_blob(hb_blob_t *, unsigned, unsigned);
const char *hb_blob_get_data(hb_blob_t *, unsigned *);
unsigned hb_blob_get_length(hb_blob_t *);
hb_bool_t hb_blob_set_user_data(hb_blob_t *, hb_user_data_key_t *, void *, hb_destroy_func_t, hb_bool_t);
void *hb_blob_get_user_data(const hb_blob_t *, hb_user_data_key_t *);
void hb_blob_destroy(hb_blob_t *);
hb_face_t *hb_face_create(hb_blob_t *, unsigned);
hb_face_t *hb_face_create_for_tables(hb_reference_table_func_t, void *, hb_destroy_func_t);
hb_blob_t *hb_face_reference_table(const hb_face_t *, hb_tag_t);
unsigned hb_face_get_upem(const hb_face_t *);
unsigned hb_face_get_glyph_count(const hb_face_t *);
hb_face_t *hb_face_reference(hb_face_t *);
hb_bool_t hb_face_set_user_data(hb_face_t *, hb_user_data_key_t *, void *, hb_destroy_func_t, hb_bool_t);
void *hb_face_get_user_data(const hb_face_t *, hb_user_data_key_t *);
void hb_face_destroy(hb_face_t *);
hb_font_t *hb_font_create(hb_face_t *);
hb_font_t *hb_font_create_sub_font(hb_font_t *);
hb_font_t *hb_font_reference(hb_font_t *);
void hb_font_destroy(hb_font_t *);
void hb_font_set_scale(hb_font_t *, int, int);
void hb_font_set_ppem(hb_font_t *, unsigned, unsigned);
void hb_font_set_variations(hb_font_t *, const hb_variation_t *, unsigned);
hb_bool_t hb_font_get_nominal_glyph(hb_font_t *, hb_codepoint_t, hb_codepoint_t *);
hb_bool_t hb_font_get_variation_glyph(hb_font_t *, hb_codepoint_t, hb_codepoint_t, hb_codepoint_t *);
hb_position_t hb_font_get_glyph_h_advance(hb_font_t *, hb_codepoint_t);
void hb_font_glyph_to_string(hb_font_t *, hb_codepoint_t, char *, unsigned);
hb_bool_t hb_font_glyph_from_string(hb_font_t *, const char *, int, hb_codepoint_t *);
void hb_font_set_funcs(hb_font_t *, hb_font_funcs_t *, void *, hb_destroy_func_t);
hb_font_funcs_t *hb_font_funcs_create(void);
void hb_font_funcs_destroy(hb_font_funcs_t *);
void hb_font_funcs_set_glyph_h_advance_func(hb_font_funcs_t *, hb_font_get_glyph_h_advance_func_t, void *, hb_destroy_func_t);
void hb_font_funcs_set_glyph_v_advance_func(hb_font_funcs_t *, hb_font_get_glyph_v_advance_func_t, void *, hb_destroy_func_t);
void hb_font_funcs_set_glyph_v_origin_func(hb_font_funcs_t *, hb_font_get_glyph_v_origin_func_t, void *, hb_destroy_func_t);
void hb_font_funcs_set_nominal_glyph_func(hb_font_funcs_t *, hb_font_get_nominal_glyph_func_t, void *, hb_destroy_func_t);
void hb_font_funcs_set_glyph_contour_point_func(hb_font_funcs_t *, hb_font_get_glyph_contour_point_func_t, void *, hb_destroy_func_t);
void hb_font_funcs_set_glyph_extents_func(hb_font_funcs_t *, hb_font_get_glyph_extents_func_t, void *, hb_destroy_func_t);
void hb_font_funcs_set_glyph_func(hb_font_funcs_t *, hb_font_get_glyph_func_t, void *, hb_destroy_func_t);
hb_buffer_t *hb_buffer_create(void);
void hb_buffer_destroy(hb_buffer_t *);
void hb_buffer_reset(hb_buffer_t *);
void hb_buffer_add(hb_buffer_t *, hb_codepoint_t, unsigned);
void hb_buffer_add_utf8(hb_buffer_t *, const char *, int, unsigned, int);
void hb_buffer_add_utf16(hb_buffer_t *, const uint16_t *, int, unsigned, int);
unsigned hb_buffer_get_length(const hb_buffer_t *);
hb_glyph_info_t *hb_buffer_get_glyph_infos(hb_buffer_t *, unsigned *);
hb_glyph_position_t *hb_buffer_get_glyph_positions(hb_buffer_t *, unsigned *);
void hb_buffer_set_direction(hb_buffer_t *, hb_direction_t);
void hb_buffer_guess_segment_properties(hb_buffer_t *);
void hb_buffer_get_segment_properties(const hb_buffer_t *, hb_segment_properties_t *);
void hb_buffer_reverse_clusters(hb_buffer_t *);
unsigned hb_buffer_serialize(
    hb_buffer_t *, unsigned, unsigned, char *, unsigned, unsigned *, hb_font_t *, hb_buffer_serialize_format_t,
    hb_buffer_serialize_flags_t);
unsigned hb_buffer_serialize_glyphs(
    hb_buffer_t *, unsigned, unsigned, char *, unsigned, unsigned *, hb_font_t *, hb_buffer_serialize_format_t,
    hb_buffer_serialize_flags_t);
void hb_buffer_set_content_type(hb_buffer_t *, unsigned);
unsigned hb_buffer_get_content_type(const hb_buffer_t *);
hb_bool_t hb_buffer_deserialize_glyphs(
    hb_buffer_t *, const char *, int, const char **, hb_font_t *, hb_buffer_serialize_format_t);
unsigned hb_buffer_diff(hb_buffer_t *, hb_buffer_t *, hb_codepoint_t, unsigned);
void hb_shape(hb_font_t *, hb_buffer_t *, const hb_feature_t *, unsigned);
hb_bool_t hb_feature_from_string(const char *, int, hb_feature_t *);
hb_shape_plan_t *hb_shape_plan_create(
    hb_face_t *, const hb_segment_properties_t *, const hb_feature_t *, unsigned, const char *const *);
void hb_shape_plan_destroy(hb_shape_plan_t *);
hb_set_t *hb_set_create(void);
void hb_set_destroy(hb_set_t *);
void hb_set_add(hb_set_t *, hb_codepoint_t);
void hb_set_add_range(hb_set_t *, hb_codepoint_t, hb_codepoint_t);
void hb_set_del(hb_set_t *, hb_codepoint_t);
hb_bool_t hb_set_has(const hb_set_t *, hb_codepoint_t);
unsigned hb_set_get_population(const hb_set_t *);
hb_bool_t hb_set_next(const hb_set_t *, hb_codepoint_t *);
hb_map_t *hb_map_create(void);
void hb_map_destroy(hb_map_t *);
void hb_map_set(hb_map_t *, hb_codepoint_t, hb_codepoint_t);
hb_codepoint_t hb_map_get(const hb_map_t *, hb_codepoint_t);
void hb_face_collect_unicodes(hb_face_t *, hb_set_t *);

#endif
