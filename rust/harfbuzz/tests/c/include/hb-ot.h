/* The part of HarfBuzz's `hb-ot.h` that these tests use. */
#ifndef HB_OT_H
#define HB_OT_H

#include <hb.h>

unsigned hb_ot_layout_table_get_lookup_count(hb_face_t *face, hb_tag_t table);
void hb_ot_layout_lookup_substitute_closure(hb_face_t *face, unsigned lookup, hb_set_t *glyphs);
void hb_ot_shape_glyphs_closure(
    hb_font_t *font, hb_buffer_t *buffer, const hb_feature_t *features, unsigned count, hb_set_t *glyphs
);
void hb_ot_shape_plan_collect_lookups(hb_shape_plan_t *plan, hb_tag_t table, hb_set_t *lookups);

#endif
