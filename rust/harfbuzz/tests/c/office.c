#include <hb.h>
#include <stdio.h>

int main(int count, char **words) {
    hb_face_t *face = hb_face_create(hb_blob_create_from_file(words[1]), 0);
    hb_font_t *font = hb_font_create(face);
    hb_buffer_t *buffer = hb_buffer_create();
    hb_buffer_add_utf8(buffer, words[2], -1, 0, -1);
    hb_buffer_guess_segment_properties(buffer);
    hb_shape(font, buffer, NULL, 0);
    char text[1000];
    hb_buffer_serialize(buffer, 0, -1, text, sizeof text, NULL, font, HB_BUFFER_SERIALIZE_FORMAT_TEXT, 0);
    puts(text);
    return 0;
}
