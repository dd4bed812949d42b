// Shapes the lines of a text with a font, again and again, by HarfBuzz: FONT TEXT ROUNDS [faces]. It prints the least time of a
// round in microseconds, how many glyphs there were, and the sum of their advances. The font is loaded once, and so is its plan,
// which HarfBuzz keeps with the face; one buffer is used for all lines. With `faces` each round makes a face of its own.
#include <algorithm>
#include <chrono>
#include <cstdio>
#include <cstdlib>
#include <fstream>
#include <string>
#include <vector>

#include "harfbuzz.cc"

using Clock = std::chrono::steady_clock;

struct Sums { unsigned long glyphs; long advances; };

static hb_font_t *font_of (hb_blob_t *blob)
{
  hb_face_t *face = hb_face_create (blob, 0);
  hb_font_t *font = hb_font_create (face);
  hb_face_destroy (face);
  return font;
}

static Sums shape_all (hb_font_t *font, hb_buffer_t *buffer, const std::vector<std::string> &lines)
{
  Sums sums = {0, 0};
  for (const std::string &line : lines)
  {
    hb_buffer_clear_contents (buffer);
    hb_buffer_add_utf8 (buffer, line.data (), (int) line.size (), 0, -1);
    hb_buffer_guess_segment_properties (buffer);
    hb_shape (font, buffer, nullptr, 0);
    unsigned count;
    const hb_glyph_position_t *at = hb_buffer_get_glyph_positions (buffer, &count);
    sums.glyphs += count;
    for (unsigned i = 0; i < count; i++) sums.advances += at[i].x_advance;
  }
  return sums;
}

int main (int argc, char **argv)
{
  if (argc < 4) return 1;
  bool makes_faces = argc > 4 && std::string (argv[4]) == "faces";
  hb_blob_t *blob = hb_blob_create_from_file (argv[1]);
  hb_font_t *kept = font_of (blob);
  std::ifstream file (argv[2]);
  std::vector<std::string> lines;
  for (std::string line; std::getline (file, line);) lines.push_back (line);
  hb_buffer_t *buffer = hb_buffer_create ();
  double least = 1e30;
  Sums sums = {0, 0};
  for (int round = 0; round < atoi (argv[3]); round++)
  {
    Clock::time_point start = Clock::now ();
    hb_font_t *font = makes_faces ? font_of (blob) : kept;
    sums = shape_all (font, buffer, lines);
    if (makes_faces) hb_font_destroy (font);
    least = std::min (least, std::chrono::duration<double, std::micro> (Clock::now () - start).count ());
  }
  printf ("%.0f %lu %ld\n", least, sums.glyphs, sums.advances);
  return 0;
}
