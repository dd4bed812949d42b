// Shapes texts whole, cut at places that are not marked, and put together at such places, and prints where the glyphs differ. `breaks` runs it.
//
// A line of input is `font PATH`, or a text: `DIRECTION LEVEL SCRIPT FEATURES CODES`, with the code points of a second text behind it where two are to
// be put together, or `end`. A line of output says where a text of this font, by its number, is unsafe: `unsafe TEXT CUT alone|context`, or `unsafe TEXT
// CUT OTHER joined`. At `end` it is `places N marked N needless N unsafe N`.

#include <hb-ot.h>
#include <hb.h>

#include <iostream>
#include <sstream>
#include <string>
#include <vector>

struct Glyph {
  hb_glyph_info_t info;
  hb_glyph_position_t position;

  bool is(const Glyph &other) const {
    return info.codepoint == other.info.codepoint && info.cluster == other.info.cluster && position.x_advance == other.position.x_advance &&
           position.y_advance == other.position.y_advance && position.x_offset == other.position.x_offset && position.y_offset == other.position.y_offset;
  }
  bool has(hb_glyph_flags_t flag) const { return hb_glyph_info_get_glyph_flags(&info) & flag; }
};

using Glyphs = std::vector<Glyph>;
using Codes = std::vector<hb_codepoint_t>;

struct Text {
  hb_segment_properties_t properties = HB_SEGMENT_PROPERTIES_DEFAULT;
  hb_buffer_cluster_level_t level;
  std::vector<hb_feature_t> features;
  Codes codes, other;
};

struct Counts {
  unsigned places = 0, marked = 0, needless = 0, unsafe = 0;
};

// The glyphs of a part of some codes in the order of the text, which no cut is to change.
static Glyphs shaped(hb_font_t *font, const Text &text, const Codes &codes, size_t start, size_t end, bool with_context) {
  static hb_buffer_t *buffer = hb_buffer_create();
  hb_buffer_reset(buffer);
  hb_buffer_set_cluster_level(buffer, text.level);
  unsigned flags = HB_BUFFER_FLAG_PRODUCE_UNSAFE_TO_CONCAT;
  if (start == 0) flags |= HB_BUFFER_FLAG_BOT;
  if (end == codes.size()) flags |= HB_BUFFER_FLAG_EOT;
  hb_buffer_set_flags(buffer, hb_buffer_flags_t(flags));
  if (with_context) hb_buffer_add_codepoints(buffer, codes.data(), codes.size(), start, end - start);
  else
    for (size_t at = start; at < end; at++) hb_buffer_add(buffer, codes[at], at);
  hb_buffer_set_content_type(buffer, HB_BUFFER_CONTENT_TYPE_UNICODE);
  hb_buffer_set_segment_properties(buffer, &text.properties);
  hb_shape(font, buffer, text.features.data(), text.features.size());
  if (HB_DIRECTION_IS_BACKWARD(text.properties.direction)) hb_buffer_reverse(buffer);
  unsigned count;
  const auto *infos = hb_buffer_get_glyph_infos(buffer, &count);
  const auto *positions = hb_buffer_get_glyph_positions(buffer, &count);
  Glyphs glyphs;
  for (unsigned at = 0; at < count; at++) glyphs.push_back({infos[at], positions[at]});
  return glyphs;
}

static bool same(const Glyphs &whole, const Glyphs &left, const Glyphs &right) {
  if (whole.size() != left.size() + right.size()) return false;
  for (size_t at = 0; at < whole.size(); at++)
    if (!whole[at].is(at < left.size() ? left[at] : right[at - left.size()])) return false;
  return true;
}

// Whether a new cluster begins with a glyph, so that the text may be cut before it. At level 2 clusters may be in any order.
static bool is_place(const Glyphs &glyphs, size_t at) {
  for (size_t other = 0; other < glyphs.size(); other++)
    if ((other < at) != (glyphs[other].info.cluster < glyphs[at].info.cluster)) return false;
  return true;
}

static void cut_everywhere(hb_font_t *font, const Text &text, unsigned number, Counts &counts) {
  Glyphs whole = shaped(font, text, text.codes, 0, text.codes.size(), false);
  for (size_t at = 1; at < whole.size(); at++) {
    if (!is_place(whole, at)) continue;
    size_t cut = whole[at].info.cluster;
    bool is_marked = whole[at].has(HB_GLYPH_FLAG_UNSAFE_TO_BREAK), is_safe = true;
    counts.places++, counts.marked += is_marked;
    for (bool with_context : {false, true}) {
      if (same(whole, shaped(font, text, text.codes, 0, cut, with_context), shaped(font, text, text.codes, cut, text.codes.size(), with_context))) continue;
      is_safe = false;
      if (!is_marked) counts.unsafe++, std::cout << "unsafe " << number << ' ' << cut << (with_context ? " context\n" : " alone\n");
    }
    counts.needless += is_marked && is_safe;
  }
}

static void join_everywhere(hb_font_t *font, const Text &text, unsigned number, Counts &counts) {
  Glyphs first = shaped(font, text, text.codes, 0, text.codes.size(), false), second = shaped(font, text, text.other, 0, text.other.size(), false);
  for (size_t end = 1; end < first.size(); end++)
    for (size_t start = 1; is_place(first, end) && start < second.size(); start++) {
      if (!is_place(second, start)) continue;
      counts.places++;
      bool is_marked = first[end].has(HB_GLYPH_FLAG_UNSAFE_TO_CONCAT) || second[start].has(HB_GLYPH_FLAG_UNSAFE_TO_CONCAT);
      unsigned left = first[end].info.cluster, right = second[start].info.cluster;
      Codes codes(text.codes.begin(), text.codes.begin() + left);
      codes.insert(codes.end(), text.other.begin() + right, text.other.end());
      Glyphs tail(second.begin() + start, second.end());
      for (Glyph &glyph : tail) glyph.info.cluster += left - right;
      bool is_safe = same(shaped(font, text, codes, 0, codes.size(), false), Glyphs(first.begin(), first.begin() + end), tail);
      counts.marked += is_marked, counts.needless += is_marked && is_safe;
      if (!is_marked && !is_safe) counts.unsafe++, std::cout << "unsafe " << number << ' ' << left << ' ' << right << " joined\n";
    }
}

static Codes codes_of(const std::string &word) {
  Codes codes;
  std::istringstream parts(word);
  for (std::string part; std::getline(parts, part, ',');) codes.push_back(std::stoul(part, nullptr, 16));
  return codes;
}

static Text text_of(const std::string &direction, std::istringstream &words) {
  Text text;
  int level;
  std::string script, features, codes, other;
  words >> level >> script >> features >> codes >> other;
  text.level = hb_buffer_cluster_level_t(level);
  text.properties.direction = hb_direction_from_string(direction.c_str(), -1);
  text.properties.script = hb_script_from_string(script.c_str(), -1);
  text.properties.language = hb_language_from_string("en", -1);
  std::istringstream parts(features);
  for (std::string part; std::getline(parts, part, ';');)
    if (hb_feature_t feature; hb_feature_from_string(part.c_str(), -1, &feature)) text.features.push_back(feature);
  text.codes = codes_of(codes), text.other = codes_of(other);
  return text;
}

static hb_font_t *font_of(const std::string &path) {
  hb_blob_t *blob = hb_blob_create_from_file(path.c_str());
  hb_face_t *face = hb_face_create(blob, 0);
  hb_font_t *font = hb_font_create(face);
  hb_face_destroy(face), hb_blob_destroy(blob);
  return font;
}

int main() {
  hb_font_t *font = nullptr;
  Counts counts;
  unsigned number = 0;
  for (std::string line; std::getline(std::cin, line);) {
    std::istringstream words(line);
    std::string first;
    words >> first;
    if (first == "font") {
      words >> first;
      hb_font_destroy(font), font = font_of(first), counts = Counts(), number = 0;
    } else if (first == "end") {
      std::cout << "places " << counts.places << " marked " << counts.marked << " needless " << counts.needless << " unsafe " << counts.unsafe << std::endl;
    } else {
      Text text = text_of(first, words);
      text.other.empty() ? cut_everywhere(font, text, number, counts) : join_everywhere(font, text, number, counts);
      number++;
    }
  }
}
