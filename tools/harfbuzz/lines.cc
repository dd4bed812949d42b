// HarfBuzz's own buffer behind the lines of `shaping_cli`: one command a line, one answer a line, read from standard input.
//
// `beside` builds it over the sources that it fetches. The calls are those of HarfBuzz's inner buffer, which its shapers
// make. What a call requires is tested here, since HarfBuzz tests little of it, and answered with `outside`. `limit` is left
// out: HarfBuzz asks its limit only where it allocates.
#include "harfbuzz.cc"
#include "properties.hh"
#include "speed.hh"
#include <iostream>
#include <sstream>
#include <string>
#include <vector>

using Words = std::istringstream;
static const std::string OUTSIDE = "outside", DONE = "done", OK = "ok", NOTHING = "none";

struct Session {
  hb_buffer_t *buffer = nullptr;
  bool turned = false;  // whether the text was turned into a buffer, to which calls are made

  Session () { renew (); }
  void renew ()
  {
    hb_buffer_destroy (buffer);
    buffer = hb_buffer_create ();
    turned = false;
  }
};

static std::string rest_of (Words &words)
{
  std::string text;
  std::getline (words, text);
  return text.empty () ? text : text.substr (1);
}

static std::string called (bool done) { return done ? DONE : "refused"; }

// A call that is never refused: it is made where its condition holds.
template <typename Call>
static std::string made_if (bool condition, Call call)
{
  if (!condition) return OUTSIDE;
  call ();
  return DONE;
}

// ---- conditions

static bool has_glyphs (const hb_buffer_t *b, unsigned n) { return n <= b->len - b->idx; }

static bool is_input_range (const hb_buffer_t *b, unsigned start, unsigned end)
{ return start <= end && end <= b->len && (!b->have_output || b->idx <= start); }

static bool is_range_of_both (const hb_buffer_t *b, unsigned start, unsigned end)
{ return b->have_output ? start <= b->out_len && b->idx <= end : start <= end; }

static unsigned last_place (const hb_buffer_t *b)
{ return b->have_output ? b->out_len + b->len - b->idx : b->len; }

// ---- the calls; each gives nothing where its name is not among them

static std::string flag_call (hb_buffer_t *b, const std::string &name, Words &words)
{
  unsigned start, end;
  words >> start >> end;
  unsigned cut = hb_min (end, b->len);
  bool input = is_input_range (b, start, cut), both = is_range_of_both (b, start, cut);
  if (name == "unsafe_to_break") return made_if (input, [&] { b->unsafe_to_break (start, end); });
  if (name == "safe_to_insert_tatweel") return made_if (input, [&] { b->safe_to_insert_tatweel (start, end); });
  if (name == "unsafe_to_concat") return made_if (input, [&] { b->unsafe_to_concat (start, end); });
  if (name == "unsafe_to_break_from_outbuffer")
    return made_if (both, [&] { b->unsafe_to_break_from_outbuffer (start, end); });
  if (name == "unsafe_to_concat_from_outbuffer")
    return made_if (both, [&] { b->unsafe_to_concat_from_outbuffer (start, end); });
  return "";
}

static std::string merge_call (hb_buffer_t *b, const std::string &name, Words &words)
{
  unsigned start, end;
  if (name == "merge_clusters")
  {
    words >> start >> end;
    return made_if (is_input_range (b, start, end), [&] { b->merge_clusters (start, end); });
  }
  if (name == "merge_out_clusters")
  {
    words >> start >> end;
    bool within = b->have_output && start <= end && end <= b->out_len;
    return made_if (within, [&] { b->merge_out_clusters (start, end); });
  }
  return flag_call (b, name, words);
}

static std::string output_call (hb_buffer_t *b, const std::string &name, Words &words)
{
  unsigned id = 0;
  bool glyph = b->have_output && has_glyphs (b, 1);
  if (name == "replace_glyph") { words >> id; return glyph ? called (b->replace_glyph (id)) : OUTSIDE; }
  if (name == "copy_glyph") return glyph ? called (b->copy_glyph ()) : OUTSIDE;
  if (name == "delete_glyph") return made_if (glyph, [&] { b->delete_glyph (); });
  if (name == "output_glyph")
  {
    words >> id;
    if (!b->have_output) return OUTSIDE;
    return glyph || b->out_len ? called (b->output_glyph (id)) : DONE;  // with both sides empty there is none to copy
  }
  if (name == "replace_glyphs")
  {
    unsigned num_in, num_out;
    words >> num_in >> num_out;
    std::vector<hb_codepoint_t> ids (num_out);
    for (auto &id : ids) words >> id;
    return glyph && has_glyphs (b, num_in) ? called (b->replace_glyphs (num_in, num_out, ids.data ())) : OUTSIDE;
  }
  return merge_call (b, name, words);
}

static std::string call (hb_buffer_t *b, const std::string &name, Words &words)
{
  unsigned n = 1;
  if (name == "clear_output") return made_if (!b->have_output, [&] { b->clear_output (); });
  if (name == "sync") return b->have_output ? called (b->sync ()) : OUTSIDE;
  if (name == "next_glyph") return has_glyphs (b, 1) ? called (b->next_glyph ()) : OUTSIDE;
  if (name == "skip_glyph") return made_if (has_glyphs (b, 1), [&] { b->skip_glyph (); });
  if (name == "next_glyphs") { words >> n; return has_glyphs (b, n) ? called (b->next_glyphs (n)) : OUTSIDE; }
  if (name == "move_to") { words >> n; return n <= last_place (b) ? called (b->move_to (n)) : OUTSIDE; }
  return output_call (b, name, words);
}

// ---- what is printed

static void print_glyphs (std::ostream &text, const hb_glyph_info_t *from, unsigned n)
{
  for (unsigned i = 0; i < n; i++)
    text << (i ? " " : "") << from[i].codepoint << ':' << from[i].cluster << ':' << (from[i].mask & HB_GLYPH_FLAG_DEFINED);
}

static std::string state (const hb_buffer_t *b)
{
  std::ostringstream text;
  unsigned left = b->have_output ? b->idx : 0;
  text << "open=" << b->have_output << " idx=" << b->idx << " ok=" << b->successful << " out=[";
  print_glyphs (text, b->out_info, b->have_output ? b->out_len : 0);
  text << "] in=[";
  print_glyphs (text, b->info + left, b->len - left);
  text << ']';
  return text.str ();
}

// The text of glyphs, without the brackets that HarfBuzz puts around it.
static std::string glyph_text (hb_buffer_t *b, unsigned flags)
{
  std::string text (b->len * 64 + 64, 0);
  unsigned used = 0;
  b->content_type = HB_BUFFER_CONTENT_TYPE_GLYPHS;
  b->clear_positions ();
  hb_buffer_serialize_glyphs (b, 0, b->len, &text[0], text.size (), &used, nullptr, HB_BUFFER_SERIALIZE_FORMAT_TEXT,
                              (hb_buffer_serialize_flags_t) flags);
  return used < 2 ? "" : text.substr (1, used - 2);
}

static std::string serialize (Session &s, unsigned flags)
{
  hb_buffer_t *b = s.buffer;
  bool asks_font = !(flags & HB_BUFFER_SERIALIZE_FLAG_NO_GLYPH_NAMES) || (flags & HB_BUFFER_SERIALIZE_FLAG_GLYPH_EXTENTS);
  bool wide = false;
  for (unsigned i = 0; i < b->len; i++) wide = wide || b->info[i].codepoint > 0xFFFF;
  if (b->have_output || (asks_font && wide)) return OUTSIDE;
  std::string text = glyph_text (b, flags);
  b->clear ();
  b->cluster_level = HB_BUFFER_CLUSTER_LEVEL_DEFAULT;  // `clear` of rustybuzz does that too
  s.turned = false;
  return text;
}

static std::string hexadecimal (unsigned number, const char *format = "%08x")
{
  char digits[16];
  snprintf (digits, sizeof digits, format, number);
  return digits;
}

static std::string feature (const std::string &text)
{
  hb_feature_t f;
  if (!hb_feature_from_string (text.data (), text.size (), &f)) return "invalid feature";
  return hexadecimal (f.tag) + " " + std::to_string (f.value) + " " + std::to_string (f.start) + " " + std::to_string (f.end);
}

static std::string tags (const std::string &script, const std::string &language)
{
  unsigned scripts = HB_OT_MAX_TAGS_PER_SCRIPT, languages = HB_OT_MAX_TAGS_PER_LANGUAGE;
  hb_tag_t script_tags[HB_OT_MAX_TAGS_PER_SCRIPT], language_tags[HB_OT_MAX_TAGS_PER_LANGUAGE];
  hb_script_t s = script == "-" ? HB_SCRIPT_INVALID : hb_script_from_string (script.data (), script.size ());
  hb_language_t l = language == "-" ? HB_LANGUAGE_INVALID : hb_language_from_string (language.data (), language.size ());
  hb_ot_tags_from_script_and_language (s, l, &scripts, script_tags, &languages, language_tags);
  std::string text = "scripts";
  for (unsigned i = 0; i < scripts; i++) text += " " + hexadecimal (script_tags[i]);
  text += " languages";
  for (unsigned i = 0; i < languages; i++) text += " " + hexadecimal (language_tags[i]);
  return text;
}

// ---- commands

static std::string query (const std::string &name, Words &words)
{
  hb_codepoint_t a = 0, b = 0, both;
  hb_unicode_funcs_t *unicode = hb_unicode_funcs_get_default ();
  if (name == "feature") return feature (rest_of (words));
  if (name == "tags") { std::string script, language; words >> script >> language; return tags (script, language); }
  words >> std::hex >> a >> b;
  if (name == "compose") return hb_unicode_compose (unicode, a, b, &both) ? hexadecimal (both, "%x") : NOTHING;
  if (!hb_unicode_decompose (unicode, a, &a, &b)) return NOTHING;
  return hexadecimal (a, "%x") + " " + hexadecimal (b, "%x");
}

static std::string grow (Session &s, const std::string &name, Words &words)
{
  if (s.turned) return OUTSIDE;
  if (name == "push")
  {
    std::string text = rest_of (words);
    hb_buffer_add_utf8 (s.buffer, text.data (), text.size (), 0, text.size ());
    return "true";
  }
  hb_codepoint_t character;
  unsigned cluster;
  words >> std::hex >> character >> std::dec >> cluster;
  s.buffer->content_type = HB_BUFFER_CONTENT_TYPE_UNICODE;
  hb_buffer_add (s.buffer, character, cluster);
  return "true";
}

static unsigned number_of (Words &words)
{
  unsigned number = 0;
  words >> number;
  return number;
}

static std::string set (Session &s, const std::string &name, Words &words)
{
  unsigned number = number_of (words);
  if (name == "level") s.buffer->cluster_level = (hb_buffer_cluster_level_t) number;
  else s.buffer->flags = (hb_buffer_flags_t) number;
  return OK;
}

static std::string obey (Session &s, const std::string &name, Words &words)
{
  if (name == "push" || name == "add") return grow (s, name, words);
  if (name == "new") { s.renew (); return OK; }
  if (name == "level" || name == "flags") return set (s, name, words);
  if (name == "feature" || name == "tags" || name == "compose" || name == "decompose") return query (name, words);
  s.turned = true;
  if (name == "state") return state (s.buffer);
  if (name == "serialize") return serialize (s, number_of (words));
  return call (s.buffer, name, words);
}

int main (int count, char **arguments)
{
  if (count > 1 && !strcmp (arguments[1], "speed")) return speed ();
  if (count > 1 && !strcmp (arguments[1], "properties")) return print_all ();
  std::ios::sync_with_stdio (false);
  Session session;
  for (std::string line, name; std::getline (std::cin, line);)
  {
    Words words (line);
    words >> name;
    std::string answer = obey (session, name, words);
    if (answer.empty () && name != "serialize") { std::cout << "unknown command\n"; return 2; }
    std::cout << answer << '\n';
  }
  return 0;
}
