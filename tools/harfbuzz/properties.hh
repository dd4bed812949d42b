// Properties of characters, directions of scripts, Hangul, tables, and reversals, as lines: the package's example `properties` prints the same of ours.
//
// A property is printed as ranges of code points with one value, in hexadecimal digits.
#include <cstdint>
#include <cstdio>
#include <iostream>
#include <map>
#include <string>
#include <vector>

static const unsigned NO_CHARACTER = 0xFFFF, REVERSALS = 5000;
static const uint64_t SEED = 1;

template <typename Property>
static void print_ranges (const char *name, unsigned first, unsigned end, const Property &property)
{
  for (unsigned next; first < end; first = next)
  {
    unsigned value = property (first);
    for (next = first + 1; next < end && property (next) == value;) next++;
    printf ("%s %x %x %x\n", name, first, next - 1, value);
  }
}

template <typename Property>
static void print_property (const char *name, const Property &property)
{
  print_ranges (name, 0, 0x110000, [&] (unsigned c) { return c >> 11 == 0x1B ? NO_CHARACTER : property (c); });
}

static void print_characters (hb_unicode_funcs_t *unicode)
{
  print_property ("category", [&] (unsigned c) { return (unsigned) unicode->general_category (c); });
  print_property ("script", [&] (unsigned c) { return (unsigned) unicode->script (c); });
  print_property ("own_class", [&] (unsigned c) {
    unsigned own = unicode->modified_combining_class (c);
    return own == _hb_modified_combining_class[unicode->combining_class (c)] ? 0 : own;
  });
  print_ranges ("changed_class", 0, 256, [] (unsigned n) { return (unsigned) _hb_modified_combining_class[n]; });
}

// ---- Hangul: a syllable less its parts, so that the ranges are long

static unsigned composed (hb_unicode_funcs_t *unicode, unsigned a, unsigned b)
{
  hb_codepoint_t both;
  return hb_unicode_compose (unicode, a, b, &both) ? both - a - b : 0;
}

static void print_hangul (hb_unicode_funcs_t *unicode)
{
  hb_codepoint_t a, b;
  print_ranges ("first_of", 0xABFF, 0xD7B0, [&] (unsigned s) { return hb_unicode_decompose (unicode, s, &a, &b) ? a : 0; });
  print_ranges ("second_of", 0xABFF, 0xD7B0, [&] (unsigned s) { return hb_unicode_decompose (unicode, s, &a, &b) ? b - s : 0; });
  print_ranges ("leading", 0, 21 * 23, [&] (unsigned i) { return composed (unicode, 0x10FF + i / 23, 0x1160 + i % 23); });
  print_ranges ("trailing", 0, 11174 * 30, [&] (unsigned i) { return composed (unicode, 0xABFF + i / 30, 0x11A6 + i % 30); });
}

// ---- the tables: canonical combining classes, decompositions in one step, and what pairs compose to

using Characters = std::vector<unsigned>;

static void print_composed (hb_unicode_funcs_t *unicode, const Characters &firsts, const Characters &seconds)
{
  hb_codepoint_t both;
  unsigned n = seconds.size ();
  print_ranges ("composed", 0, firsts.size () * n, [&] (unsigned i) {
    return hb_unicode_compose (unicode, firsts[i / n], seconds[i % n], &both) ? both : 0;
  });
}

static void print_tables (hb_unicode_funcs_t *unicode)
{
  hb_codepoint_t a, b;
  print_property ("combining_class", [&] (unsigned c) { return (unsigned) hb_unicode_combining_class (unicode, c); });
  print_property ("modified_class", [&] (unsigned c) { return (unsigned) unicode->modified_combining_class (c); });
  print_property ("first_part", [&] (unsigned c) { return hb_unicode_decompose (unicode, c, &a, &b) ? a : 0; });
  print_property ("second_part", [&] (unsigned c) { return hb_unicode_decompose (unicode, c, &a, &b) ? b : 0; });
}

// ---- reversals of random lists

static unsigned random_below (uint64_t &state, unsigned n)
{
  state = state * 6364136223846793005u + 1442695040888963407u;
  return (state >> 33) % n;
}

static void reverse (hb_buffer_t *b, unsigned kind, unsigned start, unsigned end)
{
  if (kind == 0) b->reverse ();
  else if (kind == 1) b->reverse_range (start, end);
  else if (kind == 2) b->reverse_clusters ();
  else b->reverse_groups ([] (const hb_glyph_info_t &x, const hb_glyph_info_t &y) { return x.cluster <= y.cluster; }, kind == 4);
}

static void print_reversal (uint64_t &state)
{
  hb_buffer_t *b = hb_buffer_create ();
  unsigned count = random_below (state, 9);
  b->content_type = HB_BUFFER_CONTENT_TYPE_UNICODE;
  for (unsigned i = 0; i < count; i++) b->add (i + 1, random_below (state, 4));
  b->cluster_level = (hb_buffer_cluster_level_t) random_below (state, 3);
  unsigned kind = random_below (state, 5), end = random_below (state, count + 1), start = random_below (state, end + 1);
  reverse (b, kind, start, end);
  printf ("reversal %u %u %u %u:", kind, (unsigned) b->cluster_level, start, end);
  for (unsigned i = 0; i < b->len; i++)
    printf (" %u=%u#%u", b->info[i].codepoint, b->info[i].cluster, b->info[i].mask & HB_GLYPH_FLAG_DEFINED);
  printf ("\n");
  hb_buffer_destroy (b);
}

// ---- all; the tags of the scripts, and the characters of the pairs, are read from standard input: a name and a number a line

static int print_all ()
{
  uint64_t state = SEED;
  hb_unicode_funcs_t *unicode = hb_unicode_funcs_get_default ();
  std::map<std::string, Characters> asked;
  std::string name;
  for (unsigned number; std::cin >> name >> std::hex >> number;) asked[name].push_back (number);
  for (unsigned tag : asked["direction"])
    printf ("direction %x %x\n", tag, (unsigned) hb_script_get_horizontal_direction ((hb_script_t) tag));
  print_characters (unicode);
  print_hangul (unicode);
  print_tables (unicode);
  print_composed (unicode, asked["asked_first"], asked["asked_second"]);
  for (unsigned i = 0; i < REVERSALS; i++) print_reversal (state);
  return 0;
}
