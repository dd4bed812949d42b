// The workloads of `crates/shaping_bench` over HarfBuzz's own buffer. A line for each has its name, how many glyphs the list
// has, and the least time of many runs, in picoseconds a glyph (of `features`, a text).
#include <algorithm>
#include <chrono>
#include <cstdio>
#include <functional>
#include <string>
#include <vector>

using Buffer = hb_buffer_t;
using Pass = void (*) (Buffer *);
enum Clusters { SINGLE, TRIPLE, FALLING };

static const unsigned IDS = 30000, BATCH_GLYPHS = 6400, BULK_PASSES = 100;

// ---- passes of calls

static void put_rest_out (Buffer *b)
{
  while (b->idx < b->len) (void) !b->next_glyph ();
  b->sync ();
}

static void next_glyph_sync (Buffer *b) { b->clear_output (); put_rest_out (b); }

static void next_glyphs_sync (Buffer *b)
{
  for (unsigned i = 0; i < BULK_PASSES; i++)
  {
    b->clear_output ();
    (void) !b->next_glyphs (b->len);
    b->sync ();
    asm volatile ("" ::: "memory");  // so that no pass is left out for the next one, which does the same
  }
}

static void ligatures (Buffer *b)
{
  const hb_codepoint_t id = 7;
  b->clear_output ();
  while (b->len - b->idx >= 2) (void) !b->replace_glyphs (2, 1, &id);
  put_rest_out (b);
}

static void decompositions (Buffer *b)
{
  const hb_codepoint_t ids[] = {7, 8};
  b->clear_output ();
  while (b->idx < b->len) (void) !b->replace_glyphs (1, 2, ids);
  b->sync ();
}

static void rewind_to_the_end (Buffer *b)
{
  while (b->len - b->idx >= 8)
  {
    for (unsigned i = 0; i < 8; i++) (void) !b->next_glyph ();
    (void) !b->move_to (b->out_len - 4);
  }
  b->sync ();
}

static void rewinds (Buffer *b) { b->clear_output (); rewind_to_the_end (b); }

static void rewinds_behind (Buffer *b)
{
  b->clear_output ();
  for (unsigned i = 0; i < 8; i++) b->skip_glyph ();
  rewind_to_the_end (b);
}

static void rewinds_separate (Buffer *b) { b->clear_output (); (void) !b->copy_glyph (); rewind_to_the_end (b); }

static void merge_sliding (Buffer *b) { for (unsigned i = 0; i + 2 <= b->len; i++) b->merge_clusters (i, i + 2); }
static void merge_pairs (Buffer *b) { for (unsigned i = 0; i + 2 <= b->len; i += 2) b->merge_clusters (i, i + 2); }
static void unsafe_sliding (Buffer *b) { for (unsigned i = 0; i + 4 <= b->len; i++) b->unsafe_to_break (i, i + 4); }
static void unsafe_windows (Buffer *b) { for (unsigned i = 0; i + 4 <= b->len; i += 4) b->unsafe_to_break (i, i + 4); }

static void delete_third (Buffer *b)
{
  b->clear_output ();
  for (unsigned turn = 1; b->idx < b->len; turn = turn == 3 ? 1 : turn + 1)
    if (turn == 3) b->delete_glyph (); else (void) !b->next_glyph ();
  b->sync ();
}

static void delete_third_inplace (Buffer *b)
{ b->delete_glyphs_inplace ([] (const hb_glyph_info_t *info) { return info->codepoint % 3 == 0; }); }

static void reverse (Buffer *b) { b->reverse (); }
static void reverse_groups (Buffer *b) { b->reverse_clusters (); }

static void ten_masks (Buffer *b)
{
  for (unsigned i = 0; i < 10; i++)
  {
    unsigned bit = 1u << (8 + i), start = b->len / 20 * i;
    if (i % 2) b->set_masks (bit, bit, start, start + b->len / 2); else b->set_masks (bit, bit, 0, (unsigned) -1);
  }
}

// ---- measuring

using Action = std::function<void (unsigned)>;

// Times `run` over a batch of lists; `prepare` is not timed.
static void measure (const char *name, unsigned size, const Action &prepare, const Action &run, unsigned times = 1)
{
  using Clock = std::chrono::steady_clock;
  unsigned batch = std::max (1u, BATCH_GLYPHS / size);
  auto begin = Clock::now ();
  auto least = Clock::duration::max ();
  for (unsigned done = 0; done < 5000; done++)
  {
    if (done >= 18 && Clock::now () - begin > std::chrono::milliseconds (400)) break;
    for (unsigned i = 0; i < batch; i++) prepare (i);
    auto start = Clock::now ();
    for (unsigned i = 0; i < batch; i++) run (i);
    if (done >= 3) least = std::min (least, Clock::now () - start);
  }
  double nanoseconds = std::chrono::duration<double, std::nano> (least).count ();
  printf ("%s %u %.0f\n", name, size, nanoseconds * 1000 / size / batch / times);
}

static void fill (Buffer *b, unsigned size, Clusters clusters)
{
  b->clear ();
  b->max_len = HB_BUFFER_MAX_LEN_DEFAULT;
  for (unsigned i = 0; i < size; i++)
    b->add (i % IDS + 1, clusters == SINGLE ? i : clusters == TRIPLE ? i / 3 : size - i);
}

static void measure_pass (const char *name, unsigned size, Pass pass, Clusters clusters = SINGLE, bool positions = false)
{
  std::vector<Buffer *> buffers (std::max (1u, BATCH_GLYPHS / size));
  for (auto &b : buffers) b = hb_buffer_create ();
  measure (name, size,
    [&] (unsigned i) { fill (buffers[i], size, clusters); if (positions) buffers[i]->clear_positions (); },
    [&] (unsigned i) { pass (buffers[i]); }, pass == next_glyphs_sync ? BULK_PASSES : 1);
  for (auto b : buffers) hb_buffer_destroy (b);
}

// The first characters of a text of eight scripts, as often as it takes.
static std::string mixed_text (unsigned size)
{
  const std::string mixed = u8"The quick fox, Ζεύς שלום עולם مرحبا 12 नमस्ते 한국어 漢字かな 😀e\u0301fi.";
  std::string text;
  for (unsigned at = 0; size; at = at + 1 < mixed.size () ? at + 1 : 0)
  {
    text += mixed[at];
    bool ends = at + 1 == mixed.size () || (mixed[at + 1] & 0xC0) != 0x80;
    size -= ends;
  }
  return text;
}

static void measure_texts (unsigned size)
{
  std::string text = mixed_text (size);
  std::vector<Buffer *> buffers (std::max (1u, BATCH_GLYPHS / size));
  auto push = [&] (unsigned i) { hb_buffer_add_utf8 (buffers[i], text.data (), text.size (), 0, text.size ()); };
  measure ("push_str_new", size, [&] (unsigned i) { hb_buffer_destroy (buffers[i]); },
           [&] (unsigned i) { buffers[i] = hb_buffer_create (); push (i); });
  measure ("push_str_reused", size, [&] (unsigned i) { hb_buffer_clear_contents (buffers[i]); }, push);
  for (auto b : buffers) hb_buffer_destroy (b);
}

static void measure_serialized (const char *name, unsigned size, unsigned flags)
{
  Buffer *b = hb_buffer_create ();
  fill (b, size, SINGLE);
  b->content_type = HB_BUFFER_CONTENT_TYPE_GLYPHS;
  b->clear_positions ();
  std::vector<char> text (size * 48ul + 256);
  unsigned used;
  measure (name, size, [] (unsigned) {}, [&] (unsigned) {
    hb_buffer_serialize_glyphs (b, 0, size, text.data (), text.size (), &used, nullptr, HB_BUFFER_SERIALIZE_FORMAT_TEXT,
                                (hb_buffer_serialize_flags_t) flags); });
  hb_buffer_destroy (b);
}

static void measure_features (unsigned size)
{
  static const char *const FEATURES[] = {"kern", "+liga", "-calt", "kern=0", "aalt=2", "smcp[3:5]", "ss01[10:200]=1",
                                         "'frac' on", "kern[:5]=off", "dlig [1;4] "};
  volatile unsigned seen = 0;
  measure ("features", size, [] (unsigned) {}, [&] (unsigned) {
    for (unsigned i = 0; i < size; i++)
    {
      hb_feature_t f;
      if (hb_feature_from_string (FEATURES[i % 10], -1, &f)) seen = seen + f.tag + f.value + f.start + f.end;
    } });
}

static int speed ()
{
  for (unsigned size : {100u, 10000u, 1000000u})
  {
    measure_texts (size);
    measure_pass ("next_glyph_sync", size, next_glyph_sync);
    measure_pass ("next_glyphs_sync", size, next_glyphs_sync);
    measure_pass ("ligature_2_1", size, ligatures);
    measure_pass ("decompose_1_2", size, decompositions);
    measure_pass ("rewind_8_4_inplace", size, rewinds);
    measure_pass ("rewind_8_4_behind", size, rewinds_behind);
    measure_pass ("rewind_8_4_separate", size, rewinds_separate);
    measure_pass ("merge_clusters_sliding", size, merge_sliding);
    measure_pass ("merge_clusters_pairs", size, merge_pairs);
    measure_pass ("merge_clusters_pairs_falling", size, merge_pairs, FALLING);
    measure_pass ("unsafe_to_break_sliding4", size, unsafe_sliding);
    measure_pass ("unsafe_to_break_windows4", size, unsafe_windows);
    measure_pass ("delete_glyph_third", size, delete_third);
    measure_pass ("delete_inplace_third", size, delete_third_inplace, SINGLE, true);
    measure_pass ("reverse", size, reverse);
    measure_pass ("reverse_with_positions", size, reverse, SINGLE, true);
    measure_pass ("reverse_groups", size, reverse_groups, TRIPLE);
    measure_pass ("set_masks_10", size, ten_masks);
    measure_serialized ("serialize_no_names", size, HB_BUFFER_SERIALIZE_FLAG_NO_GLYPH_NAMES);
    measure_serialized ("serialize_ids_clusters", size,
                        HB_BUFFER_SERIALIZE_FLAG_NO_GLYPH_NAMES | HB_BUFFER_SERIALIZE_FLAG_NO_POSITIONS);
    measure_features (size);
  }
  return 0;
}
