// Writes the OpenType tags that HarfBuzz gives each language of the standard input, a line each, with a comma between two tags.

#include <hb-ot.h>

#include <iostream>
#include <string>

int main()
{
  for (std::string language; std::getline(std::cin, language); std::cout << '\n')
  {
    hb_tag_t tags[3];
    unsigned count = 3;
    hb_ot_tags_from_script_and_language(HB_SCRIPT_UNKNOWN, hb_language_from_string(language.data(), language.size()),
                                        nullptr, nullptr, &count, tags);
    for (unsigned i = 0; i < count; i++)
      std::cout << (i ? "," : "") << std::string{char(tags[i] >> 24), char(tags[i] >> 16), char(tags[i] >> 8), char(tags[i])};
  }
}
