"""The texts that `abi_pictures` lets programs draw."""

# A font, options of pango-view, and a text.
PANGO_TEXTS = """\
DejaVu Sans 24||office affinity AVATAR To Ty
DejaVu Sans 24|--width=200|office affinity AVATAR To Ty wrapping and so on and so forth
DejaVu Sans 24|--width=200 --justify|office affinity AVATAR To Ty justified and so on and so forth
DejaVu Sans 24||x̂ ẹ́ ̃a zalgo͜͡|
DejaVu Sans 24|--gravity=east --rotate=90|日本語 vertical
DejaVu Sans Mono 14||fi ff a b c
DejaVu Serif Italic 24||Italic affine fjord
DejaVu Sans Bold 18|--markup|<span letter_spacing="4000">letterspaced</span> text
Noto Sans 20||fi ffl AV To Ďábel Ệ
Noto Sans 20|--width=100|fi ffl AV To Ďábel Ệ
Noto Serif 20||efficient Wave Tomato 1/2
Noto Serif 20|--width=120 --justify|efficient Wave Tomato 1/2 and more
Amiri 24||السَّلَامُ عَلَيْكُمْ ورحمة الله
Amiri 24|--width=150|السَّلَامُ عَلَيْكُمْ ورحمة الله
Amiri 24|--width=150 --justify|بِسْمِ ٱللَّٰهِ 123 ABC
Noto Sans Devanagari 20||क्षत्रिय हिन्दी र्क श्री कि
Noto Sans Devanagari 20|--width=100|क्षत्रिय हिन्दी र्क श्री कि
Noto Sans Thai 20||ภาษาไทย น้ำ ปิ่น
Noto Sans Hebrew 20||שָׁלוֹם עולם
Noto Sans Khmer 20||ភាសាខ្មែរ
Noto Sans Tamil 20||தமிழ் கொ
Noto Sans Bengali 20||বাংলা ক্ষ র্ক
Noto Sans Myanmar 20||မြန်မာဘာသာ
Noto Sans Sinhala 20||ශ්‍රී ලංකා""".split("\n")

# A font, a language, a feature, and a text.
PIL_TEXTS = """\
dejavu/DejaVuSans.ttf|||office affinity AVATAR To Ty x̂ ẹ́
dejavu/DejaVuSans.ttf||-liga|office (liga off)
noto/NotoSans-Regular.ttf|||Noto Sans: fi ffl AV To Ďábel Ệ
noto/NotoSerif-Regular.ttf||frac|Serif: efficient Wave Tomato 1/2
fonts-hosny-amiri/Amiri-Regular.ttf|ar||السَّلَامُ عَلَيْكُمْ ورحمة الله
fonts-hosny-amiri/Amiri-Regular.ttf|||بِسْمِ ٱللَّٰهِ 123 ABC
noto/NotoSansDevanagari-Regular.ttf|hi||क्षत्रिय हिन्दी र्क श्री कि
noto/NotoSansThai-Regular.ttf|||ภาษาไทย น้ำ ปิ่น
noto/NotoSansHebrew-Regular.ttf|||שָׁלוֹם עולם
noto/NotoNastaliqUrdu-Regular.ttf|ur||یہ اردو نستعلیق ہے
noto/NotoSansMyanmar-Regular.ttf|||မြန်မာဘာသာ
noto/NotoSansKhmer-Regular.ttf|||ភាសាខ្មែរ
noto/NotoSansTamil-Regular.ttf|||தமிழ் கொ
noto/NotoSansBengali-Regular.ttf|||বাংলা ক্ষ র্ক""".split("\n")

# A line of subtitles, with libass's own marks.
ASS_LINES = """\
office affinity AVATAR To Ty
{\\fnNoto Sans}fi ffl AV To Ďábel Ệ
{\\fnNoto Serif}efficient Wave Tomato 1/2
{\\fnAmiri}السَّلَامُ عَلَيْكُمْ ورحمة الله
{\\fnAmiri}بِسْمِ ٱللَّٰهِ 123 ABC
{\\fnNoto Sans Devanagari}क्षत्रिय हिन्दी र्क श्री कि
{\\fnNoto Sans Thai}ภาษาไทย น้ำ ปิ่น
{\\fnNoto Sans Hebrew}שָׁלוֹם עולם
{\\fnNoto Sans Khmer}ភាសាខ្មែរ
{\\fnNoto Sans Tamil}தமிழ் கொ
{\\fnNoto Sans Bengali}বাংলা ক্ষ র্ক
{\\fnNoto Sans Myanmar}မြန်မာဘာသာ
{\\b1}bold {\\b0}{\\i1}italic fjord{\\i0} office
{\\fsp6}letterspaced office {\\fscx150}wide
{\\fn@DejaVu Sans}vertical 日本語""".split("\n")

# A font, options of hb-view, and a text.
HB_VIEW_TEXTS = """\
dejavu/DejaVuSans.ttf||office affinity AVATAR To Ty
dejavu/DejaVuSans.ttf|--features=-liga,-kern|office AVATAR
noto/NotoSans-Regular.ttf|--font-size=80|fi ffl AV To Ďábel Ệ
noto/NotoSerif-Regular.ttf|--features=frac|efficient Wave Tomato 1/2
fonts-hosny-amiri/Amiri-Regular.ttf||السَّلَامُ عَلَيْكُمْ ورحمة الله
noto/NotoSansDevanagari-Regular.ttf||क्षत्रिय हिन्दी र्क श्री कि
noto/NotoSansThai-Regular.ttf||ภาษาไทย น้ำ ปิ่น
noto/NotoSansMyanmar-Regular.ttf||မြန်မာဘာသာ
dejavu/DejaVuSans.ttf|--direction=ttb|vertical""".split("\n")

# A family, a size, and a text.
QT_TEXTS = """\
DejaVu Sans|24|office affinity AVATAR To Ty x̂ ẹ́
Noto Sans|20|fi ffl AV To Ďábel Ệ
Noto Serif|20|efficient Wave Tomato 1/2
Amiri|24|السَّلَامُ عَلَيْكُمْ ورحمة الله
Amiri|24|بِسْمِ ٱللَّٰهِ 123 ABC
Noto Sans Devanagari|20|क्षत्रिय हिन्दी र्क श्री कि
Noto Sans Thai|20|ภาษาไทย น้ำ ปิ่น
Noto Sans Hebrew|20|שָׁלוֹם עולם
Noto Sans Khmer|20|ភាសាខ្មែរ
Noto Sans Tamil|20|தமிழ் கொ
Noto Sans Bengali|20|বাংলা ক্ষ র্ক
Noto Sans Myanmar|20|မြန်မာဘာသာ""".split("\n")

GTK_TEXTS = QT_TEXTS
