// Written by tools/plain_rust from the rows of the kit's crate ucd_script (Unicode 18.0.0). Do not edit.

/// The values of the property `Script`.
#[derive(Clone, Copy, Debug, PartialEq, Eq, Hash)]
pub enum Script {
    /// `Adlam`.
    Adlam,
    /// `CaucasianAlbanian`.
    CaucasianAlbanian,
    /// `Ahom`.
    Ahom,
    /// `Arabic`.
    Arabic,
    /// `ImperialAramaic`.
    ImperialAramaic,
    /// `Armenian`.
    Armenian,
    /// `Avestan`.
    Avestan,
    /// `Balinese`.
    Balinese,
    /// `Bamum`.
    Bamum,
    /// `BassaVah`.
    BassaVah,
    /// `Batak`.
    Batak,
    /// `Bengali`.
    Bengali,
    /// `BeriaErfe`.
    BeriaErfe,
    /// `Bhaiksuki`.
    Bhaiksuki,
    /// `Bopomofo`.
    Bopomofo,
    /// `Brahmi`.
    Brahmi,
    /// `Braille`.
    Braille,
    /// `Buginese`.
    Buginese,
    /// `Buhid`.
    Buhid,
    /// `Chakma`.
    Chakma,
    /// `CanadianAboriginal`.
    CanadianAboriginal,
    /// `Carian`.
    Carian,
    /// `Cham`.
    Cham,
    /// `Cherokee`.
    Cherokee,
    /// `Chorasmian`.
    Chorasmian,
    /// `Coptic`.
    Coptic,
    /// `CyproMinoan`.
    CyproMinoan,
    /// `Cypriot`.
    Cypriot,
    /// `Cyrillic`.
    Cyrillic,
    /// `Devanagari`.
    Devanagari,
    /// `DivesAkuru`.
    DivesAkuru,
    /// `Dogra`.
    Dogra,
    /// `Deseret`.
    Deseret,
    /// `Duployan`.
    Duployan,
    /// `EgyptianHieroglyphs`.
    EgyptianHieroglyphs,
    /// `Elbasan`.
    Elbasan,
    /// `Elymaic`.
    Elymaic,
    /// `Ethiopic`.
    Ethiopic,
    /// `Garay`.
    Garay,
    /// `Georgian`.
    Georgian,
    /// `Glagolitic`.
    Glagolitic,
    /// `GunjalaGondi`.
    GunjalaGondi,
    /// `MasaramGondi`.
    MasaramGondi,
    /// `Gothic`.
    Gothic,
    /// `Grantha`.
    Grantha,
    /// `Greek`.
    Greek,
    /// `Gujarati`.
    Gujarati,
    /// `GurungKhema`.
    GurungKhema,
    /// `Gurmukhi`.
    Gurmukhi,
    /// `Hangul`.
    Hangul,
    /// `Han`.
    Han,
    /// `Hanunoo`.
    Hanunoo,
    /// `Hatran`.
    Hatran,
    /// `Hebrew`.
    Hebrew,
    /// `Hiragana`.
    Hiragana,
    /// `AnatolianHieroglyphs`.
    AnatolianHieroglyphs,
    /// `PahawhHmong`.
    PahawhHmong,
    /// `NyiakengPuachueHmong`.
    NyiakengPuachueHmong,
    /// `OldHungarian`.
    OldHungarian,
    /// `OldItalic`.
    OldItalic,
    /// `Javanese`.
    Javanese,
    /// `Jurchen`.
    Jurchen,
    /// `KayahLi`.
    KayahLi,
    /// `Katakana`.
    Katakana,
    /// `Kawi`.
    Kawi,
    /// `Kharoshthi`.
    Kharoshthi,
    /// `Khmer`.
    Khmer,
    /// `Khojki`.
    Khojki,
    /// `KhitanSmallScript`.
    KhitanSmallScript,
    /// `Kannada`.
    Kannada,
    /// `KiratRai`.
    KiratRai,
    /// `Kaithi`.
    Kaithi,
    /// `TaiTham`.
    TaiTham,
    /// `Lao`.
    Lao,
    /// `Latin`.
    Latin,
    /// `Lepcha`.
    Lepcha,
    /// `Limbu`.
    Limbu,
    /// `LinearA`.
    LinearA,
    /// `LinearB`.
    LinearB,
    /// `Lisu`.
    Lisu,
    /// `Lycian`.
    Lycian,
    /// `Lydian`.
    Lydian,
    /// `Mahajani`.
    Mahajani,
    /// `Makasar`.
    Makasar,
    /// `Mandaic`.
    Mandaic,
    /// `Manichaean`.
    Manichaean,
    /// `Marchen`.
    Marchen,
    /// `Medefaidrin`.
    Medefaidrin,
    /// `MendeKikakui`.
    MendeKikakui,
    /// `MeroiticCursive`.
    MeroiticCursive,
    /// `MeroiticHieroglyphs`.
    MeroiticHieroglyphs,
    /// `Malayalam`.
    Malayalam,
    /// `Modi`.
    Modi,
    /// `Mongolian`.
    Mongolian,
    /// `Mro`.
    Mro,
    /// `MeeteiMayek`.
    MeeteiMayek,
    /// `Multani`.
    Multani,
    /// `Myanmar`.
    Myanmar,
    /// `NagMundari`.
    NagMundari,
    /// `Nandinagari`.
    Nandinagari,
    /// `OldNorthArabian`.
    OldNorthArabian,
    /// `Nabataean`.
    Nabataean,
    /// `Newa`.
    Newa,
    /// `Nko`.
    Nko,
    /// `Nushu`.
    Nushu,
    /// `Ogham`.
    Ogham,
    /// `OlChiki`.
    OlChiki,
    /// `OlOnal`.
    OlOnal,
    /// `OldTurkic`.
    OldTurkic,
    /// `Oriya`.
    Oriya,
    /// `Osage`.
    Osage,
    /// `Osmanya`.
    Osmanya,
    /// `OldUyghur`.
    OldUyghur,
    /// `Palmyrene`.
    Palmyrene,
    /// `PauCinHau`.
    PauCinHau,
    /// `ProtoCuneiform`.
    ProtoCuneiform,
    /// `OldPermic`.
    OldPermic,
    /// `PhagsPa`.
    PhagsPa,
    /// `InscriptionalPahlavi`.
    InscriptionalPahlavi,
    /// `PsalterPahlavi`.
    PsalterPahlavi,
    /// `Phoenician`.
    Phoenician,
    /// `Miao`.
    Miao,
    /// `InscriptionalParthian`.
    InscriptionalParthian,
    /// `Rejang`.
    Rejang,
    /// `HanifiRohingya`.
    HanifiRohingya,
    /// `Runic`.
    Runic,
    /// `Samaritan`.
    Samaritan,
    /// `OldSouthArabian`.
    OldSouthArabian,
    /// `Saurashtra`.
    Saurashtra,
    /// `Seal`.
    Seal,
    /// `SignWriting`.
    SignWriting,
    /// `Shavian`.
    Shavian,
    /// `Sharada`.
    Sharada,
    /// `Siddham`.
    Siddham,
    /// `Sidetic`.
    Sidetic,
    /// `Khudawadi`.
    Khudawadi,
    /// `Sinhala`.
    Sinhala,
    /// `Sogdian`.
    Sogdian,
    /// `OldSogdian`.
    OldSogdian,
    /// `SoraSompeng`.
    SoraSompeng,
    /// `Soyombo`.
    Soyombo,
    /// `Sundanese`.
    Sundanese,
    /// `Sunuwar`.
    Sunuwar,
    /// `SylotiNagri`.
    SylotiNagri,
    /// `Syriac`.
    Syriac,
    /// `Tagbanwa`.
    Tagbanwa,
    /// `Takri`.
    Takri,
    /// `TaiLe`.
    TaiLe,
    /// `NewTaiLue`.
    NewTaiLue,
    /// `Tamil`.
    Tamil,
    /// `Tangut`.
    Tangut,
    /// `TaiViet`.
    TaiViet,
    /// `TaiYo`.
    TaiYo,
    /// `Telugu`.
    Telugu,
    /// `Tifinagh`.
    Tifinagh,
    /// `Tagalog`.
    Tagalog,
    /// `Thaana`.
    Thaana,
    /// `Thai`.
    Thai,
    /// `Tibetan`.
    Tibetan,
    /// `Tirhuta`.
    Tirhuta,
    /// `Tangsa`.
    Tangsa,
    /// `Todhri`.
    Todhri,
    /// `TolongSiki`.
    TolongSiki,
    /// `Toto`.
    Toto,
    /// `TuluTigalari`.
    TuluTigalari,
    /// `Ugaritic`.
    Ugaritic,
    /// `Vai`.
    Vai,
    /// `Vithkuqi`.
    Vithkuqi,
    /// `WarangCiti`.
    WarangCiti,
    /// `Wancho`.
    Wancho,
    /// `OldPersian`.
    OldPersian,
    /// `Cuneiform`.
    Cuneiform,
    /// `Yezidi`.
    Yezidi,
    /// `Yi`.
    Yi,
    /// `ZanabazarSquare`.
    ZanabazarSquare,
    /// `Inherited`.
    Inherited,
    /// `Common`.
    Common,
    /// `Unknown`.
    Unknown,
}

use Script::{
    Adlam, Ahom, AnatolianHieroglyphs, Arabic, Armenian, Avestan, Balinese, Bamum, BassaVah, Batak,
    Bengali, BeriaErfe, Bhaiksuki, Bopomofo, Brahmi, Braille, Buginese, Buhid, CanadianAboriginal,
    Carian, CaucasianAlbanian, Chakma, Cham, Cherokee, Chorasmian, Common, Coptic, Cuneiform,
    Cypriot, CyproMinoan, Cyrillic, Deseret, Devanagari, DivesAkuru, Dogra, Duployan,
    EgyptianHieroglyphs, Elbasan, Elymaic, Ethiopic, Garay, Georgian, Glagolitic, Gothic, Grantha,
    Greek, Gujarati, GunjalaGondi, Gurmukhi, GurungKhema, Han, Hangul, HanifiRohingya, Hanunoo,
    Hatran, Hebrew, Hiragana, ImperialAramaic, Inherited, InscriptionalPahlavi,
    InscriptionalParthian, Javanese, Jurchen, Kaithi, Kannada, Katakana, Kawi, KayahLi, Kharoshthi,
    KhitanSmallScript, Khmer, Khojki, Khudawadi, KiratRai, Lao, Latin, Lepcha, Limbu, LinearA,
    LinearB, Lisu, Lycian, Lydian, Mahajani, Makasar, Malayalam, Mandaic, Manichaean, Marchen,
    MasaramGondi, Medefaidrin, MeeteiMayek, MendeKikakui, MeroiticCursive, MeroiticHieroglyphs,
    Miao, Modi, Mongolian, Mro, Multani, Myanmar, Nabataean, NagMundari, Nandinagari, NewTaiLue,
    Newa, Nko, Nushu, NyiakengPuachueHmong, Ogham, OlChiki, OlOnal, OldHungarian, OldItalic,
    OldNorthArabian, OldPermic, OldPersian, OldSogdian, OldSouthArabian, OldTurkic, OldUyghur,
    Oriya, Osage, Osmanya, PahawhHmong, Palmyrene, PauCinHau, PhagsPa, Phoenician, ProtoCuneiform,
    PsalterPahlavi, Rejang, Runic, Samaritan, Saurashtra, Seal, Sharada, Shavian, Siddham, Sidetic,
    SignWriting, Sinhala, Sogdian, SoraSompeng, Soyombo, Sundanese, Sunuwar, SylotiNagri, Syriac,
    Tagalog, Tagbanwa, TaiLe, TaiTham, TaiViet, TaiYo, Takri, Tamil, Tangsa, Tangut, Telugu,
    Thaana, Thai, Tibetan, Tifinagh, Tirhuta, Todhri, TolongSiki, Toto, TuluTigalari, Ugaritic,
    Unknown, Vai, Vithkuqi, Wancho, WarangCiti, Yezidi, Yi, ZanabazarSquare,
};

/// The first code point of each run, and the value of all in it.
#[rustfmt::skip]
pub(super) static SCRIPT_RUNS: [(u32, Script); 1732] = [
    (0x0, Common), (0x41, Latin), (0x5B, Common), (0x61, Latin), (0x7B, Common), (0xAA, Latin), (0xAB, Common),
    (0xBA, Latin), (0xBB, Common), (0xC0, Latin), (0xD7, Common), (0xD8, Latin), (0xF7, Common), (0xF8, Latin),
    (0x2B9, Common), (0x2E0, Latin), (0x2E5, Common), (0x2EA, Bopomofo), (0x2EC, Common), (0x300, Inherited),
    (0x370, Greek), (0x374, Common), (0x375, Greek), (0x378, Unknown), (0x37A, Greek), (0x37E, Common),
    (0x37F, Greek), (0x380, Unknown), (0x384, Greek), (0x385, Common), (0x386, Greek), (0x387, Common),
    (0x388, Greek), (0x38B, Unknown), (0x38C, Greek), (0x38D, Unknown), (0x38E, Greek), (0x3A2, Unknown),
    (0x3A3, Greek), (0x3E2, Coptic), (0x3F0, Greek), (0x400, Cyrillic), (0x485, Inherited), (0x487, Cyrillic),
    (0x530, Unknown), (0x531, Armenian), (0x557, Unknown), (0x558, Armenian), (0x590, Unknown), (0x591, Hebrew),
    (0x5CA, Unknown), (0x5D0, Hebrew), (0x5EB, Unknown), (0x5EF, Hebrew), (0x5F5, Unknown), (0x600, Arabic),
    (0x605, Common), (0x606, Arabic), (0x60C, Common), (0x60D, Arabic), (0x61B, Common), (0x61C, Arabic),
    (0x61F, Common), (0x620, Arabic), (0x640, Common), (0x641, Arabic), (0x64B, Inherited), (0x656, Arabic),
    (0x670, Inherited), (0x671, Arabic), (0x6DD, Common), (0x6DE, Arabic), (0x700, Syriac), (0x70E, Unknown),
    (0x70F, Syriac), (0x74B, Unknown), (0x74D, Syriac), (0x750, Arabic), (0x780, Thaana), (0x7B2, Unknown),
    (0x7C0, Nko), (0x7FB, Unknown), (0x7FD, Nko), (0x800, Samaritan), (0x82E, Unknown), (0x830, Samaritan),
    (0x83F, Unknown), (0x840, Mandaic), (0x85C, Unknown), (0x85E, Mandaic), (0x85F, Unknown), (0x860, Syriac),
    (0x86B, Unknown), (0x870, Arabic), (0x892, Unknown), (0x897, Arabic), (0x8E2, Common), (0x8E3, Arabic),
    (0x900, Devanagari), (0x951, Inherited), (0x955, Devanagari), (0x964, Common), (0x966, Devanagari),
    (0x980, Bengali), (0x984, Unknown), (0x985, Bengali), (0x98D, Unknown), (0x98F, Bengali), (0x991, Unknown),
    (0x993, Bengali), (0x9A9, Unknown), (0x9AA, Bengali), (0x9B1, Unknown), (0x9B2, Bengali), (0x9B3, Unknown),
    (0x9B6, Bengali), (0x9BA, Unknown), (0x9BC, Bengali), (0x9C5, Unknown), (0x9C7, Bengali), (0x9C9, Unknown),
    (0x9CB, Bengali), (0x9CF, Unknown), (0x9D7, Bengali), (0x9D8, Unknown), (0x9DC, Bengali), (0x9DE, Unknown),
    (0x9DF, Bengali), (0x9E4, Unknown), (0x9E6, Bengali), (0x9FF, Unknown), (0xA01, Gurmukhi), (0xA04, Unknown),
    (0xA05, Gurmukhi), (0xA0B, Unknown), (0xA0F, Gurmukhi), (0xA11, Unknown), (0xA13, Gurmukhi), (0xA29, Unknown),
    (0xA2A, Gurmukhi), (0xA31, Unknown), (0xA32, Gurmukhi), (0xA34, Unknown), (0xA35, Gurmukhi), (0xA37, Unknown),
    (0xA38, Gurmukhi), (0xA3A, Unknown), (0xA3C, Gurmukhi), (0xA3D, Unknown), (0xA3E, Gurmukhi), (0xA43, Unknown),
    (0xA47, Gurmukhi), (0xA49, Unknown), (0xA4B, Gurmukhi), (0xA4E, Unknown), (0xA51, Gurmukhi), (0xA52, Unknown),
    (0xA59, Gurmukhi), (0xA5D, Unknown), (0xA5E, Gurmukhi), (0xA5F, Unknown), (0xA66, Gurmukhi), (0xA77, Unknown),
    (0xA81, Gujarati), (0xA84, Unknown), (0xA85, Gujarati), (0xA8E, Unknown), (0xA8F, Gujarati), (0xA92, Unknown),
    (0xA93, Gujarati), (0xAA9, Unknown), (0xAAA, Gujarati), (0xAB1, Unknown), (0xAB2, Gujarati), (0xAB4, Unknown),
    (0xAB5, Gujarati), (0xABA, Unknown), (0xABC, Gujarati), (0xAC6, Unknown), (0xAC7, Gujarati), (0xACA, Unknown),
    (0xACB, Gujarati), (0xACE, Unknown), (0xAD0, Gujarati), (0xAD1, Unknown), (0xAE0, Gujarati), (0xAE4, Unknown),
    (0xAE6, Gujarati), (0xAF2, Unknown), (0xAF9, Gujarati), (0xB00, Unknown), (0xB01, Oriya), (0xB04, Unknown),
    (0xB05, Oriya), (0xB0D, Unknown), (0xB0F, Oriya), (0xB11, Unknown), (0xB13, Oriya), (0xB29, Unknown),
    (0xB2A, Oriya), (0xB31, Unknown), (0xB32, Oriya), (0xB34, Unknown), (0xB35, Oriya), (0xB3A, Unknown),
    (0xB3C, Oriya), (0xB45, Unknown), (0xB47, Oriya), (0xB49, Unknown), (0xB4B, Oriya), (0xB4E, Unknown),
    (0xB53, Oriya), (0xB58, Unknown), (0xB5C, Oriya), (0xB5E, Unknown), (0xB5F, Oriya), (0xB64, Unknown),
    (0xB66, Oriya), (0xB78, Unknown), (0xB82, Tamil), (0xB84, Unknown), (0xB85, Tamil), (0xB8B, Unknown),
    (0xB8E, Tamil), (0xB91, Unknown), (0xB92, Tamil), (0xB96, Unknown), (0xB99, Tamil), (0xB9B, Unknown),
    (0xB9C, Tamil), (0xB9D, Unknown), (0xB9E, Tamil), (0xBA0, Unknown), (0xBA3, Tamil), (0xBA5, Unknown),
    (0xBA8, Tamil), (0xBAB, Unknown), (0xBAE, Tamil), (0xBBA, Unknown), (0xBBE, Tamil), (0xBC3, Unknown),
    (0xBC6, Tamil), (0xBC9, Unknown), (0xBCA, Tamil), (0xBCE, Unknown), (0xBD0, Tamil), (0xBD1, Unknown),
    (0xBD7, Tamil), (0xBD8, Unknown), (0xBE6, Tamil), (0xBFB, Unknown), (0xC00, Telugu), (0xC0D, Unknown),
    (0xC0E, Telugu), (0xC11, Unknown), (0xC12, Telugu), (0xC29, Unknown), (0xC2A, Telugu), (0xC3A, Unknown),
    (0xC3C, Telugu), (0xC45, Unknown), (0xC46, Telugu), (0xC49, Unknown), (0xC4A, Telugu), (0xC4E, Unknown),
    (0xC55, Telugu), (0xC57, Unknown), (0xC58, Telugu), (0xC5B, Unknown), (0xC5C, Telugu), (0xC5E, Unknown),
    (0xC60, Telugu), (0xC64, Unknown), (0xC66, Telugu), (0xC70, Unknown), (0xC77, Telugu), (0xC80, Kannada),
    (0xC8D, Unknown), (0xC8E, Kannada), (0xC91, Unknown), (0xC92, Kannada), (0xCA9, Unknown), (0xCAA, Kannada),
    (0xCB4, Unknown), (0xCB5, Kannada), (0xCBA, Unknown), (0xCBC, Kannada), (0xCC5, Unknown), (0xCC6, Kannada),
    (0xCC9, Unknown), (0xCCA, Kannada), (0xCCE, Unknown), (0xCD5, Kannada), (0xCD7, Unknown), (0xCDC, Kannada),
    (0xCDF, Unknown), (0xCE0, Kannada), (0xCE4, Unknown), (0xCE6, Kannada), (0xCF0, Unknown), (0xCF1, Kannada),
    (0xCF4, Unknown), (0xD00, Malayalam), (0xD0D, Unknown), (0xD0E, Malayalam), (0xD11, Unknown),
    (0xD12, Malayalam), (0xD45, Unknown), (0xD46, Malayalam), (0xD49, Unknown), (0xD4A, Malayalam),
    (0xD50, Unknown), (0xD54, Malayalam), (0xD64, Unknown), (0xD66, Malayalam), (0xD80, Unknown), (0xD81, Sinhala),
    (0xD84, Unknown), (0xD85, Sinhala), (0xD97, Unknown), (0xD9A, Sinhala), (0xDB2, Unknown), (0xDB3, Sinhala),
    (0xDBC, Unknown), (0xDBD, Sinhala), (0xDBE, Unknown), (0xDC0, Sinhala), (0xDC7, Unknown), (0xDCA, Sinhala),
    (0xDCB, Unknown), (0xDCF, Sinhala), (0xDD5, Unknown), (0xDD6, Sinhala), (0xDD7, Unknown), (0xDD8, Sinhala),
    (0xDE0, Unknown), (0xDE6, Sinhala), (0xDF0, Unknown), (0xDF2, Sinhala), (0xDF5, Unknown), (0xE01, Thai),
    (0xE3B, Unknown), (0xE3F, Common), (0xE40, Thai), (0xE5C, Unknown), (0xE81, Lao), (0xE83, Unknown),
    (0xE84, Lao), (0xE85, Unknown), (0xE86, Lao), (0xE8B, Unknown), (0xE8C, Lao), (0xEA4, Unknown), (0xEA5, Lao),
    (0xEA6, Unknown), (0xEA7, Lao), (0xEBE, Unknown), (0xEC0, Lao), (0xEC5, Unknown), (0xEC6, Lao),
    (0xEC7, Unknown), (0xEC8, Lao), (0xECF, Unknown), (0xED0, Lao), (0xEDA, Unknown), (0xEDC, Lao),
    (0xEE0, Unknown), (0xF00, Tibetan), (0xF48, Unknown), (0xF49, Tibetan), (0xF6D, Unknown), (0xF71, Tibetan),
    (0xF98, Unknown), (0xF99, Tibetan), (0xFBD, Unknown), (0xFBE, Tibetan), (0xFCD, Unknown), (0xFCE, Tibetan),
    (0xFD5, Common), (0xFD9, Tibetan), (0xFDB, Unknown), (0x1000, Myanmar), (0x10A0, Georgian), (0x10C6, Unknown),
    (0x10C7, Georgian), (0x10C8, Unknown), (0x10CD, Georgian), (0x10CE, Unknown), (0x10D0, Georgian),
    (0x10FB, Common), (0x10FC, Georgian), (0x1100, Hangul), (0x1200, Ethiopic), (0x1249, Unknown),
    (0x124A, Ethiopic), (0x124E, Unknown), (0x1250, Ethiopic), (0x1257, Unknown), (0x1258, Ethiopic),
    (0x1259, Unknown), (0x125A, Ethiopic), (0x125E, Unknown), (0x1260, Ethiopic), (0x1289, Unknown),
    (0x128A, Ethiopic), (0x128E, Unknown), (0x1290, Ethiopic), (0x12B1, Unknown), (0x12B2, Ethiopic),
    (0x12B6, Unknown), (0x12B8, Ethiopic), (0x12BF, Unknown), (0x12C0, Ethiopic), (0x12C1, Unknown),
    (0x12C2, Ethiopic), (0x12C6, Unknown), (0x12C8, Ethiopic), (0x12D7, Unknown), (0x12D8, Ethiopic),
    (0x1311, Unknown), (0x1312, Ethiopic), (0x1316, Unknown), (0x1318, Ethiopic), (0x135B, Unknown),
    (0x135D, Ethiopic), (0x137D, Unknown), (0x1380, Ethiopic), (0x139A, Unknown), (0x13A0, Cherokee),
    (0x13F6, Unknown), (0x13F8, Cherokee), (0x13FE, Unknown), (0x1400, CanadianAboriginal), (0x1680, Ogham),
    (0x169D, Unknown), (0x16A0, Runic), (0x16EB, Common), (0x16EE, Runic), (0x16F9, Unknown), (0x1700, Tagalog),
    (0x1716, Unknown), (0x171F, Tagalog), (0x1720, Hanunoo), (0x1735, Common), (0x1737, Unknown), (0x1740, Buhid),
    (0x1754, Unknown), (0x1760, Tagbanwa), (0x176D, Unknown), (0x176E, Tagbanwa), (0x1771, Unknown),
    (0x1772, Tagbanwa), (0x1774, Unknown), (0x1780, Khmer), (0x17DE, Unknown), (0x17E0, Khmer), (0x17EA, Unknown),
    (0x17F0, Khmer), (0x17FA, Unknown), (0x1800, Mongolian), (0x1802, Common), (0x1804, Mongolian),
    (0x1805, Common), (0x1806, Mongolian), (0x181A, Unknown), (0x1820, Mongolian), (0x1879, Unknown),
    (0x1880, Mongolian), (0x18AB, Unknown), (0x18B0, CanadianAboriginal), (0x18F6, Unknown), (0x1900, Limbu),
    (0x191F, Unknown), (0x1920, Limbu), (0x192C, Unknown), (0x1930, Limbu), (0x193C, Unknown), (0x1940, Limbu),
    (0x1941, Unknown), (0x1944, Limbu), (0x1950, TaiLe), (0x196E, Unknown), (0x1970, TaiLe), (0x1975, Unknown),
    (0x1980, NewTaiLue), (0x19AC, Unknown), (0x19B0, NewTaiLue), (0x19CA, Unknown), (0x19D0, NewTaiLue),
    (0x19DB, Unknown), (0x19DE, NewTaiLue), (0x19E0, Khmer), (0x1A00, Buginese), (0x1A1C, Unknown),
    (0x1A1E, Buginese), (0x1A20, TaiTham), (0x1A5F, Unknown), (0x1A60, TaiTham), (0x1A7D, Unknown),
    (0x1A7F, TaiTham), (0x1A8A, Unknown), (0x1A90, TaiTham), (0x1A9A, Unknown), (0x1AA0, TaiTham),
    (0x1AAE, Unknown), (0x1AB0, Inherited), (0x1AF1, Unknown), (0x1B00, Balinese), (0x1B4D, Unknown),
    (0x1B4E, Balinese), (0x1B80, Sundanese), (0x1BC0, Batak), (0x1BF4, Unknown), (0x1BFC, Batak), (0x1C00, Lepcha),
    (0x1C38, Unknown), (0x1C3B, Lepcha), (0x1C4A, Unknown), (0x1C4D, Lepcha), (0x1C50, OlChiki), (0x1C80, Cyrillic),
    (0x1C8B, Unknown), (0x1C90, Georgian), (0x1CBB, Unknown), (0x1CBD, Georgian), (0x1CC0, Sundanese),
    (0x1CC8, Unknown), (0x1CD0, Inherited), (0x1CD3, Common), (0x1CD4, Inherited), (0x1CE1, Common),
    (0x1CE2, Inherited), (0x1CE9, Common), (0x1CED, Inherited), (0x1CEE, Common), (0x1CF4, Inherited),
    (0x1CF5, Common), (0x1CF8, Inherited), (0x1CFA, Common), (0x1CFB, Unknown), (0x1D00, Latin), (0x1D26, Greek),
    (0x1D2B, Cyrillic), (0x1D2C, Latin), (0x1D5D, Greek), (0x1D62, Latin), (0x1D66, Greek), (0x1D6B, Latin),
    (0x1D78, Cyrillic), (0x1D79, Latin), (0x1DBF, Greek), (0x1DC0, Inherited), (0x1E00, Latin), (0x1F00, Greek),
    (0x1F16, Unknown), (0x1F18, Greek), (0x1F1E, Unknown), (0x1F20, Greek), (0x1F46, Unknown), (0x1F48, Greek),
    (0x1F4E, Unknown), (0x1F50, Greek), (0x1F58, Unknown), (0x1F59, Greek), (0x1F5A, Unknown), (0x1F5B, Greek),
    (0x1F5C, Unknown), (0x1F5D, Greek), (0x1F5E, Unknown), (0x1F5F, Greek), (0x1F7E, Unknown), (0x1F80, Greek),
    (0x1FB5, Unknown), (0x1FB6, Greek), (0x1FC5, Unknown), (0x1FC6, Greek), (0x1FD4, Unknown), (0x1FD6, Greek),
    (0x1FDC, Unknown), (0x1FDD, Greek), (0x1FF0, Unknown), (0x1FF2, Greek), (0x1FF5, Unknown), (0x1FF6, Greek),
    (0x1FFF, Unknown), (0x2000, Common), (0x200C, Inherited), (0x200E, Common), (0x2065, Unknown), (0x2066, Common),
    (0x2071, Latin), (0x2072, Unknown), (0x2074, Common), (0x207F, Latin), (0x2080, Common), (0x2090, Latin),
    (0x20A0, Common), (0x20C5, Unknown), (0x20D0, Inherited), (0x20F1, Unknown), (0x2100, Common), (0x2126, Greek),
    (0x2127, Common), (0x212A, Latin), (0x212C, Common), (0x2132, Latin), (0x2133, Common), (0x214E, Latin),
    (0x214F, Common), (0x2160, Latin), (0x2189, Common), (0x218C, Unknown), (0x2190, Common), (0x242A, Unknown),
    (0x2440, Common), (0x244B, Unknown), (0x2460, Common), (0x2800, Braille), (0x2900, Common), (0x2B74, Unknown),
    (0x2B76, Common), (0x2C00, Glagolitic), (0x2C60, Latin), (0x2C80, Coptic), (0x2CF4, Unknown), (0x2CF9, Coptic),
    (0x2D00, Georgian), (0x2D26, Unknown), (0x2D27, Georgian), (0x2D28, Unknown), (0x2D2D, Georgian),
    (0x2D2E, Unknown), (0x2D30, Tifinagh), (0x2D68, Unknown), (0x2D6F, Tifinagh), (0x2D71, Unknown),
    (0x2D7F, Tifinagh), (0x2D80, Ethiopic), (0x2D97, Unknown), (0x2DA0, Ethiopic), (0x2DA7, Unknown),
    (0x2DA8, Ethiopic), (0x2DAF, Unknown), (0x2DB0, Ethiopic), (0x2DB7, Unknown), (0x2DB8, Ethiopic),
    (0x2DBF, Unknown), (0x2DC0, Ethiopic), (0x2DC7, Unknown), (0x2DC8, Ethiopic), (0x2DCF, Unknown),
    (0x2DD0, Ethiopic), (0x2DD7, Unknown), (0x2DD8, Ethiopic), (0x2DDF, Unknown), (0x2DE0, Cyrillic),
    (0x2E00, Common), (0x2E5E, Unknown), (0x2E60, Common), (0x2E64, Unknown), (0x2E80, Han), (0x2E9A, Unknown),
    (0x2E9B, Han), (0x2EF4, Unknown), (0x2F00, Han), (0x2FD6, Unknown), (0x2FF0, Common), (0x3005, Han),
    (0x3006, Common), (0x3007, Han), (0x3008, Common), (0x3021, Han), (0x302A, Inherited), (0x302E, Hangul),
    (0x3030, Common), (0x3038, Han), (0x303C, Common), (0x3040, Unknown), (0x3041, Hiragana), (0x3097, Unknown),
    (0x3099, Inherited), (0x309B, Common), (0x309D, Hiragana), (0x30A0, Common), (0x30A1, Katakana),
    (0x30FB, Common), (0x30FD, Katakana), (0x3100, Unknown), (0x3105, Bopomofo), (0x3130, Unknown),
    (0x3131, Hangul), (0x318F, Unknown), (0x3190, Common), (0x31A0, Bopomofo), (0x31C0, Common), (0x31E6, Unknown),
    (0x31EF, Common), (0x31F0, Katakana), (0x3200, Hangul), (0x321F, Unknown), (0x3220, Common), (0x3260, Hangul),
    (0x327F, Common), (0x32D0, Katakana), (0x32FF, Common), (0x3300, Katakana), (0x3358, Common), (0x3400, Han),
    (0x4DC0, Common), (0x4E00, Han), (0xA000, Yi), (0xA48D, Unknown), (0xA490, Yi), (0xA4C7, Unknown),
    (0xA4D0, Lisu), (0xA500, Vai), (0xA62C, Unknown), (0xA640, Cyrillic), (0xA6A0, Bamum), (0xA6F8, Unknown),
    (0xA700, Common), (0xA722, Latin), (0xA788, Common), (0xA78B, Latin), (0xA7DE, Unknown), (0xA7E2, Latin),
    (0xA7E3, Unknown), (0xA7F1, Latin), (0xA800, SylotiNagri), (0xA82D, Unknown), (0xA830, Common),
    (0xA83A, Unknown), (0xA840, PhagsPa), (0xA878, Unknown), (0xA880, Saurashtra), (0xA8C6, Unknown),
    (0xA8CE, Saurashtra), (0xA8DA, Unknown), (0xA8E0, Devanagari), (0xA900, KayahLi), (0xA92E, Common),
    (0xA92F, KayahLi), (0xA930, Rejang), (0xA954, Unknown), (0xA95F, Rejang), (0xA960, Hangul), (0xA97D, Unknown),
    (0xA980, Javanese), (0xA9CE, Unknown), (0xA9CF, Common), (0xA9D0, Javanese), (0xA9DA, Unknown),
    (0xA9DE, Javanese), (0xA9E0, Myanmar), (0xA9FF, Unknown), (0xAA00, Cham), (0xAA37, Unknown), (0xAA40, Cham),
    (0xAA4E, Unknown), (0xAA50, Cham), (0xAA5A, Unknown), (0xAA5C, Cham), (0xAA60, Myanmar), (0xAA80, TaiViet),
    (0xAAC3, Unknown), (0xAADB, TaiViet), (0xAAE0, MeeteiMayek), (0xAAF7, Unknown), (0xAB01, Ethiopic),
    (0xAB07, Unknown), (0xAB09, Ethiopic), (0xAB0F, Unknown), (0xAB11, Ethiopic), (0xAB17, Unknown),
    (0xAB20, Ethiopic), (0xAB27, Unknown), (0xAB28, Ethiopic), (0xAB2F, Unknown), (0xAB30, Latin), (0xAB5B, Common),
    (0xAB5C, Latin), (0xAB65, Greek), (0xAB66, Latin), (0xAB6A, Common), (0xAB6C, Latin), (0xAB6E, Unknown),
    (0xAB70, Cherokee), (0xABC0, MeeteiMayek), (0xABEE, Unknown), (0xABF0, MeeteiMayek), (0xABFA, Unknown),
    (0xAC00, Hangul), (0xD7A4, Unknown), (0xD7B0, Hangul), (0xD7C7, Unknown), (0xD7CB, Hangul), (0xD7FC, Unknown),
    (0xF900, Han), (0xFA6E, Unknown), (0xFA70, Han), (0xFADA, Unknown), (0xFB00, Latin), (0xFB07, Unknown),
    (0xFB13, Armenian), (0xFB18, Unknown), (0xFB1D, Hebrew), (0xFB37, Unknown), (0xFB38, Hebrew), (0xFB3D, Unknown),
    (0xFB3E, Hebrew), (0xFB3F, Unknown), (0xFB40, Hebrew), (0xFB42, Unknown), (0xFB43, Hebrew), (0xFB45, Unknown),
    (0xFB46, Hebrew), (0xFB50, Arabic), (0xFD3E, Common), (0xFD40, Arabic), (0xFDD0, Unknown), (0xFDF0, Arabic),
    (0xFE00, Inherited), (0xFE10, Common), (0xFE1A, Unknown), (0xFE20, Inherited), (0xFE2E, Cyrillic),
    (0xFE30, Common), (0xFE53, Unknown), (0xFE54, Common), (0xFE67, Unknown), (0xFE68, Common), (0xFE6C, Unknown),
    (0xFE70, Arabic), (0xFE75, Unknown), (0xFE76, Arabic), (0xFEFD, Unknown), (0xFEFF, Common), (0xFF00, Unknown),
    (0xFF01, Common), (0xFF21, Latin), (0xFF3B, Common), (0xFF41, Latin), (0xFF5B, Common), (0xFF66, Katakana),
    (0xFF70, Common), (0xFF71, Katakana), (0xFF9E, Common), (0xFFA0, Hangul), (0xFFBF, Unknown), (0xFFC2, Hangul),
    (0xFFC8, Unknown), (0xFFCA, Hangul), (0xFFD0, Unknown), (0xFFD2, Hangul), (0xFFD8, Unknown), (0xFFDA, Hangul),
    (0xFFDD, Unknown), (0xFFE0, Common), (0xFFE7, Unknown), (0xFFE8, Common), (0xFFEF, Unknown), (0xFFF9, Common),
    (0xFFFE, Unknown), (0x10000, LinearB), (0x1000C, Unknown), (0x1000D, LinearB), (0x10027, Unknown),
    (0x10028, LinearB), (0x1003B, Unknown), (0x1003C, LinearB), (0x1003E, Unknown), (0x1003F, LinearB),
    (0x1004E, Unknown), (0x10050, LinearB), (0x1005E, Unknown), (0x10080, LinearB), (0x100FB, Unknown),
    (0x10100, Common), (0x10103, Unknown), (0x10107, Common), (0x10134, Unknown), (0x10137, Common),
    (0x10140, Greek), (0x1018F, Unknown), (0x10190, Common), (0x1019D, Unknown), (0x101A0, Greek),
    (0x101A1, Unknown), (0x101D0, Common), (0x101FD, Inherited), (0x101FE, Unknown), (0x10280, Lycian),
    (0x1029D, Unknown), (0x102A0, Carian), (0x102D1, Unknown), (0x102E0, Inherited), (0x102E1, Common),
    (0x102FC, Unknown), (0x10300, OldItalic), (0x10324, Unknown), (0x1032D, OldItalic), (0x10330, Gothic),
    (0x1034B, Unknown), (0x10350, OldPermic), (0x1037B, Unknown), (0x10380, Ugaritic), (0x1039E, Unknown),
    (0x1039F, Ugaritic), (0x103A0, OldPersian), (0x103C4, Unknown), (0x103C8, OldPersian), (0x103D6, Unknown),
    (0x10400, Deseret), (0x10450, Shavian), (0x10480, Osmanya), (0x1049E, Unknown), (0x104A0, Osmanya),
    (0x104AA, Unknown), (0x104B0, Osage), (0x104D4, Unknown), (0x104D8, Osage), (0x104FC, Unknown),
    (0x10500, Elbasan), (0x10528, Unknown), (0x10530, CaucasianAlbanian), (0x10564, Unknown),
    (0x1056F, CaucasianAlbanian), (0x10570, Vithkuqi), (0x1057B, Unknown), (0x1057C, Vithkuqi), (0x1058B, Unknown),
    (0x1058C, Vithkuqi), (0x10593, Unknown), (0x10594, Vithkuqi), (0x10596, Unknown), (0x10597, Vithkuqi),
    (0x105A2, Unknown), (0x105A3, Vithkuqi), (0x105B2, Unknown), (0x105B3, Vithkuqi), (0x105BA, Unknown),
    (0x105BB, Vithkuqi), (0x105BD, Unknown), (0x105C0, Todhri), (0x105F4, Unknown), (0x10600, LinearA),
    (0x10737, Unknown), (0x10740, LinearA), (0x10756, Unknown), (0x10760, LinearA), (0x10768, Unknown),
    (0x10780, Latin), (0x10786, Unknown), (0x10787, Latin), (0x107B1, Unknown), (0x107B2, Latin),
    (0x107C0, Unknown), (0x10800, Cypriot), (0x10806, Unknown), (0x10808, Cypriot), (0x10809, Unknown),
    (0x1080A, Cypriot), (0x10836, Unknown), (0x10837, Cypriot), (0x10839, Unknown), (0x1083C, Cypriot),
    (0x1083D, Unknown), (0x1083F, Cypriot), (0x10840, ImperialAramaic), (0x10856, Unknown),
    (0x10857, ImperialAramaic), (0x10860, Palmyrene), (0x10880, Nabataean), (0x1089F, Unknown),
    (0x108A7, Nabataean), (0x108B0, Unknown), (0x108E0, Hatran), (0x108F3, Unknown), (0x108F4, Hatran),
    (0x108F6, Unknown), (0x108FB, Hatran), (0x10900, Phoenician), (0x1091C, Unknown), (0x1091F, Phoenician),
    (0x10920, Lydian), (0x1093A, Unknown), (0x1093F, Lydian), (0x10940, Sidetic), (0x1095A, Unknown),
    (0x10980, MeroiticHieroglyphs), (0x109A0, MeroiticCursive), (0x109B8, Unknown), (0x109BC, MeroiticCursive),
    (0x109D0, Unknown), (0x109D2, MeroiticCursive), (0x10A00, Kharoshthi), (0x10A04, Unknown),
    (0x10A05, Kharoshthi), (0x10A07, Unknown), (0x10A0C, Kharoshthi), (0x10A14, Unknown), (0x10A15, Kharoshthi),
    (0x10A18, Unknown), (0x10A19, Kharoshthi), (0x10A36, Unknown), (0x10A38, Kharoshthi), (0x10A3B, Unknown),
    (0x10A3F, Kharoshthi), (0x10A49, Unknown), (0x10A50, Kharoshthi), (0x10A59, Unknown),
    (0x10A60, OldSouthArabian), (0x10A80, OldNorthArabian), (0x10AA0, Unknown), (0x10AC0, Manichaean),
    (0x10AE7, Unknown), (0x10AEB, Manichaean), (0x10AF7, Unknown), (0x10B00, Avestan), (0x10B36, Unknown),
    (0x10B39, Avestan), (0x10B40, InscriptionalParthian), (0x10B56, Unknown), (0x10B58, InscriptionalParthian),
    (0x10B60, InscriptionalPahlavi), (0x10B73, Unknown), (0x10B78, InscriptionalPahlavi), (0x10B80, PsalterPahlavi),
    (0x10B92, Unknown), (0x10B99, PsalterPahlavi), (0x10B9D, Unknown), (0x10BA9, PsalterPahlavi),
    (0x10BB0, Unknown), (0x10C00, OldTurkic), (0x10C49, Unknown), (0x10C80, OldHungarian), (0x10CB3, Unknown),
    (0x10CC0, OldHungarian), (0x10CF3, Unknown), (0x10CFA, OldHungarian), (0x10D00, HanifiRohingya),
    (0x10D28, Unknown), (0x10D30, HanifiRohingya), (0x10D3A, Unknown), (0x10D40, Garay), (0x10D66, Unknown),
    (0x10D69, Garay), (0x10D86, Unknown), (0x10D8E, Garay), (0x10D90, Unknown), (0x10E60, Arabic),
    (0x10E7F, Unknown), (0x10E80, Yezidi), (0x10EAA, Unknown), (0x10EAB, Yezidi), (0x10EAE, Unknown),
    (0x10EB0, Yezidi), (0x10EB2, Unknown), (0x10EC2, Arabic), (0x10EC8, Unknown), (0x10EC9, Arabic),
    (0x10EEF, Unknown), (0x10EF0, Arabic), (0x10F00, OldSogdian), (0x10F28, Unknown), (0x10F30, Sogdian),
    (0x10F5A, Unknown), (0x10F70, OldUyghur), (0x10F8A, Unknown), (0x10FB0, Chorasmian), (0x10FCC, Unknown),
    (0x10FE0, Elymaic), (0x10FF7, Unknown), (0x11000, Brahmi), (0x1104E, Unknown), (0x11052, Brahmi),
    (0x11076, Unknown), (0x1107F, Brahmi), (0x11080, Kaithi), (0x110C3, Unknown), (0x110CD, Kaithi),
    (0x110CE, Unknown), (0x110D0, SoraSompeng), (0x110E9, Unknown), (0x110F0, SoraSompeng), (0x110FA, Unknown),
    (0x11100, Chakma), (0x11135, Unknown), (0x11136, Chakma), (0x11148, Unknown), (0x11150, Mahajani),
    (0x11177, Unknown), (0x11180, Sharada), (0x111E0, Unknown), (0x111E1, Sinhala), (0x111F5, Unknown),
    (0x11200, Khojki), (0x11212, Unknown), (0x11213, Khojki), (0x11242, Unknown), (0x11280, Multani),
    (0x11287, Unknown), (0x11288, Multani), (0x11289, Unknown), (0x1128A, Multani), (0x1128E, Unknown),
    (0x1128F, Multani), (0x1129E, Unknown), (0x1129F, Multani), (0x112AA, Unknown), (0x112B0, Khudawadi),
    (0x112EB, Unknown), (0x112F0, Khudawadi), (0x112FA, Unknown), (0x11300, Grantha), (0x11304, Unknown),
    (0x11305, Grantha), (0x1130D, Unknown), (0x1130F, Grantha), (0x11311, Unknown), (0x11313, Grantha),
    (0x11329, Unknown), (0x1132A, Grantha), (0x11331, Unknown), (0x11332, Grantha), (0x11334, Unknown),
    (0x11335, Grantha), (0x1133A, Unknown), (0x1133B, Inherited), (0x1133C, Grantha), (0x11345, Unknown),
    (0x11347, Grantha), (0x11349, Unknown), (0x1134B, Grantha), (0x1134E, Unknown), (0x11350, Grantha),
    (0x11351, Unknown), (0x11357, Grantha), (0x11358, Unknown), (0x1135D, Grantha), (0x11364, Unknown),
    (0x11366, Grantha), (0x1136D, Unknown), (0x11370, Grantha), (0x11375, Unknown), (0x11380, TuluTigalari),
    (0x1138A, Unknown), (0x1138B, TuluTigalari), (0x1138C, Unknown), (0x1138E, TuluTigalari), (0x1138F, Unknown),
    (0x11390, TuluTigalari), (0x113B6, Unknown), (0x113B7, TuluTigalari), (0x113C1, Unknown),
    (0x113C2, TuluTigalari), (0x113C3, Unknown), (0x113C5, TuluTigalari), (0x113C6, Unknown),
    (0x113C7, TuluTigalari), (0x113CB, Unknown), (0x113CC, TuluTigalari), (0x113D6, Unknown),
    (0x113D7, TuluTigalari), (0x113D9, Unknown), (0x113E1, TuluTigalari), (0x113E3, Unknown), (0x11400, Newa),
    (0x1145C, Unknown), (0x1145D, Newa), (0x11462, Unknown), (0x11480, Tirhuta), (0x114C8, Unknown),
    (0x114D0, Tirhuta), (0x114DA, Unknown), (0x11580, Siddham), (0x115B6, Unknown), (0x115B8, Siddham),
    (0x115DE, Unknown), (0x11600, Modi), (0x11645, Unknown), (0x11650, Modi), (0x1165A, Unknown),
    (0x11660, Mongolian), (0x1166D, Unknown), (0x11680, Takri), (0x116BA, Unknown), (0x116C0, Takri),
    (0x116CA, Unknown), (0x116D0, Myanmar), (0x116E4, Unknown), (0x11700, Ahom), (0x1171B, Unknown),
    (0x1171D, Ahom), (0x1172C, Unknown), (0x11730, Ahom), (0x11747, Unknown), (0x11800, Dogra), (0x1183C, Unknown),
    (0x118A0, WarangCiti), (0x118F3, Unknown), (0x118FF, WarangCiti), (0x11900, DivesAkuru), (0x11907, Unknown),
    (0x11909, DivesAkuru), (0x1190A, Unknown), (0x1190C, DivesAkuru), (0x11914, Unknown), (0x11915, DivesAkuru),
    (0x11917, Unknown), (0x11918, DivesAkuru), (0x11936, Unknown), (0x11937, DivesAkuru), (0x11939, Unknown),
    (0x1193B, DivesAkuru), (0x11947, Unknown), (0x11950, DivesAkuru), (0x1195A, Unknown), (0x119A0, Nandinagari),
    (0x119A8, Unknown), (0x119AA, Nandinagari), (0x119D8, Unknown), (0x119DA, Nandinagari), (0x119E5, Unknown),
    (0x11A00, ZanabazarSquare), (0x11A48, Unknown), (0x11A50, Soyombo), (0x11AA3, Unknown),
    (0x11AB0, CanadianAboriginal), (0x11AC0, PauCinHau), (0x11AF9, Unknown), (0x11B00, Devanagari),
    (0x11B0B, Unknown), (0x11B60, Sharada), (0x11B68, Unknown), (0x11BC0, Sunuwar), (0x11BE2, Unknown),
    (0x11BF0, Sunuwar), (0x11BFA, Unknown), (0x11C00, Bhaiksuki), (0x11C09, Unknown), (0x11C0A, Bhaiksuki),
    (0x11C37, Unknown), (0x11C38, Bhaiksuki), (0x11C46, Unknown), (0x11C50, Bhaiksuki), (0x11C6D, Unknown),
    (0x11C70, Marchen), (0x11C90, Unknown), (0x11C92, Marchen), (0x11CA8, Unknown), (0x11CA9, Marchen),
    (0x11CB7, Unknown), (0x11D00, MasaramGondi), (0x11D07, Unknown), (0x11D08, MasaramGondi), (0x11D0A, Unknown),
    (0x11D0B, MasaramGondi), (0x11D37, Unknown), (0x11D3A, MasaramGondi), (0x11D3B, Unknown),
    (0x11D3C, MasaramGondi), (0x11D3E, Unknown), (0x11D3F, MasaramGondi), (0x11D48, Unknown),
    (0x11D50, MasaramGondi), (0x11D5A, Unknown), (0x11D60, GunjalaGondi), (0x11D66, Unknown),
    (0x11D67, GunjalaGondi), (0x11D69, Unknown), (0x11D6A, GunjalaGondi), (0x11D8F, Unknown),
    (0x11D90, GunjalaGondi), (0x11D92, Unknown), (0x11D93, GunjalaGondi), (0x11D99, Unknown),
    (0x11DA0, GunjalaGondi), (0x11DAA, Unknown), (0x11DB0, TolongSiki), (0x11DDC, Unknown), (0x11DE0, TolongSiki),
    (0x11DEA, Unknown), (0x11DF0, Bengali), (0x11DF2, Unknown), (0x11EE0, Makasar), (0x11EF9, Unknown),
    (0x11F00, Kawi), (0x11F11, Unknown), (0x11F12, Kawi), (0x11F3B, Unknown), (0x11F3E, Kawi), (0x11F5B, Unknown),
    (0x11FB0, Lisu), (0x11FB1, Unknown), (0x11FC0, Tamil), (0x11FF2, Unknown), (0x11FFF, Tamil),
    (0x12000, Cuneiform), (0x1239A, Unknown), (0x12400, Cuneiform), (0x12544, Unknown), (0x12550, Cuneiform),
    (0x125A8, ProtoCuneiform), (0x1264C, Cuneiform), (0x12687, Unknown), (0x12F90, CyproMinoan), (0x12FF3, Unknown),
    (0x13000, EgyptianHieroglyphs), (0x13456, Unknown), (0x13460, EgyptianHieroglyphs), (0x143FB, Unknown),
    (0x14400, AnatolianHieroglyphs), (0x14647, Unknown), (0x16100, GurungKhema), (0x1613A, Unknown),
    (0x16800, Bamum), (0x16A39, Unknown), (0x16A40, Mro), (0x16A5F, Unknown), (0x16A60, Mro), (0x16A6A, Unknown),
    (0x16A6E, Mro), (0x16A70, Tangsa), (0x16ABF, Unknown), (0x16AC0, Tangsa), (0x16ACA, Unknown),
    (0x16AD0, BassaVah), (0x16AEE, Unknown), (0x16AF0, BassaVah), (0x16AF6, Unknown), (0x16B00, PahawhHmong),
    (0x16B46, Unknown), (0x16B50, PahawhHmong), (0x16B5A, Unknown), (0x16B5B, PahawhHmong), (0x16B62, Unknown),
    (0x16B63, PahawhHmong), (0x16B78, Unknown), (0x16B7D, PahawhHmong), (0x16B90, Unknown), (0x16D40, KiratRai),
    (0x16D7A, Unknown), (0x16E40, Medefaidrin), (0x16E9B, Unknown), (0x16EA0, BeriaErfe), (0x16EB9, Unknown),
    (0x16EBB, BeriaErfe), (0x16ED4, Unknown), (0x16F00, Miao), (0x16F4B, Unknown), (0x16F4F, Miao),
    (0x16F88, Unknown), (0x16F8F, Miao), (0x16FA0, Unknown), (0x16FE0, Tangut), (0x16FE1, Nushu), (0x16FE2, Han),
    (0x16FE4, KhitanSmallScript), (0x16FE5, Unknown), (0x16FF0, Han), (0x16FF7, Unknown), (0x17000, Tangut),
    (0x18B00, KhitanSmallScript), (0x18CDB, Unknown), (0x18CFF, KhitanSmallScript), (0x18D00, Tangut),
    (0x18D21, Unknown), (0x18D80, Tangut), (0x18DF3, Unknown), (0x18E00, Jurchen), (0x19192, Unknown),
    (0x191A0, Jurchen), (0x191D3, Unknown), (0x1AFF0, Katakana), (0x1AFF4, Unknown), (0x1AFF5, Katakana),
    (0x1AFFC, Unknown), (0x1AFFD, Katakana), (0x1AFFF, Unknown), (0x1B000, Katakana), (0x1B001, Hiragana),
    (0x1B120, Katakana), (0x1B123, Hiragana), (0x1B124, Katakana), (0x1B129, Unknown), (0x1B132, Hiragana),
    (0x1B133, Unknown), (0x1B150, Hiragana), (0x1B153, Unknown), (0x1B155, Katakana), (0x1B156, Unknown),
    (0x1B164, Katakana), (0x1B169, Unknown), (0x1B170, Nushu), (0x1B2FC, Unknown), (0x1BC00, Duployan),
    (0x1BC6B, Unknown), (0x1BC70, Duployan), (0x1BC7D, Unknown), (0x1BC80, Duployan), (0x1BC89, Unknown),
    (0x1BC90, Duployan), (0x1BC9A, Unknown), (0x1BC9C, Duployan), (0x1BCA0, Common), (0x1BCA4, Unknown),
    (0x1CC00, Common), (0x1CCFD, Unknown), (0x1CD00, Common), (0x1CEB4, Unknown), (0x1CEBA, Common),
    (0x1CED1, Unknown), (0x1CED2, Common), (0x1CED5, Unknown), (0x1CEDD, Common), (0x1CEFE, Unknown),
    (0x1CF00, Inherited), (0x1CF2E, Unknown), (0x1CF30, Inherited), (0x1CF47, Unknown), (0x1CF50, Common),
    (0x1CFC4, Unknown), (0x1D000, Common), (0x1D0F6, Unknown), (0x1D100, Common), (0x1D127, Inherited),
    (0x1D129, Common), (0x1D167, Inherited), (0x1D16A, Common), (0x1D17B, Inherited), (0x1D183, Common),
    (0x1D185, Inherited), (0x1D18C, Common), (0x1D1AA, Inherited), (0x1D1AE, Common), (0x1D200, Greek),
    (0x1D246, Unknown), (0x1D250, Common), (0x1D25B, Inherited), (0x1D25D, Common), (0x1D282, Unknown),
    (0x1D2C0, Common), (0x1D2D4, Unknown), (0x1D2E0, Common), (0x1D2F4, Unknown), (0x1D300, Common),
    (0x1D357, Unknown), (0x1D360, Common), (0x1D379, Unknown), (0x1D400, Common), (0x1D455, Unknown),
    (0x1D456, Common), (0x1D49D, Unknown), (0x1D49E, Common), (0x1D4A0, Unknown), (0x1D4A2, Common),
    (0x1D4A3, Unknown), (0x1D4A5, Common), (0x1D4A7, Unknown), (0x1D4A9, Common), (0x1D4AD, Unknown),
    (0x1D4AE, Common), (0x1D4BA, Unknown), (0x1D4BB, Common), (0x1D4BC, Unknown), (0x1D4BD, Common),
    (0x1D4C4, Unknown), (0x1D4C5, Common), (0x1D506, Unknown), (0x1D507, Common), (0x1D50B, Unknown),
    (0x1D50D, Common), (0x1D515, Unknown), (0x1D516, Common), (0x1D51D, Unknown), (0x1D51E, Common),
    (0x1D53A, Unknown), (0x1D53B, Common), (0x1D53F, Unknown), (0x1D540, Common), (0x1D545, Unknown),
    (0x1D546, Common), (0x1D547, Unknown), (0x1D54A, Common), (0x1D551, Unknown), (0x1D552, Common),
    (0x1D6A7, Unknown), (0x1D6A8, Common), (0x1D7CC, Unknown), (0x1D7CE, Common), (0x1D800, SignWriting),
    (0x1DA8C, Unknown), (0x1DA9B, SignWriting), (0x1DAA0, Unknown), (0x1DAA1, SignWriting), (0x1DAB0, Unknown),
    (0x1DB00, Common), (0x1DB1D, Unknown), (0x1DF00, Latin), (0x1DF82, Unknown), (0x1DF90, Latin),
    (0x1DF97, Unknown), (0x1DFCD, Latin), (0x1DFF3, Greek), (0x1DFF5, Latin), (0x1E000, Glagolitic),
    (0x1E007, Unknown), (0x1E008, Glagolitic), (0x1E019, Unknown), (0x1E01B, Glagolitic), (0x1E022, Unknown),
    (0x1E023, Glagolitic), (0x1E025, Unknown), (0x1E026, Glagolitic), (0x1E02B, Unknown), (0x1E030, Cyrillic),
    (0x1E06E, Unknown), (0x1E08F, Cyrillic), (0x1E090, Unknown), (0x1E100, NyiakengPuachueHmong),
    (0x1E12D, Unknown), (0x1E130, NyiakengPuachueHmong), (0x1E13E, Unknown), (0x1E140, NyiakengPuachueHmong),
    (0x1E14A, Unknown), (0x1E14E, NyiakengPuachueHmong), (0x1E150, Unknown), (0x1E290, Toto), (0x1E2AF, Unknown),
    (0x1E2C0, Wancho), (0x1E2FA, Unknown), (0x1E2FF, Wancho), (0x1E300, Unknown), (0x1E4D0, NagMundari),
    (0x1E4FA, Unknown), (0x1E5D0, OlOnal), (0x1E5FB, Unknown), (0x1E5FF, OlOnal), (0x1E600, Unknown),
    (0x1E6C0, TaiYo), (0x1E6DF, Unknown), (0x1E6E0, TaiYo), (0x1E6F6, Unknown), (0x1E6FE, TaiYo),
    (0x1E700, Unknown), (0x1E7E0, Ethiopic), (0x1E7E7, Unknown), (0x1E7E8, Ethiopic), (0x1E7EC, Unknown),
    (0x1E7ED, Ethiopic), (0x1E7EF, Unknown), (0x1E7F0, Ethiopic), (0x1E7FF, Unknown), (0x1E800, MendeKikakui),
    (0x1E8C5, Unknown), (0x1E8C7, MendeKikakui), (0x1E8D7, Unknown), (0x1E900, Adlam), (0x1E94C, Unknown),
    (0x1E950, Adlam), (0x1E95A, Unknown), (0x1E95E, Adlam), (0x1E960, Unknown), (0x1EC71, Common),
    (0x1ECB5, Unknown), (0x1ED01, Common), (0x1ED3E, Unknown), (0x1EE00, Arabic), (0x1EE04, Unknown),
    (0x1EE05, Arabic), (0x1EE20, Unknown), (0x1EE21, Arabic), (0x1EE23, Unknown), (0x1EE24, Arabic),
    (0x1EE25, Unknown), (0x1EE27, Arabic), (0x1EE28, Unknown), (0x1EE29, Arabic), (0x1EE33, Unknown),
    (0x1EE34, Arabic), (0x1EE38, Unknown), (0x1EE39, Arabic), (0x1EE3A, Unknown), (0x1EE3B, Arabic),
    (0x1EE3C, Unknown), (0x1EE42, Arabic), (0x1EE43, Unknown), (0x1EE47, Arabic), (0x1EE48, Unknown),
    (0x1EE49, Arabic), (0x1EE4A, Unknown), (0x1EE4B, Arabic), (0x1EE4C, Unknown), (0x1EE4D, Arabic),
    (0x1EE50, Unknown), (0x1EE51, Arabic), (0x1EE53, Unknown), (0x1EE54, Arabic), (0x1EE55, Unknown),
    (0x1EE57, Arabic), (0x1EE58, Unknown), (0x1EE59, Arabic), (0x1EE5A, Unknown), (0x1EE5B, Arabic),
    (0x1EE5C, Unknown), (0x1EE5D, Arabic), (0x1EE5E, Unknown), (0x1EE5F, Arabic), (0x1EE60, Unknown),
    (0x1EE61, Arabic), (0x1EE63, Unknown), (0x1EE64, Arabic), (0x1EE65, Unknown), (0x1EE67, Arabic),
    (0x1EE6B, Unknown), (0x1EE6C, Arabic), (0x1EE73, Unknown), (0x1EE74, Arabic), (0x1EE78, Unknown),
    (0x1EE79, Arabic), (0x1EE7D, Unknown), (0x1EE7E, Arabic), (0x1EE7F, Unknown), (0x1EE80, Arabic),
    (0x1EE8A, Unknown), (0x1EE8B, Arabic), (0x1EE9C, Unknown), (0x1EEA1, Arabic), (0x1EEA4, Unknown),
    (0x1EEA5, Arabic), (0x1EEAA, Unknown), (0x1EEAB, Arabic), (0x1EEBC, Unknown), (0x1EEF0, Arabic),
    (0x1EEF2, Unknown), (0x1F000, Common), (0x1F02C, Unknown), (0x1F030, Common), (0x1F094, Unknown),
    (0x1F0A0, Common), (0x1F0AF, Unknown), (0x1F0B1, Common), (0x1F0C0, Unknown), (0x1F0C1, Common),
    (0x1F0D0, Unknown), (0x1F0D1, Common), (0x1F0F6, Unknown), (0x1F100, Common), (0x1F1AF, Unknown),
    (0x1F1E6, Common), (0x1F200, Hiragana), (0x1F201, Common), (0x1F203, Unknown), (0x1F210, Common),
    (0x1F23C, Unknown), (0x1F240, Common), (0x1F249, Unknown), (0x1F250, Common), (0x1F252, Unknown),
    (0x1F260, Common), (0x1F266, Unknown), (0x1F300, Common), (0x1F6DA, Unknown), (0x1F6DC, Common),
    (0x1F6ED, Unknown), (0x1F6F0, Common), (0x1F6FD, Unknown), (0x1F700, Common), (0x1F7DC, Unknown),
    (0x1F7E0, Common), (0x1F7EC, Unknown), (0x1F7F0, Common), (0x1F80C, Unknown), (0x1F810, Common),
    (0x1F848, Unknown), (0x1F850, Common), (0x1F85A, Unknown), (0x1F860, Common), (0x1F888, Unknown),
    (0x1F890, Common), (0x1F8AE, Unknown), (0x1F8B0, Common), (0x1F8BC, Unknown), (0x1F8C0, Common),
    (0x1F8C2, Unknown), (0x1F8D0, Common), (0x1F8D9, Unknown), (0x1F900, Common), (0x1FA58, Unknown),
    (0x1FA60, Common), (0x1FA6E, Unknown), (0x1FA70, Common), (0x1FA7D, Unknown), (0x1FA80, Common),
    (0x1FAC7, Unknown), (0x1FAC8, Common), (0x1FAC9, Unknown), (0x1FACC, Common), (0x1FADE, Unknown),
    (0x1FADF, Common), (0x1FAEC, Unknown), (0x1FAEF, Common), (0x1FAFB, Unknown), (0x1FB00, Common),
    (0x1FB93, Unknown), (0x1FB94, Common), (0x1FBFB, Unknown), (0x20000, Han), (0x2A6E0, Unknown), (0x2A700, Han),
    (0x2B81F, Unknown), (0x2B820, Han), (0x2CEAE, Unknown), (0x2CEB0, Han), (0x2EBE1, Unknown), (0x2EBF0, Han),
    (0x2EE5E, Unknown), (0x2F800, Han), (0x2FA1E, Unknown), (0x30000, Han), (0x3134B, Unknown), (0x31350, Han),
    (0x3347A, Unknown), (0x3D000, Seal), (0x3FC40, Unknown), (0xE0001, Common), (0xE0002, Unknown),
    (0xE0020, Common), (0xE0080, Unknown), (0xE0100, Inherited), (0xE01F0, Unknown),
];
