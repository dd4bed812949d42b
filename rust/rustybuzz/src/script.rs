//! Scripts.

use core::str::FromStr;
use ttf_parser::Tag;

/// The script of a text, named by its tag of ISO 15924.
#[derive(Clone, Copy, PartialEq, Eq, PartialOrd, Ord, Hash, Debug)]
pub struct Script(pub(crate) vukhaso::Script);

impl Script {
    /// The script of a tag of ISO 15924, in any case.
    pub fn from_iso15924_tag(tag: Tag) -> Option<Script> {
        vukhaso::Script::from_iso15924_tag(vukhaso::Tag(tag.0)).map(Script)
    }

    /// The tag of the script.
    pub fn tag(&self) -> Tag {
        Tag(self.0.tag().0)
    }
}

impl FromStr for Script {
    type Err = &'static str;

    fn from_str(text: &str) -> Result<Self, &'static str> {
        Script::from_iso15924_tag(Tag::from_bytes_lossy(text.as_bytes())).ok_or("invalid script")
    }
}

/// The scripts that have a name.
macro_rules! scripts {
    ($($name:ident)*) => {
        $(
            #[allow(missing_docs)]
            pub const $name: Script = Script(vukhaso::script::$name);
        )*
    };
}

scripts! {
    COMMON
    INHERITED
    ARABIC
    ARMENIAN
    BENGALI
    CYRILLIC
    DEVANAGARI
    GEORGIAN
    GREEK
    GUJARATI
    GURMUKHI
    HANGUL
    HAN
    HEBREW
    HIRAGANA
    KANNADA
    KATAKANA
    LAO
    LATIN
    MALAYALAM
    ORIYA
    TAMIL
    TELUGU
    THAI
    TIBETAN
    BOPOMOFO
    BRAILLE
    CANADIAN_SYLLABICS
    CHEROKEE
    ETHIOPIC
    KHMER
    MONGOLIAN
    MYANMAR
    OGHAM
    RUNIC
    SINHALA
    SYRIAC
    THAANA
    YI
    DESERET
    GOTHIC
    OLD_ITALIC
    BUHID
    HANUNOO
    TAGALOG
    TAGBANWA
    CYPRIOT
    LIMBU
    LINEAR_B
    OSMANYA
    SHAVIAN
    TAI_LE
    UGARITIC
    BUGINESE
    COPTIC
    GLAGOLITIC
    KHAROSHTHI
    NEW_TAI_LUE
    OLD_PERSIAN
    SYLOTI_NAGRI
    TIFINAGH
    UNKNOWN
    BALINESE
    CUNEIFORM
    NKO
    PHAGS_PA
    PHOENICIAN
    CARIAN
    CHAM
    KAYAH_LI
    LEPCHA
    LYCIAN
    LYDIAN
    OL_CHIKI
    REJANG
    SAURASHTRA
    SUNDANESE
    VAI
    AVESTAN
    BAMUM
    EGYPTIAN_HIEROGLYPHS
    IMPERIAL_ARAMAIC
    INSCRIPTIONAL_PAHLAVI
    INSCRIPTIONAL_PARTHIAN
    JAVANESE
    KAITHI
    LISU
    MEETEI_MAYEK
    OLD_SOUTH_ARABIAN
    OLD_TURKIC
    SAMARITAN
    TAI_THAM
    TAI_VIET
    BATAK
    BRAHMI
    MANDAIC
    CHAKMA
    MEROITIC_CURSIVE
    MEROITIC_HIEROGLYPHS
    MIAO
    SHARADA
    SORA_SOMPENG
    TAKRI
    BASSA_VAH
    CAUCASIAN_ALBANIAN
    DUPLOYAN
    ELBASAN
    GRANTHA
    KHOJKI
    KHUDAWADI
    LINEAR_A
    MAHAJANI
    MANICHAEAN
    MENDE_KIKAKUI
    MODI
    MRO
    NABATAEAN
    OLD_NORTH_ARABIAN
    OLD_PERMIC
    PAHAWH_HMONG
    PALMYRENE
    PAU_CIN_HAU
    PSALTER_PAHLAVI
    SIDDHAM
    TIRHUTA
    WARANG_CITI
    AHOM
    ANATOLIAN_HIEROGLYPHS
    HATRAN
    MULTANI
    OLD_HUNGARIAN
    SIGNWRITING
    ADLAM
    BHAIKSUKI
    MARCHEN
    OSAGE
    TANGUT
    NEWA
    MASARAM_GONDI
    NUSHU
    SOYOMBO
    ZANABAZAR_SQUARE
    DOGRA
    GUNJALA_GONDI
    HANIFI_ROHINGYA
    MAKASAR
    MEDEFAIDRIN
    OLD_SOGDIAN
    SOGDIAN
    ELYMAIC
    NANDINAGARI
    NYIAKENG_PUACHUE_HMONG
    WANCHO
    CHORASMIAN
    DIVES_AKURU
    KHITAN_SMALL_SCRIPT
    YEZIDI
    CYPRO_MINOAN
    OLD_UYGHUR
    TANGSA
    TOTO
    VITHKUQI
    KAWI
    NAG_MUNDARI
    GARAY
    GURUNG_KHEMA
    KIRAT_RAI
    OL_ONAL
    SUNUWAR
    TODHRI
    TULU_TIGALARI
    SCRIPT_MATH
    MYANMAR_ZAWGYI
}
