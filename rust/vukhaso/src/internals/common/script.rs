// Written by tools/plain_rust from crates/rb_common. Do not edit.

//! The scripts of Unicode Standard Annex 24, named by their ISO 15924 tags: a constant for each that
//! Unicode 16 has, for mathematical notation, and for Burmese text in the Zawgyi encoding.

use crate::common::tag::Tag;
use core::str::FromStr;

mod tags;

pub use tags::constant_tags;

/// The bits of a tag except those that make a letter small.
const CAPITALS: u32 = 0xdfdfdfdf;

/// The bits that make the last three letters of a tag small.
const SMALL_TAIL: u32 = 0x00202020;

/// The bits that say in which column of ASCII each byte of a tag stands.
const COLUMNS: u32 = 0xe0e0e0e0;

/// The columns of a capital letter and three small ones.
const LETTER_COLUMNS: u32 = 0x40606060;

/// A script, named by its ISO 15924 tag in title case (`Latn`).
///
/// The tag of each value gives the value back through [`Script::from_iso15924_tag`]: the type
/// keeps this, so no value holds a tag in another case, the null tag or an alias. A contract sees
/// a script as the number of its tag.
///
/// # Proved
///
/// ```text
/// ghost Value = { ℕ }
/// ghost view = { λ s. s.0.0 }
/// ghost invariant = { λ s. script_of s.0.0 ≡ Some s.0.0 }
/// ghost inverse = { λ n. record { 0 = record { 0 = n } } }
/// ```
#[derive(Clone, Copy, PartialEq, Eq, PartialOrd, Ord, Hash, Debug)]
pub struct Script(Tag);

impl Script {
    /// The script of an ISO 15924 tag in any case.
    ///
    /// The null tag has none. The variants of a script that ISO 15924 lists (`Hans`, `Latf`) give the
    /// script itself, as do the private codes that Unicode once used (`Qaai`, `Qaac`). Any other tag whose
    /// four bytes stand in the columns of the letters, from `@` to DEL, names a script of its own, known or
    /// not; any other tag gives [`UNKNOWN`].
    ///
    /// # Proved
    ///
    /// ```text
    /// ensures { result ≡ script_of tag.0 }
    /// ```
    #[inline]
    pub fn from_iso15924_tag(tag: Tag) -> Option<Script> {
        if tag.is_null() {
            return None;
        }
        let title_case = (tag.0 & CAPITALS) | SMALL_TAIL;
        if let Some(script) = alias(title_case) {
            return Some(script);
        }
        if title_case & COLUMNS == LETTER_COLUMNS {
            return Some(Script(Tag(title_case)));
        }
        Some(UNKNOWN)
    }

    /// The tag of the script, which gives the script back.
    ///
    /// # Proved
    ///
    /// ```text
    /// ensures value { result.0 ≡ self.now }
    /// ensures gives_back { script_of result.0 ≡ Some self.now }
    /// ```
    #[inline]
    pub fn tag(&self) -> Tag {
        self.0
    }
}

///
/// # Proved
///
/// ```text
/// ghost from_str_gives = { λ text r. Answers (script_of (lossy_tag_of text)) (codes "invalid script") r }
/// ```
impl FromStr for Script {
    type Err = &'static str;

    /// The script of a text's first four bytes, padded with spaces, by [`Script::from_iso15924_tag`].
    ///
    /// # Errors
    ///
    /// Only the null tag is refused, with `invalid script`: the empty text, and four zero bytes.
    fn from_str(text: &str) -> Result<Script, &'static str> {
        Script::from_iso15924_tag(Tag::from_bytes_lossy(text.as_bytes())).ok_or("invalid script")
    }
}

/// The script that a tag in title case is another name of.
fn alias(title_case: u32) -> Option<Script> {
    match title_case {
        // Codes that were private once: `Qaai` and `Qaac`.
        0x51616169 => Some(INHERITED),
        0x51616163 => Some(COPTIC),
        // Variants of a script: `Aran`, `Cyrs`, `Geok`, `Hans`, `Hant`, `Jamo`, `Latf`, `Latg`, `Syre`, `Syrj`, `Syrn`.
        0x4172616e => Some(ARABIC),
        0x43797273 => Some(CYRILLIC),
        0x47656f6b => Some(GEORGIAN),
        0x48616e73 | 0x48616e74 => Some(HAN),
        0x4a616d6f => Some(HANGUL),
        0x4c617466 | 0x4c617467 => Some(LATIN),
        0x53797265 | 0x5379726a | 0x5379726e => Some(SYRIAC),
        _ => None,
    }
}

/// `Zyyy`
pub const COMMON: Script = Script(Tag(0x5a797979));
/// `Zinh`
pub const INHERITED: Script = Script(Tag(0x5a696e68));
/// `Arab`
pub const ARABIC: Script = Script(Tag(0x41726162));
/// `Armn`
pub const ARMENIAN: Script = Script(Tag(0x41726d6e));
/// `Beng`
pub const BENGALI: Script = Script(Tag(0x42656e67));
/// `Cyrl`
pub const CYRILLIC: Script = Script(Tag(0x4379726c));
/// `Deva`
pub const DEVANAGARI: Script = Script(Tag(0x44657661));
/// `Geor`
pub const GEORGIAN: Script = Script(Tag(0x47656f72));
/// `Grek`
pub const GREEK: Script = Script(Tag(0x4772656b));
/// `Gujr`
pub const GUJARATI: Script = Script(Tag(0x47756a72));
/// `Guru`
pub const GURMUKHI: Script = Script(Tag(0x47757275));
/// `Hang`
pub const HANGUL: Script = Script(Tag(0x48616e67));
/// `Hani`
pub const HAN: Script = Script(Tag(0x48616e69));
/// `Hebr`
pub const HEBREW: Script = Script(Tag(0x48656272));
/// `Hira`
pub const HIRAGANA: Script = Script(Tag(0x48697261));
/// `Knda`
pub const KANNADA: Script = Script(Tag(0x4b6e6461));
/// `Kana`
pub const KATAKANA: Script = Script(Tag(0x4b616e61));
/// `Laoo`
pub const LAO: Script = Script(Tag(0x4c616f6f));
/// `Latn`
pub const LATIN: Script = Script(Tag(0x4c61746e));
/// `Mlym`
pub const MALAYALAM: Script = Script(Tag(0x4d6c796d));
/// `Orya`
pub const ORIYA: Script = Script(Tag(0x4f727961));
/// `Taml`
pub const TAMIL: Script = Script(Tag(0x54616d6c));
/// `Telu`
pub const TELUGU: Script = Script(Tag(0x54656c75));
/// `Thai`
pub const THAI: Script = Script(Tag(0x54686169));
/// `Tibt`
pub const TIBETAN: Script = Script(Tag(0x54696274));
/// `Bopo`
pub const BOPOMOFO: Script = Script(Tag(0x426f706f));
/// `Brai`
pub const BRAILLE: Script = Script(Tag(0x42726169));
/// `Cans`
pub const CANADIAN_SYLLABICS: Script = Script(Tag(0x43616e73));
/// `Cher`
pub const CHEROKEE: Script = Script(Tag(0x43686572));
/// `Ethi`
pub const ETHIOPIC: Script = Script(Tag(0x45746869));
/// `Khmr`
pub const KHMER: Script = Script(Tag(0x4b686d72));
/// `Mong`
pub const MONGOLIAN: Script = Script(Tag(0x4d6f6e67));
/// `Mymr`
pub const MYANMAR: Script = Script(Tag(0x4d796d72));
/// `Ogam`
pub const OGHAM: Script = Script(Tag(0x4f67616d));
/// `Runr`
pub const RUNIC: Script = Script(Tag(0x52756e72));
/// `Sinh`
pub const SINHALA: Script = Script(Tag(0x53696e68));
/// `Syrc`
pub const SYRIAC: Script = Script(Tag(0x53797263));
/// `Thaa`
pub const THAANA: Script = Script(Tag(0x54686161));
/// `Yiii`
pub const YI: Script = Script(Tag(0x59696969));
/// `Dsrt`
pub const DESERET: Script = Script(Tag(0x44737274));
/// `Goth`
pub const GOTHIC: Script = Script(Tag(0x476f7468));
/// `Ital`
pub const OLD_ITALIC: Script = Script(Tag(0x4974616c));
/// `Buhd`
pub const BUHID: Script = Script(Tag(0x42756864));
/// `Hano`
pub const HANUNOO: Script = Script(Tag(0x48616e6f));
/// `Tglg`
pub const TAGALOG: Script = Script(Tag(0x54676c67));
/// `Tagb`
pub const TAGBANWA: Script = Script(Tag(0x54616762));
/// `Cprt`
pub const CYPRIOT: Script = Script(Tag(0x43707274));
/// `Limb`
pub const LIMBU: Script = Script(Tag(0x4c696d62));
/// `Linb`
pub const LINEAR_B: Script = Script(Tag(0x4c696e62));
/// `Osma`
pub const OSMANYA: Script = Script(Tag(0x4f736d61));
/// `Shaw`
pub const SHAVIAN: Script = Script(Tag(0x53686177));
/// `Tale`
pub const TAI_LE: Script = Script(Tag(0x54616c65));
/// `Ugar`
pub const UGARITIC: Script = Script(Tag(0x55676172));
/// `Bugi`
pub const BUGINESE: Script = Script(Tag(0x42756769));
/// `Copt`
pub const COPTIC: Script = Script(Tag(0x436f7074));
/// `Glag`
pub const GLAGOLITIC: Script = Script(Tag(0x476c6167));
/// `Khar`
pub const KHAROSHTHI: Script = Script(Tag(0x4b686172));
/// `Talu`
pub const NEW_TAI_LUE: Script = Script(Tag(0x54616c75));
/// `Xpeo`
pub const OLD_PERSIAN: Script = Script(Tag(0x5870656f));
/// `Sylo`
pub const SYLOTI_NAGRI: Script = Script(Tag(0x53796c6f));
/// `Tfng`
pub const TIFINAGH: Script = Script(Tag(0x54666e67));
/// `Zzzz`
pub const UNKNOWN: Script = Script(Tag(0x5a7a7a7a));
/// `Bali`
pub const BALINESE: Script = Script(Tag(0x42616c69));
/// `Xsux`
pub const CUNEIFORM: Script = Script(Tag(0x58737578));
/// `Nkoo`
pub const NKO: Script = Script(Tag(0x4e6b6f6f));
/// `Phag`
pub const PHAGS_PA: Script = Script(Tag(0x50686167));
/// `Phnx`
pub const PHOENICIAN: Script = Script(Tag(0x50686e78));
/// `Cari`
pub const CARIAN: Script = Script(Tag(0x43617269));
/// `Cham`
pub const CHAM: Script = Script(Tag(0x4368616d));
/// `Kali`
pub const KAYAH_LI: Script = Script(Tag(0x4b616c69));
/// `Lepc`
pub const LEPCHA: Script = Script(Tag(0x4c657063));
/// `Lyci`
pub const LYCIAN: Script = Script(Tag(0x4c796369));
/// `Lydi`
pub const LYDIAN: Script = Script(Tag(0x4c796469));
/// `Olck`
pub const OL_CHIKI: Script = Script(Tag(0x4f6c636b));
/// `Rjng`
pub const REJANG: Script = Script(Tag(0x526a6e67));
/// `Saur`
pub const SAURASHTRA: Script = Script(Tag(0x53617572));
/// `Sund`
pub const SUNDANESE: Script = Script(Tag(0x53756e64));
/// `Vaii`
pub const VAI: Script = Script(Tag(0x56616969));
/// `Avst`
pub const AVESTAN: Script = Script(Tag(0x41767374));
/// `Bamu`
pub const BAMUM: Script = Script(Tag(0x42616d75));
/// `Egyp`
pub const EGYPTIAN_HIEROGLYPHS: Script = Script(Tag(0x45677970));
/// `Armi`
pub const IMPERIAL_ARAMAIC: Script = Script(Tag(0x41726d69));
/// `Phli`
pub const INSCRIPTIONAL_PAHLAVI: Script = Script(Tag(0x50686c69));
/// `Prti`
pub const INSCRIPTIONAL_PARTHIAN: Script = Script(Tag(0x50727469));
/// `Java`
pub const JAVANESE: Script = Script(Tag(0x4a617661));
/// `Kthi`
pub const KAITHI: Script = Script(Tag(0x4b746869));
/// `Lisu`
pub const LISU: Script = Script(Tag(0x4c697375));
/// `Mtei`
pub const MEETEI_MAYEK: Script = Script(Tag(0x4d746569));
/// `Sarb`
pub const OLD_SOUTH_ARABIAN: Script = Script(Tag(0x53617262));
/// `Orkh`
pub const OLD_TURKIC: Script = Script(Tag(0x4f726b68));
/// `Samr`
pub const SAMARITAN: Script = Script(Tag(0x53616d72));
/// `Lana`
pub const TAI_THAM: Script = Script(Tag(0x4c616e61));
/// `Tavt`
pub const TAI_VIET: Script = Script(Tag(0x54617674));
/// `Batk`
pub const BATAK: Script = Script(Tag(0x4261746b));
/// `Brah`
pub const BRAHMI: Script = Script(Tag(0x42726168));
/// `Mand`
pub const MANDAIC: Script = Script(Tag(0x4d616e64));
/// `Cakm`
pub const CHAKMA: Script = Script(Tag(0x43616b6d));
/// `Merc`
pub const MEROITIC_CURSIVE: Script = Script(Tag(0x4d657263));
/// `Mero`
pub const MEROITIC_HIEROGLYPHS: Script = Script(Tag(0x4d65726f));
/// `Plrd`
pub const MIAO: Script = Script(Tag(0x506c7264));
/// `Shrd`
pub const SHARADA: Script = Script(Tag(0x53687264));
/// `Sora`
pub const SORA_SOMPENG: Script = Script(Tag(0x536f7261));
/// `Takr`
pub const TAKRI: Script = Script(Tag(0x54616b72));
/// `Bass`
pub const BASSA_VAH: Script = Script(Tag(0x42617373));
/// `Aghb`
pub const CAUCASIAN_ALBANIAN: Script = Script(Tag(0x41676862));
/// `Dupl`
pub const DUPLOYAN: Script = Script(Tag(0x4475706c));
/// `Elba`
pub const ELBASAN: Script = Script(Tag(0x456c6261));
/// `Gran`
pub const GRANTHA: Script = Script(Tag(0x4772616e));
/// `Khoj`
pub const KHOJKI: Script = Script(Tag(0x4b686f6a));
/// `Sind`
pub const KHUDAWADI: Script = Script(Tag(0x53696e64));
/// `Lina`
pub const LINEAR_A: Script = Script(Tag(0x4c696e61));
/// `Mahj`
pub const MAHAJANI: Script = Script(Tag(0x4d61686a));
/// `Mani`
pub const MANICHAEAN: Script = Script(Tag(0x4d616e69));
/// `Mend`
pub const MENDE_KIKAKUI: Script = Script(Tag(0x4d656e64));
/// `Modi`
pub const MODI: Script = Script(Tag(0x4d6f6469));
/// `Mroo`
pub const MRO: Script = Script(Tag(0x4d726f6f));
/// `Nbat`
pub const NABATAEAN: Script = Script(Tag(0x4e626174));
/// `Narb`
pub const OLD_NORTH_ARABIAN: Script = Script(Tag(0x4e617262));
/// `Perm`
pub const OLD_PERMIC: Script = Script(Tag(0x5065726d));
/// `Hmng`
pub const PAHAWH_HMONG: Script = Script(Tag(0x486d6e67));
/// `Palm`
pub const PALMYRENE: Script = Script(Tag(0x50616c6d));
/// `Pauc`
pub const PAU_CIN_HAU: Script = Script(Tag(0x50617563));
/// `Phlp`
pub const PSALTER_PAHLAVI: Script = Script(Tag(0x50686c70));
/// `Sidd`
pub const SIDDHAM: Script = Script(Tag(0x53696464));
/// `Tirh`
pub const TIRHUTA: Script = Script(Tag(0x54697268));
/// `Wara`
pub const WARANG_CITI: Script = Script(Tag(0x57617261));
/// `Ahom`
pub const AHOM: Script = Script(Tag(0x41686f6d));
/// `Hluw`
pub const ANATOLIAN_HIEROGLYPHS: Script = Script(Tag(0x486c7577));
/// `Hatr`
pub const HATRAN: Script = Script(Tag(0x48617472));
/// `Mult`
pub const MULTANI: Script = Script(Tag(0x4d756c74));
/// `Hung`
pub const OLD_HUNGARIAN: Script = Script(Tag(0x48756e67));
/// `Sgnw`
pub const SIGNWRITING: Script = Script(Tag(0x53676e77));
/// `Adlm`
pub const ADLAM: Script = Script(Tag(0x41646c6d));
/// `Bhks`
pub const BHAIKSUKI: Script = Script(Tag(0x42686b73));
/// `Marc`
pub const MARCHEN: Script = Script(Tag(0x4d617263));
/// `Osge`
pub const OSAGE: Script = Script(Tag(0x4f736765));
/// `Tang`
pub const TANGUT: Script = Script(Tag(0x54616e67));
/// `Newa`
pub const NEWA: Script = Script(Tag(0x4e657761));
/// `Gonm`
pub const MASARAM_GONDI: Script = Script(Tag(0x476f6e6d));
/// `Nshu`
pub const NUSHU: Script = Script(Tag(0x4e736875));
/// `Soyo`
pub const SOYOMBO: Script = Script(Tag(0x536f796f));
/// `Zanb`
pub const ZANABAZAR_SQUARE: Script = Script(Tag(0x5a616e62));
/// `Dogr`
pub const DOGRA: Script = Script(Tag(0x446f6772));
/// `Gong`
pub const GUNJALA_GONDI: Script = Script(Tag(0x476f6e67));
/// `Rohg`
pub const HANIFI_ROHINGYA: Script = Script(Tag(0x526f6867));
/// `Maka`
pub const MAKASAR: Script = Script(Tag(0x4d616b61));
/// `Medf`
pub const MEDEFAIDRIN: Script = Script(Tag(0x4d656466));
/// `Sogo`
pub const OLD_SOGDIAN: Script = Script(Tag(0x536f676f));
/// `Sogd`
pub const SOGDIAN: Script = Script(Tag(0x536f6764));
/// `Elym`
pub const ELYMAIC: Script = Script(Tag(0x456c796d));
/// `Nand`
pub const NANDINAGARI: Script = Script(Tag(0x4e616e64));
/// `Hmnp`
pub const NYIAKENG_PUACHUE_HMONG: Script = Script(Tag(0x486d6e70));
/// `Wcho`
pub const WANCHO: Script = Script(Tag(0x5763686f));
/// `Chrs`
pub const CHORASMIAN: Script = Script(Tag(0x43687273));
/// `Diak`
pub const DIVES_AKURU: Script = Script(Tag(0x4469616b));
/// `Kits`
pub const KHITAN_SMALL_SCRIPT: Script = Script(Tag(0x4b697473));
/// `Yezi`
pub const YEZIDI: Script = Script(Tag(0x59657a69));
/// `Cpmn`
pub const CYPRO_MINOAN: Script = Script(Tag(0x43706d6e));
/// `Ougr`
pub const OLD_UYGHUR: Script = Script(Tag(0x4f756772));
/// `Tnsa`
pub const TANGSA: Script = Script(Tag(0x546e7361));
/// `Toto`
pub const TOTO: Script = Script(Tag(0x546f746f));
/// `Vith`
pub const VITHKUQI: Script = Script(Tag(0x56697468));
/// `Kawi`
pub const KAWI: Script = Script(Tag(0x4b617769));
/// `Nagm`
pub const NAG_MUNDARI: Script = Script(Tag(0x4e61676d));
/// `Gara`
pub const GARAY: Script = Script(Tag(0x47617261));
/// `Gukh`
pub const GURUNG_KHEMA: Script = Script(Tag(0x47756b68));
/// `Krai`
pub const KIRAT_RAI: Script = Script(Tag(0x4b726169));
/// `Onao`
pub const OL_ONAL: Script = Script(Tag(0x4f6e616f));
/// `Sunu`
pub const SUNUWAR: Script = Script(Tag(0x53756e75));
/// `Todr`
pub const TODHRI: Script = Script(Tag(0x546f6472));
/// `Tutg`
pub const TULU_TIGALARI: Script = Script(Tag(0x54757467));
/// `Zmth`
pub const SCRIPT_MATH: Script = Script(Tag(0x5a6d7468));
/// `Qaag`
pub const MYANMAR_ZAWGYI: Script = Script(Tag(0x51616167));
