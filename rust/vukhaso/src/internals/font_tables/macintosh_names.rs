// Written by tools/plain_rust from crates/font_tables. Do not edit.

//! The names of the 258 glyphs of the Macintosh's standard order (Apple's TrueType Reference Manual, "post").

use crate::memory::{AllocError, TryIterator, Vec};

/// The names, in their order, with a space between two.
const MACINTOSH_NAMES: &str = ".notdef .null nonmarkingreturn space exclam quotedbl numbersign dollar percent ampersand \
    quotesingle parenleft parenright asterisk plus comma hyphen period slash zero one two \
    three four five six seven eight nine colon semicolon less equal greater question at A B C \
    D E F G H I J K L M N O P Q R S T U V W X Y Z bracketleft backslash bracketright \
    asciicircum underscore grave a b c d e f g h i j k l m n o p q r s t u v w x y z \
    braceleft bar braceright asciitilde Adieresis Aring Ccedilla Eacute Ntilde Odieresis \
    Udieresis aacute agrave acircumflex adieresis atilde aring ccedilla eacute egrave \
    ecircumflex edieresis iacute igrave icircumflex idieresis ntilde oacute ograve \
    ocircumflex odieresis otilde uacute ugrave ucircumflex udieresis dagger degree cent \
    sterling section bullet paragraph germandbls registered copyright trademark acute \
    dieresis notequal AE Oslash infinity plusminus lessequal greaterequal yen mu partialdiff \
    summation product pi integral ordfeminine ordmasculine Omega ae oslash questiondown \
    exclamdown logicalnot radical florin approxequal Delta guillemotleft guillemotright \
    ellipsis nonbreakingspace Agrave Atilde Otilde OE oe endash emdash quotedblleft \
    quotedblright quoteleft quoteright divide lozenge ydieresis Ydieresis fraction currency \
    guilsinglleft guilsinglright fi fl daggerdbl periodcentered quotesinglbase quotedblbase \
    perthousand Acircumflex Ecircumflex Aacute Edieresis Egrave Iacute Icircumflex Idieresis \
    Igrave Oacute Ocircumflex apple Ograve Uacute Ucircumflex Ugrave dotlessi circumflex \
    tilde macron breve dotaccent ring cedilla hungarumlaut ogonek caron Lslash lslash Scaron \
    scaron Zcaron zcaron brokenbar Eth eth Yacute yacute Thorn thorn minus multiply \
    onesuperior twosuperior threesuperior onehalf onequarter threequarters franc Gbreve \
    gbreve Idotaccent Scedilla scedilla Cacute cacute Ccaron ccaron dcroat";

/// The names, one after the other.
pub(crate) fn macintosh_names() -> Result<Vec<&'static str>, AllocError> {
    text().split(' ').try_into_vec()
}

/// The name of a number, among these.
///
/// # Requires
///
/// - `map (λ name. name.now) names.now ≡ slice_split (λ b. b == 32) macintosh_text`
pub(crate) fn macintosh_name<'a>(names: &[&'a str], number: u16) -> Option<&'a [u8]> {
    names.get(usize::from(number)).map(|name| name.as_bytes())
}

/// The names as one text.
fn text() -> &'static str {
    MACINTOSH_NAMES
}
