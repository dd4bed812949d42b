//! The languages of names, by the numbers of their platforms (OpenType specification, "name - Naming Table").

/// The language of each primary number of Windows, as HarfBuzz names it; no text where there is none.
const WINDOWS: [&str; 0x8D] = [
    "", "ar", "bg", "ca", "zh", "cs", "da", "de", "el", "en", "es", "fi", "fr", "he", "hu", "is", "it", "ja", "ko", "nl", "no",
    "pl", "pt", "rm", "ro", "ru", "hr", "sk", "sq", "sv", "th", "tr", "ur", "id", "uk", "be", "sl", "et", "lv", "lt", "tg", "fa",
    "vi", "hy", "az", "eu", "hsb", "mk", "st", "ts", "tn", "ven", "xh", "zu", "af", "ka", "fo", "hi", "mt", "se", "ga", "yi",
    "ms", "kk", "ky", "sw", "tk", "uz", "tt", "bn", "pa", "gu", "or", "ta", "te", "kn", "ml", "as", "mr", "sa", "mn", "bo", "cy",
    "km", "lo", "my", "gl", "kok", "mni", "sd", "syr", "si", "chr", "iu", "am", "tzm", "ks", "ne", "fy", "ps", "phi", "div", "",
    "", "ha", "", "yo", "quz", "nso", "ba", "lb", "kl", "ibo", "kau", "om", "ti", "gn", "haw", "la", "so", "ii", "pap", "arn",
    "", "moh", "", "br", "", "ug", "mi", "oc", "co", "gsw", "sah", "qut", "rw", "wo", "", "", "", "fa",
];

/// The numbers of Windows whose language is not that of the primary number.
const WINDOWS_EXCEPTIONS: [(u16, &str); 26] = [
    (0x0404, "zh-tw"),
    (0x0804, "zh-cn"),
    (0x0C04, "zh-hk"),
    (0x1004, "zh-sg"),
    (0x1404, ""),
    (0x0814, "nn"),
    (0x0818, "mo"),
    (0x081A, "sr"),
    (0x0C1A, "sr"),
    (0x141A, "bs"),
    (0x201A, "bs"),
    (0x181A, ""),
    (0x1C1A, ""),
    (0x082E, "dsb"),
    (0x103B, "smj"),
    (0x143B, ""),
    (0x083B, ""),
    (0x183B, "sma"),
    (0x1C3B, ""),
    (0x203B, "sms"),
    (0x243B, "smn"),
    (0x083C, "gd"),
    (0x0846, "ar"),
    (0x0851, "dz"),
    (0x086B, ""),
    (0x0C6B, ""),
];

/// The language of each number of the Macintosh from 0 on, and from 128 on.
const MACINTOSH: [&str; 95] = [
    "en", "fr", "de", "it", "nl", "sv", "es", "da", "pt", "no", "he", "ja", "ar", "fi", "el", "is", "mt", "tr", "hr", "zh-tw",
    "ur", "hi", "th", "ko", "lt", "pl", "hu", "et", "lv", "", "fo", "fa", "ru", "zh-cn", "nl", "ga", "sq", "ro", "cs", "sk",
    "sl", "yi", "sr", "mk", "bg", "uk", "be", "uz", "kk", "az", "az", "hy", "ka", "mo", "ky", "tg", "tk", "mn", "mn", "ps", "ku",
    "ks", "sd", "bo", "ne", "sa", "mr", "bn", "as", "gu", "pa", "or", "ml", "kn", "ta", "te", "si", "my", "km", "lo", "vi", "id",
    "tl", "ms", "ms", "am", "ti", "om", "so", "sw", "rw", "rn", "ny", "mg", "eo",
];
const MACINTOSH_LATER: [&str; 23] = [
    "cy", "eu", "ca", "la", "qu", "gn", "ay", "tt", "ug", "dz", "jw", "su", "gl", "af", "br", "iu", "gd", "gv", "ga", "to", "el",
    "ik", "az",
];

/// The language of a number of Windows; no text where there is none.
pub fn of_windows(number: u16) -> &'static str {
    let exception = WINDOWS_EXCEPTIONS.iter().find(|(other, _)| *other == number);
    exception.map_or_else(|| WINDOWS.get(usize::from(number & 0x3FF)).copied().unwrap_or(""), |(_, language)| language)
}

/// The language of a number of the Macintosh; no text where there is none.
pub fn of_macintosh(number: u16) -> &'static str {
    let place = usize::from(number);
    MACINTOSH.get(place).or_else(|| MACINTOSH_LATER.get(place.checked_sub(128)?)).copied().unwrap_or("")
}
