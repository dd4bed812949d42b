use crate::Fail;
use vukhaso::internals::text::{Language, LanguageError};
use vukhaso::memory::{String, TryText};

#[test]
fn a_language_is_its_text_in_small_letters() -> Result<(), Fail> {
    let language = Language::from_str("zh-Hant-\u{c9}")?;
    assert!(language.as_str() == "zh-hant-\u{c9}");
    let same = Language::from_str("ZH-hant-\u{c9}")?;
    assert!(language == same);
    assert!(language != Language::from_str("fr")?);
    let refused = Language::from_str("").err();
    assert!(refused == Some(LanguageError::Invalid));
    let messages = String::format(format_args!(
        "{}, {}",
        LanguageError::Invalid,
        LanguageError::Memory
    ))?;
    assert!(messages.as_str() == "invalid language, out of memory");
    assert!((LanguageError::Invalid as u8, LanguageError::Memory as u8) == (1, 2));
    Ok(())
}

#[test]
fn a_language_of_three_hundred_bytes_is_kept_whole() -> Result<(), Fail> {
    let text = "Zh-".try_repeat(100)?;
    let language = Language::from_str(text.as_str())?;
    assert!(language.as_str() == "zh-".try_repeat(100)?.as_str());
    Ok(())
}
