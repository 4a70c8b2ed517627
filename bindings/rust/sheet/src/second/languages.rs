//! The language words that are lent beside a sheet, and which words are good. The sentences
//! quoted here are those of document 02, L2, but for the one about three letters.

/// "A list of language words beside the sheet, as bytes like it, an odd last byte ignored."
#[derive(Clone, Copy)]
pub struct LanguageList<'a> {
    words: &'a [[u8; 2]],
}

impl<'a> LanguageList<'a> {
    /// The list of these bytes, whatever they are.
    pub fn new(bytes: &'a [u8]) -> LanguageList<'a> {
        LanguageList { words: bytes.as_chunks().0 }
    }

    /// The words in the order of the list.
    pub fn words(&self) -> impl Iterator<Item = u16> + Clone + 'a {
        self.words.iter().map(|&word| u16::from_be_bytes(word))
    }

    /// Whether the list is strictly rising, as an empty one is.
    pub fn rises_strictly(&self) -> bool {
        self.words().zip(self.words().skip(1)).all(|(word, next)| word < next)
    }

    /// Whether the word is listed. The list is strictly rising, as rule 33 is asked first; bytes
    /// with the high one first are in the order of their words.
    pub fn has(&self, word: u16) -> bool {
        self.words.binary_search(&word.to_be_bytes()).is_ok()
    }

    /// "A code of three letters is good if listed, or from qaa to qtz (second letter a to t)."
    pub fn makes_good(&self, word: u16) -> bool {
        is_three_letters(word) && (self.has(word) || is_from_qaa_to_qtz(word))
    }
}

/// "1024 times the first letter plus 32 times the second plus the third, a = 1 to z = 26"
/// (document 01).
const fn letters(word: u16) -> [u16; 3] {
    [word / 1024, word / 32 % 32, word % 32]
}

const fn is_letter(letter: u16) -> bool {
    1 <= letter && letter <= 26
}

pub(crate) const fn is_three_letters(word: u16) -> bool {
    let [first, second, third] = letters(word);
    is_letter(first) && is_letter(second) && is_letter(third)
}

/// q is letter 17, "second letter a to t" 1 to 20.
pub(crate) const fn is_from_qaa_to_qtz(word: u16) -> bool {
    let [first, second, third] = letters(word);
    first == 17 && 1 <= second && second <= 20 && is_letter(third)
}

#[cfg(test)]
mod tests {
    use super::{is_from_qaa_to_qtz, is_three_letters, LanguageList};
    use crate::build::{bytes, language};

    /// Whether a word is good, from its letters written out.
    fn is_good_code(code: &str, listed: &[&str]) -> bool {
        listed.contains(&code) || ("qaa"..="qtz").contains(&code)
    }

    #[test]
    fn good_are_listed_codes_and_those_from_qaa_to_qtz() {
        let listed = ["aaa", "eng", "fra", "qua", "zzz"];
        let list = bytes(&listed.map(language));
        let languages = LanguageList::new(&list);
        let mut codes = 0;
        for [first, second, third] in all_letters() {
            let code = String::from_iter([first, second, third]);
            assert_eq!(
                languages.makes_good(language(&code)),
                is_good_code(&code, &listed),
                "{code}"
            );
            codes += 1;
        }
        assert_eq!(codes, 26 * 26 * 26);
        assert_eq!((0..=u16::MAX).filter(|&word| languages.makes_good(word)).count(), 5 + 20 * 26);
    }

    fn all_letters() -> impl Iterator<Item = [char; 3]> {
        let each = || 'a'..='z';
        each().flat_map(move |a| each().flat_map(move |b| each().map(move |c| [a, b, c])))
    }

    #[test]
    fn a_list_of_all_words_makes_no_letters_of_others() {
        let list = bytes(&(0..=u16::MAX).collect::<Vec<_>>());
        let languages = LanguageList::new(&list);
        assert!(languages.rises_strictly());
        assert!((0..=u16::MAX).all(|word| languages.has(word)));
        assert!((0..=u16::MAX).all(|word| languages.makes_good(word) == is_three_letters(word)));
        assert_eq!((0..=u16::MAX).filter(|&word| is_three_letters(word)).count(), 26 * 26 * 26);
    }

    #[test]
    fn the_range_has_its_borders() {
        let inside = ["qaa", "qaz", "qba", "qmm", "qta", "qtz"].map(language);
        let outside = ["pzz", "paz", "qua", "quz", "qzz", "raa", "aaa", "zzz"].map(language);
        assert!(inside.into_iter().all(is_from_qaa_to_qtz));
        assert!(!outside.into_iter().any(is_from_qaa_to_qtz));
        // q, then no letter
        assert!(![17 * 1024, 17 * 1024 + 1, 17 * 1024 + 32, 17 * 1024 + 20 * 32 + 27]
            .into_iter()
            .any(is_from_qaa_to_qtz));
    }

    #[test]
    fn an_odd_last_byte_is_ignored() {
        assert!(LanguageList::new(&[]).rises_strictly());
        assert!(LanguageList::new(&[9]).rises_strictly());
        assert_eq!(LanguageList::new(&[9]).words().count(), 0);
        let odd = [21, 199, 0];
        let languages = LanguageList::new(&odd);
        assert!(languages.rises_strictly() && languages.makes_good(language("eng")));
    }

    #[test]
    fn equal_neighbours_and_a_fall_are_no_rise() {
        for words in [&[5, 5][..], &[5, 4], &[1, 2, 2, 3], &[1, 2, 3, 0], &[65_535, 0], &[256, 1]] {
            assert!(!LanguageList::new(&bytes(words)).rises_strictly(), "{words:?}");
        }
        for words in [&[0][..], &[0, 1], &[255, 256], &[32_767, 32_768, 65_535]] {
            assert!(LanguageList::new(&bytes(words)).rises_strictly(), "{words:?}");
        }
    }
}
