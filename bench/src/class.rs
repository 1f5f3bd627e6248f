//! How wide objects are.

/// A size class: so many words an object, and as many slots a page as fit its 256 words.
#[derive(Clone, Copy, Debug, PartialEq, Eq)]
pub struct Class {
    words: u8,
}

/// How many classes there are.
pub const CLASSES: usize = 16;

impl Class {
    /// That of one word.
    pub const C16: Class = Class { words: 1 };

    /// The class of objects of so many bytes, if there is one.
    pub fn of_bytes(bytes: usize) -> Option<Class> {
        let words = u8::try_from(bytes / 16).ok()?;
        let is_class = bytes % 16 == 0 && (1..=CLASSES).contains(&usize::from(words));
        is_class.then_some(Class { words })
    }

    /// How many words of 128 bits an object has.
    pub const fn words(self) -> usize {
        self.words as usize
    }

    /// Its place among all classes, the narrowest first.
    pub const fn number(self) -> usize {
        self.words() - 1
    }

    pub const fn slots(self) -> usize {
        256 / self.words()
    }
}
