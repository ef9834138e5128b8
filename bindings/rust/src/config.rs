//! How a message is read: the separator, and the settings word.
use crate::SOH;

/// A build's settings word, one bit to a setting. Validation is on unless it is turned off.
///
/// The library passes over the bits that mean nothing today. A later version may give one of them a meaning: a word of a configuration file
/// ([`Settings::from_word`]) should leave them 0.
///
/// ```
/// use tinkoraba::Settings;
/// assert_eq!(Settings::new(), Settings::from_word(Settings::VALIDATE));
/// assert_eq!(Settings::new().validating(false).word(), 0);
/// assert!(Settings::from_word(0xffff_ffff).validates());
/// ```
#[derive(Debug, Clone, Copy, PartialEq, Eq, Hash)]
pub struct Settings {
    word: u32,
}

impl Settings {
    /// Bit 0: validation.
    pub const VALIDATE: u32 = 1;

    /// Validation and nothing else.
    #[must_use]
    pub const fn new() -> Self {
        Self::from_word(Self::VALIDATE)
    }

    /// Any word.
    #[must_use]
    pub const fn from_word(word: u32) -> Self {
        Self { word }
    }

    /// The word that the library is given.
    #[must_use]
    pub const fn word(self) -> u32 {
        self.word
    }

    /// On, tags of 5000 and above that the dictionary lacks are refused; off, the body takes them. The other bits stay.
    #[must_use]
    pub const fn validating(self, on: bool) -> Self {
        Self::from_word(if on { self.word | Self::VALIDATE } else { self.word & !Self::VALIDATE })
    }

    /// Whether validation is on.
    #[must_use]
    pub const fn validates(self) -> bool {
        self.word & Self::VALIDATE != 0
    }
}

impl Default for Settings {
    fn default() -> Self {
        Self::new()
    }
}

/// How a message is read.
///
/// ```
/// use tinkoraba::{Config, Settings};
/// let unvalidated = Config { settings: Settings::new().validating(false), ..Config::default() };
/// assert_eq!(unvalidated, Config::default().validating(false));
/// ```
#[derive(Debug, Clone, Copy, PartialEq, Eq)]
pub struct Config {
    /// The byte behind each field.
    pub separator: u8,
    /// What else is asked for.
    pub settings: Settings,
}

impl Config {
    /// The same with validation on or off ([`Settings::validating`]).
    #[must_use]
    pub const fn validating(self, on: bool) -> Self {
        Self { separator: self.separator, settings: self.settings.validating(on) }
    }
}

impl Default for Config {
    fn default() -> Self {
        Self { separator: SOH, settings: Settings::new() }
    }
}
