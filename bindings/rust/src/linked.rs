//! Which library is linked, and whether this crate can work with it.

use core::fmt;
use core::sync::atomic::{AtomicBool, Ordering};

use crate::{ffi, TABLE_FORMAT};

/// The version of a library, with the format of its tables.
///
/// ```
/// let linked = lane::Library::linked();
/// assert_eq!(linked.format, lane::TABLE_FORMAT);
/// assert_eq!(linked.to_string(), format!("{}, format {}", lane::VERSION, lane::TABLE_FORMAT));
/// ```
#[derive(Clone, Copy, Debug, PartialEq, Eq)]
#[non_exhaustive]
pub struct Library {
    /// The number of the table's format.
    pub format: u32,
    /// The three numbers of the version.
    pub version: [u32; 3],
}

impl Library {
    /// The one that this crate was written for.
    const OWN: Library = Library {
        format: TABLE_FORMAT,
        version: [
            digits(env!("CARGO_PKG_VERSION_MAJOR")),
            digits(env!("CARGO_PKG_VERSION_MINOR")),
            digits(env!("CARGO_PKG_VERSION_PATCH")),
        ],
    };

    /// The one that is linked. The first call of a program looks at it too, and stops the program where this crate
    /// cannot work with it.
    #[must_use]
    pub fn linked() -> Library {
        Library::of(ffi::version())
    }

    fn of(number: u64) -> Library {
        let [format, version] = [number >> 32, number & 0xffff_ffff].map(|half| half as u32);
        Library {
            format,
            version: [
                version / 1_000_000,
                version / 1_000 % 1_000,
                version % 1_000,
            ],
        }
    }

    /// Whether this crate can work with it: the same format and first number, and no lower second one.
    fn fits(self) -> bool {
        let ([major, minor, _], [own_major, own_minor, _]) = (self.version, Library::OWN.version);
        self.format == TABLE_FORMAT && major == own_major && minor >= own_minor
    }
}

impl fmt::Display for Library {
    fn fmt(&self, formatter: &mut fmt::Formatter<'_>) -> fmt::Result {
        let Library { format, version } = self;
        let [major, minor, patch] = version;
        let text = format_args!("{major}.{minor}.{patch}, format {format}");
        crate::shown::pad(formatter, text)
    }
}

/// At the first call: stops the program if another library is linked than this crate can work with.
#[track_caller]
pub(crate) fn check() {
    static CHECKED: AtomicBool = AtomicBool::new(false);
    if !CHECKED.load(Ordering::Relaxed) {
        let linked = Library::linked();
        let own = Library::OWN;
        assert!(
            linked.fits(),
            "the library linked is {linked}, and this crate is for {own}"
        );
        CHECKED.store(true, Ordering::Relaxed);
    }
}

/// A number in decimal.
const fn digits(text: &str) -> u32 {
    let (bytes, mut place, mut number) = (text.as_bytes(), 0, 0);
    while place < bytes.len() {
        number = 10 * number + (bytes[place] - b'0') as u32;
        place += 1;
    }
    number
}

#[cfg(test)]
mod tests {
    use super::*;

    #[test]
    fn the_linked_library_is_the_one_this_crate_is_for() {
        assert_eq!(Library::linked(), Library::OWN);
        assert!(Library::OWN.fits());
        check();
    }

    #[test]
    fn a_later_minor_fits_and_no_other_format() {
        let own = ffi::version();
        for (number, fits) in [
            (own + 1, true),
            (own + 1_000, true),
            (own - 1_000, false),
            (own + 1_000_000, false),
            (own - 1_000_000, false),
            (own + (1 << 32), false),
            (own - (1 << 32), false),
            (0, false),
        ] {
            assert_eq!(Library::of(number).fits(), fits, "{}", Library::of(number));
        }
    }
}
