//! Short texts shown as `str` is: with the width, the fill and the precision that are asked for.

use core::fmt::{self, Write};
use core::str;

/// Shows a text of at most [`MOST`] bytes.
pub(crate) fn pad(formatter: &mut fmt::Formatter<'_>, text: fmt::Arguments<'_>) -> fmt::Result {
    if formatter.width().is_none() && formatter.precision().is_none() {
        return formatter.write_fmt(text);
    }
    let mut short = Short {
        bytes: [0; MOST],
        used: 0,
    };
    short.write_fmt(text)?;
    formatter.pad(str::from_utf8(&short.bytes[..short.used]).map_err(|_| fmt::Error)?)
}

/// More than any text of this crate that is shown by [`pad`] has.
const MOST: usize = 128;

struct Short {
    bytes: [u8; MOST],
    used: usize,
}

impl Write for Short {
    fn write_str(&mut self, text: &str) -> fmt::Result {
        let end = self.used + text.len();
        let place = self.bytes.get_mut(self.used..end).ok_or(fmt::Error)?;
        place.copy_from_slice(text.as_bytes());
        self.used = end;
        Ok(())
    }
}
