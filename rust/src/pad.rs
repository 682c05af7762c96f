//! What is shown, in the width that was asked for.
use core::fmt::{self, Write};

// Counts characters, and keeps none.
struct Count(usize);

impl Write for Count {
    fn write_str(&mut self, s: &str) -> fmt::Result {
        self.0 += s.chars().count();
        Ok(())
    }
}

// A width counts characters, as that of a `str` does, and fills at the same side. Where there is one, the text is made twice: once to be counted.
pub(crate) fn padded(f: &mut fmt::Formatter<'_>, write: impl Fn(&mut dyn Write) -> fmt::Result) -> fmt::Result {
    let width = match f.width() {
        Some(width) => width,
        None => return write(f),
    };
    let mut count = Count(0);
    write(&mut count)?;
    let missing = width.saturating_sub(count.0);
    let before = match f.align() {
        Some(fmt::Alignment::Right) => missing,
        Some(fmt::Alignment::Center) => missing / 2,
        _ => 0,
    };
    let fill = f.fill();
    (0..before).try_for_each(|_| f.write_char(fill))?;
    write(f)?;
    (before..missing).try_for_each(|_| f.write_char(fill))
}
