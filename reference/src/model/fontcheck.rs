//! The line that `fontcheck` prints.

use super::hex;
use super::image::{self, FONT_ROWS, IMAGE_BYTES};
use super::Refusal;

fn check(text: &[u8]) -> Result<u32, Refusal> {
    let mut image = vec![0; IMAGE_BYTES];
    let count = hex::read(text, &mut image)?;
    image::to_font(&image, &mut vec![0; FONT_ROWS])?;
    Ok(count)
}

pub fn line(text: &[u8]) -> String {
    match check(text) {
        Ok(count) => format!("cells 62 bytes {count}\n"),
        Err(refusal) => format!("refused {} at {}\n", refusal.number, refusal.place),
    }
}

#[cfg(test)]
mod tests {
    use super::*;

    #[test]
    fn the_worked_lines() {
        assert_eq!(line(b":00000001FF\n"), "cells 62 bytes 0\n");
        assert_eq!(line(b":00000001FE"), "refused 8 at 0\n");
        assert_eq!(line(b""), "refused 12 at 0\n");
    }

    #[test]
    fn the_count_is_that_of_the_records() {
        assert_eq!(line(b":04000000000F00F0FD\n:00000001FF\n"), "cells 62 bytes 4\n");
    }

    #[test]
    fn an_image_that_is_no_font() {
        // Address 18 is between two cells and must have all bits set.
        assert_eq!(line(b":0100120000ED\n:00000001FF\n"), "refused 13 at 18\n");
        assert_eq!(line(b":01001200FFEE\n:00000001FF\n"), "cells 62 bytes 1\n");
    }

    #[test]
    fn a_text_too_long() {
        assert_eq!(line(&[b'\n'; 65_536]), "refused 7 at 0\n");
        assert_eq!(line(&[b'\n'; 65_535]), "refused 20 at 0\n");
        assert_eq!(line(&[b'x'; 65_535]), "refused 19 at 0\n");
    }

    #[test]
    fn the_finer_numbers() {
        assert_eq!(line(b":04000000000F00F0FD\n:0000 0001FF\n"), "refused 19 at 25\n");
        assert_eq!(line(b":04000000000F00F0FD\r\n00000001FF\r\n"), "refused 19 at 21\n");
        assert_eq!(line(b":04000000000F00F0FD\n:00000001FF\r"), "refused 19 at 31\n");
        assert_eq!(line(b":04000000000F00F0FD\n:00000001F\n"), "refused 20 at 20\n");
        assert_eq!(line(b":04000000000F00F0FD\n\n:00000001FF\n"), "refused 20 at 20\n");
    }
}
