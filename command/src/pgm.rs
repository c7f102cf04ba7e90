//! PGM files: read by the library's call, and written.

use crate::error::Error;
use crate::library::{self, Answer};
use crate::output::Sink;
use crate::room::{room, Room};

/// The samples of the largest picture.
const SAMPLES: usize = 2048 * 2048;

/// The longest file that is read: 16 bytes for each sample of the largest picture. What is longer is read up to there, so that an endless input comes to an end too.
pub const LONGEST: usize = 16 * SAMPLES;

pub struct Picture {
    pub w: usize,
    pub h: usize,
    /// The greatest value that the file says.
    pub maximum: u32,
    pub px: Room<u8>,
}

/// The picture in a file.
pub fn read(name: &str, file: &[u8]) -> Result<Picture, Error> {
    // Pages that no sample is written to are never had.
    let mut px = room(SAMPLES)?;
    let said = library::pgm(file, &mut px);
    if said.answer.number != 0 {
        return Err(refused(name, file, &said.answer));
    }
    let (w, h) = (said.width as usize, said.height as usize);
    px.truncate(w * h);
    Ok(Picture { w, h, maximum: said.maximum, px })
}

/// Why it is refused, at which byte, and what to do.
fn refused(name: &str, file: &[u8], answer: &Answer) -> Error {
    let at = answer.place;
    let text = match (answer.number, file.get(at)) {
        (22, _) if at < 2 => "it does not begin with P5 or P2, so it is no PGM: convert it to one".into(),
        (22, None) => format!("it ends at byte {at}, within its header: fetch it again"),
        (22, Some(b'0'..=b'9')) if at > 2 => {
            format!("the greatest value, at byte {at}, is not 1 to 255: pamdepth 255 makes it so")
        }
        (22, _) => format!("byte {at} is not what the header has there: make the file again"),
        (23, _) => format!("the sample at byte {at} is above the greatest value of the header: make the file again"),
        (24, None) if file.len() == LONGEST => {
            format!(
                "its first {LONGEST} bytes do not hold all samples, and no more are read: pamtopnm makes it shorter"
            )
        }
        (24, None) => format!("it ends at byte {at}, before its last sample: fetch it again"),
        (24, _) => format!("byte {at} is no part of a sample: make the file again"),
        _ => return Error::by_call(name, answer),
    };
    Error::numbered(name, text, answer.number)
}

pub fn write(out: &mut Sink, w: usize, h: usize, maximum: u32, px: &[u8]) -> Result<(), Error> {
    write!(out, "P5\n{w} {h}\n{maximum}\n")?;
    out.bytes(px)
}
