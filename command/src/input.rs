//! Reading a file, or standard input where its name is `-`.

use std::ffi::OsStr;
use std::fs::File;
use std::io::{self, ErrorKind, Read};

use crate::error::Error;
use crate::room::{room, Room};

/// The name that messages use.
pub fn name(path: &OsStr) -> String {
    if path == "-" {
        "standard input".into()
    } else {
        path.display().to_string()
    }
}

/// All bytes, up to the limit, so that an endless input comes to an end too.
pub fn read(path: &OsStr, limit: usize) -> Result<Room<u8>, Error> {
    let failed = |error| Error::reading(name(path), &error);
    if path == "-" {
        return up_to(&mut io::stdin().lock(), FIRST, limit, failed);
    }
    let mut file = File::open(path).map_err(failed)?;
    let length = file.metadata().map_err(failed)?.len().min(limit as u64) as usize;
    // One more than expected: the end is then seen without growing.
    up_to(&mut file, length + 1, limit, failed)
}

/// How much of an input of unknown length is expected.
const FIRST: usize = 1 << 20;

fn up_to(
    source: &mut dyn Read, expected: usize, limit: usize, failed: impl Fn(io::Error) -> Error,
) -> Result<Room<u8>, Error> {
    let mut bytes = room(expected.min(limit))?;
    let mut there = 0;
    loop {
        match source.read(&mut bytes[there..]) {
            Ok(0) if there < bytes.len() || there == limit => break,
            Ok(0) => {
                let mut more: Room<u8> = room(limit.min(2 * there))?;
                more[..there].copy_from_slice(&bytes);
                bytes = more;
            }
            Ok(count) => there += count,
            Err(error) if error.kind() == ErrorKind::Interrupted => {}
            Err(error) => return Err(failed(error)),
        }
    }
    bytes.truncate(there);
    Ok(bytes)
}
