//! Files read and written. A result takes the place of a file whole or not at all.

use crate::trouble::Trouble;
use std::ffi::{OsStr, OsString};
use std::fs::{self, File, OpenOptions};
use std::io::{self, Read, Write};
use std::path::{Path, PathBuf};
use std::process;

/// No table, plan or record file is longer.
const LONGEST: u64 = 1 << 24;

/// How a file is called in messages: `-` for standard input, a name that is no UTF-8 with marks for what cannot be shown.
pub fn name(path: &OsStr) -> String {
    path.to_string_lossy().into_owned()
}

/// The bytes of a file, or of standard input for `-`.
pub fn read(path: &OsStr) -> Result<Vec<u8>, Trouble> {
    let outcome = if path == "-" { bytes(io::stdin()) } else { File::open(path).and_then(bytes) };
    let read = outcome.map_err(|error| Trouble::file(Path::new(path), &error))?;
    if read.len() as u64 > LONGEST {
        return Err(Trouble::Failed(format!("{}: longer than 16 MiB, no file of this command", name(path))));
    }
    Ok(read)
}

fn bytes(from: impl Read) -> io::Result<Vec<u8>> {
    let mut bytes = Vec::new();
    from.take(LONGEST + 1).read_to_end(&mut bytes)?;
    Ok(bytes)
}

/// Bytes as text, without the mark that some editors put in front.
pub fn text(path: &OsStr, bytes: &[u8]) -> Result<String, Trouble> {
    let bytes = bytes.strip_prefix(b"\xef\xbb\xbf").unwrap_or(bytes);
    let line = |error: &std::str::Utf8Error| {
        1 + bytes[..error.valid_up_to()].iter().filter(|b| **b == b'\n').count()
    };
    match std::str::from_utf8(bytes) {
        Ok(text) => Ok(text.to_string()),
        Err(error) => Err(Trouble::Failed(format!("{}:{}: no text (not UTF-8)", name(path), line(&error)))),
    }
}

/// To standard output, all of it. A closed pipe is no word's worth.
pub fn print(bytes: &[u8]) -> Result<(), Trouble> {
    let mut out = io::stdout().lock();
    out.write_all(bytes).and_then(|()| out.flush()).map_err(|error| match error.kind() {
        io::ErrorKind::BrokenPipe => Trouble::Closed,
        _ => Trouble::io("standard output", &error),
    })
}

/// Into a file, through one beside it that takes its place when all is written; to standard output for `-`. What is no
/// plain file (a device, a pipe) is written as it is, and a link stays one.
pub fn write(path: &OsStr, bytes: &[u8]) -> Result<(), Trouble> {
    if path == "-" {
        return print(bytes);
    }
    let given = Path::new(path);
    let failed = |error| Trouble::file(given, &error);
    let place = fs::canonicalize(given).unwrap_or_else(|_| given.to_path_buf());
    match fs::metadata(&place) {
        Ok(there) if there.is_file() => replace(&place, bytes, Some(there.permissions())).map_err(failed),
        Ok(_) => {
            OpenOptions::new().write(true).open(&place).and_then(|file| fill(file, bytes)).map_err(failed)
        }
        Err(_) => replace(&place, bytes, None).map_err(failed),
    }
}

fn fill(mut file: File, bytes: &[u8]) -> io::Result<()> {
    file.write_all(bytes)?;
    file.flush()
}

fn replace(place: &Path, bytes: &[u8], permissions: Option<fs::Permissions>) -> io::Result<()> {
    let beside = beside(place)?;
    let outcome = filled(&beside, bytes, permissions).and_then(|()| fs::rename(&beside, place));
    if outcome.is_err() {
        fs::remove_file(&beside).ok();
    }
    outcome
}

fn filled(place: &Path, bytes: &[u8], permissions: Option<fs::Permissions>) -> io::Result<()> {
    let mut file = OpenOptions::new().write(true).create_new(true).open(place)?;
    file.write_all(bytes)?;
    if let Some(permissions) = permissions {
        fs::set_permissions(place, permissions)?;
    }
    file.sync_all()
}

/// A name of this process alone in the same folder.
fn beside(place: &Path) -> io::Result<PathBuf> {
    let last = place.file_name().ok_or_else(|| io::Error::other("no name of a file"))?;
    let mut name = OsString::from(".");
    name.push(last);
    name.push(format!(".{}.part", process::id()));
    Ok(place.with_file_name(name))
}

#[cfg(test)]
mod tests {
    use super::*;

    #[test]
    fn a_file_is_replaced_whole_and_a_link_stays() {
        let room = std::env::temp_dir().join(format!("ring-files-{}", process::id()));
        fs::create_dir_all(&room).unwrap();
        let (file, link) = (room.join("file"), room.join("link"));
        write(file.as_os_str(), b"one").unwrap();
        std::os::unix::fs::symlink(&file, &link).unwrap();
        write(link.as_os_str(), b"two").unwrap();
        assert_eq!(fs::read(&file).unwrap(), b"two");
        assert!(fs::symlink_metadata(&link).unwrap().is_symlink());
        assert!(write(room.as_os_str(), b"three").is_err());
        assert_eq!(fs::read_dir(&room).unwrap().count(), 2);
        fs::remove_dir_all(&room).unwrap();
    }

    #[test]
    fn a_mark_in_front_is_left_out() {
        assert_eq!(text(OsStr::new("x"), b"\xef\xbb\xbfring\r\n").unwrap(), "ring\r\n");
        let said = text(OsStr::new("x"), b"ring\nn\xff").unwrap_err().to_string();
        assert_eq!(said, "ring: x:2: no text (not UTF-8)");
    }
}
