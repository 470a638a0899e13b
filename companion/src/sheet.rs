//! `print`: a page printed by a browser, as one A4 sheet in a PDF file.

use crate::args::Given;
use crate::files;
use crate::trouble::Trouble;
use std::env;
use std::ffi::{OsStr, OsString};
use std::fs;
use std::os::unix::ffi::{OsStrExt, OsStringExt};
use std::os::unix::fs::MetadataExt;
use std::path::{Path, PathBuf};
use std::process::{self, Command, Stdio};

use crate::desk::Desk;

/// Browsers that print without a screen.
const BROWSERS: [&str; 3] = ["chromium", "chromium-browser", "google-chrome"];

pub fn print(_: &mut Desk, given: &Given) -> Result<(), Trouble> {
    let [page] = given.exactly(["PAGE"])?;
    let step = given.value("--step").unwrap_or("last".as_ref());
    if step != "last" && !step.as_bytes().iter().all(u8::is_ascii_digit) {
        return Err(given.misuse(&format!("{}: a step is a number or `last`", step.to_string_lossy())));
    }
    let failed = |error| Trouble::file(Path::new(page), &error);
    let place = fs::canonicalize(page).map_err(failed)?;
    fs::File::open(&place).and_then(|file| file.metadata()).map_err(failed)?;
    let missing = || {
        let what = format!(
            "none of {} is installed; open the page in any browser and print it",
            BROWSERS.join(", ")
        );
        Trouble::Failed(what)
    };
    let browser = found().ok_or_else(missing)?;
    let sheet = printed(&browser, &address(&place, step))?;
    files::write(given.value("-o").unwrap_or("-".as_ref()), &sheet)
}

/// The first of the browsers on the PATH.
fn found() -> Option<PathBuf> {
    let folders: Vec<PathBuf> = env::split_paths(&env::var_os("PATH")?).collect();
    BROWSERS
        .iter()
        .find_map(|name| folders.iter().map(|folder| folder.join(name)).find(|place| place.is_file()))
}

/// The address of a file and a step, with all but plain signs by their numbers.
fn address(place: &Path, step: &OsStr) -> OsString {
    let mut address = b"file://".to_vec();
    for byte in place.as_os_str().as_bytes() {
        match byte {
            b'/' | b'.' | b'-' | b'_' => address.push(*byte),
            byte if byte.is_ascii_alphanumeric() => address.push(*byte),
            byte => address.extend(format!("%{byte:02X}").bytes()),
        }
    }
    address.push(b'#');
    address.extend(step.as_bytes());
    OsString::from_vec(address)
}

/// The bytes of the sheet, which the browser writes into a folder of its own.
fn printed(browser: &Path, address: &OsStr) -> Result<Vec<u8>, Trouble> {
    let room = env::temp_dir().join(format!("ring-print-{}", process::id()));
    fs::create_dir(&room).map_err(|error| Trouble::file(&room, &error))?;
    let sheet = room.join("sheet.pdf");
    let mut command = Command::new(browser);
    command.args(["--headless", "--disable-gpu", "--no-pdf-header-footer", "--disable-dev-shm-usage"]);
    command.arg(joined("--user-data-dir=", &room)).arg(joined("--print-to-pdf=", &sheet));
    // The browser's own fence needs a user who is not root.
    if fs::metadata("/proc/self").is_ok_and(|own| own.uid() == 0) {
        command.arg("--no-sandbox");
    }
    command.arg(address).stdin(Stdio::null()).stdout(Stdio::null()).stderr(Stdio::null());
    let outcome = command.status().and_then(|_| fs::read(&sheet));
    fs::remove_dir_all(&room).ok();
    outcome.map_err(|error| Trouble::io(&format!("{} printed nothing", browser.display()), &error))
}

fn joined(option: &str, place: &Path) -> OsString {
    let mut word = OsString::from(option);
    word.push(place);
    word
}

#[cfg(test)]
mod tests {
    use super::*;

    #[test]
    fn an_address_has_plain_signs_alone() {
        let place = Path::new("/a b/<é>.html");
        assert_eq!(address(place, OsStr::new("last")), "file:///a%20b/%3C%C3%A9%3E.html#last");
    }
}
