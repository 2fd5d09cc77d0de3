//! The table's file: a mark with a version, the table's 320 bytes, and a checksum over both. It is replaced whole, and locked while it is in use.

use std::fs::{self, File, OpenOptions, TryLockError};
use std::io::{self, ErrorKind, Read, Write};
use std::path::{Path, PathBuf};
use std::thread::sleep;
use std::time::{Duration, Instant};

use burgzemi::{Refusal, Table};

use crate::table;
use crate::trouble::Trouble;

const MARK: [u8; 7] = *b"BZTABLE";
const VERSION: u8 = b'1';
const HEAD: usize = MARK.len() + 1;
const CHECKED: usize = HEAD + Table::LEN;
pub const FILE_LEN: usize = CHECKED + 8;

/// How long another desk's lock is waited for. A call holds it for some milliseconds.
const PATIENCE: Duration = Duration::from_secs(2);
const PAUSE: Duration = Duration::from_millis(5);

pub struct TableFile {
    /// As it was typed, for messages.
    named: PathBuf,
    path: PathBuf,
}

impl TableFile {
    /// A link is followed here, so that what it names is replaced and not the link.
    pub fn new(path: PathBuf) -> TableFile {
        TableFile {
            path: fs::canonicalize(&path).unwrap_or_else(|_| path.clone()),
            named: path,
        }
    }

    /// The table as it is kept now; an empty one where there is no file yet.
    pub fn read(&self) -> Result<Table, Trouble> {
        let _lock = self.lock()?;
        Ok(self.load()?.unwrap_or_default())
    }

    /// Makes a call on the kept table. It comes back once what the call left is on disk, so that nothing is answered that isn't kept.
    pub fn change(
        &self,
        call: impl FnOnce(&mut Table) -> Result<(), Refusal>,
    ) -> Result<Table, Trouble> {
        let _lock = self.lock()?;
        let kept = self.load()?;
        let is_new = kept.is_none();
        let mut table = kept.unwrap_or_default();
        call(&mut table)?;
        self.store(&table).map_err(|error| {
            let said = format!("can't be written: {error}; `jobs` shows whether the call was kept");
            self.trouble(said)
        })?;
        if is_new {
            // Nothing hangs on this line, and the call is kept.
            let _ = writeln!(io::stderr(), "note: {} is new", self.named.display());
        }
        Ok(table)
    }

    fn trouble(&self, said: impl AsRef<str>) -> Trouble {
        Trouble::Unserved(format!("{} {}", self.named.display(), said.as_ref()))
    }

    fn beside(&self, ending: &str) -> PathBuf {
        let mut name = self.path.clone().into_os_string();
        name.push(ending);
        name.into()
    }

    /// The lock is on a file beside the table's: a lock on that file itself would be left behind on the old one when it is replaced. It ends with the file
    /// handle, and so with the program, however that ends.
    fn lock(&self) -> Result<File, Trouble> {
        let path = self.beside(".lock");
        let opened = OpenOptions::new().create(true).append(true).open(&path);
        let file = opened.map_err(|error| {
            Trouble::Unserved(format!("{} can't be opened: {error}", path.display()))
        })?;
        let begun = Instant::now();
        loop {
            match file.try_lock() {
                Ok(()) => return Ok(file),
                Err(TryLockError::WouldBlock) if begun.elapsed() < PATIENCE => sleep(PAUSE),
                Err(TryLockError::WouldBlock) => {
                    let seconds = PATIENCE.as_secs();
                    return Err(self.trouble(format!(
                        "has been in use elsewhere for {seconds} seconds; try again"
                    )));
                }
                Err(TryLockError::Error(error)) => {
                    return Err(self.trouble(format!("can't be locked: {error}")))
                }
            }
        }
    }

    fn load(&self) -> Result<Option<Table>, Trouble> {
        let unreadable = |error| self.trouble(format!("can't be read: {error}"));
        match fs::metadata(&self.path) {
            Ok(found) if !found.is_file() => return Err(self.trouble("is no file")),
            Err(error) if error.kind() == ErrorKind::NotFound => return Ok(None),
            _ => {}
        }
        let mut bytes = Vec::new();
        // One byte more than a table has is enough to see that it is none.
        let file = File::open(&self.path).map_err(unreadable)?;
        file.take(FILE_LEN as u64 + 1)
            .read_to_end(&mut bytes)
            .map_err(unreadable)?;
        let unusable = |why| self.trouble(format!("{why}; it is left as it is"));
        decoded(&bytes).map(Some).map_err(unusable)
    }

    /// Written beside, on disk, renamed, and the name on disk: whenever the program or the machine stops, the name stands for all of one table.
    fn store(&self, table: &Table) -> io::Result<()> {
        let new = self.beside(".new");
        let mut file = File::create(&new)?;
        file.write_all(&encoded(table))?;
        if let Ok(former) = fs::metadata(&self.path) {
            file.set_permissions(former.permissions())?;
        }
        file.sync_all()?;
        fs::rename(&new, &self.path)?;
        File::open(folder(&self.path))?.sync_all()
    }
}

fn folder(path: &Path) -> &Path {
    match path.parent() {
        Some(folder) if !folder.as_os_str().is_empty() => folder,
        _ => Path::new("."),
    }
}

fn encoded(table: &Table) -> Vec<u8> {
    let mut bytes = Vec::with_capacity(FILE_LEN);
    bytes.extend(MARK);
    bytes.push(VERSION);
    bytes.extend(table.as_bytes());
    bytes.extend(checksum(&bytes).to_be_bytes());
    bytes
}

/// The table of a file's bytes, or why they are none.
fn decoded(bytes: &[u8]) -> Result<Table, String> {
    if !bytes.starts_with(&MARK) {
        return Err("is no table of the desk".into());
    }
    match bytes.get(MARK.len()) {
        Some(&VERSION) | None => {}
        Some(other) => {
            return Err(format!(
                "is a table of version {}, and this desk knows version 1",
                other.escape_ascii()
            ))
        }
    }
    let Ok(bytes) = <&[u8; FILE_LEN]>::try_from(bytes) else {
        return Err(format!("is damaged: it has not {FILE_LEN} bytes"));
    };
    if checksum(&bytes[..CHECKED]).to_be_bytes() != bytes[CHECKED..] {
        return Err("is damaged: its checksum is another".into());
    }
    let mut held = [0; Table::LEN];
    held.copy_from_slice(&bytes[HEAD..CHECKED]);
    let table = Table::from_bytes(held);
    if !table::is_sound(&table) {
        return Err("is damaged: it holds a number twice, or an unknown state".into());
    }
    Ok(table)
}

/// CRC-64/XZ: every change within 64 bits in a row shows, and of others all but one in 2^64.
fn checksum(bytes: &[u8]) -> u64 {
    const POLYNOMIAL: u64 = 0xC96C_5795_D787_0F42;
    let mut state = !0;
    for byte in bytes {
        state ^= u64::from(*byte);
        for _ in 0..8 {
            state = if state & 1 == 1 {
                state >> 1 ^ POLYNOMIAL
            } else {
                state >> 1
            };
        }
    }
    !state
}

#[cfg(test)]
mod tests {
    use super::*;

    /// The check value of CRC-64/XZ.
    #[test]
    fn checksum_is_the_listed_one() {
        assert_eq!(checksum(b"123456789"), 0x995D_C9BB_DF19_39FA);
    }

    #[test]
    fn there_and_back() {
        let mut table = Table::new();
        for number in 1..=64 {
            table.open(number).expect("there is room");
        }
        assert_eq!(decoded(&encoded(&table)), Ok(table));
    }

    /// No byte of a file can be another, none can lack, and none can follow.
    #[test]
    fn every_other_byte_is_refused() {
        let mut table = Table::new();
        table.open(7).expect("there is room");
        let file = encoded(&table);
        for at in 0..file.len() {
            for bit in 0..8 {
                let mut damaged = file.clone();
                damaged[at] ^= 1 << bit;
                assert!(decoded(&damaged).is_err(), "byte {at}, bit {bit}");
            }
            assert!(decoded(&file[..at]).is_err(), "{at} bytes");
        }
        assert!(decoded(&[file, vec![0]].concat()).is_err());
    }

    /// With the right checksum, so that it is the library that refuses them.
    #[test]
    fn unsound_tables_are_refused() {
        for (at, bytes) in [
            (5, [1, 0, 0, 0, 7]),
            (315, [4, 0, 0, 0, 7]),
            (5, [6, 0, 0, 0, 8]),
        ] {
            let mut table = Table::new();
            table.open(7).expect("there is room");
            let mut held = *table.as_bytes();
            held[at..at + 5].copy_from_slice(&bytes);
            let refused = decoded(&encoded(&Table::from_bytes(held))).expect_err("no table");
            assert!(refused.contains("twice"), "{refused}");
        }
    }
}
