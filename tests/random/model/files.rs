// Files by their keys, a drive and the eleven bytes of a name; a file as its bytes, and which of its records were written.

use std::collections::BTreeMap;
use std::rc::Rc;

pub const RECORD: usize = 128;
pub const EXTENT: usize = 128;
pub const MOST_RECORDS: usize = 65536;
const FILLER: u8 = 0x1a;
const UNUSED_ENTRY: u8 = 0xe5;

pub type Key = [u8; 12];
pub type Record = [u8; RECORD];
// A file that a run does not change is shared with the host files.
pub type Files = BTreeMap<Key, Rc<File>>;

#[derive(Clone, Default)]
pub struct File {
    // Zeros in the holes.
    bytes: Vec<u8>,
    is_written: Vec<bool>,
}

impl File {
    // The file of the host that has these bytes.
    pub fn of_host(bytes: &[u8]) -> File {
        let length = bytes.len().div_ceil(RECORD);
        let mut file = File { bytes: Vec::with_capacity(length * RECORD), is_written: vec![true; length] };
        file.bytes.extend_from_slice(bytes);
        file.bytes.resize(length * RECORD, FILLER);
        file
    }

    pub fn length(&self) -> usize {
        self.is_written.len()
    }

    pub fn read(&self, place: usize) -> Option<&Record> {
        if *self.is_written.get(place)? {
            self.bytes[place * RECORD..].first_chunk()
        } else {
            None
        }
    }

    fn lengthen(&mut self, length: usize, is_written: bool) {
        if length > self.length() {
            self.bytes.resize(length * RECORD, 0);
            self.is_written.resize(length, is_written);
        }
    }

    // Leaves the places between the end and this one as holes.
    pub fn write(&mut self, place: usize, record: &Record) {
        self.lengthen(place + 1, false);
        self.bytes[place * RECORD..][..RECORD].copy_from_slice(record);
        self.is_written[place] = true;
    }

    pub fn write_filled(&mut self, place: usize, record: &Record) {
        self.lengthen(place, true);
        self.write(place, record);
    }

    // The greatest written place of an extent plus one, counted within the extent; 0 where none is written.
    pub fn extent_count(&self, extent: usize) -> u8 {
        let first = extent * EXTENT;
        let last = self.length().min(first + EXTENT);
        self.is_written.get(first..last).and_then(|extent| extent.iter().rposition(|it| *it)).map_or(0, |place| place as u8 + 1)
    }

    // The first extent, from this one on, that has an entry in the directory.
    fn listed_extent(&self, from: usize) -> Option<usize> {
        if self.length() == 0 {
            return (from == 0).then_some(0);
        }
        (from..self.length().div_ceil(EXTENT)).find(|extent| self.extent_count(*extent) > 0)
    }

    // All records as they are told, with zeros in the holes.
    pub fn bytes(&self) -> &[u8] {
        &self.bytes
    }
}

fn is_allowed(byte: u8) -> bool {
    byte.is_ascii_uppercase() || byte.is_ascii_digit() || b"$#@-_".contains(&byte)
}

// Whether a field holds so many allowed bytes at least and then blanks.
fn is_padded(field: &[u8], least: usize) -> bool {
    let length = field.iter().position(|byte| *byte == b' ').unwrap_or(field.len());
    length >= least && field[..length].iter().all(|byte| is_allowed(*byte)) && field[length..].iter().all(|byte| *byte == b' ')
}

pub fn is_sayable(key: &Key) -> bool {
    is_padded(&key[1..9], 1) && is_padded(&key[9..], 0)
}

// A sayable key as it is printed, without its drive.
pub fn name_in_folder(key: &Key) -> String {
    let field = |bytes: &[u8]| String::from_utf8_lossy(bytes).trim_end().to_string();
    let kind = field(&key[9..]);
    let point = if kind.is_empty() { "" } else { "." };
    field(&key[1..9]) + point + &kind
}

// A sayable key as it is printed.
pub fn printed(key: &Key) -> String {
    let drive = if key[0] == 0 { String::new() } else { format!("{}:", (b'A' + key[0]) as char) };
    drive + &name_in_folder(key)
}

// A key that may have a `?` for any byte of the name.
pub fn matches(pattern: &Key, key: &Key) -> bool {
    pattern[0] == key[0] && (1..12).all(|place| pattern[place] == b'?' || pattern[place] == key[place])
}

// What a search of the directory looks for, and the entry that it found last.
#[derive(Clone)]
pub struct Search {
    pub pattern: Key,
    pub extent: u8,
    pub last: Option<(Key, usize)>,
}

impl Search {
    // The first extent of a file, from this one on, whose entry is looked for.
    fn entry_of(&self, file: &File, from: usize) -> Option<usize> {
        let wanted = self.extent as usize;
        match self.extent {
            b'?' => file.listed_extent(from),
            _ if wanted < from => None,
            _ => file.listed_extent(wanted).filter(|extent| *extent == wanted),
        }
    }

    // Goes to the next entry, which it gives as it stands in the buffer.
    pub fn advance(&mut self, files: &Files) -> Option<Record> {
        let (from, after) = self.last.map_or(([0; 12], 0), |(key, extent)| (key, extent + 1));
        let (key, extent, count) = files.range(from..).filter(|(key, _)| matches(&self.pattern, key)).find_map(|(key, file)| {
            let extent = self.entry_of(file, if *key == from { after } else { 0 })?;
            Some((*key, extent, file.extent_count(extent)))
        })?;
        self.last = Some((key, extent));
        let mut buffer = [UNUSED_ENTRY; RECORD];
        buffer[..32].fill(0);
        buffer[1..12].copy_from_slice(&key[1..]);
        buffer[12] = (extent % 32) as u8;
        buffer[14] = (extent / 32) as u8;
        buffer[15] = count;
        Some(buffer)
    }
}
