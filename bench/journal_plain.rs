// Commits the records of a journal to another file, by the same four calls a record that a commit of the
// program makes: the length, the payload and a closed gate are written, and synced; then the gate is opened, and
// synced.
//
//     journal_plain JOURNAL NEW
//
// Prints how many records there were, and the nanoseconds of the commits.
use std::fs::{self, OpenOptions};
use std::io;
use std::os::unix::fs::FileExt;
use std::time::Instant;

const OPEN: u8 = 0xA5;

fn payloads(journal: &[u8]) -> Vec<&[u8]> {
    let mut found = Vec::new();
    let mut rest = journal;
    while rest.first() == Some(&OPEN) {
        let length = u32::from_be_bytes([rest[1], rest[2], rest[3], rest[4]]) as usize;
        found.push(&rest[5..5 + length]);
        rest = &rest[5 + length..];
    }
    found
}

fn main() -> io::Result<()> {
    let words: Vec<String> = std::env::args().collect();
    let journal = fs::read(&words[1])?;
    let payloads = payloads(&journal);
    let file = OpenOptions::new().read(true).write(true).create(true).truncate(true).open(&words[2])?;
    file.write_all_at(&[0], 0)?;
    file.sync_data()?;
    let began = Instant::now();
    let mut end = 0;
    let mut record = Vec::new();
    for payload in &payloads {
        record.clear();
        record.extend_from_slice(&(payload.len() as u32).to_be_bytes());
        record.extend_from_slice(payload);
        record.push(0);
        file.write_all_at(&record, end + 1)?;
        file.sync_data()?;
        file.write_all_at(&[OPEN], end)?;
        file.sync_data()?;
        end += 5 + payload.len() as u64;
    }
    println!("{} {}", payloads.len(), began.elapsed().as_nanos());
    Ok(())
}
