// Pools without filesystems on devices in memory, for the plain program that bench/engine measures with: the sectors of a commit, and what a
// start reads.
use crate::plain_sha::seal;

pub const SECTORS: u64 = 65_536;
const RECORD: &[u8; 8] = b"STRSPOL1";
const CHECKPOINT: &[u8; 8] = b"STRSFLX1";
const DELTA: &[u8; 8] = b"STRSDLT1";
const LOG_SECTORS: u64 = 1_664;

/// Writes stand at once, so that a sync has nothing to copy.
pub struct Disk {
    pub path: String,
    pub bytes: Vec<u8>,
}

impl Disk {
    fn read(&self, sector: u64, buf: &mut [u8]) {
        let at = 512 * sector as usize;
        buf.copy_from_slice(&self.bytes[at..at + buf.len()]);
    }

    pub fn write(&mut self, sector: u64, bytes: &[u8]) {
        let at = 512 * sector as usize;
        self.bytes[at..at + bytes.len()].copy_from_slice(bytes);
    }
}

pub struct Pool {
    pub serial: u64,
    pub disks: Vec<usize>,
    pub generation: u64,
    pub slot: u64,
    pub next: u64,
    pub has_committed: bool,
    pub up: bool,
}

pub fn header(serial: u64) -> [u8; 512] {
    let mut bytes = [0; 512];
    bytes[..8].copy_from_slice(b"STRSHDR1");
    bytes[8..16].copy_from_slice(&serial.to_be_bytes());
    bytes[16..24].copy_from_slice(&SECTORS.to_be_bytes());
    let sealed = seal(&bytes[..480], &[]);
    bytes[480..].copy_from_slice(&sealed);
    bytes
}

/// A sealed text, filled up to whole sectors.
fn sealed_text(magic: &[u8; 8], generation: u64, body: &[u8]) -> Vec<u8> {
    let mut text = vec![0; (64 + body.len()).next_multiple_of(512)];
    text[..8].copy_from_slice(magic);
    text[8..16].copy_from_slice(&generation.to_be_bytes());
    text[16..24].copy_from_slice(&(body.len() as u64).to_be_bytes());
    let sealed = seal(&text[..32], body);
    text[32..64].copy_from_slice(&sealed);
    text[64..64 + body.len()].copy_from_slice(body);
    text
}

fn number_at(bytes: &[u8], at: usize) -> u64 {
    u64::from_be_bytes(bytes[at..at + 8].try_into().expect("eight bytes"))
}

/// The generation and the body of the sealed text that a slot begins with.
fn read_slot(disk: &Disk, sector: u64, slot: u64, magic: &[u8; 8]) -> Option<(u64, Vec<u8>)> {
    let mut first = [0; 512];
    disk.read(sector, &mut first);
    let (generation, count) = (number_at(&first, 8), number_at(&first, 16));
    if first[..8] != *magic || first[24..32] != [0; 8] || generation == 0 || count > 512 * slot - 64 {
        return None;
    }
    let mut text = first.to_vec();
    if count > 448 {
        text = vec![0; (64 + count as usize).next_multiple_of(512)];
        disk.read(sector, &mut text);
    }
    let body = &text[64..64 + count as usize];
    (text[32..64] == seal(&text[..32], body)).then(|| (generation, body.to_vec()))
}

fn put_text(bytes: &mut Vec<u8>, text: &str) {
    bytes.extend_from_slice(text.as_bytes());
    bytes.resize(bytes.len() + 64 - text.len(), 0);
}

pub fn record(serial: u64, gone: bool, name: &str, disks: &[usize], all: &[Disk]) -> Vec<u8> {
    let mut bytes = Vec::with_capacity(100 + 80 * disks.len());
    bytes.extend_from_slice(&serial.to_be_bytes());
    bytes.extend_from_slice(&(6 + u32::from(gone)).to_be_bytes());
    bytes.extend_from_slice(&100u32.to_be_bytes());
    for count in [name.len(), disks.len(), 1, 0] {
        bytes.extend_from_slice(&(count as u16).to_be_bytes());
    }
    put_text(&mut bytes, name);
    for i in disks {
        bytes.extend_from_slice(&(all[*i].path.len() as u16).to_be_bytes());
        put_text(&mut bytes, &all[*i].path);
        bytes.extend_from_slice(&[0; 6]);
        bytes.extend_from_slice(&SECTORS.to_be_bytes());
    }
    bytes.extend_from_slice(&[0; 4]);
    bytes.extend_from_slice(&26u32.to_be_bytes());
    bytes.extend_from_slice(&32u32.to_be_bytes());
    bytes
}

/// The serial in a record, whether the pool is gone, and its name.
pub fn read_record(bytes: &[u8]) -> Option<(u64, bool, String)> {
    let length = usize::from(u16::from_be_bytes([*bytes.get(16)?, *bytes.get(17)?]));
    let name = String::from_utf8(bytes.get(24..24 + length)?.to_vec()).ok()?;
    Some((number_at(bytes, 0), bytes[11] & 1 == 1, name))
}

fn checkpoint_body(serial: u64) -> [u8; 36] {
    let mut body = [0; 36];
    body[..8].copy_from_slice(&serial.to_be_bytes());
    body[15] = 1;
    body[23] = 1;
    body[27] = 2;
    body
}

fn delta_body(serial: u64) -> [u8; 24] {
    let mut body = [0; 24];
    body[..8].copy_from_slice(&serial.to_be_bytes());
    body[15] = 1;
    body
}

fn log_at(slot: u64) -> u64 {
    256 + slot * LOG_SECTORS
}

fn record_at(generation: u64) -> u64 {
    16 + generation % 2 * 64
}

/// Commits the next generation of a pool with this record.
pub fn commit(disks: &mut [Disk], pool: &mut Pool, record: &[u8]) {
    pool.generation += 1;
    let first = &mut disks[pool.disks[0]];
    if pool.has_committed && pool.next < LOG_SECTORS {
        let text = sealed_text(DELTA, pool.generation, &delta_body(pool.serial));
        first.write(log_at(pool.slot) + pool.next, &text);
        pool.next += 1;
    } else {
        pool.slot = 1 - pool.slot;
        pool.next = 1;
        let text = sealed_text(CHECKPOINT, pool.generation, &checkpoint_body(pool.serial));
        first.write(log_at(pool.slot), &text);
    }
    let text = sealed_text(RECORD, pool.generation, record);
    for i in &pool.disks {
        disks[*i].write(record_at(pool.generation), &text);
    }
}

/// What the devices of a pool bear: its newest record, and where its log ends.
pub fn found(disks: &[Disk], pool: &Pool) -> Option<(u64, Vec<u8>, u64, u64)> {
    let mut newest: Option<(u64, Vec<u8>)> = None;
    for i in &pool.disks {
        let mut copy = [0; 512];
        disks[*i].read(1, &mut copy);
        if copy != header(pool.serial) {
            disks[*i].read(9, &mut copy);
            if copy != header(pool.serial) {
                return None;
            }
        }
        for slot in 0..2 {
            match read_slot(&disks[*i], record_at(slot), 64, RECORD) {
                Some((generation, body)) if generation % 2 == slot && number_at(&body, 0) == pool.serial => match &newest {
                    Some(other) if other.0 == generation && other.1 != body => return None,
                    Some(other) if other.0 >= generation => {}
                    _ => newest = Some((generation, body)),
                },
                _ => {}
            }
        }
    }
    let (generation, record) = newest?;
    let (slot, begun) = newest_checkpoint(&disks[pool.disks[0]], pool.serial, generation)?;
    let count = generation - begun;
    for k in 1..=count {
        let (of, body) = read_slot(&disks[pool.disks[0]], log_at(slot) + k, 1, DELTA)?;
        if of != begun + k || body != delta_body(pool.serial) {
            return None;
        }
    }
    Some((generation, record, slot, 1 + count))
}

fn newest_checkpoint(disk: &Disk, serial: u64, generation: u64) -> Option<(u64, u64)> {
    let mut newest = None;
    for slot in 0..2 {
        if let Some((begun, body)) = read_slot(disk, log_at(slot), LOG_SECTORS, CHECKPOINT) {
            if body == checkpoint_body(serial) && begun <= generation && newest.is_none_or(|(_, other)| begun >= other) {
                newest = Some((slot, begun));
            }
        }
    }
    newest
}

/// Writes the newest record to each device that lacks it.
pub fn mend(disks: &mut [Disk], pool: &Pool, generation: u64, record: &[u8]) {
    for i in &pool.disks {
        let there = read_slot(&disks[*i], record_at(generation), 64, RECORD);
        if there.is_none_or(|(of, body)| of != generation || body != record) {
            disks[*i].write(record_at(generation), &sealed_text(RECORD, generation, record));
        }
    }
}
