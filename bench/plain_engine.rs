// A plain Rust program that does what the proved one does of five calls on pools, on twelve devices in memory: it writes the same
// sectors, hashes the same bytes and answers the same. The measure for bench/engine. Usage: plain_engine run|devices <script; with
// `devices` it also prints what the devices hold in the end.
mod plain_json;
mod plain_pools;
mod plain_sha;

use plain_json::{Json, Members, Parser, devices_in, name_in, number_in};
use plain_pools::{Disk, Pool, SECTORS, commit, found, header, mend, read_record, record};
use plain_sha::Sha256;
use std::collections::BTreeMap;
use std::fmt::Write as _;
use std::io::{Read, Write};

/// How many bytes of each device are told.
const SHOWN: usize = 4_096 * 512;

struct Engine {
    disks: Vec<Disk>,
    in_use: Vec<bool>,
    pools: BTreeMap<String, Pool>,
    next_serial: u64,
}

enum Call {
    Create { name: String, devices: Vec<String> },
    Rename { name: String, new: String },
    Destroy { name: String },
    Stop { name: String },
    Start { name: String },
}

type Fault = (u8, &'static str);
type Reply = Result<String, Fault>;

fn call_of(members: &Members) -> Result<Call, Fault> {
    if members.contains_key("lane") && number_in(members, "lane")? > 7 {
        return Err((1, "BadCall member=lane"));
    }
    let Some(Json::Text(call)) = members.get("call") else {
        return Err((1, "BadCall member=call"));
    };
    Ok(match call.as_str() {
        "CreatePool" => Call::Create { name: name_in(members, "name")?, devices: devices_in(members)? },
        "RenamePool" => Call::Rename { name: name_in(members, "name")?, new: name_in(members, "new")? },
        "DestroyPool" => Call::Destroy { name: name_in(members, "name")? },
        "StopPool" => Call::Stop { name: name_in(members, "name")? },
        "StartPool" => Call::Start { name: name_in(members, "id")? },
        _ => return Err((1, "BadCall member=call")),
    })
}

fn call_in(line: &[u8]) -> Result<Call, Fault> {
    let mut parser = Parser { text: line, at: 0 };
    let Some(Json::Object(members)) = parser.value(127) else {
        return Err((1, "BadCall member=line"));
    };
    parser.space();
    if parser.at != line.len() {
        return Err((1, "BadCall member=line"));
    }
    call_of(&members)
}

fn uuid(out: &mut String, serial: u64) {
    let _ = write!(out, "\"{:08x}-{:04x}-{:04x}-0100-000000000000\"", serial >> 32, serial >> 16 & 0xffff, serial & 0xffff);
}

/// What a changed pool is answered.
fn changed(serial: u64) -> Reply {
    let mut out = "[true,".to_string();
    uuid(&mut out, serial);
    out.push(']');
    Ok(out)
}

fn unchanged() -> Reply {
    Ok("[false,null]".to_string())
}

impl Engine {
    fn new() -> Engine {
        let mut paths: Vec<String> = (0..12).map(|n| format!("/dev/sim{n}")).collect();
        paths.sort();
        let disks = paths.into_iter().map(|path| Disk { path, bytes: vec![0; 512 * SECTORS as usize] }).collect();
        Engine { disks, in_use: vec![false; 12], pools: BTreeMap::new(), next_serial: 1 }
    }

    fn create(&mut self, name: String, devices: &[String]) -> Reply {
        let mut chosen: Vec<usize> = Vec::new();
        for path in devices {
            let Ok(i) = self.disks.binary_search_by(|disk| disk.path.cmp(path)) else {
                return Err((4, "NoSuchDevice"));
            };
            if !chosen.contains(&i) {
                chosen.push(i);
            }
        }
        if let Some(pool) = self.pools.get(&name) {
            return if pool.disks == chosen { unchanged() } else { Err((5, "NameInUse")) };
        }
        if chosen.iter().any(|i| self.in_use[*i]) {
            return Err((6, "DeviceInUse"));
        }
        if chosen.is_empty() || chosen.len() > 16 || self.pools.len() >= 16 {
            return Err((8, "TooManyDevices"));
        }
        let serial = self.next_serial;
        self.next_serial += 1;
        for i in &chosen {
            self.in_use[*i] = true;
            let header = header(serial);
            self.disks[*i].write(9, &header);
            self.disks[*i].write(1, &header);
        }
        let record = record(serial, false, &name, &chosen, &self.disks);
        let mut pool = Pool { serial, disks: chosen, generation: 0, slot: 0, next: 0, has_committed: false, up: true };
        commit(&mut self.disks, &mut pool, &record);
        let mut out = "[true,[".to_string();
        uuid(&mut out, serial);
        for (k, i) in pool.disks.iter().enumerate() {
            let _ = write!(out, "{}\"{}\"", if k == 0 { ",[" } else { "," }, self.disks[*i].path);
        }
        out.push_str("]]]");
        self.pools.insert(name, pool);
        Ok(out)
    }

    fn rename(&mut self, name: &str, new: String) -> Reply {
        let Some(pool) = self.pools.get(name) else {
            return Err((13, "NoSuchPool"));
        };
        if name == new {
            return unchanged();
        }
        if self.pools.contains_key(&new) {
            return Err((5, "NameInUse"));
        }
        if !pool.up {
            return Err((11, "PoolStopped"));
        }
        let Some(mut pool) = self.pools.remove(name) else {
            return Err((13, "NoSuchPool"));
        };
        let record = record(pool.serial, false, &new, &pool.disks, &self.disks);
        commit(&mut self.disks, &mut pool, &record);
        pool.has_committed = true;
        let serial = pool.serial;
        self.pools.insert(new, pool);
        changed(serial)
    }

    fn destroy(&mut self, name: &str) -> Reply {
        match self.pools.get(name) {
            None => return unchanged(),
            Some(pool) if !pool.up => return Err((11, "PoolStopped")),
            Some(_) => {}
        }
        let Some(mut pool) = self.pools.remove(name) else {
            return unchanged();
        };
        let record = record(pool.serial, true, name, &pool.disks, &self.disks);
        commit(&mut self.disks, &mut pool, &record);
        for i in &pool.disks {
            self.in_use[*i] = false;
        }
        changed(pool.serial)
    }

    fn stop(&mut self, name: &str) -> Reply {
        let Some(pool) = self.pools.get_mut(name) else {
            return Err((13, "NoSuchPool"));
        };
        if !pool.up {
            return unchanged();
        }
        pool.up = false;
        changed(pool.serial)
    }

    fn start(&mut self, name: &str) -> Reply {
        let Some(pool) = self.pools.get_mut(name) else {
            return Err((13, "NoSuchPool"));
        };
        if pool.up {
            return unchanged();
        }
        let Some((generation, record, slot, next)) = found(&self.disks, pool) else {
            return Err((14, "MissingDevice"));
        };
        let Some((serial, gone, name)) = read_record(&record) else {
            return Err((14, "MissingDevice"));
        };
        if gone || serial != pool.serial || name.is_empty() {
            return Err((15, "PoolVanished"));
        }
        mend(&mut self.disks, pool, generation, &record);
        (pool.generation, pool.slot, pool.next) = (generation, slot, next);
        (pool.has_committed, pool.up) = (false, true);
        changed(pool.serial)
    }

    fn run(&mut self, call: Call) -> Reply {
        match call {
            Call::Create { name, devices } => self.create(name, &devices),
            Call::Rename { name, new } => self.rename(&name, new),
            Call::Destroy { name } => self.destroy(&name),
            Call::Stop { name } => self.stop(&name),
            Call::Start { name } => self.start(&name),
        }
    }
}

fn show_devices(out: &mut String, disks: &[Disk]) {
    for (i, disk) in disks.iter().enumerate() {
        let mut hasher = Sha256::new();
        hasher.update(&disk.bytes[..SHOWN]);
        let _ = write!(out, "device {i} ");
        for byte in hasher.finish() {
            let _ = write!(out, "{byte:02x}");
        }
        out.push('\n');
    }
}

fn main() {
    let shows = std::env::args().skip(1).any(|word| word == "devices");
    let mut input = Vec::new();
    std::io::stdin().read_to_end(&mut input).expect("input");
    let mut engine = Engine::new();
    let (mut out, mut line, mut oks) = (String::new(), 0u64, 0u64);
    let text = input.strip_suffix(b"\n").unwrap_or(&input);
    for bytes in text.split(|byte| *byte == b'\n') {
        line += 1;
        let (code, result, cause) = match call_in(bytes).and_then(|call| engine.run(call)) {
            Ok(result) => (0, result, ""),
            Err((code, cause)) => (code, "null".to_string(), cause),
        };
        oks += u64::from(code == 0);
        let _ = writeln!(out, "{{\"code\":{code},\"line\":{line},\"result\":{result},\"text\":\"{cause}\"}}");
    }
    let _ = writeln!(out, "summary lines {line} ok {oks} refused {} written 0 read 0", line - oks);
    if shows {
        show_devices(&mut out, &engine.disks);
    }
    std::io::stdout().write_all(out.as_bytes()).expect("output");
}
