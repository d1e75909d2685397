// A plain Rust program that does what the proved one does of two calls, CreatePool and EngineStateReport, and of FsRead's form: the
// measure for bench/lines. A line is parsed into a tree, as a general JSON library does. Usage: plain check|run [--trace] <script.
mod plain_json;

use plain_json::{Json, Parser, devices_in, name_in, number_in};
use std::collections::BTreeMap;
use std::fmt::Write as _;
use std::io::{Read, Write};

enum Call {
    Create { name: String, devices: Vec<String> },
    Read,
    Report,
}

fn call_in(line: &[u8]) -> Result<Call, (u8, &'static str)> {
    let mut parser = Parser { text: line, at: 0 };
    let Some(Json::Object(members)) = parser.value(127) else {
        return Err((1, "line"));
    };
    parser.space();
    if parser.at != line.len() {
        return Err((1, "line"));
    }
    if members.contains_key("lane") && number_in(&members, "lane")? > 7 {
        return Err((1, "lane"));
    }
    match members.get("call") {
        Some(Json::Text(call)) if call == "CreatePool" => {
            Ok(Call::Create { name: name_in(&members, "name")?, devices: devices_in(&members)? })
        }
        Some(Json::Text(call)) if call == "FsRead" => {
            name_in(&members, "pool")?;
            name_in(&members, "name")?;
            number_in(&members, "sector")?;
            number_in(&members, "sectors")?;
            Ok(Call::Read)
        }
        Some(Json::Text(call)) if call == "EngineStateReport" => Ok(Call::Report),
        _ => Err((1, "call")),
    }
}

struct Pool {
    serial: u64,
    devices: Vec<String>,
}

/// Texts are written as they are: none here needs an escape.
fn texts(out: &mut String, list: impl Iterator<Item = impl AsRef<str>>) {
    out.push('[');
    for (i, text) in list.enumerate() {
        out.push_str(if i == 0 { "\"" } else { ",\"" });
        out.push_str(text.as_ref());
        out.push('"');
    }
    out.push(']');
}

fn result_of(call: &Call, pools: &mut BTreeMap<String, Pool>, free: &mut Vec<String>) -> (u8, String, &'static str) {
    let mut out = String::new();
    match call {
        Call::Create { name, devices } => match pools.get(name) {
            Some(pool) if pool.devices == *devices => (0, "[false,null]".to_string(), ""),
            Some(_) => (5, "null".to_string(), "NameInUse"),
            None => {
                let serial = pools.len() as u64 + 1;
                free.retain(|path| !devices.contains(path));
                let _ = write!(out, "[true,[\"00000000-0000-{serial:04x}-0100-000000000000\",");
                texts(&mut out, devices.iter());
                out.push_str("]]");
                pools.insert(name.clone(), Pool { serial, devices: devices.clone() });
                (0, out, "")
            }
        },
        _ => {
            out.push_str("{\"free_devices\":");
            texts(&mut out, free.iter());
            let _ = write!(out, ",\"next_serial\":{},\"pools\":[", pools.len() + 1);
            for (i, (name, pool)) in pools.iter().enumerate() {
                out.push_str(if i == 0 { "" } else { "," });
                let _ = write!(out, "{{\"mode\":\"up\",\"name\":\"{name}\",\"uuid\":\"00000000-0000-{:04x}-0100-000000000000\"}}", pool.serial);
            }
            out.push_str("]}");
            (0, out, "")
        }
    }
}

fn trace_of(trace: &mut String, ticket: u64, line: u64, call: &Call, reply: &(u8, String, &str)) {
    let mode = if matches!(call, Call::Create { .. }) { "write" } else { "read" };
    let _ = writeln!(trace, "{{\"event\":\"arrive\",\"seat\":1,\"ticket\":{ticket},\"want\":[\"all\",\"{mode}\"]}}");
    let _ = writeln!(trace, "{{\"event\":\"grant\",\"seat\":1,\"ticket\":{ticket}}}");
    trace.push_str("{\"entries\":[{\"call\":{\"call\":");
    match call {
        Call::Create { name, devices } => {
            trace.push_str("\"CreatePool\",\"devices\":");
            texts(trace, devices.iter());
            let _ = write!(trace, ",\"name\":\"{name}\"}}");
        }
        _ => trace.push_str("\"EngineStateReport\"}"),
    }
    let _ = write!(trace, ",\"env\":\"none\",\"from\":{line},\"reply\":{{\"code\":{},\"result\":{},\"text\":\"{}\"}}}}]", reply.0, reply.1, reply.2);
    let _ = writeln!(trace, ",\"event\":\"release\",\"seat\":1,\"ticket\":{ticket}}}");
}

fn main() {
    let words: Vec<String> = std::env::args().skip(1).collect();
    let runs = words.iter().any(|word| word == "run");
    let traces = words.iter().any(|word| word == "--trace");
    let mut input = Vec::new();
    std::io::stdin().read_to_end(&mut input).expect("input");
    let mut free: Vec<String> = (0..12).map(|n| format!("/dev/sim{n}")).collect();
    free.sort();
    let (mut out, mut trace, mut pools) = (String::new(), String::new(), BTreeMap::new());
    let (mut line, mut oks, mut ticket) = (0u64, 0u64, 0u64);
    let text = input.strip_suffix(b"\n").unwrap_or(&input);
    for bytes in text.split(|byte| *byte == b'\n') {
        line += 1;
        let (code, result, cause) = match call_in(bytes) {
            Ok(call) if runs => {
                let reply = result_of(&call, &mut pools, &mut free);
                if traces {
                    trace_of(&mut trace, ticket, line, &call, &reply);
                }
                ticket += 1;
                (reply.0, reply.1, reply.2.to_string())
            }
            Ok(_) => (0, "\"accepted\"".to_string(), String::new()),
            Err((code, member)) => (code, "null".to_string(), format!("{} member={member}", if code == 1 { "BadCall" } else { "BadName" })),
        };
        oks += u64::from(code == 0);
        let _ = writeln!(out, "{{\"code\":{code},\"line\":{line},\"result\":{result},\"text\":\"{cause}\"}}");
    }
    out.push_str(&trace);
    let _ = writeln!(out, "summary lines {line} ok {oks} refused {} written 0 read 0", line - oks);
    std::io::stdout().write_all(out.as_bytes()).expect("output");
}
