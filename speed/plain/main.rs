//! A plain Rust program that plays recordings of reads: what a programmer writes with vectors of bytes and match arms, without a contract and
//! without a proof. It stands here to be set beside `matter_node replay`, whose lines it writes byte for byte.
//!
//!     rustc --edition 2024 -O -C codegen-units=1 speed/plain/main.rs -o plain_reads
//!     plain_reads replay CONFIG RECORDING
//!
//! It plays lines of plain actors that read attributes. Where a recording has another line, another request or a path of events it says so, and
//! ends with status 1. No answer is kept from line to line: each line is decoded, its paths are looked up, the access control list is asked for
//! each place, and each value is written out of the node's state.
//!
//! - `json`, `config`: the configuration;
//! - `recording`: the lines that are read, and those that are written;
//! - `tlv`, `request`: the encoding of tagged values, and a ReadRequest in it;
//! - `clusters`, `access`, `values`: what stands where, who may read it, and what it is;
//! - `node`, `report`: what is answered, and the payloads of that.

mod access;
mod clusters;
mod config;
mod json;
mod node;
mod recording;
mod report;
mod request;
mod tlv;
mod values;

use node::{Node, NotPlayed};
use recording::{Ask, Fault};
use report::Report;
use std::io::{self, Write};
use std::process::ExitCode;
use std::{env, fs};

const CONFIGURATION_BYTES: usize = 1_048_576;

/// From how many bytes on what was written is handed to the system.
const BUFFERED: usize = 65_536;

fn main() -> ExitCode {
    let words: Vec<String> = env::args().skip(1).collect();
    let ["replay", config, recording] = words.iter().map(String::as_str).collect::<Vec<_>>()[..]
    else {
        return told(2, "fault 2 words");
    };
    let Ok(config) = fs::read(config) else {
        return told(5, "fault 5 read");
    };
    let node = match node_of(&config) {
        Ok(node) => node,
        Err(field) => return told(3, &format!("fault 3 config {field}")),
    };
    let Ok(recording) = fs::read(recording) else {
        return told(5, "fault 5 read");
    };
    let asks = match recording::asks_of(&recording) {
        Ok(asks) => asks,
        Err(Fault::TooLong) => return told(10, "fault 10 long"),
        Err(Fault::Line(line, kind)) => return told(4, &format!("fault 4 line {line} {kind}")),
        Err(Fault::NotPlayed(what)) => return not_played(&what),
    };
    match play(&node, &asks) {
        Ok(Ok(())) => ExitCode::SUCCESS,
        Ok(Err(what)) => not_played(&what),
        Err(_) => ExitCode::from(6),
    }
}

fn told(status: u8, line: &str) -> ExitCode {
    println!("{line}");
    ExitCode::from(status)
}

fn not_played(what: &NotPlayed) -> ExitCode {
    eprintln!("{} is not played here", what.0);
    ExitCode::from(1)
}

/// The node of a configuration, or the name of what is wrong with that.
fn node_of(config: &[u8]) -> Result<Node, &'static str> {
    if config.len() > CONFIGURATION_BYTES {
        return Err("size");
    }
    let text = std::str::from_utf8(config).map_err(|_| "json")?;
    let config = json::parse(text)
        .filter(|it| matches!(it, json::Json::Object(_)))
        .ok_or("json")?;
    let (fabrics, entries) = config::fabrics_of(&config).ok_or("fabrics")?;
    Ok(Node::new(fabrics, entries))
}

/// Plays the lines one after the other, and writes what is sent.
fn play(node: &Node, asks: &[Ask]) -> io::Result<Result<(), NotPlayed>> {
    let mut output = io::stdout().lock();
    let (mut payload, mut out) = (Vec::new(), Vec::with_capacity(2 * BUFFERED));
    for ask in asks {
        if !node.knows(&ask.actor) {
            continue;
        }
        let mut report = Report {
            ms: ask.ms,
            fabric: ask.actor.fabric,
            payload: &mut payload,
            out: &mut out,
        };
        if let Err(what) = node.answer(&ask.actor, ask.opcode, &ask.payload, &mut report) {
            return Ok(Err(what));
        }
        if out.len() >= BUFFERED {
            output.write_all(&out)?;
            out.clear();
        }
    }
    output.write_all(&out)?;
    output.flush()?;
    Ok(Ok(()))
}
