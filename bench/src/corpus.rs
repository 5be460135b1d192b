//! The datagrams of a file of lines `<source> <hex>`.

use std::fs;
use std::net::IpAddr;

/// A datagram and the address that it came from.
pub struct Datagram {
    pub source: IpAddr,
    /// The octets of `source`, as the proved decoder takes them.
    pub source_octets: Vec<u8>,
    pub bytes: Vec<u8>,
}

/// Reads the file. The error names the first line that isn't of this form.
pub fn read(path: &str) -> Result<Vec<Datagram>, String> {
    let text = fs::read_to_string(path).map_err(|error| format!("{path}: {error}"))?;
    text.lines()
        .enumerate()
        .map(|(place, line)| {
            read_line(line)
                .ok_or_else(|| format!("{path}: line {} isn't `<source> <hex>`", place + 1))
        })
        .collect()
}

fn read_line(line: &str) -> Option<Datagram> {
    let (source, hex) = line.split_once(' ')?;
    let source: IpAddr = source.parse().ok()?;
    let source_octets = match source {
        IpAddr::V4(addr) => addr.octets().to_vec(),
        IpAddr::V6(addr) => addr.octets().to_vec(),
    };
    Some(Datagram {
        source,
        source_octets,
        bytes: read_hex(hex)?,
    })
}

fn read_hex(hex: &str) -> Option<Vec<u8>> {
    if !hex.is_ascii() || hex.len() % 2 != 0 {
        return None;
    }
    (0..hex.len())
        .step_by(2)
        .map(|place| u8::from_str_radix(&hex[place..place + 2], 16).ok())
        .collect()
}
