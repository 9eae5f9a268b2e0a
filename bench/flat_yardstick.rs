// A plain Rust program that prints what `pbnet flat PORTS` prints, for bench/flat.sh to compare its rate. It is not proved,
// counts no steps, and has no limit of steps. It uses std alone, and is no part of pbnet:
//
//     rustc -O --edition 2021 -o yardstick bench/flat_yardstick.rs
//     ./yardstick PORTS < LINES
use std::collections::HashMap;
use std::io::{self, BufRead, BufWriter, Write};

const MAX_LINE: usize = 140_000;

const fn values() -> [u8; 256] {
    let mut t = [255u8; 256];
    let mut i = 0;
    while i < 10 { t[b'0' as usize + i] = i as u8; i += 1; }
    i = 0;
    while i < 6 { t[b'a' as usize + i] = 10 + i as u8; t[b'A' as usize + i] = 10 + i as u8; i += 1; }
    t
}
static VALUE: [u8; 256] = values();
const fn digits() -> [[u8; 2]; 256] {
    let d = *b"0123456789abcdef";
    let mut t = [[0u8; 2]; 256];
    let mut i = 0;
    while i < 256 { t[i] = [d[i >> 4], d[i & 15]]; i += 1; }
    t
}
static DIGITS: [[u8; 2]; 256] = digits();

fn parse<'a>(line: &[u8], ports: u32, frame: &mut Vec<u8>) -> Option<u32> {
    let rest: &[u8] = line.strip_prefix(b"in ")?;
    let sp = rest.iter().position(|&c| c == b' ')?;
    let (digits, hex) = (&rest[..sp], &rest[sp + 1..]);
    if digits.is_empty() || digits.len() > 3 || digits[0] == b'0' || !digits.iter().all(u8::is_ascii_digit) {
        return None;
    }
    let port = digits.iter().fold(0u32, |n, d| n * 10 + (d - b'0') as u32);
    if port > ports || hex.is_empty() || hex.len() % 2 != 0 {
        return None;
    }
    frame.clear();
    let mut seen = 0u8;
    frame.extend(hex.chunks_exact(2).map(|p| { let (a, b) = (VALUE[p[0] as usize], VALUE[p[1] as usize]); seen |= a | b; a << 4 | (b & 15) }));
    if seen > 15 { return None; }
    Some(port)
}

fn main() -> io::Result<()> {
    let ports: u32 = std::env::args().last().unwrap().parse().unwrap();
    let mut input = io::BufReader::with_capacity(1 << 16, io::stdin().lock());
    let mut out = BufWriter::with_capacity(1 << 16, io::stdout().lock());
    let mut table: HashMap<[u8; 6], u32> = HashMap::new();
    let mut line = Vec::new();
    let mut frame = Vec::new();
    let mut hex = Vec::new();
    let mut n = 0u64;
    loop {
        line.clear();
        if input.read_until(b'\n', &mut line)? == 0 { break; }
        n += 1;
        if line.last() == Some(&b'\n') { line.pop(); }
        if line.is_empty() { continue; }
        if line.len() > MAX_LINE { writeln!(out, "line {n}: bad")?; continue; }
        let Some(port) = parse(&line, ports, &mut frame) else { writeln!(out, "line {n}: bad")?; continue; };
        let tagged = frame.len() >= 14 && frame[12] == 0x88 && frame[13] == 0xa8;
        let prio = tagged && frame.len() >= 18 && (u16::from_be_bytes([frame[14], frame[15]]) & 0xfff) == 0;
        let most = if prio { 1996 } else { 1992 };
        let dst: [u8; 6] = if frame.len() >= 6 { frame[..6].try_into().unwrap() } else { [0; 6] };
        let reserved = dst[..5] == [1, 0x80, 0xc2, 0, 0] && (matches!(dst[5], 1..=10) || dst[5] == 14);
        if frame.len() < 14 { writeln!(out, "filtered {port} malformed")?; continue; }
        if frame.len() > most { writeln!(out, "filtered {port} long")?; continue; }
        if reserved { writeln!(out, "filtered {port} reserved-{}", dst[5])?; continue; }
        if prio { frame.drain(12..16); }
        if frame.len() >= 14 && frame[12] == 0x88 && frame[13] == 0xa8 { writeln!(out, "filtered {port} s-tagged")?; continue; }
        let src: [u8; 6] = frame[6..12].try_into().unwrap();
        if src[0] & 1 == 0 && (table.len() < 4096 || table.contains_key(&src)) { table.insert(src, port); }
        hex.clear();
        hex.extend(frame.iter().flat_map(|b| DIGITS[*b as usize]));
        hex.push(b'\n');
        let only = if dst[0] & 1 == 0 { table.get(&dst).copied() } else { None };
        for q in 1..=ports {
            if q == port || only.is_some_and(|o| o != q) { continue; }
            out.write_all(b"out ")?;
            if q > 9 { out.write_all(&[b'1', b'0' + (q - 10) as u8, b' '])?; } else { out.write_all(&[b'0' + q as u8, b' '])?; }
            out.write_all(&hex)?;
        }
    }
    out.flush()
}
