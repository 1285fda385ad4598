//! A box's log, document 02 (viii): its text read once more, in plain Rust over the crate, and logs to try it on.
use crate::oracle::Oracle;
use crate::rng::Rng;
use std::collections::BTreeSet;

/// A record of the form: its name and its numbers.
fn form(record: &[u8]) -> Option<(&str, Vec<u64>)> {
    if record.len() > 64 {
        return None;
    }
    let text = std::str::from_utf8(record).ok()?;
    let (name, rest) = text.split_once(',')?;
    let numbers = rest.split(',').map(decimal).collect::<Option<Vec<u64>>>()?;
    let wanted = match name {
        "setup" | "malloc" | "free" => 1,
        "realloc" | "memalign" => 2,
        _ => return None,
    };
    (numbers.len() == wanted).then_some((name, numbers))
}

/// A plain decimal is what its number is written as.
fn decimal(text: &str) -> Option<u64> {
    let n: u64 = text.parse().ok()?;
    (n <= 65535 && n.to_string() == text).then_some(n)
}

/// The arena at work: the crate, and which blocks are live.
struct Arena {
    heap: Oracle,
    live: BTreeSet<u64>,
}

impl Arena {
    fn granted(&mut self, block: Option<u64>) -> (u64, u64) {
        match block {
            None => (6, 0),
            Some(offset) => {
                assert!(self.live.insert(offset));
                (0, offset)
            }
        }
    }

    /// Refusals 3, 4 and 5 by document 01's table; the rest is the crate's.
    fn call(&mut self, name: &str, n: &[u64]) -> (u64, u64) {
        let long = |bytes: u64| bytes > self.heap.bytes();
        match name {
            "malloc" if long(n[0]) => (4, 0),
            "malloc" => {
                let block = self.heap.malloc(n[0]);
                self.granted(block)
            }
            "free" if !self.live.remove(&n[0]) => (5, 0),
            "free" => {
                self.heap.free(n[0]);
                (0, 0)
            }
            "realloc" if long(n[1]) => (4, 0),
            "realloc" if !self.live.contains(&n[0]) => (5, 0),
            "realloc" => {
                let block = self.heap.realloc(n[0], n[1]);
                if block.is_some() {
                    self.live.remove(&n[0]);
                }
                self.granted(block)
            }
            _ if !(32..=4096).contains(&n[0]) || !n[0].is_power_of_two() => (3, 0),
            _ if long(n[1]) => (4, 0),
            _ => {
                let block = self.heap.memalign(n[0], n[1]);
                self.granted(block)
            }
        }
    }
}

/// The records: what stands between CRLFs; a last CRLF starts none.
fn records(log: &[u8]) -> Vec<&[u8]> {
    let mut all = Vec::new();
    let (mut from, mut at) = (0, 0);
    while at < log.len() {
        if log[at..].starts_with(b"\r\n") {
            all.push(&log[from..at]);
            at += 2;
            from = at;
        } else {
            at += 1;
        }
    }
    if from < log.len() {
        all.push(&log[from..]);
    }
    all
}

/// The whole output, and how many answers were the crate's own.
pub fn answers(log: &[u8]) -> (Vec<u8>, u64) {
    let mut out = b"line,refusal,offset\r\n".to_vec();
    let mut arena: Option<Arena> = None;
    let mut asked = 0;
    for (i, record) in records(log).into_iter().enumerate() {
        let (refusal, offset) = match (form(record), &mut arena) {
            (None, _) => (9, 0),
            (Some(("setup", n)), _) if n[0] % 2 == 1 || !(16..=8192).contains(&n[0]) => (1, 0),
            (Some(("setup", n)), _) => {
                let heap = Oracle::new(n[0] as usize);
                let live = BTreeSet::new();
                arena = Some(Arena { heap, live });
                (0, 0)
            }
            (Some(_), None) => (2, 0),
            (Some((name, n)), Some(arena)) => {
                let answer = arena.call(name, &n);
                asked += u64::from([0, 6].contains(&answer.0));
                answer
            }
        };
        out.extend(format!("{},{},{}\r\n", i + 1, refusal, offset).into_bytes());
    }
    (out, asked)
}

// ---- logs

/// A call, in view of the offsets that may be live.
fn call(rng: &mut Rng, most: u64) -> String {
    let offset = 16 * rng.below(most);
    let bytes = match rng.below(20) {
        0 => rng.below(65536),
        1..=4 => rng.below(4000),
        _ => rng.below(300),
    };
    match rng.weighted(&[40, 35, 15, 10]) {
        0 => format!("malloc,{bytes}"),
        1 => format!("free,{offset}"),
        2 => format!("realloc,{offset},{bytes}"),
        _ => format!("memalign,{},{bytes}", 16u64 << rng.below(9)),
    }
}

/// A record that has no form, or only just has one.
fn odd(rng: &mut Rng) -> Vec<u8> {
    const NEAR: [&str; 22] = [
        "",
        ",",
        "setup",
        "setup,",
        "setup,65536",
        "setup,8194",
        "setup,17",
        "setup,14",
        "setup,016",
        "malloc,00",
        "malloc,0",
        "malloc,65535",
        "malloc,65536",
        "malloc,+1",
        "malloc, 1",
        "Malloc,1",
        "malloc,1,",
        "realloc,16",
        "realloc,16,1,1",
        "\"free\",16",
        "memalign,32,24",
        "memalign,64,01",
    ];
    match rng.below(5) {
        0 | 1 => rng.pick(&NEAR).as_bytes().to_vec(),
        2 => {
            let mut bytes = call(rng, 32).into_bytes();
            let at = rng.below(bytes.len() as u64 + 1) as usize;
            bytes.insert(at, rng.pick(&[0, 9, 10, 13, 32, 34, 44, 48, 128, 255]));
            bytes
        }
        3 => {
            let mut bytes = call(rng, 32).into_bytes();
            bytes.resize(60 + rng.below(10) as usize, rng.pick(b"0, \r\n\0\xff"));
            bytes
        }
        _ => (0..rng.below(80)).map(|_| rng.below(256) as u8).collect(),
    }
}

/// A log of calls with odd records among them, about one in `rare`; its last record may lack its CRLF or have half of it.
pub fn made(rng: &mut Rng, length: u64, rare: u64) -> Vec<u8> {
    let mut log = Vec::new();
    for _ in 0..length {
        match rng.below(rare) {
            0 => log.extend(odd(rng)),
            1 => log.extend(format!("setup,{}", 2 * rng.below(300)).into_bytes()),
            _ => log.extend(call(rng, 64).into_bytes()),
        }
        log.extend(b"\r\n");
    }
    log.truncate(log.len() - rng.below(3).min(log.len() as u64) as usize);
    log
}

/// Many calls on the largest arena.
pub fn long(rng: &mut Rng, length: u64) -> Vec<u8> {
    let mut log = b"setup,8192\r\n".to_vec();
    for _ in 1..length {
        log.extend(call(rng, 4096).into_bytes());
        log.extend(b"\r\n");
    }
    log
}

/// Logs that are each one of a kind: endings, pieces' ends, records of a megabyte.
pub fn kinds() -> Vec<Vec<u8>> {
    let example = b"setup,128\r\nmalloc,24\r\nfree,16\r\nfree,16\r\n".to_vec();
    let mut all: Vec<Vec<u8>> = (0..=example.len()).map(|n| example[..n].to_vec()).collect();
    for end in [
        "\r",
        "\n",
        "\r\r\n",
        "\n\r\n",
        "\r\n\r\n",
        "\r\n\r",
        "\0\r\n",
        "\0",
        "\u{ff}\r\n",
    ] {
        all.push([&example[..], end.as_bytes()].concat());
    }
    for fill in [b'a', b'\r', b'\n', 0, 255, b'0'] {
        let long = vec![fill; 1 << 20];
        all.push(long.clone());
        all.push([&example[..], &long, b"\r\nmalloc,24\r\n"].concat());
        all.push([b"malloc,", &long[..], b"\r\nmalloc,24"].concat());
    }
    // a CRLF at every place about the end of a piece of 1,024 bytes
    for pad in 1000..1030 {
        all.push([&vec![b'x'; pad], &b"\r\n"[..], &example].concat());
        all.push([&example, &vec![b'\r'; pad][..], b"\n", &example].concat());
    }
    all
}
