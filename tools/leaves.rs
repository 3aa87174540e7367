// Writes recorded answers of Rust's own texts and numbers, which the program of crate `leaves` replays.
//
//   rustc -O tools/leaves.rs -o leaves && ./leaves > crates/leaves/stdin
//
// A record: kind u8, input length u16, answer length u16 (little-endian), input, answer. Kinds and answers are those of `answer`
// below; the answers come from the standard library and, for the version, from the lines of identification_block.rs.

use std::io::Write;

const MAX_CHARS: usize = 48;

fn preview_string(s: &str, max_chars: usize) -> String {
    if s.chars().count() <= max_chars {
        s.to_string()
    } else {
        let taken: String = s.chars().take(max_chars).collect();
        format!("{}...", taken)
    }
}

fn version(bytes: &[u8]) -> String {
    let Ok(raw) = std::str::from_utf8(bytes) else { return "3 8 1 0".into() };
    let s = raw.trim_end_matches(char::from(0)).trim();
    let mut parts = s.split('.');
    let Ok(major) = parts.next().unwrap().parse::<u16>() else { return "3 8 2 0".into() };
    let Ok(minor) = parts.next().unwrap_or("0").parse::<u16>() else { return "3 8 3 0".into() };
    let Some(number) = major.checked_mul(100).and_then(|x| x.checked_add(minor)) else { return format!("7 8 {} {}", major, minor) };
    if number < 410 {
        return format!("4 8 {} 0", number);
    }
    format!("{}", number)
}

const DATA_TYPES: [&str; 18] = [
    "UnsignedIntegerLE", "UnsignedIntegerBE", "SignedIntegerLE", "SignedIntegerBE", "FloatLE", "FloatBE", "StringLatin1", "StringUtf8",
    "StringUtf16LE", "StringUtf16BE", "ByteArray", "MimeSample", "MimeStream", "CanOpenDate", "CanOpenTime", "ComplexLE", "ComplexBE", "Unknown(())",
];

fn answer(kind: u8, b: &[u8]) -> Vec<u8> {
    let lossy = String::from_utf8_lossy(b);
    let number = |n: usize| b.iter().take(n).rev().fold(0u64, |x, &y| x << 8 | y as u64);
    match kind {
        1 => lossy.to_string(),
        2 => lossy.chars().count().to_string(),
        3 => lossy.trim().to_string(),
        4 => lossy.trim_end().to_string(),
        5 => std::str::from_utf8(b).is_ok().to_string(),
        6 => lossy.trim_matches('\0').to_string(),
        7 => String::from_utf8_lossy(b.split(|&x| x == 0).next().unwrap()).to_string(),
        8 => preview_string(&lossy, MAX_CHARS),
        9 => preview_string(&lossy.replace('\n', " "), MAX_CHARS),
        10 => lossy.len().to_string(),
        11 => format!("{:<28}", lossy),
        12 => {
            let x = number(8);
            format!("{}|{:>10}|{:x}|{:02x}|{:04x}|{:08x}|{:010x}", x, x, x, x, x, x, x)
        }
        13 => format!("{}", number(2) as u16 as i16),
        14 => char::from_u32(number(4) as u32).unwrap().is_whitespace().to_string(),
        15 => DATA_TYPES[(b[0] as usize).min(17)].to_string(),
        16 => version(b),
        _ => unreachable!(),
    }
    .into_bytes()
}

struct Rng(u64);

impl Rng {
    fn next(&mut self) -> u64 {
        self.0 ^= self.0 << 13;
        self.0 ^= self.0 >> 7;
        self.0 ^= self.0 << 17;
        self.0
    }
    fn below(&mut self, n: usize) -> usize {
        (self.next() % n as u64) as usize
    }
    fn from<'a, T>(&mut self, xs: &'a [T]) -> &'a T {
        &xs[self.below(xs.len())]
    }
}

fn texts(rng: &mut Rng) -> Vec<Vec<u8>> {
    let mut out: Vec<Vec<u8>> = vec![vec![]];
    out.extend((0..=255u8).filter(|b| b % 8 < 3 || *b >= 0xc0).map(|b| vec![b]));
    let pool = [0u8, 0x0a, 0x20, 0x41, 0x7f, 0x80, 0x8f, 0x90, 0x9f, 0xa0, 0xbf, 0xc1, 0xc2, 0xdf, 0xe0, 0xe1, 0xed, 0xef, 0xf0, 0xf1, 0xf4, 0xf5, 0xff];
    for _ in 0..120 {
        let n = 1 + rng.below(9);
        out.push((0..n).map(|_| *rng.from(&pool)).collect());
    }
    let parts = ["a", "Z", "\0", "\n", " ", "\t", "\u{85}", "\u{a0}", "\u{1680}", "\u{2003}", "\u{200b}", "\u{2028}", "\u{202f}", "\u{205f}", "\u{3000}", "é", "µ", "€", "\u{fffd}", "\u{10ffff}", "😀"];
    for _ in 0..100 {
        let n = rng.below(8);
        out.push((0..n).map(|_| *rng.from(&parts)).collect::<String>().into_bytes());
    }
    for n in 46..=50 {
        for one in ["x", "é", "\u{3000}", "😀", "\n"] {
            out.push(one.repeat(n).into_bytes());
        }
        out.push([vec![0xe2u8; n], vec![0x82]].concat());
    }
    for s in ["a\u{e2}", "quote'\"\\", "first_dg_addr", "data_links[123]", "a name of exactly 28 bytes..", "a name of 29 bytes, one more."] {
        out.push(s.as_bytes().to_vec());
    }
    out
}

fn main() {
    let mut rng = Rng(0x9e3779b97f4a7c15);
    let mut out = Vec::new();
    let mut put = |kind: u8, input: &[u8]| {
        let a = answer(kind, input);
        out.push(kind);
        out.extend((input.len() as u16).to_le_bytes());
        out.extend((a.len() as u16).to_le_bytes());
        out.extend(input);
        out.extend(a);
    };
    for t in texts(&mut rng) {
        for kind in 1..=10 {
            put(kind, &t);
        }
        if std::str::from_utf8(&t).map_or(false, |s| s.is_ascii()) {
            put(11, &t);
        }
    }
    let mut numbers: Vec<u64> = (0..64).flat_map(|i| [1u64 << i, (1u64 << i) - 1]).collect();
    numbers.extend((0..20).map(|i| 10u64.pow(i)));
    numbers.extend([u64::MAX, u64::MAX - 1, 168, 0xa8]);
    numbers.extend((0..60).map(|_| rng.next() >> rng.below(64)));
    for x in numbers {
        put(12, &x.to_le_bytes());
    }
    for x in (0..=0xffffu32).step_by(409).chain([0x7fff, 0x8000, 0x8001, 0xffff]) {
        put(13, &(x as u16).to_le_bytes());
    }
    let mut points: Vec<u32> = (0..0x180).chain(0x167e..0x1683).chain(0x1ffe..0x2070).chain(0x2ffe..0x3003).collect();
    points.extend((0..40).map(|_| rng.below(0xd800) as u32).chain([0xfeff, 0xfffd, 0x10ffff]));
    for x in points {
        put(14, &x.to_le_bytes());
    }
    for x in 0..=255u8 {
        put(15, &[x]);
    }
    for v in [
        "4.10", "4.1", "0.410", "+4.10", "+4.+10", "4.", "655.35", "655.36", "65535", "65536", "656", "4.10.x", "4.09", "4.11", "5", "", ".", ".5", "++5", "-4.10", "4 .10", "4. 10",
        "00410", "410.00", "4.100000", "4.10\0\0", "4.10 \0", "4.10\0 ", " 4.10", "\t4.10\n", "\u{3000}5\u{85}", "\u{200b}5", "4.1\u{661}", "99.99999",
    ] {
        let mut b = v.as_bytes().to_vec();
        b.truncate(8);
        b.resize(8, b' ');
        put(16, &b);
    }
    for _ in 0..150 {
        let pool = [b'0', b'1', b'4', b'5', b'6', b'9', b'.', b'.', b'+', b' ', 0, 0xc2, 0x85, 0x0b];
        let b: Vec<u8> = (0..8).map(|_| *rng.from(&pool)).collect();
        put(16, &b);
    }
    std::io::stdout().write_all(&out).unwrap();
}
