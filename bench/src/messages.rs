//! Messages for the bench: the timed cases, and many good and damaged ones from a small generator of its own.

/// splitmix64
pub struct Random(u64);

impl Random {
    pub fn new(seed: u64) -> Random {
        Random(seed)
    }

    fn next(&mut self) -> u64 {
        self.0 = self.0.wrapping_add(0x9e37_79b9_7f4a_7c15);
        let mut z = self.0;
        z = (z ^ (z >> 30)).wrapping_mul(0xbf58_476d_1ce4_e5b9);
        z = (z ^ (z >> 27)).wrapping_mul(0x94d0_49bb_1331_11eb);
        z ^ (z >> 31)
    }

    pub fn below(&mut self, n: usize) -> usize {
        (self.next() % n as u64) as usize
    }

    fn byte(&mut self) -> u8 {
        self.next() as u8
    }

    pub fn bytes(&mut self, n: usize) -> Vec<u8> {
        (0..n).map(|_| self.byte()).collect()
    }

    fn pick<'a>(&mut self, from: &[&'a [u8]]) -> &'a [u8] {
        from[self.below(from.len())]
    }
}

fn number(random: &mut Random) -> Vec<u8> {
    let n = random.next() >> random.below(64);
    match random.below(40) {
        0 => format!("0{n}"),
        1 => format!("{n}0000"),
        2 => "18446744073709551615".into(),
        3 => "18446744073709551616".into(),
        4 => String::new(),
        5 => format!("{n}x"),
        _ => n.to_string(),
    }
    .into()
}

fn prefix(random: &mut Random) -> Vec<u8> {
    if random.below(20) == 0 {
        return number(random);
    }
    (random.below(2049)).to_string().into()
}

/// A byte, escaped if it must be and now and then if not.
fn spell(random: &mut Random, b: u8, often: usize, to: &mut Vec<u8>) {
    if (32..=126).contains(&b) && b != b'\\' && random.below(often) != 0 {
        to.push(b);
    } else {
        to.extend(format!("\\x{b:02x}").bytes());
    }
}

fn run(random: &mut Random, n: usize, to: &mut Vec<u8>) {
    let often = [1, 2, 20, 1000][random.below(4)];
    let plain = random.below(2) == 0;
    for _ in 0..n {
        let b = if plain { 32 + random.byte() % 95 } else { random.byte() };
        spell(random, b, often, to);
    }
}

fn length(random: &mut Random) -> usize {
    match random.below(8) {
        0 => 0,
        1 => random.below(1000),
        2 => 950 + random.below(20),
        _ => random.below(60),
    }
}

fn entry(random: &mut Random, to: &mut Vec<u8>) {
    let often = [1, 3, 1000][random.below(3)];
    to.push(b' ');
    for _ in 0..1 + random.below(8) {
        let b = b'A' + random.byte() % 26;
        spell(random, b, often, to);
    }
    spell(random, b'=', often, to);
    for _ in 0..random.below(12) {
        let b = 1 + random.byte() % 255;
        spell(random, b, often, to);
    }
    to.push(b'\n');
}

fn whole(random: &mut Random) -> Vec<u8> {
    let mut m = prefix(random);
    for _ in 0..2 {
        m.push(b',');
        m.extend(number(random));
    }
    m.push(b',');
    m.extend(random.pick(&[b"-", b"-", b"c", b"+", b"x", b"-c", b""]));
    for _ in 0..random.below(3) {
        m.extend(random.pick(&[b",caller=T1", b",", b",a,b", b",\x00\xff"]));
    }
    m.push(b';');
    let n = length(random);
    run(random, n, &mut m);
    m.push(b'\n');
    for _ in 0..[0, 0, 1, 3, 40][random.below(5)] {
        entry(random, &mut m);
    }
    m
}

fn damage(random: &mut Random, m: &mut Vec<u8>) {
    const BYTES: &[u8] = b",;\n\\ =x0-\x00\x7f\xffaAfFgG/:";
    let at = random.below(m.len() + 1);
    match random.below(7) {
        0 => m.truncate(at),
        1 if at < m.len() => m[at] = random.byte(),
        2 if at < m.len() => m[at] = BYTES[random.below(BYTES.len())],
        3 => m.insert(at, BYTES[random.below(BYTES.len())]),
        4 if at < m.len() => {
            m.remove(at);
        }
        5 => {
            let more: &[&[u8]] = &[b"\\x00", b"\\x3d", b"\\x3D", b"\\x1", b"\n=a", b"\n \\x3d", b"\n", b"\n  =", b"\n\n"];
            let piece = random.pick(more).to_vec();
            m.splice(at..at, piece);
        }
        _ => {
            let to = 8150 + random.below(60);
            while m.len() < to {
                m.push(b'a');
            }
            m.push(b'\n');
        }
    }
}

/// A message, good or damaged.
pub fn message(random: &mut Random) -> Vec<u8> {
    let mut m = whole(random);
    for _ in 0..[0, 0, 1, 1, 2, 4][random.below(6)] {
        damage(random, &mut m);
    }
    m
}

/// The timed cases.
pub fn cases() -> Vec<(&'static str, Vec<u8>)> {
    let header = b"134,123456,5140900123,-;".to_vec();
    let with = |body: &[u8]| [&header[..], body, b"\n"].concat();
    let plain: Vec<u8> = (0..900).map(|i| b"GOAL home 1-0, minute 63. "[i % 26]).collect();
    let mut random = Random::new(900);
    let escaped: Vec<u8> = (0..900).flat_map(|_| format!("\\x{:02x}", random.byte()).into_bytes()).collect();
    let entries: Vec<u8> = (0..60).flat_map(|i| format!("\n KEY{i:02}=value{i:02}").into_bytes()).collect();
    let room = 8192 - header.len() - 1;
    let bulky: Vec<u8> = (0..room).map(|i| b"GOAL home 1-0, minute 63. "[i % 26]).collect();
    let mut lines = with(b"text");
    while lines.len() + 17 <= 8192 {
        lines.extend(b" KEY10=0123456789");
        *lines.last_mut().unwrap() = b'\n';
    }
    vec![
        ("T13's line", b"6,339,5140900,-;NET: Registered protocol family 10\n".to_vec()),
        ("900 plain bytes", with(&plain)),
        ("900 escaped bytes", with(&escaped)),
        ("60 short entries", with(&entries)),
        ("refused, 8192 bytes of text", with(&bulky)),
        ("refused, 8192 bytes of entries", lines),
    ]
}
