//! Messages, sources and cuttings: all short ones, and random ones.
use std::ops::RangeInclusive;

/// Enough randomness for cases, the same in every run.
pub struct Random(pub u64);

impl Random {
    fn next(&mut self) -> u64 {
        self.0 ^= self.0 << 13;
        self.0 ^= self.0 >> 7;
        self.0 ^= self.0 << 17;
        self.0 >> 8
    }

    pub fn below(&mut self, n: usize) -> usize {
        (self.next() % n as u64) as usize
    }

    pub fn byte(&mut self) -> u8 {
        self.next() as u8
    }

    pub fn of<T: Copy>(&mut self, choices: &[T]) -> T {
        choices[self.below(choices.len())]
    }
}

/// All strings of these lengths over an alphabet.
pub fn strings(alphabet: &[u8], lengths: RangeInclusive<usize>, mut each: impl FnMut(&[u8])) {
    for length in lengths {
        for mut number in 0..alphabet.len().pow(length as u32) {
            let mut string = Vec::with_capacity(length);
            for _ in 0..length {
                string.push(alphabet[number % alphabet.len()]);
                number /= alphabet.len();
            }
            each(&string);
        }
    }
}

/// Every cutting of a length into pieces that are not empty; and, of a length up to `empty`, with one empty piece anywhere.
pub fn cuttings(length: usize, empty: usize, mut each: impl FnMut(&[usize])) {
    for cuts in 0..1 << length.saturating_sub(1) {
        let mut pieces = vec![];
        for at in 0..length {
            if at == 0 || cuts >> (at - 1) & 1 == 1 {
                pieces.push(0);
            }
            *pieces.last_mut().unwrap() += 1;
        }
        each(&pieces);
        if length <= empty {
            for at in 0..=pieces.len() {
                let mut more = pieces.clone();
                more.insert(at, 0);
                each(&more);
            }
        }
    }
}

/// Random pieces, some of them empty, some that end where a full group ends.
pub fn random_pieces(length: usize, random: &mut Random) -> Vec<usize> {
    let (mut pieces, mut left) = (vec![], length);
    let most = length / random.of(&[1, 2, 5, 20]) + 1;
    while 0 < left {
        let usual = random.below(most) + 1;
        let piece = random.of(&[0, 1, 254, usual]).min(left);
        pieces.push(piece);
        left -= piece;
    }
    if random.below(3) == 0 {
        pieces.push(0);
    }
    pieces
}

/// A random message around the lengths at which full groups end.
pub fn edge(random: &mut Random) -> Vec<u8> {
    let length = random.of(&[1, 250, 252, 506, 760]) + random.below(6);
    message(random, length)
}

/// Without zeros, with few, with many, or zeros alone.
pub fn message(random: &mut Random, length: usize) -> Vec<u8> {
    let zeros = random.of(&[0, 0, 1, 60, 256]);
    with_zeros(random, length, zeros)
}

/// Of 256 bytes so many are zero.
pub fn with_zeros(random: &mut Random, length: usize, zeros: usize) -> Vec<u8> {
    (0..length).map(|_| if random.below(256) < zeros { 0 } else { random.byte().max(1) }).collect()
}

/// A random message of less than 20 bytes.
pub fn random_short(random: &mut Random) -> Vec<u8> {
    let length = random.below(20);
    message(random, length)
}

/// A byte changed, lost or added, the end cut off, or twice with or without a zero between.
pub fn damage(body: &[u8], random: &mut Random) -> Vec<u8> {
    let mut s = body.to_vec();
    let at = random.below(s.len());
    match random.below(7) {
        0 => s[at] = random.byte(),
        1 => s[at] = 0,
        2 => drop(s.remove(at)),
        3 => s.insert(at, random.byte()),
        4 => s.truncate(at),
        5 => s = [body, body].concat(),
        _ => s = [body, &[0], body].concat(),
    }
    for _ in 0..random.of(&[0, 0, 1, 2]) {
        s.insert(0, 0);
    }
    for _ in 0..random.of(&[0, 0, 1, 2]) {
        s.push(0);
    }
    s
}
