//! Every sequence of pieces up to a length, in an order that spreads: a part of it already has all sorts of sequences.

pub struct Every {
    before: Vec<u8>,
    behind: Vec<u8>,
    pieces: Vec<Vec<u8>>,
    longest: usize,
    total: u64,
    step: u64,
    given: u64,
}

fn common(a: u64, b: u64) -> u64 {
    if b == 0 {
        a
    } else {
        common(b, a % b)
    }
}

impl Every {
    pub fn new(before: &str, pieces: Vec<Vec<u8>>, longest: usize) -> Every {
        let total: u64 = (0..=longest as u32).map(|n| (pieces.len() as u64).pow(n)).sum();
        let mut step = (total as f64 * 0.618) as u64 | 1;
        while common(total, step) != 1 {
            step += 1;
        }
        Every { before: before.as_bytes().to_vec(), behind: Vec::new(), pieces, longest, total, step, given: 0 }
    }

    /// What stands before, then a string over some bytes.
    pub fn bytes(before: &str, bytes: &[u8], longest: usize) -> Every {
        Every::new(before, bytes.iter().map(|b| vec![*b]).collect(), longest)
    }

    /// What stands before, then words parted by spaces.
    pub fn words(before: &str, words: &str, longest: usize) -> Every {
        let pieces = words.split_whitespace().map(|w| format!(" {}", w).into_bytes()).collect();
        Every::new(before, pieces, longest)
    }

    /// The same with something behind each sequence.
    pub fn then(self, behind: &str) -> Every {
        Every { behind: behind.as_bytes().to_vec(), ..self }
    }

    pub fn total(&self) -> u64 {
        self.total
    }

    pub fn left(&self) -> u64 {
        self.total - self.given
    }

    pub fn next(&mut self) -> Option<Vec<u8>> {
        if self.left() == 0 {
            return None;
        }
        let mut number = (u128::from(self.given) * u128::from(self.step) % u128::from(self.total)) as u64;
        self.given += 1;
        let base = self.pieces.len() as u64;
        let mut length = 0;
        let mut block = 1;
        while length < self.longest && number >= block {
            number -= block;
            block *= base;
            length += 1;
        }
        let mut text = self.before.clone();
        for _ in 0..length {
            text.extend_from_slice(&self.pieces[(number % base) as usize]);
            number /= base;
        }
        text.extend_from_slice(&self.behind);
        Some(text)
    }
}
