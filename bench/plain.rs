//! Encoder, weigher and decoder of document 01, written plainly from that paper.
//! Each call returns the number of the refusal, or 0 when the input is taken.

/// The 64 penalties of one symbol, in order of value.
type Vector = [u16; 64];

/// The products of all pairs of symbols.
static PRODUCT: [[u8; 64]; 64] = product_table();

/// The product of two symbols, modulo a^6 = a + 1.
const fn product(x: u8, y: u8) -> u8 {
    let mut sum = 0;
    let mut shifted = x;
    let mut bit = 0;
    while bit < 6 {
        if (y >> bit) & 1 == 1 {
            sum ^= shifted;
        }
        shifted <<= 1;
        if shifted & 64 != 0 {
            shifted ^= 64 | 3;
        }
        bit += 1;
    }
    sum
}

/// Works out the product table.
const fn product_table() -> [[u8; 64]; 64] {
    let mut table = [[0; 64]; 64];
    let mut x = 0;
    while x < 64 {
        let mut y = 0;
        while y < 64 {
            table[x][y] = product(x as u8, y as u8);
            y += 1;
        }
        x += 1;
    }
    table
}

/// The length of the map and of the coefficients for n layers.
fn code_lengths(n: usize) -> (usize, usize) {
    (1 << n, n << (n - 1))
}

/// The count of message places of a map.
fn message_length(map: &[u8]) -> usize {
    map.iter().filter(|&&byte| byte == 0).count()
}

/// Refusals 4, 5 and 6, for a map and coefficients of the right lengths.
fn code_refusal(map: &[u8], coefs: &[u8]) -> u8 {
    if map.iter().any(|&byte| byte > 1) {
        4
    } else if message_length(map) == 0 {
        5
    } else if coefs.iter().any(|&h| h == 0 || h > 63) {
        6
    } else {
        0
    }
}

/// Spreads the message symbols over the message places and applies the transform.
pub fn encode(n: usize, map: &[u8], coefs: &[u8], message: &[u8], codeword: &mut [u8]) -> u8 {
    let refusal = encode_refusal(n, map, coefs, message, codeword.len());
    if refusal != 0 {
        return refusal;
    }
    let mut rest = message.iter();
    for (place, &frozen) in codeword.iter_mut().zip(map) {
        *place = if frozen == 1 { 0 } else { rest.next().copied().unwrap_or(0) };
    }
    transform(n, coefs, codeword);
    0
}

/// The refusals of the encoder: 1, 2, 4, 5, 6, 7.
fn encode_refusal(n: usize, map: &[u8], coefs: &[u8], message: &[u8], codeword_len: usize) -> u8 {
    if !(1..=8).contains(&n) {
        return 1;
    }
    let lengths = (map.len(), coefs.len());
    if lengths != code_lengths(n) || codeword_len != 1 << n || message.len() != message_length(map) {
        return 2;
    }
    let refusal = code_refusal(map, coefs);
    if refusal != 0 {
        return refusal;
    }
    if message.iter().any(|&symbol| symbol > 63) { 7 } else { 0 }
}

/// Applies the kernels of all layers, layer n first and layer 1 last.
fn transform(n: usize, coefs: &[u8], word: &mut [u8]) {
    let kernels = word.len() / 2;
    for layer in (1..=n).rev() {
        let distance = 1 << (n - layer);
        let row = &coefs[(layer - 1) * kernels..layer * kernels];
        for (block, hs) in word.chunks_exact_mut(2 * distance).zip(row.chunks_exact(distance)) {
            let (thetas, phis) = block.split_at_mut(distance);
            for ((p, r), &h) in thetas.iter_mut().zip(phis).zip(hs) {
                *p ^= *r;
                *r = PRODUCT[h as usize][*r as usize];
            }
        }
    }
}

/// The number whose chip k is base chip (k + symbol) mod 64.
pub fn spread(base: u64, symbol: u8) -> u64 {
    base.rotate_right(symbol as u32)
}

/// Weighs samples into penalties, 64 for each symbol.
pub fn demap(base: u64, samples: &[i8], top: u32, bottom: u32, qc: u32, llrs: &mut [u16]) -> u8 {
    let refusal = demap_refusal(base, samples, top, bottom, qc, llrs.len());
    if refusal != 0 {
        return refusal;
    }
    let cap = (1 << qc) - 1;
    for (samples, llrs) in samples.chunks_exact(64).zip(llrs.chunks_exact_mut(64)) {
        let raw = raw_penalties(base, samples);
        let least = raw.iter().copied().min().unwrap_or(0);
        for (llr, penalty) in llrs.iter_mut().zip(raw) {
            *llr = ((penalty - least) * top / bottom).min(cap) as u16;
        }
    }
    0
}

/// The refusals of the weigher: 2, 3, 10, 11.
fn demap_refusal(base: u64, samples: &[i8], top: u32, bottom: u32, qc: u32, llrs_len: usize) -> u8 {
    let symbols = samples.len() / 64;
    if samples.len() % 64 != 0 || !(1..=256).contains(&symbols) || llrs_len != samples.len() {
        2
    } else if !(1..=5).contains(&qc) {
        3
    } else if base == base.rotate_left(32) {
        10
    } else if !(1..=255).contains(&top) || !(1..=255).contains(&bottom) {
        11
    } else {
        0
    }
}

/// For each symbol, the sum of the magnitudes of the samples whose hard chip differs from its chip.
fn raw_penalties(base: u64, samples: &[i8]) -> [u32; 64] {
    // The base's chips twice over: the chips of a symbol are the 64 from that place on.
    let chips: [bool; 128] = std::array::from_fn(|k| (base >> (k % 64)) & 1 == 1);
    let mut raw = [0; 64];
    for (symbol, sum) in raw.iter_mut().enumerate() {
        for (&sample, &chip) in samples.iter().zip(&chips[symbol..symbol + 64]) {
            let differs = (sample < 0) != chip;
            *sum += differs as u32 * magnitude(sample);
        }
    }
    raw
}

/// The magnitude of a sample; that of -128, which stands for a lost chip, is 0.
fn magnitude(sample: i8) -> u32 {
    if sample == -128 { 0 } else { sample.unsigned_abs() as u32 }
}

/// Decodes a frame of penalties into symbols, the report, the totals and the count of clipped entries.
pub fn decode(
    n: usize, map: &[u8], coefs: &[u8], qc: u32, qm: u32, m: u32, frame: &[u16],
    work: &mut [u16], symbols: &mut [u8], report: &mut [u16], totals: &mut [u16], count: &mut u32,
) -> u8 {
    decode_by::<false>(n, map, coefs, qc, qm, m, frame, work, symbols, report, totals, count)
}

/// The same, with the sums of the check nodes in 32 bits.
pub fn decode_wide(
    n: usize, map: &[u8], coefs: &[u8], qc: u32, qm: u32, m: u32, frame: &[u16],
    work: &mut [u16], symbols: &mut [u8], report: &mut [u16], totals: &mut [u16], count: &mut u32,
) -> u8 {
    decode_by::<true>(n, map, coefs, qc, qm, m, frame, work, symbols, report, totals, count)
}

/// Decodes with the sums of the check nodes in 32 bits if WIDE, else in 16.
fn decode_by<const WIDE: bool>(
    n: usize, map: &[u8], coefs: &[u8], qc: u32, qm: u32, m: u32, frame: &[u16],
    work: &mut [u16], symbols: &mut [u8], report: &mut [u16], totals: &mut [u16], count: &mut u32,
) -> u8 {
    let lengths = [frame.len(), work.len(), symbols.len(), report.len(), totals.len()];
    let refusal = decode_refusal(n, map, coefs, [qc, qm, m], frame, lengths);
    if refusal != 0 {
        return refusal;
    }
    let (vectors, word) = work.split_at_mut(64 << n);
    let cap = (1 << qm) - 1;
    let report = report.as_chunks_mut().0;
    let mut decoder = Decoder { map, coefs, cap, m: m as usize, symbols, report, totals, count: 0 };
    decoder.part::<WIDE>(1, 0, 0, frame.as_chunks().0, vectors.as_chunks_mut().0, word);
    *count = decoder.count;
    work.fill(0);
    0
}

/// The refusals of the decoder: 1, 2, 3, 13, 4, 5, 6, 8, 9. The settings are Qc, Qm and m; the lengths
/// are those of frame, work buffer, symbols, report and totals.
fn decode_refusal(
    n: usize, map: &[u8], coefs: &[u8], [qc, qm, m]: [u32; 3], frame: &[u16], lengths: [usize; 5],
) -> u8 {
    if !(1..=8).contains(&n) {
        return 1;
    }
    let needed = [64 << n, 65 << n, 1 << n, 64 << n, 1 << n];
    if (map.len(), coefs.len()) != code_lengths(n) || lengths != needed {
        return 2;
    }
    if !(1..=5).contains(&qc) || !(qc..=13).contains(&qm) {
        return 3;
    }
    if !(1..=64).contains(&m) {
        return 13;
    }
    let refusal = code_refusal(map, coefs);
    if refusal != 0 {
        return refusal;
    }
    if frame.iter().any(|&penalty| penalty > (1 << qc) - 1) {
        8
    } else if frame.chunks_exact(64).any(|vector| !vector.contains(&0)) {
        9
    } else {
        0
    }
}

/// What the recursion over the halves carries along.
struct Decoder<'a> {
    map: &'a [u8],
    coefs: &'a [u8],
    cap: u16,
    m: usize,
    symbols: &'a mut [u8],
    report: &'a mut [Vector],
    totals: &'a mut [u16],
    count: u32,
}

impl Decoder<'_> {
    /// Decodes the places from `first` on, given their penalties at the channel's side of `layer` and
    /// what was taken off before it. Leaves in `word` their symbols at that side, made by the kernels
    /// of this and later layers.
    fn part<const WIDE: bool>(
        &mut self, layer: usize, first: usize, taken: u16, penalties: &[Vector],
        spare: &mut [Vector], word: &mut [u16],
    ) {
        if penalties.len() == 1 {
            word[0] = self.decide(first, &penalties[0]) as u16;
            self.totals[first] = taken;
            return;
        }
        let half = penalties.len() / 2;
        let number = (layer - 1) * (self.map.len() / 2) + first / 2;
        let coefs = self.coefs;
        let hs = &coefs[number..number + half];
        let (thetas, phis) = penalties.split_at(half);
        let (own, rest) = spare.split_at_mut(half);
        let (left, right) = word.split_at_mut(half);
        for t in 0..half {
            if self.m < 64 {
                check_node_short(&thetas[t], &phis[t], hs[t], self.m, &mut own[t]);
            } else if WIDE {
                check_node_wide(&thetas[t], &phis[t], hs[t], &mut own[t]);
            } else {
                check_node(&thetas[t], &phis[t], hs[t], &mut own[t]);
            }
        }
        self.part::<WIDE>(layer + 1, first, taken, own, rest, left);
        let mut taken = taken;
        for t in 0..half {
            let (clipped, least) = variable_node(&thetas[t], &phis[t], hs[t], left[t], self.cap, &mut own[t]);
            self.count += clipped;
            taken += least;
        }
        self.part::<WIDE>(layer + 1, first + half, taken, own, rest, right);
        for t in 0..half {
            left[t] ^= right[t];
            right[t] = PRODUCT[hs[t] as usize][right[t] as usize] as u16;
        }
    }

    /// Reports the penalties of a place and decides it: 0 if frozen, else the smallest value
    /// whose penalty is least.
    fn decide(&mut self, place: usize, penalties: &Vector) -> u8 {
        self.report[place] = *penalties;
        let mut best = 0;
        if self.map[place] == 0 {
            for value in 1..64 {
                if penalties[value] < penalties[best] {
                    best = value;
                }
            }
        }
        self.symbols[place] = best as u8;
        best as u8
    }
}

/// The penalties of φ in the order of c: entry c is φ's penalty at h ⊙ c.
fn reordered(phi: &Vector, h: u8) -> Vector {
    let row = &PRODUCT[h as usize];
    let mut out = [0; 64];
    for c in 0..64 {
        out[c] = phi[row[c] as usize];
    }
    out
}

/// Gives b the least, over all c, of θ's penalty at b ⊕ c plus φ's at h ⊙ c.
fn check_node(theta: &Vector, phi: &Vector, h: u8, out: &mut Vector) {
    let phi = reordered(phi, h);
    for b in 0..64 {
        let mut least = u16::MAX;
        for c in 0..64 {
            least = least.min(theta[b ^ c] + phi[c]);
        }
        out[b] = least;
    }
}

/// The same with sums in 32 bits.
fn check_node_wide(theta: &Vector, phi: &Vector, h: u8, out: &mut Vector) {
    let phi = reordered(phi, h);
    for b in 0..64 {
        let mut least = u32::MAX;
        for c in 0..64 {
            least = least.min(theta[b ^ c] as u32 + phi[c] as u32);
        }
        out[b] = least as u16;
    }
}

/// The same over the m values c whose penalty at h ⊙ c is smallest, ties to the smaller c.
fn check_node_short(theta: &Vector, phi: &Vector, h: u8, m: usize, out: &mut Vector) {
    let phi = reordered(phi, h);
    let mut values: [usize; 64] = std::array::from_fn(|c| c);
    values.sort_unstable_by_key(|&c| (phi[c], c));
    out.fill(u16::MAX);
    for &c in &values[..m] {
        for b in 0..64 {
            out[b] = out[b].min(theta[b ^ c] + phi[c]);
        }
    }
}

/// Gives c the sum of θ's penalty at u ⊕ c and φ's at h ⊙ c, less the least sum, clipped at the
/// cap. Returns how many entries were clipped, and the least sum.
fn variable_node(theta: &Vector, phi: &Vector, h: u8, u: u16, cap: u16, out: &mut Vector) -> (u32, u16) {
    let phi = reordered(phi, h);
    for c in 0..64 {
        out[c] = theta[u as usize ^ c] + phi[c];
    }
    let least = out.iter().copied().min().unwrap_or(0);
    let mut clipped = 0;
    for entry in out.iter_mut() {
        *entry -= least;
        if *entry > cap {
            *entry = cap;
            clipped += 1;
        }
    }
    (clipped, least)
}

#[cfg(test)]
mod tests {
    use super::*;

    /// A vector with `rest` everywhere but 0 at one value.
    fn zero_at(value: usize, rest: u16) -> Vec<u16> {
        let mut vector = vec![rest; 64];
        vector[value] = 0;
        vector
    }

    /// What decoding gives.
    struct Decoded {
        symbols: Vec<u8>,
        report: Vec<u16>,
        totals: Vec<u16>,
        count: u32,
    }

    /// Decodes a frame that must be taken.
    fn decoded(n: usize, map: &[u8], coefs: &[u8], q: (u32, u32, u32), frame: &[u16]) -> Decoded {
        let mut work = vec![9; 65 << n];
        let (mut symbols, mut report, mut totals, mut count) = (vec![9; 1 << n], vec![9; 64 << n], vec![9; 1 << n], 9);
        let code = decode(
            n, map, coefs, q.0, q.1, q.2, frame, &mut work, &mut symbols, &mut report, &mut totals, &mut count,
        );
        assert_eq!(code, 0);
        assert!(work.iter().all(|&entry| entry == 0));
        Decoded { symbols, report, totals, count }
    }

    #[test]
    fn products() {
        assert_eq!(PRODUCT[2][32], 3);
        assert_eq!(PRODUCT[2][33], 1);
        assert_eq!(PRODUCT[32][32], 48);
        assert_eq!(PRODUCT[63][63], 42);
    }

    #[test]
    fn words() {
        let mut word = [99; 4];
        assert_eq!(encode(2, &[0; 4], &[1; 4], &[0, 1, 2, 3], &mut word), 0);
        assert_eq!(word, [0, 2, 1, 3]);
        assert_eq!(encode(2, &[1, 1, 1, 0], &[2, 1, 1, 1], &[7], &mut word), 0);
        assert_eq!(word, [7, 7, 14, 7]);
        assert_eq!(encode(2, &[1; 4], &[1; 4], &[], &mut word), 5);
        assert_eq!(encode(2, &[2; 4], &[0; 4], &[], &mut word), 4);
        assert_eq!(encode(2, &[1; 4], &[0; 4], &[1], &mut word), 2);
        assert_eq!(encode(2, &[1, 1, 1, 0], &[0; 4], &[64], &mut word), 6);
        assert_eq!(encode(2, &[1, 1, 1, 0], &[1; 4], &[64], &mut word), 7);
        assert_eq!(encode(9, &[], &[], &[], &mut word), 1);
        assert_eq!(word, [7, 7, 14, 7]);
    }

    #[test]
    fn chips_and_weights() {
        assert_eq!(spread(1, 1), 1 << 63);
        let mut samples = [10; 64];
        samples[0] = -10;
        let mut llrs = [9; 64];
        assert_eq!(demap((1 << 32) + 1, &samples, 0, 4, 3, &mut llrs), 10);
        assert_eq!(demap(1, &samples, 0, 4, 3, &mut llrs), 11);
        assert_eq!(llrs, [9; 64]);
        for (bottom, other) in [(4, 5), (40, 0), (20, 1)] {
            assert_eq!(demap(1, &samples, 1, bottom, 3, &mut llrs), 0);
            assert_eq!(llrs.to_vec(), zero_at(0, other));
        }
    }

    #[test]
    fn lost_samples() {
        let mut samples = [10; 64];
        let mut llrs = [9; 64];
        for (first, other) in [(-128, 2), (0, 2), (-127, 7), (-2, 3)] {
            samples[0] = first;
            assert_eq!(demap(1, &samples, 1, 4, 3, &mut llrs), 0);
            assert_eq!(llrs.to_vec(), zero_at(0, other));
        }
        assert_eq!(demap(1, &[-128; 64], 255, 1, 5, &mut llrs), 0);
        assert_eq!(llrs, [0; 64]);
    }

    #[test]
    fn ties() {
        let frame = [zero_at(5, 1), zero_at(4, 1)].concat();
        let Decoded { symbols, report, totals, count } = decoded(1, &[1, 0], &[1], (5, 13, 64), &frame);
        assert_eq!((symbols, report[0], totals, count), (vec![0, 4], 1, vec![0, 1], 0));
        for c in 0..64 {
            assert_eq!(report[64 + c], if c == 4 || c == 5 { 0 } else { 1 });
        }
    }

    #[test]
    fn program_frame() {
        let frame = [zero_at(33, 3), zero_at(1, 3)].concat();
        for (q, other, clipped) in [((5, 13, 64), 6, 0), ((2, 2, 64), 3, 63)] {
            let Decoded { symbols, report, totals, count } = decoded(1, &[1, 0], &[2], q, &frame);
            assert_eq!((symbols, totals, count), (vec![0, 33], vec![0, 0], clipped));
            assert_eq!(report[..64].to_vec(), zero_at(0, 3));
            let rest = (0..64).filter(|&c| c != 33).map(|c| report[64 + c]).min();
            assert_eq!((report[64 + 33], rest), (0, Some(other)));
        }
    }

    /// N = 2, coefficient 1, φ's penalties 0, 1, 1 and then 2: with m = 2 the values 0 and 1 are tried, and not 2,
    /// which has the same penalty as 1 and is larger.
    #[test]
    fn two_candidates() {
        let mut phi = vec![2; 64];
        phi[..3].copy_from_slice(&[0, 1, 1]);
        let frame = [zero_at(9, 7), phi].concat();
        for (m, at_11) in [(1, 7), (2, 7), (3, 1), (64, 1)] {
            let Decoded { report, .. } = decoded(1, &[1, 0], &[1], (3, 13, m), &frame);
            let at_8 = if m == 1 { 7 } else { 1 };
            assert_eq!((report[9], report[8], report[11]), (0, at_8, at_11));
        }
    }

    /// Unclipped, totals and report hold the least totals of all words that begin with the row decided.
    #[test]
    fn least_totals_of_four_places() {
        let (map, coefs) = ([1, 0, 1, 0], [7, 40, 3, 63]);
        let mut frame = vec![0; 256];
        for (i, entry) in frame.iter_mut().enumerate() {
            *entry = (i * i * 31 + i * 17) as u16 % 97 % 32;
        }
        for vector in frame.chunks_exact_mut(64) {
            let least = *vector.iter().min().unwrap();
            vector.iter_mut().for_each(|entry| *entry -= least);
        }
        let Decoded { symbols, report, totals, count } = decoded(2, &map, &coefs, (5, 13, 64), &frame);
        assert_eq!(count, 0);
        let mut with_value = vec![u16::MAX; 256];
        for number in 0..1usize << 24 {
            let row: [u8; 4] = std::array::from_fn(|place| (number >> (6 * place)) as u8 & 63);
            let agreeing = (0..4).take_while(|&place| row[place] == symbols[place]).count();
            let mut word = row;
            transform(2, &coefs, &mut word);
            let total: u16 = (0..4).map(|place| frame[64 * place + word[place] as usize]).sum();
            for place in 0..=agreeing.min(3) {
                let entry = &mut with_value[64 * place + row[place] as usize];
                *entry = total.min(*entry);
            }
        }
        let mut of_row = Vec::new();
        for vector in with_value.chunks_exact_mut(64) {
            let least = *vector.iter().min().unwrap();
            vector.iter_mut().for_each(|entry| *entry -= least);
            of_row.push(least);
        }
        assert_eq!((report, totals), (with_value, of_row));
    }
}
