//! Compares and times implementations of three calls of document 01: the proved library (prefix
//! zithejo_), the plain Rust of plain.rs, and the C with SSE2 of blocked.c (prefix blocked_). Of the
//! decoder plain.rs and blocked.c have a second form each.

mod plain;

use std::hint::black_box;
use std::ops::{Deref, DerefMut};
use std::process::ExitCode;
use std::time::{Duration, Instant};

// ---- The implementations ----

type EncodeCall = fn(usize, &[u8], &[u8], &[u8], &mut [u8]) -> u8;
type DemapCall = fn(u64, &[i8], u32, u32, u32, &mut [u16]) -> u8;
type DecodeCall = fn(
    usize, &[u8], &[u8], u32, u32, u32, &[u16], &mut [u16], &mut [u8], &mut [u16], &mut [u16], &mut u32,
) -> u8;

/// An encoder that is called as C is, with the signature of plain.rs.
macro_rules! linked_encode {
    ($name:ident) => {
        fn $name(n: usize, map: &[u8], coefs: &[u8], message: &[u8], codeword: &mut [u8]) -> u8 {
            unsafe extern "C" {
                fn $name(
                    n: usize, map: *const u8, map_len: usize, coefs: *const u8, coefs_len: usize,
                    message: *const u8, message_len: usize, codeword: *mut u8, codeword_len: usize,
                ) -> u8;
            }
            unsafe {
                $name(
                    n, map.as_ptr(), map.len(), coefs.as_ptr(), coefs.len(),
                    message.as_ptr(), message.len(), codeword.as_mut_ptr(), codeword.len(),
                )
            }
        }
    };
}

/// A weigher, likewise.
macro_rules! linked_demap {
    ($name:ident) => {
        fn $name(base: u64, samples: &[i8], top: u32, bottom: u32, qc: u32, llrs: &mut [u16]) -> u8 {
            unsafe extern "C" {
                fn $name(
                    base: u64, samples: *const i8, samples_len: usize, top: u32, bottom: u32, qc: u32,
                    llrs: *mut u16, llrs_len: usize,
                ) -> u8;
            }
            let (samples_len, llrs_len) = (samples.len(), llrs.len());
            unsafe {
                $name(base, samples.as_ptr(), samples_len, top, bottom, qc, llrs.as_mut_ptr(), llrs_len)
            }
        }
    };
}

/// A decoder, likewise. One that has full check nodes only is not passed m.
macro_rules! linked_decode {
    ($name:ident, $m:ident $(, $passed:ident)?) => {
        fn $name(
            n: usize, map: &[u8], coefs: &[u8], qc: u32, qm: u32, $m: u32, frame: &[u16],
            work: &mut [u16], symbols: &mut [u8], report: &mut [u16], totals: &mut [u16], count: &mut u32,
        ) -> u8 {
            unsafe extern "C" {
                fn $name(
                    n: usize, map: *const u8, map_len: usize, coefs: *const u8, coefs_len: usize,
                    qc: u32, qm: u32, $($passed: u32,)? frame: *const u16, frame_len: usize,
                    work: *mut u16, work_len: usize, symbols: *mut u8, symbols_len: usize,
                    report: *mut u16, report_len: usize, totals: *mut u16, totals_len: usize,
                    count: *mut u32,
                ) -> u8;
            }
            let _ = $m;
            unsafe {
                $name(
                    n, map.as_ptr(), map.len(), coefs.as_ptr(), coefs.len(), qc, qm, $($passed,)?
                    frame.as_ptr(), frame.len(), work.as_mut_ptr(), work.len(),
                    symbols.as_mut_ptr(), symbols.len(), report.as_mut_ptr(), report.len(),
                    totals.as_mut_ptr(), totals.len(), count,
                )
            }
        }
    };
}

linked_encode!(zithejo_encode);
linked_demap!(zithejo_demap);
linked_decode!(zithejo_decode, m, m);
linked_encode!(blocked_encode);
linked_demap!(blocked_demap);
linked_decode!(blocked_decode, m);
linked_decode!(blocked_decode_differences, m);

/// One implementation. A second form of a decoder has no encoder and no weigher of its own.
struct Maker {
    name: &'static str,
    encode: Option<EncodeCall>,
    demap: Option<DemapCall>,
    decode: DecodeCall,
    /// Whether its decoder has shorter check nodes too.
    shorter: bool,
}

impl Maker {
    /// All three calls.
    const fn whole(name: &'static str, encode: EncodeCall, demap: DemapCall, decode: DecodeCall) -> Self {
        Maker { name, encode: Some(encode), demap: Some(demap), decode, shorter: true }
    }

    /// A decoder only.
    const fn decoder(name: &'static str, decode: DecodeCall) -> Self {
        Maker { name, encode: None, demap: None, decode, shorter: true }
    }

    /// The same with full check nodes only.
    const fn full(self) -> Self {
        Maker { shorter: false, ..self }
    }

    /// Whether its decoder tries so many values in a check node.
    fn tries(&self, m: u32) -> bool {
        self.shorter || m == FULL
    }

    /// Whether it has the call of a case.
    fn has(&self, case: &Case) -> bool {
        match case.kind {
            Kind::Decode { m, .. } => self.tries(m),
            Kind::Demap { .. } => self.demap.is_some(),
            Kind::Encode => self.encode.is_some(),
        }
    }
}

/// The m of full check nodes.
const FULL: u32 = 64;

/// How many implementations there are.
const COUNT: usize = 5;

/// The implementations, in the order of the tables' columns.
static MAKERS: [Maker; COUNT] = [
    Maker::whole("proved", zithejo_encode, zithejo_demap, zithejo_decode),
    Maker::whole("plain", plain::encode, plain::demap, plain::decode_wide),
    Maker::decoder("plain-16-bit", plain::decode),
    Maker::whole("blocked", blocked_encode, blocked_demap, blocked_decode).full(),
    Maker::decoder("blocked-differences", blocked_decode_differences).full(),
];

/// The place of plain.rs in MAKERS: the others are compared with it.
const PLAIN: usize = 1;

// ---- Random numbers ----

/// The generator splitmix64.
struct Draws(u64);

impl Draws {
    fn next(&mut self) -> u64 {
        self.0 = self.0.wrapping_add(0x9E37_79B9_7F4A_7C15);
        let mut z = self.0;
        z = (z ^ (z >> 30)).wrapping_mul(0xBF58_476D_1CE4_E5B9);
        z = (z ^ (z >> 27)).wrapping_mul(0x94D0_49BB_1331_11EB);
        z ^ (z >> 31)
    }

    /// A number below `limit`.
    fn below(&mut self, limit: usize) -> usize {
        ((self.next() >> 32) as usize * limit) >> 32
    }

    /// A number from `low` to `high`.
    fn within(&mut self, low: u32, high: u32) -> u32 {
        low + self.below((high - low + 1) as usize) as u32
    }

    /// One of the given values.
    fn pick<T: Copy>(&mut self, values: &[T]) -> T {
        values[self.below(values.len())]
    }

    /// Near-Gaussian noise: the sum of four uniform draws, scaled to the deviation asked for.
    fn noise(&mut self, deviation: i32) -> i32 {
        let bits = self.next();
        let sum: i32 = (0..4).map(|i| (bits >> (16 * i)) as u16 as i32 - 32768).sum();
        sum * deviation / 37837
    }
}

// ---- Inputs and outputs of a call ----

/// A buffer with guard entries before and after the part that is handed to a call.
#[derive(Clone, PartialEq)]
struct Buffer<T> {
    all: Vec<T>,
    guard: usize,
    fill: T,
}

impl<T: Copy> Buffer<T> {
    fn new(part: &[T], guard: usize, fill: T) -> Self {
        let edge = vec![fill; guard];
        Buffer { all: [&edge, part, &edge].concat(), guard, fill }
    }

    /// A buffer to be written, holding the fill value only.
    fn blank(len: usize, guard: usize, fill: T) -> Self {
        Buffer { all: vec![fill; len + 2 * guard], guard, fill }
    }

    /// Changes the length of the part; new entries get the given value.
    fn resize(&mut self, len: usize, value: T) {
        let mut part = self.to_vec();
        part.resize(len, value);
        *self = Buffer::new(&part, self.guard, self.fill);
    }
}

impl<T> Deref for Buffer<T> {
    type Target = [T];
    fn deref(&self) -> &[T] {
        &self.all[self.guard..self.all.len() - self.guard]
    }
}

impl<T> DerefMut for Buffer<T> {
    fn deref_mut(&mut self) -> &mut [T] {
        let end = self.all.len() - self.guard;
        &mut self.all[self.guard..end]
    }
}

/// n, map and coefficients.
struct Code {
    n: usize,
    map: Buffer<u8>,
    coefs: Buffer<u8>,
}

struct Encode {
    code: Code,
    message: Buffer<u8>,
    codeword_len: usize,
}

struct Demap {
    base: u64,
    samples: Buffer<i8>,
    top: u32,
    bottom: u32,
    qc: u32,
    llrs_len: usize,
}

struct Decode {
    code: Code,
    qc: u32,
    qm: u32,
    m: u32,
    frame: Buffer<u16>,
    work_len: usize,
    symbols_len: usize,
    report_len: usize,
    totals_len: usize,
}

enum Input {
    Encode(Encode),
    Demap(Demap),
    Decode(Decode),
}

/// All a call may write: codeword or symbols, penalties or report, totals, work buffer, count.
#[derive(Clone, PartialEq)]
struct Output {
    bytes: Buffer<u8>,
    wide: Buffer<u16>,
    totals: Buffer<u16>,
    work: Buffer<u16>,
    count: u32,
}

impl Output {
    /// Buffers of the lengths the input asks for, filled with values no call gives.
    fn new(input: &Input, guard: usize) -> Self {
        let (bytes, wide, totals, work) = match input {
            Input::Encode(e) => (e.codeword_len, 0, 0, 0),
            Input::Demap(d) => (0, d.llrs_len, 0, 0),
            Input::Decode(d) => (d.symbols_len, d.report_len, d.totals_len, d.work_len),
        };
        Output {
            bytes: Buffer::blank(bytes, guard, 0xA5),
            wide: Buffer::blank(wide, guard, 0xA5A5),
            totals: Buffer::blank(totals, guard, 0xA55A),
            work: Buffer::blank(work, guard, 0x5A5A),
            count: 0xA5A5_A5A5,
        }
    }

    /// A checksum over all that was written.
    fn checksum(&self) -> u64 {
        let bytes = self.bytes.iter().map(|&byte| byte as u64);
        let wide = self.wide.iter().chain(self.totals.iter()).chain(self.work.iter()).map(|&entry| entry as u64);
        bytes.chain(wide).chain([self.count as u64]).fold(0xCBF2_9CE4_8422_2325, |sum, value| {
            (sum ^ value).wrapping_mul(0x0000_0100_0000_01B3)
        })
    }
}

/// Makes the call the input describes, if the implementation has it.
fn call(maker: &Maker, input: &Input, out: &mut Output) -> Option<u8> {
    Some(match input {
        Input::Encode(Encode { code, message, .. }) => {
            (maker.encode?)(code.n, &code.map, &code.coefs, message, &mut out.bytes)
        }
        Input::Demap(d) => {
            (maker.demap?)(d.base, &d.samples, d.top, d.bottom, d.qc, &mut out.wide)
        }
        Input::Decode(d) if !maker.tries(d.m) => return None,
        Input::Decode(d) => (maker.decode)(
            d.code.n, &d.code.map, &d.code.coefs, d.qc, d.qm, d.m, &d.frame,
            &mut out.work, &mut out.bytes, &mut out.wide, &mut out.totals, &mut out.count,
        ),
    })
}

// ---- Making inputs ----

/// The base sequence of the cases.
const BASE: u64 = 0x9A3F_27C1_5D84_E6B2;
/// The sample of a chip without noise, and the deviation of the noise.
const SIGNAL: i32 = 8;
const NOISE: i32 = 24;

/// A map with about half of the places frozen, the first ones mostly, and random coefficients.
fn random_code(draws: &mut Draws, n: usize, guard: usize) -> Code {
    let places = 1 << n;
    let mut map = vec![0; places];
    map[..3 * places / 8].fill(1);
    for _ in 0..places / 8 {
        map[draws.below(places - 1)] = 1;
    }
    let coefs: Vec<u8> = (0..n * places / 2).map(|_| draws.within(1, 63) as u8).collect();
    Code { n, map: Buffer::new(&map, guard, 0), coefs: Buffer::new(&coefs, guard, 1) }
}

/// As many random symbols as the map has message places.
fn random_message(draws: &mut Draws, code: &Code) -> Vec<u8> {
    code.map.iter().filter(|&&byte| byte == 0).map(|_| draws.below(64) as u8).collect()
}

fn random_encode(draws: &mut Draws, n: usize, guard: usize) -> Encode {
    let code = random_code(draws, n, guard);
    let message = Buffer::new(&random_message(draws, &code), guard, 0);
    Encode { code, message, codeword_len: 1 << n }
}

/// The samples of a word, each chip with noise far above the signal.
fn noisy_samples(draws: &mut Draws, base: u64, word: &[u8]) -> Vec<i8> {
    let mut samples = Vec::new();
    for &symbol in word {
        let chips = plain::spread(base, symbol);
        for k in 0..64 {
            let sent = if (chips >> k) & 1 == 0 { SIGNAL } else { -SIGNAL };
            samples.push((sent + draws.noise(NOISE)).clamp(-127, 127) as i8);
        }
    }
    samples
}

/// The samples of a random word of the code.
fn received(draws: &mut Draws, code: &Code) -> Vec<i8> {
    let message = random_message(draws, code);
    let mut word = vec![0; code.map.len()];
    let refusal = plain::encode(code.n, &code.map, &code.coefs, &message, &mut word);
    assert_eq!(refusal, 0, "the code of a case is taken");
    noisy_samples(draws, BASE, &word)
}

/// The gain that spreads the penalties of noisy samples over 0 to 2^Qc - 1, as top and bottom.
fn gain(qc: u32) -> (u32, u32) {
    (1, 480 >> qc)
}

/// A noisy frame of a random word, weighed by plain.rs.
fn noisy_decode(draws: &mut Draws, code: Code, [qc, qm, m]: [u32; 3], guard: usize) -> Decode {
    let samples = received(draws, &code);
    let mut frame = Buffer::blank(samples.len(), guard, 0);
    let (top, bottom) = gain(qc);
    let refusal = plain::demap(BASE, &samples, top, bottom, qc, &mut frame);
    assert_eq!(refusal, 0, "the samples of a case are taken");
    let places = 1 << code.n;
    let (work_len, report_len) = (65 * places, 64 * places);
    Decode { code, qc, qm, m, frame, work_len, symbols_len: places, report_len, totals_len: places }
}

fn noisy_demap(draws: &mut Draws, n: usize, qc: u32) -> Demap {
    let code = random_code(draws, n, 0);
    let samples = Buffer::new(&received(draws, &code), 0, 0);
    let (top, bottom) = gain(qc);
    let llrs_len = samples.len();
    Demap { base: BASE, samples, top, bottom, qc, llrs_len }
}

// ---- The cases ----

/// What a case calls.
enum Kind {
    Decode { qc: u32, qm: u32, m: u32 },
    Demap { qc: u32 },
    Encode,
}

struct Case {
    name: &'static str,
    n: usize,
    kind: Kind,
}

static CASES: [Case; 16] = [
    Case { name: "decode-16-3-4", n: 4, kind: Kind::Decode { qc: 3, qm: 4, m: FULL } },
    Case { name: "decode-16-5-13", n: 4, kind: Kind::Decode { qc: 5, qm: 13, m: FULL } },
    Case { name: "decode-64-3-4", n: 6, kind: Kind::Decode { qc: 3, qm: 4, m: FULL } },
    Case { name: "decode-64-5-13", n: 6, kind: Kind::Decode { qc: 5, qm: 13, m: FULL } },
    Case { name: "decode-256-3-4", n: 8, kind: Kind::Decode { qc: 3, qm: 4, m: FULL } },
    Case { name: "decode-256-5-13", n: 8, kind: Kind::Decode { qc: 5, qm: 13, m: FULL } },
    Case { name: "decode-256-3-4-m4", n: 8, kind: Kind::Decode { qc: 3, qm: 4, m: 4 } },
    Case { name: "decode-256-3-4-m8", n: 8, kind: Kind::Decode { qc: 3, qm: 4, m: 8 } },
    Case { name: "decode-256-3-4-m16", n: 8, kind: Kind::Decode { qc: 3, qm: 4, m: 16 } },
    Case { name: "decode-256-3-4-m32", n: 8, kind: Kind::Decode { qc: 3, qm: 4, m: 32 } },
    Case { name: "decode-256-5-13-m4", n: 8, kind: Kind::Decode { qc: 5, qm: 13, m: 4 } },
    Case { name: "decode-256-5-13-m8", n: 8, kind: Kind::Decode { qc: 5, qm: 13, m: 8 } },
    Case { name: "decode-256-5-13-m16", n: 8, kind: Kind::Decode { qc: 5, qm: 13, m: 16 } },
    Case { name: "decode-256-5-13-m32", n: 8, kind: Kind::Decode { qc: 5, qm: 13, m: 32 } },
    Case { name: "demap-256-5", n: 8, kind: Kind::Demap { qc: 5 } },
    Case { name: "encode-256", n: 8, kind: Kind::Encode },
];

/// How many different inputs a case has when it is compared and timed.
const FRAMES: usize = 16;
/// How many it has when its instructions are counted, where making them costs time.
const FRAMES_COUNTED: usize = 4;

/// The first inputs of a case, the same in every run.
fn case_inputs(case: &Case, frames: usize) -> Vec<Input> {
    let mut draws = Draws(case.n as u64);
    let make = |_| match case.kind {
        Kind::Decode { qc, qm, m } => {
            let code = random_code(&mut draws, case.n, 0);
            Input::Decode(noisy_decode(&mut draws, code, [qc, qm, m], 0))
        }
        Kind::Demap { qc } => Input::Demap(noisy_demap(&mut draws, case.n, qc)),
        Kind::Encode => Input::Encode(random_encode(&mut draws, case.n, 0)),
    };
    (0..frames).map(make).collect()
}

// ---- Further inputs for the comparison ----

/// A guard that makes the parts lie at all kinds of addresses.
fn random_guard(draws: &mut Draws) -> usize {
    64 + draws.below(16)
}

/// Another map for the code: all free, one message place, or any.
fn vary_map(draws: &mut Draws, code: &mut Code) {
    match draws.below(4) {
        0 => code.map.fill(0),
        1 => {
            code.map.fill(1);
            let place = draws.below(code.map.len());
            code.map[place] = 0;
        }
        2 => {
            code.map.iter_mut().for_each(|byte| *byte = draws.below(2) as u8);
            code.map[0] = 0;
        }
        _ => {}
    }
}

/// Other penalties for the frame: small or large ones, ties, or a single zero per vector.
fn vary_frame(draws: &mut Draws, qc: u32, frame: &mut [u16]) {
    let cap = (1 << qc) - 1;
    let style = draws.below(6);
    for vector in frame.chunks_exact_mut(64) {
        match style {
            0 => vector.iter_mut().for_each(|entry| *entry = draws.within(0, cap) as u16),
            1 => vector.fill(cap as u16),
            2 => vector.fill(0),
            3 => vector.iter_mut().for_each(|entry| *entry = draws.pick(&[0, cap as u16])),
            _ => return,
        }
        vector[draws.below(64)] = 0;
    }
}

/// An input the decoder takes.
fn any_decode(draws: &mut Draws, n: usize, settings: [u32; 3]) -> Decode {
    let guard = random_guard(draws);
    let mut code = random_code(draws, n, guard);
    vary_map(draws, &mut code);
    let mut decode = noisy_decode(draws, code, settings, guard);
    vary_frame(draws, settings[0], &mut decode.frame);
    decode
}

/// An input the encoder takes.
fn any_encode(draws: &mut Draws, n: usize) -> Encode {
    let guard = random_guard(draws);
    let mut encode = random_encode(draws, n, guard);
    vary_map(draws, &mut encode.code);
    encode.message = Buffer::new(&random_message(draws, &encode.code), guard, 0);
    encode
}

/// Samples with one of every `kept + 1` lost, about.
fn with_lost(samples: Vec<i8>, draws: &mut Draws) -> Vec<i8> {
    let kept = draws.pick(&[1, 2, 8, 64]);
    samples.into_iter().map(|sample| if draws.below(kept + 1) < kept { sample } else { -128 }).collect()
}

/// An input the weigher takes.
fn any_demap(draws: &mut Draws, symbols: usize) -> Demap {
    let guard = random_guard(draws);
    let base = match draws.below(3) {
        0 => BASE,
        1 => 1 << draws.below(64),
        _ => draws.next(),
    };
    let base = if base == base.rotate_left(32) { BASE } else { base };
    let word: Vec<u8> = (0..symbols).map(|_| draws.below(64) as u8).collect();
    let samples: Vec<i8> = match draws.below(5) {
        0 => noisy_samples(draws, base, &word),
        1 => with_lost(noisy_samples(draws, base, &word), draws),
        2 => (0..64 * symbols).map(|_| draws.pick(&[-128, -127, -1, 0, 1, 127])).collect(),
        3 => vec![draws.pick(&[-128, 0, 127]); 64 * symbols],
        _ => (0..64 * symbols).map(|_| draws.next() as i8).collect(),
    };
    let (top, bottom) = match draws.below(4) {
        0 => (1, draws.pick(&[1, 4, 20, 255])),
        1 => (255, 1),
        2 => (1, draws.within(10, 200)),
        _ => (draws.within(1, 255), draws.within(1, 255)),
    };
    let samples = Buffer::new(&samples, guard, 99);
    let (qc, llrs_len) = (draws.within(1, 5), samples.len());
    Demap { base, samples, top, bottom, qc, llrs_len }
}

/// A length other than the given one.
fn wrong_length(draws: &mut Draws, len: usize) -> usize {
    match draws.below(5) {
        0 if len != 0 => 0,
        1 if len != 0 => len - 1,
        2 => len + 64,
        3 if len != 0 => 2 * len,
        _ => len + 1,
    }
}

/// Sets one random entry.
fn spoil<T: Copy>(draws: &mut Draws, part: &mut [T], value: T) {
    if !part.is_empty() {
        part[draws.below(part.len())] = value;
    }
}

/// Puts one mistake into n, the map or the coefficients.
fn spoil_code(draws: &mut Draws, code: &mut Code) {
    match draws.below(10) {
        0 => code.n = 0,
        1 => code.n = draws.pick(&[9, 10, 63, 64, 65, 256, 264, 1 << 32, (1 << 32) + 1, usize::MAX]),
        2 => code.n = draws.pick(&[1, 2, 3, 4, 5, 6, 7, 8]),
        3 => code.map.resize(wrong_length(draws, code.map.len()), 0),
        4 => code.coefs.resize(wrong_length(draws, code.coefs.len()), 1),
        5 | 6 => {
            let value = draws.pick(&[2, 3, 128, 255]);
            let frozen: Vec<usize> = (0..code.map.len()).filter(|&i| code.map[i] != 0).collect();
            match frozen.len() {
                0 => spoil(draws, &mut code.map, value),
                _ => code.map[draws.pick(&frozen)] = value,
            }
        }
        7 => code.map.fill(1),
        _ => {
            let value = draws.pick(&[0, 64, 65, 128, 255]);
            spoil(draws, &mut code.coefs, value);
        }
    }
}

/// Puts one mistake into an input of the decoder.
fn spoil_decode(draws: &mut Draws, d: &mut Decode) {
    match draws.below(16) {
        0 => d.frame.resize(wrong_length(draws, d.frame.len()), 0),
        1 => d.work_len = wrong_length(draws, d.work_len),
        2 => d.symbols_len = wrong_length(draws, d.symbols_len),
        3 => d.report_len = wrong_length(draws, d.report_len),
        4 => d.qc = draws.pick(&[0, 6, 13, 32, 256, 259, u32::MAX]),
        5 => d.qm = draws.pick(&[0, 14, 15, 16, 32, 256, 266, u32::MAX]),
        6 => d.qm = d.qc.saturating_sub(1),
        7 | 8 => {
            let least = 1u16.checked_shl(d.qc).unwrap_or(99);
            let value = draws.pick(&[least, least + 1, 32767, 32768, 65535]);
            spoil(draws, &mut d.frame, value);
        }
        9 | 10 => {
            let vectors = d.frame.len() / 64;
            if vectors > 0 {
                let start = 64 * draws.below(vectors);
                d.frame[start..start + 64].iter_mut().for_each(|entry| *entry = (*entry).max(1));
            }
        }
        11 => d.totals_len = wrong_length(draws, d.totals_len),
        12 => d.m = draws.pick(&[0, 65, 255, 256, 257, 272, 65552, 1 << 31, u32::MAX]),
        _ => spoil_code(draws, &mut d.code),
    }
}

/// Puts one mistake into an input of the encoder.
fn spoil_encode(draws: &mut Draws, e: &mut Encode) {
    match draws.below(7) {
        0 => e.message.resize(wrong_length(draws, e.message.len()), 0),
        1 => e.codeword_len = wrong_length(draws, e.codeword_len),
        2 | 3 => {
            let value = draws.pick(&[64, 65, 127, 128, 255]);
            spoil(draws, &mut e.message, value);
        }
        4 => {
            e.code.map.fill(1);
            e.message.resize(0, 0);
        }
        _ => spoil_code(draws, &mut e.code),
    }
}

/// Puts one mistake into an input of the weigher.
fn spoil_demap(draws: &mut Draws, d: &mut Demap) {
    let wrong = [0, 256, 257, 511, u32::MAX];
    match draws.below(7) {
        0 => d.llrs_len = wrong_length(draws, d.llrs_len),
        1 => d.samples.resize(wrong_length(draws, d.samples.len()), 5),
        2 => {
            d.llrs_len = draws.pick(&[0, 1, 63, 65, 64 * 257, 64 * 256 + 1]);
            d.samples.resize(d.llrs_len, 5);
        }
        3 => d.qc = draws.pick(&[0, 6, 13, 32, 256, 261, u32::MAX]),
        4 => d.base = (d.base >> 32) * draws.pick(&[0, (1 << 32) + 1]),
        5 => d.top = draws.pick(&wrong),
        _ => d.bottom = draws.pick(&wrong),
    }
}

// ---- Comparing ----

/// How many inputs were compared, and how often each number was returned.
#[derive(Default)]
struct Tally {
    inputs: usize,
    returned: [usize; 14],
}

/// What is wrong with an answer by itself: a refusal must change nothing, an answer must clear the
/// work buffer.
fn fault(code: u8, out: &Output, fresh: &Output) -> Option<&'static str> {
    if code != 0 {
        (out != fresh).then_some("a refusal changed a buffer or the count")
    } else {
        let cleared = out.work.iter().all(|&entry| entry == 0);
        (!cleared).then_some("the work buffer is not all zeros")
    }
}

/// The first way in which an answer differs from that of plain.rs, the guards included.
fn difference(a: &(u8, Output), b: &(u8, Output)) -> Option<String> {
    if a.0 != b.0 {
        return Some(format!("returned {} where plain returned {}", a.0, b.0));
    }
    let (a, b) = (&a.1, &b.1);
    if let Some(i) = (0..a.bytes.all.len()).find(|&i| a.bytes.all[i] != b.bytes.all[i]) {
        let place = i as isize - a.bytes.guard as isize;
        return Some(format!("symbol {place} is {}, plain's {}", a.bytes.all[i], b.bytes.all[i]));
    }
    for (name, x, y) in [("penalty", &a.wide, &b.wide), ("work entry", &a.work, &b.work)] {
        if let Some(i) = (0..x.all.len()).find(|&i| x.all[i] != y.all[i]) {
            let place = i as isize - x.guard as isize;
            return Some(format!("{name} {place} is {}, plain's {}", x.all[i], y.all[i]));
        }
    }
    (a.count != b.count).then(|| format!("count is {}, plain's {}", a.count, b.count))
}

/// One line that says which input it is.
fn describe(input: &Input) -> String {
    let code = |c: &Code| format!("n {}, map {}, coefficients {}", c.n, c.map.len(), c.coefs.len());
    match input {
        Input::Encode(e) => {
            format!("encode: {}, message {}, codeword {}", code(&e.code), e.message.len(), e.codeword_len)
        }
        Input::Demap(d) => format!(
            "demap: base {:#x}, samples {}, gain {}/{}, Qc {}, penalties {}",
            d.base, d.samples.len(), d.top, d.bottom, d.qc, d.llrs_len
        ),
        Input::Decode(d) => format!(
            "decode: {}, Qc {}, Qm {}, m {}, frame {}, work {}, symbols {}, report {}, totals {}",
            code(&d.code), d.qc, d.qm, d.m, d.frame.len(), d.work_len, d.symbols_len, d.report_len, d.totals_len
        ),
    }
}

/// Makes the call with all implementations that have it and compares all they give.
fn agree(input: &Input, guard: usize, tally: &mut Tally) -> Result<(), String> {
    let fresh = Output::new(input, guard);
    let answer = |maker: &Maker| {
        let mut out = fresh.clone();
        call(maker, input, &mut out).map(|code| (code, out))
    };
    let plain = answer(&MAKERS[PLAIN]).ok_or("plain.rs lacks a call")?;
    for maker in &MAKERS {
        let Some(other) = answer(maker) else { continue };
        let wrong = difference(&other, &plain)
            .or_else(|| fault(other.0, &other.1, &fresh).map(str::to_string));
        if let Some(wrong) = wrong {
            return Err(format!("input {}, {}: {}: {wrong}", tally.inputs + 1, describe(input), maker.name));
        }
    }
    tally.inputs += 1;
    if let Some(times) = tally.returned.get_mut(plain.0 as usize) {
        *times += 1;
    }
    Ok(())
}

/// Compares on inputs that are taken: all n and all pairs of precisions, with full check nodes and with others.
fn compare_taken(draws: &mut Draws, tally: &mut Tally) -> Result<(), String> {
    for n in 1..=8 {
        for qc in 1..=5 {
            for qm in qc..=13 {
                let guard = random_guard(draws);
                agree(&Input::Decode(any_decode(draws, n, [qc, qm, FULL])), guard, tally)?;
                let m = draws.within(1, FULL);
                agree(&Input::Decode(any_decode(draws, n, [qc, qm, m])), guard, tally)?;
            }
        }
        for _ in 0..30 {
            let guard = random_guard(draws);
            agree(&Input::Encode(any_encode(draws, n)), guard, tally)?;
        }
    }
    for round in 0..120 {
        let symbols = if round < 100 { 1 + draws.below(12) } else { draws.pick(&[128, 255, 256]) };
        let guard = random_guard(draws);
        agree(&Input::Demap(any_demap(draws, symbols)), guard, tally)?;
    }
    Ok(())
}

/// Compares on inputs with one to three mistakes, most of which are refused.
fn compare_spoilt(draws: &mut Draws, tally: &mut Tally) -> Result<(), String> {
    for round in 0..800 {
        let n = if round % 20 == 0 { 7 + draws.below(2) } else { 1 + draws.below(5) };
        let qc = draws.within(1, 5);
        let qm = draws.within(qc, 13);
        let m = draws.pick(&[1, 16, FULL, FULL]);
        let mut decode = any_decode(draws, n, [qc, qm, m]);
        let mut encode = any_encode(draws, n);
        let symbols = if round % 20 == 0 { 256 } else { 1 + draws.below(4) };
        let mut demap = any_demap(draws, symbols);
        for _ in 0..draws.pick(&[1, 1, 1, 2, 3]) {
            spoil_decode(draws, &mut decode);
            spoil_encode(draws, &mut encode);
            spoil_demap(draws, &mut demap);
        }
        let guard = random_guard(draws);
        agree(&Input::Decode(decode), guard, tally)?;
        agree(&Input::Encode(encode), guard, tally)?;
        agree(&Input::Demap(demap), guard, tally)?;
    }
    Ok(())
}

/// Compares on the inputs of all cases and on the random ones.
fn compare_all() -> Result<Tally, String> {
    let mut tally = Tally::default();
    for case in &CASES {
        for input in case_inputs(case, FRAMES) {
            agree(&input, 0, &mut tally)?;
        }
    }
    let mut draws = Draws(64);
    compare_taken(&mut draws, &mut tally)?;
    compare_spoilt(&mut draws, &mut tally)?;
    Ok(tally)
}

/// The mode compare: prints one line and says whether all agree.
fn compare() -> bool {
    match compare_all() {
        Ok(tally) => {
            let refused: Vec<String> = (1..14)
                .filter(|&number| tally.returned[number] != 0)
                .map(|number| format!("{} by {number}", tally.returned[number]))
                .collect();
            let taken = tally.returned[0];
            let refused = refused.join(", ");
            println!("all agree on {} inputs ({taken} taken; refused {refused})", tally.inputs);
            true
        }
        Err(wrong) => {
            println!("difference at {wrong}");
            false
        }
    }
}

// ---- Timing ----

/// The time of a batch of calls, cycling through the inputs from the given one on.
fn batch(maker: &Maker, inputs: &[Input], first: usize, calls: usize, out: &mut Output) -> Duration {
    let start = Instant::now();
    for i in first..first + calls {
        let code = call(maker, black_box(&inputs[i % inputs.len()]), black_box(&mut *out));
        black_box(code);
    }
    start.elapsed()
}

/// How many calls take about two milliseconds.
fn batch_size(maker: &Maker, inputs: &[Input], out: &mut Output) -> usize {
    let once = (0..5).map(|i| batch(maker, inputs, i, 1, out)).min().unwrap_or_default();
    (2_000_000 / once.as_nanos().max(1)).clamp(1, 1_000_000) as usize
}

/// The least time of a call in microseconds, for each implementation that has it, over interleaved
/// rounds.
fn time_case(case: &Case, budget: Duration) -> [Option<f64>; COUNT] {
    let inputs = case_inputs(case, FRAMES);
    let mut out = Output::new(&inputs[0], 0);
    let sizes = MAKERS.each_ref().map(|maker| batch_size(maker, &inputs, &mut out));
    let mut least = MAKERS.each_ref().map(|maker| maker.has(case).then_some(f64::INFINITY));
    let start = Instant::now();
    let mut round = 0;
    while round < 30 || start.elapsed() < budget {
        for turn in 0..COUNT {
            let who = (round + turn) % COUNT;
            let Some(time) = &mut least[who] else { continue };
            let taken = batch(&MAKERS[who], &inputs, round, sizes[who], &mut out);
            *time = time.min(taken.as_secs_f64() * 1e6 / sizes[who] as f64);
        }
        round += 1;
    }
    least
}

/// The mode time: prints a line for each case, its name and the times, or a dash for a call that an
/// implementation does not have.
fn time(seconds: f64) {
    for case in &CASES {
        let times = time_case(case, Duration::from_secs_f64(seconds));
        let shown = times.map(|time| time.map_or("-".to_string(), |time| format!("{time:.3}")));
        println!("{} {}", case.name, shown.join(" "));
    }
}

// ---- Counting instructions ----

/// The mode cases: prints a line for each case, its name and the names of the implementations, or a
/// dash for one that does not have its call.
fn cases() {
    for case in &CASES {
        let names = MAKERS.each_ref().map(|maker| if maker.has(case) { maker.name } else { "-" });
        println!("{} {}", case.name, names.join(" "));
    }
}

/// The mode once: makes exactly `count` calls of one implementation and prints a checksum.
fn once(maker: &Maker, case: &Case, count: usize) {
    let inputs = case_inputs(case, FRAMES_COUNTED);
    let mut out = Output::new(&inputs[0], 0);
    batch(maker, &inputs, 0, count, &mut out);
    println!("{:016x}", out.checksum());
}

/// Finds an implementation, a case that it has and a count among the arguments.
fn once_arguments(args: &[&str]) -> Option<(&'static Maker, &'static Case, usize)> {
    let [who, case, count] = args else { return None };
    let maker = MAKERS.iter().find(|maker| maker.name == *who)?;
    let case = CASES.iter().find(|known| known.name == *case && maker.has(known))?;
    Some((maker, case, count.parse().ok()?))
}

/// Runs the mode that the arguments name; says whether it went well, or nothing if there is none.
fn run(args: &[&str]) -> Option<bool> {
    match args {
        ["compare"] => return Some(compare()),
        ["cases"] => cases(),
        ["time", seconds] => {
            time(seconds.parse().ok().filter(|seconds| (0.0..1e6).contains(seconds))?);
        }
        ["once", rest @ ..] => {
            let (maker, case, count) = once_arguments(rest)?;
            once(maker, case, count);
        }
        _ => return None,
    }
    Some(true)
}

fn main() -> ExitCode {
    let args: Vec<String> = std::env::args().skip(1).collect();
    let args: Vec<&str> = args.iter().map(String::as_str).collect();
    match run(&args) {
        Some(true) => ExitCode::SUCCESS,
        Some(false) => ExitCode::FAILURE,
        None => {
            eprintln!("usage: bench compare | cases | time SECONDS-A-CASE | once WHO CASE COUNT");
            ExitCode::from(2)
        }
    }
}
