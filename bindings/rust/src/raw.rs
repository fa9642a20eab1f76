//! The calls as the library has them. Every value of these structs is allowed: the library reads no number as a `bool` or an `enum`.
use crate::Point;

macro_rules! plain {
    ($($(#[$doc:meta])* $name:ident { $($field:ident: $kind:ty),* $(,)? })*) => { $(
        $(#[$doc])*
        #[repr(C)]
        #[derive(Clone, Copy, Debug, Default, PartialEq, Eq)]
        pub struct $name { $(pub $field: $kind),* }
    )* };
}

plain! {
    /// A point of 64-bit numbers.
    WidePoint { a: i64, b: i64, c: i64, d: i64 }

    /// G(1) as a, b, c, d and G(i) as ai, bi, ci, di.
    Operator { a: i16, b: i16, c: i16, d: i16, ai: i16, bi: i16, ci: i16, di: i16 }

    /// A region: kind 2 a rectangle, 3 an ellipse, any other a slice.
    Shape {
        kind: u8, n: u16, xl: i32, xh: i32, yl: i32, yh: i32, cx: i32, cy: i32, p: u16, q: i16, r: u16, s: u32, zx: i16, zy: i16, w: i32,
    }

    /// hi·2^64 + lo.
    Count { hi: u64, lo: u64 }

    /// A count for each exponent from 0 to 20.
    Counts { counts: [Count; 21] }

    /// A session.
    State { stage: u8, k: u8, all: u8, ended: u8, a: Shape, b: Shape, spot: Point, operator: Operator, tally: Counts }

    /// What a call on a session answers.
    Reply { kind: u8, number: u8, flag: u8, scale: u8, count: usize, u: Point, t: Point }

    /// The session that a call leaves, and its answer.
    Left { session: State, reply: Reply }

    /// A session of trays.
    TrayState { taken: u8, k: u8, all: u8, ended: u8, count: usize, spot: Point, b: Shape, a: [Shape; 8] }

    /// The session of trays that a call leaves, and its answer.
    TrayLeft { session: TrayState, reply: Reply }

    /// lo ≤ n·z ≤ hi.
    Interval { n: i32, lo: i32, hi: i32 }

    /// hi·2^64 + lo.
    Wide { hi: i64, lo: u64 }

    /// The number of a refusal, the end, how many points or pairs were written.
    Handed { number: u8, ended: u8, count: usize }

    /// The number of a refusal, which slice has the word with fewer T, and how long it is.
    Word { number: u8, second: u8, length: usize }

    /// The number of a refusal, and the inverse.
    Inverted { number: u8, operator: Operator }

    /// The prices of the letters, in thousandths of a tick.
    Tariff { h: u32, s: u32, t: u32, w: u32 }

    /// The number of a refusal, whether the cost fits the memory, the cost in ticks.
    Ticks { number: u8, fits: u8, ticks: u32 }

    /// The number of a refusal, and how many bytes were written.
    Wrote { number: u8, count: usize }

    /// The number of a refusal, the bytes taken, and what the reader sees.
    Seen { number: u8, k: u8, ticks: u32, taken: usize, m: u64, u: Point, t: Point }

    /// All that is written on a pattern sheet.
    Sheet { k: u8, u: Point, t: Point, ticks: u32 }
}

extern "C" {
    pub fn bowujita_abi() -> u32;
    pub fn bowujita_read(s: State, bytes: *const u8, length: usize) -> Left;
    pub fn bowujita_hand_out(s: State, numbers: *mut i32, length: usize) -> Left;
    pub fn bowujita_rewind(s: State) -> Left;
    pub fn bowujita_clear(s: State) -> Left;
    pub fn bowujita_has_solution(s: State) -> Reply;
    pub fn bowujita_has_image(s: State, w: Point) -> Reply;
    pub fn bowujita_shortest(s: State) -> Reply;
    pub fn bowujita_tally(s: State) -> Counts;
    pub fn bowujita_tray_take(s: TrayState, k: u64, byte: u64, a: *const u8, a_length: usize, b: *const u8, b_length: usize) -> TrayLeft;
    pub fn bowujita_tray_hand_out(s: TrayState, numbers: *mut i32, length: usize) -> TrayLeft;
    pub fn bowujita_tray_rewind(s: TrayState) -> TrayLeft;
    pub fn bowujita_tray_clear(s: TrayState) -> TrayLeft;
    pub fn bowujita_sign(p: i64, q: i64) -> i32;
    pub fn bowujita_wide_sign(p: Wide, q: Wide) -> i32;
    pub fn bowujita_exponent(v: Point, k: u8) -> u32;
    pub fn bowujita_pulses(e: u32) -> u64;
    pub fn bowujita_line(first: Interval, second: Interval, after: u8, a: i32, b: i32, numbers: *mut i32, length: usize) -> Handed;
    pub fn bowujita_entry(k: u8, u: Point, after: u8, place: Point, numbers: *mut i32, length: usize) -> Handed;
    pub fn bowujita_words(k: u8, u: Point, t: Point, first: *mut u8, first_length: usize, second: *mut u8, second_length: usize) -> Word;
    pub fn bowujita_operator_test(g: Operator) -> u8;
    pub fn bowujita_image(g: Operator, v: Point) -> WidePoint;
    pub fn bowujita_inverse(g: Operator) -> Inverted;
    pub fn bowujita_cost(tariff: Tariff, word: *const u8, length: usize, memory: u32) -> Ticks;
    pub fn bowujita_tray_cost(tariff: Tariff, words: *const u8, length: usize, memory: u32) -> Ticks;
    pub fn bowujita_qasm_write(word: *const u8, word_length: usize, text: *mut u8, text_length: usize) -> Wrote;
    pub fn bowujita_qasm_read(text: *const u8, text_length: usize, word: *mut u8, word_length: usize) -> Wrote;
    pub fn bowujita_sheet_read(reader: u8, bytes: *const u8, length: usize) -> Seen;
    pub fn bowujita_sheet_write(sheet: Sheet, bytes: *mut u8, length: usize) -> Wrote;
}
