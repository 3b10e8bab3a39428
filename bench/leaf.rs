// The loops of bench/leaf in stock Rust, with plain integer code: sums in 128 and in 64 bits, and decimals read.
use std::hint::black_box;
use std::time::Instant;

const TURNS: u32 = 1_000_000;

macro_rules! fraction {
    ($name:ident, $signed:ty, $size:ty) => {
        mod $name {
            #[derive(Clone, Copy)]
            pub struct Frac {
                pub num: $signed,
                pub den: $size,
            }

            fn common_divisor(a: $size, b: $size) -> $size {
                let (mut x, mut y) = (a, b);
                while y != 0 {
                    (x, y) = (y, x % y);
                }
                x
            }

            pub fn of(num: $signed, den: $size) -> Frac {
                let divisor = common_divisor(num.unsigned_abs(), den);
                Frac { num: num / divisor as $signed, den: den / divisor }
            }

            pub fn add(x: Frac, y: Frac) -> Option<Frac> {
                let shared = common_divisor(x.den, y.den);
                let left = x.num.checked_mul((y.den / shared) as $signed)?;
                let right = y.num.checked_mul((x.den / shared) as $signed)?;
                let den = (x.den / shared).checked_mul(y.den)?;
                Some(of(left.checked_add(right)?, den))
            }

            pub fn sums() -> $signed {
                let mut total = of(0, 1);
                let mut seed: u32 = 1;
                for _ in 0..super::TURNS {
                    seed = seed.wrapping_mul(1_664_525).wrapping_add(1_013_904_223);
                    let value = of(<$signed>::from(seed), 1_000_000);
                    total = add(total, value).unwrap_or(value);
                }
                total.num
            }
        }
    };
}

fraction!(wide, i128, u128);
fraction!(narrow, i64, u64);

fn digits(text: &[u8], most: usize) -> Option<i64> {
    if text.is_empty() || text.len() > most {
        return None;
    }
    let mut value = 0;
    for byte in text {
        if !byte.is_ascii_digit() {
            return None;
        }
        value = value * 10 + i64::from(byte - b'0');
    }
    Some(value)
}

fn read(text: &[u8]) -> Option<i64> {
    let (negative, text) = match text {
        [b'-', rest @ ..] => (true, rest),
        _ => (false, text),
    };
    let size = match text.iter().position(|byte| *byte == b'.') {
        None => digits(text, 12)? * 1_000_000,
        Some(place) => {
            let after = &text[place + 1..];
            digits(&text[..place], 12)? * 1_000_000 + digits(after, 6)? * 10i64.pow(6 - after.len() as u32)
        }
    };
    Some(if negative { -size } else { size })
}

fn reads() -> i64 {
    let texts: [&[u8]; 4] = [b"12", b"-7.25", b"999999999999.999999", b"0.000001"];
    let mut sum = 0i64;
    for turn in 0..TURNS {
        if let Some(value) = read(black_box(texts[(turn % 4) as usize])) {
            sum = sum.wrapping_add(value);
        }
    }
    sum
}

// Days from 1970-01-01 of a date, by the usual arithmetic.
fn day_of(year: i32, month: i32, day: i32) -> i32 {
    let year = if month <= 2 { year - 1 } else { year };
    let era = year.div_euclid(400);
    let of_era = year - era * 400;
    let of_year = (153 * ((month + 9) % 12) + 2) / 5 + day - 1;
    era * 146_097 + of_era * 365 + of_era / 4 - of_era / 100 + of_year - 719_468
}

// The first and last day of a day, a month, a quarter or a year.
fn period(text: &[u8]) -> Option<(i32, i32)> {
    if text.len() < 4 {
        return None;
    }
    let year = digits(&text[..4], 4)? as i32;
    let rest = &text[4..];
    let (first, count) = match rest {
        [] => (1, 12),
        [b'Q', digit] if (b'1'..=b'4').contains(digit) => (3 * i32::from(digit - b'1') + 1, 3),
        [_, _] => (digits(rest, 2)? as i32, 1),
        [_, _, _, _] => {
            let day = day_of(year, digits(&rest[..2], 2)? as i32, digits(&rest[2..], 2)? as i32);
            return Some((day, day));
        }
        _ => return None,
    };
    if !(1..=12).contains(&first) {
        return None;
    }
    let end = first + count;
    let next = if end > 12 { day_of(year + 1, end - 12, 1) } else { day_of(year, end, 1) };
    Some((day_of(year, first, 1), next - 1))
}

fn periods() -> i64 {
    let texts: [&[u8]; 4] = [b"202401", b"2024Q3", b"20240229", b"2024"];
    let mut sum = 0i64;
    for turn in 0..TURNS {
        if let Some((first, last)) = period(black_box(texts[(turn % 4) as usize])) {
            sum += i64::from(first) + i64::from(last);
        }
    }
    sum
}

fn main() {
    let start = Instant::now();
    let total = black_box(wide::sums());
    let wide = start.elapsed().as_micros();
    let start = Instant::now();
    black_box(narrow::sums());
    let narrow = start.elapsed().as_micros();
    let start = Instant::now();
    let sum = black_box(reads());
    let reading = start.elapsed().as_micros();
    let start = Instant::now();
    let days = black_box(periods());
    let parsing = start.elapsed().as_micros();
    println!("{total} {sum} {days}");
    eprintln!("add {wide} (in 64 bits {narrow}) read {reading} period {parsing}");
}
