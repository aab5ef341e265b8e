//! Figures for the tables.

use std::time::Duration;

pub fn microseconds(time: Duration) -> f64 {
    1e6 * time.as_secs_f64()
}

/// Nanoseconds for each of so many blocks or bytes.
pub fn nanoseconds_each(number: usize, time: Duration) -> f64 {
    1e9 * time.as_secs_f64() / number as f64
}

/// How many times as fast as `other` the one is that takes `time`.
pub fn ratio(other: Duration, time: Duration) -> f64 {
    other.as_secs_f64() / time.as_secs_f64()
}

/// Millions of bytes in a second.
pub fn speed(bytes: usize, time: Duration) -> f64 {
    bytes as f64 / time.as_secs_f64() / 1e6
}

/// 12,345,678
pub fn grouped(number: usize) -> String {
    let digits = number.to_string();
    let mut text = String::new();
    for (at, digit) in digits.chars().enumerate() {
        if at > 0 && (digits.len() - at).is_multiple_of(3) {
            text.push(',');
        }
        text.push(digit);
    }
    text
}
