// The limits of the desk that the Rust desks are compared with, as `rivals` hands them to the compiler.
pub const FORMS: u64 = limit(env!("FORMS")) as u64;
pub const RULES: usize = limit(env!("RULES"));
pub const MARKS: usize = limit(env!("MARKS"));

const fn limit(digits: &str) -> usize {
    let mut number = 0;
    let mut at = 0;
    while at < digits.len() {
        number = 10 * number + (digits.as_bytes()[at] - b'0') as usize;
        at += 1;
    }
    number
}
