//! Matrix Market texts over `Dual`, read and written by hand in plain Rust: the port's refusals, the
//! same buffers, and nothing written where a text or a matrix is refused.

const LARGEST_TEXT: usize = 65_536;
const LARGEST_N: usize = 32;
const LARGEST: u64 = 1 << 53;
const PAGE: usize = 20_480;
const TITLE: &[u8] = b"%%MatrixMarket matrix array integer ";

/// Reads a text into 2n² floats; the answer is 0 or the refusal's number.
#[inline(never)]
pub fn read(text: &[u8], out: &mut [f64], n: &mut usize) -> u32 {
    match read_or_refuse(text, out) {
        Ok(order) => {
            *n = order;
            0
        }
        Err(number) => number,
    }
}

fn read_or_refuse(text: &[u8], out: &mut [f64]) -> Result<usize, u32> {
    let (n, symmetric, mut rest) = head(text)?;
    if out.len() != 2 * n * n {
        return Err(2);
    }
    // the entries are kept apart until all are known to be there
    let mut entries = [0.0; LARGEST_N * LARGEST_N];
    for column in 0..n {
        for row in if symmetric { column } else { 0 }..n {
            (entries[row * n + column], rest) = entry(rest)?;
        }
    }
    if !rest.is_empty() {
        return Err(12);
    }
    for (at, record) in out.chunks_exact_mut(2).enumerate() {
        let (row, column) = (at / n, at % n);
        let from = if symmetric && row < column { column * n + row } else { at };
        record.copy_from_slice(&[entries[from], 0.0]);
    }
    Ok(n)
}

/// n, whether the text is symmetric, and the text from the entries on.
fn head(text: &[u8]) -> Result<(usize, bool, &[u8]), u32> {
    if text.len() > LARGEST_TEXT {
        return Err(10);
    }
    let rest = text.strip_prefix(TITLE).ok_or(10u32)?;
    let (symmetric, mut rest) = match rest.strip_prefix(b"general\n") {
        Some(rest) => (false, rest),
        None => (true, rest.strip_prefix(b"symmetric\n").ok_or(10u32)?),
    };
    while let [b'%', comment @ ..] = rest {
        let end = comment.iter().position(|byte| *byte == b'\n').ok_or(10u32)?;
        rest = &comment[end + 1..];
    }
    let (rows, rest) = size(rest, b' ')?;
    let (columns, rest) = size(rest, b'\n')?;
    if rows != columns {
        return Err(11);
    }
    // a size has no leading zeros here
    match rows.iter().fold(0, |n, digit| n * 10 + usize::from(digit - b'0')) {
        n if rows.len() <= 2 && n <= LARGEST_N => Ok((n, symmetric, rest)),
        _ => Err(1),
    }
}

/// The digits of a size without leading zeros, and what follows the byte that ends it.
fn size(text: &[u8], end: u8) -> Result<(&[u8], &[u8]), u32> {
    let length = text.iter().position(|byte| !byte.is_ascii_digit()).ok_or(10u32)?;
    if length == 0 || text[length] != end {
        return Err(10);
    }
    let zeros = text[..length].iter().take_while(|digit| **digit == b'0').count();
    Ok((&text[zeros..length], &text[length + 1..]))
}

/// One whole number with its newline, and what follows.
#[inline]
fn entry(text: &[u8]) -> Result<(f64, &[u8]), u32> {
    let (negative, digits) = match text.strip_prefix(b"-") {
        Some(digits) => (true, digits),
        None => (false, text),
    };
    let mut number = 0;
    for (at, byte) in digits.iter().enumerate() {
        match byte {
            b'0'..=b'9' => {
                number = number * 10 + u64::from(byte - b'0');
                if number > LARGEST {
                    return Err(10);
                }
            }
            b'\n' if at > 0 => {
                let whole = number as i64;
                return Ok(((if negative { -whole } else { whole }) as f64, &digits[at + 1..]));
            }
            _ => return Err(10),
        }
    }
    Err(12)
}

/// Writes a matrix of 2n² floats into a page; the answer is 0 or the refusal's number.
#[inline(never)]
pub fn write(n: usize, a: &[f64], text: &mut [u8], length: &mut usize) -> u32 {
    if n > LARGEST_N {
        return 1;
    }
    if a.len() != 2 * n * n || text.len() != PAGE {
        return 2;
    }
    if !a.chunks_exact(2).all(|record| writable(record[0]) && record[1] == 0.0) {
        return 20;
    }
    let mut at = put(text, 0, TITLE);
    at = put(text, at, b"general\n");
    at = put_number(text, at, n as i64, b' ');
    at = put_number(text, at, n as i64, b'\n');
    for column in 0..n {
        for row in 0..n {
            at = put_number(text, at, a[(row * n + column) * 2] as i64, b'\n');
        }
    }
    text[at..].fill(0);
    *length = at;
    0
}

/// A whole number of magnitude up to 2^53; no NaN and no infinity is.
fn writable(part: f64) -> bool {
    part.abs() <= LARGEST as f64 && part == part as i64 as f64
}

fn put(text: &mut [u8], at: usize, bytes: &[u8]) -> usize {
    text[at..at + bytes.len()].copy_from_slice(bytes);
    at + bytes.len()
}

/// A number and the byte that ends it, made from its end.
#[inline]
fn put_number(text: &mut [u8], at: usize, number: i64, end: u8) -> usize {
    let mut line = [end; 18];
    let (mut first, mut rest) = (17, number.unsigned_abs());
    loop {
        first -= 1;
        line[first] = b'0' + (rest % 10) as u8;
        rest /= 10;
        if rest == 0 {
            break;
        }
    }
    if number < 0 {
        first -= 1;
        line[first] = b'-';
    }
    put(text, at, &line[first..])
}
