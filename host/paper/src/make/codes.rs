use super::Rng;

pub(super) const FIRST: &[u8] = b"ABCDEFGHIJKLMNOPRSTUWYZ";
pub(super) const SECOND: &[u8] = b"ABCDEFGHJKLMNOPQRSTUVWXY";
const THIRD: &[u8] = b"ABCDEFGHJKMNPRSTUVWXY";
pub(super) const INWARD: &[u8] = b"ABDEFGHJLNPQRSTUWXYZ";
const DIGITS: &[u8] = b"0123456789";

const PATTERNS: [&[u8]; 6] = [b"AN", b"ANN", b"AAN", b"AANN", b"ANA", b"AANA"];

/// A well formed outward code, padded to 4 bytes.
pub fn outward(rng: &mut Rng) -> Vec<u8> {
    let pattern = *rng.pick(&PATTERNS);
    let mut letters = [FIRST, SECOND, THIRD].into_iter();
    let mut code = Vec::new();
    for class in pattern {
        let allowed = match class {
            b'A' => letters.next().unwrap_or(THIRD),
            _ => DIGITS,
        };
        code.push(*rng.pick(allowed));
    }
    code.resize(4, b' ');
    code
}

/// A well formed inward code.
pub fn inward(rng: &mut Rng) -> Vec<u8> {
    vec![*rng.pick(DIGITS), *rng.pick(INWARD), *rng.pick(INWARD)]
}

/// A well formed suffix.
pub fn suffix(rng: &mut Rng) -> Vec<u8> {
    let place = rng.below(10 * 26);
    vec![DIGITS[place / 26], b'A' + (place % 26) as u8]
}

/// The suffixes of a postcode as Royal Mail gives them out: 1A to 9T, without the
/// letters that no inward code has.
const GIVEN_OUT: u32 = 175;

/// The n-th of them, counted from 1, as text; behind the last the first again.
pub fn nth_suffix(n: u32) -> String {
    let place = (n.saturating_sub(1) % GIVEN_OUT) as usize;
    let digit = DIGITS[1 + place / INWARD.len()];
    let letter = INWARD[place % INWARD.len()];
    [digit, letter].map(char::from).iter().collect()
}

/// A code that isn't a well formed outward code: another length, a letter where
/// it may not stand, or none of the patterns.
pub fn bad_outward(rng: &mut Rng) -> Vec<u8> {
    let mut code = outward(rng);
    match rng.below(9) {
        0 => code.truncate(rng.below(4)),
        1 => code.push(b' '),
        2 => code[0] = *rng.pick(b"QVX"),
        3 => code = vec![b'A', *rng.pick(b"IZ"), *rng.pick(DIGITS), b' '],
        4 => code = vec![b'W', *rng.pick(DIGITS), *rng.pick(b"IZ"), b' '],
        5 => code = vec![b'E', b'C', *rng.pick(DIGITS), *rng.pick(b"ILOQZ")],
        6 => code.make_ascii_lowercase(),
        7 => code[0] = *rng.pick(b" 07-\x00\xff"),
        _ => {
            code = rng
                .pick(&[b"    ", b"A   ", b"AB  ", b"ABC1", b"A123", b"A 1 "])
                .to_vec()
        }
    }
    code
}
