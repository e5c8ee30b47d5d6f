//! What can be wrong with a line. Bad lines are made here, and any line is told
//! what is wrong with it. Nothing here asks the meter. Rules lines-1 to lines-3,
//! refusal-22.

use super::calls::{some_call, Words};
use super::NAMES;
use crate::rng::Rng;

/// A fault of a line: without it the line would be right.
#[derive(Clone, Copy, PartialEq, Eq, Debug)]
pub enum LineFault {
    Unended,
    Empty,
    NoComma,
    TwoCommas,
    CarriageReturn,
    BlankInFront,
    BlankAtComma,
    BlankAtEnd,
    Plus,
    Minus,
    Quoted,
    /// A byte 0, or one above 127.
    OddByte,
    NoName,
    Capitals,
    CutOff,
    LetterMore,
    OtherName,
    CodeForName,
    NoNumber,
    OnlyZeros,
    LeadingZero,
    /// 4,294,967,296.
    OneOver,
    /// More, in 64 bits.
    Over32,
    Over64,
    /// A letter or mark among the digits.
    NoDigit,
    PlaceOver,
    DayNumber,
}

/// Names that no call has.
const OTHER_NAMES: [&str; 8] = [
    "limit", "consent", "afford", "incoming", "outgoing", "mms", "call", "roam",
];
const BLANKS: [char; 2] = [' ', '\t'];
/// What may stand among digits by mistake.
const MARKS: [char; 7] = ['a', 'e', 'o', 'x', '.', '_', '\''];

/// lines-1 to lines-3: code and number of a line that is of the form.
pub fn right(line: &[u8]) -> Option<Words> {
    call_in(std::str::from_utf8(line).ok()?.strip_suffix('\n')?)
}

/// The same of a line without its line feed.
fn call_in(body: &str) -> Option<Words> {
    let (name, digits) = body.split_once(',')?;
    let code = NAMES.iter().position(|known| *known == name)? as u32 + 1;
    let number: u32 = digits.parse().ok()?;
    let most = match code {
        1 => 2,
        7 => 0,
        _ => u32::MAX,
    };
    (number <= most && number.to_string() == digits).then_some((code, number))
}

fn fits(body: &str) -> bool {
    call_in(body).is_some()
}

fn both_fit(name: &str, digits: &str) -> bool {
    fits(&format!("{name},{digits}"))
}

/// lines-3: whether it is a number in decimal, of any size.
fn is_decimal(digits: &str) -> bool {
    let all = digits.bytes().all(|byte| byte.is_ascii_digit());
    all && !digits.is_empty() && (digits == "0" || !digits.starts_with('0'))
}

/// The only fault of a line that is not right; none where it is of no sort, or
/// where there are several.
pub fn fault_of(line: &[u8]) -> Option<LineFault> {
    let mut all = LineFault::ALL.into_iter();
    all.find(|fault| fault.is_in(line))
}

impl LineFault {
    pub const ALL: [LineFault; 27] = [
        LineFault::Unended,
        LineFault::Empty,
        LineFault::NoComma,
        LineFault::TwoCommas,
        LineFault::CarriageReturn,
        LineFault::BlankInFront,
        LineFault::BlankAtComma,
        LineFault::BlankAtEnd,
        LineFault::Plus,
        LineFault::Minus,
        LineFault::Quoted,
        LineFault::OddByte,
        LineFault::NoName,
        LineFault::Capitals,
        LineFault::CutOff,
        LineFault::LetterMore,
        LineFault::OtherName,
        LineFault::CodeForName,
        LineFault::NoNumber,
        LineFault::OnlyZeros,
        LineFault::LeadingZero,
        LineFault::OneOver,
        LineFault::Over32,
        LineFault::Over64,
        LineFault::NoDigit,
        LineFault::PlaceOver,
        LineFault::DayNumber,
    ];

    /// Whether a line that is not right has this fault alone.
    fn is_in(self, line: &[u8]) -> bool {
        let odd = |byte: &u8| *byte == 0 || !byte.is_ascii();
        if self == LineFault::OddByte {
            let rest: Vec<u8> = line.iter().filter(|byte| !odd(byte)).copied().collect();
            return rest.len() < line.len() && right(&rest).is_some();
        }
        let Ok(text) = std::str::from_utf8(line) else {
            return false;
        };
        let Some(body) = text.strip_suffix('\n') else {
            return self == LineFault::Unended && fits(text);
        };
        let Some((name, digits)) = body.split_once(',') else {
            return match self {
                LineFault::Empty => body.is_empty(),
                LineFault::NoComma => !body.is_empty(),
                _ => false,
            };
        };
        self.is_in_marks(body) || self.is_in_name(name, digits) || self.is_in_number(name, digits)
    }

    /// Faults of what stands beside name and number.
    fn is_in_marks(self, body: &str) -> bool {
        let joined = |parts: Option<(&str, &str)>| {
            parts.is_some_and(|(name, digits)| both_fit(name, digits))
        };
        let parted = |mark: &str| body.split_once(mark);
        match self {
            LineFault::TwoCommas => {
                let [first, last] = [body.find(','), body.rfind(',')];
                let without = |at: Option<usize>| at.map(|at| [&body[..at], &body[at + 1..]]);
                let mut both = [first, last].into_iter().filter_map(without);
                both.any(|parts| fits(&parts.concat()))
            }
            LineFault::CarriageReturn => body.strip_suffix('\r').is_some_and(fits),
            LineFault::BlankInFront => body.strip_prefix(BLANKS).is_some_and(fits),
            LineFault::BlankAtComma => {
                let marks = [" ,", "\t,", ", ", ",\t"];
                marks.into_iter().any(|mark| joined(parted(mark)))
            }
            LineFault::BlankAtEnd => body.strip_suffix(BLANKS).is_some_and(fits),
            LineFault::Plus => joined(parted(",+")),
            LineFault::Minus => joined(parted(",-")),
            LineFault::Quoted => body.contains('"') && fits(&body.replace('"', "")),
            _ => false,
        }
    }

    /// lines-2: faults of the name.
    fn is_in_name(self, name: &str, digits: &str) -> bool {
        let of_any = both_fit("data", digits);
        let lower = name.to_ascii_lowercase();
        match self {
            LineFault::NoName => name.is_empty() && of_any,
            LineFault::Capitals => name != lower && both_fit(&lower, digits),
            LineFault::CutOff => {
                let mut cut = NAMES.iter().filter(|known| known.starts_with(name));
                !name.is_empty() && cut.any(|known| *known != name && both_fit(known, digits))
            }
            LineFault::LetterMore => {
                let letter = |last: char| last.is_ascii_lowercase();
                let shorter = name.strip_suffix(letter);
                shorter.is_some_and(|shorter| both_fit(shorter, digits))
            }
            LineFault::OtherName => {
                let letters = name.bytes().all(|byte| byte.is_ascii_lowercase());
                !name.is_empty() && letters && !NAMES.contains(&name) && of_any
            }
            LineFault::CodeForName => {
                let code = (1..=7).find(|code| name == code.to_string());
                code.is_some_and(|code| both_fit(NAMES[code - 1], digits))
            }
            _ => false,
        }
    }

    /// lines-3: faults of the number.
    fn is_in_number(self, name: &str, digits: &str) -> bool {
        if !NAMES.contains(&name) {
            return false;
        }
        let wide: Option<u64> = digits.parse().ok().filter(|_| is_decimal(digits));
        let is_word = wide.is_some_and(|number| number <= u64::from(u32::MAX));
        match self {
            LineFault::NoNumber => digits.is_empty(),
            LineFault::OnlyZeros => digits.len() > 1 && digits.bytes().all(|byte| byte == b'0'),
            LineFault::LeadingZero => {
                let rest = digits.strip_prefix('0').unwrap_or("");
                both_fit(name, rest.trim_start_matches('0'))
            }
            LineFault::OneOver => wide == Some(1 << 32),
            LineFault::Over32 => wide.is_some_and(|number| number > 1 << 32),
            LineFault::Over64 => is_decimal(digits) && wide.is_none(),
            LineFault::NoDigit => {
                digits.contains(MARKS) && both_fit(name, &digits.replace(MARKS, ""))
            }
            LineFault::PlaceOver => name == "register" && is_word && !both_fit(name, digits),
            LineFault::DayNumber => name == "nextday" && is_word && !both_fit(name, digits),
            _ => false,
        }
    }

    /// A line with this fault alone.
    pub fn made(self, rng: &mut Rng) -> Vec<u8> {
        let (code, number) = some_call(rng);
        let (name, digits) = (NAMES[code as usize - 1], number.to_string());
        let mut line = format!("{name},{digits}").into_bytes();
        match self {
            LineFault::Unended => return line,
            LineFault::OddByte => {
                let odd: &[u8] = rng.pick(&[b"\xEF\xBB\xBF", b"\0", b"\xFF", b"\xC3\xA4"]);
                let any = rng.below(line.len() as u64 + 1) as usize;
                let at = rng.pick(&[0, any]);
                line.splice(at..at, odd.iter().copied());
            }
            _ => {
                let body = self.marks(rng, name, &digits);
                let body = body.or_else(|| self.name(rng, code, &digits));
                let body = body.unwrap_or_else(|| self.number(rng, code, number));
                line = body.into_bytes();
            }
        }
        line.push(b'\n');
        line
    }

    /// A line with a fault of what stands beside name and number, if this is
    /// one.
    fn marks(self, rng: &mut Rng, name: &str, digits: &str) -> Option<String> {
        let blank = rng.pick(&BLANKS);
        let first = rng.chance(50);
        let body = match self {
            LineFault::Empty => String::new(),
            LineFault::NoComma => match rng.below(6) {
                0 => name.to_string(),
                1 => digits.to_string(),
                _ => format!(
                    "{name}{}{digits}",
                    rng.pick(&["", ";", ":", " ", "\t", "="])
                ),
            },
            LineFault::TwoCommas => match rng.below(3) {
                0 => format!("{name},,{digits}"),
                1 => format!("{name},{digits},"),
                _ => format!(",{name},{digits}"),
            },
            LineFault::CarriageReturn => format!("{name},{digits}\r"),
            LineFault::BlankInFront => format!("{blank}{name},{digits}"),
            LineFault::BlankAtComma if first => format!("{name}{blank},{digits}"),
            LineFault::BlankAtComma => format!("{name},{blank}{digits}"),
            LineFault::BlankAtEnd => format!("{name},{digits}{blank}"),
            LineFault::Plus => format!("{name},+{digits}"),
            LineFault::Minus => format!("{name},-{digits}"),
            LineFault::Quoted if first => format!("\"{name}\",{digits}"),
            LineFault::Quoted => format!("{name},\"{digits}\""),
            _ => return None,
        };
        Some(body)
    }

    /// lines-2: a line with a fault of the name, if this is one.
    fn name(self, rng: &mut Rng, code: u32, digits: &str) -> Option<String> {
        let name = NAMES[code as usize - 1];
        let other = match self {
            LineFault::NoName => String::new(),
            LineFault::Capitals if rng.chance(50) => name.to_ascii_uppercase(),
            LineFault::Capitals => name[..1].to_ascii_uppercase() + &name[1..],
            LineFault::CutOff => {
                let any = rng.between(1, name.len() as u64 - 1) as usize;
                let cut = rng.pick(&[name.len() - 1, any]);
                name[..cut].to_string()
            }
            LineFault::LetterMore => format!("{name}{}", rng.pick(&['s', 'e', 'x', 'p'])),
            LineFault::OtherName => rng.pick(&OTHER_NAMES).to_string(),
            LineFault::CodeForName => code.to_string(),
            _ => return None,
        };
        Some(format!("{other},{digits}"))
    }

    /// lines-3: a line with a fault of the number.
    fn number(self, rng: &mut Rng, code: u32, number: u32) -> String {
        let name = NAMES[code as usize - 1];
        let zeros = "0".repeat(rng.pick(&[1, 1, 1, 2, 9, 30]));
        let beyond = |rng: &mut Rng, least: u64| match rng.below(3) {
            0 => rng.scaled(u64::from(u32::MAX)).max(least),
            _ => least,
        };
        match self {
            LineFault::OnlyZeros => format!("{name},0{zeros}"),
            LineFault::LeadingZero if number == 0 => format!("data,{zeros}1"),
            LineFault::LeadingZero => format!("{name},{zeros}{number}"),
            LineFault::OneOver => format!("{name},4294967296"),
            LineFault::Over32 => {
                let small = (1 << 32) + 1 + rng.below(100);
                let any = (1 << 32) + 1 + (rng.word() >> 1);
                format!(
                    "{name},{}",
                    rng.pick(&[small, any, 9_999_999_999, u64::MAX])
                )
            }
            LineFault::Over64 => {
                let small = (1 << 64) + u128::from(rng.below(100));
                let longer = u128::from(u64::MAX) * u128::from(rng.between(2, 1 << 60));
                format!("{name},{}", rng.pick(&[small, longer, u128::MAX]))
            }
            LineFault::NoDigit => {
                let mut digits = number.to_string();
                let at = rng.below(digits.len() as u64 + 1) as usize;
                digits.insert(at, rng.pick(&MARKS));
                format!("{name},{digits}")
            }
            LineFault::PlaceOver => format!("register,{}", beyond(rng, 3)),
            LineFault::DayNumber => format!("nextday,{}", beyond(rng, 1)),
            _ => format!("{name},"),
        }
    }
}
