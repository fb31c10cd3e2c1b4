//! Which codes are asked for.

use super::counts::code_name;
use super::form::Outward;
use crate::arguments::{Arguments, Code};
use crate::kind::POINTS;
use crate::stop::Stop;
use ttw::ask;
use ttw::words::{shown, words};

/// The codes of an extract.
pub enum Wanted {
    All,
    Codes(Vec<Outward>),
    /// Those that begin with such letters, up to the first digit.
    Areas(Vec<Vec<u8>>),
}

impl Wanted {
    pub fn read(given: &Arguments) -> Result<Wanted, Stop> {
        match (&given.code, &given.area, given.all) {
            (Some(codes), None, false) => listed(codes, code).map(Wanted::Codes),
            (None, Some(areas), false) => listed(areas, area).map(Wanted::Areas),
            (None, None, true) => Ok(Wanted::All),
            _ => Err(Stop::could_not(
                "extract needs one of --code, --area and --all".to_string(),
            )),
        }
    }

    pub fn has(&self, code: Outward) -> bool {
        match self {
            Wanted::All => true,
            Wanted::Codes(codes) => codes.contains(&code),
            Wanted::Areas(areas) => areas.iter().any(|area| *area == area_of(&code)),
        }
    }

    /// What is asked for and has no record among these codes, in words.
    pub fn missing(&self, found: &[Outward]) -> Vec<String> {
        match self {
            Wanted::All => Vec::new(),
            Wanted::Codes(codes) => {
                let missing = codes.iter().filter(|code| !found.contains(code));
                missing
                    .map(|code| format!("code {}: there is no record of it", code_name(*code)))
                    .collect()
            }
            Wanted::Areas(areas) => {
                let is_found =
                    |area: &&Vec<u8>| !found.iter().any(|code| area_of(code) == area.as_slice());
                let missing = areas.iter().filter(is_found);
                missing
                    .map(|area| format!("area {}: there is no record of it", shown(area)))
                    .collect()
            }
        }
    }
}

/// The letters that a code begins with.
fn area_of(code: &[u8]) -> &[u8] {
    let letters = code.iter().take_while(|byte| byte.is_ascii_uppercase());
    &code[..letters.count()]
}

/// What stands between commas.
fn listed<T>(list: &Code, read: fn(&[u8]) -> Result<T, Stop>) -> Result<Vec<T>, Stop> {
    let words = list.padded.trim_ascii_end().split(|byte| *byte == b',');
    words.map(read).collect()
}

/// A code that the library takes for one.
fn code(given: &[u8]) -> Result<Outward, Stop> {
    let code = Code::new(given);
    let empty = POINTS.ends().concat();
    let subject = format!("code {}", code.name());
    ask::live(&empty, &code.padded).map_err(|why| Stop::Refused(words(&why, &subject)))?;
    Ok(code.padded.try_into().expect("4 bytes"))
}

/// Letters before which a digit makes a code of them.
fn area(given: &[u8]) -> Result<Vec<u8>, Stop> {
    if area_of(given) == given && code(&[given, b"1"].concat()).is_ok() {
        return Ok(given.to_vec());
    }
    let name = shown(given);
    Err(Stop::could_not(format!(
        "area {name}: not the letters that an outward code begins with, such as AB or E"
    )))
}
