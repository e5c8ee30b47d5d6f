//! The explanation of a trip file: what each call did or why it was refused,
//! and the account after it. A refusal is told by its number; a table of
//! sentences can put words to it.

use crate::meter::{Account, Answer};
use crate::terms::{Call, Kind, Place};
use crate::tripfile;
use std::collections::BTreeMap;

/// Two lines for the opening and for each call of a file, or the one line of a
/// bad file (statement-2); numbers without words.
pub fn explained(bytes: &[u8]) -> String {
    lines_of(bytes).unwrap_or_else(|number| format!("file {number}\n"))
}

fn lines_of(bytes: &[u8]) -> Result<String, u32> {
    let trip = tripfile::read(bytes)?;
    let mut account = Account::open(trip.plan)?;
    let mut text = format!("open: accepted\n{}", state(&account));
    for (index, (code, number)) in trip.calls.into_iter().enumerate() {
        let call = Call::from_words(code, number).ok_or(15u32)?;
        let told = match account.apply(call) {
            Ok(answer) => format!("accepted{}", taken(call, answer)),
            Err(number) => format!("refused {number}"),
        };
        let (place, name) = (index + 1, name(call));
        text += &format!("{place} {name}: {told}\n{}", state(&account));
    }
    Ok(text)
}

/// A call as it is called in the text.
fn name(call: Call) -> String {
    match call {
        Call::Register(place) => format!("register {}", place_name(Some(place))),
        Call::Use(kind, n) => {
            let names = ["data", "out", "in", "sms"];
            format!("{} {n}", names[kind as usize])
        }
        Call::TopUp(amount) => format!("topup {amount}"),
        Call::NextDay => "nextday".to_string(),
        Call::Afford(_) => unreachable!("a file holds no such call"),
    }
}

/// What an accepted use took and counted; nothing for other calls.
fn taken(call: Call, answer: Answer) -> String {
    let (
        Call::Use(kind, _),
        Answer::Used {
            home,
            extra,
            surcharged,
            charged,
            notice,
        },
    ) = (call, answer)
    else {
        return String::new();
    };
    let unit = match kind {
        Kind::Data => "kB",
        Kind::Outgoing | Kind::Incoming => "s",
        Kind::Sms => "SMS",
    };
    let notice = if notice { ", notice" } else { "" };
    format!(
        ", home {home}, extra {extra}, charged {charged} {unit}, surcharged {surcharged} {unit}{notice}"
    )
}

fn place_name(place: Option<Place>) -> &'static str {
    match place {
        None => "none",
        Some(Place::Home) => "home",
        Some(Place::Zone) => "zone",
        Some(Place::Elsewhere) => "elsewhere",
    }
}

/// The line of the account after a call.
fn state(account: &Account) -> String {
    let Account { day, credit, r, .. } = account;
    let place = place_name(account.place);
    let limit = account.l.map_or("none".to_string(), |l| l.to_string());
    format!("    day {day}, place {place}, credit {credit}, limit {limit}, roamed {r}\n")
}

/// The sentences of a table: a number, a space and the sentence in a line;
/// lines that begin with # are none.
pub fn sentences(table: &str) -> BTreeMap<u32, &str> {
    let lines = table.lines().filter(|line| !line.starts_with('#'));
    lines.filter_map(sentence_of).collect()
}

fn sentence_of(line: &str) -> Option<(u32, &str)> {
    let (number, sentence) = line.split_once(' ')?;
    Some((number.parse().ok()?, sentence))
}

/// The text with the sentence of each refusal behind its number.
pub fn with_words(text: &str, table: &str) -> String {
    let sentences = sentences(table);
    let worded = |line: &str| match told_number(line).and_then(|n| sentences.get(&n)) {
        Some(sentence) => format!("{line}: {sentence}\n"),
        None => format!("{line}\n"),
    };
    text.lines().map(worded).collect()
}

/// The number of a refusal that a line ends in.
fn told_number(line: &str) -> Option<u32> {
    let (before, number) = line.rsplit_once(' ')?;
    let refusal = before == "file" || before.ends_with(": refused");
    refusal.then(|| number.parse().ok())?
}
