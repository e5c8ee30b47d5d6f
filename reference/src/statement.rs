//! The statement: nine lines from the bytes of a trip file, or `file N`. Rules
//! statement-1, statement-2.

use crate::meter::Account;
use crate::planted::{planted, Wrong};
use crate::terms::{Call, Kind};
use crate::tripfile::{self, Trip};

/// statement-1: the figures of the nine lines. That of L is 0 where none, else
/// one more than its kB.
pub type Figures = [u64; 9];

/// statement-1: what the program prints, each line ended by a line feed.
pub fn statement(bytes: &[u8]) -> String {
    text(&figures_of(bytes))
}

/// statement-1: the figures of a file; statement-2: or its number.
pub fn figures_of(bytes: &[u8]) -> Result<Figures, u32> {
    let (account, refused) = run(&tripfile::read(bytes)?)?;
    Ok(figures(&account, refused))
}

/// Opens the plan and makes the calls; answers the account and how many calls
/// were refused.
pub fn run(trip: &Trip) -> Result<(Account, usize), u32> {
    let mut account = Account::open(trip.plan)?;
    let refused = run_calls(&mut account, &trip.calls)?;
    Ok((account, refused))
}

/// Makes the calls of codes and numbers on an account; answers how many were
/// refused.
pub fn run_calls(account: &mut Account, calls: &[(u32, u32)]) -> Result<usize, u32> {
    let mut refused = 0;
    for (code, number) in calls {
        let call = Call::from_words(*code, *number).ok_or(15u32)?;
        if account.apply(call).is_err() && !planted(Wrong::RefusedNotCounted) {
            refused += 1;
        }
    }
    Ok(refused)
}

pub fn figures(account: &Account, refused: usize) -> Figures {
    [
        u64::from(account.day),
        account.paid_in,
        account.credit,
        account.home,
        account.extra,
        account.l.map_or(0, |limit| limit + 1),
        account.r,
        account.surcharged[Kind::Data as usize],
        refused as u64,
    ]
}

/// The lines of an account and its refused calls.
pub fn lines(account: &Account, refused: usize) -> String {
    text(&Ok(figures(account, refused)))
}

/// statement-1, statement-2: figures, or the number of a bad file, in lines.
pub fn text(outcome: &Result<Figures, u32>) -> String {
    let [day, paid, credit, home, extra, limit, roamed, past, refused] = match outcome {
        Ok(figures) => figures,
        Err(number) => return format!("file {number}\n"),
    };
    let limit = limit_text(*limit);
    format!(
        "day {day}\npaid {paid}\ncredit {credit}\nhome {home}\nextra {extra}\nlimit {limit}\n\
         roamed {roamed}\npast {past}\nrefused {refused}\n"
    )
}

/// statement-1: L as it is printed.
pub fn limit_text(figure: u64) -> String {
    match figure {
        0 => "none".to_string(),
        one_more => (one_more - 1).to_string(),
    }
}
