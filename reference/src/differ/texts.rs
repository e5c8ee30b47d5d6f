//! Texts that are read and calls that are exported: every place of the lists and
//! every byte of the buffer is compared, and what either came to goes back again
//! through the other. Rules lines-1 to lines-10, library-14.

use super::both::{agree, agree_where, Given, LentList};
use super::{Both, Differ, Mismatch};
use crate::check::Failure;
use crate::coverage::exports::{self, ExportSeen};
use crate::coverage::texts::{self, TextSeen};
use crate::coverage::TripEvents;
use crate::generate::any_plan;
use crate::lines::exports::{ExportCase, ExportEdge};
use crate::lines::faults::LineFault;
use crate::lines::texts::{Edge, TextCase};
use crate::rng::Rng;
use crate::sides::{Side, ACCEPTED, REFERENCE, TEXT_NUMBERS, WRITE_NUMBERS};
use crate::tripfile::BEFORE_CALLS;
use crate::writes::WriteCase;
use std::time::Instant;

/// So many texts come from one seed, of which so many are read; the calls of the
/// others are exported.
pub const TEXTS_OF_A_SEED: u64 = 10;
const READ_OF_A_SEED: u64 = 6;
/// Of so many seeds one has a text at an edge, and another one calls at an edge.
const EDGES_EVERY: u64 = 4;
/// What was read is written to a trip file, too, up to so many calls.
const SMALL: usize = 40;

/// Codes and numbers of calls.
type Calls = (Vec<u32>, Vec<u32>);

/// The lists of a side.
#[derive(Clone, Debug)]
struct Lists {
    codes: LentList<u32>,
    numbers: LentList<u32>,
}

impl Lists {
    fn new(case: &TextCase) -> Lists {
        Lists {
            codes: LentList::new(&case.codes),
            numbers: LentList::new(&case.numbers),
        }
    }

    fn read(&mut self, case: &TextCase, side: &Side) -> Given {
        let (codes, numbers) = (self.codes.list_mut(), self.numbers.list_mut());
        Given::of(case.room, |answer| case.run(side, codes, numbers, answer))
    }

    fn hold(&self, codes: &[u32], numbers: &[u32]) -> Result<(), Failure> {
        self.codes.holds("code", codes)?;
        self.numbers.holds("number", numbers)
    }
}

/// The case of an index among those of a seed that are read. Over the seeds
/// every edge and every fault has its turn.
fn text_case(seed: u64, index: u64, rng: &mut Rng) -> TextCase {
    let turn = |all: usize, number: u64| (number % all as u64) as usize;
    match index {
        0 if seed.is_multiple_of(EDGES_EVERY) => {
            let edge = turn(Edge::ALL.len(), seed / EDGES_EVERY);
            TextCase::at_edge(rng, Edge::ALL[edge])
        }
        1 => {
            let fault = turn(LineFault::ALL.len(), seed);
            TextCase::with_fault(rng, LineFault::ALL[fault])
        }
        _ => TextCase::random(rng),
    }
}

/// The case of an index among those of a seed that are exported, likewise.
fn export_case(seed: u64, index: u64, rng: &mut Rng) -> ExportCase {
    if index == READ_OF_A_SEED && seed % EDGES_EVERY == EDGES_EVERY / 2 {
        let edge = seed / EDGES_EVERY % ExportEdge::ALL.len() as u64;
        return ExportCase::at_edge(rng, ExportEdge::ALL[edge as usize]);
    }
    ExportCase::random(rng)
}

impl Differ {
    /// The texts of a seed: some are read, and the calls of the others exported.
    pub fn texts(&mut self, seed: u64) -> Result<(), Box<Mismatch>> {
        let mut rng = Rng::new(seed ^ 0x7E87_0000);
        for index in 0..TEXTS_OF_A_SEED {
            let mut events = Both::default();
            self.texts += 1;
            if index < READ_OF_A_SEED {
                self.text(seed, index, &mut rng, &mut events)?;
            } else {
                self.export(seed, index, &mut rng, &mut events)?;
            }
            self.add(&events);
        }
        Ok(())
    }

    /// A text that is read. lines-8: if it is accepted, its calls are exported.
    fn text(
        &mut self,
        seed: u64,
        index: u64,
        rng: &mut Rng,
        events: &mut Both,
    ) -> Result<(), Box<Mismatch>> {
        let begun = Instant::now();
        let case = text_case(seed, index, rng);
        self.times.generation += begun.elapsed();
        let begun = Instant::now();
        let read = self.both_text_read(&case, events);
        let whole = read.and_then(|calls| match calls {
            Some((codes, numbers)) => self.export_again(&case, &codes, &numbers, rng, events),
            None => Ok(()),
        });
        self.times.texts += begun.elapsed();
        whole.map_err(|what| {
            let what = format!("{what} ({})", case.outline());
            Mismatch::of_text(what, &case.text)
        })
    }

    /// Calls that are exported. lines-7: if they are accepted, their text is
    /// read.
    fn export(
        &mut self,
        seed: u64,
        index: u64,
        rng: &mut Rng,
        events: &mut Both,
    ) -> Result<(), Box<Mismatch>> {
        let begun = Instant::now();
        let case = export_case(seed, index, rng);
        self.times.generation += begun.elapsed();
        let begun = Instant::now();
        let written = self.both_text_write(&case, events);
        let whole = written.and_then(|text| match text {
            Some(text) => self.read_back(&case, &text, rng, events),
            None => Ok(()),
        });
        self.times.texts += begun.elapsed();
        whole.map_err(|what| Mismatch::new(format!("{what} ({})", case.outline())))
    }

    /// lines-5: both readers, each on lists of its own: the same return and
    /// answer, and the same in all places of the lists; nothing is changed
    /// without being accepted. Answers codes and numbers, if it is.
    fn both_text_read(
        &mut self,
        case: &TextCase,
        events: &mut Both,
    ) -> Result<Option<Calls>, Failure> {
        let (mut ours, mut theirs) = (Lists::new(case), Lists::new(case));
        let our_given = ours.read(case, &REFERENCE);
        let given = theirs.read(case, &self.other);
        let answered = [ACCEPTED, 22].contains(&given.returned);
        let agreed = agree_where(answered, TEXT_NUMBERS, &our_given, &given);
        let agreed = agreed.and_then(|()| theirs.hold(ours.codes.list(), ours.numbers.list()));
        agreed.map_err(|what| format!("TextRead {what}"))?;
        let judged = texts::Judged::of(&case.text);
        for (events, (given, lists)) in events
            .iter_mut()
            .zip([(our_given, &ours), (given, &theirs)])
        {
            let seen = TextSeen {
                returned: given.returned,
                answer: given.answer[0],
                codes: lists.codes.list(),
                numbers: lists.numbers.list(),
            };
            events.text_read(case, &judged, &seen)?;
        }
        if given.returned != ACCEPTED {
            return Ok(None);
        }
        let calls = |list: &LentList<u32>| list.list()[..judged.lines].to_vec();
        Ok(Some((calls(&theirs.codes), calls(&theirs.numbers))))
    }

    /// lines-6: both exporters, likewise, each on a copy of the buffer. Answers
    /// the text, if it is accepted.
    fn both_text_write(
        &mut self,
        case: &ExportCase,
        events: &mut Both,
    ) -> Result<Option<Vec<u8>>, Failure> {
        let [mut ours, mut theirs] = [0; 2].map(|_| LentList::new(&case.buffer));
        let our_given = Given::of(case.room, |answer| {
            case.run(&REFERENCE, ours.list_mut(), answer)
        });
        let given = Given::of(case.room, |answer| {
            case.run(&self.other, theirs.list_mut(), answer)
        });
        let agreed = agree(TEXT_NUMBERS, &our_given, &given);
        let agreed = agreed.and_then(|()| theirs.holds("byte", ours.list()));
        agreed.map_err(|what| format!("TextWrite {what}"))?;
        let judged = exports::Judged::of(case);
        for (events, (given, buffer)) in events
            .iter_mut()
            .zip([(our_given, &ours), (given, &theirs)])
        {
            let seen = ExportSeen {
                returned: given.returned,
                answer: given.answer[0],
                buffer: buffer.list(),
            };
            events.text_write(case, &judged, &seen)?;
        }
        let length = judged.text.len();
        Ok((given.returned == ACCEPTED).then(|| theirs.list()[..length].to_vec()))
    }

    /// lines-8: a text that was read is exported with the same bytes; lines-5:
    /// what it was read as can be written to a trip file.
    fn export_again(
        &mut self,
        case: &TextCase,
        codes: &[u32],
        numbers: &[u32],
        rng: &mut Rng,
        events: &mut Both,
    ) -> Result<(), Failure> {
        let again = ExportCase::again(rng, codes, numbers, case.text.len());
        let text = self.both_text_write(&again, events)?;
        if text.as_ref() != Some(&case.text) {
            return Err("a text that was read is exported otherwise".to_string());
        }
        events.iter_mut().for_each(TripEvents::text_exported_again);
        if codes.len() > SMALL {
            return Ok(());
        }
        let case = WriteCase {
            plan: any_plan(rng).to_words().map(u64::from).to_vec(),
            codes: codes.to_vec(),
            numbers: numbers.to_vec(),
            buffer: rng.bytes(BEFORE_CALLS + 8 * codes.len()),
            room: WRITE_NUMBERS,
            expected: ACCEPTED,
        };
        self.both_write(&case, events)?;
        events.iter_mut().for_each(TripEvents::text_in_file);
        Ok(())
    }

    /// lines-7: what was exported is read as the same calls.
    fn read_back(
        &mut self,
        case: &ExportCase,
        text: &[u8],
        rng: &mut Rng,
        events: &mut Both,
    ) -> Result<(), Failure> {
        let back = TextCase::back(rng, text);
        let calls = self.both_text_read(&back, events)?;
        let same = |(codes, numbers): &Calls| (codes, numbers) == (&case.codes, &case.numbers);
        if !calls.as_ref().is_some_and(same) {
            return Err("what was exported is read otherwise".to_string());
        }
        events.iter_mut().for_each(TripEvents::text_read_back);
        Ok(())
    }
}
