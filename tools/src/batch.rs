//! Edits that can be tried in one check. An error tells of an edit where the part that it is in rests on what that edit
//! changed, and on nothing that another one did: it would be there with this edit alone.
use crate::antt;
use crate::edit::{self, Replacement};
use crate::list::Edit;
use crate::parts::Parts;
use crate::verdict::{self, Place};
use std::collections::{BTreeMap, BTreeSet};
use std::ops::Range;

/// An edit with the parts that it changes, the parts where errors can tell of it, and where its texts are.
pub struct Tried<'a> {
    pub edit: &'a Edit,
    parts: BTreeSet<usize>,
    sites: BTreeSet<usize>,
    spans: Vec<(&'a str, Range<usize>)>,
}

pub type Batch<'a> = Vec<Tried<'a>>;

const LARGEST: usize = 16;

/// Batches of two or more, and the edits that are tried one by one. Edits on which little rests come first, so that they
/// are in batches of their own: one on which much rests has nearly all of the crate checked again.
pub fn plan<'a>(parts: &Parts, edits: &[&'a Edit]) -> (Vec<Batch<'a>>, Vec<&'a Edit>) {
    let sites = parts.sites();
    let (mut all, mut single): (Vec<Tried>, Vec<&Edit>) = (Vec::new(), Vec::new());
    for e in edits {
        match tried(parts, &sites, e) {
            Some(t) => all.push(t),
            None => single.push(e),
        }
    }
    all.sort_by_key(|t| t.sites.len());
    let mut batches: Vec<Batch> = Vec::new();
    for t in all {
        match batches.iter_mut().find(|b| fits(b, &t)) {
            Some(b) => b.push(t),
            None => batches.push(vec![t]),
        }
    }
    let (many, one): (Vec<Batch>, Vec<Batch>) = batches.into_iter().partition(|b| b.len() > 1);
    single.extend(one.into_iter().flatten().map(|t| t.edit));
    (many, single)
}

/// None where the edit changes something else than parts and imports, to which it may add.
fn tried<'a>(parts: &Parts, sites: &BTreeSet<usize>, e: &'a Edit) -> Option<Tried<'a>> {
    let (mut changed, mut spans) = (BTreeSet::new(), Vec::new());
    for r in &e.replacements {
        let at = edit::position(parts.texts.get(&r.file)?, r).ok()?;
        let span = at..at + r.old.len();
        if !adds_imports(r) {
            changed.insert(parts.at(&r.file, span.clone())?);
        }
        spans.push((r.file.as_str(), span));
    }
    let above = parts.above(&changed);
    Some(Tried {
        edit: e,
        sites: above.intersection(sites).copied().collect(),
        parts: changed,
        spans,
    })
}

fn adds_imports(r: &Replacement) -> bool {
    let lines = r.old.starts_with("use ") && r.new.starts_with("use ");
    lines && antt::words(&r.old).is_subset(&antt::words(&r.new))
}

/// Would each edit still have a site of its own, and texts that no other one touches?
fn fits(batch: &Batch, one: &Tried) -> bool {
    if batch.len() == LARGEST || batch.iter().any(|t| touches(t, one)) {
        return false;
    }
    let all = || batch.iter().chain([one]);
    let mut shared: BTreeMap<usize, usize> = BTreeMap::new();
    for k in all().flat_map(|t| &t.sites) {
        *shared.entry(*k).or_default() += 1;
    }
    let fits = all().all(|t| t.sites.iter().any(|k| shared[k] == 1));
    fits
}

fn touches(a: &Tried, b: &Tried) -> bool {
    let near = |(f, s): &(&str, Range<usize>)| {
        b.spans
            .iter()
            .any(|(g, t)| f == g && s.start <= t.end && t.start <= s.end)
    };
    a.spans.iter().any(near) || !a.parts.is_disjoint(&b.parts)
}

/// Of each edit of a batch, the message that it is refused by. None where that cannot be told, or where its text may be
/// wrong in itself: then the edit is tried alone.
pub fn told(
    parts: &Parts,
    batch: &Batch,
    status: Option<i32>,
    output: &str,
) -> Vec<Option<String>> {
    let mut found: Vec<Option<String>> = vec![None; batch.len()];
    if !verdict::not_proved(status, output) {
        return found;
    }
    let mut wrong_text = BTreeSet::new();
    for error in verdict::errors(output) {
        let part = match &error.place {
            Place::Line(file, line) => parts.on_line(file, *line),
            Place::Function(path) => parts.body_of(path),
        };
        let Some(below) = part.map(|k| parts.below(k)) else {
            continue;
        };
        let rests = |i: &usize| !batch[*i].parts.is_disjoint(&below);
        let of: Vec<usize> = (0..batch.len()).filter(rests).collect();
        if error.of_text() {
            wrong_text.extend(of);
        } else if let ([i], true) = (&of[..], error.shows) {
            found[*i] = found[*i].take().or(Some(error.message));
        }
    }
    for i in wrong_text {
        found[i] = None;
    }
    found
}
