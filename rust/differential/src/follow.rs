//! Recalls on a pad that the dock followed off it: how often, and what was among the loans that they ended.

use model::{Grant, Name, Request, Source, State, Ticket};

/// How many accepted recalls of a loan on the pad ..
#[derive(Default)]
pub struct Followed {
    /// .. took entries from the dock,
    recalls: usize,
    /// .. which grants at several depths under the loan had lent,
    depths: usize,
    /// .. or another pad, to a third,
    third_pad: usize,
    /// .. or another pad, back to this one,
    back: usize,
    /// .. or passed over a loan whose entry was gone already.
    gone: usize,
}

impl Followed {
    /// Takes note of an accepted recall, by the tables before and after it.
    pub fn note(&mut self, request: &Request, before: &State, after: &State) {
        let recall = Name { pad: request.pad, program: request.program, number: request.ticket };
        match before.ticket(recall) {
            Some(Ticket::Recall { target, .. }) if target.pad == recall.pad => {}
            _ => return,
        }
        let lost: Vec<(Name, Option<Name>)> = before
            .entries()
            .filter(|(name, _)| after.entry(*name).is_none())
            .map(|(name, entry)| (name, entry.parent))
            .collect();
        let lent_on = |parent: &Option<Name>| lost.iter().any(|(name, _)| Some(*name) == *parent);
        let (loans, gone): (Vec<_>, Vec<_>) =
            ended(recall.pad, before, after).into_iter().partition(|(_, to)| before.entry(*to).is_some());
        let count = |counter: &mut usize, reached: bool| *counter += usize::from(reached);
        count(&mut self.recalls, !lost.is_empty());
        count(&mut self.depths, loans.iter().any(|(depth, _)| *depth != loans[0].0));
        count(
            &mut self.third_pad,
            lost.iter().any(|(name, parent)| name.pad != recall.pad && lent_on(parent)),
        );
        count(&mut self.back, lost.iter().any(|(name, _)| name.pad == recall.pad));
        count(&mut self.gone, !gone.is_empty());
    }

    /// What was counted, in words.
    pub fn rows(&self) -> [(&'static str, usize); 5] {
        [
            ("recalls followed", self.recalls),
            ("  at several depths", self.depths),
            ("  to a third pad", self.third_pad),
            ("  back to the pad", self.back),
            ("  past an entry gone", self.gone),
        ]
    }
}

/// The loans to other pads whose recalls went: how deep the lender stood, and the loan's name.
fn ended(pad: u16, before: &State, after: &State) -> Vec<(usize, Name)> {
    let gone = before.tickets().filter(|(name, _)| after.ticket(*name).is_none());
    gone.filter_map(|(name, ticket)| match *ticket {
        Ticket::Recall { own, target } if target.pad != pad => {
            Some((depth(before, Name { number: own, ..name }), target))
        }
        _ => None,
    })
    .collect()
}

/// How many parents a grant has on its pad.
fn depth(state: &State, grant: Name) -> usize {
    match state.ticket(grant) {
        Some(Ticket::Grant(Grant { source: Source::Child { parent }, .. })) => 1 + depth(state, *parent),
        _ => 0,
    }
}
