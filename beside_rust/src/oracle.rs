//! Answers calls one after another, on the hub that the last `hub` made.
use crate::answer::{Answer, Mark, Reason};
use crate::call::Call;
use crate::hub::{Hub, END_OF_IDS};
use crate::reading;

#[derive(Default)]
pub struct Oracle {
    hub: Option<Hub>,
}

impl Oracle {
    /// Whether the hub took what the port's refuses, or otherwise holds another thing.
    pub fn is_astray(&self) -> bool {
        self.hub.as_ref().is_some_and(Hub::is_astray)
    }

    pub fn answer(&mut self, call: &Call) -> (Answer, Mark) {
        match call {
            Call::Hub { own, kind, policy, pace, reading } => {
                self.hub = Some(Hub::new(*own, *kind, *policy, *pace, *reading));
                let mark = if *own < END_OF_IDS { Mark::Inside } else { Mark::Outside(Reason::Id) };
                (Answer::Done, mark)
            }
            Call::Read(bytes) => reading::read_in_words(&bytes.0),
            Call::Write(fields) => reading::write(fields),
            Call::Vector(bytes) => reading::vector(&bytes.0),
            Call::Presence(bytes) => reading::presence(&bytes.0),
            Call::Updates { kind, updates, since } => reading::updates(*kind, updates, &since.0),
            _ => match &mut self.hub {
                Some(hub) => hub.answer(call),
                None => (Answer::BadCall("a hub comes first"), Mark::NoCall),
            },
        }
    }
}
