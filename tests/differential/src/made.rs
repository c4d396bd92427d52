//! What the second program makes of a message, as the library's answer would be: the rules that are
//! asked of the library are tried on it, right and with slips.

use crate::both::World;
use crate::model;
use crate::repeated::Exchange;
use crate::scene::OUTPUT;

pub struct Made {
    pub before: World,
    pub message: Vec<u8>,
    pub answer: i32,
    pub out: [u8; 1032],
    pub after: World,
}

impl Made {
    pub fn new(before: World, message: &[u8]) -> Made {
        let (mut after, mut out) = (before.clone(), OUTPUT);
        let World { session, store } = &mut after;
        let answer = model::receive(session, message, store, &mut out);
        Made {
            before,
            message: message.to_vec(),
            answer,
            out,
            after,
        }
    }

    pub fn exchange(&self) -> Exchange<'_> {
        Exchange {
            before: &self.before.session,
            message: &self.message,
            answer: self.answer,
            out: &self.out,
            after: &self.after.session,
        }
    }
}
