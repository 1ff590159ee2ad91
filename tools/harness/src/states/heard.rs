//! What the reference hears in a tick. It does not say so itself: the places
//! of its receivers and the causes that the tick sets tell it.

use handler::{Answer, Heard, WORDS};
use reference::{Access, Handler, Place, Sample};

/// What a tick of the state hears, and its answer.
pub fn heard(state: &Handler, access: Access, sample: &Sample) -> Heard {
    let answer = Answer(state.clone().tick(access, sample).answer);
    let mut heard = Heard {
        events: [0; WORDS],
        answers: [0; WORDS],
        locals: 0,
        answer,
    };
    // No rule looks at a cause but that of its own register.
    let mut after = state.clone();
    after.locals.iter_mut().for_each(|local| local.cause = 0);
    if !after.valid() || !state.valid() {
        return heard;
    }
    after.tick(access, sample);
    for (j, local) in after.locals.iter().enumerate() {
        heard.locals |= u64::from(local.cause) << j;
    }
    for i in 0..state.n as usize {
        let [was, is] = [state, &after].map(|handler| handler.receivers[i]);
        if (was.place, is.place) == (Place::Ready, Place::Acknowledged) {
            // A ping that opens in the tick changes its level.
            let answered = was.open || was.ping != is.ping;
            let words = match answered {
                true => &mut heard.answers,
                false => &mut heard.events,
            };
            words[i / 64] |= 1 << (63 - i % 64);
        }
    }
    heard
}
