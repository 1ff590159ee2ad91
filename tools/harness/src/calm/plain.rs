//! Plain ticks of the library, one after another: what a calm call is proved
//! equal to.

use handler::{Access, Change, Handler, Output, Sample, Wires, CLASSES, LINES};

/// What so many calm ticks give.
#[derive(Clone)]
pub struct Plain {
    /// The state after them.
    pub handler: Handler,
    /// The outputs of the last; of none those of the state, pairs at rest.
    pub output: Output,
    /// The ticks in which a line changed.
    pub changes: Vec<Change>,
    /// How many they are.
    pub ticks: u32,
}

/// Does a class drive line e? Its enable is set, and it is in the phase that its
/// map names. Written out here apart from the library's.
pub fn drives(class: &handler::Class, e: usize) -> bool {
    let phase = u32::from(class.ctrl >> (6 + 2 * e) & 3);
    class.ctrl >> (2 + e) & 1 == 1 && class.state == 4 + phase
}

/// The lines that the classes of a state drive, line 0 at the lowest bit.
pub fn lines(state: &Handler) -> u32 {
    let on = |e: usize| (0..CLASSES).any(|k| drives(&state.classes[k], e));
    (0..LINES).map(|e| u32::from(on(e)) << e).sum()
}

impl Plain {
    /// No tick yet.
    pub fn new(state: &Handler) -> Plain {
        Plain {
            handler: *state,
            output: Output {
                interrupts: u32::from(state.interrupts.state & state.interrupts.enable),
                lines: lines(state),
                ..Output::AT_REST
            },
            changes: Vec::new(),
            ticks: 0,
        }
    }

    /// One more: no access, these wires, the word 0, and the receive pairs that
    /// the senders expect.
    pub fn tick(&mut self, wires: Wires) {
        let sample = Sample {
            alerts: wires,
            word: 0,
            receive: self.handler.links.senders.right(),
        };
        let ticked = self.handler.tick(Access::Nothing, sample);
        self.ticks += 1;
        if ticked.output.lines != self.output.lines {
            let change = Change::new(ticked.output.lines, self.ticks);
            self.changes.push(change);
        }
        self.handler = ticked.handler;
        self.output = ticked.output;
    }

    /// The number of changes, as a calm call answers it.
    pub fn answer(&self) -> i64 {
        self.changes.len() as i64
    }
}
