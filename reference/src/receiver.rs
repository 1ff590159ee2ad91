//! The receiver of one alert: the handshake on its wires, and its pings.

/// Where a receiver stands in the handshake before a tick's wires are read.
#[derive(Clone, Copy, Debug, PartialEq, Eq)]
pub enum Place {
    /// No handshake runs: a rise is taken.
    Ready,
    /// A rise was taken. It is acknowledged from the next tick on, up to the
    /// tick in which the drop is read.
    Acknowledged,
    /// The drop was read, so the acknowledgement drops in the next tick; that
    /// tick is also the first of the two of pause.
    FirstPause,
    /// One tick of pause is still to come.
    SecondPause,
}

/// The receiver of one alert.
#[derive(Clone, Copy, Debug, PartialEq, Eq)]
pub struct Receiver {
    /// Where it stands in the handshake.
    pub place: Place,
    /// The level of its ping pair: true for (1,0), false for (0,1).
    pub ping: bool,
    /// Whether a ping was asked for that is not answered and has not failed.
    pub open: bool,
}

impl Receiver {
    /// A receiver at reset.
    pub fn new() -> Receiver {
        Receiver {
            place: Place::Ready,
            ping: false,
            open: false,
        }
    }

    /// Whether its acknowledge pair is (1,0) in the coming tick. The wires of
    /// that tick do not matter: a change shows one tick after its reason.
    pub fn acknowledges(&self) -> bool {
        self.place == Place::Acknowledged
    }

    /// Asks for a ping, as the timer does when one is due: the level of the
    /// ping pair changes and a ping is open. While one is open this does
    /// nothing.
    pub fn ask(&mut self) {
        if !self.open {
            self.ping = !self.ping;
            self.open = true;
        }
    }

    /// Reads the pair of a tick and says whether it is an event of the alert.
    pub fn read(&mut self, pos: bool, neg: bool) -> bool {
        // Equal wires say nothing, so the receiver stays where it is.
        if pos == neg {
            return false;
        }
        match self.place {
            Place::Ready => pos && self.take(),
            Place::Acknowledged => {
                if neg {
                    self.place = Place::FirstPause;
                }
                false
            }
            // A rise waits: if the wire is still high when the pause is over,
            // it is taken then.
            Place::FirstPause => {
                self.place = Place::SecondPause;
                false
            }
            Place::SecondPause => {
                self.place = Place::Ready;
                false
            }
        }
    }

    /// Takes a rise: the answer to an open ping, else an event.
    fn take(&mut self) -> bool {
        self.place = Place::Acknowledged;
        let event = !self.open;
        self.open = false;
        event
    }
}

impl Default for Receiver {
    fn default() -> Self {
        Receiver::new()
    }
}
