//! Where a field stands, for the tests of the layout: `std::mem::offset_of` is younger than Rust 1.63.
use crate::input::{Sample, Wired};
use crate::library::Shown;
use crate::{
    Class, ClassStages, Content, Handler, LinePairs, LineReceivers, Links, Output, Receivers,
    Senders, ShownClass, Stages, Timer, Turn, Wires,
};

/// A type with a value, whose fields have places.
pub trait Laid {
    fn some() -> Self;
}

impl Laid for Handler {
    fn some() -> Handler {
        Handler::new(1).0
    }
}

impl Laid for Class {
    fn some() -> Class {
        Handler::some().classes[0]
    }
}

impl Laid for Stages {
    fn some() -> Stages {
        Handler::some().stages
    }
}

impl Laid for ClassStages {
    fn some() -> ClassStages {
        Stages::some().classes[0]
    }
}

impl Laid for Receivers {
    fn some() -> Receivers {
        Receivers::NEW
    }
}

impl Laid for Links {
    fn some() -> Links {
        Handler::some().links
    }
}

impl Laid for Turn {
    fn some() -> Turn {
        Turn::NEW
    }
}

impl Laid for Timer {
    fn some() -> Timer {
        Timer::NEW
    }
}

impl Laid for Output {
    fn some() -> Output {
        Output::AT_REST
    }
}

impl Laid for Wired {
    fn some() -> Wired {
        Wired::of(Sample::AT_REST)
    }
}

impl Laid for LinePairs {
    fn some() -> LinePairs {
        LinePairs::REST
    }
}

impl Laid for Senders {
    fn some() -> Senders {
        Senders::NEW
    }
}

impl Laid for LineReceivers {
    fn some() -> LineReceivers {
        LineReceivers::NEW
    }
}

impl Laid for Wires {
    fn some() -> Wires {
        Sample::AT_REST.alerts
    }
}

impl Laid for Content {
    fn some() -> Content {
        Content::NOTHING
    }
}

impl Laid for ShownClass {
    fn some() -> ShownClass {
        Content::NOTHING.classes[0]
    }
}

impl Laid for Shown {
    fn some() -> Shown {
        crate::library::read_dump(&[])
    }
}

/// The bytes before a field.
macro_rules! offset_of {
    ($whole:ty, $field:ident) => {{
        let whole = <$whole as crate::layout::Laid>::some();
        let [start, field] = [
            &whole as *const _ as usize,
            &whole.$field as *const _ as usize,
        ];
        field - start
    }};
}
pub(crate) use offset_of;
