//! What the program is stopped by, with the numbers and names of `planar`. Where in a text a fault
//! stands is not told.

use std::fmt;

#[derive(Clone, Copy, Debug, PartialEq, Eq)]
pub struct Fault {
    number: u32,
    name: &'static str,
    place: Option<usize>,
}

impl Fault {
    pub const BAD_PRICE: Fault = Fault::named(10, "BadPrice");
    pub const BAD_LIMITS: Fault = Fault::named(11, "BadLimits");
    pub const TOO_MANY: Fault = Fault::named(20, "TooMany");
    pub const BAD_PATH: Fault = Fault::named(21, "BadPath");
    pub const BAD_CROSSING: Fault = Fault::named(22, "BadCrossing");
    pub const BAD_ROTATION: Fault = Fault::named(23, "BadRotation");
    pub const NOT_CONNECTED: Fault = Fault::named(24, "NotConnected");
    pub const NOT_PLANAR: Fault = Fault::named(25, "NotPlanar");
    pub const TOO_LONG: Fault = Fault::named(51, "TooLong");
    pub const BAD_SHAPE: Fault = Fault::named(52, "BadShape");
    pub const BAD_VERSION: Fault = Fault::named(53, "BadVersion");
    pub const BAD_NUMBER: Fault = Fault::named(54, "BadNumber");
    pub const READ_FAULT: Fault = Fault::named(55, "ReadFault");
    pub const WRITE_FAULT: Fault = Fault::named(56, "WriteFault");
    pub const WRONG_REPLY: Fault = Fault::named(60, "WrongReply");
    pub const WRONG_PICTURE: Fault = Fault::named(61, "WrongPicture");

    const fn named(number: u32, name: &'static str) -> Fault {
        Fault {
            number,
            name,
            place: None,
        }
    }

    pub fn at(self, place: usize) -> Fault {
        Fault {
            place: Some(place),
            ..self
        }
    }
}

impl fmt::Display for Fault {
    fn fmt(&self, f: &mut fmt::Formatter<'_>) -> fmt::Result {
        write!(f, "{} {}", self.number, self.name)?;
        match self.place {
            Some(place) => write!(f, " {place}"),
            None => Ok(()),
        }
    }
}
