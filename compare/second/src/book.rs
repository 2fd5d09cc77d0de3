//! The book of 64 places, each free or with a job number that is open, held or cancelled. A cancelled one remembers what it was, for its reinstatement.
//! Number 0 is no job: it can't be opened or written, and it is in a book only where it was opened or cancelled before that rule.

pub const PLACES: usize = 64;

/// The number of test trays.
const NO_JOB: u32 = 0;

/// What a number was before its cancellation.
#[derive(Clone, Copy, Debug, PartialEq, Eq)]
pub enum Former {
    Absent,
    Open,
    Held,
}

#[derive(Clone, Copy, Debug, PartialEq, Eq)]
pub enum Place {
    Free,
    Open(u32),
    Held(u32),
    Cancelled(u32, Former),
}

impl Place {
    fn number(self) -> Option<u32> {
        match self {
            Place::Free => None,
            Place::Open(number) | Place::Held(number) | Place::Cancelled(number, _) => Some(number),
        }
    }
}

#[derive(Clone, Debug, PartialEq, Eq)]
pub struct Book {
    places: [Place; PLACES],
}

impl Default for Book {
    fn default() -> Book {
        Book {
            places: [Place::Free; PLACES],
        }
    }
}

impl Book {
    /// A book with these places; one number twice is refused with 1.
    pub fn from_places(places: [Place; PLACES]) -> Result<Book, u8> {
        for (i, place) in places.iter().enumerate() {
            let Some(number) = place.number() else {
                continue;
            };
            if places[..i]
                .iter()
                .any(|other| other.number() == Some(number))
            {
                return Err(1);
            }
        }
        Ok(Book { places })
    }

    pub fn places(&self) -> &[Place; PLACES] {
        &self.places
    }

    fn find(&self, number: u32) -> Option<Place> {
        self.places
            .iter()
            .copied()
            .find(|place| place.number() == Some(number))
    }

    fn find_mut(&mut self, number: u32) -> Option<&mut Place> {
        self.places
            .iter_mut()
            .find(|place| place.number() == Some(number))
    }

    /// Puts a new number into the first free place.
    fn add(&mut self, place: Place) -> u8 {
        match self.places.iter().position(|&place| place == Place::Free) {
            Some(at) => {
                self.places[at] = place;
                0
            }
            None => 15,
        }
    }

    /// Refusals 17 12 13 15.
    pub fn open(&mut self, number: u32) -> u8 {
        match self.find(number) {
            _ if number == NO_JOB => 17,
            Some(Place::Cancelled(..)) => 12,
            Some(_) => 13,
            None => self.add(Place::Open(number)),
        }
    }

    /// Refusals 17, for a 0 that isn't here, 12 15.
    pub fn cancel(&mut self, number: u32) -> u8 {
        let Some(place) = self.find_mut(number) else {
            return match number {
                NO_JOB => 17,
                _ => self.add(Place::Cancelled(number, Former::Absent)),
            };
        };
        let former = match place {
            Place::Cancelled(..) => return 12,
            Place::Held(_) => Former::Held,
            _ => Former::Open,
        };
        *place = Place::Cancelled(number, former);
        0
    }

    /// Refusals 12 23 14, for 0 too.
    pub fn finish(&mut self, number: u32) -> u8 {
        self.leave_open(number, Place::Free)
    }

    /// Refusals 12 23 14, for 0 too.
    pub fn hold(&mut self, number: u32) -> u8 {
        self.leave_open(number, Place::Held(number))
    }

    /// Makes an open number's place another. Refusals 12 23 14.
    fn leave_open(&mut self, number: u32, after: Place) -> u8 {
        match self.find_mut(number) {
            Some(Place::Cancelled(..)) => 12,
            Some(Place::Held(_)) => 23,
            Some(place) => {
                *place = after;
                0
            }
            None => 14,
        }
    }

    /// Makes a held number open again. Refusals 12 24, for 0 too.
    pub fn release(&mut self, number: u32) -> u8 {
        match self.find_mut(number) {
            Some(Place::Cancelled(..)) => 12,
            Some(place @ Place::Held(_)) => {
                *place = Place::Open(number);
                0
            }
            _ => 24,
        }
    }

    /// Makes a cancelled number what it was before. Refusal 20, for 0 too.
    pub fn reinstate(&mut self, number: u32) -> u8 {
        let Some(place) = self.find_mut(number) else {
            return 20;
        };
        let Place::Cancelled(_, former) = *place else {
            return 20;
        };
        *place = match former {
            Former::Absent => Place::Free,
            Former::Open => Place::Open(number),
            Former::Held => Place::Held(number),
        };
        0
    }

    /// What writing a job asks: 17 for 0, then what reading asks.
    pub fn require_writable(&self, number: u32) -> Result<(), u8> {
        if number == NO_JOB {
            return Err(17);
        }
        self.require_open(number)
    }

    /// What reading a job asks: 12 where it is cancelled, 23 where it is held, 14 where it isn't open.
    pub fn require_open(&self, number: u32) -> Result<(), u8> {
        match self.find(number) {
            Some(Place::Open(_)) => Ok(()),
            Some(Place::Cancelled(..)) => Err(12),
            Some(Place::Held(_)) => Err(23),
            _ => Err(14),
        }
    }
}
