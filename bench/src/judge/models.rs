//! The five named ordering models.

/// The highest location at which a model allows anything.
const HIGHEST_LOCATION: u8 = 7;

/// Whether an access is a load or a store.
#[derive(Clone, Copy, Debug, PartialEq, Eq)]
pub enum Kind {
    Load,
    Store,
}

/// A load or a store of a location.
#[derive(Clone, Copy, Debug, PartialEq, Eq)]
pub struct Access {
    pub kind: Kind,
    pub location: u8,
}

/// The removals for which a model has to be asked.
#[derive(Clone, Copy, Debug, PartialEq, Eq)]
pub enum Removal {
    /// Rule 5: a store of what was just loaded.
    StoreAfterLoad,
    /// Rule 6: a load of what was just stored.
    LoadAfterStore,
}

/// Which accesses may be reordered, and what may be removed because of it.
#[derive(Clone, Copy, Debug, PartialEq, Eq)]
#[repr(u8)]
pub enum Model {
    Sc = 1,
    S390 = 2,
    Tso = 3,
    Pso = 4,
    Clr = 5,
}

impl Model {
    /// All models, by their numbers.
    pub const ALL: [Model; 5] = [Model::Sc, Model::S390, Model::Tso, Model::Pso, Model::Clr];

    /// The model of that number.
    pub fn from_number(number: u8) -> Option<Model> {
        match number {
            1 => Some(Model::Sc),
            2 => Some(Model::S390),
            3 => Some(Model::Tso),
            4 => Some(Model::Pso),
            5 => Some(Model::Clr),
            _ => None,
        }
    }

    /// The model's number, which the report prints.
    pub fn number(self) -> u8 {
        self as u8
    }

    /// Whether the first access may swap with the second, which stands just
    /// after it.
    pub fn may_swap(self, first: Access, second: Access) -> bool {
        let apart = first.location != second.location;
        let allowed = match (first.kind, second.kind) {
            (Kind::Store, Kind::Load) => self != Model::Sc && apart,
            (Kind::Store, Kind::Store) => self == Model::Pso && apart,
            (Kind::Load, Kind::Load) => self == Model::Clr,
            (Kind::Load, Kind::Store) => false,
        };
        allowed && within(first.location) && within(second.location)
    }

    /// Whether a store to the location is forwarded to a load of it (rule 2).
    pub fn forwards_at(self, location: u8) -> bool {
        matches!(self, Model::Tso | Model::Pso | Model::Clr) && within(location)
    }

    /// Whether the removal (rule 5 or 6) is permitted at the location.
    pub fn permits(self, removal: Removal, location: u8) -> bool {
        let permitted = match removal {
            Removal::StoreAfterLoad => matches!(self, Model::Sc | Model::Pso),
            Removal::LoadAfterStore => self != Model::S390,
        };
        permitted && within(location)
    }
}

/// Nothing is allowed above location 7.
fn within(location: u8) -> bool {
    location <= HIGHEST_LOCATION
}
