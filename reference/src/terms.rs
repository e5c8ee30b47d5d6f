//! Kinds of use, places, services and calls. Rules unit-1 to unit-3, service-1,
//! list-1, list-5, file-8.

/// unit-1: kilobytes in a gigabyte.
pub const GB: u64 = 1_048_576;

/// unit-2: use in kB, seconds called, seconds received, SMS sent.
#[derive(Clone, Copy, PartialEq, Eq, Debug)]
pub enum Kind {
    Data,
    Outgoing,
    Incoming,
    Sms,
}

impl Kind {
    pub const ALL: [Kind; 4] = [Kind::Data, Kind::Outgoing, Kind::Incoming, Kind::Sms];
}

/// unit-3: the three places.
#[derive(Clone, Copy, PartialEq, Eq, Debug)]
pub enum Place {
    Home,
    Zone,
    Elsewhere,
}

impl Place {
    pub const ALL: [Place; 3] = [Place::Home, Place::Zone, Place::Elsewhere];
}

/// service-1: the three services.
#[derive(Clone, Copy, PartialEq, Eq, Debug)]
pub enum Service {
    Data,
    Calls,
    Sms,
}

impl Service {
    pub const ALL: [Service; 3] = [Service::Data, Service::Calls, Service::Sms];

    /// service-2: the service that a kind of use belongs to.
    pub fn of(kind: Kind) -> Service {
        match kind {
            Kind::Data => Service::Data,
            Kind::Outgoing | Kind::Incoming => Service::Calls,
            Kind::Sms => Service::Sms,
        }
    }
}

/// list-1: the calls that a list may hold.
#[derive(Clone, Copy, PartialEq, Eq, Debug)]
pub enum Call {
    Register(Place),
    Use(Kind, u64),
    TopUp(u64),
    NextDay,
    Afford(Kind),
}

impl Call {
    /// file-8: code and number of the trip file; none for Afford and for
    /// numbers that are no 32-bit word.
    pub fn to_words(self) -> Option<(u32, u32)> {
        match self {
            Call::Register(place) => Some((1, place as u32)),
            Call::Use(kind, n) => Some((2 + kind as u32, u32::try_from(n).ok()?)),
            Call::TopUp(amount) => Some((6, u32::try_from(amount).ok()?)),
            Call::NextDay => Some((7, 0)),
            Call::Afford(_) => None,
        }
    }

    /// file-8: the call of a code and number; none where refusal-15 holds.
    pub fn from_words(code: u32, number: u32) -> Option<Call> {
        match code {
            1 => Some(Call::Register(*Place::ALL.get(number as usize)?)),
            2..=5 => Some(Call::Use(Kind::ALL[code as usize - 2], u64::from(number))),
            6 => Some(Call::TopUp(u64::from(number))),
            7 if number == 0 => Some(Call::NextDay),
            _ => None,
        }
    }

    /// list-5: whether the call is a cut where it is accepted.
    pub fn is_cut_call(self) -> bool {
        matches!(self, Call::Register(_) | Call::TopUp(_) | Call::NextDay)
    }
}
