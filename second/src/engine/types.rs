//! The types of paper 01: what a table holds of each service, and the record
//! of each service in a state ("The service record"). Every number is held in
//! 64 bits; list 24 judges it.

/// The places of a table and of a state.
pub const PLACES: usize = 32;

/// The last good clock reading, 2^48.
pub const LAST_CLOCK: u64 = 2u64.pow(48);

/// 86,400 seconds in units of 0.1 ms, the longest time of a setting.
pub const LONGEST_TIME: u64 = 864_000_000;

/// The largest restart limit and restart count.
pub const LARGEST_COUNT: u64 = 65_535;

/// The settings of a text that says nothing of them.
pub const DEFAULT_RESTART_DELAY: u64 = 2_000;
pub const DEFAULT_LIMIT_INTERVAL: u64 = 100_000;
pub const DEFAULT_LIMIT_COUNT: u64 = 3;
pub const DEFAULT_START_TIMEOUT: u64 = 600_000;
pub const DEFAULT_STOP_TIMEOUT: u64 = 100_000;

#[derive(Clone, Copy, PartialEq, Eq, Debug)]
pub enum ServiceType {
    Process,
    Scripted,
    Internal,
}

impl ServiceType {
    pub const ALL: [ServiceType; 3] =
        [ServiceType::Process, ServiceType::Scripted, ServiceType::Internal];

    pub fn word(self) -> &'static str {
        match self {
            ServiceType::Process => "process",
            ServiceType::Scripted => "scripted",
            ServiceType::Internal => "internal",
        }
    }

    pub fn from_word(word: &[u8]) -> Option<ServiceType> {
        ServiceType::ALL.into_iter().find(|it| it.word().as_bytes() == word)
    }
}

/// The term signals in the order of paper 01's list.
#[derive(Clone, Copy, PartialEq, Eq, Debug)]
pub enum Signal {
    None,
    Hup,
    Int,
    Term,
    Quit,
    Usr1,
    Usr2,
    Kill,
}

impl Signal {
    pub const ALL: [Signal; 8] = [
        Signal::None,
        Signal::Hup,
        Signal::Int,
        Signal::Term,
        Signal::Quit,
        Signal::Usr1,
        Signal::Usr2,
        Signal::Kill,
    ];

    pub fn word(self) -> &'static str {
        match self {
            Signal::None => "none",
            Signal::Hup => "HUP",
            Signal::Int => "INT",
            Signal::Term => "TERM",
            Signal::Quit => "QUIT",
            Signal::Usr1 => "USR1",
            Signal::Usr2 => "USR2",
            Signal::Kill => "KILL",
        }
    }

    pub fn from_word(word: &[u8]) -> Option<Signal> {
        Signal::ALL.into_iter().find(|it| it.word().as_bytes() == word)
    }

    /// The place in paper 01's list, from 0.
    pub fn place(self) -> u64 {
        Signal::ALL.iter().position(|it| *it == self).expect("every signal is in the list") as u64
    }
}

/// The three kinds of dependency. Hard means depends-on.
#[derive(Clone, Copy, PartialEq, Eq, Debug)]
pub enum Kind {
    DependsOn,
    DependsMs,
    WaitsFor,
}

impl Kind {
    pub const ALL: [Kind; 3] = [Kind::DependsOn, Kind::DependsMs, Kind::WaitsFor];

    pub fn word(self) -> &'static str {
        match self {
            Kind::DependsOn => "depends-on",
            Kind::DependsMs => "depends-ms",
            Kind::WaitsFor => "waits-for",
        }
    }
}

/// A set of service numbers, wide enough for the bits of a 64-bit number.
#[derive(Clone, Copy, PartialEq, Eq, Debug)]
pub struct ServiceSet {
    pub holds: [bool; 64],
}

impl ServiceSet {
    pub const EMPTY: ServiceSet = ServiceSet { holds: [false; 64] };

    pub fn members(&self) -> Vec<usize> {
        (0..64).filter(|member| self.holds[*member]).collect()
    }

    /// The set whose members are the bits of the number.
    pub fn from_number(number: u64) -> ServiceSet {
        let mut set = ServiceSet::EMPTY;
        let mut rest = number;
        for member in 0..64 {
            set.holds[member] = rest % 2 == 1;
            rest /= 2;
        }
        set
    }
}

/// What the table holds of one service. Commands are held as their number of
/// tokens, 0 for none; the tokens themselves stand in the lent buffer.
#[derive(Clone, Copy, PartialEq, Eq, Debug)]
pub struct Service {
    pub service_type: ServiceType,
    pub restart: bool,
    pub restart_delay: u64,
    pub restart_limit_interval: u64,
    pub restart_limit_count: u64,
    pub start_timeout: u64,
    pub stop_timeout: u64,
    pub term_signal: Signal,
    pub depends_on: ServiceSet,
    pub depends_ms: ServiceSet,
    pub waits_for: ServiceSet,
    pub command_tokens: u64,
    pub stop_command_tokens: u64,
}

impl Service {
    /// A place past the loaded services: internal, default settings, no
    /// dependencies and no commands.
    pub const UNUSED: Service = Service {
        service_type: ServiceType::Internal,
        restart: false,
        restart_delay: DEFAULT_RESTART_DELAY,
        restart_limit_interval: DEFAULT_LIMIT_INTERVAL,
        restart_limit_count: DEFAULT_LIMIT_COUNT,
        start_timeout: DEFAULT_START_TIMEOUT,
        stop_timeout: DEFAULT_STOP_TIMEOUT,
        term_signal: Signal::Term,
        depends_on: ServiceSet::EMPTY,
        depends_ms: ServiceSet::EMPTY,
        waits_for: ServiceSet::EMPTY,
        command_tokens: 0,
        stop_command_tokens: 0,
    };

    pub fn dependencies(&self, kind: Kind) -> &ServiceSet {
        match kind {
            Kind::DependsOn => &self.depends_on,
            Kind::DependsMs => &self.depends_ms,
            Kind::WaitsFor => &self.waits_for,
        }
    }

    pub fn dependencies_mut(&mut self, kind: Kind) -> &mut ServiceSet {
        match kind {
            Kind::DependsOn => &mut self.depends_on,
            Kind::DependsMs => &mut self.depends_ms,
            Kind::WaitsFor => &mut self.waits_for,
        }
    }

    /// Whether the three kinds together hold the dependency.
    pub fn depends_by_any_kind(&self, dependency: usize) -> bool {
        Kind::ALL.into_iter().any(|kind| self.dependencies(kind).holds[dependency])
    }
}

#[derive(Clone, PartialEq, Eq, Debug)]
pub struct Table {
    pub count: u64,
    pub services: [Service; PLACES],
}

impl Table {
    /// The table of no services.
    pub const EMPTY: Table = Table { count: 0, services: [Service::UNUSED; PLACES] };

    /// The numbers of the services, as many as there are places for.
    pub fn numbers(&self) -> std::ops::Range<usize> {
        0..(self.count.min(PLACES as u64) as usize)
    }
}

#[derive(Clone, Copy, PartialEq, Eq, Debug)]
pub enum Phase {
    Down,
    Waiting,
    Starting,
    Up,
    Ending,
}

impl Phase {
    pub const ALL: [Phase; 5] =
        [Phase::Down, Phase::Waiting, Phase::Starting, Phase::Up, Phase::Ending];

    pub fn word(self) -> &'static str {
        match self {
            Phase::Down => "down",
            Phase::Waiting => "waiting",
            Phase::Starting => "starting",
            Phase::Up => "up",
            Phase::Ending => "ending",
        }
    }

    pub fn from_word(word: &[u8]) -> Option<Phase> {
        Phase::ALL.into_iter().find(|it| it.word().as_bytes() == word)
    }
}

#[derive(Clone, Copy, PartialEq, Eq, Debug)]
pub enum Cause {
    None,
    User,
    Released,
    Fell,
    Failed,
}

impl Cause {
    pub const ALL: [Cause; 5] =
        [Cause::None, Cause::User, Cause::Released, Cause::Fell, Cause::Failed];

    pub fn word(self) -> &'static str {
        match self {
            Cause::None => "none",
            Cause::User => "user",
            Cause::Released => "released",
            Cause::Fell => "fell",
            Cause::Failed => "failed",
        }
    }

    pub fn from_word(word: &[u8]) -> Option<Cause> {
        Cause::ALL.into_iter().find(|it| it.word().as_bytes() == word)
    }
}

/// A deadline is none or a time; none is not the time 0.
#[derive(Clone, Copy, PartialEq, Eq, Debug)]
pub enum Deadline {
    None,
    At(u64),
}

#[derive(Clone, Copy, PartialEq, Eq, Debug)]
pub struct Record {
    pub phase: Phase,
    pub wanted: bool,
    pub aside: bool,
    pub live: bool,
    pub cause: Cause,
    pub deadline: Deadline,
    pub killed: bool,
    pub not_before: u64,
    pub last_launch: u64,
    pub window_start: u64,
    pub restarts: u64,
}

impl Record {
    /// "Fresh: down, all else false, none or 0".
    pub const FRESH: Record = Record {
        phase: Phase::Down,
        wanted: false,
        aside: false,
        live: false,
        cause: Cause::None,
        deadline: Deadline::None,
        killed: false,
        not_before: 0,
        last_launch: 0,
        window_start: 0,
        restarts: 0,
    };
}

#[derive(Clone, PartialEq, Eq, Debug)]
pub struct State {
    pub clock: u64,
    pub records: [Record; PLACES],
}

impl State {
    pub const FRESH: State = State { clock: 0, records: [Record::FRESH; PLACES] };
}

/// An answer to a request for the next action.
#[derive(Clone, Copy, PartialEq, Eq, Debug)]
pub enum Action {
    Moved(usize),
    Launch(usize),
    Signal(usize, Signal),
    StopCommand(usize),
    Quiet,
}

impl Action {
    /// The number a run writes for the action: moved 0, launch 1, stop command
    /// 2, a signal 3 and its place in the list. Quiet is not written.
    pub fn number(self) -> Option<u64> {
        match self {
            Action::Moved(_) => Some(0),
            Action::Launch(_) => Some(1),
            Action::StopCommand(_) => Some(2),
            Action::Signal(_, signal) => Some(3 + signal.place()),
            Action::Quiet => None,
        }
    }

    pub fn service(self) -> Option<usize> {
        match self {
            Action::Moved(service)
            | Action::Launch(service)
            | Action::StopCommand(service)
            | Action::Signal(service, _) => Some(service),
            Action::Quiet => None,
        }
    }

    /// The action that a run wrote as these two numbers.
    pub fn from_numbers(service: u64, number: u64) -> Option<Action> {
        let service = service as usize;
        match number {
            0 => Some(Action::Moved(service)),
            1 => Some(Action::Launch(service)),
            2 => Some(Action::StopCommand(service)),
            3..=10 => Some(Action::Signal(service, Signal::ALL[number as usize - 3])),
            _ => None,
        }
    }
}
