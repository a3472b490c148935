//! What the promise holds back: an action that would be handed out for a
//! service if no service that hard-depends on it, directly or through others,
//! had a live process.

use super::run::Standing;
use second::engine::{Cause, Kind, Phase, ServiceType};

/// What the table says of a service that matters here.
#[derive(Clone, Debug)]
pub struct Settings {
    service_type: ServiceType,
    restart: bool,
    /// How many falls within the interval are followed by a launch; 0 for all.
    limit: u64,
    interval: u64,
    /// Whether a signal or a stop command is handed out to end it.
    is_ended_by_an_action: bool,
    hard: Vec<usize>,
    of_any_kind: Vec<usize>,
}

impl Settings {
    /// The settings as a line of `show` has them.
    pub fn of(line: &str) -> Option<Settings> {
        let value = |name: &str| {
            let mut words = line.split(' ');
            words.find_map(|word| word.strip_prefix(name)?.strip_prefix('='))
        };
        let members = |kind: Kind| -> Option<Vec<usize>> {
            let words = value(kind.word())?.split(',').filter(|word| !word.is_empty());
            words.map(|word| word.parse().ok()).collect()
        };
        let service_type = ServiceType::from_word(value("type")?.as_bytes())?;
        let mut of_any_kind = Vec::new();
        for kind in Kind::ALL {
            of_any_kind.extend(members(kind)?);
        }
        Some(Settings {
            service_type,
            restart: value("restart")? == "yes",
            limit: value("restart-limit-count")?.parse().ok()?,
            interval: value("restart-limit-interval")?.parse().ok()?,
            is_ended_by_an_action: match service_type {
                ServiceType::Process => value("term-signal")? != "none",
                ServiceType::Scripted => value("stop-command")? != "0",
                ServiceType::Internal => false,
            },
            hard: members(Kind::DependsOn)?,
            of_any_kind,
        })
    }
}

/// An action that is held back, and the services whose processes live.
#[derive(Clone, PartialEq, Eq, Debug)]
pub struct Held {
    pub action: &'static str,
    pub by: Vec<usize>,
}

/// What is held back of a service, where anything is.
pub fn held(
    settings: &[Settings],
    standing: &[Standing],
    clock: u64,
    service: usize,
) -> Option<Held> {
    let hard = reaching(settings, service, |settings| &settings.hard);
    let by: Vec<usize> =
        hard.iter().copied().filter(|dependent| standing[*dependent].live).collect();
    let action = due(settings, standing, clock, service, &hard)?;
    (!by.is_empty()).then_some(Held { action, by })
}

/// The services that reach this one by these links, lowest first.
fn reaching(
    settings: &[Settings],
    service: usize,
    links: impl Fn(&Settings) -> &Vec<usize>,
) -> Vec<usize> {
    let mut reached = vec![service];
    let mut next = 0;
    while let Some(on) = reached.get(next).copied() {
        for (dependent, settings) in settings.iter().enumerate() {
            if links(settings).contains(&on) && !reached.contains(&dependent) {
                reached.push(dependent);
            }
        }
        next += 1;
    }
    let mut dependents = reached.split_off(1);
    dependents.sort_unstable();
    dependents
}

/// What would be handed out for the service.
fn due(
    settings: &[Settings],
    standing: &[Standing],
    clock: u64,
    service: usize,
    hard: &[usize],
) -> Option<&'static str> {
    let (own, now) = (settings.get(service)?, &standing[service]);
    let closing = now.phase == Phase::Up && now.cause != Cause::None;
    match own.service_type {
        ServiceType::Internal => None,
        ServiceType::Process if closing && now.live => {
            own.is_ended_by_an_action.then_some("signal")
        }
        ServiceType::Scripted if closing => own.is_ended_by_an_action.then_some("stop command"),
        _ => is_asked_for(settings, standing, clock, service, hard).then_some("launch"),
    }
}

/// Whether a service without a process is to be launched: it waits or will
/// wait, for its own sake or for that of a service that depends on it.
fn is_asked_for(
    settings: &[Settings],
    standing: &[Standing],
    clock: u64,
    service: usize,
    hard: &[usize],
) -> bool {
    let now = &standing[service];
    let waits = |other: usize| standing[other].phase == Phase::Waiting;
    let comes_back = |other: usize| {
        let kept = settings[other].restart || standing[other].cause == Cause::Released;
        let set_aside = standing[other].cause == Cause::Fell
            && is_spent(&settings[other], &standing[other], clock);
        standing[other].wanted && kept && !set_aside
    };
    match (now.phase, now.cause) {
        (Phase::Waiting, _) => true,
        (Phase::Down, _) => now.wanted && !now.aside,
        (Phase::Up, Cause::Fell) if is_spent(&settings[service], now, clock) => false,
        (Phase::Up, Cause::Fell | Cause::Released) => {
            comes_back(service)
                || hard.iter().any(|dependent| comes_back(*dependent))
                || reaching(settings, service, |it| &it.of_any_kind).into_iter().any(waits)
        }
        _ => false,
    }
}

/// Whether a fall that is settled now sets the service aside.
fn is_spent(own: &Settings, now: &Standing, clock: u64) -> bool {
    let is_over = clock.saturating_sub(now.window_start) >= own.interval;
    own.limit != 0 && now.restarts >= own.limit && !is_over
}
