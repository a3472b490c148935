#!/bin/sh
# Makes small wrong changes to copies of the second program, one at a time, and
# shows that the comparison of the right program with the wrong one finds each;
# and changes that break demand 3, which the search must find.
# Exits with 1 where one is not found or no longer applies.

tools=$(cd "$(dirname "$0")" && pwd) || exit 1
second=$(cd "$tools/../second" && pwd) || exit 1
work=$(mktemp -d) || exit 1
trap 'rm -rf "$work"' EXIT
seed=1
count=1500
failed=0
total=0

for folder in "$second" "$tools"; do
    cargo build --release --offline -q -j1 --manifest-path "$folder/Cargo.toml" || exit 1
done

# copy FOLDER: a fresh copy of the sources of a workspace, beside the other's,
# so that the copied tools are built on the copied program.
copy() {
    name_of_copy=$(basename "$1")
    rm -rf "${work:?}/$name_of_copy"
    mkdir "$work/$name_of_copy" || exit 1
    cp -r "$1/Cargo.toml" "$1/Cargo.lock" "$1/src" "$work/$name_of_copy/" || exit 1
}
copy "$tools"

# not_found NAME WHY
not_found() {
    printf 'NOT FOUND %s (%s)\n' "$1" "$2"
    failed=1
}

# build FOLDER NAME BINARY ..: builds binaries of a copy for a change.
build() {
    manifest="$work/$1/Cargo.toml"
    changed=$2
    shift 2
    binaries=
    for binary in "$@"; do binaries="$binaries --bin $binary"; done
    # shellcheck disable=SC2086 # words, not one word
    if ! CARGO_TARGET_DIR="$work/target" cargo build --offline -q -j1 --manifest-path "$manifest" $binaries \
        > "$work/build" 2>&1; then
        not_found "$changed" "it does not build: $(grep -m 1 '^error' "$work/build")"
        return 1
    fi
}

# change NAME FILE SCRIPT [FILE SCRIPT ..]: a copy of the second program to
# which the sed scripts are applied; each must change its file.
change() {
    name=$1
    shift
    total=$((total + 1))
    copy "$second"
    while [ $# -gt 0 ]; do
        file="$work/second/src/$1"
        sed "$2" "$file" > "$work/changed"
        if cmp -s "$file" "$work/changed"; then
            not_found "$name" "the change to $1 no longer applies"
            return 1
        fi
        cp "$work/changed" "$file"
        shift 2
    done
}

# wrong NAME FILE SCRIPT ..: the comparison must find the change.
wrong() {
    change "$@" && build second "$name" simulate check_services || return
    "$tools/target/release/compare" --brief --kind all --seed $seed --count $count \
        "$second/target/release" "$work/target/debug" > "$work/answer" 2> /dev/null
    if [ $? -eq 1 ]; then
        printf 'found %s: %s\n' "$name" "$(grep -m 1 '^difference' "$work/answer")"
    else
        not_found "$name" "$(tail -n 1 "$work/answer")"
    fi
}

# breaking NAME FILE SCRIPT ..: the search for demand 3 must find the change.
breaking() {
    change "$@" && build tools "$name" search || return
    "$work/target/debug/search" --seed $seed --seconds 20 > "$work/answer" 2> /dev/null
    if [ $? -eq 1 ]; then
        printf 'found %s: %s\n' "$name" "$(head -n 1 "$work/answer")"
    else
        not_found "$name" "$(tail -n 1 "$work/answer")"
    fi
}

# The five readings that look right and are wrong.
wrong "the reader is settled and launched again while the averager lives" engine/rules.rs \
    's/closing(&state.records\[service\]) && !blocked(table, state, service) && nothing/closing(\&state.records[service]) \&\& nothing/'
wrong "the start timeout runs from waking, not from launch" engine/rules.rs \
    's/^fn wake(_: &Table/fn wake(table: \&Table/
     s/^    state.records\[service\].phase = Phase::Waiting;/&\n    state.records[service].deadline = deadline_after(state.clock, table.services[service].start_timeout);/
     /record.deadline = deadline_after(clock, settings.start_timeout);/d'
wrong "a service is started again after a user's stop" engine/events.rs \
    's/Cause::User | Cause::Failed => {/Cause::Failed => {/
     s/Cause::Fell => settle_fall/Cause::User | Cause::Fell => settle_fall/
     s/^    record.wanted = false;$//'
wrong "rule 5 comes before rule 4" engine/rules.rs \
    '/Rule { number: 4,/{
         h
         d
     }
     /Rule { number: 5,/G'
wrong "a closing dependency is taken as up" engine/rules.rs \
    's/    record.phase == Phase::Up && record.cause == Cause::None$/    record.phase == Phase::Up/'

# Rules.
wrong "the highest service is taken first" engine/rules.rs \
    's/for service in table.numbers() {/for service in table.numbers().rev() {/'
wrong "rule 1 makes every fall a fall, a user's too" engine/rules.rs \
    's/if by_user { Cause::User } else { Cause::Fell }/if by_user { Cause::Fell } else { Cause::Fell }/'
wrong "rule 2 gives up for waits-for too" engine/rules.rs \
    's/(settings.depends_on.holds\[dependency\] || settings.depends_ms.holds\[dependency\])$/settings.depends_by_any_kind(dependency)/'
wrong "rule 2 leaves wanted on" engine/rules.rs \
    '/^fn hopeless(/,/^}/s/    record.wanted = false;//'
wrong "rule 4 wakes for waiting hard dependents alone" engine/rules.rs \
    '/^fn wake_fits/,/^}/s/depends_by_any_kind(service)/depends_on.holds[service]/'
wrong "rule 5 asks for hard dependents alone" engine/rules.rs \
    '/^fn needed/,/^}/s/depends_by_any_kind(service)/depends_on.holds[service]/'
wrong "rule 6 waits until a waits-for dependency is up" engine/rules.rs \
    's/ || down_and_aside(other))/)/'
wrong "rule 6 launches only after not-before" engine/rules.rs \
    's/state.clock >= record.not_before/state.clock > record.not_before/'
wrong "rule 6 sets no last launch for internal services" engine/rules.rs \
    's/^    record.last_launch = clock;/    if settings.service_type != ServiceType::Internal {\n        record.last_launch = clock;\n    }/'
wrong "rule 7 hands out a signal none" engine/rules.rs \
    's/Signal::None => Action::Moved(service),//'
wrong "rule 8 waits until past the deadline" engine/rules.rs \
    's/Deadline::At(time) => state.clock >= time/Deadline::At(time) => state.clock > time/'
wrong "rule 8 kills again and again" engine/rules.rs \
    's/(record.phase == Phase::Ending \&\& !record.killed)/record.phase == Phase::Ending/'
wrong "rule 8 turns a user's cause into failed" engine/rules.rs \
    's/if record.cause != Cause::User {/if record.cause != Cause::Failed {/'

wrong "rule 3 leaves a scripted service without stop-command" engine/rules.rs \
    's/ServiceType::Scripted => settings.stop_command_tokens == 0,/ServiceType::Scripted => false,/'
wrong "rule 4 wakes a service that is aside" engine/rules.rs \
    's/record.phase == Phase::Down \&\& !record.aside \&\&/record.phase == Phase::Down \&\&/'
wrong "rule 5 lets a waiting service be" engine/rules.rs \
    's/matches!(record.phase, Phase::Waiting | Phase::Starting | Phase::Up)/matches!(record.phase, Phase::Starting | Phase::Up)/'
wrong "rule 5 lets a starting service be" engine/rules.rs \
    's/matches!(record.phase, Phase::Waiting | Phase::Starting | Phase::Up)/matches!(record.phase, Phase::Waiting | Phase::Up)/'
wrong "rule 7 does not wait for hard dependents" engine/rules.rs \
    '/^fn bring_down_fits/,/^}/s/ \&\& !blocked(table, state, service)//'
wrong "rule 7 gives no stop deadline" engine/rules.rs \
    '/^fn bring_down(/,/^}/s/    record.deadline = .*;//'
wrong "rule 8 gives no stop deadline" engine/rules.rs \
    '/^fn overdue(/,/^}/s/    record.deadline = .*;//'
wrong "rule 8 takes a KILL away from the deadline" engine/rules.rs \
    's/^        record.killed = true;/&\n        record.deadline = Deadline::None;/'
wrong "rule 8 takes every INT before any KILL" engine/rules.rs \
    's/^    Rule { number: 8, fits: overdue_fits, apply: overdue },/&\n    Rule { number: 8, fits: overdue_kill_fits, apply: overdue },/
     s/pub const RULES: \[Rule; 8\]/pub const RULES: [Rule; 9]/
     s/ \&\& (record.phase == Phase::Starting || (record.phase == Phase::Ending \&\& !record.killed))/ \&\& record.phase == Phase::Starting/
     s/^fn overdue(table/fn overdue_kill_fits(_: \&Table, state: \&State, service: usize) -> bool {\n    let record = \&state.records[service];\n    at_or_past_deadline(state, service) \&\& record.phase == Phase::Ending \&\& !record.killed\n}\n\n&/'
wrong "blocked forgets ending dependents" engine/rules.rs \
    's/Phase::Starting | Phase::Up | Phase::Ending)/Phase::Starting | Phase::Up)/'
wrong "needed forgets ending dependents" engine/rules.rs \
    '/^fn needed/,/^}/s/state.records\[dependent\].phase != Phase::Down/!matches!(state.records[dependent].phase, Phase::Down | Phase::Ending)/'
wrong "a timeout of 0 is due at once" engine/rules.rs \
    's/^    if timeout == 0 {/    if timeout == u64::MAX {/'

# Events and settling.
wrong "start leaves aside on" engine/events.rs '/^            record.aside = false;/d'
wrong "start leaves not-before" engine/events.rs '/^            record.not_before = 0;/d'
wrong "start makes all it reaches wanted" engine/events.rs \
    's/^            record.aside = false;/&\n            record.wanted = true;/'
wrong "stop forgets aside" engine/events.rs '/^        record.aside = true;/d'
wrong "stop leaves the cause of an ending service" engine/events.rs \
    's/^        record.cause = Cause::User;/        if record.phase != Phase::Ending {\n            record.cause = Cause::User;\n        }/'
wrong "stop clears not-before" engine/events.rs \
    's/^        record.phase = Phase::Down;/&\n        record.not_before = 0;/'
wrong "an end while up takes any cause for a fall" engine/events.rs \
    's/if state.records\[service\].cause == Cause::None {/if state.records[service].cause != Cause::User {/'
wrong "a good start keeps its deadline" engine/events.rs \
    '/^            state.records\[service\].deadline = Deadline::None;/d'
wrong "settling leaves killed on" engine/events.rs '/^    record.killed = false;/d'
wrong "settling leaves the deadline" engine/events.rs '/^    record.deadline = Deadline::None;/d'
wrong "a failed service is not set aside" engine/events.rs \
    's/Cause::User | Cause::Failed => {/Cause::User => {/
     s/Cause::Released | Cause::None => {}/Cause::Released | Cause::Failed | Cause::None => {}/'
wrong "a released service is set aside" engine/events.rs \
    's/Cause::User | Cause::Failed => {/Cause::User | Cause::Failed | Cause::Released => {/
     s/Cause::Released | Cause::None => {}/Cause::None => {}/'
wrong "the count rises where the limit is 0" engine/events.rs \
    's/^        if limit != 0 {/        if limit != u64::MAX {/'
wrong "the count stays where restart is no" engine/events.rs \
    's/^        if limit != 0 {/        if limit != 0 \&\& service.restart {/'
wrong "a service with restart no stays wanted" engine/events.rs \
    's/^        if !service.restart {/        if !service.restart \&\& limit == u64::MAX {/'
wrong "a fall at the limit sets not-before too" engine/events.rs \
    's/^    if limit != 0 \&\& record.restarts >= limit {/    record.not_before = record.last_launch + service.restart_delay;\n&/'
wrong "start does not reach the dependencies" engine/events.rs \
    's/let reached = reached_by_any_kind(table, service);/let mut reached = [false; PLACES];\n    reached[service] = true;/'
wrong "start leaves a cause failed" engine/events.rs \
    's/record.cause == Cause::User || record.cause == Cause::Failed/record.cause == Cause::User/'
wrong "a bad start settles by the cause it had" engine/events.rs \
    's/Phase::Starting => settle_for(table, state, service, Cause::User),/Phase::Starting => settle(table, state, service),/'
wrong "a good start loses its cause" engine/events.rs \
    's/state.records\[service\].phase = Phase::Up;/&\n            state.records[service].cause = Cause::None;/'
wrong "the window must be passed, not reached" engine/events.rs \
    's/clock - record.window_start >= service/clock - record.window_start > service/'
wrong "the limit must be passed, not reached" engine/events.rs \
    's/record.restarts >= limit/record.restarts > limit/'
wrong "the delay runs from the fall, not from the last launch" engine/events.rs \
    's/record.not_before = record.last_launch + service.restart_delay/record.not_before = clock + service.restart_delay/'

# Refusals of calls.
wrong "the clock may not be 2^48" engine/calls.rs \
    's/if time > LAST_CLOCK/if time >= LAST_CLOCK/'
wrong "a run asks for less room than 4n" engine/calls.rs \
    's/let enough = 4 \* table.count as usize;/let enough = (4 * table.count as usize).saturating_sub(1);/'
wrong "a query gives a time that is now" engine/calls.rs \
    's/if time > state.clock \&\&/if time >= state.clock \&\&/'
wrong "20 comes before 24" engine/calls.rs \
    '/^pub fn start(/,/^}/{
         /refused_by_list_24/d
         s/^    let service = service_in_set(table, service)?;/&\n    refused_by_list_24(table, state)?;/
     }'
wrong "25 comes before 24" engine/calls.rs \
    '/^pub fn run_to_quiet(/,/^}/{
         /refused_by_list_24/d
         s/^    let enough = .*/    let enough = 4 * table.numbers().len();/
         s/^    let mut handed_out = 0;/    refused_by_list_24(table, state)?;\n&/
     }'
wrong "an equal clock is refused" engine/calls.rs 's/if time < state.clock {/if time <= state.clock {/'
wrong "a query looks at deadlines alone" engine/calls.rs \
    's/let mut times = vec!\[record.not_before\];/let mut times = Vec::new();/'
wrong "list 24 seeks cycles of depends-on alone" engine/list24.rs \
    '/^pub fn has_cycle/,/^}/s/depends_by_any_kind(other)/depends_on.holds[other]/'
wrong "list 24 forgets not-before" engine/list24.rs \
    's/record.not_before > LAST_CLOCK + LONGEST_TIME/record.not_before == u64::MAX/'
wrong "list 24 reads records past the last service" engine/list24.rs \
    '/^fn any_record/,/^}/s/table.numbers()/(0..PLACES)/'

for clause in dependency_beyond dependency_cycle restart_delay_outside interval_outside \
    limit_count_outside start_timeout_outside stop_timeout_outside clock_past last_launch_past \
    window_start_past deadline_past not_before_past count_past down_or_waiting_live \
    down_or_waiting_cause starting_not_scripted starting_not_live up_live_no_process \
    up_process_not_live ending_not_live ending_no_cause; do
    wrong "list 24 without $clause" engine/list24.rs "s/broken: $clause }/broken: |_, _| false }/"
done
for bound in LONGEST_TIME LARGEST_COUNT LAST_CLOCK state.clock; do
    wrong "list 24 with bounds $bound not reached" engine/list24.rs "s/ > $bound/ >= $bound/"
done

# Loading.
wrong "65 positions give 1" loader.rs 's/positions.len() \/ 2 > PLACES/positions.len() > 2 * PLACES/'
wrong "equal positions fall" loader.rs 's/if \*position < last {/if *position <= last \&\& last > 0 {/'
wrong "3 is looked for in all names before 4 in any" loader.rs \
    's/^        if parts\[..service\].iter().any(|earlier| earlier.name == part.name) {/        if parts[..service].iter().any(|earlier| earlier.name == part.name) \&\& parts.iter().all(|other| is_good_name(other.name)) {/'
wrong "15 comes before the faults of later texts" loader.rs \
    's/^        descriptions.push(description);/        if let Some(absent) = description.dependencies.iter().find(|it| !parts.iter().any(|part| part.name == it.name)) {\n            return Err(Refusal::of_absent(absent, service));\n        }\n&/'
wrong "unused commands are not written" loader.rs \
    's/for command in \[&description.command, &description.stop_command\] {/for command in [\&description.command, if description.service_type == Some(crate::engine::ServiceType::Scripted) { \&description.stop_command } else { \&None }] {/'
wrong "stop-command is written before command" loader.rs \
    's/for command in \[&description.command, &description.stop_command\] {/for command in [\&description.stop_command, \&description.command] {/'
wrong "6 is sought line by line" text.rs \
    's/^    refuse_bad_bytes(text)?;//
     s/^        read_line(line, line_number,/        refuse_bad_bytes(line).map_err(|fault| Fault { line: line_number, ..fault })?;\n&/'
wrong "a property name may hold an underscore" text.rs \
    's/byte.is_ascii_lowercase() || matches!(\*\*byte, b.-. | b.\..)/byte.is_ascii_lowercase() || matches!(**byte, b'"'-' | b'.' | b'_'"')/'
wrong "a backslash in quotes is ordinary" text.rs \
    's/^        if byte == b.\\\\. {/        if byte == 92 \&\& open_quote.is_none() {/'
wrong "an empty token is dropped" text.rs \
    's/^            tokens.extend(token.take());/            tokens.extend(token.take().filter(|token| !token.is_empty()));/'
wrong "the 16 dependencies are of each kind" text.rs \
    's/description.dependencies.len() == MOST_DEPENDENCIES/description.dependencies.iter().filter(|it| it.kind == kind).count() == MOST_DEPENDENCIES/'
wrong "an internal service needs a command" text.rs \
    's/service_type != ServiceType::Internal \&\&/(service_type != ServiceType::Internal || description.stop_command.is_some()) \&\&/'
wrong "a name may have 33 bytes" text.rs 's/(1..=32).contains/(1..=33).contains/'
wrong "a name may not hold a capital" text.rs 's/|| byte.is_ascii_uppercase()//'
wrong "a time has at most five digits of seconds" text.rs \
    's/digits(word, 6)? \* 10_000/digits(word, 5)? * 10_000/'
wrong "a fraction is never too long" text.rs 's/digits(fraction, 4)?;/digits(fraction, 9)?;/
     s/digits(&padded, 4)?$/digits(\&padded[..4], 4)?/'
wrong "a limit count may have leading zeros without end" text.rs \
    's/digits(word, 5)?;/digits(word, 6)?;/'

# The scenario runner.
wrong "a scenario is never cut" scenario.rs \
    's/INPUT_BYTES: usize = 262_144/INPUT_BYTES: usize = 524_288/'
wrong "a load keeps the clock" scenario.rs \
    's/^        self.loaded = None;/        let clock = self.loaded.as_ref().map_or(0, |it| it.state.clock);\n&/
     s/state: State::FRESH,/state: State { clock, ..State::FRESH },/'
wrong "a refused load leaves the set" scenario.rs 's/^        self.loaded = None;//'
wrong "a flag may be any number" scenario.rs \
    's/^        b"1" => Ok(true),/        _ if number(word).is_ok() => Ok(true),/'

# Loading, the numbers.
wrong "a total of 32,768 bytes is too long" loader.rs \
    's/total > LONGEST_TOTAL/total >= LONGEST_TOTAL/'
wrong "16 names a service that only reaches a cycle" loader.rs \
    's/find(|service| reaches(table, \*service, \*service))/find(|service| table.numbers().any(|on| (on == *service || reaches(table, *service, on)) \&\& reaches(table, on, on)))/'
wrong "room that is just enough is too small" loader.rs \
    's/tokens.len() > buffer.len()/tokens.len() > 0 \&\& tokens.len() >= buffer.len()/'
wrong "a repeated dependency counts twice" text.rs \
    's/^    if repeated {/    if repeated \&\& line == 0 {/'
wrong "a comment may begin inside a token" text.rs \
    's/if token.is_some() {/if token.is_some() \&\& line.is_empty() {/'
wrong "a vertical tab is a bad byte" text.rs \
    's/32 | 9 | 11 | 12 | 13/32 | 9 | 12 | 13/'
wrong "a short fraction of a second is not filled up" text.rs \
    's/while padded.len() < 4/while padded.is_empty()/'
wrong "smooth-recovery may be yes" text.rs \
    's/if yes_or_no(only_token(&tokens)?)? {/if yes_or_no(only_token(\&tokens)?)? \&\& line == 0 {/'
wrong "an unknown property is seen only after its value" text.rs \
    '/^    let property = Property::from_name/{
         h
         d
     }
     /^    let tokens = read_value/G'

# The column (W-201).
wrong "columns are counted from 0" text.rs \
    's/column: self.place as u64 + 1/column: self.place as u64/'
wrong "a column does not begin again at a line" text.rs \
    's/fault.in_line(line_number)/Fault { column: 1 + (fault.place + text.split(|it| *it == 10).take(line_number as usize - 1).map(|it| it.len() + 1).sum::<usize>()) as u64, ..fault.in_line(line_number) }/'
wrong "a column counts characters" text.rs \
    's/fault.in_line(line_number)/Fault { column: 1 + line[..fault.place].iter().filter(|it| **it \& 0xc0 != 0x80).count() as u64, ..fault.in_line(line_number) }/'
wrong "a tab is eight columns" text.rs \
    's/fault.in_line(line_number)/Fault { column: 1 + line[..fault.place].iter().map(|it| if *it == 9 { 8 } else { 1 }).sum::<u64>(), ..fault.in_line(line_number) }/'
wrong "7 is at the name's end where the sign is missing" text.rs \
    's/^        _ => Err(LineFault::at(sign, 7)),/        None => Err(LineFault::at(from, 7)),\n&/'
wrong "8 is at the last quote" text.rs \
    's/LineFault::at(quote, 8)/LineFault::at(line.iter().rposition(|it| *it == 34).unwrap_or(quote), 8)/'
wrong "8 is at the line's end" text.rs 's/LineFault::at(quote, 8)/LineFault::at(line.len(), 8)/'
wrong "9 is after the backslash" text.rs 's/LineFault::at(place, 9)/LineFault::at(place + 1, 9)/'
wrong "10 is at the sign" text.rs 's/LineFault::at(name, 10)/LineFault::at(sign, 10)/'
wrong "10 is at the line's begin" text.rs 's/LineFault::at(name, 10)/LineFault::at(0, 10)/'
wrong "11 is after the sign" text.rs \
    's/let value = after_white_space(line, sign + 1);/let value = sign + 1;/'
wrong "11 is after the sign where the value is missing" text.rs \
    's/let value = after_white_space(line, sign + 1);/&\n    let value = if value == line.len() { sign + 1 } else { value };/'
wrong "15 is at its value" loader.rs \
    's/column: 1 }/column: dependency.kind.word().len() as u64 + 2 }/'

# The small program.
wrong "the program stops reading at 32,768 bytes" program.rs \
    's/total > LONGEST_TOTAL/total >= LONGEST_TOTAL/'
wrong "the program reads 131,072 bytes of names" program.rs \
    's/INPUT_BYTES: usize = 65_536/INPUT_BYTES: usize = 131_072/'
wrong "the program reads 4,096 bytes of a file" program.rs \
    's/FILE_BYTES: usize = LONGEST_TEXT + 1/FILE_BYTES: usize = LONGEST_TEXT/'
wrong "a missing file is an empty text" program.rs \
    's/files.read(name, FILE_BYTES).ok_or(service)?/{ let _: Result<(), usize> = Err(service); files.read(name, FILE_BYTES).unwrap_or_default() }/'

# Demand 3.
breaking "a service is brought down under a live hard dependent" engine/rules.rs \
    '/^fn bring_down_fits/,/^}/s/ \&\& !blocked(table, state, service)//'
breaking "a fallen service is settled under a live hard dependent" engine/rules.rs \
    's/closing(&state.records\[service\]) && !blocked(table, state, service) && nothing/closing(\&state.records[service]) \&\& nothing/'
breaking "blocked forgets ending dependents, in the search" engine/rules.rs \
    's/Phase::Starting | Phase::Up | Phase::Ending)/Phase::Starting | Phase::Up)/'
breaking "KILL is sent again and again" engine/rules.rs \
    's/(record.phase == Phase::Ending \&\& !record.killed)/record.phase == Phase::Ending/'
breaking "a stop has no deadline" engine/rules.rs \
    '/^fn bring_down(/,/^}/s/deadline_after(clock, settings.stop_timeout)/Deadline::None/'
breaking "an INT has no deadline after it" engine/rules.rs \
    '/^fn overdue(/,/^}/s/deadline_after(clock, settings.stop_timeout)/Deadline::None/'
breaking "a stop all leaves wanted on" engine/events.rs \
    '/^pub fn stop_service/,/^}/{
         /record.wanted = false;/d
         /record.aside = true;/d
     }'

echo "$total wrong changes"
exit $failed
