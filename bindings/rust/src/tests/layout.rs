//! The structs and numbers of ffi.rs against those of the header, as the C compiler lays them out.
use core::mem::{align_of, offset_of, size_of, size_of_val};
use std::path::{Path, PathBuf};
use std::process::Command;

use crate::ffi::*;

/// The lines that tests/layout.c prints for a struct.
macro_rules! lines {
    ($type:ident: $($field:ident),*) => {{
        let value = $type::default();
        let name = concat!("Pudvirez", stringify!($type));
        let mut lines = vec![format!("{name} {} {}", size_of::<$type>(), align_of::<$type>())];
        $(lines.push(format!(
            "{name}.{} {} {}",
            stringify!($field),
            offset_of!($type, $field),
            size_of_val(&value.$field),
        ));)*
        lines
    }};
}

/// And those for the names of some numbers.
macro_rules! numbers {
    ($group:ident: $($name:ident),*) => {{
        let group = stringify!($group).to_uppercase();
        vec![$(format!("PUDVIREZ_{group}_{} {}", stringify!($name), $group::$name)),*]
    }};
}

fn rust_side() -> Vec<String> {
    let parts = [
        vec![
            format!("PUDVIREZ_PLACES {PLACES}"),
            format!("PUDVIREZ_BLOCK {BLOCK}"),
            format!("PUDVIREZ_NAME {NAME}"),
            format!("PUDVIREZ_SAVES {SAVES}"),
        ],
        numbers!(told: OK, TIME, LIMIT, STORAGE, UNSOUND, FULL, CIRCUIT_OPEN, INNER_RETRY,
            COST_EXCEEDS_CAPACITY, DEADLINE_EXCEEDED, UNFINISHED, TURN, DAMAGED, VERSION, NAME),
        numbers!(state: CLOSED, HALF_OPEN, OPEN),
        numbers!(policy: CONSECUTIVE, RATIO, WINDOWED),
        numbers!(decision: ACQUIRED, RETRY, IMPOSSIBLE),
        numbers!(reservation: NONE, WAIT),
        numbers!(phase: ENDED, LOOKING, HOLDING),
        numbers!(reply: GRANTED, RETRY, NEVER),
        numbers!(act: ADMITTED, SLEEP, SLEEP_UNLESS_RESUMED, YIELD, LOOK_AGAIN),
        lines!(Config: kind, limit, ratio_bits, min_calls, period_ms, cooldown_ms, trials, required),
        lines!(Counts: inflight, trait_probes, successes),
        lines!(Shared: state, generation, run, counts, open_until, len),
        lines!(Breaker: config, shared),
        lines!(Ticket: generation, probe),
        lines!(Setting: kind, limit, ratio, min_calls, period_secs, period_nanos, cooldown_secs,
            cooldown_nanos, trials, required),
        lines!(Wait: phase, limited, deadline, seen, due, zeros),
        lines!(Pending: wait, ticket),
        lines!(Turn: clock, epoch_before, epoch_after, kind, duration, pause, postponed_before,
            postponed_after),
        lines!(Told: number, v1, v2, v3),
        lines!(Waited: number, v1, v2, v3, v4, taken),
        lines!(Preview: told, breaker, len),
    ];
    parts.concat()
}

fn include() -> PathBuf {
    match std::env::var_os("PUDVIREZ_INCLUDE") {
        Some(named) => PathBuf::from(named),
        None => Path::new(env!("CARGO_MANIFEST_DIR")).join("../../include"),
    }
}

fn c_side() -> Vec<String> {
    let program = Path::new(env!("OUT_DIR")).join("layout");
    let source = Path::new(env!("CARGO_MANIFEST_DIR")).join("tests/layout.c");
    let mut cc = Command::new("cc");
    cc.args(["-std=c11", "-Wall", "-Wextra", "-Werror", "-I"]);
    cc.arg(include()).arg(source).arg("-o").arg(&program);
    assert!(cc.status().expect("cc runs").success(), "layout.c compiles");
    let output = Command::new(program).output().expect("layout runs");
    assert!(output.status.success());
    let text = String::from_utf8(output.stdout).expect("plain text");
    text.lines().map(str::to_owned).collect()
}

/// The names that the header declares: numbers, structs, and their fields, each struct after its fields.
fn declared() -> Vec<String> {
    let header = std::fs::read_to_string(include().join("pudvirez.h")).expect("the header");
    let (mut names, mut fields) = (Vec::new(), Vec::new());
    for line in header.lines() {
        let code = line.split("/*").next().unwrap_or_default().trim();
        let code = code.strip_prefix("#define ").unwrap_or(code);
        if let (true, Some((name, _))) = (code.starts_with("PUDVIREZ_"), code.split_once(' ')) {
            names.push(name.to_owned());
        } else if let Some(name) = code.strip_prefix("} Pudvirez") {
            let whole = format!("Pudvirez{}", name.trim_end_matches(';'));
            names.extend(fields.drain(..).map(|field| format!("{whole}.{field}")));
            names.push(whole);
        } else if let (true, Some(code)) = (line.starts_with("    "), code.strip_suffix(';')) {
            fields.extend(code.split_once(' ').map(|(_, field)| field.to_owned()));
        }
    }
    names
}

#[test]
fn structs_and_numbers_are_as_in_c() {
    assert_eq!(rust_side(), c_side());
}

#[test]
fn nothing_of_the_header_is_left_out() {
    let mut compared: Vec<String> = rust_side()
        .iter()
        .map(|line| line.split(' ').next().unwrap_or_default().to_owned())
        .collect();
    let mut declared = declared();
    compared.sort();
    declared.sort();
    assert_eq!(compared, declared);
}
