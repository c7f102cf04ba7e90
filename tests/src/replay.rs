//! A failing case as a text that `./test --case` takes, and back.
//!
//! A case is the call's name, then the fields that it has, with a space between: `List w=3 h=3 px=0*4,1,0*4 levels=0 work=9*7`.
//! A list has `value*count` for equal values. Lent memory is `count*value`, or `count~seed` for any content from a seed. A case
//! that was found in another way than by its own answer is replayed by its turn: `GROUP@SEED:TURN`.

use std::fmt::Display;
use std::fs;
use std::str::FromStr;

use second::Fault;

use crate::calls::{Call, ALL};
use crate::case::Case;
use crate::lent::{Fill, Room};

/// A longer text is put into a file: one word of a command line can hold 128 KB.
const LONGEST: usize = 100_000;

/// The folder of such files.
const FOLDER: &str = concat!(env!("CARGO_MANIFEST_DIR"), "/../target/failed");

/// The command that replays what a text says.
pub fn command(text: &str, fault: Option<Fault>) -> String {
    let fault = fault.map_or(String::new(), |fault| format!(" --fault {fault:?}"));
    if text.len() <= LONGEST {
        return format!("./test --case '{text}'{fault}");
    }
    let name = format!("{:016x}", text.bytes().fold(0u64, |sum, byte| sum.rotate_left(5) ^ byte as u64));
    let kept = fs::create_dir_all(FOLDER).and_then(|()| fs::write(format!("{FOLDER}/{name}"), text));
    match kept {
        Ok(()) => format!("./test --case @target/failed/{name}{fault}"),
        Err(error) => format!("(the case is too long for a command, and cannot be kept in {FOLDER}: {error})"),
    }
}

/// The text of a turn of a group.
pub fn turn_text(group: &str, seed: u64, turn: u64) -> String {
    format!("{group}@{seed:#x}:{turn}")
}

/// Group, seed and turn, if the text is of that form.
pub fn turn_of(text: &str) -> Option<(&str, u64, u64)> {
    let (group, rest) = text.split_once('@')?;
    let (seed, turn) = rest.split_once(':')?;
    Some((group, u64::from_str_radix(seed.strip_prefix("0x")?, 16).ok()?, turn.parse().ok()?))
}

/// The text of a case: what it holds beside nothing and zero.
pub fn text(case: &Case) -> String {
    let mut text = format!("{:?}", case.call);
    let mut add = |name: &str, value: String| {
        if !value.is_empty() && value != "0" {
            text += &format!(" {name}={value}");
        }
    };
    add("w", case.w.to_string());
    add("h", case.h.to_string());
    add("px", list(&case.px));
    add("levels", list(&case.levels));
    add("words", list(&case.words));
    add("input", list(&case.input));
    add("level", case.level.to_string());
    add("border", case.border.to_string());
    add("code", case.code.to_string());
    add("n", case.n.to_string());
    add("x", case.x.to_string());
    add("y", case.y.to_string());
    for (name, room) in [("work", case.work), ("places", case.places), ("entries", case.entries), ("room", case.room)] {
        add(name, room_text(room));
    }
    text
}

/// The case that a text says.
pub fn case_of(text: &str) -> Result<Case, String> {
    let mut words = text.split_whitespace();
    let call = words.next().unwrap_or_default();
    let mut case = Case { call: call_named(call)?, ..Case::default() };
    for word in words {
        let (name, value) = word.split_once('=').ok_or(format!("{word} is not of the form NAME=VALUE"))?;
        match name {
            "w" => case.w = number(value)?,
            "h" => case.h = number(value)?,
            "px" => case.px = list_of(value)?,
            "levels" => case.levels = list_of(value)?,
            "words" => case.words = list_of(value)?,
            "input" => case.input = list_of(value)?,
            "level" => case.level = number(value)?,
            "border" => case.border = number(value)?,
            "code" => case.code = number(value)?,
            "n" => case.n = number(value)?,
            "x" => case.x = number(value)?,
            "y" => case.y = number(value)?,
            "work" => case.work = room_of(value)?,
            "places" => case.places = room_of(value)?,
            "entries" => case.entries = room_of(value)?,
            "room" => case.room = room_of(value)?,
            other => return Err(format!("a case has no {other}")),
        }
    }
    Ok(case)
}

fn call_named(name: &str) -> Result<Call, String> {
    ALL.into_iter().find(|call| format!("{call:?}") == name).ok_or(format!("there is no call {name}"))
}

fn number<T: FromStr>(text: &str) -> Result<T, String> {
    text.parse().map_err(|_| format!("{text} is no number, or too large"))
}

/// A list, in which one value alone is written with its count, so that no list looks like the number 0.
fn list<T: Display + PartialEq>(list: &[T]) -> String {
    let run = |run: &[T]| match run.len() {
        1 if list.len() > 1 => run[0].to_string(),
        count => format!("{}*{count}", run[0]),
    };
    list.chunk_by(|a, b| a == b).map(run).collect::<Vec<_>>().join(",")
}

fn list_of<T: FromStr + Clone>(text: &str) -> Result<Vec<T>, String> {
    let mut list = Vec::new();
    for run in text.split(',') {
        let (value, count) = run.split_once('*').unwrap_or((run, "1"));
        list.extend(vec![number(value)?; number(count)?]);
    }
    Ok(list)
}

fn room_text(room: Room) -> String {
    match room.fill {
        _ if room.size == 0 => String::new(),
        Fill::Same(value) => format!("{}*{value}", room.size),
        Fill::Any(seed) => format!("{}~{seed}", room.size),
    }
}

fn room_of(text: &str) -> Result<Room, String> {
    if let Some((size, value)) = text.split_once('*') {
        return Ok(Room { size: number(size)?, fill: Fill::Same(number(value)?) });
    }
    let (size, seed) = text.split_once('~').ok_or(format!("{text} is not of the form COUNT*VALUE or COUNT~SEED"))?;
    Ok(Room { size: number(size)?, fill: Fill::Any(number(seed)?) })
}
