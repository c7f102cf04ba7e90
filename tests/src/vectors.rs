//! Group: the worked cases, held against the subject and against the second program.

use second::{Answer, Grey, Read, Second};

use crate::calls::{Call, Part};
use crate::case::{Case, Outcome, Said};
use crate::json::Json;
use crate::lent::{Fill, Lent, Place, Room};
use crate::replay;
use crate::run::Run;

const FILES: [&str; 14] = [
    include_str!("../vectors/border.json"),
    include_str!("../vectors/crossing.json"),
    include_str!("../vectors/file.json"),
    include_str!("../vectors/frame.json"),
    include_str!("../vectors/line_part.json"),
    include_str!("../vectors/list.json"),
    include_str!("../vectors/listing.json"),
    include_str!("../vectors/membership.json"),
    include_str!("../vectors/paint.json"),
    include_str!("../vectors/pgm.json"),
    include_str!("../vectors/piece.json"),
    include_str!("../vectors/tree.json"),
    include_str!("../vectors/R-02.json"),
    include_str!("../vectors/R-05.json"),
];

/// Worked cases of change requests; those that need a request still to come are passed over.
const REQUESTS: [&str; 1] = [include_str!("../vectors/R-14.json")];

pub fn group(run: &mut Run) {
    let mut later = 0;
    for file in FILES.into_iter().chain(REQUESTS) {
        let file = Json::parse(file);
        for vector in file.find("cases").unwrap_or(&file).list() {
            if not_yet(vector) {
                later += 1;
                continue;
            }
            let case = case_of(vector);
            let again = replay::case_of(&replay::text(&case)).ok().as_ref() == Some(&case);
            run.direct(&case, (!again).then(|| "the text of the case says another case".to_string()));
            let expected = expected_of(vector, &case);
            let about = vector.get("about").text();
            let truth = case.run(&Second::TRUE);
            run.count(1);
            if truth != expected {
                run.direct(&case, Some(format!("the second program leaves the vector \"{about}\": {expected}")));
            }
            if let Some(outcome) = run.check(&case) {
                let wrong = (outcome != expected).then(|| format!("the vector \"{about}\" says {expected}"));
                run.direct(&case, wrong);
            }
        }
    }
    run.notes.push(format!("{later} cases left out, of OLR2 and of the converter, which are not there yet"));
}

/// Is the case about a request that has not landed? OLR2 comes with R-10, the converter with R-11.
fn not_yet(vector: &Json) -> bool {
    vector.get("call").text() == "convert" || vector.get("about").text().starts_with("OLR2")
}

fn call_of(vector: &Json) -> Call {
    match vector.get("call").text() {
        "list" => Call::List,
        "tree" => Call::Tree,
        "frame" => Call::Frame,
        "crossing" => Call::Crossing,
        "piece" => Call::Piece,
        "line_part" => Call::LinePart,
        "membership" => Call::Member,
        "paint" => Call::Paint,
        "write" => Call::Write,
        "read" => Call::Read,
        "read PGM" => Call::Pgm,
        "listing program" => Call::Listing,
        other => panic!("no call {other}"),
    }
}

fn case_of(vector: &Json) -> Case {
    let call = call_of(vector);
    if call == Call::Listing {
        return Case { call, input: counted_hex(vector.get("stdin_hex").text()), ..Case::default() };
    }
    let input = vector.get("input");
    let number = |name: &str| input.find(name).map_or(0, Json::number);
    let list = |name: &str| input.find(name).map_or(vec![], Json::words);
    let bytes = |name: &str| list(name).into_iter().map(|byte| byte as u8).collect();
    Case {
        call,
        w: number("w") as usize,
        h: number("h") as usize,
        px: bytes("u"),
        levels: bytes("levels"),
        words: list("words"),
        input: match call {
            Call::Read => file_of(input),
            Call::Pgm => hex(input.get("data").get("hex").text()),
            _ => vec![],
        },
        level: number("k") as u8,
        border: number("v") as u8,
        code: number("code") as u32,
        n: number("n") as usize,
        x: number("x") as usize,
        y: number("y") as usize,
        work: room_of(vector, &["work"]),
        places: room_of(vector, &["out"]),
        entries: room_of(vector, &["tree"]),
        room: room_of(vector, &["room", "file"]),
    }
}

/// Lent memory: a list of one value, or a value and how often it stands there.
fn room_of(vector: &Json, names: &[&str]) -> Room {
    let Some(lent) = names.iter().find_map(|name| vector.get("lent").find(name)) else {
        return Room::default();
    };
    let (value, size) = match lent.find("repeat") {
        Some(value) => (value.number(), lent.get("times").number() as usize),
        None => {
            let list = lent.numbers();
            assert!(list.windows(2).all(|pair| pair[0] == pair[1]), "lent memory of one value");
            (list.first().copied().unwrap_or(0), list.len())
        }
    };
    Room { size, fill: Fill::Same(value as u32) }
}

/// What the vector says of answer and memory.
fn expected_of(vector: &Json, case: &Case) -> Outcome {
    let said = match case.call {
        Call::Listing => Said::Listing(vector.get("stdout").text().as_bytes().to_vec()),
        _ => said_of(vector.get("answer"), case.call),
    };
    let work: Vec<u8> = after_of(vector, &["work"], case.work);
    let places: Vec<u32> = after_of(vector, &["out"], case.places);
    let entries: Vec<u32> = after_of(vector, &["tree"], case.entries);
    let room: Vec<u8> = after_of(vector, &["room", "file"], case.room);
    let unchanged = work == Lent::new(case.work).after()
        && places == Lent::new(case.places).after()
        && entries == Lent::new(case.entries).after()
        && room == Lent::new(case.room).after();
    Outcome { said, work, places, entries, room, guards_whole: true, unchanged }
}

/// Memory after the call: the same, a list, one value so many times, or bytes in hex.
fn after_of<T: Place>(vector: &Json, names: &[&str], room: Room) -> Vec<T> {
    let after = vector.find("after").and_then(|after| names.iter().find_map(|name| after.find(name)));
    match after {
        None => Lent::new(room).after(),
        Some(Json::Text(same)) => {
            assert!(same == "same");
            Lent::new(room).after()
        }
        Some(Json::List(list)) => list.iter().map(|value| T::of(value.number())).collect(),
        Some(after) => match after.find("repeat") {
            Some(value) => vec![T::of(value.number()); after.get("times").number() as usize],
            None => hex(after.get("hex").text()).into_iter().map(|byte| T::of(byte as u64)).collect(),
        },
    }
}

fn said_of(json: &Json, call: Call) -> Said {
    let number = |name: &str| json.get(name).number();
    let bits = |float: &Json| u64::from_str_radix(float.get("bits").text(), 16).expect("bits of a float");
    let answer = Answer {
        number: number("number") as u32,
        place: number("place"),
        words: number("words"),
        lines: number("lines"),
    };
    match call {
        Call::Crossing => Said::Crossing {
            answer,
            heading: number("heading") as u32,
            num: number("num") as u32,
            den: number("den") as u32,
            x: bits(json.get("x")),
            y: bits(json.get("y")),
        },
        Call::Piece => {
            let piece = json.get("piece");
            let names = ["refused", "straight", "corner", "branch"];
            let kind =
                names.into_iter().position(|name| name == piece.get("case").text()).expect("a case of the piece");
            let mut floats = [0; 3];
            let held = piece.get("floats").list();
            floats.iter_mut().zip(held).for_each(|(place, float)| *place = bits(float));
            assert!(held.len() == [0, 0, 2, 3][kind]);
            Said::Piece { answer, kind: kind as u32, floats }
        }
        Call::LinePart => {
            assert!((answer.number == 11) == json.get("part").list().is_empty());
            let (start, end) = (number("start") as usize, number("end") as usize);
            Said::Part(Part { start, count: end - start })
        }
        Call::Member => Said::Member(answer, number("inside") == 1),
        Call::Read => Said::Read(Box::new(read_of(json, answer))),
        Call::Pgm => {
            let (w, h, maximum) = (number("w") as u32, number("h") as u32, number("maximum") as u32);
            Said::Pgm(Grey { answer, w, h, maximum })
        }
        _ => Said::Plain(answer),
    }
}

fn read_of(json: &Json, answer: Answer) -> Read {
    let number = |name: &str| json.get(name).number();
    let first = json.get("levels").get("first").bytes();
    let mut levels = [0; 255];
    levels[..first.len()].copy_from_slice(&first);
    let (w, h) = (number("w") as u32, number("h") as u32);
    let (border, count) = (number("border") as u32, number("level_count") as u32);
    Read { answer, w, h, border, count, levels }
}

/// A file as whole hex, or block by block without the zeros before each check.
fn file_of(input: &Json) -> Vec<u8> {
    if let Some(data) = input.find("data") {
        return blocks_of(data.get("blocks"));
    }
    let file = match input.get("data_hex_without_trailing_zeros_of_each_block") {
        Json::Text(whole) => hex(whole),
        blocks => blocks_of(blocks),
    };
    assert!(file.len() as u64 == input.get("length").number());
    file
}

fn blocks_of(blocks: &Json) -> Vec<u8> {
    let block = |text: &str| {
        let (payload, check) = text.split_once(" check ").expect("payload and check");
        let mut bytes = hex(payload);
        bytes.resize(508, 0);
        bytes.extend(hex(check));
        bytes
    };
    blocks.list().iter().flat_map(|text| block(text.text())).collect()
}

/// Hex, at times with a number of zero bytes to follow.
fn counted_hex(text: &str) -> Vec<u8> {
    let Some((start, zeros)) = text.split_once(" then ") else {
        return hex(text);
    };
    let count: usize =
        zeros.strip_suffix(" zero bytes").and_then(|count| count.parse().ok()).expect("a count of zeros");
    let mut bytes = hex(start);
    bytes.resize(bytes.len() + count, 0);
    bytes
}

fn hex(text: &str) -> Vec<u8> {
    let pair = |at| u8::from_str_radix(&text[at..at + 2], 16).expect("two hex digits");
    (0..text.len()).step_by(2).map(pair).collect()
}
