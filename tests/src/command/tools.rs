//! What other programs make of the command's files: Netpbm of the pictures, a renderer of the drawings. Where one is missing,
//! that is said.

use std::process::{Command, Stdio};

use crate::desk::Desk;
use crate::pictures::{coarse_matte, Picture, COARSE};
use crate::rng::Rng;

pub fn all(desk: &mut Desk) {
    if !there("pamfile") {
        println!("skipped: pictures by Netpbm and by ImageMagick, and rendered drawings, since Netpbm is missing");
        return;
    }
    netpbm(desk);
    vendors(desk);
    let mut rendered = false;
    for renderer in [RSVG, CHROMIUM] {
        if there(renderer.program) {
            rendered = true;
            drawings(desk, &renderer);
        } else {
            println!("skipped: drawings rendered by {}, which is missing", renderer.program);
        }
    }
    if !rendered {
        println!("skipped: rendered drawings, since there is no renderer");
    }
}

fn there(program: &str) -> bool {
    Command::new(program).arg("--version").stdin(Stdio::null()).output().is_ok()
}

/// What a shell prints in the folder; nothing where it fails.
fn shell(desk: &Desk, line: &str) -> Vec<u8> {
    let output = Command::new("sh").current_dir(&desk.folder).args(["-c", line]).stderr(Stdio::null()).output();
    output.ok().filter(|output| output.status.success()).map(|output| output.stdout).unwrap_or_default()
}

/// A picture that Netpbm makes is taken, and Netpbm takes what is written.
fn netpbm(desk: &mut Desk) {
    shell(desk, "pgmramp -ellipse 160 120 > ramp.pgm");
    desk.holds("frame of Netpbm's picture", desk.run(&["frame", "ramp.pgm", "-o", "framed.pgm"]).done());
    let kind = String::from_utf8_lossy(&shell(desk, "pamfile framed.pgm")).into_owned();
    desk.holds(&format!("Netpbm says {kind}"), kind.contains("PGM raw, 160 by 120  maxval 255"));
    let inner = |name: &str| shell(desk, &format!("pamcut -left 1 -top 1 -width 158 -height 118 {name}"));
    let (seen, due) = (inner("framed.pgm"), inner("ramp.pgm"));
    desk.same("the inner samples, cut by Netpbm", &seen, &due);
    for level in [40, 128, 200] {
        let list = desk.run(&["list", "framed.pgm", "--levels", &level.to_string(), "-o", "m.olr"]);
        let paint = desk.run(&["paint", "m.olr", "-o", "m.out"]);
        desk.holds(&format!("painted at {level}"), list.done() && paint.done());
        // The samples as Netpbm prints them; high is above the level.
        let numbers = |name: &str| samples(&shell(desk, &format!("pamtopnm -plain {name}")));
        let (painted, matte) = (numbers("m.out"), numbers("framed.pgm"));
        let stepped: Vec<u16> = matte.iter().map(|&sample| (sample > level) as u16).collect();
        desk.holds(&format!("painted at {level}, read by Netpbm"), painted.len() == 160 * 120 && painted == stepped);
    }
}

/// Pictures that other programs make are read as Netpbm reads them: both forms, comments in odd places, CR LF, small greatest values.
fn vendors(desk: &mut Desk) {
    let magick = there("convert");
    if !magick {
        println!("skipped: pictures by ImageMagick, which is missing");
    }
    for maximum in [1, 15, 254, 255] {
        shell(
            desk,
            &format!("pamdepth {maximum} ramp.pgm > raw.pgm && pamdepth -plain {maximum} ramp.pgm > plain.pgm"),
        );
        shell(desk, r"{ printf 'P2#v\r\n# two words\r'; tail -n +2 plain.pgm | sed 's/$/\r/'; } > lines.pgm");
        let start = format!(r"printf 'P5 # a vendor\n160#wide\n# high\r 120\t{maximum} '");
        shell(desk, &format!("{{ {start}; tail -n +4 raw.pgm; }} > noted.pgm"));
        for name in ["raw.pgm", "plain.pgm", "lines.pgm", "noted.pgm"] {
            read_alike(desk, name, "raw.pgm", maximum);
        }
        if magick {
            for form in ["", "-compress none"] {
                shell(desk, &format!("convert raw.pgm -set comment 'a vendor' {form} m.pgm"));
                let said = String::from_utf8_lossy(&shell(desk, "pamfile m.pgm")).into_owned();
                let maximum = said.trim().rsplit(' ').next().and_then(|number| number.parse().ok()).unwrap_or(0);
                read_alike(desk, "m.pgm", "m.pgm", maximum);
            }
        }
    }
}

/// The command reads a picture as Netpbm reads the same in its own form, and keeps the greatest value.
fn read_alike(desk: &mut Desk, name: &str, same: &str, maximum: u32) {
    let what = format!("{name}, greatest value {maximum}");
    let seen = desk.run(&["frame", name, "-o", "framed.pgm"]);
    desk.holds(&format!("frame of {what}, which said {}", seen.err), seen.done());
    let kind = String::from_utf8_lossy(&shell(desk, "pamfile framed.pgm")).into_owned();
    desk.holds(&format!("{what}: {kind}"), kind.contains(&format!("PGM raw, 160 by 120  maxval {maximum}\n")));
    let inner = |name: &str| shell(desk, &format!("pamcut -left 1 -top 1 -width 158 -height 118 {name}"));
    let (seen, due) = (inner("framed.pgm"), inner(same));
    desk.holds(&format!("{what}, cut by Netpbm"), !due.is_empty());
    desk.same(&format!("{what}, the inner samples"), &seen, &due);
}

/// The samples of a plain PGM.
fn samples(plain: &[u8]) -> Vec<u16> {
    let text = String::from_utf8_lossy(plain);
    text.split_whitespace().skip(4).filter_map(|number| number.parse().ok()).collect()
}

/// A program that renders m.svg to m.png, so many pixels wide and high.
struct Renderer {
    program: &'static str,
    line: fn(usize, usize) -> String,
}

const RSVG: Renderer = Renderer {
    program: "rsvg-convert",
    line: |w, h| format!("rsvg-convert -w {w} -h {h} -b white one.svg -o one.png"),
};

const CHROMIUM: Renderer = Renderer {
    program: "chromium",
    line: |w, h| {
        let flags = "--headless --no-sandbox --disable-gpu --hide-scrollbars --force-device-scale-factor=1";
        format!("chromium {flags} --user-data-dir=\"$PWD/browser\" --screenshot=one.png --window-size={w},{h} one.html")
    },
};

/// Pixels a sample: odd, so that a sample is the centre of a pixel.
const ZOOM: usize = 9;

/// The lines of one level, filled as one path by odd and even, are black exactly where a sample is unlike the border.
fn drawings(desk: &mut Desk, renderer: &Renderer) {
    let mut rng = Rng::new(5, 1);
    for turn in 0..3 {
        let picture = coarse_matte(&mut rng, 24, 18);
        desk.put("m.pgm", &picture.pgm());
        for level in COARSE {
            desk.run(&["svg", "m.pgm", "--levels", &level.to_string(), "-o", "m.svg"]);
            let seen = filled(desk, renderer, &picture);
            let due: Vec<bool> = picture.px.iter().map(|&v| (v > level) != (picture.px[0] > level)).collect();
            let what = format!("picture {turn} at {level}, rendered by {}", renderer.program);
            desk.holds(&what, seen == due);
        }
    }
}

/// Which samples are black once the drawing is filled and rendered.
fn filled(desk: &Desk, renderer: &Renderer, picture: &Picture) -> Vec<bool> {
    let text = String::from_utf8_lossy(&desk.got("m.svg")).into_owned();
    let open = text.find("<g ").expect("the drawing has a group");
    let close = open + text[open..].find('>').expect("the group has an end");
    let joined = text[close + 1..].replace("Z\"/>\n<path d=\"", "Z");
    let one = format!("{}<g fill=\"#000\" fill-rule=\"evenodd\">{joined}", &text[..open]);
    let (w, h) = (picture.w * ZOOM, picture.h * ZOOM);
    desk.put("one.svg", one.as_bytes());
    let image = format!("<img src=\"one.svg\" style=\"display:block;width:{w}px;height:{h}px\">");
    desk.put("one.html", format!("<!DOCTYPE html><body style=\"margin:0\">{image}").as_bytes());
    desk.remove("one.png");
    shell(desk, &(renderer.line)(w, h));
    let pixels = samples(&shell(desk, "pngtopam one.png | ppmtopgm | pamtopnm -plain"));
    let at = |i: usize| {
        let (x, y) = (i % picture.w * ZOOM + ZOOM / 2, i / picture.w * ZOOM + ZOOM / 2);
        pixels.get(y * w + x).is_some_and(|&grey| grey < 128)
    };
    (0..picture.px.len()).map(at).collect()
}
