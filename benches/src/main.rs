//! Times the proved library beside an unproved listing and plain loops, and says which bars are met.

mod bars;
mod border;
mod comparison;
mod desk;
mod errand;
#[allow(dead_code)]
#[path = "../../crates/host/loafcanyon.rs"]
mod library;
mod matte;
mod measure;
mod pictures;
mod plain;
mod random;
mod relief;
mod report;
mod timing;

use std::process::ExitCode;

use timing::Pace;

const WHOLE: Pace = Pace { seconds: 3.0, at_least: 7 };
const QUICK: Pace = Pace { seconds: 0.4, at_least: 2 };

fn main() -> ExitCode {
    let pace = match std::env::args().nth(1).as_deref() {
        None => WHOLE,
        Some("--quick") => QUICK,
        Some(other) => {
            eprintln!("bench: '{other}' is not known; --quick is, for fewer repeats");
            return ExitCode::from(2);
        }
    };
    let terrain = pictures::terrain();
    let matte = pictures::matte();
    let errand = errand::errand(&matte, 8, pace);
    let mut seen = measure::whole(&matte, &[1, 8, 32, 255], pace);
    seen.extend(measure::whole(&terrain, &[1, 8, 32, 255], pace));
    // All levels of noise are 179 million words, more than is worth the memory.
    seen.extend(measure::whole(&pictures::noise(), &[1, 8, 32], pace));
    seen.extend(measure::whole(&pictures::flat(), &[1, 8, 32, 255], pace));
    let framed = measure::framing(&terrain, pace);
    let refused = border::refusal(pictures::flat(), pace);
    let read = measure::reading(&matte, pace);
    let grown = measure::growth(&terrain, &[256, 512, 1024, 2048], 8, pace);
    report::lists(&seen);
    report::paints(&seen);
    report::files(&seen);
    report::trees(&seen);
    report::flat(&seen);
    report::framing(&framed);
    report::refusal(&refused);
    report::reading(&read);
    report::growth(&grown);
    report::errand(&errand);
    let mut bars = bars::all(&seen, &framed, &read);
    bars.push(refused.bar());
    bars.push(errand.bar());
    report::bars(&bars);
    ExitCode::from(!bars.iter().all(bars::Bar::met) as u8)
}
