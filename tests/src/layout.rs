//! How the structs that cross to C are laid out, as Rust sees them: `checks/header` holds it to what C sees.

use std::mem::{align_of, offset_of, size_of};

use crate::loafcanyon::{Answer, CrossingAnswer, MemberAnswer, PartAnswer, PgmAnswer, PieceAnswer, ReadAnswer};

/// The size of what a function picks out of a struct.
fn size_in<S, F>(_pick: fn(&S) -> &F) -> usize {
    size_of::<F>()
}

macro_rules! print_layout {
    ($($name:ident: $($field:ident)+;)+) => {$(
        println!("{} size {} align {}", stringify!($name), size_of::<$name>(), align_of::<$name>());
        $(
            let (at, size) = (offset_of!($name, $field), size_in(|s: &$name| &s.$field));
            println!("{} {} at {at} size {size}", stringify!($name), stringify!($field));
        )+
    )+};
}

/// Prints a line for each struct and each field.
pub fn print() {
    print_layout! {
        Answer: number place words lines;
        CrossingAnswer: answer heading num den x y;
        PieceAnswer: answer kind xs ys delta;
        MemberAnswer: answer inside;
        PartAnswer: start count;
        ReadAnswer: answer width height border count levels;
        PgmAnswer: answer width height maximum;
    }
}
