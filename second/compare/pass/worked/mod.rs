//! The plans that document 01 works by hand. What the document says of them stands here in its words,
//! as constants: the second program must say the same, and then the unit is asked.

mod countings;
mod files;
mod networks;
mod says;

use std::fmt::Debug;

use crate::run::Run;

pub fn all(run: &mut Run) {
    networks::all(run);
    countings::all(run);
    files::all(run);
}

/// Ends the program if the second program and the document differ.
fn must_agree<T: PartialEq + Debug>(name: &str, second: T, document: T) {
    if second != document {
        println!("DIFFERENCE in {name}: document 01 says {document:?},\nthe second program {second:?}");
        std::process::exit(1);
    }
}
