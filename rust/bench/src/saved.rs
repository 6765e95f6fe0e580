//! Times saving, with an output that every text fits into, which saves the measuring pass, and with one as long as the text, and loading.

use crate::reports::repeat;
use crate::row;
use dock::{raw, SAVED_ROOM, TABLES};
use model::{saved::load, State};

/// The figures of some tables, with what they are; false where the texts or the tables differ.
pub fn show(what: &str, state: &State) -> bool {
    let (image, mut length) = (image::encode(state), 0);
    let (mut output, mut loaded) = ([0; SAVED_ROOM], [0; TABLES]);
    raw::save(&image, &mut output, &mut length);
    let wanted = state.save(SAVED_ROOM).unwrap_or_default();
    let text = wanted.as_bytes();
    raw::load(&mut loaded, text);
    let agree = output[..length] == *text && load(text).is_ok_and(|state| image::encode(&state) == loaded);
    let mut save = |room| repeat(&mut output, |output| raw::save(&image, &mut output[..room], &mut 0) == 0);
    let (roomy, tight) = (save(SAVED_ROOM), save(text.len()));
    let model = repeat(&mut (), |()| state.save(SAVED_ROOM).is_ok());
    row(&format!("saved, {what}: {} lines", wanted.lines().count()), roomy, model);
    row("  into an output as long as it is", tight, model);
    let library = repeat(&mut loaded, |loaded| raw::load(loaded, text) == 0);
    row("  loaded", library, repeat(&mut (), |()| load(text).is_ok()));
    if !agree {
        println!("  the texts or the tables differ");
    }
    agree
}
