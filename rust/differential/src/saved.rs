//! Tables as text: the library's `dock_save` and `dock_load` against the model's, from the same tables and the same texts.

use crate::{bytes, damaged_texts::damaged, differ, resized, Sides};
use dock::{raw, SAVED_ROOM};
use image::{random::Rng, View, LENGTH};
use model::{saved::load, Refusal, State};
use std::collections::BTreeMap;

/// Damaged texts for each that was saved.
const DAMAGED: usize = 12;

/// How many ..
#[derive(Default)]
pub struct Saved {
    /// .. tables were saved with each result,
    saves: BTreeMap<u16, usize>,
    /// .. texts were loaded with each result,
    loads: BTreeMap<u16, usize>,
    /// .. of these loaded, though they were damaged,
    changed: usize,
    /// .. docks were swapped while requests went on.
    swaps: usize,
}

impl Saved {
    /// Both sides save these tables, into outputs of several lengths, and load the text, as it is and damaged; the dock itself stays as
    /// it is.
    pub fn compare(&mut self, rng: &mut Rng, sides: &Sides) -> Result<(), String> {
        let wanted = |output| match &sides.state {
            Some(state) => state.save(output),
            None => Err(Refusal::NotInOrder),
        };
        let whole = wanted(SAVED_ROOM);
        let length = whole.as_ref().map_or(100, String::len);
        let tables = resized(rng, &sides.tables);
        let outputs = [rng.below(length), length - 1, length, length + rng.below(100), SAVED_ROOM];
        self.save(rng, &tables, length, Err(Refusal::Length))?;
        for output in outputs {
            self.save(rng, &sides.tables, output, wanted(output))?;
        }
        let Ok(text) = whole else { return Ok(()) };
        self.load_short(rng, text.as_bytes())?;
        self.load(rng, text.as_bytes())?;
        for _ in 0..DAMAGED {
            let other = damaged(rng, &text);
            let loaded = self.load(rng, &other)?.is_some();
            self.changed += usize::from(loaded && other != text.as_bytes());
        }
        Ok(())
    }

    /// The dock whose tables are those of this one, saved and loaded on both sides, with its store; nothing where they are not in order.
    pub fn swapped(&mut self, rng: &mut Rng, sides: &Sides) -> Result<Option<Sides>, String> {
        let Some(state) = sides.state.as_ref().filter(|state| state.in_order()) else { return Ok(None) };
        let text = self.save(rng, &sides.tables, SAVED_ROOM, state.save(SAVED_ROOM))?;
        let (tables, loaded) = self.load(rng, &text)?.ok_or("swap: what was saved does not load")?;
        if let Some(difference) = View::of(&loaded).difference(&View::of(state)) {
            return Err(format!("swap: tables loaded and saved: {difference}"));
        }
        self.swaps += 1;
        let (store, kept) = (sides.store.clone(), sides.kept.clone());
        Ok(Some(Sides { tables, store, state: Some(loaded), kept }))
    }

    /// One call, with any bytes in an output of this length, which stays as it was behind the text. The text comes back.
    fn save(
        &mut self,
        rng: &mut Rng,
        tables: &[u8],
        output: usize,
        wanted: Result<String, Refusal>,
    ) -> Result<Vec<u8>, String> {
        let (number, text) = wanted.map_or_else(|refusal| (refusal as u16, String::new()), |text| (0, text));
        let (mut output, mut length, old) = (bytes(rng, output), usize::MAX, tables.to_vec());
        let mut left = output.clone();
        left[..text.len()].copy_from_slice(text.as_bytes());
        let result = raw::save(tables, &mut output, &mut length);
        differ("save: result", &[result], &[number])?;
        differ("save: length", &[length], &[text.len()])?;
        differ("save: output, byte", &output, &left)?;
        differ("save: tables, byte", tables, &old)?;
        *self.saves.entry(result).or_default() += 1;
        output.truncate(length);
        Ok(output)
    }

    /// Both sides load a text, the library over any bytes. The tables come back, image and model's, where it loads: then saving gives the
    /// text back. Else the image is zeros.
    fn load(&mut self, rng: &mut Rng, text: &[u8]) -> Result<Option<(Vec<u8>, State)>, String> {
        let (mut tables, loaded) = (bytes(rng, LENGTH), load(text));
        let number = loaded.as_ref().map_or_else(|refusal| *refusal as u16, |_| 0);
        let shown = |what: String| format!("{what}\n{}", String::from_utf8_lossy(text));
        let result = raw::load(&mut tables, text);
        differ("load: result", &[result], &[number]).map_err(shown)?;
        *self.loads.entry(result).or_default() += 1;
        let Ok(state) = loaded else {
            differ("load: tables after a refusal, byte", &tables, &[0; LENGTH]).map_err(shown)?;
            return Ok(None);
        };
        // Tickets and entries fill the places in the order of their lines; all else is zeros.
        differ("load: tables, byte", &tables, &image::encode(&state)).map_err(shown)?;
        let again = self.save(rng, &tables, SAVED_ROOM, state.save(SAVED_ROOM))?;
        differ("load: saved again, byte", &again, text).map_err(shown)?;
        Ok(Some((tables, state)))
    }

    /// Tables of another length: 13, and nothing changes.
    fn load_short(&mut self, rng: &mut Rng, text: &[u8]) -> Result<(), String> {
        let any = bytes(rng, LENGTH);
        let mut tables = resized(rng, &any);
        let (old, text) = (tables.clone(), &text[..rng.below(2) * text.len()]);
        differ("load: result with other tables", &[raw::load(&mut tables, text)], &[13])?;
        *self.loads.entry(13).or_default() += 1;
        differ("load: other tables, byte", &tables, &old)
    }

    /// What was counted, in words.
    pub fn rows(&self) -> Vec<(String, usize)> {
        let mut rows = counted("tables saved", &self.saves, &[0, 13, 14, 17]);
        rows.extend(counted("texts loaded", &self.loads, &[0, 13, 14, 18]));
        rows.push(("  loaded, damaged".to_string(), self.changed));
        rows.push(("docks swapped".to_string(), self.swaps));
        rows
    }

    /// Texts, saved or loaded.
    pub fn compared(&self) -> usize {
        self.saves.values().chain(self.loads.values()).sum()
    }
}

/// A row for all, and one for each of these results.
fn counted(what: &str, counts: &BTreeMap<u16, usize>, results: &[u16]) -> Vec<(String, usize)> {
    let mut rows = vec![(what.to_string(), counts.values().sum())];
    rows.extend(results.iter().map(|result| {
        let words = if *result == 0 { "  accepted".to_string() } else { format!("  refused {result}") };
        (words, counts.get(result).copied().unwrap_or(0))
    }));
    rows
}
