//! Document 02's fifth request, through the library: a take uses the smallest free run that is long enough, the lowest
//! one among equals, from its lowest sheet.

use dock::{rights, Dock, Refusal, Request, SHEET};

/// A program that takes a part of the store: by number, so that each part has its own.
fn holder(part: usize) -> (u16, u16) {
    (part as u16 / 8, part as u16 % 8)
}

/// A store in which all sheets but these holes, each of them its first sheet and how many, are taken.
fn with_holes(holes: &[(u16, u16)]) -> Dock {
    let (mut dock, mut sheet, mut at, mut part) = (Dock::new(), [0; SHEET], 0, 0);
    let mut take = |dock: &mut Dock, count| {
        let (pad, program) = holder(part);
        part += 1;
        if count > 0 {
            assert!(dock.ask(&Request::take(pad, program, count, rights::ALL), &mut sheet).accepted());
        }
    };
    for &(first, count) in holes {
        take(&mut dock, first - at);
        take(&mut dock, count);
        at = first + count;
    }
    take(&mut dock, 256 - at);
    for hole in 0..holes.len() {
        let (pad, program) = holder(2 * hole + 1);
        assert!(dock.ask(&Request::give_back(pad, program, 1), &mut [0; SHEET]).accepted());
    }
    dock
}

/// The sheets that the dock lets the last program use, after its take of so many.
fn taken(dock: &mut Dock, count: u16) -> Result<Vec<u16>, Refusal> {
    let answer = dock.ask(&Request::take(3, 7, count, rights::READ), &mut [0; SHEET]);
    match answer.refusal() {
        Some(refusal) => Err(refusal),
        None => Ok((0..256)
            .filter(|&sheet| dock.check((3, 7, answer.ticket), sheet, rights::READ).is_ok())
            .collect()),
    }
}

/// A take of so many sheets where these holes are: the first sheet that it gets, with all behind it.
fn first_taken(holes: &[(u16, u16)], count: u16) -> Option<u16> {
    match taken(&mut with_holes(holes), count) {
        Ok(sheets) => {
            let first = sheets[0];
            assert!(sheets.into_iter().eq(first..first + count));
            Some(first)
        }
        Err(refusal) => {
            assert_eq!(refusal, Refusal::NoRun);
            None
        }
    }
}

#[test]
fn an_exact_fit_below_and_above_a_larger_hole() {
    assert_eq!(first_taken(&[(10, 5), (100, 20)], 5), Some(10));
    assert_eq!(first_taken(&[(10, 20), (100, 5)], 5), Some(100));
}

#[test]
fn the_lowest_of_equal_holes() {
    assert_eq!(first_taken(&[(10, 5), (100, 5), (200, 5)], 5), Some(10));
    assert_eq!(first_taken(&[(10, 9), (100, 5), (200, 5)], 4), Some(100));
}

#[test]
fn holes_at_the_stores_first_sheet_and_at_its_last() {
    assert_eq!(first_taken(&[(0, 3), (50, 9)], 3), Some(0));
    assert_eq!(first_taken(&[(0, 3), (255, 1)], 1), Some(255));
    assert_eq!(first_taken(&[(0, 3), (255, 1)], 2), Some(0));
}

#[test]
fn a_hole_one_too_short_beside_one_too_long() {
    assert_eq!(first_taken(&[(10, 4), (20, 6), (40, 30)], 5), Some(20));
    assert_eq!(first_taken(&[(10, 30), (50, 6), (60, 4)], 5), Some(50));
}

#[test]
fn holes_side_by_side_are_one() {
    assert_eq!(first_taken(&[(10, 4), (14, 4), (50, 7)], 4), Some(50));
    assert_eq!(first_taken(&[(10, 4), (14, 4), (50, 7)], 8), Some(10));
}

#[test]
fn everything_free_and_nothing_free() {
    assert_eq!(first_taken(&[(0, 256)], 256), Some(0));
    assert_eq!(first_taken(&[(0, 255)], 256), None);
    assert_eq!(first_taken(&[], 1), None);
    assert_eq!(first_taken(&[(10, 4), (20, 6)], 7), None);
}

/// What was lent to another pad stands in the dock by its own entry, inside the taken one, and makes no hole.
#[test]
fn a_loan_makes_no_hole() {
    let mut dock = with_holes(&[(100, 10), (150, 30)]);
    let lent = Request::pass(0, 0, 1, (3, 0), (40, 10), rights::READ);
    assert!(dock.ask(&lent, &mut [0; SHEET]).accepted());
    assert!(taken(&mut dock, 8).is_ok_and(|sheets| sheets.into_iter().eq(100..108)));
    assert!(taken(&mut dock, 30).is_ok_and(|sheets| sheets.into_iter().eq(150..180)));
    assert!(taken(&mut dock, 2).is_ok_and(|sheets| sheets.into_iter().eq(108..110)));
    assert_eq!(taken(&mut dock, 1), Err(Refusal::NoRun));
}
