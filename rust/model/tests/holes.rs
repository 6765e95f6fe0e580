//! Where takes lie, as document 02's fifth request has it, by hand: the model is compared with nothing else here.

use model::{report::SCRATCH, trace::trace, State, STORE};

/// What a report tells after a stored trace: pad, program and ticket of each taken grant, first sheet and count.
fn places(name: &str) -> Vec<[u16; 5]> {
    let path = format!("{}/../../crates/test_cases/data/{name}.in", env!("CARGO_MANIFEST_DIR"));
    let mut state = State::empty();
    trace(&mut state, &mut vec![0; STORE], &std::fs::read(path).expect("a stored trace"));
    let report = state.report(SCRATCH, usize::MAX).expect("tables in order");
    let numbers = |line: &str| -> Vec<u16> { line.split(' ').flat_map(str::parse).collect() };
    let lines = report.lines().map(numbers);
    lines.filter_map(|line| Some([*line.get(1)?, *line.get(2)?, *line.get(3)?, line[4], line[5]])).collect()
}

#[test]
fn three_sizes_of_hole() {
    let wanted = [
        [0, 0, 2, 10, 1],
        [0, 0, 4, 15, 1],
        [0, 0, 6, 20, 1],
        // Three sheets go into the lower one of two holes of four, the next four into the other.
        [0, 1, 1, 11, 3],
        [0, 1, 2, 16, 4],
        // One goes into the one sheet that is left of the first hole, not into the ten at the store's beginning.
        [0, 1, 3, 14, 1],
        // Eleven do not fit into the ten, the ten then do.
        [0, 1, 4, 21, 11],
        [0, 1, 5, 0, 10],
        [0, 2, 1, 32, 224],
    ];
    assert_eq!(places("take-three-sizes-of-hole"), wanted);
}

#[test]
fn an_afternoon() {
    let wanted = [
        [0, 0, 2, 0, 96],
        [0, 1, 2, 252, 4],
        [1, 0, 1, 96, 96],
        [2, 0, 1, 212, 24],
        [3, 0, 1, 236, 16],
        [3, 1, 1, 192, 6],
    ];
    assert_eq!(places("afternoon"), wanted);
}
