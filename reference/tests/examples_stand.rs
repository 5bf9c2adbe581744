//! The files in `examples/` are what the text table there makes.

use std::path::Path;

use reference::check::check_by_pairs;
use reference::examples::made_files;
use reference::line::Line;
use reference::room::has_room;
use reference::shape::different_periods;

fn folder() -> std::path::PathBuf {
    Path::new(env!("CARGO_MANIFEST_DIR")).join("../examples")
}

#[test]
fn every_file_is_made_from_the_text_table() {
    for (name, bytes) in made_files(&folder()).unwrap() {
        assert_eq!(
            std::fs::read(folder().join(&name)).unwrap(),
            bytes,
            "{name}"
        );
    }
}

#[test]
fn the_pasteuriser_is_planned_with_room_and_is_clean() {
    let page = std::fs::read_to_string(folder().join("pasteuriser.plan")).unwrap();
    assert!(page.starts_with("0 32 600\n"));
    assert!(!page.contains('-'));
    let planned = std::fs::read(folder().join("pasteuriser-planned.book")).unwrap();
    let line = Line::of_book(&planned).unwrap();
    assert_eq!(
        different_periods(&line.periods),
        [100, 200, 1_000, 5_000, 10_000, 60_000]
    );
    assert!(has_room(&line.periods, &line.lengths));
    assert!(check_by_pairs(&line.periods, &line.lengths, &line.starts).is_done());
    let check = std::fs::read(folder().join("pasteuriser-planned.check")).unwrap();
    assert_eq!(check, b"0 0 0 0\n");
}

#[test]
fn the_pasteuriser_is_clean_tick_by_tick() {
    let planned = std::fs::read(folder().join("pasteuriser-planned.book")).unwrap();
    let line = Line::of_book(&planned).unwrap();
    let answer = reference::check::check_by_ticks(&line.periods, &line.lengths, &line.starts);
    assert!(answer.is_done());
}
