//! What both readers must answer to a file.

use independent::Fault;

fn answers(file: &[u8], expected: Result<(), (u32, u64)>) {
    let expected = expected.map_err(|(number, place)| Fault { number, place });
    let proved = synthdef::check(file).map_err(|refused| Fault {
        number: refused.number,
        place: refused.place,
    });
    assert_eq!(proved, expected, "the proved reader on {file:?}");
    assert_eq!(
        independent::check(file),
        expected,
        "the independent reader on {file:?}"
    );
}

pub fn refused(file: &[u8], number: u32, place: u64) {
    answers(file, Err((number, place)));
}

pub fn accepted(file: &[u8]) {
    answers(file, Ok(()));
}
