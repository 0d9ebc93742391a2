//! The engine gives the status, the length and the report of every hand-made vector.

use engine::Driver;

#[test]
fn every_vector_agrees() {
    let vectors = vectors::all();
    let mut driver = Driver::start();
    for vector in vectors {
        let replayed = driver.replay(&vector.log, vector.room);
        assert_eq!(replayed.answer >> 32, vector.status, "{}", vector.name);
        assert_eq!(String::from_utf8_lossy(&replayed.report), String::from_utf8_lossy(&vector.report), "{}", vector.name);
    }
}
