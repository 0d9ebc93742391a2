//! Each edge of the limits ends as document 01 asks, by the twin.

use generator::edges;

#[test]
fn each_ends_in_its_line() {
    for edge in edges() {
        let report = String::from_utf8(twin::whole_report(&edge.log).1).expect("a report is text");
        assert_eq!(report.lines().last(), Some(edge.last_line.as_str()));
    }
}
