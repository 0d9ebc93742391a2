//! The twin gives the status, the length and the report of every hand-made vector.

const UNTOUCHED: u8 = 0xA5;

#[test]
fn every_vector_agrees() {
    let vectors = vectors::all();
    for vector in vectors {
        let mut report = vec![UNTOUCHED; vector.room];
        let answer = twin::replay(&vector.log, &mut report);
        assert_eq!((answer >> 32, answer as u32 as usize), (vector.status, vector.report.len()), "{}", vector.name);
        let (written, rest) = report.split_at(vector.report.len());
        assert_eq!(String::from_utf8_lossy(written), String::from_utf8_lossy(&vector.report), "{}", vector.name);
        assert!(rest.iter().all(|&byte| byte == UNTOUCHED), "{}", vector.name);
    }
}
