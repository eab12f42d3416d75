//! The best message by two ways, and cases in which several messages have the fewest disagreements.

use second::best::{best, best_of_all};
use second::random::Random;

#[test]
fn trying_all_and_going_back_agree() {
    let mut random = Random::new(1);
    for _ in 0..300 {
        let length = random.below(11);
        let pairs: Vec<u8> = (0..length).map(|_| random.below(9) as u8).collect();
        let register = random.below(64) as u8;
        assert_eq!(best(&pairs, register), best_of_all(&pairs, register));
    }
}

#[test]
fn equals_have_0_first() {
    // nothing received: all messages are equal
    assert_eq!(best_of_all(&[8; 10], 63), vec![0; 10]);
    // from register 0 the bit 0 sends 00 and the bit 1 sends 11: one wrong bit each way
    assert_eq!(best_of_all(&[1], 0), vec![0]);
    assert_eq!(best_of_all(&[3], 0), vec![0]);
    assert_eq!(best_of_all(&[4], 0), vec![1]);
    // "message 1000000 from zero, 1/2: 11 10 11 11 00 01 11"
    assert_eq!(
        best_of_all(&[4, 3, 4, 4, 0, 1, 4], 0),
        vec![1, 0, 0, 0, 0, 0, 0]
    );
}
