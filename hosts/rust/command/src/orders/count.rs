//! How many orders there are.

use super::fixed::{Places, MOST_STEPS};
use crate::words::grouped;

const MOST_ORDERS: u64 = 5_000_000;

/// The number of orders, where they are not too many to run.
pub fn counted(places: &Places) -> Result<u64, String> {
    let (steps, lengths) = (places.steps(), places.lengths());
    if steps > MOST_STEPS {
        return Err(format!("the scripts have {steps} steps together; at most {MOST_STEPS} can be run in every order"));
    }
    orders_of(lengths).ok_or_else(|| {
        let lengths: Vec<String> = lengths.iter().map(usize::to_string).collect();
        format!("scripts of {} steps have more than {} orders: shorten one", lengths.join(" and "), grouped(MOST_ORDERS))
    })
}

/// The interleavings of chains of these lengths, none where they are more than the most.
fn orders_of(lengths: &[usize]) -> Option<u64> {
    let (mut orders, mut steps) = (1_u64, 0);
    for &length in lengths {
        for place in 1..=length as u64 {
            steps += 1;
            orders = orders.checked_mul(steps)? / place;
        }
    }
    (orders <= MOST_ORDERS).then_some(orders)
}

#[cfg(test)]
mod tests {
    use super::*;

    #[test]
    fn orders_are_counted_and_too_many_are_none() {
        assert_eq!(orders_of(&[5, 6]), Some(462));
        assert_eq!(orders_of(&[5, 5, 6]), Some(2_018_016));
        assert_eq!(orders_of(&[1, MOST_ORDERS as usize - 1]), Some(MOST_ORDERS));
        assert_eq!(orders_of(&[1, MOST_ORDERS as usize]), None);
        assert_eq!(orders_of(&[40, 40]), None);
        assert_eq!(orders_of(&[21, 21, 22]), None);
    }
}
