//! A crate whose tests pass, fail, take their time and are ignored: something to run.

/// The sum of two numbers, or none where it is too great.
pub fn sum(a: u8, b: u8) -> Option<u8> {
    a.checked_add(b)
}

#[cfg(test)]
mod tests {
    use super::sum;
    use std::{thread, time::Duration};

    #[test]
    fn adds() {
        assert_eq!(sum(1, 2), Some(3));
    }

    #[test]
    fn overflows() {
        assert_eq!(sum(200, 100), None);
    }

    #[test]
    fn is_wrong() {
        println!("200 + 55 is {:?}", sum(200, 55));
        assert_eq!(sum(200, 55), None, "255 fits a byte");
    }

    #[test]
    fn takes_a_second() {
        thread::sleep(Duration::from_secs(1));
    }

    #[test]
    #[ignore]
    fn is_ignored() {
        unreachable!();
    }
}
