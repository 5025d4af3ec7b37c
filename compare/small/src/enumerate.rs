//! All lists of a given length over given numbers.

/// Counts through lists of `length` numbers below `bound`, the last place fastest.
pub struct Lists {
    bound: usize,
    next: Option<Vec<usize>>,
}

pub fn lists(bound: usize, length: usize) -> Lists {
    Lists {
        bound,
        next: Some(vec![0; length]),
    }
}

impl Iterator for Lists {
    type Item = Vec<usize>;

    fn next(&mut self) -> Option<Vec<usize>> {
        let list = self.next.take()?;
        let mut following = list.clone();
        for place in (0..following.len()).rev() {
            following[place] += 1;
            if following[place] < self.bound {
                self.next = Some(following);
                break;
            }
            following[place] = 0;
        }
        Some(list)
    }
}
