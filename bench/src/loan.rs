//! What is lent to a run or a reduction.
use crate::geobucket::Memory;
use crate::lists::List;

pub struct Loan {
    pub memory: Memory,
    pub output: List,
}

impl Loan {
    /// Places that are not 0, so that the machine has really given them; so many of output.
    pub fn new(output: usize) -> Self {
        let mut loan = Loan {
            memory: Memory::new(),
            output: List::of(output),
        };
        let Memory { space, work, .. } = &mut loan.memory;
        for list in [space, work, &mut loan.output] {
            list.words.fill(1);
            list.coefs.fill(1);
        }
        loan
    }

    /// Both calls must have left the same output and spaces.
    pub fn compare(&self, other: &Loan) {
        assert!(self.output == other.output, "outputs differ");
        assert!(self.memory.space == other.memory.space, "buckets differ");
        assert!(self.memory.work == other.memory.work, "work differs");
    }
}
