//! A bill: what each till's share of the storage costs.

use crate::Fields;

/// Most tills that a store can have, and so the places of a bill.
pub const MOST_TILLS: usize = 16;

/// The highest price of a cell, in tenths of a cent.
pub const HIGHEST_PRICE: u32 = 10_000;

/// A bill as bare numbers: the refusal, and each till's sum.
pub const BILL_NUMBERS: usize = 1 + MOST_TILLS;

/// What a bill answers. The dearest one, of 32,768 cells at 10,000, is a number of 32 bits.
#[derive(Clone, Copy, Debug, Default, PartialEq, Eq)]
pub struct Bill {
    /// The sum of each till, in tenths of a cent; 0 past the store's tills.
    pub sums: [u32; MOST_TILLS],
}

impl Bill {
    /// All sums together.
    pub fn total(&self) -> u32 {
        self.sums.iter().sum()
    }
}

impl Fields<BILL_NUMBERS> for Bill {
    fn fields(self) -> [u32; BILL_NUMBERS] {
        let mut numbers = [0; BILL_NUMBERS];
        numbers[1..].copy_from_slice(&self.sums);
        numbers
    }

    fn of_fields([_, sums @ ..]: [u32; BILL_NUMBERS]) -> Bill {
        Bill { sums }
    }
}

#[cfg(test)]
mod tests {
    use super::{Bill, BILL_NUMBERS};
    use crate::{numbers, Refusal};

    #[test]
    fn answers_as_numbers() {
        let mut bill = Bill::default();
        (bill.sums[0], bill.sums[15]) = (3, 4);
        let answer = numbers(Ok(bill));
        assert_eq!((answer[..2].to_vec(), answer[16], bill.total()), (vec![0, 3], 4, 7));
        let refused: Result<Bill, Refusal> = Err(Refusal::HighPrice);
        assert_eq!((numbers(refused)[0], numbers(refused)[1..].iter().sum::<u32>()), (30, 0));
        assert_eq!(answer.len(), BILL_NUMBERS);
    }
}
