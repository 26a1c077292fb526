//! Compares all that a call answers and leaves with what the oracle answers and leaves.

use super::c::owed;
use super::{Answer, Case, Implementation, Operation, Tables};

/// A version of an operation with a fault; without one it is the product itself.
pub type Version<O> = Option<Implementation<O>>;

/// The most characters of a case that a failure tells.
const MOST_CHARACTERS: usize = 4_000;

/// The answer on which the product, its C function and the oracle agree. What the product leaves in
/// the tables is left in the case. Where they differ it fails, with the difference and the case.
#[track_caller]
pub fn agree<O: Operation>(case: &mut Case<O>) -> Answer<O::Values> {
    compare_version(case, None).unwrap_or_else(|failure| panic!("{failure}"))
}

/// Asserts that they agree on this answer.
#[track_caller]
pub fn assert_answer<O: Operation>(case: &Case<O>, answer: Answer<O::Values>) {
    assert_eq!(agree(&mut case.clone()), answer, "{}", told(case));
}

/// The answer of a version that answers and leaves what the oracle does, and what it left in the case;
/// or how they differ. The C function is compared beside the product.
pub fn compare_version<O: Operation>(
    case: &mut Case<O>,
    version: Version<O>,
) -> Result<Answer<O::Values>, String> {
    let expected = Expected::of(case);
    match version {
        Some(implementation) => expected.compare(case, implementation),
        None => {
            expected.compare_c(&mut case.clone())?;
            expected.compare(case, O::product)
        }
    }
}

/// The same of any implementation.
pub fn compare<O: Operation>(
    case: &mut Case<O>,
    implementation: impl Fn(&O::Input, &mut O::Tables) -> Answer<O::Values>,
) -> Result<Answer<O::Values>, String> {
    Expected::of(case).compare(case, implementation)
}

/// A case, and what the oracle answers and leaves.
struct Expected<O: Operation> {
    before: Case<O>,
    answer: Answer<O::Values>,
    tables: O::Tables,
}

impl<O: Operation> Expected<O> {
    fn of(case: &Case<O>) -> Self {
        let before = case.clone();
        let mut tables = before.tables.clone();
        Expected {
            answer: O::oracle(&before.input, &mut tables),
            before,
            tables,
        }
    }

    fn compare(
        &self,
        case: &mut Case<O>,
        implementation: impl Fn(&O::Input, &mut O::Tables) -> Answer<O::Values>,
    ) -> Result<Answer<O::Values>, String> {
        let answer = implementation(&case.input, &mut case.tables);
        if answer != self.answer {
            let expected = self.answer;
            return Err(self.failure(&format!("answer {answer:?}, not {expected:?}")));
        }
        self.compare_left(case, &format!("answer {answer:?}"))?;
        Ok(answer)
    }

    /// Compares the number, the words of output and the tables of the C function.
    fn compare_c(&self, case: &mut Case<O>) -> Result<(), String> {
        let output = case.call_c();
        let expected = owed::<O>(&self.before.input, self.answer);
        if output != expected {
            return Err(self.failure(&format!("C function {output:?}, not {expected:?}")));
        }
        self.compare_left(case, &format!("C function {output:?}"))
    }

    /// Compares what a call left.
    fn compare_left(&self, left: &Case<O>, met: &str) -> Result<(), String> {
        if left.input != self.before.input {
            return Err(self.failure(&format!("{met}, but its input changed")));
        }
        match left.tables.difference(&self.tables) {
            Some(difference) => Err(self.failure(&format!("{met}, but {difference}"))),
            None => Ok(()),
        }
    }

    /// A line with the difference, and one with the case.
    fn failure(&self, difference: &str) -> String {
        format!("{}: {difference}\n{}", O::NAME, told(&self.before))
    }
}

/// The case, as much of it as can be read.
fn told<O: Operation>(case: &Case<O>) -> String {
    let text = format!("{case:?}");
    match text.char_indices().nth(MOST_CHARACTERS) {
        Some((end, _)) => format!("{} and so on, {} bytes", &text[..end], text.len()),
        None => text,
    }
}

/// The refusal's number, or 0 for success.
pub fn number<V>(answer: &Answer<V>) -> u32 {
    match answer {
        Ok(_) => 0,
        Err((number, _)) => *number,
    }
}

#[cfg(test)]
mod tests {
    use super::*;
    use crate::harness::{lent_tables, Lent};
    use std::cell::Cell;

    lent_tables! { Table { table: Lent<u32> } }

    /// An operation that writes 5 into a table and gives 7.
    struct Fives;

    /// What is wrong with its product or its C function.
    #[derive(Clone, Copy, Debug, PartialEq)]
    enum Wrong {
        Nothing,
        Answer,
        Entry,
        EntryBeyond,
        Input,
        CNumber,
        CWord,
        CWordBeyond,
        CEntry,
        CEntryBeyond,
        CInput,
    }

    #[derive(Clone, Debug, PartialEq)]
    struct Input {
        wrong: Wrong,
        cell: Cell<u32>,
    }

    impl Operation for Fives {
        const NAME: &'static str = "fives";
        const REFUSALS: &'static [u32] = &[];
        type Input = Input;
        type Tables = Table;
        type Values = u64;

        fn lengths(_input: &Input) -> Vec<usize> {
            vec![1]
        }

        fn product(input: &Input, tables: &mut Table) -> Answer<u64> {
            tables.table.table()[0] = 5;
            match input.wrong {
                Wrong::Answer => return Ok(8),
                Wrong::Entry => tables.change(0, 0),
                Wrong::EntryBeyond => tables.change(0, 1),
                Wrong::Input => input.cell.set(1),
                _ => {}
            }
            Ok(7)
        }

        fn call_c(input: &Input, tables: &mut Table, out: &mut [u64; 4]) -> u32 {
            tables.table.table()[0] = 5;
            out[0] = 7;
            match input.wrong {
                Wrong::CNumber => return 9,
                Wrong::CWord => out[0] = 8,
                Wrong::CWordBeyond => out[3] = 0,
                Wrong::CEntry => tables.change(0, 0),
                Wrong::CEntryBeyond => tables.change(0, 1),
                Wrong::CInput => input.cell.set(1),
                _ => {}
            }
            0
        }

        fn oracle(_input: &Input, tables: &mut Table) -> Answer<u64> {
            tables.table.table()[0] = 5;
            Ok(7)
        }

        fn words(_input: &Input, values: u64) -> Vec<u64> {
            vec![values]
        }
    }

    /// What is told of a case, without the case.
    fn told_of(wrong: Wrong) -> Result<Answer<u64>, String> {
        let cell = Cell::new(0);
        let mut case = Case::<Fives>::lent(Input { wrong, cell }, [2]);
        let compared = compare_version(&mut case, None);
        compared.map_err(|failure| failure.lines().next().unwrap_or_default().to_owned())
    }

    #[test]
    fn whatever_differs_is_told() {
        assert_eq!(told_of(Wrong::Nothing), Ok(Ok(7)));
        for (wrong, words) in [
            (Wrong::Answer, "fives: answer Ok(8), not Ok(7)"),
            (Wrong::Entry, "fives: answer Ok(7), but table entry 0 of 2"),
            (Wrong::EntryBeyond, "answer Ok(7), but table entry 1 of 2"),
            (Wrong::Input, "fives: answer Ok(7), but its input changed"),
            (Wrong::CNumber, "fives: C function (9, [7, "),
            (Wrong::CWord, "fives: C function (0, [8, "),
            (Wrong::CWordBeyond, ", 0]), not (0, [7, "),
            (Wrong::CEntry, "]), but table entry 0 of 2"),
            (Wrong::CEntryBeyond, "]), but table entry 1 of 2"),
            (Wrong::CInput, "]), but its input changed"),
        ] {
            let told = told_of(wrong).unwrap_err();
            assert!(told.contains(words), "{wrong:?}: {told}");
        }
    }
}
