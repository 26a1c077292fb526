//! Shows that the random rounds notice faults: versions that do what the oracle does but for one.

use super::{compare, Answer, Case, Implementation, Operation, RandomInput, Rounds, Tables};

/// What a fault is, a version that has it, and words of the difference that must be told.
pub type Fault<O> = (&'static str, Implementation<O>, &'static str);

/// Asserts that so many rounds notice each of the faults.
#[track_caller]
pub fn assert_noticed<O: Operation>(rounds: u64, input: RandomInput<O>, faults: &[Fault<O>]) {
    for &(name, version, words) in faults {
        let compared = Rounds::fixed(1, rounds).compare::<O>(input, Some(version));
        assert_told(name, compared, words);
    }
}

/// Asserts that a failure names seed and round, a difference with these words, and the case.
#[track_caller]
pub fn assert_told<T>(name: &str, compared: Result<T, String>, words: &str) {
    let Err(failure) = compared else {
        panic!("{name}: not noticed");
    };
    let (difference, case) = failure.split_once('\n').expect("a line with the case");
    assert!(
        difference.starts_with("seed 1, round "),
        "{name}: {failure}"
    );
    assert!(difference.contains(words), "{name}: {failure}");
    assert!(!case.is_empty(), "{name}: no case");
}

/// Asserts that so many rounds notice the faults that every operation may have: for each refusal
/// another number, another place, and any table written; and for each table a write past what is asked
/// for, and more room asked for than is needed.
#[track_caller]
pub fn assert_common_faults_noticed<O: Operation>(rounds: u64, input: RandomInput<O>) {
    let noticed = |name: String, words: &str, change: &dyn Fn(&mut Call<O>)| {
        let compared = compare_changed(rounds, input, change);
        assert_told(&format!("{}, {name}", O::NAME), compared, words);
    };
    for &number in O::REFUSALS {
        let right = format!("not Err(({number}, ");
        noticed(format!("{number} told as another"), &right, &|call| {
            call.change_number(number);
        });
        noticed(format!("another place of {number}"), &right, &|call| {
            call.change_place(number);
        });
        for table in 0..O::Tables::COUNT {
            let name = format!("table {table} written after {number}");
            noticed(name, "entry", &|call| call.write_after(number, table));
        }
    }
    for table in 0..O::Tables::COUNT {
        let name = format!("table {table} written past what is asked for");
        noticed(name, "entry", &|call| call.write_beyond(table));
        let name = format!("more asked for of table {table}");
        let words = "answer Err((9, 0)), not Ok(";
        noticed(name, words, &|call| call.ask_for_more(table));
    }
}

/// Compares right calls after a change with the oracle's.
fn compare_changed<O: Operation>(
    rounds: u64,
    input: RandomInput<O>,
    change: &dyn Fn(&mut Call<O>),
) -> Result<(), String> {
    Rounds::fixed(1, rounds).each(|random| {
        let mut case = Case::<O>::random(input(random), random);
        let compared = compare(&mut case, |input, tables| {
            let mut call = Call::right(input, tables);
            change(&mut call);
            call.answer
        });
        compared.map(|_answer| ())
    })
}

/// A call that was made as the oracle makes it.
struct Call<'a, O: Operation> {
    input: &'a O::Input,
    before: O::Tables,
    answer: Answer<O::Values>,
    tables: &'a mut O::Tables,
}

impl<'a, O: Operation> Call<'a, O> {
    fn right(input: &'a O::Input, tables: &'a mut O::Tables) -> Self {
        Call {
            input,
            before: tables.clone(),
            answer: O::oracle(input, tables),
            tables,
        }
    }

    /// Another number for a refusal.
    fn change_number(&mut self, number: u32) {
        if let Err((met, _)) = &mut self.answer {
            *met += 100 * u32::from(*met == number);
        }
    }

    /// Another place of a refusal.
    fn change_place(&mut self, number: u32) {
        if let Err((met, place)) = &mut self.answer {
            *place += u64::from(*met == number);
        }
    }

    /// A write into the last entry of a table after a refusal.
    fn write_after(&mut self, number: u32, table: usize) {
        let length = self.tables.lengths()[table];
        if length > 0 && matches!(self.answer, Err((met, _)) if met == number) {
            self.tables.change(table, length - 1);
        }
    }

    /// A write past the entries asked for.
    fn write_beyond(&mut self, table: usize) {
        let asked_for = O::lengths(self.input)[table];
        if self.answer.is_ok() && self.tables.lengths()[table] > asked_for {
            self.tables.change(table, asked_for);
        }
    }

    /// A refusal of a table that is just long enough.
    fn ask_for_more(&mut self, table: usize) {
        let asked_for = O::lengths(self.input)[table];
        if self.answer.is_ok() && asked_for > 0 && self.tables.lengths()[table] == asked_for {
            *self.tables = self.before.clone();
            self.answer = Err((9, 0));
        }
    }
}
