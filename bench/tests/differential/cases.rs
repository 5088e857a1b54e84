//! The services as cases: the same call for the proved side, with canaries, and for the second opinion. The joined call
//! stands in joined.rs.

use crate::guarded::{bytes_of, Guarded};
use crate::outcome::{take, Case, Lent, Outcome, Service};
use nevolisca_bench::answer::Answer;
use nevolisca_bench::node::{self, Parts, PartsMut};
use nevolisca_bench::second::{self, Read, State, StateMut, Version, Write};

/// An outcome to which the lists are still to be added.
pub fn outcome(answer: Answer) -> Outcome {
    Outcome {
        answer,
        lent: Vec::new(),
        guards_stand: true,
    }
}

/// The whole of a guarded list as an array of a fixed length.
fn array<T: crate::guarded::Entry, const N: usize>(list: &Guarded<T>) -> &[T; N] {
    list.lent().try_into().expect("the array's length")
}

fn array_mut<T: crate::guarded::Entry, const N: usize>(list: &mut Guarded<T>) -> &mut [T; N] {
    list.lent_mut().try_into().expect("the array's length")
}

/// A transaction's seven lists, each with its own canaries.
struct GuardedTransaction {
    head: Guarded<u32>,
    read_keys: Guarded<u16>,
    read_places: Guarded<u16>,
    read_blocks: Guarded<u32>,
    write_keys: Guarded<u16>,
    write_kinds: Guarded<u16>,
    write_values: Guarded<i64>,
}

impl GuardedTransaction {
    fn around(transaction: &node::Transaction) -> Self {
        GuardedTransaction {
            head: Guarded::around(&transaction.head),
            read_keys: Guarded::around(&transaction.read_keys),
            read_places: Guarded::around(&transaction.read_places),
            read_blocks: Guarded::around(&transaction.read_blocks),
            write_keys: Guarded::around(&transaction.write_keys),
            write_kinds: Guarded::around(&transaction.write_kinds),
            write_values: Guarded::around(&transaction.write_values),
        }
    }

    fn parts(&self) -> Parts<'_> {
        Parts {
            head: array(&self.head),
            read_keys: array(&self.read_keys),
            read_places: array(&self.read_places),
            read_blocks: array(&self.read_blocks),
            write_keys: array(&self.write_keys),
            write_kinds: array(&self.write_kinds),
            write_values: array(&self.write_values),
        }
    }

    fn parts_mut(&mut self) -> PartsMut<'_> {
        PartsMut {
            head: array_mut(&mut self.head),
            read_keys: array_mut(&mut self.read_keys),
            read_places: array_mut(&mut self.read_places),
            read_blocks: array_mut(&mut self.read_blocks),
            write_keys: array_mut(&mut self.write_keys),
            write_kinds: array_mut(&mut self.write_kinds),
            write_values: array_mut(&mut self.write_values),
        }
    }

    fn take_into(&self, outcome: &mut Outcome) {
        take(outcome, "head", &self.head);
        take(outcome, "read keys", &self.read_keys);
        take(outcome, "read places", &self.read_places);
        take(outcome, "read blocks", &self.read_blocks);
        take(outcome, "write keys", &self.write_keys);
        take(outcome, "write kinds", &self.write_kinds);
        take(outcome, "write values", &self.write_values);
    }
}

fn transaction_lists(transaction: &node::Transaction) -> Lent {
    vec![
        ("head", bytes_of(&transaction.head)),
        ("read keys", bytes_of(&transaction.read_keys)),
        ("read places", bytes_of(&transaction.read_places)),
        ("read blocks", bytes_of(&transaction.read_blocks)),
        ("write keys", bytes_of(&transaction.write_keys)),
        ("write kinds", bytes_of(&transaction.write_kinds)),
        ("write values", bytes_of(&transaction.write_values)),
    ]
}

/// The second opinion's transaction from the lent arrays.
fn to_second(from: &node::Transaction) -> second::Transaction {
    let [read_count, write_count, ticket] = from.head;
    second::Transaction {
        read_count,
        write_count,
        ticket,
        reads: std::array::from_fn(|i| Read {
            key: from.read_keys[i],
            version: Version {
                block: from.read_blocks[i],
                place: from.read_places[i],
            },
        }),
        writes: std::array::from_fn(|i| Write {
            key: from.write_keys[i],
            kind: from.write_kinds[i],
            value: from.write_values[i],
        }),
    }
}

/// Reading a page into a transaction that holds anything before.
#[derive(Clone, Debug)]
pub struct ReadPage {
    pub page: Vec<u8>,
    pub into: node::Transaction,
}

impl Case for ReadPage {
    const SERVICE: Service = Service::ReadPage;

    fn lent(&self) -> Lent {
        let mut lists = transaction_lists(&self.into);
        lists.push(("page", self.page.clone()));
        lists
    }

    fn by_node(&self) -> Outcome {
        let page = Guarded::around(&self.page);
        let mut into = GuardedTransaction::around(&self.into);
        let mut outcome = outcome(node::read_page(page.lent(), into.parts_mut()));
        into.take_into(&mut outcome);
        take(&mut outcome, "page", &page);
        outcome
    }

    fn by_second(&self) -> Outcome {
        let (answer, filled) = match second::read_page(&self.page) {
            Ok(transaction) => (Ok(0), node::Transaction::from(&transaction)),
            Err(refusal) => (Err(refusal), self.into.clone()),
        };
        let mut outcome = outcome(answer);
        outcome.lent = transaction_lists(&filled);
        outcome.lent.push(("page", self.page.clone()));
        outcome
    }
}

/// Writing a transaction at an index of a batch.
#[derive(Clone, Debug)]
pub struct WritePage {
    pub batch: Vec<u8>,
    pub index: usize,
    pub from: node::Transaction,
}

impl Case for WritePage {
    const SERVICE: Service = Service::WritePage;

    fn lent(&self) -> Lent {
        let mut lists = transaction_lists(&self.from);
        lists.push(("batch", self.batch.clone()));
        lists
    }

    fn by_node(&self) -> Outcome {
        let mut batch = Guarded::around(&self.batch);
        let from = GuardedTransaction::around(&self.from);
        let answer = node::write_page(batch.lent_mut(), self.index, from.parts());
        let mut outcome = outcome(answer);
        from.take_into(&mut outcome);
        take(&mut outcome, "batch", &batch);
        outcome
    }

    fn by_second(&self) -> Outcome {
        let mut batch = self.batch.clone();
        let written = second::write_page(&mut batch, self.index, &to_second(&self.from));
        let mut outcome = outcome(written.map(|()| 0));
        outcome.lent = transaction_lists(&self.from);
        outcome.lent.push(("batch", batch));
        outcome
    }
}

/// The lists of a state, of any lengths, and the number n.
#[derive(Clone, Debug)]
pub struct Lists {
    pub blocks: Vec<u32>,
    pub places: Vec<u16>,
    pub values: Vec<i64>,
    pub n: u32,
}

impl Lists {
    /// Keys never written, under n.
    pub fn absent(keys: usize, n: u32) -> Self {
        Lists {
            blocks: vec![Version::ABSENT.block; keys],
            places: vec![Version::ABSENT.place; keys],
            values: vec![0; keys],
            n,
        }
    }

    pub fn view(&self) -> State<'_> {
        State {
            blocks: &self.blocks,
            places: &self.places,
            values: &self.values,
        }
    }

    pub fn view_mut(&mut self) -> StateMut<'_> {
        StateMut {
            blocks: &mut self.blocks,
            places: &mut self.places,
            values: &mut self.values,
        }
    }

    pub fn bytes(&self) -> Lent {
        vec![
            ("blocks", bytes_of(&self.blocks)),
            ("places", bytes_of(&self.places)),
            ("values", bytes_of(&self.values)),
        ]
    }
}

/// The three lists of a state, each with its own canaries.
pub struct GuardedState {
    pub blocks: Guarded<u32>,
    pub places: Guarded<u16>,
    pub values: Guarded<i64>,
}

impl GuardedState {
    pub fn around(state: &Lists) -> Self {
        GuardedState {
            blocks: Guarded::around(&state.blocks),
            places: Guarded::around(&state.places),
            values: Guarded::around(&state.values),
        }
    }

    pub fn take_into(&self, outcome: &mut Outcome) {
        take(outcome, "blocks", &self.blocks);
        take(outcome, "places", &self.places);
        take(outcome, "values", &self.values);
    }
}

/// Planning a batch over a state.
#[derive(Clone, Debug)]
pub struct Plan {
    pub batch: Vec<u8>,
    pub state: Lists,
    pub verdicts: Vec<u8>,
    pub order: Vec<u8>,
    pub out: Vec<u8>,
}

impl Case for Plan {
    const SERVICE: Service = Service::Plan;

    fn lent(&self) -> Lent {
        let mut lists = self.state.bytes();
        lists.push(("batch", self.batch.clone()));
        lists.push(("verdicts", self.verdicts.clone()));
        lists.push(("order", self.order.clone()));
        lists.push(("out", self.out.clone()));
        lists
    }

    fn by_node(&self) -> Outcome {
        let batch = Guarded::around(&self.batch);
        let state = GuardedState::around(&self.state);
        let mut verdicts = Guarded::around(&self.verdicts);
        let mut order = Guarded::around(&self.order);
        let mut out = Guarded::around(&self.out);
        let mut outcome = outcome(node::plan(
            batch.lent(),
            state.blocks.lent(),
            state.places.lent(),
            state.values.lent(),
            self.state.n,
            verdicts.lent_mut(),
            order.lent_mut(),
            out.lent_mut(),
        ));
        state.take_into(&mut outcome);
        take(&mut outcome, "batch", &batch);
        take(&mut outcome, "verdicts", &verdicts);
        take(&mut outcome, "order", &order);
        take(&mut outcome, "out", &out);
        outcome
    }

    fn on_state(&self) -> Option<(&[u8], &Lists)> {
        Some((&self.batch, &self.state))
    }

    fn by_second(&self) -> Outcome {
        let mut after = self.clone();
        let mut outcome = outcome(second::plan(
            &self.batch,
            self.state.view(),
            self.state.n,
            &mut after.verdicts,
            &mut after.order,
            &mut after.out,
        ));
        outcome.lent = after.lent();
        outcome
    }
}

/// Committing a batch to a state.
#[derive(Clone, Debug)]
pub struct Commit {
    pub batch: Vec<u8>,
    pub state: Lists,
    pub verdicts: Vec<u8>,
}

impl Case for Commit {
    const SERVICE: Service = Service::Commit;

    fn lent(&self) -> Lent {
        let mut lists = self.state.bytes();
        lists.push(("batch", self.batch.clone()));
        lists.push(("verdicts", self.verdicts.clone()));
        lists
    }

    fn by_node(&self) -> Outcome {
        let batch = Guarded::around(&self.batch);
        let mut state = GuardedState::around(&self.state);
        let mut verdicts = Guarded::around(&self.verdicts);
        let mut outcome = outcome(node::commit(
            batch.lent(),
            state.blocks.lent_mut(),
            state.places.lent_mut(),
            state.values.lent_mut(),
            self.state.n,
            verdicts.lent_mut(),
        ));
        state.take_into(&mut outcome);
        take(&mut outcome, "batch", &batch);
        take(&mut outcome, "verdicts", &verdicts);
        outcome
    }

    fn on_state(&self) -> Option<(&[u8], &Lists)> {
        Some((&self.batch, &self.state))
    }

    fn by_second(&self) -> Outcome {
        let mut after = self.clone();
        let (state, verdicts) = (after.state.view_mut(), &mut after.verdicts);
        let mut outcome = outcome(second::commit(&self.batch, state, self.state.n, verdicts));
        outcome.lent = after.lent();
        outcome
    }
}

/// Reading a tonnage text over a figure that holds anything before.
#[derive(Clone, Debug)]
pub struct ReadTonnage {
    pub text: Vec<u8>,
    pub kilograms: i64,
}

impl Case for ReadTonnage {
    const SERVICE: Service = Service::ReadTonnage;

    fn lent(&self) -> Lent {
        let figure = bytes_of(&[self.kilograms]);
        vec![("text", self.text.clone()), ("kilograms", figure)]
    }

    fn by_node(&self) -> Outcome {
        let text = Guarded::around(&self.text);
        let mut kilograms = Guarded::around(&[self.kilograms]);
        let answer = node::read_tonnage(text.lent(), &mut kilograms.lent_mut()[0]);
        let mut outcome = outcome(answer);
        take(&mut outcome, "text", &text);
        take(&mut outcome, "kilograms", &kilograms);
        outcome
    }

    fn by_second(&self) -> Outcome {
        let read = second::read_tonnage(&self.text);
        let mut outcome = outcome(read.map(|_| 0));
        outcome.lent = ReadTonnage {
            text: self.text.clone(),
            kilograms: read.unwrap_or(self.kilograms),
        }
        .lent();
        outcome
    }
}

/// Writing kilograms to a text buffer that holds anything before.
#[derive(Clone, Debug)]
pub struct WriteTonnage {
    pub buffer: Vec<u8>,
    pub kilograms: i64,
}

impl Case for WriteTonnage {
    const SERVICE: Service = Service::WriteTonnage;

    fn lent(&self) -> Lent {
        vec![("buffer", self.buffer.clone())]
    }

    fn by_node(&self) -> Outcome {
        let mut buffer = Guarded::around(&self.buffer);
        let answer = node::write_tonnage(buffer.lent_mut(), self.kilograms);
        let mut outcome = outcome(answer);
        take(&mut outcome, "buffer", &buffer);
        outcome
    }

    fn by_second(&self) -> Outcome {
        let mut buffer = self.buffer.clone();
        let mut outcome = outcome(second::write_tonnage(&mut buffer, self.kilograms));
        outcome.lent = vec![("buffer", buffer)];
        outcome
    }
}
