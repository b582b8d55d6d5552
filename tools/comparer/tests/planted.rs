//! The comparer sees a difference of each kind: a parser that answers as the
//! judge does is compared, with one thing changed on purpose.

use comparer::compare::{Comparer, Parser};
use comparer::families::Family;
use comparer::judge::Judge;
use comparer::question::{Entry, Question, Row};
use comparer::rows::Sink;
use comparer::tally::Tally;

/// What is changed in an answer.
#[derive(Debug, Clone, Copy)]
enum Plant {
    Nothing,
    /// One of the six numbers of the reply.
    Reply(usize),
    /// The first or the last of the appended nodes.
    FirstKind,
    LastLoad,
    /// The slot before them and the one after them.
    KindBefore,
    LoadBefore,
    KindAfter,
    LoadAfter,
    /// The last slot.
    LastSlot,
}

struct Planted {
    judge: Judge,
    plant: Plant,
}

impl Parser for Planted {
    fn parse(
        &mut self,
        row: Row<'_>,
        question: &Question,
        node_kinds: &mut [u8],
        node_loads: &mut [u32],
    ) -> [u32; 6] {
        self.judge.set_row(row);
        let reply = self
            .judge
            .answer(question)
            .expect("the judge's parts agree");
        let base = question.base as usize;
        for (slot, &(kind, load)) in (base..).zip(self.judge.nodes()) {
            node_kinds[slot] = kind;
            node_loads[slot] = load;
        }
        let count = base + self.judge.nodes().len();
        let mut numbers = reply.numbers();
        match self.plant {
            Plant::Nothing => {}
            Plant::Reply(place) => numbers[place] ^= 1,
            Plant::FirstKind => change(node_kinds.get_mut(base)),
            Plant::LastLoad => change(node_loads[base..count].last_mut()),
            Plant::KindBefore => change(node_kinds[..base].last_mut()),
            Plant::LoadBefore => change(node_loads[..base].last_mut()),
            Plant::KindAfter => change(node_kinds.get_mut(count)),
            Plant::LoadAfter => change(node_loads.get_mut(count)),
            Plant::LastSlot => change(node_loads.last_mut()),
        }
        numbers
    }
}

/// Changes a slot, if there is one: smaller rows may lack it.
fn change<T: std::ops::BitXorAssign + From<u8>>(slot: Option<&mut T>) {
    if let Some(slot) = slot {
        *slot ^= T::from(1);
    }
}

fn comparer(plant: Plant) -> Comparer<Planted> {
    Comparer::new(Planted {
        judge: Judge::new(),
        plant,
    })
}

/// `f(1, a)` with a base and slots to spare, accepted and refused.
fn ask_twice(comparer: &mut Comparer<Planted>) {
    for end in [2, 4] {
        comparer.row(Row {
            kinds: &[53, 1, 55, 22, 53, end, 0],
            types: &[0; 7],
        });
        comparer.ask(Question {
            base: 3,
            ..Question::new(Entry::Expression, 50)
        });
    }
}

#[test]
fn each_planted_difference_is_seen() {
    let plants = [
        Plant::FirstKind,
        Plant::LastLoad,
        Plant::KindBefore,
        Plant::LoadBefore,
        Plant::KindAfter,
        Plant::LoadAfter,
        Plant::LastSlot,
    ];
    for plant in plants.into_iter().chain((0..6).map(Plant::Reply)) {
        let mut comparer = comparer(plant);
        ask_twice(&mut comparer);
        assert_eq!(comparer.tally.questions, 2, "{plant:?}");
        assert_eq!(comparer.tally.differences, 2, "{plant:?}");
        assert_eq!(comparer.findings.len(), 2, "{plant:?}");
    }
}

#[test]
fn nothing_is_seen_where_nothing_is_planted() {
    let mut comparer = comparer(Plant::Nothing);
    ask_twice(&mut comparer);
    assert_eq!(comparer.tally.differences, 0);
    assert_eq!(comparer.tally.accepted(), 1);
    assert_eq!(comparer.tally.by_number[15], 1);
}

#[test]
fn a_difference_is_told_with_the_smallest_row() {
    let mut comparer = comparer(Plant::Reply(0));
    ask_twice(&mut comparer);
    // No token is needed to see that the case is wrong.
    let text = &comparer.findings[0].0;
    assert!(text.contains("question 0 0 0 0 0 47 - - 50"), "{text}");
    assert!(text.contains("expected no 1 0 0 0 0 :"), "{text}");
}

/// The rows of a family, some of them, with nothing planted.
fn tally(family: Family, random_rows: u64, most_parts: usize) -> Tally {
    let mut comparer = comparer(Plant::Nothing);
    for part in family.parts(random_rows).iter().take(most_parts) {
        part.run(1, &mut comparer);
    }
    comparer.tally
}

#[test]
fn all_refusals_occur_and_the_judge_never_doubts() {
    oracle::with_large_stack(|| {
        let mut all = tally(Family::Limits, 0, usize::MAX);
        for family in [Family::Rules, Family::Damaged, Family::Deep, Family::Inputs] {
            all.add(&tally(family, 100_000, 1));
        }
        assert_eq!(all.differences, 0);
        for number in (0..=3).chain(10..=25).chain(30..=36) {
            assert!(all.by_number[number] > 0, "{number}");
        }
    });
}

#[test]
fn rows_by_the_rules_are_accepted() {
    let tally = tally(Family::Rules, 100_000, 1);
    // Each row is asked about once by its own entry from its own cursor; few
    // of them have too many ampersands or steps, or read on into what follows.
    assert!(tally.accepted() * 10 > tally.rows * 9, "{tally:?}");
}
