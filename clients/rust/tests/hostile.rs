//! A million calls that nobody should send, at desks and at what is none: nothing is written outside what is lent, what is
//! refused is refused as the list says and changes nothing, and what is answered is what the model answers.

mod common;

use common::asking::any_call;
use common::estate::{Estate, NOT_LENT, Reply, bytes_for, read, words_for};
use common::garbage::{any_estate, any_limit, anything, flipped};
use common::judging::{expect, hold_answered, hold_refused};
use common::lent::Lent;
use common::random::Random;
use common::work;
use vullades::raw;

const JOBS: usize = 1_000;
const CALLS_OF_A_JOB: usize = 1_000;

/// For how many creditors desks are at most: in most jobs, and in one of forty.
const FEW: usize = 48;
const MANY: usize = 1024;

#[test]
fn a_million_calls() {
    let counts = work::shared(JOBS, |job| Caller::new(job).go_through());
    let all = counts.into_iter().fold(Count::default(), Count::and);
    assert_eq!(
        all.answered + all.refused.iter().sum::<usize>(),
        JOBS * CALLS_OF_A_JOB
    );
    assert!(all.answered > 200_000, "{all:?}");
    assert!(all.refused.iter().all(|&times| times > 10_000), "{all:?}");
    assert!(all.guarded > 200_000, "{all:?}");
}

/// How calls were answered, and how many had a guard close to each of the three that were lent.
#[derive(Clone, Copy, Debug, Default)]
struct Count {
    answered: usize,
    refused: [usize; 5],
    guarded: usize,
}

impl Count {
    fn and(self, other: Count) -> Count {
        Count {
            answered: self.answered + other.answered,
            refused: [0, 1, 2, 3, 4].map(|why| self.refused[why] + other.refused[why]),
            guarded: self.guarded + other.guarded,
        }
    }

    fn add(&mut self, answered: i64, guarded: bool) {
        match answered {
            0.. => self.answered += 1,
            _ => self.refused[(answered.unsigned_abs() >> 32) as usize - 1] += 1,
        }
        self.guarded += usize::from(guarded);
    }
}

/// Who makes the calls of a job.
struct Caller {
    random: Random,
    most: usize,
    lent: Lent,
    count: Count,
    left: usize,
}

impl Caller {
    fn new(job: usize) -> Caller {
        let mut random = Random::new(job as u64);
        let most = if job.is_multiple_of(40) { MANY } else { FEW };
        let lent = Lent::new(most, &mut random);
        Caller {
            random,
            most,
            lent,
            count: Count::default(),
            left: CALLS_OF_A_JOB,
        }
    }

    fn go_through(mut self) -> Count {
        while self.left > 0 {
            match self.random.up_to(3) {
                0 => self.at_an_opened_desk(),
                1 => self.at_a_desk(),
                2 => self.at_a_flipped_desk(),
                _ => self.at_anything(),
            }
        }
        self.count
    }

    /// Calls at a desk that is opened in noise.
    fn at_an_opened_desk(&mut self) {
        let limit = self.random.size(self.most);
        let more = self.random.size(4);
        self.lent
            .memory
            .lend(8 * (words_for(limit) + more), &mut self.random);
        assert_eq!(self.lent.open(limit), words_for(limit) as i64);
        self.at_a_real_desk(Estate::new(limit));
    }

    /// Calls at a desk as it stands after other calls.
    fn at_a_desk(&mut self) {
        let estate = any_estate(&mut self.random, self.most);
        self.lent
            .memory
            .lend_words(&estate.words(), &mut self.random);
        self.at_a_real_desk(estate);
    }

    /// Calls at a desk, and holds each of its words to the model.
    fn at_a_real_desk(&mut self, mut estate: Estate) {
        let own = words_for(estate.limit);
        for _ in 0..self.calls_in_a_row(60) {
            estate = self.once(Some(estate), true).expect("a desk stays one");
            assert_eq!(
                self.lent.memory.words()[..own],
                estate.words(),
                "the words of {estate:?}"
            );
        }
    }

    /// Calls at a desk with other words in it.
    fn at_a_flipped_desk(&mut self) {
        let words = flipped(&mut self.random, self.most);
        self.lend_with_more(words);
        self.at_other_memory();
    }

    /// Lends these words of memory, and other ones behind them.
    fn lend_with_more(&mut self, mut words: Vec<u64>) {
        let more = self.random.one_of(&[0, 0, 1, 4]);
        words.extend((0..more).map(|_| self.random.word()));
        self.lent.memory.lend_words(&words, &mut self.random);
    }

    /// Calls at memory that holds anything.
    fn at_anything(&mut self) {
        let words = anything(&mut self.random, self.most);
        self.lent.memory.lend_words(&words, &mut self.random);
        self.at_other_memory();
    }

    /// Calls at memory that may be no desk's, and holds what it tells to the model of what it told before.
    fn at_other_memory(&mut self) {
        for _ in 0..self.calls_in_a_row(12) {
            let told = Estate::told(&self.lent.memory.words());
            let after = self.once(told, false);
            assert_eq!(
                Estate::told(&self.lent.memory.words()),
                after,
                "what memory tells"
            );
        }
    }

    fn calls_in_a_row(&mut self, most: usize) -> usize {
        let calls = self.random.between(1, most as u64) as usize;
        let calls = calls.min(self.left);
        self.left -= calls;
        calls
    }

    /// Makes a call, holds its answer to what is expected, and gives the estate that memory is to tell afterwards.
    fn once(&mut self, told: Option<Estate>, real: bool) -> Option<Estate> {
        let (words, enough) = self.lend(told.as_ref());
        let asked = read(self.lent.call.bytes());
        let expected = expect(asked, told.clone().filter(|_| enough), real);
        let answered = self.lent.send(words, self.random.one_in(2));
        self.count.add(answered, self.lent.is_guarded());
        assert!(self.lent.call.is_kept_but(0), "the call was written");
        if answered < 0 {
            hold_refused(&self.lent, answered, &expected);
            return told;
        }
        let estate = expected
            .after
            .as_ref()
            .expect("nothing is answered where no desk can be");
        hold_answered(&self.lent, answered as usize, expected.reply, estate, real);
        expected.after
    }

    /// Lends a call, bytes for an answer and so many words, and says whether these are enough for a desk.
    fn lend(&mut self, told: Option<&Estate>) -> (usize, bool) {
        let random = &mut self.random;
        let none = Estate::new(0);
        let estate = told.unwrap_or(&none);
        self.lent.call.lend_bytes(&any_call(random, estate), random);
        let asked = bytes_for(estate.limit);
        let fewer = random.size(asked - 1);
        let more = asked + random.size(9);
        let bytes = random.one_of(&[
            asked,
            asked,
            asked,
            asked,
            asked,
            more,
            more,
            asked - 1,
            fewer,
        ]);
        self.lent.answer.lend(bytes, random);
        let all = self.lent.memory.len() / 8;
        let words = if random.one_in(16) {
            random.size(all)
        } else {
            all
        };
        let enough = words >= words_for(estate.limit) && bytes >= asked;
        (words, enough)
    }
}

/// Desks that are opened in noise, for any number of creditors and in any number of words.
#[test]
fn a_hundred_thousand_desks() {
    let opened = work::shared(100, |job| {
        let mut random = Random::new(job as u64);
        let mut lent = Lent::new(MANY, &mut random);
        (0..1000)
            .filter(|_| is_opened(&mut random, &mut lent))
            .count()
    });
    let opened: usize = opened.into_iter().sum();
    assert!((20_000..80_000).contains(&opened), "{opened} are opened");
}

/// Opens a desk, or is refused, and holds the answer and all memory to the list.
fn is_opened(random: &mut Random, lent: &mut Lent) -> bool {
    let limit = any_limit(random, MANY) as usize;
    let fits = limit <= MANY;
    let exact = if fits {
        words_for(limit)
    } else {
        words_for(MANY)
    };
    let fewer = random.size(exact - 1);
    let more = exact + random.size(9);
    let words = random.one_of(&[exact, exact, more, exact - 1, fewer, 0]);
    lent.memory.lend(8 * words, random);
    let opens = fits && words >= exact;
    let refusal = if fits { NOT_LENT } else { Reply::Refused(3, 0) };
    let refused = refusal.refusal().expect("a refusal has a number");
    let asked = |most| if fits { most } else { refused };
    assert_eq!(raw::words(limit), asked(exact as i64), "{limit}");
    assert_eq!(
        raw::bytes(limit),
        asked(bytes_for(limit.min(MANY)) as i64),
        "{limit}"
    );
    assert_eq!(
        lent.open(limit),
        if opens { exact as i64 } else { refused },
        "{limit} in {words}"
    );
    if opens {
        assert_eq!(
            lent.memory.words()[..exact],
            Estate::new(limit).words(),
            "{limit}"
        );
    }
    opens
}
