//! What is expected of a call, and that what it did is that.

use super::estate::{Asked, Estate, NOT_LENT, NOT_THERE, Reply, words_for};
use super::lent::Lent;
use super::rule::{divided, hold_shares};

/// How a call is to be answered, or how else it may be refused, and what memory tells of an estate once it is answered.
pub struct Expected {
    pub reply: Reply,
    pub otherwise: Option<Reply>,
    pub after: Option<Estate>,
}

/// Expects what a desk answers that tells this estate, if one can be where so much is lent.
pub fn expect(asked: Result<Asked, Reply>, told: Option<Estate>, real: bool) -> Expected {
    let mut after = told;
    let reply = match (asked, after.as_mut()) {
        (Err(refused), _) => refused,
        (Ok(_), None) => NOT_LENT,
        (Ok(asked), Some(estate)) => estate.reply(asked),
    };
    let otherwise = match asked {
        Ok(Asked::Prove(..)) if !real && reply != NOT_LENT => Some(NOT_THERE),
        Ok(Asked::Cents) if !real => Some(NOT_LENT),
        _ => None,
    };
    Expected {
        reply,
        otherwise,
        after,
    }
}

/// Holds a refusal to the list: it is the one that is expected, and nothing is changed.
pub fn hold_refused(lent: &Lent, answered: i64, expected: &Expected) {
    let call = lent.call.bytes();
    let replies = [Some(expected.reply), expected.otherwise];
    let numbers = replies.map(|reply| reply.and_then(Reply::refusal));
    assert!(
        numbers.contains(&Some(answered)),
        "{call:?}: {answered:x}, not {replies:?}"
    );
    assert!(
        lent.memory.is_kept_but(0),
        "{call:?} is refused, and memory was written"
    );
    assert!(
        lent.answer.is_kept_but(0),
        "{call:?} is refused, and an answer was written"
    );
}

/// Holds an answer to the one that is expected; on a real desk what shares and cents add up to as well.
pub fn hold_answered(lent: &Lent, length: usize, reply: Reply, estate: &Estate, real: bool) {
    let call = lent.call.bytes();
    let written = if let Reply::Number(_) = reply {
        words_for(estate.limit)
    } else {
        0
    };
    assert!(
        lent.memory.is_kept_but(8 * written),
        "{call:?}: words outside were written"
    );
    assert!(
        lent.answer.is_kept_but(length),
        "{call:?}: bytes behind it were written"
    );
    let (kind, numbers) = numbers_of(&lent.answer.bytes()[..length]);
    match (reply, kind, numbers.as_slice()) {
        (Reply::Number(number), 1, &[told]) => assert_eq!(told, number, "{call:?}"),
        (Reply::Shares, 2, [per_cent, count, shares @ ..]) => {
            assert_eq!(*count, shares.len() as u64, "{call:?}");
            hold_if(real, || {
                hold_shares(&estate.claims, estate.there, *per_cent, shares)
            });
        }
        (Reply::Cents, 3, [count, cents @ ..]) => {
            assert_eq!(*count, cents.len() as u64, "{call:?}");
            hold_if(real, || hold_amounts(estate, cents));
        }
        _ => panic!("{call:?}: {kind} {numbers:?}, not {reply:?}"),
    }
}

fn hold_if(real: bool, hold: impl FnOnce()) {
    if real {
        hold();
    }
}

/// Holds whole cents to what is divided: they add up to it, and nobody has more than it claims.
fn hold_amounts(estate: &Estate, cents: &[u64]) {
    assert_eq!(cents.len(), estate.claims.len(), "{estate:?}: {cents:?}");
    assert_eq!(
        cents.iter().sum::<u64>(),
        divided(&estate.claims, estate.there),
        "{cents:?}"
    );
    let mut pairs = cents.iter().zip(&estate.claims);
    assert!(
        pairs.all(|(amount, claim)| amount <= claim),
        "{estate:?}: {cents:?}"
    );
}

/// The kind of an answer, and the numbers behind it.
fn numbers_of(answer: &[u8]) -> (u8, Vec<u64>) {
    let (kind, rest) = answer.split_first().expect("an answer has a kind");
    let (rows, behind) = rest.as_chunks();
    assert!(behind.is_empty(), "an answer is whole numbers: {answer:?}");
    (
        *kind,
        rows.iter().map(|row| u64::from_le_bytes(*row)).collect(),
    )
}
