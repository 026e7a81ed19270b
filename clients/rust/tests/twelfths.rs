//! All divisions in twelfths of a cent, of all small estates of up to three creditors: one is right, and it is the desk's.

mod common;

use common::rule::{divide_two_by_two, divided, hold_cents};
use common::work;
use vullades::{Answer, Call, Desk};

/// The most cents that one claims.
const MOST: u64 = 26;

/// How many parts of a cent are tried: halves, thirds, quarters and sixths are among them.
const TWELFTHS: u64 = 12;

/// What was gone through.
#[derive(Clone, Copy, Debug, Default, PartialEq, Eq)]
struct Gone {
    estates: u64,
    divisions: u64,
}

impl Gone {
    fn and(self, other: Gone) -> Gone {
        let estates = self.estates + other.estates;
        let divisions = self.divisions + other.divisions;
        Gone { estates, divisions }
    }
}

#[test]
fn one_division_is_right_and_it_is_the_desks() {
    let all: Vec<Vec<u64>> = (0..=3).flat_map(all_claims).collect();
    let gone = work::shared(all.len(), |job| go_through(&all[job]));
    let gone = gone.into_iter().fold(Gone::default(), Gone::and);
    let counted = (0..=3).map(counted).fold(Gone::default(), Gone::and);
    assert_eq!(gone, counted);
}

/// How many estates so many creditors have, and how many divisions in twelfths these have. Of claims c and k there are
/// (12c + 1)(12k + 1) rows of shares, of which all but one are spread evenly over what a sum may leave above whole cents; so
/// one more than a twelfth of these others come to whole cents. Where more is there than is claimed, each has all it claims.
fn counted(creditors: u32) -> Gone {
    let rows = (MOST + 1).pow(creditors);
    let claimed = rows * u64::from(creditors) * MOST / 2;
    let shares = ((MOST + 1) * (TWELFTHS / 2 * MOST + 1)).pow(creditors);
    let whole = rows + (shares - rows) / TWELFTHS;
    Gone {
        estates: claimed + 3 * rows,
        divisions: whole + 2 * rows,
    }
}

/// All rows of so many claims.
fn all_claims(creditors: u32) -> Vec<Vec<u64>> {
    let digits =
        |row: u64| (0..creditors).map(move |place| row / (MOST + 1).pow(place) % (MOST + 1));
    (0..(MOST + 1).pow(creditors))
        .map(|row| digits(row).collect())
        .collect()
}

/// Goes through the estates that have these claims.
fn go_through(claims: &[u64]) -> Gone {
    let mut desk = Desk::open(claims.len()).expect("a desk");
    for (place, &claim) in claims.iter().enumerate() {
        assert_eq!(
            desk.call(&Call::Claim(claim)),
            Ok(Answer::Number(place as u64))
        );
    }
    let estates = 0..=claims.iter().sum::<u64>() + 2;
    estates
        .map(|there| hold(&mut desk, claims, there))
        .fold(Gone::default(), Gone::and)
}

/// Holds the desk to the one division that is right, where so much is there. Before it, a cent less was.
fn hold(desk: &mut Desk, claims: &[u64], there: u64) -> Gone {
    let come = Call::Come(there.min(1));
    assert_eq!(desk.call(&come), Ok(Answer::Number(there)));
    let mut tried = Tried::new(claims);
    tried.give(TWELFTHS * divided(claims, there));
    let [right] = tried.right.as_slice() else {
        panic!(
            "{there} among {claims:?} has the divisions {:?}",
            tried.right
        );
    };
    hold_desk(desk, &right[..claims.len()]);
    Gone {
        estates: 1,
        divisions: tried.divisions,
    }
}

/// Holds what the desk says to a division in twelfths: shares in its own parts of a cent, and whole cents.
fn hold_desk(desk: &mut Desk, right: &[u64]) {
    let Ok(Answer::Parts { per_cent, shares }) = desk.call(&Call::Shares) else {
        panic!("no shares");
    };
    let by_twelve: Vec<u64> = shares.iter().map(|share| share * TWELFTHS).collect();
    let by_parts: Vec<u64> = right.iter().map(|twelfths| twelfths * per_cent).collect();
    assert!(
        per_cent > 0 && by_twelve == by_parts,
        "{per_cent}: {shares:?}, not {right:?}"
    );
    let Ok(Answer::Amounts(cents)) = desk.call(&Call::Cents) else {
        panic!("no cents");
    };
    hold_cents(TWELFTHS, right, &cents);
}

/// Divisions of one estate that are tried, in twelfths. Where fewer than three claim, the others claim nothing and have nothing.
struct Tried {
    claims: [u64; 3],
    divisions: u64,
    right: Vec<[u64; 3]>,
}

impl Tried {
    fn new(claims: &[u64]) -> Tried {
        let claim = |place| TWELFTHS * claims.get(place).unwrap_or(&0);
        Tried {
            claims: [claim(0), claim(1), claim(2)],
            divisions: 0,
            right: vec![],
        }
    }

    /// Gives so many twelfths to all, in each way that leaves none with more than its claim.
    fn give(&mut self, twelfths: u64) {
        let [first, second, third] = self.claims;
        for share in twelfths.saturating_sub(second + third)..=twelfths.min(first) {
            self.give_others(share, twelfths - share);
        }
    }

    /// The same for the second and the third.
    fn give_others(&mut self, first: u64, twelfths: u64) {
        let [_, second, third] = self.claims;
        for share in twelfths.saturating_sub(third)..=twelfths.min(second) {
            let shares = [first, share, twelfths - share];
            self.divisions += 1;
            if divide_two_by_two(&self.claims, &shares) {
                self.right.push(shares);
            }
        }
    }
}
