//! The rule, and whole cents, as they are said in words: nothing here finds a division.

/// What is left of one number without the other, or nothing.
fn without(all: u64, some: u64) -> u64 {
    all.saturating_sub(some)
}

/// Whether two who claim so much, and have so much, divide it by the plain law: they have no more than they claim, each
/// leaves the other what it does not claim, and the rest is halved.
pub fn divide_as_two(claims: [u64; 2], parts: [u64; 2]) -> bool {
    let both = parts[0] + parts[1];
    let left = [without(both, claims[1]), without(both, claims[0])];
    2 * parts[0] + left[1] == both + left[0]
        && 2 * parts[1] + left[0] == both + left[1]
        && both <= claims[0] + claims[1]
}

/// Whether the first divides with each of the others as two do.
fn first_divides(claims: &[u64], parts: &[u64]) -> bool {
    let others = claims.iter().zip(parts).skip(1);
    let mut pairs = others.map(|(&claim, &part)| ([claims[0], claim], [parts[0], part]));
    pairs.all(|(claims, parts)| divide_as_two(claims, parts))
}

/// Whether each two divide as two do.
pub fn divide_two_by_two(claims: &[u64], parts: &[u64]) -> bool {
    (0..claims.len()).all(|first| first_divides(&claims[first..], &parts[first..]))
}

/// What is divided, in cents.
pub fn divided(claims: &[u64], there: u64) -> u64 {
    there.min(claims.iter().sum())
}

/// Holds shares to the rule: so many parts of a cent may be, the shares add up to what is divided, none is above its claim,
/// and each two divide as two do.
pub fn hold_shares(claims: &[u64], there: u64, per_cent: u64, shares: &[u64]) {
    let most = 2 * (claims.len() as u64 + 1);
    assert!((1..=most).contains(&per_cent), "{per_cent} parts of a cent");
    assert_eq!(shares.len(), claims.len(), "a share for each claim");
    let in_parts: Vec<u64> = claims.iter().map(|claim| claim * per_cent).collect();
    let above = (0..claims.len()).find(|&place| shares[place] > in_parts[place]);
    assert_eq!(above, None, "a share above its claim");
    let all: u64 = shares.iter().sum();
    assert_eq!(all, per_cent * divided(claims, there), "what is divided");
    let right = divide_two_by_two(&in_parts, shares);
    assert!(right, "{there} among {claims:?}: {per_cent}, {shares:?}");
}

/// The whole cents that come of shares: each rounded down, and the cents that are left one after the other, to who at that
/// moment lacks most of its share, of equals the first.
pub fn whole_cents(per_cent: u64, shares: &[u64]) -> Vec<u64> {
    let all: u64 = shares.iter().sum();
    assert!(all.is_multiple_of(per_cent), "the shares are whole cents");
    let mut cents: Vec<u64> = shares.iter().map(|share| share / per_cent).collect();
    let mut lacks: Vec<i64> = shares
        .iter()
        .map(|share| (share % per_cent) as i64)
        .collect();
    let left = all / per_cent - cents.iter().sum::<u64>();
    for _ in 0..left {
        let place = first_of_most(&lacks);
        cents[place] += 1;
        lacks[place] -= per_cent as i64;
    }
    cents
}

/// The first place of the largest number.
fn first_of_most(numbers: &[i64]) -> usize {
    let most = numbers.iter().max().expect("somebody lacks something");
    let place = numbers.iter().position(|number| number == most);
    place.expect("the largest is one of them")
}

/// Holds whole cents to those that come of shares.
pub fn hold_cents(per_cent: u64, shares: &[u64], cents: &[u64]) {
    assert_eq!(
        cents,
        whole_cents(per_cent, shares),
        "the cents of {shares:?} of {per_cent}"
    );
}
