//! The two readers against each other on some hundred random cases, the
//! directed damages, the longest book, and the words near the hard decisions
//! against the full search.

use reference::book::{self, Book, Role};
use reference::compare::Comparison;
use reference::damage;
use reference::design::{longest, Bounds, Draft};
use reference::judge::judge;
use reference::kernel::{hard_decisions, one_turned, two_least, two_turned, Soft};
use reference::plan::{Near, Plan};
use reference::rng::Rng;
use reference::vector::{Lane, Narrow};

#[test]
fn readers_agree() {
    let mut comparison = Comparison::default();
    for index in 0..600 {
        if let Err(difference) = comparison.check(3, index) {
            panic!("{difference}");
        }
    }
    assert_eq!(comparison.tally.cases, 600);
    assert!(comparison.tally.by_m[2..].iter().all(|&count| count > 0));
    assert!(comparison.tally.by_height.iter().all(|&count| count > 0));
    assert!(comparison.tally.crowded > 0 && comparison.tally.outrun > 0);
}

#[test]
fn directed_damages_get_their_refusals() {
    let mut rng = Rng::new(5);
    let mut met = [0; 7];
    for which in 0..damage::DIRECTED {
        for _ in 0..40 {
            let m = 2 + rng.below(4) as u8;
            let draft = Draft::random(&mut rng, m, Bounds::WIDEST);
            let (bytes, expected) = damage::directed(&mut rng, &draft, which);
            let number = book::load(&bytes).map_or_else(|r| r.number(), |_| 0);
            assert_eq!(Some(number), expected, "damage {which}: {bytes:02x?}");
            assert_eq!(book::load(&bytes), judge(&bytes));
            met[number as usize] += 1;
        }
    }
    assert!(met[1..].iter().all(|&count| count > 0), "{met:?}");
}

#[test]
fn longest_book_loads() {
    let bytes = longest();
    assert_eq!(bytes.len(), 52_083);
    let loaded = book::load(&bytes).expect("the longest book is sound");
    assert_eq!((loaded.n(), loaded.k(), loaded.v()), (512, 8, 512));
    assert_eq!(book::load(&bytes[..52_082]), Err(book::Refusal::Short));
    let more = [&bytes[..], &[0x7F]].concat();
    assert_eq!(book::load(&more), Err(book::Refusal::Misplaced));
}

/// One block of 2^j positions, its first index free or zero, the others free.
fn dense(j: u8, first: Role) -> Plan {
    let mut roles = vec![Role::Free; 1 << j];
    roles[0] = first;
    Plan::new(&Book {
        m: j,
        roles,
        blocks: vec![book::Block {
            start: 0,
            j,
            bias: 0,
        }],
    })
}

/// Values of which many are equal or 0.
fn some_values(rng: &mut Rng) -> Soft {
    let most = rng.pick(&[1, 2, 3, 9, 1000]);
    let lane = Lane(std::array::from_fn(|_| rng.between(-most, most) as i32));
    [lane; 4]
}

#[test]
fn words_near_the_hard_decisions_are_those_of_the_search() {
    let mut rng = Rng::new(8);
    for _ in 0..20_000 {
        let j = 1 + rng.below(3) as u8;
        let soft = some_values(&mut rng);
        let hard = hard_decisions::<Narrow>(&soft, 1 << j);
        let all = &dense(j, Role::Free).blocks[0];
        assert_eq!(all.near, Near::All);
        let next = two_least::<Narrow>(all, &soft, 0, hard as i32);
        let near = one_turned::<Narrow, 0>(all, &soft, hard);
        assert_eq!(near.first, next.first);
        if j > 1 {
            assert_eq!(near.second, next.second);
        }
        let parity = &dense(j, Role::Zero).blocks[0];
        assert_eq!(parity.near, Near::Parity);
        if hard.count_ones() % 2 == 0 {
            let next = two_least::<Narrow>(parity, &soft, 0, (hard >> 1) as i32);
            assert_eq!(two_turned::<Narrow>(parity, &soft, hard), next.first);
        } else {
            let next = two_least::<Narrow>(parity, &soft, 0, -1);
            assert_eq!(one_turned::<Narrow, 1>(parity, &soft, hard), next);
        }
    }
}
