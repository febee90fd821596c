//! Both sides of each line of the scope: the cases it lists, on the rules of plain sets.

use loargwen_host::random::Random;
use loargwen_host::rules::Group;
use loargwen_host::set::Set;
use loargwen_host::step::Step;

/// An opened group after these steps, all of them accepted.
fn group(n: u16, mode: u16, steps: &[[u16; 4]]) -> Group {
    let mut group = Group::open(n, mode).expect("it opens");
    for &step in steps {
        assert!(group.step(step).is_ok(), "{step:?} refused");
    }
    group
}

/// Settles: the steps taken and whether none is left.
fn settle(group: &mut Group, budget: u16) -> (usize, bool) {
    let (taken, quiet) = group.settle(budget);
    (taken.len(), quiet)
}

fn set(members: &[u16]) -> Set {
    let mut set = Set::default();
    members.iter().for_each(|&who| set.add(who));
    set
}

const START: [[u16; 4]; 4] = [[1, 0, 96, 500], [2, 0, 0, 0], [2, 0, 1, 0], [5, 0, 0, 0]];

#[test]
fn the_run_of_the_example_settles_in_15_steps() {
    let mut group = group(3, 1, &START);
    assert_eq!(settle(&mut group, 100), (15, true));
    assert_eq!(group.messages[0].held, set(&[0, 1, 2]));
    assert_eq!(group.messages[0].delivered, set(&[1, 2]));
    assert_eq!(group.logs, [vec![], vec![0], vec![0]]);
}

#[test]
fn the_same_start_in_majority_mode_settles_in_13_steps() {
    let mut group = group(3, 2, &START);
    assert_eq!(settle(&mut group, 100), (13, true));
    assert_eq!(group.messages[0].held, set(&[0, 1, 2]));
    assert_eq!(group.messages[0].delivered, set(&[1, 2]));
}

#[test]
fn one_alone_delivers_in_3_steps() {
    let mut group = group(1, 1, &[[1, 0, 7, 8]]);
    assert_eq!(settle(&mut group, 100), (3, true));
    assert_eq!(group.logs, [vec![0]]);
}

#[test]
fn unsent_and_crashed_reaches_nobody() {
    let mut group = group(2, 1, &[[1, 0, 7, 8], [5, 0, 0, 0]]);
    assert_eq!(settle(&mut group, 100), (1, true));
    assert_eq!(group.messages[0].delivered, set(&[]));
    assert_eq!(group.logs, [vec![], vec![]]);
}

#[test]
fn half_is_no_majority() {
    let mut group = group(4, 2, &[[5, 2, 0, 0], [5, 3, 0, 0], [1, 0, 7, 8]]);
    assert_eq!(settle(&mut group, 100), (12, true));
    assert_eq!(group.messages[0].acked[0], set(&[0, 1]));
    assert_eq!(group.messages[0].acked[1], set(&[0, 1]));
    assert_eq!(group.messages[0].delivered, set(&[]));
}

#[test]
fn a_budget_that_just_suffices_ends_quiet() {
    let before = group(3, 1, &START);
    assert_eq!(settle(&mut before.clone(), 15), (15, true));
    assert_eq!(settle(&mut before.clone(), 14), (14, false));
    assert_eq!(settle(&mut before.clone(), 0), (0, false));
    let mut after = before;
    settle(&mut after, 15);
    assert_eq!(settle(&mut after, 0), (0, true));
}

#[test]
fn one_that_is_up_is_not_detected_and_its_copies_are_not_lost() {
    let mut group = group(3, 1, &[[1, 0, 0, 0], [2, 0, 1, 0]]);
    assert_eq!(group.step([6, 0, 1, 0]), Err(9));
    assert_eq!(group.step([7, 0, 1, 0]), Err(9));
    assert!(group.step([5, 1, 0, 0]).is_ok());
    assert!(group.step([6, 0, 1, 0]).is_ok());
    assert!(group.step([7, 0, 1, 0]).is_ok());
}

#[test]
fn a_second_deliver_and_a_send_by_one_that_is_down() {
    let mut one = group(1, 1, &[[1, 0, 0, 0]]);
    settle(&mut one, 100);
    assert_eq!(one.step([4, 0, 0, 0]), Err(10));
    let mut two = group(2, 1, &[[1, 0, 0, 0], [5, 0, 0, 0]]);
    assert_eq!(two.step([2, 0, 1, 0]), Err(6));
}

#[test]
fn midnight_parts_the_days() {
    let mut group = group(1, 1, &[[1, 0, 95, 10], [1, 0, 96, 30]]);
    settle(&mut group, 100);
    let tally = |day| group.tally(0, day).map(|tally| (tally.count, tally.sum));
    assert_eq!(tally(0), Ok((1, 10)));
    assert_eq!(tally(1), Ok((1, 30)));
    assert_eq!(tally(2), Ok((0, 0)));
}

#[test]
fn days_end_at_682() {
    let mut group = group(1, 1, &[[1, 0, 65_535, 7], [1, 0, 65_471, 9]]);
    settle(&mut group, 100);
    let tally = |day| group.tally(0, day).map(|tally| (tally.count, tally.sum));
    assert_eq!(tally(681), Ok((1, 9)));
    assert_eq!(tally(682), Ok((1, 7)));
    assert_eq!(tally(683), Err(14));
    assert_eq!(tally(65_535), Err(14));
}

#[test]
fn a_sum_may_need_21_bits() {
    let mut group = group(1, 2, &[[1, 0, 3, 65_535]; 32]);
    assert_eq!(settle(&mut group, 96), (96, true));
    let tally = group.tally(0, 0).expect("a day");
    assert_eq!((tally.count, tally.sum), (32, 32 * 65_535));
    assert_eq!(tally.sum.ilog2(), 20);
}

#[test]
fn opening_takes_1_to_16_and_two_modes() {
    assert_eq!(Group::open(0, 1), Err(11));
    assert_eq!(Group::open(17, 1), Err(11));
    assert_eq!(Group::open(17, 3), Err(11));
    assert!(Group::open(16, 1).is_ok());
    assert_eq!(Group::open(16, 3), Err(12));
    assert_eq!(Group::open(16, 0), Err(12));
}

#[test]
fn the_33rd_broadcast_is_refused() {
    let mut group = group(16, 1, &[[1, 3, 0, 0]; 32]);
    assert_eq!(group.step([1, 3, 0, 0]), Err(7));
    assert_eq!(group.messages.len(), 32);
}

#[test]
fn the_broadcast_is_no_acknowledgement() {
    let mut group = group(1, 1, &[[1, 0, 0, 0]]);
    assert_eq!(group.step([4, 0, 0, 0]), Err(9));
}

#[test]
fn copies_of_one_that_crashed_may_still_arrive() {
    let steps = [[1, 0, 0, 0], [2, 0, 1, 0], [5, 0, 0, 0], [3, 1, 0, 0]];
    let group = group(2, 1, &steps);
    assert!(group.messages[0].held.has(1));
}

#[test]
fn a_late_copy_still_counts() {
    let mut group = group(
        3,
        2,
        &[[1, 0, 0, 0], [2, 0, 0, 0], [2, 0, 1, 0], [2, 0, 2, 0]],
    );
    let more = [[3, 0, 0, 0], [3, 1, 0, 0], [3, 2, 0, 0]];
    let last = [
        [2, 1, 0, 0],
        [2, 2, 0, 0],
        [3, 0, 1, 0],
        [4, 0, 0, 0],
        [3, 0, 2, 0],
    ];
    for step in more.into_iter().chain(last) {
        assert!(group.step(step).is_ok());
    }
    assert_eq!(group.messages[0].acked[0], set(&[0, 1, 2]));
}

#[test]
fn down_but_not_detected_still_holds_delivery_back() {
    let steps = [[1, 0, 0, 0], [2, 0, 0, 0], [3, 0, 0, 0], [5, 1, 0, 0]];
    let mut group = group(2, 1, &steps);
    assert_eq!(group.step([4, 0, 0, 0]), Err(9));
    assert!(group.step([6, 0, 1, 0]).is_ok());
    assert!(group.step([4, 0, 0, 0]).is_ok());
}

#[test]
fn a_full_group_settles_within_the_bound() {
    let broadcasts: Vec<[u16; 4]> = (0..32).map(|m| [1, m % 16, m, m]).collect();
    let mut all_up = group(16, 1, &broadcasts);
    assert_eq!(
        settle(&mut all_up, u16::MAX),
        (2 * 256 * 32 + 16 * 32, true)
    );
}

#[test]
fn no_run_from_opening_passes_the_bound() {
    for case in 0..300 {
        let mut random = Random::new(31, case);
        let n = 1 + random.under(6);
        let mut group = group(n, 1 + random.under(2), &[]);
        let mut taken = 0;
        for _ in 0..400 {
            if let Ok(step) = group.step(random.likely_step(&group)) {
                let counted = !matches!(step.numbers()[0], 1 | 5 | 7);
                taken += usize::from(counted);
            }
        }
        let (steps, quiet) = group.settle(u16::MAX);
        assert!(quiet && steps.iter().all(|step| !matches!(step, Step::Lose { .. })));
        let (n, c) = (usize::from(n), group.messages.len());
        assert!(taken + steps.len() <= 2 * n * n * c + n * c + n * (n - 1));
    }
}

#[test]
fn a_log_holds_what_was_delivered_once_each() {
    for case in 0..200 {
        let mut random = Random::new(32, case);
        let mut group = group(1 + random.under(6), 1 + random.under(2), &[]);
        for _ in 0..300 {
            let _ = group.step(random.likely_step(&group));
        }
        group.settle(u16::MAX);
        for (who, log) in group.logs.iter().enumerate() {
            for (number, message) in group.messages.iter().enumerate() {
                let times = log.iter().filter(|&&entry| usize::from(entry) == number);
                let delivered = message.delivered.has(who as u16);
                assert_eq!(times.count(), usize::from(delivered));
            }
        }
    }
}
