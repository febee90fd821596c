//! Settling steps in any order: they end where the settler ends, and there the logs agree.

use loargwen_host::plant::Plant;
use loargwen_host::random::Random;
use loargwen_host::refusal::DONE;
use loargwen_host::rules::{Group, Mode};
use loargwen_host::set::Set;
use loargwen_host::step::Step;

/// Every N in both modes, so many times over.
const TURNS: u64 = 20;

/// The rules that a run goes by.
#[derive(Clone, Copy, PartialEq, Eq, Debug)]
enum Rules {
    Right,
    Planted(Plant),
    /// A first receipt sends nothing on.
    NoRelay,
    /// A copy from the first controller to the last is lost, whoever is up.
    LostOnTheWay,
}

/// A group and how many steps of each kind it has taken.
#[derive(Clone)]
struct Run {
    rules: Rules,
    group: Group,
    taken: [usize; 8],
}

impl Run {
    fn open(rules: Rules, n: u16, mode: u16) -> Run {
        let mut group = Group::open(n, mode).expect("it opens");
        if let Rules::Planted(plant) = rules {
            group.plant = Some(plant);
        }
        let taken = [0; 8];
        Run {
            rules,
            group,
            taken,
        }
    }

    /// Takes some steps, four broadcasts at most.
    fn some_steps(mut self, random: &mut Random) -> Run {
        let n = self.group.n;
        let most = random.pick(&[6 * n, 60 + 20 * n]);
        for _ in 0..random.under(most) {
            let step = random.likely_step(&self.group);
            if step[0] != 1 || self.group.messages.len() < 4 {
                self.take(step);
            }
        }
        if random.chance(50) {
            let most = random.pick(&[2 * n, 8 * n * n]);
            self.settle_anyhow(random.below(usize::from(most)), random);
            self.fail_at_once(random);
        }
        self
    }

    /// Some controllers crash together, and some copies from those and to those are lost.
    fn fail_at_once(&mut self, random: &mut Random) {
        (0..self.group.n).for_each(|who| self.perhaps([5, who, 0, 0], random));
        for step in shuffled_steps(&self.group, random) {
            if let Step::Receive { at, from, message } = step {
                self.perhaps([7, from, at, message], random);
            }
        }
    }

    fn perhaps(&mut self, step: [u16; 4], random: &mut Random) {
        if random.chance(50) {
            self.take(step);
        }
    }

    /// Takes the step, if it is allowed, with the fault that the rules have.
    fn take(&mut self, step: [u16; 4]) {
        let Ok(done) = self.group.step(step) else {
            return;
        };
        self.taken[usize::from(step[0])] += 1;
        match (self.rules, done) {
            (Rules::NoRelay, Step::Receive { at, message, .. }) => {
                let message = &mut self.group.messages[usize::from(message)];
                if at != message.sender {
                    message.unsent[usize::from(at)] = Set::default();
                }
            }
            (Rules::LostOnTheWay, Step::Send { from, to, message })
                if from == 0 && to + 1 == self.group.n =>
            {
                let message = &mut self.group.messages[usize::from(message)];
                message.flight[usize::from(to)].remove(from);
            }
            _ => {}
        }
    }

    /// Settles in the settler's order.
    fn settle_in_turn(&mut self) {
        while let Some(step) = self.group.first_step() {
            self.take(step.numbers());
        }
    }

    /// Settles in a random order, with so many steps at most.
    fn settle_anyhow(&mut self, most: usize, random: &mut Random) {
        let steps = shuffled_steps(&self.group, random);
        for _ in 0..most {
            let start = random.below(steps.len());
            let mut round = steps[start..].iter().chain(&steps[..start]);
            let Some(step) = round.find(|&&step| self.group.refusal(step) == DONE) else {
                return;
            };
            self.take(step.numbers());
        }
    }
}

/// Every settling step of these controllers and messages, allowed or not, shuffled.
fn shuffled_steps(group: &Group, random: &mut Random) -> Vec<Step> {
    let pairs = (0..group.n).flat_map(|at| (0..group.n).map(move |from| (at, from)));
    let mut steps: Vec<Step> = pairs
        .clone()
        .map(|(at, of)| Step::Detect { at, of })
        .collect();
    for message in 0..group.messages.len() as u16 {
        steps.extend((0..group.n).map(|at| Step::Deliver { at, message }));
        for (at, from) in pairs.clone() {
            steps.push(Step::Receive { at, from, message });
            let (from, to) = (at, from);
            steps.push(Step::Send { from, to, message });
        }
    }
    for place in 1..steps.len() {
        steps.swap(place, random.below(place + 1));
    }
    steps
}

/// The group with every log sorted: the order inside the logs may differ, and nothing else.
fn without_order(group: &Group) -> Group {
    let mut group = group.clone();
    group.logs.iter_mut().for_each(|log| log.sort_unstable());
    group
}

/// How often a message stands in the log of each one that is up, or of each one that is down.
fn times(group: &Group, message: usize, up: bool) -> Vec<usize> {
    let those = (0..group.n).filter(|&who| group.up.has(who) == up);
    let log = |who: u16| group.logs[usize::from(who)].iter();
    those
        .map(|who| log(who).filter(|&&m| usize::from(m) == message).count())
        .collect()
}

/// Agreement and validity of one message at the end, where the quorum holds.
fn owed(group: &Group, number: usize) -> Result<(), String> {
    let message = &group.messages[number];
    let (up, down) = (times(group, number, true), times(group, number, false));
    let delivered = up.iter().chain(&down).any(|&times| times > 0);
    let (twice, n) = (2 * group.up.count(), usize::from(group.n));
    if group.mode == Mode::AllAck || twice > n {
        let due = delivered || group.up.has(message.sender);
        return match due && up.iter().any(|&times| times != 1) {
            true => Err(format!("message {number} in logs of those up: {up:?}")),
            false => Ok(()),
        };
    }
    // Of a majority that acknowledged, one is among any half: the two halves do not part company.
    match twice == n && delivered && !message.held.includes(&group.up) {
        true => Err(format!("message {number} delivered, not held by all up")),
        false => Ok(()),
    }
}

/// One state settled in the settler's order and in a random one: both ends, if all is as it should be.
fn settled(rules: Rules, n: u16, case: u64) -> Result<[Run; 2], String> {
    let mut random = Random::new(33, case);
    let opened = Run::open(rules, n, 1 + (case % 2) as u16);
    let before = opened.some_steps(&mut random);
    let (mut in_turn, mut anyhow) = (before.clone(), before);
    in_turn.settle_in_turn();
    anyhow.settle_anyhow(usize::MAX, &mut random);
    let told = |text: String| format!("N {n}, case {case}: {text}");
    if in_turn.taken != anyhow.taken {
        let text = format!("{:?} and {:?} steps", in_turn.taken, anyhow.taken);
        return Err(told(text));
    }
    if without_order(&in_turn.group) != without_order(&anyhow.group) {
        return Err(told("other sets, or other entries of a log".to_string()));
    }
    for number in 0..anyhow.group.messages.len() {
        owed(&anyhow.group, number).map_err(told)?;
    }
    Ok([in_turn, anyhow])
}

/// What the runs had between them: without such cases the tests would say little.
#[derive(Default, Debug)]
struct Seen {
    taken: [usize; 8],
    other_logs: usize,
    delivered_by_the_dead: usize,
    too_few_up: usize,
}

impl Seen {
    fn see(&mut self, [in_turn, anyhow]: [Run; 2]) {
        let group = &anyhow.group;
        let dead = |&m: &usize| times(group, m, false).iter().any(|&times| times > 0);
        (0..8).for_each(|kind| self.taken[kind] += anyhow.taken[kind]);
        self.other_logs += usize::from(in_turn.group.logs != group.logs);
        self.delivered_by_the_dead += (0..group.messages.len()).filter(dead).count();
        let few = 2 * group.up.count() <= usize::from(group.n);
        self.too_few_up += usize::from(few && group.mode == Mode::Majority);
    }
}

#[test]
fn every_order_ends_where_the_settler_does() {
    let mut seen = Seen::default();
    for case in 0..TURNS * 32 {
        let n = 1 + (case / 2 % 16) as u16;
        seen.see(settled(Rules::Right, n, case).unwrap_or_else(|text| panic!("{text}")));
    }
    assert!(seen.taken[1..].iter().all(|&steps| steps > 100));
    assert!(seen.other_logs > 50 && seen.delivered_by_the_dead > 50 && seen.too_few_up > 50);
}

/// In small groups a fault shows soonest.
fn settled_small(rules: Rules, case: u64) -> Result<[Run; 2], String> {
    settled(rules, 2 + (case / 2 % 3) as u16, case)
}

#[test]
fn a_fault_in_the_rules_shows_at_the_end() {
    let faults = [
        (Rules::Planted(Plant::Half), "not held by all up"),
        (Rules::Planted(Plant::DropLate), "other sets"),
        (Rules::NoRelay, "in logs of those up"),
        (Rules::LostOnTheWay, "in logs of those up"),
    ];
    for (rules, told) in faults {
        let found = (0..5_000).find_map(|case| settled_small(rules, case).err());
        let text = found.unwrap_or_else(|| panic!("{rules:?} was not found"));
        assert!(text.contains(told), "{rules:?}: {text}");
    }
    assert!((0..5_000).all(|case| settled_small(Rules::Right, case).is_ok()));
}
