//! Whole cases of a comparison, each drawn from a seed and a number: runs, spoilt and unfit banks, days.

use crate::bank::Unfit;
use crate::banks;
use crate::contest::{Contest, Setting};
use crate::figures::Figures;
use crate::layout;
use crate::random::{Random, DAYS};

/// What one case is about.
#[derive(Clone, Copy, PartialEq, Eq, Debug)]
enum Case {
    Short,
    Long,
    Full,
    Heavy,
    Spoilt,
    Unfit(Unfit),
    Opening,
    Days,
}

impl Case {
    /// The first two cases are always the two that settle longest.
    fn draw(random: &mut Random, number: u64) -> Case {
        let drawn = random.below(40_000);
        match (number, drawn) {
            (0, _) => return Case::Full,
            (1, _) => return Case::Heavy,
            _ => {}
        }
        match drawn {
            0..16_000 => Case::Short,
            16_000..26_000 => Case::Long,
            26_000..26_003 => Case::Full,
            26_003..26_005 => Case::Heavy,
            26_005..34_000 => Case::Spoilt,
            34_000..36_000 => Case::Unfit(random.pick(&Unfit::ALL)),
            36_000..37_200 => Case::Opening,
            _ => Case::Days,
        }
    }

    fn name(self) -> &'static str {
        match self {
            Case::Short => "short run",
            Case::Long => "long run",
            Case::Full => "full group",
            Case::Heavy => "full spoilt",
            Case::Spoilt => "spoilt",
            Case::Unfit(Unfit::Length) => "unfit length",
            Case::Unfit(Unfit::Controllers) => "unfit N",
            Case::Unfit(Unfit::Mode) => "unfit mode",
            Case::Unfit(Unfit::Messages) => "unfit messages",
            Case::Unfit(Unfit::Log) => "unfit log",
            Case::Opening => "opening",
            Case::Days => "days",
        }
    }
}

/// The names that cases have.
pub const NAMES: [&str; 12] = [
    "short run",
    "long run",
    "full group",
    "full spoilt",
    "spoilt",
    "unfit length",
    "unfit N",
    "unfit mode",
    "unfit messages",
    "unfit log",
    "opening",
    "days",
];

/// The name of the case of this number.
pub fn name(seed: u64, number: u64) -> &'static str {
    Case::draw(&mut Random::new(seed, number), number).name()
}

/// Runs the case of this number; a difference is described.
pub fn run(setting: &Setting, number: u64, figures: &mut Figures) -> Result<(), String> {
    let mut random = Random::new(setting.seed, number);
    let random = &mut random;
    let case = Case::draw(random, number);
    figures.case(case.name());
    let bytes = match case {
        Case::Spoilt => banks::spoilt(random),
        Case::Heavy => banks::heavy(random),
        Case::Unfit(cause) => banks::unfit(random, cause),
        Case::Opening if random.chance(30) => banks::unfit(random, Unfit::Length),
        Case::Opening => random.bytes(layout::BYTES),
        _ if random.chance(50) => random.bytes(layout::BYTES),
        _ => vec![0; layout::BYTES],
    };
    let mut contest = Contest::new(setting, &bytes, random, figures);
    let done = match case {
        Case::Short => opened(&mut contest, random, 60),
        Case::Long => opened(&mut contest, random, 1_500),
        Case::Full => {
            let crashes = if number == 0 { 0 } else { random.under(4) };
            full(&mut contest, random, crashes)
        }
        Case::Heavy => contest.settle(u16::MAX).map(drop),
        Case::Spoilt => spoilt(&mut contest, random),
        Case::Unfit(_) => unfit(&mut contest, random),
        Case::Opening => opening(&mut contest, random),
        Case::Days => days(&mut contest, random),
    };
    done.map_err(|text| {
        let seed = setting.seed;
        format!("seed {seed}, case {number} ({}), {text}", case.name())
    })
}

type Done = Result<(), String>;

/// One call, mostly a step.
fn any_call(contest: &mut Contest, random: &mut Random) -> Done {
    match random.below(100) {
        0..72 => contest.step(any_step(contest, random)).map(drop),
        72..84 => contest.step(random.garbage_step(contest.group())).map(drop),
        84..88 => {
            let budget = random.pick(&[0, 1, 2, 5, 20]);
            contest.settle(budget).map(drop)
        }
        88..90 => any_tally(contest, random),
        _ => any_word_call(contest, random),
    }
}

/// A likely step, seldom one without sense.
fn any_step(contest: &Contest, random: &mut Random) -> [u16; 4] {
    let garbage = random.chance(8);
    match contest.group().filter(|_| !garbage) {
        Some(group) => random.likely_step(group),
        None => random.garbage_step(contest.group()),
    }
}

fn any_tally(contest: &mut Contest, random: &mut Random) -> Done {
    let who = random.asked_for(contest.group());
    let day = random.day(contest.group());
    contest.tally(who, day).map(drop)
}

/// One call on words, where the bank is words.
fn any_word_call(contest: &mut Contest, random: &mut Random) -> Done {
    if !contest.is_words() {
        return Ok(());
    }
    match random.below(6) {
        0 => contest.list(&random.list(contest.group())),
        1 => contest.records(&random.steps(contest.group())),
        2 => contest.refusal(any_step(contest, random)).map(drop),
        3 => contest
            .refusal(random.garbage_step(contest.group()))
            .map(drop),
        4 => contest
            .log_length(random.asked_for(contest.group()))
            .map(drop),
        _ => any_log(contest, random),
    }
}

/// A log into a buffer that is too short for it, or just suffices, or has words left.
fn any_log(contest: &mut Contest, random: &mut Random) -> Done {
    let who = random.asked_for(contest.group());
    let logs = contest.group().map_or(&[][..], |group| &group.logs);
    let length = logs.get(usize::from(who)).map_or(0, Vec::len);
    let room = random.pick(&[0, length / 2, length, length + 1, 32, 40]);
    contest.log(who, room)
}

/// How much work a settling may be for the model: controllers squared times messages.
fn weight(contest: &Contest) -> usize {
    contest.group().map_or(0, |group| {
        usize::from(group.n) * usize::from(group.n) * group.messages.len()
    })
}

/// A settling that ends, at its exact budget or far below.
fn last_settle(contest: &mut Contest, random: &mut Random) -> Done {
    let most = if random.chance(5) { 2_000 } else { 500 };
    if weight(contest) > most {
        return contest.settle(random.under(80)).map(drop);
    }
    let steps = contest.group().cloned().map_or(0, |mut group| {
        let (taken, _) = group.settle(u16::MAX);
        taken.len() as u16
    });
    let budget = random.pick(&[u16::MAX, u16::MAX, steps, steps.saturating_sub(1)]);
    contest.settle(budget)?;
    contest.settle(u16::MAX).map(drop)
}

fn opened(contest: &mut Contest, random: &mut Random, calls: usize) -> Done {
    let n = random.controllers();
    contest.open(n, 1 + random.under(2))?;
    let most = calls.min(40 + 40 * usize::from(n) * usize::from(n));
    for _ in 0..10 + random.below(most) {
        any_call(contest, random)?;
    }
    if random.chance(40) {
        last_settle(contest, random)?;
        for _ in 0..8 {
            any_tally(contest, random)?;
            any_log(contest, random)?;
        }
    }
    Ok(())
}

/// Sixteen controllers and thirty-three broadcasts, some crashes, settled to the end.
fn full(contest: &mut Contest, random: &mut Random, crashes: u16) -> Done {
    contest.open(16, 1 + random.under(2))?;
    for _ in 0..33 {
        contest.step([1, random.under(16), random.stamp(), random.value()])?;
    }
    contest.settle(random.word() % 300)?;
    for who in 0..crashes {
        contest.step([5, 5 * who, 0, 0])?;
    }
    contest.settle(u16::MAX)?;
    for who in 0..17 {
        contest.tally(who, random.day(contest.group()))?;
    }
    Ok(())
}

fn spoilt(contest: &mut Contest, random: &mut Random) -> Done {
    for _ in 0..random.below(120) {
        any_call(contest, random)?;
    }
    for who in 0..contest.group().map_or(0, |group| group.n) {
        contest.tally(who, random.day(contest.group()))?;
        for message in 0..contest.group().map_or(0, |group| group.messages.len()) {
            contest.step([4, who, message as u16, 0])?;
        }
    }
    if random.chance(50) {
        last_settle(contest, random)?;
    }
    Ok(())
}

/// Every call on an unfit bank; at last it may be opened.
fn unfit(contest: &mut Contest, random: &mut Random) -> Done {
    for _ in 0..5 {
        contest.step(random.garbage_step(None))?;
        contest.step([1 + random.under(7), 0, 0, 0])?;
        contest.settle(random.pick(&[0, 1, u16::MAX]))?;
        contest.tally(random.under(20), random.day(None))?;
        (0..6).try_for_each(|_| any_word_call(contest, random))?;
    }
    contest.open(random.pick(&[0, 1, 3, 16, 17]), random.pick(&[0, 1, 2, 3]))?;
    any_call(contest, random)
}

/// Openings with numbers at the edges, one after another on the same bytes.
fn opening(contest: &mut Contest, random: &mut Random) -> Done {
    for _ in 0..12 {
        let any = random.word();
        let n = random.pick(&[0, 1, 2, 8, 15, 16, 17, 256, 257, 65_535, any]);
        let mode = random.pick(&[0, 1, 1, 2, 2, 3, 256, 257, 65_535, any]);
        contest.open(n, mode)?;
        for _ in 0..4 {
            any_call(contest, random)?;
        }
    }
    Ok(())
}

/// Readings around midnight, settled, and every day near the edges asked for.
fn days(contest: &mut Contest, random: &mut Random) -> Done {
    let n = 1 + random.under(4);
    contest.open(n, 1 + random.under(2))?;
    for _ in 0..1 + random.below(32) {
        let who = random.under(n);
        contest.step([1, who, random.stamp(), random.value()])?;
    }
    contest.settle(u16::MAX)?;
    for who in 0..=n {
        for day in DAYS {
            contest.tally(who, day)?;
        }
        for _ in 0..8 {
            contest.tally(who, random.day(contest.group()))?;
        }
    }
    Ok(())
}
