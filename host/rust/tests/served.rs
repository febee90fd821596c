//! A served process that cannot be started, or fails, is told and never taken for an answer.

use loargwen_host::calls::Calls;
use loargwen_host::layout;
use loargwen_host::served::{Served, FAILED};

#[test]
fn no_process_no_calls() {
    assert!(Served::start("").is_err());
    assert!(Served::start("./no-such-program 1 2").is_err());
}

#[test]
fn a_process_that_ends_early_is_told() {
    let served = Served::start("false").expect("a process");
    let mut bank = vec![0; layout::BYTES];
    assert_eq!(served.open(&mut bank, 3, 1), FAILED);
    assert_eq!(served.step(&mut bank, [1, 0, 0, 0]), FAILED);
    assert_eq!(served.settle(&mut bank, 9).refusal, FAILED);
    assert_eq!(served.tally(&bank, 0, 0).refusal, FAILED);
    let mut words = vec![0; layout::WORDS];
    assert_eq!(served.run(&mut words, &[5, 0, 0, 0]).refusal, FAILED);
    assert_eq!(served.run_steps(&mut words, &[[5; 4]]).refusal, FAILED);
    assert_eq!(served.refusal(&words, [5, 0, 0, 0]), FAILED);
    assert_eq!(served.log_length(&words, 0).refusal, FAILED);
    assert!(served.log(&words, 0, &mut [0; 32]) > layout::MESSAGES);
    let text = served.failure().expect("a failure");
    assert!(text.contains("exit status: 1"), "{text}");
    assert!(served.finish().is_err());
}

/// What is told of a call to `cat`, which answers with the request itself: all that is lent comes back changed.
fn echoed(call: impl FnOnce(&Served) -> u16) -> String {
    let served = Served::start("cat").expect("a process");
    assert_eq!(call(&served), FAILED);
    served.failure().expect("a failure")
}

#[test]
fn what_is_only_read_must_come_back_as_it_was() {
    let (bank, mut words) = (vec![0; layout::BYTES], vec![0; layout::WORDS]);
    let told = echoed(|served| served.tally(&bank, 0, 0).refusal);
    assert!(told.starts_with("call 4 changed what it only reads"));
    assert!(told.ends_with("it wrote more than was asked for"));
    let told = echoed(|served| served.run(&mut words, &[5; 4]).refusal);
    assert!(told.starts_with("call 5 changed its list"));
}

#[test]
fn a_process_that_was_not_asked_ends_well() {
    let served = Served::start("cat").expect("a process");
    assert_eq!(served.failure(), None);
    assert_eq!(served.finish(), Ok(()));
    assert!(Served::start("false").expect("a process").finish().is_err());
}
