//! Where each number of the state stands in a bank of words.

/// Words in a bank.
pub const WORDS: usize = 2_244;
/// Bytes in a bank.
pub const BYTES: usize = 2 * WORDS;
/// Controllers at most.
pub const CONTROLLERS: usize = 16;
/// Messages at most.
pub const MESSAGES: usize = 32;
/// The word of N.
pub const N: usize = 0;
/// The word of the mode.
pub const MODE: usize = 1;
/// The word of the messages so far.
pub const COUNT: usize = 2;
/// The word of who is up.
pub const UP: usize = 3;
/// Words in a message's record.
pub const RECORD: usize = 53;
/// Within a record: sender.
pub const SENDER: usize = 0;
/// Within a record: stamp.
pub const STAMP: usize = 1;
/// Within a record: value.
pub const VALUE: usize = 2;
/// Within a record: who has it pending.
pub const HELD: usize = 3;
/// Within a record: who has delivered it.
pub const DELIVERED: usize = 4;
/// Within a record: sixteen words of acknowledgements.
pub const ACKED: usize = 5;
/// Within a record: sixteen words of sends still to make.
pub const UNSENT: usize = 21;
/// Within a record: sixteen words of copies on their way.
pub const FLIGHT: usize = 37;

/// The word of whom a controller takes to be up.
pub const fn trust(who: usize) -> usize {
    4 + who
}

/// The word of a controller's log length.
pub const fn length(who: usize) -> usize {
    20 + who
}

/// The first word of a controller's log.
pub const fn log(who: usize) -> usize {
    36 + MESSAGES * who
}

/// The first word of a message's record.
pub const fn record(message: usize) -> usize {
    548 + RECORD * message
}

const _: () = assert!(log(CONTROLLERS) == record(0));
const _: () = assert!(record(MESSAGES) == WORDS);
const _: () = assert!(FLIGHT + CONTROLLERS == RECORD);
