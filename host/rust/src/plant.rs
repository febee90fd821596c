//! Faults that can be planted in the rules, or in what is lent, so that a comparison can show it finds them.

/// A small fault.
#[derive(Clone, Copy, PartialEq, Eq, Debug)]
pub enum Plant {
    /// Half the acknowledgements pass for a majority.
    Half,
    /// The sender's broadcast counts as its own acknowledgement.
    OwnAck,
    /// A crash clears the copies that its controller has in flight.
    ClearFlight,
    /// A copy that comes after delivery is dropped, its acknowledgement too.
    DropLate,
    /// Delivery asks who is up, not whom the controller takes to be up.
    UpSet,
    /// The last quarter hour of a day counts for the next day.
    Midnight,
    /// The settler says that steps are left whenever its budget is spent.
    Budget,
    /// The settler looks for receipts before sends.
    Order,
    /// A set word that changes loses its bits of N and above.
    HighBits,
    /// Opening tests the mode before N.
    ModeFirst,
    /// A step of no known kind is refused as a bad record is.
    BadRecord,
    /// A list of step records counts the step that it was refused.
    CountRefused,
    /// That a list is ragged is tested before the bank.
    RaggedFirst,
    /// A list is cleared when it has been applied.
    ClearList,
    /// A list of step records goes on after a refused step.
    GoOn,
    /// Asked about a step of one that is down, the next number that applies is given.
    NextNumber,
    /// The log of a controller of N or more is refused as if the bank were unfit.
    StrangerUnfit,
    /// A log that a buffer is too short for is said to be as long as that.
    ShortLog,
    /// The words of a buffer after a log that is copied into it are cleared.
    ClearRest,
    /// A bank is made unfit, on both sides alike, once a group is opened on it.
    SpoilOpened,
    /// The byte after a bank is changed.
    PastBank,
    /// The word after a bank lent as words is changed.
    PastWords,
    /// The word after a list or a buffer is changed.
    PastBeside,
}

impl Plant {
    /// Every fault with the name it has on a command line.
    pub const ALL: [(&'static str, Plant); 23] = [
        ("half", Plant::Half),
        ("own-ack", Plant::OwnAck),
        ("clear-flight", Plant::ClearFlight),
        ("drop-late", Plant::DropLate),
        ("up-set", Plant::UpSet),
        ("midnight", Plant::Midnight),
        ("budget", Plant::Budget),
        ("order", Plant::Order),
        ("high-bits", Plant::HighBits),
        ("mode-first", Plant::ModeFirst),
        ("bad-record", Plant::BadRecord),
        ("count-refused", Plant::CountRefused),
        ("ragged-first", Plant::RaggedFirst),
        ("clear-list", Plant::ClearList),
        ("go-on", Plant::GoOn),
        ("next-number", Plant::NextNumber),
        ("stranger-unfit", Plant::StrangerUnfit),
        ("short-log", Plant::ShortLog),
        ("clear-rest", Plant::ClearRest),
        ("spoil-opened", Plant::SpoilOpened),
        ("past-bank", Plant::PastBank),
        ("past-words", Plant::PastWords),
        ("past-beside", Plant::PastBeside),
    ];

    /// The fault of that name.
    pub fn named(name: &str) -> Result<Plant, String> {
        let known = Plant::ALL.iter().find(|(known, _)| *known == name);
        known.map(|&(_, plant)| plant).ok_or_else(|| {
            let names: Vec<&str> = Plant::ALL.iter().map(|(known, _)| *known).collect();
            format!("no fault '{name}'; there are {}", names.join(", "))
        })
    }
}
