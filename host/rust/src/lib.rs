//! A second implementation of the group, on plain sets, and what compares and measures with it.
//!
//! - `set`, `step`, `rules`, `settler`, `day`: the rules, on plain sets and lists;
//! - `bank`: the same over any lent bytes, spoilt and unfit banks included;
//! - `file`: the bench's file and its printed text;
//! - `words`, `words_file`: a straightforward version on words, for ratios;
//! - `random`, `banks`, `files`: what is fed to both sides;
//! - `calls`: the calls under test; `plain`: those of the straightforward version;
//! - `face`: those of the archives, linked (feature `archive`);
//! - `served`: the same in a process of its own, for machines that the archives are not made for;
//! - `contest`, `cases`, `figures`: one call made on both sides, and whole cases of calls;
//! - `field`, `crossing`: what is lent to the calls under test, between guards, as bytes or words;
//! - `plant`: faults that can be planted in the rules or in what is lent, which a comparison has to find;
//! - `args`, `measure`: what the programs share.
//!
//! Programs: `compare` (the archive, random calls), `files` (the bench, random files), `benchmark`
//! (ratios), `plain` (the bench on the straightforward version). Without arguments the first two
//! say how they are called. `benchmark`, and `compare` without `--served`, need the feature
//! `archive` and, when built, LOARGWEN_LIB, the folder of the archives.

pub mod answer;
pub mod args;
pub mod bank;
pub mod banks;
pub mod calls;
pub mod cases;
pub mod contest;
pub mod crossing;
pub mod day;
#[cfg(feature = "archive")]
pub mod face;
pub mod field;
pub mod figures;
pub mod file;
pub mod files;
pub mod layout;
pub mod measure;
pub mod plain;
pub mod plant;
pub mod random;
pub mod refusal;
pub mod rules;
pub mod served;
pub mod set;
pub mod settler;
pub mod step;
pub mod words;
pub mod words_file;
