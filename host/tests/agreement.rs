//! The archive against document 01, with what 02 has changed: more than 200,000 calls, each
//! compared with the independent implementation in every field of the result and every byte of the
//! table. The benchmarks' peer is compared too, so that what they measure keeps the same promise.
//!
//! Each test is a family of inputs, and says how many calls it made and from which seed.
//! `BEAKER_SEED=n` draws others; a difference prints the seed, the call's number and all that the
//! call was lent.

mod independent;
#[path = "../benches/peer/mod.rs"]
mod peer;

mod agreement {
    //! How a call is compared and what calls are made of, then the families.

    pub mod comparison;
    pub mod drawing;
    pub mod inputs;
    pub mod mutations;
    pub mod random;

    mod messages;
    mod rights;
    mod sequences;
    mod tables;

    const OF_MESSAGES: usize = sequences::CALLS + messages::ON_SIZES + messages::DAMAGED;
    const OF_RIGHTS: usize = rights::ON_PREFIXES + rights::ON_RANGES + rights::ON_CODE;
    const OF_TABLES: usize = tables::ON_FLIPPED_BYTES + tables::ON_UNSOUND + tables::ON_LENGTHS;
    const _: () = assert!(OF_MESSAGES + OF_RIGHTS + OF_TABLES >= 200_000);
}
