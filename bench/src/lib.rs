//! The proved decoder, builder and speaker and plain ones, in one process on the same datagrams.

pub mod agreement;
pub mod builds;
pub mod corpus;
pub mod plain;
pub mod plain_builder;
pub mod plain_calls;
pub mod plain_speaker;
pub mod proved;
pub mod speaker_cases;
mod texts;
pub mod timing;
