//! Tests of the oracle; run by `oracle/test`.

mod document;
mod records;
mod support;
