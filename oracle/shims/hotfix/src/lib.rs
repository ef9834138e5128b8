//! Shim: the place of `parser.rs` among its modules.
pub mod message {
    pub mod parser;
}
