//! Resolves the names of real crates.
//!
//! [`package`] finds which crates there are, [`workspace`] reads their files and keeps a session of the resolver's
//! program ([`program`]) the same as what the files say, [`site`] finds paths in texts, [`question`] asks for them,
//! [`report`] tells answers at places in files, [`next`] what may stand next in a path, and [`lsp`] tells all that to
//! editors.

pub mod cfg;
pub mod kept;
pub mod lsp;
pub mod macros;
pub mod next;
pub mod package;
pub mod program;
pub mod question;
pub mod report;
pub mod site;
pub mod syntax;
pub mod token;
pub mod unit;
pub mod workspace;
