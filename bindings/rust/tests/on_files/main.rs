//! The set and the log in files: what they hold under random cuts, and what they refuse.
mod cuts;
mod files;
mod scratch;
mod syncs;
