//! Written for the oracle: the crate's own file is not given, and nothing that is compared names an
//! item of it, so this one is empty.
