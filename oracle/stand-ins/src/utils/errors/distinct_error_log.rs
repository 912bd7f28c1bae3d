//! Stand-in: an empty module.
