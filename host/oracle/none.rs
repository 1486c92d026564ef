//! Linked in as tests/select.rs and tests/params.rs: nothing there needs a private field. What
//! select.rs opens to its neighbours, choice.rs sees.
