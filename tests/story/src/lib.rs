//! Nothing but tests: the reader of stories, run against the independent implementation.
