//! Stands in for each child module of util that is not supplied; nothing compiled here uses them.
