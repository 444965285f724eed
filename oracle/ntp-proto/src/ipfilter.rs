//! Stands for ipfilter.rs, which lib.rs only names.
