//! Measures with all code moved on by 32 bytes.
bench::moved_by!(32);
