//! Measures with all code moved on by 0 bytes.
bench::moved_by!(0);
