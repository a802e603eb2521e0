//! Measures with all code moved on by 16 bytes.
bench::moved_by!(16);
