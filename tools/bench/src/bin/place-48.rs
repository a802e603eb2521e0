//! Measures with all code moved on by 48 bytes.
bench::moved_by!(48);
