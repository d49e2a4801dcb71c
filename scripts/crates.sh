#!/bin/sh
# What scripts ask of crates.txt: they read this file at the top of the repository, by `. scripts/crates.sh`.

# The names of all crates.
all_crates() { sed -n 's/^\([a-z][a-z0-9_]*\).*:.*/\1/p' crates.txt; }

# Those that are proved: tests show by running, and `make bench` proves what it times.
is_proved() { case $1 in *_tests | *_bench) return 1 ;; esac; }

# below CRATE: the crates of this repository that it depends on, each after those that it depends on itself, and some twice.
below() (
    # shellcheck disable=SC2013
    for dep in $(sed -n "s/^$1\( [^:]*\)*: *//p" crates.txt); do
        if [ -d "crates/$dep" ]; then
            below "$dep"
            echo "$dep"
        fi
    done
)
