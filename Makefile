.PHONY: check ctest rusttest bench example listen

# the gate: every crate proved, the must-fail edits, the programs, the tests in C and Rust
check:
	.ci/run

# the host calls from C
ctest:
	bindings/c/run-test

# the host calls from Rust, and the proved checker and listener and the programs against the second ones
rusttest:
	bindings/rust/run-test

# time per sheet of the proved checker, of the second one written for speed and of the plain second one, and times of the gain of a factor
# and of the check of block times
bench:
	tools/build host
	cd bindings/rust && cargo bench --locked --offline --bench ratio

# the verdict on sheet A, under the list of languages in examples
example:
	tools/build sheetcheck
	cd examples && ../crates/sheetcheck/out/sheetcheck <a.sheet

# the listening bench, crates/listen/out/listen
listen:
	tools/build listen
