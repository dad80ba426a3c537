# `make test` is the gate: every crate proved, every program and test run, every must-fail edit refused.
# `make refused` shows which programs do not even compile.
.PHONY: test run refused

test:
	tools/gate

run:
	cd crates/roll && rt run

refused:
	tools/refused
