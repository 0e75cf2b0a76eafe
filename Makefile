# rt is the command of the Rattle kit.
.PHONY: run test gate recorder time

# Where the kit is: the guide that rt names stands in it.
KIT = $(or $(patsubst %/START-HERE.md,%,$(shell rt doc)),/opt/rattle)
# What a program in C links to call the recorder's function.
RECORDER = target/staticlib/librecorder.a $(KIT)/c/liblibc_c.a
COMPILE = mkdir -p target/bin && gcc -O2 -Wall -Wextra

# Proves and builds bagplan, and runs it on the sample bag.
run:
	cd crates/bagplan && rt run < stdin

# Proves every crate, then runs every program and every test; takes over what has not changed since the last run.
# Then holds bagplan and the recorder's function to what no contract says, and the stored answers to an independent
# reader, scheduler and ladders in Python.
test:
	rt all test
	tools/smoke.sh
	$(MAKE) recorder
	tools/smoke_recorder.sh
	python3 tools/cases.py answer < crates/vectors/stdin | cmp - crates/vectors/stdout
	python3 tools/cases.py answer < crates/plan_vectors/stdin | cmp - crates/plan_vectors/stdout
	python3 tools/cases.py answer < crates/speed_vectors/stdin | cmp - crates/speed_vectors/stdout

# Every proof, program and test of the crates, with the must-fail edits: the verdict.
gate:
	.ci/run

# Builds what a C program links to judge plans, and the C program judge.
recorder:
	cd crates/recorder_c && rt lib
	mkdir -p target/staticlib
	cp crates/recorder_c/out/librecorder_c.a target/staticlib/librecorder.a
	$(COMPILE) -o target/bin/judge recorder/judge.c $(RECORDER)

# Measures how long the recorder's function takes on a plan at the limits, and on one of a quarter its size.
time: recorder
	$(COMPILE) -o target/bin/reading_time recorder/reading_time.c $(RECORDER)
	target/bin/reading_time
