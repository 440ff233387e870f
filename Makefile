# make run    the example scenarios through the bench
# make test   the C panel's test, the bench's wrong lines and large images, the key's wrong uses, then the proofs, programs and
#             tests (rt ci)
# make speed  instructions and clocks per second of the bench and of plain C
.PHONY: run test panel-test files-test stdin-test key-test speed

run: target/bin/bench
	target/bin/bench examples/count.scenario examples/halt.scenario examples/clock.scenario

# the tests before rt ci two at a time, what each prints kept together
test:
	$(MAKE) --no-print-directory --jobs=2 --output-sync=target panel-test files-test stdin-test key-test
	rt ci

panel-test: target/staticlib/libfault_line.a
	panel/test.sh

files-test:
	tests/files.sh

stdin-test:
	tests/stdin.sh

key-test:
	tests/key.sh

speed: target/bin/bench
	speed/run.sh

# proved before it is linked; a check of what has not changed is short. rt run also runs it, here with nothing to do
target/bin/bench: .FORCE
	cd crates/bench && rt run </dev/null
	mkdir -p $(@D) && cp crates/bench/out/bench $@

# the archive that C links, under the library's own name
target/staticlib/libfault_line.a: .FORCE
	cd crates/fault_line_c && rt lib
	mkdir -p $(@D) && cp crates/fault_line_c/out/libfault_line_c.a $@

.FORCE:
