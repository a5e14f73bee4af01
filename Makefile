.PHONY: test demo bench clean

ARCHIVE := target/staticlib/libcapi.a

# The proofs, the C programs and the Rust tests.
test:
	@tests/run

# The tour of the command on a sample.
demo: $(ARCHIVE)
	@tests/demo

# The proved library beside plain Rust.
bench: $(ARCHIVE)
	@tests/bench

# The proved library.
$(ARCHIVE): $(shell find crates crates.txt -name out -prune -o -type f -print 2>/dev/null)
	@tests/library

clean:
	rm -rf target
