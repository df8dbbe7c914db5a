# The five verbs that people try. Each is a command of this folder, which docs/CONTRIBUTING.md and README.md describe.

# Builds the program with checks and no proof, a minute or two, and says which program ./pdp8 runs.
build:
	./pdp8 --version
	./prove --status || true

# Proves the crates of the program and builds it: half an hour, once. It goes on from where it was broken off.
prove:
	./prove

# Runs all that needs no proof. What a contributor runs at each change.
test:
	./check quick

# The whole gate.
check:
	./check

# Lays the proved program below ~/.local, or below PREFIX.
install:
	./install $(PREFIX)

.PHONY: build prove test check install
