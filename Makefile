.PHONY: build cases check demo fuzz help install mutants quick test tools
program := crates/tilefarm/out/tilefarm
# The same program for processors with AVX2: where this machine's has that, and "make build" made it after the other one.
wide = $(shell grep -qw avx2 /proc/cpuinfo && [ $(program).x86-64-v3 -nt $(program) ] && echo $(program).x86-64-v3)

# Lists the goals: each with the comment above it.
help:
	@awk '/^# / { told = told substr($$0, 2) "\n"; next } /^[a-z]+:/ { split($$0, goal, ":"); printf "make %s\n%s", goal[1], told } { told = "" }' Makefile

# Evaluates the edge detector on its picture, without any proof, and shows the program, the picture and the result.
demo:
	@cat examples/sobel/sobel.pipe
	@cd crates/tilefarm && mkdir -p out && rt try -- eval < ../../tests/examples/sobel/input > out/demo.pgm
	@examples/show tests/examples/sobel/house.pgm crates/tilefarm/out/demo.pgm
	@echo '(run without proofs, by rt try; "make test" checks the proofs and leaves the proved program in'
	@echo ' crates/tilefarm/out/tilefarm)'

# The gate: every proof, every test, every stored run, the conformance cases, the examples, and mutants for 30 minutes of
# processor time.
test:
	@tests/gate

# The mutants of the crates that are named, over kept work: make mutants domains netpbm. Without a name all of them, from nothing,
# however long that takes: before a release. Libraries that changed are proved first.
mutants:
	@tests/run_mutants $(if $(NAME),--kept $(NAME))

# What changed, over kept work; and each mutant that no longer applies.
check:
	@tests/rt all check; status=$$?; tests/run_mutants --read && exit $$status

# The words after `mutants` name crates, and are no goals of their own.
ifneq (,$(filter mutants,$(firstword $(MAKECMDGOALS))))
NAME := $(wordlist 2,$(words $(MAKECMDGOALS)),$(MAKECMDGOALS))
$(eval $(if $(NAME),$(NAME):;@:))
endif

# The proved program, over kept work, as fast as the machine allows, without any mutant or test; and one for processors with
# AVX2, where this machine's has that. The modules of tf are compiled too, which Python may be told not to do at each start.
build:
	@tests/build
	@python3 -m compileall -q python/tilefarm/_tf

# The program without its proofs, in some three minutes: out/quick/tilefarm. The modules of tf are compiled too.
quick:
	@tests/quick
	@python3 -m compileall -q python/tilefarm/_tf

# The program that was built, tf, man pages and completions, below a folder: make install PREFIX=/usr/local. It then works without this
# repository.
install:
	@tools/install $(or $(PREFIX),/usr/local)

# The conformance cases, on the built programs.
cases: | $(program)
	@tests/run_cases $(program) $(wide)

# Random jobs on the built program, from a seed on: make fuzz CASES=5000 SEED=7.
fuzz: | $(program)
	@tests/fuzz $(program) $(if $(CASES),--cases $(CASES)) $(if $(SEED),--seed $(SEED))

# What is around the program, on the built one: tf, the pages, the errors' texts, the guide and the gallery.
tools: | $(program)
	@tests/test_pages && tools/make_usage --check && tests/test_tf && tests/test_hostile && tests/test_play && tests/test_errors && tests/test_guide && docs/gallery/make --check

$(program):
	@tests/build
