# README.md says what each of these needs.
help:
	@echo "make run    proves and builds Lizardwire, answers docs/sample.jobs and draws the answers"
	@echo "make test   runs every test, as .ci/run does"

run:
	@tools/run

test:
	@.ci/run

.PHONY: help run test
