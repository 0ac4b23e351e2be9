# What is done often. `make gate` needs a kit (CONTRIBUTING.md), the others don't.
# PROGRAM is the program under test: the released one, unless another is given.

PROGRAM ?= dist/cspwatch
PYTHON := $(CURDIR)/.ci/python

.PHONY: quick lint test rows gate needs

quick: ## cases and documents, in half a minute
	$(PYTHON) tests/rows.py
	$(PYTHON) tests/run_cases.py --program $(PROGRAM)
	$(PYTHON) tests/documents.py --program $(PROGRAM)

lint: ## flake8, mypy and shellcheck
	.ci/lint

test: ## all that needs no kit, in some five minutes
	.ci/quick $(PROGRAM)

rows: ## writes stdin and stdout of crates/scenarios from the files of rows
	$(PYTHON) tests/rows.py --write

gate: rows ## proves everything and tests the built program
	.ci/run

needs: ## installs what the tests use, from Debian
	.ci/needs
