# make test: everything that is tested and proved. make run: proves and builds readpage, then decodes a worn page.
.PHONY: test run tools listed

test: tools listed
	@tests/run-vectors tests/vectors tests/libfec tests/known
	@tests/run-batch
	@tests/run-chip
	@tests/run-held
	@tests/run-checker
	@tests/run-station
	@tests/run-readpage
	@tests/run-census
	@tests/run-documents
	@tests/run-gate

run: tools
	@tests/make-program readpage
	@target/bin/readpage < samples/worn.dump

# what the two commands need on the machine
tools:
	@for tool in rt gcc g++; do command -v $$tool > /dev/null || { echo "missing tool: $$tool"; exit 1; }; done

# every crate folder stands in crates.txt; folders of unfinished crates hold text alone
listed:
	@for folder in crates/*/; do ls $$folder/src/*.rt > /dev/null 2>&1 || continue; grep -Eq "^$$(basename $$folder)( staticlib)?:" crates.txt || { echo "$$folder is not listed in crates.txt"; exit 1; }; done
