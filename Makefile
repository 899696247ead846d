# What c/Makefile has, from the top. `make quick` is for a first try: the program and the C library in two minutes,
# without a proof, in build/unproved. `make docs` makes docs/DEFINITIONS.md, which explains the words of the contracts.
# `make dist` packs in build/dist what was proved, and with UNPROVED=1 what `make quick` has built: docs/INSTALL.md.

targets = all quick proved check terminal install uninstall bench clean
.PHONY: $(targets) docs dist

docs:
	python3 tools/definitions.py --write

dist:
	@python3 tools/dist.py $(if $(filter 1,$(UNPROVED)),--unproved)

$(targets):
	@$(MAKE) --no-print-directory -C c $@
