# make                          proves and builds cpmrun, which is also cpmdeps and cpmtrace; prints nothing if it is built already
# make check                    proves everything, and runs all tests
# make check CRATE=replay       formats and proves a crate, tries its must-fail edits, and runs the tests that name it
# make install PREFIX=/usr/local DESTDIR=
#                               installs cpmrun, links to it by its other names, their man pages, completion for bash, pages and examples
# make uninstall                removes these files and links
# make dist                     packs them for machines without the Rattle kit
# make bench                    measures how fast it is by each name
# make needs CRATE=replay       prints the crates that a crate needs
# make pages                    writes the texts and options of --help into the man pages and the completion
# make clean                    removes what was proved and built
PREFIX = /usr/local
DESTDIR =
PROGRAM = out/cpmrun
DEPENDENCIES_PROGRAM = out/cpmdeps
TRACE_PROGRAM = out/cpmtrace
# what is installed, as it lies below PREFIX
STAGE = out/stage
DOC = share/doc/cpmrun
# An installed page says `cpmrun` for `./cpmrun`.
PAGE = s,(\.\./)+(cpmrun|cpmdeps|cpmtrace|vembrusk),\2,g; s,\./(cpmrun|cpmdeps|cpmtrace|vembrusk),\1,g; s,tests/programs/,programs/,g; s,\.\./docs/,../,g

.PHONY: all check stage install uninstall dist bench needs pages clean

all:
	@exec scripts/run cpmrun --build > /dev/null

check:
	@./check $(CRATE)

# Others can read and run what is installed, whatever the umask is.
stage: all
	@rm -rf $(STAGE) && mkdir -p $(STAGE)/$(DOC)
	@install -D $(PROGRAM) $(STAGE)/bin/cpmrun
	@ln -s cpmrun $(STAGE)/bin/cpmdeps && ln -s cpmrun $(STAGE)/bin/cpmtrace
	@install -D vembrusk $(STAGE)/bin/vembrusk
	@mkdir -p $(STAGE)/share/vembrusk && cp -R python/vembrusk $(STAGE)/share/vembrusk
	@for name in cpmrun cpmdeps cpmtrace vembrusk; do \
	    install -D -m 644 docs/$$name.1 $(STAGE)/share/man/man1/$$name.1 && \
	    install -D -m 644 scripts/completion $(STAGE)/share/bash-completion/completions/$$name || exit; done
	@cp -R examples tests/programs $(STAGE)/$(DOC) && rm -rf $(STAGE)/$(DOC)/examples/built
	@find $(STAGE) -name __pycache__ -prune -exec rm -rf {} +
	@cp docs/MANUAL.md docs/TOOLS.md docs/WALKS.md docs/MACHINES.md $(STAGE)/$(DOC)
	@find $(STAGE)/$(DOC) -name '*.md' -exec sed -E -i '$(PAGE)' {} +
	@chmod -R u=rwX,go=rX $(STAGE)

install: stage
	@umask 022 && mkdir -p '$(DESTDIR)$(PREFIX)' && cp -R --remove-destination $(STAGE)/. '$(DESTDIR)$(PREFIX)'
	@echo 'installed bin/cpmrun, bin/cpmdeps, bin/cpmtrace, bin/vembrusk, their man pages and completion for bash, and $(DOC) in $(DESTDIR)$(PREFIX)'

uninstall: stage
	@cd $(STAGE) && find . ! -type d | (cd '$(DESTDIR)$(PREFIX)' && xargs -d '\n' rm -f)
	@cd $(STAGE) && find $(DOC) share/vembrusk -depth -type d | (cd '$(DESTDIR)$(PREFIX)' && xargs -d '\n' rmdir --ignore-fail-on-non-empty)

dist: stage
	@name=$$($(PROGRAM) --version | tr ' ' -)-linux-x86_64 && tar -C $(STAGE) --transform "s,^\.,$$name," -czf $$name.tar.gz . && echo $$name.tar.gz

bench: all
	@status=0; for script in benchmark instructions calls edits 'listings $(DEPENDENCIES_PROGRAM)' 'traces $(TRACE_PROGRAM)'; do \
	    tests/measure/$$script $(PROGRAM) || status=1; done; exit "$$status"

# the crates that a crate needs, itself included: the lines of crates.txt that name them
needs:
	@tac crates.txt | awk -F '[: ]+' '$$1 == "$(CRATE)" || $$1 in used { print $$1; for (i = 2; i <= NF; i++) used[$$i] }' | tac

pages: all
	@scripts/pages $(PROGRAM)
	@scripts/tool_pages

clean:
	@rm -rf out crates/*/out
