# Pairsalder: `make` builds the proved program, `make run` runs it on the example, `make try` does so before any proof,
# `make test` runs every test, and `make install` installs the program with a man page and completions below PREFIX.
RT ?= rt
SOURCES := crates.txt $(shell find crates -path '*/out' -prune -o -type f \( -name '*.rt' -o -name '*.antt' \) -print)

EXAMPLE := examples/first_day/session.txt
PREFIX ?= /usr/local
DESTDIR ?=
SHARE = $(DESTDIR)$(PREFIX)/share

# Runs a program on the example.
define show
@echo "--- $(EXAMPLE): a setup, an empty line, and lines"
@cat $(EXAMPLE)
@echo "--- the replies"
@$(1) < $(EXAMPLE)
endef

.PHONY: all run try test install uninstall clean

all: bin/pairsalder

# Proves and builds the program. Some versions of `rt` keep what they proved.
bin/pairsalder: $(SOURCES)
	@mkdir -p bin
	@RT="$(RT)" packaging/prove.py $@

run: bin/pairsalder
	$(call show,$<)

# The program as `rt try` builds it, before any proof.
bin/pairsalder_unproved: crates.txt $(filter %.rt,$(SOURCES))
	@mkdir -p bin
	@echo "building without a proof: some minutes the first time; the log is in $@.log"
	@RT="$(RT)" packaging/unproved.py $@

try:
	@echo "This proves nothing: 'make' proves the program."
	@$(MAKE) --no-print-directory bin/pairsalder_unproved
	$(call show,bin/pairsalder_unproved)

test:
	@RT="$(RT)" tests/gate

# The man page and the completions are written from the help of the program that is installed.
install: bin/pairsalder
	@install -D bin/pairsalder "$(DESTDIR)$(PREFIX)/bin/pairsalder"
	@packaging/generate.py bin/pairsalder "$(SHARE)"
	@install -D -m 644 -t "$(SHARE)/doc/pairsalder" LICENSE-MIT LICENSE-APACHE
	@echo "installed below $(DESTDIR)$(PREFIX)"

uninstall:
	rm -f "$(DESTDIR)$(PREFIX)/bin/pairsalder" "$(SHARE)/man/man1/pairsalder.1" \
	  "$(SHARE)/bash-completion/completions/pairsalder" "$(SHARE)/zsh/site-functions/_pairsalder" \
	  "$(SHARE)/fish/vendor_completions.d/pairsalder.fish"
	rm -rf "$(SHARE)/doc/pairsalder"

clean:
	rm -rf bin crates/*/out
