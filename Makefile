# make: proves and builds the program. make test: the gate. make install PREFIX=.. and make uninstall PREFIX=..: the
# program, the Python package, manual pages, completion, the modes for vim, documents and examples; what is installed
# needs nothing of this repository. make dist and make deb: a release and a Debian package, in out/. make gallery: the
# figures of examples/ as one page, docs/gallery.html.
PREFIX ?= /usr/local

.PHONY: all test gallery install uninstall dist deb

all:
	@./bukshena run </dev/null

test:
	bash .ci/run

gallery:
	python3 contrib/gallery/make.py

install: all
	sh install.sh $(PREFIX)

uninstall:
	sh install.sh --uninstall $(PREFIX)

dist deb: all
	launcher/release $@
