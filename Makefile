# make          prove and build the program, on all processors
# make demo     scan a small image, show the report and a histogram, and scan an image that is made
# make check    every proof, test, program and must-fail edit, and the built program
# make install  the built program to PREFIX/bin, and its manual page

PREFIX ?= /usr/local
JOBS ?= $(shell nproc 2> /dev/null || echo 2)
PROGRAM := crates/triage/out/triage
SCRATCH := $(CURDIR)/out

.PHONY: all demo check install

all:
	rt all check --jobs $(JOBS)
	mkdir -p $(SCRATCH)
	: > $(SCRATCH)/empty
	cd crates/triage && rt run -- scan $(SCRATCH)/empty $(SCRATCH)/built

demo: all
	printf '\000\001\002see http://example.com/a b\377\376HTTPS://Example.org/?u=ftp://files.example.net/x\n\000\000' > $(SCRATCH)/image
	printf 'E\000\000s\000\000@\000@\021\270a\300\250\000\001\300\250\000\307' >> $(SCRATCH)/image
	printf '\177ELF\002\001\001\000\000\000\000\000\000\000\000\000\002\000\076\000\037\213\010' >> $(SCRATCH)/image
	printf '\naHR0cDovL2V4YW1wbGUuY29tL2hlbGxvLXdvcmxkLTE=\n' >> $(SCRATCH)/image
	$(PROGRAM) scan $(SCRATCH)/image $(SCRATCH)/report
	cd $(SCRATCH)/report && tail -n +4 url.txt domain.txt ip.txt exec.txt unread.txt
	cd $(SCRATCH)/report && tail -n +3 domain_histogram.txt url_services_histogram.txt
	$(PROGRAM) generate 7 4194304

check:
	.ci/run

install: all
	install -D -m 755 $(PROGRAM) $(DESTDIR)$(PREFIX)/bin/triage
	install -D -m 644 docs/triage.1 $(DESTDIR)$(PREFIX)/share/man/man1/triage.1
