# Each of these calls what is there: ./cilkcheck, tools/, rt ci and .ci/.
PREFIX = /usr/local

program:
	tools/launch --build

prove:
	./cilkcheck --prove

# every proof that no earlier run on this machine has made, and then all scripts of .ci/
check:
	rt ci
	.ci/scripts

install:
	tools/install "$(DESTDIR)$(PREFIX)"

uninstall:
	tools/install --remove "$(DESTDIR)$(PREFIX)"

.PHONY: program prove check install uninstall
