# A rule for make that checks a program against its model: `make -f follow.mk follow`, or include it in your Makefile.
# Run from the top of the repository, it follows page_writer. Set these to yours:
RINGCHECK ?= ./ringcheck
MODEL ?= examples/follow/page_writer.rc
SOURCES ?= examples/follow/page_writer.c
# What runs your tests with ./logged. Let some of them fail: a full disk is an error path that you have.
TESTS ?= ./logged pages 100 && { ./logged /dev/full 100 || true; }

logged: $(SOURCES) c/ringcheck.h
	$(CC) -O2 -DRINGCHECK_LOG -Ic $(SOURCES) -o $@ -luring -lpthread

poisoned: $(SOURCES) c/ringcheck.h
	$(CC) -O1 -g -fsanitize=address -DRINGCHECK_POISON -Ic $(SOURCES) -o $@ -luring -lpthread

.PHONY: follow
follow: logged
	rm -rf logs && mkdir logs
	{ export RINGCHECK_LOG_FILE=$(CURDIR)/logs/%p.log; $(TESTS); }
	$(RINGCHECK) follow $(MODEL) logs/*.log
