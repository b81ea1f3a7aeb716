# The C side: the library, the tools, the command, the examples, the tests and the measurements. The proofs are checked by .ci/run.
#   make archive   the archives, proved and built: target/staticlib/liborderset_c.a, liborderset2_c.a and
#                  liborderset_log_c.a, joined of those that rt lib makes of each static library of crates.txt   (rt ar)
#   make lib       one library of the archives and the handle: target/lib/liborderset.a and liborderset.so.1   (gcc)
#   make test      the tests of docs/TESTS.md                     (gcc g++ python3 pkg-config cargo groff); SEED=... repeats
#                  a run; SAN=address,undefined or SAN=thread: with these sanitizers
#   make planted   that each test fails where a fault is planted                     (gcc g++ python3 pkg-config cargo)
#   make fuzz      any bytes as files of the set and of the log, for the handles, the tools and the command, a minute
#                  each                                                                               (clang)
#   make fix       the FIX gateway of examples/fix, tested with a client of its own               (g++ libquickfix-dev)
#   make gateway   the example: a new file, orders, a restart, and the orders again                   (gcc)
#   make recorder  the example of the log: a new file, messages, a restart, and the last messages     (gcc)
#   make install   headers, library, orderset.pc, manual pages, tools, the command and, where python3 is, its module,
#                  below $(DESTDIR)$(PREFIX)                                                          (gcc)
#   make uninstall the same away
#   make format    the C and C++ sources as clang-format writes them (.clang-format)                  (clang-format 14)
#   make refusals  what comes from src/refusals.def: the enum, the manual page's table, and so on          (python3)
#   make heads     the table of docs/HEADS.md: the slots compared and the time of a get, by the number of heads  (gcc)
#   make bench     the table and the chart of docs/PERFORMANCE.md
#                  (gcc python3 valgrind libpmemobj-dev liblmdb-dev libsqlite3-dev)

RT ?= rt
OUT := target/c
LIB := target/lib
# of each static library of crates.txt one
PARTS := $(shell sed -n 's|^\([a-z0-9_]*_c\) staticlib:.*|target/parts/lib\1.a|p' crates.txt)
PARTS2 := $(filter target/parts/liborderset2_%,$(PARTS))
LOG_PARTS := $(filter target/parts/liborderset_log_%,$(PARTS))
ARCHIVE := target/staticlib/liborderset_c.a
ARCHIVE2 := target/staticlib/liborderset2_c.a
LOG_ARCHIVE := target/staticlib/liborderset_log_c.a
ARCHIVES := $(ARCHIVE2) $(ARCHIVE) $(LOG_ARCHIVE)
PLUG := crates/plug/out/plug
REPORT := crates/report/out/report
CRATES := crates.txt $(shell find crates -name out -prune -o \( -name '*.rt' -o -name '*.antt' \) -print)
VERSION := $(shell sed -n 's/^\#define ORDERSET_VERSION_STRING "\(.*\)"/\1/p' include/orderset.h)
PREFIX ?= /usr/local
LIBDIR ?= $(PREFIX)/lib

# CC, CXX, CFLAGS, CXXFLAGS and LDFLAGS are the caller's, from the environment or the command line
ifeq ($(origin CC),default)
CC := gcc
endif
ifeq ($(origin CXX),default)
CXX := g++
endif
CFLAGS ?= -O2
CXXFLAGS ?= -O2
WARNINGS := -Wall -Wextra -Wpedantic -Werror
# make test SAN=address,undefined and SAN=thread: the same tests with the sanitizers of the compiler, in folders of their own
SAN ?=
ifneq ($(SAN),)
comma := ,
OUT := target/c-$(subst $(comma),-,$(SAN))
LIB := target/lib-$(subst $(comma),-,$(SAN))
override CFLAGS += -g -fsanitize=$(SAN) -fno-sanitize-recover=all
override CXXFLAGS += -g -fsanitize=$(SAN) -fno-sanitize-recover=all
export ASAN_OPTIONS := verify_asan_link_order=0:detect_leaks=0
# is loaded before preload.so, and before the interpreter of Python
export SAN_LIBRARY := $(shell $(CC) -print-file-name=lib$(if $(findstring thread,$(SAN)),t,a)san.so)
endif
C := $(CC) -std=c11 $(WARNINGS) -Iinclude -Isrc -Itests $(CFLAGS)
CPLUS := $(CXX) $(WARNINGS) -Iinclude -Itests $(CXXFLAGS)
LINK := $(CC) $(CFLAGS) $(LDFLAGS)
LINK_CPLUS := $(CXX) $(CXXFLAGS) $(LDFLAGS)

.PHONY: archive lib tools command test planted fix gateway recorder install uninstall refusals heads bench
.NOTPARALLEL:
lib: $(LIB)/liborderset.a $(LIB)/liborderset.so.1

# ---- the proved archives

archive: $(ARCHIVES)
$(PARTS): target/parts/lib%.a: $(CRATES)
	cd crates/$* && $(RT) lib
	@mkdir -p $(@D)
	cp crates/$*/out/lib$*.a $@
$(ARCHIVE): $(filter-out $(PARTS2) $(LOG_PARTS),$(PARTS))
$(ARCHIVE2): $(PARTS2)
$(LOG_ARCHIVE): $(LOG_PARTS)
$(ARCHIVES):
	@mkdir -p $(@D)
	rm -f $@
	printf '%s\n' 'create $@' $(^:%='addlib %') save end | ar -M
# a program as rt run makes it, on what stands beside its src/, or as rt ci left it
$(PLUG) $(REPORT): crates/%: $(CRATES)
	cd crates/$(*D:/out=) && $(RT) run <stdin >/dev/null
	@touch $@

refusals:
	src/refusals.py

# ---- objects, each with the files that it includes; those below o2 are built for layout 2

$(OUT)/o/%.o: %.c
	@mkdir -p $(@D)
	$(C) -fPIC -MMD -MP -c $< -o $@
$(OUT)/o2/%.o: %.c
	@mkdir -p $(@D)
	$(C) -DLAYOUT=2 -MMD -MP -c $< -o $@
-include $(wildcard $(OUT)/o/*/*.d $(OUT)/o2/*/*.d $(OUT)/*.d)

HANDLE_SOURCES := area live make set log text
HANDLE := $(HANDLE_SOURCES:%=$(OUT)/o/src/%.o)

# ---- the library. The handle is one object, whose names are those of its header: the others are made local

$(OUT)/orderset.o: $(HANDLE)
	ld -r $^ -o $@
	objcopy --localize-hidden $@

$(LIB)/liborderset.a: $(OUT)/orderset.o $(ARCHIVES)
	@mkdir -p $(LIB)
	rm -f $@
	printf '%s\n' 'create $@' $(ARCHIVES:%='addlib %') 'addmod $<' save end | ar -M

# no program's own function takes the place of one of the library's, and all names have a version; run-install looks
$(LIB)/liborderset.so.1: $(LIB)/liborderset.a src/orderset.map
	$(LINK) -shared -Wl,-soname,$(@F) -Wl,--version-script=src/orderset.map -Wl,-z,defs,-z,now,-z,relro,-z,noexecstack \
		-Wl,-Bsymbolic -Wl,--whole-archive $< -Wl,--no-whole-archive -pthread -o $@

# ---- the tools, the command and the examples

TOOLS := orderset-show orderset-check
tools: $(TOOLS:%=$(OUT)/%)
$(OUT)/orderset-show: $(OUT)/o/tools/picture.o
$(TOOLS:%=$(OUT)/%): $(OUT)/%: $(OUT)/o/tools/%.o $(OUT)/o/tools/tool.o $(LIB)/liborderset.a
	$(LINK) $(filter %.o,$^) $(LIB)/liborderset.a -pthread -o $@

# the command stands on the objects of the handles, whose internal header it uses
COMMAND := $(OUT)/orderset
COMMAND_SOURCES := $(wildcard command/*.c)
command: $(COMMAND)
$(COMMAND): $(COMMAND_SOURCES:%.c=$(OUT)/o/%.o) $(HANDLE) $(ARCHIVES)
	$(LINK) $^ -pthread -o $@

EXAMPLES := first gateway recorder raw sender
$(EXAMPLES:%=$(OUT)/%): $(OUT)/%: $(OUT)/o/examples/%.o $(LIB)/liborderset.a
	$(LINK) $^ -pthread -o $@

# a new file of four cells and two starts on it: the last three messages are there
recorder: $(OUT)/recorder
	rm -f $(OUT)/messages.log
	$(OUT)/recorder $(OUT)/messages.log make 4
	printf '%s\n' 'new 7 100' 'acknowledge 7' 'fill 7 40' | $(OUT)/recorder $(OUT)/messages.log
	printf '%s\n' 'fill 7 60' 'new 8 5' | $(OUT)/recorder $(OUT)/messages.log
	$(OUT)/recorder $(OUT)/messages.log list

# a new file and two starts on it: what the first one was told, the second one recovers
gateway: $(OUT)/gateway
	rm -f $(OUT)/orders.img $(OUT)/wide.img
	$(OUT)/gateway $(OUT)/orders.img make 1000
	$(OUT)/gateway $(OUT)/orders.img new 7 100 acknowledge 7 acknowledge 7 fill 7 40 new 8 5 fill 8 5 new 9 3 \
		withdraw 9 new 10 2 basket 3 new 11 4 new 12 4 withdraw 10 list
	$(OUT)/gateway $(OUT)/orders.img list
	$(OUT)/gateway $(OUT)/wide.img make 1000 2
	$(OUT)/gateway $(OUT)/wide.img new 0x20261116000000000000000000000007 100 new 0x20261117000000000000000000000007 5 list

# ---- the tests of what the archives give: docs/TESTS.md; run-storm and the like run one of them, and those that end in 2
# are built for layout 2

MODEL := images model chance
LOG_MODEL := log_areas log_model model chance
persist := persist chance
guard := guard pieces $(MODEL)
differential := differential $(MODEL) \
	$(addprefix differential_,set lines recovery calls baskets plain history images directed)
reads := reads chance
plug := plug model child chance
storm := storm cache model chance
report := report child $(MODEL)
heads := heads child chance
watch := watch model child chance
log_storm := log_storm cache chance
log_guard := log_guard pieces $(LOG_MODEL)
log_differential := log_differential $(LOG_MODEL)
log_kills := log_kills child chance
TESTS := persist guard differential reads plug storm report heads watch log_storm log_guard log_differential log_kills
TESTS2 := guard differential reads storm report

$(foreach t,$(TESTS),$(eval $(OUT)/$t: $($t:%=$(OUT)/o/tests/%.o)))
$(foreach t,$(TESTS2),$(eval $(OUT)/$t2: $($t:%=$(OUT)/o2/tests/%.o)))
$(OUT)/kills2: $(patsubst %,$(OUT)/o2/tests/%.o,kills child chance)
$(TESTS:%=$(OUT)/%) $(TESTS2:%=$(OUT)/%2) $(OUT)/kills2: $(ARCHIVES)
	$(LINK) $(filter %.o,$^) $(ARCHIVES) -o $@

$(OUT)/header $(OUT)/log_header: $(OUT)/%: tests/%.cc $(ARCHIVES)
	@mkdir -p $(@D)
	$(CPLUS) -std=c++11 -MMD -MP -MT $@ -MF $@.d -c $< -o $@.o
	$(LINK_CPLUS) $@.o $(ARCHIVES) -o $@

# ---- the tests of the handle, with calls of the system that the test can make fail; file_storm has its sources in its own

HANDLE_TESTS := lock kills file file_storm cancel live snapshot
kills := kills kills_handles file_model disk child chance
lock := lock child chance
file := file file_model child chance
file_storm := file_storm file_model cache chance
cancel := cancel file_model child chance
live := live file_model chance
snapshot := snapshot file_model child chance
file_WRAPPED := posix_fallocate msync mmap pwrite stat ioctl fstatfs
live_WRAPPED := msync clock_gettime
snapshot_WRAPPED := posix_fallocate fsync msync pread
kills_WRAPPED := mmap msync fsync renameat2 pwrite
# every cancellation point, and what may be one
cancel_WRAPPED := close posix_fallocate fallocate mkostemp pread pwrite pthread_join stat lstat fstat link unlink realpath \
	renameat2 open fcntl nanosleep mmap msync fsync ioctl fstatfs
$(foreach t,$(HANDLE_TESTS),$(eval $(OUT)/$t: $($t:%=$(OUT)/o/tests/%.o)))
$(OUT)/lock $(OUT)/kills $(OUT)/file $(OUT)/cancel $(OUT)/live $(OUT)/snapshot: $(HANDLE)
$(HANDLE_TESTS:%=$(OUT)/%): $(OUT)/%: $(ARCHIVES)
	$(LINK) $(filter %.o,$^) $($*_WRAPPED:%=-Wl,--wrap=%) $(ARCHIVES) -pthread -o $@

# the gateway on a simulated disk
$(OUT)/gateway_on_disk: $(OUT)/o/examples/gateway.o $(OUT)/o/tests/disk.o $(HANDLE) $(ARCHIVES)
	$(LINK) $^ $(kills_WRAPPED:%=-Wl,--wrap=%) -pthread -o $@

# ---- the FIX gateway and its test, where QuickFIX is installed: its headers compile as C++14 at the most

FIX := $(CXX) -std=c++14 $(WARNINGS) -Wno-deprecated -Iinclude $(CXXFLAGS)
$(OUT)/fix_gateway.o: examples/fix/gateway.cc
$(OUT)/fix_client.o: tests/fix_client.cc
$(OUT)/fix_gateway.o $(OUT)/fix_client.o:
	@mkdir -p $(@D)
	$(FIX) -MMD -MP -c $< -o $@
$(OUT)/fix_gateway: $(OUT)/fix_gateway.o $(LIB)/liborderset.a
	$(LINK_CPLUS) $^ -lquickfix -pthread -o $@
$(OUT)/fix_gateway_on_disk: $(OUT)/fix_gateway.o $(OUT)/o/tests/disk.o $(HANDLE) $(ARCHIVES)
	$(LINK_CPLUS) $^ $(kills_WRAPPED:%=-Wl,--wrap=%) -lquickfix -pthread -o $@
$(OUT)/fix_client: $(OUT)/fix_client.o
	$(LINK_CPLUS) $^ -lquickfix -pthread -o $@

# ---- the tests of the header for C++, in three ways, and of one program in two standards

CXX_TESTS := cxx17 cxx20 cxx17_plain
$(OUT)/cxx17: STANDARD := -std=c++17
$(OUT)/cxx20: STANDARD := -std=c++20
$(OUT)/cxx17_plain: STANDARD := -std=c++17 -fno-exceptions -fno-rtti
$(CXX_TESTS:%=$(OUT)/%): tests/file.cc $(OUT)/o/tests/chance.o $(LIB)/liborderset.a
	@mkdir -p $(@D)
	$(CPLUS) $(STANDARD) -MMD -MP -MT $@ -MF $@.d -c tests/file.cc -o $@.o
	$(LINK_CPLUS) $@.o $(OUT)/o/tests/chance.o $(LIB)/liborderset.a -pthread -o $@
$(OUT)/standards: tests/standards.cc include/orderset.hpp include/orderset.h $(LIB)/liborderset.a
	@mkdir -p $(@D)
	$(CPLUS) -std=c++17 -c tests/standards.cc -o $@17.o
	$(CPLUS) -std=c++20 -c tests/standards.cc -o $@20.o
	$(LINK_CPLUS) $@17.o $@20.o $(LIB)/liborderset.a -pthread -o $@

$(OUT)/preload.so: tests/preload.c
	@mkdir -p $(@D)
	$(C) -fPIC -shared $< -ldl -o $@

# ---- the runs, in this order

RUNS := names header persist lock watch heads report report2 plug storm storm2 kills kills2 guard guard2 differential \
	differential2 reads reads2 log_header log_storm log_kills log_guard log_differential file file_storm cancel live snapshot \
	stored tools command install programs cxx17 cxx20 cxx17_plain standards rust python fix
# With a sanitizer these are left out: what compiles no C of this tree anew; what looks at single instructions; of address a
# thread that is cancelled, whose stack it does not know to be gone; of thread the interpreter of Python, which it ends, and
# tools, which loads preload.so before the sanitizer's library; and fix, since QuickFIX is built without them
ifneq ($(SAN),)
RUNS := $(filter-out names install rust fix persist reads reads2 $(if $(findstring address,$(SAN)),cancel) \
	$(if $(findstring thread,$(SAN)),python tools),$(RUNS))
endif
.PHONY: $(RUNS:%=run-%) run-cxx
test: $(RUNS:%=run-%)
run-names:
	@tests/names
run-header run-log_header run-standards: run-%: $(OUT)/%
	@$(OUT)/$*
SEEDED := persist guard guard2 storm storm2 differential differential2 reads reads2 log_storm log_guard log_differential
$(SEEDED:%=run-%): run-%: $(OUT)/%
	@$(OUT)/$* $(SEED)
run-heads: run-%: $(OUT)/% $(OUT)/orderset-show $(COMMAND)
	@$(OUT)/$* $(OUT)/orderset-show $(COMMAND) $(OUT)/$*.img $(SEED)
run-watch: $(OUT)/watch $(OUT)/sender
	@$(OUT)/watch $(OUT)/sender $(OUT)/watch.img $(SEED)
run-report run-report2: run-%: $(OUT)/% $(OUT)/orderset-show $(COMMAND) $(REPORT)
	@$(OUT)/$* $(REPORT) $(OUT)/orderset-show $(COMMAND) $(OUT)/$*.img $(SEED)
run-plug: $(OUT)/plug $(PLUG)
	@$(OUT)/plug $(PLUG) $(OUT)/plug.trace $(SEED)
run-kills run-kills2: run-%: $(OUT)/% $(OUT)/gateway $(OUT)/gateway_on_disk
	@$(OUT)/$* $(OUT)/gateway $(OUT)/gateway_on_disk $(OUT)/$*.img $(SEED)
run-log_kills: $(OUT)/log_kills $(OUT)/recorder
	@$(OUT)/log_kills $(OUT)/recorder $(OUT)/log_kills.log $(SEED)
$(filter-out run-kills,$(HANDLE_TESTS:%=run-%)): run-%: $(OUT)/%
	@$(OUT)/$* $(OUT)/$*.img $(SEED)
$(OUT)/stored: $(OUT)/o/tests/stored.o $(LIB)/liborderset.a
	$(LINK) $^ -pthread -o $@
run-stored: $(OUT)/stored
	@mkdir -p $(OUT)/stored_work
	@$(OUT)/stored tests/stored/1.0.0 $(OUT)/stored_work
run-tools: $(TOOLS:%=$(OUT)/%) $(OUT)/preload.so
	@tests/tools.py $(OUT)
run-command: $(COMMAND) $(OUT)/gateway $(OUT)/recorder $(OUT)/preload.so $(PLUG)
	@tests/command.py $(OUT) $(PLUG)
run-programs: $(EXAMPLES:%=$(OUT)/%) $(TOOLS:%=$(OUT)/%) $(COMMAND) $(OUT)/preload.so
	@tests/programs.py $(OUT)
run-install: lib tools command
	@tests/install.py
run-cxx: $(CXX_TESTS:%=run-%) run-standards
$(CXX_TESTS:%=run-%): run-%: $(OUT)/%
	@$(OUT)/$* $* $(OUT)/$*.img $(SEED)
run-rust: export CARGO_TARGET_DIR ?= $(CURDIR)/target/rust
run-rust: export ORDERSET_LIB := $(CURDIR)/$(LIB)
run-rust: export SEED := $(SEED)
run-rust: $(LIB)/liborderset.a
	@cd bindings/rust && cargo test --offline --quiet --lib --tests -- --nocapture && cargo test --offline --quiet --doc

run-python: export ORDERSET_LIBRARY := $(CURDIR)/$(LIB)/liborderset.so.1
run-python: $(LIB)/liborderset.so.1 $(OUT)/preload.so
	@$(if $(SAN),LD_PRELOAD=$(SAN_LIBRARY)) tests/python.py $(OUT) $(SEED)
ifeq ($(shell pkg-config --exists quickfix && echo yes),yes)
run-fix: $(OUT)/fix_gateway $(OUT)/fix_gateway_on_disk $(OUT)/fix_client
	@tests/fix.py $(OUT)/fix_gateway_on_disk $(OUT)/fix_client $(OUT)/fix $(SEED)
else
run-fix:
	@echo "fix: left out: QuickFIX (Debian: libquickfix-dev) is not installed"
endif
fix: run-fix

# every test fails where a fault is planted
planted: $(ARCHIVES) $(REPORT) $(PLUG)
	tests/planted.py

# ---- any bytes as files: libFuzzer, a minute for each target (FUZZ_TIME=... seconds); it begins with good files

FUZZ := target/fuzz
FUZZ_TIME ?= 60
FUZZ_C = clang -std=c11 -g -O1 -fsanitize=fuzzer,address,undefined -fno-sanitize-recover=all -Iinclude -Isrc -Itests/fuzz
FUZZED := tests/fuzz/fuzz.c $(HANDLE_SOURCES:%=src/%.c)
.PHONY: fuzz
fuzz: $(FUZZ)/fuzz_open $(FUZZ)/fuzz_log $(FUZZ)/fuzz_tools $(FUZZ)/fuzz_command $(OUT)/gateway $(OUT)/recorder
	rm -rf $(FUZZ)/sets $(FUZZ)/logs && mkdir -p $(FUZZ)/sets $(FUZZ)/logs
	for layout in 1 2; do $(OUT)/gateway $(FUZZ)/sets/$$layout make 6 $$layout && $(OUT)/gateway $(FUZZ)/sets/$$layout new 1 5 new 2 5 \
		acknowledge 1 withdraw 2 basket 2 new 3 1 new 4 1 >/dev/null || exit 1; done
	$(OUT)/recorder $(FUZZ)/logs/log make 3 && seq 9 | $(OUT)/recorder $(FUZZ)/logs/log >/dev/null
	cd $(FUZZ) && ./fuzz_open -max_total_time=$(FUZZ_TIME) -max_len=1024 -rss_limit_mb=4096 sets
	cd $(FUZZ) && ./fuzz_log -max_total_time=$(FUZZ_TIME) -max_len=1792 -rss_limit_mb=4096 logs
	for end in tools command; do (cd $(FUZZ) && ASAN_OPTIONS=detect_leaks=0 ./fuzz_$$end -detect_leaks=0 \
		-max_total_time=$(FUZZ_TIME) -max_len=1024 -rss_limit_mb=4096 sets) || exit 1; done
$(FUZZ)/fuzz_open $(FUZZ)/fuzz_log: $(FUZZ)/%: tests/fuzz/%.c $(FUZZED) tests/fuzz/fuzz.h src/internal.h $(wildcard include/*.h) $(ARCHIVES)
	@mkdir -p $(@D)
	$(FUZZ_C) $(filter %.c,$^) $(ARCHIVES) -pthread -o $@
$(FUZZ)/fuzz_tools: tests/fuzz/fuzz_tools.c $(FUZZED) $(wildcard tools/*.c tools/*.h include/*.h) $(ARCHIVES)
	@mkdir -p $(@D)
	for tool in check show; do $(FUZZ_C) -Dmain=$${tool}_main -Dexit=fuzz_exit -c tools/orderset-$$tool.c -o $(FUZZ)/$$tool.o || exit 1; done
	$(FUZZ_C) -Dexit=fuzz_exit -c tools/tool.c -o $(FUZZ)/tool.o
	$(FUZZ_C) -Dexit=fuzz_exit -c tools/picture.c -o $(FUZZ)/picture.o
	$(FUZZ_C) -Itools tests/fuzz/fuzz_tools.c $(FUZZED) $(FUZZ)/check.o $(FUZZ)/show.o $(FUZZ)/tool.o $(FUZZ)/picture.o $(ARCHIVES) -pthread -o $@
$(FUZZ)/fuzz_command: tests/fuzz/fuzz_command.c $(FUZZED) $(wildcard command/*.c command/*.h include/*.h) src/internal.h $(ARCHIVES)
	@mkdir -p $(@D)/command
	for part in $(basename $(notdir $(COMMAND_SOURCES))); do \
		$(FUZZ_C) -Dmain=tool_main -Dexit=fuzz_exit -c command/$$part.c -o $(FUZZ)/command/$$part.o || exit 1; done
	$(FUZZ_C) -Icommand tests/fuzz/fuzz_command.c $(FUZZED) $(COMMAND_SOURCES:%.c=$(FUZZ)/%.o) $(ARCHIVES) -pthread -o $@

# ---- where it goes

HEADERS := orderset.h orderset.hpp orderset_persist.h orderset_raw.h
DOCUMENTS := docs/OPERATIONS.md docs/HEADS.md docs/picture.svg
# where python3 looks below PREFIX, or else the usual folder there; nothing where there is no python3
PYTHONDIR ?= $(shell python3 bindings/python/folder.py "$(PREFIX)" 2>/dev/null)
TO = $(DESTDIR)$(PREFIX)
TO_LIB = $(DESTDIR)$(LIBDIR)
TO_PYTHON = $(DESTDIR)$(PYTHONDIR)/orderset
PYTHON_FILES := __init__.py py.typed
install: lib tools command
	install -d "$(TO)/bin" "$(TO)/include" "$(TO_LIB)/pkgconfig" "$(TO)/share/man/man1" "$(TO)/share/man/man3" \
		"$(TO)/share/doc/orderset"
	install -m 644 $(HEADERS:%=include/%) "$(TO)/include"
	install -m 644 $(LIB)/liborderset.a "$(TO_LIB)"
	install -m 755 $(LIB)/liborderset.so.1 "$(TO_LIB)/liborderset.so.$(VERSION)"
	ln -sf liborderset.so.$(VERSION) "$(TO_LIB)/liborderset.so.1"
	ln -sf liborderset.so.1 "$(TO_LIB)/liborderset.so"
	sed 's|@PREFIX@|$(PREFIX)|; s|@LIBDIR@|$(LIBDIR)|; s|@VERSION@|$(VERSION)|' src/orderset.pc.in \
		>"$(TO_LIB)/pkgconfig/orderset.pc"
	install -m 755 $(TOOLS:%=$(OUT)/%) $(COMMAND) "$(TO)/bin"
	install -m 644 man/*.1 "$(TO)/share/man/man1"
	install -m 644 man/*.3 "$(TO)/share/man/man3"
	install -m 644 $(DOCUMENTS) "$(TO)/share/doc/orderset"
	[ -z "$(PYTHONDIR)" ] || { install -d "$(TO_PYTHON)" && \
		install -m 644 $(PYTHON_FILES:%=bindings/python/orderset/%) "$(TO_PYTHON)"; }

uninstall:
	rm -f $(TOOLS:%="$(TO)/bin/%") "$(TO)/bin/$(notdir $(COMMAND))" $(HEADERS:%="$(TO)/include/%") \
		$(patsubst man/%,"$(TO)/share/man/man1/%",$(wildcard man/*.1)) \
		$(patsubst man/%,"$(TO)/share/man/man3/%",$(wildcard man/*.3)) $(DOCUMENTS:docs/%="$(TO)/share/doc/orderset/%")
	rm -f "$(TO_LIB)/liborderset.a" "$(TO_LIB)/liborderset.so" "$(TO_LIB)/liborderset.so.1" \
		"$(TO_LIB)/liborderset.so.$(VERSION)" "$(TO_LIB)/pkgconfig/orderset.pc"
	rm -f $(PYTHON_FILES:%="$(TO_PYTHON)/%") "$(TO_PYTHON)"/__pycache__/__init__.*.pyc
	[ ! -d "$(TO)/share/doc/orderset" ] || rmdir --ignore-fail-on-non-empty "$(TO)/share/doc/orderset"
	for folder in "$(TO_PYTHON)/__pycache__" "$(TO_PYTHON)"; do \
		[ ! -d "$$folder" ] || rmdir --ignore-fail-on-non-empty "$$folder"; done

# ---- measurements

heads: $(ARCHIVES)
	$(MAKE) -f bench/Makefile heads
bench: $(ARCHIVES)
	$(MAKE) -f bench/Makefile run

# ---- the form of the C and C++ sources; tests/names tests it

.PHONY: format
format:
	@command -v clang-format >/dev/null || { echo "make format: clang-format 14 is not there" >&2; exit 1; }
	clang-format -i $(wildcard $(foreach d,bench command examples examples/fix include src tests tests/fuzz tools, \
		$(d)/*.c $(d)/*.h $(d)/*.cc $(d)/*.hpp $(d)/*.inc))
