# pokit: proved, built, shown, tested and installed.
PREFIX ?= /usr/local
export DESTDIR PREFIX LIBDIR TARGET

# With TARGET=aarch64-linux-gnu: the libraries alone, for that processor, in build/aarch64-linux-gnu. They are proved as
# those of this one are; the C is compiled by a cross compiler, TARGET-gcc.
ifdef TARGET
built = build/$(TARGET)
compiler = CC="$(TARGET)-gcc" AR="$(TARGET)-ar"
needed = $(built)/libpokit.a
else
built = build
needed = build/pokit build/libpokit.a
endif

all: proved
	@$(MAKE) --no-print-directory libraries

# Proves what has changed, and builds build/pokit and build/libpokit.a: the program, and the look-up for C.
proved:
	@scripts/needs-rt
	@scripts/build $(if $(TARGET),--target $(TARGET))

# The look-up as a shared library too, with an export for each function of pokit.h, and the drop-in for libintl, shared
# and as an archive, where there is a C compiler.
libraries: $(built)/libpokit.so.0 $(built)/libpokit_intl.so.0
	@:

$(built)/libpokit.so.0: $(built)/libpokit.a include/pokit.c $(wildcard include/*.h)
	@$(compiler) scripts/shared $< $(built)

$(built)/libpokit_intl.so.0: $(built)/libpokit.a $(wildcard intl/* include/*.h)
	@$(compiler) scripts/intl $< $(built)

ifdef TARGET
# The tests of these libraries, where qemu-user is there to run them.
test: all
	@tests/cross/run $(TARGET) $(built)/libpokit.a build/pokit $(ROOT)
else
# Compiles the examples, and asks messages of them.
demo: all
	@examples/demo build/pokit build/libpokit.a

# The gate, and then the runs of the program that it built.
test:
	@tests/run
endif

# The mutants of all crates, which the gate tries too.
mutants:
	@tests/mutants/run

# The functions of pokit.h by their contracts in pokit.acsl.h, with Frama-C, where it is there, as the gate does.
c-proof:
	@tests/acsl/run

# Changed texts and files for the tools, for a minute; tests/fuzz/run --help has more.
fuzz: proved
	tests/fuzz/run build/pokit

# Measures the program against GNU's tools, where they are on the machine.
bench: proved
	bench/run --svg build/bench.svg

# Measures look-ups from C against glibc's and a plain C search, and those of the drop-in for libintl and of Python.
bench-lookup: proved
	bench/lookup

# The program, GNU's names for its tools in a folder of their own, manuals, completions, documents, and the libraries
# for C in LIBDIR, or PREFIX/lib; with TARGET the libraries alone. What was proved is installed as it is.
install: $(if $(filter-out $(wildcard $(needed)),$(needed)),all,libraries)
	scripts/install install

uninstall:
	scripts/install uninstall

# The same packed for those who haven't Rattle's kit, in build/dist.
dist: $(if $(filter-out $(wildcard $(needed)),$(needed)),all,libraries)
	@scripts/dist $(TARGET)

# Everything that was made: the proofs too, which `make` then makes again from nothing.
clean:
	@scripts/clean

.PHONY: all proved libraries demo test mutants c-proof fuzz bench bench-lookup install uninstall dist clean
