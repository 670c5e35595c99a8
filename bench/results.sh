# shellcheck shell=bash disable=SC2154
# The text of bench/RESULTS.md. bench/run has the programs' rows in $work, and $fftw is empty where FFTW is absent.

machine() {
    sed -n '/^model name/{s/^[^:]*: */- processor: /p;q}' /proc/cpuinfo
    echo "- cores: $(nproc); every figure is of one of them"
    echo "- C compiler: $(gcc --version | sed -n 1p)"
    echo "- compiler of the library: $(rt --version)"
    echo "- FFTW: ${fftw:-absent, so its column is empty (Debian: libfftw3-dev)}"
}

# growth_table NUMBER FILE
growth_table() {
    echo "| $1 | way | time here | to the row above | spread | expected | time per step | to C -O3 | to C -O3, zeros skipped |"
    echo "|---:|---|---:|---:|---:|---:|---:|---:|---:|"
    cat "$work/$2"
}

summary() {
    cat << 'END'
# Measurements

`bench/run` has measured all of this in one run and has written this page. A ratio is the library's time over the other's, in the
same run: below 1 the library is faster. "Time here" is the library's best time on the machine named below. On a machine that is
shared with others, ratios of another run can differ by a third, and times by more.

## Summary

Medians of the ratios.

| | C -O3 | C -O3, zeros skipped | C -O3, additions only | C -O3 -march=native, zeros skipped | C with FFTW | time here |
|---|---:|---:|---:|---:|---:|---:|
END
    cat "$work/summary.md"
    cat << 'END'

The library makes products in two ways, which give the same words, and both are exact:

- **Schoolbook**, at small degrees: every word of one factor times every word of the other. Where one factor is a digit
  polynomial, digits that are 0 are skipped.
- **Transforms**, number-theoretic ones modulo two primes: external products and CMuxes from N = 128 on, and products with a key
  from N = 256 on. Digit polynomials that are 0 are skipped. An external product goes by schoolbook at these degrees too if fewer
  than 64 words of its sample are not 0.

Words of a key are never skipped: the degree alone decides how a product with a key is made.

What stands beside the library:

- **C -O3** is schoolbook in C at every degree, by gcc -O3. Like the library it is compiled for x86-64-v2, with vectors of four words
  (SSE4.2): the compiler of the library makes no other code. It multiplies by every word, also by 0.
- **C -O3, zeros skipped** passes over digits that are 0, and also over key words that are 0, which the library does not do.
- **C -O3, additions only** makes products with a key without multiplications, since a key's words are 0 or 1, and skips the 0s.
- **C -O3 -march=native, zeros skipped** is compiled for this very machine, with its widest vectors. It shows what code for
  x86-64-v2 costs.
- **C with FFTW** makes products by Fourier transforms in double precision, compiled for this very machine. Its rows are transformed
  beforehand, and that isn't timed; the library transforms the rows in every call. It rounds, so its words aren't exact for every
  gadget; the library's are.

"Digit row times polynomial" is the schoolbook kernel by itself, one product of polynomials out of an external product. At this
degree a CMux uses it only where its samples differ in few words.

Sizes, but for `ratejob`: N = 1,024, g = 8, L = 2, M = 4, s = 1,024. The lookup has 10 selectors, so 1,024 entries and 1,023
CMuxes. The vertical lookup is in the vertical packing, with s = 1 and 12 selectors: 4,096 entries in four samples, and 13 CMuxes.
The declared weight W is N, as any key allows; it goes into the bound alone.
In every call the library tests all arguments, for instance that key words are 0 or 1. The calls in C test nothing; `ratejob` in C
tests the whole file. The job files:

END
    cat "$work/jobs.md"
    cat << 'END'

The small job takes hardly more than a program's start. No job file is larger than the largest job, and none asks schoolbook for
more products than the costliest one. The long table is in the vertical packing.

The outputs were compared before anything was timed: the words of the library and of every schoolbook in C agree, the classes
that come of FFTW are right, and so is every output of `ratejob`.

END
}

beside() {
    cat << 'END'
## Measured on

END
    machine
    cat << 'END'

## Beside C

The variants of a thing run in turn, in rounds, and every round starts with another variant. A turn takes six milliseconds or
more. Times are those of the processor, for `ratejob` with its start. The median and the spread, least to greatest, are of the
rounds' ratios; "best" is the ratio of the best times.

| | beside | median | best | spread | time here | the other's time here |
|---|---|---:|---:|---:|---:|---:|
END
    cat "$work/beside.md"
}

packings() {
    cat << 'END'

## Packings

A table of 4,096 cells with one class in each, at N = 1,024, g = 8, L = 2 and M = 4, by the library alone. In the vertical packing
four samples hold it, and it takes one lookup with 12 selectors. The horizontal packing takes at most 10 selectors, so one lookup
has at most 1,024 cells. Four such lookups and three CMuxes make the tree over 4,096 cells.

The ways run in turn, in rounds, as above. "To vertical" is a way's time over that of the vertical packing in the same round: the
median, then the spread. Half of the gates of a tree join two cells, which differ in one word at most, and take little time. The other
gates, and nearly all of those in the vertical packing, take as long as one CMux of encrypted samples.

| | cells | gates | time here | time per gate | to vertical | spread |
|---|---:|---:|---:|---:|---:|---:|
END
    cat "$work/packings.md"
}

hidden() {
    cat << 'END'

## Hidden tables

The same lookup in a public table and in a hidden one with the same classes, at N = 1,024, g = 8, L = 2 and M = 4, by the library
alone, in turn as above. "Hidden to public" is the ratio of their times in the same round: the median, then the spread. The gates are
the same. Those that join two samples of a public table skip most of their work, since the difference of such samples has mask 0; in a
hidden table they do all of it. "Expected" is the ratio of the transforms, which the next section counts.

| | samples | gates | public, time here | hidden, time here | hidden to public | spread | expected |
|---|---:|---:|---:|---:|---:|---:|---:|
END
    cat "$work/hidden.md"
}

growth() {
    cat << 'END'

## Growth

A lookup has 2^d - 1 CMuxes. In the vertical packing, with N = 2^v and d from v on, it has 2^(d - v) - 1 + v. The steps of a CMux
depend on the way that the library takes:

- **schoolbook**, for N below 128: 4*L products of polynomials, with N^2 products of words each;
- **transforms**, from N = 128 on: modulo each of two primes one transform for each of the 2*L digit polynomials, two for each of
  the 2*L rows, and two back for every batch of up to sixteen rows, so 6*L + 2 up to L = 8. A transform has N/2*log2(N)
  butterflies.

The 2^(d - 1) CMuxes that join entries have fewer: the difference of two entries has mask 0 and, whatever L is, one digit that
isn't 0, and the rest is skipped. That leaves 2 products of polynomials, or 5 transforms. In the vertical packing it is the same with
the 2^(d - v - 1) CMuxes that join samples of the table, or with the first rotation where one sample holds the table.

Each row shows by how much the time has grown since the row above, in the median, and by how much the number of these steps has
("expected"); where the way changes, nothing is expected. "Time per step" is the best time over the steps, as a ratio to the last
row of the same way: 1.00 all over if nothing but the steps took time. C goes by schoolbook in every row. The words of the library
were compared with those of C at every size.

### Lookup, with the selectors d

N = 128, g = 8, L = 2, M = 16, s = 128. The steps are 5*2^(d - 1) + 14*(2^(d - 1) - 1) transforms modulo each prime.

END
    growth_table d lookup-d.md
    cat << 'END'

### Lookup in the vertical packing, with the selectors d

N = 128, so v = 7; g = 8, L = 2, M = 16. With d = 7 one sample holds the table, and each further selector doubles the samples. The
steps are 5 + 14*6 transforms modulo each prime with d = 7, and from there on 5*2^(d - 8) + 14*(2^(d - 8) - 1 + 7).

END
    growth_table d vertical-d.md
    cat << 'END'

### Lookup, with the degree N

d = 3, g = 8, L = 2, M = 16, s = N. The share of zeros is the same at every N. Up to 64 the expected growth is that of N^2, from
128 on that of N*log2(N). A CMux also has parts that grow like N or not at all, so the time grows by less than the steps.

END
    growth_table N lookup-N.md
    cat << 'END'

### Lookup, with the digits L

N = 512, g = 8, M = 16, s = 512, d = 5. L = 1 is left out: rounding to one digit makes too much noise, and the lookup is refused
with 9. The steps are 16*5 + 15*(6*L + 2) transforms modulo each prime.

END
    growth_table L lookup-L.md
    cat << 'END'

### CMux, with the degree N

g = 8, L = 2. The samples are random words, so hardly any digit is 0. Up to 64 the expected growth is that of N^2, from 128 on that
of N*log2(N). At the smallest degrees the tests of the arguments, copies and rooms that are cleared take most of the time.

END
    growth_table N cmux-N.md
    cat << 'END'

### CMux, with the digits L

N = 1,024, g = 8, random samples, so hardly any digit is 0. The steps are 6*L + 2 transforms modulo each prime.

END
    growth_table L cmux-L.md
    cat << 'END'

### CMux, with the gadget

N = 1,024, random samples, from the gadget with the fewest digits to that with the most. The steps are 6*L transforms and two for
every batch of up to sixteen of the 2*L rows, modulo each prime, whatever g is. With g = 1 half of the digits are 0, with g = 2 a
quarter, with g = 4 a sixteenth: C with zeros skipped gains by that, the library does not.

END
    growth_table "g, L" cmux-gadget.md
}

results() {
    summary
    beside
    packings
    hidden
    growth
}
