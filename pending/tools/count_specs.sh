#!/bin/bash
# counts lines of definitions outside specs/Inner; $1 = exclude pattern
f() { find crates -path '*/specs/*' -name '*.antt' | grep -v declared | grep -v '/Inner'; }
c() { xargs cat | grep -v '^ *--' | grep -v '^ *$' | grep -v '^use ' | grep -v '^pub mod' | wc -l; }
echo "all $(f | c); without worked_/test_/bench_rows $(f | grep -v -e worked_ -e test_ -e bench_rows | c); and without generated dictionary data $(f | grep -v -e worked_ -e test_ -e bench_rows -e dictionary/specs/AnnexA -e dictionary/specs/Named -e basics/specs/Types | c)"
f | xargs awk 'length($0)>120' | wc -l
