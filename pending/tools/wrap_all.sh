#!/usr/bin/env bash
# Wraps and formats every proof file of a clean tree; other files stay. Run in the root of a clone whose work is committed.
set -e
for i in 1 2 3 4 5 6; do
  python3 pending/tools/wrap.py $(find crates -path '*/proofs/*' -name '*.antt') | tail -1
  rt fmt >/dev/null 2>&1 || true
  git status --porcelain | awk '{print $2}' | grep -v '/proofs/' | xargs -r git checkout -q --
  n=$(find crates -path '*/proofs/*' -name '*.antt' | xargs cat | python3 -c "import sys; print(sum(len(l.rstrip('\n'))>120 for l in sys.stdin))")
  echo "round $i: $n over 120"
  [ "$n" = 0 ] && break
done
