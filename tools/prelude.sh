#!/bin/sh
# Compiles the prelude of C texts with a unit behind it, by each compiler that is there, and runs what comes out.
# usage: tools/prelude.sh PRELUDE [UNIT]
set -eu
prelude=${1:?usage: tools/prelude.sh PRELUDE [UNIT]}
work=$(mktemp -d)
trap 'rm -rf "$work"' EXIT
if [ $# -gt 1 ]; then
    cat "$prelude" "$2" > "$work/text.c"
else
    # the unit whose one thread leaves a mutex that it doesn't own, which a machine reports and a compiler takes
    cat "$prelude" - > "$work/text.c" <<'UNIT'
const char *const chan_name[1] = { "" };
const char *const proc_name[1] = { "P" };
static void *t0(void *v_u) { m_unlock(); return 0; }
static void *(*const hc_threads[1])(void *) = { t0 };
int main(void) { return hc_main(1, hc_threads); }
UNIT
fi
for compiler in gcc clang; do
    if ! command -v "$compiler" > /dev/null; then
        echo "$compiler: skipped, it isn't there"
        continue
    fi
    "$compiler" -std=c11 -Wall -Wextra -Wno-unused-function -Wno-unused-parameter -Werror -pthread -o "$work/program" "$work/text.c"
    "$work/program"
    echo "$compiler: compiles and runs"
done
