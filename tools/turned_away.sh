#!/bin/sh
# Two programs have to be turned away: a bound set on a query that was opened, and `next` after `close`.
# The third, which does the same in time, has to be accepted, so that the others fail for that alone.
# They are no `.rt` files, since the gate proves each of those.
set -u
cd "$(dirname "$0")/.." || exit 1
copy=$(mktemp -d) || exit 1
trap 'rm -rf "$copy"' EXIT
cp crates.txt "$copy"
mkdir "$copy/crates"
for crate in crates/*; do
    mkdir "$copy/$crate"
    for part in src specs proofs; do
        [ -d "$crate/$part" ] && cp -r "$crate/$part" "$copy/$crate"
    done
done
for program in turned-away/*.txt; do
    name=$(basename "$program" .txt)
    mkdir -p "$copy/crates/$name/src"
    cp "$program" "$copy/crates/$name/src/lib.rt"
    echo "$name: automaton graph search" >>"$copy/crates.txt"
done

failed=0
if (cd "$copy/crates/in_time" && rt check) >"$copy/in_time.log" 2>&1; then
    echo "accepted: in_time"
else
    echo "NOT ACCEPTED: in_time"
    tail -20 "$copy/in_time.log"
    failed=1
fi
for moved in bound_after_open:query next_after_close:search; do
    name=${moved%:*}
    if (cd "$copy/crates/$name" && rt check) >"$copy/$name.log" 2>&1 ||
        ! grep "error\[borrow-e0382\].*moved value: \`${moved#*:}\`" "$copy/$name.log" >"$copy/$name.error"; then
        echo "NOT TURNED AWAY: $name"
        failed=1
    else
        echo "turned away: $name: $(cut -d: -f4-5 "$copy/$name.error")"
    fi
done
exit $failed
