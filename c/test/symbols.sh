# symbols.sh OUT: that no symbol but kangaroo_* is seen in either library, and each function of the header is.
out=$1
folder=$(mktemp -d)
trap 'rm -rf "$folder"' EXIT
failed=0

grep -o 'kangaroo_[a-z_]*(' kangaroo.h | tr -d '(' | sort -u >"$folder/header"
nm --defined-only --extern-only --format=posix "$out/libkangaroo.a" | awk 'NF > 2 { print $1 }' | sort -u >"$folder/a"
nm --dynamic --defined-only --format=posix "$out/libkangaroo.so.1" | awk '$2 != "A" { sub(/@.*/, "", $1); print $1 }' | sort -u >"$folder/so"
for kind in a so; do
    if cmp -s "$folder/header" "$folder/$kind"; then
        echo "  .$kind: the $(wc -l <"$folder/header") functions of the header, and no other symbol"
    else
        echo "  FAILED: .$kind has other symbols than the header:"
        diff "$folder/header" "$folder/$kind"
        failed=1
    fi
done
if readelf -d "$out/libkangaroo.so.1" | grep -q 'SONAME.*libkangaroo.so.1' &&
    readelf -d "$out/libkangaroo.so.1" | grep -q NODELETE; then
    echo "  the soname is libkangaroo.so.1, and the library stays once it is loaded"
else
    echo "  FAILED: soname or nodelete"
    failed=1
fi
if readelf -lW "$out/libkangaroo.so.1" | grep -q 'GNU_STACK.*RWE'; then
    echo "  FAILED: the stack is executable"
    failed=1
fi
exit $failed
