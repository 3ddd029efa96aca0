# installed.sh: installs into a new folder, and builds a short program from the header alone, as C11 and C++17, against the
# shared library and the static one.
set -e
folder=$(mktemp -d)
trap 'rm -rf "$folder"' EXIT
test/need pkg-config "${CXX:-c++}" || exit 77

${MAKE:-make} -s install PREFIX="$folder/prefix" LANE="$LANE" 2>/dev/null
cat >"$folder/ten.c" <<'END'
#include <kangaroo.h>
int main(int count, char **words) {
    kangaroo_options options;
    kangaroo_cache *cache;
    char value[KANGAROO_VALUE_MAX];
    kangaroo_options_init(&options, sizeof options);
    if (count < 2 || kangaroo_open(&options, words[1], &cache, NULL) != KANGAROO_OK) return 1;
    if (kangaroo_put(cache, "a", 1, "pear", 4, KANGAROO_NEVER) != KANGAROO_OK) return 2;
    return kangaroo_get(cache, "a", 1, 0, value, sizeof value, NULL) != KANGAROO_OK || kangaroo_close(cache) != KANGAROO_OK;
}
END
export PKG_CONFIG_PATH="$folder/prefix/lib/pkgconfig"
flags=$(pkg-config --cflags --libs kangaroo)
strict='-Wall -Wextra -Wpedantic -Wconversion -Werror'
mkdir "$folder/cache"
${CC:-cc} -std=c11 $strict "$folder/ten.c" -o "$folder/c11" $flags
${CXX:-c++} -std=c++17 $strict -x c++ "$folder/ten.c" -o "$folder/c17" $flags
${CC:-cc} -std=c11 $strict -I"$folder/prefix/include" "$folder/ten.c" -o "$folder/static" "$folder/prefix/lib/libkangaroo.a" -lpthread
for program in c11 c17 static; do
    LD_LIBRARY_PATH="$folder/prefix/lib" "$folder/$program" "$folder/cache"
done
echo "  ten lines from the header, as C11 and C++17 by pkg-config, and against the archive: they build and run"
if ${CC:-cc} -std=c11 -Wall -Werror -I. -x c - -c -o "$folder/ignored" 2>/dev/null <<'END'
#include <kangaroo.h>
void ignore(kangaroo_cache *cache) { kangaroo_put(cache, "a", 1, "b", 1, 0); }
END
then
    echo "  FAILED: a put whose status is ignored is compiled without a warning"
    exit 1
fi
echo "  the compiler warns if the status of a put is ignored"
touch "$folder/prefix/lib/libother.a"
${MAKE:-make} -s uninstall PREFIX="$folder/prefix"
if [ "$(find "$folder/prefix" ! -type d)" != "$folder/prefix/lib/libother.a" ]; then
    echo "  FAILED: uninstall left a file of the library, or took one that is not its own"
    exit 1
fi
echo "  uninstall removes all files that install put, and no other"
