#!/bin/bash -eu
# Builds the fuzz targets as OSS-Fuzz has them built, by $CC, $CFLAGS, $CXX, $CXXFLAGS and $LIB_FUZZING_ENGINE, into $OUT,
# with the octets that each begins with.
cd "$(dirname "$(readlink -f "$0")")/../.."
. tools/front.sh
front 'c/fuzz/build.sh' 0 0 "$@"
# shellcheck disable=SC2086
for it in core telemetry nodes; do
    $CC $CFLAGS -std=c11 -Ic/include -Ic/tests -c "c/fuzz/$it.c" -o "$OUT/$it.o"
done
# shellcheck disable=SC2086
for it in sedgechisel sedgechisel_nodes; do
    $CC $CFLAGS -std=c11 -Ic/include -c "c/portable/$it.c" -o "$OUT/$it.o"
done
# shellcheck disable=SC2086
for it in core telemetry nodes; do
    also=
    if [ "$it" = nodes ]; then also=$OUT/sedgechisel_nodes.o; fi
    $CXX $CXXFLAGS "$OUT/$it.o" "$OUT/sedgechisel.o" $also $LIB_FUZZING_ENGINE -o "$OUT/$it"
    cp "c/fuzz/${it}_seed_corpus.zip" "$OUT/"
done
rm "$OUT"/*.o
