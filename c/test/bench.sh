# bench.sh OUT: kangaroo-bench and rivals as their users run them. BENCH names another folder than OUT that has both.
test/need python3 || exit 77
exec python3 -B test/bench/runs.py "${BENCH:-$1}"
