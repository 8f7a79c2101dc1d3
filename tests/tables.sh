#!/bin/sh
# Runs the tests of the folder tables: offices in the tables of a database.
#
# tables.sh [-- WORD]      with WORD, only the tests that have it in their names

folder=tables
crates='bit_rows short_text rbac_sets chunked_sets reach_bits role_order order_matrix admin_mgr review_mgr role_tables'
libraries='sqlite sqlite_disk'
readers='office/answers office/asking office/beginnings office/script office/showing office/drawn/drawing'
. "$(dirname "$0")/crate_tests"

if ! mkdir "$work/data" || ! python3 "$tests/tables/by_sqlite.py" "$work/data" || ! lay_out all; then
    give_up
fi
rm "$(sources all)/by_sqlite.py"
wanted=some
[ $# -gt 0 ] || wanted=$(number_of_tests "$tests/tables")
for file in "$work"/data/*.db; do
    set -- --data "${file##*/}=$file" "$@"
done
run all "$@"
finish "$wanted" all
