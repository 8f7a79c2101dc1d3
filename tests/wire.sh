#!/bin/sh
# Runs the tests of the folder wire: lines and requests over HTTP, answered by offices; what command lines choose and write; and
# the examples at the beginning of the pages of the crates (the comment of src/lib.rt).
#
# wire.sh [-- WORD]      with WORD, only the tests that have it in their names

folder=wire
crates='bit_rows bit_tables short_text rbac_sets chunked_sets reach_bits role_order order_matrix admin_mgr review_mgr access_index role_tables role_functions role_csv role_json role_lines role_http role_wire
    role_cli'
libraries='sqlite sqlite_disk http'
readers='office/answers office/asking office/beginnings office/narrow office/script office/showing tables/files
    tables/offices'
. "$(dirname "$0")/crate_tests"

# lay_example CRATE: the example of the crate's page, if it has one, as a test.
lay_example() {
    example=$(sources all)/example_of_$1.rt
    sed -n '/^\/\/! ```$/,/^\/\/! ```$/p' "$tests/../crates/$1/src/lib.rt" |
        sed '/^\/\/! ```$/d; s|^//! \{0,1\}||; s/^fn /#[test]\n&/' >"$example"
    if [ -s "$example" ]; then
        printf '#[cfg(test)]\nmod example_of_%s;\n' "$1" >>"$(sources all)/lib.rt"
    else
        rm "$example"
    fi
}

lay_out all || give_up
for crate in $crates; do
    lay_example "$crate" || give_up
done
wanted=some
[ $# -gt 0 ] || wanted=$(number_of_tests "$(sources all)")
run all "$@"
finish "$wanted" all
