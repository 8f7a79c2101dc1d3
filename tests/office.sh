#!/bin/sh
# Runs the tests of the folder office: commands and questions on states, and requests as texts.

folder=office
crates='bit_rows short_text rbac_sets chunked_sets reach_bits role_order order_matrix admin_mgr review_mgr explanations role_functions role_csv role_json'
. "$(dirname "$0")/crate_tests"

# The limits take as long as all others, so the two parts run side by side.
if ! lay_out limits || ! lay_out others; then
    give_up
fi
rm "$(sources others)/commands/limits.rt"
sed -i '/^mod limits;$/d' "$(sources others)/commands.rt"
run limits -- commands::limits:: &
run others &
wait
finish "$(number_of_tests "$tests/office")" limits others
