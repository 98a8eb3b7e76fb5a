#!/bin/sh
# How long the script takes that `citus_run generate 1 ROWS` makes and runs, in citus_run, sqlite3 and psql: customers and orders are loaded by COPY, the
# dearest orders are listed with their customers and regions, before and after a rebalance, which citus_run alone has, and the orders are counted.
# Usage: bench/generated.sh [orders, 100000 if left out]
set -eu
top=$(cd "$(dirname "$0")/.." && pwd)
. "$top/bench/common.sh"
orders=${1:-100000}

on_table 'customers (id bigint, region bigint, name text, PRIMARY KEY (id))' "SELECT create_distributed_table('customers', 'id')"
on_table 'orders (customer bigint, id bigint, amount integer, PRIMARY KEY (customer, id))' "SELECT create_distributed_table('orders', 'customer', colocate_with => 'customers')"
on_table 'regions (id bigint, name text, PRIMARY KEY (id))' "SELECT create_reference_table('regions')"

# The rows of the generator (docs/FORMATS.md): a linear congruence from 1.
awk -v rows="$orders" -v customers="$work/customers.data" -v orders="$work/orders.data" '
    function draw(m) { x = (x * 1664525 + 1013904223) % 4294967296; return int(x / 65536) % m }
    BEGIN {
        x = 1
        count = int(rows / 10) + 1
        for (i = 1; i <= count; i++) printf "%d\t%d\tc%d\n", i, draw(4), i >customers
        for (i = 1; i <= rows; i++) { customer = 1 + draw(count); printf "%d\t%d\t%d\n", customer, i, draw(1000) >orders }
    }'

dearest='SELECT r.name, c.name AS customer, o.id, o.amount FROM orders o JOIN customers c ON o.customer = c.id JOIN regions r ON c.region = r.id
ORDER BY o.amount DESC, o.id LIMIT 5;'
regions="INSERT INTO regions VALUES (0,'north'),(1,'east'),(2,'south'),(3,'west');"
counted='SELECT count(*) FROM orders;'

# The script. Words: what stands between the two lists.
script() {
    echo "$regions"
    for table in customers orders; do
        echo "COPY $table FROM STDIN;"
        cat "$work/$table.data"
        echo '\.'
    done
    printf '%s\n' "$dearest" "$1" "$dearest" "$counted"
}
script '' >"$work/generated"
script "SELECT rebalance_table_shards(rebalance_strategy => 'by_disk_size');" >"$work/generated.citus_run"
{
    echo "$regions"
    echo '.mode tabs'
    for table in customers orders; do
        echo ".import $work/$table.data $table"
    done
    echo '.mode list'
    printf '%s\n' "$dearest" "$dearest" "$counted"
} >"$work/generated.sqlite3"

prepare
compare "a generated script of $orders orders" "$work/nothing" "$work/generated"
