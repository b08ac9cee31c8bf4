# Sourced by the other scripts: `program` is the proved program, built first where that is still to be done. Where SQLLINT
# names a program that was built before, that one is taken.
top=$(cd "$(dirname "${BASH_SOURCE[0]}")/.." && pwd)
program=${SQLLINT:-}
if [ -z "$program" ]; then
    "$top/sqllint" "$top/examples/first/schema.sql" /dev/null > /dev/null || [ $? -lt 9 ]
    program=$(echo "$top"/out/sqllint/*/sqllint)
fi
