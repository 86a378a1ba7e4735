#!/bin/sh
# sqlite.sh IN OUT SCHEMA: an import into a typed table in memory, and its rows as CSV.
columns=$(printf %s "$3" | sed 's/:int/ INTEGER/g; s/:text/ TEXT/g; s/:datetime/ TEXT/g; s/:date/ TEXT/g; s/:dec2/ NUMERIC/g; s/\([a-z_0-9]*\) \(INTEGER\|TEXT\|NUMERIC\)/"\1" \2/g')
{
  echo "pragma journal_mode=off;"
  echo "create table t($columns);"
  echo ".import --csv --skip 1 $1 t"
  printf '%s\n' ".headers on" ".mode csv" '.separator "," "\n"' ".once $2" "select * from t;"
} | exec sqlite3 -batch :memory: > /dev/null
